//! A port of the tuned tiling of Wise's paper (000, section 3: "T_GST"): greedy string tiling with neither a
//! search length nor a table of windows. It is a baseline and shares no code with the core. The words
//! in quotes are 000's names.
//!
//! A round looks for the longest matches of at least the minimum: "scanpattern" goes through the free
//! words of the pattern, and for each of them through the free words of the text with the same code, and
//! keeps a list of the longest matches so far, whose length is "maxmatch". "markarrays" then lays each
//! of them that no earlier one of the list occludes. What 000 leaves open, or does in another way, is
//! settled so:
//!
//! - The text's words of one code are in the order of their positions. So a scan meets the matches in
//!   the order of p, then t; in a round no further match of that length arises; and the tiles are those
//!   of the literal tiling, in its order.
//! - They stand side by side in a list instead of being linked, and beside them the hashes that are
//!   looked at first, of the words that end where "maxmatch" words would. So a hash is searched for in
//!   blocks of eight. The hashes of a list are put there when the list is wanted for the first time
//!   since "maxmatch" has changed. With links, tried first, a related pair took 2.6 times as long and an
//!   unrelated one 6 times.
//! - Marked words leave their lists before the next scan, all in one go.
//! - The rest of a free stretch of the pattern is skipped as soon as it is shorter than "maxmatch", which
//!   is never less than the minimum; and so are the positions that near the end of the text.
//! - The words of a match are compared backward in blocks of eight.
//! - The rounds end after one whose matches have the minimum's length.
//! - A no-call counts as marked from the start.
//! - Of two sequences of equal length the pattern is the one that the reference takes, after 02.
//! - It knows no retired code: words match that are equal calls.
//!
//! Every comparison allocates what it needs, as the program of 000 did for every run.

use crate::reference::{accept, all_sound, exchanged, first_is_pattern, Tile, MAX_WORDS};
use sigxume::raw::Compared;

/// The multiplier of the Karp-Rabin hash, which is taken modulo 2^32.
const MULTIPLIER: u32 = 257;

/// What stands in place of a marked word on the pattern and on the text: no call, and not the same on
/// both sides. So one comparison tells whether two words are equal and both unmarked.
const MARKED: [u32; 2] = [0, 1];

/// The words, or hashes, that are compared at a time.
const BLOCK: usize = 8;

/// The list of a code that the text does not have.
const NONE: u16 = u16::MAX;

/// The code of a call.
fn code(word: u32) -> usize {
    (word & 0xFFFF) as usize
}

/// The words, with no-calls marked.
fn marked(words: &[u32], marked: u32) -> Vec<u32> {
    let word = |&word: &u32| if word >> 30 == 1 { word } else { marked };
    words.iter().map(word).collect()
}

/// For each position the hash of the `minimum` words that end there, or of those that there are.
fn hashes(words: &[u32], minimum: usize) -> Vec<u32> {
    let power = MULTIPLIER.wrapping_pow(minimum as u32);
    let mut hash = 0_u32;
    let mut push = |come: u32, gone: u32| {
        hash = hash.wrapping_mul(MULTIPLIER).wrapping_add(come);
        hash = hash.wrapping_sub(gone.wrapping_mul(power));
        hash
    };
    let (head, tail) = words.split_at(minimum.min(words.len()));
    let mut hashes = Vec::with_capacity(words.len());
    hashes.extend(head.iter().map(|&come| push(come, 0)));
    hashes.extend(
        tail.iter()
            .zip(words)
            .map(|(&come, &gone)| push(come, gone)),
    );
    hashes
}

/// The place of a hash among others, from a place on.
fn find(hashes: &[u32], from: usize, hash: u32) -> Option<usize> {
    let (blocks, rest) = hashes[from..].as_chunks::<BLOCK>();
    let is_in = |block: &[u32; BLOCK]| block.iter().fold(false, |any, &one| any | (one == hash));
    let skipped = blocks.iter().position(is_in).unwrap_or(blocks.len());
    let block = blocks.get(skipped).map_or(rest, |block| block);
    let place = block.iter().position(|&one| one == hash)?;
    Some(from + skipped * BLOCK + place)
}

/// Whether two blocks have equal words, without a branch for each.
fn same(a: &[u32; BLOCK], b: &[u32; BLOCK]) -> bool {
    let words = a.iter().zip(b);
    words.fold(0, |any, (a, b)| any | (a ^ b)) == 0
}

/// Whether two stretches of one length have equal words, from their ends on.
fn alike(a: &[u32], b: &[u32]) -> bool {
    let ((a_rest, a), (b_rest, b)) = (a.as_rchunks::<BLOCK>(), b.as_rchunks::<BLOCK>());
    let mut blocks = a.iter().rev().zip(b.iter().rev());
    let mut rest = a_rest.iter().zip(b_rest).rev();
    blocks.all(|(a, b)| same(a, b)) && rest.all(|(a, b)| a == b)
}

/// The free positions of the text with one code.
struct List {
    /// Where they stand among the positions of all lists; each list has room for whole blocks.
    start: usize,
    end: usize,
    /// The length for which the hashes stand beside them, and how many have so many words before the
    /// text's end.
    length: usize,
    hashed: usize,
}

/// The text with the lists of its codes.
struct Text {
    words: Vec<u32>,
    hashes: Vec<u32>,
    lists: Vec<List>,
    /// The positions, list by list, and the hashes beside them.
    positions: Vec<u16>,
    beside: Vec<u32>,
}

impl Text {
    /// The text, and the number of the list of each code that is not above all of them.
    fn new(words: &[u32], minimum: usize) -> (Self, Vec<u16>) {
        let free = marked(words, MARKED[1]);
        let calls = || (0..).zip(&free).filter(|(_, &word)| word != MARKED[1]);
        let codes = calls().map(|(_, &word)| code(word) + 1).max();
        let mut numbers = vec![NONE; codes.unwrap_or(0)];
        let mut lists: Vec<List> = Vec::new();
        for (_, &word) in calls() {
            let number = &mut numbers[code(word)];
            if *number == NONE {
                *number = lists.len() as u16;
                lists.push(List {
                    start: 0,
                    end: 0,
                    length: 0,
                    hashed: 0,
                });
            }
            lists[usize::from(*number)].end += 1;
        }
        // The ends are counts so far. Each list gets whole blocks.
        let mut start = 0;
        for list in &mut lists {
            let room = list.end.next_multiple_of(BLOCK);
            (list.start, list.end) = (start, start);
            start += room;
        }
        let mut positions = vec![0; start];
        for (t, &word) in calls() {
            let list = &mut lists[usize::from(numbers[code(word)])];
            positions[list.end] = t;
            list.end += 1;
        }
        let text = Self {
            hashes: hashes(words, minimum),
            beside: vec![0; positions.len()],
            words: free,
            lists,
            positions,
        };
        (text, numbers)
    }

    /// Takes the marked words out of the lists.
    fn drop_marked(&mut self) {
        for list in &mut self.lists {
            let mut end = list.start;
            for at in list.start..list.end {
                let t = self.positions[at];
                self.positions[end] = t;
                end += usize::from(self.words[usize::from(t)] != MARKED[1]);
            }
            list.end = end;
            list.length = 0;
        }
    }

    /// Puts the hashes of the words that end `length` words on beside the positions of a list.
    fn put_beside(&mut self, number: u16, length: usize) {
        let list = &mut self.lists[usize::from(number)];
        let ends = self.hashes.get(length - 1..).unwrap_or_default();
        let beside = self.beside[list.start..list.end].iter_mut();
        let positions = self.positions[list.start..list.end].iter();
        let within = positions.map_while(|&t| ends.get(usize::from(t)));
        list.hashed = beside
            .zip(within)
            .map(|(beside, &hash)| *beside = hash)
            .count();
        list.length = length;
    }
}

/// A pair under comparison.
struct Program {
    pattern: Vec<u32>,
    hashes: Vec<u32>,
    /// The number of the list of each word's code.
    numbers: Vec<u16>,
    text: Text,
    /// The matches of the greatest length so far, p and t.
    matches: Vec<[u16; 2]>,
    /// Tiles in the order laid: p, t, length.
    tiles: Vec<[usize; 3]>,
}

impl Program {
    fn new(pattern: &[u32], text: &[u32], minimum: usize) -> Self {
        let (text, numbers) = Text::new(text, minimum);
        let number = |&word: &u32| numbers.get(code(word)).copied().unwrap_or(NONE);
        Self {
            hashes: hashes(pattern, minimum),
            numbers: pattern.iter().map(number).collect(),
            pattern: marked(pattern, MARKED[0]),
            text,
            matches: Vec::new(),
            tiles: Vec::new(),
        }
    }

    /// The matches at a position of the pattern: each as long as the longest so far is listed; a longer
    /// one begins the list anew. Answers the greatest length.
    fn scan_row(&mut self, p: usize, mut longest: usize) -> usize {
        let number = self.numbers[p];
        if number == NONE {
            return longest;
        }
        let mut from = 0;
        loop {
            if self.text.lists[usize::from(number)].length != longest {
                self.text.put_beside(number, longest);
            }
            let List { start, hashed, .. } = self.text.lists[usize::from(number)];
            let beside = &self.text.beside[start..start + hashed.next_multiple_of(BLOCK)];
            let found = find(beside, from.min(hashed), self.hashes[p + longest - 1]);
            // What stands after the last in its block does not count.
            let Some(place) = found.filter(|&place| place < hashed) else {
                return longest;
            };
            let t = usize::from(self.text.positions[start + place]);
            let (a, a_rest) = self.pattern[p..].split_at(longest);
            let (b, b_rest) = self.text.words[t..].split_at(longest);
            if alike(a, b) {
                let more = a_rest
                    .iter()
                    .zip(b_rest)
                    .take_while(|(a, b)| a == b)
                    .count();
                if more > 0 {
                    self.matches.clear();
                    longest += more;
                }
                self.matches.push([p as u16, t as u16]);
            }
            from = place + 1;
        }
    }

    /// "scanpattern": lists the longest matches of at least the minimum, and answers their length.
    fn scan(&mut self, minimum: usize) -> usize {
        let mut longest = minimum;
        let mut p = 0;
        while p < self.pattern.len() {
            let free = self.pattern[p..].iter().position(|&word| word == MARKED[0]);
            let end = free.map_or(self.pattern.len(), |length| p + length);
            while p + longest <= end {
                longest = self.scan_row(p, longest);
                p += 1;
            }
            p = end + 1;
        }
        longest
    }

    /// "markarrays": lays each match of the list whose ends are free. Tiles are as long as the match or
    /// longer, so none covers only its middle.
    fn mark(&mut self, length: usize) {
        for &[p, t] in &self.matches {
            let (p, t) = (usize::from(p), usize::from(t));
            let a = &mut self.pattern[p..p + length];
            let b = &mut self.text.words[t..t + length];
            if a[0] == b[0] && a[length - 1] == b[length - 1] {
                a.fill(MARKED[0]);
                b.fill(MARKED[1]);
                self.tiles.push([p, t, length]);
            }
        }
        self.matches.clear();
    }

    /// The rounds, until one has no longer matches than the minimum.
    fn run(&mut self, minimum: usize) {
        loop {
            let longest = self.scan(minimum);
            self.mark(longest);
            if longest == minimum {
                return;
            }
            self.text.drop_marked();
        }
    }
}

/// The tiles of a pattern and a text in the order laid. The pattern is the first side of each tile.
pub fn pattern_tiling(pattern: &[u32], text: &[u32], minimum: usize) -> Vec<Tile> {
    let mut program = Program::new(pattern, text, minimum);
    program.run(minimum);
    program.tiles.into_iter().map(Tile::from).collect()
}

/// The tiles of two sequences in the order laid.
pub fn tiling(first: &[u32], second: &[u32], minimum: usize) -> Vec<Tile> {
    if first_is_pattern(first, second) {
        pattern_tiling(first, second, minimum)
    } else {
        exchanged(pattern_tiling(second, first, minimum))
    }
}

/// Compares two sequences that the engines accept, with an engine's duties: the words are checked, the
/// tiles written, the workspace cleared, the score computed.
pub fn compare(
    first: &[u32],
    second: &[u32],
    minimum: u32,
    workspace: &mut [u32],
    tiles: &mut [u32],
) -> Compared {
    assert!(first.len().max(second.len()) <= MAX_WORDS && minimum >= 1);
    assert!(all_sound(first) && all_sound(second));
    let laid = tiling(first, second, minimum as usize);
    accept(&laid, [first.len(), second.len()], workspace, tiles)
}
