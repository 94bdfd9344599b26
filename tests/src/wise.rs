//! A port of the program that Wise measured (000, section 4): greedy string tiling by Running
//! Karp-Rabin matching. It is a baseline and shares no code with the core. The words in quotes are
//! 000's names.
//!
//! A pass looks for matches of at least the search length: "scanpattern" records every one of them,
//! "markarrays" then takes them from the longest down and lays tiles. The search length is halved
//! from pass to pass. What 000 leaves open, or says in two ways, is settled so:
//!
//! - A free stretch of exactly the search length is scanned: the text says that a shorter one is
//!   skipped, the pseudocode also one of that length.
//! - The words of a window with the right hash are compared when a tile is about to be laid, and not
//!   while scanning, as 000 recommends.
//! - The list of queues is an array with a queue for each length, so no pointer moves along a list.
//! - What is left of an occluded match is known from where the tiles over its ends start and end.
//! - A queue is in the order of p, then t, and what an occluded match leaves is sorted in. So ties go
//!   the way that 01 wants, and the tiles are those of the literal tiling, in its order.
//! - A scan is begun anew at a greater search length only before the first tile, as 000 says that it
//!   happens; two windows that merely hash alike could otherwise bring it about without end.
//! - A no-call counts as marked from the start.
//! - Of two sequences of equal length the pattern is the one that the reference takes, after 02.
//! - It knows no retired code: words match that are equal calls.
//!
//! Every comparison allocates what it needs, as the program of 000 did for every run.

use crate::reference::{accept, all_sound, exchanged, first_is_pattern, Tile, MAX_WORDS};
use sigxume::raw::Compared;
use std::mem::take;
use std::ops::{ControlFlow, Range};

/// The multiplier of the Karp-Rabin hash, which is taken modulo 2^32.
const MULTIPLIER: u32 = 257;

/// What stands in place of a marked word on the pattern and on the text: no call, and not the same on
/// both sides. So one comparison tells whether two words are equal and both unmarked.
const MARKED: [u32; 2] = [0, 1];

/// The start and the end of the tile over a word that is in none.
const FREE: [u16; 2] = [u16::MAX, 0];

/// The pattern or the text.
struct Side {
    words: Vec<u32>,
    /// What a marked word is replaced with.
    marked: u32,
    /// Start and end of the tile that covers each word.
    tiles: Vec<[u16; 2]>,
}

impl Side {
    fn new(words: &[u32], marked: u32) -> Self {
        let mut side = Self {
            words: words.to_vec(),
            marked,
            tiles: vec![FREE; words.len()],
        };
        for (at, word) in words.iter().enumerate() {
            if word >> 30 != 1 {
                side.mark(at, 1);
            }
        }
        side
    }

    fn mark(&mut self, start: usize, length: usize) {
        let tile = start..start + length;
        self.words[tile.clone()].fill(self.marked);
        self.tiles[tile.clone()].fill([tile.start as u16, tile.end as u16]);
    }

    fn is_free(&self, at: usize) -> bool {
        self.tiles[at] == FREE
    }

    /// The next free stretch of at least `s` words, from a position on.
    fn stretch(&self, mut from: usize, s: usize) -> Option<Range<usize>> {
        while from < self.words.len() {
            if self.is_free(from) {
                let mut rest = self.words[from..].iter();
                let length = rest.position(|&word| word == self.marked);
                let end = length.map_or(self.words.len(), |length| from + length);
                if end - from >= s {
                    return Some(from..end);
                }
                from = end;
            } else {
                from = self.tiles[from][1].into();
            }
        }
        None
    }

    /// Visits every free window of `s` words from left to right, with its position and its hash, until
    /// a visit breaks off.
    fn windows(
        &self,
        s: usize,
        mut visit: impl FnMut(usize, u32) -> ControlFlow<usize>,
    ) -> ControlFlow<usize> {
        let power = MULTIPLIER.wrapping_pow(s as u32 - 1);
        let push = |hash: u32, word: u32| hash.wrapping_mul(MULTIPLIER).wrapping_add(word);
        let mut from = 0;
        while let Some(stretch) = self.stretch(from, s) {
            from = stretch.end;
            let words = &self.words[stretch.clone()];
            let mut hash = words[..s].iter().fold(0, |hash, &word| push(hash, word));
            visit(stretch.start, hash)?;
            for (at, (&gone, &come)) in (stretch.start + 1..).zip(words.iter().zip(&words[s..])) {
                hash = push(hash.wrapping_sub(gone.wrapping_mul(power)), come);
                visit(at, hash)?;
            }
        }
        ControlFlow::Continue(())
    }
}

/// The end of a chain.
const NONE: u16 = u16::MAX;

/// The "hashtable" of the text's windows: the positions with one place in the table are a chain that
/// rises.
struct Table {
    /// How far a 32-bit number is shifted to be a place.
    shift: u32,
    first: Vec<u16>,
    last: Vec<u16>,
    next: Vec<u16>,
    hashes: Vec<u32>,
}

impl Table {
    /// An empty table for a text of so many words, with at least twice as many places.
    fn new(words: usize) -> Self {
        let bits = (2 * words).next_power_of_two().trailing_zeros().max(1);
        Self {
            shift: 32 - bits,
            first: vec![NONE; 1 << bits],
            last: vec![NONE; 1 << bits],
            next: vec![NONE; words],
            hashes: vec![0; words],
        }
    }

    /// The hash of a hash.
    fn place(&self, hash: u32) -> usize {
        (hash.wrapping_mul(0x9E37_79B9) >> self.shift) as usize
    }

    fn clear(&mut self) {
        self.first.fill(NONE);
    }

    /// Puts the window at `t` at the end of its chain.
    fn append(&mut self, t: usize, hash: u32) {
        let place = self.place(hash);
        self.hashes[t] = hash;
        self.next[t] = NONE;
        if self.first[place] == NONE {
            self.first[place] = t as u16;
        } else {
            self.next[usize::from(self.last[place])] = t as u16;
        }
        self.last[place] = t as u16;
    }

    /// The positions of the windows with a hash, in order.
    fn positions(&self, hash: u32) -> impl Iterator<Item = usize> + '_ {
        let mut at = self.first[self.place(hash)];
        std::iter::from_fn(move || {
            while at != NONE {
                let t = usize::from(at);
                at = self.next[t];
                if self.hashes[t] == hash {
                    return Some(t);
                }
            }
            None
        })
    }
}

/// A "maximal match" in the queue of its length.
#[derive(Clone, Copy, PartialEq, Eq, PartialOrd, Ord)]
struct Match {
    p: u16,
    t: u16,
}

impl Match {
    fn new(p: usize, t: usize) -> Self {
        Self {
            p: p as u16,
            t: t as u16,
        }
    }
}

/// A pair under comparison.
struct Program {
    pattern: Side,
    text: Side,
    table: Table,
    /// Matches by how much longer they are than the search length.
    queues: Vec<Vec<Match>>,
    /// Tiles in the order laid: p, t, length.
    tiles: Vec<[usize; 3]>,
    /// How many matches were queued.
    queued: usize,
}

impl Program {
    /// "scanpattern": queues every match of at least `s` words, its first `s` judged by their hash. If
    /// a match is longer than `longest`, answers its length at once, with the queues empty.
    fn scan(&mut self, s: usize, longest: usize) -> Option<usize> {
        let Self {
            pattern,
            text,
            table,
            queues,
            ..
        } = self;
        table.clear();
        let _ = text.windows(s, |t, hash| {
            table.append(t, hash);
            ControlFlow::Continue(())
        });
        let scanned = pattern.windows(s, |p, hash| {
            for t in table.positions(hash) {
                let words = pattern.words[p + s..].iter().zip(&text.words[t + s..]);
                let above = words.take_while(|(a, b)| a == b).count();
                if s + above > longest {
                    return ControlFlow::Break(s + above);
                }
                if queues.len() <= above {
                    queues.resize_with(above + 1, Vec::new);
                }
                queues[above].push(Match::new(p, t));
            }
            ControlFlow::Continue(())
        });
        let length = scanned.break_value()?;
        queues.iter_mut().for_each(Vec::clear);
        Some(length)
    }

    /// The part of a match that no tile covers. The tiles are at least as long as the match, so each of
    /// them covers an end of it or nothing, and the rest is in one piece.
    fn left(&self, p: usize, t: usize, length: usize) -> Range<usize> {
        let (mut start, mut end) = (0, length);
        while start < end && !(self.pattern.is_free(p + start) && self.text.is_free(t + start)) {
            let [_, a] = self.pattern.tiles[p + start].map(usize::from);
            let [_, b] = self.text.tiles[t + start].map(usize::from);
            start = a.saturating_sub(p).max(b.saturating_sub(t));
        }
        while start < end && !(self.pattern.is_free(p + end - 1) && self.text.is_free(t + end - 1))
        {
            let [a, _] = self.pattern.tiles[p + end - 1].map(usize::from);
            let [b, _] = self.text.tiles[t + end - 1].map(usize::from);
            end = a.saturating_sub(p).min(b.saturating_sub(t));
        }
        start..end
    }

    /// "markarrays": takes the matches from the longest down, and lays each that is not occluded, if
    /// its words do match. Of an occluded one, what is left is queued again if it has at least `s` words.
    fn mark(&mut self, s: usize) {
        for above in (0..self.queues.len()).rev() {
            let mut queue = take(&mut self.queues[above]);
            self.queued += queue.len();
            for Match { p, t } in queue.drain(..) {
                let (p, t) = (usize::from(p), usize::from(t));
                let left = self.left(p, t, s + above);
                if left.len() == s + above {
                    if self.pattern.words[p..p + s] == self.text.words[t..t + s] {
                        self.pattern.mark(p, s + above);
                        self.text.mark(t, s + above);
                        self.tiles.push([p, t, s + above]);
                    }
                } else if left.len() >= s {
                    let rest = Match::new(p + left.start, t + left.start);
                    let queue = &mut self.queues[left.len() - s];
                    queue.insert(queue.partition_point(|other| *other < rest), rest);
                }
            }
            // Its room serves the next pass.
            self.queues[above] = queue;
        }
    }

    /// The passes, from the first search length down to the minimum.
    fn run(&mut self, minimum: usize, start: usize) {
        let mut s = start;
        while let Some(longer) = self.scan(s, 2 * s) {
            s = longer;
        }
        loop {
            self.mark(s);
            s = match s {
                s if s > 2 * minimum => s / 2,
                s if s > minimum => minimum,
                _ => return,
            };
            self.scan(s, usize::MAX);
        }
    }
}

/// The tiles of a pattern and a text in the order laid, and how many matches were queued on the way. The pattern is
/// the first side of each tile.
pub fn pattern_tiling(
    pattern: &[u32],
    text: &[u32],
    minimum: usize,
    start: usize,
) -> (Vec<Tile>, usize) {
    let mut program = Program {
        pattern: Side::new(pattern, MARKED[0]),
        text: Side::new(text, MARKED[1]),
        table: Table::new(text.len()),
        queues: Vec::new(),
        tiles: Vec::new(),
        queued: 0,
    };
    program.run(minimum, start);
    let tiles = program.tiles.into_iter().map(Tile::from).collect();
    (tiles, program.queued)
}

/// The tiles of two sequences in the order laid, and how many matches were queued on the way.
pub fn tiling(first: &[u32], second: &[u32], minimum: usize, start: usize) -> (Vec<Tile>, usize) {
    if first_is_pattern(first, second) {
        pattern_tiling(first, second, minimum, start)
    } else {
        let (tiles, queued) = pattern_tiling(second, first, minimum, start);
        (exchanged(tiles), queued)
    }
}

/// Compares two sequences that the engines accept, for a first search length of at least the minimum,
/// with an engine's duties: the words are checked, the tiles written, the workspace cleared, the score
/// computed.
pub fn compare(
    first: &[u32],
    second: &[u32],
    minimum: u32,
    start: u32,
    workspace: &mut [u32],
    tiles: &mut [u32],
) -> Compared {
    assert!(first.len().max(second.len()) <= MAX_WORDS && (1..=start).contains(&minimum));
    assert!(all_sound(first) && all_sound(second));
    let (laid, _) = tiling(first, second, minimum as usize, start as usize);
    accept(&laid, [first.len(), second.len()], workspace, tiles)
}
