//! The reference: what the scope paper (01) says, and after it the requests (02), written the most
//! direct way and apart from the core. The comments quote 01, or 02 where they say so; a sequence is
//! their strand, a record their strip, a header their heading, a trailer their closing word, an id their
//! fish number and a threshold their line.

pub mod merging;

use crate::engine::Engine;
use sigxume::raw::{Compared, Counted, ReadAnswer, Told};
use sigxume::Settings;
use std::array;
use std::borrow::Borrow;

/// "A strand is 0 to 2,048 words [..]."
pub const MAX_WORDS: usize = 2_048;

/// "Minimum not 1 to 256" is refused.
pub const MAX_MINIMUM: u32 = 256;

/// "Bucket count not 1 to 1,024" is refused.
pub const MAX_BUCKETS: u32 = 1_024;

/// 02: "entry k, from 0 to 255, holds the covered count at minimum k + 1".
pub const COVER_WORDS: usize = 256;

/// 02, U5: "given a line from 0 to 1,000".
pub const MAX_THRESHOLD: u32 = 1_000;

// The refusals' numbers in 01's table.
pub const TOO_LONG: u32 = 1;
pub const UNSOUND: u32 = 2;
pub const MINIMUM: u32 = 3;
pub const BUCKETS: u32 = 4;
/// Of the hash list's window, and of the fast engine's first search length.
pub const WINDOW: u32 = 5;
pub const WORKSPACE: u32 = 6;
pub const TILES: u32 = 7;
pub const CUT: u32 = 8;
pub const HEADER: u32 = 9;
pub const TRAILER: u32 = 10;
pub const ROOM: u32 = 11;
/// 02, U5: "a line above 1,000 is 12".
pub const THRESHOLD: u32 = 12;
/// 02, U6: "different fish numbers 13, different counts 14".
pub const FISH: u32 = 13;
pub const COUNT: u32 = 14;

/// Refuses with a number where its cause holds. Calls in a row check causes in that order.
fn refuse(cause: bool, number: u32) -> Result<(), u32> {
    if cause {
        Err(number)
    } else {
        Ok(())
    }
}

/// "Its top two bits are its kind."
fn kind(word: u32) -> u32 {
    word >> 30
}

/// Bits 29 to 0.
fn low(word: u32) -> u32 {
    word & 0x3FFF_FFFF
}

/// The code of a call: "bits 15 to 0 a motif code, bits 29 to 16 zero".
fn code(word: u32) -> Option<u32> {
    (kind(word) == 1 && low(word) >> 16 == 0).then_some(word & 0xFFFF)
}

/// Whether a word is a no-call: "bits 29 to 0 zero".
pub fn is_no_call(word: u32) -> bool {
    kind(word) == 2 && low(word) == 0
}

/// Whether a word is a call or a no-call.
pub fn is_sound(word: u32) -> bool {
    code(word).is_some() || is_no_call(word)
}

/// Whether each word is a call or a no-call.
pub fn all_sound(words: &[u32]) -> bool {
    words.iter().all(|&word| is_sound(word))
}

/// 02, U4: "Codes 65,000 to 65,015 stand, in that order, for 11, 14, 14, 27, 30, 52, 52, 52, 101, 118, 240,
/// 241, 300, 512, 777 and 1,024."
pub const RETIRED: [(u16, u16); 16] = [
    (65_000, 11),
    (65_001, 14),
    (65_002, 14),
    (65_003, 27),
    (65_004, 30),
    (65_005, 52),
    (65_006, 52),
    (65_007, 52),
    (65_008, 101),
    (65_009, 118),
    (65_010, 240),
    (65_011, 241),
    (65_012, 300),
    (65_013, 512),
    (65_014, 777),
    (65_015, 1_024),
];

/// The word after that replacement. A word that is no call has no code, and stays.
pub fn replaced(word: u32) -> u32 {
    let retired = RETIRED
        .iter()
        .find(|(retired, _)| code(word) == Some(u32::from(*retired)));
    match retired {
        Some((_, new)) => 1 << 30 | u32::from(*new),
        None => word,
    }
}

/// Words after that replacement.
pub fn replaced_words(words: &[u32]) -> Vec<u32> {
    words.iter().map(|&word| replaced(word)).collect()
}

/// "A no-call matches nothing, another no-call included." 02, U4: "Two calls match when their codes are equal
/// after this replacement."
pub fn matches(a: u32, b: u32) -> bool {
    match (code(replaced(a)), code(replaced(b))) {
        (Some(a), Some(b)) => a == b,
        _ => false,
    }
}

/// "Bits 29 to 14 the fish number [..], bits 13 to 0 the count of words that follow [..]."
pub fn header(id: u16, count: usize) -> u32 {
    assert!(count < 1 << 14, "a count has 14 bits");
    u32::from(id) << 14 | count as u32
}

/// "The sum, modulo 2^30, of the low 30 bits of the heading and of every strand word", as kind 3.
pub fn trailer(header_and_sequence: &[u32]) -> u32 {
    let sum: u64 = header_and_sequence.iter().map(|&w| u64::from(low(w))).sum();
    3 << 30 | (sum % (1 << 30)) as u32
}

/// Words with their trailer after them; a header and a sequence become a record.
pub fn sealed(mut words: Vec<u32>) -> Vec<u32> {
    words.push(trailer(&words));
    words
}

/// The record of an id and a sequence.
pub fn record(id: u16, sequence: &[u32]) -> Vec<u32> {
    sealed([&[header(id, sequence.len())], sequence].concat())
}

/// The id and the sequence of the record that `src` starts with: "an empty slice is 8; then 9; then
/// fewer than count + 2 words is 8; then 2, 10, 11".
fn parse(src: &[u32], room: usize) -> Result<(u32, &[u32]), u32> {
    let header = *src.first().ok_or(CUT)?;
    let (id, count) = (header >> 14, (header & 0x3FFF) as usize);
    refuse(kind(header) != 0 || count > MAX_WORDS, HEADER)?;
    refuse(src.len() < count + 2, CUT)?;
    let sequence = &src[1..=count];
    refuse(!all_sound(sequence), UNSOUND)?;
    refuse(src[count + 1] != trailer(&src[..=count]), TRAILER)?;
    refuse(room < count, ROOM)?;
    Ok((id, sequence))
}

/// Reads the record that `src` starts with.
pub fn read(src: &[u32], buffer: &mut [u32]) -> ReadAnswer {
    let mut answer = ReadAnswer {
        refusal: 0,
        id: 0,
        count: 0,
        used: 0,
    };
    match parse(src, buffer.len()) {
        Err(refusal) => answer.refusal = refusal,
        Ok((id, sequence)) => {
            buffer[..sequence.len()].copy_from_slice(sequence);
            answer.id = id;
            answer.count = sequence.len() as u32;
            answer.used = answer.count + 2;
        }
    }
    answer
}

/// Copies what was made to the start of `buffer` and counts it, or answers the refusal.
fn deliver(made: Result<Vec<u32>, u32>, buffer: &mut [u32]) -> Counted {
    // "Destination buffer shorter than what would be written" is the last cause of all.
    let made = made.and_then(|words| refuse(buffer.len() < words.len(), ROOM).map(|()| words));
    match made {
        Err(refusal) => Counted { refusal, count: 0 },
        Ok(words) => {
            buffer[..words.len()].copy_from_slice(&words);
            Counted {
                refusal: 0,
                count: words.len() as u32,
            }
        }
    }
}

/// Writes the record of an id and a sequence: "checks 1, 2, then 11".
pub fn write(id: u16, sequence: &[u32], buffer: &mut [u32]) -> Counted {
    let made = refuse(sequence.len() > MAX_WORDS, TOO_LONG)
        .and_then(|()| refuse(!all_sound(sequence), UNSOUND))
        .map(|()| record(id, sequence));
    deliver(made, buffer)
}

/// B^0, B^1, .. modulo 2^32, "with B^0 = 1 even for B = 0".
fn powers(multiplier: u32, count: usize) -> Vec<u64> {
    std::iter::successors(Some(1), |power| {
        Some(power * u64::from(multiplier) % (1 << 32))
    })
    .take(count)
    .collect()
}

/// The hash of each window: "w0 × B^(s-1) + .. + w(s-1), modulo 2^32, over whole words". Each window
/// is summed by itself, so nothing rolls. 02, U4: "the hash take[s] the replaced words".
pub fn window_hashes(words: &[u32], multiplier: u32, window: usize) -> Vec<u32> {
    let words = replaced_words(words);
    let powers = powers(multiplier, window);
    let hash = |window: &[u32]| {
        let terms = window.iter().zip(powers.iter().rev());
        let sum: u128 = terms.map(|(&w, &p)| u128::from(w) * u128::from(p)).sum();
        (sum % (1 << 32)) as u32
    };
    words.windows(window).map(hash).collect()
}

/// The list of hashes: "it checks 1, 2, 5, then 11".
pub fn hash_list(words: &[u32], multiplier: u32, window: u32, buffer: &mut [u32]) -> Counted {
    let window = window as usize;
    let made = refuse(words.len() > MAX_WORDS, TOO_LONG)
        .and_then(|()| refuse(!all_sound(words), UNSOUND))
        .and_then(|()| refuse(!(1..=MAX_WORDS).contains(&window), WINDOW))
        .map(|()| window_hashes(words, multiplier, window));
    deliver(made, buffer)
}

/// A tile: its start on the first sequence, its start on the second, its length.
#[derive(Clone, Copy, Debug, PartialEq, Eq)]
pub struct Tile {
    pub first: usize,
    pub second: usize,
    pub length: usize,
}

impl Tile {
    /// The first so many tiles in a tile buffer.
    pub fn list(buffer: &[u32], count: u32) -> Vec<Self> {
        let rows = buffer.chunks_exact(3).take(count as usize);
        let rows = rows.map(|row| [row[0], row[1], row[2]].map(|word| word as usize));
        rows.map(Self::from).collect()
    }
}

impl From<[usize; 3]> for Tile {
    fn from([first, second, length]: [usize; 3]) -> Self {
        Self {
            first,
            second,
            length,
        }
    }
}

/// The same tiles in the same order with the sides exchanged.
pub fn exchanged(tiles: Vec<Tile>) -> Vec<Tile> {
    let exchange = |tile: Tile| [tile.second, tile.first, tile.length].into();
    tiles.into_iter().map(exchange).collect()
}

/// The pattern or the text: the replaced code of each word that is a call and unmarked.
struct Side {
    codes: Vec<Option<u32>>,
}

impl Side {
    /// "All words start unmarked."
    fn new(words: &[u32]) -> Self {
        let codes = replaced_words(words).into_iter().map(code).collect();
        Self { codes }
    }

    fn mark(&mut self, start: usize, length: usize) {
        self.codes[start..start + length].fill(None);
    }
}

/// The length of the run at (p, t): it stops "at the end of a strand, at a pair that doesn't match,
/// or at a marked word on either side".
fn run(pattern: &Side, p: usize, text: &Side, t: usize) -> usize {
    let pairs = pattern.codes[p..].iter().zip(&text.codes[t..]);
    pairs.take_while(|(a, b)| a.is_some() && a == b).count()
}

/// "Among runs of at least the minimum length take the longest, on equal length the one with the
/// smallest p, then the smallest t": p, t and the length, with every pair looked at.
fn best_run(pattern: &Side, text: &Side, minimum: usize) -> Option<(usize, usize, usize)> {
    let mut best = None;
    let mut wanted = minimum;
    for p in 0..pattern.codes.len() {
        for t in 0..text.codes.len() {
            let length = run(pattern, p, text, t);
            if length >= wanted {
                best = Some((p, t, length));
                wanted = length + 1;
            }
        }
    }
    best
}

/// Whether the first sequence is the pattern: "the pattern is the shorter strand"; 02, U2: "of two
/// strands of equal length the pattern is the one with the smaller word at the first place where they
/// differ, words taken as unsigned numbers. If no place differs the first strand is the pattern." 02, U4: "U2's
/// choice of pattern looks at the words as handed in."
pub fn first_is_pattern(first: &[u32], second: &[u32]) -> bool {
    if first.len() != second.len() {
        return first.len() < second.len();
    }
    for (a, b) in first.iter().zip(second) {
        if a != b {
            return a < b;
        }
    }
    true
}

/// The tiles of a pattern and a text in the order laid, for a minimum of at least 1. The pattern is the
/// first side of each tile.
pub fn pattern_tiling(pattern: &[u32], text: &[u32], minimum: usize) -> Vec<Tile> {
    assert!(minimum >= 1, "a minimum is at least 1");
    let (mut pattern, mut text) = (Side::new(pattern), Side::new(text));
    let mut tiles = Vec::new();
    while let Some((p, t, length)) = best_run(&pattern, &text, minimum) {
        pattern.mark(p, length);
        text.mark(t, length);
        tiles.push([p, t, length].into());
    }
    tiles
}

/// The tiles of two sequences in the order laid, for a minimum of at least 1.
pub fn tiling(first: &[u32], second: &[u32], minimum: usize) -> Vec<Tile> {
    if first_is_pattern(first, second) {
        pattern_tiling(first, second, minimum)
    } else {
        exchanged(pattern_tiling(second, first, minimum))
    }
}

/// "Covered is the sum of tile lengths."
pub fn covered(tiles: &[Tile]) -> usize {
    tiles.iter().map(|tile| tile.length).sum()
}

/// "2,000 × covered divided by the sum of both lengths, rounded down; two empty strands score 0."
pub fn score(covered: usize, first: usize, second: usize) -> usize {
    (2_000 * covered).checked_div(first + second).unwrap_or(0)
}

/// The words of a workspace that a comparison asks for: "4 × (sum of lengths)".
pub fn workspace_words(first: usize, second: usize) -> usize {
    4 * (first + second)
}

/// The words of a tile buffer that it asks for: "3 × (shorter length divided by minimum, rounded
/// down)", for a minimum of at least 1.
pub fn tile_words(first: usize, second: usize, minimum: u32) -> usize {
    3 * (first.min(second) / minimum as usize)
}

/// "Comparing checks 1 to 7 in that order"; 4 and 5 are the fast engine's. `rooms` are the words of
/// the workspace and of the tile buffer.
fn check(
    engine: Engine,
    sequences: [&[u32]; 2],
    minimum: u32,
    rooms: [usize; 2],
) -> Result<(), u32> {
    let [first, second] = sequences.map(<[u32]>::len);
    let [workspace, tiles] = rooms;
    refuse(first > MAX_WORDS || second > MAX_WORDS, TOO_LONG)?;
    refuse(!sequences.into_iter().all(all_sound), UNSOUND)?;
    refuse(!(1..=MAX_MINIMUM).contains(&minimum), MINIMUM)?;
    if let Engine::Fast(Settings { buckets, start, .. }) = engine {
        refuse(!(1..=MAX_BUCKETS).contains(&buckets), BUCKETS)?;
        refuse(start < minimum || start > MAX_WORDS as u32, WINDOW)?;
    }
    refuse(workspace < workspace_words(first, second), WORKSPACE)?;
    refuse(tiles < tile_words(first, second, minimum), TILES)
}

/// What a refused comparison answers: "number, every other number 0".
fn refused(refusal: u32) -> Compared {
    Compared {
        refusal,
        tiles: 0,
        covered: 0,
        score: 0,
    }
}

/// What an accepted comparison of two sequences of these lengths answers and leaves behind, for the
/// tiles in the order laid: "the whole lent workspace is zero", and "words beyond the last tile keep
/// their values".
pub fn accept(
    laid: &[Tile],
    [first, second]: [usize; 2],
    workspace: &mut [u32],
    tiles: &mut [u32],
) -> Compared {
    workspace.fill(0);
    let words = laid.iter().flat_map(|t| [t.first, t.second, t.length]);
    let words: Vec<u32> = words.map(|word| word as u32).collect();
    tiles[..words.len()].copy_from_slice(&words);
    let covered = covered(laid);
    Compared {
        refusal: 0,
        tiles: laid.len() as u32,
        covered: covered as u32,
        score: score(covered, first, second) as u32,
    }
}

/// Compares two sequences as an engine must; `laid` gives their tiles and is only asked where the
/// comparison is accepted. Settings decide about a refusal and about nothing else.
pub fn compare<T: Borrow<[Tile]>>(
    engine: Engine,
    sequences: [&[u32]; 2],
    minimum: u32,
    laid: impl FnOnce() -> T,
    workspace: &mut [u32],
    tiles: &mut [u32],
) -> Compared {
    match check(engine, sequences, minimum, [workspace.len(), tiles.len()]) {
        Err(refusal) => refused(refusal),
        Ok(()) => accept(
            laid().borrow(),
            sequences.map(<[u32]>::len),
            workspace,
            tiles,
        ),
    }
}

/// Compares two sequences as the plain engine must.
pub fn compare_plain(
    first: &[u32],
    second: &[u32],
    minimum: u32,
    workspace: &mut [u32],
    tiles: &mut [u32],
) -> Compared {
    let laid = || tiling(first, second, minimum as usize);
    let sequences = [first, second];
    compare(Engine::Plain, sequences, minimum, laid, workspace, tiles)
}

/// What tilings of a pair at every minimum come to.
pub struct Curve {
    /// The tiles at minimum 1 in the order laid.
    pub laid: Vec<Tile>,
    /// The covered count at minimum k + 1, for each k.
    pub covered: [u32; COVER_WORDS],
}

impl Curve {
    /// From the tiles at each minimum: a tiling by itself for each, so nothing is known of one from
    /// another.
    pub fn of(tiles: impl Fn(usize) -> Vec<Tile>) -> Self {
        Self {
            laid: tiles(1),
            covered: array::from_fn(|k| covered(&tiles(k + 1)) as u32),
        }
    }

    /// By the literal tiling.
    pub fn literal([first, second]: [&[u32]; 2]) -> Self {
        Self::of(|minimum| tiling(first, second, minimum))
    }
}

/// The cover at every minimum (02, U1): "run a pair at minimum 1 and fill a lent buffer"; "the tile
/// buffer and the reply are that run's", which is the fast engine's. The buffers are the workspace,
/// the tile buffer and that for the cover; `curve` is only asked where the cover is accepted.
pub fn cover<C: Borrow<Curve>>(
    settings: Settings,
    sequences: [&[u32]; 2],
    curve: impl FnOnce() -> C,
    [workspace, tiles, cover]: [&mut [u32]; 3],
) -> Compared {
    let rooms = [workspace.len(), tiles.len()];
    // "A buffer below 256 words is 11, after the comparison's own checks at minimum 1."
    let checked = check(Engine::Fast(settings), sequences, 1, rooms)
        .and_then(|()| refuse(cover.len() < COVER_WORDS, ROOM));
    match checked {
        Err(refusal) => refused(refusal),
        Ok(()) => {
            let curve = curve();
            let Curve { laid, covered } = curve.borrow();
            // "Entries past 255 keep their values."
            cover[..COVER_WORDS].copy_from_slice(covered);
            accept(laid, sequences.map(<[u32]>::len), workspace, tiles)
        }
    }
}

/// The words of "the pattern's free stretches of at least the minimum length" (02, U5), after these tiles. A
/// word is free that none of them covers. So a no-call is free, counts, and ends no stretch.
fn free_words(sequences: [&[u32]; 2], minimum: usize, laid: &[Tile]) -> usize {
    let [first, second] = sequences;
    let of_first = first_is_pattern(first, second);
    let pattern = if of_first { first } else { second };
    let mut free = vec![true; pattern.len()];
    for tile in laid {
        let start = if of_first { tile.first } else { tile.second };
        free[start..start + tile.length].fill(false);
    }
    let stretches = free.split(|free| !free).map(<[bool]>::len);
    stretches.filter(|&length| length >= minimum).sum()
}

/// The score of these tiles' "covered count", and the score "with the pattern's free stretches [..] added".
pub fn within(sequences: [&[u32]; 2], minimum: usize, laid: &[Tile]) -> [usize; 2] {
    let [first, second] = sequences.map(<[u32]>::len);
    let covered = covered(laid);
    [covered, covered + free_words(sequences, minimum, laid)]
        .map(|covered| score(covered, first, second))
}

/// The tiles laid until it is decided about a threshold, of all tiles: "the fewest, 0 included, after which
/// their covered count scores at least the line, or less even with the pattern's free stretches of at least the
/// minimum length added; else the whole list".
fn deciding(sequences: [&[u32]; 2], minimum: usize, threshold: usize, laid: &[Tile]) -> usize {
    let decided = |&count: &usize| {
        let [least, most] = within(sequences, minimum, &laid[..count]);
        least >= threshold || most < threshold
    };
    (0..=laid.len()).find(decided).unwrap_or(laid.len())
}

/// Whether a pair scores at least a threshold (02, U5): "say yes exactly when the full comparison's score is at
/// least the line". `laid` gives all tiles of the pair and is only asked where the question is accepted.
pub fn at_least<T: Borrow<[Tile]>>(
    settings: Settings,
    sequences: [&[u32]; 2],
    minimum: u32,
    threshold: u32,
    laid: impl FnOnce() -> T,
    workspace: &mut [u32],
) -> Told {
    // "No tile buffer is lent", so none is too short.
    let rooms = [workspace.len(), usize::MAX];
    // "A line above 1,000 is 12, after 6."
    let checked = check(Engine::Fast(settings), sequences, minimum, rooms)
        .and_then(|()| refuse(threshold > MAX_THRESHOLD, THRESHOLD));
    let mut told = Told {
        refusal: 0,
        reached: 0,
        tiles: 0,
    };
    match checked {
        Err(refusal) => told.refusal = refusal,
        Ok(()) => {
            let laid = laid();
            let laid = laid.borrow();
            let [first, second] = sequences.map(<[u32]>::len);
            let [minimum, threshold] = [minimum, threshold].map(|number| number as usize);
            told.reached = (score(covered(laid), first, second) >= threshold).into();
            told.tiles = deciding(sequences, minimum, threshold, laid) as u32;
            workspace.fill(0);
        }
    }
    told
}

/// What is printed of a comparison: "fish numbers; minimum; tile count; per tile first start, second
/// start, length, shift; covered and both lengths; score". The shift is "its second start minus its
/// first".
pub fn listing(ids: [u32; 2], lengths: [usize; 2], minimum: u32, laid: &[Tile]) -> String {
    let [first, second] = lengths;
    let covered = covered(laid);
    let mut lines = format!("FISH {} {}\nMINIMUM {minimum}\n", ids[0], ids[1]);
    lines += &format!("TILES {}\n", laid.len());
    for tile in laid {
        let shift = tile.second as i64 - tile.first as i64;
        lines += &format!("{} {} {} {shift}\n", tile.first, tile.second, tile.length);
    }
    lines += &format!("COVERED {covered} OF {first} {second}\n");
    lines + &format!("SCORE {}\n", score(covered, first, second))
}

/// The listing that the pair program prints, or the refusal's number: "one word holding the minimum,
/// then two strips"; "the first strip is read, then the second, then the pair is compared".
fn list_pair(input: &[u8]) -> Result<String, u32> {
    // "In a file each word is four bytes, lowest byte first", and "a last part of fewer than four
    // bytes is dropped".
    let bytes = input.chunks_exact(4);
    let words: Vec<u32> = bytes
        .map(|word| u32::from_le_bytes([word[0], word[1], word[2], word[3]]))
        .collect();
    let (&minimum, records) = words.split_first().ok_or(CUT)?;
    let (first_id, first) = parse(records, MAX_WORDS)?;
    let (second_id, second) = parse(&records[first.len() + 2..], MAX_WORDS)?;
    // "Multiplier 257, 256 buckets and first search length 20, or the minimum if larger."
    let engine = Engine::fast(257, 256, minimum.max(20));
    // Its own buffers are large enough.
    check(engine, [first, second], minimum, [usize::MAX; 2])?;
    let laid = tiling(first, second, minimum as usize);
    let lengths = [first.len(), second.len()];
    Ok(listing([first_id, second_id], lengths, minimum, &laid))
}

/// What the pair program prints for these bytes on its standard input: "a refusal prints one line,
/// REFUSED and its number".
pub fn pair_program(input: &[u8]) -> String {
    list_pair(input).unwrap_or_else(|number| format!("REFUSED {number}\n"))
}
