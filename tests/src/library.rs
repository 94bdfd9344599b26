//! The Rust library over the core: its results, its sizes of buffers, its words for refusals.

pub mod merging;

use crate::engine::{any_settings, wrong_starts, Engine, WRONG_BUCKETS};
use crate::group::Group;
use crate::pairs::{any_pair, Pair};
use crate::process::printed;
use crate::random::Random;
use crate::reference::{self, record, tiling, Curve, COUNT, MAX_MINIMUM, MAX_THRESHOLD, MAX_WORDS};
use crate::samples::{any_length, call, faulty, ids, sequence, sound_word, unsound_word, NO_CALL};
use crate::tool::Tool;
use sigxume::{
    at_least, bytes_of_words, compare, compare_plain, cover, hash_list, hash_words, read,
    record_words, records, replaced, score, tile_words, tiles, words_match, words_of_bytes,
    workspace_words, write, Comparer, Cover, Refusal, Settings, Symbol, Tile, Verdict, COVER_WORDS,
};
use std::cell::LazyCell;
use std::process::Command;

/// The C header, which says some of the same.
const HEADER: &str = include_str!("../../c/sigxume.h");

/// The folder of it.
const HEADERS: &str = concat!(env!("CARGO_MANIFEST_DIR"), "/../c");

/// A result with the refusal's number in its place.
type Numbered<T> = Result<T, u32>;

fn numbered<T>(result: Result<T, Refusal>) -> Numbered<T> {
    result.map_err(Refusal::number)
}

/// What the reference answers, with the refusal's number where there is one.
fn expected<T>(refusal: u32, answer: T) -> Numbered<T> {
    match refusal {
        0 => Ok(answer),
        number => Err(number),
    }
}

/// A buffer of random words that is one short, exact or longer.
fn lent(random: &mut Random, needed: usize) -> Vec<u32> {
    let room = random.pick(&[needed.saturating_sub(1), needed, needed, needed + 3]);
    random.words(room)
}

/// A pair of any kind; of one in twenty the first side is refused.
fn some_pair(random: &mut Random, longest: usize, codes: u16) -> Pair {
    let [mut first, second] = any_pair(random, longest, codes);
    if random.one_in(20) {
        let long = random.one_in(2);
        first = faulty(random, 10, long, true);
    }
    [first, second]
}

/// Settings of the fast engine at a minimum, of which about one in five is refused.
fn some_settings(random: &mut Random, minimum: u32, pattern: usize) -> Settings {
    let mut settings = any_settings(random, minimum, pattern);
    if random.one_in(10) {
        settings.buckets = random.pick(&WRONG_BUCKETS);
    }
    if random.one_in(10) {
        settings.start = random.pick(&wrong_starts(minimum));
    }
    settings
}

/// Every refusal has its number and says it, with words of its own.
pub fn refusals(g: &mut Group) {
    let table = Refusal::ALL
        .iter()
        .map(|refusal| (refusal.number(), refusal.to_string()));
    let table = Vec::from_iter(table);
    g.equal(format_args!("all"), table.len(), COUNT as usize);
    for (at, (number, text)) in table.iter().enumerate() {
        let case = format_args!("refusal {number}, {text}");
        g.equal(case, *number as usize, at + 1);
        g.equal(case, text.ends_with(&format!(" (refusal {number})")), true);
        let others = table.iter().filter(|(_, other)| other == text).count();
        g.equal(case, others, 1);
        let back = Refusal::from_number(*number);
        g.equal(case, back, Some(Refusal::ALL[at]));
    }
    for number in [0, COUNT + 1, u32::MAX] {
        let back = Refusal::from_number(number);
        g.equal(format_args!("no refusal {number}"), back, None);
    }
}

/// A text without C's comments, and with one space wherever it has any.
fn plain_c(text: &str) -> String {
    let parts = text.split("/*").enumerate().map(|(at, part)| match at {
        0 => part,
        _ => part.split_once("*/").expect("a comment ends").1,
    });
    let parts = Vec::from_iter(parts).join(" ");
    Vec::from_iter(parts.split_whitespace()).join(" ")
}

/// The header's name of a refusal: SIGXUME_REFUSED_TOO_LONG of `TooLong`.
fn enumerator(refusal: Refusal) -> String {
    let mut name = String::from("SIGXUME_REFUSED");
    for letter in format!("{refusal:?}").chars() {
        if letter.is_ascii_uppercase() {
            name.push('_');
        }
        name.push(letter.to_ascii_uppercase());
    }
    name
}

/// The C header has the same refusals with the same numbers and the same words, and the same constants.
pub fn header(g: &mut Group) {
    let header = plain_c(HEADER);
    let (_, after) = header
        .split_once("enum sigxume_refusal {")
        .unwrap_or_default();
    let (inside, _) = after.split_once('}').unwrap_or_default();
    let found = Vec::from_iter(inside.split(',').map(str::trim));
    let refused = |&refusal| format!("{} = {}", enumerator(refusal), Refusal::number(refusal));
    let accepted = "SIGXUME_ACCEPTED = 0".to_string();
    let due = Vec::from_iter(
        [accepted]
            .into_iter()
            .chain(Refusal::ALL.iter().map(refused)),
    );
    g.equal(format_args!("enumerators"), found.len(), due.len());
    for (at, line) in due.iter().enumerate() {
        let found = found.get(at).copied();
        g.equal(format_args!("enumerator {at}"), found, Some(&line[..]));
    }
    let cases = header.matches("case SIGXUME_").count();
    g.equal(format_args!("cases"), cases, due.len());
    for &refusal in Refusal::ALL {
        let (name, reason) = (enumerator(refusal), refusal.reason());
        let case = format!("case {name}: return \"{reason}\";");
        let count = header.matches(&case).count();
        g.equal(format_args!("{case}"), count, 1);
    }
    let workspace = workspace_words(MAX_WORDS, MAX_WORDS);
    let settings = Settings::for_minimum(1);
    for (name, number) in [
        ("MAX_WORDS", MAX_WORDS),
        ("MAX_RECORD_WORDS", record_words(MAX_WORDS)),
        ("MAX_WORKSPACE_WORDS", workspace),
        ("MAX_TILE_WORDS", tile_words(MAX_WORDS, MAX_WORDS, 1)),
        ("MAX_MINIMUM", sigxume::MAX_MINIMUM as usize),
        ("MAX_BUCKETS", sigxume::MAX_BUCKETS as usize),
        ("MAX_THRESHOLD", sigxume::MAX_THRESHOLD as usize),
        ("COVER_WORDS", COVER_WORDS),
        ("MULTIPLIER", settings.multiplier as usize),
        ("BUCKETS", settings.buckets as usize),
    ] {
        let line = format!("#define SIGXUME_{name} {number}\n");
        g.equal(format_args!("{name}"), HEADER.contains(&line), true);
    }
}

/// Symbols of every code, and words that are none.
pub fn symbols(g: &mut Group) {
    for code in 0..=u16::MAX {
        let symbol = Symbol::Call(code);
        let case = format_args!("code {code}");
        g.equal(case, symbol.word(), call(code));
        let word = reference::replaced(call(code));
        g.equal(
            case,
            (replaced(call(code)), symbol.replaced().word()),
            (word, word),
        );
        g.equal(case, Symbol::from_word(call(code)), Ok(symbol));
    }
    let no_call = Symbol::NoCall.word();
    g.equal(format_args!("the no-call"), no_call, NO_CALL);
    let back = Symbol::from_word(NO_CALL);
    g.equal(format_args!("the no-call"), back, Ok(Symbol::NoCall));
    let same = Symbol::NoCall.replaced();
    g.equal(format_args!("the no-call"), same, Symbol::NoCall);
    for _ in 0..20_000 {
        let word = unsound_word(&mut g.random);
        let case = format_args!("{word:#x}");
        g.equal(case, Symbol::from_word(word), Err(Refusal::Unsound));
        let other = sound_word(&mut g.random);
        let matched = words_match(word, other);
        g.equal(case, matched, reference::matches(word, other));
    }
}

/// Reading and writing, accepted and refused, with buffers around the size that the library names.
pub fn one_record(g: &mut Group) {
    for _ in 0..4_000 {
        let random = &mut g.random;
        let length = any_length(random);
        let (long, unsound) = (random.one_in(12), length > 0 && random.one_in(6));
        let words = faulty(random, length, long, unsound);
        let table = ids(random);
        let id = random.pick(&table);
        let mut buffer = lent(random, record_words(words.len()));
        let mut left = buffer.clone();
        let answer = reference::write(id, &words, &mut left);
        let case = format_args!("fish {id}, {} words", words.len());
        let written = numbered(write(id, &words, &mut buffer));
        g.equal(
            case,
            written,
            expected(answer.refusal, answer.count as usize),
        );
        g.equal(case, &buffer, &left);

        let random = &mut g.random;
        let mut whole = record(id, &sequence(random, length));
        match random.below(4) {
            0 => whole.truncate(random.below(whole.len() + 1)),
            1 => {
                let at = random.below(whole.len());
                whole[at] ^= random.bit();
            }
            _ => whole.extend(random.words(2)),
        }
        let mut buffer = lent(random, length);
        let mut left = buffer.clone();
        let answer = reference::read(&whole, &mut left);
        let back = numbered(read(&whole, &mut buffer));
        let back = back.map(|back| (back.id.into(), back.count, back.used));
        let due = (answer.id, answer.count as usize, answer.used as usize);
        let case = format_args!("fish {id}, {length} words, read");
        g.equal(case, back, expected(answer.refusal, due));
        g.equal(case, &buffer, &left);
    }
}

/// Records in a row, some of them damaged: all up to the first that is refused.
pub fn rows(g: &mut Group) {
    for number in 0..2_000 {
        let random = &mut g.random;
        let mut words = Vec::new();
        for _ in 0..random.below(5) {
            let (id, length) = (random.half(), random.below(30));
            words.extend(record(id, &sequence(random, length)));
        }
        if !words.is_empty() && random.one_in(2) {
            let at = random.below(words.len());
            words[at] ^= random.bit();
        }
        let mut rest = &words[..];
        let mut due = Vec::new();
        while !rest.is_empty() {
            let mut sequence = vec![0; MAX_WORDS];
            let answer = reference::read(rest, &mut sequence);
            sequence.truncate(answer.count as usize);
            let entry = (words.len() - rest.len(), answer.id as u16, sequence);
            due.push(expected(answer.refusal, entry));
            rest = match answer.refusal {
                0 => &rest[answer.used as usize..],
                _ => &[],
            };
        }
        let result = records(&words).map(|entry| entry.map(|it| (it.at, it.id, it.sequence)));
        let result = Vec::from_iter(result.map(numbered));
        g.equal(format_args!("row {number}"), result, due);
        let (back, rest) = (words_of_bytes(&bytes_of_words(&words)).0, &[0u8; 3]);
        g.equal(format_args!("bytes of row {number}"), &back, &words);
        let cut = [&bytes_of_words(&words)[..], rest].concat();
        let case = format_args!("row {number} and three bytes");
        g.equal(case, words_of_bytes(&cut), (words, &rest[..]));
    }
}

/// Comparisons by both engines, with buffers around the sizes that the library names.
pub fn comparisons(g: &mut Group) {
    for number in 0..6_000 {
        let random = &mut g.random;
        let codes = random.pick(&[1, 2, 5, 40]);
        let [first, second] = any_pair(random, 40, codes);
        let minimum = random.pick(&[0, 1, 1, 2, 3, 8, 256, 257]);
        let settings = match Engine::any_fast(random, minimum, first.len()) {
            Engine::Fast(settings) if random.one_in(2) => settings,
            _ => Settings::for_minimum(minimum),
        };
        let (n, m) = (first.len(), second.len());
        let rooms = [workspace_words(n, m), tile_words(n, m, minimum)];
        let buffers = rooms.map(|needed| lent(random, needed));
        let case = format_args!("pair {number}, {n} and {m} words, minimum {minimum}");
        for engine in [Engine::Plain, Engine::Fast(settings)] {
            let [mut workspace, mut laid] = buffers.clone();
            let [mut left, mut due] = buffers.clone();
            let pair = [&first[..], &second[..]];
            let listed = || tiling(&first, &second, minimum as usize);
            let answer = reference::compare(engine, pair, minimum, listed, &mut left, &mut due);
            let result = match engine {
                Engine::Plain => compare_plain(&first, &second, minimum, &mut workspace, &mut laid),
                Engine::Fast(settings) => compare(
                    &first,
                    &second,
                    minimum,
                    settings,
                    &mut workspace,
                    &mut laid,
                ),
            };
            let result = result.map(|it| [it.tiles as u32, it.covered as u32, it.score]);
            let answered = [answer.tiles, answer.covered, answer.score];
            g.equal(case, numbered(result), expected(answer.refusal, answered));
            g.equal(case, [workspace, laid], [left, due]);
        }
    }
}

/// One comparer over many pairs: no comparison sees what an earlier one left.
pub fn comparer(g: &mut Group) {
    let mut comparer = Comparer::new();
    for number in 0..4_000 {
        let random = &mut g.random;
        let (longest, codes) = (random.pick(&[5, 40, 120]), random.pick(&[2, 5, 40]));
        let [first, second] = some_pair(random, longest, codes);
        let minimum = random.pick(&[0, 1, 1, 2, 3, 8, 257]);
        let [mut workspace, mut left] = [vec![0; 20_000], vec![0; 20_000]];
        let engine = Engine::Fast(Settings::for_minimum(minimum));
        let pair = [&first[..], &second[..]];
        let listed = || tiling(&first, &second, minimum as usize);
        let answer = reference::compare(engine, pair, minimum, listed, &mut workspace, &mut left);
        let laid = Vec::from_iter(tiles(&left, answer.tiles as usize));
        let due = (laid, answer.covered as usize, answer.score);
        let result = comparer.compare(&first, &second, minimum);
        let result = result.map(|it| (Vec::from_iter(it.tiles()), it.covered(), it.score()));
        let case = format_args!("pair {number}, minimum {minimum}");
        g.equal(case, numbered(result), expected(answer.refusal, due));
    }
    let ends = [(0, 2_047, 2_047), (2_047, 0, -2_047), (9, 9, 0)];
    for (first, second, shift) in ends {
        let found = tiles(&[first, second, 1], 1).next().map(Tile::shift);
        let case = format_args!("shift of {first} and {second}");
        g.equal(case, found, Some(shift));
    }
}

/// What a cover says: tiles, covered and score of the comparison at minimum 1, and the covered count at each.
type Covered = ([u32; 3], [u32; COVER_WORDS]);

fn covered(cover: Cover) -> Covered {
    let answer = cover.comparison;
    let answer = [answer.tiles as u32, answer.covered as u32, answer.score];
    (answer, cover.covered)
}

/// Covers, with buffers around the sizes that the library names, and by one comparer over all pairs.
pub fn covers(g: &mut Group) {
    let mut comparer = Comparer::new();
    for number in 0..2_000 {
        let random = &mut g.random;
        let (longest, codes) = (random.pick(&[5, 40, 40, 120]), random.pick(&[1, 2, 5, 40]));
        let [first, second] = some_pair(random, longest, codes);
        let settings = some_settings(random, 1, first.len());
        let (n, m) = (first.len(), second.len());
        let rooms = [workspace_words(n, m), tile_words(n, m, 1)];
        let [mut workspace, mut laid] = rooms.map(|needed| lent(random, needed));
        let pair = [&first[..], &second[..]];
        let curve = LazyCell::new(|| Curve::literal(pair));
        let due = |settings, workspace: &mut [u32], laid: &mut [u32]| {
            let mut counts = [0; COVER_WORDS];
            let lent = [workspace, laid, &mut counts];
            let answer = reference::cover(settings, pair, || &*curve, lent);
            let answered = [answer.tiles, answer.covered, answer.score];
            expected(answer.refusal, (answered, counts))
        };

        let case = format_args!("pair {number}, {n} and {m} words");
        let [mut left, mut kept] = [workspace.clone(), laid.clone()];
        let expected = due(settings, &mut left, &mut kept);
        let result = cover(&first, &second, settings, &mut workspace, &mut laid);
        g.equal(case, numbered(result.map(covered)), expected);
        g.equal(case, [workspace, laid], [left, kept]);

        let case = format_args!("pair {number}, {n} and {m} words, by a comparer");
        let [mut left, mut kept] = rooms.map(|needed| vec![0; needed]);
        let expected = due(Settings::for_minimum(1), &mut left, &mut kept);
        let result = comparer.cover(&first, &second);
        if let Ok(cover) = &result {
            let core = cover.comparison.score;
            g.equal(case, score(cover.comparison.covered, n + m), core);
            at_minimums(g, cover);
        }
        g.equal(case, numbered(result.map(covered)), expected);
    }
}

/// A cover by minimum: each entry at its own, and none where there is no such minimum.
fn at_minimums(g: &mut Group, cover: &Cover) {
    let entries = (1..=MAX_MINIMUM).map(|minimum| cover.covered_at(minimum));
    let due = cover.covered.iter().map(|&covered| Some(covered as usize));
    let case = format_args!("by minimum");
    g.equal(case, Vec::from_iter(entries), Vec::from_iter(due));
    let none = [0, MAX_MINIMUM + 1, u32::MAX].map(|minimum| cover.covered_at(minimum));
    g.equal(case, none, [None; 3]);
}

/// Questions about a threshold, with a workspace around the size that the library names, and by one comparer over all
/// pairs.
pub fn thresholds(g: &mut Group) {
    let mut comparer = Comparer::new();
    for number in 0..6_000 {
        let random = &mut g.random;
        let (longest, codes) = (random.pick(&[5, 40, 40, 120]), random.pick(&[1, 2, 5, 40]));
        let [first, second] = some_pair(random, longest, codes);
        let minimum = random.pick(&[0, 1, 1, 2, 2, 3, 8, 256, 257]);
        let any = random.below(MAX_THRESHOLD as usize + 1) as u32;
        let threshold = random.pick(&[0, any, any, any, any, 1_000, 1_001, u32::MAX]);
        let settings = some_settings(random, minimum, first.len());
        let (n, m) = (first.len(), second.len());
        let mut workspace = lent(random, workspace_words(n, m));
        let pair = [&first[..], &second[..]];
        let laid = LazyCell::new(|| tiling(&first, &second, minimum as usize));
        let due = |settings, workspace: &mut [u32]| {
            let laid = || &laid[..];
            let told = reference::at_least(settings, pair, minimum, threshold, laid, workspace);
            expected(told.refusal, (told.reached == 1, told.tiles as usize))
        };
        let said = |verdict: Verdict| (verdict.reached, verdict.tiles);

        let case = format_args!(
            "pair {number}, {n} and {m} words, minimum {minimum}, threshold {threshold}"
        );
        let mut left = workspace.clone();
        let expected = due(settings, &mut left);
        let result = at_least(
            &first,
            &second,
            minimum,
            threshold,
            settings,
            &mut workspace,
        );
        g.equal(case, numbered(result.map(said)), expected);
        g.equal(case, workspace, left);

        let case = format_args!("pair {number}, {n} and {m} words, by a comparer");
        let mut left = vec![0; workspace_words(n, m)];
        let expected = due(Settings::for_minimum(minimum), &mut left);
        let result = comparer.at_least(&first, &second, minimum, threshold);
        g.equal(case, numbered(result.map(said)), expected);
    }
}

/// Reads covered counts and sums of lengths, and prints the score that the header makes of each.
const SCORES: &str = r#"
#include "sigxume.h"
#include <inttypes.h>
#include <stdio.h>

int main(void)
{
    uint32_t covered;
    size_t words;
    while (scanf("%" SCNu32 " %zu", &covered, &words) == 2)
        printf("%" PRIu32 "\n", sigxume_score(covered, words));
    return 0;
}
"#;

/// The score of a covered count, with room for any numbers; the greatest word where there is none in the answer.
fn wide_score(covered: usize, words: usize) -> u32 {
    let score = (2_000 * covered as u128).checked_div(words as u128);
    u32::try_from(score.unwrap_or(0)).unwrap_or(u32::MAX)
}

/// The scores of the Rust library and of the C header, for every sum of two lengths, and for numbers at the ends.
pub fn scores(g: &mut Group) {
    let mut all = Vec::new();
    for words in 0..=2 * MAX_WORDS {
        let random = g.random.below(words / 2 + 1);
        for covered in [0, 1, random, words / 2, words] {
            let due = reference::score(covered, words, 0) as u32;
            let case = format_args!("{covered} of {words}, expected");
            g.equal(case, wide_score(covered, words), due);
            all.push((covered, words));
        }
    }
    let small = [0, 1, 2, 1_999, 2_000, 2_001, 4_096, 2_147_483, 2_147_484];
    let wide = [1 << 31, 1 << 32, usize::MAX / 2_000, usize::MAX];
    let ends = wide
        .iter()
        .flat_map(|&end| [end - 1, end, end.saturating_add(1)]);
    let ends = Vec::from_iter(small.into_iter().chain(ends));
    let each = ends.iter().flat_map(|&a| ends.iter().map(move |&b| (a, b)));
    all.extend(each);
    for _ in 0..20_000 {
        let random = &mut g.random;
        let number = |random: &mut Random| {
            let wide = (random.word() as usize) << 32 | random.word() as usize;
            wide >> random.below(64)
        };
        all.push((number(random), number(random)));
    }
    for &(covered, words) in &all {
        let case = format_args!("{covered} of {words}");
        g.equal(case, score(covered, words), wide_score(covered, words));
    }
    // A covered count is a word in C.
    all.retain(|&(covered, _)| u32::try_from(covered).is_ok());
    let lines = all
        .iter()
        .map(|(covered, words)| format!("{covered} {words}\n"));
    let found = by_c(g, &lines.collect::<String>());
    g.equal(format_args!("in C"), found.as_ref().err(), None);
    let found = found.unwrap_or_default();
    let found = Vec::from_iter(found.lines());
    g.equal(format_args!("in C"), found.len(), all.len());
    for (&(covered, words), found) in all.iter().zip(found) {
        let case = format_args!("{covered} of {words} in C");
        g.equal(case, found, &wide_score(covered, words).to_string());
    }
}

/// What the program in C prints of its input.
fn by_c(g: &Group, input: &str) -> Result<String, String> {
    let tool = Tool::new(g);
    tool.put("scores.c", SCORES);
    let mut compiler = Command::new("cc");
    compiler.current_dir(tool.folder());
    compiler.args(["-std=c99", "-Wall", "-Wextra", "-Wpedantic", "-Werror"]);
    compiler.args(["-I", HEADERS, "scores.c", "-o", "scores"]);
    printed(&mut compiler, b"")?;
    let mut program = Command::new(tool.folder().join("scores"));
    printed(&mut program, input.as_bytes())
}

/// The list of hashes, with buffers around the size that the library names.
pub fn hashes(g: &mut Group) {
    for _ in 0..3_000 {
        let random = &mut g.random;
        let length = random.below(40);
        let (long, unsound) = (random.one_in(20), length > 0 && random.one_in(8));
        let words = faulty(random, length, long, unsound);
        let window = random.pick(&[0, 1, 2, 3, 20, 39, 40, 41, 2_048, 2_049, u32::MAX]);
        let multiplier = random.pick(&[0, 1, 257, u32::MAX]);
        let mut buffer = lent(random, hash_words(words.len(), window));
        let mut left = buffer.clone();
        let answer = reference::hash_list(&words, multiplier, window, &mut left);
        let result = numbered(hash_list(&words, multiplier, window, &mut buffer));
        let case = format_args!("{} words, window {window}", words.len());
        g.equal(
            case,
            result,
            expected(answer.refusal, answer.count as usize),
        );
        g.equal(case, buffer, left);
    }
}
