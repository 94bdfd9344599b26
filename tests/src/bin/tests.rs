//! Compares the core's exported functions, the pair program and the command-line tool with a reference made
//! apart from the core, and the documents with what their commands print. Each group prints a line with its
//! name, its number of cases and its seed; a difference makes the exit status 1. Arguments are parts of
//! names: only the groups with one of them are then run.

use sigxume_tests::comparisons::{
    self, breaks, exchange, laws, limits, mistakes, restarts, settings,
};
use sigxume_tests::cover;
use sigxume_tests::group::Group;
use sigxume_tests::tool::{
    self, bad_lines, bad_records, codes, compare, curves, join, join_bad, json, matrix, matrix_bad,
    matrix_large, matrix_mirror, min_called, options, output, plot, progress, ranking, round_trips,
    sides, usage, verdict, warned,
};
use sigxume_tests::{
    baselines, documents, hashes, known, library, machine, merge, program, records, retired, stack,
    threshold, words,
};
use std::process::ExitCode;
use std::thread;

/// A group's name, its seed and its cases.
type Row = (&'static str, u64, fn(&mut Group));

#[rustfmt::skip]
const GROUPS: &[Row] = &[
    ("reference: known pairs", 1, known::pairs),
    ("reference: choice of pattern", 113, known::choices),
    ("reference: known windows", 2, known::windows),
    ("reference: worked example", 3, known::example),
    ("reference: port of Wise's program", 60, baselines::wise_random),
    ("reference: Wise's tuned tiling", 138, baselines::tuned_random),
    ("reference: sequences as text", 139, baselines::texts),
    ("reference: loop that merges", 180, baselines::merging_loop),
    ("match: boundary words", 4, words::match_boundaries),
    ("match: every code", 5, words::match_codes),
    ("match: random pairs", 6, words::match_random),
    ("match: few bits apart", 120, words::match_few_bits),
    ("retired: replaced words", 130, retired::replaced),
    ("retired: matches", 131, retired::matches),
    ("retired: hashes", 132, retired::hashes),
    ("retired: records", 133, retired::records),
    ("match: source", 121, machine::source),
    ("match: machine code", 122, machine::code),
    ("sound: single words", 7, words::sound_words),
    ("sound: sequences", 8, words::sound_sequences),
    ("record: worked example", 9, records::worked),
    ("read: accepted", 10, records::read_accepted),
    ("read: headers", 11, records::read_headers),
    ("read: trailers", 12, records::read_trailers),
    ("read: unsound words", 13, records::read_unsound),
    ("read: cut", 14, records::read_cut),
    ("read: order of refusals", 15, records::read_order),
    ("read: mutations", 16, records::read_mutations),
    ("write: lengths", 17, records::write_lengths),
    ("write: unsound words", 18, records::write_unsound),
    ("write: order of refusals", 19, records::write_order),
    ("write: random", 20, records::write_random),
    ("round trips", 21, records::round_trips),
    ("hashes: known windows", 22, hashes::known),
    ("hashes: sizes", 23, hashes::sizes),
    ("hashes: uniform sequences", 24, hashes::uniform),
    ("hashes: unsound words", 25, hashes::unsound),
    ("hashes: order of refusals", 26, hashes::order),
    ("hashes: random", 27, hashes::random),
    ("compare: known pairs", 28, comparisons::known),
    ("compare: retired codes", 134, comparisons::retired::known),
    ("compare: retired codes, random", 135, comparisons::retired::random),
    ("compare: retired codes, outside", 136, comparisons::retired::outside_comparison),
    ("compare: exact minimum", 29, mistakes::exact_minimum),
    ("compare: remainders", 30, mistakes::remainders),
    ("compare: ties", 31, mistakes::ties),
    ("compare: early ends", 32, mistakes::early_ends),
    ("compare: broken stretches", 123, breaks::breaks),
    ("compare: ends of a run", 124, breaks::ends_of_a_run),
    ("compare: covered in full", 33, mistakes::in_full),
    ("compare: every small pair", 34, comparisons::small),
    ("compare: random pairs", 35, comparisons::random),
    ("compare: larger pairs", 36, comparisons::larger),
    ("compare: what buffers held", 37, comparisons::held),
    ("compare: sizes", 38, limits::sizes),
    ("compare: full tile buffers", 39, limits::full),
    ("compare: unsound words", 40, limits::unsound),
    ("compare: order of refusals", 41, limits::order),
    ("compare: laws", 42, laws::laws),
    ("exchange: random pairs", 114, exchange::random),
    ("exchange: choice of pattern", 115, exchange::choice),
    ("exchange: one difference", 116, exchange::one_difference),
    ("exchange: equal sequences", 117, exchange::itself),
    ("exchange: sixty sequences", 118, exchange::sixty),
    ("settings: each with each", 43, settings::each),
    ("settings: equal hashes", 44, mistakes::equal_hashes),
    ("settings: windows alike", 45, settings::windows_alike),
    ("settings: periodic sequences", 46, settings::periodic_sequences),
    ("settings: both engines", 47, settings::both_engines),
    ("restart: every length", 48, restarts::every_length),
    ("restart: a shorter block first", 49, restarts::shorter_first),
    ("restart: again and again", 50, restarts::in_a_row),
    ("cover: known pairs", 101, cover::known),
    ("cover: every small pair", 102, cover::small),
    ("cover: random pairs", 103, cover::random),
    ("cover: larger pairs", 104, cover::larger),
    ("cover: known tiles", 105, cover::known_tiles),
    ("cover: what buffers held", 106, cover::held),
    ("cover: laws", 107, cover::laws::laws),
    ("cover: exchange", 119, cover::exchange::exchange),
    ("cover: sizes", 108, cover::limits::sizes),
    ("cover: settings", 109, cover::limits::settings),
    ("cover: unsound words", 110, cover::limits::unsound),
    ("cover: order of refusals", 111, cover::limits::order),
    ("threshold: known pairs", 140, threshold::known),
    ("threshold: retired codes", 155, threshold::retired),
    ("threshold: every threshold", 141, threshold::every),
    ("threshold: every small pair", 142, threshold::small),
    ("threshold: random pairs", 143, threshold::random),
    ("threshold: larger pairs", 144, threshold::larger),
    ("threshold: known tiles", 145, threshold::known_tiles),
    ("threshold: what buffers held", 146, threshold::held),
    ("threshold: laws", 147, threshold::laws::laws),
    ("threshold: exchange", 148, threshold::exchange::exchange),
    ("threshold: sizes", 149, threshold::limits::sizes),
    ("threshold: settings", 150, threshold::limits::settings),
    ("threshold: unsound words", 151, threshold::limits::unsound),
    ("threshold: order of refusals", 152, threshold::limits::order),
    ("merge: known words", 160, merge::known),
    ("merge: word pairs", 161, merge::word_pairs),
    ("merge: every position", 162, merge::positions),
    ("merge: lengths", 163, merge::lengths),
    ("merge: what follows", 164, merge::what_follows),
    ("merge: overlapping slices", 165, merge::overlaps),
    ("merge: what buffers held", 166, merge::held),
    ("merge: random typings", 167, merge::random),
    ("merge: laws", 168, merge::laws::laws),
    ("merge: three typings", 169, merge::laws::three),
    ("merge: spelling chooses", 182, merge::laws::spelling),
    ("merge: headers", 170, merge::limits::headers),
    ("merge: trailers", 171, merge::limits::trailers),
    ("merge: unsound words", 172, merge::limits::unsound),
    ("merge: cut", 173, merge::limits::cut),
    ("merge: fish", 174, merge::limits::fish),
    ("merge: counts", 175, merge::limits::counts),
    ("merge: order of refusals", 176, merge::limits::order),
    ("merge: mutations", 177, merge::limits::mutations),
    ("library: refusals", 75, library::refusals),
    ("library: C header", 82, library::header),
    ("library: symbols", 76, library::symbols),
    ("library: one record", 77, library::one_record),
    ("library: records in a row", 78, library::rows),
    ("library: merging", 178, library::merging::merges),
    ("library: no-calls", 179, library::merging::counted),
    ("library: comparisons", 79, library::comparisons),
    ("library: one comparer", 80, library::comparer),
    ("library: cover", 86, library::covers),
    ("library: thresholds", 153, library::thresholds),
    ("library: scores", 87, library::scores),
    ("library: hashes", 81, library::hashes),
    ("stack: engines", 83, stack::engines),
    ("stack: cover", 112, stack::cover),
    ("stack: threshold", 154, stack::threshold),
    ("stack: other functions", 84, stack::others),
    ("stack: pair program", 85, stack::pair_program),
    ("program: known pairs", 51, program::known),
    ("program: random pairs", 52, program::random),
    ("program: larger pairs", 53, program::larger),
    ("program: minimums", 54, program::minimums),
    ("program: cut", 55, program::cut),
    ("program: damaged", 56, program::damaged),
    ("program: counts", 57, program::counts),
    ("program: what follows", 58, program::what_follows),
    ("program: in pieces", 59, program::in_pieces),
    ("program: faults", 181, program::faults),
    ("tool: retired codes", 137, codes::codes),
    ("tool: encode and decode", 61, round_trips::encode_and_decode),
    ("tool: bad lines", 62, bad_lines::bad_lines),
    ("tool: bad records", 63, bad_records::bad_records),
    ("tool: join", 94, join::join),
    ("tool: join, bad input", 95, join_bad::join_bad),
    ("tool: compare", 64, compare::compare),
    ("tool: JSON", 65, json::json),
    ("tool: compare, at a line", 93, verdict::verdict),
    ("tool: plot", 66, plot::plot),
    ("tool: cover", 88, tool::cover::cover),
    ("tool: cover, picture", 89, curves::curves),
    ("tool: matrix", 67, matrix::matrix),
    ("tool: matrix, bad input", 68, matrix_bad::bad_input),
    ("tool: matrix, 64 records", 69, matrix_large::large),
    ("tool: matrix, mirrored", 90, matrix_mirror::mirrored),
    ("tool: matrix, at a line", 91, ranking::ranking),
    ("tool: matrix, two sides", 92, sides::sides),
    ("tool: badly typed fish", 96, warned::warnings),
    ("tool: badly typed fish left out", 97, min_called::min_called),
    ("tool: output", 70, output::output),
    ("tool: options", 71, options::options),
    ("tool: usage", 72, usage::usage),
    ("tool: progress", 73, progress::progress),
    ("documents: commands", 74, documents::commands_run),
];

fn main() -> ExitCode {
    let parts: Vec<String> = std::env::args().skip(1).collect();
    let wanted = |name: &str| parts.is_empty() || parts.iter().any(|part| name.contains(part));
    let groups: Vec<Row> = GROUPS.iter().copied().filter(|row| wanted(row.0)).collect();
    if groups.is_empty() {
        eprintln!("no group's name has {parts:?}");
        return ExitCode::FAILURE;
    }
    // No group depends on another. They run side by side and are printed in order.
    let good = thread::scope(|scope| {
        let running: Vec<_> = groups
            .into_iter()
            .map(|(name, seed, cases)| {
                scope.spawn(move || {
                    let mut group = Group::new(name, seed);
                    cases(&mut group);
                    group.finish()
                })
            })
            .collect();
        running.into_iter().fold(true, |good, group| {
            let (lines, passed) = group.join().expect("a group ends");
            print!("{lines}");
            good && passed
        })
    });
    if good {
        ExitCode::SUCCESS
    } else {
        ExitCode::FAILURE
    }
}
