//! The stack, of which no proof says anything: each exported function in a thread with a small one, and the
//! pair program under a small limit. docs/TRUST.md has the sizes. Where one does not suffice the system ends
//! the test program, and the message names the thread.

use crate::engine::Engine;
use crate::group::Group;
use crate::merge::typings::typed_twice;
use crate::pairs::{calls, distinct, periodic, related, unrelated, Pair};
use crate::process::{self, lossy, AT_ONCE};
use crate::program;
use crate::random::Random;
use crate::reference::merging::merge;
use crate::reference::{
    self, hash_list, record, tile_words, workspace_words, COVER_WORDS, MAX_THRESHOLD, MAX_WORDS,
};
use crate::samples::NO_CALL;
use crate::tool::PROGRAMS;
use sigxume::{raw, Settings};
use std::process::Command;
use std::thread;

/// A thread with so many KiB in all can call every function: what the system and Rust take at its start
/// is within them.
const THREAD: usize = 32;

/// The least that the system gives a thread, which will do for everything but the fast engine.
const LEAST: usize = 0;

/// The pair program runs under a limit of so many KiB, its arguments and its environment included.
const PROGRAM: usize = 512;

const TRUST: &str = include_str!("../../docs/TRUST.md");
const BUILDING: &str = include_str!("../../docs/BUILDING-ON-IT.md");
const HEADER: &str = include_str!("../../c/sigxume.h");

/// Does some work in a thread of its own with so many KiB of stack.
fn within<T: Send>(name: &str, stack: usize, work: impl FnOnce() -> T + Send) -> T {
    let size = match stack {
        LEAST => "the least stack".into(),
        _ => format!("{stack} KiB of stack"),
    };
    let thread = thread::Builder::new()
        .name(format!("{name}, with {size}"))
        .stack_size(stack * 1024);
    thread::scope(|scope| {
        let running = thread.spawn_scoped(scope, work);
        let running = running.expect("a thread can be made");
        running.join().expect("the work ends")
    })
}

/// Blocks of 3, 7, 15 words and so on, of codes that occur once, with a no-call after each: every one is
/// longer than twice the one before it.
fn blocks(descending: bool) -> Vec<u32> {
    let sizes = (2..11).map(|power| (1 << power) - 1);
    let mut blocks =
        Vec::from_iter(sizes.map(|size| [&distinct(size, size)[..], &[NO_CALL]].concat()));
    if descending {
        blocks.reverse();
    }
    blocks.concat()
}

/// Pairs of the greatest length: restarts, as many tiles as there can be, none, and long buckets.
fn pairs(random: &mut Random) -> Vec<(&'static str, Pair, u32)> {
    let full = distinct(0, MAX_WORDS);
    let turned = Vec::from_iter(full.iter().rev().copied());
    let few = [(); 2].map(|()| calls(random, MAX_WORDS, 3));
    vec![
        ("related", related(random, MAX_WORDS, 40), 8),
        ("unrelated", unrelated(random, MAX_WORDS, 40), 8),
        ("tiles of one word", [full.clone(), turned], 1),
        ("few codes", few, 1),
        ("identical", [full.clone(), full], 1),
        ("one code", [(); 2].map(|()| periodic(MAX_WORDS, 1, 0)), 256),
        ("growing blocks", [blocks(false), blocks(true)], 1),
        ("empty", [Vec::new(), Vec::new()], 1),
    ]
}

/// Settings that are accepted at a minimum: the library's, the pair program's buckets, one bucket for
/// all, the longest first search length.
fn settings(minimum: u32) -> [Settings; 4] {
    let of = |multiplier, buckets, start| Settings {
        multiplier,
        buckets,
        start,
    };
    [
        Settings::for_minimum(minimum),
        of(257, 256, minimum),
        of(0, 1, minimum),
        of(257, 1_024, MAX_WORDS as u32),
    ]
}

/// Both engines.
pub fn engines(g: &mut Group) {
    for (document, text, size) in [
        ("docs/TRUST.md", TRUST, THREAD),
        ("docs/TRUST.md", TRUST, PROGRAM),
        ("docs/BUILDING-ON-IT.md", BUILDING, THREAD),
        ("c/sigxume.h", HEADER, THREAD),
    ] {
        let said = text.contains(&format!(" {size} KiB"));
        g.equal(format_args!("{document} says {size} KiB"), said, true);
    }
    for (name, [first, second], minimum) in pairs(&mut g.random) {
        let (n, m) = (first.len(), second.len());
        let rooms = [workspace_words(n, m), tile_words(n, m, minimum)];
        let pair = [&first[..], &second[..]];
        let fast = settings(minimum).map(Engine::Fast);
        for engine in [Engine::Plain].into_iter().chain(fast) {
            let stack = match engine {
                Engine::Plain => LEAST,
                Engine::Fast(_) => THREAD,
            };
            let case = format!("{name}, {engine}");
            g.lend(
                format_args!("{case}"),
                rooms,
                Some(0),
                |[workspace, tiles]| {
                    within(&case, stack, || {
                        engine.compare(pair, minimum, workspace, tiles)
                    })
                },
                |[workspace, tiles]| engine.compare(pair, minimum, workspace, tiles),
            );
        }
    }
}

/// The cover at every minimum, by the fast engine.
pub fn cover(g: &mut Group) {
    for (name, [first, second], _) in pairs(&mut g.random) {
        let (n, m) = (first.len(), second.len());
        let rooms = [workspace_words(n, m), tile_words(n, m, 1), COVER_WORDS];
        for settings in settings(1) {
            let case = format!("{name}, cover, {}", Engine::Fast(settings));
            let cover = |[workspace, tiles, cover]: [&mut [u32]; 3]| {
                raw::cover_fast(&first, &second, settings, workspace, tiles, cover)
            };
            g.lend(
                format_args!("{case}"),
                rooms,
                Some(0),
                |lent| within(&case, THREAD, || cover(lent)),
                cover,
            );
        }
    }
}

/// Whether a threshold is reached, by the fast engine.
pub fn threshold(g: &mut Group) {
    for (name, [first, second], minimum) in pairs(&mut g.random) {
        let room = workspace_words(first.len(), second.len());
        for settings in settings(minimum) {
            for threshold in [0, 300, MAX_THRESHOLD] {
                let case = format!("{name}, threshold {threshold}, {}", Engine::Fast(settings));
                let at_least = |[workspace]: [&mut [u32]; 1]| {
                    raw::at_least_fast(&first, &second, minimum, threshold, settings, workspace)
                };
                g.lend(
                    format_args!("{case}"),
                    [room],
                    Some(0),
                    |lent| within(&case, THREAD, || at_least(lent)),
                    at_least,
                );
            }
        }
    }
}

/// Everything else.
pub fn others(g: &mut Group) {
    for length in [0, 1, MAX_WORDS] {
        let words = calls(&mut g.random, length, 40);
        let whole = record(12, &words);
        let case = format_args!("{length} words");
        g.lend(
            case,
            [length],
            Some(0),
            |[buffer]| within("read", LEAST, || raw::read(&whole, buffer)),
            |[buffer]| reference::read(&whole, buffer),
        );
        g.lend(
            case,
            [whole.len()],
            Some(0),
            |[buffer]| within("write", LEAST, || raw::write(12, &words, buffer)),
            |[buffer]| reference::write(12, &words, buffer),
        );
        let [first, second] = typed_twice(&mut g.random, length);
        g.lend(
            case,
            [whole.len()],
            Some(0),
            |[buffer]| within("merge", LEAST, || raw::merge(&first, &second, buffer)),
            |[buffer]| merge(&first, &second, buffer),
        );
        g.lend(
            case,
            [length],
            Some(0),
            |[buffer]| {
                within("hash list", LEAST, || {
                    raw::hash_list(&words, 257, 20, buffer)
                })
            },
            |[buffer]| hash_list(&words, 257, 20, buffer),
        );
        let sound = within("sound", LEAST, || raw::all_sound(&words));
        g.equal(case, sound, true);
        let matched = within("match", LEAST, || raw::matches(NO_CALL, NO_CALL));
        g.equal(case, matched, false);
    }
}

/// The pair program, which has its buffers on the stack.
pub fn pair_program(g: &mut Group) {
    let script = format!("ulimit -s {PROGRAM} && exec \"$0\"");
    let program = format!("{PROGRAMS}/pair");
    for (name, pair, minimum) in pairs(&mut g.random) {
        let input = program::bytes(&program::input(minimum, [12, 13], &pair));
        let mut bash = Command::new("bash");
        let ran = process::run(bash.args(["-c", &script, &program]), &input, AT_ONCE);
        let ran = ran.map_err(|error| format!("bash, which these cases need: {error}"));
        let printed = ran.map(|ran| lossy(&[ran.stdout, ran.stderr].concat()));
        g.equal(
            format_args!("{name}"),
            printed,
            program::run(&input, AT_ONCE),
        );
    }
}
