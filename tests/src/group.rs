//! A group of cases: it has its own random numbers, counts its cases and reports each difference.

use crate::random::Random;
use sigxume::raw::{Compared, Counted, ReadAnswer, Told};
use std::fmt::{Arguments, Debug};

/// Words on both sides of a lent buffer, to see a write outside of it.
const GUARD: usize = 4;

/// Differences of one group that are printed; the others are only counted.
const SHOWN: usize = 5;

/// What a function with a lent buffer answers.
pub trait Answer: Debug + PartialEq {
    fn refusal(&self) -> u32;
}

impl Answer for ReadAnswer {
    fn refusal(&self) -> u32 {
        self.refusal
    }
}

impl Answer for Counted {
    fn refusal(&self) -> u32 {
        self.refusal
    }
}

impl Answer for Compared {
    fn refusal(&self) -> u32 {
        self.refusal
    }
}

impl Answer for Told {
    fn refusal(&self) -> u32 {
        self.refusal
    }
}

/// The lent parts of buffers with guard words around them.
fn lent<const N: usize>(guarded: &mut [Vec<u32>; N]) -> [&mut [u32]; N] {
    guarded.each_mut().map(|words| {
        let end = words.len() - GUARD;
        &mut words[GUARD..end]
    })
}

/// The first position at which two lists differ.
fn first_difference(a: &[u32], b: &[u32]) -> Option<usize> {
    a.iter().zip(b).position(|(a, b)| a != b)
}

pub struct Group {
    name: &'static str,
    seed: u64,
    pub random: Random,
    cases: usize,
    failures: usize,
    /// Lines about differences.
    report: String,
}

impl Group {
    pub fn new(name: &'static str, seed: u64) -> Self {
        Self {
            name,
            seed,
            random: Random::new(seed),
            cases: 0,
            failures: 0,
            report: String::new(),
        }
    }

    pub fn name(&self) -> &'static str {
        self.name
    }

    /// A case without a buffer: the result must be the one expected.
    pub fn equal<T: Debug + PartialEq>(&mut self, case: Arguments, result: T, expected: T) {
        self.cases += 1;
        if result != expected {
            self.fail(
                case,
                format_args!("result {result:x?}, expected {expected:x?}"),
            );
        }
    }

    /// A case with lent buffers of so many words each: the core and the reference get the same
    /// random words, and must give the same answer and leave the same words, those around the
    /// buffers included. `refusal` is the number that the case was made for, where it was made for
    /// one.
    pub fn lend<A: Answer, const N: usize>(
        &mut self,
        case: Arguments,
        rooms: [usize; N],
        refusal: Option<u32>,
        core: impl FnOnce([&mut [u32]; N]) -> A,
        reference: impl FnOnce([&mut [u32]; N]) -> A,
    ) {
        let held = rooms.map(|room| self.random.words(room));
        self.lend_holding(case, held, refusal, core, reference);
    }

    /// A case with lent buffers that hold the given words.
    pub fn lend_holding<A: Answer, const N: usize>(
        &mut self,
        case: Arguments,
        held: [Vec<u32>; N],
        refusal: Option<u32>,
        core: impl FnOnce([&mut [u32]; N]) -> A,
        reference: impl FnOnce([&mut [u32]; N]) -> A,
    ) {
        self.cases += 1;
        let mut left_by_core = held.map(|words| {
            let [before, after] = [(); 2].map(|()| self.random.words(GUARD));
            [before, words, after].concat()
        });
        let mut left_by_reference = left_by_core.clone();
        let answer = core(lent(&mut left_by_core));
        let expected = reference(lent(&mut left_by_reference));
        if answer != expected {
            self.fail(
                case,
                format_args!("core {answer:?}, reference {expected:?}"),
            );
        } else if refusal.is_some_and(|number| number != answer.refusal()) {
            self.fail(
                case,
                format_args!("core and reference {answer:?}, the case is made for {refusal:?}"),
            );
        } else {
            let mut pairs = left_by_core.iter().zip(&left_by_reference).enumerate();
            let difference =
                pairs.find_map(|(number, (a, b))| Some((number, first_difference(a, b)?)));
            if let Some((number, at)) = difference {
                self.fail(
                    case,
                    format_args!(
                        "{answer:?}, buffer {number} of {} words, word {}: \
                         core {:#x}, reference {:#x}",
                        left_by_core[number].len() - 2 * GUARD,
                        at as isize - GUARD as isize,
                        left_by_core[number][at],
                        left_by_reference[number][at],
                    ),
                );
            }
        }
    }

    fn fail(&mut self, case: Arguments, difference: Arguments) {
        self.failures += 1;
        if self.failures <= SHOWN {
            self.report += &format!("FAILED {}, {case}: {difference}\n", self.name);
        }
    }

    /// The group's lines, and whether it had cases and none failed.
    pub fn finish(self) -> (String, bool) {
        let failed = match self.failures {
            0 => String::new(),
            failures => format!(", {failures} FAILED"),
        };
        let line = format!(
            "{:<32} {:>9} cases, seed {}{failed}\n",
            self.name, self.cases, self.seed
        );
        (self.report + &line, self.cases > 0 && self.failures == 0)
    }
}
