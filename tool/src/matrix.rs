//! Many pairs of fish: the comparisons are shared out among threads, and their answers are laid out in order.

use crate::failure::Failure;
use crate::layout::Layout;
use crate::output::Output;
use crate::pairs::{Pair, Sides};
use crate::progress::Progress;
use sigxume::{Comparer, Comparison, Refusal};
use std::collections::BTreeMap;
use std::iter;
use std::ops::Range;
use std::sync::mpsc::{channel, Receiver, Sender};
use std::sync::{Mutex, PoisonError};
use std::thread::{self, Builder};

pub struct Matrix<'a> {
    pub sides: Sides<'a>,
    pub minimum: u32,
    /// Where there is one, the pairs that do not reach it are passed over.
    pub threshold: Option<u32>,
    /// The numbers of the pairs that are compared.
    pub pairs: Range<usize>,
    pub threads: usize,
}

/// The most pairs in a chunk.
const MOST: usize = 32;

/// The chunks for each thread that may be out at a time.
const OUT: usize = 64;

/// Pairs that a thread compares in one go, with their place in the order.
type Chunk = (usize, Vec<Pair>);

/// The pairs of a chunk with what was answered of each, without those that are passed over; or why there is nothing.
type Answer = (usize, Result<Vec<(Pair, Comparison)>, Refusal>);

impl Matrix<'_> {
    /// Compares the pairs and writes them in a layout.
    pub fn write(&self, layout: &mut dyn Layout, output: &mut Output) -> Result<(), Failure> {
        let total = self.pairs.len();
        let size = (total / self.threads / 64).clamp(1, MOST);
        let threads = self.threads.min(total.div_ceil(size));
        let mut pairs = self.sides.pairs_from(self.pairs.start).take(total);
        let chunks = iter::repeat_with(|| Vec::from_iter(pairs.by_ref().take(size)));
        let mut chunks = chunks.enumerate().take(total.div_ceil(size));

        let (queue, queued) = channel();
        for chunk in chunks.by_ref().take(OUT * threads) {
            send(&queue, chunk);
        }
        let queued = Mutex::new(queued);
        let (answer, answers) = channel();
        thread::scope(|scope| {
            for _ in 0..threads {
                let answer = answer.clone();
                let work = || self.compare_chunks(&queued, answer);
                if Builder::new().spawn_scoped(scope, work).is_err() {
                    // The system gives no more threads: those that there are do it all.
                    break;
                }
            }
            drop(answer);
            // The queue ends here, and so do the threads, whether all is written or writing has failed.
            self.collect(chunks, size, queue, answers, layout, output)
        })
    }

    /// Writes the answers in order. For each that has found its place a new chunk goes into the queue: so no thread
    /// runs far ahead, and memory stays bounded however long one chunk takes.
    fn collect(
        &self,
        mut chunks: impl Iterator<Item = Chunk>,
        size: usize,
        queue: Sender<Chunk>,
        answers: Receiver<Answer>,
        layout: &mut dyn Layout,
        output: &mut Output,
    ) -> Result<(), Failure> {
        let total = self.pairs.len();
        let mut progress = Progress::new(total);
        let mut early = BTreeMap::new();
        let mut next = 0;
        let mut text = String::new();
        while next * size < total {
            let Ok((number, compared)) = answers.recv() else {
                return Err(Failure::Message("no thread could be started".into()));
            };
            early.insert(number, compared?);
            while let Some(compared) = early.remove(&next) {
                for (pair, answer) in compared {
                    layout.pair(&mut text, pair, answer);
                }
                next += 1;
                if let Some(chunk) = chunks.next() {
                    send(&queue, chunk);
                }
            }
            if progress.due() {
                // Whole lines only, so that the bar never stands in one.
                let whole = text.rfind('\n').map_or(0, |at| at + 1);
                progress.wipe();
                output.write(&text.as_bytes()[..whole])?;
                text.drain(..whole);
                progress.draw((next * size).min(total));
            }
        }
        drop(progress);
        output.write(text.as_bytes())
    }

    fn compare_chunks(&self, queue: &Mutex<Receiver<Chunk>>, answer: Sender<Answer>) {
        let mut comparer = Comparer::new();
        loop {
            let chunk = queue.lock().unwrap_or_else(PoisonError::into_inner).recv();
            let Ok((number, pairs)) = chunk else {
                return;
            };
            let compared = self.compare_pairs(&mut comparer, pairs);
            if answer.send((number, compared)).is_err() {
                return;
            }
        }
    }

    fn compare_pairs(
        &self,
        comparer: &mut Comparer,
        pairs: Vec<Pair>,
    ) -> Result<Vec<(Pair, Comparison)>, Refusal> {
        let compare = |pair| {
            let compared = self.compare(comparer, pair).transpose()?;
            Some(compared.map(|answer| (pair, answer)))
        };
        pairs.into_iter().filter_map(compare).collect()
    }

    /// What is answered of a pair, or nothing where it is passed over.
    fn compare(&self, comparer: &mut Comparer, pair: Pair) -> Result<Option<Comparison>, Refusal> {
        let [first, second] = self.sides.fish(pair).map(|fish| &fish.sequence);
        if let Some(threshold) = self.threshold {
            let verdict = comparer.at_least(first, second, self.minimum, threshold)?;
            if !verdict.reached {
                return Ok(None);
            }
        }
        let tiling = comparer.compare(first, second, self.minimum)?;
        Ok(Some(tiling.answer()))
    }
}

fn send(queue: &Sender<Chunk>, chunk: Chunk) {
    queue.send(chunk).expect("the other end stays to the last");
}
