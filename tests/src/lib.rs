//! What the test program and the benchmark share: a reference made apart from the core, samples, and the
//! groups of cases.

pub mod baselines;
pub mod benchmark;
pub mod comparisons;
pub mod cover;
pub mod documents;
pub mod engine;
pub mod equal_length;
pub mod group;
pub mod hashes;
pub mod known;
pub mod library;
pub mod machine;
pub mod merge;
pub mod pairs;
pub mod process;
pub mod program;
pub mod random;
pub mod records;
pub mod reference;
pub mod retired;
pub mod samples;
pub mod series;
pub mod stack;
pub mod threshold;
pub mod tool;
pub mod tuned;
pub mod wise;
pub mod words;
