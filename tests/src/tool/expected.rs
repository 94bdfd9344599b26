//! What a run of the tool must end with.

use crate::process::{first_difference, lossy};
use std::process::Output;

/// What a line on standard error must be.
#[derive(Clone, Debug)]
pub enum Line {
    Is(String),
    /// It begins so, and goes on.
    Begins(String),
    /// It holds each of these.
    Has(Vec<String>),
}

impl Line {
    fn admits(&self, line: &str) -> bool {
        match self {
            Self::Is(whole) => line == whole,
            Self::Begins(start) => line.len() > start.len() && line.starts_with(start),
            Self::Has(parts) => parts.iter().all(|part| line.contains(part)),
        }
    }
}

/// Status, standard output and the lines of standard error.
#[derive(Clone, Debug)]
pub struct Expected {
    pub status: i32,
    pub stdout: Vec<u8>,
    pub stderr: Vec<Line>,
}

impl Expected {
    /// It prints this and nothing else.
    pub fn prints(stdout: impl Into<Vec<u8>>) -> Self {
        Self {
            status: 0,
            stdout: stdout.into(),
            stderr: Vec::new(),
        }
    }

    /// The same after these lines on standard error.
    pub fn after(mut self, lines: Vec<Line>) -> Self {
        self.stderr.splice(0..0, lines);
        self
    }

    /// It prints nothing but one line on standard error.
    pub fn fails(line: Line) -> Self {
        Self {
            status: 1,
            stdout: Vec::new(),
            stderr: vec![line],
        }
    }

    /// The first thing in which a run differs.
    pub fn difference(&self, ran: &Output) -> Option<String> {
        let stderr = lossy(&ran.stderr);
        if ran.status.code() != Some(self.status) {
            let status = self.status;
            return Some(format!("{} for {status}, {stderr:?}", ran.status));
        }
        let lines: Vec<&str> = stderr.lines().collect();
        let admitted = lines.len() == self.stderr.len()
            && (stderr.is_empty() || stderr.ends_with('\n'))
            && self.stderr.iter().zip(&lines).all(|(a, b)| a.admits(b));
        if !admitted {
            let expected = &self.stderr;
            return Some(format!("standard error {stderr:?}, expected {expected:?}"));
        }
        differing(&ran.stdout, &self.stdout)
    }
}

/// The first place in which two files differ.
pub fn differing(found: &[u8], expected: &[u8]) -> Option<String> {
    if found == expected {
        return None;
    }
    if let [Ok(found), Ok(expected)] = [found, expected].map(std::str::from_utf8) {
        let (found, expected) = first_difference(found, expected)?;
        let start = |line: &str| line.chars().take(200).collect::<String>();
        let [found, expected] = [found, expected].map(|line| line.map(start));
        return Some(format!("line {found:?}, expected {expected:?}"));
    }
    let pairs = found.iter().zip(expected);
    let at = pairs.take_while(|(a, b)| a == b).count();
    let [n, m] = [found, expected].map(<[u8]>::len);
    Some(format!("{n} bytes for {m}, the first difference at {at}"))
}
