//! How the tool fails: what it says, and its exit status.

use sigxume::Refusal;
use std::io::{self, Write};
use std::process::ExitCode;

/// Why a subcommand came to nothing.
pub enum Failure {
    /// The command line asks for nothing that there is.
    Usage(String),
    /// Input was refused or could not be read, or output could not be written.
    Message(String),
    /// All is said: what was left out, or nothing, where the reader of standard output has gone.
    Quiet,
}

impl Failure {
    /// Says it on standard error; `asked` is the command whose help explains more.
    pub fn report(&self, asked: &str) -> ExitCode {
        match self {
            Self::Usage(message) => {
                complain(message);
                // Nothing can be done where standard error is closed.
                let _ = writeln!(io::stderr(), "Try '{asked} --help'.");
                ExitCode::from(2)
            }
            Self::Message(message) => {
                complain(message);
                ExitCode::FAILURE
            }
            Self::Quiet => ExitCode::FAILURE,
        }
    }
}

impl From<Refusal> for Failure {
    fn from(refusal: Refusal) -> Self {
        Self::Message(refusal.to_string())
    }
}

/// One line on standard error: a file's name may hold a newline, which must not break it.
pub fn complain(message: &str) {
    let mut line = String::from("sigxume: ");
    for character in message.chars() {
        if character.is_control() {
            line.extend(character.escape_default());
        } else {
            line.push(character);
        }
    }
    line.push('\n');
    let _ = io::stderr().write_all(line.as_bytes());
}
