//! Files and folders: reading the fish in them, and saying where something is wrong.

use crate::failure::{complain, Failure};
use crate::fish::Fish;
use crate::text;
use sigxume::words_of_bytes;
use std::ffi::{OsStr, OsString};
use std::fs;
use std::io::{self, ErrorKind, Read};
use std::path::Path;

/// What a file is read as.
#[derive(Clone, Copy)]
pub enum Form {
    Text,
    Records,
    /// Whichever of both it is.
    Either,
}

/// Reads fish; what is wrong ends the reading, or is said and left out.
#[derive(Default)]
pub struct Reader {
    /// Whether the files of a folder are read where it is named.
    pub folders: bool,
    pub keep_going: bool,
    /// Whether something was left out.
    pub left_out: bool,
}

impl Reader {
    /// The fish of all operands, in their order; a folder's files are in the order of their names.
    pub fn fish(&mut self, operands: &[OsString], form: Form) -> Result<Vec<Fish>, Failure> {
        let mut fish = Vec::new();
        for operand in operands {
            if !(self.folders && operand != "-" && Path::new(operand).is_dir()) {
                self.file(operand, form, &mut fish)?;
                continue;
            }
            match files_of(Path::new(operand)) {
                Ok(files) => {
                    for file in files {
                        self.file(&file, form, &mut fish)?;
                    }
                }
                Err(error) => self.wrong(unreadable(&shown(operand), &error))?,
            }
        }
        Ok(fish)
    }

    fn file(&mut self, operand: &OsStr, form: Form, fish: &mut Vec<Fish>) -> Result<(), Failure> {
        let name = shown(operand);
        let bytes = match bytes_of(operand) {
            Ok(bytes) => bytes,
            Err(error) => return self.wrong(unreadable(&name, &error)),
        };
        let text = match form {
            Form::Text => true,
            Form::Records => false,
            Form::Either => is_text(&bytes),
        };
        if text {
            self.text(&name, &bytes, fish)
        } else {
            self.records(&name, &bytes, fish)
        }
    }

    fn text(&mut self, name: &str, bytes: &[u8], fish: &mut Vec<Fish>) -> Result<(), Failure> {
        for (line, parsed) in (1..).zip(text::parse(bytes)) {
            match parsed {
                Ok(parsed) => fish.push(parsed),
                Err(text::Fault { column, message }) => {
                    self.wrong(format!("{name}, line {line}, column {column}: {message}"))?
                }
            }
        }
        Ok(())
    }

    fn records(&mut self, name: &str, bytes: &[u8], fish: &mut Vec<Fish>) -> Result<(), Failure> {
        let (words, rest) = words_of_bytes(bytes);
        let mut records = sigxume::records(&words);
        let mut number = 1;
        let mut refused = None;
        for record in records.by_ref() {
            match record {
                Ok(sigxume::Entry { id, sequence, .. }) => {
                    fish.push(Fish::new(id, sequence));
                    number += 1;
                }
                Err(refusal) => refused = Some(refusal),
            }
        }
        // Bytes that are no whole word are a record that is cut within its first word.
        if refused.is_none() && !rest.is_empty() {
            refused = sigxume::read(&[], &mut []).err();
        }
        match refused {
            None => Ok(()),
            Some(refusal) => {
                let word = records.at();
                self.wrong(format!("{name}, record {number} (word {word}): {refusal}"))
            }
        }
    }

    fn wrong(&mut self, message: String) -> Result<(), Failure> {
        if !self.keep_going {
            return Err(Failure::Message(message));
        }
        complain(&format!("left out: {message}"));
        self.left_out = true;
        Ok(())
    }
}

/// A file that is read must not be written over: the fish in it would be lost.
pub fn spare<'a>(
    inputs: impl Iterator<Item = &'a OsString>,
    output: Option<&Path>,
) -> Result<(), Failure> {
    let Some((output, Ok(to))) = output.map(|output| (output, fs::canonicalize(output))) else {
        return Ok(());
    };
    let folder = to.parent().filter(|_| !hidden(&to));
    let named = inputs.filter(|input| *input != "-");
    let mut read = named.filter_map(|input| fs::canonicalize(input).ok());
    if to.is_file() && read.any(|from| from == to || Some(&*from) == folder) {
        let message = format!("-o names a file that is read: {}", output.display());
        return Err(Failure::Usage(message));
    }
    Ok(())
}

/// Text is valid UTF-8 without control characters other than tabs and line ends. A file of whole records
/// never is: its last byte, a trailer's highest, is C0 to FF, which in UTF-8 something must follow.
fn is_text(bytes: &[u8]) -> bool {
    let plain = |c: char| !c.is_control() || matches!(c, '\t' | '\n' | '\r');
    str::from_utf8(bytes).is_ok_and(|text| text.chars().all(plain))
}

fn bytes_of(operand: &OsStr) -> io::Result<Vec<u8>> {
    if operand != "-" {
        return fs::read(operand);
    }
    let mut bytes = Vec::new();
    io::stdin().lock().read_to_end(&mut bytes)?;
    Ok(bytes)
}

/// Whether a file's name begins with a dot.
fn hidden(path: &Path) -> bool {
    let name = path.file_name().unwrap_or_default();
    name.as_encoded_bytes().starts_with(b".")
}

/// The files of a folder, but not those whose names begin with a dot.
fn files_of(folder: &Path) -> io::Result<Vec<OsString>> {
    let mut files = Vec::new();
    for file in fs::read_dir(folder)? {
        let file = file?;
        if !hidden(&file.path()) {
            files.push(file.path().into_os_string());
        }
    }
    files.sort();
    Ok(files)
}

/// A file's name in messages.
pub fn shown(operand: &OsStr) -> String {
    match operand.to_str() {
        Some("-") => "standard input".into(),
        _ => operand.to_string_lossy().into(),
    }
}

fn unreadable(name: &str, error: &io::Error) -> String {
    match error.kind() {
        ErrorKind::IsADirectory => format!("{name}: is a folder"),
        _ => format!("{name}: cannot be read: {error}"),
    }
}
