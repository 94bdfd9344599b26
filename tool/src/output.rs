//! Where the output goes: to standard output, or to a file that is there whole or as it was.

use crate::failure::Failure;
use std::fs::{self, File};
use std::io::{self, BufWriter, ErrorKind, Write};
use std::path::{Path, PathBuf};
use std::process;

/// An output that is being written. A file changes only by [`finish`](Output::finish).
pub struct Output {
    name: String,
    writer: Box<dyn Write>,
    temporary: Option<Temporary>,
}

/// A file under another name that takes its place when all is written.
struct Temporary {
    file: File,
    from: PathBuf,
    to: PathBuf,
}

/// Writes a whole output.
pub fn write(path: Option<&Path>, bytes: &[u8]) -> Result<(), Failure> {
    let mut output = Output::open(path)?;
    output.write(bytes)?;
    output.finish()
}

impl Output {
    /// Opens a file, or standard output where none is named.
    pub fn open(path: Option<&Path>) -> Result<Self, Failure> {
        let Some(path) = path else {
            return Ok(Self {
                name: "standard output".into(),
                writer: Box::new(io::stdout().lock()),
                temporary: None,
            });
        };
        let name = path.to_string_lossy().into_owned();
        match open_file(path) {
            Ok((file, temporary)) => Ok(Self {
                name,
                writer: Box::new(BufWriter::new(file)),
                temporary,
            }),
            Err(error) => Err(unwritten(&name, &error)),
        }
    }

    pub fn write(&mut self, bytes: &[u8]) -> Result<(), Failure> {
        let written = self.writer.write_all(bytes);
        written.map_err(|error| unwritten(&self.name, &error))
    }

    /// All is written: the file takes its place.
    pub fn finish(mut self) -> Result<(), Failure> {
        let mut finished = self.writer.flush();
        if let (Ok(()), Some(Temporary { file, from, to })) = (&finished, &self.temporary) {
            // On the disk first, so that a failure of the machine leaves no part of a file under its name.
            finished = file.sync_all().and_then(|()| fs::rename(from, to));
        }
        finished.map_err(|error| unwritten(&self.name, &error))
    }
}

impl Drop for Temporary {
    fn drop(&mut self) {
        // It is gone already if it has taken its place.
        let _ = fs::remove_file(&self.from);
    }
}

fn unwritten(name: &str, error: &io::Error) -> Failure {
    match error.kind() {
        ErrorKind::BrokenPipe => Failure::Quiet,
        _ => Failure::Message(format!("{name}: cannot be written: {error}")),
    }
}

fn open_file(path: &Path) -> io::Result<(File, Option<Temporary>)> {
    // Where a link is named, the file behind it is replaced and not the link.
    let to = fs::canonicalize(path).unwrap_or_else(|_| path.into());
    let old = fs::metadata(&to).ok();
    if old.as_ref().is_some_and(|old| !old.is_file()) {
        // A device or a pipe is written to and never replaced; a folder fails here.
        return Ok((File::options().write(true).open(&to)?, None));
    }
    let (file, from) = create_beside(&to)?;
    let temporary = Temporary {
        file: file.try_clone()?,
        from,
        to,
    };
    if let Some(old) = old {
        file.set_permissions(old.permissions())?;
    }
    Ok((file, Some(temporary)))
}

/// A new file in the same folder. Its name begins with a dot, so that nothing takes it for a file of fish.
fn create_beside(path: &Path) -> io::Result<(File, PathBuf)> {
    let mut number = 0;
    loop {
        let name = format!(".sigxume-{}-{number}", process::id());
        let beside = path.with_file_name(name);
        match File::create_new(&beside) {
            Err(error) if error.kind() == ErrorKind::AlreadyExists => number += 1,
            created => return created.map(|file| (file, beside)),
        }
    }
}
