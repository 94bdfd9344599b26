//! The command-line tool, run as a process in a folder of its own. What it must print is written here
//! from its description, over the reference.

pub mod bad_lines;
pub mod bad_records;
pub mod chain;
pub mod choice;
pub mod codes;
pub mod compare;
pub mod cover;
pub mod curves;
pub mod expected;
pub mod faults;
pub mod fish;
pub mod join;
pub mod join_bad;
pub mod json;
pub mod matrix;
pub mod matrix_bad;
pub mod matrix_large;
pub mod matrix_mirror;
pub mod min_called;
pub mod options;
pub mod output;
pub mod picture;
pub mod plot;
pub mod progress;
pub mod python;
pub mod ranking;
pub mod results;
pub mod round_trips;
pub mod sides;
pub mod svg;
pub mod typing;
pub mod typings;
pub mod unreadable;
pub mod usage;
pub mod verdict;
pub mod warned;

use crate::group::Group;
use crate::process::{self, lossy, AT_ONCE};
use expected::{differing, Expected};
use std::fmt::Arguments;
use std::fs;
use std::path::{Path, PathBuf};
use std::process::{Command, Output};

/// The folder of the programs that are built.
pub const PROGRAMS: &str = concat!(env!("CARGO_MANIFEST_DIR"), "/../target/bin");

/// The tool, which `make tool` builds.
pub const TOOL: &str = concat!(env!("CARGO_MANIFEST_DIR"), "/../target/bin/sigxume");

/// The tool in a folder that is removed in the end.
pub struct Tool {
    folder: PathBuf,
}

impl Tool {
    /// In an empty folder for a group.
    pub fn new(g: &Group) -> Self {
        let name: String = g.name().replace(|c: char| !c.is_ascii_alphanumeric(), "-");
        let name = format!("sigxume-{}-{name}", std::process::id());
        let folder = std::env::temp_dir().join(name);
        let _ = fs::remove_dir_all(&folder);
        fs::create_dir_all(&folder).expect("a folder can be made among the temporary ones");
        Self { folder }
    }

    pub fn folder(&self) -> &Path {
        &self.folder
    }

    /// Writes a file, and the folders on the way to it.
    pub fn put(&self, name: &str, bytes: impl AsRef<[u8]>) {
        let path = self.folder.join(name);
        let folder = path.parent().expect("the file is in the folder");
        fs::create_dir_all(folder).expect("a folder can be made");
        fs::write(path, bytes).expect("a file can be written");
    }

    /// A file's bytes, if it is there.
    pub fn get(&self, name: &str) -> Option<Vec<u8>> {
        fs::read(self.folder.join(name)).ok()
    }

    /// Removes a file or a folder, if it is there.
    pub fn remove(&self, name: &str) {
        let path = self.folder.join(name);
        let _ = fs::remove_file(&path);
        let _ = fs::remove_dir_all(&path);
    }

    /// The names of what is in the folder, hidden files too.
    pub fn names(&self) -> Vec<String> {
        let entries = fs::read_dir(&self.folder).expect("the folder can be read");
        let mut names: Vec<String> = entries
            .map(|entry| lossy(entry.expect("an entry").file_name().as_encoded_bytes()))
            .collect();
        names.sort();
        names
    }

    /// The tool with arguments, in its folder.
    pub fn command(&self, args: &[&str]) -> Command {
        let mut command = Command::new(TOOL);
        command.current_dir(&self.folder).args(args);
        command
    }

    /// Runs the tool with arguments and an input.
    pub fn run(&self, args: &[&str], input: &[u8]) -> Result<Output, String> {
        process::run(&mut self.command(args), input, AT_ONCE)
            .map_err(|error| format!("{TOOL}: {error}; run `make tool` first"))
    }

    /// Runs the tool, which must end with what is expected.
    pub fn expect(
        &self,
        g: &mut Group,
        case: Arguments,
        args: &[&str],
        input: &[u8],
        expected: &Expected,
    ) {
        let difference = match self.run(args, input) {
            Ok(ran) => expected.difference(&ran),
            Err(error) => Some(error),
        };
        g.equal(format_args!("{case}: {args:?}"), difference, None);
    }

    /// A file must hold what is expected.
    pub fn expect_file(&self, g: &mut Group, case: Arguments, name: &str, expected: &[u8]) {
        let difference = match self.get(name) {
            Some(found) => differing(&found, expected),
            None => Some("it is not there".into()),
        };
        g.equal(format_args!("{case}: the file {name}"), difference, None);
    }

    /// The tool must write to the file named by `-o` what it would print, and leave no other file.
    pub fn expect_written(
        &self,
        g: &mut Group,
        case: Arguments,
        args: &[&str],
        input: &[u8],
        expected: &Expected,
    ) {
        let silent = Expected {
            stdout: Vec::new(),
            ..expected.clone()
        };
        self.expect_made(g, case, args, input, &silent, &expected.stdout);
    }

    /// The tool must do as expected, write this to the file named by `-o`, and leave no other file.
    pub fn expect_made(
        &self,
        g: &mut Group,
        case: Arguments,
        args: &[&str],
        input: &[u8],
        expected: &Expected,
        written: &[u8],
    ) {
        self.over(args, |args, _| {
            let mut names = self.names();
            names.retain(|name| name != "out");
            names.push("out".into());
            names.sort();
            self.expect(g, case, args, input, expected);
            let case = format_args!("{case}: {args:?}");
            self.expect_file(g, case, "out", written);
            g.equal(format_args!("{case}, names"), self.names(), names);
        });
    }

    /// The tool must fail as expected, and leave the folder as it was, with and without a file named by
    /// `-o`.
    pub fn expect_failure(
        &self,
        g: &mut Group,
        case: Arguments,
        args: &[&str],
        input: &[u8],
        expected: &Expected,
    ) {
        self.expect(g, case, args, input, expected);
        self.expect_unmade(g, case, args, input, expected);
    }

    /// The tool must do as expected, and leave the folder as it was, though a file is named by `-o`.
    pub fn expect_unmade(
        &self,
        g: &mut Group,
        case: Arguments,
        args: &[&str],
        input: &[u8],
        expected: &Expected,
    ) {
        self.over(args, |args, before| {
            let names = self.names();
            self.expect(g, case, args, input, expected);
            let left = (self.get("out"), self.names());
            let case = format_args!("{case}: {args:?}, files");
            g.equal(case, left, (before, names));
        });
    }

    /// Arguments with `-o out`, where that file is not there and where it is, with its bytes.
    fn over(&self, args: &[&str], mut with: impl FnMut(&[&str], Option<Vec<u8>>)) {
        let args = [args, &["-o", "out"]].concat();
        for before in [None, Some(b"what was there before\n".to_vec())] {
            self.remove("out");
            if let Some(bytes) = &before {
                self.put("out", bytes);
            }
            with(&args, before);
        }
        self.remove("out");
    }
}

impl Drop for Tool {
    fn drop(&mut self) {
        let _ = fs::remove_dir_all(&self.folder);
    }
}
