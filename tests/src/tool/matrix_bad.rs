//! `matrix` on bad input: without and with `--keep-going`.

use super::expected::{Expected, Line};
use super::faults::{either, refusal};
use super::fish::{any_fish, fish, records, text, Fish};
use super::matrix::related_fish;
use super::results::Matrix;
use super::unreadable;
use super::Tool;
use crate::group::Group;
use crate::random::Random;
use crate::reference::{MAX_WORDS, MINIMUM};
use std::fmt::Arguments;
use std::mem;

/// A file's name in messages, and its bytes; or why there are none, as a line about it must have it.
pub type File = (String, Result<Vec<u8>, Vec<String>>);

/// What there is in files.
#[derive(Default)]
struct Found {
    good: Vec<Fish>,
    /// The line about the first thing that is bad, where it ends the run.
    first: Option<Line>,
    /// The lines about all that is bad, where it is left out.
    left_out: Vec<Line>,
}

impl Found {
    /// Adds what there is in a file.
    fn add(&mut self, (name, file): &File) {
        let read = match file {
            Ok(bytes) => either(bytes),
            Err(parts) => {
                let line = |start: &str| {
                    let mut parts = parts.clone();
                    parts.push(format!("sigxume: {start}{name}"));
                    Line::Has(parts)
                };
                self.first.get_or_insert(line(""));
                self.left_out.push(line("left out: "));
                return;
            }
        };
        for row in read {
            match row {
                Ok(fish) => self.good.push(fish),
                Err(fault) => {
                    self.first.get_or_insert(fault.line(name));
                    self.left_out.push(fault.line_after("left out: ", name));
                }
            }
        }
    }

    /// The matrix of the good fish of one side or of both, the first side's files being read first.
    fn matrix(&mut self, files: &[File], against: Option<&[File]>) -> Matrix {
        files.iter().for_each(|file| self.add(file));
        let fish = mem::take(&mut self.good);
        let Some(against) = against else {
            return Matrix::new(&fish, 1);
        };
        against.iter().for_each(|file| self.add(file));
        Matrix::sides([&fish, &self.good], 1)
    }
}

/// Runs the tool over paths with these files, without and with `--keep-going`.
pub fn check(
    g: &mut Group,
    tool: &Tool,
    case: Arguments,
    paths: &[&str],
    files: &[File],
    input: &[u8],
) {
    check_sides(g, tool, case, paths, (files, None), input);
}

/// The same where the paths may have another side, which has these files.
pub fn check_sides(
    g: &mut Group,
    tool: &Tool,
    case: Arguments,
    paths: &[&str],
    (files, against): (&[File], Option<&[File]>),
    input: &[u8],
) {
    let mut found = Found::default();
    let matrix = found.matrix(files, against);
    for (option, made) in matrix.layouts() {
        let kept = Expected {
            status: i32::from(!found.left_out.is_empty()),
            ..made.after(found.left_out.clone())
        };
        let args = [&["matrix", "-m", "1"], option, paths].concat();
        match found.first.clone() {
            Some(line) => tool.expect_failure(g, case, &args, input, &Expected::fails(line)),
            None => tool.expect(g, case, &args, input, &kept),
        }
        for option in ["-k", "--keep-going"] {
            let args = [&args[..], &[option]].concat();
            tool.expect(g, case, &args, input, &kept);
        }
        // The table goes to the file that is named, though the status is 1.
        let args = [&args[..], &["-k", "-o", "out"]].concat();
        let written = Expected {
            stdout: Vec::new(),
            ..kept.clone()
        };
        tool.expect(g, case, &args, input, &written);
        tool.expect_file(g, case, "out", &kept.stdout);
        tool.remove("out");
    }
}

/// A file of either form with none, one or two faults.
fn any_file(random: &mut Random) -> Vec<u8> {
    let count = random.below(6);
    let all = related_fish(random, count);
    let mut bytes = if random.one_in(2) {
        text(&all)
    } else {
        records(&all)
    };
    for _ in 0..random.below(3) {
        if bytes.is_empty() {
            break;
        }
        let at = random.below(bytes.len());
        match random.below(4) {
            0 => bytes[at] = random.pick(b"\n x?019\0\xFF"),
            1 => drop(bytes.remove(at)),
            2 => bytes.insert(at, random.pick(b"\n x?019\0\xFF")),
            _ => bytes.truncate(at),
        }
    }
    bytes
}

/// Several files as paths, and as a folder.
fn random_damage(g: &mut Group, tool: &Tool) {
    for number in 0..40 {
        let count = 1 + g.random.below(4);
        let files: Vec<Vec<u8>> = (0..count).map(|_| any_file(&mut g.random)).collect();
        tool.remove("folder");
        let mut listed: Vec<File> = Vec::new();
        for (at, file) in files.iter().enumerate() {
            let name = format!("folder/{at}");
            tool.put(&name, file);
            listed.push((name, Ok(file.clone())));
        }
        let case = format_args!("damage {number}");
        check(g, tool, case, &["folder"], &listed, b"");
        let mut paths: Vec<&str> = listed.iter().map(|(name, _)| &name[..]).collect();
        check(g, tool, case, &paths, &listed, b"");
        // The first file from standard input.
        paths[0] = "-";
        let mut listed: Vec<File> = listed.clone();
        listed[0].0 = "standard input".into();
        check(g, tool, case, &paths, &listed, &files[0]);
        // The last file against the others.
        let (front, against) = listed.split_at(count - 1);
        if !front.is_empty() {
            let (paths, last) = (&paths[..count - 1], paths[count - 1]);
            let paths = [paths, &["--against", last]].concat();
            let sides = (front, Some(against));
            check_sides(g, tool, case, &paths, sides, &files[0]);
        }
    }
}

/// Text with bad lines among good ones, records with a bad one among good ones.
fn made(g: &mut Group, tool: &Tool) {
    let random = &mut g.random;
    let good: Vec<Fish> = (0..4).map(|_| any_fish(random)).collect();
    let lines: Vec<String> = good.iter().map(Fish::line).collect();
    let long = fish(random, MAX_WORDS + 1).line();
    let rows = [
        format!("{}x\n{}", lines[0], lines[1]),
        format!("x\n\n{}{}12", lines[0], lines[1]),
        format!("{}{long}{}{}", lines[2], lines[3], lines[0]),
        format!("{}\r\n", lines[1].trim_end()),
        "\n\n\n".into(),
        "12 3".into(),
        long,
    ];
    let mut files: Vec<Vec<u8>> = rows.into_iter().map(String::into_bytes).collect();
    let whole = records(&good);
    for at in [0, 3, 4 * good[0].size(), whole.len() - 1] {
        let mut bad = whole.clone();
        bad[at] ^= 0x80;
        files.push(bad);
    }
    files.push(whole[..whole.len() - 2].to_vec());
    files.push([&whole[..], b"\0"].concat());
    files.push(vec![0]);
    tool.put("good", &whole);
    for (number, bytes) in files.into_iter().enumerate() {
        tool.put("bad", &bytes);
        let case = format_args!("made {number}");
        let file = |name: &str, bytes: &[u8]| (name.to_string(), Ok(bytes.to_vec()));
        check(g, tool, case, &["bad"], &[file("bad", &bytes)], b"");
        let files = [
            file("good", &whole),
            file("bad", &bytes),
            file("good", &whole),
        ];
        check(g, tool, case, &["good", "bad", "good"], &files, b"");
        let [good, bad] = [&files[..1], &files[1..2]];
        for (paths, sides) in [
            (["good", "--against", "bad"], (good, Some(bad))),
            (["bad", "--against", "good"], (bad, Some(good))),
            (["bad", "--against", "bad"], (bad, Some(bad))),
        ] {
            check_sides(g, tool, case, &paths, sides, b"");
        }
    }
}

/// A refused minimum, after what was read.
fn minimum(g: &mut Group, tool: &Tool) {
    let refused = Line::Is(format!("sigxume: {}", refusal(MINIMUM)));
    let place = "standard input, line 2, column 1: ";
    let case = format_args!("bad line and minimum 0");
    let input = b"12 1\nx\n13 1\n";
    let args = ["matrix", "-m", "0", "-"];
    let expected = Expected::fails(Line::Begins(format!("sigxume: {place}")));
    tool.expect_failure(g, case, &args, input, &expected);
    let args = ["matrix", "-m", "0", "-", "-k"];
    let expected = Expected {
        status: 1,
        stdout: Vec::new(),
        stderr: vec![Line::Begins(format!("sigxume: left out: {place}")), refused],
    };
    tool.expect_failure(g, case, &args, input, &expected);
}

/// Known and random damage.
pub fn bad_input(g: &mut Group) {
    let tool = Tool::new(g);
    made(g, &tool);
    unreadable::unreadable(g, &tool);
    minimum(g, &tool);
    random_damage(g, &tool);
}
