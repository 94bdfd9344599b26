//! Running a program as a process.

use std::io::{self, Write};
use std::process::{Command, Output, Stdio};
use std::thread;
use std::time::Duration;

/// How a process gets its input: in pieces of so many bytes, with a pause after each.
pub type Pieces = (usize, Duration);

/// All at once.
pub const AT_ONCE: Pieces = (usize::MAX, Duration::ZERO);

/// Runs a command to its end, with pipes for its input and both outputs.
pub fn run(command: &mut Command, input: &[u8], (piece, pause): Pieces) -> io::Result<Output> {
    let pipe = Stdio::piped;
    let mut child = command
        .stdin(pipe())
        .stdout(pipe())
        .stderr(pipe())
        .spawn()?;
    let mut stdin = child.stdin.take().expect("the input is a pipe");
    thread::scope(|scope| {
        scope.spawn(move || {
            for piece in input.chunks(piece) {
                // The program may end before it has read everything.
                if stdin.write_all(piece).is_err() {
                    return;
                }
                thread::sleep(pause);
            }
        });
        child.wait_with_output()
    })
}

/// What a command prints that ends well; or why there is nothing.
pub fn printed(command: &mut Command, input: &[u8]) -> Result<String, String> {
    let name = command.get_program().to_string_lossy().into_owned();
    let ran = run(command, input, AT_ONCE);
    let ran = ran.map_err(|error| format!("{name}, which these cases need: {error}"))?;
    match ran.status.success() {
        true => Ok(lossy(&ran.stdout)),
        false => Err(format!("{name}: {}, {}", ran.status, lossy(&ran.stderr))),
    }
}

/// Bytes as text, for messages and comparisons.
pub fn lossy(bytes: &[u8]) -> String {
    String::from_utf8_lossy(bytes).into_owned()
}

/// The first line in which two texts differ, as it is in each.
pub fn first_difference<'a>(a: &'a str, b: &'a str) -> Option<(Option<&'a str>, Option<&'a str>)> {
    let [a, b] = [a, b].map(|text| text.split_inclusive('\n').map(Some).chain([None]));
    a.zip(b).find(|(a, b)| a != b)
}
