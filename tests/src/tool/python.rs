//! Stock parsers: Python's own, in one process for many files.

use super::Tool;
use crate::process::printed;
use std::path::Path;
use std::process::Command;

/// Goes through the JSON texts that stand in the lines of a file. An object is its keys, as a text, and its values:
/// so a key that is missing, out of order or there twice shows.
const TEXTS: &str = r#"
import json
def keys(pairs):
    return ' '.join(key for key, _ in pairs), dict(pairs)
def texts():
    for line in open('texts'):
        yield json.loads(line, object_pairs_hook=keys)
"#;

/// What a Python script prints that is run in a folder; or why it did not run to its end.
pub fn run(script: &str, folder: &Path) -> Result<String, String> {
    let mut command = Command::new("python3");
    command.current_dir(folder).args(["-I", "-c", script]);
    printed(&mut command, b"")
}

/// What a script prints that goes through `texts()`, which are these.
pub fn read_texts(script: &str, tool: &Tool, texts: &[u8]) -> Result<String, String> {
    tool.put("texts", texts);
    run(&format!("{TEXTS}{script}"), tool.folder())
}
