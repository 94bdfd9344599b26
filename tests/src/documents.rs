//! The documents: each command that they show is run as it stands, from the top of the repository, and must
//! print what they show.

use crate::group::Group;
use crate::process::{self, lossy, AT_ONCE};
use crate::tool::expected::differing;
use crate::tool::Tool;
use std::fs;
use std::os::unix::fs::{symlink, PermissionsExt};
use std::path::Path;
use std::process::Command;

/// The top of the repository.
const TOP: &str = concat!(env!("CARGO_MANIFEST_DIR"), "/..");

const DOCUMENTS: [&str; 4] = [
    "README.md",
    "docs/USER-GUIDE.md",
    "docs/BUILDING-ON-IT.md",
    "docs/TRUST.md",
];

/// The files that the commands begin with, and those that they make.
const EXAMPLE: &str = "docs/example";

/// The copy of it in which the documents work; git does not see it.
const WORKED: &str = "target/example";

/// What is built and looked at by commands.
const BUILT: [&str; 3] = ["target/bin", "target/library", "target/log"];

/// Stands between what one command prints and the next.
const BREAK: char = '\u{1e}';

/// A command, the line of the document on which it stands, and what it must print.
#[derive(Debug, PartialEq, Eq)]
struct Shown {
    line: usize,
    command: String,
    printed: String,
}

/// The commands of a document's blocks with the tag `console`: a line that begins with `$ `, with those after
/// it while a line ends in a backslash. What follows up to the next command is what it prints.
fn commands(document: &str) -> Result<Vec<Shown>, String> {
    let mut all: Vec<Shown> = Vec::new();
    let mut lines = document.lines().zip(1..);
    while let Some((fence, start)) = lines.next() {
        if !fence.starts_with("```") {
            continue;
        }
        let shown = fence == "```console";
        let mut begun = false;
        loop {
            let end = || format!("line {start}: the block has no end");
            let (text, line) = lines.next().ok_or_else(end)?;
            if text == "```" {
                break;
            }
            if !shown {
                continue;
            }
            if let Some(command) = text.strip_prefix("$ ") {
                let mut command = command.to_string();
                while command.ends_with('\\') {
                    let (next, _) = lines.next().ok_or_else(end)?;
                    command = command + "\n" + next;
                }
                begun = true;
                all.push(Shown {
                    line,
                    command,
                    printed: String::new(),
                });
            } else if begun {
                let last = all.last_mut().expect("a command has begun");
                last.printed += &format!("{text}\n");
            } else {
                return Err(format!("line {line}: no command before {text:?}"));
            }
        }
    }
    Ok(all)
}

/// Copies a file, or a folder with all that is in it.
fn copy(from: &Path, to: &Path) -> std::io::Result<()> {
    if !from.is_dir() {
        return fs::copy(from, to).map(drop);
    }
    fs::create_dir_all(to)?;
    for entry in fs::read_dir(from)? {
        let entry = entry?;
        copy(&entry.path(), &to.join(entry.file_name()))?;
    }
    Ok(())
}

/// The names in the example's folder: those that the commands begin with, and those that they make.
fn example(folder: &Path) -> [Vec<String>; 2] {
    let entries = fs::read_dir(folder).into_iter().flatten().flatten();
    let mut names: Vec<String> = entries
        .map(|entry| lossy(entry.file_name().as_encoded_bytes()))
        .collect();
    names.sort();
    let given = |name: &String| name.ends_with(".txt") || folder.join(name).is_dir();
    let (given, made) = names.into_iter().partition(given);
    [given, made]
}

/// All files of a folder but those that git does not see, by their paths.
fn files(folder: &Path) -> Vec<String> {
    let mut all = Vec::new();
    let mut folders = vec![folder.to_path_buf()];
    while let Some(next) = folders.pop() {
        for entry in fs::read_dir(next).into_iter().flatten().flatten() {
            let path = entry.path();
            if path.is_dir() && path != folder.join("target") {
                folders.push(path);
            } else if !path.is_dir() {
                all.push(lossy(path.as_os_str().as_encoded_bytes()));
            }
        }
    }
    all.sort();
    all
}

/// A folder as the top of the repository is to who follows a document: with the example's files that the
/// commands begin with, and with what has been built.
fn prepare(top: &Path, folder: &Path, given: &[String]) -> std::io::Result<()> {
    fs::create_dir_all(folder.join(EXAMPLE))?;
    fs::create_dir_all(folder.join("target"))?;
    for name in given {
        let name = Path::new(EXAMPLE).join(name);
        copy(&top.join(&name), &folder.join(&name))?;
    }
    for name in BUILT {
        symlink(top.join(name), folder.join(name))?;
    }
    Ok(())
}

/// What each command prints, as at a terminal: one shell runs all of them.
fn printed(commands: &[Shown], folder: &Path) -> Result<Vec<String>, String> {
    let mut script = String::from("exec 2>&1\n");
    for shown in commands {
        script += &format!("{}\nprintf '\\036'\n", shown.command);
    }
    let mut bash = Command::new("bash");
    bash.current_dir(folder).env("LC_ALL", "C.UTF-8");
    bash.args(["-c", &script]);
    let ran = process::run(&mut bash, b"", AT_ONCE);
    let ran = ran.map_err(|error| format!("bash, which these cases need: {error}"))?;
    let printed = lossy(&ran.stdout);
    let mut parts: Vec<String> = printed.split(BREAK).map(String::from).collect();
    let rest = parts.pop().unwrap_or_default();
    if parts.len() != commands.len() || !rest.is_empty() {
        return Err(format!("the shell ended after {} commands", parts.len()));
    }
    Ok(parts)
}

/// A thing that was looked at, and how it differs.
type Checked = (String, Option<String>);

/// Runs a document's commands one after another from a folder.
fn run(document: &Path, folder: &Path) -> Result<Vec<Checked>, String> {
    let document = fs::read_to_string(document).map_err(|error| error.to_string())?;
    let commands = commands(&document)?;
    let printed = printed(&commands, folder)?;
    let checked = commands.into_iter().zip(printed).map(|(shown, found)| {
        let case = format!("line {}: {}", shown.line, shown.command);
        (case, differing(found.as_bytes(), shown.printed.as_bytes()))
    });
    Ok(checked.collect())
}

/// Runs the commands of documents, each document in a folder of its own, and compares what is printed, what
/// is made and what is left behind.
fn check(top: &Path, scratch: &Path, documents: &[&str]) -> Vec<Checked> {
    let example_folder = top.join(EXAMPLE);
    let [given, made] = example(&example_folder);
    let mut all = Vec::new();
    let mut folders = Vec::new();
    for (number, name) in documents.iter().enumerate() {
        let folder = scratch.join(number.to_string());
        prepare(top, &folder, &given).expect("an example can be copied");
        let before = files(&folder);
        let run = run(&top.join(name), &folder);
        all.push((
            format!("{name}, as a document"),
            run.as_ref().err().cloned(),
        ));
        let run = run.unwrap_or_default().into_iter();
        all.extend(run.map(|(case, difference)| (format!("{name}, {case}"), difference)));
        let after = files(&folder);
        let left = (after != before).then(|| format!("{after:?}, before {before:?}"));
        all.push((format!("{name}, what git would see"), left));
        folders.push(folder);
    }
    for name in made {
        let expected = fs::read(example_folder.join(&name)).expect("an example can be read");
        let found = folders
            .iter()
            .filter_map(|folder| fs::read(folder.join(WORKED).join(&name)).ok());
        let found: Vec<Option<String>> = found.map(|found| differing(&found, &expected)).collect();
        let difference = match found.contains(&None) {
            true => None,
            false => Some(format!("no command makes it so: {found:?}")),
        };
        all.push((format!("{EXAMPLE}/{name}"), difference));
    }
    all
}

/// The reading of a document itself.
fn sample(g: &mut Group) {
    let document = "\
# A document

```console
$ echo a; echo b >&2
a
b
$ printf '%s %s\\n' \\
    c \\
    d
c d

$ true
```

    $ not run

```
$ not run either
```

```console
$ pwd
```
";
    let shown = |line: usize, command: &str, printed: &str| Shown {
        line,
        command: command.into(),
        printed: printed.into(),
    };
    let expected = vec![
        shown(4, "echo a; echo b >&2", "a\nb\n"),
        shown(7, "printf '%s %s\\n' \\\n    c \\\n    d", "c d\n\n"),
        shown(12, "true", ""),
        shown(22, "pwd", ""),
    ];
    g.equal(format_args!("sample"), commands(document), Ok(expected));
    for bad in ["```console\n$ true\n", "```console\na\n$ true\n```\n"] {
        g.equal(format_args!("{bad:?}"), commands(bad).is_err(), true);
    }
    let here = std::env::temp_dir();
    let all = [
        "echo a; echo b >&2",
        "printf '%s %s\\n' \\\n    c \\\n    d",
        "cd /; one=two",
        "pwd; printf $one",
        "false",
    ];
    let all = all.map(|command| shown(0, command, ""));
    let due = ["a\nb\n", "c d\n", "", "/\ntwo", ""];
    let due = due.map(String::from).to_vec();
    g.equal(format_args!("one shell"), printed(&all, &here), Ok(due));
    let cut = [shown(0, "exit", "")];
    let cut = printed(&cut, &here).is_err();
    g.equal(format_args!("a shell that ends"), cut, true);
}

/// Documents with known mistakes: each is seen, and nothing else.
fn mistakes(g: &mut Group, tool: &Tool) {
    let good = "```console\n$ cp -r docs/example/. target/example; cd target/example\n\
        $ cat a.txt b/c; echo x >&2\nA\nC\nx\n$ cat a.txt > made; cat a.txt > b.txt\n\
        $ ../bin/tool\nT\n```\n";
    let bad = "```console\n$ cd docs/example\n$ cat a.txt\nB\n$ echo\n$ printf x\nx\n\
        $ cat b.txt\nA\n$ false\n$ cat a.txt > c.txt\n```\n";
    for (name, text) in [
        ("top/good.md", good),
        ("top/bad.md", bad),
        ("top/open.md", "```console\n"),
        ("top/ended.md", "```console\n$ exit\n$ true\n```\n"),
        ("top/docs/example/a.txt", "A\n"),
        ("top/docs/example/b/c", "C\n"),
        ("top/docs/example/made", "A\n"),
        ("top/docs/example/left", "A\n"),
        ("top/target/bin/tool", "#!/bin/sh\necho T\n"),
    ] {
        tool.put(name, text);
    }
    let top = tool.folder().join("top");
    let runs = fs::Permissions::from_mode(0o755);
    fs::set_permissions(top.join("target/bin/tool"), runs).expect("a file can be made a program");
    let documents = ["good.md", "bad.md", "open.md", "ended.md", "none.md"];
    let checked = check(&top, &tool.folder().join("mistakes"), &documents);
    g.equal(format_args!("mistakes: cases"), checked.len(), 23);
    let seen = checked
        .iter()
        .filter(|(_, difference)| difference.is_some());
    let seen: Vec<&str> = seen.map(|(case, _)| &case[..]).collect();
    let expected = vec![
        "bad.md, line 3: cat a.txt",
        "bad.md, line 5: echo",
        "bad.md, line 6: printf x",
        "bad.md, line 8: cat b.txt",
        "bad.md, what git would see",
        "open.md, as a document",
        "ended.md, as a document",
        "none.md, as a document",
        "docs/example/left",
    ];
    g.equal(format_args!("mistakes"), seen, expected);
}

/// The commands of every document.
pub fn commands_run(g: &mut Group) {
    let tool = Tool::new(g);
    sample(g);
    mistakes(g, &tool);
    let scratch = tool.folder().join("documents");
    for (case, difference) in check(Path::new(TOP), &scratch, &DOCUMENTS) {
        g.equal(format_args!("{case}"), difference, None);
    }
}
