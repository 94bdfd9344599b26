//! `matrix` on good input: the table, the list of pairs and its parts.

use super::expected::{differing, Expected, Line};
use super::faults::refusal;
use super::fish::{records, text, Fish};
use super::results::{Matrix, PAIRS};
use super::Tool;
use crate::group::Group;
use crate::known::letters;
use crate::pairs::any_pair;
use crate::random::Random;
use crate::reference::MINIMUM;
use crate::samples::ids;
use std::fmt::Arguments;

/// So many fish that have stretches in common; some have the same number, some no words.
pub fn related_fish(random: &mut Random, count: usize) -> Vec<Fish> {
    let table = ids(random);
    let mut all = Vec::new();
    while all.len() < count {
        let longest = random.pick(&[10, 60, 120]);
        for words in any_pair(random, longest, 3) {
            let words = if random.one_in(8) { Vec::new() } else { words };
            all.push(Fish::new(random.pick(&table), &words));
        }
    }
    all.truncate(count);
    all
}

/// The same fish from a folder, a file of records, a file of text, several paths and standard input.
fn sources(tool: &Tool, all: &[Fish]) -> Vec<(Vec<&'static str>, Vec<u8>)> {
    let half = all.len() / 2;
    tool.remove("folder");
    tool.put("folder/.hidden", "x");
    for (number, fish) in all.iter().enumerate() {
        // By their bytes, capitals come before small letters and these before other letters.
        let name = ["0", "B", "a", "\u{e9}"][4 * number / all.len()];
        let name = format!("folder/{name}{number:03}");
        match number % 2 {
            0 => tool.put(&name, fish.record()),
            _ => tool.put(&name, fish.line()),
        }
    }
    tool.put("all", records(all));
    tool.put("all.txt", text(all));
    tool.put("front", records(&all[..half]));
    tool.put("back.txt", text(&all[half..]));
    tool.put("empty", "");
    vec![
        (vec!["folder"], Vec::new()),
        (vec!["folder/", "empty"], Vec::new()),
        (vec!["all"], Vec::new()),
        (vec!["all.txt"], Vec::new()),
        (vec!["front", "empty", "back.txt"], Vec::new()),
        (vec!["front", "-"], text(&all[half..])),
        (vec!["-", "back.txt"], records(&all[..half])),
    ]
}

/// Tables and lists, from every kind of source, by several threads.
fn forms(g: &mut Group, tool: &Tool, all: &[Fish], minimum: u32) {
    let matrix = Matrix::new(all, minimum);
    let case = format_args!("{} fish, minimum {minimum}", all.len());
    let minimum = minimum.to_string();
    let layouts = matrix.layouts();
    for (paths, input) in sources(tool, all) {
        for (option, made) in &layouts {
            let args = [&["matrix", "-m", &minimum], *option, &paths].concat();
            tool.expect(g, case, &args, &input, made);
        }
    }
    for threads in ["1", "2", "5"] {
        for (option, made) in &layouts {
            let args = ["matrix", "--threads", threads, "-m", &minimum, "all"];
            let args = [&args[..], option].concat();
            tool.expect(g, case, &args, b"", made);
            tool.expect_written(g, case, &args, b"", made);
        }
    }
    // With --keep-going nothing changes where nothing is bad.
    for option in ["-k", "--keep-going"] {
        let args = ["matrix", "-m", &minimum, "folder", option];
        tool.expect(g, case, &args, b"", &matrix.prints(matrix.table()));
    }
}

/// The parts of the list, each as it must be, and one after another the whole. The arguments are the minimum and the
/// files.
pub fn parts(g: &mut Group, tool: &Tool, case: Arguments, args: &[&str], matrix: &Matrix) {
    let pairs = matrix.pairs().count();
    for of in [1, 2, 3, 7, pairs.max(1), pairs + 1, pairs + 5] {
        let mut joined = Vec::new();
        for part in 1..=of {
            let option = format!("{part}/{of}");
            let args = [&["matrix", "--pairs", "--part", &option], args].concat();
            tool.expect(g, case, &args, b"", &matrix.part(part, of));
            joined.extend(
                tool.run(&args, b"")
                    .map(|ran| ran.stdout)
                    .unwrap_or_default(),
            );
        }
        let difference = differing(&joined, matrix.whole_list().as_bytes());
        g.equal(format_args!("{case}, {of} parts joined"), difference, None);
    }
    // Numbers of parts whose products with the pairs have more than 64 bits.
    let most = u64::MAX;
    for part in [1, most] {
        let option = format!("--part={part}/{most}");
        let args = [&["matrix", "--pairs", &option], args].concat();
        let case = format_args!("{case}, very many parts");
        let expected = matrix.part(part as usize, most as usize);
        tool.expect(g, case, &args, b"", &expected);
    }
}

/// The fish of the example of the description.
pub fn example_fish() -> Vec<Fish> {
    let words = ["caabaad", "baadcaaaabaa", "ab", ""];
    let fish = (12..).zip(words);
    fish.map(|(id, name)| Fish::new(id, &letters(name)))
        .collect()
}

/// The example: what the tool must print, letter for letter.
fn example(g: &mut Group, tool: &Tool) {
    let all = example_fish();
    let case = format_args!("example");
    for (count, table, list) in [
        (0, "fish\n", ""),
        (1, "fish,12\n12,\n", ""),
        (2, "fish,12,13\n12,,736\n13,736,\n", "1,2,12,13,3,7,736,0,0\n"),
        (
            4,
            "fish,12,13,14,15\n12,,736,444,0\n13,736,,285,0\n14,444,285,,0\n15,0,0,0,\n",
            "1,2,12,13,3,7,736,0,0\n1,3,12,14,1,2,444,0,0\n1,4,12,15,0,0,0,0,0\n2,3,13,14,1,2,285,0,0\n2,4,13,15,0,0,0,0,0\n\
             3,4,14,15,0,0,0,0,0\n",
        ),
    ] {
        let input = text(&all[..count]);
        let args = ["matrix", "-m", "1", "-"];
        tool.expect(g, case, &args, &input, &Expected::prints(table));
        let args = ["matrix", "-m", "1", "-", "--pairs"];
        let list = PAIRS.to_string() + list;
        tool.expect(g, case, &args, &input, &Expected::prints(list));
    }
}

/// Matrices of 0 to 12 fish.
pub fn matrix(g: &mut Group) {
    let tool = Tool::new(g);
    example(g, &tool);
    for count in [0, 1, 2, 3, 7, 12] {
        for minimum in [1, 3] {
            let all = related_fish(&mut g.random, count);
            forms(g, &tool, &all, minimum);
        }
        let all = related_fish(&mut g.random, count);
        tool.put("all", records(&all));
        let case = format_args!("{count} fish");
        parts(g, &tool, case, &["-m", "2", "all"], &Matrix::new(&all, 2));
        // The minimum is refused whatever there is to compare.
        for minimum in ["0", "257", "4294967295"] {
            let line = Line::Is(format!("sigxume: {}", refusal(MINIMUM)));
            let args = ["matrix", "-m", minimum, "all"];
            let case = format_args!("{count} fish");
            tool.expect_failure(g, case, &args, b"", &Expected::fails(line));
        }
    }
    // An empty folder has no fish.
    std::fs::create_dir_all(tool.folder().join("none")).expect("a folder can be made");
    let args = ["matrix", "-m", "1", "none"];
    let case = format_args!("empty folder");
    tool.expect(g, case, &args, b"", &Expected::prints("fish\n"));
}
