//! `cover`: pairs at every minimum, as a table and as JSON; `curves` has the picture.

use super::compare::{any_fish_pair, known_pairs, larger};
use super::expected::{differing, Expected, Line};
use super::faults::refusal;
use super::fish::{records, text, Fish};
use super::matrix::related_fish;
use super::python;
use super::results::{Covers, COVERS};
use super::Tool;
use crate::group::Group;
use crate::random::Random;
use crate::reference::{HEADER, TRAILER};
use std::fmt::Arguments;

/// Prints the values of each JSON text in a form of its own.
const SCRIPT: &str = r#"
for names, d in texts():
    assert all(type(n) is int for numbers in d.values() for n in numbers)
    print(names, *d['fish'], *d['lengths'], *d['covered'], *d['score'])
"#;

/// What the script must print for a pair.
fn values(covers: &Covers) -> String {
    let [a, b] = covers.ids;
    let [n, m] = covers.lengths;
    let mut line = format!("fish lengths covered score {a} {b} {n} {m}");
    for number in covers.covered.iter().chain(&covers.scores) {
        line += &format!(" {number}");
    }
    line + "\n"
}

/// The three texts of some pairs, each with the options that ask for it.
fn forms(pairs: &[&Covers]) -> [(&'static [&'static str], String); 3] {
    let table = |all: bool| -> String {
        let rows = pairs.iter().map(|pair| pair.rows(all));
        [COVERS.to_string()].into_iter().chain(rows).collect()
    };
    let json = pairs.iter().map(|pair| pair.json()).collect();
    [
        (&[], table(false)),
        (&["--all"], table(true)),
        (&["--json"], json),
    ]
}

/// One pair in all forms: one file of either form, two files, standard input; some written to a file.
fn one(
    g: &mut Group,
    tool: &Tool,
    case: Arguments,
    pair: &[Fish; 2],
    covers: &Covers,
    write: bool,
) {
    tool.put("both", records(pair));
    tool.put("both.txt", text(pair));
    tool.put("first", records(&pair[..1]));
    tool.put("second.txt", text(&pair[1..]));
    for (options, printed) in forms(&[covers]) {
        let expected = Covers::print(&[covers], &printed[..]);
        for files in [&["both"][..], &["both.txt"], &["first", "second.txt"]] {
            let args = [&["cover"], options, files].concat();
            tool.expect(g, case, &args, b"", &expected);
        }
        let args = [&["cover", "-"], options].concat();
        tool.expect(g, case, &args, &text(pair), &expected);
        if write {
            tool.expect_written(g, case, &args, &records(pair), &expected);
        }
    }
}

/// Fish with numbers of their own, some related, one without words.
pub fn numbered_fish(random: &mut Random) -> Vec<Fish> {
    let mut all = related_fish(random, 7);
    all.push(Fish::new(0, &[]));
    for (id, fish) in (60..).zip(&mut all) {
        fish.id = id;
    }
    all
}

/// So many pairs of different fish by their places, a pair perhaps again, and the options that name them.
pub fn any_pairs(
    random: &mut Random,
    all: &[Fish],
    count: usize,
) -> (Vec<[usize; 2]>, Vec<String>) {
    let pair = || {
        let first = random.below(all.len());
        let second = (first + 1 + random.below(all.len() - 1)) % all.len();
        let option = format!("--fish={},{}", all[first].id, all[second].id);
        ([first, second], option)
    };
    std::iter::repeat_with(pair).take(count).unzip()
}

/// Several pairs, in the order in which they are named.
fn several(g: &mut Group, tool: &Tool) {
    let all = numbered_fish(&mut g.random);
    tool.put("all", records(&all));
    tool.put("front.txt", text(&all[..3]));
    tool.put("back", records(&all[3..]));
    let row = |first: &Fish| Vec::from_iter(all.iter().map(|second| Covers::new(first, second)));
    let covers = Vec::from_iter(all.iter().map(row));
    for number in 0..25 {
        let most = g.random.pick(&[2, 6, 30]);
        let count = 1 + g.random.below(most);
        let (pairs, names) = any_pairs(&mut g.random, &all, count);
        let pairs = Vec::from_iter(pairs.iter().map(|&[a, b]| &covers[a][b]));
        let names = Vec::from_iter(names.iter().map(|name| &name[..]));
        let case = format_args!("several pairs {number}");
        for (options, printed) in forms(&pairs) {
            let expected = Covers::print(&pairs, &printed[..]);
            for files in [&["all"][..], &["front.txt", "back"]] {
                let args = [&["cover"], &names[..], options, files].concat();
                tool.expect(g, case, &args, b"", &expected);
            }
            if number < 3 {
                let args = [&["cover", "all"], options, &names].concat();
                tool.expect_written(g, case, &args, b"", &expected);
            }
        }
    }
    // Each of several pairs must be there, the last one too.
    for names in [["60,61", "60,99"], ["99,60", "60,61"], ["60,61", "61,61"]] {
        let line = match names[1] {
            "61,61" => "sigxume: fish 61 is there once: two are wanted",
            _ => "sigxume: there is no fish 99",
        };
        let expected = Expected::fails(Line::Is(line.into()));
        let args = ["cover", "--fish", names[0], "--fish", names[1], "all"];
        tool.expect_failure(g, format_args!("no such pair"), &args, b"", &expected);
    }
}

/// Input that is refused, in every form: as by `compare`.
fn bad(g: &mut Group, tool: &Tool) {
    let is = |line: String| Expected::fails(Line::Is(format!("sigxume: {line}")));
    let record = |number| format!("standard input, record 1 (word 0): {}", refusal(number));
    let rows: [(&[u8], Expected); 6] = [
        (
            b"12 1\n13 1\n14 1\n",
            is("there are 3 fish: name two of them by --fish A,B".into()),
        ),
        (b"12 1\n", is("there is 1 fish: two are wanted".into())),
        (b"", is("there are 0 fish: two are wanted".into())),
        (
            b"12 1\n13 01\n",
            Expected::fails(Line::Begins(
                "sigxume: standard input, line 2, column 4: ".into(),
            )),
        ),
        (&[0; 12], is(record(TRAILER))),
        (&[255; 12], is(record(HEADER))),
    ];
    for (input, expected) in rows {
        for options in [&[][..], &["--all"], &["--json"], &["--plot"]] {
            let args = [&["cover", "-"], options].concat();
            tool.expect_failure(g, format_args!("bad input"), &args, input, &expected);
        }
    }
}

/// Known, random and large pairs, alone and together.
pub fn cover(g: &mut Group) {
    let tool = Tool::new(g);
    let mut pairs = known_pairs();
    pairs.extend((0..50).map(|_| any_fish_pair(g)));
    pairs.extend(larger(g));
    let (mut printed, mut expected) = (Vec::new(), String::new());
    for (number, (pair, minimum)) in pairs.iter().enumerate() {
        let covers = Covers::new(&pair[0], &pair[1]);
        let case = format_args!("pair {number}, made for minimum {minimum}");
        one(g, &tool, case, pair, &covers, number < 15);
        // The parser gets the bytes of the tool, not the expected ones.
        if let Ok(ran) = tool.run(&["cover", "--json", "-"], &text(pair)) {
            printed.extend(ran.stdout);
        }
        expected += &values(&covers);
    }
    let read = python::read_texts(SCRIPT, &tool, &printed);
    let difference = read.map(|read| differing(read.as_bytes(), expected.as_bytes()));
    g.equal(format_args!("read by Python"), difference, Ok(None));
    let lines = b"12 3 1 1 2 1 1 4\n13 2 1 1 4 3 1 1 1 1 2 1 1\n";
    let example = format!("{COVERS}12,13,1,7,736\n12,13,2,5,526\n12,13,6,0,0\n");
    let case = format_args!("worked example");
    tool.expect(g, case, &["cover", "-"], lines, &Expected::prints(example));
    several(g, &tool);
    bad(g, &tool);
}
