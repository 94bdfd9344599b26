//! `compare --json`: the text byte for byte, and what a stock parser reads in it.

use super::compare::{any_fish_pair, known_pairs, larger};
use super::expected::{differing, Expected, Line};
use super::faults::refusal;
use super::fish::{records, text};
use super::python;
use super::results::Compared;
use super::Tool;
use crate::group::Group;
use crate::reference::MINIMUM;

/// Prints the values of each text in a form of its own.
const SCRIPT: &str = r#"
for names, d in texts():
    assert all(type(n) is int for n in d['fish'] + d['lengths'] + d['no_calls'] + [d['minimum'], d['covered'], d['score']])
    print(names, *d['fish'], d['minimum'], *d['lengths'], *d['no_calls'], d['covered'], d['score'], sep='|')
    for names, tile in d['tiles']:
        assert all(type(n) is int for n in tile.values())
        print(names, tile['first'], tile['second'], tile['length'], tile['shift'], sep='|')
"#;

/// What the script must print for a pair.
fn values(compared: &Compared) -> String {
    let ([a, b], [n, m]) = (compared.ids(), compared.lengths());
    let [p, q] = compared.no_calls();
    let mut lines = format!(
        "fish minimum lengths no_calls tiles covered score|{a}|{b}|{}|{n}|{m}|{p}|{q}|{}|{}\n",
        compared.minimum,
        compared.covered(),
        compared.score()
    );
    for tile in &compared.tiles {
        let shift = tile.second as i64 - tile.first as i64;
        lines += &format!(
            "first second length shift|{}|{}|{}|{shift}\n",
            tile.first, tile.second, tile.length
        );
    }
    lines
}

/// Known, random and large pairs.
pub fn json(g: &mut Group) {
    let tool = Tool::new(g);
    let mut pairs = known_pairs();
    pairs.extend((0..150).map(|_| any_fish_pair(g)));
    pairs.extend(larger(g));
    let (mut printed, mut expected) = (Vec::new(), String::new());
    for (number, (pair, minimum)) in pairs.iter().enumerate() {
        let compared = Compared::new(&pair[0], &pair[1], *minimum);
        let minimum = minimum.to_string();
        let args = ["compare", "--json", "-m", &minimum, "-"];
        let input = if number % 2 == 0 {
            text(pair)
        } else {
            records(pair)
        };
        let case = format_args!("pair {number}");
        let due = compared.prints(compared.json());
        tool.expect(g, case, &args, &input, &due);
        // The parser gets the bytes of the tool, not the expected ones.
        if let Ok(ran) = tool.run(&args, &input) {
            printed.extend(ran.stdout);
        }
        expected += &values(&compared);
        if number < 20 {
            tool.expect_written(g, case, &args, &input, &due);
        }
    }
    let read = python::read_texts(SCRIPT, &tool, &printed);
    let difference = read.map(|read| differing(read.as_bytes(), expected.as_bytes()));
    g.equal(format_args!("read by Python"), difference, Ok(None));
    let example =
        "{\"fish\":[12,13],\"minimum\":2,\"lengths\":[7,12],\"no_calls\":[0,0],\"tiles\":[{\"first\":1,\"second\":7,\
                   \"length\":5,\"shift\":6}],\"covered\":5,\"score\":526}\n";
    let lines = b"12 3 1 1 2 1 1 4\n13 2 1 1 4 3 1 1 1 1 2 1 1\n";
    let args = ["compare", "-", "-m", "2", "--json"];
    let case = format_args!("worked example");
    tool.expect(g, case, &args, lines, &Expected::prints(example));
    let line = Line::Is(format!("sigxume: {}", refusal(MINIMUM)));
    let args = ["compare", "--json", "-m", "0", "-"];
    let case = format_args!("minimum 0");
    tool.expect_failure(g, case, &args, lines, &Expected::fails(line));
}
