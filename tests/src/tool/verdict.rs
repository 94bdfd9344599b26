//! `compare --at-least`: whether a pair's score reaches a line, in two lines and as JSON.

use super::compare::{any_fish_pair, known_pairs, larger};
use super::expected::{differing, Expected, Line};
use super::faults::{first, lines, refusal};
use super::fish::{records, text, Fish};
use super::python;
use super::results::Compared;
use super::Tool;
use crate::group::Group;
use crate::random::Random;
use crate::reference::{MINIMUM, THRESHOLD};
use std::fmt::Arguments;

/// Prints the values of each JSON text in a form of its own.
const SCRIPT: &str = r#"
for names, d in texts():
    assert all(type(n) is int for n in d['fish'] + d['lengths'] + d['no_calls'] + [d['minimum'], d['threshold'], d['tiles']])
    assert type(d['reached']) is bool
    print(names, *d['fish'], d['minimum'], *d['lengths'], *d['no_calls'], d['threshold'], int(d['reached']), d['tiles'], sep='|')
"#;

/// What the script must print for a pair.
fn values(compared: &Compared, threshold: u32) -> String {
    let ([a, b], [n, m]) = (compared.ids(), compared.lengths());
    let [p, q] = compared.no_calls();
    let told = compared.told(threshold);
    format!(
        "fish minimum lengths no_calls threshold reached tiles|{a}|{b}|{}|{n}|{m}|{p}|{q}|{threshold}|{}|{}\n",
        compared.minimum, told.reached, told.tiles
    )
}

/// Thresholds at their ends, at a pair's score, just above and below it, and others.
fn thresholds(random: &mut Random, compared: &Compared) -> Vec<u32> {
    let score = compared.score() as u32;
    let mut all = vec![0, 1, 1_000, score, score.saturating_sub(1)];
    all.extend([1_000.min(score + 1), random.below(1_001) as u32]);
    all.sort();
    all.dedup();
    all
}

/// One pair at a threshold, in both forms: one file of either form, two files, standard input; some written to a file.
fn one(
    g: &mut Group,
    tool: &Tool,
    case: Arguments,
    compared: &Compared,
    threshold: u32,
    write: bool,
) {
    let pair = [compared.first.clone(), compared.second.clone()];
    tool.put("both", records(&pair));
    tool.put("both.txt", text(&pair));
    tool.put("first", records(&pair[..1]));
    tool.put("second.txt", text(&pair[1..]));
    let (minimum, at_least) = (compared.minimum.to_string(), threshold.to_string());
    for (option, printed) in [
        (&[][..], compared.verdict(threshold)),
        (&["--json"], compared.verdict_json(threshold)),
    ] {
        let args = ["compare", "-m", &minimum, "--at-least", &at_least];
        let args = [&args[..], option].concat();
        let expected = compared.prints(&printed[..]);
        for files in [&["both"][..], &["both.txt"], &["first", "second.txt"]] {
            tool.expect(g, case, &[&args[..], files].concat(), b"", &expected);
        }
        let args = [&args[..], &["-"]].concat();
        tool.expect(g, case, &args, &text(&pair), &expected);
        if write {
            tool.expect_written(g, case, &args, &records(&pair), &expected);
        }
    }
}

/// The worked example, by hand: tiles of 5 words, 1 and 1 score 526, 631 and 736 at minimum 1. All words of the shorter
/// fish would score 736 too. At minimum 2 the tile of 5 words is alone and leaves no stretch of 2.
fn example(g: &mut Group, tool: &Tool) {
    let lines = b"12 3 1 1 2 1 1 4\n13 2 1 1 4 3 1 1 1 1 2 1 1\n";
    let case = format_args!("worked example");
    for (minimum, threshold, word, tiles) in [
        ("1", "0", "YES", 0),
        ("1", "1", "YES", 1),
        ("1", "526", "YES", 1),
        ("1", "527", "YES", 2),
        ("1", "631", "YES", 2),
        ("1", "632", "YES", 3),
        ("1", "736", "YES", 3),
        ("1", "737", "NO", 0),
        ("1", "1000", "NO", 0),
        ("2", "526", "YES", 1),
        ("2", "527", "NO", 1),
        ("2", "736", "NO", 1),
        ("2", "737", "NO", 0),
        ("8", "0", "YES", 0),
        ("8", "1", "NO", 0),
    ] {
        let printed = format!("AT LEAST {threshold} {word}\nTILES {tiles}\n");
        let args = ["compare", "-m", minimum, "--at-least", threshold, "-"];
        tool.expect(g, case, &args, lines, &Expected::prints(printed));
        let reached = word == "YES";
        let printed = format!(
            "{{\"fish\":[12,13],\"minimum\":{minimum},\"lengths\":[7,12],\"no_calls\":[0,0],\"threshold\":{threshold},\
             \"reached\":{reached},\"tiles\":{tiles}}}\n"
        );
        let args = [&args[..], &["--json"]].concat();
        tool.expect(g, case, &args, lines, &Expected::prints(printed));
    }
    // The same fish the other way round.
    let args = ["compare", "-m1", "--fish=13,12", "-", "--at-least=600"];
    let expected = Expected::prints("AT LEAST 600 YES\nTILES 2\n");
    tool.expect(g, case, &args, lines, &expected);
}

/// Thresholds that are refused: after what is read, and after the minimum.
fn refused(g: &mut Group, tool: &Tool) {
    let (pair, _) = any_fish_pair(g);
    tool.put("pair", records(&pair));
    for (minimum, threshold, number) in [
        ("1", "1001", THRESHOLD),
        ("256", "4294967295", THRESHOLD),
        ("0", "1000", MINIMUM),
        ("257", "1001", MINIMUM),
    ] {
        let line = Line::Is(format!("sigxume: {}", refusal(number)));
        let bad = first(&lines(b"x\n")).expect("a fault");
        for option in [&[][..], &["--json"]] {
            let args = ["compare", "-m", minimum, "--at-least", threshold];
            let args = [&args[..], option].concat();
            let case = format_args!("threshold");
            let expected = Expected::fails(line.clone());
            tool.expect_failure(g, case, &[&args[..], &["pair"]].concat(), b"", &expected);
            let expected = Expected::fails(bad.line("standard input"));
            tool.expect_failure(g, case, &[&args[..], &["-"]].concat(), b"x\n", &expected);
        }
    }
}

/// Known, random and large pairs.
pub fn verdict(g: &mut Group) {
    let tool = Tool::new(g);
    example(g, &tool);
    let mut pairs: Vec<([Fish; 2], u32)> = known_pairs();
    pairs.extend((0..60).map(|_| any_fish_pair(g)));
    pairs.extend(larger(g));
    let (mut printed, mut expected) = (Vec::new(), String::new());
    for (number, (pair, minimum)) in pairs.iter().enumerate() {
        let compared = Compared::new(&pair[0], &pair[1], *minimum);
        let minimum = minimum.to_string();
        for threshold in thresholds(&mut g.random, &compared) {
            let case = format_args!("pair {number}");
            one(g, &tool, case, &compared, threshold, number % 8 == 0);
            let at_least = format!("--at-least={threshold}");
            let args = ["compare", "--json", "-m", &minimum, &at_least, "-"];
            // The parser gets the bytes of the tool, not the expected ones.
            if let Ok(ran) = tool.run(&args, &text(pair)) {
                printed.extend(ran.stdout);
            }
            expected += &values(&compared, threshold);
        }
    }
    let read = python::read_texts(SCRIPT, &tool, &printed);
    let difference = read.map(|read| differing(read.as_bytes(), expected.as_bytes()));
    g.equal(format_args!("read by Python"), difference, Ok(None));
    refused(g, &tool);
}
