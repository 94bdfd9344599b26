//! 64 records of 2,048 words: `matrix` on all 2,016 pairs, and the other subcommands on the same files.

use super::expected::Expected;
use super::fish::{records, text, Fish};
use super::results::{Compared, Matrix};
use super::Tool;
use crate::group::Group;
use crate::pairs::{calls, families};
use crate::random::Random;
use crate::reference::{tiling, MAX_WORDS};

const MINIMUM: u32 = 12;

/// Tables, lists and parts, by any number of threads, from a folder and from one file.
pub fn large(g: &mut Group) {
    let tool = Tool::new(g);
    let sequences = families(&mut g.random, [8, 8], MAX_WORDS, 40);
    let all: Vec<Fish> = (0..)
        .zip(&sequences)
        .map(|(id, words)| Fish::new(id, words))
        .collect();
    let matrix = Matrix::new(&all, MINIMUM);
    for (a, b) in [(0, 7), (3, 5), (8, 40), (63, 1)] {
        let literal = tiling(&all[a].words, &all[b].words, MINIMUM as usize);
        let tiles = Compared::new(&all[a], &all[b], MINIMUM).tiles;
        g.equal(format_args!("fish {a} and {b}"), tiles, literal);
    }
    // The families show: the pairs within one have the higher scores.
    let alike = matrix.pairs().filter(|(_, cell)| cell.score > 300).count();
    g.equal(format_args!("pairs within families"), alike, 8 * 28);
    for (number, fish) in all.iter().enumerate() {
        tool.put(&format!("folder/{number:02}"), fish.record());
    }
    tool.put("all", records(&all));
    tool.put("all.txt", text(&all));
    let minimum = MINIMUM.to_string();
    for (option, made) in matrix.layouts() {
        for rest in [
            &["folder"][..],
            &["all.txt"],
            &["--threads", "1", "all"],
            &["--threads=2", "all"],
            &["--threads", "7", "folder"],
        ] {
            let args = [&["matrix", "-m", &minimum], option, rest].concat();
            let case = format_args!("64 fish");
            tool.expect(g, case, &args, b"", &made);
        }
    }
    for part in 1..=5 {
        let option = format!("{part}/5");
        let args = [
            "matrix", "-m", &minimum, "--pairs", "--part", &option, "all",
        ];
        let case = format_args!("64 fish");
        tool.expect(g, case, &args, b"", &matrix.part(part, 5));
    }
    let args = ["matrix", "-m", &minimum, "all"];
    let table = matrix.prints(matrix.table());
    tool.expect_written(g, format_args!("64 fish"), &args, b"", &table);
    others(g, &tool, &all);
    many(g, &tool);
}

/// Encoded and decoded, and one pair of them listed and drawn.
fn others(g: &mut Group, tool: &Tool, all: &[Fish]) {
    let case = format_args!("64 fish");
    let minimum = MINIMUM.to_string();
    let encoded = Expected::prints(records(all));
    tool.expect(g, case, &["encode", "all.txt"], b"", &encoded);
    tool.expect(
        g,
        case,
        &["decode", "all"],
        b"",
        &Expected::prints(text(all)),
    );
    let pair = [all[43].clone(), all[41].clone()];
    let compared = Compared::new(&pair[0], &pair[1], MINIMUM);
    let alone = tool.run(&["plot", "-m", &minimum, "-"], &text(&pair));
    let drawn = alone.map(|ran| ran.stdout).unwrap_or_default();
    for file in ["all", "all.txt"] {
        for (args, printed) in [
            (&["compare"][..], compared.listing().into_bytes()),
            (&["compare", "--json"], compared.json().into_bytes()),
            (&["plot"], drawn.clone()),
        ] {
            let args = [args, &["-m", &minimum, "--fish", "43,41", file]].concat();
            tool.expect(g, case, &args, b"", &compared.prints(printed));
        }
    }
}

/// Very many fish of few words.
pub fn many_fish(random: &mut Random) -> Vec<Fish> {
    let fish = |id| {
        let length = random.pick(&[0, 1, 5, 12]);
        Fish::new(id, &calls(random, length, 3))
    };
    (0..300).map(fish).collect()
}

/// Rows must come in order whichever thread is first.
fn many(g: &mut Group, tool: &Tool) {
    let all = many_fish(&mut g.random);
    let matrix = Matrix::new(&all, 1);
    tool.put("many.txt", text(&all));
    for threads in ["1", "2", "9"] {
        let args = ["matrix", "-m1", "--threads", threads, "many.txt"];
        let case = format_args!("300 fish");
        tool.expect(g, case, &args, b"", &matrix.prints(matrix.table()));
        let args = [&args[..], &["--pairs"]].concat();
        tool.expect(g, case, &args, b"", &matrix.prints(matrix.whole_list()));
    }
}
