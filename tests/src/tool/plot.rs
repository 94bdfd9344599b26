//! `plot`: pairs whose pictures are read by a stock XML parser.

use super::compare::{any_fish_pair, known_pairs, larger};
use super::expected::{Expected, Line};
use super::faults::refusal;
use super::fish::{records, text, Fish};
use super::results::Compared;
use super::typing::warnings;
use super::Tool;
use super::{picture, svg};
use crate::group::Group;
use crate::known;
use crate::pairs::distinct;
use crate::reference::{exchanged, Tile, MINIMUM};

/// Pairs whose tiles are told apart in every way: all kept, one kept, chains of equal weight.
fn made() -> Vec<([Fish; 2], u32)> {
    let blocks = |order: &[usize], size: usize| -> Vec<u32> {
        let blocks = order.iter().map(|&at| distinct(at * size, size));
        blocks.collect::<Vec<_>>().concat()
    };
    let orders: [&[usize]; 6] = [
        &[0, 1, 2, 3, 4, 5],
        &[5, 4, 3, 2, 1, 0],
        &[3, 4, 5, 0, 1, 2],
        &[1, 0, 3, 2, 5, 4],
        &[2, 0, 1, 5, 3, 4],
        &[0, 9, 1, 8, 2, 7],
    ];
    let pair = |order: &&[usize], size: usize| {
        let first = blocks(orders[0], size);
        (
            [Fish::new(1, &first), Fish::new(2, &blocks(order, size))],
            1,
        )
    };
    let sizes = [1, 2, 30].into_iter();
    sizes
        .flat_map(|size| orders.iter().map(move |order| pair(order, size)))
        .collect()
}

/// Known, made, random, empty and large pairs, and the same with the fish exchanged.
pub fn plot(g: &mut Group) {
    let tool = Tool::new(g);
    let mut pairs = known_pairs();
    pairs.extend(made());
    pairs.extend((0..60).map(|_| any_fish_pair(g)));
    pairs.extend(larger(g));
    let count = pairs.len();
    for at in 0..count {
        let ([first, second], minimum) = pairs[at].clone();
        pairs.push(([second, first], minimum));
    }
    for (number, (pair, minimum)) in pairs.iter().enumerate() {
        let minimum = minimum.to_string();
        let args = ["plot", "-m", &minimum, "-"];
        let ran = tool.run(&args, &records(pair));
        let picture = ran.map(|ran| ran.stdout).unwrap_or_default();
        tool.put(&format!("{number}.svg"), &picture);
        let same = Expected::prints(picture.clone()).after(warnings(pair));
        let case = format_args!("pair {number}, again");
        g.equal(
            format_args!("pair {number}, a picture"),
            picture.is_empty(),
            false,
        );
        tool.expect(g, case, &args, &text(pair), &same);
        if number < 15 {
            tool.expect_written(g, case, &args, &text(pair), &same);
        }
    }
    let parts = svg::read(g, &tool, pairs.len(), picture::SCRIPT);
    for (number, (part, (pair, minimum))) in parts.iter().zip(&pairs).enumerate() {
        let compared = Compared::new(&pair[0], &pair[1], *minimum);
        picture::check(g, format_args!("pair {number}"), part, &compared);
    }
    // The same tiles are kept.
    for (number, (part, other)) in parts.iter().zip(&parts[count..]).enumerate() {
        let [one_way, other_way] = [part, other].map(|printed| {
            let (tiles, kept): (Vec<Tile>, Vec<bool>) =
                picture::tiles(printed)?.into_iter().unzip();
            Some((tiles, kept))
        });
        g.equal(
            format_args!("pair {number}, exchanged"),
            other_way,
            one_way.map(|(tiles, kept)| (exchanged(tiles), kept)),
        );
    }
    chosen(g, &tool);
    bad(g, &tool);
}

/// The first of the two fish that are named is the first of the picture.
fn chosen(g: &mut Group, tool: &Tool) {
    let all = [(12, "caabaad"), (13, "baadcaaaabaa"), (14, "abcde")];
    let all = all.map(|(id, name)| Fish::new(id, &known::letters(name)));
    tool.put("all", records(&all));
    for (names, pair) in [("12,14", [0, 2]), ("14,12", [2, 0]), ("13,12", [1, 0])] {
        let pair = pair.map(|at| all[at].clone());
        let ran = tool.run(&["plot", "-m", "1", "-"], &text(&pair));
        let same = Expected::prints(ran.map(|ran| ran.stdout).unwrap_or_default());
        let args = ["plot", "-m", "1", "--fish", names, "all"];
        tool.expect(g, format_args!("chosen"), &args, b"", &same);
    }
}

/// Input that is refused: as by `compare`.
fn bad(g: &mut Group, tool: &Tool) {
    let is = |line: String| Expected::fails(Line::Is(format!("sigxume: {line}")));
    let three = b"12 1\n13 1\n14 1\n";
    let case = format_args!("bad input");
    for (args, input, expected) in [
        (
            &["plot", "-m", "1", "-"][..],
            &three[..],
            is("there are 3 fish: name two of them by --fish A,B".into()),
        ),
        (
            &["plot", "-m", "1", "-", "--fish=12,99"],
            three,
            is("there is no fish 99".into()),
        ),
        (
            &["plot", "-m", "0", "-", "--fish=12,13"],
            three,
            is(refusal(MINIMUM)),
        ),
        (
            &["plot", "-m", "257", "-", "--fish=14,12"],
            three,
            is(refusal(MINIMUM)),
        ),
        (
            &["plot", "-m", "1", "-"],
            b"12 1\n13 01\n",
            Expected::fails(Line::Begins(
                "sigxume: standard input, line 2, column 4: ".into(),
            )),
        ),
        (
            &["plot", "-m", "1", "-"],
            &[0; 12],
            is(format!(
                "standard input, record 1 (word 0): {}",
                refusal(10)
            )),
        ),
        (
            &["plot", "-m", "1", "-"],
            b"",
            Expected::fails(Line::Begins("sigxume: ".into())),
        ),
    ] {
        tool.expect_failure(g, case, args, input, &expected);
    }
}
