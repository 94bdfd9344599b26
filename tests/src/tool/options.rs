//! Options in every form in which they may be written.

use super::expected::Expected;
use super::fish::{records, text, Fish};
use super::matrix::related_fish;
use super::results::{Compared, Covers, Matrix, COVERS};
use super::Tool;
use crate::group::Group;
use std::ffi::OsStr;
use std::os::unix::ffi::OsStrExt;

/// Arguments that mean the same.
fn same(g: &mut Group, tool: &Tool, expected: &Expected, rows: &[&[&str]]) {
    for args in rows {
        tool.expect(g, format_args!("option"), args, b"", expected);
    }
}

/// Short and long options, with their values after a blank, after `=` or at once; before and after operands.
pub fn options(g: &mut Group) {
    let tool = Tool::new(g);
    let mut all = related_fish(&mut g.random, 4);
    for (id, fish) in (7..).zip(&mut all) {
        fish.id = id;
    }
    for name in ["a", "-a", "--json", "-"] {
        tool.put(name, records(&all));
    }
    let compared = Compared::new(&all[1], &all[0], 2);
    #[rustfmt::skip]
    same(g, &tool, &compared.prints(compared.listing()), &[
        &["compare", "-m", "2", "--fish", "8,7", "a"], &["compare", "-m2", "--fish=8,7", "a"],
        &["compare", "a", "--minimum", "2", "--fish", "8,7"], &["compare", "--minimum=2", "a", "--fish=8,7"],
        &["compare", "--fish", "8,7", "a", "-m", "2"], &["compare", "-m", "2", "--fish", "8,7", "--", "a"],
        &["compare", "-m", "2", "--fish", "8,7", "--", "-a"], &["compare", "-m", "2", "--fish", "8,7", "--", "--json"],
        &["compare", "-m", "2", "--fish", "8,7", "./-"],
    ]);
    #[rustfmt::skip]
    same(g, &tool, &compared.prints(compared.json()), &[
        &["compare", "-m", "2", "--fish", "8,7", "a", "--json"], &["compare", "--json", "-m2", "--fish=8,7", "--", "--json"],
        &["compare", "a", "--json", "--fish=8,7", "--minimum", "2"],
    ]);
    #[rustfmt::skip]
    same(g, &tool, &compared.prints(compared.verdict(300)), &[
        &["compare", "-m", "2", "--fish", "8,7", "--at-least", "300", "a"], &["compare", "--at-least=300", "-m2", "--fish=8,7", "a"],
        &["compare", "a", "--at-least", "0300", "--fish=8,7", "-m2", "-o", "-"],
    ]);
    #[rustfmt::skip]
    same(g, &tool, &compared.prints(compared.verdict_json(0)), &[
        &["compare", "-m2", "--fish=8,7", "a", "--json", "--at-least", "0"], &["compare", "--at-least=0", "--json", "-m2", "--fish=8,7", "--", "-a"],
    ]);
    let [first, second] = [[1, 0], [2, 3]].map(|[a, b]| Covers::new(&all[a], &all[b]));
    #[rustfmt::skip]
    same(g, &tool, &Covers::print(&[&first], first.table()), &[
        &["cover", "--fish", "8,7", "a"], &["cover", "a", "--fish=8,7"], &["cover", "--fish=8,7", "--", "-a"],
        &["cover", "--fish", "8,7", "--", "--json"], &["cover", "./-", "--fish", "8,7", "-o", "-"],
    ]);
    #[rustfmt::skip]
    same(g, &tool, &Covers::print(&[&first, &second], COVERS.to_string() + &first.rows(true) + &second.rows(true)), &[
        &["cover", "--all", "--fish", "8,7", "--fish", "9,10", "a"], &["cover", "--fish=8,7", "a", "--fish=9,10", "--all"],
        &["cover", "a", "--fish=8,7", "--all", "--fish", "9,10"],
    ]);
    #[rustfmt::skip]
    same(g, &tool, &Covers::print(&[&second, &first], second.json() + &first.json() + &second.json()), &[
        &["cover", "--fish", "9,10", "--fish", "8,7", "--fish", "9,10", "--json", "a"],
        &["cover", "--json", "a", "--fish=9,10", "--fish=8,7", "--fish=9,10"],
    ]);
    let matrix = Matrix::new(&all, 3);
    #[rustfmt::skip]
    same(g, &tool, &matrix.prints(matrix.table()), &[
        &["matrix", "-m", "3", "a"], &["matrix", "-m3", "a"], &["matrix", "a", "--minimum", "3"],
        &["matrix", "--minimum=3", "a"], &["matrix", "-m3", "--threads", "2", "a"], &["matrix", "a", "-m3", "--threads=64"],
        &["matrix", "-k", "-m3", "a"], &["matrix", "--keep-going", "a", "-m3"], &["matrix", "-m3", "--", "-a"],
    ]);
    #[rustfmt::skip]
    same(g, &tool, &matrix.prints(matrix.whole_list()), &[
        &["matrix", "--pairs", "-m", "3", "a"], &["matrix", "-m3", "a", "--pairs", "--part", "1/1"],
        &["matrix", "--part=1/1", "--pairs", "-m3", "a"],
    ]);
    #[rustfmt::skip]
    same(g, &tool, &matrix.prints(matrix.whole_ranking(40)), &[
        &["matrix", "--at-least", "40", "-m", "3", "a"], &["matrix", "-m3", "a", "--at-least=40"],
        &["matrix", "-m3", "--top", "6", "a", "--at-least=40"], &["matrix", "-m3", "--top=6", "--at-least", "040", "--", "-a"],
        &["matrix", "-m3", "--at-least", "40", "./-", "--threads=2", "-k"],
    ]);
    let sides = Matrix::sides([&all, &all], 3);
    #[rustfmt::skip]
    same(g, &tool, &sides.prints(sides.table()), &[
        &["matrix", "-m3", "a", "--against", "a"], &["matrix", "--against=a", "-m3", "a"], &["matrix", "--against", "-a", "-m3", "--", "-a"],
        &["matrix", "-m3", "a", "--against=./-"], &["matrix", "--against", "--json", "a", "-m3"],
    ]);
    #[rustfmt::skip]
    same(g, &tool, &sides.prints(sides.whole_ranking(0)), &[
        &["matrix", "-m3", "a", "--against", "a", "--at-least", "0"], &["matrix", "--at-least=0", "--against=a", "-m3", "--top=16", "a"],
    ]);
    #[rustfmt::skip]
    same(g, &tool, &matrix.prints(matrix.table()), &[
        &["matrix", "-m3", "--min-called", "0", "a"], &["matrix", "a", "--min-called=0", "-m3"], &["matrix", "-m3", "--min-called=000", "--", "-a"],
    ]);
    names(g, &tool, &all);
}

/// Names of files that are not UTF-8.
fn names(g: &mut Group, tool: &Tool, all: &[Fish]) {
    let name = OsStr::from_bytes(b"fish\xFF.txt");
    std::fs::write(tool.folder().join(name), text(all)).expect("a file can be written");
    let ran = tool.command(&["encode"]).arg(name).output();
    let difference = match ran {
        Ok(ran) => Expected::prints(records(all)).difference(&ran),
        Err(error) => Some(error.to_string()),
    };
    g.equal(format_args!("a name that is not UTF-8"), difference, None);
}
