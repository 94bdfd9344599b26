//! Paths of `matrix` that cannot be read.

use super::fish::{records, Fish};
use super::matrix::related_fish;
use super::matrix_bad::{check, check_sides};
use super::Tool;
use crate::group::Group;

/// Paths that cannot be read: missing ones, a folder in a folder, a link to nothing.
pub fn unreadable(g: &mut Group, tool: &Tool) {
    let all = related_fish(&mut g.random, 5);
    let file = |name: &str, all: &[Fish]| (name.to_string(), Ok(records(all)));
    let bad = |name: &str, part: &str| (name.to_string(), Err(vec![part.to_string()]));
    tool.put("good", records(&all[..2]));
    tool.remove("folder");
    tool.put("folder/a", records(&all[2..3]));
    tool.put("folder/b/inner", records(&all[3..4]));
    tool.put("folder/c", records(&all[4..]));
    tool.put("folder/.x", "x\n");
    tool.put("folder/.y/z", "x\n");
    let folder = [
        file("folder/a", &all[2..3]),
        bad("folder/b", "is a folder"),
        file("folder/c", &all[4..]),
    ];
    let good = file("good", &all[..2]);
    let missing = bad("missing", "missing");
    check(
        g,
        tool,
        format_args!("folder in a folder"),
        &["folder"],
        &folder,
        b"",
    );
    check(
        g,
        tool,
        format_args!("missing"),
        &["missing"],
        std::slice::from_ref(&missing),
        b"",
    );
    let files = [&[good.clone(), missing.clone()], &folder[..]].concat();
    let paths = ["good", "missing", "folder"];
    check(
        g,
        tool,
        format_args!("missing and folder"),
        &paths,
        &files,
        b"",
    );
    for (paths, files, against) in [
        (["good", "--against", "missing"], &good, &missing),
        (["missing", "--against", "good"], &missing, &good),
        (["missing", "--against", "missing"], &missing, &missing),
    ] {
        let sides = [files, against].map(std::slice::from_ref);
        let sides = (sides[0], Some(sides[1]));
        check_sides(g, tool, format_args!("missing side"), &paths, sides, b"");
    }
    let paths = ["good", "--against", "folder"];
    let sides = (std::slice::from_ref(&good), Some(&folder[..]));
    let case = format_args!("folder in a folder, against it");
    check_sides(g, tool, case, &paths, sides, b"");
    let files = [&folder[..], &[missing, good.clone()]].concat();
    let paths = ["folder", "missing", "good"];
    check(
        g,
        tool,
        format_args!("folder and missing"),
        &paths,
        &files,
        b"",
    );
    let link = tool.folder().join("folder/b");
    tool.remove("folder/b");
    std::os::unix::fs::symlink("nothing", link).expect("a link can be made");
    let files = [
        folder[0].clone(),
        bad("folder/b", ""),
        folder[2].clone(),
        good,
    ];
    let paths = ["folder", "good"];
    check(
        g,
        tool,
        format_args!("link to nothing"),
        &paths,
        &files,
        b"",
    );
    // Hidden files are left out of a folder, but may be named.
    tool.remove("folder/b");
    let files = [folder[0].clone(), folder[2].clone()];
    check(
        g,
        tool,
        format_args!("hidden files"),
        &["folder"],
        &files,
        b"",
    );
    let files = [("folder/.x".into(), Ok(b"x\n".to_vec()))];
    check(
        g,
        tool,
        format_args!("hidden file named"),
        &["folder/.x"],
        &files,
        b"",
    );
}
