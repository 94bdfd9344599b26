//! Arguments that are refused, and the options that there are.

/// Each subcommand with its options.
pub const OPTIONS: [(&str, &[&str]); 8] = [
    ("encode", &["-o", "--output", "-h", "--help"]),
    ("decode", &["-o", "--output", "-h", "--help"]),
    ("join", &["--typed-once", "-o", "--output", "-h", "--help"]),
    (
        "compare",
        &[
            "-m",
            "--minimum",
            "--fish",
            "--at-least",
            "--min-called",
            "--json",
            "-o",
            "--output",
            "-h",
            "--help",
        ],
    ),
    (
        "plot",
        &[
            "-m",
            "--minimum",
            "--fish",
            "--min-called",
            "-o",
            "--output",
            "-h",
            "--help",
        ],
    ),
    (
        "cover",
        &[
            "--fish",
            "--min-called",
            "--all",
            "--json",
            "--plot",
            "-o",
            "--output",
            "-h",
            "--help",
        ],
    ),
    (
        "matrix",
        &[
            "-m",
            "--minimum",
            "--pairs",
            "--part",
            "--at-least",
            "--top",
            "--against",
            "--min-called",
            "-k",
            "--keep-going",
            "--threads",
            "-o",
            "--output",
            "-h",
            "--help",
        ],
    ),
    ("codes", &["-o", "--output", "-h", "--help"]),
];

/// Arguments after `compare`, `plot` and `matrix` alike.
#[rustfmt::skip]
pub const MINIMUMS: [&[&str]; 18] = [
    &["a"], &["a", "-m"], &["a", "--minimum"], &["a", "-m", ""], &["a", "--minimum="], &["a", "-m", "x"],
    &["a", "-m", "-1"], &["a", "-m", "+1"], &["a", "-m", "1.5"], &["a", "-m", " 1"], &["a", "-m", "1 "],
    &["a", "-m", "0x1"], &["a", "-m", "4294967296"], &["a", "-m", "99999999999999999999999"],
    &["a", "-mx"], &["a", "-m=1"], &["a", "-m", "1", "-m", "1"], &["a", "-m1", "--minimum=2"],
];

/// Bad values of `--fish`.
pub const FISH: [&str; 14] = [
    "", ",", "1", "1,", ",1", "1,2,3", "a,b", "1,b", "65536,1", "1,65536", "-1,2", "1, 2", "1;2",
    "1 2",
];

/// Bad values of `--part`.
pub const PARTS: [&str; 14] = [
    "", "/", "1", "1/", "/2", "0/1", "0/0", "1/0", "2/1", "3/2", "x/2", "1/x", "1/2/3", "-1/2",
];

/// Bad values of `--at-least`, for `compare` and `matrix` alike; a number above 1,000 is for the core to refuse.
pub const THRESHOLDS: [&str; 11] = [
    "",
    "x",
    "-1",
    "+1",
    "1.5",
    "30%",
    " 300",
    "300 ",
    "0x1",
    "4294967296",
    "99999999999999999999999",
];

/// Bad values of `--min-called`.
pub const SHARES: [&str; 10] = [
    "",
    "x",
    "-1",
    "+1",
    "50.5",
    "50%",
    " 50",
    "101",
    "200",
    "99999999999999999999999",
];

/// Other arguments, with the subcommand whose help they should hint at.
#[rustfmt::skip]
pub const ROWS: &[(&str, &[&str])] = &[
    ("", &[]), ("", &["nonsense"]), ("", &[""]), ("", &["--nonsense"]), ("", &["-x"]), ("", &["Encode"]),
    ("", &["encoder"]), ("", &["-"]), ("", &["a"]),
    ("encode", &["encode", "-x"]), ("encode", &["encode", "--nonsense"]), ("encode", &["encode", "-m", "1"]),
    ("encode", &["encode", "a", "-o"]), ("encode", &["encode", "a", "--output"]),
    ("encode", &["encode", "a", "-o", "x", "-o", "y"]), ("encode", &["encode", "-ox", "a", "--output=x"]),
    ("encode", &["encode", "--all", "a"]), ("encode", &["encode", "--json", "a"]), ("encode", &["encode", "--help=x"]), ("encode", &["encode", "--out", "x"]),
    ("decode", &["decode", "-x"]), ("decode", &["decode", "--nonsense"]), ("decode", &["decode", "--minimum=1", "a"]),
    ("decode", &["decode", "a", "-o"]), ("decode", &["decode", "-o", "x", "a", "-o", "x"]),
    ("decode", &["decode", "--pairs", "a"]), ("decode", &["decode", "-k", "a"]),
    ("compare", &["compare"]), ("compare", &["compare", "-m", "1"]), ("compare", &["compare", "-m", "1", "--"]),
    ("compare", &["compare", "-m", "1", "a", "a", "a"]), ("compare", &["compare", "-m", "1", "a", "--nonsense"]),
    ("compare", &["compare", "-m", "1", "a", "-x"]), ("compare", &["compare", "-m", "1", "a", "--pairs"]),
    ("compare", &["compare", "-m", "1", "a", "-k"]), ("compare", &["compare", "-m", "1", "a", "--threads", "1"]),
    ("compare", &["compare", "-m", "1", "a", "--part", "1/1"]), ("compare", &["compare", "-m", "1", "a", "--json=1"]),
    ("compare", &["compare", "-m", "1", "a", "--json", "--json"]), ("compare", &["compare", "-m", "1", "a", "--fish"]),
    ("compare", &["compare", "-m", "1", "a", "--fish=1,2", "--fish", "1,2"]),
    ("compare", &["compare", "-m", "1", "a", "-o", "x", "--output", "x"]), ("compare", &["compare", "--", "-m", "1"]),
    ("compare", &["compare", "-m", "1", "missing", "missing", "missing"]),
    ("compare", &["compare", "-m", "1", "a", "--all"]), ("compare", &["compare", "-m", "1", "a", "--plot"]),
    ("compare", &["compare", "-m", "1", "a", "--at-least"]), ("compare", &["compare", "a", "--at-least", "300"]),
    ("compare", &["compare", "-m", "1", "a", "--at-least", "300", "--at-least=300"]), ("compare", &["compare", "-m", "1", "--at-least", "a"]),
    ("compare", &["compare", "-m", "1", "a", "--at-least", "300", "--top", "1"]), ("compare", &["compare", "-m", "1", "a", "--top", "1"]),
    ("compare", &["compare", "-m", "1", "a", "--against", "a"]), ("compare", &["compare", "-m", "1", "--at-least=300", "a", "a", "a"]),
    ("plot", &["plot"]), ("plot", &["plot", "-m", "1"]), ("plot", &["plot", "-m", "1", "a", "a", "a"]),
    ("plot", &["plot", "-m", "1", "a", "--at-least", "300"]), ("cover", &["cover", "a", "--at-least", "300"]),
    ("plot", &["plot", "-m", "1", "a", "--json"]), ("plot", &["plot", "-m", "1", "a", "--pairs"]),
    ("plot", &["plot", "-m", "1", "a", "--fish"]), ("plot", &["plot", "-m", "1", "a", "-x"]),
    ("plot", &["plot", "-m", "1", "a", "--fish", "1,2", "--fish", "1,2"]),
    ("plot", &["plot", "-m", "1", "a", "--all"]), ("plot", &["plot", "-m", "1", "a", "--plot"]),
    ("cover", &["cover"]), ("cover", &["cover", "--"]), ("cover", &["cover", "a", "a", "a"]), ("cover", &["cover", "--all"]),
    ("cover", &["cover", "a", "-x"]), ("cover", &["cover", "a", "--nonsense"]), ("cover", &["cover", "a", "-m", "1"]),
    ("cover", &["cover", "-m1", "a"]), ("cover", &["cover", "a", "--minimum=1"]), ("cover", &["cover", "a", "--pairs"]),
    ("cover", &["cover", "a", "-k"]), ("cover", &["cover", "a", "--threads", "1"]), ("cover", &["cover", "a", "--part", "1/1"]),
    ("cover", &["cover", "a", "--fish"]), ("cover", &["cover", "a", "--fish", "1,2", "--fish"]),
    ("cover", &["cover", "a", "--all=1"]), ("cover", &["cover", "a", "--json=1"]), ("cover", &["cover", "a", "--plot=1"]),
    ("cover", &["cover", "a", "--all", "--all"]), ("cover", &["cover", "a", "--json", "--json"]),
    ("cover", &["cover", "a", "--plot", "--plot"]), ("cover", &["cover", "a", "-o"]),
    ("cover", &["cover", "a", "-o", "x", "--output", "x"]), ("cover", &["cover", "a", "--all", "--json", "--plot"]),
    ("matrix", &["matrix", "-m", "1", "a", "--all"]), ("matrix", &["matrix", "-m", "1", "a", "--plot"]),
    ("matrix", &["matrix"]), ("matrix", &["matrix", "-m", "1"]), ("matrix", &["matrix", "-m", "1", "a", "-x"]),
    ("matrix", &["matrix", "-m", "1", "a", "--json"]), ("matrix", &["matrix", "-m", "1", "a", "--fish", "1,2"]),
    ("matrix", &["matrix", "-m", "1", "a", "--pairs=1"]), ("matrix", &["matrix", "-m", "1", "a", "--keep-going=1"]),
    ("matrix", &["matrix", "-m", "1", "a", "--pairs", "--pairs"]), ("matrix", &["matrix", "-m", "1", "a", "-k", "-k"]),
    ("matrix", &["matrix", "-m", "1", "a", "-k", "--keep-going"]), ("matrix", &["matrix", "-m", "1", "a", "--part", "1/2"]),
    ("matrix", &["matrix", "-m", "1", "a", "--threads"]), ("matrix", &["matrix", "-m", "1", "a", "--pairs", "--part"]),
    ("matrix", &["matrix", "-m", "1", "a", "--threads", "1", "--threads=1"]),
    ("matrix", &["matrix", "-m", "1", "a", "--pairs", "--part", "1/2", "--part", "1/2"]),
    ("matrix", &["matrix", "-m", "1", "a", "-o"]),
    ("matrix", &["matrix", "-m", "1", "a", "--at-least"]), ("matrix", &["matrix", "-m", "1", "--at-least", "a"]),
    ("matrix", &["matrix", "a", "--at-least", "300"]), ("matrix", &["matrix", "-m", "1", "--at-least", "300"]),
    ("matrix", &["matrix", "-m", "1", "a", "--at-least", "300", "--at-least", "300"]),
    ("matrix", &["matrix", "-m", "1", "a", "--at-least", "300", "--json"]), ("matrix", &["matrix", "-m", "1", "a", "--at-least=300", "--top"]),
    ("matrix", &["matrix", "-m", "1", "a", "--at-least=300", "--top", "1", "--top=1"]), ("matrix", &["matrix", "-m", "1", "a", "--against"]),
    ("matrix", &["matrix", "-m", "1", "a", "--against", "a", "--against=a"]), ("matrix", &["matrix", "-m", "1", "--against", "a"]),
    ("matrix", &["matrix", "-m", "1", "a", "--against="]), ("matrix", &["matrix", "-m", "1", "a", "--against", ""]),
    ("join", &["join"]), ("join", &["join", "a"]), ("join", &["join", "a", "a", "a", "-o", "x"]), ("join", &["join", "a", "a"]),
    ("join", &["join", "a", "a", "-o"]), ("join", &["join", "a", "a", "-o", "x", "-o", "x"]), ("join", &["join", "a", "a", "-o", ""]),
    ("join", &["join", "a", "a", "-o", "x", "-m", "1"]), ("join", &["join", "a", "a", "-o", "x", "--fish", "1,2"]),
    ("join", &["join", "a", "a", "-o", "x", "--json"]), ("join", &["join", "a", "a", "-o", "x", "--min-called", "50"]),
    ("join", &["join", "a", "a", "-o", "x", "-k"]), ("join", &["join", "a", "a", "-o", "x", "--typed-once"]),
    ("join", &["join", "a", "a", "-o", "x", "--typed-once", "keep", "--typed-once=keep"]), ("join", &["join", "-", "-", "-o", "x"]),
    ("encode", &["encode", "--min-called", "50", "a"]), ("decode", &["decode", "--typed-once=keep", "a"]),
    ("compare", &["compare", "-m", "1", "a", "--typed-once", "keep"]), ("compare", &["compare", "-m", "1", "a", "--min-called"]),
    ("matrix", &["matrix", "-m", "1", "a", "--min-called=50", "--min-called", "50"]), ("codes", &["codes", "--min-called", "50"]),
    ("codes", &["codes", "-x"]), ("codes", &["codes", "--nonsense"]), ("codes", &["codes", "-m", "1"]), ("codes", &["codes", "--json"]),
    ("codes", &["codes", "-o"]), ("codes", &["codes", "-o", "x", "-o", "x"]), ("codes", &["codes", "a", "a"]), ("codes", &["codes", "-"]),
];

/// Arguments that are refused with these words.
#[rustfmt::skip]
pub const MESSAGES: [(&str, &[&str]); 25] = [
    ("--all does not go with --json", &["cover", "a", "--all", "--json"]),
    ("--json does not go with --all", &["cover", "--json", "--all", "a"]),
    ("--all does not go with --plot", &["cover", "--all", "a", "--plot"]),
    ("--plot does not go with --all", &["cover", "--plot", "--fish=1,2", "--all", "a"]),
    ("--json does not go with --plot", &["cover", "a", "--fish=1,2", "--json", "--plot", "--fish=1,2"]),
    ("--plot does not go with --json", &["cover", "a", "--plot", "--json"]),
    ("--part goes with --pairs only", &["matrix", "-m", "1", "a", "--part", "1/2"]),
    ("--part goes with --pairs only", &["matrix", "-m", "1", "a", "--at-least", "300", "--part", "1/2"]),
    ("--part goes with --pairs only", &["matrix", "-m", "1", "a", "--against", "a", "--part", "1/2"]),
    ("--top goes with --at-least only", &["matrix", "-m", "1", "a", "--top", "1"]),
    ("--top goes with --at-least only", &["matrix", "-m", "1", "a", "--pairs", "--top", "1"]),
    ("--pairs does not go with --at-least", &["matrix", "-m", "1", "a", "--pairs", "--at-least", "300"]),
    ("--at-least does not go with --pairs", &["matrix", "-m", "1", "--at-least=300", "a", "--top=1", "--pairs", "--part=1/2"]),
    ("--at-least wants a number from 0 to 1000, not 'x'", &["compare", "-m", "1", "a", "--at-least", "x"]),
    ("--at-least wants a number from 0 to 1000", &["matrix", "-m", "1", "a", "--at-least"]),
    ("standard input is named on both sides", &["matrix", "-m", "1", "a", "-", "--against", "-"]),
    ("standard input is named on both sides", &["matrix", "--at-least=0", "--against=-", "-m", "1", "-"]),
    ("--fish is given twice", &["compare", "-m", "1", "a", "--fish", "1,2", "--fish", "3,4"]),
    ("--fish is given twice", &["plot", "-m", "1", "a", "--fish", "1,2", "--fish=3,4"]),
    ("--min-called wants a number from 0 to 100, not '101'", &["matrix", "-m", "1", "a", "--min-called", "101"]),
    ("--min-called wants a number from 0 to 100, not '50%'", &["cover", "a", "--min-called=50%"]),
    ("--typed-once wants keep or leave-out, not 'Keep'", &["join", "a", "a", "-o", "x", "--typed-once", "Keep"]),
    ("--typed-once wants keep or leave-out", &["join", "a", "a", "-o", "x", "--typed-once"]),
    ("3 files are named, at most 2 are taken", &["join", "a", "a", "a", "-o", "x"]),
    ("a file is named, but none is taken", &["codes", "a"]),
];
