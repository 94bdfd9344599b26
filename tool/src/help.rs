//! The help texts.

/// What several texts say.
macro_rules! shared {
    (text) => {
        "\
The text form
  One line a fish: its number, then its codes, ? for a no-call, with one space
  between. Numbers are 0 to 65535. Each line ends in a newline, the last one
  too. Nothing else: no blank lines, no other blanks, no leading zeros, no
  comments. A sequence has at most 2,048 words, a word being a code or ?.
  Two fish, the second with a no-call:

    12 3 1 1 2 1 1 4
    13 2 1 ? 4 3 1
"
    };
    (records) => {
        "\
Records
  A record is what the laboratory calls a strip: a fish's number and its
  sequence, in words of four bytes. A file holds records one after another.
"
    };
    (minimum) => {
        "\
The minimum
  A tile is a stretch of words that is the same in both fish, a retired code
  counting as the one that it stands for ('sigxume codes' lists them). Only
  tiles of at least N words count, N from 1 to 256. A small N finds short common
  stretches, of which many are chance; a large N finds only long ones.
"
    };
    (pair) => {
        "\
Operands
  One file that holds both fish, or two files with one each. A file is text or
  records; the tool sees which ('sigxume encode --help' tells of both). - is
  standard input. Where there are more than two fish, --fish names the two.
  Which of the two is first changes the sides of the tiles, and nothing else.
"
    };
    (called) => {
        "      --min-called P  leave out fish of which fewer than P per cent of the words
                      are called, P from 0 to 100, and say so\n"
    };
    (typed) => {
        "\
Badly typed fish
  A no-call is never part of a tile, so a fish with many has low scores with
  every other: it looks unrelated, and a cross of relatives looks safe. Of each
  compared fish of which less than half is called a warning says so, on standard
  error; the exit status stays as it is. --min-called leaves such fish out.
"
    };
    (output) => {
        "  -o, --output FILE   write to FILE and not to standard output; if something
                      goes wrong, FILE stays as it was; it must not be a file
                      that is read\n"
    };
    (help) => {
        "  -h, --help          this text\n"
    };
    (status) => {
        "\
Exit status
  0  all is well
  1  input was refused or could not be read, or output could not be written;
     standard error says why, and nothing is written, but by 'matrix -k'
  2  the command line is wrong
"
    };
}

// They come after the macro, which they use.
mod files;
mod pair;
mod tank;

pub use files::{DECODE, ENCODE, JOIN};
pub use pair::{COMPARE, COVER, PLOT};
pub use tank::{CODES, MATRIX};

pub const GENERAL: &str = concat!(
    "\
sigxume compares trout by their motif sequences: it finds the stretches that
are the same in two fish, and scores the pair from 0 to 1000.

Usage: sigxume SUBCOMMAND [OPTION...] [FILE...]

Subcommands
  encode   turns text into records
  decode   turns records into text
  join     makes one of two typings of the same fish, word by word
  compare  compares two fish: lists what they share, and the score
  plot     compares two fish: draws what they share, as an SVG picture
  cover    compares two fish at every minimum: a table, or the curve of scores
  matrix   compares every two of many fish: a table of scores, as CSV
  codes    lists the retired codes, and what each stands for
  help     shows help; 'sigxume help compare' is 'sigxume compare --help'

Options
  -h, --help     this text
  -V, --version  the version

Where to begin
  Write a file fish.txt with two lines, one for each fish: the fish's number,
  then its codes, ? where nothing was called.

    12 3 1 1 2 1 1 4
    13 2 1 1 4 3 1 1 1 1 2 1 1

  Then compare them, counting every common stretch of one word or more:

    sigxume compare -m 1 fish.txt

",
    shared!(records),
    "\n",
    shared!(status)
);
