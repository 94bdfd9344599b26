//! The help of the subcommands that make files of fish.

pub const ENCODE: &str = concat!(
    "\
Turns text into records.

Usage: sigxume encode [-o FILE] [FILE...]

Operands
  Files of text, taken one after another; - or none at all is standard input.

Options
",
    shared!(output),
    shared!(help),
    "
Records are binary and not for a screen: name a file by -o, or pass them on.

",
    shared!(text),
    "
  sigxume decode gives such a file back byte for byte.

",
    shared!(records),
    "\n",
    shared!(status),
    "
Examples
  sigxume encode -o fish.rec fish.txt
  sigxume encode fish.txt | sigxume decode
"
);

pub const DECODE: &str = concat!(
    "\
Turns records into text.

Usage: sigxume decode [-o FILE] [FILE...]

Operands
  Files of records, taken one after another; - or none at all is standard
  input.

Options
",
    shared!(output),
    shared!(help),
    "\n",
    shared!(text),
    "\n",
    shared!(records),
    "\n",
    shared!(status),
    "
Examples
  sigxume decode fish.rec
  sigxume decode -o fish.txt fish.rec
"
);

pub const JOIN: &str = concat!(
    "\
Makes one of two typings of the same fish, word by word.

Usage: sigxume join [--typed-once keep | leave-out] -o FILE FIRST SECOND

Operands
  Two files, each of text or records; the tool sees which ('sigxume encode
  --help' tells of both). One of them may be -, which is standard input. Every
  fish of FIRST is joined with the fish of SECOND that has the same number. In
  one file a number must not stand twice, and the two typings of a fish must
  have equally many words.

Options
      --typed-once W  what becomes of a fish that is in one file only: keep, its
                      record stays as it is; leave-out, it is left out. It is
                      named in either case. Without this option it is kept
  -o, --output FILE   write the joined records to FILE; it must be given, and
                      must not be a file that is read. If something goes wrong,
                      FILE stays as it was
",
    shared!(help),
    "
How words are joined
  Where both typings have a call and the calls match, a retired code counting as
  the one that it stands for, FIRST's is taken as it stands. Where one has ?,
  the other's is taken. Where they have calls that do not match, ? is written:
  nobody can know which is right. FILE has the fish in the order of FIRST, then
  those that are in SECOND only. 'sigxume decode FILE' shows them.

  A conflict that is joined away is forgotten. So three typings may depend on
  the order in which they are joined: look at the column conflict first, and
  join them in the same order always.

The report
  CSV on standard output, a line for each fish that was joined:

    fish,words,agreed,filled,conflict,uncalled
    12,7,4,1,1,1

  Of 7 words 4 agreed, 1 was called in one typing only and filled in, 1 was in
  conflict, and 1 was called in neither. A joined fish of which less than half
  is called is named in a warning.

",
    shared!(status),
    "
Examples
  sigxume join first.txt second.txt -o joined.rec
  sigxume join --typed-once leave-out first.rec second.txt -o joined.rec
"
);
