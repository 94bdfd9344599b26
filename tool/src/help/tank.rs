//! The help of `matrix`, and of `codes`.

pub const MATRIX: &str = concat!(
    "\
Compares every two of many fish: a table of scores, as CSV, which a
spreadsheet opens; or a list of the pairs that reach a line.

Usage: sigxume matrix -m N [OPTION...] PATH...

Operands
  Files of text or records; the tool sees which ('sigxume encode --help' tells
  of both). - is standard input. Of a folder all files are taken, in the order
  of their names, but not those whose names begin with a dot; a folder in it
  is an error.

Options
  -m, --minimum N     the least words of a tile; it must be given
      --pairs         a line for each pair, in place of the table
      --part K/N      with --pairs: part K of N, so that N machines can share
                      the work; the parts one after another are the whole
      --at-least L    in place of the table a list of the pairs with a score of
                      at least L, from 0 to 1000
      --top N         with --at-least: the first N of the list
      --against PATH  compare each fish of the operands with each one of PATH,
                      a file or a folder, and no others
  -k, --keep-going    leave out what is bad, and say so
      --threads N     use N threads; otherwise as many as there are cores
",
    shared!(called),
    shared!(output),
    shared!(help),
    "\n",
    shared!(minimum),
    "
The table
  A row and a column for each fish, in the order read. Each pair is compared
  once, and its score stands in both halves, as it does not matter which of the
  two is first. No fish is compared with itself:

    fish,12,13,14
    12,,736,500
    13,736,,800
    14,500,800,

  With --pairs each pair stands once, in the order of the rows; the row and the
  column are counted from 1, and the last two columns are the no-calls of both
  fish. (The heading is one line.)

    row,column,first_fish,second_fish,tiles,covered,score,
        first_no_calls,second_no_calls
    1,2,12,13,3,7,736,0,0

With --at-least
  The pairs that reach L are listed, the highest score first. Equal scores are
  in the order of --pairs, and rows and columns are counted as there:

    row,column,first_fish,second_fish,covered,score
    2,3,13,14,10,800
    1,2,12,13,7,736

  Each pair is asked as by 'sigxume compare --at-least'. Only those that reach L
  are compared to the end, which gives covered and score.

With --against
  The fish of the operands are the rows, those of PATH the columns, each side
  counted from 1. So dams are compared with sires, and neither with their own:

    fish,20,21
    12,736,500
    13,285,0

  It goes with --pairs and with --at-least too. The same file may be on both
  sides: then each fish is compared with itself as well, and with every other
  one twice.

With --keep-going
  Of a file of text only the bad lines are left out; of a file of records the
  bad one and all after it; a file that cannot be read, whole. The rest is
  compared and written, and the exit status is 1 all the same.

",
    shared!(typed),
    "
  Rows and columns are then counted of the fish that are left, on both sides of
  --against.

",
    shared!(status),
    "
Examples
  sigxume matrix -m 8 -o scores.csv fish.txt
  sigxume matrix -m 8 --pairs fish.txt
  sigxume matrix -m 8 --at-least 300 --top 20 fish.txt
  sigxume matrix -m 8 --at-least 300 --against sires.txt dams.txt
"
);

pub const CODES: &str = concat!(
    "\
Lists the retired codes, and what each stands for.

Usage: sigxume codes [-o FILE]

Options
",
    shared!(output),
    shared!(help),
    "
The list
  65000 11           one line each: the retired code, and the code that it
                     stands for; the retired ones rise

Retired codes
  The laboratory gave some codes up, and older files still carry them. When
  fish are compared, a retired code counts as the code that it stands for: it
  matches that code, and every other one that stands for it. Files need no
  change: encode and decode leave every code as it is, and positions are those
  of the words in the file. The codes as they stand decide one thing: where two
  fish have equally many words, which of equally long stretches is laid first.

",
    shared!(status),
    "
Examples
  sigxume codes
  sigxume codes -o retired.txt
"
);
