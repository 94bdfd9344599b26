//! The help of the subcommands that compare two fish.

pub const COMPARE: &str = concat!(
    "\
Compares two fish: lists the stretches that they share, and the score; or only
says whether the score reaches a line.

Usage: sigxume compare -m N [--fish A,B] [--at-least L] [--min-called P]
                       [--json] [-o FILE] FILE [FILE]

",
    shared!(pair),
    "
Options
  -m, --minimum N     the least words of a tile; it must be given
      --fish A,B      compare fish A with fish B
      --at-least L    only say whether the score is at least L, from 0 to 1000
      --json          JSON in place of the listing, or of yes and no
",
    shared!(called),
    shared!(output),
    shared!(help),
    "\n",
    shared!(minimum),
    "
The listing
  FISH 12 13         the two fish
  MINIMUM 1          the minimum
  TILES 3            so many tiles; a line for each, from the longest:
  1 7 5 6            it starts at position 1 of the first fish and 7 of the
                     second (the first position is 0), has 5 words, and lies 6
                     further on in the second
  0 4 1 4
  6 3 1 -3           this one lies 3 further back in the second
  COVERED 7 OF 7 12  the tiles cover 7 words, of 7 and of 12
  NO-CALLS 0 0       so many words of the first fish and of the second are ?,
                     which no tile covers
  SCORE 736          2000 times 7, divided by 7 plus 12: from 0 to 1000

With --at-least
  AT LEAST 500 YES   the score is 500 or more; NO if it is less
  TILES 1            so many tiles were laid until that was known

  It is known when the tiles laid so far reach L by themselves; when they would
  not reach it even with all free stretches of at least N words of the shorter
  fish; or when all are laid. That may be before the first tile. The answer is
  always that of the whole comparison. The exit status is 0 for yes and for no.

JSON
  One line. fish, lengths, no_calls: of the first and the second; minimum,
  covered, score; tiles: for each its start in first and in second, its length
  and its shift, in the order of the listing. With --at-least: fish, lengths,
  no_calls, minimum; threshold: L; reached: true or false; tiles: how many were
  laid.

",
    shared!(typed),
    "\n",
    shared!(status),
    "
Examples
  sigxume compare -m 1 fish.txt
  sigxume compare -m 8 --fish 12,13 --json fish.txt
  sigxume compare -m 8 --fish 12,13 --at-least 500 fish.txt
"
);

pub const PLOT: &str = concat!(
    "\
Compares two fish: draws the stretches that they share, as an SVG picture,
which a web browser shows.

Usage: sigxume plot -m N [--fish A,B] [--min-called P] [-o FILE] FILE [FILE]

",
    shared!(pair),
    "
Options
  -m, --minimum N     the least words of a tile; it must be given
      --fish A,B      compare fish A with fish B
",
    shared!(called),
    shared!(output),
    shared!(help),
    "\n",
    shared!(minimum),
    "
The picture
  The first fish runs from left to right, the second from top to bottom. Each
  tile is a slanting line. The thin blue ones are in the same order in both
  fish; the thick orange ones have moved. The bands along the edges show what
  the tiles cover; the black marks on them, which are higher, are no-calls. A
  browser tells more where the mouse rests on a line or on a mark.

",
    shared!(typed),
    "\n",
    shared!(status),
    "
Examples
  sigxume plot -m 1 -o fish.svg fish.txt
  sigxume plot -m 8 --fish 12,13 -o fish.svg fish.txt
"
);

pub const COVER: &str = concat!(
    "\
Compares two fish at every minimum from 1 to 256: how much is covered, and the
score. One comparison, at minimum 1, tells all of it.

Usage: sigxume cover [--fish A,B]... [--all | --json | --plot]
                     [--min-called P] [-o FILE] FILE [FILE]

",
    shared!(pair),
    "
Options
      --fish A,B      compare fish A with fish B; given several times, several
                      pairs in this order
      --all           a row of the table for every minimum
      --json          JSON in place of the table
      --plot          an SVG picture in place of the table
",
    shared!(called),
    shared!(output),
    shared!(help),
    "\n",
    shared!(minimum),
    "
The table
  CSV. For each pair a row at minimum 1, and one at every minimum where less is
  covered than at the minimum before. Between two rows nothing changes:

    first_fish,second_fish,minimum,covered,score
    12,13,1,7,736
    12,13,2,5,526
    12,13,6,0,0

  So from 2 to 5 the tiles cover 5 words, and from 6 on there are none.

JSON
  A line for each pair. fish, lengths: of the first and the second; covered,
  score: 256 numbers each, the first at minimum 1 and the last at 256.

The picture
  A web browser shows it. The minimum runs from left to right, the score from
  bottom to top, and each pair is a curve that falls in steps. The curves
  differ in colour and in dashes; after twenty pairs these repeat. A browser
  tells more where the mouse rests on a curve.

",
    shared!(typed),
    "\n",
    shared!(status),
    "
Examples
  sigxume cover fish.txt
  sigxume cover --fish 12,13 --fish 12,14 --plot -o fish.svg fish.txt
"
);
