//! What `--help` prints.

/// The commands.
pub const ALL: &str = "\
galz: making, trying and seeing a yard

  galz pack TEXT DIR       write the files of a yard that is written as text
  galz unpack DIR          print the text of the files
  galz judge DIR           is the plan cleared?
  galz resolve DIR         the moves that carry the plan out, with their rounds
  galz draw DIR            the plan of the move list
  galz rounds DIR          the rounds of the move list
  galz picture DIR -o FILE draw the yard (FILE.svg) or play the moves (FILE.html)

DIR holds the files MAP, PLACING, PLAN and MOVES; a missing one counts as a file
of length 0. judge, resolve, draw and rounds call the proved library.

Status: 0 success, 1 a refusal, 2 misuse (wrong words, text that can't be read,
a file that can't be read or written). galz COMMAND --help says more.
";

pub const PACK: &str = "\
galz pack TEXT DIR

Reads the yard of the file TEXT (- for standard input) and writes MAP and
PLACING into DIR, PLAN if the text has a plan and MOVES if it has moves. A PLAN
or MOVES of before that the text doesn't have is removed.

A text has one entry on a line; # begins a comment. Points, zones and carts are
numbered from 0, and a number is 0 to 255.

  zone Z KIND P P ...      zones in order; KIND is stack, hall, clique or ring,
                           then its points in listed order
  track A B                a track between two points of different zones; the
                           tracks inside a zone come with its kind
  cart C start P goal P    carts in order
  plan                     a plan follows, of as many steps as there are
  step cart C from P to P [behind C] [follow C C ...]
  moves                    a move list follows
  move cart C from P to P

Rarely needed:

  points N                 how many points there are, if not as many as listed
  tracks listed            the map has just the tracks written, in that order

Text that can't be read is told as TEXT:LINE:COLUMN with what was expected.
";

pub const UNPACK: &str = "\
galz unpack DIR

Prints the text of the files in DIR, in the form that pack reads: packing it
again gives the same files, byte for byte. Files of refused yards are printed as
well, as long as their fields can be read.
";

pub const JUDGE: &str = "\
galz judge DIR [--explain]

Judges PLAN on MAP and PLACING: prints `cleared`, or `refused NUMBER PLACE` as
the proved library returns them.

  --explain   a second line says in words what is wrong
";

pub const RESOLVE: &str = "\
galz resolve DIR [--explain] [-o FILE] [--room BYTES]

Resolves PLAN on MAP and PLACING: prints `moves N`, then cart, from, to and round
of each move, a move on a line; or `refused NUMBER PLACE` as the proved library
returns them.

  --explain     a second line says in words what is wrong
  -o FILE       write the move list (DIR/MOVES is where draw and rounds look)
  --room BYTES  the length of the buffer lent to the library (65536)
";

pub const DRAW: &str = "\
galz draw DIR [--explain] [-o FILE] [--room BYTES]

Draws the plan of MOVES on MAP and PLACING: prints `steps N`, then cart, from,
to, behind and any follow list of each step, a step on a line; or
`refused NUMBER PLACE` as the proved library returns them.

  --explain     a second line says in words what is wrong
  -o FILE       write the plan (DIR/PLAN is where judge and resolve look)
  --room BYTES  the length of the buffer lent to the library (65536)
";

pub const ROUNDS: &str = "\
galz rounds DIR [--explain] [-o FILE] [--room BYTES]

Gives the moves of MOVES on MAP and PLACING their rounds: prints `moves N`, then
cart, from, to and round of each move, a move on a line; or
`refused NUMBER PLACE` as the proved library returns them.

  --explain     a second line says in words what is wrong
  -o FILE       write the round sheet
  --room BYTES  the length of the buffer lent to the library (65536)
";

pub const PICTURE: &str = "\
galz picture DIR -o FILE.svg
galz picture DIR -o FILE.html

FILE.svg shows the yard: each zone as a coloured group with its points in listed
order, the tracks, each cart at its start and a flag at its goal.

FILE.html is one page that plays the moves round by round: those of MOVES if
there is such a file, or those that PLAN is resolved into. Space plays and
stops, the arrow keys step, Home and End go to the first and last round. The end
of the address can name a round: FILE.html#round=3.
";
