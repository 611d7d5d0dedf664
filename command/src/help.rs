//! What `--help` prints.
use crate::arguments::Topic;

pub fn text(topic: Topic) -> &'static str {
    match topic {
        Topic::All => ALL,
        Topic::Solve => SOLVE,
        Topic::Factor => FACTOR,
        Topic::Structure => STRUCTURE,
        Topic::Convert => CONVERT,
        Topic::Picture => PICTURE,
        Topic::Sheet => SHEET,
        Topic::Load => LOAD,
        Topic::Check => CHECK,
    }
}

const ALL: &str = "\
lilac solves sparse systems M x = b with the proved library Lilacpliers.

  lilac solve FILE       print the solution
  lilac factor FILE      keep the factors in a file, so that a restart need not eliminate again
  lilac structure FILE   print how much the elimination fills in, and the slots of each form
  lilac convert A B      turn a Matrix Market file (.mtx) into a matrix file (.lp), or back
  lilac picture FILE     draw the fill as an SVG picture
  lilac sheet FILE       print the fill place by place, on pages
  lilac load N SEED      make the test load of N rows, which is the same everywhere
  lilac check FILE X     print how far X is from meeting each equation, and which neighbouring scores cannot be told
                         apart

FILE is a matrix file or a Matrix Market file; its contents tell which. FILE of solve may be a factor file too, which
its name tells: it ends in .lf. The name - is standard input, and standard output where something is written.
A matrix has up to 4096 rows and 65536 entries. A position may have several: their values are added in the order of
FILE, each sum rounded. lilac COMMAND --help says more about a command.

Exit status: 0 done; 1 the library refused the system, the floor, the scores, or the size of a load; 2 bad usage, or a
file that cannot be read or written, such as a factor file that is refused.
Places, rows and columns count from 0, but lines, rows and columns of a Matrix Market file from 1.
Messages go to standard error, and so do signs of life when the work takes over a second.
";

const SOLVE: &str = "\
lilac solve FILE [options]

Solves M x = b and prints x, one number a line, by own column. A printed number reads back to the same bits.
FILE may be a factor file, which `lilac factor` makes, if its name ends in .lf. Then --right is due, and form, orders
and floor are those that it was made with.

  --form plain|shared|row     how the factors are stored (plain); the answer is the same, bit for bit
  --right FILE                b: n plain numbers, or a Matrix Market file of one column
                              (that of the matrix file; all ones for a Matrix Market file)
  --order FILE                one order for rows and columns: the numbers 0 to n - 1, place by place
                              (that of the matrix file; 0, 1, .. for a Matrix Market file)
  --rows FILE                 the order of the rows alone, and
  --columns FILE              the order of the columns alone, in place of --order
  --floor F                   refuse a pivot whose magnitude is at most F, a decimal number, zero or greater
                              (0, under which only a pivot of zero is refused)
  --hex                       print the 16 hexadecimal digits of each number's bits
  --refusals words|numbers    say a refusal in plain words (the default) or as `refused NUMBER PLACE`
  -o FILE                     write to FILE instead of standard output

A refusal has exit status 1 and prints no number. A factor file that is refused has exit status 2.
";

const FACTOR: &str = "\
lilac factor FILE -o F.lf [options]

Factors M in the plain form and writes the factors, with the orders, as a factor file. `lilac solve F.lf --right B`
then solves for B without eliminating again, to the same bits; a name that ends in .lf is a factor file's. A right side
that FILE has is not looked at.

  --order FILE                one order for rows and columns: the numbers 0 to n - 1, place by place
                              (that of the matrix file; 0, 1, .. for a Matrix Market file)
  --rows FILE                 the order of the rows alone, and
  --columns FILE              the order of the columns alone, in place of --order
  --floor F                   refuse a pivot whose magnitude is at most F, a decimal number, zero or greater
                              (0, under which only a pivot of zero is refused)
  --refusals words|numbers    say a refusal in plain words (the default) or as `refused NUMBER PLACE`
  -o FILE                     write to FILE instead of standard output, which must be no terminal
";

const STRUCTURE: &str = "\
lilac structure FILE [options]

Prints the counts of the elimination, the slots that its lists use in the plain, the shared and the row form, and what
sharing saves in per cent. Where a position has several entries, the stored positions are counted besides.

  --order FILE                one order for rows and columns: the numbers 0 to n - 1, place by place
  --rows FILE                 the order of the rows alone, and
  --columns FILE              the order of the columns alone, in place of --order
  --refusals words|numbers    say a refusal in plain words (the default) or as `refused NUMBER PLACE`
";

const CONVERT: &str = "\
lilac convert A B [options]

Turns A.mtx into B.lp, or A.lp into B.mtx; the names of the files tell which.

  --right FILE                from .mtx: read the right side from FILE (all ones without it)
                              from .lp: write the right side to FILE, as Matrix Market where FILE ends in .mtx
  --order FILE                from .mtx: read one order for rows and columns from FILE (0, 1, .. without it)
                              from .lp: write the order to FILE
  --rows FILE                 the order of the rows alone, and
  --columns FILE              the order of the columns alone, in place of --order
  --refusals words|numbers    say a refusal in plain words (the default) or as `refused NUMBER PLACE`

A Matrix Market file holds neither right side nor order: what is left behind is said on standard error.
A position with several entries keeps them all, in their order. Orders that are none are not converted.
";

const PICTURE: &str = "\
lilac picture FILE [options]

Draws the matrix in elimination order, row k being place k, as an SVG picture: stored entries dark, fill lighter, and
upper lists (rows) and lower columns that share index slots in the shared form in one hue. A position with several
entries is one cell. Counts and slots stand beside it, up to 64 places the slots of each row too. Beyond 200 places a
cell is a square of positions, the darker the denser.

  --order FILE                one order for rows and columns: the numbers 0 to n - 1, place by place
  --rows FILE                 the order of the rows alone, and
  --columns FILE              the order of the columns alone, in place of --order
  --refusals words|numbers    say a refusal in plain words (the default) or as `refused NUMBER PLACE`
  -o FILE                     write to FILE instead of standard output
";

const SHEET: &str = "\
lilac sheet FILE [options]

Prints the fill sheet, for whoever tunes orders: pages of 50 lines, each of 40 characters. Line 1 of a page has FILL in
columns 1 to 4 and the number of the page, from 1, in the last 6. The other 49 lines are places in elimination order;
those behind the last place are blank. A place has five numbers, with blanks on their left:

  columns 1 to 6      place k, from 0
  columns 7 to 14     its own row, counted from 0 for a Matrix Market file too
  columns 15 to 22    the length of lower row k: the filled positions of row k left of the diagonal, stored entries
                      among them
  columns 23 to 30    the length of T(k), upper list k: those right of the diagonal
  columns 31 to 40    where T(k) starts in the upper index store of the shared form

  --order FILE                one order for rows and columns: the numbers 0 to n - 1, place by place
  --rows FILE                 the order of the rows alone, and
  --columns FILE              the order of the columns alone, in place of --order
  --refusals words|numbers    say a refusal in plain words (the default) or as `refused NUMBER PLACE`
  -o FILE                     write to FILE instead of standard output

A refusal has exit status 1 and prints no page; a FILE that was to be written is left as it was.
";

const LOAD: &str = "\
lilac load N SEED [options]

Makes the test load of N rows, 1 to 4096, from SEED, 0 to 65535, and writes it as a matrix file. The same N and SEED
give the same bytes everywhere, so that whoever has them can compare fill and solution.

Row k has 4 at column k, then three draws. A draw sets the seed to (seed * 25173 + 13849) mod 65536 and puts -1 at
column (seed div 16) mod N, unless the row has that column; the seed runs on from row to row. The orders are 0, 1, ..,
and the right side is all ones. No claim is made on pivots: whether a load can be solved, a solve tells. Beyond some
2600 rows its fill is more than a store may hold, and a solve is refused.

  --refusals words|numbers    say a refusal in plain words (the default) or as `refused NUMBER PLACE`
  -o FILE                     write to FILE instead of standard output; a Matrix Market file where FILE ends in .mtx,
                              which loses nothing, since right side and orders are those that it is taken to have;
                              FILE may not end in .lf

Standard output that is a terminal gets no matrix file.
";

const CHECK: &str = "\
lilac check FILE X [options]

Prints for each row, the greatest score first: its number, counted from 0, its score in X, the residual of its equation
there, and a width. The residual is b less each value times its score, in the order of FILE, each operation rounded
once; the exact residual of the stored numbers is never farther from it than the width. A position with several entries
has as many products.

All other scores held, a row's own equation moves its score by at most the residual's magnitude and the width together,
divided by the magnitude of the row's value on the diagonal. Where these ranges of a score and the next one meet,
`cannot be told apart` stands between their lines. This is no bound of a score's whole error. Scores without the mark
may still stand in the wrong order. Row i is taken to belong to score i, whatever the orders of FILE; a row without a
value on the diagonal leaves its score any range. The last line names the row whose residual has the most widths; up to
1 nothing computed tells its equation from one that is met.

X is n plain numbers, as lilac solve prints them, or a Matrix Market file of one column.

  --right FILE                b: n plain numbers, or a Matrix Market file of one column
                              (that of the matrix file; all ones for a Matrix Market file)
  --hex                       print the 16 hexadecimal digits of each number's bits; read X in decimal all the same
  --refusals words|numbers    say a refusal in plain words (the default) or as `refused NUMBER PLACE`
  -o FILE                     write to FILE instead of standard output

A refusal has exit status 1 and prints no row.
";
