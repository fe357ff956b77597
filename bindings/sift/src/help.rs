//! What `--help` and `--version` say, and the options of each job.

use crate::frame::MAX_HEIGHT;
use crate::options::Takes;
use siftpebble::{CONTEXTS, MAX_KEY, MAX_ROWS, MAX_WIDTH};

pub const GENERAL: &str = "\
sift packs black-and-white pages and reads them back, each class with its learned table.

  sift pack PAGE.pbm... -o FILE    packs pages into one file
  sift unpack FILE -o DIR          reads them back
  sift show FILE                   lists pages, bands, bytes and counts, and so checks the file
  sift look FILE                   prints the table that the class learned
  sift JOB --help                  says more of a job
  sift --version

A file named - is standard input or output; -- ends the options.
The status is 0, or 1 if data or a file is at fault, or 2 if the command line is.
";

pub const PACK_TAKES: &[Takes] = &[
    ("--school", true),
    ("--class", true),
    ("--rows", true),
    ("-o", true),
    ("--force", false),
    ("--quiet", false),
];

pub fn pack() -> String {
    format!(
        "\
sift pack [--school N] [--class N] [--rows R] [--force] [--quiet] PAGE.pbm... -o FILE

Packs PBM pages (P1 or P4, one or more in a file, - for standard input) into FILE. The table
that the class learns goes on from page to page, in the order given.

  --school N   the school's number, 1 to {MAX_KEY}; 1 if not given
  --class N    the class's number, 1 to {MAX_KEY}; 1 if not given
  --rows R     the rows of a band, 1 to {MAX_ROWS}; {MAX_ROWS} if not given
  -o FILE      the packed file, - for standard output
  --force      replaces FILE if it is there
  --quiet      shows no progress on the terminal

A page has at most {MAX_WIDTH} pels in a row and {MAX_HEIGHT} rows. It keeps its file's name; the second
picture of sheet.pbm is named sheet-2.pbm, and those of standard input page.pbm, page-2.pbm
and so on. Two pages of one name are refused.
"
    )
}

pub const UNPACK_TAKES: &[Takes] = &[
    ("-o", true),
    ("--plain", false),
    ("--force", false),
    ("--quiet", false),
];

pub const UNPACK: &str = "\
sift unpack [--plain] [--force] [--quiet] FILE -o DIR

Reads the pages of a packed file (- for standard input) and writes each into DIR, as a PBM file
with the page's name.

  -o DIR       the directory, made if it is not there; - for all pages on standard output
  --plain      writes P1 in place of P4
  --force      replaces files that are there
  --quiet      shows no progress on the terminal

A page with a damaged band is not written, nor is any page after it, since it needs the table
learned from that page. Pages before it are whole, and are written. The status is then 1.

Where a byte of 90 or more stands just after an FF in a band's code, sift says \"not a code of
ours: marker FF xx at byte n\": it never writes that, so this is rather a wrong file than a cut
one. The FF is byte n, counted from 0, of the code of the band that is named.
";

pub const SHOW_TAKES: &[Takes] = &[("--bands", false), ("--quiet", false)];

pub const SHOW: &str = "\
sift show [--bands] [--quiet] FILE

Reads every band of a packed file (- for standard input) and lists the pages: their bands, the
bytes of their rows and of their codes, S, the revisits, and what the codes save beside the rows.
S is the number of shifts. The revisits are the pels that made at least one shift, each of which
had the class's estimate for such a pel revisited.

  --bands      lists every band too
  --quiet      shows no progress on the terminal

The status is 0 only if every page came back as it was packed. A marker in a band's code is named
as unpack names it.
";

pub const LOOK_TAKES: &[Takes] = &[("--quiet", false)];

pub fn look() -> String {
    format!(
        "\
sift look [--quiet] FILE

Reads a packed file (- for standard input) and prints the table that its class has learned after
the last page: a line for each of the {CONTEXTS} contexts. A line has the context's number; its
neighbours, black ones as #: five in the row above, from x-2 to x+2, and the two before the
pel; the index of its row in the Q-table, 0 to 29, where a higher one is more certain; and its
sense, which is the pel expected, 0 white or 1 black.

  --quiet      shows no progress on the terminal
"
    )
}

pub fn version() -> String {
    format!("sift {}\n", env!("CARGO_PKG_VERSION"))
}
