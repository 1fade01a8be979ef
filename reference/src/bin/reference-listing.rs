//! The listing program of the separate implementation: a table's bytes on
//! standard input, its listing on standard output. `--misread NAME` lists by a
//! misreading instead, to show what it changes.

use std::io::{self, Read, Write};

use reference::arguments::{Arguments, Usage};
use reference::listing::listing;

const USAGE: Usage =
    Usage { text: "reference-listing [--misread NAME] < table", values: &["misread"], flags: &[] };

fn main() -> io::Result<()> {
    let arguments = Arguments::of_process(&USAGE);
    let mut table = Vec::new();
    io::stdin().read_to_end(&mut table)?;
    io::stdout().write_all(listing(arguments.rules(), &table).as_bytes())
}
