//! A table's bytes on standard input, hexadecimal text on standard output.

use std::io::{self, Read, Write};

use reference::arguments::{Arguments, Usage};
use reference::words::to_text;

const USAGE: Usage = Usage { text: "table-to-hex < table > text", values: &[], flags: &[] };

fn main() -> io::Result<()> {
    Arguments::of_process(&USAGE);
    let mut table = Vec::new();
    io::stdin().read_to_end(&mut table)?;
    io::stdout().write_all(to_text(&table).as_bytes())
}
