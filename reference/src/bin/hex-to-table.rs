//! Hexadecimal text on standard input, a table's bytes on standard output.

use std::io::{self, Read, Write};
use std::process::ExitCode;

use reference::arguments::{Arguments, Usage};
use reference::words::from_text;

const USAGE: Usage = Usage { text: "hex-to-table < text > table", values: &[], flags: &[] };

fn main() -> io::Result<ExitCode> {
    Arguments::of_process(&USAGE);
    let mut text = String::new();
    io::stdin().read_to_string(&mut text)?;
    match from_text(&text) {
        Ok(table) => io::stdout().write_all(&table).map(|()| ExitCode::SUCCESS),
        Err(why) => {
            eprintln!("hex-to-table: {why}");
            Ok(ExitCode::FAILURE)
        }
    }
}
