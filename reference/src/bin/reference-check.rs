//! Answers what is said of tables as the program `probe_check` does, by the reference.
//! `--misread NAME` answers by a misreading instead.

use std::io::{self, BufReader, Write};

use reference::arguments::{Arguments, Usage};
use reference::check_line::check_line;
use reference::requests::next_table;

const USAGE: Usage =
    Usage { text: "reference-check [--misread NAME] < tables", values: &["misread"], flags: &[] };

fn main() -> io::Result<()> {
    let rules = Arguments::of_process(&USAGE).rules();
    let mut input = BufReader::new(io::stdin().lock());
    let mut output = io::stdout().lock();
    while let Some(table) = next_table(&mut input)? {
        output.write_all(check_line(rules, &table).as_bytes())?;
        output.flush()?;
    }
    Ok(())
}
