//! Compares a listing program with the reference listing, table by table.
//! `--misread NAME` compares with a misreading, to show that it is noticed.

use std::io::{self, ErrorKind, Write};
use std::process::{Child, Command, ExitCode, Stdio};

use reference::arguments::{Arguments, Usage};
use reference::comparing::{absent, text_difference, Difference, Run};
use reference::listing::listing;

const USAGE: Usage = Usage {
    text: "compare-listing [--program FILE] [--seed N] [--first N] [--count N] [--misread NAME] [--require]",
    values: &["program", "seed", "first", "count", "misread"],
    flags: &["require"],
};

fn main() -> ExitCode {
    let arguments = Arguments::of_process(&USAGE);
    let program = arguments.text("program").unwrap_or("target/bin/listing");
    if let Some(code) = absent(program, arguments.has("require")) {
        return code;
    }
    let rules = arguments.rules();
    Run::of(&arguments).compare("compare-listing", &mut |case| {
        let expected = listing(rules, &case.table);
        match listed_by(program, &case.table) {
            Ok(text) => text_difference(&expected, &text),
            Err(why) => {
                Err(Difference { reference: expected.lines().take(3).collect(), tried: why.to_string() })
            }
        }
    })
}

/// What the program prints for a table. Its exit status is left open, but it is
/// to end by itself.
fn listed_by(program: &str, table: &[u8]) -> io::Result<String> {
    let mut child = Command::new(program).stdin(Stdio::piped()).stdout(Stdio::piped()).spawn()?;
    send(&mut child, table)?;
    let output = child.wait_with_output()?;
    if output.status.code().is_none() {
        return Err(io::Error::other(format!("the program was ended: {}", output.status)));
    }
    String::from_utf8(output.stdout).map_err(io::Error::other)
}

/// Sends a table and closes the input. A program may stop reading before the end
/// of a table that is too long.
fn send(child: &mut Child, table: &[u8]) -> io::Result<()> {
    let mut input = child.stdin.take().expect("the input is piped");
    match input.write_all(table) {
        Err(error) if error.kind() == ErrorKind::BrokenPipe => Ok(()),
        other => other,
    }
}
