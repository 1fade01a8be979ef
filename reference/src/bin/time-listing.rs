//! Times a listing program and a yardstick on one table, run in turn, output
//! included: the median of the runs in milliseconds, and their ratio. With `--without`
//! the yardstick is the program itself on that table, the same without traffic records.

use std::fs::File;
use std::io;
use std::path::Path;
use std::process::{Command, Stdio};
use std::time::Instant;

use reference::arguments::{Arguments, Usage};

const USAGE: Usage = Usage {
    text: "time-listing --program FILE --table FILE (--yardstick FILE | --without FILE) [--runs N]",
    values: &["program", "yardstick", "table", "without", "runs"],
    flags: &[],
};

fn main() -> io::Result<()> {
    let arguments = Arguments::of_process(&USAGE);
    let [program, table] = ["program", "table"].map(|name| arguments.required(name));
    let runs = arguments.number("runs", 21).max(1);
    if let Some(without) = arguments.text("without") {
        return time_traffic(program, table, without, runs);
    }
    let yardstick = arguments.required("yardstick");
    let built = Path::new(program).is_file();
    let (mut ours, mut theirs) = (Vec::new(), Vec::new());
    for _ in 0..runs {
        theirs.push(milliseconds(yardstick, table)?);
        if built {
            ours.push(milliseconds(program, table)?);
        }
    }
    let theirs = median(theirs);
    if built {
        let ours = median(ours);
        println!("{table}: Boost {theirs:.1} ms, listing {ours:.1} ms, ratio {:.2}", ours / theirs);
    } else {
        println!("{table}: Boost {theirs:.1} ms; not built yet: {program}");
    }
    Ok(())
}

/// A table with traffic records and the same without them, in turn.
fn time_traffic(program: &str, table: &str, without: &str, runs: u64) -> io::Result<()> {
    if !Path::new(program).is_file() {
        println!("{table}: not built yet: {program}");
        return Ok(());
    }
    let (mut before, mut after) = (Vec::new(), Vec::new());
    for _ in 0..runs {
        before.push(milliseconds(program, without)?);
        after.push(milliseconds(program, table)?);
    }
    let [before, after] = [before, after].map(median);
    println!("{table}: without records {before:.1} ms, with {after:.1} ms, ratio {:.2}", after / before);
    Ok(())
}

fn milliseconds(program: &str, table: &str) -> io::Result<f64> {
    let start = Instant::now();
    let status = Command::new(program).stdin(File::open(table)?).stdout(Stdio::null()).status()?;
    if !status.success() {
        return Err(io::Error::other(format!("{program} ends with {status}")));
    }
    Ok(start.elapsed().as_secs_f64() * 1_000.0)
}

fn median(mut times: Vec<f64>) -> f64 {
    times.sort_by(f64::total_cmp);
    times[times.len() / 2]
}
