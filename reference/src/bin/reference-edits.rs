//! Loads and changes tables as the program `probe_edits` does, by the reference.
//! `--misread NAME` answers by a misreading instead.

use std::io::{self, BufReader, BufWriter, Read, Write};

use reference::arguments::{Arguments, Usage};
use reference::call_lines::MOST_PLACES;
use reference::edit_lines::{EditList, Session, Step};
use reference::edits::State;
use reference::requests::{at_most, next_table, word};

const USAGE: Usage =
    Usage { text: "reference-edits [--misread NAME] < tables with steps", values: &["misread"], flags: &[] };

fn main() -> io::Result<()> {
    let rules = Arguments::of_process(&USAGE).rules();
    let mut input = BufReader::new(io::stdin().lock());
    let mut output = BufWriter::new(io::stdout().lock());
    while let Some(table) = next_table(&mut input)? {
        let [length, bridge, vid, changes] = words(&mut input)?;
        let [costs, hops, lasts, count] = words(&mut input)?;
        let mut places = [costs, hops, lasts].map(|places| places as usize);
        for places in &mut places {
            *places = at_most(*places, MOST_PLACES)?;
        }
        let state = State { length, bridge, vid, changes };
        let mut session = Session::new(&table, &EditList { state, places, steps: Vec::new() });
        for _ in 0..count {
            let lines = session.lines(rules, step(&mut input)?);
            output.write_all(lines.concat().as_bytes())?;
        }
        output.flush()?;
    }
    Ok(())
}

fn words(input: &mut impl Read) -> io::Result<[u32; 4]> {
    Ok([word(input)?, word(input)?, word(input)?, word(input)?])
}

fn step(input: &mut impl Read) -> io::Result<Step> {
    let words = words(input)?;
    Step::of_words(words).ok_or(io::Error::other(format!("no step {words:?}")))
}
