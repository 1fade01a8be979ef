//! Answers questions about service advertisements as the program `probe_services` does,
//! by the reference. `--misread NAME` answers by a misreading instead.

use std::io::{self, BufReader, Read, Write};

use reference::arguments::{Arguments, Usage};
use reference::requests::{at_most, bytes, next_table, word};
use reference::service_lines::{
    answer_lines, ServiceQuestion, MOST_BYTES, MOST_WORDS, MOST_WRITTEN_BYTES, READ, WRITE,
};

const USAGE: Usage = Usage {
    text: "reference-services [--misread NAME] < tables with questions",
    values: &["misread"],
    flags: &[],
};

fn main() -> io::Result<()> {
    let rules = Arguments::of_process(&USAGE).rules();
    let mut input = BufReader::new(io::stdin().lock());
    let mut output = io::stdout().lock();
    while let Some(table) = next_table(&mut input)? {
        let count = word(&mut input)?;
        let questions =
            (0..count).map(|_| question(&mut input)).collect::<io::Result<Vec<ServiceQuestion>>>()?;
        output.write_all(answer_lines(rules, &table, &questions).concat().as_bytes())?;
        output.flush()?;
    }
    Ok(())
}

fn question(input: &mut impl Read) -> io::Result<ServiceQuestion> {
    let [call, first, second, places] = [word(input)?, word(input)?, word(input)?, word(input)?];
    let places = places as usize;
    match call {
        READ => {
            let sub_tlv = bytes(input, first as usize, MOST_BYTES)?;
            Ok(ServiceQuestion::Read { sub_tlv, places: at_most(places, MOST_WORDS)? })
        }
        WRITE => {
            let places = at_most(places, MOST_WRITTEN_BYTES)?;
            Ok(ServiceQuestion::Write { bridge: first, vid: second, places })
        }
        _ => Err(io::Error::other(format!("no call {call}"))),
    }
}
