//! Answers questions for path, tree and entries as the program `probe_calls` does, by the
//! reference. `--misread NAME` answers by a misreading instead.

use std::io::{self, BufReader, Read, Write};

use reference::arguments::{Arguments, Usage};
use reference::call_lines::{answer_lines, Question};
use reference::requests::{next_table, word};

const USAGE: Usage = Usage {
    text: "reference-calls [--misread NAME] < tables with questions",
    values: &["misread"],
    flags: &[],
};

fn main() -> io::Result<()> {
    let rules = Arguments::of_process(&USAGE).rules();
    let mut input = BufReader::new(io::stdin().lock());
    let mut output = io::stdout().lock();
    while let Some(table) = next_table(&mut input)? {
        let count = word(&mut input)?;
        let questions = (0..count).map(|_| question(&mut input)).collect::<io::Result<Vec<Question>>>()?;
        output.write_all(answer_lines(rules, &table, &questions).concat().as_bytes())?;
        output.flush()?;
    }
    Ok(())
}

fn question(input: &mut impl Read) -> io::Result<Question> {
    let mut words = [0; 7];
    for place in &mut words {
        *place = word(input)?;
    }
    Question::of_words(words).ok_or(io::Error::other(format!("no question {words:?}")))
}
