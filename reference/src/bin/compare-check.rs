//! Compares what the program `probe_check` says of tables with the reference:
//! number, kind and word of each refusal, and the five counts. With `--exported`
//! the program is `exported/exact.c` and gives exported check's number alone.
//! After the tables of the seed come every truncation and every single-word
//! damage of several, and with `--longest` every truncation of the longest.
//! `--misread NAME` compares with a misreading, to show that it is noticed.

use std::process::ExitCode;

use reference::arguments::{Arguments, Usage};
use reference::check_line::{check_line, framed};
use reference::comparing::{started, Difference, Run};
use reference::generate::every::{every_truncation, every_word_damage};
use reference::generate::traffic::traffic;
use reference::generate::valid::{fullest, plan, Size};
use reference::path::exported_check;
use reference::program::Program;
use reference::random::Random;
use reference::rules::Rules;
use reference::words::to_text;

const USAGE: Usage = Usage {
    text: "compare-check --program FILE [--under COMMAND] [--seed N] [--first N] [--count N] [--damaged N] [--longest] [--exported] [--misread NAME] [--require]",
    values: &["program", "under", "seed", "first", "count", "damaged", "misread"],
    flags: &["longest", "exported", "require"],
};

/// How many traffic records the tables have that are truncated and damaged, where they
/// have two bridges or more.
const TRAFFIC_RECORDS: usize = 3;

fn main() -> ExitCode {
    let arguments = Arguments::of_process(&USAGE);
    let (run, rules) = (Run::of(&arguments), arguments.rules());
    let mut probe = match started("compare-check", &arguments) {
        Ok(program) => Probe { program, rules, exported: arguments.has("exported") },
        Err(code) => return code,
    };
    let seeded = run.compare("compare-check", &mut |case| probe.compare(&case.table));
    if seeded != ExitCode::SUCCESS {
        return seeded;
    }
    let damaged = damage_all(&mut probe, &run, arguments.number("damaged", 8), arguments.has("longest"));
    match damaged.and_then(|tables| probe.program.end().map(|()| tables)) {
        Ok(tables) => {
            println!("compare-check: all {tables} truncated and damaged tables agree");
            ExitCode::SUCCESS
        }
        Err(report) => {
            println!("{report}");
            ExitCode::FAILURE
        }
    }
}

/// Every truncation and every single-word damage of so many tables of a seed, and
/// every truncation of the longest where it is asked for; how many tables that
/// were, or what differs.
fn damage_all(probe: &mut Probe, run: &Run, count: u64, longest: bool) -> Result<u64, String> {
    let mut tables = 0;
    let mut compare = |of: &str, made: &mut dyn Iterator<Item = (String, Vec<u8>)>| {
        for (name, table) in made {
            tables += 1;
            let place = format!("{name} of {of}, seed {}", run.seed);
            probe.compare(&table).map_err(|difference| report(&place, &table, &difference))?;
        }
        Ok::<(), String>(())
    };
    for number in 0..count {
        let mut random = Random::for_case(run.seed, number);
        let size = Size { bridges: 2 + number as usize, vids: 2, members: 3 };
        let mut plan = plan(size, &mut random);
        plan.traffic = traffic(&plan, TRAFFIC_RECORDS, &mut random);
        let table = plan.bytes();
        compare(&format!("damaged table {number}"), &mut every_truncation(&table))?;
        compare(&format!("damaged table {number}"), &mut every_word_damage(&table))?;
    }
    if longest {
        let table = fullest(&mut Random::new(run.seed)).bytes();
        compare("the longest table", &mut every_truncation(&table))?;
    }
    Ok(tables)
}

fn report(place: &str, table: &[u8], difference: &Difference) -> String {
    let Difference { reference, tried } = difference;
    format!(
        "compare-check: FAILED at {place}\ntable, {} bytes:\n{}reference:\n{reference}\ntried:\n{tried}",
        table.len(),
        to_text(table)
    )
}

/// The program, asked table by table, and the rules that it is compared with.
struct Probe {
    program: Program,
    rules: Rules,
    exported: bool,
}

impl Probe {
    fn expected(&self, table: &[u8]) -> String {
        if self.exported {
            format!("{}\n", exported_check(self.rules, table))
        } else {
            check_line(self.rules, table)
        }
    }

    fn compare(&mut self, table: &[u8]) -> Result<(), Difference> {
        let reference = self.expected(table);
        let answers = self.program.ask(&framed(table), 1);
        let tried = answers.map_or_else(|why| format!("no answer: {why}"), |lines| lines.concat());
        if tried == reference {
            return Ok(());
        }
        Err(Difference { reference, tried })
    }
}
