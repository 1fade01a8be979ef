//! Compares what the program `probe_services` answers with the reference: sub-TLVs read
//! and written, refusals with number, kind and word, and every place of the lent lists
//! after each call. `--misread NAME` compares with a misreading, to show that it is
//! noticed.

use std::process::ExitCode;

use reference::arguments::{Arguments, Usage};
use reference::comparing::{started, Difference, Run};
use reference::generate::service_plans::service_case;
use reference::generate::service_questions::service_questions;
use reference::random::Random;
use reference::service_lines::{answer_lines, request, ServiceQuestion};

const USAGE: Usage = Usage {
    text: "compare-services --program FILE [--seed N] [--first N] [--count N] [--misread NAME] [--require]",
    values: &["program", "seed", "first", "count", "misread"],
    flags: &["require"],
};

fn main() -> ExitCode {
    let arguments = Arguments::of_process(&USAGE);
    let (run, rules) = (Run::of(&arguments), arguments.rules());
    let mut probe = match started("compare-services", &arguments) {
        Ok(probe) => probe,
        Err(code) => return code,
    };
    let mut asked = 0;
    let code = run.compare_cases("compare-services", service_case, &mut |case| {
        let questions = service_questions(&case.table, &mut Random::for_case(!run.seed, case.number));
        asked += questions.len();
        let expected = answer_lines(rules, &case.table, &questions);
        let tried = probe.ask(&request(&case.table, &questions), questions.len());
        let tried = tried.unwrap_or_else(|why| vec![format!("no answer: {why}")]);
        difference(&questions, &expected, &tried)
    });
    if code != ExitCode::SUCCESS {
        return code;
    }
    if let Err(report) = probe.end() {
        println!("{report}");
        return ExitCode::FAILURE;
    }
    println!("compare-services: all {asked} questions agree");
    ExitCode::SUCCESS
}

/// The first question of which the lines differ.
fn difference(
    questions: &[ServiceQuestion],
    expected: &[String],
    tried: &[String],
) -> Result<(), Difference> {
    for (place, question) in questions.iter().enumerate() {
        let [reference, tried] = [expected, tried].map(|lines| lines.get(place).map_or("", String::as_str));
        if reference != tried {
            let shown = |line: &str| format!("{question:?}\n{line}");
            return Err(Difference { reference: shown(reference), tried: shown(tried) });
        }
    }
    Ok(())
}
