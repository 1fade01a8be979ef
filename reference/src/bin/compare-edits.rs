//! Compares what the program `probe_edits` answers with the reference: loads, metric
//! changes and withdrawals with the state after each, refusals with number, kind and word,
//! and every place of the lent lists and every byte of the lent table after each step;
//! last a list with more changes than are made. `--misread NAME` compares with a
//! misreading, to show that it is noticed.

use std::process::ExitCode;

use reference::arguments::{Arguments, Usage};
use reference::comparing::{started, Difference, Run};
use reference::edit_lines::{answer_lines, request, EditList, LINES};
use reference::generate::edit_lists::{edit_case, edit_list, list_past_limit};
use reference::program::Program;
use reference::random::Random;
use reference::rules::Rules;

const USAGE: Usage = Usage {
    text: "compare-edits --program FILE [--seed N] [--first N] [--count N] [--misread NAME] [--require]",
    values: &["program", "seed", "first", "count", "misread"],
    flags: &["require"],
};

fn main() -> ExitCode {
    let arguments = Arguments::of_process(&USAGE);
    let (run, rules) = (Run::of(&arguments), arguments.rules());
    let mut probe = match started("compare-edits", &arguments) {
        Ok(probe) => probe,
        Err(code) => return code,
    };
    let mut steps = 0;
    let code = run.compare_cases("compare-edits", edit_case, &mut |case| {
        let list = edit_list(&case.table, &mut Random::for_case(!run.seed, case.number));
        steps += list.steps.len();
        compare(&mut probe, rules, &case.table, &list)
    });
    if code != ExitCode::SUCCESS {
        return code;
    }
    match compare_past_limit(&mut probe, rules).and_then(|more| probe.end().map(|()| more)) {
        Ok(more) => {
            println!("compare-edits: all {steps} steps agree, and {more} of a list past the limit");
            ExitCode::SUCCESS
        }
        Err(report) => {
            println!("{report}");
            ExitCode::FAILURE
        }
    }
}

/// The steps of the list past the limit, or what differs.
fn compare_past_limit(probe: &mut Program, rules: Rules) -> Result<usize, String> {
    let (table, list) = list_past_limit();
    let report = |Difference { reference, tried }| {
        format!("compare-edits: FAILED at the list past the limit\nreference:\n{reference}\ntried:\n{tried}")
    };
    compare(probe, rules, &table, &list).map_err(report)?;
    Ok(list.steps.len())
}

fn compare(probe: &mut Program, rules: Rules, table: &[u8], list: &EditList) -> Result<(), Difference> {
    let expected = answer_lines(rules, table, list);
    let tried = probe.ask(&request(table, list), expected.len());
    let tried = tried.unwrap_or_else(|why| vec![format!("no answer: {why}")]);
    difference(list, &expected, &tried)
}

/// The first step of which the lines differ, with the state and the places that the list
/// begins with.
fn difference(list: &EditList, expected: &[String], tried: &[String]) -> Result<(), Difference> {
    for (place, step) in list.steps.iter().enumerate() {
        let [reference, tried] = [expected, tried].map(|lines| {
            let of_step = LINES * place..LINES * (place + 1);
            of_step.filter_map(|place| lines.get(place)).map(String::as_str).collect::<String>()
        });
        if reference != tried {
            let begins = format!("{:?} and {:?} places", list.state, list.places);
            let shown = |lines: &str| format!("{begins}, step {place} from 0, {step:?}\n{lines}");
            return Err(Difference { reference: shown(&reference), tried: shown(&tried) });
        }
    }
    Ok(())
}
