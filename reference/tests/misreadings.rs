//! Every misreading makes at least one property fail, and the list of which; and
//! names every comparer that can notice it. What another order of PATHIDs changes.

use std::collections::{BTreeMap, BTreeSet};

use reference::call_lines::{answer_lines, Question};
use reference::check_line::check_line;
use reference::edit_lines;
use reference::generate::edit_lists::{edit_case, edit_list};
use reference::generate::questions::questions;
use reference::generate::service_plans::service_case;
use reference::generate::service_questions::service_questions;
use reference::generate::stream::{case, Case};
use reference::listing::listing;
use reference::properties::{Property, Setting, ALL};
use reference::random::Random;
use reference::rules::{Comparer, Misreading, Rules};
use reference::service_lines;

/// Fewer tables than for the rules as written are enough to meet a misreading.
const TABLES: u64 = 60;

/// Nearly every misreading that shows in an answer shows in so many tables.
const COMPARED_TABLES: u64 = 200;

/// Left out here: it takes longer than all others together.
const LONGEST_PROPERTY: &str = "demand_3_on_largest_plans";

/// The modules of properties of calls that no other call uses, by their comparers. To try
/// misreadings of these calls with the other properties and comparers would take longer
/// than all else.
const APART: [(Comparer, &[&str]); 2] =
    [(Comparer::Services, &["services_read", "services_written"]), (Comparer::Edits, &["edits"])];

/// The modules that a misreading is tried with, where it is of calls that stand apart.
fn modules_apart(misreading: Misreading) -> Option<&'static [&'static str]> {
    APART.iter().find(|(comparer, _)| misreading.noticed_by() == [*comparer]).map(|(_, modules)| *modules)
}

fn may_catch(property: &Property, misreading: Misreading) -> bool {
    let is_tried = modules_apart(misreading).is_none_or(|modules| modules.contains(&property.module));
    property.name != LONGEST_PROPERTY && is_tried
}

fn caught_by(misreading: Misreading) -> Vec<&'static str> {
    let setting = Setting { rules: Rules::with(misreading), seed: 1, tables: TABLES };
    let properties = ALL.iter().filter(|property| may_catch(property, misreading));
    properties.filter(|property| (property.run)(&setting).is_err()).map(|property| property.name).collect()
}

#[test]
fn every_misreading_is_caught() {
    let mut missed = Vec::new();
    for &misreading in Misreading::ALL {
        let properties = caught_by(misreading);
        println!(
            "{misreading:?} ({}): caught by {} properties: {}",
            misreading.description(),
            properties.len(),
            properties.join(", ")
        );
        if properties.is_empty() {
            missed.push(misreading);
        }
    }
    assert!(missed.is_empty(), "no property fails for {missed:?}");
}

/// What a comparer holds against a program's answer to one table.
fn compared(comparer: Comparer, rules: Rules, Case { number, table, .. }: &Case) -> String {
    match comparer {
        Comparer::Listing => listing(rules, table),
        Comparer::Check => check_line(rules, table),
        Comparer::Calls => {
            let questions = questions(table, &mut Random::for_case(!1, *number));
            answer_lines(rules, table, &questions).concat()
        }
        Comparer::Services => {
            let questions = service_questions(table, &mut Random::for_case(!1, *number));
            service_lines::answer_lines(rules, table, &questions).concat()
        }
        Comparer::Edits => {
            let list = edit_list(table, &mut Random::for_case(!1, *number));
            edit_lines::answer_lines(rules, table, &list).concat()
        }
    }
}

/// How many tables each comparer is given here; a list of edits takes longer than questions.
fn compared_tables(comparer: Comparer) -> u64 {
    if comparer == Comparer::Edits {
        COMPARED_TABLES / 2
    } else {
        COMPARED_TABLES
    }
}

/// A table that a comparer asks about.
fn compared_case(comparer: Comparer, number: u64) -> Case {
    match comparer {
        Comparer::Services => service_case(1, number),
        Comparer::Edits => edit_case(1, number),
        Comparer::Listing | Comparer::Check | Comparer::Calls => case(1, number),
    }
}

/// That a comparer does notice what names it is tried with the programs
/// themselves; here, that no misreading leaves one out.
#[test]
fn every_comparer_that_can_notice_a_misreading_is_named() {
    for comparer in Comparer::ALL {
        for number in 0..compared_tables(comparer) {
            let case = compared_case(comparer, number);
            let as_written = compared(comparer, Rules::AS_WRITTEN, &case);
            for &misreading in Misreading::ALL {
                let same = || compared(comparer, Rules::with(misreading), &case) == as_written;
                let named = misreading.noticed_by().contains(&comparer);
                assert!(
                    named || modules_apart(misreading).is_some() || same(),
                    "{} can notice {misreading:?}: {}",
                    comparer.name(),
                    case.name
                );
            }
        }
    }
}

/// The lines about a table by the call that answers them, and by their first word where
/// the listing has them.
fn lines_by_name(rules: Rules, Case { number, table, .. }: &Case) -> BTreeMap<String, Vec<String>> {
    let call = |question: &Question| match question {
        Question::Path { .. } => "called path",
        Question::Tree { .. } => "called tree",
        Question::Entries { .. } => "called entries",
    };
    let questions = questions(table, &mut Random::for_case(!1, *number));
    let mut by_name: BTreeMap<String, Vec<String>> = BTreeMap::new();
    for (question, line) in questions.iter().zip(answer_lines(rules, table, &questions)) {
        by_name.entry(call(question).to_string()).or_default().push(line);
    }
    for line in listing(rules, table).lines() {
        let word = line.split(' ').next().expect("a line has a first word");
        by_name.entry(format!("listed {word}")).or_default().push(line.to_string());
    }
    by_name
}

/// Another order of PATHIDs shows in every call that finds paths, in path, entry and load
/// lines, and nowhere else.
#[test]
fn another_order_of_pathids_shows_in_every_call_that_finds_paths() {
    let wanted =
        ["called entries", "called path", "called tree", "listed entry", "listed load", "listed path"];
    let cases: Vec<Case> = (0..COMPARED_TABLES).map(|number| case(1, number)).collect();
    for misreading in Misreading::OF_PATHID_ORDER {
        let mut shown = BTreeSet::new();
        for case in &cases {
            let [as_written, misread] =
                [Rules::AS_WRITTEN, Rules::with(misreading)].map(|rules| lines_by_name(rules, case));
            let names: BTreeSet<&String> = as_written.keys().chain(misread.keys()).collect();
            let differ = names.into_iter().filter(|name| as_written.get(*name) != misread.get(*name));
            shown.extend(differ.cloned());
        }
        assert_eq!(shown.into_iter().collect::<Vec<_>>(), wanted, "{misreading:?}");
    }
}
