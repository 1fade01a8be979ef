//! Lists of steps for the program `probe_edits`: tables loaded and changed, as its input
//! holds them, and the two lines that it writes for each step.

use std::fmt::{Display, Write};

use crate::call_lines::untouched;
use crate::check_line::{framed, refused};
use crate::edits::{change, load, Change, State};
use crate::refusal::Refusal;
use crate::rules::Rules;
use crate::tree::TreeLists;
use crate::words::bytes_of;

/// The numbers by which a step names its call.
const LOAD: u32 = 1;
const METRIC: u32 = 2;
const WITHDRAWAL: u32 = 3;

/// What stands in the word of a step that is ignored: no metric, bridge or VID.
const IGNORED: u32 = u32::MAX;

/// The lines of each step.
pub const LINES: usize = 2;

#[derive(Clone, Copy, PartialEq, Eq, Debug)]
pub enum Step {
    Load { bridge: u32, vid: u32 },
    Change(Change),
}

impl Step {
    fn words(self) -> [u32; 4] {
        match self {
            Step::Load { bridge, vid } => [LOAD, bridge, vid, IGNORED],
            Step::Change(Change::Metric { near, port, metric }) => [METRIC, near, port, metric],
            Step::Change(Change::Withdrawal { near, port }) => [WITHDRAWAL, near, port, IGNORED],
        }
    }

    /// The step of these words; none where they have no call.
    pub fn of_words([call, first, second, third]: [u32; 4]) -> Option<Step> {
        match call {
            LOAD => Some(Step::Load { bridge: first, vid: second }),
            METRIC => Some(Step::Change(Change::Metric { near: first, port: second, metric: third })),
            WITHDRAWAL => Some(Step::Change(Change::Withdrawal { near: first, port: second })),
            _ => None,
        }
    }
}

/// The state before the first step, the places of the three lists, and the steps.
#[derive(Clone, PartialEq, Eq, Debug)]
pub struct EditList {
    pub state: State,
    pub places: [usize; 3],
    pub steps: Vec<Step>,
}

/// A table after its length, the state and the numbers of places and steps, the steps.
pub fn request(table: &[u8], EditList { state, places, steps }: &EditList) -> Vec<u8> {
    let [costs, hops, lasts] = places.map(|places| places as u32);
    let State { length, bridge, vid, changes } = *state;
    let mut bytes = framed(table);
    bytes.extend(bytes_of(&[length, bridge, vid, changes, costs, hops, lasts, steps.len() as u32]));
    bytes.extend(steps.iter().flat_map(|step| bytes_of(&step.words())));
    bytes
}

/// The lines of each step: the answer, or `refused` with number, kind and word, the state
/// after the step and every place of the lent lists; then every byte of the lent table.
pub fn answer_lines(rules: Rules, table: &[u8], list: &EditList) -> Vec<String> {
    let mut session = Session::new(table, list);
    list.steps.iter().flat_map(|&step| session.lines(rules, step)).collect()
}

/// A table with its state and lent lists, from step to step.
pub struct Session {
    pub state: State,
    pub table: Vec<u8>,
    /// Costs, hops and last bridges but one.
    pub lists: [Vec<u32>; 3],
}

impl Session {
    pub fn new(table: &[u8], list: &EditList) -> Session {
        Session { state: list.state, table: table.to_vec(), lists: list.places.map(untouched) }
    }

    /// A load is of all the lent bytes as they are.
    pub fn take(&mut self, rules: Rules, step: Step) -> Result<&'static str, Refusal> {
        let [costs, hops, before_last] = &mut self.lists;
        let lists = TreeLists { costs, hops, before_last };
        match step {
            Step::Load { bridge, vid } => {
                self.state = load(rules, &self.table, bridge, vid, lists)?;
                Ok("loaded")
            }
            Step::Change(made) => {
                change(rules, &mut self.state, made, &mut self.table, lists)?;
                Ok("changed")
            }
        }
    }

    /// The step's lines after it is taken.
    pub fn lines(&mut self, rules: Rules, step: Step) -> [String; LINES] {
        let answer = self.take(rules, step);
        let State { length, bridge, vid, changes } = self.state;
        let mut first = answer.map_or_else(refused, str::to_string);
        append(&mut first, &[length, bridge, vid, changes]);
        self.lists.iter().for_each(|list| append(&mut first, list));
        let mut second = String::new();
        append(&mut second, &self.table);
        [first, second].map(|line| line + "\n")
    }
}

/// A space and the number, for each number.
fn append<T: Display>(line: &mut String, numbers: &[T]) {
    for number in numbers {
        write!(line, " {number}").expect("a text takes any number");
    }
}

#[cfg(test)]
mod tests {
    use super::*;
    use crate::words::from_text;

    fn worked() -> Vec<u8> {
        from_text(include_str!("../../examples/two-bridges.hex")).expect("hexadecimal text")
    }

    /// The worked example's half-links by words 6 to 11, and the bytes around them.
    const BRIDGES: &str = " 16 0 0 1 128 0 2 0 0 0 0 1 16 0 0 2 128 0 2 0 0 0 0 2";
    const REST: &str = " 48 10 0 1 66 0 1 0 0 0 0 10 65 0 1 0 0 1 0 10 240 0 0";

    fn list(state: [u32; 4], places: [usize; 3], steps: &[Step]) -> EditList {
        let [length, bridge, vid, changes] = state;
        EditList { state: State { length, bridge, vid, changes }, places, steps: steps.to_vec() }
    }

    #[test]
    fn each_step_has_a_line_of_its_answer_and_a_line_of_its_bytes() {
        let steps = [
            Step::Change(Change::Withdrawal { near: 0, port: 1 }),
            Step::Load { bridge: 1, vid: 10 },
            Step::Change(Change::Metric { near: 1, port: 2, metric: 258 }),
            Step::Change(Change::Metric { near: 1, port: 1, metric: 0 }),
            Step::Change(Change::Withdrawal { near: 0, port: 1 }),
            Step::Load { bridge: 1, vid: 10 },
        ];
        let loaded = format!("{BRIDGES} 32 0 0 10 0 0 0 1 0 1 0 7 32 0 0 12 0 1 0 0 0 2 0 7{REST} 17\n");
        let changed = format!("{BRIDGES} 32 0 0 10 0 0 0 1 0 1 0 7 32 0 1 2 0 1 0 0 0 2 0 7{REST} 17\n");
        let behind = " 65 0 1 0 0 1 0 10 240 0 0 17";
        let withdrawn = format!("{BRIDGES} 32 0 1 2 0 1 0 0 0 2 0 7{REST} 14{behind}\n");
        let lines = [
            "refused 1 none 0 0 5 6 7 4000000000 4000000001 4000000000 4000000001 4000000002 4000000000 4000000001\n",
            &loaded,
            "loaded 72 1 10 0 12 0 1 0 4000000002 1 1\n",
            &loaded,
            "changed 72 1 10 1 258 0 1 0 4000000002 1 1\n",
            &changed,
            "refused 17 none 0 72 1 10 1 258 0 1 0 4000000002 1 1\n",
            &changed,
            "changed 60 1 10 2 0 0 0 0 4000000002 65535 1\n",
            &withdrawn,
            "refused 10 15 14 60 1 10 2 0 0 0 0 4000000002 65535 1\n",
            &withdrawn,
        ];
        let made = answer_lines(Rules::AS_WRITTEN, &worked(), &list([0, 5, 6, 7], [2, 3, 2], &steps));
        assert_eq!(made, lines);
    }

    #[test]
    fn a_table_without_bytes_has_an_empty_line() {
        let steps = [Step::Load { bridge: 0, vid: 1 }];
        let made = answer_lines(Rules::AS_WRITTEN, &[], &list([4, 3, 2, 1], [0; 3], &steps));
        assert_eq!(made, ["refused 1 none 0 4 3 2 1\n", "\n"]);
    }

    #[test]
    fn steps_stand_after_state_and_places() {
        let steps = [
            Step::Load { bridge: 9, vid: 10 },
            Step::Change(Change::Metric { near: 11, port: 12, metric: 13 }),
            Step::Change(Change::Withdrawal { near: 14, port: 15 }),
        ];
        let bytes = request(&[0xF0, 0, 0, 0], &list([1, 2, 3, 4], [5, 6, 7], &steps));
        let words = [
            [4, 0xF000_0000].as_slice(),
            &[1, 2, 3, 4, 5, 6, 7, 3],
            &[1, 9, 10, IGNORED],
            &[2, 11, 12, 13],
            &[3, 14, 15, IGNORED],
        ];
        assert_eq!(bytes, bytes_of(&words.concat()));
        assert_eq!(steps.map(|step| Step::of_words(step.words())), steps.map(Some));
        assert_eq!(Step::of_words([4, 0, 0, 0]), None);
    }
}
