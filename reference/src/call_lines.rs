//! Questions to the program `probe_calls`: path, tree and entries with their lent
//! lists, as its input holds them, and the line that it writes for each.

use crate::check_line::{framed, refused};
use crate::checked::Checked;
use crate::entries::entries_in;
use crate::path::path_in;
use crate::refusal::Refusal;
use crate::rules::Rules;
use crate::tree::{tree_in, TreeLists};

/// The most places that the program lends path and tree.
pub const MOST_PLACES: usize = 80;

#[derive(Clone, Copy, PartialEq, Eq, Debug)]
pub enum Question {
    Path { vid: u32, from: u32, to: u32, places: usize },
    Tree { vid: u32, from: u32, places: [usize; 3] },
    Entries { bridge: u32, places: usize },
}

impl Question {
    /// Call, VID, from or the bridge, to, and the places of three lists.
    fn words(self) -> [u32; 7] {
        match self {
            Question::Path { vid, from, to, places } => [1, vid, from, to, places as u32, 0, 0],
            Question::Tree { vid, from, places } => {
                let [costs, hops, lasts] = places.map(|places| places as u32);
                [2, vid, from, 0, costs, hops, lasts]
            }
            Question::Entries { bridge, places } => [3, 0, bridge, 0, places as u32, 0, 0],
        }
    }

    /// The question of these words; none where they have no call.
    pub fn of_words([call, vid, from, to, costs, hops, lasts]: [u32; 7]) -> Option<Question> {
        let [places, hops, lasts] = [costs, hops, lasts].map(|places| places as usize);
        match call {
            1 => Some(Question::Path { vid, from, to, places }),
            2 => Some(Question::Tree { vid, from, places: [places, hops, lasts] }),
            3 => Some(Question::Entries { bridge: from, places }),
            _ => None,
        }
    }
}

/// A table after its length, the number of questions, the questions.
pub fn request(table: &[u8], questions: &[Question]) -> Vec<u8> {
    let mut bytes = framed(table);
    bytes.extend((questions.len() as u32).to_be_bytes());
    bytes.extend(questions.iter().flat_map(|question| question.words()).flat_map(u32::to_be_bytes));
    bytes
}

/// The line of each question: the answer, or `refused` with number, kind and word,
/// and every place of the lent lists after the call.
pub fn answer_lines(rules: Rules, table: &[u8], questions: &[Question]) -> Vec<String> {
    let checked = Checked::new(rules, table);
    questions.iter().map(|&question| answer_line(checked.as_ref(), question)).collect()
}

fn answer_line(checked: Result<&Checked, &Refusal>, question: Question) -> String {
    match question {
        Question::Path { vid, from, to, places } => {
            let mut list = untouched(places);
            let answer = checked.map_err(|&refusal| refusal);
            let answer = answer.and_then(|checked| path_in(checked, (vid, from, to), &mut list));
            line(answer.map(|given| format!("path {} {}", given.cost, given.hops)), &[&list])
        }
        Question::Tree { vid, from, places } => {
            let [mut costs, mut hops, mut before_last] = places.map(untouched);
            let lists = TreeLists { costs: &mut costs, hops: &mut hops, before_last: &mut before_last };
            let answer = checked.map_err(|&refusal| refusal);
            let answer = answer.and_then(|checked| tree_in(checked, vid, from, lists));
            line(answer.map(|bridges| format!("tree {bridges}")), &[&costs, &hops, &before_last])
        }
        Question::Entries { bridge, places } => {
            let mut list = untouched(places);
            let answer = checked.map_err(|&refusal| refusal);
            let answer = answer.and_then(|checked| entries_in(checked, bridge, &mut list));
            line(answer.map(|words| format!("entries {words}")), &[&list])
        }
    }
}

/// A lent list before a call: numbers that no call gives, so that what a call
/// leaves alone shows.
pub fn untouched(places: usize) -> Vec<u32> {
    (0..places as u32).map(|place| 4_000_000_000 + place).collect()
}

fn line(answer: Result<String, Refusal>, lists: &[&[u32]]) -> String {
    let numbers = lists.concat().iter().map(|number| format!(" {number}")).collect::<String>();
    format!("{}{numbers}\n", answer.unwrap_or_else(refused))
}

#[cfg(test)]
mod tests {
    use super::*;
    use crate::words::from_text;

    fn worked() -> Vec<u8> {
        from_text(include_str!("../../examples/two-bridges.hex")).expect("hexadecimal text")
    }

    #[test]
    fn each_answer_is_one_line_with_all_places() {
        let questions = [
            Question::Path { vid: 10, from: 0, to: 1, places: 3 },
            Question::Path { vid: 10, from: 0, to: 1, places: 1 },
            Question::Path { vid: 10, from: 2, to: 2, places: 0 },
            Question::Tree { vid: 10, from: 1, places: [2, 3, 2] },
            Question::Tree { vid: 10, from: 1, places: [2, 1, 0] },
            Question::Entries { bridge: 1, places: 4 },
            Question::Entries { bridge: 0, places: 1 },
            Question::Entries { bridge: 2, places: 0 },
        ];
        let lines = [
            "path 12 1 0 1 4000000002\n",
            "refused 13 none 0 4000000000\n",
            "refused 11 none 0\n",
            "tree 2 12 0 1 0 4000000002 1 1\n",
            "refused 13 none 0 4000000000 4000000001 4000000000\n",
            "entries 3 2148139010 512 1 4000000003\n",
            "refused 13 none 0 4000000000\n",
            "refused 11 none 0\n",
        ];
        assert_eq!(answer_lines(Rules::AS_WRITTEN, &worked(), &questions), lines);
        let refused = answer_lines(Rules::AS_WRITTEN, &[0x10, 0, 0, 1], &questions[1..2]);
        assert_eq!(refused, ["refused 3 1 0 4000000000\n"]);
    }

    #[test]
    fn questions_stand_after_the_table() {
        let questions = [Question::Path { vid: 258, from: 0, to: 1, places: 3 }];
        let bytes = request(&[0xF0, 0, 0, 0], &questions);
        assert_eq!(bytes[..12], [0, 0, 0, 4, 0xF0, 0, 0, 0, 0, 0, 0, 1]);
        assert_eq!(bytes[12..20], [0, 0, 0, 1, 0, 0, 1, 2]);
        assert_eq!(bytes.len(), 12 + 28);
    }
}
