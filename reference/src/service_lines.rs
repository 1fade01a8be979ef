//! Questions to the program `probe_services`: reading and writing sub-TLVs with their
//! lent lists, as its input holds them, and the line that it writes for each.

use std::fmt::Display;

use crate::check_line::{framed, refused};
use crate::checked::Checked;
use crate::refusal::Refusal;
use crate::rules::Rules;
use crate::service_reading::read_services_in;
use crate::service_writing::write_services_in;

/// The most bytes of a sub-TLV that the program reads, the most words that it lends
/// for reading, and the most bytes for writing.
pub const MOST_BYTES: usize = 1_024;
pub const MOST_WORDS: usize = 160;
pub const MOST_WRITTEN_BYTES: usize = 320;

/// The numbers by which a question names its call.
pub const READ: u32 = 1;
pub const WRITE: u32 = 2;

#[derive(Clone, PartialEq, Eq, Debug)]
pub enum ServiceQuestion {
    Read { sub_tlv: Vec<u8>, places: usize },
    Write { bridge: u32, vid: u32, places: usize },
}

impl ServiceQuestion {
    /// Four words, and the sub-TLV to be read.
    fn bytes(&self) -> Vec<u8> {
        let (words, sub_tlv): ([u32; 4], &[u8]) = match self {
            ServiceQuestion::Read { sub_tlv, places } => {
                ([READ, sub_tlv.len() as u32, 0, *places as u32], sub_tlv)
            }
            ServiceQuestion::Write { bridge, vid, places } => ([WRITE, *bridge, *vid, *places as u32], &[]),
        };
        let mut bytes = crate::words::bytes_of(&words);
        bytes.extend(sub_tlv);
        bytes
    }
}

/// A table after its length, the number of questions, the questions.
pub fn request(table: &[u8], questions: &[ServiceQuestion]) -> Vec<u8> {
    let mut bytes = framed(table);
    bytes.extend((questions.len() as u32).to_be_bytes());
    bytes.extend(questions.iter().flat_map(ServiceQuestion::bytes));
    bytes
}

/// The line of each question: the answer, or `refused` with number, kind and word,
/// and every place of the lent list after the call.
pub fn answer_lines(rules: Rules, table: &[u8], questions: &[ServiceQuestion]) -> Vec<String> {
    let checked = Checked::new(rules, table);
    questions.iter().map(|question| answer_line(checked.as_ref(), question)).collect()
}

fn answer_line(checked: Result<&Checked, &Refusal>, question: &ServiceQuestion) -> String {
    let checked = checked.map_err(|&refusal| refusal);
    match question {
        ServiceQuestion::Read { sub_tlv, places } => {
            let mut list: Vec<u32> = (0..*places as u32).map(|place| 4_000_000_000 + place).collect();
            let answer = checked.and_then(|checked| read_services_in(checked, sub_tlv, &mut list));
            line(answer.map(|words| format!("read {words}")), &list)
        }
        ServiceQuestion::Write { bridge, vid, places } => {
            let mut list: Vec<u8> = (0..*places).map(|place| 255 - (place % 256) as u8).collect();
            let answer = checked.and_then(|checked| write_services_in(checked, *bridge, *vid, &mut list));
            line(answer.map(|bytes| format!("written {bytes}")), &list)
        }
    }
}

fn line<T: Display>(answer: Result<String, Refusal>, list: &[T]) -> String {
    let numbers = list.iter().map(|number| format!(" {number}")).collect::<String>();
    format!("{}{numbers}\n", answer.unwrap_or_else(refused))
}

#[cfg(test)]
mod tests {
    use super::*;
    use crate::words::from_text;

    fn worked() -> Vec<u8> {
        from_text(include_str!("../../examples/two-bridges.hex")).expect("hexadecimal text")
    }

    /// A sub-TLV of the worked example's bridge 1 with one service.
    const ONE_SERVICE: [u8; 14] = [3, 12, 2, 0, 0, 0, 0, 2, 0, 10, 0xC0, 0, 1, 7];

    #[test]
    fn each_answer_is_one_line_with_all_places() {
        let read = |bytes: &[u8], places| ServiceQuestion::Read { sub_tlv: bytes.to_vec(), places };
        let write = |bridge, vid, places| ServiceQuestion::Write { bridge, vid, places };
        let questions = [
            read(&ONE_SERVICE, 3),
            read(&ONE_SERVICE, 1),
            read(&ONE_SERVICE[..13], 1),
            write(0, 10, 15),
            write(0, 10, 2),
            write(2, 10, 0),
        ];
        let lines = [
            "read 2 1124073735 65546 4000000002\n",
            "refused 13 none 0 4000000000\n",
            "refused 15 none 0 4000000000\n",
            "written 14 3 12 2 0 0 0 0 1 0 10 128 0 1 0 241\n",
            "refused 13 none 0 255 254\n",
            "refused 11 none 0\n",
        ];
        assert_eq!(answer_lines(Rules::AS_WRITTEN, &worked(), &questions), lines);
        let refused = answer_lines(Rules::AS_WRITTEN, &[0x10, 0, 0, 1], &questions[1..2]);
        assert_eq!(refused, ["refused 3 1 0 4000000000\n"]);
    }

    #[test]
    fn a_sub_tlv_stands_after_its_question() {
        let questions = [
            ServiceQuestion::Read { sub_tlv: vec![3, 0], places: 5 },
            ServiceQuestion::Write { bridge: 1, vid: 258, places: 6 },
        ];
        let bytes = request(&[0xF0, 0, 0, 0], &questions);
        assert_eq!(bytes[8..12], [0, 0, 0, 2]);
        assert_eq!(bytes[12..30], [0, 0, 0, 1, 0, 0, 0, 2, 0, 0, 0, 0, 0, 0, 0, 5, 3, 0]);
        assert_eq!(bytes[30..], [0, 0, 0, 2, 0, 0, 0, 1, 0, 0, 1, 2, 0, 0, 0, 6]);
    }
}
