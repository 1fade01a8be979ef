//! The stored case of the program `probe_calls`: questions to the worked example of
//! document 01, to the same bridges without links, to a small plan of a seed with no
//! half-link down, to the table of one word and to refused tables; all paths, trees and
//! entries of the diamond with overloaded bridges, of the diamond and parallel links with
//! half-links that are down, of the diamond with traffic records and with extension bits;
//! and tables with faults of such half-links and records, or a repeated address.
//! Holds a folder's `stdin` and `stdout` to it, or writes them with `--write`.

use std::io;
use std::path::Path;
use std::process::ExitCode;

use reference::arguments::{Arguments, Usage};
use reference::call_lines::{answer_lines, request, Question};
use reference::check::read;
use reference::comparing::stored;
use reference::generate::questions::questions;
use reference::generate::valid::{plan, Size};
use reference::properties::extensions::{repeated_addresses, EXTENDED_DIAMONDS};
use reference::properties::fixture::{diamond, down, links_7_and_9, loaded, overloaded, with_bits};
use reference::properties::loads::faulty_traffic;
use reference::properties::ports_down::faulty_half_links_down;
use reference::random::Random;
use reference::records::{Kind, Member, Plan, BELOW_MARK_BIT, MARK_BIT};
use reference::rules::Rules;
use reference::words::{bytes_of, from_text};

const USAGE: Usage =
    Usage { text: "call-vectors --folder NAME [--write]", values: &["folder"], flags: &["write"] };

/// The words of a list that holds the entries of any bridge of the diamond.
const MOST_WORDS: usize = 60;

/// How many of the diamonds with extension bits are asked about.
const EXTENDED: usize = 4;

fn main() -> io::Result<ExitCode> {
    let arguments = Arguments::of_process(&USAGE);
    let folder = Path::new(arguments.required("folder"));
    let asked = asked();
    let input: Vec<u8> = asked.iter().flat_map(|(table, questions)| request(table, questions)).collect();
    let answers = |(table, questions): &(Vec<u8>, Vec<Question>)| {
        answer_lines(Rules::AS_WRITTEN, table, questions).concat()
    };
    let lines: String = asked.iter().map(answers).collect();
    println!("call-vectors: {} tables, {} lines", asked.len(), lines.lines().count());
    stored("call-vectors", folder, arguments.has("write"), &input, &lines)
}

fn asked() -> Vec<(Vec<u8>, Vec<Question>)> {
    let mut random = Random::new(1);
    let worked = from_text(include_str!("../../../examples/two-bridges.hex")).expect("hexadecimal text");
    let mut apart = read(Rules::AS_WRITTEN, &worked).expect("the worked example is accepted");
    apart.half_links.clear();
    let seeded = down(plan(Size { bridges: 6, vids: 2, members: 0 }, &mut random), &[]).bytes();
    let one_word = bytes_of(&[0xF000_0000]);
    let tables = [worked.clone(), apart.bytes(), seeded, one_word, Vec::new(), worked[..12].to_vec()];
    let mut asked: Vec<(Vec<u8>, Vec<Question>)> = tables
        .into_iter()
        .map(|table| {
            let questions = questions(&table, &mut random);
            (table, questions)
        })
        .collect();
    asked.push((worked, Vec::new()));
    asked.extend(overloaded_diamonds());
    asked.extend(with_half_links_down());
    asked.extend(refused_with_half_links_down());
    asked.extend(with_traffic());
    asked.extend(with_extensions());
    asked
}

/// No bridge of the diamond overloaded, one, two next to each other, the two pairs
/// that are not joined, and all; and one with a zero bit set, which is refused.
fn overloaded_diamonds() -> Vec<(Vec<u8>, Vec<Question>)> {
    let choices: [&[usize]; 6] = [&[], &[1], &[0, 1], &[1, 2], &[0, 3], &[0, 1, 2, 3]];
    let plans = choices.map(|bridges| overloaded(diamond_of_service([0x8000; 4]), bridges));
    let mut faulty = plans[1].words();
    faulty[0] |= BELOW_MARK_BIT;
    let questions = every_question(&plans[0]);
    let tables = plans.iter().map(Plan::bytes).chain([bytes_of(&faulty)]);
    tables.map(|table| (table, questions.clone())).collect()
}

/// One half of link 0-1 of the diamond down, the other, one half of each link of bridge
/// 0, and all; of the parallel links 7 and 9 one half of 7, and one of each.
fn with_half_links_down() -> Vec<(Vec<u8>, Vec<Question>)> {
    let diamonds: [&[usize]; 4] = [&[0], &[1], &[1, 4], &[0, 1, 2, 3, 4, 5, 6, 7]];
    let pairs: [&[usize]; 3] = [&[0], &[1], &[0, 3]];
    let mut parallel = links_7_and_9([10, 12]);
    parallel.vids.truncate(2);
    let diamonds = diamonds.map(|half_links| down(diamond_of_service([0x8000; 4]), half_links));
    let pairs = pairs.map(|half_links| down(parallel.clone(), half_links));
    diamonds.iter().chain(&pairs).map(|plan| (plan.bytes(), every_question(plan))).collect()
}

/// Faults that a half-link has whether it is down or not, and a zero bit beside the mark.
fn refused_with_half_links_down() -> Vec<(Vec<u8>, Vec<Question>)> {
    let zero_bit =
        with_bits(&diamond_of_service([0x8000; 4]), Kind::HalfLink, [MARK_BIT, MARK_BIT | BELOW_MARK_BIT]);
    let faulty = faulty_half_links_down().into_iter().map(|(plan, _)| plan.bytes());
    [zero_bit].into_iter().chain(faulty).map(|table| (table, two_questions())).collect()
}

/// Two traffic records of the diamond, which answers as without them; and faults of a
/// second record.
fn with_traffic() -> Vec<(Vec<u8>, Vec<Question>)> {
    let plan = loaded(diamond_of_service([0x8000; 4]), &[(1, 5, 0, 3), (1, 65_535, 3, 0)]);
    let faulty = faulty_traffic().into_iter().map(|(table, _)| (table, two_questions()));
    [(plan.bytes(), every_question(&plan))].into_iter().chain(faulty).collect()
}

/// The diamond with extension bits, and an address that stands twice beside another
/// priority.
fn with_extensions() -> Vec<(Vec<u8>, Vec<Question>)> {
    let plans =
        EXTENDED_DIAMONDS.iter().take(EXTENDED).map(|&(priorities, _)| diamond_of_service(priorities));
    let refused = repeated_addresses().into_iter().map(|(plan, _)| (plan.bytes(), two_questions()));
    plans.map(|plan| (plan.bytes(), every_question(&plan))).chain(refused).collect()
}

/// What a refused table is asked.
fn two_questions() -> Vec<Question> {
    vec![Question::Path { vid: 1, from: 0, to: 3, places: 3 }, Question::Entries { bridge: 0, places: 2 }]
}

/// The diamond with index 1 and 2, and all bridges members of one service.
fn diamond_of_service(priorities: [u16; 4]) -> Plan {
    let mut plan = diamond(priorities);
    plan.vids.truncate(2);
    let member = |bridge: u16| Member { transmits: true, receives: true, service: 256, bridge, vid: 1 };
    plan.members = (0..4).map(member).collect();
    plan
}

/// Every path, tree and list of entries of a plan, into lists that hold them.
fn every_question(plan: &Plan) -> Vec<Question> {
    let size = plan.bridges.len();
    let bridges = || 0..size as u32;
    let mut questions = Vec::new();
    for vid in plan.vids.iter().map(|record| u32::from(record.vid)) {
        for from in bridges() {
            questions.extend(bridges().map(|to| Question::Path { vid, from, to, places: size }));
            questions.push(Question::Tree { vid, from, places: [size; 3] });
        }
    }
    questions.extend(bridges().map(|bridge| Question::Entries { bridge, places: MOST_WORDS }));
    questions
}
