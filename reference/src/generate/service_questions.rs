//! Questions to a table for the program `probe_services`: sub-TLVs to be read and
//! bridges and VIDs to be written, into lists that hold the answer and lists that do
//! not.

use std::cmp::Reverse;

use super::service_plans::{bridges_and_vids, members_of};
use super::sub_tlvs::{cut_sub_tlvs, damaged_sub_tlv, sixty_two_services, valid_sub_tlv};
use crate::checked::Checked;
use crate::random::Random;
use crate::records::{Kind, Plan};
use crate::rules::Rules;
use crate::service_lines::{ServiceQuestion, MOST_WORDS, MOST_WRITTEN_BYTES};
use crate::service_writing::{write_services_in, LONGEST_SUB_TLV, LONGEST_WRITING};
use crate::sub_tlv::{HEADING, SERVICE};

/// A few questions to a refused table, more to an accepted one.
pub fn service_questions(table: &[u8], random: &mut Random) -> Vec<ServiceQuestion> {
    let Ok(checked) = Checked::new(Rules::AS_WRITTEN, table) else {
        return to_refused_table(random);
    };
    let plan = &checked.plan;
    let mut questions = unknown_names(plan, random);
    if plan.bridges.is_empty() || plan.vids.is_empty() {
        questions.extend(to_refused_table(random));
        return questions;
    }
    questions.extend(writings(&checked, random));
    let mut sub_tlvs = written(&checked, random);
    sub_tlvs.extend((0..4).map(|_| valid_sub_tlv(plan, random).bytes()));
    sub_tlvs.extend((0..10).map(|_| damaged_sub_tlv(plan, random)));
    if random.one_in(8) {
        sub_tlvs.extend(sixty_two_services(plan, random));
        let mut short = valid_sub_tlv(plan, random);
        short.services.truncate(random.below(5));
        sub_tlvs.extend(cut_sub_tlvs(&short.bytes()));
    }
    questions.extend(sub_tlvs.into_iter().map(|sub_tlv| reading(sub_tlv, random)));
    questions
}

/// Questions that would have other answers in another table: a sub-TLV of the worked
/// example's first bridge, no bytes, and two bridges to be written.
fn to_refused_table(random: &mut Random) -> Vec<ServiceQuestion> {
    let sub_tlv = vec![3, 12, 2, 0, 0, 0, 0, 1, 0, 10, 0x80, 0, 0, random.below(256) as u8];
    vec![
        reading(sub_tlv, random),
        reading(Vec::new(), random),
        ServiceQuestion::Write { bridge: 0, vid: 1, places: random.below(6) },
        ServiceQuestion::Write { bridge: 70_000, vid: 10, places: random.below(30) },
    ]
}

/// The sub-TLV into a list that just holds its services, one that is a place short,
/// one with a place more, none, or any.
fn reading(sub_tlv: Vec<u8>, random: &mut Random) -> ServiceQuestion {
    let services = sub_tlv.len().saturating_sub(HEADING) / SERVICE;
    let needed = Kind::Member.words() * services;
    let places = around(needed, MOST_WORDS, random);
    ServiceQuestion::Read { sub_tlv, places }
}

/// A number of places: mostly what is needed or around it.
fn around(needed: usize, most: usize, random: &mut Random) -> usize {
    let places = match random.between(0, 9) {
        0..=3 => needed,
        4 | 5 => needed.saturating_sub(1),
        6 => 0,
        7 | 8 => needed + 1,
        _ => random.below(most + 1),
    };
    places.min(most)
}

/// What the reference writes for a bridge and VID, those with most members in one of two
/// cases: each sub-TLV, and all of them in a row.
fn written(checked: &Checked, random: &mut Random) -> Vec<Vec<u8>> {
    let fewer_last = fewer_members_last(&checked.plan, random);
    let names = if random.one_in(2) { fewer_last[0] } else { *random.pick(&fewer_last) };
    let bytes = bytes_written(checked, names);
    let mut sub_tlvs: Vec<Vec<u8>> = bytes.chunks(LONGEST_SUB_TLV).map(<[u8]>::to_vec).collect();
    sub_tlvs.push(bytes);
    sub_tlvs
}

/// Every bridge with every VID, by falling numbers of members, equals in any order.
fn fewer_members_last(plan: &Plan, random: &mut Random) -> Vec<(usize, u16)> {
    let mut all = bridges_and_vids(plan);
    random.shuffle(&mut all);
    all.sort_by_key(|&(bridge, vid)| Reverse(members_of(plan, bridge, vid).len()));
    all
}

fn bytes_written(checked: &Checked, (bridge, vid): (usize, u16)) -> Vec<u8> {
    let mut lent = [0; LONGEST_WRITING];
    let written = write_services_in(checked, bridge as u32, u32::from(vid), &mut lent);
    lent[..written.expect("the names are the table's and the list is long enough")].to_vec()
}

/// A few bridges and VIDs of the table: those with most members, the first of them
/// twice, and those with fewest.
fn writings(checked: &Checked, random: &mut Random) -> Vec<ServiceQuestion> {
    let fewer_last = fewer_members_last(&checked.plan, random);
    let last = fewer_last.len().saturating_sub(3)..fewer_last.len();
    let asked = [0, 0, 1, 2].into_iter().chain(last).filter_map(|place| fewer_last.get(place));
    let question = |&(bridge, vid): &(usize, u16)| {
        let needed = bytes_written(checked, (bridge, vid)).len();
        let places = around(needed, MOST_WRITTEN_BYTES, random);
        ServiceQuestion::Write { bridge: bridge as u32, vid: u32::from(vid), places }
    };
    asked.map(question).collect()
}

/// Names that the table lacks, numbers wider than 16 bits among them.
fn unknown_names(plan: &Plan, random: &mut Random) -> Vec<ServiceQuestion> {
    let size = plan.bridges.len() as u32;
    let vid = plan.vids.first().map_or(1, |record| u32::from(record.vid));
    let all = [
        [size, vid],
        [65_535, vid],
        [65_536, vid],
        [u32::MAX, vid],
        [0, 0],
        [0, 4_095],
        [0, 65_536 + vid],
        [0, u32::MAX],
        [0, random.between(1, 4_094) as u32],
    ];
    let question = |&[bridge, vid]: &[u32; 2], places| ServiceQuestion::Write { bridge, vid, places };
    (0..3).map(|_| question(random.pick(&all), random.below(40))).collect()
}

#[cfg(test)]
mod tests {
    use std::collections::BTreeMap;

    use super::*;
    use crate::generate::service_plans::service_case;
    use crate::service_lines::{answer_lines, request, MOST_BYTES};

    /// More than this a program's input may not take at once.
    const PIPE: usize = 65_536;

    /// How often each call is answered and how often refused with which number.
    fn tally(tables: u64) -> BTreeMap<String, usize> {
        let mut tally = BTreeMap::new();
        for number in 0..tables {
            let table = service_case(1, number).table;
            let questions = service_questions(&table, &mut Random::for_case(2, number));
            assert!(request(&table, &questions).len() < PIPE, "table {number} has too many questions");
            let lines = answer_lines(Rules::AS_WRITTEN, &table, &questions);
            for (question, line) in questions.iter().zip(&lines) {
                let call = match question {
                    ServiceQuestion::Read { .. } => "read",
                    ServiceQuestion::Write { .. } => "write",
                };
                let mut words = line.split_whitespace();
                let outcome = match words.next() {
                    Some("refused") => words.take(2).collect::<Vec<_>>().join(" "),
                    _ => format!("answers {}", words.next().expect("an answer has its number")),
                };
                *tally.entry(format!("{call} {outcome}")).or_insert(0) += 1;
            }
        }
        tally
    }

    #[test]
    fn every_answer_and_refusal_is_asked_for() {
        let tally = tally(2_000);
        let numbers = ["15 none", "16 none", "6 4", "8 4", "13 none"].map(|number| format!("read {number}"));
        let read = [0, 2, 4, 118, 120, 122].map(|words| format!("read answers {words}"));
        let written = [0, 14, 246, 250, 264, 276].map(|bytes| format!("write answers {bytes}"));
        let refused = ["write 11 none", "write 13 none", "read 1 none", "write 1 none", "read 3 none"];
        let refused = refused.map(str::to_string);
        for outcome in numbers.iter().chain(&read).chain(&written).chain(&refused) {
            assert!(tally.get(outcome).is_some_and(|&count| count >= 3), "{outcome}: {tally:?}");
        }
        for never in ["read 11 none", "read 12 none", "write 12 none", "write 15 none", "write 16 none"] {
            assert!(!tally.contains_key(never), "{never}: {tally:?}");
        }
    }

    #[test]
    fn no_question_asks_for_more_than_the_program_takes() {
        for number in 0..2_000 {
            let table = service_case(1, number).table;
            for question in service_questions(&table, &mut Random::for_case(2, number)) {
                let fits = match question {
                    ServiceQuestion::Read { sub_tlv, places } => {
                        sub_tlv.len() <= MOST_BYTES && places <= MOST_WORDS
                    }
                    ServiceQuestion::Write { places, .. } => places <= MOST_WRITTEN_BYTES,
                };
                assert!(fits, "table {number}");
            }
        }
    }
}
