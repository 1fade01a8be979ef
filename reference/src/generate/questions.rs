//! Questions to a table for the program `probe_calls`: names that the table has and
//! names that it lacks, lists that hold the answer and lists that do not.

use crate::call_lines::{Question, MOST_PLACES};
use crate::checked::Checked;
use crate::entries::{entry_words, LONGEST_LIST};
use crate::path::named_path;
use crate::random::Random;
use crate::rules::Rules;

/// A few questions to a refused table, more to an accepted one.
pub fn questions(table: &[u8], random: &mut Random) -> Vec<Question> {
    let Ok(checked) = Checked::new(Rules::AS_WRITTEN, table) else {
        let mut places = || random.below(6);
        return vec![
            Question::Path { vid: 1, from: 0, to: 1, places: places() },
            Question::Path { vid: 10, from: 0, to: 0, places: places() },
            Question::Tree { vid: 1, from: 0, places: [places(), places(), places()] },
            Question::Entries { bridge: 0, places: places() },
        ];
    };
    let size = checked.plan.bridges.len();
    let vid = checked.plan.vids.first().map_or(1, |record| u32::from(record.vid));
    let mut questions = unknown_names(vid, size as u32, random);
    questions.extend(entry_lists(&checked, random));
    if size > 0 && !checked.plan.vids.is_empty() {
        questions.extend(every_length(&checked, random));
        questions.extend(paths(&checked, random));
        questions.extend(trees(&checked, random));
    }
    questions
}

/// Names that the table lacks, numbers wider than 16 bits among them.
fn unknown_names(vid: u32, size: u32, random: &mut Random) -> Vec<Question> {
    let wide = [[vid + 65_536, 0, 0], [vid, 65_536, 0], [vid, 0, 65_536], [u32::MAX; 3], [vid, u32::MAX, 0]];
    let narrow = [[vid, 0, size], [vid, size, 0], [0, 0, 0], [4_095, 0, 0], [65_535; 3]];
    let all = [wide, narrow].concat();
    let mut questions = Vec::new();
    for _ in 0..3 {
        let [vid, from, to] = *random.pick(&all);
        questions.push(Question::Path { vid, from, to, places: random.below(4) });
    }
    let [vid, from, _] = *random.pick(&all);
    questions.push(Question::Tree { vid, from, places: [(); 3].map(|()| random.below(MOST_PLACES + 1)) });
    questions
}

fn own_names(checked: &Checked, random: &mut Random) -> [u32; 3] {
    let size = checked.plan.bridges.len();
    let vid = u32::from(random.pick(&checked.plan.vids).vid);
    [vid, random.below(size) as u32, random.below(size) as u32]
}

/// One path into lists of every length from none to one more than needed.
fn every_length(checked: &Checked, random: &mut Random) -> Vec<Question> {
    let [vid, from, to] = own_names(checked, random);
    let needed = named_path(checked, vid, from, to).map_or(2, |path| path.bridges.len());
    (0..=needed + 1).map(|places| Question::Path { vid, from, to, places }).collect()
}

/// Paths into lists that hold them, one of a bridge to itself.
fn paths(checked: &Checked, random: &mut Random) -> Vec<Question> {
    let mut questions = Vec::new();
    for number in 0..6 {
        let [vid, from, drawn] = own_names(checked, random);
        let to = if number == 0 { from } else { drawn };
        let places = random.between(checked.plan.bridges.len() as u64, MOST_PLACES as u64) as usize;
        questions.push(Question::Path { vid, from, to, places });
    }
    questions
}

/// Entries of every bridge, into lists that hold them or are a word short; of a
/// large table, of a few bridges; and of a bridge that the table lacks.
fn entry_lists(checked: &Checked, random: &mut Random) -> Vec<Question> {
    let size = checked.plan.bridges.len();
    let step = 1 + size / 12;
    let mut questions = Vec::new();
    for bridge in (random.below(step)..size).step_by(step) {
        let needed = entry_words(checked, bridge).len();
        let short = usize::from(random.below(6) == 0);
        let places = (needed + random.below(3)).min(LONGEST_LIST + 1).saturating_sub(short);
        questions.push(Question::Entries { bridge: bridge as u32, places });
    }
    let lacking = *random.pick(&[size as u32, 65_536, u32::MAX]);
    questions.push(Question::Entries { bridge: lacking, places: random.below(4) });
    questions
}

/// Trees into lists that just hold them, of which one is a place short, and any.
fn trees(checked: &Checked, random: &mut Random) -> Vec<Question> {
    let size = checked.plan.bridges.len();
    let mut short = [size; 3];
    short[random.below(3)] -= 1;
    let around = [(); 3].map(|()| size - 1 + random.below(3));
    let longer = [(); 3].map(|()| random.between(size as u64, MOST_PLACES as u64) as usize);
    let all = [[size; 3], short, around, longer];
    all.map(|places| {
        let [vid, from, _] = own_names(checked, random);
        Question::Tree { vid, from, places }
    })
    .to_vec()
}

#[cfg(test)]
mod tests {
    use std::collections::BTreeMap;

    use super::*;
    use crate::call_lines::answer_lines;
    use crate::generate::stream::case;

    /// How often each call is answered and how often refused with which number.
    fn tally(tables: u64) -> BTreeMap<String, usize> {
        let mut tally = BTreeMap::new();
        for number in 0..tables {
            let table = case(1, number).table;
            let questions = questions(&table, &mut Random::for_case(2, number));
            let lines = answer_lines(Rules::AS_WRITTEN, &table, &questions);
            for (question, line) in questions.iter().zip(&lines) {
                let call = match question {
                    Question::Path { .. } => "path",
                    Question::Tree { .. } => "tree",
                    Question::Entries { .. } => "entries",
                };
                let mut words = line.split_whitespace();
                let outcome = match words.next() {
                    Some("refused") => words.next().expect("a refusal has its number"),
                    _ => "answered",
                };
                *tally.entry(format!("{call} {outcome}")).or_insert(0) += 1;
            }
        }
        tally
    }

    #[test]
    fn every_answer_and_refusal_is_asked_for() {
        let tally = tally(1_000);
        let own = ["path answered", "path 11", "path 12", "path 13", "tree answered", "tree 11", "tree 13"];
        let entries = ["entries answered", "entries 11", "entries 13"];
        let of_tables =
            (1..=10).flat_map(|number| ["path", "tree", "entries"].map(|call| format!("{call} {number}")));
        for outcome in own.iter().chain(&entries).map(|own| own.to_string()).chain(of_tables) {
            assert!(tally.get(&outcome).is_some_and(|&count| count >= 3), "{outcome}: {tally:?}");
        }
        assert!(!tally.contains_key("tree 12") && !tally.contains_key("entries 12"), "{tally:?}");
    }

    #[test]
    fn one_path_is_asked_into_lists_of_every_length() {
        let table = case(1, 0).table;
        let checked = Checked::new(Rules::AS_WRITTEN, &table).expect("an accepted table");
        let asked = every_length(&checked, &mut Random::new(3));
        let lines = answer_lines(Rules::AS_WRITTEN, &table, &asked);
        let [fits, more] = &lines[lines.len() - 2..] else { panic!("too few lines: {lines:?}") };
        assert!(lines[..lines.len() - 2].iter().all(|line| line.starts_with("refused 13")), "{lines:?}");
        assert!(more.starts_with(fits.trim_end()), "{lines:?}");
    }
}
