//! Tables for the program `probe_edits`, and lists of steps to them: loads, metric changes
//! and withdrawals of half-links that are there and of others, from states that a load has
//! made and states that none has, into lists that hold the tree and lists that do not.

use super::damage::{damaged, Damaged};
use super::shapes::Shape;
use super::stream::{case, Case, LARGEST_EVERY};
use super::valid::{full_network, plan, Size};
use crate::call_lines::MOST_PLACES;
use crate::check::check;
use crate::checked::Checked;
use crate::edit_lines::{EditList, Step};
use crate::edits::{Change, State, MOST_CHANGES};
use crate::random::Random;
use crate::records::{HalfLink, Plan, GREATEST_USABLE_METRIC, LEAST_METRIC, UNUSABLE_METRIC};
use crate::refusal::Refusal;
use crate::rules::Rules;

/// Tables of more bytes have short lists: each step shows every byte.
const LARGE_TABLE: usize = 3_000;
const MIDDLE_TABLE: usize = 1_000;

/// Every other table is made to be edited, one of four is damaged, and the rest are those
/// of the other runners, their largest among them.
pub fn edit_case(seed: u64, number: u64) -> Case {
    let mut random = Random::for_case(seed, number);
    let is_largest = number % LARGEST_EVERY == LARGEST_EVERY - 1;
    match number % 4 {
        0 | 2 => edited_case(number, &mut random),
        3 if !is_largest => damaged_case(number, &mut random),
        _ => case(seed, number),
    }
}

/// A plan of a few bridges; in one of six tables bytes stand behind its end.
fn edited_case(number: u64, random: &mut Random) -> Case {
    let size = Size { bridges: 2 + random.below(6), vids: 1 + random.below(2), members: random.below(3) };
    let mut table = plan(size, random).bytes();
    if !random.one_in(6) {
        return Case { number, name: "edited".to_string(), table, expected: Ok(()) };
    }
    let behind = 1 + random.below(40);
    table.extend((0..behind).map(|_| random.below(256) as u8));
    let expected = check(Rules::AS_WRITTEN, &table).map(|_| ());
    Case { number, name: "edited, with bytes behind it".to_string(), table, expected }
}

fn damaged_case(number: u64, random: &mut Random) -> Case {
    let Damaged { name, table, refusal } = damaged(random);
    Case { number, name: format!("damaged: {name}"), table, expected: Err(refusal) }
}

/// A list of steps to a table.
pub fn edit_list(table: &[u8], random: &mut Random) -> EditList {
    let Some(checked) = accepted_part(table) else {
        return to_refused_table(table, random);
    };
    let plan = &checked.plan;
    let length = plan.bytes().len();
    let is_loaded = length == table.len() && !random.one_in(4);
    let mut steps = Vec::new();
    if is_loaded {
        steps.push(load(plan, random.one_in(12), random));
    }
    let state = if is_loaded { any_state(random) } else { state_of_no_load(plan, length, random) };
    let mut drawn = Drawn { plan, left: plan.half_links.clone(), gone: Vec::new(), steps, random };
    drawn.draw(length);
    let steps = drawn.steps;
    EditList { state, places: places(plan.bridges.len(), random), steps }
}

/// The table, or what stands in it before bytes behind its end.
fn accepted_part(table: &[u8]) -> Option<Checked> {
    let whole = &table[..table.len() / 4 * 4];
    let length = match check(Rules::AS_WRITTEN, whole) {
        Err(Refusal { number: 10, word, .. }) => 4 * (word + 1),
        _ => whole.len(),
    };
    Checked::new(Rules::AS_WRITTEN, &table[..length]).ok()
}

/// Steps that would have other answers in another table, from a state of its length.
fn to_refused_table(table: &[u8], random: &mut Random) -> EditList {
    let state = State { length: table.len() as u32, bridge: 0, vid: 1, changes: 3 };
    let steps = vec![
        Step::Load { bridge: 0, vid: 1 },
        metric(0, 1, 10),
        withdrawal(0, 1),
        Step::Load { bridge: 70_000, vid: 10 },
        metric(70_000, 0, 0),
    ];
    EditList { state, places: [(); 3].map(|()| random.below(6)), steps }
}

fn metric(near: u32, port: u32, metric: u32) -> Step {
    Step::Change(Change::Metric { near, port, metric })
}

fn withdrawal(near: u32, port: u32) -> Step {
    Step::Change(Change::Withdrawal { near, port })
}

/// A load by names that the table has, or of which it lacks one.
fn load(plan: &Plan, unknown: bool, random: &mut Random) -> Step {
    let (bridge, vid) = watched(plan, unknown, random);
    Step::Load { bridge, vid }
}

/// A bridge and a VID of the plan where it has such; of those that it lacks, numbers
/// wider than 16 bits too.
fn watched(plan: &Plan, unknown: bool, random: &mut Random) -> (u32, u32) {
    let size = plan.bridges.len() as u32;
    let bridge = random.below(plan.bridges.len().max(1)) as u32;
    let vid = if plan.vids.is_empty() { 1 } else { u32::from(random.pick(&plan.vids).vid) };
    if !unknown {
        return (bridge, vid);
    }
    *random.pick(&[
        (size, vid),
        (65_535, vid),
        (65_536 + bridge, vid),
        (u32::MAX, vid),
        (bridge, 0),
        (bridge, 4_095),
        (bridge, 65_536 + vid),
        (bridge, u32::MAX),
    ])
}

/// What stands before a load makes no difference to it.
fn any_state(random: &mut Random) -> State {
    let [length, bridge, vid, changes] = [(); 4].map(|()| random.below(100) as u32);
    State { length, bridge, vid, changes }
}

/// A state that no load has made: mostly one that a change can follow, with a count
/// around the limit; else a length that the table does not have, or unknown names.
fn state_of_no_load(plan: &Plan, length: usize, random: &mut Random) -> State {
    let length = length as u32;
    let lengths = [
        length + 1,
        length + 4,
        length + 40,
        u32::MAX,
        0,
        4,
        length.saturating_sub(1),
        length.saturating_sub(4),
        length.saturating_sub(12),
        random.between(0, u64::from(length)) as u32,
    ];
    let length = if random.one_in(2) { *random.pick(&lengths) } else { length };
    let (bridge, vid) = watched(plan, random.one_in(5), random);
    let limit = MOST_CHANGES;
    let changes = *random.pick(&[0, 7, limit - 3, limit - 2, limit - 1, limit, limit + 1, u32::MAX]);
    State { length, bridge, vid, changes }
}

/// The places of the three lists: mostly what is needed; one list a place short; around
/// what is needed; any that are long enough; none.
fn places(needed: usize, random: &mut Random) -> [usize; 3] {
    match random.between(0, 9) {
        0..=3 => [needed; 3],
        4 | 5 => [(); 3].map(|()| random.between(needed as u64, MOST_PLACES as u64) as usize),
        6 => [(); 3].map(|()| needed + random.below(3)),
        7 => {
            let mut short = [needed; 3];
            short[random.below(3)] = needed.saturating_sub(1);
            short
        }
        8 => [(); 3].map(|()| (needed + random.below(3)).saturating_sub(1)),
        _ => [(); 3].map(|()| random.below(needed + 1)),
    }
}

/// The steps drawn so far, with the half-links that they leave and those withdrawn.
struct Drawn<'a> {
    plan: &'a Plan,
    left: Vec<HalfLink>,
    gone: Vec<HalfLink>,
    steps: Vec<Step>,
    random: &'a mut Random,
}

impl Drawn<'_> {
    /// A short list, in which withdrawals are frequent or there are none; of a small
    /// table also one with hundreds of changes, or one that withdraws all half-links.
    fn draw(&mut self, length: usize) {
        let manner = self.random.between(0, 23);
        let (count, withdraws_once_in) = match manner {
            _ if length > LARGE_TABLE => (3 + self.random.below(4), 3),
            _ if length > MIDDLE_TABLE => (4 + self.random.below(6), 4),
            0 => (300 + self.random.below(300), 60),
            1 | 2 => {
                self.withdraw_all();
                (4, 2)
            }
            3..=8 => (4 + self.random.below(12), u64::MAX),
            _ => (4 + self.random.below(12), 3),
        };
        for _ in 0..count {
            self.draw_step(withdraws_once_in);
        }
    }

    /// Each half-link once, in any order, and the first of them again.
    fn withdraw_all(&mut self) {
        self.random.shuffle(&mut self.left);
        self.gone = std::mem::take(&mut self.left);
        let first = self.gone.first().copied();
        let withdrawn = self.gone.iter().copied().chain(first);
        self.steps
            .extend(withdrawn.map(|half_link| withdrawal(half_link.near.into(), half_link.port.into())));
    }

    fn draw_step(&mut self, withdraws_once_in: u64) {
        let number = self.random.between(0, 19);
        let Some(half_link) = self.drawn_half_link() else {
            return self.draw_without_half_link(number);
        };
        let [near, port] = [half_link.near, half_link.port].map(u32::from);
        match number {
            0..=9 if self.random.between(1, withdraws_once_in) == 1 => self.withdraw(&half_link),
            0..=9 => {
                let given = self.drawn_metric(&half_link);
                self.steps.push(metric(near, port, given));
            }
            10 => {
                let given = self.drawn_metric(&half_link);
                self.steps.push(metric(near, port, given));
                if let Some(other) = other_half(&self.left, &half_link) {
                    self.steps.push(metric(other.near.into(), other.port.into(), given));
                }
            }
            11 if withdraws_once_in < 10 => {
                let other = other_half(&self.left, &half_link);
                self.withdraw(&half_link);
                other.iter().for_each(|other| self.withdraw(other));
            }
            12 | 13 => {
                let refused = self.refused_metric(&half_link);
                self.steps.push(metric(near, port, refused));
            }
            14 => self.steps.extend(self.steps.last().copied()),
            15 => self.push_with_any_metric(u32::from(half_link.far), port),
            _ => self.draw_without_half_link(number),
        }
    }

    /// Names of no half-link, half-links that are gone, and loads.
    fn draw_without_half_link(&mut self, number: u64) {
        let (near, port) = self.unknown_name();
        let gone = self.gone.last().copied();
        match (number % 4, gone) {
            (0, Some(gone)) => self.push_with_any_metric(gone.near.into(), gone.port.into()),
            (0 | 1, _) => self.push_with_any_metric(near, port),
            (2, _) => {
                let unknown = self.random.one_in(4);
                self.steps.push(load(self.plan, unknown, self.random));
            }
            _ => self.steps.push(withdrawal(near, port)),
        }
    }

    /// Any that is left, the first or the last of the table, or the one changed before.
    fn drawn_half_link(&mut self) -> Option<HalfLink> {
        let before = match self.steps.last() {
            Some(Step::Change(change)) => self.left.iter().find(|half_link| {
                (u32::from(half_link.near), u32::from(half_link.port)) == (change.near(), change.port())
            }),
            _ => None,
        };
        match self.random.between(0, 9) {
            0 => self.left.first().copied(),
            1 => self.left.last().copied(),
            2 | 3 if before.is_some() => before.copied(),
            _ if self.left.is_empty() => None,
            _ => Some(*self.random.pick(&self.left)),
        }
    }

    fn withdraw(&mut self, half_link: &HalfLink) {
        self.steps.push(withdrawal(half_link.near.into(), half_link.port.into()));
        self.left.retain(|left| left != half_link);
        self.gone.push(*half_link);
    }

    /// A metric in range: its own, that of its other half, the ends, or any.
    fn drawn_metric(&mut self, half_link: &HalfLink) -> u32 {
        let other = other_half(&self.left, half_link).map_or(half_link.metric, |other| other.metric);
        let close = half_link.metric.saturating_sub(1).max(LEAST_METRIC);
        let random = &mut *self.random;
        let [small, any] = [20, u64::from(UNUSABLE_METRIC)].map(|most| random.between(1, most) as u32);
        let ends = [LEAST_METRIC, GREATEST_USABLE_METRIC, UNUSABLE_METRIC];
        match random.between(0, 7) {
            0 => half_link.metric,
            1 => other,
            2 => close,
            3 | 4 => *random.pick(&ends),
            5 => any,
            _ => small,
        }
    }

    /// A metric out of range, the low 24 bits of which may be in it.
    fn refused_metric(&mut self, half_link: &HalfLink) -> u32 {
        let beyond = UNUSABLE_METRIC + 1;
        *self.random.pick(&[0, 0, beyond, beyond + half_link.metric, u32::MAX, 1 << 31, 1 << 27 | 10])
    }

    /// A metric change to 0, 10 or any number.
    fn push_with_any_metric(&mut self, near: u32, port: u32) {
        let given = *self.random.pick(&[0, 10, UNUSABLE_METRIC, UNUSABLE_METRIC + 1, u32::MAX]);
        self.steps.push(metric(near, port, given));
    }

    /// A near bridge that the table lacks, or a port that the near bridge has not.
    fn unknown_name(&mut self) -> (u32, u32) {
        let size = self.plan.bridges.len() as u32;
        let half_links = &self.plan.half_links;
        let random = &mut *self.random;
        let known = (!half_links.is_empty()).then(|| *random.pick(half_links));
        let (near, port) = known.map_or((0, 1), |known| (u32::from(known.near), u32::from(known.port)));
        *random.pick(&[
            (size, port),
            (65_535, port),
            (65_536 + near, port),
            (u32::MAX, port),
            (near, 0),
            (near, port % 4_095 + 1),
            (near, 4_096),
            (near, 65_536 + port),
            (near, u32::MAX),
            ((near + 1) % size.max(1), port),
        ])
    }
}

fn other_half(half_links: &[HalfLink], half_link: &HalfLink) -> Option<HalfLink> {
    let is_other = |other: &&HalfLink| other.link == half_link.link && other.mirrors(half_link);
    half_links.iter().find(is_other).copied()
}

/// The changes of the list that goes past the limit, those refused with 19 included.
const CHANGES_PAST_LIMIT: u32 = MOST_CHANGES + 10;

/// Two bridges, and more changes to them than are made: two metrics in turn, two
/// withdrawals, of which one is the last change that is made, and now and then a change
/// that is refused. Then every other refusal of a change, and a load that begins again.
pub fn list_past_limit() -> (Vec<u8>, EditList) {
    let mut plan = full_network(Shape::Line, 2, &mut Random::new(1));
    plan.half_links.truncate(4);
    let name = |place: usize| {
        let half_link = &plan.half_links[place];
        (u32::from(half_link.near), u32::from(half_link.port))
    };
    let [(near, port), (_, _), third, fourth] = [0, 1, 2, 3].map(name);
    let mut steps = vec![Step::Load { bridge: 1, vid: 1 }];
    for number in 1..=CHANGES_PAST_LIMIT {
        steps.push(match number {
            20_000 => withdrawal(third.0, third.1),
            MOST_CHANGES => withdrawal(fourth.0, fourth.1),
            _ => metric(near, port, 20 + number % 2),
        });
        match number % 4_000 {
            1 => steps.push(metric(near, 0, 20)),
            2 => steps.push(metric(near, port, 0)),
            3 => steps.push(metric(2, port, 20)),
            _ => {}
        }
    }
    steps.extend([withdrawal(near, port), metric(2, port, 20), metric(near, 0, 0), metric(near, port, 0)]);
    steps.push(Step::Load { bridge: 0, vid: 1 });
    let state = State { length: 0, bridge: 0, vid: 0, changes: 0 };
    (plan.bytes(), EditList { state, places: [2; 3], steps })
}

#[cfg(test)]
mod tests {
    use std::collections::BTreeMap;

    use super::*;
    use crate::edit_lines::{answer_lines, request, Session, LINES};
    use crate::requests::MOST_TABLE_BYTES;

    /// More than this a program's input may not take at once.
    const PIPE: usize = 65_536;

    fn listed(number: u64) -> (Vec<u8>, EditList) {
        let table = edit_case(1, number).table;
        let list = edit_list(&table, &mut Random::for_case(2, number));
        (table, list)
    }

    /// How often each call is answered and how often refused with which number.
    fn tally(tables: u64) -> BTreeMap<String, usize> {
        let mut tally = BTreeMap::new();
        for (table, list) in (0..tables).map(listed) {
            let lines = answer_lines(Rules::AS_WRITTEN, &table, &list);
            assert_eq!(lines.len(), LINES * list.steps.len());
            for (step, line) in list.steps.iter().zip(lines.iter().step_by(LINES)) {
                let call = match step {
                    Step::Load { .. } => "load",
                    Step::Change(Change::Metric { .. }) => "metric",
                    Step::Change(Change::Withdrawal { .. }) => "withdrawal",
                };
                let mut words = line.split_whitespace();
                let outcome = match words.next() {
                    Some("refused") => words.next().expect("a refusal has its number"),
                    _ => "answered",
                };
                *tally.entry(format!("{call} {outcome}")).or_insert(0) += 1;
            }
        }
        tally
    }

    #[test]
    fn every_answer_and_refusal_is_asked_for() {
        let tally = tally(1_000);
        println!("{tally:?}");
        let calls = ["load", "metric", "withdrawal"];
        let of_all = ["answered", "11", "13"].map(str::to_string);
        let of_tables = (1..=10).map(|number| number.to_string());
        let all: Vec<String> = of_all.into_iter().chain(of_tables).collect();
        let of_changes = ["metric 17", "withdrawal 17", "metric 18", "metric 19", "withdrawal 19"];
        let wanted = calls.iter().flat_map(|call| all.iter().map(move |outcome| format!("{call} {outcome}")));
        for outcome in wanted.chain(of_changes.map(str::to_string)) {
            assert!(tally.get(&outcome).is_some_and(|&count| count >= 3), "{outcome}: {tally:?}");
        }
        for never in ["load 17", "load 18", "load 19", "withdrawal 18", "metric 12", "load 12"] {
            assert!(!tally.contains_key(never), "{never}: {tally:?}");
        }
    }

    #[test]
    fn no_list_asks_for_more_than_the_program_takes() {
        for number in 0..2_000 {
            let (table, list) = listed(number);
            assert!(table.len() <= MOST_TABLE_BYTES, "table {number} has {} bytes", table.len());
            assert!(list.places.iter().all(|&places| places <= MOST_PLACES), "table {number}");
            assert!(request(&table, &list).len() < PIPE, "table {number} has too many steps");
        }
    }

    /// Whether so many tables have a list of this sort.
    fn are_made(name: &str, wanted: usize, is_such: impl Fn(&[u8], &EditList) -> bool) {
        let made = (0..1_000).map(listed).filter(|(table, list)| is_such(table, list)).count();
        println!("{name}: {made} of 1000 lists");
        assert!(made >= wanted, "{name}: {made} lists");
    }

    /// The state, bytes and half-links after all steps.
    fn after(table: &[u8], list: &EditList) -> Session {
        let mut session = Session::new(table, list);
        list.steps.iter().for_each(|&step| {
            let _ = session.take(Rules::AS_WRITTEN, step);
        });
        session
    }

    fn half_links_left(session: &Session) -> Option<usize> {
        let running = session.state.running(&session.table);
        check(Rules::AS_WRITTEN, running).ok().map(|counts| counts.half_links)
    }

    #[test]
    fn every_sort_of_list_is_made() {
        let small = |table: &[u8]| table.len() < MIDDLE_TABLE;
        are_made("300 steps or more", 10, |_, list| list.steps.len() >= 300);
        are_made("200 changes made", 5, |table, list| {
            list.steps.len() >= 300 && (200..1_000).contains(&after(table, list).state.changes)
        });
        are_made("largest tables", 5, |table, _| table.len() > 5_000);
        are_made("the 65,535th change", 5, |table, list| {
            let before = list.state.changes;
            before < MOST_CHANGES && before > 0 && after(table, list).state.changes == MOST_CHANGES
        });
        are_made("all half-links withdrawn", 20, |table, list| {
            let session = after(table, list);
            small(table) && session.state.changes > 3 && half_links_left(&session) == Some(0)
        });
        are_made("bytes behind the running table", 20, |table, list| {
            (list.state.length as usize) < table.len()
                && after(table, list).state.changes > list.state.changes
        });
        are_made("a length above the lent bytes", 5, |table, list| {
            (list.state.length as usize) > table.len()
                && after(table, list).state.changes > list.state.changes
        });
    }

    /// All 65,535 changes are made and no more; a load is refused for what the
    /// withdrawals left behind the end.
    #[test]
    fn the_longest_list_goes_past_the_limit() {
        let (table, list) = list_past_limit();
        let mut session = Session::new(&table, &list);
        let mut refused: BTreeMap<u32, u32> = BTreeMap::new();
        let mut made = 0;
        for &step in &list.steps {
            match session.take(Rules::AS_WRITTEN, step) {
                Ok("changed") => made += 1,
                Ok(_) => {}
                Err(refusal) => *refused.entry(refusal.number).or_default() += 1,
            }
        }
        assert_eq!((made, session.state.changes), (MOST_CHANGES, MOST_CHANGES));
        assert_eq!(session.state.length as usize, table.len() - 24);
        assert_eq!(refused[&19], 11);
        assert_eq!([refused[&10], refused[&11], refused[&17], refused[&18]], [1, 18, 18, 18]);
    }
}
