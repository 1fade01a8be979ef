//! Request A7 of document 02: figures worked out from its text on the diamond, every
//! refusal and their order, states that no load has made, and lists of changes against the
//! same changes made to decoded records.

use super::fixture::{diamond, down};
use super::listings::WORKED_TABLE;
use super::{ensure, equal, with_table, Outcome, Setting};
use crate::checked::Checked;
use crate::edit_lines::{EditList, Session, Step};
use crate::edits::{Change, State, MOST_CHANGES};
use crate::generate::damage::{damaged, Damaged};
use crate::generate::edit_lists::edit_list;
use crate::generate::valid::{plan, Size};
use crate::random::Random;
use crate::records::{HalfLink, Kind, Plan, GREATEST_USABLE_METRIC, UNUSABLE_METRIC};
use crate::refusal::Refusal;
use crate::rules::Rules;
use crate::search::chosen_path;
use crate::tree::NO_BRIDGE;
use crate::words::{bytes_of, from_text, to_text, words_of};

fn metric(near: u32, port: u32, metric: u32) -> Step {
    Step::Change(Change::Metric { near, port, metric })
}

fn withdrawal(near: u32, port: u32) -> Step {
    Step::Change(Change::Withdrawal { near, port })
}

/// A table with a state and lists of so many places, before the first step.
fn session(table: &[u8], state: State, places: [usize; 3]) -> Session {
    Session::new(table, &EditList { state, places, steps: Vec::new() })
}

/// What a session has after a step.
type Kept = (State, Vec<u8>, [Vec<u32>; 3]);

fn kept(session: &Session) -> Kept {
    (session.state, session.table.clone(), session.lists.clone())
}

/// A step is refused and everything is as it was.
fn is_refused(setting: &Setting, session: &mut Session, step: Step, refusal: Refusal) -> Outcome {
    let before = kept(session);
    equal(&format!("{step:?}"), session.take(setting.rules, step), Err(refusal))?;
    equal(&format!("what is kept after {step:?}"), kept(session), before)
}

fn is_taken(setting: &Setting, session: &mut Session, step: Step) -> Outcome {
    let answer = session.take(setting.rules, step);
    answer.map(|_| ()).map_err(|refusal| format!("{step:?}: {refusal:?}"))
}

/// The diamond with VID 1 and 2: four bridges, eight half-links, two VIDs, the end.
const DIAMOND: &str = "10000001 80000200 00000001 10000002 80000200 00000002 \
    10000003 80000200 00000003 10000004 80000200 00000004 \
    2000000A 00000001 00010001 2000000A 00010000 00010001 2000000A 00010003 00020002 \
    2000000A 00030001 00010002 2000000A 00000002 00020003 2000000A 00020000 00010003 \
    2000000A 00020003 00020004 2000000A 00030002 00020004 30010001 30020002 F0000026";

/// The word of the diamond's first half-link, 0 to 1 at port 1.
const FIRST_HALF_LINK: usize = 12;

/// Costs, hops and last bridges but one of the diamond's bridges.
type Tree = [[u32; 4]; 3];

/// The diamond as it is loaded: by index 1 bridge 3 is reached by 1.
const WHOLE: Tree = [[0, 10, 10, 20], [0, 1, 1, 2], [0, 0, 0, 1]];

/// The diamond with bridge 0 and VID 1 watched, in lists that just hold the tree.
fn watched_diamond(setting: &Setting) -> Result<Session, String> {
    let table = from_text(DIAMOND)?;
    let nothing = State { length: 0, bridge: 0, vid: 0, changes: 0 };
    let mut session = session(&table, nothing, [4; 3]);
    is_taken(setting, &mut session, Step::Load { bridge: 0, vid: 1 })?;
    holds(&session, [156, 0], &WHOLE, &words_of(&table))?;
    Ok(session)
}

/// Length and count of the watched diamond, its tree and the words of all lent bytes.
fn holds(session: &Session, [length, changes]: [u32; 2], tree: &Tree, words: &[u32]) -> Outcome {
    equal("state", session.state, State { length, bridge: 0, vid: 1, changes })?;
    equal("tree", &session.lists, &tree.map(|list| list.to_vec()))?;
    equal("table", to_text(&session.table), to_text(&bytes_of(words)))
}

/// The first half-link's metric raised until its link is left, and lowered again.
pub fn diamond_metrics_changed(setting: &Setting) -> Outcome {
    let mut session = watched_diamond(setting)?;
    let mut words = words_of(&session.table);
    let by_bridge_2 = [[0, 30, 10, 20], [0, 1, 1, 2], [0, 0, 0, 2]];
    let around = [[0, 30, 10, 20], [0, 3, 1, 2], [0, 3, 0, 2]];
    let figures = [
        (30, 0x2000_001E, by_bridge_2),
        (31, 0x2000_001F, around),
        (UNUSABLE_METRIC, 0x20FF_FFFF, around),
        (30, 0x2000_001E, by_bridge_2),
        (30, 0x2000_001E, by_bridge_2),
        (1, 0x2000_0001, WHOLE),
        (10, 0x2000_000A, WHOLE),
    ];
    for (made, (given, word, tree)) in (1..).zip(figures) {
        is_taken(setting, &mut session, metric(0, 1, given))?;
        words[FIRST_HALF_LINK] = word;
        holds(&session, [156, made], &tree, &words)?;
    }
    Ok(())
}

/// 2 to 3 and 1 to 0 withdrawn, each of which leaves a half-link alone; what stood where
/// the table ended stays behind its new end.
pub fn diamond_half_links_withdrawn(setting: &Setting) -> Outcome {
    let mut session = watched_diamond(setting)?;
    let words = words_of(&session.table);
    is_taken(setting, &mut session, withdrawal(2, 2))?;
    let rest = [0x2000_000A, 0x0003_0002, 0x0002_0004, 0x3001_0001, 0x3002_0002, 0xF000_0023];
    let behind = [0x3001_0001, 0x3002_0002, 0xF000_0026];
    let once = [&words[..30], &rest, &behind].concat();
    holds(&session, [144, 1], &WHOLE, &once)?;
    is_taken(setting, &mut session, withdrawal(1, 1))?;
    let half_links = [
        [0x2000_000A, 0x0000_0001, 0x0001_0001],
        [0x2000_000A, 0x0001_0003, 0x0002_0002],
        [0x2000_000A, 0x0003_0001, 0x0001_0002],
        [0x2000_000A, 0x0000_0002, 0x0002_0003],
        [0x2000_000A, 0x0002_0000, 0x0001_0003],
        [0x2000_000A, 0x0003_0002, 0x0002_0004],
    ];
    let end = [0x3001_0001, 0x3002_0002, 0xF000_0020, 0x3001_0001, 0x3002_0002, 0xF000_0023];
    let twice = [&words[..12], half_links.as_flattened(), &end, &behind].concat();
    let apart = [[0, 0, 10, 0], [0, 0, 1, 0], [0, NO_BRIDGE, 0, NO_BRIDGE]];
    holds(&session, [132, 2], &apart, &twice)?;
    let load = Step::Load { bridge: 0, vid: 1 };
    is_refused(setting, &mut session, load, Refusal::of_record(10, Kind::End, 32))?;
    is_refused(setting, &mut session, withdrawal(1, 1), Refusal::NO_HALF_LINK)?;
    is_taken(setting, &mut session, metric(3, 2, 16))?;
    let mut third = twice;
    third[27] = 0x2000_0010;
    holds(&session, [132, 3], &apart, &third)
}

/// A half-link that is down is changed and withdrawn as any other, and keeps its mark. Both
/// links of bridge 1 have a half that is down.
pub fn half_links_down_edited(setting: &Setting) -> Outcome {
    let table = down(diamond([0x8000; 4]), &[0, 3]).bytes();
    let state = State { length: table.len() as u32, bridge: 3, vid: 2, changes: 9 };
    let mut session = session(&table, state, [4; 3]);
    for (given, word) in [(5, 0x2800_0005), (UNUSABLE_METRIC, 0x28FF_FFFF), (1, 0x2800_0001)] {
        is_taken(setting, &mut session, metric(0, 1, given))?;
        equal("first word", words_of(&session.table)[FIRST_HALF_LINK], word)?;
        equal("costs", &session.lists[0], &vec![20, 0, 10, 0])?;
    }
    is_taken(setting, &mut session, withdrawal(0, 1))?;
    let words = words_of(&session.table);
    equal("first half-link", &words[FIRST_HALF_LINK..][..3], &[0x2000_000A, 0x0001_0000, 0x0001_0001])?;
    let after = State { length: state.length - 12, changes: 13, ..state };
    equal("state", session.state, after)
}

/// The worked example with bridge 0 watched, as after so many changes.
fn watched_example(changes: u32, places: [usize; 3]) -> Result<Session, String> {
    let table = from_text(WORKED_TABLE)?;
    let state = State { length: table.len() as u32, bridge: 0, vid: 10, changes };
    Ok(session(&table, state, places))
}

/// Both ends of the range of metrics and what lies beyond, also where the low 24 bits are
/// a metric.
pub fn ends_of_metrics_changed(setting: &Setting) -> Outcome {
    let mut session = watched_example(0, [2; 3])?;
    let figures = [
        (1, [12, 1, 0]),
        (13, [13, 1, 0]),
        (GREATEST_USABLE_METRIC, [16_777_214, 1, 0]),
        (UNUSABLE_METRIC, [0, 0, NO_BRIDGE]),
    ];
    for (given, tree) in figures {
        is_taken(setting, &mut session, metric(0, 1, given))?;
        equal(&format!("tree with {given}"), [0, 1, 2].map(|list| session.lists[list][1]), tree)?;
        let beyond = UNUSABLE_METRIC + 1;
        for refused in [0, beyond, beyond + 5, 1 << 27 | 5, 1 << 31, u32::MAX] {
            is_refused(setting, &mut session, metric(0, 1, refused), Refusal::BAD_METRIC)?;
        }
    }
    equal("changes", session.state.changes, 4)
}

/// Each half-link of the diamond is found by near bridge and port; no other name is one.
pub fn half_links_named(setting: &Setting) -> Outcome {
    let table = from_text(DIAMOND)?;
    let state = State { length: 156, bridge: 0, vid: 1, changes: 0 };
    let names = [(0, 1), (1, 1), (1, 2), (3, 1), (0, 2), (2, 1), (2, 2), (3, 2)];
    for (number, (near, port)) in names.into_iter().enumerate() {
        let mut session = session(&table, state, [4; 3]);
        is_taken(setting, &mut session, metric(near, port, 7))?;
        let mut words = words_of(&table);
        words[FIRST_HALF_LINK + 3 * number] = 0x2000_0007;
        equal(&format!("half-link {number}"), words_of(&session.table), words)?;
    }
    let mut session = session(&table, state, [4; 3]);
    for near in 0..4 {
        for port in [0, 3, 4_095, 4_096, 65_535, 65_537, 65_538, u32::MAX] {
            is_refused(setting, &mut session, metric(near, port, 7), Refusal::NO_HALF_LINK)?;
            is_refused(setting, &mut session, withdrawal(near, port), Refusal::NO_HALF_LINK)?;
        }
    }
    for near in [4, 63, 64, 65_535, 65_536, 65_537, u32::MAX] {
        is_refused(setting, &mut session, metric(near, 1, 7), Refusal::UNKNOWN_NAME)?;
        is_refused(setting, &mut session, withdrawal(near, 1), Refusal::UNKNOWN_NAME)?;
    }
    Ok(())
}

/// Several faults at once: 11 for the watched names or the near bridge, 17, 18, 19, 13.
pub fn order_of_refusals_of_changes(setting: &Setting) -> Outcome {
    let full = MOST_CHANGES;
    let figures = [
        (full, metric(2, 9, 0), Refusal::UNKNOWN_NAME),
        (full, withdrawal(2, 9), Refusal::UNKNOWN_NAME),
        (full, metric(0, 9, 0), Refusal::NO_HALF_LINK),
        (full, withdrawal(0, 9), Refusal::NO_HALF_LINK),
        (full, metric(0, 1, 0), Refusal::BAD_METRIC),
        (full, metric(0, 1, 5), Refusal::TOO_MANY_CHANGES),
        (full, withdrawal(0, 1), Refusal::TOO_MANY_CHANGES),
        (0, metric(2, 9, 0), Refusal::UNKNOWN_NAME),
        (0, metric(0, 9, 0), Refusal::NO_HALF_LINK),
        (0, metric(0, 1, 0), Refusal::BAD_METRIC),
        (0, metric(0, 1, 5), Refusal::SHORT_LIST),
        (0, withdrawal(0, 1), Refusal::SHORT_LIST),
    ];
    for (changes, step, refusal) in figures {
        is_refused(setting, &mut watched_example(changes, [0; 3])?, step, refusal)?;
        for (bridge, vid) in [(2, 10), (65_536, 10), (0, 11), (0, 65_546)] {
            let mut session = watched_example(changes, [0; 3])?;
            session.state = State { bridge, vid, ..session.state };
            is_refused(setting, &mut session, step, Refusal::UNKNOWN_NAME)?;
            is_refused(setting, &mut session, Step::Load { bridge, vid }, Refusal::UNKNOWN_NAME)?;
        }
    }
    is_refused(
        setting,
        &mut watched_example(0, [0; 3])?,
        Step::Load { bridge: 0, vid: 10 },
        Refusal::SHORT_LIST,
    )
}

/// The 65,535th change is made and none after it, until a load begins anew.
pub fn changes_up_to_the_limit(setting: &Setting) -> Outcome {
    for before in [0, MOST_CHANGES - 3, MOST_CHANGES - 1] {
        for step in [metric(1, 2, 40), metric(1, 2, 12), withdrawal(1, 2)] {
            let mut session = watched_example(before, [2; 3])?;
            is_taken(setting, &mut session, step)?;
            equal("changes", session.state.changes, before + 1)?;
        }
    }
    for before in [MOST_CHANGES, MOST_CHANGES + 1, u32::MAX] {
        let mut session = watched_example(before, [2; 3])?;
        for step in [metric(1, 2, 40), withdrawal(1, 2)] {
            is_refused(setting, &mut session, step, Refusal::TOO_MANY_CHANGES)?;
        }
        is_taken(setting, &mut session, Step::Load { bridge: 1, vid: 10 })?;
        equal("loaded", session.state, State { length: 72, bridge: 1, vid: 10, changes: 0 })?;
        is_taken(setting, &mut session, metric(1, 2, 40))?;
        equal("changes", session.state.changes, 1)?;
    }
    Ok(())
}

/// A length that is not the table's: the first bytes are the running table, or all where
/// there are fewer.
pub fn lengths_of_no_load(setting: &Setting) -> Outcome {
    let with_length = |length: u32| -> Result<Session, String> {
        let mut session = watched_example(3, [2; 3])?;
        session.state.length = length;
        Ok(session)
    };
    let refused = [
        (0, Refusal::LENGTH),
        (71, Refusal::LENGTH),
        (4, Refusal::of_record(3, Kind::Bridge, 0)),
        (32, Refusal::of_record(3, Kind::HalfLink, 6)),
        (68, Refusal { number: 3, kind: None, word: 17 }),
    ];
    for (length, refusal) in refused {
        for step in [metric(2, 9, 0), withdrawal(0, 1)] {
            is_refused(setting, &mut with_length(length)?, step, refusal)?;
        }
    }
    for length in [72, 73, 76, 10_000, u32::MAX] {
        for (step, after) in [(metric(0, 1, 20), 72), (withdrawal(0, 1), 60)] {
            let mut session = with_length(length)?;
            is_taken(setting, &mut session, step)?;
            let state = State { length: after, bridge: 0, vid: 10, changes: 4 };
            equal(&format!("state after {length} bytes"), session.state, state)?;
        }
    }
    let mut behind = with_length(72)?;
    behind.table.extend([1, 2, 3, 4, 5]);
    is_taken(setting, &mut behind, withdrawal(0, 1))?;
    equal("bytes behind", &behind.table[60..], &[65, 0, 1, 0, 0, 1, 0, 10, 240, 0, 0, 17, 1, 2, 3, 4, 5])?;
    is_refused(setting, &mut behind, Step::Load { bridge: 0, vid: 10 }, Refusal::LENGTH)
}

/// Each of the three lists too short by one, and all long enough: places behind the tree
/// keep their contents.
pub fn trees_kept_in_lists_of_every_length(setting: &Setting) -> Outcome {
    for step in [Step::Load { bridge: 0, vid: 10 }, metric(1, 2, 40), withdrawal(0, 1)] {
        for places in [[1, 2, 2], [2, 1, 2], [2, 2, 1], [0, 5, 5]] {
            is_refused(setting, &mut watched_example(3, places)?, step, Refusal::SHORT_LIST)?;
        }
        for places in [[2; 3], [3, 2, 2], [2, 4, 3], [80; 3]] {
            let mut session = watched_example(3, places)?;
            let before = session.lists.clone();
            is_taken(setting, &mut session, step)?;
            for (list, before) in session.lists.iter().zip(&before) {
                ensure!(list[..2] != before[..2], "{step:?}: the tree is not written");
                equal("places behind the tree", &list[2..], &before[2..])?;
            }
        }
    }
    Ok(())
}

/// Loads and changes examine the table before names and lists.
pub fn faulty_tables_refused_by_edits(setting: &Setting) -> Outcome {
    let steps = [Step::Load { bridge: 70_000, vid: 0 }, metric(70_000, 0, 0), withdrawal(0, 1)];
    for number in 0..setting.tables.div_ceil(4) {
        let Damaged { name, table, refusal } = damaged(&mut Random::for_case(setting.seed, number));
        let state = State { length: table.len() as u32, bridge: 0, vid: 0, changes: MOST_CHANGES };
        let mut session = session(&table, state, [0; 3]);
        let mut all = steps.iter().map(|&step| is_refused(setting, &mut session, step, refusal));
        with_table(&table, all.try_for_each(|outcome| outcome.map_err(|why| format!("{name}: {why}"))))?;
    }
    Ok(())
}

/// The steps of a list that the next property takes.
const MOST_STEPS: usize = 24;

/// Lists of changes to small plans: the table is what the same changes make of the decoded
/// records, it is accepted, the tree is what brute force finds in it, the count is that of
/// the changes not refused, and a refused step leaves everything as it was.
pub fn edited_plans_agree(setting: &Setting) -> Outcome {
    for number in 0..setting.tables {
        let mut random = Random::for_case(setting.seed, number);
        let size = Size { bridges: 1 + random.below(5), vids: 1 + random.below(2), members: random.below(3) };
        let plan = plan(size, &mut random);
        let table = plan.bytes();
        let list = edit_list(&table, &mut random);
        with_table(&table, edits_agree(setting, &plan, &table, &list))?;
    }
    Ok(())
}

fn edits_agree(setting: &Setting, plan: &Plan, table: &[u8], list: &EditList) -> Outcome {
    let size = plan.bridges.len();
    let places = list.places.map(|places| places.max(size));
    let mut session = session(table, list.state, places);
    let first = Step::Load { bridge: 0, vid: plan.vids[0].vid.into() };
    let mut model = Model { plan: plan.clone(), behind: 0, watched: (0, plan.vids[0].index), made: 0 };
    let steps = [first].into_iter().chain(list.steps.iter().copied());
    for (place, step) in steps.take(MOST_STEPS).enumerate() {
        let before = kept(&session);
        let answer = session.take(setting.rules, step).map(|_| ());
        let expected = model.take(step);
        equal(&format!("step {place}, {step:?}"), answer, expected)?;
        let outcome = match expected {
            Err(_) => equal("what is kept", kept(&session), before),
            Ok(()) => model.holds(&session, &before),
        };
        outcome.map_err(|why| format!("step {place}, {step:?}: {why}"))?;
    }
    Ok(())
}

/// The running table as decoded records.
struct Model {
    plan: Plan,
    /// The bytes behind the table's end.
    behind: usize,
    /// The watched bridge and the ECT index of the watched VID.
    watched: (usize, u16),
    made: u32,
}

impl Model {
    fn take(&mut self, step: Step) -> Result<(), Refusal> {
        match step {
            Step::Load { bridge, vid } => self.load(bridge, vid),
            Step::Change(change) => self.change(change),
        }
    }

    fn load(&mut self, bridge: u32, vid: u32) -> Result<(), Refusal> {
        if self.behind > 0 {
            return Err(Refusal::of_record(10, Kind::End, self.plan.words().len() - 1));
        }
        let index = self.plan.vids.iter().find(|record| u32::from(record.vid) == vid);
        let is_known = (bridge as usize) < self.plan.bridges.len();
        let record = index.filter(|_| is_known).ok_or(Refusal::UNKNOWN_NAME)?;
        self.watched = (bridge as usize, record.index);
        self.made = 0;
        Ok(())
    }

    fn change(&mut self, change: Change) -> Result<(), Refusal> {
        if change.near() as usize >= self.plan.bridges.len() {
            return Err(Refusal::UNKNOWN_NAME);
        }
        let name = (change.near(), change.port());
        let has_name = |half_link: &HalfLink| (half_link.near.into(), half_link.port.into()) == name;
        let half_links = &mut self.plan.half_links;
        let number = half_links.iter().position(has_name).ok_or(Refusal::NO_HALF_LINK)?;
        match change {
            Change::Metric { metric: 1..=UNUSABLE_METRIC, .. } => {}
            Change::Metric { .. } => return Err(Refusal::BAD_METRIC),
            Change::Withdrawal { .. } => self.behind += 12,
        }
        match change {
            Change::Metric { metric, .. } => half_links[number].metric = metric,
            Change::Withdrawal { .. } => drop(half_links.remove(number)),
        }
        self.made += 1;
        Ok(())
    }

    /// What a session keeps after a step that was not refused.
    fn holds(&self, session: &Session, (_, table_before, lists_before): &Kept) -> Outcome {
        let bytes = self.plan.bytes();
        equal("length", session.state.length as usize, bytes.len())?;
        equal("count", session.state.changes, self.made)?;
        equal("table", to_text(session.state.running(&session.table)), to_text(&bytes))?;
        equal("bytes behind", &session.table[bytes.len()..], &table_before[bytes.len()..])?;
        let written = Checked::new(Rules::AS_WRITTEN, &bytes);
        let written = written.map_err(|refusal| format!("an edited table is refused: {refusal:?}"))?;
        let (from, index) = self.watched;
        let ranking = written.ranking(index);
        let size = self.plan.bridges.len();
        for to in 0..size {
            let expected = chosen_path(&ranking, from, to).map_or([0, 0, NO_BRIDGE], |path| {
                let before_last = path.bridges.iter().rev().nth(1).map_or(from, |&bridge| bridge);
                [path.cost as u32, path.hops() as u32, before_last as u32]
            });
            equal(&format!("tree at {to}"), [0, 1, 2].map(|list| session.lists[list][to]), expected)?;
        }
        for (list, before) in session.lists.iter().zip(lists_before) {
            equal("places behind the tree", &list[size..], &before[size..])?;
        }
        Ok(())
    }
}
