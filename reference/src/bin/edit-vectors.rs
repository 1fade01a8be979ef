//! The stored case of the program `probe_edits`: the worked example of document 01 and the
//! diamond loaded and changed with each refusal and the ends of each range, half-links that
//! are down, every half-link withdrawn, lists around what the tree needs, states that no
//! load has made, one table for each of 1 to 10, and a seeded table with seeded steps.
//! Holds a folder's `stdin` and `stdout` to it, or writes them with `--write`.

use std::io;
use std::path::Path;
use std::process::ExitCode;

use reference::arguments::{Arguments, Usage};
use reference::comparing::stored;
use reference::edit_lines::{answer_lines, request, EditList, Step};
use reference::edits::{Change, State, MOST_CHANGES};
use reference::generate::edit_lists::edit_list;
use reference::generate::valid::{plan as seeded_plan, Size};
use reference::properties::fixture::{diamond, down};
use reference::random::Random;
use reference::records::{GREATEST_USABLE_METRIC, UNUSABLE_METRIC};
use reference::rules::Rules;
use reference::words::{bytes_of, from_text, words_of};

const USAGE: Usage =
    Usage { text: "edit-vectors --folder NAME [--write]", values: &["folder"], flags: &["write"] };

type Listed = (Vec<u8>, EditList);

fn main() -> io::Result<ExitCode> {
    let arguments = Arguments::of_process(&USAGE);
    let folder = Path::new(arguments.required("folder"));
    let listed = listed();
    let input: Vec<u8> = listed.iter().flat_map(|(table, list)| request(table, list)).collect();
    let answers = |(table, list): &Listed| answer_lines(Rules::AS_WRITTEN, table, list).concat();
    let lines: String = listed.iter().map(answers).collect();
    println!("edit-vectors: {} tables, {} lines", listed.len(), lines.lines().count());
    stored("edit-vectors", folder, arguments.has("write"), &input, &lines)
}

fn listed() -> Vec<Listed> {
    let mut listed = vec![worked_changes(), worked_withdrawn(), diamond_changes(), diamond_withdrawn()];
    listed.extend(short_lists());
    listed.extend(states_of_no_load());
    listed.extend(refused_tables());
    listed.push(seeded());
    listed.push((worked(), list(LOADED, [2; 3], &[])));
    listed
}

fn worked() -> Vec<u8> {
    from_text(include_str!("../../../examples/two-bridges.hex")).expect("hexadecimal text")
}

/// The worked example's state after a load of bridge 0.
const LOADED: State = State { length: 72, bridge: 0, vid: 10, changes: 0 };

/// No state of any table.
const NOTHING: State = State { length: 0, bridge: 0, vid: 0, changes: 0 };

fn list(state: State, places: [usize; 3], steps: &[Step]) -> EditList {
    EditList { state, places, steps: steps.to_vec() }
}

fn load(bridge: u32, vid: u32) -> Step {
    Step::Load { bridge, vid }
}

fn metric(near: u32, port: u32, metric: u32) -> Step {
    Step::Change(Change::Metric { near, port, metric })
}

fn withdrawal(near: u32, port: u32) -> Step {
    Step::Change(Change::Withdrawal { near, port })
}

/// Loads by names that the table has and lacks; every end of the range of metrics, the
/// metric that is there; names of no half-link, and several faults at once.
fn worked_changes() -> Listed {
    let unknown = [(2, 10), (65_536, 10), (u32::MAX, 10), (0, 0), (0, 11), (0, 65_546), (0, u32::MAX)];
    let mut steps = unknown.map(|(bridge, vid)| load(bridge, vid)).to_vec();
    steps.extend([load(0, 10), load(1, 10)]);
    let beyond = UNUSABLE_METRIC + 1;
    for given in [12, 1, GREATEST_USABLE_METRIC, UNUSABLE_METRIC, 0, beyond, beyond + 12, u32::MAX, 12] {
        steps.push(metric(0, 1, given));
    }
    steps.push(load(1, 11));
    for (near, port) in [(2, 1), (65_536, 1), (65_535, 1), (0, 2), (1, 1), (0, 0), (1, 65_538)] {
        steps.extend([metric(near, port, 0), metric(near, port, 20), withdrawal(near, port)]);
    }
    steps.extend([metric(1, 2, 40), load(0, 10), metric(1, 2, 40)]);
    (worked(), list(NOTHING, [2; 3], &steps))
}

/// Both half-links withdrawn, each again, and what a load says of the bytes behind the end.
fn worked_withdrawn() -> Listed {
    let steps = [
        load(0, 10),
        withdrawal(1, 2),
        withdrawal(1, 2),
        metric(1, 2, 0),
        metric(0, 1, 3),
        load(0, 10),
        withdrawal(0, 1),
        withdrawal(0, 1),
    ];
    (worked(), list(NOTHING, [4, 3, 2], &steps))
}

/// The diamond with one half of 0-1 down, by two indexes.
fn small_diamond() -> Vec<u8> {
    let mut plan = down(diamond([0x8000; 4]), &[0]);
    plan.vids.truncate(2);
    plan.bytes()
}

/// Metrics of both halves, the mark that stays, and a way that costs more and less.
fn diamond_changes() -> Listed {
    let steps = [
        load(0, 1),
        metric(0, 1, 7),
        metric(0, 2, 9),
        metric(2, 1, 9),
        metric(2, 1, 30),
        metric(3, 2, UNUSABLE_METRIC),
        metric(3, 2, GREATEST_USABLE_METRIC),
        load(3, 2),
        metric(0, 0, 0),
        metric(3, 1, 10),
    ];
    (small_diamond(), list(NOTHING, [4; 3], &steps))
}

/// The first half-link, which is down, the last, and two more.
fn diamond_withdrawn() -> Listed {
    let steps = [load(3, 2), withdrawal(0, 1), withdrawal(3, 2), withdrawal(1, 2), metric(3, 1, 5)];
    (small_diamond(), list(NOTHING, [5, 4, 6], &steps))
}

/// Each list a place short, and none at all: 13 comes after every other number.
fn short_lists() -> Vec<Listed> {
    let steps =
        [load(0, 10), metric(0, 1, 5), withdrawal(1, 2), metric(0, 3, 5), metric(0, 1, 0), load(2, 10)];
    let mut lists = vec![(worked(), list(LOADED, [0; 3], &steps))];
    for short in 0..3 {
        let mut places = [2; 3];
        places[short] = 1;
        lists.push((worked(), list(LOADED, places, &steps[..3])));
    }
    let full = State { changes: MOST_CHANGES, ..LOADED };
    lists.push((worked(), list(full, [1; 3], &[metric(0, 1, 5), metric(0, 1, 0), withdrawal(0, 2)])));
    lists
}

/// Lengths that are shorter and longer, bytes behind the running table, unknown watched
/// names, and counts around the limit.
fn states_of_no_load() -> Vec<Listed> {
    let both = [metric(0, 1, 20), withdrawal(1, 2)];
    let lengths = [0, 4, 60, 68, 71, 73, 76, u32::MAX].map(|length| State { length, ..LOADED });
    let bridges = [2, 65_536, u32::MAX].map(|bridge| State { bridge, ..LOADED });
    let vids = [0, 11, 65_546].map(|vid| State { vid, ..LOADED });
    let mut states = [&lengths[..], &bridges, &vids].concat();
    states.push(State { bridge: 1, ..LOADED });
    let mut listed: Vec<Listed> =
        states.iter().map(|&state| (worked(), list(state, [2; 3], &both))).collect();
    let mut behind = worked();
    behind.extend([1, 2, 3, 4, 5]);
    listed.push((behind, list(LOADED, [2; 3], &[both[0], both[1], load(0, 10)])));
    let at_limit =
        [metric(0, 1, 20), metric(0, 1, 21), metric(0, 1, 0), withdrawal(0, 2), load(1, 10), both[0]];
    for changes in [MOST_CHANGES - 1, MOST_CHANGES, MOST_CHANGES + 1, u32::MAX] {
        listed.push((worked(), list(State { changes, ..LOADED }, [2; 3], &at_limit)));
    }
    listed
}

/// One table for each of the table's own refusals, with faults of the steps beside it.
fn refused_tables() -> Vec<Listed> {
    let words = words_of(&worked());
    let with = |place: usize, word: u32| {
        let mut other = words.clone();
        other[place] = word;
        other
    };
    let tables = [
        Vec::new(),
        vec![0x6000_0000],
        words[..3].to_vec(),
        with(6, 0x2100_000A),
        (1..=17).map(|vid| 0x3000_0001 | vid << 16).collect(),
        with(17, 0xF000_0010),
        with(7, 0x0000_0002),
        vec![0x300A_0001, 0x300A_0002, 0xF000_0002],
        with(10, 0x0000_0001),
        vec![0xF000_0000, 0],
    ];
    let mut tables = tables.map(|words| bytes_of(&words)).to_vec();
    tables.push(worked()[..70].to_vec());
    tables.push(bytes_of(&[0xF000_0000]));
    let steps = [load(0, 10), metric(0, 1, 5), withdrawal(9, 0)];
    let refused = |table: Vec<u8>| {
        let state = State { length: table.len() as u32, ..LOADED };
        (table, list(state, [1, 0, 0], &steps))
    };
    tables.into_iter().map(refused).collect()
}

/// The first seeded list of a few steps.
fn seeded() -> Listed {
    let mut random = Random::new(1);
    let table = seeded_plan(Size { bridges: 4, vids: 1, members: 2 }, &mut random).bytes();
    loop {
        let list = edit_list(&table, &mut random);
        if list.steps.len() < 16 && list.places.iter().all(|&places| (4..20).contains(&places)) {
            return (table, list);
        }
    }
}
