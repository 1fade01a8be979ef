//! The stored case of the program `probe_check`: the worked example of document 01,
//! an empty table, the table of one word, for each refusal number and kind one
//! damaged table, the worked example with bits set in the first words of its bridges and
//! half-links, the diamond with half-links that are down and with faults of such, and with
//! traffic records and faults of such; the diamond with extension bits, and an address that
//! stands twice beside another priority; the longest table, and one word more.
//! Holds a folder's `stdin` and `stdout` to it, or writes them with `--write`.

use std::collections::BTreeMap;
use std::io;
use std::path::Path;
use std::process::ExitCode;

use reference::arguments::{Arguments, Usage};
use reference::check::read;
use reference::check_line::{check_line, framed};
use reference::comparing::stored;
use reference::generate::damage::{
    edited_once, one_word_too_long, over_limit, truncations, words_after_end, Damaged,
};
use reference::generate::valid::{fullest, plan as seeded_plan, Size};
use reference::properties::extensions::{repeated_addresses, EXTENDED_DIAMONDS};
use reference::properties::fixture::{diamond, down, loaded, with_bits};
use reference::properties::loads::{accepted_traffic, faulty_traffic, loaded_diamond};
use reference::properties::ports_down::faulty_half_links_down;
use reference::random::Random;
use reference::records::{Kind, Plan, BELOW_MARK_BIT, MARK_BIT};
use reference::rules::Rules;
use reference::words::{bytes_of, from_text};

const USAGE: Usage =
    Usage { text: "check-vectors --folder NAME [--write]", values: &["folder"], flags: &["write"] };

fn main() -> io::Result<ExitCode> {
    let arguments = Arguments::of_process(&USAGE);
    let folder = Path::new(arguments.required("folder"));
    let tables = tables();
    let input: Vec<u8> = tables.iter().flat_map(|table| framed(table)).collect();
    let lines: String = tables.iter().map(|table| check_line(Rules::AS_WRITTEN, table)).collect();
    println!("check-vectors: {} tables", tables.len());
    stored("check-vectors", folder, arguments.has("write"), &input, &lines)
}

fn tables() -> Vec<Vec<u8>> {
    let worked = from_text(include_str!("../../../examples/two-bridges.hex")).expect("hexadecimal text");
    let plan = read(Rules::AS_WRITTEN, &worked).expect("the worked example is accepted");
    let mut random = Random::new(1);
    let mut damaged = edited_once(&plan);
    damaged.extend(truncations(&plan));
    damaged.extend((0..9).map(|_| words_after_end(&plan, &mut random)));
    damaged.extend(edited_once(&seeded_plan(Size { bridges: 3, vids: 2, members: 2 }, &mut random)));
    damaged.extend(over_limit(&mut random));
    let traffic = loaded(plan.clone(), &[(10, 5, 0, 1), (10, 7, 1, 0)]);
    damaged.extend(edited_once(&traffic));
    damaged.extend(truncations(&traffic));
    let mut tables = vec![worked, Vec::new(), bytes_of(&[0xF000_0000])];
    tables.extend(one_for_each(damaged).into_values().map(|damaged| damaged.table));
    tables.extend([Kind::Bridge, Kind::HalfLink].iter().flat_map(|&kind| worked_with_bits(&plan, kind)));
    tables.extend(diamonds_with_half_links_down());
    tables.extend(tables_with_traffic(&plan));
    tables.extend(EXTENDED_DIAMONDS.iter().map(|&(priorities, _)| diamond(priorities).bytes()));
    tables.extend(repeated_addresses().into_iter().map(|(plan, _)| plan.bytes()));
    tables.push(fullest(&mut random).bytes());
    tables.push(one_word_too_long(&mut random).table);
    tables
}

/// The worked example with the mark, each zero bit of the kind, and both set in the first
/// words of its records of a kind.
fn worked_with_bits(worked: &Plan, kind: Kind) -> Vec<Vec<u8>> {
    let zero_bits = (0..32).map(|bit| 1 << bit).filter(|bit| kind.zero_bits() & bit != 0);
    let mut bits = vec![[MARK_BIT, 0], [0, MARK_BIT], [MARK_BIT, MARK_BIT]];
    bits.extend(zero_bits.map(|bit| [0, bit]));
    bits.push([MARK_BIT | BELOW_MARK_BIT, 0]);
    bits.push([MARK_BIT, MARK_BIT | BELOW_MARK_BIT]);
    bits.into_iter().map(|bits| with_bits(worked, kind, bits)).collect()
}

/// One half of link 0-1 down, the other, both, one half of each link of bridge 0, and
/// all; and faults that a half-link has whether it is down or not.
fn diamonds_with_half_links_down() -> Vec<Vec<u8>> {
    let choices: [&[usize]; 5] = [&[0], &[1], &[0, 1], &[1, 4], &[0, 1, 2, 3, 4, 5, 6, 7]];
    let accepted = choices.map(|half_links| down(diamond([0x8000; 4]), half_links));
    let faulty = faulty_half_links_down().into_iter().map(|(plan, _)| plan);
    accepted.into_iter().chain(faulty).map(|plan| plan.bytes()).collect()
}

/// The worked example of document 02, A5; two records of the diamond that do not repeat
/// each other; and faults of the second.
fn tables_with_traffic(worked: &Plan) -> Vec<Vec<u8>> {
    let mut plans = vec![loaded(worked.clone(), &[(10, 5, 0, 1)])];
    plans.extend(accepted_traffic().iter().map(|traffic| loaded_diamond(traffic)));
    let faulty = faulty_traffic().into_iter().map(|(table, _)| table);
    plans.iter().map(Plan::bytes).chain(faulty).collect()
}

/// The first of the damaged tables for each refusal number and kind.
fn one_for_each(damaged: Vec<Damaged>) -> BTreeMap<(u32, u32), Damaged> {
    let mut each = BTreeMap::new();
    for table in damaged {
        let kind = table.refusal.kind.map_or(0, |kind| kind as u32);
        each.entry((table.refusal.number, kind)).or_insert(table);
    }
    each
}
