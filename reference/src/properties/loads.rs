//! Request A5 of document 02: the worked listing and the diamond with traffic records,
//! lost amounts, faults of such records, the two sums that total equals, and loads by
//! brute force.

use std::collections::{BTreeMap, BTreeSet};

use super::agreement::{for_small_plans, refused};
use super::fixture::{
    diamond, down, ends, is_usable, link, links_7_and_9, loaded, overloaded, plan as fixed_plan,
};
use super::listings::{unmarked_list_as_before, worked_plan, WORKED_LISTING, WORKED_TABLE};
use super::{ensure, equal, with_table, Outcome, Setting};
use crate::check::{check, Counts};
use crate::checked::Checked;
use crate::generate::valid::{fullest, plan as random_plan, Size};
use crate::listing::listing;
use crate::loads::Loads;
use crate::random::Random;
use crate::records::{HalfLink, Kind, Member, Plan, Traffic, Vid};
use crate::refusal::Refusal;
use crate::rules::{Misreading, Rules};
use crate::search::chosen_path;
use crate::words::{bytes_of, from_text};

/// The worked table with one record, VID 10, amount 5, from 0 to 1.
const WORKED_RECORD: &str = "500A0005 00000001 F0000013";

pub fn worked_loads(setting: &Setting) -> Outcome {
    let table = from_text(&WORKED_TABLE.replace("F0000011", WORKED_RECORD))?;
    let expected = WORKED_LISTING.to_string() + "load 0 1 5\ntotal 5\nlost 0\n";
    equal("listing", listing(setting.rules, &table), expected)?;
    let made = loaded(worked_plan()?, &[(10, 5, 0, 1)]);
    equal("words", made.bytes(), table.clone())?;
    let counts = Counts { bridges: 2, half_links: 2, usable_links: 1, vids: 1, members: 2 };
    equal("counts", check(setting.rules, &table), Ok(counts))
}

/// The diamond with VID 10 of index 1, VID 11 of index 2, and these traffic records.
pub fn loaded_diamond(traffic: &[(u16, u16, u16, u16)]) -> Plan {
    let mut plan = diamond([0x8000; 4]);
    plan.vids = vec![Vid { vid: 10, index: 1 }, Vid { vid: 11, index: 2 }];
    loaded(plan, traffic)
}

/// The lines of a listing from its first load line on, or its total without one.
fn lines_of_loads(text: &str) -> Vec<&str> {
    let is_before = |line: &&str| !line.starts_with("load ") && !line.starts_with("total ");
    text.lines().skip_while(is_before).collect()
}

fn ends_with(setting: &Setting, name: &str, plan: &Plan, expected: &[&str]) -> Outcome {
    let text = listing(setting.rules, &plan.bytes());
    equal(name, lines_of_loads(&text), expected.to_vec())
}

/// Index 1 goes by 1 and index 2 by 2, in both directions.
pub fn diamond_loads(setting: &Setting) -> Outcome {
    let by_1 = ["load 0 1 5", "load 0 2 0", "load 1 3 5", "load 2 3 0", "total 10", "lost 0"];
    ends_with(setting, "VID 10", &loaded_diamond(&[(10, 5, 0, 3)]), &by_1)?;
    ends_with(setting, "VID 10, opposite", &loaded_diamond(&[(10, 5, 3, 0)]), &by_1)?;
    let by_2 = ["load 0 1 0", "load 0 2 5", "load 1 3 0", "load 2 3 5", "total 10", "lost 0"];
    ends_with(setting, "VID 11", &loaded_diamond(&[(11, 5, 3, 0)]), &by_2)?;
    let both = loaded_diamond(&[(10, 5, 0, 3), (10, 7, 3, 0)]);
    let sums = ["load 0 1 12", "load 0 2 0", "load 1 3 12", "load 2 3 0", "total 24", "lost 0"];
    ends_with(setting, "both directions", &both, &sums)?;
    let several = loaded_diamond(&[(10, 5, 0, 3), (11, 7, 0, 3), (10, 65_535, 2, 0), (11, 1, 1, 2)]);
    let sums = ["load 0 1 5", "load 0 2 65542", "load 1 3 6", "load 2 3 8", "total 65561", "lost 0"];
    ends_with(setting, "several records", &several, &sums)
}

/// Without a joined pair `total` and `lost` stand alone; without a traffic record neither.
pub fn loads_without_joined_pairs(setting: &Setting) -> Outcome {
    let lost = ["total 0", "lost 12"];
    let apart = loaded(fixed_plan(&ends([1, 2]), &[]), &[(1, 5, 0, 1), (2, 7, 1, 0)]);
    ends_with(setting, "no link", &apart, &lost)?;
    let traffic = [(10, 5, 0, 1), (11, 7, 3, 0)];
    let all_down = down(loaded_diamond(&traffic), &[0, 1, 2, 3, 4, 5, 6, 7]);
    ends_with(setting, "all ports down", &all_down, &lost)?;
    let mut alone = loaded_diamond(&traffic);
    alone.half_links.retain(|half| half.near < half.far);
    ends_with(setting, "half-links alone", &alone, &lost)?;
    ends_with(setting, "no traffic record", &loaded_diamond(&[]), &[])
}

/// Amounts are lost behind links that are down, and where every chain leads through an
/// overloaded bridge.
pub fn lost_amounts(setting: &Setting) -> Outcome {
    let traffic = [(10, 5, 0, 3), (10, 7, 1, 3), (11, 11, 2, 1)];
    let apart = down(loaded_diamond(&traffic), &[1, 4]);
    ends_with(setting, "bridge 0 apart", &apart, &["load 1 3 18", "load 2 3 11", "total 29", "lost 5"])?;
    let through = overloaded(loaded_diamond(&traffic), &[1, 2]);
    let lines = ["load 0 1 0", "load 0 2 0", "load 1 3 18", "load 2 3 11", "total 29", "lost 5"];
    ends_with(setting, "bridges 1 and 2 overloaded", &through, &lines)
}

/// Each joined pair has one line, also with parallel links, between overloaded bridges,
/// and where one of two links is down.
pub fn each_joined_pair_has_a_line(setting: &Setting) -> Outcome {
    for half_links in [&[][..], &[0], &[3]] {
        let parallel = down(loaded(links_7_and_9([10, 12]), &[(1, 5, 1, 0)]), half_links);
        let name = format!("parallel links, half-links {half_links:?}");
        ends_with(setting, &name, &parallel, &["load 0 1 5", "total 5", "lost 0"])?;
    }
    let all = overloaded(loaded_diamond(&[(10, 5, 0, 1)]), &[0, 1, 2, 3]);
    let lines = ["load 0 1 5", "load 0 2 0", "load 1 3 0", "load 2 3 0", "total 5", "lost 0"];
    ends_with(setting, "all overloaded", &all, &lines)?;
    let links = [link(2, 3, 10), link(1, 2, 10), link(0, 3, 10)];
    let rising = loaded(fixed_plan(&ends([1, 2, 3, 4]), &links), &[(1, 5, 1, 0)]);
    let lines = ["load 0 3 5", "load 1 2 5", "load 2 3 5", "total 15", "lost 0"];
    ends_with(setting, "rising", &rising, &lines)
}

/// The words of the diamond with a traffic record, followed by these before the end.
fn diamond_and(more: &[u32]) -> Vec<u32> {
    let mut words = loaded_diamond(&[(10, 5, 0, 3)]).words();
    words.pop();
    words.extend(more);
    words.push(Kind::End.tag() | words.len() as u32);
    words
}

/// The first word of what `diamond_and` adds.
const ADDED: usize = 4 * 3 + 8 * 3 + 2 + 2;

/// Tables whose second traffic record is faulty, or of which a record of a lower kind
/// follows the first, with the refusal.
pub fn faulty_traffic() -> Vec<(Vec<u8>, Refusal)> {
    let records: [(u32, (u16, u16, u16, u16)); 17] = [
        (6, (10, 0, 1, 3)),
        (6, (0, 5, 1, 3)),
        (6, (4_095, 5, 1, 3)),
        (6, (0, 5, 1, 1)),
        (6, (10, 0, 0, 3)),
        (6, (10, 0, 4, 3)),
        (7, (1, 5, 1, 3)),
        (7, (12, 5, 1, 3)),
        (7, (4_094, 5, 1, 3)),
        (7, (10, 5, 4, 3)),
        (7, (10, 5, 1, 4)),
        (7, (10, 5, 65_535, 3)),
        (7, (10, 5, 1, 65_535)),
        (7, (10, 5, 1, 1)),
        (7, (11, 5, 3, 3)),
        (8, (10, 5, 0, 3)),
        (8, (10, 65_535, 0, 3)),
    ];
    let mut tables = Vec::new();
    for (number, (vid, amount, from, to)) in records {
        let words = diamond_and(&Traffic { vid, amount, from, to }.words());
        tables.push((bytes_of(&words), Refusal::of_record(number, Kind::Traffic, ADDED)));
    }
    let member = Member { transmits: true, receives: true, service: 256, bridge: 0, vid: 10 };
    for lower in [&member.words()[..], &Vid { vid: 12, index: 3 }.words()] {
        let refusal = Refusal { number: 2, kind: None, word: ADDED };
        tables.push((bytes_of(&diamond_and(lower)), refusal));
    }
    let mut cut = diamond_and(&Traffic { vid: 10, amount: 5, from: 3, to: 0 }.words());
    cut.truncate(ADDED + 1);
    tables.push((bytes_of(&cut), Refusal::of_record(3, Kind::Traffic, ADDED)));
    tables
}

pub fn faulty_traffic_refused(setting: &Setting) -> Outcome {
    for (table, refusal) in faulty_traffic() {
        with_table(&table, equal("refusal", check(setting.rules, &table), Err(refusal)))?;
    }
    Ok(())
}

/// Two traffic records that do not repeat each other: the opposite direction, the same
/// ends in another VID, one end of two.
pub fn accepted_traffic() -> [[(u16, u16, u16, u16); 2]; 4] {
    [(10, 5, 3, 0), (11, 5, 0, 3), (10, 5, 0, 2), (10, 5, 1, 3)].map(|second| [(10, 5, 0, 3), second])
}

pub fn traffic_that_is_no_repeat(setting: &Setting) -> Outcome {
    let counts = Counts { bridges: 4, half_links: 8, usable_links: 4, vids: 2, members: 0 };
    for traffic in accepted_traffic() {
        let found = check(setting.rules, &loaded_diamond(&traffic).bytes());
        equal(&format!("{traffic:?}"), found, Ok(counts))?;
    }
    Ok(())
}

/// 256 records are accepted, alone and in a table of more than 7,492 bytes; one more is 5.
pub fn most_traffic_records(setting: &Setting) -> Outcome {
    let bridges: Vec<(u16, u64)> = (1..=17).map(|end| (0x8000, end)).collect();
    let pairs = (0..17).flat_map(|from| (0..17).map(move |to| (1, 1, from, to)));
    let traffic: Vec<_> = pairs.filter(|&(_, _, from, to)| from != to).take(257).collect();
    let with = |count: usize| loaded(fixed_plan(&bridges, &[]), &traffic[..count]).bytes();
    let counts = Counts { bridges: 17, half_links: 0, usable_links: 0, vids: 16, members: 0 };
    equal("256 records", check(setting.rules, &with(256)), Ok(counts))?;
    let refusal = Refusal::of_record(5, Kind::Traffic, 17 * 3 + 16 + 256 * 2);
    equal("257 records", check(setting.rules, &with(257)), Err(refusal))?;
    let mut full = fullest(&mut Random::new(setting.seed));
    for (count, length) in [(256, 9_540), (1, 7_500), (0, 7_492)] {
        full.traffic.truncate(count);
        let table = full.bytes();
        equal("length", table.len(), length)?;
        equal(&format!("{length} bytes"), check(setting.rules, &table).map(|_| ()), Ok(()))?;
    }
    Ok(())
}

fn without_traffic(mut plan: Plan) -> Plan {
    plan.traffic.clear();
    plan
}

/// Tables without records of kind 5 list as before, when that kind was unknown.
pub fn tables_without_traffic_list_as_before(setting: &Setting) -> Outcome {
    unmarked_list_as_before(setting, Misreading::TrafficUnknown, &without_traffic)
}

/// A listing begins with all that it has without the traffic records.
pub fn loads_come_last(setting: &Setting) -> Outcome {
    for_small_plans(setting, 6, &|plan, table| {
        let text = listing(setting.rules, table);
        let without = listing(Rules::AS_WRITTEN, &without_traffic(plan.clone()).bytes());
        let Some(loads) = text.strip_prefix(without.as_str()) else {
            return Err(format!("the listing does not begin as without traffic records:\n{text}"));
        };
        equal("loads where a record occurs", loads.is_empty(), plan.traffic.is_empty())?;
        equal("lines", lines_of_loads(loads), loads.lines().collect())
    })
}

/// The pairs that the two usable halves of a link join, the lower bridge first.
fn joined_pairs(plan: &Plan) -> BTreeSet<(usize, usize)> {
    let usable = || plan.half_links.iter().filter(|half| is_usable(half));
    let mates = |one: &HalfLink| usable().any(|other| one.link == other.link && other.mirrors(one));
    let upward = usable().filter(|half| half.near < half.far && mates(half));
    upward.map(|half| (half.near.into(), half.far.into())).collect()
}

/// The lines of loads by the bridges of each record's path: its amount for each hop.
pub(super) fn expected_load_lines(
    plan: &Plan,
    path_of: &dyn Fn(&Traffic) -> Option<Vec<usize>>,
) -> Vec<String> {
    if plan.traffic.is_empty() {
        return Vec::new();
    }
    let mut loads: BTreeMap<(usize, usize), u64> =
        joined_pairs(plan).into_iter().map(|pair| (pair, 0)).collect();
    let (mut total, mut lost) = (0, 0);
    for traffic in &plan.traffic {
        let amount = u64::from(traffic.amount);
        let Some(bridges) = path_of(traffic) else {
            lost += amount;
            continue;
        };
        for hop in bridges.windows(2) {
            *loads.entry((hop[0].min(hop[1]), hop[0].max(hop[1]))).or_default() += amount;
            total += amount;
        }
    }
    let line = |((lower, higher), sum): (&(usize, usize), &u64)| format!("load {lower} {higher} {sum}");
    let sums = [format!("total {total}"), format!("lost {lost}")];
    loads.iter().map(line).chain(sums).collect()
}

/// Loads under the rules tried against brute force as written.
pub fn loads_agree_with_brute_force(setting: &Setting) -> Outcome {
    for_small_plans(setting, 6, &|plan, table| {
        let written = Checked::new(Rules::AS_WRITTEN, table).map_err(refused)?;
        let expected = expected_load_lines(plan, &|traffic| {
            let index = plan.index_of_vid(traffic.vid).expect("the VID has a record");
            let path = chosen_path(&written.ranking(index), traffic.from.into(), traffic.to.into());
            path.map(|path| path.bridges)
        });
        let text = listing(setting.rules, table);
        equal("loads", lines_of_loads(&text), expected.iter().map(String::as_str).collect())
    })
}

/// Total equals the sum of the load lines, and the sum of amount times hops over the
/// records that have a path; lost is the sum of the other amounts.
fn sums_agree(setting: &Setting, plan: &Plan) -> Outcome {
    let checked = Checked::new(setting.rules, &plan.bytes()).map_err(refused)?;
    let Loads { pairs, total, lost } = Loads::of(&checked);
    equal("total by load lines", pairs.iter().map(|(_, sum)| sum).sum(), total)?;
    let (mut by_hops, mut without_path) = (0, 0);
    for traffic in &plan.traffic {
        let index = plan.index_of_vid(traffic.vid).expect("the VID has a record");
        let amount = u64::from(traffic.amount);
        match &checked.paths_from(index, traffic.from.into())[usize::from(traffic.to)] {
            Some(path) => by_hops += amount * path.hops() as u64,
            None => without_path += amount,
        }
    }
    equal("total by hops", by_hops, total)?;
    equal("lost", without_path, lost)?;
    ensure!(pairs.is_sorted(), "load lines rise: {pairs:?}");
    Ok(())
}

pub fn sums_of_loads_agree(setting: &Setting) -> Outcome {
    for_small_plans(setting, 12, &|plan, _| sums_agree(setting, plan))
}

/// The longest table, and random largest ones.
pub fn sums_of_loads_agree_on_largest_plans(setting: &Setting) -> Outcome {
    let mut random = Random::new(setting.seed);
    sums_agree(setting, &fullest(&mut random))?;
    for _ in 0..setting.tables / 500 {
        sums_agree(setting, &random_plan(Size::LARGEST, &mut random))?;
    }
    Ok(())
}
