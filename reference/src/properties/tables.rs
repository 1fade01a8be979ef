//! The check on damaged tables, each with the refusal known from how it was
//! made, and on valid ones, with counts taken in another way.

use super::fixture::{ends, is_usable, plan};
use super::{ensure, equal, with_table, Outcome, Setting};
use crate::check::{check, Counts};
use crate::generate::damage::{
    edited_and_cut, edited_once, edited_twice, over_limit, truncations, words_after_end, wrong_lengths,
    Damaged,
};
use crate::generate::stream::{case, Case};
use crate::generate::valid::{plan as random_plan, Size};
use crate::random::Random;
use crate::records::{Bridge, HalfLink, Member, Plan, Traffic, Vid, UNUSABLE_METRIC};

fn refused(setting: &Setting, damaged: &Damaged) -> Outcome {
    let found = check(setting.rules, &damaged.table);
    let outcome = equal(&damaged.name, found, Err(damaged.refusal));
    with_table(&damaged.table, outcome)
}

fn all_refused(setting: &Setting, family: &[Damaged]) -> Outcome {
    ensure!(!family.is_empty(), "no damaged table was made");
    family.iter().try_for_each(|damaged| refused(setting, damaged))
}

/// Runs a test for plans of up to ten bridges, one plan for each so many tables.
fn for_plans(setting: &Setting, tables_each: u64, test: &dyn Fn(&Plan, &mut Random) -> Outcome) -> Outcome {
    for number in 0..setting.tables.div_ceil(tables_each) {
        let mut random = Random::for_case(setting.seed, number);
        let size = Size::up_to(10, &mut random);
        test(&random_plan(size, &mut random), &mut random)?;
    }
    Ok(())
}

pub fn every_edit_refused(setting: &Setting) -> Outcome {
    for_plans(setting, 20, &|plan, _| all_refused(setting, &edited_once(plan)))
}

pub fn every_truncation_refused(setting: &Setting) -> Outcome {
    for_plans(setting, 20, &|plan, _| all_refused(setting, &truncations(plan)))
}

pub fn wrong_lengths_refused(setting: &Setting) -> Outcome {
    all_refused(setting, &wrong_lengths(&mut Random::new(setting.seed)))
}

pub fn words_after_end_refused(setting: &Setting) -> Outcome {
    for_plans(setting, 1, &|plan, random| refused(setting, &words_after_end(plan, random)))
}

pub fn limits_refused(setting: &Setting) -> Outcome {
    all_refused(setting, &over_limit(&mut Random::new(setting.seed)))
}

pub fn two_faults_refused(setting: &Setting) -> Outcome {
    for_plans(setting, 1, &|plan, random| {
        refused(setting, &edited_twice(plan, random))?;
        refused(setting, &edited_and_cut(plan, random))
    })
}

/// The least and the greatest value of each range, and what is no repeat.
pub fn ends_of_ranges_accepted(setting: &Setting) -> Outcome {
    let one = Bridge { overloaded: false, source_id: 1, priority: 0, address: 1 };
    let two = Bridge { overloaded: true, source_id: 1_048_575, priority: 0xFFFF, address: 0xFEFF_FFFF_FFFF };
    let least = HalfLink { down: false, metric: 1, near: 0, far: 1, port: 1, link: 1 };
    let greatest = HalfLink { metric: UNUSABLE_METRIC, port: 4_095, link: 65_535, ..least };
    let mirror = |half: HalfLink| HalfLink { near: half.far, far: half.near, ..half };
    let member = Member { transmits: false, receives: false, service: 256, bridge: 0, vid: 1 };
    let members = [(256, 0, 1), (16_777_214, 0, 1), (256, 1, 1), (256, 0, 4_094)];
    let traffic = [(1, 1, 0, 1), (1, 65_535, 1, 0), (4_094, 1, 0, 1), (2, 65_535, 0, 1)];
    let plan = Plan {
        bridges: vec![one, two],
        half_links: vec![least, greatest, mirror(greatest), mirror(least)],
        vids: vec![Vid { vid: 1, index: 16 }, Vid { vid: 4_094, index: 1 }, Vid { vid: 2, index: 1 }],
        members: members.map(|(service, bridge, vid)| Member { service, bridge, vid, ..member }).to_vec(),
        traffic: traffic.map(|(vid, amount, from, to)| Traffic { vid, amount, from, to }).to_vec(),
    };
    let counts = Counts { bridges: 2, half_links: 4, usable_links: 1, vids: 3, members: 4 };
    equal("ends of ranges", check(setting.rules, &plan.bytes()), Ok(counts))?;
    counts_of_parallel_links(setting)
}

/// Usable links are counted, not joined pairs; half-links alone are not links.
fn counts_of_parallel_links(setting: &Setting) -> Outcome {
    let usable = (0, 1, [10, 10]);
    let mut plan = plan(&ends([1, 2, 3]), &[usable, usable, (1, 2, [10, UNUSABLE_METRIC])]);
    plan.half_links.push(HalfLink { down: false, metric: 10, near: 0, far: 2, port: 9, link: 9 });
    let counts = Counts { bridges: 3, half_links: 7, usable_links: 2, vids: 16, members: 0 };
    equal("parallel links", check(setting.rules, &plan.bytes()), Ok(counts))
}

/// The counts by looking at each two half-links.
fn counts_by_pairs(plan: &Plan) -> Counts {
    let halves = &plan.half_links;
    let pairs = halves
        .iter()
        .enumerate()
        .flat_map(|(place, one)| halves[..place].iter().map(move |other| (one, other)));
    let is_link =
        |(one, other): &(&HalfLink, &HalfLink)| one.link == other.link && is_usable(one) && is_usable(other);
    Counts {
        bridges: plan.bridges.len(),
        half_links: halves.len(),
        usable_links: pairs.filter(is_link).count(),
        vids: plan.vids.len(),
        members: plan.members.len(),
    }
}

/// The generator's plans are accepted with their counts, and its stream of cases
/// is accepted or refused as made.
pub fn valid_tables_accepted(setting: &Setting) -> Outcome {
    for_plans(setting, 1, &|plan, _| {
        let found = check(setting.rules, &plan.bytes());
        with_table(&plan.bytes(), equal("counts", found, Ok(counts_by_pairs(plan))))
    })?;
    for number in 0..setting.tables {
        let Case { name, table, expected, .. } = case(setting.seed, number);
        let found = check(setting.rules, &table).map(|_| ());
        with_table(&table, equal(&name, found, expected))?;
    }
    Ok(())
}
