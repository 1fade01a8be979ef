//! Request A3 of document 02: the diamond, parallel links and the worked listing with
//! half-links that are down, faults of such half-links, the bits around the mark, and
//! what the marks leave as it was.

use std::cmp::Ordering;

use super::agreement::{every_pair, for_marked_paths, for_small_plans, refused, MarkedPath};
use super::demand3::written_lists;
use super::fixture::{diamond, down, holds, links_7_and_9, port_taken, route, with_bits};
use super::listings::{unmarked_list_as_before, worked_plan};
use super::{ensure, equal, Outcome, Setting};
use crate::check::{check, Counts};
use crate::checked::Checked;
use crate::entries::group_address;
use crate::frames::{Crossing, Forwarding};
use crate::links::Network;
use crate::listing::listing;
use crate::path::{exported_path_cost, PathAnswer, REFUSED};
use crate::rank::Path;
use crate::records::{HalfLink, Kind, Member, Plan, MARK_BIT};
use crate::refusal::Refusal;
use crate::rules::{Misreading, Rules};

/// The indexes of document 01's diamond.
const INDEXES: [u32; 4] = [1, 2, 9, 10];

/// The diamond with these half-links down has so many usable links.
fn diamond_down(setting: &Setting, half_links: &[usize], usable_links: usize) -> Result<Plan, String> {
    let mut plan = down(diamond([0x8000; 4]), half_links);
    plan.vids.retain(|vid| INDEXES.contains(&vid.index.into()));
    let counts = Counts { bridges: 4, half_links: 8, usable_links, vids: 4, members: 0 };
    equal(&format!("half-links {half_links:?}"), check(setting.rules, &plan.bytes()), Ok(counts))?;
    Ok(plan)
}

/// Half-links 0 and 1 make link 0-1, half-links 4 and 5 link 0-2.
pub fn diamond_with_ports_down(setting: &Setting) -> Outcome {
    let by_2 = ([0, 3], Some((&[0, 2, 3][..], 20)));
    let by_3 = ([1, 2], Some((&[1, 3, 2][..], 20)));
    for half_links in [&[0][..], &[1], &[0, 1]] {
        let plan = diamond_down(setting, half_links, 3)?;
        let around = ([0, 1], Some((&[0, 2, 3, 1][..], 30)));
        INDEXES.iter().try_for_each(|&index| holds(setting, &plan, index, &[by_2, by_3, around]))?;
    }
    for half_links in [[0, 4], [0, 5], [1, 4], [1, 5]] {
        let plan = diamond_down(setting, &half_links, 2)?;
        let apart = [([0, 3], None), ([0, 1], None), ([0, 2], None), by_3];
        INDEXES.iter().try_for_each(|&index| holds(setting, &plan, index, &apart))?;
        equal("exported", exported_path_cost(setting.rules, &plan.bytes(), 1, 3, 0), REFUSED + 12)?;
    }
    let all = diamond_down(setting, &[0, 1, 2, 3, 4, 5, 6, 7], 0)?;
    holds(setting, &all, 1, &[([0, 1], None), ([0, 3], None), ([1, 2], None), ([2, 3], None)])?;
    equal("to itself", route(setting.rules, &all, 1, 2, 2), Ok((vec![2], PathAnswer { cost: 0, hops: 0 })))
}

/// A half-link alone that is down counts as one that is not: 2-3 without the other half.
pub fn half_link_alone_down(setting: &Setting) -> Outcome {
    for half_links in [&[][..], &[6]] {
        let mut plan = diamond_down(setting, half_links, 4 - half_links.len())?;
        plan.half_links.truncate(7);
        let counts = Counts { bridges: 4, half_links: 7, usable_links: 3, vids: 4, members: 0 };
        equal(&format!("half-links {half_links:?}"), check(setting.rules, &plan.bytes()), Ok(counts))?;
        holds(setting, &plan, 2, &[([0, 3], Some((&[0, 1, 3], 20)))])?;
    }
    Ok(())
}

/// Half-links 0 and 1 make link 7 on ports 1, half-links 2 and 3 link 9 on ports 2.
pub fn parallel_links_with_ports_down(setting: &Setting) -> Outcome {
    let takes = |costs: [u32; 2], half_links: &[usize], taken: Option<(u16, u64)>| {
        let plan = down(links_7_and_9(costs), half_links);
        let name = format!("costs {costs:?}, half-links {half_links:?}");
        let ports = [(0, 1), (1, 0)].map(|(from, to)| port_taken(setting.rules, &plan, from, to));
        equal(&name, ports, [Ok(taken.map(|(port, _)| port)); 2])?;
        holds(setting, &plan, 1, &[([0, 1], taken.map(|(_, cost)| (&[0, 1][..], cost)))])
    };
    for half in [0, 1] {
        takes([10, 10], &[half], Some((2, 10)))?;
        takes([10, 10], &[half + 2], Some((1, 10)))?;
        takes([10, 12], &[half], Some((2, 12)))?;
        takes([12, 10], &[half + 2], Some((1, 12)))?;
        takes([10, 10], &[half, 2], None)?;
        takes([10, 10], &[half, 3], None)?;
    }
    Ok(())
}

/// The one link of the worked table is down with either half; bits 26..24 are zero bits,
/// beside the mark too.
pub fn half_link_mark_alone_accepted(setting: &Setting) -> Outcome {
    let worked = worked_plan()?;
    let set = MARK_BIT;
    for bits in [[set, 0], [0, set], [set, set]] {
        let text = listing(setting.rules, &with_bits(&worked, Kind::HalfLink, bits));
        let expected = "counts 2 2 0 1 2\nnone 10 0 1\nnone 10 1 0\n".to_string();
        equal(&format!("bits {bits:08X?}"), text, expected)?;
    }
    for zero_bit in [26, 25, 24].map(|bit| 1 << bit) {
        let first = [[zero_bit, 0], [set | zero_bit, 0], [zero_bit, set]].map(|bits| (bits, 6));
        let second = [[0, zero_bit], [set, zero_bit], [0, set | zero_bit]].map(|bits| (bits, 9));
        for (bits, word) in [first, second].concat() {
            let found = check(setting.rules, &with_bits(&worked, Kind::HalfLink, bits));
            equal(&format!("bits {bits:08X?}"), found, Err(Refusal::of_record(4, Kind::HalfLink, word)))?;
        }
    }
    Ok(())
}

/// The diamond with a fault of a half-link, where that is down, the earlier ones that it
/// repeats are, or both; and the refusal.
pub fn faulty_half_links_down() -> Vec<(Plan, Refusal)> {
    let plan = diamond([0x8000; 4]);
    let [outward, back] = [plan.half_links[4], plan.half_links[5]];
    let faults: [(u32, usize, HalfLink, &[usize]); 9] = [
        (6, 4, HalfLink { metric: 0, ..outward }, &[]),
        (6, 4, HalfLink { port: 0, ..outward }, &[]),
        (6, 4, HalfLink { port: 4_096, ..outward }, &[]),
        (6, 4, HalfLink { link: 0, ..outward }, &[]),
        (7, 4, HalfLink { far: 4, ..outward }, &[]),
        (7, 4, HalfLink { far: 0, ..outward }, &[]),
        (8, 4, HalfLink { port: 1, ..outward }, &[0]),
        (9, 4, HalfLink { link: 1, ..outward }, &[0, 1]),
        (9, 5, HalfLink { far: 3, ..back }, &[4]),
    ];
    let mut tables = Vec::new();
    for (number, place, half_link, earlier) in faults {
        let mut faulty = plan.clone();
        faulty.half_links[place] = half_link;
        let first_word = plan.bridges.len() * Kind::Bridge.words() + place * Kind::HalfLink.words();
        let refusal = Refusal::of_record(number, Kind::HalfLink, first_word);
        let mut marks = vec![vec![place]];
        if !earlier.is_empty() {
            marks.extend([earlier.to_vec(), [earlier, &[place]].concat()]);
        }
        tables.extend(marks.iter().map(|half_links| (down(faulty.clone(), half_links), refusal)));
    }
    tables
}

pub fn faulty_half_links_refused(setting: &Setting) -> Outcome {
    for (plan, refusal) in faulty_half_links_down() {
        let found = check(setting.rules, &plan.bytes());
        equal(&format!("{:?}", plan.half_links), found, Err(refusal))?;
    }
    Ok(())
}

/// Tables without the bit list as before, when no half-link could be down.
pub fn tables_without_ports_down_list_as_before(setting: &Setting) -> Outcome {
    unmarked_list_as_before(setting, Misreading::DownIgnored, &|plan| down(plan, &[]))
}

/// The plan without the half-links that are down.
fn withdrawn(plan: &Plan) -> Plan {
    let mut plan = plan.clone();
    plan.half_links.retain(|half_link| !half_link.down);
    plan
}

/// A table lists as without its half-links that are down, but for the second count.
pub fn half_links_down_list_as_withdrawn(setting: &Setting) -> Outcome {
    for_small_plans(setting, 7, &|plan, table| {
        let without = withdrawn(plan).bytes();
        let counts = check(Rules::AS_WRITTEN, &without)
            .map(|counts| Counts { half_links: plan.half_links.len(), ..counts });
        equal("counts", check(setting.rules, table), counts)?;
        let [found, expected] =
            [listing(setting.rules, table), listing(Rules::AS_WRITTEN, &without)].map(after_counts);
        equal("paths and entries", found, expected)
    })
}

fn after_counts(text: String) -> Vec<String> {
    text.lines().skip(1).map(str::to_string).collect()
}

/// Of each link between the bridges below a number and the others one half is down: 12
/// both ways.
pub fn parts_joined_by_links_down_alone(setting: &Setting) -> Outcome {
    for_small_plans(setting, 7, &|plan, _| {
        for first in 1..plan.bridges.len() {
            let mut marked = plan.clone();
            let is_below = |bridge: u16| usize::from(bridge) < first;
            for half in marked.half_links.iter_mut().filter(|half| is_below(half.near) != is_below(half.far))
            {
                half.down = is_below(half.near) == half.link.is_multiple_of(2);
            }
            let checked = Checked::new(setting.rules, &marked.bytes()).map_err(refused)?;
            let apart = |&(from, to): &(usize, usize)| (from < first) != (to < first);
            for (from, to) in every_pair(plan).into_iter().filter(apart) {
                equal(&format!("from {from} to {to}"), &checked.paths_from(1, from)[to], &None)?;
            }
        }
        Ok(())
    })
}

/// The chosen path stays where no link of it is down, else one that is not lower takes
/// its place, or none: a parallel link can have the same cost.
pub fn ports_down_take_paths_away(setting: &Setting) -> Outcome {
    let test = |MarkedPath { plan, before, taken, found }: MarkedPath| match taken {
        Some(taken) if has_link_down(plan, &before.network, &taken) => {
            let is_lower = |path: &Path| before.ranking(1).compare(path, &taken) == Ordering::Less;
            ensure!(!found.as_ref().is_some_and(is_lower), "{found:?} is lower than {taken:?}");
            Ok(())
        }
        kept => equal("path kept", found, kept),
    };
    for_marked_paths(setting, &|plan| down(plan, &[]), &test)
}

fn has_link_down(plan: &Plan, network: &Network, path: &Path) -> bool {
    let is_down = |link: u16| plan.half_links.iter().any(|half| half.link == link && half.down);
    path.bridges.windows(2).any(|hop| network.hop(hop[0], hop[1]).is_some_and(|hop| is_down(hop.link)))
}

/// Frames that move by the entries of the diamond without marks, where one half of link
/// 0-1 is down or both; and every port by which one could leave.
pub fn frames_lost_at_links_down(setting: &Setting) -> Outcome {
    let mut whole = diamond([0x8000; 4]);
    let member =
        |bridge: u16| Member { transmits: bridge == 0, receives: bridge != 0, service: 256, bridge, vid: 1 };
    whole.members = (0..4).map(member).collect();
    let lists = written_lists(&Setting { rules: Rules::AS_WRITTEN, ..*setting }, &whole, &whole.bytes())?;
    let address = group_address(Rules::AS_WRITTEN, whole.bridges[0].source_id, 256);
    for half_links in [&[0][..], &[1], &[0, 1]] {
        let plan = down(whole.clone(), half_links);
        let forwarding = Forwarding::new(setting.rules, &plan, &lists);
        equal("frame to 3 stood at", forwarding.send_individual(1, 0, 3).stood_at, vec![0])?;
        equal("frame to 0 stood at", forwarding.send_individual(1, 3, 0).stood_at, vec![3, 1])?;
        let entered = |copies: Vec<Crossing>| copies.iter().map(|copy| copy.entered).collect();
        let rounds: Vec<Vec<usize>> =
            forwarding.send_group(1, 0, address, 2).into_iter().map(entered).collect();
        equal("bridges that copies enter", rounds, vec![vec![2], Vec::new()])?;
    }
    for_small_plans(setting, 7, &|plan, _| {
        let remaining = withdrawn(plan);
        let now = Forwarding::new(setting.rules, plan, &[]);
        let without = Forwarding::new(Rules::AS_WRITTEN, &remaining, &[]);
        plan.half_links.iter().try_for_each(|half| {
            let [found, expected] = [&now, &without].map(|by| by.leave(half.near.into(), half.port));
            equal(&format!("leaving by {half:?}"), found, expected)
        })
    })
}
