//! Half-links that are down, in valid plans.

use std::collections::BTreeSet;

use crate::links::Network;
use crate::random::Random;
use crate::records::{HalfLink, Plan};
use crate::rules::Rules;

/// The plan with half-links that are down: none in nine of twenty plans, else of one
/// link, some, of all links between two parts of the bridges, of the links that are
/// taken though there are parallel ones, those without a mate, or all.
pub(super) fn with_ports_down(mut plan: Plan, random: &mut Random) -> Plan {
    let half_links = &mut plan.half_links;
    if half_links.is_empty() {
        return plan;
    }
    match random.between(0, 19) {
        0..=8 => {}
        9..=12 => {
            let link = random.pick(half_links).link;
            mark_link(half_links, link, random);
        }
        13 | 14 => half_links.iter_mut().for_each(|half_link| half_link.down = random.one_in(4)),
        15 | 16 => mark_between_parts(&mut plan, random),
        17 => mark_taken_of_parallels(&mut plan, random),
        18 => mark_without_mate(half_links),
        _ => half_links.iter_mut().for_each(|half_link| half_link.down = true),
    }
    plan
}

/// One half-link of the link, or both.
fn mark_link(half_links: &mut [HalfLink], link: u16, random: &mut Random) {
    let mut of_link: Vec<&mut HalfLink> = half_links.iter_mut().filter(|half| half.link == link).collect();
    random.shuffle(&mut of_link);
    let count = 1 + random.below(of_link.len());
    of_link.into_iter().take(count).for_each(|half_link| half_link.down = true);
}

/// Each link whose ends lie in different parts of the bridges.
fn mark_between_parts(plan: &mut Plan, random: &mut Random) {
    let part: Vec<bool> = plan.bridges.iter().map(|_| random.one_in(2)).collect();
    let is_between = |half: &&HalfLink| part[usize::from(half.near)] != part[usize::from(half.far)];
    let links: BTreeSet<u16> = plan.half_links.iter().filter(is_between).map(|half| half.link).collect();
    links.into_iter().for_each(|link| mark_link(&mut plan.half_links, link, random));
}

/// Of each two bridges with parallel links the one that their hop takes.
fn mark_taken_of_parallels(plan: &mut Plan, random: &mut Random) {
    let network = Network::of(Rules::AS_WRITTEN, plan);
    let is_taken = |half: &&HalfLink| {
        let hop = network.hop(usize::from(half.near), usize::from(half.far));
        hop.is_some_and(|hop| hop.link == half.link)
    };
    let has_parallel = |half: &&HalfLink| {
        let same_ends = |other: &HalfLink| (other.near, other.far) == (half.near, half.far);
        plan.half_links.iter().any(|other| other.link != half.link && same_ends(other))
    };
    let taken = plan.half_links.iter().filter(is_taken).filter(has_parallel);
    let links: BTreeSet<u16> = taken.map(|half| half.link).collect();
    links.into_iter().for_each(|link| mark_link(&mut plan.half_links, link, random));
}

fn mark_without_mate(half_links: &mut [HalfLink]) {
    let all = half_links.to_vec();
    let is_alone = |half: &HalfLink| all.iter().filter(|other| other.link == half.link).count() == 1;
    half_links.iter_mut().for_each(|half| half.down = is_alone(half));
}
