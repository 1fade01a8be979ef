//! Plans for the figures and the standard's vectors, and short forms of calls.

use super::{equal, Outcome, Setting};
use crate::entries::{entries, LONGEST_LIST};
use crate::generate::edits::places;
use crate::lookup::lookup;
use crate::path::{path, PathAnswer};
use crate::records::{Bridge, HalfLink, Kind, Plan, Traffic, Vid, UNUSABLE_METRIC};
use crate::refusal::Refusal;
use crate::rules::Rules;
use crate::words::bytes_of;

/// A link: two bridges by their place, and the metrics of the two ends.
pub type FixedLink = (usize, usize, [u32; 2]);

/// A link with equal metrics.
pub fn link(from: usize, to: usize, metric: u32) -> FixedLink {
    (from, to, [metric; 2])
}

/// Bridges by priority and last part of the address 020000000000; links numbered
/// from 1, ports counted for each bridge in the order of the links; VID 1 to 16
/// with index 1 to 16.
pub fn plan(bridges: &[(u16, u64)], links: &[FixedLink]) -> Plan {
    let numbers: Vec<u16> = (1..=links.len() as u16).collect();
    numbered_plan(bridges, links, &numbers)
}

/// As `plan`, with the link numbers given.
pub fn numbered_plan(bridges: &[(u16, u64)], links: &[FixedLink], numbers: &[u16]) -> Plan {
    let bridge = |(place, &(priority, end)): (usize, &(u16, u64))| Bridge {
        overloaded: false,
        source_id: place as u32 + 1,
        priority,
        address: 0x0200_0000_0000 + end,
    };
    let mut plan = Plan {
        bridges: bridges.iter().enumerate().map(bridge).collect(),
        vids: (1..=16).map(|number| Vid { vid: number, index: number }).collect(),
        ..Plan::default()
    };
    for (&(from, to, [near_metric, far_metric]), &link) in links.iter().zip(numbers) {
        let (near, far) = (from as u16, to as u16);
        let next_port = |plan: &Plan, bridge: u16| {
            1 + plan.half_links.iter().filter(|half| half.near == bridge).count() as u16
        };
        let ports = [next_port(&plan, near), next_port(&plan, far)];
        let outward = HalfLink { down: false, metric: near_metric, near, far, port: ports[0], link };
        plan.half_links.push(outward);
        plan.half_links.push(HalfLink {
            metric: far_metric,
            near: far,
            far: near,
            port: ports[1],
            ..outward
        });
    }
    plan
}

/// Bridges of priority 8000 by the ends of their addresses.
pub fn ends<const N: usize>(ends: [u64; N]) -> [(u16, u64); N] {
    ends.map(|end| (0x8000, end))
}

/// The bridges of the chosen path with its cost and hops, by the path call.
pub fn route(
    rules: Rules,
    plan: &Plan,
    vid: u32,
    from: u32,
    to: u32,
) -> Result<(Vec<u32>, PathAnswer), Refusal> {
    let mut lent = vec![0; plan.bridges.len()];
    let answer = path(rules, &plan.bytes(), (vid, from, to), &mut lent)?;
    lent.truncate(answer.hops + 1);
    Ok((lent, answer))
}

/// A path by its bridges and cost; without them, 12.
pub(super) type Figure<'a> = ([u32; 2], Option<(&'a [u32], u64)>);

/// The figures of a plan for an index, each in both directions.
pub(super) fn holds(setting: &Setting, plan: &Plan, index: u32, figures: &[Figure]) -> Outcome {
    for &([from, to], path) in figures {
        let answer = |bridges: &[u32], cost| (bridges.to_vec(), PathAnswer { cost, hops: bridges.len() - 1 });
        let expected = path.map(|(bridges, cost)| answer(bridges, cost)).ok_or(Refusal::NO_PATH);
        let reversed = expected.clone().map(|(bridges, given)| (bridges.into_iter().rev().collect(), given));
        let name = format!("index {index}, {from} and {to}");
        equal(&name, route(setting.rules, plan, index, from, to), expected)?;
        equal(&name, route(setting.rules, plan, index, to, from), reversed)?;
    }
    Ok(())
}

/// The port of a bridge's entry for another in VID 1 tells which link the hop takes.
pub(super) fn port_taken(rules: Rules, plan: &Plan, from: u32, to: usize) -> Result<Option<u16>, Refusal> {
    let mut list = vec![0; LONGEST_LIST];
    let written = entries(rules, &plan.bytes(), from, &mut list)?;
    lookup(rules, &list[..written], 1, plan.bridges[to].address, 0)
}

/// The diamond: 0-1, 1-3, 0-2, 2-3, each 10.
pub fn diamond(priorities: [u16; 4]) -> Plan {
    let bridges = [1, 2, 3, 4].map(|end| (priorities[end as usize - 1], end));
    plan(&bridges, &[link(0, 1, 10), link(1, 3, 10), link(0, 2, 10), link(2, 3, 10)])
}

/// Two bridges with links 7 and 9 of these costs.
pub fn links_7_and_9(costs: [u32; 2]) -> Plan {
    numbered_plan(&ends([1, 2]), &costs.map(|cost| link(0, 1, cost)), &[7, 9])
}

/// The plan with these bridges overloaded and no others.
pub fn overloaded(mut plan: Plan, bridges: &[usize]) -> Plan {
    for (number, bridge) in plan.bridges.iter_mut().enumerate() {
        bridge.overloaded = bridges.contains(&number);
    }
    plan
}

/// The plan with these half-links down and no others.
pub fn down(mut plan: Plan, half_links: &[usize]) -> Plan {
    for (number, half_link) in plan.half_links.iter_mut().enumerate() {
        half_link.down = half_links.contains(&number);
    }
    plan
}

/// The plan with the extension bits given for each bridge in place of its own.
pub fn extended(mut plan: Plan, extension: impl Fn(usize) -> u16) -> Plan {
    for (number, bridge) in plan.bridges.iter_mut().enumerate() {
        *bridge = bridge.with_extension(extension(number));
    }
    plan
}

/// The plan with these traffic records, by VID, amount, from and to, and no others.
pub fn loaded(mut plan: Plan, traffic: &[(u16, u16, u16, u16)]) -> Plan {
    let record = |&(vid, amount, from, to): &(u16, u16, u16, u16)| Traffic { vid, amount, from, to };
    plan.traffic = traffic.iter().map(record).collect();
    plan
}

/// Whether a half-link can be part of a usable link.
pub(super) fn is_usable(half_link: &HalfLink) -> bool {
    half_link.metric < UNUSABLE_METRIC && !half_link.down
}

/// The table of a plan with bits set in the first words of the first two records of a
/// kind.
pub fn with_bits(plan: &Plan, kind: Kind, bits: [u32; 2]) -> Vec<u8> {
    let mut words = plan.words();
    for (place, bits) in places(plan).iter().filter(|place| place.kind == kind).zip(bits) {
        words[place.first] |= bits;
    }
    bytes_of(&words)
}
