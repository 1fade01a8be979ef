//! Valid plans of every shape: ties, parallel links, asymmetric and unusable
//! metrics, lone half-links, parts that are apart, equal and varied priorities with and
//! without extension bits, overloaded bridges, half-links that are down, traffic records,
//! largest sizes, and the star that reaches the longest entry list.

use std::collections::BTreeSet;

use super::extensions::with_extensions;
use super::many_ways::with_many_ways;
use super::ports_down::with_ports_down;
use super::shapes::Shape;
use super::traffic::{traffic, with_traffic};
use crate::random::Random;
use crate::records::{
    Bridge, HalfLink, Kind, Member, Plan, Vid, GREATEST_USABLE_METRIC, GROUP_BIT, LEAST_METRIC,
    UNUSABLE_METRIC,
};

/// How large a plan is to be.
#[derive(Clone, Copy, PartialEq, Eq, Debug)]
pub struct Size {
    pub bridges: usize,
    pub vids: usize,
    pub members: usize,
}

impl Size {
    pub const LARGEST: Size = Size { bridges: 64, vids: 16, members: 64 };

    /// Up to so many bridges, more being likelier than few; a few VIDs and members.
    pub fn up_to(bridges: usize, random: &mut Random) -> Size {
        let [one, other] = [(); 2].map(|()| random.between(0, bridges as u64) as usize);
        Size {
            bridges: one.max(other),
            vids: random.between(0, 3) as usize,
            members: random.between(0, 12) as usize,
        }
    }
}

/// A plan of a size and a random shape.
pub fn plan(size: Size, random: &mut Random) -> Plan {
    let shape = *random.pick(&Shape::ALL);
    plan_of_shape(shape, size, random)
}

pub fn plan_of_shape(shape: Shape, size: Size, random: &mut Random) -> Plan {
    let bridges = bridges(size.bridges, random);
    let wanted = random.between(0, 4 * size.bridges as u64) as usize;
    let mut pairs = shape.pairs(size.bridges, wanted, random);
    random.shuffle(&mut pairs);
    repeat_some(&mut pairs, random);
    let half_links = half_links(&pairs, random);
    let vids = vids(size.vids, random);
    let members = members(size, &vids, random);
    let plan = Plan { bridges, half_links, vids, members, ..Plan::default() };
    let mut beside = random.beside();
    let plan = with_marks(plan, &mut beside);
    let plan = with_traffic(plan, &mut beside);
    let plan = with_many_ways(plan, &mut beside);
    with_extensions(plan, &mut beside)
}

/// The plan with overloaded bridges and half-links that are down. They and what is drawn
/// after them come from a source of their own.
fn with_marks(plan: Plan, beside: &mut Random) -> Plan {
    let plan = with_overload(plan, beside);
    with_ports_down(plan, beside)
}

/// The plan with overloaded bridges: none in a third of the plans, else one, one in
/// four, every other one, or all.
fn with_overload(mut plan: Plan, random: &mut Random) -> Plan {
    let bridges = &mut plan.bridges;
    if bridges.is_empty() {
        return plan;
    }
    match random.between(0, 8) {
        0..=2 => {}
        3 | 4 => {
            let place = random.below(bridges.len());
            bridges[place].overloaded = true;
        }
        5 | 6 => bridges.iter_mut().for_each(|bridge| bridge.overloaded = random.one_in(4)),
        7 => bridges.iter_mut().for_each(|bridge| bridge.overloaded = random.one_in(2)),
        _ => bridges.iter_mut().for_each(|bridge| bridge.overloaded = true),
    }
    plan
}

/// Numbers from `least` to `greatest`, all different, the ends among the likely ones.
pub(super) fn different(count: usize, least: u64, greatest: u64, random: &mut Random) -> Vec<u64> {
    let mut taken = BTreeSet::new();
    let mut numbers = Vec::new();
    let close = random.one_in(2);
    while numbers.len() < count {
        let number = match random.between(0, 9) {
            0 => least,
            1 => greatest,
            _ if close => random.between(least, greatest.min(least + 2 * count as u64)),
            _ => random.between(least, greatest),
        };
        if taken.insert(number) {
            numbers.push(number);
        }
    }
    numbers
}

fn bridges(count: usize, random: &mut Random) -> Vec<Bridge> {
    let source_ids = different(count, 1, 1_048_575, random);
    let addresses = addresses(count, random);
    let priorities = random.between(0, 3);
    let bridge = |(&source_id, &address): (&u64, &u64)| Bridge {
        overloaded: false,
        source_id: source_id as u32,
        priority: priority(priorities, random),
        address,
    };
    source_ids.iter().zip(&addresses).map(bridge).collect()
}

/// Equal, two values, four significant bits, or any.
fn priority(manner: u64, random: &mut Random) -> u16 {
    match manner {
        0 => 0x8000,
        1 => *random.pick(&[0x8000, 0x9000]),
        2 => (random.between(0, 15) << 12) as u16,
        _ => random.between(0, 0xFFFF) as u16,
    }
}

/// Individual addresses: consecutive ones, or any with the group bit clear.
fn addresses(count: usize, random: &mut Random) -> Vec<u64> {
    let consecutive = random.one_in(2);
    let mut taken = BTreeSet::new();
    let mut list = Vec::new();
    while list.len() < count {
        let address = if consecutive {
            0x0200_0000_0001 + list.len() as u64
        } else {
            random.between(1, (1 << 48) - 1) & !GROUP_BIT
        };
        if address != 0 && taken.insert(address) {
            list.push(address);
        }
    }
    random.shuffle(&mut list);
    list
}

/// Adds parallel links to some plans, and cuts to the number of links that fit.
fn repeat_some(pairs: &mut Vec<(usize, usize)>, random: &mut Random) {
    let links = Kind::HalfLink.limit() / 2;
    if !pairs.is_empty() && random.one_in(3) {
        for _ in 0..random.between(1, pairs.len() as u64) {
            let pair = *random.pick(pairs);
            pairs.push(pair);
        }
    }
    pairs.truncate(links);
}

/// How the metrics of a plan are drawn.
struct Metrics {
    least: u64,
    greatest: u64,
    asymmetric: bool,
    unusable: bool,
}

impl Metrics {
    fn drawn(random: &mut Random) -> Metrics {
        let greatest_usable = u64::from(GREATEST_USABLE_METRIC);
        let (least, greatest) = *random.pick(&[
            (10, 10),
            (10, 10),
            (1, 3),
            (1, 20),
            (1, greatest_usable),
            (greatest_usable - 1, greatest_usable),
        ]);
        Metrics { least, greatest, asymmetric: random.one_in(2), unusable: random.one_in(3) }
    }

    fn of_link(&self, random: &mut Random) -> [u32; 2] {
        let near = random.between(self.least, self.greatest) as u32;
        let far = if self.asymmetric { random.between(self.least, self.greatest) as u32 } else { near };
        let mut both = [near.max(LEAST_METRIC), far.max(LEAST_METRIC)];
        if self.unusable && random.one_in(5) {
            both[random.below(2)] = UNUSABLE_METRIC;
        }
        both
    }
}

fn half_links(pairs: &[(usize, usize)], random: &mut Random) -> Vec<HalfLink> {
    let numbers = different(pairs.len(), 1, 65_535, random);
    let metrics = Metrics::drawn(random);
    let mut ports = Ports::drawn(random);
    let mut list = Vec::new();
    for (&(from, to), &link) in pairs.iter().zip(&numbers) {
        let metrics = metrics.of_link(random);
        let (near, far) = (from as u16, to as u16);
        let link = link as u16;
        let [here, there] = [ports.next(from, random), ports.next(to, random)];
        let outward = HalfLink { down: false, metric: metrics[0], near, far, port: here, link };
        list.push(outward);
        list.push(HalfLink { metric: metrics[1], near: far, far: near, port: there, ..outward });
    }
    withdraw_some(&mut list, random);
    if random.one_in(2) {
        random.shuffle(&mut list);
    }
    list
}

/// Leaves some links with one half-link.
fn withdraw_some(list: &mut Vec<HalfLink>, random: &mut Random) {
    if random.one_in(4) {
        list.retain(|_| !random.one_in(6));
    }
}

/// The ports given out so far: counted up for each bridge, or any free ones.
struct Ports {
    counted: bool,
    taken: BTreeSet<(usize, u16)>,
}

impl Ports {
    fn drawn(random: &mut Random) -> Ports {
        Ports { counted: random.one_in(3), taken: BTreeSet::new() }
    }

    fn next(&mut self, bridge: usize, random: &mut Random) -> u16 {
        loop {
            let port = match random.between(0, 19) {
                _ if self.counted => 1 + self.taken.iter().filter(|taken| taken.0 == bridge).count() as u16,
                0 => 4_095,
                _ => random.between(1, 4_095) as u16,
            };
            if self.taken.insert((bridge, port)) {
                return port;
            }
        }
    }
}

fn vids(count: usize, random: &mut Random) -> Vec<Vid> {
    let numbers = different(count, 1, 4_094, random);
    let vid = |&number: &u64| Vid { vid: number as u16, index: random.between(1, 16) as u16 };
    numbers.iter().map(vid).collect()
}

/// Members of few services, so that services have several; no repeats.
fn members(size: Size, vids: &[Vid], random: &mut Random) -> Vec<Member> {
    if size.bridges == 0 || vids.is_empty() {
        return Vec::new();
    }
    let services = different(1 + random.below(3), 256, 16_777_214, random);
    let mut taken = BTreeSet::new();
    let mut list = Vec::new();
    for _ in 0..size.members {
        let member = Member {
            transmits: random.one_in(2),
            receives: !random.one_in(3),
            service: *random.pick(&services) as u32,
            bridge: random.below(size.bridges) as u16,
            vid: random.pick(vids).vid,
        };
        if taken.insert((member.service, member.bridge, member.vid)) {
            list.push(member);
        }
    }
    list
}

/// The star whose middle bridge has the longest entry list: all 16 VIDs, and
/// every bridge a transmitting and receiving member of one service.
pub fn longest_star() -> Plan {
    let bridge = |number: u32| Bridge {
        overloaded: false,
        source_id: number + 1,
        priority: 0x8000,
        address: 0x0200_0000_0001 + u64::from(number),
    };
    let ends = |leaf: u16| {
        let outward = HalfLink { down: false, metric: 10, near: 0, far: leaf, port: leaf, link: leaf };
        [outward, HalfLink { near: leaf, far: 0, port: 1, ..outward }]
    };
    let member = |bridge: u16| Member { transmits: true, receives: true, service: 256, bridge, vid: 1 };
    Plan {
        bridges: (0..64).map(bridge).collect(),
        half_links: (1..64).flat_map(ends).collect(),
        vids: (1..=16).map(|number| Vid { vid: number, index: number }).collect(),
        members: (0..64).map(member).collect(),
        ..Plan::default()
    }
}

/// A table of the greatest length, full in every kind. It may have overloaded bridges
/// and half-links that are down, which the tables that the benchmark measures have not;
/// its extension bits are drawn as those of any plan.
pub fn fullest(random: &mut Random) -> Plan {
    let shape = *random.pick(&Shape::MEASURED);
    let plan = fullest_of_shape(shape, Kind::Bridge.limit(), random);
    let mut beside = random.beside();
    let mut plan = with_marks(plan, &mut beside);
    plan.traffic = traffic(&plan, Kind::Traffic.limit(), &mut beside);
    with_extensions(plan, &mut beside)
}

/// A full network with all 16 VIDs and a member for each bridge, without traffic records.
pub fn fullest_of_shape(shape: Shape, size: usize, random: &mut Random) -> Plan {
    let mut plan = full_network(shape, size, random);
    plan.vids = (1..=16).map(|number| Vid { vid: 100 + number, index: number }).collect();
    let member = |bridge: u16| Member {
        transmits: bridge % 4 != 1,
        receives: bridge % 4 != 2,
        service: 256 + u32::from(bridge % 2),
        bridge,
        vid: 101 + bridge % 3,
    };
    plan.members = (0..size as u16).map(member).collect();
    plan
}

/// A network whose links are all whole and usable, four for each bridge: what
/// the shape leaves over is filled with parallel links. Few different metrics,
/// so that there are many ties.
pub fn full_network(shape: Shape, size: usize, random: &mut Random) -> Plan {
    let mut pairs = shape.pairs(size, 4 * size, random);
    let distinct = pairs.len();
    for place in distinct..4 * size {
        pairs.push(pairs[place - distinct]);
    }
    pairs.truncate(4 * size);
    let half_links = whole_links(&pairs, 3, random);
    Plan {
        bridges: bridges(size, random),
        half_links,
        vids: vec![Vid { vid: 1, index: 1 }],
        ..Plan::default()
    }
}

/// Links with both half-links and equal metrics from 1 to the greatest given, numbered
/// from 1, ports counted up.
pub(super) fn whole_links(
    pairs: &[(usize, usize)],
    greatest_metric: u64,
    random: &mut Random,
) -> Vec<HalfLink> {
    let mut ports = Ports { counted: true, taken: BTreeSet::new() };
    let mut half_links = Vec::new();
    for (place, &(from, to)) in pairs.iter().enumerate() {
        let (near, far, link) = (from as u16, to as u16, place as u16 + 1);
        let metric = random.between(1, greatest_metric) as u32;
        let outward = HalfLink { down: false, metric, near, far, port: ports.next(from, random), link };
        half_links.push(outward);
        half_links.push(HalfLink { near: far, far: near, port: ports.next(to, random), ..outward });
    }
    half_links
}
