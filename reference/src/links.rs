//! Links, the hop that joins two bridges, and the network of all hops.

use crate::records::{HalfLink, Plan, GREATEST_USABLE_METRIC, UNUSABLE_METRIC};
use crate::rules::{Misreading, Rules};

/// The other half-link of the same link.
fn mate<'a>(plan: &'a Plan, half_link: &HalfLink) -> Option<&'a HalfLink> {
    plan.half_links.iter().find(|other| other.link == half_link.link && other.mirrors(half_link))
}

/// One end's view of a usable link.
#[derive(Clone, Copy, PartialEq, Eq, Debug)]
pub struct Hop {
    pub cost: u32,
    pub port: u16,
    pub link: u16,
}

/// The usable link of a half-link, seen from its near bridge.
fn usable_hop(rules: Rules, plan: &Plan, near: &HalfLink) -> Option<Hop> {
    let far = match mate(plan, near) {
        Some(far) => far,
        None if rules.has(Misreading::LoneHalfLinkUsed) => near,
        None => return None,
    };
    let cost = combine(rules, near.metric, far.metric);
    let port = if rules.has(Misreading::FarEndPort) { far.port } else { near.port };
    let is_usable = cost < unusable_from(rules) && !is_down(rules, plan, near, far);
    is_usable.then_some(Hop { cost, port, link: near.link })
}

/// A link is down where the one or the other of its halves is.
fn is_down(rules: Rules, plan: &Plan, near: &HalfLink, far: &HalfLink) -> bool {
    if rules.has(Misreading::DownIgnored) {
        false
    } else if rules.has(Misreading::DownAskedOfNear) {
        near.down
    } else if rules.has(Misreading::DownAskedOfFar) {
        far.down
    } else if rules.has(Misreading::DownWhereBothAre) {
        near.down && far.down
    } else if rules.has(Misreading::DownTakesParallels) {
        let is_parallel = |other: &HalfLink| (other.near, other.far) == (near.near, near.far);
        plan.half_links.iter().any(|other| other.down && (is_parallel(other) || other.mirrors(near)))
    } else {
        near.down || far.down
    }
}

/// A link costs the greater of its two metrics.
fn combine(rules: Rules, near: u32, far: u32) -> u32 {
    if rules.has(Misreading::NearEndMetric) {
        near
    } else if rules.has(Misreading::SumOfMetrics) {
        near + far
    } else if rules.has(Misreading::LesserMetric) {
        near.min(far)
    } else {
        near.max(far)
    }
}

fn unusable_from(rules: Rules) -> u32 {
    if rules.has(Misreading::UnusableUsed) {
        UNUSABLE_METRIC + 1
    } else if rules.has(Misreading::GreatestUsableUnused) {
        GREATEST_USABLE_METRIC
    } else {
        UNUSABLE_METRIC
    }
}

/// The number of usable links. Each is seen from both of its ends.
pub fn usable_links(rules: Rules, plan: &Plan) -> usize {
    let rules = if rules.has(Misreading::DownLinksCounted) { rules_without_down() } else { rules };
    let overloaded = |bridge: u16| plan.bridges[usize::from(bridge)].overloaded;
    let left_out = |near: &HalfLink| {
        rules.has(Misreading::OverloadedLinksUncounted) && (overloaded(near.near) || overloaded(near.far))
    };
    let is_counted = |near: &&HalfLink| usable_hop(rules, plan, near).is_some() && !left_out(near);
    plan.half_links.iter().filter(is_counted).count().div_ceil(2)
}

/// The rules by which no link is down.
fn rules_without_down() -> Rules {
    Rules::with(Misreading::DownIgnored)
}

/// How many usable links join two bridges.
pub fn links_between(rules: Rules, plan: &Plan, from: usize, to: usize) -> usize {
    let joins = |near: &&HalfLink| (usize::from(near.near), usize::from(near.far)) == (from, to);
    let halves = plan.half_links.iter().filter(joins);
    halves.filter(|near| usable_hop(rules, plan, near).is_some()).count()
}

/// For each two bridges the hop that joins them.
pub struct Network {
    pub size: usize,
    hops: Vec<Option<Hop>>,
}

impl Network {
    pub fn of(rules: Rules, plan: &Plan) -> Network {
        let network = Network::of_usable_links(rules, plan);
        let cheapest_first = [Misreading::DownTakenFirst, Misreading::DownCostKept, Misreading::DownPortKept];
        match cheapest_first.into_iter().find(|&misreading| rules.has(misreading)) {
            Some(misreading) => {
                network.misread(misreading, &Network::of_usable_links(rules_without_down(), plan))
            }
            None => network,
        }
    }

    fn of_usable_links(rules: Rules, plan: &Plan) -> Network {
        let size = plan.bridges.len();
        let mut network = Network { size, hops: vec![None; size * size] };
        for near in &plan.half_links {
            if let Some(hop) = usable_hop(rules, plan, near) {
                network.offer(rules, usize::from(near.near), usize::from(near.far), hop);
            }
        }
        network
    }

    /// The hops by a misreading that looks for the cheapest link before it asks whether
    /// that is down: `unmarked` has the hops that there are where none is.
    fn misread(self, misreading: Misreading, unmarked: &Network) -> Network {
        let misread = |(hop, cheapest): (&Option<Hop>, &Option<Hop>)| {
            let (taken, cheapest) = (hop.as_ref()?, cheapest.as_ref()?);
            match misreading {
                Misreading::DownTakenFirst => (taken.link == cheapest.link).then_some(*taken),
                Misreading::DownCostKept => Some(Hop { cost: cheapest.cost, ..*taken }),
                _ => Some(Hop { port: cheapest.port, ..*taken }),
            }
        };
        let hops = self.hops.iter().zip(&unmarked.hops).map(misread).collect();
        Network { hops, ..self }
    }

    /// The hop takes the cheapest usable link, of equals the lower link number.
    fn offer(&mut self, rules: Rules, from: usize, to: usize, hop: Hop) {
        let place = &mut self.hops[from * self.size + to];
        if place.is_none_or(|held| preference(rules, &hop) < preference(rules, &held)) {
            *place = Some(hop);
        }
    }

    pub fn hop(&self, from: usize, to: usize) -> Option<Hop> {
        self.hops[from * self.size + to]
    }

    /// The joined pairs, lower bridge first, rising by lower and then by higher bridge.
    pub fn joined_pairs(&self) -> Vec<(usize, usize)> {
        let pairs =
            (0..self.size).flat_map(|lower| (lower + 1..self.size).map(move |higher| (lower, higher)));
        pairs.filter(|&(lower, higher)| self.hop(lower, higher).is_some()).collect()
    }

    /// The bridges joined to a bridge, by number.
    pub fn neighbours(&self, from: usize) -> impl Iterator<Item = (usize, Hop)> + '_ {
        (0..self.size).filter_map(move |to| self.hop(from, to).map(|hop| (to, hop)))
    }
}

fn preference(rules: Rules, hop: &Hop) -> (u32, u32) {
    let (cost, link) = (hop.cost, u32::from(hop.link));
    if rules.has(Misreading::HigherLinkNumber) {
        (cost, u32::MAX - link)
    } else if rules.has(Misreading::LinkNumberBeforeCost) {
        (link, cost)
    } else if rules.has(Misreading::LowerNearPort) {
        (cost, u32::from(hop.port))
    } else {
        (cost, link)
    }
}
