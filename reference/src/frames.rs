//! Frames moved by document 01's section "Frames": by the table and the words
//! that the entries call wrote for each bridge, and nothing else.

use crate::entries::{GROUP, INDIVIDUAL};
use crate::lookup::{decoded, Entry};
use crate::records::{HalfLink, Plan, UNUSABLE_METRIC};
use crate::rules::{Misreading, Rules};

/// What frames move by.
pub struct Forwarding<'a> {
    rules: Rules,
    pub plan: &'a Plan,
    entries: Vec<Vec<Entry>>,
}

/// A link crossed, the bridge entered and the arrival port there.
#[derive(Clone, Copy, PartialEq, Eq, Debug)]
pub struct Crossing {
    pub left: usize,
    pub link: u16,
    pub entered: usize,
    pub arrival_port: u16,
}

/// How an individual frame moved.
#[derive(Clone, PartialEq, Eq, Debug)]
pub struct Journey {
    pub stood_at: Vec<usize>,
    pub crossings: Vec<Crossing>,
    pub arrived: bool,
}

impl<'a> Forwarding<'a> {
    /// `written` holds for each bridge the words written for it.
    pub fn new(rules: Rules, plan: &'a Plan, written: &[Vec<u32>]) -> Forwarding<'a> {
        Forwarding { rules, plan, entries: written.iter().map(|words| decoded(words)).collect() }
    }

    /// The entries of a kind at a bridge with a VID and an address.
    pub fn entries(&self, kind: u32, bridge: usize, vid: u16, address: u64) -> Vec<Entry> {
        let wanted = |entry: &&Entry| (entry.kind, entry.vid, entry.address) == (kind, vid, address);
        self.entries[bridge].iter().filter(wanted).copied().collect()
    }

    /// The port of the one individual entry; none without exactly one.
    pub fn individual_port(&self, bridge: usize, vid: u16, address: u64) -> Option<u16> {
        match self.entries(INDIVIDUAL, bridge, vid, address)[..] {
            [only] => Some(only.port),
            _ => None,
        }
    }

    /// Crosses the usable link whose half-link has this near bridge and port.
    pub fn leave(&self, bridge: usize, port: u16) -> Option<Crossing> {
        let half_links = &self.plan.half_links;
        let is_near = |half: &&HalfLink| usize::from(half.near) == bridge && half.port == port;
        let near = half_links.iter().find(is_near)?;
        let is_far =
            |half: &&HalfLink| half.link == near.link && half.near == near.far && half.far == near.near;
        let far = half_links.iter().find(is_far)?;
        let is_down = (near.down || far.down) && !self.rules.has(Misreading::FrameCrossesDown);
        let is_usable = near.metric.max(far.metric) < UNUSABLE_METRIC && !is_down;
        is_usable.then_some(Crossing {
            left: bridge,
            link: near.link,
            entered: usize::from(near.far),
            arrival_port: far.port,
        })
    }

    /// Moves an individual frame for `to` that starts at `from`, at most as many
    /// times as there are bridges.
    pub fn send_individual(&self, vid: u16, from: usize, to: usize) -> Journey {
        let address = self.plan.bridges[to].address;
        let mut journey = Journey { stood_at: vec![from], crossings: Vec::new(), arrived: from == to };
        for _ in 0..self.plan.bridges.len() {
            let here = journey.stood_at[journey.stood_at.len() - 1];
            if here == to {
                journey.arrived = true;
                break;
            }
            let port = self.individual_port(here, vid, address);
            let Some(crossing) = port.and_then(|port| self.leave(here, port)) else {
                break;
            };
            journey.stood_at.push(crossing.entered);
            journey.crossings.push(crossing);
        }
        journey
    }

    /// The copies of a group frame that enter a bridge, round by round, for as
    /// many rounds as given; copies without a link are lost.
    pub fn send_group(&self, vid: u16, sender: usize, address: u64, rounds: usize) -> Vec<Vec<Crossing>> {
        let mut all = Vec::new();
        let mut standing = vec![sender];
        for _ in 0..rounds {
            let entered: Vec<Crossing> = standing
                .iter()
                .flat_map(|&bridge| {
                    self.entries(GROUP, bridge, vid, address).into_iter().map(move |e| (bridge, e))
                })
                .filter_map(|(bridge, entry)| self.leave(bridge, entry.port))
                .collect();
            standing = entered.iter().map(|crossing| crossing.entered).collect();
            all.push(entered);
        }
        all
    }
}
