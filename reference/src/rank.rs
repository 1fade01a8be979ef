//! ECT masks, identifiers without their extension and masked ones, and the order of
//! paths: least cost, then fewest hops, then lowest masked PATHID.

use std::cmp::Ordering;

use crate::links::Network;
use crate::records::{Bridge, Plan, EXTENSION_BITS};
use crate::rules::{Misreading, Rules};

/// The masks of index 1 to 16.
const MASKS: [u8; 16] =
    [0x00, 0xFF, 0x88, 0x77, 0x44, 0x33, 0xCC, 0xBB, 0x22, 0x11, 0x66, 0x55, 0xAA, 0x99, 0xDD, 0xEE];

pub fn mask(rules: Rules, index: u16) -> u8 {
    let place = usize::from(index) - 1;
    if rules.has(Misreading::LastMasksExchanged) && place >= 14 {
        MASKS[14 + 15 - place]
    } else if rules.has(Misreading::IndexFromZero) {
        MASKS[(place + 1) % MASKS.len()]
    } else {
        MASKS[place]
    }
}

/// What masking begins from: the Bridge Identifier with its system id extension cleared.
/// The 4 top bits and the address stay.
pub fn without_extension(rules: Rules, identifier: u64) -> u64 {
    identifier & !(u64::from(cleared_priority_bits(rules)) << 48)
}

fn cleared_priority_bits(rules: Rules) -> u16 {
    if rules.has(Misreading::ExtensionCounts) {
        0
    } else if rules.has(Misreading::LowByteCleared) {
        0x00FF
    } else if rules.has(Misreading::PriorityCleared) {
        0xFFFF
    } else if rules.has(Misreading::TopBitsCleared) {
        !EXTENSION_BITS
    } else if rules.has(Misreading::TwelveTopBitsCleared) {
        0xFFF0
    } else {
        EXTENSION_BITS
    }
}

/// Each of the eight bytes of an identifier XORed with the mask.
pub fn masked(rules: Rules, identifier: u64, index: u16) -> u64 {
    let mask = mask(rules, index);
    let mut bytes = identifier.to_be_bytes().map(|byte| byte ^ mask);
    if rules.has(Misreading::PriorityNotMasked) {
        bytes[..2].copy_from_slice(&identifier.to_be_bytes()[..2]);
    }
    u64::from_be_bytes(bytes)
}

/// A path with its cost; its hop count is the number of bridges less one.
#[derive(Clone, PartialEq, Eq, Debug)]
pub struct Path {
    pub bridges: Vec<usize>,
    pub cost: u64,
}

impl Path {
    pub fn hops(&self) -> usize {
        self.bridges.len() - 1
    }

    pub fn last(&self) -> usize {
        self.bridges[self.bridges.len() - 1]
    }
}

/// The order of paths for one VID: the network and the identifiers of one index.
pub struct Ranking<'a> {
    pub rules: Rules,
    pub network: &'a Network,
    /// Without extension, not yet masked.
    identifiers: Vec<u64>,
    overloaded: Vec<bool>,
    index: u16,
}

impl<'a> Ranking<'a> {
    pub fn new(rules: Rules, plan: &Plan, network: &'a Network, index: u16) -> Ranking<'a> {
        let identifier = |bridge: &Bridge| without_extension(rules, bridge.identifier());
        let identifiers = plan.bridges.iter().map(identifier).collect();
        let overloaded = plan.bridges.iter().map(|bridge| bridge.overloaded).collect();
        Ranking { rules, network, identifiers, overloaded, index }
    }

    /// The path of one bridge: cost 0, hops 0.
    pub fn start(&self, bridge: usize) -> Path {
        Path { bridges: vec![bridge], cost: 0 }
    }

    pub fn is_overloaded(&self, bridge: usize) -> bool {
        self.overloaded[bridge]
    }

    /// Whether a list has no overloaded bridge at any place but the first and the
    /// last. Each such place is the middle of three.
    pub fn has_none_between(&self, bridges: &[usize]) -> bool {
        bridges.windows(3).all(|three| !self.overloaded[three[1]])
    }

    /// The list with one more bridge at its end, if the last is joined to it.
    pub fn extended(&self, path: &Path, to: usize) -> Option<Path> {
        let hop = self.network.hop(path.last(), to)?;
        let mut bridges = Vec::with_capacity(path.bridges.len() + 1);
        bridges.extend_from_slice(&path.bridges);
        bridges.push(to);
        Some(Path { bridges, cost: path.cost + u64::from(hop.cost) })
    }

    /// A list of bridges as a path, when each is joined to the next and none between
    /// is overloaded.
    pub fn path(&self, bridges: &[usize]) -> Option<Path> {
        let (&first, rest) = bridges.split_first()?;
        let path = rest.iter().try_fold(self.start(first), |path, &next| self.extended(&path, next))?;
        self.has_none_between(bridges).then_some(path)
    }

    pub fn compare(&self, left: &Path, right: &Path) -> Ordering {
        let key = |path: &Path| self.numbers(path);
        key(left).cmp(&key(right)).then_with(|| self.compare_pathids(left, right))
    }

    /// What counts before the PATHID: cost, then hops.
    fn numbers(&self, path: &Path) -> (u64, u64) {
        let (cost, hops) = (path.cost, path.hops() as u64);
        if self.rules.has(Misreading::HopCountIgnored) {
            (cost, 0)
        } else if self.rules.has(Misreading::HopsBeforeCost) {
            (hops, cost)
        } else if self.rules.has(Misreading::HopsAddedToCost) {
            (cost + hops, 0)
        } else {
            (cost, hops)
        }
    }

    fn compare_pathids(&self, left: &Path, right: &Path) -> Ordering {
        let (left, right) = (self.pathid(left), self.pathid(right));
        if self.rules.has(Misreading::SignedIdentifiers) {
            let signed = |list: &[u64]| list.iter().map(|&key| key as i64).collect::<Vec<_>>();
            signed(&left).cmp(&signed(&right))
        } else if self.rules.has(Misreading::HighestPathid) {
            right.cmp(&left)
        } else {
            left.cmp(&right)
        }
    }

    /// The masked identifiers of all bridges on the path, sorted upward.
    pub fn pathid(&self, path: &Path) -> Vec<u64> {
        let rules = self.rules;
        let identifier = |&bridge: &usize| self.identifiers[bridge];
        let mask = |identifier: u64| masked(rules, identifier, self.index);
        if rules.has(Misreading::NextHopAlone) {
            return path.bridges.iter().skip(1).take(1).map(identifier).map(mask).collect();
        }
        let mut list: Vec<u64> = path.bridges.iter().map(identifier).collect();
        if rules.has(Misreading::SortedBeforeMasking) {
            list.sort_unstable();
        }
        list.iter_mut().for_each(|identifier| *identifier = mask(*identifier));
        if !rules.has(Misreading::OrderOfTravel) && !rules.has(Misreading::SortedBeforeMasking) {
            list.sort_unstable();
        }
        list
    }
}
