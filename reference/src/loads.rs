//! The loads of a table with traffic records, request A5 of document 02: what each joined
//! pair carries, what all carry together, and what no path carries.

use crate::checked::Checked;
use crate::links::{links_between, Network};
use crate::path::named_path;
use crate::rank::Path;
use crate::records::Traffic;
use crate::rules::{Misreading, Rules};

/// Two bridges, the lower one first.
pub type Pair = (usize, usize);

pub struct Loads {
    /// Each joined pair with the sum of the amounts whose chosen path takes that hop
    /// either way.
    pub pairs: Vec<(Pair, u64)>,
    /// Amount times hops, over the records that have a path.
    pub total: u64,
    /// The amounts of the records that have none.
    pub lost: u64,
}

/// Whether the listing ends with loads: where a traffic record occurs.
pub fn has_load_lines(checked: &Checked) -> bool {
    !checked.plan.traffic.is_empty() || checked.rules.has(Misreading::LoadsWithoutTraffic)
}

impl Loads {
    pub fn of(checked: &Checked) -> Loads {
        let rules = checked.rules;
        let carried: Vec<(u64, Option<Path>)> = checked
            .plan
            .traffic
            .iter()
            .map(|traffic| (amount(rules, traffic), path_of(checked, traffic)))
            .collect();
        let with_path = carried.iter().filter_map(|(amount, path)| Some((*amount, path.as_ref()?)));
        let lost = carried.iter().filter(|(_, path)| path.is_none()).map(|(amount, _)| amount).sum();
        let total = with_path.clone().map(|(amount, path)| amount * counted_hops(rules, path)).sum::<u64>();
        let load = |pair: Pair| {
            let takes = with_path.clone().filter(|(_, path)| takes_hop(rules, path, pair));
            (pair, takes.map(|(amount, _)| amount).sum())
        };
        let mut pairs: Vec<(Pair, u64)> = listed_pairs(checked).into_iter().map(load).collect();
        if rules.has(Misreading::IdlePairsLeftOut) {
            pairs.retain(|&(_, sum)| sum > 0);
        }
        let total = if rules.has(Misreading::LostInTotal) { total + lost } else { total };
        Loads { pairs, total, lost }
    }
}

fn amount(rules: Rules, traffic: &Traffic) -> u64 {
    if rules.has(Misreading::RecordsInsteadOfAmounts) {
        1
    } else if rules.has(Misreading::LoadedBackToo) {
        2 * u64::from(traffic.amount)
    } else {
        u64::from(traffic.amount)
    }
}

/// The chosen path of a record's VID from its one bridge to the other.
fn path_of(checked: &Checked, traffic: &Traffic) -> Option<Path> {
    let vid = match checked.plan.vids.first() {
        Some(first) if checked.rules.has(Misreading::LoadsByFirstVid) => first.vid,
        _ => traffic.vid,
    };
    named_path(checked, vid.into(), traffic.from.into(), traffic.to.into()).ok()
}

fn counted_hops(rules: Rules, path: &Path) -> u64 {
    if rules.has(Misreading::OneHopTooMany) {
        path.hops() as u64 + 1
    } else if rules.has(Misreading::CostInTotal) {
        path.cost
    } else {
        path.hops() as u64
    }
}

/// Whether a path takes the hop between two bridges, either way.
fn takes_hop(rules: Rules, path: &Path, (lower, higher): Pair) -> bool {
    let one_way = rules.has(Misreading::LoadOneWay);
    path.bridges.windows(2).any(|hop| hop == [lower, higher] || (hop == [higher, lower] && !one_way))
}

/// The joined pairs in the order of their lines.
fn listed_pairs(checked: &Checked) -> Vec<Pair> {
    let Checked { rules, plan, .. } = checked;
    let mut pairs = checked.network.joined_pairs();
    if rules.has(Misreading::DownPairsListed) {
        pairs = Network::of(Rules::with(Misreading::DownIgnored), plan).joined_pairs();
    } else if rules.has(Misreading::OverloadedPairsLeftOut) {
        let overloaded = |bridge: usize| plan.bridges[bridge].overloaded;
        pairs.retain(|&(lower, higher)| !overloaded(lower) && !overloaded(higher));
    } else if rules.has(Misreading::LoadForEachLink) {
        let each = |pair: Pair| vec![pair; links_between(*rules, plan, pair.0, pair.1)];
        pairs = pairs.into_iter().flat_map(each).collect();
    } else if rules.has(Misreading::LoadsByHigherBridge) {
        pairs.sort_by_key(|&(lower, higher)| (higher, lower));
    }
    pairs
}
