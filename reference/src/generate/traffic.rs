//! Traffic records in valid plans.

use std::collections::BTreeSet;

use crate::random::Random;
use crate::records::{Kind, Plan, Traffic};

/// The plan with traffic records: none in three of ten plans, else one, a few, or as many
/// as there may be.
pub(super) fn with_traffic(mut plan: Plan, random: &mut Random) -> Plan {
    let count = match random.between(0, 9) {
        0..=2 => 0,
        3 | 4 => 1,
        5..=8 => random.between(2, 8) as usize,
        _ => Kind::Traffic.limit(),
    };
    plan.traffic = traffic(&plan, count, random);
    plan
}

/// So many traffic records, where the plan has names for so many: of its VIDs, from any
/// bridge to any other; in half of the plans each is followed by that of the opposite
/// direction.
pub fn traffic(plan: &Plan, count: usize, random: &mut Random) -> Vec<Traffic> {
    let mut names = names(plan);
    random.shuffle(&mut names);
    if random.one_in(2) {
        names = with_opposites(&names);
    }
    names.truncate(count);
    let record = |(vid, from, to)| Traffic { vid, amount: amount(random), from, to };
    names.into_iter().map(record).collect()
}

/// VID, from and to.
type Name = (u16, u16, u16);

fn names(plan: &Plan) -> Vec<Name> {
    let bridges = || 0..plan.bridges.len() as u16;
    let ends = || bridges().flat_map(move |from| bridges().map(move |to| (from, to)));
    let of_vid = |vid: u16| ends().filter(|(from, to)| from != to).map(move |(from, to)| (vid, from, to));
    plan.vids.iter().flat_map(|record| of_vid(record.vid)).collect()
}

/// Each name once, the first of two opposite ones followed by the other.
fn with_opposites(names: &[Name]) -> Vec<Name> {
    let mut taken = BTreeSet::new();
    let both = names.iter().flat_map(|&(vid, from, to)| [(vid, from, to), (vid, to, from)]);
    both.filter(|&name| taken.insert(name)).collect()
}

/// 1 to 65,535: the ends of the range, small ones, or any.
fn amount(random: &mut Random) -> u16 {
    match random.between(0, 9) {
        0 => 1,
        1 => u16::MAX,
        2..=6 => random.between(1, 100) as u16,
        _ => random.between(1, u16::MAX.into()) as u16,
    }
}

#[cfg(test)]
mod tests {
    use super::*;
    use crate::check::check;
    use crate::generate::valid::{plan, Size};
    use crate::rules::Rules;

    #[test]
    fn every_name_is_taken_once_before_there_are_no_more() {
        let mut random = Random::new(1);
        let plan = plan(Size { bridges: 3, vids: 2, members: 0 }, &mut random);
        for count in 0..=14 {
            let mut counted = plan.clone();
            counted.traffic = traffic(&plan, count, &mut random);
            assert_eq!(counted.traffic.len(), count.min(12));
            assert!(check(Rules::AS_WRITTEN, &counted.bytes()).is_ok());
        }
    }
}
