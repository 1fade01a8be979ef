//! Tables for the service advertisements: plans in which one bridge has from none to
//! all 64 members of a VID, and the tables of the other runners between them.

use std::collections::BTreeSet;

use super::stream::{case, Case};
use super::valid::{different, plan, Size};
use crate::random::Random;
use crate::records::{Kind, Member, Plan};

/// How many members the bridge with most has: around the 60 of one sub-TLV, and few.
const MOST_MEMBERS: [usize; 12] = [0, 1, 2, 7, 58, 59, 60, 60, 61, 61, 63, 64];

/// Every other table is one of the other runners', damaged ones among them.
pub fn service_case(seed: u64, number: u64) -> Case {
    if number % 2 == 1 {
        return case(seed, number);
    }
    let table = service_plan(&mut Random::for_case(seed, number)).bytes();
    Case { number, name: "members of one bridge".to_string(), table, expected: Ok(()) }
}

/// A plan of few bridges and VIDs, of which one of each has many members.
pub fn service_plan(random: &mut Random) -> Plan {
    let size = Size { bridges: 1 + random.below(5), vids: 1 + random.below(4), members: 0 };
    let mut plan = plan(size, random);
    let most = *random.pick(&MOST_MEMBERS);
    plan.members = members_of_one(&plan, most, random);
    let others = random.below(13).min(Kind::Member.limit() - most);
    add_others(&mut plan, others, random);
    if !random.one_in(3) {
        random.shuffle(&mut plan.members);
    }
    plan
}

/// So many members of one bridge and VID, T and R in all four ways.
fn members_of_one(plan: &Plan, count: usize, random: &mut Random) -> Vec<Member> {
    let bridge = random.below(plan.bridges.len()) as u16;
    let vid = random.pick(&plan.vids).vid;
    let i_sids = different(count, 256, 16_777_214, random);
    let member = |&i_sid: &u64| member(i_sid as u32, bridge, vid, random);
    i_sids.iter().map(member).collect()
}

fn member(service: u32, bridge: u16, vid: u16, random: &mut Random) -> Member {
    Member { transmits: random.one_in(2), receives: random.one_in(2), service, bridge, vid }
}

/// Members of any bridge and VID, with I-SIDs that are there and others.
fn add_others(plan: &mut Plan, count: usize, random: &mut Random) {
    let name = |member: &Member| (member.service, member.bridge, member.vid);
    let mut taken: BTreeSet<(u32, u16, u16)> = plan.members.iter().map(name).collect();
    let mut i_sids: Vec<u32> = plan.members.iter().map(|member| member.service).collect();
    i_sids.extend(different(3, 256, 16_777_214, random).iter().map(|&i_sid| i_sid as u32));
    for _ in 0..count {
        let bridge = random.below(plan.bridges.len()) as u16;
        let vid = random.pick(&plan.vids).vid;
        let other = member(*random.pick(&i_sids), bridge, vid, random);
        if taken.insert(name(&other)) {
            plan.members.push(other);
        }
    }
}

/// A bridge's members of one VID in table order.
pub fn members_of(plan: &Plan, bridge: usize, vid: u16) -> Vec<Member> {
    let of_both = |member: &&Member| usize::from(member.bridge) == bridge && member.vid == vid;
    plan.members.iter().filter(of_both).copied().collect()
}

/// Every bridge with every VID.
pub fn bridges_and_vids(plan: &Plan) -> Vec<(usize, u16)> {
    let vids = || plan.vids.iter().map(|record| record.vid);
    (0..plan.bridges.len()).flat_map(|bridge| vids().map(move |vid| (bridge, vid))).collect()
}

#[cfg(test)]
mod tests {
    use super::*;
    use crate::check::check;
    use crate::rules::Rules;

    #[test]
    fn every_number_of_members_around_sixty_is_made() {
        let mut made = BTreeSet::new();
        for number in 0..400 {
            let plan = service_plan(&mut Random::for_case(1, number));
            assert!(check(Rules::AS_WRITTEN, &plan.bytes()).is_ok(), "plan {number} is refused");
            let count = |&(bridge, vid): &(usize, u16)| members_of(&plan, bridge, vid).len();
            made.extend(bridges_and_vids(&plan).iter().map(count));
        }
        for wanted in [0, 1, 58, 59, 60, 61, 62, 63, 64] {
            assert!(made.contains(&wanted), "no bridge has {wanted} members of a VID: {made:?}");
        }
    }
}
