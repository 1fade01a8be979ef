//! The generator reaches what it is for: every refusal of the check with every
//! kind of record that can have it, and valid plans of every sort.

use std::cmp::Ordering;
use std::collections::{BTreeMap, BTreeSet};

use reference::check::read;
use reference::checked::Checked;
use reference::generate::stream::case;
use reference::links::Network;
use reference::loads::Loads;
use reference::rank::Path;
use reference::records::{Bridge, Kind, Member, Plan, Traffic, EXTENSION_BITS, UNUSABLE_METRIC};
use reference::refusal::Refusal;
use reference::rules::{Misreading, Rules};
use reference::search::for_each_simple_path;
use reference::words::words_of;

const SEED: u64 = 1;
const CASES: u64 = 4_000;

/// Where paths are looked at, plans with more bridges are left out or looked at in part.
const MOST_BRIDGES: usize = 6;

#[test]
fn every_refusal_is_reached_with_every_kind_that_has_it() {
    let mut reached: BTreeMap<(u32, Option<u32>), u64> = BTreeMap::new();
    for refusal in (0..CASES).filter_map(|number| case(SEED, number).expected.err()) {
        *reached.entry((refusal.number, refusal.kind.map(|kind| kind as u32))).or_default() += 1;
    }
    println!("tables by refusal and kind: {reached:?}");
    let [bridge, half_link, vid, member, traffic, end] = Kind::ALL.map(|kind| Some(kind as u32));
    let mut expected = vec![(1, None), (2, None), (3, None), (10, end), (6, end), (9, half_link)];
    expected.extend([bridge, half_link, member, traffic].map(|kind| (3, kind)));
    expected.extend([bridge, half_link, member].map(|kind| (4, kind)));
    expected.extend([bridge, half_link, vid, member, traffic].map(|kind| (5, kind)));
    expected.extend([bridge, half_link, vid, member, traffic].map(|kind| (6, kind)));
    expected.extend([half_link, member, traffic].map(|kind| (7, kind)));
    expected.extend([bridge, half_link, vid, member, traffic].map(|kind| (8, kind)));
    expected.sort_unstable();
    assert_eq!(reached.into_keys().collect::<Vec<_>>(), expected);
}

/// What a valid plan can have, by name.
type Sort = (&'static str, fn(&Plan) -> bool);

fn sorts() -> Vec<Sort> {
    vec![
        ("no bridge", |plan| plan.bridges.is_empty()),
        ("64 bridges", |plan| plan.bridges.len() == 64),
        ("512 half-links", |plan| plan.half_links.len() == 512),
        ("16 VIDs", |plan| plan.vids.len() == 16),
        ("64 members", |plan| plan.members.len() == 64),
        ("equal priorities", |plan| plan.bridges.iter().all(|one| one.priority == plan.bridges[0].priority)),
        ("varied priorities", |plan| plan.bridges.iter().any(|one| one.priority != plan.bridges[0].priority)),
        ("no extension bits", |plan| plan.bridges.len() > 1 && extended(plan) == 0),
        ("extension bits of one bridge", |plan| plan.bridges.len() > 1 && extended(plan) == 1),
        ("extension bits of some bridges", |plan| (2..plan.bridges.len()).contains(&extended(plan))),
        ("extension bits of all bridges", |plan| {
            plan.bridges.len() > 1 && extended(plan) == plan.bridges.len()
        }),
        ("64 bridges with extension bits", |plan| extended(plan) == 64),
        ("extensions all different", |plan| {
            let all: BTreeSet<u16> = plan.bridges.iter().map(Bridge::extension).collect();
            plan.bridges.len() > 2 && all.len() == plan.bridges.len()
        }),
        ("extension bits in the low byte alone", |plan| {
            extended(plan) > 1 && plan.bridges.iter().all(|bridge| bridge.extension() & 0xF00 == 0)
        }),
        ("extension bits above the low byte alone", |plan| {
            extended(plan) > 1 && plan.bridges.iter().all(|bridge| bridge.extension() & 0xFF == 0)
        }),
        ("all extension bits or none", |plan| {
            extended(plan) > 1
                && plan.bridges.iter().all(|bridge| [0, EXTENSION_BITS].contains(&bridge.extension()))
        }),
        ("each extension bit", |plan| {
            let all = plan.bridges.iter().fold(0, |bits, bridge| bits | bridge.extension());
            all == EXTENSION_BITS
        }),
        ("extensions fall as addresses rise", have_falling_extensions),
        ("equal top bits, other extensions", differ_in_extension_alone),
        ("equal top bits, other extensions, tie of cost and hops", |plan| {
            differ_in_extension_alone(plan) && has_tie(plan, true)
        }),
        ("other top bits and extensions, tie of cost and hops", |plan| {
            extended(plan) > 0 && !have_equal_top_bits(plan) && has_tie(plan, true)
        }),
        ("path that extension bits would change", |plan| {
            is_changed_by(plan, Misreading::ExtensionCounts, true)
        }),
        ("half-link alone", |plan| plan.half_links.iter().any(|half| mates(plan, half.link) == 1)),
        ("unusable metric", |plan| plan.half_links.iter().any(|half| half.metric == UNUSABLE_METRIC)),
        ("asymmetric metrics", has_asymmetric_link),
        ("parallel links of equal cost", |plan| has_parallel_links(plan, true)),
        ("parallel links of other cost", |plan| has_parallel_links(plan, false)),
        ("transmitter with a receiver", |plan| {
            plan.members.iter().any(|member| member.transmits)
                && plan.members.iter().any(|member| member.receives)
        }),
        ("parts that are apart", has_parts_apart),
        ("no overloaded bridge", |plan| overloaded(plan) == 0),
        ("one overloaded bridge", |plan| overloaded(plan) == 1),
        ("overloaded bridges only", |plan| plan.bridges.len() > 1 && overloaded(plan) == plan.bridges.len()),
        ("64 bridges, some overloaded", |plan| {
            plan.bridges.len() == 64 && (1..64).contains(&overloaded(plan))
        }),
        ("path around an overloaded bridge", |plan| is_changed_by(plan, Misreading::OverloadIgnored, true)),
        ("12 by an overloaded bridge", |plan| is_changed_by(plan, Misreading::OverloadIgnored, false)),
        ("two overloaded bridges that are joined", has_overloaded_pair),
        ("overloaded transmitter with a receiver", has_overloaded_transmitter),
        ("no half-link down", |plan| !plan.half_links.is_empty() && down(plan) == 0),
        ("one half-link down", |plan| down(plan) == 1),
        ("one half of a link down", |plan| has_link_with_down(plan, 2, 1)),
        ("both halves of a link down", |plan| has_link_with_down(plan, 2, 2)),
        ("half-link alone that is down", |plan| has_link_with_down(plan, 1, 1)),
        ("all half-links down", |plan| down(plan) > 0 && down(plan) == plan.half_links.len()),
        ("64 bridges, some half-links down", |plan| {
            plan.bridges.len() == 64 && (1..plan.half_links.len()).contains(&down(plan))
        }),
        ("overloaded bridge and half-link down", |plan| overloaded(plan) > 0 && down(plan) > 0),
        ("unusable metric of a half-link down", |plan| {
            plan.half_links.iter().any(|half| half.down && half.metric == UNUSABLE_METRIC)
        }),
        ("parallel link for one that is down", |plan| has_parallel_for_down(plan, true)),
        ("cost of another parallel link", |plan| has_parallel_for_down(plan, false)),
        ("path around a link that is down", |plan| {
            down(plan) > 0 && is_changed_by(plan, Misreading::DownIgnored, true)
        }),
        ("12 by links that are down", |plan| {
            down(plan) > 0 && is_changed_by(plan, Misreading::DownIgnored, false)
        }),
        ("no traffic record", |plan| {
            plan.traffic.is_empty() && plan.bridges.len() > 1 && !plan.vids.is_empty()
        }),
        ("one traffic record", |plan| plan.traffic.len() == 1),
        ("a few traffic records", |plan| (2..=8).contains(&plan.traffic.len())),
        ("256 traffic records", |plan| plan.traffic.len() == 256),
        ("256 traffic records of fewer than 64 bridges", |plan| {
            plan.traffic.len() == 256 && plan.bridges.len() < 64
        }),
        ("traffic in opposite directions", |plan| {
            plan.traffic
                .iter()
                .any(|one| plan.traffic.iter().any(|other| one.name() == other.opposite().name()))
        }),
        ("traffic of several VIDs", |plan| plan.traffic.iter().any(|one| one.vid != plan.traffic[0].vid)),
        ("traffic of one bridge to another in two VIDs", |plan| {
            let ends = |traffic: &Traffic| (traffic.from, traffic.to);
            let in_other_vid =
                |one: &Traffic, other: &Traffic| ends(one) == ends(other) && one.vid != other.vid;
            plan.traffic.iter().any(|one| plan.traffic.iter().any(|other| in_other_vid(one, other)))
        }),
        ("least amount", |plan| plan.traffic.iter().any(|traffic| traffic.amount == 1)),
        ("greatest amount", |plan| plan.traffic.iter().any(|traffic| traffic.amount == u16::MAX)),
        ("all traffic lost", |plan| has_loads(plan, |loads| loads.total == 0 && loads.lost > 0)),
        ("some traffic lost", |plan| has_loads(plan, |loads| loads.total > 0 && loads.lost > 0)),
        ("no traffic lost", |plan| has_loads(plan, |loads| loads.total > 0 && loads.lost == 0)),
        ("no joined pair, traffic", |plan| has_loads(plan, |loads| loads.pairs.is_empty())),
        ("joined pair without load", |plan| {
            has_loads(plan, |loads| loads.total > 0 && loads.pairs.iter().any(|(_, sum)| *sum == 0))
        }),
        ("traffic of an overloaded bridge", |plan| {
            let marked = |bridge: u16| plan.bridges[usize::from(bridge)].overloaded;
            plan.traffic.iter().any(|traffic| marked(traffic.from) || marked(traffic.to))
        }),
        ("traffic, and half-links down", |plan| !plan.traffic.is_empty() && down(plan) > 0),
        ("tie of cost and hops", |plan| has_tie(plan, true)),
        ("tie of cost with other hops", |plan| has_tie(plan, false)),
    ]
}

fn extended(plan: &Plan) -> usize {
    plan.bridges.iter().filter(|bridge| bridge.extension() != 0).count()
}

fn have_equal_top_bits(plan: &Plan) -> bool {
    plan.bridges.iter().all(|bridge| bridge.priority >> 12 == plan.bridges[0].priority >> 12)
}

fn differ_in_extension_alone(plan: &Plan) -> bool {
    have_equal_top_bits(plan)
        && plan.bridges.iter().any(|bridge| bridge.extension() != plan.bridges[0].extension())
}

fn have_falling_extensions(plan: &Plan) -> bool {
    let mut bridges = plan.bridges.clone();
    bridges.sort_by_key(|bridge| bridge.address);
    bridges.len() > 2 && bridges.windows(2).all(|two| two[0].extension() > two[1].extension())
}

fn mates(plan: &Plan, link: u16) -> usize {
    plan.half_links.iter().filter(|half| half.link == link).count()
}

fn has_asymmetric_link(plan: &Plan) -> bool {
    let halves = &plan.half_links;
    halves.iter().any(|one| halves.iter().any(|other| one.link == other.link && one.metric != other.metric))
}

fn has_parallel_links(plan: &Plan, equal: bool) -> bool {
    let halves = &plan.half_links;
    halves.iter().any(|one| {
        halves.iter().any(|other| {
            let parallel = one.link != other.link && (one.near, one.far) == (other.near, other.far);
            parallel && (one.metric == other.metric) == equal
        })
    })
}

fn has_parts_apart(plan: &Plan) -> bool {
    let network = Network::of(Rules::AS_WRITTEN, plan);
    let lone = |bridge: usize| network.neighbours(bridge).next().is_none();
    plan.bridges.len() > 1 && !plan.half_links.is_empty() && (0..plan.bridges.len()).any(lone)
}

fn overloaded(plan: &Plan) -> usize {
    plan.bridges.iter().filter(|bridge| bridge.overloaded).count()
}

/// Whether some chosen path differs from the one that there is where the marks are
/// ignored, or is none now.
fn is_changed_by(plan: &Plan, ignored: Misreading, is_left: bool) -> bool {
    let [now, before] = [Rules::AS_WRITTEN, Rules::with(ignored)]
        .map(|rules| Checked::new(rules, &plan.bytes()).expect("the plan is valid"));
    (0..plan.bridges.len().min(MOST_BRIDGES)).any(|from| {
        let (now, before) = (now.paths_from(1, from), before.paths_from(1, from));
        now.iter().zip(before.iter()).any(|(now, before)| now != before && now.is_some() == is_left)
    })
}

fn has_overloaded_pair(plan: &Plan) -> bool {
    let network = Network::of(Rules::AS_WRITTEN, plan);
    let marked = |bridge: usize| plan.bridges[bridge].overloaded;
    (0..network.size).any(|one| marked(one) && network.neighbours(one).any(|(other, _)| marked(other)))
}

fn has_overloaded_transmitter(plan: &Plan) -> bool {
    let members = &plan.members;
    let sends = |member: &Member| member.transmits && plan.bridges[usize::from(member.bridge)].overloaded;
    members.iter().filter(|member| sends(member)).any(|one| {
        let receives = |other: &Member| {
            other.receives
                && other.bridge != one.bridge
                && (other.service, other.vid) == (one.service, one.vid)
        };
        members.iter().any(receives)
    })
}

/// Whether the loads of a plan with traffic records are such.
fn has_loads(plan: &Plan, such: fn(&Loads) -> bool) -> bool {
    let checked = Checked::new(Rules::AS_WRITTEN, &plan.bytes()).expect("the plan is valid");
    !plan.traffic.is_empty() && such(&Loads::of(&checked))
}

fn down(plan: &Plan) -> usize {
    plan.half_links.iter().filter(|half| half.down).count()
}

/// Whether so many of the half-links of a link that has so many are down.
fn has_link_with_down(plan: &Plan, of_link: usize, down: usize) -> bool {
    let halves = &plan.half_links;
    let marked = |link: u16| halves.iter().filter(|half| half.link == link && half.down).count();
    halves.iter().any(|half| mates(plan, half.link) == of_link && marked(half.link) == down)
}

/// Whether two bridges take another link than they would if none were down, of equal
/// cost or not.
fn has_parallel_for_down(plan: &Plan, equal_cost: bool) -> bool {
    let [now, before] =
        [Rules::AS_WRITTEN, Rules::with(Misreading::DownIgnored)].map(|rules| Network::of(rules, plan));
    (0..now.size).any(|from| {
        now.neighbours(from).any(|(to, hop)| {
            let cheapest = before.hop(from, to).expect("bridges that are joined were before");
            hop.link != cheapest.link && (hop.cost == cheapest.cost) == equal_cost
        })
    })
}

/// Whether two least-cost paths between two bridges differ, with equal hops or not.
fn has_tie(plan: &Plan, equal_hops: bool) -> bool {
    if !(2..=MOST_BRIDGES).contains(&plan.bridges.len()) {
        return false;
    }
    let checked = Checked::new(Rules::AS_WRITTEN, &plan.bytes()).expect("the plan is valid");
    let ranking = checked.ranking(1);
    let last = plan.bridges.len() - 1;
    (0..last).any(|from| {
        let mut paths: Vec<Path> = Vec::new();
        for_each_simple_path(&ranking, from, last, &mut |path| paths.push(path.clone()));
        paths.sort_by(|one, other| ranking.compare(one, other));
        let Some((first, rest)) = paths.split_first() else {
            return false;
        };
        rest.iter().any(|path| {
            path.cost == first.cost && (path.hops().cmp(&first.hops()) == Ordering::Equal) == equal_hops
        })
    })
}

#[test]
fn every_sort_of_valid_plan_is_made() {
    let valid = (0..CASES).map(|number| case(SEED, number)).filter(|case| case.expected.is_ok());
    let plans: Vec<Plan> =
        valid.map(|case| read(Rules::AS_WRITTEN, &case.table).expect("the case is valid")).collect();
    for (name, has) in sorts() {
        let made = plans.iter().filter(|plan| has(plan)).count();
        println!("{name}: {made} of {} plans", plans.len());
        assert!(made > 0, "no plan has: {name}");
    }
}

/// Plans where priorities decide are frequent, those of few bridges among them.
#[test]
fn chosen_paths_often_depend_on_priorities() {
    let small = (0..CASES).filter(|number| number % 10 < 4).map(|number| case(SEED, number));
    let plans: Vec<Plan> = small.filter_map(|case| read(Rules::AS_WRITTEN, &case.table).ok()).collect();
    for misreading in Misreading::OF_PATHID_ORDER {
        let changed = plans.iter().filter(|plan| is_changed_by(plan, misreading, true)).count();
        println!("{misreading:?}: {changed} of {} small plans", plans.len());
        assert!(25 * changed > plans.len(), "{misreading:?} changes {changed} of {}", plans.len());
    }
}

#[test]
fn every_fault_of_a_traffic_record_is_made() {
    let names: BTreeSet<String> = (0..CASES).map(|number| case(SEED, number).name).collect();
    for name in [
        "amount 0",
        "traffic VID out of range",
        "unknown traffic VID",
        "unknown from",
        "unknown to",
        "from is to",
        "to is from",
        "traffic repeated",
        "traffic repeated, other amount",
        "lower kind",
        "length 9544",
    ] {
        assert!(names.contains(&format!("damaged: {name}")), "no table is made with: {name}");
    }
}

/// The damaged tables that are refused for a half-link.
fn refused_for_half_links() -> Vec<(Vec<u8>, Refusal)> {
    let cases = (0..CASES).map(|number| case(SEED, number));
    let refused = cases.filter_map(|case| Some((case.table, case.expected.err()?)));
    refused.filter(|(_, refusal)| refusal.kind == Some(Kind::HalfLink)).collect()
}

#[test]
fn every_fault_of_a_half_link_comes_with_and_without_the_mark() {
    let mut made: BTreeMap<(u32, u32), u64> = BTreeMap::new();
    for (table, refusal) in refused_for_half_links() {
        let bits = words_of(&table)[refusal.word] >> 24 & 0xF;
        *made.entry((refusal.number, bits)).or_default() += 1;
    }
    println!("tables by refusal and bits 27..24 of the half-link: {made:?}");
    let zero_bits = [1, 2, 4].into_iter().flat_map(|bit| [(4, bit), (4, 8 | bit)]);
    let others = [5, 6, 7, 8, 9].into_iter().flat_map(|number| [(number, 0), (number, 8)]);
    for wanted in zero_bits.chain(others) {
        assert!(made.contains_key(&wanted), "no table has refusal and bits {wanted:?}");
    }
}

#[test]
fn ports_and_link_numbers_of_half_links_that_are_down_are_repeated() {
    let refused = refused_for_half_links();
    for (number, frees) in [(8, Misreading::DownFreesPort), (9, Misreading::DownFreesLinkNumber)] {
        let is_by_down = |(table, refusal): &&(Vec<u8>, Refusal)| {
            refusal.number == number && read(Rules::with(frees), table).err() != Some(*refusal)
        };
        let made = refused.iter().filter(is_by_down).count();
        println!("{number} by a half-link that is down: {made} tables");
        assert!(made > 0, "no table has {number} by a half-link that is down");
    }
}
