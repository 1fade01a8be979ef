//! Demand 3 by simulation: for a table with all its bridges' entries written in
//! full, each of its sentences. Definitions are taken as written; paths and
//! words are those of the rules tried.

use std::cmp::Ordering;
use std::collections::BTreeSet;

use super::fixture::is_usable;
use super::{ensure, equal, with_table, Outcome, Setting};
use crate::checked::Checked;
use crate::entries::{entries, GROUP, INDIVIDUAL, LONGEST_LIST};
use crate::frames::{Crossing, Forwarding, Journey};
use crate::generate::valid::{fullest, longest_star, plan as random_plan, Size};
use crate::path::{named_path, path};
use crate::random::Random;
use crate::rank::{Path, Ranking};
use crate::records::{HalfLink, Member, Plan, Vid};
use crate::refusal::Refusal;
use crate::rules::Rules;
use crate::search::{for_each_path_up_to, for_each_simple_path};
use crate::words::pair;

/// Up to so many bridges every simple path is compared with the one given.
const SMALL: usize = 7;

pub fn demand_3_on_small_plans(setting: &Setting) -> Outcome {
    for number in 0..setting.tables {
        let mut random = Random::for_case(setting.seed, number);
        let size = Size::up_to(SMALL, &mut random);
        holds_for(setting, &random_plan(size, &mut random))?;
    }
    Ok(())
}

pub fn demand_3_on_middle_plans(setting: &Setting) -> Outcome {
    for number in 0..setting.tables.div_ceil(20) {
        let mut random = Random::for_case(setting.seed, number);
        let size = Size { bridges: 8 + random.below(16), ..Size::up_to(8, &mut random) };
        holds_for(setting, &random_plan(size, &mut random))?;
    }
    Ok(())
}

/// The star with the longest list, the fullest table, and random largest ones.
pub fn demand_3_on_largest_plans(setting: &Setting) -> Outcome {
    holds_for(setting, &longest_star())?;
    let mut random = Random::new(setting.seed);
    let mut full = fullest(&mut random);
    // Three VIDs are enough for the members; sixteen would take long.
    full.vids.truncate(3);
    full.traffic.retain(|record| full.vids.iter().any(|vid| vid.vid == record.vid));
    holds_for(setting, &full)?;
    for _ in 0..setting.tables / 1_000 {
        let size = Size { vids: 2, ..Size::LARGEST };
        holds_for(setting, &random_plan(size, &mut random))?;
    }
    Ok(())
}

fn holds_for(setting: &Setting, plan: &Plan) -> Outcome {
    let table = plan.bytes();
    with_table(&table, verify(setting, plan, &table))
}

fn verify(setting: &Setting, plan: &Plan, table: &[u8]) -> Outcome {
    let refused = |refusal: Refusal| format!("a valid table is refused: {refusal:?}");
    let tried = Checked::new(setting.rules, table).map_err(refused)?;
    let written = Checked::new(Rules::AS_WRITTEN, table).map_err(refused)?;
    let lists = written_lists(setting, plan, table)?;
    let forwarding = Forwarding::new(Rules::AS_WRITTEN, plan, &lists);
    let joined = Joined::of(plan);
    for vid in &plan.vids {
        let ranking = written.ranking(vid.index);
        let verifier = VidVerifier {
            setting,
            table,
            tried: &tried,
            ranking,
            forwarding: &forwarding,
            joined: &joined,
            vid: *vid,
        };
        verifier.verify_pairs()?;
        verifier.verify_groups()?;
    }
    verify_words(&tried, &lists)
}

/// The words that the entries call writes for each bridge, into lists that hold
/// the greatest number; the words past them keep their contents.
pub(super) fn written_lists(setting: &Setting, plan: &Plan, table: &[u8]) -> Result<Vec<Vec<u32>>, String> {
    const OLD: u32 = 0xA5A5_A5A5;
    let mut lists = Vec::new();
    for bridge in 0..plan.bridges.len() {
        let mut list = vec![OLD; LONGEST_LIST];
        let written = entries(setting.rules, table, bridge as u32, &mut list);
        let Ok(written) = written else {
            return Err(format!("entries of bridge {bridge}: {written:?}"));
        };
        ensure!(list[written..].iter().all(|&word| word == OLD), "words past {written} are kept");
        list.truncate(written);
        lists.push(list);
    }
    Ok(lists)
}

/// Which bridges a chain of usable links joins that has no overloaded bridge between.
struct Joined {
    /// The ends of usable links, each link both ways.
    links: BTreeSet<(usize, usize)>,
    /// For each bridge the parts that a chain from it enters, or in which it lies: a
    /// part is what links between bridges that are not overloaded hold together.
    parts: Vec<BTreeSet<usize>>,
}

impl Joined {
    fn of(plan: &Plan) -> Joined {
        let links = usable_ends(plan);
        let overloaded = |bridge: usize| plan.bridges[bridge].overloaded;
        let mut part: Vec<usize> = (0..plan.bridges.len()).collect();
        for &(near, far) in links.iter().filter(|&&(near, far)| !overloaded(near) && !overloaded(far)) {
            let (one, other) = (part[near], part[far]);
            part.iter_mut().filter(|part| **part == other).for_each(|part| *part = one);
        }
        let mut parts = vec![BTreeSet::new(); part.len()];
        for bridge in (0..part.len()).filter(|&bridge| !overloaded(bridge)) {
            parts[bridge].insert(part[bridge]);
        }
        for &(near, far) in links.iter().filter(|&&(_, far)| !overloaded(far)) {
            parts[near].insert(part[far]);
        }
        Joined { links, parts }
    }

    /// By a link of their own, or both by one part.
    fn joins(&self, one: usize, other: usize) -> bool {
        self.links.contains(&(one, other)) || !self.parts[one].is_disjoint(&self.parts[other])
    }
}

/// The ends of each two half-links that make a usable link, both ways.
fn usable_ends(plan: &Plan) -> BTreeSet<(usize, usize)> {
    let halves = &plan.half_links;
    let makes_link = |near: &HalfLink, far: &HalfLink| {
        let mirrored = near.link == far.link && near.near == far.far && near.far == far.near;
        mirrored && is_usable(near) && is_usable(far)
    };
    let is_of_link = |near: &&HalfLink| halves.iter().any(|far| makes_link(near, far));
    halves.iter().filter(is_of_link).map(|near| (usize::from(near.near), usize::from(near.far))).collect()
}

/// What demand 3 says of one VID of a table.
struct VidVerifier<'a> {
    setting: &'a Setting,
    table: &'a [u8],
    tried: &'a Checked,
    ranking: Ranking<'a>,
    forwarding: &'a Forwarding<'a>,
    joined: &'a Joined,
    vid: Vid,
}

impl VidVerifier<'_> {
    fn size(&self) -> usize {
        self.forwarding.plan.bridges.len()
    }

    fn address(&self, bridge: usize) -> u64 {
        self.forwarding.plan.bridges[bridge].address
    }

    fn given(&self, from: usize, to: usize) -> Result<Path, Refusal> {
        named_path(self.tried, u32::from(self.vid.vid), from as u32, to as u32)
    }

    fn verify_pairs(&self) -> Outcome {
        for from in 0..self.size() {
            for to in (0..self.size()).filter(|&to| to != from) {
                let outcome = self.verify_pair(from, to);
                outcome.map_err(|why| format!("VID {} from {from} to {to}: {why}", self.vid.vid))?;
            }
        }
        Ok(())
    }

    fn verify_pair(&self, from: usize, to: usize) -> Outcome {
        let entries = self.forwarding.entries(INDIVIDUAL, from, self.vid.vid, self.address(to)).len();
        if !self.joined.joins(from, to) {
            equal("path where no chain joins", self.given(from, to), Err(Refusal::NO_PATH))?;
            self.verify_call(from, to, None)?;
            return equal("entries where no chain joins", entries, 0);
        }
        ensure!(entries > 0, "no entry although a chain joins");
        let given = self.given(from, to);
        let Ok(given) = given else {
            return Err(format!("a chain joins, path: {given:?}"));
        };
        self.verify_call(from, to, Some(&given))?;
        self.verify_values(from, to, &given)?;
        self.verify_least(&given)?;
        let journey = self.forwarding.send_individual(self.vid.vid, from, to);
        ensure!(journey.arrived, "the frame is lost: {journey:?}");
        equal("bridges where the frame stood", &journey.stood_at, &given.bridges)?;
        self.verify_reverse(from, to, &journey)?;
        self.verify_parts(&given.bridges)?;
        self.verify_arrival_ports(from, &journey.crossings)
    }

    /// The path call itself, whatever list is lent: 12 exactly without a chain.
    /// On larger tables a part of the pairs is enough, since each call checks.
    fn verify_call(&self, from: usize, to: usize, given: Option<&Path>) -> Outcome {
        if self.size() > SMALL && !(from + 7 * to).is_multiple_of(97) {
            return Ok(());
        }
        let question = (u32::from(self.vid.vid), from as u32, to as u32);
        for length in [0, 1, self.size()] {
            let mut lent = vec![0; length];
            let answer = path(self.setting.rules, self.table, question, &mut lent);
            match (given, answer) {
                (None, answer) => equal("path call", answer, Err(Refusal::NO_PATH))?,
                (Some(given), Err(refusal)) => {
                    equal("path call", refusal, Refusal::SHORT_LIST)?;
                    ensure!(length < given.bridges.len(), "13 though {length} places hold the path");
                }
                (Some(given), Ok(answer)) => {
                    equal("cost and hops", (answer.cost, answer.hops), (given.cost, given.hops()))?;
                    let list: Vec<usize> =
                        lent[..=answer.hops].iter().map(|&bridge| bridge as usize).collect();
                    equal("list", &list, &given.bridges)?;
                }
            }
        }
        Ok(())
    }

    /// The list given is a path from a to b, with its own cost.
    fn verify_values(&self, from: usize, to: usize, given: &Path) -> Outcome {
        let ends = (given.bridges.first(), given.bridges.last());
        equal("ends", ends, (Some(&from), Some(&to)))?;
        equal("cost by definition", self.ranking.path(&given.bridges).as_ref(), Some(given))
    }

    /// Every other list of bridges between the ends ranks higher: all of them on
    /// small tables, some with bridges twice; on larger ones each neighbour's
    /// path with one hop more, which is enough because hops add to a rank alike. That of
    /// an overloaded neighbour that is not the end makes no path; a neighbour may have
    /// none where this bridge is overloaded.
    fn verify_least(&self, given: &Path) -> Outcome {
        let (from, to) = (given.bridges[0], given.last());
        let mut lower = None;
        let mut compare = |other: &Path| {
            if other.bridges != given.bridges && self.ranking.compare(other, given) != Ordering::Greater {
                lower = Some(other.bridges.clone());
            }
        };
        if self.size() <= SMALL {
            for_each_simple_path(&self.ranking, from, to, &mut compare);
            for_each_path_up_to(&self.ranking, (from, to), 4, &mut compare);
        } else {
            for (next, _) in self.ranking.network.neighbours(from) {
                if let Ok(rest) = self.given(next, to) {
                    let longer: Vec<usize> = std::iter::once(from).chain(rest.bridges).collect();
                    self.ranking.path(&longer).iter().for_each(&mut compare);
                }
            }
        }
        ensure!(lower.is_none(), "{:?} is given, {lower:?} does not rank higher", given.bridges);
        Ok(())
    }

    /// The frame back passes the same links in reverse.
    fn verify_reverse(&self, from: usize, to: usize, journey: &Journey) -> Outcome {
        let back = self.forwarding.send_individual(self.vid.vid, to, from);
        let links =
            |crossings: &[Crossing]| crossings.iter().map(|crossing| crossing.link).collect::<Vec<_>>();
        let mut reversed = links(&back.crossings);
        reversed.reverse();
        ensure!(back.arrived, "the frame back is lost: {back:?}");
        equal("links in reverse", reversed, links(&journey.crossings))
    }

    /// The path between any two bridges on the way is that part, both ways.
    fn verify_parts(&self, bridges: &[usize]) -> Outcome {
        for first in 0..bridges.len() {
            for last in first..bridges.len() {
                let part = bridges[first..=last].to_vec();
                let reversed = part.iter().rev().copied().collect();
                let path = |from, to| self.given(from, to).map(|path| path.bridges);
                equal("part", path(bridges[first], bridges[last]), Ok(part))?;
                equal("part in reverse", path(bridges[last], bridges[first]), Ok(reversed))?;
            }
        }
        Ok(())
    }

    /// At each bridge entered, the one entry for the sender names the arrival port.
    fn verify_arrival_ports(&self, sender: usize, crossings: &[Crossing]) -> Outcome {
        let address = self.address(sender);
        for crossing in crossings {
            let port = self.forwarding.individual_port(crossing.entered, self.vid.vid, address);
            equal(&format!("arrival port at {}", crossing.entered), port, Some(crossing.arrival_port))?;
        }
        Ok(())
    }

    fn verify_groups(&self) -> Outcome {
        let of_vid = |member: &&Member| member.vid == self.vid.vid && member.transmits;
        for transmitter in self.forwarding.plan.members.iter().filter(of_vid) {
            let outcome = self.verify_group(transmitter);
            outcome.map_err(|why| format!("group frame of {transmitter:?}: {why}"))?;
        }
        Ok(())
    }

    /// Each other receiving member with a path is reached exactly once, no bridge
    /// twice, the sender never, the copies come to an end, and an overloaded bridge
    /// that received one passes none on.
    fn verify_group(&self, transmitter: &Member) -> Outcome {
        let sender = usize::from(transmitter.bridge);
        let address = expected_group_address(self.forwarding.plan, transmitter);
        let rounds = self.forwarding.send_group(self.vid.vid, sender, address, self.size() + 1);
        let mut reached = vec![0; self.size()];
        for crossings in &rounds {
            self.verify_arrival_ports(sender, crossings)?;
            crossings.iter().for_each(|crossing| reached[crossing.entered] += 1);
            let passed_on = crossings.iter().find(|crossing| {
                crossing.left != sender && self.forwarding.plan.bridges[crossing.left].overloaded
            });
            equal("passed on by an overloaded bridge", passed_on, None)?;
        }
        ensure!(rounds.last().is_some_and(Vec::is_empty), "copies are left after {} rounds", rounds.len());
        equal("the sender is reached", reached[sender], 0)?;
        ensure!(reached.iter().all(|&times| times <= 1), "a bridge is reached twice: {reached:?}");
        for receiver in receiving_members(self.forwarding.plan, transmitter) {
            let once = usize::from(self.joined.joins(sender, receiver));
            equal(&format!("receiver {receiver}"), reached[receiver], once)?;
        }
        Ok(())
    }
}

/// The other bridges with R in the transmitter's service.
fn receiving_members(plan: &Plan, transmitter: &Member) -> Vec<usize> {
    let of_service = |member: &&Member| {
        (member.service, member.vid) == (transmitter.service, transmitter.vid)
            && member.receives
            && member.bridge != transmitter.bridge
    };
    plan.members.iter().filter(of_service).map(|member| usize::from(member.bridge)).collect()
}

/// The six octets one by one, high octet first.
fn expected_group_address(plan: &Plan, transmitter: &Member) -> u64 {
    let source = plan.bridges[usize::from(transmitter.bridge)].source_id.to_be_bytes();
    let service = transmitter.service.to_be_bytes();
    let octets = [source[1] << 4 | 3, source[2], source[3], service[1], service[2], service[3]];
    octets.iter().fold(0, |address, &octet| address << 8 | u64::from(octet))
}

/// All words in their order, made from the paths given in another way than by
/// the call: for each transmitter the ports are gathered along each receiver's
/// path, and come out rising.
fn verify_words(tried: &Checked, lists: &[Vec<u32>]) -> Outcome {
    let plan = &tried.plan;
    let written = Rules::AS_WRITTEN;
    let network = crate::links::Network::of(written, plan);
    for (bridge, list) in lists.iter().enumerate() {
        let mut expected = Vec::new();
        for vid in &plan.vids {
            for (other, record) in plan.bridges.iter().enumerate().filter(|&(other, _)| other != bridge) {
                let path = named_path(tried, u32::from(vid.vid), bridge as u32, other as u32);
                let hop = path.ok().and_then(|path| network.hop(bridge, path.bridges[1]));
                expected
                    .extend(hop.iter().flat_map(|hop| words_of(INDIVIDUAL, vid, hop.port, record.address)));
            }
            for transmitter in plan.members.iter().filter(|member| member.vid == vid.vid && member.transmits)
            {
                let address = expected_group_address(plan, transmitter);
                let ports = gathered_ports(tried, &network, transmitter, bridge);
                expected.extend(ports.iter().flat_map(|&port| words_of(GROUP, vid, port, address)));
            }
        }
        equal(&format!("words of bridge {bridge}"), list, &expected)?;
    }
    Ok(())
}

fn words_of(kind: u32, vid: &Vid, port: u16, address: u64) -> [u32; 3] {
    [kind << 28 | pair(vid.vid, port), (address >> 32) as u32, address as u32]
}

fn gathered_ports(
    tried: &Checked,
    network: &crate::links::Network,
    transmitter: &Member,
    bridge: usize,
) -> BTreeSet<u16> {
    let (vid, from) = (u32::from(transmitter.vid), u32::from(transmitter.bridge));
    let paths = receiving_members(&tried.plan, transmitter)
        .into_iter()
        .filter_map(|receiver| named_path(tried, vid, from, receiver as u32).ok());
    paths
        .flat_map(|path| path.bridges.windows(2).map(|hop| (hop[0], hop[1])).collect::<Vec<_>>())
        .filter(|&(left, _)| left == bridge)
        .filter_map(|(left, next)| network.hop(left, next).map(|hop| hop.port))
        .collect()
}
