//! The entries call: individual and group entries of a bridge, VID by VID.

use crate::checked::Checked;
use crate::lent;
use crate::rank::Path;
use crate::records::{Member, Vid};
use crate::refusal::Refusal;
use crate::rules::{Misreading, Rules};
use crate::words::pair;

/// No bridge's list exceeds this number of words.
pub const LONGEST_LIST: usize = 14_931;

pub const INDIVIDUAL: u32 = 8;
pub const GROUP: u32 = 9;

/// Entries (bridge): into a lent list of words; the words written.
pub fn entries(rules: Rules, table: &[u8], bridge: u32, lent: &mut [u32]) -> Result<usize, Refusal> {
    entries_in(&Checked::new(rules, table)?, bridge, lent)
}

/// The entries call of a table that was checked.
pub fn entries_in(checked: &Checked, bridge: u32, lent: &mut [u32]) -> Result<usize, Refusal> {
    let words = entry_words(checked, checked.bridge(bridge)?);
    lent::write(checked.rules, &words, lent)?;
    Ok(words.len())
}

/// All words of a bridge's list, in their order.
pub fn entry_words(checked: &Checked, bridge: usize) -> Vec<u32> {
    let rules = checked.rules;
    if rules.has(Misreading::NoEntries) {
        return Vec::new();
    }
    let mut vids = checked.plan.vids.clone();
    if rules.has(Misreading::VidsRising) {
        vids.sort_by_key(|vid| vid.vid);
    }
    let mut words = Vec::new();
    for vid in &vids {
        let mut parts = [individual_entries(checked, bridge, vid), group_entries(checked, bridge, vid)];
        if rules.has(Misreading::GroupsFirst) {
            parts.reverse();
        }
        words.extend(parts.concat());
    }
    words
}

/// One entry for each other bridge by number that a path reaches.
fn individual_entries(checked: &Checked, bridge: usize, vid: &Vid) -> Vec<u32> {
    let paths = checked.paths_from(vid.index, bridge);
    let farthest = if checked.rules.has(Misreading::NeighboursOnly) { 1 } else { usize::MAX };
    let mut words = Vec::new();
    for (other, record) in checked.plan.bridges.iter().enumerate() {
        if let Some(path) = paths[other].as_ref().filter(|path| path.hops() <= farthest) {
            if let Some(port) = port_left_by(checked, path, bridge) {
                words.extend(entry(checked.rules, INDIVIDUAL, vid.vid, port, record.address));
            }
        }
    }
    words
}

/// The port by which a path leaves a bridge; none where it does not pass, or ends.
fn port_left_by(checked: &Checked, path: &Path, bridge: usize) -> Option<u16> {
    let place = path.bridges.iter().position(|&passed| passed == bridge)?;
    let next = *path.bridges.get(place + 1)?;
    checked.network.hop(bridge, next).map(|hop| hop.port)
}

/// For each member of the VID that transmits, an entry for each port, rising.
fn group_entries(checked: &Checked, bridge: usize, vid: &Vid) -> Vec<u32> {
    let rules = checked.rules;
    let of_vid = |member: &&Member| member.vid == vid.vid && transmits(rules, member);
    let mut words = Vec::new();
    for transmitter in checked.plan.members.iter().filter(of_vid) {
        let sender = &checked.plan.bridges[usize::from(transmitter.bridge)];
        let none_here = usize::from(transmitter.bridge) == bridge && rules.has(Misreading::NoneAtTransmitter);
        if none_here || (sender.overloaded && rules.has(Misreading::OverloadedSendsNone)) {
            continue;
        }
        let address = group_address(rules, sender.source_id, transmitter.service);
        for port in group_ports(checked, bridge, vid, transmitter) {
            words.extend(entry(rules, GROUP, vid.vid, port, address));
        }
    }
    words
}

/// The ports of a bridge behind which the transmitter has a receiver, rising.
fn group_ports(checked: &Checked, bridge: usize, vid: &Vid, transmitter: &Member) -> Vec<u16> {
    let rules = checked.rules;
    let paths = checked.group_paths_from(vid.index, usize::from(transmitter.bridge));
    let mut listed = Vec::new();
    for port in ports_of(checked, bridge) {
        for receiver in receivers(checked, transmitter) {
            let leaves_here = |path: &Path| port_left_by(checked, path, bridge) == Some(port);
            if paths[receiver].as_ref().is_some_and(leaves_here) {
                listed.push(port);
                if !rules.has(Misreading::EntryForEachReceiver) {
                    break;
                }
            }
        }
    }
    if rules.has(Misreading::GroupPortsFall) {
        listed.reverse();
    }
    listed
}

/// The ports by which a bridge's hops leave it, rising.
fn ports_of(checked: &Checked, bridge: usize) -> Vec<u16> {
    let mut ports: Vec<u16> = checked.network.neighbours(bridge).map(|(_, hop)| hop.port).collect();
    ports.sort_unstable();
    ports.dedup();
    ports
}

/// The other bridges with R in the same I-SID and VID.
fn receivers(checked: &Checked, transmitter: &Member) -> Vec<usize> {
    let rules = checked.rules;
    if rules.has(Misreading::EveryBridgeReceives) {
        return (0..checked.plan.bridges.len()).collect();
    }
    let any_vid = rules.has(Misreading::ReceiversOfAnotherVid);
    let any_service = rules.has(Misreading::ReceiversOfAnotherService);
    let same_service = |member: &&Member| {
        (member.service == transmitter.service || any_service) && (member.vid == transmitter.vid || any_vid)
    };
    let members = checked.plan.members.iter().filter(same_service);
    members
        .filter(|member| member.bridge != transmitter.bridge && receives(rules, member))
        .map(|member| usize::from(member.bridge))
        .collect()
}

fn transmits(rules: Rules, member: &Member) -> bool {
    if rules.has(Misreading::TransmitReceiveExchanged) {
        member.receives
    } else {
        member.transmits
    }
}

fn receives(rules: Rules, member: &Member) -> bool {
    if rules.has(Misreading::TransmitReceiveExchanged) {
        member.transmits
    } else {
        member.receives
    }
}

/// First octet first: top 4 bits of SPsourceID then hexadecimal 3; the other 16
/// bits of SPsourceID; the 24 bits of I-SID.
pub fn group_address(rules: Rules, source_id: u32, service: u32) -> u64 {
    let (top, rest) = (u64::from(source_id >> 16), u64::from(source_id & 0xFFFF));
    let first = if rules.has(Misreading::GroupNibblesExchanged) { 3 << 4 | top } else { top << 4 | 3 };
    let service = if rules.has(Misreading::ServiceReversed) {
        u64::from(service.swap_bytes() >> 8)
    } else {
        u64::from(service)
    };
    first << 40 | rest << 24 | service
}

/// An entry's three words.
pub fn entry(rules: Rules, kind: u32, vid: u16, port: u16, address: u64) -> [u32; 3] {
    let kind = if rules.has(Misreading::EntryKindsExchanged) { INDIVIDUAL + GROUP - kind } else { kind };
    [kind << 28 | pair(vid, port), (address >> 32) as u32, address as u32]
}
