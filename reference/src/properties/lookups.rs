//! Lookup on lists made for it, on every fault of a list, and on lists that the
//! entries call wrote.

use super::agreement::for_small_plans;
use super::{equal, Outcome, Setting};
use crate::entries::{entries, LONGEST_LIST};
use crate::lookup::{decoded, lookup, Entry};
use crate::random::Random;
use crate::records::GROUP_BIT;
use crate::refusal::Refusal;
use crate::words::pair;

/// The words of an entry, written here on their own.
fn words_of(kind: u32, vid: u16, port: u16, address: u64) -> [u32; 3] {
    [kind << 28 | pair(vid, port), (address >> 32) as u32, address as u32]
}

/// A list of entries with few VIDs and addresses, so that they repeat.
fn random_list(random: &mut Random) -> Vec<u32> {
    let addresses = [0, 1, 0x0200_0000_0001, 0xFEFF_FFFF_FFFF, GROUP_BIT, 0x0300_0100_0100];
    let mut list = Vec::new();
    for _ in 0..random.between(0, 12) {
        let address = *random.pick(&addresses);
        let kind = if address & GROUP_BIT == 0 { 8 } else { 9 };
        let port = *random.pick(&[1, 2, 3, 4_095]);
        list.extend(words_of(kind, *random.pick(&[1, 10, 4_094]), port, address));
    }
    list
}

/// Asks a list for all its VIDs and addresses, and for every n up to one more
/// than it has, and compares with the ports that a plain reading finds.
fn ask_everything(setting: &Setting, list: &[u32]) -> Outcome {
    let all = decoded(list);
    for &Entry { vid, address, .. } in &all {
        let matching = |entry: &&Entry| (entry.vid, entry.address) == (vid, address);
        let ports: Vec<u16> = all.iter().filter(matching).map(|entry| entry.port).collect();
        for n in 0..ports.len() + 2 {
            let found = lookup(setting.rules, list, u32::from(vid), address, n as u32);
            equal(&format!("VID {vid}, address {address:012x}, n {n}"), found, Ok(ports.get(n).copied()))?;
        }
        let absent = [
            (u32::from(vid) + 65_536, address, 0),
            (u32::from(vid), address | 1 << 48, 0),
            (u32::from(vid), address, u32::MAX),
        ];
        for (vid, address, n) in absent {
            equal("no entry can match", lookup(setting.rules, list, vid, address, n), Ok(None))?;
        }
    }
    let lacking = |vid: &u16| all.iter().all(|entry| entry.vid != *vid);
    if let Some(vid) = (1..=4_094).find(lacking) {
        for &Entry { address, .. } in &all {
            equal("another VID", lookup(setting.rules, list, u32::from(vid), address, 0), Ok(None))?;
        }
    }
    Ok(())
}

pub fn matches_counted(setting: &Setting) -> Outcome {
    for number in 0..setting.tables {
        let list = random_list(&mut Random::for_case(setting.seed, number));
        ask_everything(setting, &list)?;
    }
    equal("empty list", lookup(setting.rules, &[], 1, 1, 0), Ok(None))
}

/// Every way in which one entry is faulty.
fn faulty_entries() -> Vec<[u32; 3]> {
    let individual = words_of(8, 10, 1, 0x0200_0000_0001);
    let mut faulty: Vec<[u32; 3]> = (0..16)
        .filter(|kind| ![8, 9].contains(kind))
        .map(|kind| words_of(kind, 10, 1, 0x0200_0000_0001))
        .collect();
    faulty.extend([0, 4_095].map(|vid| words_of(8, vid, 1, 0x0200_0000_0001)));
    faulty.extend([0, 4_096, 65_535].map(|port| words_of(8, 10, port, 0x0200_0000_0001)));
    faulty.extend((16..32).map(|bit| [individual[0], individual[1] | 1 << bit, individual[2]]));
    faulty.push(words_of(8, 10, 1, 0x0300_0100_0100));
    faulty.push(words_of(9, 10, 1, 0x0200_0000_0001));
    faulty
}

/// A fault counts anywhere in the list, before and after the entry asked for.
pub fn faulty_lists_refused(setting: &Setting) -> Outcome {
    let whole = words_of(8, 10, 1, 0x0200_0000_0001);
    let refused = |list: &[u32]| {
        equal(
            &format!("{list:08X?}"),
            lookup(setting.rules, list, 10, 0x0200_0000_0001, 0),
            Err(Refusal::BAD_ENTRIES),
        )
    };
    for faulty in faulty_entries() {
        refused(&faulty)?;
        refused(&[whole, faulty].concat())?;
        refused(&[faulty, whole].concat())?;
        refused(&[whole, whole, faulty].concat())?;
    }
    for length in [1, 2, 4, 5] {
        refused(&[whole, whole].concat()[..length])?;
    }
    Ok(())
}

/// Lists that the entries call wrote are looked up to the ports that they hold.
pub fn written_lists_looked_up(setting: &Setting) -> Outcome {
    for_small_plans(setting, 5, &|plan, table| {
        for bridge in 0..plan.bridges.len() {
            let mut list = vec![0; LONGEST_LIST];
            let written = entries(setting.rules, table, bridge as u32, &mut list)
                .map_err(|refusal| format!("{refusal:?}"))?;
            ask_everything(setting, &list[..written])?;
        }
        Ok(())
    })
}
