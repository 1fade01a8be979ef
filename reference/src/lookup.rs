//! The lookup call over an entry list; it takes no table and gives only 14.

use crate::check::{is_port, is_vid};
use crate::entries::{GROUP, INDIVIDUAL};
use crate::records::GROUP_BIT;
use crate::refusal::Refusal;
use crate::rules::{Misreading, Rules};
use crate::words::halves;

/// An entry's three words, decoded.
#[derive(Clone, Copy, PartialEq, Eq, Debug)]
pub struct Entry {
    pub kind: u32,
    pub vid: u16,
    pub port: u16,
    /// The 16 bits above the address, which are to be zero.
    pub zero: u16,
    pub address: u64,
}

impl Entry {
    pub fn of(words: &[u32]) -> Entry {
        let (high, port) = halves(words[0]);
        let (zero, address_high) = halves(words[1]);
        Entry {
            kind: u32::from(high >> 12),
            vid: high & 0x0FFF,
            port,
            zero,
            address: u64::from(address_high) << 32 | u64::from(words[2]),
        }
    }

    fn is_faulty(&self, rules: Rules) -> bool {
        let is_group = self.address & GROUP_BIT != 0;
        let kind_agrees = match self.kind {
            INDIVIDUAL => !is_group,
            GROUP => is_group,
            _ => false,
        };
        let zero_refused = rules.has(Misreading::LookupZeroRefused) && self.address == 0;
        !kind_agrees || !is_vid(self.vid) || !is_port(self.port) || self.zero != 0 || zero_refused
    }
}

/// The entries of a list whose length is a multiple of 3.
pub fn decoded(list: &[u32]) -> Vec<Entry> {
    list.chunks_exact(3).map(Entry::of).collect()
}

/// Lookup (entry list, VID, address, n): the port of the matching entry n,
/// counted from 0 in list order, or none.
pub fn lookup(rules: Rules, list: &[u32], vid: u32, address: u64, n: u32) -> Result<Option<u16>, Refusal> {
    let refused_empty = list.is_empty() && rules.has(Misreading::LookupEmptyRefused);
    if !list.len().is_multiple_of(3) || refused_empty {
        return Err(Refusal::BAD_ENTRIES);
    }
    let all = decoded(list);
    let any_vid = rules.has(Misreading::LookupIgnoresVid);
    let matches = |entry: &Entry| (u32::from(entry.vid) == vid || any_vid) && entry.address == address;
    let stop = all.iter().position(matches).filter(|_| rules.has(Misreading::LookupStopsAtMatch));
    let examined = stop.map_or(&all[..], |place| &all[..=place]);
    if examined.iter().any(|entry| entry.is_faulty(rules)) {
        return Err(Refusal::BAD_ENTRIES);
    }
    if n > 0 && rules.has(Misreading::LookupFirstOnly) {
        return Ok(None);
    }
    if rules.has(Misreading::LookupCountsAll) {
        let counted = all.get(n as usize).filter(|entry| matches(entry));
        return Ok(counted.map(|entry| entry.port));
    }
    let matching = all.iter().filter(|entry| matches(entry)).nth(n as usize);
    Ok(matching.map(|entry| entry.port))
}
