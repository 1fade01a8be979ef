//! The records of a table: kinds, layouts, fields, and a plan of decoded
//! records with the words that it makes.

use crate::rules::{Misreading, Rules};
use crate::words::{halves, pair};

#[derive(Clone, Copy, PartialEq, Eq, PartialOrd, Ord, Debug)]
pub enum Kind {
    Bridge = 1,
    HalfLink = 2,
    Vid = 3,
    Member = 4,
    Traffic = 5,
    End = 15,
}

impl Kind {
    pub const ALL: [Kind; 6] =
        [Kind::Bridge, Kind::HalfLink, Kind::Vid, Kind::Member, Kind::Traffic, Kind::End];

    /// The kind in bits 31..28 of a record's first word.
    pub fn of(first_word: u32) -> Option<Kind> {
        Kind::ALL.into_iter().find(|&kind| kind as u32 == first_word >> 28)
    }

    pub const fn words(self) -> usize {
        match self {
            Kind::Bridge | Kind::HalfLink => 3,
            Kind::Member | Kind::Traffic => 2,
            Kind::Vid | Kind::End => 1,
        }
    }

    /// How many records of the kind a table may hold. A second end record is
    /// never read, so none is ever one too many.
    pub const fn limit(self) -> usize {
        match self {
            Kind::Bridge | Kind::Member => 64,
            Kind::HalfLink => 512,
            Kind::Vid => 16,
            Kind::Traffic => 256,
            Kind::End => 1,
        }
    }

    /// The bits of the first word that are to be zero.
    pub fn zero_bits(self) -> u32 {
        match self {
            Kind::Bridge => 0x07F0_0000,
            Kind::HalfLink => 0x0700_0000,
            Kind::Member => 0x0C00_0000,
            Kind::Vid | Kind::Traffic | Kind::End => 0,
        }
    }

    /// Whether the first word of the kind has the mark in bit 27.
    pub fn has_mark(self) -> bool {
        matches!(self, Kind::Bridge | Kind::HalfLink)
    }

    /// The kind in its place, above a first word's other bits.
    pub fn tag(self) -> u32 {
        (self as u32) << 28
    }
}

/// Least, greatest usable and unusable metric.
pub const LEAST_METRIC: u32 = 1;
pub const GREATEST_USABLE_METRIC: u32 = 16_777_214;
pub const UNUSABLE_METRIC: u32 = 16_777_215;

/// The bits of a half-link's first word that hold its metric.
pub const METRIC_BITS: u32 = 0x00FF_FFFF;

/// The bit that marks a bridge as overloaded and a half-link's port as down, and the
/// zero bit below it.
pub const MARK_BIT: u32 = 1 << 27;
pub const BELOW_MARK_BIT: u32 = 1 << 26;

/// The bits of a first word that a mark sets.
fn mark_bits(is_marked: bool) -> u32 {
    if is_marked {
        MARK_BIT
    } else {
        0
    }
}

/// Whether a first word has the mark; with the misreading given it is the bit below.
fn is_marked(rules: Rules, at_bit_26: Misreading, first_word: u32) -> bool {
    let bit = if rules.has(at_bit_26) { BELOW_MARK_BIT } else { MARK_BIT };
    first_word & bit != 0
}

/// The system id extension: the 12 low bits of a bridge's 16 priority bits.
pub const EXTENSION_BITS: u16 = 0x0FFF;

/// The group bit of a 48-bit address: the lowest bit of its first octet.
pub const GROUP_BIT: u64 = 1 << 40;

#[derive(Clone, Copy, PartialEq, Eq, Debug)]
pub struct Bridge {
    /// It may begin or end a path and never lies between.
    pub overloaded: bool,
    pub source_id: u32,
    pub priority: u16,
    pub address: u64,
}

impl Bridge {
    /// The 64-bit Bridge Identifier.
    pub fn identifier(&self) -> u64 {
        u64::from(self.priority) << 48 | self.address
    }

    /// The system id extension that the bridge reports in its priority.
    pub fn extension(&self) -> u16 {
        self.priority & EXTENSION_BITS
    }

    /// The bridge with another system id extension, its top priority bits kept.
    pub fn with_extension(self, extension: u16) -> Bridge {
        Bridge { priority: self.priority & !EXTENSION_BITS | extension & EXTENSION_BITS, ..self }
    }

    pub fn words(&self) -> [u32; 3] {
        let identifier = self.identifier();
        let first = Kind::Bridge.tag() | mark_bits(self.overloaded) | self.source_id;
        [first, (identifier >> 32) as u32, identifier as u32]
    }

    fn read(rules: Rules, part: &[u32]) -> Bridge {
        let (priority, address_high) = halves(part[1]);
        Bridge {
            overloaded: is_marked(rules, Misreading::OverloadAtBit26, part[0]),
            source_id: part[0] & 0x000F_FFFF,
            priority,
            address: u64::from(address_high) << 32 | u64::from(part[2]),
        }
    }
}

#[derive(Clone, Copy, PartialEq, Eq, Debug)]
pub struct HalfLink {
    /// Its port is out of service; a link with such a half is not usable.
    pub down: bool,
    pub metric: u32,
    pub near: u16,
    pub far: u16,
    pub port: u16,
    pub link: u16,
}

impl HalfLink {
    pub fn words(&self) -> [u32; 3] {
        let first = Kind::HalfLink.tag() | mark_bits(self.down) | self.metric;
        [first, pair(self.near, self.far), pair(self.port, self.link)]
    }

    fn read(rules: Rules, part: &[u32]) -> HalfLink {
        let (near, far) = halves(part[1]);
        let (port, link) = halves(part[2]);
        let metric = if rules.has(Misreading::MetricWithMark) { 0x0FFF_FFFF } else { METRIC_BITS };
        HalfLink {
            down: is_marked(rules, Misreading::DownAtBit26, part[0]),
            metric: part[0] & metric,
            near,
            far,
            port,
            link,
        }
    }

    /// Near and far bridge exchanged, and nothing else.
    pub fn mirrors(&self, other: &HalfLink) -> bool {
        self.near == other.far && self.far == other.near
    }
}

#[derive(Clone, Copy, PartialEq, Eq, Debug)]
pub struct Vid {
    pub vid: u16,
    pub index: u16,
}

impl Vid {
    pub fn words(&self) -> [u32; 1] {
        [Kind::Vid.tag() | pair(self.vid, self.index)]
    }

    fn read(part: &[u32]) -> Vid {
        let (high, index) = halves(part[0]);
        Vid { vid: high & 0x0FFF, index }
    }
}

#[derive(Clone, Copy, PartialEq, Eq, Debug)]
pub struct Member {
    pub transmits: bool,
    pub receives: bool,
    pub service: u32,
    pub bridge: u16,
    pub vid: u16,
}

impl Member {
    pub fn words(&self) -> [u32; 2] {
        let flags = u32::from(self.transmits) << 25 | u32::from(self.receives) << 24;
        [Kind::Member.tag() | flags | self.service, pair(self.bridge, self.vid)]
    }

    fn read(part: &[u32]) -> Member {
        let (bridge, vid) = halves(part[1]);
        Member {
            transmits: part[0] >> 25 & 1 == 1,
            receives: part[0] >> 24 & 1 == 1,
            service: part[0] & 0x00FF_FFFF,
            bridge,
            vid,
        }
    }
}

/// An amount of traffic in a VID from one bridge to another.
#[derive(Clone, Copy, PartialEq, Eq, Debug)]
pub struct Traffic {
    pub vid: u16,
    pub amount: u16,
    pub from: u16,
    pub to: u16,
}

impl Traffic {
    pub fn words(&self) -> [u32; 2] {
        [Kind::Traffic.tag() | pair(self.vid, self.amount), pair(self.from, self.to)]
    }

    fn read(part: &[u32]) -> Traffic {
        let (high, amount) = halves(part[0]);
        let (from, to) = halves(part[1]);
        Traffic { vid: high & 0x0FFF, amount, from, to }
    }

    /// The record of the opposite direction.
    pub fn opposite(&self) -> Traffic {
        Traffic { from: self.to, to: self.from, ..*self }
    }

    /// What no two records of a table share.
    pub fn name(&self) -> (u16, u16, u16) {
        (self.vid, self.from, self.to)
    }
}

#[derive(Clone, Copy, Debug)]
pub enum Record {
    Bridge(Bridge),
    HalfLink(HalfLink),
    Vid(Vid),
    Member(Member),
    Traffic(Traffic),
    End { count: u32 },
}

impl Record {
    /// Reads a record from the part of the table that starts at its first word.
    pub fn read(rules: Rules, kind: Kind, part: &[u32]) -> Record {
        match kind {
            Kind::Bridge => Record::Bridge(Bridge::read(rules, part)),
            Kind::HalfLink => Record::HalfLink(HalfLink::read(rules, part)),
            Kind::Vid => Record::Vid(Vid::read(part)),
            Kind::Member => Record::Member(Member::read(part)),
            Kind::Traffic => Record::Traffic(Traffic::read(part)),
            Kind::End => Record::End { count: part[0] & 0x0FFF_FFFF },
        }
    }
}

/// The records of a table but for its end, kind by kind, in their order.
#[derive(Clone, Default, PartialEq, Eq, Debug)]
pub struct Plan {
    pub bridges: Vec<Bridge>,
    pub half_links: Vec<HalfLink>,
    pub vids: Vec<Vid>,
    pub members: Vec<Member>,
    pub traffic: Vec<Traffic>,
}

impl Plan {
    pub fn count(&self, kind: Kind) -> usize {
        match kind {
            Kind::Bridge => self.bridges.len(),
            Kind::HalfLink => self.half_links.len(),
            Kind::Vid => self.vids.len(),
            Kind::Member => self.members.len(),
            Kind::Traffic => self.traffic.len(),
            Kind::End => 0,
        }
    }

    pub fn push(&mut self, record: Record) {
        match record {
            Record::Bridge(bridge) => self.bridges.push(bridge),
            Record::HalfLink(half_link) => self.half_links.push(half_link),
            Record::Vid(vid) => self.vids.push(vid),
            Record::Member(member) => self.members.push(member),
            Record::Traffic(traffic) => self.traffic.push(traffic),
            Record::End { .. } => {}
        }
    }

    pub fn index_of_vid(&self, vid: u16) -> Option<u16> {
        self.vids.iter().find(|record| record.vid == vid).map(|record| record.index)
    }

    /// The words of the table, its end record included.
    pub fn words(&self) -> Vec<u32> {
        let mut words = Vec::new();
        words.extend(self.bridges.iter().flat_map(Bridge::words));
        words.extend(self.half_links.iter().flat_map(HalfLink::words));
        words.extend(self.vids.iter().flat_map(Vid::words));
        words.extend(self.members.iter().flat_map(Member::words));
        words.extend(self.traffic.iter().flat_map(Traffic::words));
        let before = u32::try_from(words.len()).expect("a table's words fit in 32 bits");
        words.push(Kind::End.tag() | before);
        words
    }

    pub fn bytes(&self) -> Vec<u8> {
        crate::words::bytes_of(&self.words())
    }
}
