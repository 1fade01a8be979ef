//! The check: refusals 1 to 10 in their order, and the five counts.

use crate::links::{usable_links, Network};
use crate::records::{
    Bridge, HalfLink, Kind, Plan, Record, Traffic, BELOW_MARK_BIT, EXTENSION_BITS, GREATEST_USABLE_METRIC,
    GROUP_BIT, LEAST_METRIC, MARK_BIT, UNUSABLE_METRIC,
};
use crate::refusal::Refusal;
use crate::rules::{Misreading, Rules};
use crate::words::words_of;

/// The longest table: 64 bridges, 512 half-links, 16 VIDs, 64 members, 256 traffic
/// records, the end.
pub const LONGEST_TABLE: usize = 9_540;

/// The longest table that has no traffic record.
pub const LONGEST_WITHOUT_TRAFFIC: usize = LONGEST_TABLE - 4 * Kind::Traffic.words() * Kind::Traffic.limit();

#[derive(Clone, Copy, PartialEq, Eq, Debug)]
pub struct Counts {
    pub bridges: usize,
    pub half_links: usize,
    pub usable_links: usize,
    pub vids: usize,
    pub members: usize,
}

pub fn check(rules: Rules, table: &[u8]) -> Result<Counts, Refusal> {
    let plan = read(rules, table)?;
    let usable = if rules.has(Misreading::JoinedPairsCounted) {
        Network::of(rules, &plan).joined_pairs().len()
    } else {
        usable_links(rules, &plan)
    };
    let half_links = if rules.has(Misreading::UsableHalfLinksCounted) {
        2 * usable
    } else if rules.has(Misreading::DownHalfLinksUncounted) {
        plan.half_links.iter().filter(|half_link| !half_link.down).count()
    } else {
        plan.half_links.len()
    };
    let traffic = if rules.has(Misreading::TrafficCountedAsMembers) { plan.traffic.len() } else { 0 };
    Ok(Counts {
        bridges: plan.bridges.len(),
        half_links,
        usable_links: usable,
        vids: plan.vids.len(),
        members: plan.members.len() + traffic,
    })
}

/// The records of a table that none of 1 to 10 applies to.
pub fn read(rules: Rules, table: &[u8]) -> Result<Plan, Refusal> {
    if table.is_empty() || table.len() > longest_table(rules) || !table.len().is_multiple_of(4) {
        return Err(Refusal::LENGTH);
    }
    if rules.has(Misreading::AllRefused) {
        return Err(Refusal::LENGTH);
    }
    let words = words_of(table);
    let mut reader = Reader { rules, words: &words, first: 0, before: None, plan: Plan::default() };
    while !reader.read_record().map_err(|refusal| reader.reported(refusal))? {}
    Ok(reader.plan)
}

fn longest_table(rules: Rules) -> usize {
    if rules.has(Misreading::ShorterTables) {
        LONGEST_WITHOUT_TRAFFIC
    } else {
        LONGEST_TABLE
    }
}

/// The reading of a table up to one record's first word.
struct Reader<'a> {
    rules: Rules,
    words: &'a [u32],
    first: usize,
    /// Kind and first word of the record before.
    before: Option<(Kind, usize)>,
    plan: Plan,
}

impl Reader<'_> {
    /// Reads one record; true when it was the end record.
    fn read_record(&mut self) -> Result<bool, Refusal> {
        let kind = self.kind()?;
        let part = &self.words[self.first..];
        if part.len() < kind.words() {
            return Err(self.cut_off(kind));
        }
        let record = Record::read(self.rules, kind, part);
        let faults = self.fault_order();
        match faults.into_iter().find(|&number| self.has_fault(number, kind, &record)) {
            Some(number) => Err(Refusal::of_record(number, kind, self.first)),
            None => {
                self.plan.push(record);
                self.before = Some((kind, self.first));
                self.first += kind.words();
                Ok(kind == Kind::End)
            }
        }
    }

    /// The kind of the record here: 2 when it is unknown or falls, 3 when the
    /// table ends where a record was to begin.
    fn kind(&self) -> Result<Kind, Refusal> {
        let Some(&first_word) = self.words.get(self.first) else {
            return Err(self.missing_end());
        };
        let lowest = self.before.map_or(Kind::Bridge, |(kind, _)| kind);
        let may_fall = self.rules.has(Misreading::KindMayFall);
        match Kind::of(first_word) {
            Some(Kind::Traffic) if self.rules.has(Misreading::TrafficUnknown) => Err(self.wrong_kind()),
            Some(kind) if kind >= lowest || may_fall => Ok(kind),
            _ => Err(self.wrong_kind()),
        }
    }

    fn wrong_kind(&self) -> Refusal {
        let word = match self.before {
            Some((_, word)) if self.rules.has(Misreading::TwoAtRecordBefore) => word,
            _ => self.first,
        };
        Refusal { number: 2, kind: None, word }
    }

    fn missing_end(&self) -> Refusal {
        match self.before {
            Some((kind, word)) if self.rules.has(Misreading::MissingEndAtLastRecord) => {
                Refusal::of_record(3, kind, word)
            }
            _ => Refusal { number: 3, kind: None, word: self.words.len() },
        }
    }

    fn cut_off(&self, kind: Kind) -> Refusal {
        if self.rules.has(Misreading::CutOffAsMissingEnd) {
            self.missing_end()
        } else {
            Refusal::of_record(3, kind, self.first)
        }
    }

    fn reported(&self, refusal: Refusal) -> Refusal {
        let scale = if self.rules.has(Misreading::BytesInsteadOfWords) { 4 } else { 1 };
        Refusal { word: refusal.word * scale, ..refusal }
    }

    /// A whole record's faults in the order in which they count.
    fn fault_order(&self) -> [u32; 7] {
        if self.rules.has(Misreading::LimitBeforeZeroBits) {
            [5, 4, 6, 7, 8, 9, 10]
        } else if self.rules.has(Misreading::RangeBeforeLimit) {
            [4, 6, 5, 7, 8, 9, 10]
        } else if self.rules.has(Misreading::HighestFault) {
            [10, 9, 8, 7, 6, 5, 4]
        } else {
            [4, 5, 6, 7, 8, 9, 10]
        }
    }

    fn has_fault(&self, number: u32, kind: Kind, record: &Record) -> bool {
        match number {
            4 => {
                let refused = self.is_extended_with(record, Misreading::ExtensionRefused);
                self.words[self.first] & self.zero_bits(kind) != 0 || refused
            }
            5 => self.is_over_limit(kind, record),
            6 => self.is_out_of_range(record),
            7 => self.names_nothing(record),
            8 => self.repeats(record),
            9 => self.is_no_mirror(record),
            10 => kind == Kind::End && self.has_words_after(),
            _ => unreachable!("a whole record's faults are 4 to 10"),
        }
    }

    fn zero_bits(&self, kind: Kind) -> u32 {
        let written = kind.zero_bits();
        let [at_bit_26, bit_26_accepted, mark_refused] = match kind {
            Kind::Bridge => {
                [Misreading::OverloadAtBit26, Misreading::Bit26Accepted, Misreading::OverloadRefused]
            }
            Kind::HalfLink if self.rules.has(Misreading::Bits25And24Accepted) => return BELOW_MARK_BIT,
            Kind::HalfLink if self.rules.has(Misreading::DownZeroBitsUnasked) && self.is_marked() => {
                return 0
            }
            Kind::HalfLink => {
                [Misreading::DownAtBit26, Misreading::HalfLinkBit26Accepted, Misreading::DownRefused]
            }
            Kind::Vid | Kind::Member | Kind::Traffic | Kind::End => return written,
        };
        if self.rules.has(at_bit_26) {
            written & !BELOW_MARK_BIT | MARK_BIT
        } else if self.rules.has(bit_26_accepted) {
            written & !BELOW_MARK_BIT
        } else if self.rules.has(mark_refused) {
            written | MARK_BIT
        } else {
            written
        }
    }

    /// Whether the record here has the mark in bit 27.
    fn is_marked(&self) -> bool {
        self.words[self.first] & MARK_BIT != 0
    }

    fn is_over_limit(&self, kind: Kind, record: &Record) -> bool {
        let extra = usize::from(self.rules.has(Misreading::OneOverLimit));
        let never = self.is_down_with(record, Misreading::DownBeyondLimit);
        self.plan.count(kind) >= kind.limit() + extra && !never
    }

    /// Whether the record is a half-link that is down, and the misreading holds.
    fn is_down_with(&self, record: &Record, misreading: Misreading) -> bool {
        matches!(record, Record::HalfLink(half_link) if half_link.down) && self.rules.has(misreading)
    }

    /// Whether the record is a bridge with extension bits, and the misreading holds.
    fn is_extended_with(&self, record: &Record, misreading: Misreading) -> bool {
        matches!(record, Record::Bridge(bridge) if bridge.extension() != 0) && self.rules.has(misreading)
    }

    fn is_out_of_range(&self, record: &Record) -> bool {
        match record {
            Record::Bridge(_) if self.is_extended_with(record, Misreading::ExtensionOutOfRange) => true,
            Record::Bridge(bridge) => bridge.source_id == 0 || !self.is_individual(bridge.address),
            Record::HalfLink(half_link) => {
                let any_metric = self.is_down_with(record, Misreading::DownMetricUnasked);
                let has_metric = self.is_metric(half_link.metric) || any_metric;
                !has_metric || !self.is_port(half_link.port) || half_link.link == 0
            }
            Record::Vid(vid) => !self.is_vid(vid.vid) || !self.is_index(vid.index),
            Record::Member(member) => {
                let unknown_instead = self.rules.has(Misreading::MemberVidUnknown);
                !is_i_sid(self.rules, member.service) || (!self.is_vid(member.vid) && !unknown_instead)
            }
            Record::Traffic(traffic) => {
                let any_amount = self.rules.has(Misreading::AmountZeroAccepted);
                let unknown_instead = self.rules.has(Misreading::TrafficVidUnknown);
                (traffic.amount == 0 && !any_amount) || (!self.is_vid(traffic.vid) && !unknown_instead)
            }
            Record::End { count } => *count as usize != self.end_count(),
        }
    }

    fn is_individual(&self, address: u64) -> bool {
        let group_accepted = self.rules.has(Misreading::GroupAddressAccepted);
        address != 0 && (address & GROUP_BIT == 0 || group_accepted)
    }

    fn is_metric(&self, metric: u32) -> bool {
        let greatest = if self.rules.has(Misreading::UnusableOutOfRange) {
            GREATEST_USABLE_METRIC
        } else {
            UNUSABLE_METRIC
        };
        (LEAST_METRIC..=greatest).contains(&metric)
    }

    fn is_port(&self, port: u16) -> bool {
        is_port(port) || (port == 4_096 && self.rules.has(Misreading::PortTo4096))
    }

    fn is_vid(&self, vid: u16) -> bool {
        is_vid(vid) || (vid == 4_095 && self.rules.has(Misreading::VidTo4095))
    }

    fn is_index(&self, index: u16) -> bool {
        let least = if self.rules.has(Misreading::IndexZeroAccepted) { 0 } else { 1 };
        (least..=16).contains(&index)
    }

    fn end_count(&self) -> usize {
        self.first + usize::from(self.rules.has(Misreading::EndCountsItself))
    }

    fn names_nothing(&self, record: &Record) -> bool {
        match record {
            Record::HalfLink(_) if self.is_down_with(record, Misreading::DownNamesUnasked) => false,
            Record::HalfLink(half_link) => {
                let looped = half_link.near == half_link.far;
                !self.has_bridge(half_link.near)
                    || !self.has_bridge(half_link.far)
                    || (looped && !self.rules.has(Misreading::LoopAccepted))
            }
            Record::Member(member) => {
                !self.has_bridge(member.bridge) || self.plan.index_of_vid(member.vid).is_none()
            }
            Record::Traffic(traffic) => {
                let looped = traffic.from == traffic.to;
                self.plan.index_of_vid(traffic.vid).is_none()
                    || !self.has_bridge(traffic.from)
                    || !self.has_bridge(traffic.to)
                    || (looped && !self.rules.has(Misreading::TrafficToItself))
            }
            Record::Bridge(_) | Record::Vid(_) | Record::End { .. } => false,
        }
    }

    fn has_bridge(&self, bridge: u16) -> bool {
        usize::from(bridge) < self.plan.bridges.len()
    }

    fn repeats(&self, record: &Record) -> bool {
        let plan = &self.plan;
        match record {
            Record::Bridge(bridge) => plan.bridges.iter().any(|earlier| self.repeats_bridge(bridge, earlier)),
            Record::HalfLink(_) if self.is_down_with(record, Misreading::DownTakesPort) => false,
            Record::HalfLink(half_link) => {
                plan.half_links.iter().any(|earlier| self.repeats_port(half_link, earlier))
            }
            Record::Vid(vid) => plan.vids.iter().any(|earlier| earlier.vid == vid.vid),
            Record::Member(member) => {
                let any_vid = self.rules.has(Misreading::MemberRepeatsWithoutVid);
                plan.members.iter().any(|earlier| {
                    (earlier.bridge, earlier.service) == (member.bridge, member.service)
                        && (earlier.vid == member.vid || any_vid)
                })
            }
            Record::Traffic(traffic) => {
                plan.traffic.iter().any(|earlier| self.repeats_traffic(traffic, earlier))
            }
            Record::End { .. } => false,
        }
    }

    /// Whether the traffic record has the earlier one's VID, from and to.
    fn repeats_traffic(&self, traffic: &Traffic, earlier: &Traffic) -> bool {
        let (from, to) = (traffic.from, traffic.to);
        let opposite = (to, from) == (earlier.from, earlier.to);
        let same_ends = (from, to) == (earlier.from, earlier.to)
            || (opposite && self.rules.has(Misreading::OppositeRepeats));
        let same_vid = traffic.vid == earlier.vid || self.rules.has(Misreading::TrafficRepeatsWithoutVid);
        let with_amount = self.rules.has(Misreading::TrafficRepeatsWithAmount);
        same_ends && same_vid && (!with_amount || traffic.amount == earlier.amount)
    }

    /// Whether the bridge has the earlier one's address or SPsourceID.
    fn repeats_bridge(&self, bridge: &Bridge, earlier: &Bridge) -> bool {
        let with_overload = self.rules.has(Misreading::RepeatWithOverload);
        let source_id = earlier.source_id == bridge.source_id
            && (!with_overload || earlier.overloaded == bridge.overloaded);
        let differing = earlier.priority ^ bridge.priority;
        let other_priority = self.rules.has(Misreading::RepeatWithPriority) && differing != 0;
        let other_top_bits =
            self.rules.has(Misreading::RepeatWithTopBits) && differing & !EXTENSION_BITS != 0;
        let address = earlier.address == bridge.address && !other_priority && !other_top_bits;
        source_id || address
    }

    /// Whether the half-link has the earlier one's near bridge with port.
    fn repeats_port(&self, half_link: &HalfLink, earlier: &HalfLink) -> bool {
        let anywhere = self.rules.has(Misreading::PortRepeatsAnywhere);
        let is_free = earlier.down && self.rules.has(Misreading::DownFreesPort);
        earlier.port == half_link.port && (earlier.near == half_link.near || anywhere) && !is_free
    }

    /// Refusal 9: a third half-link of a link number, or a second that is no mirror.
    fn is_no_mirror(&self, record: &Record) -> bool {
        let Record::HalfLink(half_link) = record else {
            return false;
        };
        if self.is_down_with(record, Misreading::DownTakesLinkNumber) {
            return false;
        }
        let frees = self.rules.has(Misreading::DownFreesLinkNumber);
        let same = |earlier: &&HalfLink| earlier.link == half_link.link && !(earlier.down && frees);
        let earlier: Vec<_> = self.plan.half_links.iter().filter(same).collect();
        match earlier[..] {
            [] => false,
            [only] if self.rules.has(Misreading::MirrorsWithEqualMark) && half_link.down != only.down => true,
            [only] => !half_link.mirrors(only) && !self.rules.has(Misreading::AnyMirror),
            _ => !self.rules.has(Misreading::ThirdAccepted),
        }
    }

    fn has_words_after(&self) -> bool {
        self.words.len() > self.first + 1 && !self.rules.has(Misreading::WordsAfterEnd)
    }
}

/// VID 1 to 4,094.
pub fn is_vid(vid: u16) -> bool {
    (1..=4_094).contains(&vid)
}

/// Port 1 to 4,095.
pub fn is_port(port: u16) -> bool {
    (1..=4_095).contains(&port)
}

/// I-SID 256 to 16,777,214.
pub fn is_i_sid(rules: Rules, i_sid: u32) -> bool {
    let least = if rules.has(Misreading::ServiceFrom255) { 255 } else { 256 };
    (least..=16_777_214).contains(&i_sid)
}
