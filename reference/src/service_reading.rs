//! Reading a captured sub-TLV into member records: the table's own refusals, then 15,
//! 16, the first faulty service's 6 or 8, and 13.

use crate::check::is_i_sid;
use crate::checked::Checked;
use crate::lent;
use crate::records::{Kind, Member};
use crate::refusal::Refusal;
use crate::rules::{Misreading, Rules};
use crate::service_writing::MOST_WRITTEN;
use crate::sub_tlv::{Service, SubTlv, HEADING, SERVICE, TYPE, TYPE_AND_LENGTH};

/// The most services that the length of a sub-TLV can count.
pub const MOST_READ: usize = 61;

/// Reading (sub-TLV): the words of the members into the lent list; their number.
pub fn read_services(rules: Rules, table: &[u8], sub_tlv: &[u8], lent: &mut [u32]) -> Result<usize, Refusal> {
    read_services_in(&Checked::new(rules, table)?, sub_tlv, lent)
}

/// The reading call of a table that was checked.
pub fn read_services_in(checked: &Checked, sub_tlv: &[u8], lent: &mut [u32]) -> Result<usize, Refusal> {
    let rules = checked.rules;
    let bytes = part_read(rules, sub_tlv);
    let reading = Reading { checked, bytes, sub_tlv: SubTlv::read(bytes), places: lent.len() };
    for step in steps(rules) {
        reading.examine(*step)?;
    }
    let words: Vec<u32> = reading.members().iter().flat_map(Member::words).collect();
    lent::write(rules, &words, lent)?;
    Ok(words.len())
}

/// All bytes lent are the sub-TLV.
fn part_read(rules: Rules, bytes: &[u8]) -> &[u8] {
    match bytes.get(1) {
        Some(&length) if rules.has(Misreading::BytesAfterSubTlvIgnored) => {
            &bytes[..bytes.len().min(TYPE_AND_LENGTH + usize::from(length))]
        }
        _ => bytes,
    }
}

/// What is examined before the answer is written, which gives 13 by itself.
#[derive(Clone, Copy)]
enum Step {
    Form,
    Names,
    Services,
    Places,
}

fn steps(rules: Rules) -> &'static [Step] {
    if rules.has(Misreading::SixteenBeforeFifteen) {
        &[Step::Names, Step::Form, Step::Services]
    } else if rules.has(Misreading::ServicesBeforeSixteen) {
        &[Step::Form, Step::Services, Step::Names]
    } else if rules.has(Misreading::ThirteenBeforeServices) {
        &[Step::Form, Step::Names, Step::Places, Step::Services]
    } else if rules.has(Misreading::ThirteenBeforeSixteen) {
        &[Step::Form, Step::Places, Step::Names, Step::Services]
    } else {
        &[Step::Form, Step::Names, Step::Services]
    }
}

struct Reading<'a> {
    checked: &'a Checked,
    bytes: &'a [u8],
    /// None where the heading is not all there.
    sub_tlv: Option<SubTlv>,
    /// The places of the lent list.
    places: usize,
}

impl Reading<'_> {
    fn examine(&self, step: Step) -> Result<(), Refusal> {
        let faultless = match step {
            Step::Form => self.has_form().then_some(()).ok_or(Refusal::NO_SUB_TLV),
            Step::Names => self.has_names().then_some(()).ok_or(Refusal::UNKNOWN_IN_SUB_TLV),
            Step::Services => self.first_fault().map_or(Ok(()), Err),
            Step::Places => self.has_places().then_some(()).ok_or(Refusal::SHORT_LIST),
        };
        let unknown = faultless == Err(Refusal::UNKNOWN_IN_SUB_TLV);
        if unknown && self.checked.rules.has(Misreading::ElevenForUnknownBMac) {
            return Err(Refusal::UNKNOWN_NAME);
        }
        faultless
    }

    /// Whether 15 does not apply.
    fn has_form(&self) -> bool {
        let rules = self.checked.rules;
        let Some(sub_tlv) = &self.sub_tlv else {
            return false;
        };
        let has_type = self.bytes[0] == TYPE || rules.has(Misreading::AnyTypeRead);
        has_type && self.has_length() && has_reserved_bits(rules, sub_tlv)
    }

    /// Whether the length is the number of bytes after it, and 8 plus a multiple of 4.
    fn has_length(&self) -> bool {
        let rules = self.checked.rules;
        let after = self.bytes.len() - TYPE_AND_LENGTH;
        let services = self.bytes.len() - HEADING;
        let part_ignored = rules.has(Misreading::PartOfServiceIgnored);
        if services > SERVICE * MOST_WRITTEN && rules.has(Misreading::SixtyAtMostRead) {
            return false;
        }
        let length = usize::from(self.bytes[1]);
        let counted = if rules.has(Misreading::ReadLengthOfWhole) {
            self.bytes.len()
        } else if rules.has(Misreading::SixtyTwoRead) && services == SERVICE * (MOST_READ + 1) {
            usize::from(after as u8)
        } else {
            after
        };
        length == counted && (services.is_multiple_of(SERVICE) || part_ignored)
    }

    fn services(&self) -> &[Service] {
        self.sub_tlv.as_ref().map_or(&[], |sub_tlv| &sub_tlv.services)
    }

    /// Whether the table has the B-MAC and the VID. Without a heading nothing is named.
    fn has_names(&self) -> bool {
        self.sub_tlv.is_none() || (self.bridge().is_some() && self.vid().is_some())
    }

    /// The bridge with the B-MAC as its 48-bit address.
    fn bridge(&self) -> Option<u16> {
        let b_mac = self.sub_tlv.as_ref()?.b_mac;
        let with_priority = self.checked.rules.has(Misreading::BMacWithPriority);
        let bridges = &self.checked.plan.bridges;
        let named = |place: &usize| {
            b_mac == if with_priority { bridges[*place].identifier() } else { bridges[*place].address }
        };
        (0..bridges.len()).find(named).map(|place| place as u16)
    }

    /// The VID, where it has a record.
    fn vid(&self) -> Option<u16> {
        let sub_tlv = self.sub_tlv.as_ref()?;
        let with_reserved = self.checked.rules.has(Misreading::VidWithReservedBits);
        let reserved = if with_reserved { u16::from(sub_tlv.reserved) << 12 } else { 0 };
        let vid = reserved | sub_tlv.vid;
        self.checked.plan.index_of_vid(vid).map(|_| vid)
    }

    fn has_places(&self) -> bool {
        self.places >= Kind::Member.words() * self.services().len()
    }

    /// The refusal of the first faulty service.
    fn first_fault(&self) -> Option<Refusal> {
        let rules = self.checked.rules;
        let fault = |place| self.fault(place).map(|number| (place, number));
        let mut faults = (0..self.services().len()).filter_map(fault);
        let (place, number) = if rules.has(Misreading::RangeBeforeRepeats) {
            let faults: Vec<(usize, u32)> = faults.collect();
            faults.iter().find(|(_, number)| *number == 6).or(faults.first()).copied()?
        } else if rules.has(Misreading::LastFaultyService) {
            faults.next_back()?
        } else {
            faults.next()?
        };
        let word = self.fault_word(place, number);
        if rules.has(Misreading::FaultWithoutKind) {
            return Some(Refusal { number, kind: None, word });
        }
        Some(Refusal::of_record(number, Kind::Member, word))
    }

    /// The service's number from 0.
    fn fault_word(&self, place: usize, number: u32) -> usize {
        let rules = self.checked.rules;
        let same = |service: &Service| service.i_sid == self.services()[place].i_sid;
        if rules.has(Misreading::ServicesFromOne) {
            place + 1
        } else if rules.has(Misreading::ByteOfService) {
            HEADING + SERVICE * place
        } else if rules.has(Misreading::WordOfService) {
            Kind::Member.words() * place
        } else if rules.has(Misreading::EarlierOfRepeat) && number == 8 {
            self.services().iter().position(same).unwrap_or(place)
        } else {
            place
        }
    }

    fn fault(&self, place: usize) -> Option<u32> {
        if !self.is_in_range(&self.services()[place]) {
            Some(6)
        } else if self.repeats(place) {
            Some(8)
        } else {
            None
        }
    }

    fn is_in_range(&self, service: &Service) -> bool {
        let rules = self.checked.rules;
        let last = service.i_sid == 16_777_215 && rules.has(Misreading::LastServiceInRange);
        is_i_sid(rules, service.i_sid) || last || is_ignored(rules, service)
    }

    /// Whether the I-SID is that of an earlier service, whatever T and R are.
    fn repeats(&self, place: usize) -> bool {
        let rules = self.checked.rules;
        if rules.has(Misreading::RepeatsMerged) {
            return false;
        }
        let (earlier, service) = (&self.services()[..place], self.services()[place]);
        let flags = |service: &Service| (service.transmits, service.receives);
        let any_flags = !rules.has(Misreading::RepeatsWithEqualFlags);
        let nearest = if rules.has(Misreading::RepeatsOfNeighbour) { 1 } else { place };
        let same =
            |other: &Service| other.i_sid == service.i_sid && (any_flags || flags(other) == flags(&service));
        earlier.iter().rev().take(nearest).any(same) || self.repeats_table(&service)
    }

    /// A misreading: the table's own members count as earlier services.
    fn repeats_table(&self, service: &Service) -> bool {
        let names = (self.bridge(), self.vid());
        let same = |member: &Member| {
            member.service == service.i_sid && names == (Some(member.bridge), Some(member.vid))
        };
        self.checked.rules.has(Misreading::TableMembersRepeat) && self.checked.plan.members.iter().any(same)
    }

    /// The member record of each service, in their order.
    fn members(&self) -> Vec<Member> {
        let rules = self.checked.rules;
        let (Some(bridge), Some(vid)) = (self.bridge(), self.vid()) else {
            return Vec::new();
        };
        let mut members: Vec<Member> = Vec::new();
        for service in self.services().iter().filter(|service| !is_ignored(rules, service)) {
            let member = member(rules, service, bridge, vid);
            match members.iter_mut().find(|earlier| earlier.service == member.service) {
                Some(earlier) if rules.has(Misreading::RepeatsMerged) => {
                    earlier.transmits |= member.transmits;
                    earlier.receives |= member.receives;
                }
                _ => members.push(member),
            }
        }
        members
    }
}

/// Reserved bits are ignored, but for misreadings.
fn has_reserved_bits(rules: Rules, sub_tlv: &SubTlv) -> bool {
    let of_vid = sub_tlv.reserved == 0 || !rules.has(Misreading::VidReservedRefused);
    let of_services = sub_tlv.services.iter().all(|service| service.reserved == 0)
        || !rules.has(Misreading::ServiceReservedRefused);
    of_vid && of_services
}

/// A misreading: the standard has I-SID 0 ignored.
fn is_ignored(rules: Rules, service: &Service) -> bool {
    service.i_sid == 0 && rules.has(Misreading::ZeroServiceIgnored)
}

fn member(rules: Rules, service: &Service, bridge: u16, vid: u16) -> Member {
    let [transmits, receives] = if rules.has(Misreading::ReadFlagsExchanged) {
        [service.receives, service.transmits]
    } else {
        [service.transmits, service.receives]
    };
    Member { transmits, receives, service: service.i_sid, bridge, vid }
}
