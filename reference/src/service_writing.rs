//! Writing a bridge's members of one VID as sub-TLVs, each but the last with 60
//! services: the table's own refusals, then 11 and 13.

use crate::checked::Checked;
use crate::lent;
use crate::records::Member;
use crate::refusal::Refusal;
use crate::rules::{Misreading, Rules};
use crate::sub_tlv::{Service, SubTlv, TYPE_AND_LENGTH};

/// What the MT-Capability TLV around a sub-TLV can carry.
pub const MOST_WRITTEN: usize = 60;

/// The most bytes of one sub-TLV written, and of the members of one bridge and VID.
pub const LONGEST_SUB_TLV: usize = 250;
pub const LONGEST_WRITING: usize = 276;

/// Writing (bridge, VID): the sub-TLVs into the lent list of bytes; their bytes.
pub fn write_services(
    rules: Rules,
    table: &[u8],
    bridge: u32,
    vid: u32,
    lent: &mut [u8],
) -> Result<usize, Refusal> {
    write_services_in(&Checked::new(rules, table)?, bridge, vid, lent)
}

/// The writing call of a table that was checked.
pub fn write_services_in(
    checked: &Checked,
    bridge: u32,
    vid: u32,
    lent: &mut [u8],
) -> Result<usize, Refusal> {
    let place = checked.bridge(bridge)?;
    checked.index_of(vid)?;
    let sub_tlvs = sub_tlvs(checked, place, vid as u16);
    if sub_tlvs.is_empty() && checked.rules.has(Misreading::ElevenWithoutMembers) {
        return Err(Refusal::UNKNOWN_NAME);
    }
    let bytes = sub_tlvs.concat();
    lent::write(checked.rules, &bytes, lent)?;
    Ok(bytes.len())
}

/// The bytes of each sub-TLV, in their order.
fn sub_tlvs(checked: &Checked, bridge: usize, vid: u16) -> Vec<Vec<u8>> {
    let rules = checked.rules;
    let members = members(checked, bridge, vid);
    let services: Vec<Service> = members.iter().map(|member| service(rules, member)).collect();
    let record = &checked.plan.bridges[bridge];
    let b_mac =
        if rules.has(Misreading::PriorityInBMac) { record.identifier() >> 16 } else { record.address };
    let reserved = if rules.has(Misreading::VidReservedWritten) { 0x0F } else { 0 };
    let sub_tlv = |services: Vec<Service>| SubTlv { b_mac, reserved, vid, services }.bytes();
    let mut all: Vec<Vec<u8>> = parted(rules, services).into_iter().map(sub_tlv).collect();
    if rules.has(Misreading::WrittenLengthOfWhole) {
        all.iter_mut().for_each(|bytes| bytes[1] += TYPE_AND_LENGTH as u8);
    }
    all
}

/// The members of the bridge and VID in table order.
fn members(checked: &Checked, bridge: usize, vid: u16) -> Vec<Member> {
    let rules = checked.rules;
    let any_bridge = rules.has(Misreading::AllBridgesWritten);
    let any_vid = rules.has(Misreading::AllVidsWritten);
    let is_written = |member: &&Member| {
        (usize::from(member.bridge) == bridge || any_bridge)
            && (member.vid == vid || any_vid)
            && (member.transmits || member.receives || !rules.has(Misreading::IdleMembersLeftOut))
    };
    let mut members: Vec<Member> = checked.plan.members.iter().filter(is_written).copied().collect();
    if rules.has(Misreading::ServicesRising) {
        members.sort_by_key(|member| member.service);
    }
    members
}

fn service(rules: Rules, member: &Member) -> Service {
    let [transmits, receives] = if rules.has(Misreading::WrittenFlagsExchanged) {
        [member.receives, member.transmits]
    } else {
        [member.transmits, member.receives]
    };
    let reserved = if rules.has(Misreading::ServiceReservedWritten) { 0x3F } else { 0 };
    Service { transmits, receives, reserved, i_sid: member.service }
}

/// The services of each sub-TLV: 60, but for the last, which has at least one.
fn parted(rules: Rules, services: Vec<Service>) -> Vec<Vec<Service>> {
    let most = MOST_WRITTEN + usize::from(rules.has(Misreading::SixtyOneWritten));
    let mut parts: Vec<Vec<Service>> = if rules.has(Misreading::FirstSubTlvShort) {
        services.rchunks(most).rev().map(<[Service]>::to_vec).collect()
    } else {
        services.chunks(most).map(<[Service]>::to_vec).collect()
    };
    let none = services.is_empty() && rules.has(Misreading::EmptyWithoutMembers);
    let full = services.len() == most && rules.has(Misreading::EmptyAfterFull);
    if none || full {
        parts.push(Vec::new());
    }
    parts
}
