//! Sub-TLVs to be read: valid ones, and damaged ones with one fault or several.

use super::valid::different;
use crate::random::Random;
use crate::records::{Member, Plan};
use crate::service_reading::MOST_READ;
use crate::sub_tlv::{Service, SubTlv, SERVICE, TYPE};

/// How many services a sub-TLV has: none, few, and around the most written and read.
const COUNTS: [usize; 12] = [0, 1, 1, 2, 3, 4, 5, 12, 59, 60, 61, 61];

/// I-SIDs around the ends of their range.
const RANGE_ENDS: [u32; 5] = [0, 255, 256, 16_777_214, 16_777_215];

/// Names of the plan and services that are all in range and different; every other one
/// with reserved bits set.
pub fn valid_sub_tlv(plan: &Plan, random: &mut Random) -> SubTlv {
    let (bridge, vid) = (random.pick(&plan.bridges), random.pick(&plan.vids));
    let mut services = i_sids(plan, *random.pick(&COUNTS), random)
        .into_iter()
        .map(|i_sid| service(i_sid, random))
        .collect::<Vec<_>>();
    let mut reserved = random.below(16) as u8;
    if random.one_in(2) {
        reserved = 0;
        services.iter_mut().for_each(|service| service.reserved = 0);
    }
    SubTlv { b_mac: bridge.address, reserved, vid: vid.vid, services }
}

/// Different I-SIDs, those of the plan's members first in one of three.
fn i_sids(plan: &Plan, count: usize, random: &mut Random) -> Vec<u32> {
    let mut all: Vec<u32> = Vec::new();
    if random.one_in(3) {
        all.extend(plan.members.iter().map(|member: &Member| member.service));
    }
    all.extend(different(count, 256, 16_777_214, random).iter().map(|&i_sid| i_sid as u32));
    let mut chosen: Vec<u32> = Vec::new();
    for i_sid in all {
        if chosen.len() < count && !chosen.contains(&i_sid) {
            chosen.push(i_sid);
        }
    }
    chosen
}

fn service(i_sid: u32, random: &mut Random) -> Service {
    Service {
        transmits: random.one_in(2),
        receives: random.one_in(2),
        reserved: random.below(64) as u8,
        i_sid,
    }
}

/// The bytes of a sub-TLV with one to three faults in its names, its services and its
/// form. Some damage leaves it faultless, and some undoes other damage.
pub fn damaged_sub_tlv(plan: &Plan, random: &mut Random) -> Vec<u8> {
    let mut sub_tlv = valid_sub_tlv(plan, random);
    let form = random.one_in(3);
    for _ in 0..random.between(u64::from(!form), 2) {
        if random.one_in(3) {
            damage_names(&mut sub_tlv, plan, random);
        } else {
            damage_services(&mut sub_tlv.services, random);
        }
    }
    let mut bytes = sub_tlv.bytes();
    if form {
        damage_form(&mut bytes, random);
    }
    bytes
}

/// Another B-MAC or VID.
fn damage_names(sub_tlv: &mut SubTlv, plan: &Plan, random: &mut Random) {
    let bridge = random.pick(&plan.bridges);
    let any_vid = random.between(1, 4_094) as u16;
    match random.between(0, 4) {
        0 => sub_tlv.b_mac ^= 1 << random.below(48),
        1 => sub_tlv.b_mac = bridge.identifier() >> 16,
        2 => sub_tlv.b_mac = u64::from(bridge.priority) << 32 | bridge.address & 0xFFFF_FFFF,
        3 => sub_tlv.vid = *random.pick(&[0, 4_095, any_vid]),
        _ => sub_tlv.vid ^= 1 << random.below(12),
    }
}

/// I-SIDs at the ends of their range, repeats, an I-SID out of range and its repeat.
fn damage_services(services: &mut Vec<Service>, random: &mut Random) {
    if services.is_empty() {
        services.push(service(*random.pick(&RANGE_ENDS), random));
        return;
    }
    let [place, other] = [random.below(services.len()), random.below(services.len())];
    match random.between(0, 4) {
        0 | 1 => services[place].i_sid = *random.pick(&RANGE_ENDS),
        2 => services[place] = services[other],
        3 => {
            services[place] = services[other];
            services[place].transmits ^= true;
            services[place].receives ^= random.one_in(2);
        }
        _ => {
            let outside = *random.pick(&[0, 255, 16_777_215]);
            services[place].i_sid = outside;
            services[other].i_sid = outside;
        }
    }
    if random.one_in(20) {
        services.resize(MOST_READ + 1, service(300, random));
    }
}

/// Another byte, length or type, fewer bytes or more.
fn damage_form(bytes: &mut Vec<u8>, random: &mut Random) {
    let any = random.below(256) as u8;
    let place = random.below(bytes.len());
    match random.between(0, 7) {
        0 => bytes[place] = any,
        1 => bytes[1] = other_length(bytes[1], random),
        2 => bytes[0] = *random.pick(&[0, 1, 2, 4, TYPE | 0x80, any]),
        3 => bytes.truncate(place),
        4 => bytes.truncate(bytes.len().saturating_sub(SERVICE)),
        5 => {
            let more = *random.pick(&[1, 2, 3, SERVICE, 2 * SERVICE]);
            bytes.extend((0..more).map(|_| random.below(256) as u8));
        }
        6 => {
            // Parts of a service, which the length counts.
            let more = random.between(1, 3) as u8;
            bytes[1] = bytes[1].wrapping_add(more);
            bytes.extend((0..more).map(|_| random.below(256) as u8));
        }
        _ => bytes.extend(bytes.clone()),
    }
}

fn other_length(length: u8, random: &mut Random) -> u8 {
    let near = [1, 2, 4, 252, 254, 255].map(|by| length.wrapping_add(by));
    let fixed = [0, 8, 12, 252, 255, random.below(256) as u8];
    *random.pick(&[near, fixed].concat())
}

/// 62 services, which no length counts, with several length bytes.
pub fn sixty_two_services(plan: &Plan, random: &mut Random) -> Vec<Vec<u8>> {
    let mut sub_tlv = valid_sub_tlv(plan, random);
    let i_sids = 1_000..1_000 + MOST_READ as u32 + 1;
    sub_tlv.services = i_sids.map(|i_sid| service(i_sid, random)).collect();
    let with_length = |length: u8| {
        let mut bytes = sub_tlv.bytes();
        bytes[1] = length;
        bytes
    };
    [0, 248, 252, 254, 255, 4].map(with_length).to_vec()
}

/// A sub-TLV cut to each shorter length.
pub fn cut_sub_tlvs(bytes: &[u8]) -> Vec<Vec<u8>> {
    (0..bytes.len()).map(|length| bytes[..length].to_vec()).collect()
}
