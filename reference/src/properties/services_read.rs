//! Request A2 of document 02, reading: figures worked out from its text on a plan of two
//! bridges, every refusal with its word, and the order of refusals.

use super::buffers::{for_every_length, OLD};
use super::fixture::{ends, plan as fixed_plan};
use super::listings::WORKED_TABLE;
use super::{equal, with_table, Outcome, Setting};
use crate::generate::damage::{damaged, Damaged};
use crate::random::Random;
use crate::records::{Kind, Member, Plan, Vid};
use crate::refusal::Refusal;
use crate::service_lines::MOST_WORDS;
use crate::service_reading::read_services;
use crate::service_writing::write_services;
use crate::sub_tlv::{Service, SubTlv};
use crate::words::from_text;

/// Bridges 020000000001 and 020000000002 of priority 8000, VID 10 and 4,094, and one
/// member of bridge 1.
fn two_bridges() -> Plan {
    let mut plan = fixed_plan(&ends([1, 2]), &[]);
    plan.vids = vec![Vid { vid: 10, index: 1 }, Vid { vid: 4_094, index: 2 }];
    plan.members = vec![Member { transmits: true, receives: true, service: 300, bridge: 1, vid: 10 }];
    plan
}

/// A sub-TLV of bridge 1 and VID 10 whose services have T.
fn of_bridge_1(i_sids: &[u32]) -> SubTlv {
    let service = |&i_sid: &u32| Service { transmits: true, receives: false, reserved: 0, i_sid };
    SubTlv { b_mac: 0x0200_0000_0002, reserved: 0, vid: 10, services: i_sids.iter().map(service).collect() }
}

/// So many services from I-SID 1,000 on.
fn services(count: usize) -> Vec<u32> {
    (0..count as u32).map(|place| 1_000 + place).collect()
}

/// The words read from a sub-TLV into a list that holds any answer.
fn words_read(setting: &Setting, plan: &Plan, bytes: &[u8]) -> Result<Vec<u32>, Refusal> {
    let mut lent = vec![OLD; MOST_WORDS];
    let written = read_services(setting.rules, &plan.bytes(), bytes, &mut lent)?;
    lent.truncate(written);
    Ok(lent)
}

fn refused(setting: &Setting, name: &str, bytes: &[u8], refusal: Refusal) -> Outcome {
    equal(name, words_read(setting, &two_bridges(), bytes), Err(refusal))
}

/// Sub-TLVs of the worked example byte by byte: its own member of bridge 0, both other
/// values of T and R, all reserved bits set, and none at all.
pub fn worked_sub_tlvs_read(setting: &Setting) -> Outcome {
    let table = from_text(WORKED_TABLE).map_err(|why| format!("hexadecimal text: {why}"))?;
    let read = |bytes: &[u8]| {
        let mut lent = [OLD; 6];
        read_services(setting.rules, &table, bytes, &mut lent).map(|written| (written, lent))
    };
    let own = [3, 12, 2, 0, 0, 0, 0, 1, 0, 10, 0x80, 0, 1, 0];
    equal("own member", read(&own), Ok((2, [0x4200_0100, 0x0000_000A, OLD, OLD, OLD, OLD])))?;
    let three = [3, 20, 2, 0, 0, 0, 0, 2, 0xF0, 10, 0x7F, 0, 1, 0, 0x3F, 0xFF, 0xFF, 0xFE, 0xFF, 1, 2, 3];
    let words = [0x4100_0100, 0x0001_000A, 0x40FF_FFFE, 0x0001_000A, 0x4301_0203, 0x0001_000A];
    equal("three services", read(&three), Ok((6, words)))?;
    equal("no service", read(&[3, 8, 2, 0, 0, 0, 0, 2, 0, 10]), Ok((0, [OLD; 6])))
}

/// Both ends of the range of I-SIDs, none and 61 services, a member that the table has.
pub fn ends_of_services_read(setting: &Setting) -> Outcome {
    let plan = two_bridges();
    for i_sids in [vec![], vec![256, 16_777_214], vec![300], services(59), services(60), services(61)] {
        let words: Vec<u32> = i_sids.iter().flat_map(|i_sid| [0x4200_0000 | i_sid, 0x0001_000A]).collect();
        let name = format!("{} services", i_sids.len());
        equal(&name, words_read(setting, &plan, &of_bridge_1(&i_sids).bytes()), Ok(words))?;
    }
    Ok(())
}

/// 15 in every way: every shorter length, every other type and length, bytes after the
/// sub-TLV, and 62 services with every length.
pub fn forms_refused(setting: &Setting) -> Outcome {
    let whole = of_bridge_1(&services(3)).bytes();
    let sixty_two = of_bridge_1(&services(62)).bytes();
    let with = |bytes: &[u8], place: usize, value: u8| {
        let mut other = bytes.to_vec();
        other[place] = value;
        other
    };
    let mut forms: Vec<Vec<u8>> = (0..whole.len()).map(|length| whole[..length].to_vec()).collect();
    forms.extend((0..=255).filter(|&value| value != 3).map(|value| with(&whole, 0, value)));
    forms.extend((0..=255).filter(|&value| value != 20).map(|value| with(&whole, 1, value)));
    forms.extend((0..=255).map(|value| with(&sixty_two, 1, value)));
    for more in 1..=9 {
        let longer = [whole.clone(), vec![0x40; more]].concat();
        forms.push(longer.clone());
        if more % 4 != 0 {
            forms.push(with(&longer, 1, 20 + more as u8));
        }
    }
    forms.push([whole.clone(), whole].concat());
    forms.iter().try_for_each(|form| refused(setting, &format!("{form:?}"), form, Refusal::NO_SUB_TLV))
}

/// 16: a B-MAC with any one bit changed or with the priority before it, and VIDs that
/// have no record.
pub fn unknown_b_macs_and_vids_refused(setting: &Setting) -> Outcome {
    let known = of_bridge_1(&services(2));
    let b_macs = (0..48).map(|bit| known.b_mac ^ 1 << bit).filter(|&b_mac| b_mac != 0x0200_0000_0001);
    let mut unknown: Vec<SubTlv> =
        b_macs.chain([0x8000_0200_0000, 0]).map(|b_mac| SubTlv { b_mac, ..known.clone() }).collect();
    let vids = (0..=4_095).filter(|vid| ![10, 4_094].contains(vid));
    unknown.extend(vids.map(|vid| SubTlv { vid, ..known.clone() }));
    for sub_tlv in unknown {
        let name = format!("B-MAC {:012x}, VID {}", sub_tlv.b_mac, sub_tlv.vid);
        refused(setting, &name, &sub_tlv.bytes(), Refusal::UNKNOWN_IN_SUB_TLV)?;
    }
    Ok(())
}

/// The first faulty service with its number from 0.
pub fn faulty_services_refused(setting: &Setting) -> Outcome {
    let cases: [(&[u32], u32, usize); 10] = [
        (&[0], 6, 0),
        (&[256, 255], 6, 1),
        (&[256, 257, 16_777_215], 6, 2),
        (&[256, 256], 8, 1),
        (&[256, 257, 258, 257], 8, 3),
        (&[256, 257, 256, 257], 8, 2),
        (&[256, 256, 0], 8, 1),
        (&[256, 0, 256], 6, 1),
        (&[256, 0, 0], 6, 1),
        (&[16_777_215, 16_777_215], 6, 0),
    ];
    for (i_sids, number, place) in cases {
        let refusal = Refusal::of_record(number, Kind::Member, place);
        refused(setting, &format!("{i_sids:?}"), &of_bridge_1(i_sids).bytes(), refusal)?;
    }
    let mut other_flags = of_bridge_1(&[256, 257, 256]);
    other_flags.services[2] = Service { transmits: false, receives: true, ..other_flags.services[2] };
    let refusal = Refusal::of_record(8, Kind::Member, 2);
    refused(setting, "a repeat with other T and R", &other_flags.bytes(), refusal)
}

/// Several faults at once into no places: 15, 16, the first faulty service, 13.
pub fn order_of_refusals_read(setting: &Setting) -> Outcome {
    let table = two_bridges().bytes();
    let refused = |sub_tlv: &SubTlv, with_type: u8| {
        let mut bytes = sub_tlv.bytes();
        bytes[0] = with_type;
        read_services(setting.rules, &table, &bytes, &mut [])
    };
    let faultless = of_bridge_1(&[256]);
    let faulty = of_bridge_1(&[256, 0]);
    let unknown = SubTlv { b_mac: 5, ..faulty.clone() };
    let unknown_vid = SubTlv { vid: 11, ..of_bridge_1(&[256, 256]) };
    equal("15 and all others", refused(&unknown, 4), Err(Refusal::NO_SUB_TLV))?;
    equal("16, 6 and 13", refused(&unknown, 3), Err(Refusal::UNKNOWN_IN_SUB_TLV))?;
    equal("16, 8 and 13", refused(&unknown_vid, 3), Err(Refusal::UNKNOWN_IN_SUB_TLV))?;
    equal("6 and 13", refused(&faulty, 3), Err(Refusal::of_record(6, Kind::Member, 1)))?;
    equal("13", refused(&faultless, 3), Err(Refusal::SHORT_LIST))
}

pub fn read_lists_of_every_length(setting: &Setting) -> Outcome {
    let table = two_bridges().bytes();
    for count in [0, 1, 5, 61] {
        let sub_tlv = of_bridge_1(&services(count));
        let words: Vec<u32> =
            sub_tlv.services.iter().flat_map(|service| [0x4200_0000 | service.i_sid, 0x0001_000A]).collect();
        let call = |lent: &mut [u32]| read_services(setting.rules, &table, &sub_tlv.bytes(), lent);
        for_every_length(OLD, &words, &words.len(), &call)?;
    }
    Ok(())
}

/// Both calls examine the table before sub-TLV, names and lists.
pub fn faulty_tables_refused_by_service_calls(setting: &Setting) -> Outcome {
    for number in 0..setting.tables {
        let Damaged { name, table, refusal } = damaged(&mut Random::for_case(setting.seed, number));
        let found = [
            read_services(setting.rules, &table, &[4], &mut []),
            write_services(setting.rules, &table, 70_000, 0, &mut []),
        ];
        with_table(&table, equal(&name, found, [Err(refusal); 2]))?;
    }
    Ok(())
}
