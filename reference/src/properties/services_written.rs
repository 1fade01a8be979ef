//! Request A2 of document 02, writing: figures worked out from its text, and what is
//! written is read back.

use super::buffers::for_every_length;
use super::fixture::{ends, plan as fixed_plan};
use super::listings::WORKED_TABLE;
use super::{ensure, equal, with_table, Outcome, Setting};
use crate::generate::service_plans::{bridges_and_vids, members_of, service_plan};
use crate::random::Random;
use crate::records::{Member, Plan};
use crate::refusal::Refusal;
use crate::service_reading::read_services;
use crate::service_writing::{write_services, LONGEST_SUB_TLV, LONGEST_WRITING, MOST_WRITTEN};
use crate::sub_tlv::{HEADING, SERVICE, TYPE_AND_LENGTH};
use crate::words::from_text;

/// What a lent list of bytes holds before a call, and how many places hold any answer.
const OLD_BYTE: u8 = 0xEE;
const PLACES: usize = 320;

fn bytes_written(setting: &Setting, table: &[u8], bridge: u32, vid: u32) -> Result<Vec<u8>, Refusal> {
    let mut lent = vec![OLD_BYTE; PLACES];
    let written = write_services(setting.rules, table, bridge, vid, &mut lent)?;
    lent.truncate(written);
    Ok(lent)
}

/// Sub-TLVs of the worked example byte by byte.
pub fn worked_sub_tlvs_written(setting: &Setting) -> Outcome {
    let table = from_text(WORKED_TABLE).map_err(|why| format!("hexadecimal text: {why}"))?;
    let first = vec![3, 12, 2, 0, 0, 0, 0, 1, 0, 10, 0x80, 0, 1, 0];
    let second = vec![3, 12, 2, 0, 0, 0, 0, 2, 0, 10, 0x40, 0, 1, 0];
    equal("bridge 0", bytes_written(setting, &table, 0, 10), Ok(first))?;
    equal("bridge 1", bytes_written(setting, &table, 1, 10), Ok(second))
}

/// Bridge 1 with so many members of VID 2, T and R in all four ways; with places left,
/// one member of another bridge and one of another VID stand before them.
fn with_members(count: u16) -> Plan {
    let mut plan = fixed_plan(&ends([1, 2]), &[]);
    let member = |place: u16| Member {
        transmits: place & 1 == 1,
        receives: place & 2 == 2,
        service: 70_000 - u32::from(place),
        bridge: 1,
        vid: 2,
    };
    if count <= 62 {
        plan.members = vec![Member { bridge: 0, ..member(70) }, Member { vid: 3, ..member(71) }];
    }
    plan.members.extend((0..count).map(member));
    plan
}

/// The length of each sub-TLV for numbers of members around 60.
pub fn sixty_services_in_a_sub_tlv(setting: &Setting) -> Outcome {
    let figures: [(u16, &[u8]); 9] = [
        (0, &[]),
        (1, &[12]),
        (2, &[16]),
        (59, &[244]),
        (60, &[248]),
        (61, &[248, 12]),
        (62, &[248, 16]),
        (63, &[248, 20]),
        (64, &[248, 24]),
    ];
    for (count, lengths) in figures {
        let table = with_members(count).bytes();
        let bytes = bytes_written(setting, &table, 1, 2);
        let bytes = bytes.map_err(|refusal| format!("{count} members: {refusal:?}"))?;
        let found: Vec<u8> = parted(&bytes)?.iter().map(|sub_tlv| sub_tlv[1]).collect();
        equal(&format!("lengths of {count} members"), found, lengths.to_vec())?;
    }
    Ok(())
}

/// The sub-TLVs that stand in a row, by their lengths.
fn parted(mut bytes: &[u8]) -> Result<Vec<&[u8]>, String> {
    let mut parts = Vec::new();
    while let Some(&length) = bytes.get(1) {
        let end = TYPE_AND_LENGTH + usize::from(length);
        ensure!(end <= bytes.len(), "a length of {length} with {} bytes left", bytes.len());
        parts.push(&bytes[..end]);
        bytes = &bytes[end..];
    }
    ensure!(bytes.is_empty(), "a byte stands after the last sub-TLV");
    Ok(parts)
}

/// What is written has at most 276 bytes and its sub-TLVs at most 250, each but the last
/// 60 services; read back, it gives the words of the member records in table order.
pub fn written_services_come_back(setting: &Setting) -> Outcome {
    for number in 0..setting.tables {
        let plan = service_plan(&mut Random::for_case(setting.seed, number));
        let table = plan.bytes();
        for (bridge, vid) in bridges_and_vids(&plan) {
            let outcome = comes_back(setting, &plan, &table, (bridge, vid));
            let named = outcome.map_err(|why| format!("bridge {bridge}, VID {vid}: {why}"));
            with_table(&table, named)?;
        }
    }
    Ok(())
}

fn comes_back(setting: &Setting, plan: &Plan, table: &[u8], (bridge, vid): (usize, u16)) -> Outcome {
    let refused = |refusal: Refusal| format!("{refusal:?}");
    let bytes = bytes_written(setting, table, bridge as u32, u32::from(vid)).map_err(refused)?;
    ensure!(bytes.len() <= LONGEST_WRITING, "{} bytes are written", bytes.len());
    let sub_tlvs = parted(&bytes)?;
    let mut words = Vec::new();
    for (place, sub_tlv) in sub_tlvs.iter().enumerate() {
        let services = (sub_tlv.len() - HEADING.min(sub_tlv.len())) / SERVICE;
        let is_last = place + 1 == sub_tlvs.len();
        ensure!(sub_tlv.len() <= LONGEST_SUB_TLV, "a sub-TLV has {} bytes", sub_tlv.len());
        ensure!(services == MOST_WRITTEN || (is_last && services > 0), "a sub-TLV has {services} services");
        let mut lent = vec![0; 2 * services];
        let read = read_services(setting.rules, table, sub_tlv, &mut lent).map_err(refused)?;
        words.extend(&lent[..read]);
    }
    let members = members_of(plan, bridge, vid);
    equal("words read back", words, members.iter().flat_map(Member::words).collect())
}

pub fn written_lists_of_every_length(setting: &Setting) -> Outcome {
    for count in [0, 1, 60, 64] {
        let table = with_members(count).bytes();
        let bytes = bytes_written(setting, &table, 1, 2).map_err(|refusal| format!("{refusal:?}"))?;
        let call = |lent: &mut [u8]| write_services(setting.rules, &table, 1, 2, lent);
        for_every_length(OLD_BYTE, &bytes, &bytes.len(), &call)?;
    }
    Ok(())
}

/// Bridges and VIDs that the plan lacks, also where their low 16 bits name one: 11 comes
/// before 13. A bridge without members of a VID is written into no places.
pub fn unknown_names_not_written(setting: &Setting) -> Outcome {
    let table = with_members(3).bytes();
    let write = |bridge, vid| write_services(setting.rules, &table, bridge, vid, &mut []);
    for (bridge, vid) in [(2, 2), (65_535, 2), (65_537, 2), (u32::MAX, 2), (1, 0), (1, 17), (1, 65_538)] {
        equal(&format!("bridge {bridge}, VID {vid}"), write(bridge, vid), Err(Refusal::UNKNOWN_NAME))?;
    }
    equal("no members", write(0, 16), Ok(0))?;
    equal("members and no places", write(1, 2), Err(Refusal::SHORT_LIST))
}
