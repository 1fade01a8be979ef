//! What the protocol analyser tshark says of captured sub-TLVs, and what it is to say of
//! a bridge's members of one VID: the same lines, field by field.

use crate::generate::service_plans::members_of;
use crate::records::{Member, Plan};
use crate::service_writing::MOST_WRITTEN;

/// The fields that are compared, by tshark's names. `base_vid` is all 16 bits, reserved
/// ones included.
const FIELDS: [&str; 10] = [
    "isis.lsp.checksum.status",
    "isis.lsp.clv.type",
    "isis.lsp.clv.length",
    "isis.lsp.mt_cap.mtid",
    "isis.lsp.mt_cap_spbm_service_identifier.b_mac",
    "isis.lsp.mt_cap_spbm_service_identifier.base_vid",
    "isis.lsp.mt_cap_spbm_service_identifier.t",
    "isis.lsp.mt_cap_spbm_service_identifier.r",
    "isis.lsp.mt_cap_spbm_service_identifier.reserved",
    "isis.lsp.mt_cap_spbm_service_identifier.i_sid",
];

/// What the names of a sub-TLV's fields begin with, without `isis.lsp.`.
const SERVICE_FIELD: &str = "mt_cap_spbm_service_identifier.";

/// What tshark calls the sub-TLV; its type and length stand behind.
const SUB_TLV: &str = "SPB Service ID and Unicast Address";

/// What tshark adds where something is wrong.
const COMPLAINTS: [&str; 2] = ["_ws.expert", "_ws.malformed"];

/// The lines of each frame of tshark's output in PDML, which has one field in a line.
pub fn dissected(pdml: &str) -> Vec<String> {
    let mut frames: Vec<String> = Vec::new();
    for line in pdml.lines().map(str::trim_start) {
        if line.starts_with("<packet>") {
            frames.push(String::new());
        }
        if let (Some(frame), Some(shown)) = (frames.last_mut(), shown(line)) {
            *frame += &format!("{shown}\n");
        }
    }
    frames
}

/// What is compared of a line.
fn shown(line: &str) -> Option<String> {
    let name = attribute(line, "name")?;
    let show = attribute(line, "show").unwrap_or("");
    if FIELDS.contains(&name) {
        return Some(field(name, show));
    }
    let is_sub_tlv = name.is_empty() && show.starts_with(SUB_TLV);
    let is_complaint = COMPLAINTS.iter().any(|complaint| name.starts_with(complaint));
    (is_sub_tlv || is_complaint).then(|| format!("{name} {show}"))
}

fn attribute<'a>(line: &'a str, name: &str) -> Option<&'a str> {
    let (_, after) = line.split_once(&format!(" {name}=\""))?;
    after.split_once('"').map(|(value, _)| value)
}

fn field(name: &str, show: &str) -> String {
    let last = name.strip_prefix("isis.lsp.").unwrap_or(name);
    format!("{last} {show}")
}

/// The lines that a frame with all sub-TLVs of a bridge and VID is to have, from the
/// table's member records.
pub fn expected(plan: &Plan, bridge: usize, vid: u16) -> String {
    expected_of(plan, &members_of(plan, bridge, vid))
}

/// The lines of members of one bridge and VID.
pub fn expected_of(plan: &Plan, members: &[Member]) -> String {
    let mut lines = vec!["checksum.status 1".to_string()];
    for members in members.chunks(MOST_WRITTEN) {
        lines.extend(heading_lines(plan, members));
        lines.extend(members.iter().flat_map(service_lines));
    }
    lines.iter().map(|line| format!("{line}\n")).collect()
}

fn heading_lines(plan: &Plan, members: &[Member]) -> [String; 6] {
    let Member { bridge, vid, .. } = members[0];
    let length = 8 + 4 * members.len();
    // The TLV's counts its topology and the sub-TLV's type and length too.
    let tlv_length = 4 + length;
    let address = plan.bridges.get(usize::from(bridge)).map_or(0, |record| record.address);
    let b_mac: Vec<String> = address.to_be_bytes()[2..].iter().map(|octet| format!("{octet:02x}")).collect();
    [
        "clv.type 144".to_string(),
        format!("clv.length {tlv_length}"),
        "mt_cap.mtid 0".to_string(),
        format!(" {SUB_TLV}: Type: 0x03, Length: {length}"),
        format!("{SERVICE_FIELD}b_mac {}", b_mac.join(":")),
        format!("{SERVICE_FIELD}base_vid {vid:#06x}"),
    ]
}

/// A frame's lines as if its reserved bits were zero.
pub fn without_reserved_bits(lines: &str) -> String {
    let cleared = |line: &str| {
        let (name, show) = line.split_once(' ').unwrap_or((line, ""));
        let number = show.strip_prefix("0x").and_then(|digits| u16::from_str_radix(digits, 16).ok());
        match (name.strip_prefix(SERVICE_FIELD), number) {
            (Some("base_vid"), Some(bits)) => format!("{name} {:#06x}\n", bits & 0x0FFF),
            (Some("reserved"), Some(_)) => format!("{name} 0x00\n"),
            _ => format!("{line}\n"),
        }
    };
    lines.lines().map(cleared).collect()
}

fn service_lines(member: &Member) -> [String; 4] {
    let [transmits, receives] = [member.transmits, member.receives].map(u8::from);
    [
        format!("{SERVICE_FIELD}t {transmits}"),
        format!("{SERVICE_FIELD}r {receives}"),
        format!("{SERVICE_FIELD}reserved 0x00"),
        format!("{SERVICE_FIELD}i_sid {:#08x}", member.service),
    ]
}

#[cfg(test)]
mod tests {
    use super::*;

    #[test]
    fn reserved_bits_alone_are_cleared() {
        let [before, after] = [("0xf00a", "0x3f"), ("0x000a", "0x00")].map(|(vid, reserved)| {
            let service = format!("{SERVICE_FIELD}t 1\n{SERVICE_FIELD}reserved {reserved}\n");
            format!("clv.type 144\n{SERVICE_FIELD}base_vid {vid}\n{service}{SERVICE_FIELD}i_sid 0xfffffe\n")
        });
        assert_eq!(without_reserved_bits(&before), after);
    }

    #[test]
    fn fields_sub_tlvs_and_complaints_are_shown_by_frame() {
        let pdml = "<packet>\n\
            <field name=\"eth.len\" showname=\"Length: 70\" show=\"70\"/>\n\
            <field name=\"isis.lsp.clv.type\" showname=\"Type: 144\" size=\"1\" show=\"144\" value=\"90\"/>\n\
            <field name=\"\" show=\"SPB Service ID and Unicast Address: Type: 0x03, Length: 8\" size=\"10\">\n\
            </packet>\n\n<packet>\n<proto name=\"_ws.malformed\" showname=\"[Malformed]\" size=\"0\">\n</packet>\n";
        let sub_tlv = " SPB Service ID and Unicast Address: Type: 0x03, Length: 8\n";
        assert_eq!(dissected(pdml), [format!("clv.type 144\n{sub_tlv}"), "_ws.malformed \n".to_string()]);
    }
}
