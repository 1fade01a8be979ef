//! The stored case of the program `probe_services`: questions to the worked example of
//! document 01 with each refusal of reading and writing and the ends of each range,
//! bridges with 60, 61 and 64 members of a VID, the table of one word, refused tables,
//! and a seeded table with seeded questions.
//! Holds a folder's `stdin` and `stdout` to it, or writes them with `--write`.

use std::io;
use std::path::Path;
use std::process::ExitCode;

use reference::arguments::{Arguments, Usage};
use reference::comparing::stored;
use reference::generate::sub_tlvs::damaged_sub_tlv;
use reference::generate::valid::{plan as seeded_plan, Size};
use reference::properties::fixture::{ends, plan as fixed_plan};
use reference::random::Random;
use reference::records::{Member, Plan};
use reference::rules::Rules;
use reference::service_lines::{answer_lines, request, ServiceQuestion};
use reference::service_writing::{write_services, LONGEST_SUB_TLV, LONGEST_WRITING};
use reference::sub_tlv::{Service, SubTlv, HEADING, SERVICE};
use reference::words::{bytes_of, from_text};

const USAGE: Usage =
    Usage { text: "service-vectors --folder NAME [--write]", values: &["folder"], flags: &["write"] };

type Asked = (Vec<u8>, Vec<ServiceQuestion>);

fn main() -> io::Result<ExitCode> {
    let arguments = Arguments::of_process(&USAGE);
    let folder = Path::new(arguments.required("folder"));
    let asked = asked();
    let input: Vec<u8> = asked.iter().flat_map(|(table, questions)| request(table, questions)).collect();
    let answers = |(table, questions): &Asked| answer_lines(Rules::AS_WRITTEN, table, questions).concat();
    let lines: String = asked.iter().map(answers).collect();
    println!("service-vectors: {} tables, {} lines", asked.len(), lines.lines().count());
    stored("service-vectors", folder, arguments.has("write"), &input, &lines)
}

fn asked() -> Vec<Asked> {
    let worked = from_text(include_str!("../../../examples/two-bridges.hex")).expect("hexadecimal text");
    let few = || vec![read(of_bridge_1(&[256]).bytes(), 2), read(Vec::new(), 0), write(0, 10, 1)];
    let mut asked = vec![(worked.clone(), to_worked_example())];
    asked.extend([60, 61, 64].map(with_members));
    asked.push((bytes_of(&[0xF000_0000]), few()));
    asked.push((Vec::new(), few()));
    asked.push((worked[..12].to_vec(), few()));
    asked.push((worked[..worked.len() - 4].to_vec(), few()));
    asked.push(seeded());
    asked.push((worked, Vec::new()));
    asked
}

fn read(sub_tlv: Vec<u8>, places: usize) -> ServiceQuestion {
    ServiceQuestion::Read { sub_tlv, places }
}

fn write(bridge: u32, vid: u32, places: usize) -> ServiceQuestion {
    ServiceQuestion::Write { bridge, vid, places }
}

/// A sub-TLV of the worked example's bridge 1 and VID, T and R in all four ways.
fn of_bridge_1(i_sids: &[u32]) -> SubTlv {
    let service = |(place, &i_sid): (usize, &u32)| Service {
        transmits: place & 1 == 0,
        receives: place & 2 == 0,
        reserved: 0,
        i_sid,
    };
    let services = i_sids.iter().enumerate().map(service).collect();
    SubTlv { b_mac: 0x0200_0000_0002, reserved: 0, vid: 10, services }
}

fn to_worked_example() -> Vec<ServiceQuestion> {
    [lists(), forms(), names(), services(), several_faults(), writings()].concat()
}

/// Lists that just hold the answer, are a place short or longer, and hold nothing; all
/// reserved bits set; no service and 61.
fn lists() -> Vec<ServiceQuestion> {
    let two = of_bridge_1(&[256, 16_777_214]);
    let mut reserved = SubTlv { reserved: 0x0F, ..of_bridge_1(&[256, 1_000, 1_001, 1_002]) };
    reserved.services.iter_mut().for_each(|service| service.reserved = 0x3F);
    let most = of_bridge_1(&Vec::from_iter(1_000..1_061));
    let mut questions: Vec<ServiceQuestion> = [4, 3, 5, 0].map(|places| read(two.bytes(), places)).to_vec();
    questions.push(read(reserved.bytes(), 9));
    questions.extend([0, 1].map(|places| read(of_bridge_1(&[]).bytes(), places)));
    questions.push(read(most.bytes(), 122));
    questions.push(read(most.bytes(), 121));
    questions
}

/// 15: every shorter length, other types and lengths, bytes after the sub-TLV, parts of
/// a service that the length counts, two in a row, and 62 services.
fn forms() -> Vec<ServiceQuestion> {
    let whole = of_bridge_1(&[256]).bytes();
    let sixty_two = of_bridge_1(&Vec::from_iter(1_000..1_062)).bytes();
    let with = |bytes: &[u8], place: usize, value: u8| {
        let mut other = bytes.to_vec();
        other[place] = value;
        other
    };
    let mut forms: Vec<Vec<u8>> = (0..whole.len()).map(|length| whole[..length].to_vec()).collect();
    forms.extend([0, 2, 4, 0x83].map(|value| with(&whole, 0, value)));
    forms.extend([0, 8, 10, 11, 13, 14, 16, 255].map(|value| with(&whole, 1, value)));
    for more in 1..=SERVICE {
        let longer = [whole.clone(), vec![0x40; more]].concat();
        forms.push(longer.clone());
        forms.push(with(&longer, 1, (HEADING + 2 + more) as u8));
    }
    forms.push([whole.clone(), whole].concat());
    forms.extend([0, 252, 255].map(|value| with(&sixty_two, 1, value)));
    forms.into_iter().map(|form| read(form, 4)).collect()
}

/// 16: another B-MAC, one with the priority before it, VIDs that have no record; and the
/// VID with reserved bits, which is known.
fn names() -> Vec<ServiceQuestion> {
    let known = of_bridge_1(&[256]);
    let b_macs =
        [0, 0x0200_0000_0003, 0x0300_0000_0002, 0x8000_0200_0000, 0x8000_0000_0002, 0x0200_0000_0001];
    let vids = [0, 11, 2_058, 4_095];
    let mut sub_tlvs: Vec<SubTlv> = b_macs.map(|b_mac| SubTlv { b_mac, ..known.clone() }).to_vec();
    sub_tlvs.extend(vids.map(|vid| SubTlv { vid, ..known.clone() }));
    sub_tlvs.extend([1, 8].map(|reserved| SubTlv { reserved, ..known.clone() }));
    sub_tlvs.iter().map(|sub_tlv| read(sub_tlv.bytes(), 2)).collect()
}

/// The ends of the range of I-SIDs, repeats with equal and other T and R, and of several
/// faulty services the first.
fn services() -> Vec<ServiceQuestion> {
    let all: [&[u32]; 14] = [
        &[0],
        &[255],
        &[256],
        &[16_777_214],
        &[16_777_215],
        &[256, 256],
        &[256, 257, 258, 259, 256],
        &[256, 257, 256, 257],
        &[256, 256, 0],
        &[256, 0, 256],
        &[300, 0, 0],
        &[0, 0],
        &[300, 301, 302, 16_777_215],
        &[255, 300, 300],
    ];
    all.iter().map(|i_sids| read(of_bridge_1(i_sids).bytes(), 2 * i_sids.len())).collect()
}

/// Faults of several numbers at once, and lists that are short besides.
fn several_faults() -> Vec<ServiceQuestion> {
    let [range, repeat] = [&[0, 256][..], &[256, 256]].map(of_bridge_1);
    let unknown = |sub_tlv: &SubTlv| SubTlv { b_mac: 7, ..sub_tlv.clone() };
    let mut questions = Vec::new();
    for sub_tlv in [&range, &repeat, &unknown(&range), &unknown(&repeat), &unknown(&of_bridge_1(&[256]))] {
        let mut typed = sub_tlv.bytes();
        typed[0] = 1;
        questions.extend([read(sub_tlv.bytes(), 0), read(sub_tlv.bytes(), 4), read(typed, 0)]);
    }
    questions
}

/// Each bridge into lists around what it needs, and names that the table lacks.
fn writings() -> Vec<ServiceQuestion> {
    let mut questions: Vec<ServiceQuestion> = [14, 13, 15, 0].map(|places| write(0, 10, places)).to_vec();
    questions.push(write(1, 10, 14));
    let unknown = [(2, 10), (65_536, 10), (u32::MAX, 10), (0, 0), (0, 11), (0, 65_546), (0, u32::MAX)];
    questions.extend(unknown.map(|(bridge, vid)| write(bridge, vid, 2)));
    questions
}

/// Bridge 1 with so many members of VID 2 and bridge 0 with the rest up to 64: written in
/// full and a place short, and each sub-TLV read back.
fn with_members(count: u16) -> Asked {
    let mut plan = fixed_plan(&ends([1, 2, 3]), &[]);
    plan.vids.truncate(3);
    let member = |place: u16| Member {
        transmits: place & 1 == 1,
        receives: place & 2 == 2,
        service: 70_000 - 300 * u32::from(place),
        bridge: u16::from(place < count),
        vid: 2,
    };
    plan.members = (0..64).map(member).collect();
    let table = plan.bytes();
    let bytes = written(&table);
    let mut questions = vec![write(1, 2, bytes.len()), write(1, 2, bytes.len() - 1), write(0, 2, 30)];
    questions.extend([write(1, 3, 3), write(2, 2, 0), read(bytes.clone(), 3)]);
    let parts = bytes.chunks(LONGEST_SUB_TLV);
    questions.extend(parts.map(|part| read(part.to_vec(), (part.len() - HEADING) / 2)));
    (table, questions)
}

/// The bytes of bridge 1 and VID 2.
fn written(table: &[u8]) -> Vec<u8> {
    let mut lent = [0; LONGEST_WRITING];
    let written = write_services(Rules::AS_WRITTEN, table, 1, 2, &mut lent);
    lent[..written.expect("the names are the table's")].to_vec()
}

fn seeded() -> Asked {
    let mut random = Random::new(1);
    let plan: Plan = seeded_plan(Size { bridges: 4, vids: 2, members: 8 }, &mut random);
    let mut questions = Vec::new();
    while questions.len() < 16 {
        let sub_tlv = damaged_sub_tlv(&plan, &mut random);
        if sub_tlv.len() < 80 {
            questions.push(read(sub_tlv, 8));
        }
    }
    (plan.bytes(), questions)
}
