//! Compares the program `probe_services` with an outside peer: the sub-TLVs that it
//! writes are wrapped into MT-Capability TLVs of IS-IS LSPs, and what tshark reads from
//! them is compared with the table's member records, field by field; likewise what the
//! program and tshark read from seeded sub-TLVs with reserved bits. Then damaged copies,
//! each of which has to be noticed.

use std::path::Path;
use std::process::ExitCode;

use reference::arguments::{Arguments, Usage};
use reference::comparing::{started, text_difference};
use reference::dissection::{expected, expected_of, without_reserved_bits};
use reference::generate::service_plans::{bridges_and_vids, members_of, service_plan};
use reference::generate::sub_tlvs::valid_sub_tlv;
use reference::program::Program;
use reference::random::Random;
use reference::records::{Kind, Member, Plan, Record};
use reference::rules::Rules;
use reference::service_lines::{request, ServiceQuestion, MOST_WORDS};
use reference::service_writing::{LONGEST_WRITING, MOST_WRITTEN};
use reference::sub_tlv::TYPE_AND_LENGTH;
use reference::tshark::{dissected_by_tshark, framed};
use reference::words::to_text;

const USAGE: Usage = Usage {
    text: "compare-tshark --program FILE --folder NAME [--seed N] [--count N] [--require]",
    values: &["program", "folder", "seed", "count"],
    flags: &["require"],
};

/// Sub-TLVs that the program wrote or read, and what tshark is to say of them.
struct Sample {
    name: String,
    sub_tlvs: Vec<Vec<u8>>,
    expected: String,
    services: usize,
}

fn main() -> ExitCode {
    let arguments = Arguments::of_process(&USAGE);
    let mut probe = match started("compare-tshark", &arguments) {
        Ok(probe) => probe,
        Err(code) => return code,
    };
    let folder = Path::new(arguments.required("folder"));
    let (seed, count) = (arguments.number("seed", 1), arguments.number("count", 40));
    println!("compare-tshark: seed {seed}, {count} tables");
    match compare_all(&mut probe, folder, seed, count) {
        Ok(()) => ExitCode::SUCCESS,
        Err(why) => {
            println!("compare-tshark: FAILED at {why}");
            ExitCode::FAILURE
        }
    }
}

fn compare_all(probe: &mut Program, folder: &Path, seed: u64, count: u64) -> Result<(), String> {
    let [mut written, mut read] = [Vec::new(), Vec::new()];
    for number in 0..count {
        let mut random = Random::for_case(seed, number);
        let plan = service_plan(&mut random);
        let table = plan.bytes();
        let named = |why: String| format!("table {number} of seed {seed}, {why}\n{}", to_text(&table));
        written.extend(written_samples(probe, &plan, &table).map_err(named)?);
        read.extend(read_samples(probe, &plan, &table, &mut random).map_err(named)?);
    }
    probe.end()?;
    compare("written", &folder.join("written.pcap"), &written, str::to_string)?;
    compare("read", &folder.join("read.pcap"), &read, without_reserved_bits)?;
    try_damages(&folder.join("damaged.pcap"), &written)
}

/// What the program writes for every bridge and VID with members.
fn written_samples(probe: &mut Program, plan: &Plan, table: &[u8]) -> Result<Vec<Sample>, String> {
    let mut samples = Vec::new();
    for (bridge, vid) in bridges_and_vids(plan) {
        let members = members_of(plan, bridge, vid);
        if members.is_empty() {
            continue;
        }
        let name = format!("bridge {bridge}, VID {vid}");
        let (bridge_number, vid_number) = (bridge as u32, u32::from(vid));
        let question =
            ServiceQuestion::Write { bridge: bridge_number, vid: vid_number, places: LONGEST_WRITING };
        let bytes = answered(probe, table, question, "written").map_err(|why| format!("{name}: {why}"))?;
        let sub_tlvs = parted(&bytes).ok_or(format!("{name}: no sub-TLVs are {bytes:?}"))?;
        samples.push(Sample {
            name,
            sub_tlvs,
            expected: expected(plan, bridge, vid),
            services: members.len(),
        });
    }
    Ok(samples)
}

/// What the program reads from sub-TLVs that an MT-Capability TLV can carry.
fn read_samples(
    probe: &mut Program,
    plan: &Plan,
    table: &[u8],
    random: &mut Random,
) -> Result<Vec<Sample>, String> {
    const OF_EACH_TABLE: usize = 3;
    let mut samples = Vec::new();
    while samples.len() < OF_EACH_TABLE {
        let mut sub_tlv = valid_sub_tlv(plan, random);
        sub_tlv.services.truncate(MOST_WRITTEN);
        if sub_tlv.services.is_empty() {
            continue;
        }
        let (name, bytes) = (format!("{sub_tlv:?}"), sub_tlv.bytes());
        let question = ServiceQuestion::Read { sub_tlv: bytes.clone(), places: MOST_WORDS };
        let words = answered(probe, table, question, "read").map_err(|why| format!("{name}: {why}"))?;
        let expected = expected_of(plan, &members_in(&words));
        samples.push(Sample { name, sub_tlvs: vec![bytes], expected, services: sub_tlv.services.len() });
    }
    Ok(samples)
}

/// The places that the program wrote.
fn answered(
    probe: &mut Program,
    table: &[u8],
    question: ServiceQuestion,
    answer: &str,
) -> Result<Vec<u32>, String> {
    let lines = probe.ask(&request(table, &[question]), 1).map_err(|why| format!("no answer: {why}"))?;
    let line = lines.concat();
    let numbers = line.strip_prefix(answer).map(|rest| rest.split_whitespace().map(str::parse).collect());
    match numbers {
        Some(Ok(numbers)) => {
            let numbers: Vec<u32> = numbers;
            let written = numbers.split_first().and_then(|(&count, places)| places.get(..count as usize));
            written.map(<[u32]>::to_vec).ok_or(format!("the program answers {line}"))
        }
        _ => Err(format!("the program answers {line}")),
    }
}

/// The sub-TLVs that stand in a row, by their lengths.
fn parted(numbers: &[u32]) -> Option<Vec<Vec<u8>>> {
    let bytes: Vec<u8> = numbers.iter().map(|&number| u8::try_from(number).ok()).collect::<Option<_>>()?;
    let mut bytes = &bytes[..];
    let mut sub_tlvs = Vec::new();
    while !bytes.is_empty() {
        let length = usize::from(*bytes.get(1)?);
        let (first, others) = bytes.split_at_checked(TYPE_AND_LENGTH + length)?;
        sub_tlvs.push(first.to_vec());
        bytes = others;
    }
    Some(sub_tlvs)
}

/// The member records of the words that the program read.
fn members_in(words: &[u32]) -> Vec<Member> {
    let member = |part: &[u32]| match Record::read(Rules::AS_WRITTEN, Kind::Member, part) {
        Record::Member(member) => Some(member),
        _ => None,
    };
    words.chunks_exact(Kind::Member.words()).filter_map(member).collect()
}

/// One frame for each sample; `shown` is what is compared of tshark's lines.
fn compare(what: &str, file: &Path, samples: &[Sample], shown: fn(&str) -> String) -> Result<(), String> {
    let frame = |sample: &Sample| framed(&sample.sub_tlvs).map_err(|why| format!("{}: {why}", sample.name));
    let frames = samples.iter().map(frame).collect::<Result<Vec<_>, String>>()?;
    let found = dissected_by_tshark(file, &frames)?;
    for (number, (sample, found)) in samples.iter().zip(&found).enumerate() {
        text_difference(&sample.expected, &shown(found)).map_err(|difference| {
            let (program, tried) = (difference.reference, difference.tried);
            format!("frame {} {what}, {}\nexpected:\n{program}\ntshark:\n{tried}", number + 1, sample.name)
        })?;
    }
    let sub_tlvs: usize = samples.iter().map(|sample| sample.sub_tlvs.len()).sum();
    let services: usize = samples.iter().map(|sample| sample.services).sum();
    let most = samples.iter().map(|sample| sample.services).max().unwrap_or(0);
    if services == 0 {
        return Err(format!("the end: no service {what} was compared"));
    }
    println!(
        "compare-tshark: {sub_tlvs} sub-TLVs {what} agree, {services} services, at most {most} in a frame"
    );
    Ok(())
}

/// Damaged copies of the first sub-TLV of a few samples; tshark is to say something else
/// of each.
fn try_damages(file: &Path, samples: &[Sample]) -> Result<(), String> {
    const TRIED: usize = 10;
    let mut copies = Vec::new();
    for sample in samples.iter().take(TRIED) {
        for (name, sub_tlv) in damages(&sample.sub_tlvs[0]) {
            let sub_tlvs = [vec![sub_tlv], sample.sub_tlvs[1..].to_vec()].concat();
            copies.push((name, sample, framed(&sub_tlvs)?));
        }
    }
    let frames: Vec<Vec<u8>> = copies.iter().map(|(_, _, frame)| frame.clone()).collect();
    let found = dissected_by_tshark(file, &frames)?;
    for ((name, sample, _), found) in copies.iter().zip(&found) {
        if *found == sample.expected {
            return Err(format!("{}: a damaged copy is not noticed: {name}", sample.name));
        }
    }
    println!("compare-tshark: all {} damaged copies are noticed", copies.len());
    Ok(())
}

/// One change in each field, and T and R exchanged where they differ.
fn damages(sub_tlv: &[u8]) -> Vec<(&'static str, Vec<u8>)> {
    let flipped = |place: usize, bits: u8| {
        let mut other = sub_tlv.to_vec();
        other[place] ^= bits;
        other
    };
    let mut copies = vec![
        ("type", flipped(0, 0x04)),
        ("length", flipped(1, 0x04)),
        ("B-MAC", flipped(7, 0x01)),
        ("reserved bits before the Base VID", flipped(8, 0x80)),
        ("Base VID", flipped(9, 0x01)),
        ("T", flipped(10, 0x80)),
        ("R", flipped(10, 0x40)),
        ("reserved bits of a service", flipped(10, 0x01)),
        ("I-SID", flipped(13, 0x01)),
    ];
    if [0x80, 0x40].contains(&(sub_tlv[10] & 0xC0)) {
        copies.push(("T and R exchanged", flipped(10, 0xC0)));
    }
    copies
}
