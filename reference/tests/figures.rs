//! The program `figures` prints what is computed here: its stored output, which
//! the gate holds the program to, is the reference's. The tables need not be the
//! program's own byte for byte: counts and refusals follow from the numbers of
//! records alone, and paths from identifiers and metrics.

use reference::check_line::check_line;
use reference::entries::entries;
use reference::generate::valid::longest_star;
use reference::path::path;
use reference::properties::standard::PRIORITY_ORDER;
use reference::records::{Bridge, HalfLink, Member, Plan, Traffic, Vid};
use reference::rules::Rules;

/// Bridges in a ring of 64 with parallel links, VIDs by number, a service for
/// each member; no record has a fault but one over its limit.
fn plan([bridges, half_links, vids, members, traffic]: [u16; 5]) -> Plan {
    let bridge = |n: u16| Bridge {
        overloaded: false,
        source_id: u32::from(n) + 1,
        priority: 0x8000,
        address: 0x0200_0000_0001 + u64::from(n),
    };
    let half_link = |n: u16| {
        let (one, next) = (n / 2 % 64, (n / 2 + 1) % 64);
        let (near, far) = if n.is_multiple_of(2) { (one, next) } else { (next, one) };
        HalfLink { down: false, metric: 10, near, far, port: n + 1, link: n / 2 + 1 }
    };
    let member = |n: u16| Member {
        transmits: true,
        receives: true,
        service: 256 + u32::from(n),
        bridge: n % 64,
        vid: 1,
    };
    let record = |n: u16| Traffic {
        vid: 1,
        amount: 1,
        from: n / 63,
        to: if n % 63 < n / 63 { n % 63 } else { n % 63 + 1 },
    };
    Plan {
        bridges: (0..bridges).map(bridge).collect(),
        half_links: (0..half_links).map(half_link).collect(),
        vids: (0..vids).map(|n| Vid { vid: n + 1, index: n % 16 + 1 }).collect(),
        members: (0..members).map(member).collect(),
        traffic: (0..traffic).map(record).collect(),
    }
}

fn line(name: &str, records: [u16; 5], more: usize) -> String {
    let mut table = plan(records).bytes();
    table.resize(table.len() + 4 * more, 0);
    format!("{name}: {}", check_line(Rules::AS_WRITTEN, &table))
}

/// Bridges with these identifiers and links between them, and VID 1 with index 1.
fn network<const LINKS: usize>(identifiers: &[u64], links: [(u16, u16, u32); LINKS]) -> Vec<u8> {
    let bridge = |(n, &address): (usize, &u64)| Bridge {
        overloaded: false,
        source_id: n as u32 + 1,
        priority: 0,
        address,
    };
    let half_links = |(n, (one, other, metric)): (usize, (u16, u16, u32))| {
        let link = n as u16 + 1;
        let half_link = |near, far, port| HalfLink { down: false, metric, near, far, port, link };
        [half_link(one, other, 2 * n as u16 + 1), half_link(other, one, 2 * n as u16 + 2)]
    };
    let plan = Plan {
        bridges: identifiers.iter().enumerate().map(bridge).collect(),
        half_links: links.into_iter().enumerate().flat_map(half_links).collect(),
        vids: vec![Vid { vid: 1, index: 1 }],
        ..Plan::default()
    };
    plan.bytes()
}

/// The path from bridge 0 to bridge 1 into a list of so many places.
fn path_line(name: &str, table: &[u8], places: usize) -> String {
    let mut list = vec![0; places];
    match path(Rules::AS_WRITTEN, table, (1, 0, 1), &mut list) {
        Ok(answer) => {
            let bridges: String = list.iter().map(|bridge| format!(" {bridge}")).collect();
            format!("{name}: path {} {}{bridges}\n", answer.cost, answer.hops)
        }
        Err(refusal) => format!("{name}: refused {}\n", refusal.number),
    }
}

/// The entries of the middle bridge of the star into a list of so many places.
fn entries_line(name: &str, places: usize) -> String {
    match entries(Rules::AS_WRITTEN, &longest_star().bytes(), 0, &mut vec![0; places]) {
        Ok(words) => format!("{name}: written {words}\n"),
        Err(refusal) => format!("{name}: refused {}\n", refusal.number),
    }
}

/// The priorities of Table 28-1 by their places, for index 1 to 16.
fn order_lines() -> String {
    let line = |(n, places): (usize, &[u16; 16])| {
        let mut priorities: Vec<usize> = (0..16).collect();
        priorities.sort_by_key(|&priority| places[priority]);
        let order: String = priorities.iter().map(|priority| format!(" {priority}")).collect();
        format!("Table 28-1, index {}{order}\n", n + 1)
    };
    PRIORITY_ORDER.iter().enumerate().map(line).collect()
}

#[test]
fn the_program_prints_the_figures() {
    let fewer =
        network(&[9, 22, 15, 7, 8, 10], [(0, 2, 6), (2, 1, 6), (0, 3, 3), (3, 4, 3), (4, 5, 3), (5, 1, 3)]);
    let lower = network(&[9, 22, 15, 99, 100], [(0, 2, 10), (2, 3, 10), (2, 4, 10), (3, 1, 10), (4, 1, 10)]);
    let lines = [
        line("64 bridges", [64, 0, 0, 0, 0], 0),
        line("65 bridges", [65, 0, 0, 0, 0], 0),
        line("512 half-links", [64, 512, 0, 0, 0], 0),
        line("513 half-links", [64, 513, 0, 0, 0], 0),
        line("16 VIDs", [0, 0, 16, 0, 0], 0),
        line("17 VIDs", [0, 0, 17, 0, 0], 0),
        line("64 members", [64, 0, 1, 64, 0], 0),
        line("65 members", [64, 0, 1, 65, 0], 0),
        line("256 traffic records", [64, 0, 1, 0, 256], 0),
        line("257 traffic records", [64, 0, 1, 0, 257], 0),
        line("9540 bytes", [64, 512, 16, 64, 256], 0),
        line("9544 bytes", [64, 512, 16, 64, 256], 1),
        path_line("2 hops into 3 places", &fewer, 3),
        path_line("2 hops into 2 places", &fewer, 2),
        path_line("28.5, 9 15 22 before 7 8 9 10 22", &fewer, 3),
        path_line("28.5, 9 15 22 99 before 9 15 22 100", &lower, 4),
        entries_line("14931 words into 14931 places", 14_931),
        entries_line("14931 words into 14930 places", 14_930),
        order_lines(),
    ];
    assert_eq!(lines.concat(), include_str!("../../crates/figures/stdout"));
}

#[test]
fn the_longest_table_has_9540_bytes() {
    assert_eq!(plan([64, 512, 16, 64, 0]).bytes().len(), 7_492);
    assert_eq!(plan([64, 512, 16, 64, 256]).bytes().len(), 9_540);
}
