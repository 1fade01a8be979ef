//! Every figure under "Diamonds and other figures" of document 01, and the
//! greatest sizes that it names.

use super::fixture::{
    diamond as diamond_plan, down, ends, link, links_7_and_9, numbered_plan, plan, port_taken, route,
};
use super::{ensure, equal, Outcome, Setting};
use crate::check::{check, Counts, LONGEST_TABLE};
use crate::entries::{entries, LONGEST_LIST};
use crate::generate::shapes::Shape;
use crate::generate::valid::{full_network, fullest, longest_star};
use crate::path::{exported_check, exported_path_cost, path, PathAnswer};
use crate::random::Random;
use crate::records::{Kind, Plan, GREATEST_USABLE_METRIC, UNUSABLE_METRIC};
use crate::refusal::Refusal;

/// The chosen path of an index, with cost and hops.
fn goes(setting: &Setting, plan: &Plan, index: u32, bridges: &[u32], cost: u64) -> Outcome {
    let (from, to) = (bridges[0], bridges[bridges.len() - 1]);
    let answer = PathAnswer { cost, hops: bridges.len() - 1 };
    equal(
        &format!("index {index}"),
        route(setting.rules, plan, index, from, to),
        Ok((bridges.to_vec(), answer)),
    )
}

pub fn diamond(setting: &Setting) -> Outcome {
    let plan = diamond_plan([0x8000; 4]);
    for (index, by) in [(1, 1), (2, 2), (10, 2), (9, 1)] {
        goes(setting, &plan, index, &[0, by, 3], 20)?;
        goes(setting, &plan, index, &[3, by, 0], 20)?;
    }
    Ok(())
}

pub fn diamond_with_priority(setting: &Setting) -> Outcome {
    let plan = diamond_plan([0x8000, 0x9000, 0x8000, 0x8000]);
    goes(setting, &plan, 1, &[0, 2, 3], 20)?;
    goes(setting, &plan, 2, &[0, 1, 3], 20)
}

pub fn direct_link(setting: &Setting) -> Outcome {
    let two = plan(&ends([1, 2, 3]), &[link(0, 2, 20), link(0, 1, 10), link(1, 2, 10)]);
    let three = [link(0, 3, 20), link(0, 1, 6), link(1, 2, 6), link(2, 3, 6)];
    let three = plan(&ends([1, 2, 3, 4]), &three);
    for index in 1..=16 {
        goes(setting, &two, index, &[0, 2], 20)?;
        goes(setting, &three, index, &[0, 1, 2, 3], 18)?;
    }
    Ok(())
}

/// Address ends 1-5-2-9 and 1-3-4-9, all hops equal, index 1: the first.
pub fn six_bridges(setting: &Setting) -> Outcome {
    let links =
        [link(0, 1, 10), link(1, 2, 10), link(2, 3, 10), link(0, 4, 10), link(4, 5, 10), link(5, 3, 10)];
    goes(setting, &plan(&ends([1, 5, 2, 9, 3, 4]), &links), 1, &[0, 1, 2, 3], 30)
}

/// Links 7 and 9, in both orders of their records.
pub fn parallel_links(setting: &Setting) -> Outcome {
    let port = |plan: &Plan| port_taken(setting.rules, plan, 0, 1);
    equal("link 7 on port 1", port(&links_7_and_9([10, 10])), Ok(Some(1)))?;
    let exchanged = numbered_plan(&ends([1, 2]), &[link(0, 1, 10), link(0, 1, 10)], &[9, 7]);
    equal("link 7 on port 2", port(&exchanged), Ok(Some(2)))?;
    equal("link 9 of cost 10 on port 2", port(&links_7_and_9([12, 10])), Ok(Some(2)))
}

pub fn metric_ends(setting: &Setting) -> Outcome {
    let with = |metrics: [u32; 2]| plan(&ends([1, 2]), &[(0, 1, metrics)]);
    let usable = with([GREATEST_USABLE_METRIC; 2]);
    goes(setting, &usable, 1, &[0, 1], u64::from(GREATEST_USABLE_METRIC))?;
    for metrics in [[UNUSABLE_METRIC, 1], [1, UNUSABLE_METRIC], [UNUSABLE_METRIC; 2]] {
        let found = route(setting.rules, &with(metrics), 1, 0, 1);
        equal(&format!("metrics {metrics:?}"), found, Err(Refusal::NO_PATH))?;
    }
    goes(setting, &with([10, 12]), 1, &[0, 1], 12)?;
    goes(setting, &with([10, 12]), 1, &[1, 0], 12)
}

pub fn least_and_empty_table(setting: &Setting) -> Outcome {
    let none = Counts { bridges: 0, half_links: 0, usable_links: 0, vids: 0, members: 0 };
    equal("F0000000", check(setting.rules, &[0xF0, 0, 0, 0]), Ok(none))?;
    equal("empty", check(setting.rules, &[]), Err(Refusal::LENGTH))
}

pub fn sixty_four_bridges(setting: &Setting) -> Outcome {
    let mut random = Random::new(setting.seed);
    let bridges = |count: usize, random: &mut Random| Plan {
        bridges: full_network(Shape::Ring, count, random).bridges,
        ..Plan::default()
    };
    let counted = check(setting.rules, &bridges(64, &mut random).bytes()).map(|counts| counts.bridges);
    equal("64 bridges", counted, Ok(64))?;
    let refused = check(setting.rules, &bridges(65, &mut random).bytes());
    equal("65 bridges", refused, Err(Refusal::of_record(5, Kind::Bridge, 3 * 64)))
}

pub fn places_for_two_hops(setting: &Setting) -> Outcome {
    let table = diamond_plan([0x8000; 4]).bytes();
    let question = (1, 0, 3);
    let mut three = [7; 3];
    let answer = PathAnswer { cost: 20, hops: 2 };
    equal("three places", path(setting.rules, &table, question, &mut three), Ok(answer))?;
    equal("list", three, [0, 1, 3])?;
    let mut two = [7; 2];
    equal("two places", path(setting.rules, &table, question, &mut two), Err(Refusal::SHORT_LIST))?;
    equal("list", two, [7; 2])
}

/// 9,540 bytes are accepted; one word more is 1, whatever it holds.
pub fn longest_table(setting: &Setting) -> Outcome {
    let mut table = down(fullest(&mut Random::new(setting.seed)), &[]).bytes();
    equal("length", table.len(), LONGEST_TABLE)?;
    let counts = Counts { bridges: 64, half_links: 512, usable_links: 256, vids: 16, members: 64 };
    equal("fullest", check(setting.rules, &table), Ok(counts))?;
    table.extend([0; 4]);
    equal("one word more", check(setting.rules, &table), Err(Refusal::LENGTH))
}

/// The star reaches exactly the greatest number of words: 16 VIDs of 63
/// individual entries; 63 group entries for the middle, 62 for each leaf.
pub fn longest_entry_list(setting: &Setting) -> Outcome {
    let table = longest_star().bytes();
    let mut list = vec![0; LONGEST_LIST];
    equal(
        "words of the middle",
        entries(setting.rules, &table, 0, &mut list),
        Ok(3 * (16 * 63 + 63 + 63 * 62)),
    )?;
    equal("greatest number", LONGEST_LIST, 14_931)?;
    let leaf = entries(setting.rules, &table, 63, &mut list);
    ensure!(leaf.is_ok_and(|words| words < LONGEST_LIST), "a leaf has fewer words: {leaf:?}");
    let short = entries(setting.rules, &table, 0, &mut list[1..]);
    equal("one place less", short, Err(Refusal::SHORT_LIST))
}

/// Exported numbers: the cost, 0 from a bridge to itself, and 4,294,967,296 plus
/// the refusal number.
pub fn exported_figures(setting: &Setting) -> Outcome {
    let table = diamond_plan([0x8000; 4]).bytes();
    let apart = plan(&ends([1, 2]), &[(0, 1, [1, UNUSABLE_METRIC])]).bytes();
    let figures: [(&str, &[u8], [u32; 3], u64); 7] = [
        ("two hops", &table, [1, 0, 3], 20),
        ("the same bridge", &table, [1, 2, 2], 0),
        ("an empty table", &[], [1, 0, 1], 4_294_967_297),
        ("an unknown VID", &table, [17, 2, 2], 4_294_967_307),
        ("an unknown bridge", &table, [1, 0, 4], 4_294_967_307),
        ("a number wider than 16 bits", &table, [65_537, 0, 3], 4_294_967_307),
        ("no path", &apart, [1, 0, 1], 4_294_967_308),
    ];
    for (name, table, [vid, from, to], expected) in figures {
        equal(name, exported_path_cost(setting.rules, table, vid, from, to), expected)?;
    }
    equal("check of the diamond", exported_check(setting.rules, &table), 0)?;
    equal("check of an empty table", exported_check(setting.rules, &[]), 1)
}
