//! Request A6 of document 02: the diamond with system id extensions, Table 28-1 beside
//! them, priorities that have no range, and that extension bits decide nothing.

use super::agreement::{every_pair, for_small_plans, refused};
use super::fixture::{diamond, ends, extended, holds, link, plan as fixed_plan};
use super::listings::{unmarked_list_as_before, worked_plan, WORKED_LISTING};
use super::standard::{second_bridges, PRIORITY_ORDER};
use super::{equal, with_table, Outcome, Setting};
use crate::call_lines::answer_lines;
use crate::check::check;
use crate::check_line::check_line;
use crate::checked::Checked;
use crate::generate::questions::questions;
use crate::generate::service_questions::service_questions;
use crate::generate::valid::{plan as random_plan, Size};
use crate::listing::listing;
use crate::random::Random;
use crate::rank::Path;
use crate::records::{Bridge, Kind, Plan, EXTENSION_BITS};
use crate::refusal::Refusal;
use crate::rules::{Misreading, Rules};
use crate::search::for_each_simple_path;
use crate::service_lines;

/// Priorities of the diamond's bridges, and the bridges that index 1 and 2 go by from
/// bridge 0 to 3: as at 8000 while bridge 1 has the top bits of 8000, as at 9000 with
/// those of 9000, whatever extensions the bridges have.
pub const EXTENDED_DIAMONDS: [([u16; 4], [u32; 2]); 9] = [
    ([0x8000, 0x8001, 0x8000, 0x8000], [1, 2]),
    ([0x8000, 0x8FFF, 0x8000, 0x8000], [1, 2]),
    ([0x8000, 0x9001, 0x8000, 0x8000], [2, 1]),
    ([0x8FFF, 0x8A5C, 0x8123, 0x8001], [1, 2]),
    ([0x8000, 0x8100, 0x8000, 0x8000], [1, 2]),
    ([0x8000, 0x8000, 0x8001, 0x8000], [1, 2]),
    ([0x8001, 0x8000, 0x8000, 0x8FFF], [1, 2]),
    ([0x8000, 0x9000, 0x8FFF, 0x8000], [2, 1]),
    ([0x8000, 0x9FFF, 0x8FFF, 0x8000], [2, 1]),
];

pub fn diamond_with_extensions(setting: &Setting) -> Outcome {
    for (priorities, [by_first, by_second]) in EXTENDED_DIAMONDS {
        let plan = diamond(priorities);
        for (index, by) in [(1, by_first), (2, by_second)] {
            let outcome = holds(setting, &plan, index, &[([0, 3], Some((&[0, by, 3], 20)))]);
            outcome.map_err(|why| format!("priorities {priorities:04X?}: {why}"))?;
        }
    }
    Ok(())
}

/// The better place in Table 28-1 decides, whichever of the two bridges has the higher
/// extension.
pub fn table_28_1_with_extensions(setting: &Setting) -> Outcome {
    for (one, other) in (0..16).flat_map(|one| (0..16).map(move |other| (one, other))) {
        if one == other {
            continue;
        }
        let better = |order: &[u16; 16]| if order[one] < order[other] { 1 } else { 2 };
        let expected: Vec<u32> = PRIORITY_ORDER.iter().map(better).collect();
        for [first, second] in [[EXTENSION_BITS, 0], [0, EXTENSION_BITS]] {
            let middle = [(one as u16) << 12 | first, (other as u16) << 12 | second];
            let plan = diamond([0x8000, middle[0], middle[1], 0x8000]);
            equal(
                &format!("priorities {middle:04X?}"),
                second_bridges(setting, &plan, 0, 3)?,
                expected.clone(),
            )?;
        }
    }
    Ok(())
}

/// Document 01's address ends 1-5-2-9 and 1-3-4-9 with extensions that would turn the
/// choice round: by every index as without them.
pub fn extensions_and_six_bridges(setting: &Setting) -> Outcome {
    let links =
        [link(0, 1, 10), link(1, 2, 10), link(2, 3, 10), link(0, 4, 10), link(4, 5, 10), link(5, 3, 10)];
    let plan = fixed_plan(&ends([1, 5, 2, 9, 3, 4]), &links);
    holds(setting, &plan, 1, &[([0, 3], Some((&[0, 1, 2, 3], 30)))])?;
    let expected = second_bridges(setting, &plan, 0, 3)?;
    for extensions in [[0, 0, 1, 0, 0, 0], [0, 0, 0, 0, 1, 1], [0, 0xFFF, 0xFFF, 0, 1, 1], [9, 5, 0, 3, 0, 7]]
    {
        let found = second_bridges(setting, &extended(plan.clone(), |bridge| extensions[bridge]), 0, 3)?;
        equal(&format!("extensions {extensions:?}"), found, expected.clone())?;
    }
    Ok(())
}

/// The worked table lists the same with any priorities: every bit alone, all, none.
pub fn priorities_without_range(setting: &Setting) -> Outcome {
    let bits = (0..16).map(|bit| 1 << bit);
    for priority in bits.chain([0, 0xFFFF, EXTENSION_BITS, 0x8001, 0x8FFF]) {
        for bridges in [&[0][..], &[1], &[0, 1]] {
            let mut plan = worked_plan()?;
            bridges.iter().for_each(|&bridge: &usize| plan.bridges[bridge].priority = priority);
            let text = listing(setting.rules, &plan.bytes());
            equal(&format!("priority {priority:04X} of {bridges:?}"), text, WORKED_LISTING.to_string())?;
        }
    }
    Ok(())
}

/// The diamond whose second bridge has the first one's address, and a priority that
/// differs in one bit; and the refusal.
pub fn repeated_addresses() -> Vec<(Plan, Refusal)> {
    let repeated = |bit: u16| {
        let mut plan = diamond([0x8000; 4]);
        let Bridge { address, priority, .. } = plan.bridges[0];
        plan.bridges[1] = Bridge { address, priority: priority ^ 1 << bit, ..plan.bridges[1] };
        (plan, Refusal::of_record(8, Kind::Bridge, Kind::Bridge.words()))
    };
    (0..16).map(repeated).collect()
}

/// 8 goes by the address, whatever the priorities.
pub fn addresses_repeat_with_any_extension(setting: &Setting) -> Outcome {
    for (plan, refusal) in repeated_addresses() {
        let name = format!("priority {:04X}", plan.bridges[1].priority);
        equal(&name, check(setting.rules, &plan.bytes()), Err(refusal))?;
    }
    Ok(())
}

fn cleared(plan: Plan) -> Plan {
    extended(plan, |_| 0)
}

/// Tables without extension bits list as before, when all 16 priority bits were masked.
pub fn tables_without_extensions_list_as_before(setting: &Setting) -> Outcome {
    unmarked_list_as_before(setting, Misreading::ExtensionCounts, &cleared)
}

/// A table lists as, before the request, the same table did with no extension bit set.
pub fn extensions_list_as_if_cleared(setting: &Setting) -> Outcome {
    let before = Rules::with(Misreading::ExtensionCounts);
    for_small_plans(setting, 7, &|plan, table| {
        let expected = listing(before, &cleared(plan.clone()).bytes());
        equal("listing", listing(setting.rules, table), expected)
    })
}

/// The plan with other extension bits: none, all flipped, falling, and one of each bridge.
fn with_other_extensions(plan: &Plan) -> [Plan; 4] {
    let own = |bridge: usize| plan.bridges[bridge].extension();
    [
        cleared(plan.clone()),
        extended(plan.clone(), |bridge| !own(bridge)),
        extended(plan.clone(), |bridge| EXTENSION_BITS - bridge as u16),
        extended(plan.clone(), |bridge| 1 << (bridge % 12)),
    ]
}

/// No line depends on extension bits, of larger plans neither.
pub fn extensions_change_no_listing(setting: &Setting) -> Outcome {
    for_small_plans(setting, 7, &|plan, table| {
        let text = listing(setting.rules, table);
        let others = with_other_extensions(plan);
        others
            .iter()
            .try_for_each(|other| equal("listing", listing(setting.rules, &other.bytes()), text.clone()))
    })?;
    let mut random = Random::new(setting.seed);
    for _ in 0..setting.tables / 100 {
        let size = Size { bridges: 8 + random.below(57), vids: 2, members: 12 };
        let plan = random_plan(size, &mut random);
        let [text, without] =
            [plan.bytes(), cleared(plan.clone()).bytes()].map(|table| listing(setting.rules, &table));
        with_table(&plan.bytes(), equal("listing", text, without))?;
    }
    Ok(())
}

/// Nor does any answer of check, path, tree, entries and the service calls, or any place of
/// a lent list.
pub fn extensions_change_no_answer(setting: &Setting) -> Outcome {
    let fewer = Setting { tables: setting.tables.div_ceil(5), ..*setting };
    for_small_plans(&fewer, 6, &|plan, table| {
        let mut random = Random::new(setting.seed);
        let asked = questions(table, &mut random);
        let asked_of_services = service_questions(table, &mut random);
        let answers = |table: &[u8]| {
            let calls = answer_lines(setting.rules, table, &asked);
            let services = service_lines::answer_lines(setting.rules, table, &asked_of_services);
            [vec![check_line(setting.rules, table)], calls, services]
        };
        let expected = answers(table);
        let others = with_other_extensions(plan);
        others.iter().try_for_each(|other| equal("answers", answers(&other.bytes()), expected.clone()))
    })
}

/// A bridge's place in the order of an index by Table 28-1 alone: the place of its top
/// bits, then those of the four-bit digits of its address. Every mask has two equal
/// digits, so that the table, which is of priorities, holds for each digit.
fn places(index: u16, bridge: &Bridge) -> Vec<u16> {
    let order = &PRIORITY_ORDER[usize::from(index) - 1];
    let digits = (0..12).rev().map(|digit| bridge.address >> (4 * digit) & 0xF);
    let top = u64::from(bridge.priority >> 12);
    [top].into_iter().chain(digits).map(|digit| order[digit as usize]).collect()
}

/// Of all paths between two bridges the chosen one has the least cost, then the fewest
/// hops, then the lowest sorted list of places.
pub fn least_by_top_bits_and_address(setting: &Setting) -> Outcome {
    for_small_plans(setting, 6, &|plan, table| {
        let tried = Checked::new(setting.rules, table).map_err(refused)?;
        let written = Checked::new(Rules::AS_WRITTEN, table).map_err(refused)?;
        for index in plan.vids.iter().map(|vid| vid.index) {
            let rank = |path: &Path| {
                let mut list: Vec<_> =
                    path.bridges.iter().map(|&bridge| places(index, &plan.bridges[bridge])).collect();
                list.sort_unstable();
                (path.cost, path.hops(), list)
            };
            for (from, to) in every_pair(plan) {
                let mut paths = Vec::new();
                let ranking = written.ranking(index);
                for_each_simple_path(&ranking, from, to, &mut |path| paths.push(path.clone()));
                let expected = paths.into_iter().min_by_key(rank);
                let found = tried.paths_from(index, from)[to].clone();
                equal(&format!("index {index} from {from} to {to}"), found, expected)?;
            }
        }
        Ok(())
    })
}
