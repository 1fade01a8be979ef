//! Request A1 of document 02: the diamond and the worked listing with overloaded
//! bridges, the bits around the overload bit, and what overload leaves as it was.

use std::cmp::Ordering;

use super::agreement::{for_marked_paths, for_small_plans, MarkedPath};
use super::fixture::{diamond, ends, holds, link, overloaded, plan as fixed_plan, with_bits};
use super::listings::{unmarked_list_as_before, worked_plan, WORKED_LISTING};
use super::{ensure, equal, Outcome, Setting};
use crate::check::{check, Counts};
use crate::listing::listing;
use crate::path::exported_path_cost;
use crate::rank::Path;
use crate::records::{Kind, Plan, BELOW_MARK_BIT, MARK_BIT};
use crate::refusal::Refusal;
use crate::rules::Misreading;
use crate::words::bytes_of;

/// The diamond with overloaded bridges, index 1 and 2.
pub fn overloaded_diamond(setting: &Setting) -> Outcome {
    let with = |bridges: &[usize]| overloaded(diamond([0x8000; 4]), bridges);
    for index in [1, 2] {
        let by_1 = ([0, 3], Some((&[0, 1, 3][..], 20)));
        let by_2 = ([0, 3], Some((&[0, 2, 3][..], 20)));
        let by_0 = ([1, 2], Some((&[1, 0, 2][..], 20)));
        let by_3 = ([1, 2], Some((&[1, 3, 2][..], 20)));
        let (end_to_end, across) = if index == 1 { (by_1, by_0) } else { (by_2, by_3) };
        holds(setting, &with(&[]), index, &[end_to_end, across])?;
        holds(setting, &with(&[1]), index, &[by_2, across, ([0, 1], Some((&[0, 1], 10)))])?;
        holds(setting, &with(&[2]), index, &[by_1, across])?;
        holds(setting, &with(&[1, 2]), index, &[([0, 3], None), across])?;
        holds(setting, &with(&[0, 3]), index, &[end_to_end, ([1, 2], None)])?;
        holds(setting, &with(&[0, 1]), index, &[([0, 1], Some((&[0, 1], 10))), by_2, by_3])?;
        let apart = [([0, 3], None), ([1, 2], None), ([2, 3], Some((&[2, 3][..], 10)))];
        holds(setting, &with(&[0, 1, 2, 3]), index, &apart)?;
    }
    Ok(())
}

/// A direct link of 50 against 10 and 10 by an overloaded bridge: direct. Without
/// it 12, also from exported path cost.
pub fn overloaded_bridge_between(setting: &Setting) -> Outcome {
    const TWELVE: u64 = 4_294_967_308;
    let line = [link(0, 1, 10), link(1, 2, 10)];
    let direct = [line[0], line[1], link(0, 2, 50)];
    let with = |links: &[_], bridges: &[usize]| overloaded(fixed_plan(&ends([1, 2, 3]), links), bridges);
    holds(setting, &with(&direct, &[1]), 1, &[([0, 2], Some((&[0, 2], 50)))])?;
    holds(setting, &with(&direct, &[0, 2]), 1, &[([0, 2], Some((&[0, 1, 2], 20)))])?;
    let alone = with(&line, &[1]);
    let reached = [([0, 1], Some((&[0, 1][..], 10))), ([1, 2], Some((&[1, 2][..], 10)))];
    holds(setting, &alone, 1, &[([0, 2], None), reached[0], reached[1]])?;
    equal("exported", exported_path_cost(setting.rules, &alone.bytes(), 1, 0, 2), TWELVE)
}

/// Both bridges of the worked table are ends alone, so that it lists as it does
/// whichever is overloaded; the bit below is a zero bit, beside the overload bit too.
pub fn overload_bit_alone_accepted(setting: &Setting) -> Outcome {
    let (set, below) = (MARK_BIT, BELOW_MARK_BIT);
    let worked = worked_plan()?;
    for bits in [[set, 0], [0, set], [set, set]] {
        let text = listing(setting.rules, &with_bits(&worked, Kind::Bridge, bits));
        equal(&format!("bits {bits:08X?}"), text, WORKED_LISTING.to_string())?;
    }
    for (bits, word) in [([below, 0], 0), ([set, below], 3), ([set, set | below], 3), ([set | below, 0], 0)] {
        let found = check(setting.rules, &with_bits(&worked, Kind::Bridge, bits));
        equal(&format!("bits {bits:08X?}"), found, Err(Refusal::of_record(4, Kind::Bridge, word)))?;
    }
    Ok(())
}

/// Tables without the bit list as before, when a bridge could lie between anywhere.
pub fn tables_without_overload_list_as_before(setting: &Setting) -> Outcome {
    unmarked_list_as_before(setting, Misreading::OverloadIgnored, &|plan| overloaded(plan, &[]))
}

/// The counts of a plan as its records have them, and with any one bridge's bit
/// flipped.
pub fn overload_changes_no_count(setting: &Setting) -> Outcome {
    for_small_plans(setting, 7, &|plan, table| {
        let unmarked = overloaded(plan.clone(), &[]).bytes();
        let counts: Result<Counts, Refusal> = check(setting.rules, &unmarked);
        ensure!(counts.is_ok(), "without overloaded bridges: {counts:?}");
        equal("counts", check(setting.rules, table), counts)?;
        for bridge in 0..plan.bridges.len() {
            let mut words = plan.words();
            words[bridge * Kind::Bridge.words()] ^= MARK_BIT;
            let flipped = check(setting.rules, &bytes_of(&words));
            equal(&format!("counts with bridge {bridge} flipped"), flipped, counts)?;
        }
        Ok(())
    })
}

/// Overload takes paths away and adds none: the chosen path stays where none between
/// is overloaded, else a higher one takes its place, or none.
pub fn overload_takes_paths_away(setting: &Setting) -> Outcome {
    let test = |MarkedPath { plan, before, taken, found }: MarkedPath| match taken {
        Some(taken) if has_overloaded_between(plan, &taken) => {
            let is_higher = |path: &Path| before.ranking(1).compare(path, &taken) == Ordering::Greater;
            let remains = |path: &Path| is_higher(path) && !has_overloaded_between(plan, path);
            ensure!(found.as_ref().is_none_or(remains), "{found:?} takes the place of {taken:?}");
            Ok(())
        }
        kept => equal("path kept", found, kept),
    };
    for_marked_paths(setting, &|plan| overloaded(plan, &[]), &test)
}

fn has_overloaded_between(plan: &Plan, path: &Path) -> bool {
    let last = path.hops();
    path.bridges
        .iter()
        .enumerate()
        .any(|(place, &bridge)| place != 0 && place != last && plan.bridges[bridge].overloaded)
}
