//! Lent lists of every length, unknown names, and tables that every call refuses.

use std::fmt::Debug;

use super::agreement::{every_pair, for_small_plans};
use super::{ensure, equal, with_table, Outcome, Setting};
use crate::checked::Checked;
use crate::entries::{entries, entry_words};
use crate::generate::damage::{damaged, Damaged};
use crate::path::{exported_check, exported_path_cost, path, PathAnswer, REFUSED};
use crate::random::Random;
use crate::records::Plan;
use crate::refusal::Refusal;
use crate::rules::Rules;
use crate::search::chosen_path;
use crate::tree::{tree, TreeLists};

/// What lent lists hold before a call.
pub(super) const OLD: u32 = 0xDEAD_BEEF;

/// Lends lists of every length from none to one more than needed: the answer
/// where it fits and nothing else changed, else 13 and nothing changed at all.
pub(super) fn for_every_length<W: PartialEq + Debug + Copy, T: PartialEq + Debug + Clone>(
    old: W,
    answer: &[W],
    value: &T,
    call: &dyn Fn(&mut [W]) -> Result<T, Refusal>,
) -> Outcome {
    for length in 0..=answer.len() + 1 {
        let mut lent = vec![old; length];
        let mut expected = lent.clone();
        let result = if length < answer.len() {
            Err(Refusal::SHORT_LIST)
        } else {
            expected[..answer.len()].copy_from_slice(answer);
            Ok(value.clone())
        };
        equal(&format!("answer with {length} places"), call(&mut lent), result)?;
        equal(&format!("list of {length} places"), lent, expected)?;
    }
    Ok(())
}

pub fn path_lists_of_every_length(setting: &Setting) -> Outcome {
    for_small_plans(setting, 5, &|plan, table| {
        let written = Checked::new(Rules::AS_WRITTEN, table).map_err(|refusal| format!("{refusal:?}"))?;
        for (vid, (from, to)) in
            plan.vids.iter().flat_map(|vid| every_pair(plan).into_iter().map(move |pair| (vid, pair)))
        {
            let question = (u32::from(vid.vid), from as u32, to as u32);
            let call = |lent: &mut [u32]| path(setting.rules, table, question, lent);
            let Some(chosen) = chosen_path(&written.ranking(vid.index), from, to) else {
                for length in 0..3 {
                    let mut lent = vec![OLD; length];
                    equal("no path", call(&mut lent), Err(Refusal::NO_PATH))?;
                    equal("list", lent, vec![OLD; length])?;
                }
                continue;
            };
            let bridges: Vec<u32> = chosen.bridges.iter().map(|&bridge| bridge as u32).collect();
            for_every_length(OLD, &bridges, &PathAnswer { cost: chosen.cost, hops: chosen.hops() }, &call)?;
        }
        Ok(())
    })
}

pub fn entry_lists_of_every_length(setting: &Setting) -> Outcome {
    let fewer = Setting { tables: setting.tables.div_ceil(10), ..*setting };
    for_small_plans(&fewer, 5, &|plan, table| {
        let checked = Checked::new(setting.rules, table).map_err(|refusal| format!("{refusal:?}"))?;
        for bridge in 0..plan.bridges.len() {
            let words = entry_words(&checked, bridge);
            let call = |lent: &mut [u32]| entries(setting.rules, table, bridge as u32, lent);
            for_every_length(OLD, &words, &words.len(), &call)?;
        }
        Ok(())
    })
}

/// Each of the three lists too short by one, and all long enough.
pub fn tree_lists_of_every_length(setting: &Setting) -> Outcome {
    for_small_plans(setting, 5, &|plan, table| {
        let size = plan.bridges.len();
        let (Some(vid), true) = (plan.vids.first(), size > 0) else {
            return Ok(());
        };
        for lengths in
            [[size - 1, size, size], [size, size - 1, size], [size, size, size - 1], [size; 3], [size + 1; 3]]
        {
            let mut lists = lengths.map(|length| vec![OLD; length]);
            let [costs, hops, before_last] = &mut lists;
            let found =
                tree(setting.rules, table, u32::from(vid.vid), 0, TreeLists { costs, hops, before_last });
            let fits = lengths.iter().all(|&length| length >= size);
            equal(
                &format!("tree into {lengths:?}"),
                found,
                if fits { Ok(size) } else { Err(Refusal::SHORT_LIST) },
            )?;
            let kept = if fits { size } else { 0 };
            ensure!(
                lists.iter().all(|list| list[kept..].iter().all(|&word| word == OLD)),
                "places past {kept} are kept"
            );
        }
        Ok(())
    })
}

/// The four calls that take a table and names, with empty lists, as numbers:
/// path, entries, tree and exported path cost.
fn refusals(setting: &Setting, table: &[u8], vid: u32, from: u32, to: u32) -> [Option<Refusal>; 4] {
    let cost = exported_path_cost(setting.rules, table, vid, from, to);
    let lists = TreeLists { costs: &mut [], hops: &mut [], before_last: &mut [] };
    [
        path(setting.rules, table, (vid, from, to), &mut []).err(),
        entries(setting.rules, table, from, &mut []).err(),
        tree(setting.rules, table, vid, from, lists).err(),
        cost.checked_sub(REFUSED).map(|number| Refusal::plain(number as u32)),
    ]
}

/// Names that a plan lacks: numbers too high, also where their low 16 bits name
/// something; a VID without a record. 11 comes before 12 and 13.
pub fn unknown_names_refused(setting: &Setting) -> Outcome {
    let unknown = Some(Refusal::UNKNOWN_NAME);
    for_small_plans(setting, 5, &|plan, table| {
        let size = plan.bridges.len() as u32;
        for bridge in [size, 64, 65_535, 65_536, u32::MAX] {
            let found = refusals(setting, table, any_vid(plan), bridge, bridge);
            equal(&format!("bridge {bridge}"), found, [unknown; 4])?;
        }
        for vid in [0, 4_095, 65_536 + any_vid(plan), u32::MAX].into_iter().chain(lacking_vid(plan)) {
            for to in [0, size.saturating_sub(1)] {
                let [path, _, tree, exported] = refusals(setting, table, vid, 0, to);
                equal(&format!("VID {vid} to {to}"), [path, tree, exported], [unknown; 3])?;
            }
        }
        Ok(())
    })
}

fn any_vid(plan: &Plan) -> u32 {
    plan.vids.first().map_or(1, |record| u32::from(record.vid))
}

fn lacking_vid(plan: &Plan) -> Option<u32> {
    (1..=4_094).find(|&vid| plan.index_of_vid(vid).is_none()).map(u32::from)
}

/// Every call that takes a table examines it itself, before names and lists.
pub fn faulty_tables_refused_by_every_call(setting: &Setting) -> Outcome {
    for number in 0..setting.tables {
        let mut random = Random::for_case(setting.seed, number);
        let Damaged { name, table, refusal } = damaged(&mut random);
        let expected = Some(refusal);
        let found = refusals(setting, &table, 1, 0, 70_000);
        let outcome =
            equal(&name, found, [expected, expected, expected, Some(Refusal::plain(refusal.number))])
                .and_then(|()| {
                    equal("exported check", exported_check(setting.rules, &table), refusal.number)
                });
        with_table(&table, outcome)?;
    }
    Ok(())
}
