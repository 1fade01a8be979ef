//! The two ways to the chosen path compared, and what follows from one call
//! compared with another.

use super::{equal, with_table, Outcome, Setting};
use crate::checked::Checked;
use crate::generate::valid::{plan, Size};
use crate::links::Network;
use crate::path::{exported_check, exported_path_cost, path, REFUSED};
use crate::random::Random;
use crate::rank::Path;
use crate::records::Plan;
use crate::rules::Rules;
use crate::search::chosen_path;
use crate::tree::{tree, TreeLists, NO_BRIDGE};

/// Runs a test for random plans of at most so many bridges.
pub(super) fn for_small_plans(
    setting: &Setting,
    bridges: usize,
    test: &dyn Fn(&Plan, &[u8]) -> Outcome,
) -> Outcome {
    for number in 0..setting.tables {
        let mut random = Random::for_case(setting.seed, number);
        let size = Size::up_to(bridges, &mut random);
        let plan = plan(size, &mut random);
        let table = plan.bytes();
        with_table(&table, test(&plan, &table))?;
    }
    Ok(())
}

/// Every two bridges of a plan, equal ones included.
pub(super) fn every_pair(plan: &Plan) -> Vec<(usize, usize)> {
    let size = plan.bridges.len();
    (0..size).flat_map(|from| (0..size).map(move |to| (from, to))).collect()
}

pub(super) fn refused(refusal: crate::refusal::Refusal) -> String {
    format!("a valid table is refused: {refusal:?}")
}

/// A path of a plan whose records have marks.
pub(super) struct MarkedPath<'a> {
    pub plan: &'a Plan,
    /// The table without the marks, as written.
    pub before: &'a Checked,
    /// The chosen path there, by brute force.
    pub taken: Option<Path>,
    /// The path with the marks, under the rules tried.
    pub found: Option<Path>,
}

/// Runs a test for the paths of index 1 in small plans.
pub(super) fn for_marked_paths(
    setting: &Setting,
    unmarked: &dyn Fn(Plan) -> Plan,
    test: &dyn Fn(MarkedPath) -> Outcome,
) -> Outcome {
    for_small_plans(setting, 7, &|plan, table| {
        let now = Checked::new(setting.rules, table).map_err(refused)?;
        let before = Checked::new(Rules::AS_WRITTEN, &unmarked(plan.clone()).bytes()).map_err(refused)?;
        for (from, to) in every_pair(plan) {
            let taken = chosen_path(&before.ranking(1), from, to);
            let found = now.paths_from(1, from)[to].clone();
            let outcome = test(MarkedPath { plan, before: &before, taken, found });
            outcome.map_err(|why| format!("from {from} to {to}: {why}"))?;
        }
        Ok(())
    })
}

/// Label correcting under the rules tried against brute force as written.
pub fn label_correcting_agrees_with_brute_force(setting: &Setting) -> Outcome {
    for_small_plans(setting, 7, &|plan, table| {
        let tried = Checked::new(setting.rules, table).map_err(refused)?;
        let written = Checked::new(Rules::AS_WRITTEN, table).map_err(refused)?;
        for index in [1, 2, 3, 10, 15, 16].into_iter().chain(plan.vids.iter().map(|vid| vid.index)) {
            for (from, to) in every_pair(plan) {
                let expected = chosen_path(&written.ranking(index), from, to);
                let found = tried.paths_from(index, from)[to].clone();
                equal(&format!("index {index} from {from} to {to}"), found, expected)?;
            }
        }
        Ok(())
    })
}

/// Cost and hops on middle and larger tables against all pairs at once, by trying
/// every bridge that may lie between every two.
pub fn costs_agree_with_all_pairs(setting: &Setting) -> Outcome {
    let fewer = Setting { tables: setting.tables.div_ceil(20), ..*setting };
    for_small_plans(&fewer, 40, &|plan, table| {
        let tried = Checked::new(setting.rules, table).map_err(refused)?;
        let expected = least_of_all_pairs(plan, &Network::of(Rules::AS_WRITTEN, plan));
        for (from, to) in every_pair(plan) {
            let found = tried.paths_from(1, from)[to].as_ref().map(|path| (path.cost, path.hops()));
            equal(&format!("cost and hops from {from} to {to}"), found, expected[from][to])?;
        }
        Ok(())
    })
}

/// Least cost, then fewest hops, for every two bridges.
fn least_of_all_pairs(plan: &Plan, network: &Network) -> Vec<Vec<Option<(u64, usize)>>> {
    let size = network.size;
    let direct = |from: usize, to: usize| match network.hop(from, to) {
        _ if from == to => Some((0, 0)),
        hop => hop.map(|hop| (u64::from(hop.cost), 1)),
    };
    let mut least: Vec<Vec<_>> =
        (0..size).map(|from| (0..size).map(|to| direct(from, to)).collect()).collect();
    for between in (0..size).filter(|&between| !plan.bridges[between].overloaded) {
        for from in 0..size {
            for to in 0..size {
                if let (Some(one), Some(other)) = (least[from][between], least[between][to]) {
                    let through = (one.0 + other.0, one.1 + other.1);
                    if least[from][to].is_none_or(|held| through < held) {
                        least[from][to] = Some(through);
                    }
                }
            }
        }
    }
    least
}

/// Exported numbers are those of the check and path calls.
pub fn exported_numbers_agree(setting: &Setting) -> Outcome {
    for_small_plans(setting, 5, &|plan, table| {
        equal("exported check", exported_check(setting.rules, table), 0)?;
        for vid in plan.vids.iter().map(|record| u32::from(record.vid)) {
            for (from, to) in every_pair(plan) {
                let (from, to) = (from as u32, to as u32);
                let mut lent = [0; 64];
                let call = path(setting.rules, table, (vid, from, to), &mut lent);
                let expected =
                    call.map_or_else(|refusal| REFUSED + u64::from(refusal.number), |answer| answer.cost);
                let found = exported_path_cost(setting.rules, table, vid, from, to);
                equal(&format!("path cost {vid} {from} {to}"), found, expected)?;
            }
        }
        Ok(())
    })
}

/// A tree holds what brute force gives bridge by bridge.
pub fn trees_agree(setting: &Setting) -> Outcome {
    for_small_plans(setting, 6, &|plan, table| {
        let written = Checked::new(Rules::AS_WRITTEN, table).map_err(refused)?;
        let size = plan.bridges.len();
        for (vid, from) in plan.vids.iter().flat_map(|vid| (0..size).map(move |from| (vid, from))) {
            let mut lists = [[0; 64]; 3];
            let [costs, hops, before_last] = &mut lists;
            let lent = TreeLists { costs, hops, before_last };
            tree(setting.rules, table, u32::from(vid.vid), from as u32, lent).map_err(refused)?;
            for to in 0..size {
                let path = chosen_path(&written.ranking(vid.index), from, to);
                let expected = path.map_or([0, 0, NO_BRIDGE], |path| {
                    let before =
                        path.bridges.iter().rev().nth(1).map_or(from as u32, |&bridge| bridge as u32);
                    [path.cost as u32, path.hops() as u32, before]
                });
                equal(
                    &format!("tree {} {from}, bridge {to}", vid.vid),
                    lists.map(|list| list[to]),
                    expected,
                )?;
            }
        }
        Ok(())
    })
}
