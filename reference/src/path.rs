//! The path call, and the two numbers exported to C programs.

use crate::check::check;
use crate::checked::Checked;
use crate::lent;
use crate::rank::Path;
use crate::refusal::Refusal;
use crate::rules::{Misreading, Rules};

/// What exported path cost adds to a refusal number.
pub const REFUSED: u64 = 4_294_967_296;

#[derive(Clone, Copy, PartialEq, Eq, Debug)]
pub struct PathAnswer {
    pub cost: u64,
    pub hops: usize,
}

/// Path (VID, from, to): the bridges into the lent list; cost and hops.
pub fn path(
    rules: Rules,
    table: &[u8],
    (vid, from, to): (u32, u32, u32),
    lent: &mut [u32],
) -> Result<PathAnswer, Refusal> {
    path_in(&Checked::new(rules, table)?, (vid, from, to), lent)
}

/// The path call of a table that was checked.
pub fn path_in(
    checked: &Checked,
    (vid, from, to): (u32, u32, u32),
    lent: &mut [u32],
) -> Result<PathAnswer, Refusal> {
    let path = named_path(checked, vid, from, to)?;
    let bridges: Vec<u32> = path.bridges.iter().map(|&bridge| bridge as u32).collect();
    lent::write(checked.rules, &bridges, lent)?;
    Ok(PathAnswer { cost: given_cost(checked, &path), hops: path.hops() })
}

/// The chosen path of a VID between two bridges that a call names: 11, then 12.
pub fn named_path(checked: &Checked, vid: u32, from: u32, to: u32) -> Result<Path, Refusal> {
    let rules = checked.rules;
    if from == to && rules.has(Misreading::SameBridgeUnchecked) {
        return Ok(Path { bridges: vec![from as usize], cost: 0 });
    }
    let unknown = |refusal| if rules.has(Misreading::TwelveForUnknown) { Refusal::NO_PATH } else { refusal };
    let index = checked.index_of(vid).map_err(unknown)?;
    let from = checked.bridge(from).map_err(unknown)?;
    let to = checked.bridge(to).map_err(unknown)?;
    let path = checked.paths_from(index, from)[to].clone().ok_or(Refusal::NO_PATH)?;
    if path.hops() > 1 && rules.has(Misreading::TwelveBeforeSearching) {
        return Err(Refusal::NO_PATH);
    }
    Ok(path)
}

fn given_cost(checked: &Checked, path: &Path) -> u64 {
    let first = path.bridges.get(1).and_then(|&next| checked.network.hop(path.bridges[0], next));
    match first {
        Some(hop) if checked.rules.has(Misreading::InventedCost) => u64::from(hop.cost),
        _ => path.cost,
    }
}

/// Exported check: 0 or the refusal number.
pub fn exported_check(rules: Rules, table: &[u8]) -> u32 {
    check(rules, table).map_or_else(|refusal| refusal.number, |_| 0)
}

/// Exported path cost: the cost, or 4,294,967,296 plus the refusal number.
/// It takes no list and never gives 13.
pub fn exported_path_cost(rules: Rules, table: &[u8], vid: u32, from: u32, to: u32) -> u64 {
    let answer = Checked::new(rules, table).and_then(|checked| {
        let path = named_path(&checked, vid, from, to)?;
        if rules.has(Misreading::ExportedThirteen) {
            return Err(Refusal::SHORT_LIST);
        }
        Ok(given_cost(&checked, &path))
    });
    answer.unwrap_or_else(|refusal| REFUSED + u64::from(refusal.number))
}
