//! The tree call: for a VID and a bridge, into lent lists, for each bridge the
//! cost and hops of the path to it and the last bridge but one of that path.
//! Refusals: the table's own, 11, 13 where any lent list is shorter than the
//! number of bridges; never 12.

use crate::checked::Checked;
use crate::lent;
use crate::rank::Path;
use crate::refusal::Refusal;
use crate::rules::{Misreading, Rules};

/// Given for the last bridge but one where no path exists.
pub const NO_BRIDGE: u32 = 65_535;

/// The three lists that a tree is written to.
pub struct TreeLists<'a> {
    pub costs: &'a mut [u32],
    pub hops: &'a mut [u32],
    pub before_last: &'a mut [u32],
}

/// The number of bridges written to each list.
pub fn tree(rules: Rules, table: &[u8], vid: u32, bridge: u32, lists: TreeLists) -> Result<usize, Refusal> {
    tree_in(&Checked::new(rules, table)?, vid, bridge, lists)
}

/// The tree call of a table that was checked.
pub fn tree_in(checked: &Checked, vid: u32, bridge: u32, lists: TreeLists) -> Result<usize, Refusal> {
    let rules = checked.rules;
    let index = checked.index_of(vid)?;
    let from = checked.bridge(bridge)?;
    let paths = checked.paths_from(index, from);
    let size = paths.len();
    let shortest = lists.costs.len().min(lists.hops.len()).min(lists.before_last.len());
    if shortest < size {
        return Err(Refusal::SHORT_LIST);
    }
    let column = |value: &dyn Fn(&Path) -> u32, otherwise: u32| -> Vec<u32> {
        paths.iter().map(|path| path.as_ref().map_or(otherwise, value)).collect()
    };
    lent::write(rules, &column(&|path| path.cost as u32, 0), lists.costs)?;
    lent::write(rules, &column(&|path| path.hops() as u32, 0), lists.hops)?;
    lent::write(rules, &column(&|path| before_last(rules, path), NO_BRIDGE), lists.before_last)?;
    Ok(size)
}

/// The last bridge but one; of a path without a hop, its one bridge.
fn before_last(rules: Rules, path: &Path) -> u32 {
    let last = path.hops();
    let place = if rules.has(Misreading::TreeGivesFirstHop) { last.min(1) } else { last.saturating_sub(1) };
    path.bridges[place] as u32
}
