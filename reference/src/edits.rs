//! A plan edited on screen, request A7 of document 02: a running table, one watched bridge
//! and VID with its tree, and a count of changes. The table is edited in lent bytes, and
//! the tree is kept in lent lists in the form of the tree call.
//! Refusals: the running table's own; 11 for a watched name and for the near bridge; 17,
//! 18 and 19; last 13. A refused change alters nothing.

use crate::checked::Checked;
use crate::records::{HalfLink, Kind, Plan, LEAST_METRIC, MARK_BIT, METRIC_BITS, UNUSABLE_METRIC};
use crate::refusal::Refusal;
use crate::rules::{Misreading, Rules};
use crate::tree::{tree, tree_in, TreeLists};
use crate::words::{bytes_of, words_of};

/// The most changes that are made.
pub const MOST_CHANGES: u32 = 65_535;

/// What is kept beside the lent bytes and lists.
#[derive(Clone, Copy, PartialEq, Eq, Debug)]
pub struct State {
    /// The running table's length in bytes.
    pub length: u32,
    /// The watched bridge and VID.
    pub bridge: u32,
    pub vid: u32,
    /// The changes made.
    pub changes: u32,
}

impl State {
    /// The running table: so many of the lent bytes, or all where there are fewer.
    pub fn running<'a>(&self, lent: &'a [u8]) -> &'a [u8] {
        &lent[..lent.len().min(self.length as usize)]
    }
}

/// A change names a half-link by near bridge and port.
#[derive(Clone, Copy, PartialEq, Eq, Debug)]
pub enum Change {
    Metric { near: u32, port: u32, metric: u32 },
    Withdrawal { near: u32, port: u32 },
}

impl Change {
    pub fn near(self) -> u32 {
        let (Change::Metric { near, .. } | Change::Withdrawal { near, .. }) = self;
        near
    }

    pub fn port(self) -> u32 {
        let (Change::Metric { port, .. } | Change::Withdrawal { port, .. }) = self;
        port
    }

    fn is_withdrawal(self) -> bool {
        matches!(self, Change::Withdrawal { .. })
    }
}

/// Load (table, bridge, VID): the tree into the lent lists; the state. The table's own
/// refusals, 11 and 13, as the tree call gives them.
pub fn load(rules: Rules, table: &[u8], bridge: u32, vid: u32, lists: TreeLists) -> Result<State, Refusal> {
    let checked = Checked::new(rules, table)?;
    if rules.has(Misreading::ThirteenBeforeWatched) && are_short(&checked.plan, &lists) {
        return Err(Refusal::SHORT_LIST);
    }
    tree_in(&checked, vid, bridge, lists)?;
    let changes = u32::from(rules.has(Misreading::LoadCounted));
    Ok(State { length: table.len() as u32, bridge, vid, changes })
}

/// Change (state, change): the table edited in the lent bytes, its tree into the lent
/// lists; the state after it.
pub fn change(
    rules: Rules,
    state: &mut State,
    change: Change,
    lent: &mut [u8],
    lists: TreeLists,
) -> Result<(), Refusal> {
    let after = changed(rules, *state, change, lent, lists);
    if after.is_err() && rules.has(Misreading::RefusedChangesCounted) {
        state.changes = state.changes.saturating_add(1);
    }
    *state = after?;
    Ok(())
}

fn changed(
    rules: Rules,
    before: State,
    change: Change,
    lent: &mut [u8],
    lists: TreeLists,
) -> Result<State, Refusal> {
    let running = running(rules, before, lent)?.to_vec();
    let checked = Checked::new(rules, &running)?;
    let number = half_link_to_change(&checked, before, change, &lists)?;
    let words = edited(rules, &checked.plan, &words_of(&running), number, change);
    let edited = bytes_of(&words);
    let shown = if rules.has(Misreading::TreeBeforeChange) { &running } else { &edited };
    let written = write_tree(rules, shown, before, lists);
    if written.is_ok() || rules.has(Misreading::EditedThoughThirteen) {
        store(rules, &bytes_of(&with_end_misread(rules, change, words)), running.len(), lent);
    }
    written?;
    let is_counted = !rules.has(Misreading::EqualMetricUncounted) || edited != running;
    Ok(after(rules, before, change, is_counted, edited.len()))
}

/// The bytes that the state says are the running table.
fn running(rules: Rules, state: State, lent: &[u8]) -> Result<&[u8], Refusal> {
    if rules.has(Misreading::LengthBeyondRefused) && state.length as usize > lent.len() {
        return Err(Refusal::LENGTH);
    }
    Ok(if rules.has(Misreading::AllBytesRunning) { lent } else { state.running(lent) })
}

/// The number among its kind of the half-link that a change is made to, or why the change
/// is refused, but for 13, which the tree's own writing gives last of all.
fn half_link_to_change(
    checked: &Checked,
    state: State,
    change: Change,
    lists: &TreeLists,
) -> Result<usize, Refusal> {
    let rules = checked.rules;
    if rules.has(Misreading::ThirteenBeforeWatched) && are_short(&checked.plan, lists) {
        return Err(Refusal::SHORT_LIST);
    }
    if !rules.has(Misreading::WatchedNamesUnasked) {
        checked.index_of(state.vid)?;
        checked.bridge(state.bridge)?;
    }
    let near = checked.bridge(change.near());
    if !rules.has(Misreading::SeventeenForUnknownNear) {
        near?;
    }
    let found = near.ok().and_then(|near| half_link_named(checked, near, change.port()));
    let applies = |number: &u32| match number {
        13 => are_short(&checked.plan, lists),
        17 => found.is_none(),
        18 => is_out_of_range(rules, change),
        _ => state.changes >= most_changes(rules),
    };
    match refusal_order(rules).iter().copied().find(applies) {
        Some(17) if rules.has(Misreading::ElevenForNoHalfLink) => Err(Refusal::UNKNOWN_NAME),
        Some(number) => Err(refused_with(checked, number, found)),
        None => found.ok_or(Refusal::NO_HALF_LINK),
    }
}

/// The numbers after 11 in the order in which they are asked.
fn refusal_order(rules: Rules) -> &'static [u32] {
    if rules.has(Misreading::EighteenBeforeSeventeen) {
        &[18, 17, 19]
    } else if rules.has(Misreading::NineteenBeforeEighteen) {
        &[17, 19, 18]
    } else if rules.has(Misreading::NineteenBeforeSeventeen) {
        &[19, 17, 18]
    } else if rules.has(Misreading::ThirteenBeforeSeventeen) {
        &[13, 17, 18, 19]
    } else if rules.has(Misreading::ThirteenBeforeNineteen) {
        &[17, 18, 13, 19]
    } else {
        &[17, 18, 19]
    }
}

/// From 17 upward every number carries kind none and word 0.
fn refused_with(checked: &Checked, number: u32, found: Option<usize>) -> Refusal {
    let with_kind = checked.rules.has(Misreading::ChangeRefusedWithKind) && number != 13;
    match found {
        Some(place) if with_kind => {
            Refusal::of_record(number, Kind::HalfLink, first_word(&checked.plan, place))
        }
        _ => Refusal::plain(number),
    }
}

/// Whether any of the lists is shorter than the number of bridges.
fn are_short(plan: &Plan, lists: &TreeLists) -> bool {
    let lengths = [lists.costs.len(), lists.hops.len(), lists.before_last.len()];
    lengths.iter().any(|&length| length < plan.bridges.len())
}

/// The half-link with this near bridge and port, by its number among its kind.
fn half_link_named(checked: &Checked, near: usize, port: u32) -> Option<usize> {
    let rules = checked.rules;
    let port = checked.name(port).ok()?;
    let is_named = |half_link: &HalfLink| {
        let by_far = rules.has(Misreading::NamedByFarBridge);
        let bridge = if by_far { half_link.far } else { half_link.near };
        let has_bridge = usize::from(bridge) == near || rules.has(Misreading::NamedByPortAlone);
        let is_left_out = half_link.down && rules.has(Misreading::DownNotFound);
        has_bridge && half_link.port == port && !is_left_out
    };
    checked.plan.half_links.iter().position(is_named)
}

/// Whether a change gives a metric outside 1 to 16,777,215. A withdrawal gives none.
fn is_out_of_range(rules: Rules, change: Change) -> bool {
    let Change::Metric { metric, .. } = change else {
        return false;
    };
    let least = LEAST_METRIC - u32::from(rules.has(Misreading::ChangeToZeroMade));
    let greatest = UNUSABLE_METRIC - u32::from(rules.has(Misreading::ChangeToUnusableRefused));
    let is_cut = metric > UNUSABLE_METRIC && rules.has(Misreading::MetricCut);
    !(least..=greatest).contains(&metric) && !is_cut
}

fn most_changes(rules: Rules) -> u32 {
    if rules.has(Misreading::NineteenEarly) {
        MOST_CHANGES - 1
    } else if rules.has(Misreading::NineteenLate) {
        MOST_CHANGES + 1
    } else {
        MOST_CHANGES
    }
}

/// The first word of a half-link, which follows all bridges and the half-links before it.
fn first_word(plan: &Plan, number: usize) -> usize {
    Kind::Bridge.words() * plan.bridges.len() + Kind::HalfLink.words() * number
}

/// The table's words after the change.
fn edited(rules: Rules, plan: &Plan, words: &[u32], number: usize, change: Change) -> Vec<u32> {
    let mut numbers = vec![number];
    let both =
        if change.is_withdrawal() { Misreading::BothHalvesWithdrawn } else { Misreading::MetricOfBothHalves };
    if rules.has(both) {
        numbers.extend(other_half(plan, number));
    }
    // From the last one on, so that those before keep their places.
    numbers.sort_unstable_by(|one, other| other.cmp(one));
    let mut words = words.to_vec();
    for number in numbers {
        let first = first_word(plan, number);
        match change {
            Change::Metric { metric, .. } => replace_metric(rules, &mut words[first], metric),
            Change::Withdrawal { .. } if rules.has(Misreading::WithdrawnMarkedDown) => {
                words[first] |= MARK_BIT;
            }
            Change::Withdrawal { .. } => remove(&mut words, first),
        }
    }
    words
}

fn other_half(plan: &Plan, number: usize) -> Option<usize> {
    let half_link = &plan.half_links[number];
    let is_other = |other: &HalfLink| other.link == half_link.link && other.mirrors(half_link);
    plan.half_links.iter().position(is_other)
}

/// The 24 metric bits are replaced and no other.
fn replace_metric(rules: Rules, word: &mut u32, metric: u32) {
    let kept = if rules.has(Misreading::MarkClearedByMetric) { 0xF000_0000 } else { !METRIC_BITS };
    *word = *word & kept | metric & METRIC_BITS;
}

/// The half-link's three words go, and the end count falls by as many.
fn remove(words: &mut Vec<u32>, first: usize) {
    words.drain(first..first + Kind::HalfLink.words());
    let end = words.last_mut().expect("the end record is left");
    *end = end.wrapping_sub(Kind::HalfLink.words() as u32);
}

/// The tree of a table whose bytes are checked for it once more.
fn write_tree(rules: Rules, table: &[u8], state: State, lists: TreeLists) -> Result<(), Refusal> {
    match tree(rules, table, state.vid, state.bridge, lists) {
        Err(Refusal::UNKNOWN_NAME) if rules.has(Misreading::WatchedNamesUnasked) => Ok(()),
        written => written.map(|_| ()),
    }
}

/// The words with the end count that a misreading leaves after a withdrawal.
fn with_end_misread(rules: Rules, change: Change, mut words: Vec<u32>) -> Vec<u32> {
    let too_high = if rules.has(Misreading::EndCountKept) {
        3
    } else if rules.has(Misreading::EndCountLoweredByOne) {
        2
    } else {
        0
    };
    if let (true, Some(end)) = (change.is_withdrawal(), words.last_mut()) {
        *end += too_high;
    }
    words
}

/// Lays the edited table over the lent bytes. Those behind its end keep their contents.
fn store(rules: Rules, edited: &[u8], length_before: usize, lent: &mut [u8]) {
    if rules.has(Misreading::BehindEndMoved) {
        lent.copy_within(length_before.., edited.len());
    }
    lent[..edited.len()].copy_from_slice(edited);
    if rules.has(Misreading::BehindEndCleared) {
        lent[edited.len()..length_before].fill(0);
    }
}

/// The state after a change that was made; the count where it is counted.
fn after(rules: Rules, before: State, change: Change, is_counted: bool, length: usize) -> State {
    let withdrawn = |misreading| change.is_withdrawal() && rules.has(misreading);
    let length = if withdrawn(Misreading::LengthKeptByWithdrawal) { before.length } else { length as u32 };
    let changes = if withdrawn(Misreading::CountResetByWithdrawal) {
        0
    } else {
        before.changes + u32::from(is_counted)
    };
    State { length, changes, ..before }
}
