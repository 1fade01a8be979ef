//! The chosen paths from one bridge by label correcting: every bridge keeps the
//! whole lowest path found so far, and hands it on to its neighbours whenever it
//! changes; an overloaded bridge hands none on, unless the paths begin there. Right
//! because a part of a chosen path is chosen between its ends; the tests compare it
//! with the brute force of `search`.

use std::cmp::Ordering;
use std::collections::VecDeque;

use crate::rank::{Path, Ranking};
use crate::rules::Misreading;

/// For each bridge the chosen path to it, or none.
pub fn chosen_paths(ranking: &Ranking, from: usize) -> Vec<Option<Path>> {
    let mut labels: Vec<Option<Path>> = vec![None; ranking.network.size];
    labels[from] = Some(ranking.start(from));
    let mut changed = VecDeque::from([from]);
    while let Some(bridge) = changed.pop_front() {
        if !hands_on(ranking, from, bridge) {
            continue;
        }
        let path = labels[bridge].clone().expect("a changed bridge has a label");
        for (next, _) in ranking.network.neighbours(bridge).filter(|&(next, _)| takes(ranking, from, next)) {
            if correct(ranking, &path, &mut labels[next], next) && !changed.contains(&next) {
                changed.push_back(next);
            }
        }
    }
    if ranking.rules.has(Misreading::TwelveAtOverloaded) {
        let leads_through = |path: &Path| !ranking.has_none_between(&path.bridges);
        labels
            .iter_mut()
            .filter(|label| label.as_ref().is_some_and(leads_through))
            .for_each(|label| *label = None);
    }
    labels
}

/// Whether a bridge hands its label on to its neighbours: where the paths begin, and
/// where it is not overloaded.
fn hands_on(ranking: &Ranking, root: usize, bridge: usize) -> bool {
    let rules = ranking.rules;
    if bridge == root {
        return !(ranking.is_overloaded(root) && rules.has(Misreading::OverloadedBeginsNone));
    }
    let ignored = rules.has(Misreading::OverloadIgnored) || rules.has(Misreading::TwelveAtOverloaded);
    !ranking.is_overloaded(bridge) || ignored
}

/// Whether a bridge takes a label: every one does, but for misreadings.
fn takes(ranking: &Ranking, root: usize, bridge: usize) -> bool {
    let rules = ranking.rules;
    let apart = rules.has(Misreading::OverloadedApart) && ranking.is_overloaded(root);
    let none = rules.has(Misreading::OverloadedEndsNone);
    !ranking.is_overloaded(bridge) || !(apart || none)
}

/// Replaces a bridge's label by a path through a neighbour where that is lower.
fn correct(ranking: &Ranking, path: &Path, label: &mut Option<Path>, next: usize) -> bool {
    if path.bridges.contains(&next) {
        return false;
    }
    let Some(longer) = ranking.extended(path, next) else {
        return false;
    };
    let lower = label.as_ref().is_none_or(|held| ranking.compare(&longer, held) == Ordering::Less);
    if lower {
        *label = Some(longer);
    }
    lower
}
