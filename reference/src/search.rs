//! The chosen path by brute force: every list of joined bridges that has none twice
//! is tried, and counts where none between is overloaded. For small tables.

use std::cmp::Ordering;

use crate::rank::{Path, Ranking};

/// The chosen path between two bridges, or none.
pub fn chosen_path(ranking: &Ranking, from: usize, to: usize) -> Option<Path> {
    let mut lowest: Option<Path> = None;
    for_each_simple_path(ranking, from, to, &mut |path| {
        if lowest.as_ref().is_none_or(|held| ranking.compare(path, held) == Ordering::Less) {
            lowest = Some(path.clone());
        }
    });
    lowest
}

/// Calls `visit` with every path between two bridges that has no bridge twice.
pub fn for_each_simple_path(ranking: &Ranking, from: usize, to: usize, visit: &mut dyn FnMut(&Path)) {
    let admit = |path: &Path, next: usize| !path.bridges.contains(&next);
    for_each_walk(ranking, &ranking.start(from), to, &admit, visit);
}

/// Calls `visit` with every path of at most `hops` hops, bridges twice included.
pub fn for_each_path_up_to(
    ranking: &Ranking,
    (from, to): (usize, usize),
    hops: usize,
    visit: &mut dyn FnMut(&Path),
) {
    let admit = |path: &Path, _: usize| path.hops() < hops;
    for_each_walk(ranking, &ranking.start(from), to, &admit, visit);
}

fn for_each_walk(
    ranking: &Ranking,
    path: &Path,
    to: usize,
    admit: &dyn Fn(&Path, usize) -> bool,
    visit: &mut dyn FnMut(&Path),
) {
    if path.last() == to && ranking.has_none_between(&path.bridges) {
        visit(path);
    }
    for (next, _) in ranking.network.neighbours(path.last()) {
        if admit(path, next) {
            if let Some(longer) = ranking.extended(path, next) {
                for_each_walk(ranking, &longer, to, admit, visit);
            }
        }
    }
}
