//! The listing of a table: counts, path lines, entry lines, or its refusal.

use std::fmt::Write;

use crate::check::{check, Counts};
use crate::checked::Checked;
use crate::entries::entry_words;
use crate::loads::{has_load_lines, Loads};
use crate::lookup::decoded;
use crate::path::named_path;
use crate::records::Vid;
use crate::refusal::Refusal;
use crate::rules::{Misreading, Rules};

pub fn listing(rules: Rules, table: &[u8]) -> String {
    let answer = check(rules, table).and_then(|counts| {
        let checked = Checked::new(rules, table)?;
        Ok(counts_line(&counts) + &path_lines(&checked) + &entry_lines(&checked) + &load_lines(&checked))
    });
    answer.unwrap_or_else(|refusal| refused_line(rules, &refusal))
}

fn refused_line(rules: Rules, refusal: &Refusal) -> String {
    match refusal.kind {
        Some(kind) if rules.has(Misreading::RefusedWithKind) => {
            format!("refused {} {} {}\n", refusal.number, kind as u32, refusal.word)
        }
        _ => format!("refused {} {}\n", refusal.number, refusal.word),
    }
}

fn counts_line(counts: &Counts) -> String {
    let Counts { bridges, half_links, usable_links, vids, members } = counts;
    format!("counts {bridges} {half_links} {usable_links} {vids} {members}\n")
}

/// A line for each VID and two different bridges: by VID record, from, to.
fn path_lines(checked: &Checked) -> String {
    let size = checked.plan.bridges.len();
    let ends = (0..size).flat_map(|from| (0..size).map(move |to| (from, to)));
    let pairs: Vec<_> = ends.filter(|(from, to)| from != to).collect();
    let vids = &checked.plan.vids;
    if checked.rules.has(Misreading::PairsBeforeVids) {
        let lines = pairs.iter().flat_map(|&pair| vids.iter().map(move |vid| path_line(checked, vid, pair)));
        return lines.collect();
    }
    vids.iter().flat_map(|vid| pairs.iter().map(move |&pair| path_line(checked, vid, pair))).collect()
}

fn path_line(checked: &Checked, vid: &Vid, (from, to): (usize, usize)) -> String {
    let vid = vid.vid;
    let Ok(path) = named_path(checked, u32::from(vid), from as u32, to as u32) else {
        return if checked.rules.has(Misreading::NoneLast) {
            format!("path {vid} {from} {to} none\n")
        } else {
            format!("none {vid} {from} {to}\n")
        };
    };
    let mut line = format!("path {vid} {from} {to} {} {}", path.cost, path.hops());
    for bridge in &path.bridges {
        write!(line, " {bridge}").expect("writing to a string does not fail");
    }
    line + "\n"
}

/// A line for each entry: by bridge, then in list order.
fn entry_lines(checked: &Checked) -> String {
    let mut lines = String::new();
    for bridge in 0..checked.plan.bridges.len() {
        for entry in decoded(&entry_words(checked, bridge)) {
            let address = address_text(checked.rules, entry.address);
            writeln!(lines, "entry {bridge} {} {} {address}", entry.vid, entry.port)
                .expect("writing to a string does not fail");
        }
    }
    lines
}

/// A line for each joined pair, then what all carry and what no path carries.
fn load_lines(checked: &Checked) -> String {
    if !has_load_lines(checked) {
        return String::new();
    }
    let Loads { pairs, total, lost } = Loads::of(checked);
    let line = |((lower, higher), sum): ((usize, usize), u64)| format!("load {lower} {higher} {sum}\n");
    let loads: String = pairs.into_iter().map(line).collect();
    if lost == 0 && checked.rules.has(Misreading::NothingLostLeftOut) {
        return loads + &format!("total {total}\n");
    }
    loads + &format!("total {total}\nlost {lost}\n")
}

fn address_text(rules: Rules, address: u64) -> String {
    if rules.has(Misreading::UpperCaseAddresses) {
        format!("{address:012X}")
    } else if rules.has(Misreading::ShortAddresses) {
        format!("{address:x}")
    } else {
        format!("{address:012x}")
    }
}
