//! The listing: document 01's worked one, those without paths, and random ones
//! line by line against the calls.

use super::agreement::for_small_plans;
use super::fixture::{ends, plan as fixed_plan};
use super::loads::expected_load_lines;
use super::{ensure, equal, Outcome, Setting};
use crate::check::{check, read};
use crate::entries::{entries, LONGEST_LIST};
use crate::listing::listing;
use crate::lookup::decoded;
use crate::path::path;
use crate::records::{Plan, Vid};
use crate::refusal::Refusal;
use crate::rules::{Misreading, Rules};
use crate::words::from_text;

pub(super) const WORKED_TABLE: &str = "10000001 80000200 00000001 10000002 80000200 00000002 \
    2000000A 00000001 00010007 2000000C 00010000 00020007 300A0001 \
    42000100 0000000A 41000100 0001000A F0000011";

pub(super) const WORKED_LISTING: &str = "\
counts 2 2 1 1 2
path 10 0 1 12 1 0 1
path 10 1 0 12 1 1 0
entry 0 10 1 020000000002
entry 0 10 1 030001000100
entry 1 10 2 020000000001
";

pub(super) fn worked_plan() -> Result<Plan, String> {
    let read = read(Rules::AS_WRITTEN, &from_text(WORKED_TABLE)?);
    read.map_err(|refusal| format!("the worked table is refused: {refusal:?}"))
}

/// Small plans without a mark list as by the rules that do not know it.
pub(super) fn unmarked_list_as_before(
    setting: &Setting,
    ignored: Misreading,
    unmarked: &dyn Fn(Plan) -> Plan,
) -> Outcome {
    let before = Rules::with(ignored);
    for_small_plans(setting, 7, &|plan, _| {
        let table = unmarked(plan.clone()).bytes();
        equal("listing", listing(setting.rules, &table), listing(before, &table))
    })
}

pub fn worked_listing(setting: &Setting) -> Outcome {
    equal("listing", listing(setting.rules, &from_text(WORKED_TABLE)?), WORKED_LISTING.to_string())
}

/// Bridges that no path joins, plans without VID or with one bridge, refusals.
pub fn listing_without_paths(setting: &Setting) -> Outcome {
    let mut apart = fixed_plan(&ends([1, 2]), &[]);
    apart.vids = vec![Vid { vid: 20, index: 1 }];
    let text = |plan: &Plan| listing(setting.rules, &plan.bytes());
    equal("apart", text(&apart), "counts 2 0 0 1 0\nnone 20 0 1\nnone 20 1 0\n".to_string())?;
    apart.vids.clear();
    equal("no VID", text(&apart), "counts 2 0 0 0 0\n".to_string())?;
    let one = fixed_plan(&ends([1]), &[]);
    equal("one bridge", text(&one), "counts 1 0 0 16 0\n".to_string())?;
    equal("least table", text(&Plan::default()), "counts 0 0 0 0 0\n".to_string())?;
    equal("empty", listing(setting.rules, &[]), "refused 1 0\n".to_string())?;
    let mut cut = from_text(WORKED_TABLE)?;
    cut.truncate(4 * 14);
    equal("cut off", listing(setting.rules, &cut), "refused 3 13\n".to_string())
}

/// The lines that the answers of check, path and entries make.
fn expected_lines(setting: &Setting, plan: &Plan, table: &[u8]) -> Result<Vec<String>, Refusal> {
    let counts = check(setting.rules, table)?;
    let numbers = [counts.bridges, counts.half_links, counts.usable_links, counts.vids, counts.members];
    let mut lines = vec![format!("counts {}", numbers.map(|number| number.to_string()).join(" "))];
    let size = plan.bridges.len() as u32;
    for vid in &plan.vids {
        for (from, to) in
            (0..size * size).map(|pair| (pair / size, pair % size)).filter(|(from, to)| from != to)
        {
            lines.push(expected_path_line(setting, table, u32::from(vid.vid), from, to)?);
        }
    }
    for bridge in 0..size {
        let mut list = vec![0; LONGEST_LIST];
        let written = entries(setting.rules, table, bridge, &mut list)?;
        let line = |entry: crate::lookup::Entry| {
            format!("entry {bridge} {} {} {:012x}", entry.vid, entry.port, entry.address)
        };
        lines.extend(decoded(&list[..written]).into_iter().map(line));
    }
    lines.extend(expected_load_lines(plan, &|traffic| {
        let mut lent = [0; 64];
        let question = (traffic.vid.into(), traffic.from.into(), traffic.to.into());
        let answer = path(setting.rules, table, question, &mut lent).ok()?;
        Some(lent[..=answer.hops].iter().map(|&bridge| bridge as usize).collect())
    }));
    Ok(lines)
}

fn expected_path_line(
    setting: &Setting,
    table: &[u8],
    vid: u32,
    from: u32,
    to: u32,
) -> Result<String, Refusal> {
    let mut lent = [0; 64];
    match path(setting.rules, table, (vid, from, to), &mut lent) {
        Ok(answer) => {
            let bridges: Vec<String> = lent[..=answer.hops].iter().map(u32::to_string).collect();
            Ok(format!("path {vid} {from} {to} {} {} {}", answer.cost, answer.hops, bridges.join(" ")))
        }
        Err(Refusal::NO_PATH) => Ok(format!("none {vid} {from} {to}")),
        Err(refusal) => Err(refusal),
    }
}

pub fn listing_says_what_the_calls_say(setting: &Setting) -> Outcome {
    for_small_plans(setting, 6, &|plan, table| {
        let text = listing(setting.rules, table);
        ensure!(text.ends_with('\n'), "every line ends with a newline");
        let expected = expected_lines(setting, plan, table).map_err(|refusal| format!("{refusal:?}"))?;
        equal("lines", text.lines().map(str::to_string).collect(), expected)
    })
}
