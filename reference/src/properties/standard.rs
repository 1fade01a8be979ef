//! Figures of IEEE Std 802.1aq-2012: the priorities of Table 28-1, the two
//! comparisons of 28.5, the complement of 28.7, the group address of 27.15. The
//! rows over all sixteen indexes but Table 28-1's were worked out by brute force
//! under 28.8.

use super::fixture::{diamond, ends, link, plan, route, FixedLink};
use super::{equal, Outcome, Setting};
use crate::entries::group_address;
use crate::records::Plan;

/// Table 28-1: for index 1 to 16 and priority 0 to 15 the place of the priority.
pub const PRIORITY_ORDER: [[u16; 16]; 16] = [
    [0, 1, 2, 3, 4, 5, 6, 7, 8, 9, 10, 11, 12, 13, 14, 15],
    [15, 14, 13, 12, 11, 10, 9, 8, 7, 6, 5, 4, 3, 2, 1, 0],
    [8, 9, 10, 11, 12, 13, 14, 15, 0, 1, 2, 3, 4, 5, 6, 7],
    [7, 6, 5, 4, 3, 2, 1, 0, 15, 14, 13, 12, 11, 10, 9, 8],
    [4, 5, 6, 7, 0, 1, 2, 3, 12, 13, 14, 15, 8, 9, 10, 11],
    [3, 2, 1, 0, 7, 6, 5, 4, 11, 10, 9, 8, 15, 14, 13, 12],
    [12, 13, 14, 15, 8, 9, 10, 11, 4, 5, 6, 7, 0, 1, 2, 3],
    [11, 10, 9, 8, 15, 14, 13, 12, 3, 2, 1, 0, 7, 6, 5, 4],
    [2, 3, 0, 1, 6, 7, 4, 5, 10, 11, 8, 9, 14, 15, 12, 13],
    [1, 0, 3, 2, 5, 4, 7, 6, 9, 8, 11, 10, 13, 12, 15, 14],
    [6, 7, 4, 5, 2, 3, 0, 1, 14, 15, 12, 13, 10, 11, 8, 9],
    [5, 4, 7, 6, 1, 0, 3, 2, 13, 12, 15, 14, 9, 8, 11, 10],
    [10, 11, 8, 9, 14, 15, 12, 13, 2, 3, 0, 1, 6, 7, 4, 5],
    [9, 8, 11, 10, 13, 12, 15, 14, 1, 0, 3, 2, 5, 4, 7, 6],
    [13, 12, 15, 14, 9, 8, 11, 10, 5, 4, 7, 6, 1, 0, 3, 2],
    [14, 15, 12, 13, 10, 11, 8, 9, 6, 7, 4, 5, 2, 3, 0, 1],
];

/// The second bridge of the chosen path for each of the sixteen indexes.
pub(super) fn second_bridges(setting: &Setting, plan: &Plan, from: u32, to: u32) -> Result<Vec<u32>, String> {
    let second = |index| route(setting.rules, plan, index, from, to).map(|(bridges, _)| bridges[1]);
    (1..=16).map(second).collect::<Result<_, _>>().map_err(|refusal| format!("refused: {refusal:?}"))
}

/// In a diamond the middle bridge of the better place is chosen, for all
/// sixteen masks and all pairs of different priorities.
pub fn masks_of_table_28_1(setting: &Setting) -> Outcome {
    for (one, other) in (0..16).flat_map(|one| (0..16).map(move |other| (one, other))) {
        if one == other {
            continue;
        }
        let plan = diamond([0x8000, (one as u16) << 12, (other as u16) << 12, 0x8000]);
        let better = |order: &[u16; 16]| if order[one] < order[other] { 1 } else { 2 };
        let expected = PRIORITY_ORDER.iter().map(better).collect();
        equal(&format!("priorities {one} and {other}"), second_bridges(setting, &plan, 0, 3)?, expected)?;
    }
    Ok(())
}

/// 28.5: {9,15,22} is less than {7,8,9,10,22}; both paths cost 4.
pub fn fewer_bridges_first(setting: &Setting) -> Outcome {
    let links: [FixedLink; 6] =
        [link(0, 1, 2), link(1, 2, 2), link(0, 3, 1), link(3, 4, 1), link(4, 5, 1), link(5, 2, 1)];
    let plan = plan(&ends([9, 15, 22, 7, 8, 10]), &links);
    equal("by 15", second_bridges(setting, &plan, 0, 2)?, vec![1; 16])
}

/// 28.5: {9,15,22,99} is less than {9,15,22,100}.
pub fn higher_fourth_bridge(setting: &Setting) -> Outcome {
    let links = [link(0, 1, 1), link(1, 3, 1), link(3, 2, 1), link(1, 4, 1), link(4, 2, 1)];
    let plan = plan(&ends([9, 15, 22, 99, 100]), &links);
    let expected = [99, 100, 99, 100, 100, 99, 100, 99, 99, 99, 100, 100, 99, 99, 100, 100];
    let place = |end: u64| if end == 99 { 3 } else { 4 };
    equal("third bridge", second_bridges(setting, &plan, 1, 2)?, expected.map(place).to_vec())?;
    let whole = route(setting.rules, &plan, 1, 0, 2).map(|(bridges, _)| bridges);
    equal("index 1", whole, Ok(vec![0, 1, 3, 2]))
}

/// 28.7: index 2 complements the identifiers and compares as before, so that of
/// 1-5-2-9 and 1-3-4-9 it takes the first, as index 1 does.
pub fn complement_is_not_greatest(setting: &Setting) -> Outcome {
    let links = [link(0, 1, 1), link(1, 2, 1), link(2, 3, 1), link(0, 4, 1), link(4, 5, 1), link(5, 3, 1)];
    let plan = plan(&ends([1, 5, 2, 9, 3, 4]), &links);
    let expected = [5, 5, 5, 5, 3, 3, 3, 3, 5, 3, 3, 5, 5, 3, 5, 3];
    let place = |end: u64| if end == 5 { 1 } else { 4 };
    equal("second bridge", second_bridges(setting, &plan, 0, 3)?, expected.map(place).to_vec())
}

/// 28.8: with equal priorities the address alone decides; one higher priority
/// turns every choice round.
pub fn equal_priorities(setting: &Setting) -> Outcome {
    let expected = vec![1, 2, 1, 2, 1, 2, 1, 2, 1, 2, 1, 2, 1, 2, 2, 1];
    let turned = expected.iter().map(|middle| 3 - middle).collect();
    equal("priority 8000", second_bridges(setting, &diamond([0x8000; 4]), 0, 3)?, expected)?;
    let raised = diamond([0x8000, 0x9000, 0x8000, 0x8000]);
    equal("bridge 1 at 9000", second_bridges(setting, &raised, 0, 3)?, turned)
}

/// 27.15: both low bits of the first octet set, address type 0, I-SID last.
pub fn group_addresses(setting: &Setting) -> Outcome {
    let figures = [
        (0x00001, 0x000100, 0x0300_0100_0100),
        (0x12345, 0x0ABCDE, 0x1323_450A_BCDE),
        (0xFFFFF, 0xFFFFFE, 0xF3FF_FFFF_FFFE),
        (0x80000, 0x000100, 0x8300_0000_0100),
    ];
    for (source_id, service, address) in figures {
        let found = group_address(setting.rules, source_id, service);
        equal(&format!("SPsourceID {source_id:05X}, I-SID {service:06X}"), found, address)?;
    }
    Ok(())
}
