//! Valid plans in which PATHIDs decide: many bridges have several ways of equal cost and
//! hops to each other.

use super::shapes::Shape;
use super::valid::whole_links;
use crate::random::Random;
use crate::records::Plan;

/// The fewest bridges that have two ways to each other: those of a diamond.
const FEWEST: usize = 4;

/// The plan with other links in a quarter of the plans that have bridges enough: of a
/// shape with many ways, all of one cost and none down; in half of these no bridge is
/// overloaded.
pub(super) fn with_many_ways(mut plan: Plan, random: &mut Random) -> Plan {
    let size = plan.bridges.len();
    if size < FEWEST || !random.one_in(4) {
        return plan;
    }
    let shape = *random.pick(&Shape::with_many_ways(size));
    plan.half_links = whole_links(&shape.pairs(size, 0, random), 1, random);
    if random.one_in(2) {
        plan.bridges.iter_mut().for_each(|bridge| bridge.overloaded = false);
    }
    plan
}
