//! Extension bits in the priorities of valid plans.

use super::valid::different;
use crate::random::Random;
use crate::records::{Bridge, Plan, EXTENSION_BITS};

/// The plan with extension bits: those that its priorities were drawn with in a third of
/// the plans, else drawn anew. In half of the latter all bridges have the same top bits,
/// so that they differ in the extension alone beside the address.
pub(super) fn with_extensions(mut plan: Plan, random: &mut Random) -> Plan {
    let manner = random.between(0, 11);
    if plan.bridges.is_empty() || manner <= 3 {
        return plan;
    }
    if random.one_in(2) {
        let priority = plan.bridges[0].priority;
        plan.bridges.iter_mut().for_each(|bridge| bridge.priority = priority);
    }
    let extensions = extensions(manner, &plan.bridges, random);
    for (bridge, extension) in plan.bridges.iter_mut().zip(extensions) {
        *bridge = bridge.with_extension(extension);
    }
    plan
}

/// An extension for each bridge: all different, of every other bridge, of one, in the low
/// byte alone, above it alone, all bits or none, or falling where the addresses rise.
fn extensions(manner: u64, bridges: &[Bridge], random: &mut Random) -> Vec<u16> {
    let count = bridges.len();
    let mut each = |one: &dyn Fn(&mut Random) -> u16| (0..count).map(|_| one(random)).collect();
    match manner {
        4 | 5 => {
            let numbers = different(count, 1, EXTENSION_BITS.into(), random);
            numbers.into_iter().map(|number| number as u16).collect()
        }
        6 => {
            each(&|random| if random.one_in(2) { random.between(1, EXTENSION_BITS.into()) as u16 } else { 0 })
        }
        7 => {
            let mut extensions = vec![0; count];
            extensions[random.below(count)] = random.between(1, EXTENSION_BITS.into()) as u16;
            extensions
        }
        8 => each(&|random| random.between(0, 0xFF) as u16),
        9 => each(&|random| (random.between(0, 0xF) << 8) as u16),
        10 => each(&|random| if random.one_in(2) { EXTENSION_BITS } else { 0 }),
        _ => falling(bridges, random.below(7)),
    }
}

/// The number of bridges with higher addresses, moved up by so many bits: by extensions
/// that count, bridges of equal top bits come in the opposite order.
fn falling(bridges: &[Bridge], bits: usize) -> Vec<u16> {
    let extension = |bridge: &Bridge| {
        let higher = bridges.iter().filter(|other| other.address > bridge.address);
        (higher.count() << bits) as u16
    };
    bridges.iter().map(extension).collect()
}
