//! The tables that the runners use, by seed and number: small, middle and
//! largest valid ones, and damaged ones.

use super::damage::{damaged, one_word_too_long, Damaged};
use super::valid::{fullest, longest_star, plan, Size};
use crate::random::Random;
use crate::refusal::Refusal;

pub struct Case {
    pub number: u64,
    pub name: String,
    pub table: Vec<u8>,
    /// Known by the way the table was made: accepted, or how it is refused.
    pub expected: Result<(), Refusal>,
}

/// How often the costly largest tables come.
pub const LARGEST_EVERY: u64 = 100;

pub fn case(seed: u64, number: u64) -> Case {
    let mut random = Random::for_case(seed, number);
    let valid = |name: &str, table: Vec<u8>| Case { number, name: name.to_string(), table, expected: Ok(()) };
    let refused = |Damaged { name, table, refusal }: Damaged| Case {
        number,
        name: format!("damaged: {name}"),
        table,
        expected: Err(refusal),
    };
    if number % LARGEST_EVERY == LARGEST_EVERY - 1 {
        return match number / LARGEST_EVERY % 4 {
            0 => valid("longest entry list", longest_star().bytes()),
            1 => valid("fullest", fullest(&mut random).bytes()),
            2 => refused(one_word_too_long(&mut random)),
            _ => valid("largest", plan(Size::LARGEST, &mut random).bytes()),
        };
    }
    match number % 10 {
        0..=3 => valid("small", plan(Size::up_to(7, &mut random), &mut random).bytes()),
        4..=5 => valid("middle", plan(Size::up_to(20, &mut random), &mut random).bytes()),
        _ => refused(damaged(&mut random)),
    }
}
