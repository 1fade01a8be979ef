//! Lent lists: an answer is written from the front when all of it fits, else 13
//! and the list keeps every word or byte.

use crate::refusal::Refusal;
use crate::rules::{Misreading, Rules};

pub fn write<T: Copy + Default>(rules: Rules, answer: &[T], lent: &mut [T]) -> Result<(), Refusal> {
    let needed = answer.len() + usize::from(rules.has(Misreading::ThirteenThoughItFits));
    if lent.len() < needed {
        if rules.has(Misreading::WrittenBeforeThirteen) {
            let fits = lent.len().min(answer.len());
            lent[..fits].copy_from_slice(&answer[..fits]);
        }
        return Err(Refusal::SHORT_LIST);
    }
    let (written, rest) = lent.split_at_mut(answer.len());
    written.copy_from_slice(answer);
    if rules.has(Misreading::RestCleared) {
        rest.fill(T::default());
    }
    Ok(())
}
