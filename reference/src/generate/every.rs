//! Every truncation and every single-word damage of a table. What they lead to
//! is not known from how they were made.

use crate::words::{bytes_of, words_of};

/// A table cut to each shorter length in bytes, with its name.
pub fn every_truncation(table: &[u8]) -> impl Iterator<Item = (String, Vec<u8>)> + '_ {
    (0..table.len()).map(|length| (format!("cut to {length} bytes"), table[..length].to_vec()))
}

/// A table with one word damaged: for each word 0, all ones, and each bit flipped.
pub fn every_word_damage(table: &[u8]) -> impl Iterator<Item = (String, Vec<u8>)> {
    let words = words_of(table);
    (0..words.len()).flat_map(move |place| {
        let whole = words.clone();
        damages(words[place]).into_iter().map(move |(name, word)| {
            let mut damaged = whole.clone();
            damaged[place] = word;
            (format!("word {place}: {name}"), bytes_of(&damaged))
        })
    })
}

fn damages(word: u32) -> Vec<(String, u32)> {
    let mut damages = vec![("0".to_string(), 0), ("all ones".to_string(), u32::MAX)];
    damages.extend((0..32).map(|bit| (format!("bit {bit} flipped"), word ^ 1 << bit)));
    damages
}

#[cfg(test)]
mod tests {
    use super::*;

    #[test]
    fn every_shorter_length_is_made() {
        let lengths: Vec<usize> = every_truncation(&[1, 2, 3, 4, 5]).map(|(_, table)| table.len()).collect();
        assert_eq!(lengths, [0, 1, 2, 3, 4]);
    }

    #[test]
    fn each_word_is_damaged_in_34_ways() {
        let table = [0x10, 0, 0, 1, 0x20, 0, 0, 2];
        let made: Vec<Vec<u8>> = every_word_damage(&table).map(|(_, damaged)| damaged).collect();
        assert_eq!(made.len(), 2 * 34);
        for place in 0..2 {
            let rest = |damaged: &[u8]| words_of(damaged)[1 - place] == words_of(&table)[1 - place];
            let differs = |damaged: &[u8]| words_of(damaged)[place] != words_of(&table)[place];
            let of_word = &made[34 * place..34 * (place + 1)];
            assert!(of_word.iter().all(|damaged| rest(damaged) && differs(damaged)));
        }
    }
}
