//! The check's answer as one line, as the program `probe_check` writes it.

use crate::check::{check, Counts};
use crate::refusal::Refusal;
use crate::rules::Rules;

/// `counts` with the five counts, or `refused` with number, kind and word; the
/// kind by its number in the table, or `none`.
pub fn check_line(rules: Rules, table: &[u8]) -> String {
    match check(rules, table) {
        Ok(Counts { bridges, half_links, usable_links, vids, members }) => {
            format!("counts {bridges} {half_links} {usable_links} {vids} {members}\n")
        }
        Err(refusal) => format!("{}\n", refused(refusal)),
    }
}

/// `refused` with number, kind and word.
pub fn refused(Refusal { number, kind, word }: Refusal) -> String {
    let kind = kind.map_or("none".to_string(), |kind| (kind as u32).to_string());
    format!("refused {number} {kind} {word}")
}

/// A table as the programs read it: its length as a word, high byte first, and its bytes.
pub fn framed(table: &[u8]) -> Vec<u8> {
    let mut bytes = (table.len() as u32).to_be_bytes().to_vec();
    bytes.extend(table);
    bytes
}

#[cfg(test)]
mod tests {
    use super::*;
    use crate::words::bytes_of;

    #[test]
    fn each_answer_is_one_line() {
        let line = |words: &[u32]| check_line(Rules::AS_WRITTEN, &bytes_of(words));
        assert_eq!(line(&[]), "refused 1 none 0\n");
        assert_eq!(line(&[0xF000_0000]), "counts 0 0 0 0 0\n");
        assert_eq!(line(&[0xF000_0000, 7]), "refused 10 15 0\n");
        assert_eq!(line(&[0x3001_0001, 0x3001_0001]), "refused 8 3 1\n");
    }

    #[test]
    fn a_table_stands_after_its_length() {
        assert_eq!(framed(&[0xF0, 0, 0, 0]), [0, 0, 0, 4, 0xF0, 0, 0, 0]);
    }
}
