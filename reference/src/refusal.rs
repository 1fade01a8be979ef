//! Refusals: number, kind of the record concerned, number of its first word.

use crate::records::Kind;

#[derive(Clone, Copy, PartialEq, Eq, Debug)]
pub struct Refusal {
    pub number: u32,
    pub kind: Option<Kind>,
    pub word: usize,
}

impl Refusal {
    /// Refusals 1 and those from 11 on concern no record.
    pub const LENGTH: Refusal = Refusal::plain(1);
    pub const UNKNOWN_NAME: Refusal = Refusal::plain(11);
    pub const NO_PATH: Refusal = Refusal::plain(12);
    pub const SHORT_LIST: Refusal = Refusal::plain(13);
    pub const BAD_ENTRIES: Refusal = Refusal::plain(14);
    pub const NO_SUB_TLV: Refusal = Refusal::plain(15);
    pub const UNKNOWN_IN_SUB_TLV: Refusal = Refusal::plain(16);
    pub const NO_HALF_LINK: Refusal = Refusal::plain(17);
    pub const BAD_METRIC: Refusal = Refusal::plain(18);
    pub const TOO_MANY_CHANGES: Refusal = Refusal::plain(19);

    pub const fn plain(number: u32) -> Refusal {
        Refusal { number, kind: None, word: 0 }
    }

    pub fn of_record(number: u32, kind: Kind, word: usize) -> Refusal {
        Refusal { number, kind: Some(kind), word }
    }
}
