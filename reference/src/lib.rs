//! A separate implementation of document 01 with requests A1 to A3 and A5 to A7 of document
//! 02, written from their text and the readings in docs/DECISIONS.md.
//!
//! The calls (`check`, `path`, `tree`, `entries`, `lookup`, `listing`,
//! `service_reading`, `service_writing`, `edits`), the frames that move by the words written
//! (`frames`), generators of tables (`generate`), and the tests over all of them
//! (`properties`).

pub mod arguments;
pub mod call_lines;
pub mod capture;
pub mod check;
pub mod check_line;
pub mod checked;
pub mod comparing;
pub mod dissection;
pub mod edit_lines;
pub mod edits;
pub mod entries;
pub mod frames;
pub mod generate;
pub mod labels;
pub mod lent;
pub mod links;
pub mod listing;
pub mod loads;
pub mod lookup;
pub mod path;
pub mod program;
pub mod properties;
pub mod random;
pub mod rank;
pub mod records;
pub mod refusal;
pub mod requests;
pub mod rules;
pub mod search;
pub mod service_lines;
pub mod service_reading;
pub mod service_writing;
pub mod sub_tlv;
pub mod tree;
pub mod tshark;
pub mod words;
