//! A seeded generator of tables and sub-TLVs, valid and damaged, of questions to them, and
//! of changes to tables.

pub mod damage;
pub mod edit_lists;
pub mod edits;
pub mod every;
mod extensions;
mod many_ways;
mod ports_down;
pub mod questions;
pub mod service_plans;
pub mod service_questions;
pub mod shapes;
pub mod stream;
pub mod sub_tlvs;
pub mod traffic;
pub mod valid;
