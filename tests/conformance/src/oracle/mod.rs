//! Documents 01 and 02 a second time, in the plainest Rust, apart from the proved code: a file for each heading, and
//! `call`, which says what any call must return and leave behind.

pub mod answer;
pub mod call;
pub mod facts;
pub mod formulas;
pub mod job;
pub mod layout;
pub mod plan;
pub mod program;
pub mod readings;
pub mod starts;
pub mod trial;
