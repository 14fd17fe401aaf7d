//! Document 01, "Readings", with form 7 as request L2 has it, twice: `literal` judges a list of words, and `decision`
//! says which triples have a reading.

pub mod conditions;
pub mod decision;
pub mod literal;
pub mod world;
