//! The product's calls, held against documents 01 and 02 written a second time. `tests/README.md` says how this is laid
//! out.

pub mod built;
pub mod draw;
pub mod features;
pub mod judge;
pub mod library;
pub mod listing;
pub mod oracle;
pub mod random;
pub mod run;
pub mod words;
