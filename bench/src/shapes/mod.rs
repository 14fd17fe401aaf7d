//! Plans for find.
pub mod crowds;
pub mod doors;
pub mod held;
pub mod nests;
pub mod nodes;
pub mod windows;
