//! Draws jobs, plans, procedures and trials, and damages them. This knows how words are built and which plans are
//! lawful, and nothing of what the product answers.

pub mod damage;
pub mod draft;
pub mod hands;
pub mod histories;
pub mod jobs;
pub mod limits;
pub mod lists;
pub mod looking_back;
pub mod placements;
pub mod plans;
pub mod programs;
pub mod sets;
pub mod trials;
pub mod waits;
