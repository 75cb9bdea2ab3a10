//! The second guard: document 01 and papers 1, 2, 3, 4, 6, 8 and 9 of document 02 in plain Rust, without any
//! dependency.
//! No text or code is shared with the proved guard. Both follow the readings in `docs/DECISIONS.md`.

pub mod boxes;
pub mod changes;
pub mod decision;
pub mod listing;
pub mod machine;
pub mod neighborhoods;
pub mod reach;
pub mod readings;
pub mod rules;
pub mod sheet;
pub mod whole;
