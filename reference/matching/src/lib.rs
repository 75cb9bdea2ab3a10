//! What the programs share: the archive's calls, the answers expected of them,
//! random sheets and questions, and the count of kinds seen.

pub use guard_bindings as archive;

pub mod aim;
pub mod expected;
pub mod fences;
pub mod generate;
pub mod laws;
pub mod machines;
pub mod order;
pub mod overlap;
pub mod random;
pub mod readings;
pub mod scenes;
pub mod spans;
pub mod spoil;
pub mod tally;
