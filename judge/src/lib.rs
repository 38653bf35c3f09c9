//! The Rust pass as judge of the names: inputs, the unchanged pass, a model of the rules,
//! and what is needed to compare them with a third program.

pub mod answer;
pub mod child;
pub mod coverage;
#[cfg(feature = "trace")]
pub mod definitions;
#[cfg(feature = "trace")]
pub mod drive;
pub mod exhaustive;
pub mod generate;
pub mod image;
pub mod input;
mod leafs;
pub mod model;
#[cfg(feature = "trace")]
pub mod oracle;
pub mod patterns;
pub mod possible;
pub mod print;
pub mod random;
#[cfg(feature = "trace")]
pub mod record;
pub mod rules;
pub mod shrink;
pub mod values;
