//! Stub: the crate's own collections.

pub mod ordered_map;

pub use ordered_map::OrderedMap;
