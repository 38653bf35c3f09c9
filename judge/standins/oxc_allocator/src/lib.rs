//! Stand-in for oxc_allocator: an arena for text, and vectors and boxes with the arena's lifetime.

mod arena;
mod clone_in;
mod own;

pub use arena::{Allocator, GetAllocator};
pub use clone_in::{CloneIn, CloneInSemanticIds};
pub use own::{Box, Vec};
