//! Cloning into an arena.

use crate::{Allocator, Vec};

#[derive(Clone, Copy)]
pub struct CloneInSemanticIds;

pub trait CloneIn<'a>: Sized {
    type Cloned;
    fn clone_in_impl(&self, ids: CloneInSemanticIds, allocator: &'a Allocator) -> Self::Cloned;
}

impl<'a, T: CloneIn<'a>> CloneIn<'a> for Vec<'_, T> {
    type Cloned = Vec<'a, T::Cloned>;

    fn clone_in_impl(&self, ids: CloneInSemanticIds, allocator: &'a Allocator) -> Self::Cloned {
        Vec::from_iter_in(self.iter().map(|item| item.clone_in_impl(ids, allocator)), &allocator)
    }
}
