//! Stub: a type that the crate exports again.

#[derive(Clone, Copy, Debug)]
pub enum RawTypeCategory {
    Other,
}
