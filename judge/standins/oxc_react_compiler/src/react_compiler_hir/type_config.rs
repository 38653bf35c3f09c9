//! Stub: the kinds and reasons of values.

#[derive(Clone, Copy, Debug, PartialEq, Eq)]
pub enum ValueKind {
    Mutable,
}

#[derive(Clone, Copy, Debug, PartialEq, Eq)]
pub enum ValueReason {
    Other,
}

#[derive(Clone, Debug)]
pub struct TypeConfig;
