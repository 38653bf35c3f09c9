//! Stub: the pass asks for no dominators.
