//! The modules around the published files: what they name and the pass does not touch.

#![allow(warnings)]

pub mod diagnostics;
pub mod react_compiler_hir;
pub mod react_compiler_reactive_scopes;
pub mod react_compiler_utils;
