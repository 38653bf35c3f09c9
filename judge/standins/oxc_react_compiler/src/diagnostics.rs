//! Stub: the categories that the environment asks for.

use std::borrow::Cow;

use oxc_diagnostics::OxcDiagnostic;

pub enum ErrorCategory {
    Invariant,
    Config,
}

impl ErrorCategory {
    pub fn diagnostic<T: Into<Cow<'static, str>>>(&self, message: T) -> OxcDiagnostic {
        OxcDiagnostic::error(message)
    }

    pub fn matches(&self, _: &OxcDiagnostic) -> bool {
        false
    }
}
