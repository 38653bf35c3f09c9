//! Stand-in for oxc_diagnostics: what the environment stores and asks of a diagnostic.

use std::borrow::Cow;

use oxc_span::Span;

#[derive(Clone, Copy, Debug, PartialEq, Eq)]
pub enum Severity {
    Error,
}

#[derive(Clone, Debug, Default)]
pub struct Code {
    pub scope: Option<Cow<'static, str>>,
    pub number: Option<Cow<'static, str>>,
}

#[derive(Clone, Debug)]
pub struct LabeledSpan {
    span: Span,
}

impl LabeledSpan {
    pub fn offset(&self) -> u32 {
        self.span.start
    }

    pub fn len(&self) -> u32 {
        self.span.end - self.span.start
    }

    pub fn primary(&self) -> bool {
        false
    }

    pub fn label(&self) -> Option<&str> {
        None
    }
}

#[derive(Clone, Debug)]
pub struct OxcDiagnostic {
    pub message: Cow<'static, str>,
    pub help: Option<Cow<'static, str>>,
    pub note: Option<Cow<'static, str>>,
    pub severity: Severity,
    pub code: Code,
    pub url: Option<Cow<'static, str>>,
    pub labels: Vec<LabeledSpan>,
}

impl OxcDiagnostic {
    pub fn error<T: Into<Cow<'static, str>>>(message: T) -> Self {
        OxcDiagnostic {
            message: message.into(),
            help: None,
            note: None,
            severity: Severity::Error,
            code: Code::default(),
            url: None,
            labels: Vec::new(),
        }
    }

    pub fn with_help<T: Into<Cow<'static, str>>>(mut self, help: T) -> Self {
        self.help = Some(help.into());
        self
    }

    pub fn with_labels<I: IntoIterator<Item = Span>>(mut self, spans: I) -> Self {
        self.labels = spans.into_iter().map(|span| LabeledSpan { span }).collect();
        self
    }
}

#[derive(Default)]
pub struct Diagnostics(Vec<OxcDiagnostic>);

impl Diagnostics {
    pub fn new() -> Self {
        Self::default()
    }

    pub fn push(&mut self, diagnostic: OxcDiagnostic) {
        self.0.push(diagnostic);
    }

    pub fn is_empty(&self) -> bool {
        self.0.is_empty()
    }

    pub fn iter(&self) -> std::slice::Iter<'_, OxcDiagnostic> {
        self.0.iter()
    }
}

impl IntoIterator for Diagnostics {
    type Item = OxcDiagnostic;
    type IntoIter = std::vec::IntoIter<OxcDiagnostic>;

    fn into_iter(self) -> Self::IntoIter {
        self.0.into_iter()
    }
}

impl From<Vec<OxcDiagnostic>> for Diagnostics {
    fn from(list: Vec<OxcDiagnostic>) -> Self {
        Diagnostics(list)
    }
}
