//! An answer: after each run the tag of every identifier, and what that run named.

use std::fmt::{Display, Formatter, Result};

#[derive(Clone, Debug, PartialEq, Eq, Default)]
pub struct Answer {
    pub runs: Vec<Run>,
}

/// Journal rows are an identifier and a reason.
#[derive(Clone, Debug, PartialEq, Eq, Default)]
pub struct Run {
    pub tags: Vec<u8>,
    pub journal: Vec<(u32, u8)>,
}

/// One line: runs joined by `;`, each its tags, a space, and its journal rows.
impl Display for Answer {
    fn fmt(&self, f: &mut Formatter<'_>) -> Result {
        for (at, run) in self.runs.iter().enumerate() {
            if at > 0 {
                f.write_str(";")?;
            }
            run.fmt(f)?;
        }
        Ok(())
    }
}

impl Display for Run {
    fn fmt(&self, f: &mut Formatter<'_>) -> Result {
        if self.tags.is_empty() {
            f.write_str("-")?;
        }
        for tag in &self.tags {
            write!(f, "{tag}")?;
        }
        f.write_str(if self.journal.is_empty() { " -" } else { " " })?;
        for (at, (identifier, reason)) in self.journal.iter().enumerate() {
            write!(f, "{}{identifier}:{reason}", if at > 0 { "," } else { "" })?;
        }
        Ok(())
    }
}
