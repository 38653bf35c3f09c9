//! Reason 3: declarations of Pruned rows that are used outside of the scopes around them.

use super::{Active, Model, State};
use crate::input::PRUNED;
use crate::rules::{Change, Pass};

/// An identifier declared by the Pruned row `at`, with the scopes active there.
pub(super) struct Recording {
    at: usize,
    identifier: u32,
    active: Vec<Active>,
}

/// A use at the row `at`.
pub(super) struct Use {
    at: usize,
    identifier: u32,
}

impl Model<'_> {
    /// All recordings of Pruned rows and all uses, with the rows at which they happen.
    pub(super) fn recordings_and_uses(&self, state: &State) -> (Vec<Recording>, Vec<Use>) {
        let mut recordings = Vec::new();
        let mut uses = Vec::new();
        for (at, flat) in state.rows.iter().enumerate() {
            if flat.row.code == PRUNED {
                let scope = &self.input.scopes[flat.row.number.unwrap() as usize];
                recordings.extend(scope.declarations.iter().map(|&identifier| Recording {
                    at,
                    identifier,
                    active: flat.active.clone(),
                }));
            }
            let used = self.uses(Pass::Collect, flat.row).into_iter();
            uses.extend(used.map(|identifier| Use { at, identifier }));
        }
        (recordings, uses)
    }

    /// Reason 3.
    pub(super) fn pruned(
        &mut self,
        state: &mut State,
        at: usize,
        recordings: &[Recording],
        uses: &[Use],
    ) {
        let scope = &self.input.scopes[state.rows[at].row.number.unwrap() as usize];
        let mut candidates = scope.declarations.clone();
        if self.is(Change::EscapeOfDependencies) {
            candidates.extend(&scope.dependencies);
        }
        for identifier in candidates {
            if self.escaped(state, identifier, at, recordings, uses) {
                self.name(state, identifier, 3);
            }
        }
    }

    /// Whether the identifier's declaration escaped, by its last recording in the whole tree.
    fn escaped(
        &self,
        state: &State,
        identifier: u32,
        at: usize,
        recordings: &[Recording],
        uses: &[Use],
    ) -> bool {
        if self.is(Change::EscapeOmitted) {
            return false;
        }
        let same = |other: u32| {
            if self.is(Change::EscapeByIdentifier) {
                other == identifier
            } else {
                self.declaration(other) == self.declaration(identifier)
            }
        };
        let mine: Vec<&Recording> = recordings
            .iter()
            .filter(|recording| same(recording.identifier))
            .filter(|recording| !self.is(Change::EscapeAtRow) || recording.at <= at)
            .collect();
        let every = self.is(Change::EscapeKept) || self.is(Change::EscapeNotTakenBack);
        let judged = if every { 0 } else { mine.len().saturating_sub(1) };
        (judged..mine.len()).any(|place| {
            let next = mine.get(place + 1).map_or(usize::MAX, |recording| recording.at);
            let until = if self.is(Change::EscapeNotTakenBack) { next } else { usize::MAX };
            let used = uses.iter().filter(|used| same(used.identifier) && used.at < until);
            self.escapes(state, mine[place], used)
        })
    }

    /// Whether some use after a recording escapes; the uses are those of its declaration.
    fn escapes<'u>(
        &self,
        state: &State,
        recording: &Recording,
        uses: impl DoubleEndedIterator<Item = &'u Use>,
    ) -> bool {
        let earlier = self.is(Change::EscapeByEarlierUse);
        let mut outside = uses
            .filter(|used| used.at > recording.at || earlier)
            .map(|used| self.outside(state, recording, used));
        if self.is(Change::AlwaysEscaped) {
            return true;
        }
        if self.is(Change::EscapeByLastUse) {
            return outside.next_back().unwrap_or(false);
        }
        outside.any(|outside| outside)
    }

    /// Whether a use lies outside the scopes of a recording.
    fn outside(&self, state: &State, recording: &Recording, used: &Use) -> bool {
        let active = &state.rows[used.at].active;
        let among = |scope: &Active| {
            let known = if self.is(Change::EscapeByInnermostRecorded) {
                &recording.active[recording.active.len().saturating_sub(1)..]
            } else {
                &recording.active[..]
            };
            let by_row = self.is(Change::EscapeByScopeRow);
            known.iter().any(|k| if by_row { k.row == scope.row } else { k.scope == scope.scope })
        };
        if self.is(Change::EscapeByAnyActive) {
            return active.iter().any(|scope| !among(scope));
        }
        match active.last() {
            Some(innermost) => !among(innermost),
            None => self.is(Change::EscapeWithoutScope),
        }
    }
}
