//! Reason 6: the last pass over everything that a run names a declaration of.

use std::collections::HashSet;

use super::{Event, Model, State};
use crate::input::{INSTRUCTION, LEAF, PRUNED, Row, SCOPE, names_function};
use crate::rules::{Change, Pass};

impl Model<'_> {
    /// Reason 6: the last pass names what shares a declaration with something named for 1 to 5.
    pub(super) fn instances(&mut self, state: &mut State) {
        if self.is(Change::InstancesOmitted) {
            return;
        }
        let omitted = if self.is(Change::InstancesOfInterposedOmitted) { 5 } else { 0 };
        let named = state.journal.iter().filter(|&&(_, reason)| reason != omitted);
        let mut shared: HashSet<u32> =
            named.map(|&(identifier, _)| self.declaration(identifier)).collect();
        if self.is(Change::InstancesOfCovered) {
            shared.extend(&state.covered);
        }
        if self.is(Change::InstancesOfEarlierRuns) {
            shared.extend(&self.named);
        }
        if self.is(Change::InstancesOfAuthors) {
            let authors = self.input.identifiers.iter().filter(|row| row.tag == 1);
            shared.extend(authors.map(|row| row.declaration));
        }
        for identifier in self.visits(state) {
            if shared.contains(&self.declaration(identifier)) {
                self.name(state, identifier, 6);
            }
        }
    }

    /// The identifiers that the last pass visits, in its order.
    fn visits(&self, state: &State) -> Vec<u32> {
        let mut visits = state.parameters.to_vec();
        for &event in &state.events {
            match event {
                Event::Enter(at) => self.visit_entering(state.rows[at].row, &mut visits),
                Event::Leave(at) => self.visit_leaving(state.rows[at].row, &mut visits),
            }
        }
        visits
    }

    fn visit_entering(&self, row: &Row, visits: &mut Vec<u32>) {
        if row.code == INSTRUCTION && !self.is(Change::LvalueAfterValue) {
            self.visit_lvalue(row, visits);
        }
        visits.extend(self.uses(Pass::Instances, row));
        if row.code == LEAF && names_function(row.kind) {
            visits.extend(&self.input.functions[row.number.unwrap() as usize].parameters);
        }
        if self.is(Change::MarksVisited) {
            visits.extend(&row.marks);
        }
        if self.is(Change::ScopeListsOnEntering) {
            self.visit_scope(row, visits);
        }
    }

    fn visit_leaving(&self, row: &Row, visits: &mut Vec<u32>) {
        if row.code == INSTRUCTION && self.is(Change::LvalueAfterValue) {
            self.visit_lvalue(row, visits);
        }
        if !self.is(Change::ScopeListsOnEntering) {
            self.visit_scope(row, visits);
        }
    }

    fn visit_lvalue(&self, row: &Row, visits: &mut Vec<u32>) {
        if !self.is(Change::LvalueOmitted) {
            visits.extend(row.identifier);
        }
    }

    fn visit_scope(&self, row: &Row, visits: &mut Vec<u32>) {
        if row.code != SCOPE && row.code != PRUNED {
            return;
        }
        let pruned = row.code == PRUNED;
        let scope = &self.input.scopes[row.number.unwrap() as usize];
        let mut lists = Vec::new();
        if !(pruned && self.is(Change::PrunedDeclarationsOmitted)) {
            lists.push(&scope.declarations);
        }
        if !(pruned && self.is(Change::PrunedDependenciesOmitted)) {
            lists.push(&scope.dependencies);
        }
        let omitted = if pruned {
            Change::PrunedReassignmentsOmitted
        } else {
            Change::ScopeReassignmentsOmitted
        };
        if !self.is(omitted) {
            lists.push(&scope.reassignments);
        }
        if self.is(Change::ScopeListsReversed) {
            lists.reverse();
        }
        if self.is(Change::ScopeDependenciesFirst) {
            lists.swap(0, 1);
        }
        if self.is(Change::ScopeReassignmentsSecond) {
            lists.swap(1, 2);
        }
        for list in lists {
            visits.extend(list);
        }
    }
}
