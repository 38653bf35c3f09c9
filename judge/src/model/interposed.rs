//! Reason 5: uses of tracked temporaries with a barrier since.

use std::collections::HashSet;

use super::{Model, State};
use crate::input::{INSTRUCTION, LEAF, Row, SEQUENCE};
use crate::rules::{Change, Pass, is_barrier_kind, is_constant_mode};

/// The state of reason 5; times are counts of steps, so that later is greater.
#[derive(Clone)]
pub(super) struct Third {
    constants: HashSet<u32>,
    globals: HashSet<u32>,
    tracked: Vec<Option<usize>>,
    barrier: Option<usize>,
    clock: usize,
}

impl Model<'_> {
    /// Reason 5.
    pub(super) fn interposed(&mut self, state: &mut State) {
        let mut third = self.third(state);
        for at in 0..state.rows.len() {
            let row = state.rows[at].row;
            if row.code == LEAF {
                self.leaf(state, &mut third, at);
            } else {
                self.use_all(state, &mut third, row);
            }
        }
        self.kept.third = Some(third);
    }

    fn third(&self, state: &State) -> Third {
        let mut third = Third {
            constants: HashSet::new(),
            globals: HashSet::new(),
            tracked: vec![None; self.input.identifiers.len()],
            barrier: None,
            clock: 0,
        };
        if let Some(kept) = &self.kept.third {
            if self.is(Change::ConstantsKept) {
                third.constants = kept.constants.clone();
            }
            if self.is(Change::GlobalsKept) {
                third.globals = kept.globals.clone();
            }
            if self.is(Change::TrackingKept) {
                third =
                    Third { constants: HashSet::new(), globals: HashSet::new(), ..kept.clone() };
            }
        }
        if !self.is(Change::ParametersNotConstant) {
            third.constants.extend(state.parameters.iter().map(|&p| self.constant_key(p)));
        }
        third
    }

    fn constant_key(&self, identifier: u32) -> u32 {
        if self.is(Change::ConstantByDeclaration) {
            self.declaration(identifier)
        } else {
            identifier
        }
    }

    fn track_key(&self, identifier: u32) -> usize {
        let by_declaration = self.is(Change::TrackedByDeclaration);
        (if by_declaration { self.declaration(identifier) } else { identifier }) as usize
    }

    fn use_all(&mut self, state: &mut State, third: &mut Third, row: &Row) {
        for identifier in self.uses(Pass::Interposed, row) {
            self.use_one(state, third, identifier);
        }
    }

    /// Promotes a use that is unnamed, not constant, tracked, with a barrier since its tracking.
    fn use_one(&mut self, state: &mut State, third: &mut Third, identifier: u32) {
        third.clock += 1;
        let constant = third.constants.contains(&self.constant_key(identifier));
        let behind = match third.tracked[self.track_key(identifier)] {
            Some(tracked) => third.barrier.is_some_and(|barrier| barrier > tracked),
            None => self.is(Change::UntrackedPromoted) && third.barrier.is_some(),
        };
        if behind && (!constant || self.is(Change::ConstantPromoted)) {
            self.name(state, identifier, 5);
        }
    }

    /// Whether an identifier counts as named when an Instruction looks at its lvalue.
    fn counts_as_named(&self, state: &State, identifier: u32) -> bool {
        let tags = if self.is(Change::NamedAtStart) { &state.start } else { &self.tags };
        tags[identifier as usize] != 0
    }

    /// A Leaf acts by its kind if its parent is an Instruction; any other only uses its operands.
    fn leaf(&mut self, state: &mut State, third: &mut Third, at: usize) {
        let row = state.rows[at].row;
        let parent = state.rows[at].parent.unwrap();
        let above = state.rows[parent].row;
        let in_sequence =
            state.rows[parent].parent.is_some_and(|outer| state.rows[outer].row.code == SEQUENCE);
        let inert = in_sequence && self.is(Change::SequenceInert);
        let acts =
            above.code == INSTRUCTION && !inert || self.is(Change::LeafActsUnder(above.code));
        if !acts {
            return self.use_all(state, third, row);
        }
        let lvalue = above.identifier.filter(|_| above.code == INSTRUCTION);
        match row.kind {
            kind if is_barrier_kind(kind) => self.barrier_kind(state, third, row, lvalue),
            2 | 3 => self.declare(state, third, row),
            0 | 1 => self.load(state, third, row, lvalue),
            23 | 26 => self.property_load(state, third, row, lvalue),
            28 => self.global_load(state, third, row, lvalue),
            _ => self.use_all(state, third, row),
        }
        if self.makes_global(row.kind) {
            third.globals.extend(lvalue);
        }
        if !is_barrier_kind(row.kind) {
            self.added(state, third, row.kind, lvalue);
        }
    }

    /// Whether a change lets a kind make its lvalue global that does not by the rules.
    fn makes_global(&self, kind: u8) -> bool {
        match kind {
            0 | 1 => self.is(Change::GlobalByLoads),
            23 | 26 | 28 => false,
            _ => self.is(Change::GlobalByOthers),
        }
    }

    /// What changes add to kinds that raise no barrier or track nothing.
    fn added(&mut self, state: &State, third: &mut Third, kind: u8, lvalue: Option<u32>) {
        let open = lvalue.is_none_or(|identifier| self.counts_as_named(state, identifier));
        if self.is(Change::BarrierAdded(kind)) && open {
            self.raise(third);
        }
        if self.is(Change::TrackingAdded(kind)) {
            self.track(state, third, lvalue);
        }
    }

    fn raise(&self, third: &mut Third) {
        third.clock += 1;
        third.barrier = Some(third.clock);
    }

    /// Tracks an unnamed lvalue.
    fn track(&self, state: &State, third: &mut Third, lvalue: Option<u32>) {
        let Some(identifier) = lvalue else { return };
        if self.counts_as_named(state, identifier) {
            return;
        }
        third.clock += 1;
        let slot = &mut third.tracked[self.track_key(identifier)];
        if slot.is_none() || !self.is(Change::TrackingOnce) {
            *slot = Some(third.clock);
        }
    }

    /// Makes the marks of a Leaf constant where its mode does.
    fn marks_constant(&self, third: &mut Third, row: &Row) {
        let by_rule = row.kind == 12 || is_constant_mode(row.mode) && (2..=6).contains(&row.kind);
        let omitted = self.is(Change::ConstantOmitted(row.kind, row.mode));
        if by_rule && !omitted || self.is(Change::ConstantAdded(row.kind, row.mode)) {
            third.constants.extend(row.marks.iter().map(|&mark| self.constant_key(mark)));
        }
    }

    fn barrier_kind(
        &mut self,
        state: &mut State,
        third: &mut Third,
        row: &Row,
        lvalue: Option<u32>,
    ) {
        let before = lvalue.is_none_or(|identifier| self.counts_as_named(state, identifier));
        if !self.is(Change::ConstantAfterUses) {
            self.marks_constant(third, row);
        }
        if self.is(Change::TrackingBeforeUses) {
            self.track(state, third, lvalue);
        }
        if self.is(Change::BarrierBeforeUses) && self.barrier(row, lvalue, before) {
            self.raise(third);
        }
        self.use_all(state, third, row);
        if self.is(Change::ConstantAfterUses) {
            self.marks_constant(third, row);
        }
        let after = lvalue.is_none_or(|identifier| self.counts_as_named(state, identifier));
        let open = if self.is(Change::LookedAtBeforeUses) { before } else { after };
        if !self.is(Change::BarrierBeforeUses) && self.barrier(row, lvalue, open) {
            self.raise(third);
        }
        let untracked = self.is(Change::TrackingOmitted(row.kind));
        if !untracked && !self.is(Change::TrackingBeforeUses) {
            self.track(state, third, lvalue);
        }
    }

    /// Whether a barrier kind raises one; `open` says that the lvalue is absent or named.
    fn barrier(&self, row: &Row, lvalue: Option<u32>, open: bool) -> bool {
        let store = (4..=6).contains(&row.kind) && is_constant_mode(row.mode);
        let constant = store && !self.is(Change::ConstantStoreIsBarrier(row.kind, row.mode));
        let hidden = match lvalue {
            None => self.is(Change::BarrierWithoutLvalueOmitted),
            Some(_) => open && self.is(Change::BarrierWithNamedOmitted),
        };
        let reached = open && !hidden || self.is(Change::BarrierWithUnnamed);
        reached && !constant && !self.is(Change::BarrierOmitted(row.kind))
    }

    fn declare(&mut self, state: &mut State, third: &mut Third, row: &Row) {
        self.marks_constant(third, row);
        self.use_all(state, third, row);
    }

    fn load(&mut self, state: &mut State, third: &mut Third, row: &Row, lvalue: Option<u32>) {
        let late = self.is(Change::TrackingAfterUses(row.kind));
        if let Some(identifier) = lvalue {
            let unnamed = !self.counts_as_named(state, identifier);
            let to_it = unnamed || self.is(Change::ConstantHandedToNamed(row.kind));
            let constant = third.constants.contains(&self.constant_key(row.marks[0]));
            if to_it && constant && !self.is(Change::ConstantNotHandedOn(row.kind)) {
                third.constants.insert(self.constant_key(identifier));
            }
        }
        let tracks = !self.is(Change::TrackingOmitted(row.kind));
        if tracks && !late {
            self.track(state, third, lvalue);
        }
        self.use_all(state, third, row);
        if tracks && late {
            self.track(state, third, lvalue);
        }
    }

    fn property_load(
        &mut self,
        state: &mut State,
        third: &mut Third,
        row: &Row,
        lvalue: Option<u32>,
    ) {
        let late = self.is(Change::TrackingAfterUses(row.kind));
        if let Some(identifier) = lvalue {
            let named = self.counts_as_named(state, identifier);
            let to_it = !named || !self.is(Change::GlobalNotToNamed(row.kind));
            if third.globals.contains(&row.marks[0]) && to_it {
                if !self.is(Change::GlobalNotHandedOn(row.kind)) {
                    third.globals.insert(identifier);
                }
                if !self.is(Change::GlobalNotConstant(row.kind)) {
                    third.constants.insert(self.constant_key(identifier));
                }
            }
            let constant = third.constants.contains(&self.constant_key(row.marks[0]));
            if constant && self.is(Change::ConstantHandedByProperty(row.kind)) {
                third.constants.insert(self.constant_key(identifier));
            }
        }
        let tracks = !self.is(Change::TrackingOmitted(row.kind));
        if tracks && !late {
            self.track(state, third, lvalue);
        }
        self.use_all(state, third, row);
        if tracks && late {
            self.track(state, third, lvalue);
        }
    }

    fn global_load(
        &mut self,
        state: &mut State,
        third: &mut Third,
        row: &Row,
        lvalue: Option<u32>,
    ) {
        if let Some(identifier) = lvalue {
            if !self.is(Change::GlobalOmitted) {
                third.globals.insert(identifier);
            }
            if self.is(Change::GlobalIsConstant) {
                third.constants.insert(self.constant_key(identifier));
            }
        }
        self.use_all(state, third, row);
    }
}
