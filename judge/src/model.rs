//! A third party: the rules as docs/RULES.md tells them, simple and slow, in another form than the
//! Rust's passes. It is compared with the Rust, and its rules can be changed one at a time.

mod escape;
mod instances;
mod interposed;

use std::collections::HashSet;

use crate::answer::{Answer, Run};
use crate::input::*;
use crate::rules::{Change, Pass};

use interposed::Third;

/// The answer by the rules.
pub fn answer(input: &Input) -> Answer {
    changed_answer(input, None)
}

/// The answer under a change of one rule.
pub fn changed_answer(input: &Input, change: Option<Change>) -> Answer {
    let tags = input.identifiers.iter().map(|row| row.tag).collect();
    let mut model = Model { input, change, tags, named: Vec::new(), kept: Kept::default() };
    Answer { runs: input.trees.iter().map(|tree| model.run(tree)).collect() }
}

struct Model<'i> {
    input: &'i Input,
    change: Option<Change>,
    tags: Vec<u8>,
    /// The declarations that earlier runs named; no rule looks at them, some changes do.
    named: Vec<u32>,
    kept: Kept,
}

/// What changes keep from one run to the next; by the rules nothing is.
#[derive(Default)]
struct Kept {
    letters: HashSet<u32>,
    third: Option<Third>,
}

/// A row on its way: its number in walk order, its parent, and the scopes active at it.
struct Flat<'t> {
    row: &'t Row,
    parent: Option<usize>,
    active: Vec<Active>,
}

/// A scope that is active, and the row that made it so.
#[derive(Clone, Copy)]
struct Active {
    scope: u32,
    row: usize,
}

/// Entering or leaving a row.
#[derive(Clone, Copy)]
enum Event {
    Enter(usize),
    Leave(usize),
}

/// What one run holds besides the tables.
struct State<'t> {
    rows: Vec<Flat<'t>>,
    events: Vec<Event>,
    parameters: &'t [u32],
    start: Vec<u8>,
    letters: HashSet<u32>,
    journal: Vec<(u32, u8)>,
    /// The declarations of what is covered and has a name; a change looks at them.
    covered: Vec<u32>,
}

impl<'i> Model<'i> {
    fn is(&self, change: Change) -> bool {
        self.change == Some(change)
    }

    fn declaration(&self, identifier: u32) -> u32 {
        self.input.identifiers[identifier as usize].declaration
    }

    fn unnamed(&self, identifier: u32) -> bool {
        self.tags[identifier as usize] == 0
    }

    fn run(&mut self, tree: &'i Tree) -> Run {
        let mut state = State {
            rows: Vec::new(),
            events: Vec::new(),
            parameters: &tree.parameters,
            start: self.tags.clone(),
            letters: HashSet::new(),
            journal: Vec::new(),
            covered: Vec::new(),
        };
        self.flatten(&mut state, &tree.body, None, &mut Vec::new());
        self.letters(&mut state);
        self.own_parameters(&mut state);
        self.scopes_and_functions(&mut state);
        self.interposed(&mut state);
        self.instances(&mut state);
        for &(identifier, _) in &state.journal {
            self.named.push(self.declaration(identifier));
        }
        Run { tags: self.tags.clone(), journal: state.journal }
    }

    /// Rows in walk order with their parents and active scopes, and the events of the walk.
    fn flatten<'t>(
        &self,
        state: &mut State<'t>,
        row: &'t Row,
        parent: Option<usize>,
        active: &mut Vec<Active>,
    ) {
        let at = state.rows.len();
        state.rows.push(Flat { row, parent, active: active.clone() });
        state.events.push(Event::Enter(at));
        let pushes = row.code == SCOPE || row.code == PRUNED && self.is(Change::PrunedIsActive);
        if pushes {
            active.push(Active { scope: row.number.unwrap(), row: at });
        }
        for child in &row.children {
            self.flatten(state, child, Some(at), active);
        }
        if pushes && !self.is(Change::ScopeStaysActive) {
            active.pop();
        }
        state.events.push(Event::Leave(at));
    }

    /// Names an unnamed identifier and journals it.
    fn name(&mut self, state: &mut State, identifier: u32, reason: u8) {
        if !self.unnamed(identifier) {
            state.covered.push(self.declaration(identifier));
            return;
        }
        let key = if self.is(Change::LetterByIdentifier) {
            identifier
        } else {
            self.declaration(identifier)
        };
        self.tags[identifier as usize] = if state.letters.contains(&key) { 3 } else { 2 };
        state.journal.push((identifier, reason));
    }

    fn letters(&mut self, state: &mut State) {
        if self.is(Change::LetterOfEarlierRuns) {
            state.letters = self.kept.letters.clone();
        }
        for flat in &state.rows {
            if flat.row.code != LEAF || flat.row.kind != 15 || self.is(Change::LetterOmitted) {
                continue;
            }
            let by_operand = self.is(Change::LetterByOperand);
            let marks = if by_operand { &flat.row.operands } else { &flat.row.marks };
            for &mark in marks {
                let by_identifier = self.is(Change::LetterByIdentifier);
                state.letters.insert(if by_identifier { mark } else { self.declaration(mark) });
            }
        }
        self.kept.letters = state.letters.clone();
    }

    /// What a pass uses at a row.
    fn uses(&self, pass: Pass, row: &Row) -> Vec<u32> {
        let mut uses = Vec::new();
        if matches!(row.code, RETURN | THROW | SWITCH | CASE | IF | HANDLER) {
            uses.extend(row.identifier);
        }
        uses.extend(&row.operands);
        if self.is(Change::OperandsReversed(pass)) {
            uses.reverse();
        }
        if self.is(Change::UseOmitted(pass, row.code)) {
            uses.clear();
        }
        if row.code == INSTRUCTION && self.is(Change::LvalueIsUse(pass)) {
            uses.extend(row.identifier);
        }
        if self.is(Change::MarkIsUse(pass)) {
            uses.extend(&row.marks);
        }
        uses
    }

    /// Reason 1.
    fn own_parameters(&mut self, state: &mut State) {
        if self.is(Change::OwnParametersOmitted) {
            return;
        }
        for &parameter in state.parameters {
            self.name(state, parameter, 1);
        }
    }

    /// Reasons 2 to 4, by row.
    fn scopes_and_functions(&mut self, state: &mut State) {
        let (recordings, uses) = self.recordings_and_uses(state);
        let mut visited = HashSet::new();
        for at in 0..state.rows.len() {
            let row = state.rows[at].row;
            match row.code {
                SCOPE => self.scope(state, row.number.unwrap()),
                PRUNED => self.pruned(state, at, &recordings, &uses),
                LEAF if !self.is(Change::InnerLast) => self.inner(state, row, &mut visited),
                _ => {}
            }
        }
        if self.is(Change::InnerLast) {
            for at in 0..state.rows.len() {
                let row = state.rows[at].row;
                if row.code == LEAF {
                    self.inner(state, row, &mut visited);
                }
            }
        }
    }

    /// Reason 2.
    fn scope(&mut self, state: &mut State, number: u32) {
        let scope = &self.input.scopes[number as usize];
        let mut order: Vec<(&[u32], Change)> = vec![
            (&scope.dependencies, Change::DependenciesOmitted),
            (&scope.declarations, Change::DeclarationsOmitted),
        ];
        if self.is(Change::DeclarationsFirst) {
            order.reverse();
        }
        for (list, omitted) in order {
            if !self.is(omitted) {
                list.iter().for_each(|&identifier| self.name(state, identifier, 2));
            }
        }
        if self.is(Change::ReassignmentsNamed) {
            scope.reassignments.iter().for_each(|&identifier| self.name(state, identifier, 2));
        }
    }

    /// Reason 4.
    fn inner(&mut self, state: &mut State, row: &Row, visited: &mut HashSet<u32>) {
        if !names_function(row.kind) || self.is(Change::InnerOmitted(row.kind)) {
            return;
        }
        let function = row.number.unwrap();
        if self.is(Change::BreadthFirst) {
            self.breadth_first(state, function, visited);
        } else {
            self.function(state, function, 0, visited);
        }
    }

    fn function(&mut self, state: &mut State, number: u32, depth: u8, visited: &mut HashSet<u32>) {
        if !visited.insert(number) {
            return;
        }
        let function = &self.input.functions[number as usize];
        let first = !self.is(Change::NestedFirst);
        if first {
            function.parameters.iter().for_each(|&parameter| self.name(state, parameter, 4));
        }
        let deeper = !(depth == 0 && self.is(Change::NestedOmitted)
            || depth == 1 && self.is(Change::DeeplyNestedOmitted));
        if deeper {
            for &nested in &function.nested {
                self.function(state, nested, depth + 1, visited);
            }
        }
        if !first {
            function.parameters.iter().for_each(|&parameter| self.name(state, parameter, 4));
        }
    }

    fn breadth_first(&mut self, state: &mut State, number: u32, visited: &mut HashSet<u32>) {
        let mut queue = std::collections::VecDeque::from([number]);
        while let Some(next) = queue.pop_front() {
            if visited.insert(next) {
                let function = &self.input.functions[next as usize];
                function.parameters.iter().for_each(|&parameter| self.name(state, parameter, 4));
                queue.extend(&function.nested);
            }
        }
    }
}
