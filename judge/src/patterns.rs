//! Short lists of statements in which one rule is likely to decide: a temporary, what may happen
//! to it, and a use. Every part is drawn, so that a pattern also shows where the rule ends.

use crate::input::*;
use crate::random::Random;
use crate::rules::BARRIER_KINDS;

/// What a pattern draws from.
pub trait Source {
    fn random(&mut self) -> &mut Random;
    fn identifier(&mut self) -> u32;
    /// A Leaf of a kind that names no function.
    fn leaf_of(&mut self, kind: u8) -> Row;
    fn input(&self) -> &Input;
}

pub fn statements(source: &mut impl Source) -> Vec<Row> {
    match source.random().below(9) {
        0 | 1 => interposed(source),
        2 => constants(source),
        3 => globals(source),
        4 | 5 => escape(source),
        6 => own_operand(source),
        _ => instances(source),
    }
}

fn instruction(lvalue: Option<u32>, value: Row) -> Row {
    Row { code: INSTRUCTION, identifier: lvalue, children: vec![value], ..Row::default() }
}

fn block(statements: Vec<Row>) -> Row {
    Row::of(BLOCK, statements)
}

/// A Leaf of the kind that reads `from` and, where it has a mark at its first operand, marks it.
fn reads(source: &mut impl Source, kind: u8, from: u32) -> Row {
    let mut leaf = source.leaf_of(kind);
    if let Some(first) = leaf.operands.first_mut() {
        *first = from;
    }
    if matches!(kind, 0 | 1 | 5 | 23 | 26) || kind == 15 && !leaf.marks.is_empty() {
        leaf.marks[0] = from;
    }
    leaf
}

/// A use in one of its seven forms.
fn used(source: &mut impl Source, identifier: u32) -> Row {
    let with = |code| Row { code, identifier: Some(identifier), ..Row::default() };
    match source.random().below(9) {
        0 => with(THROW),
        1 => Row { children: vec![Row::of(CASE, vec![])], ..with(SWITCH) },
        2 => {
            let other = source.identifier();
            Row { identifier: Some(other), children: vec![with(CASE)], ..with(SWITCH) }
        }
        3 => Row { children: vec![block(vec![])], ..with(IF) },
        4 => {
            let handler = Row { children: vec![block(vec![])], ..with(HANDLER) };
            Row::of(TRY, vec![block(vec![]), handler])
        }
        5 => {
            let kind = *source.random().pick(&[9, 13, 15, 18, 31, 40, 41]);
            let leaf = reads(source, kind, identifier);
            instruction(None, leaf)
        }
        6 => {
            let leaf = reads(source, 13, identifier);
            Row::of(WHILE, vec![leaf, block(vec![])])
        }
        _ => with(RETURN),
    }
}

/// An Instruction of any kind whose lvalue is absent, named or not.
fn event(source: &mut impl Source) -> Row {
    let random = source.random();
    let kind = match random.chance(70) {
        true => *random.pick(&BARRIER_KINDS),
        false => random.below(42) as u8,
    };
    let lvalue = if source.random().chance(50) { Some(source.identifier()) } else { None };
    let kind = if names_function(kind) { 10 } else { kind };
    let leaf = source.leaf_of(kind);
    match source.random().below(8) {
        0 => instruction(lvalue, Row::of(OPTIONAL, vec![leaf])),
        1 => instruction(lvalue, Row::of(SEQUENCE, vec![instruction(None, leaf.clone()), leaf])),
        _ => instruction(lvalue, leaf),
    }
}

/// A tracking or something like it, one event or two, a use.
fn interposed(source: &mut impl Source) -> Vec<Row> {
    let (temporary, from) = (source.identifier(), source.identifier());
    let random = source.random();
    let kind = match random.chance(60) {
        true => *random.pick(&[0, 1, 11, 23, 26, 33]),
        false => *random.pick(&[4, 5, 6, 7, 12, 22, 24, 25, 27, 28, 29, 37, 38]),
    };
    let leaf = reads(source, kind, from);
    let mut list = vec![instruction(Some(temporary), leaf)];
    for _ in 0..1 + source.random().below(2) {
        list.push(event(source));
    }
    list.push(used(source, temporary));
    list
}

/// A temporary that its own Instruction uses behind a barrier, with another one tracked before.
fn own_operand(source: &mut impl Source) -> Vec<Row> {
    let (temporary, other, from) = (source.identifier(), source.identifier(), source.identifier());
    let kind = *source.random().pick(&[0, 1, 23, 26]);
    let first = reads(source, kind, from);
    let second = reads(source, kind, from);
    let random = source.random();
    let kind = if random.chance(60) {
        *random.pick(&BARRIER_KINDS)
    } else {
        *random.pick(&[0, 1, 23, 26])
    };
    let own = reads(source, kind, temporary);
    vec![
        instruction(Some(temporary), first),
        event(source),
        instruction(Some(other), second),
        instruction(Some(temporary), own),
        used(source, other),
    ]
}

/// Something made constant, loads from it, an event, a use.
fn constants(source: &mut impl Source) -> Vec<Row> {
    let (constant, between, last) = (source.identifier(), source.identifier(), source.identifier());
    let kind = *source.random().pick(&[2, 3, 4, 5, 6, 12]);
    let mut leaf = source.leaf_of(kind);
    match kind {
        5 => (leaf.operands[0], leaf.marks[0]) = (constant, constant),
        12 => (leaf.operands[1], leaf.marks[0]) = (constant, constant),
        6 => leaf.marks.push(constant),
        _ => leaf.marks[0] = constant,
    }
    let lvalue = if source.random().chance(40) { Some(source.identifier()) } else { None };
    let mut list = vec![instruction(lvalue, leaf)];
    for (to, from) in [(between, constant), (last, between)] {
        let kind = *source.random().pick(&[0, 0, 1, 1, 23, 26]);
        let load = reads(source, kind, from);
        list.push(instruction(Some(to), load));
    }
    list.push(event(source));
    list.push(used(source, last));
    list
}

/// A global, properties of it, an event, a use.
fn globals(source: &mut impl Source) -> Vec<Row> {
    let (global, between, last) = (source.identifier(), source.identifier(), source.identifier());
    let leaf = source.leaf_of(28);
    let mut list = vec![instruction(Some(global), leaf)];
    for (to, from) in [(between, global), (last, between)] {
        let kind = *source.random().pick(&[23, 23, 26, 26, 0, 1]);
        let load = reads(source, kind, from);
        list.push(instruction(Some(to), load));
    }
    list.push(event(source));
    list.push(used(source, last));
    list
}

/// A Pruned row, and a use of what it declares, or of one with the same declaration, in a scope.
fn escape(source: &mut impl Source) -> Vec<Row> {
    let count = source.input().scopes.len();
    if count == 0 {
        return interposed(source);
    }
    let number = source.random().below(count);
    let declared = source.input().scopes[number].declarations.first().copied();
    let identifier = declared.unwrap_or_else(|| source.identifier());
    let inside = related(source, identifier);
    let pruned = scoped(PRUNED, number, vec![used(source, inside)]);
    let outside = related(source, identifier);
    let later = vec![used(source, outside)];
    let mut list = in_scopes(source, vec![pruned]);
    let mut later = in_scopes(source, later);
    match source.random().below(6) {
        0 => {
            later.extend(list);
            later
        }
        1 | 2 => {
            list.extend(later);
            in_scopes(source, list)
        }
        _ => {
            list.extend(later);
            list
        }
    }
}

/// The statements within up to two scopes, most often of the first two numbers.
fn in_scopes(source: &mut impl Source, mut list: Vec<Row>) -> Vec<Row> {
    let count = source.input().scopes.len();
    for _ in 0..source.random().below(3) {
        let most = if source.random().chance(70) { count.min(2) } else { count };
        list = vec![scoped(SCOPE, source.random().below(most), list)];
    }
    list
}

fn scoped(code: u8, number: usize, statements: Vec<Row>) -> Row {
    let children = vec![block(statements)];
    Row { code, number: Some(number as u32), children, ..Row::default() }
}

/// An identifier with the same declaration, if there is another.
fn related(source: &mut impl Source, identifier: u32) -> u32 {
    let rows = &source.input().identifiers;
    let declaration = rows[identifier as usize].declaration;
    let same = (0u32..).zip(rows).filter(|(_, row)| row.declaration == declaration);
    let same: Vec<u32> = same.map(|(other, _)| other).collect();
    *source.random().pick(&same)
}

/// Identifiers of one declaration, perhaps one of them named, as lvalue, operand, use and in a scope.
fn instances(source: &mut impl Source) -> Vec<Row> {
    let identifier = source.identifier();
    let mut list = Vec::new();
    if source.random().chance(50) {
        let (temporary, from) = (related(source, identifier), source.identifier());
        let load = reads(source, 0, from);
        let call = source.leaf_of(11);
        list.extend([instruction(Some(temporary), load), instruction(None, call)]);
        list.push(used(source, temporary));
    }
    for _ in 0..1 + source.random().below(3) {
        let (to, from) = (related(source, identifier), related(source, identifier));
        let kind = *source.random().pick(&[0, 7, 9, 11, 13, 15, 23, 28]);
        let leaf = reads(source, kind, from);
        list.push(match source.random().below(3) {
            0 => used(source, from),
            _ => instruction(Some(to), leaf),
        });
    }
    let count = source.input().scopes.len();
    if count > 0 && source.random().chance(50) {
        let number = source.random().below(count);
        let code = *source.random().pick(&[SCOPE, PRUNED, PRUNED]);
        list = vec![scoped(code, number, list)];
    }
    list
}
