//! Makes an input smaller as long as a property of it stays.

use crate::input::*;
use crate::possible;

/// The smallest input that can be reached by single steps. `first_kept` answers which of some
/// candidates still has the property, or none.
pub fn smallest(start: &Input, mut first_kept: impl FnMut(&[Input]) -> Option<usize>) -> Input {
    let mut smallest = start.clone();
    loop {
        let mut candidates = steps(&smallest);
        candidates.retain(|new| *new != smallest && possible::check(new).is_ok());
        match first_kept(&candidates) {
            Some(at) => smallest = candidates.swap_remove(at),
            None => return smallest,
        }
    }
}

/// Smaller inputs, the largest steps first.
fn steps(input: &Input) -> Vec<Input> {
    let mut list = Vec::new();
    for at in 0..input.trees.len() {
        list.push(altered(input, |new| {
            new.trees.remove(at);
        }));
    }
    for tree in 0..input.trees.len() {
        let rows = input.trees[tree].body.size();
        for row in 0..rows {
            for step in row_steps(nth(&input.trees[tree].body, row)) {
                list.push(altered(input, |new| *nth_mut(&mut new.trees[tree].body, row) = step));
            }
        }
    }
    table_steps(input, &mut list);
    number_steps(input, &mut list);
    list
}

fn altered(input: &Input, change: impl FnOnce(&mut Input)) -> Input {
    let mut new = input.clone();
    change(&mut new);
    new
}

fn nth(row: &Row, at: usize) -> &Row {
    let mut found = None;
    let mut count = 0;
    row.each(&mut |row| {
        if count == at {
            found = Some(row);
        }
        count += 1;
    });
    found.expect("a row of that number")
}

fn nth_mut(row: &mut Row, at: usize) -> &mut Row {
    if at == 0 {
        return row;
    }
    let mut rest = at - 1;
    for child in &mut row.children {
        let size = child.size();
        if rest < size {
            return nth_mut(child, rest);
        }
        rest -= size;
    }
    panic!("a row of that number")
}

/// Simpler forms of one row, a child of it left out, or a row below the child or a Return put in its place;
/// those of a wrong shape are sorted out afterwards.
fn row_steps(row: &Row) -> Vec<Row> {
    let mut list: Vec<Row> = Vec::new();
    for at in 0..row.children.len() {
        let mut fewer = row.clone();
        let child = fewer.children.remove(at);
        list.push(fewer.clone());
        let mut place = |rows: Vec<Row>| {
            let mut placed = fewer.clone();
            placed.children.splice(at..at, rows);
            list.push(placed);
        };
        let mut first = true;
        child.each(&mut |lower| {
            if !std::mem::take(&mut first) {
                place(block_content(lower.clone()));
            }
            if matches!(lower.code, THROW | SWITCH | CASE | IF | HANDLER) {
                place(vec![Row { code: RETURN, identifier: lower.identifier, ..Row::default() }]);
            }
        });
    }
    if row.identifier.is_some() {
        list.push(Row { identifier: None, ..row.clone() });
    }
    if row.mode > 0 {
        list.push(Row { mode: 0, ..row.clone() });
    }
    if row.code == LEAF && row.kind != 7 {
        list.push(Row { code: LEAF, kind: 7, ..Row::default() });
    }
    if !names_function(row.kind) {
        for at in 0..row.operands.len() {
            let mut fewer = row.clone();
            fewer.operands.remove(at);
            list.push(fewer);
        }
    }
    for at in 0..row.marks.len() {
        let mut fewer = row.clone();
        fewer.marks.remove(at);
        list.push(fewer);
    }
    list
}

/// A Block's statements, or the row itself.
fn block_content(row: Row) -> Vec<Row> {
    if row.code == BLOCK { row.children } else { vec![row] }
}

fn table_steps(input: &Input, list: &mut Vec<Input>) {
    for at in 0..lists(&mut input.clone()).len() {
        let length = lists(&mut input.clone())[at].len();
        for element in 0..length {
            list.push(altered(input, |new| {
                lists(new)[at].remove(element);
            }));
        }
    }
    for function in 0..input.functions.len() {
        let length = possible::contexts(input).map_or(0, |all| all[function].len());
        for element in 0..length {
            list.push(altered(input, |new| {
                each_row(new, &mut |row| {
                    if row.code == LEAF && row.number == Some(function as u32) {
                        row.operands.remove(element);
                    }
                });
            }));
        }
    }
    for at in 0..input.identifiers.len() {
        if input.identifiers[at].tag != 0 {
            list.push(altered(input, |new| new.identifiers[at].tag = 0));
        }
        if input.identifiers[at].tag > 1 {
            list.push(altered(input, |new| new.identifiers[at].tag = 1));
        }
        if input.identifiers[at].declaration != at as u32 {
            list.push(altered(input, |new| new.identifiers[at].declaration = at as u32));
        }
    }
}

/// Every list of the tables and of own parameters.
fn lists(input: &mut Input) -> Vec<&mut Vec<u32>> {
    let mut all = Vec::new();
    for scope in &mut input.scopes {
        all.extend([&mut scope.dependencies, &mut scope.declarations, &mut scope.reassignments]);
    }
    for function in &mut input.functions {
        all.extend([&mut function.parameters, &mut function.nested]);
    }
    all.extend(input.trees.iter_mut().map(|tree| &mut tree.parameters));
    all
}

fn each_row(input: &mut Input, visit: &mut impl FnMut(&mut Row)) {
    for tree in &mut input.trees {
        tree.body.each_mut(visit);
    }
}

/// Drops identifiers, scopes and functions that nothing names, and puts one for another.
fn number_steps(input: &Input, list: &mut Vec<Input>) {
    let count = input.identifiers.len() as u32;
    for at in 0..count {
        if !identifier_named(input, at) {
            list.push(without_identifier(input, at));
        }
    }
    for scope in (0..input.scopes.len() as u32).filter(|&scope| !named(input, scope, false)) {
        list.push(altered(input, |new| {
            new.scopes.remove(scope as usize);
            renumber(new, false, |number| number - u32::from(number > scope));
        }));
    }
    for function in (0..input.functions.len() as u32).filter(|&f| !named(input, f, true)) {
        list.push(altered(input, |new| {
            new.functions.remove(function as usize);
            renumber(new, true, |number| number - u32::from(number > function));
        }));
    }
    for from in 1..count {
        for to in 0..from {
            list.push(altered(input, |new| {
                each_identifier(new, &mut |i| *i = if *i == from { to } else { *i });
            }));
        }
    }
}

/// Visits every identifier number of lists and rows.
fn each_identifier(input: &mut Input, visit: &mut impl FnMut(&mut u32)) {
    for scope in &mut input.scopes {
        let lists = [&mut scope.dependencies, &mut scope.declarations, &mut scope.reassignments];
        lists.into_iter().flatten().for_each(&mut *visit);
    }
    for function in &mut input.functions {
        function.parameters.iter_mut().for_each(&mut *visit);
    }
    for tree in &mut input.trees {
        tree.parameters.iter_mut().for_each(&mut *visit);
        tree.body.each_mut(&mut |row| {
            row.identifier.iter_mut().for_each(&mut *visit);
            row.operands.iter_mut().for_each(&mut *visit);
            row.marks.iter_mut().for_each(&mut *visit);
        });
    }
}

/// Whether a list, a row or the declaration of another identifier names an identifier.
fn identifier_named(input: &Input, identifier: u32) -> bool {
    let mut found = false;
    each_identifier(&mut input.clone(), &mut |i| found |= *i == identifier);
    let mut others =
        input.identifiers.iter().enumerate().filter(|&(at, _)| at as u32 != identifier);
    found || others.any(|(_, row)| row.declaration == identifier)
}

fn without_identifier(input: &Input, identifier: u32) -> Input {
    altered(input, |new| {
        new.identifiers.remove(identifier as usize);
        for row in &mut new.identifiers {
            row.declaration -= u32::from(row.declaration > identifier);
        }
        each_identifier(new, &mut |i| *i -= u32::from(*i > identifier));
    })
}

/// Whether a row, or for functions a nested list, names a scope or a function.
fn named(input: &Input, number: u32, function: bool) -> bool {
    let mut found = function && input.functions.iter().any(|f| f.nested.contains(&number));
    for tree in &input.trees {
        tree.body.each(&mut |row| {
            found |= row.number == Some(number) && (row.code == LEAF) == function;
        });
    }
    found
}

fn renumber(input: &mut Input, function: bool, change: impl Fn(u32) -> u32) {
    if function {
        for row in &mut input.functions {
            row.nested.iter_mut().for_each(|number| *number = change(*number));
        }
    }
    each_row(input, &mut |row| {
        if (row.code == LEAF) == function {
            row.number = row.number.map(&change);
        }
    });
}
