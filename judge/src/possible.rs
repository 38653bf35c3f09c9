//! Which inputs the Rust can have: numbers in range, trees of the right shape, operands and marks
//! that some value answers, one context for each function, and no function within itself.

use crate::input::*;

/// The deepest row.
pub const DEPTH: usize = 127;
/// The Rust visits shared functions again and again; more visits than these are left out.
const VISITS: usize = 20_000;

type Check = Result<(), String>;

pub fn check(input: &Input) -> Check {
    tables(input)?;
    functions_end(input)?;
    for tree in &input.trees {
        identifiers(input, &tree.parameters)?;
        if tree.body.code != BLOCK {
            return Err("row 0 is no Block".to_string());
        }
        row(input, &tree.body, 0)?;
    }
    contexts(input).map(|_| ())
}

fn tables(input: &Input) -> Check {
    let count = input.identifiers.len();
    for identifier in &input.identifiers {
        need((identifier.declaration as usize) < count && identifier.tag <= 3, "identifier row")?;
    }
    for scope in &input.scopes {
        identifiers(input, &scope.dependencies)?;
        identifiers(input, &scope.declarations)?;
        identifiers(input, &scope.reassignments)?;
    }
    for function in &input.functions {
        identifiers(input, &function.parameters)?;
        need(function.nested.iter().all(|&f| (f as usize) < input.functions.len()), "nested")?;
    }
    Ok(())
}

fn need(holds: bool, what: &str) -> Check {
    if holds { Ok(()) } else { Err(what.to_string()) }
}

fn identifiers(input: &Input, list: &[u32]) -> Check {
    need(list.iter().all(|&i| (i as usize) < input.identifiers.len()), "identifier number")
}

/// Every function's visits come to an end, and soon.
fn functions_end(input: &Input) -> Check {
    let mut visits = vec![None; input.functions.len()];
    for function in 0..input.functions.len() {
        count_visits(input, function, &mut visits, &mut vec![false; input.functions.len()])?;
    }
    Ok(())
}

fn count_visits(
    input: &Input,
    function: usize,
    visits: &mut Vec<Option<usize>>,
    open: &mut Vec<bool>,
) -> Result<usize, String> {
    if let Some(count) = visits[function] {
        return Ok(count);
    }
    need(!open[function], "a function contains itself")?;
    open[function] = true;
    let mut count = 1;
    for &nested in &input.functions[function].nested {
        count += count_visits(input, nested as usize, visits, open)?;
    }
    open[function] = false;
    need(count <= VISITS, "too many visits of shared functions")?;
    visits[function] = Some(count);
    Ok(count)
}

fn row(input: &Input, given: &Row, depth: usize) -> Check {
    need(depth <= DEPTH, "depth")?;
    children(given)?;
    fields(input, given)?;
    for child in &given.children {
        row(input, child, depth + 1)?;
    }
    Ok(())
}

fn is_value(row: &Row) -> bool {
    (LEAF..=OPTIONAL).contains(&row.code)
}

fn is_statement(row: &Row) -> bool {
    matches!(row.code, 2 | 3 | 4 | 10..=14 | 16..=23)
}

/// The shape of the children: `v` a value, `b` a Block, `s` a statement and so on.
fn children(given: &Row) -> Check {
    let codes: String = given.children.iter().map(letter).collect();
    let fits = match given.code {
        BLOCK => given.children.iter().all(is_statement),
        INSTRUCTION | OPTIONAL => codes == "v",
        SCOPE | PRUNED | LABEL | HANDLER => codes == "b",
        LEAF | BREAK | CONTINUE | RETURN | THROW => codes.is_empty(),
        LOGICAL => codes == "vv",
        CONDITIONAL => codes == "vvv",
        SEQUENCE => codes.ends_with('v') && codes[..codes.len() - 1].chars().all(|c| c == 'i'),
        SWITCH => codes.chars().all(|c| c == 'c'),
        CASE => codes.is_empty() || codes == "b",
        DO_WHILE => codes == "bv",
        WHILE | FOR_IN => codes == "vb",
        FOR => codes == "vvb" || codes == "vvbv",
        FOR_OF => codes == "vvb",
        IF => codes == "b" || codes == "bb",
        TRY => codes == "bh",
        _ => false,
    };
    need(fits, "children")
}

fn letter(row: &Row) -> char {
    match row.code {
        BLOCK => 'b',
        INSTRUCTION => 'i',
        CASE => 'c',
        HANDLER => 'h',
        _ if is_value(row) => 'v',
        _ => 's',
    }
}

fn fields(input: &Input, given: &Row) -> Check {
    let with_identifier = match given.code {
        RETURN | THROW | SWITCH | IF => given.identifier.is_some(),
        INSTRUCTION | CASE | HANDLER => true,
        _ => given.identifier.is_none(),
    };
    need(with_identifier, "identifier field")?;
    identifiers(input, given.identifier.as_slice())?;
    let numbers = match given.code {
        SCOPE | PRUNED => input.scopes.len(),
        LEAF if names_function(given.kind) => input.functions.len(),
        _ => 0,
    };
    match given.number {
        Some(number) => need((number as usize) < numbers, "number field")?,
        None => need(numbers == 0 && !needs_number(given), "number field")?,
    }
    identifiers(input, &given.operands)?;
    identifiers(input, &given.marks)?;
    if given.code == LEAF {
        leaf(given)
    } else {
        let plain = given.kind == 0 && given.mode == 0;
        need(plain && given.operands.is_empty() && given.marks.is_empty(), "fields of a Leaf")
    }
}

fn needs_number(given: &Row) -> bool {
    matches!(given.code, SCOPE | PRUNED) || given.code == LEAF && names_function(given.kind)
}

/// How many operands a value of this kind has, at least and at most.
pub fn operand_count(kind: u8) -> (usize, usize) {
    match kind {
        2 | 3 | 7 | 8 | 20 | 21 | 28 | 39 => (0, 0),
        0 | 1 | 4 | 6 | 13 | 14 | 23 | 24 | 29 | 33 | 34 | 36 | 37 | 38 | 41 => (1, 1),
        5 | 9 | 22 | 26 | 27 | 35 => (2, 2),
        25 => (3, 3),
        10 | 11 | 31 => (1, usize::MAX),
        12 => (2, usize::MAX),
        _ => (0, usize::MAX),
    }
}

fn leaf(given: &Row) -> Check {
    need(given.kind <= 41 && given.mode <= 7, "kind or mode")?;
    need(given.mode == 0 || (2..=6).contains(&given.kind), "mode")?;
    let (least, most) = operand_count(given.kind);
    need((least..=most).contains(&given.operands.len()), "operand count")?;
    let marks = match given.kind {
        0 | 1 | 5 | 23 | 26 => given.marks[..] == given.operands[..1],
        2..=4 => given.marks.len() == 1,
        6 => true,
        12 => given.marks[..] == given.operands[1..2],
        15 => {
            given.marks.is_empty()
                || given.marks[..] == given.operands[..given.operands.len().min(1)]
        }
        _ => given.marks.is_empty(),
    };
    need(marks, "marks")
}

/// The context of each function, which all Leafs that name it share.
pub fn contexts(input: &Input) -> Result<Vec<Vec<u32>>, String> {
    let mut found: Vec<Option<&Vec<u32>>> = vec![None; input.functions.len()];
    let mut agree = true;
    for tree in &input.trees {
        tree.body.each(&mut |row| {
            if let (LEAF, Some(function)) = (row.code, row.number) {
                let context = found[function as usize].get_or_insert(&row.operands);
                agree &= **context == row.operands;
            }
        });
    }
    need(agree, "two contexts of one function")?;
    Ok(found.into_iter().map(|context| context.cloned().unwrap_or_default()).collect())
}
