//! All short functions over small alphabets. An alphabet has tables, frames and statements; its
//! inputs are all lists of at most a given number of statements, with the statements of a frame
//! before and after, as the body of one tree.

use crate::input::*;
use crate::possible::operand_count;
use crate::rules::BARRIER_KINDS;

pub struct Alphabet {
    pub name: &'static str,
    pub tables: Vec<Input>,
    pub parameters: Vec<Vec<u32>>,
    pub frames: Vec<Frame>,
    pub statements: Vec<Row>,
    pub longest: usize,
}

/// Statements that stand before and after every list.
#[derive(Default)]
pub struct Frame {
    before: Vec<Row>,
    after: Vec<Row>,
}

impl Alphabet {
    /// How many inputs the alphabet has.
    pub fn count(&self) -> usize {
        let lists: usize = (0..=self.longest as u32).map(|n| self.statements.len().pow(n)).sum();
        lists * self.tables.len() * self.parameters.len() * self.frames.len()
    }

    /// Hands every input to `visit`.
    pub fn each(&self, visit: &mut impl FnMut(&Input)) {
        for tables in &self.tables {
            for parameters in &self.parameters {
                for frame in &self.frames {
                    let tree = Tree { parameters: parameters.clone(), body: frame.body() };
                    let mut input = Input { trees: vec![tree], ..tables.clone() };
                    self.extend(&mut input, frame.before.len(), 0, visit);
                }
            }
        }
    }

    /// Visits the input and all that have more statements, the next one at place `at`.
    fn extend(&self, input: &mut Input, at: usize, count: usize, visit: &mut impl FnMut(&Input)) {
        visit(input);
        if count == self.longest {
            return;
        }
        for statement in &self.statements {
            input.trees[0].body.children.insert(at, statement.clone());
            self.extend(input, at + 1, count + 1, visit);
            input.trees[0].body.children.remove(at);
        }
    }
}

impl Frame {
    fn body(&self) -> Row {
        Row::of(BLOCK, [&self.before[..], &self.after[..]].concat())
    }
}

/// No statement before and after.
fn bare() -> Vec<Frame> {
    vec![Frame::default()]
}

pub fn alphabets() -> Vec<Alphabet> {
    vec![loads(), globals(), kinds(), scopes(), uses(), nesting(), functions(), declarations()]
}

fn identifiers(rows: &[(u32, u8)]) -> Vec<Identifier> {
    rows.iter().map(|&(declaration, tag)| Identifier { declaration, tag }).collect()
}

/// Tables of identifiers with declarations of their own, for each list of tags.
fn tagged(tags: &[&[u8]]) -> Vec<Input> {
    tags.iter()
        .map(|tags| {
            let rows: Vec<(u32, u8)> = (0u32..).zip(tags.iter().copied()).collect();
            Input { identifiers: identifiers(&rows), ..Input::default() }
        })
        .collect()
}

fn leaf(kind: u8, operands: &[u32]) -> Row {
    let marks = match kind {
        0 | 1 | 5 | 23 | 26 => vec![operands[0]],
        2..=4 | 6 => vec![2],
        12 => vec![operands[1]],
        _ => Vec::new(),
    };
    Row { code: LEAF, kind, operands: operands.to_vec(), marks, ..Row::default() }
}

fn moded(kind: u8, mode: u8, operands: &[u32], mark: u32) -> Row {
    Row { mode, marks: vec![mark], ..leaf(kind, operands) }
}

fn instruction(lvalue: Option<u32>, value: Row) -> Row {
    Row { code: INSTRUCTION, identifier: lvalue, children: vec![value], ..Row::default() }
}

fn with(code: u8, identifier: u32) -> Row {
    Row { code, identifier: Some(identifier), ..Row::default() }
}

fn scoped(code: u8, number: u32, statements: Vec<Row>) -> Row {
    let children = vec![Row::of(BLOCK, statements)];
    Row { code, number: Some(number), children, ..Row::default() }
}

/// Loads, calls, constant stores and uses of two temporaries.
fn loads() -> Alphabet {
    let mut statements = vec![with(RETURN, 0), with(RETURN, 1)];
    for lvalue in [None, Some(0), Some(1), Some(2)] {
        statements.push(instruction(lvalue, leaf(11, &[2])));
        statements.push(instruction(lvalue, leaf(11, &[1])));
    }
    for (to, from) in [(0, 1), (1, 0), (0, 2), (1, 2), (2, 1)] {
        statements.push(instruction(Some(to), leaf(0, &[from])));
    }
    statements.push(instruction(None, moded(4, 0, &[0], 1)));
    statements.push(instruction(None, moded(4, 1, &[0], 1)));
    statements.push(instruction(Some(1), moded(6, 4, &[0], 2)));
    statements.push(instruction(None, leaf(12, &[2, 1])));
    statements.push(instruction(None, moded(2, 0, &[], 0)));
    Alphabet {
        name: "loads, calls, stores and uses",
        tables: tagged(&[&[0, 0, 0], &[0, 0, 1]]),
        parameters: vec![vec![], vec![2]],
        frames: bare(),
        statements,
        longest: 4,
    }
}

/// Globals and their properties.
fn globals() -> Alphabet {
    let mut statements = vec![with(RETURN, 0), with(RETURN, 1), instruction(None, leaf(11, &[2]))];
    for to in 0..3 {
        statements.push(instruction(Some(to), leaf(28, &[])));
        for from in 0..3 {
            statements.push(instruction(Some(to), leaf(23, &[from])));
        }
        statements.push(instruction(Some(to), leaf(26, &[(to + 1) % 3, to])));
        statements.push(instruction(Some(to), leaf(0, &[(to + 1) % 3])));
    }
    Alphabet {
        name: "globals and their properties",
        tables: tagged(&[&[0, 0, 0], &[0, 0, 1]]),
        parameters: vec![vec![]],
        frames: bare(),
        statements,
        longest: 4,
    }
}

/// Every kind with every mode and lvalue, directly below an Instruction and elsewhere.
fn kinds() -> Alphabet {
    let mut leafs = Vec::new();
    for kind in (0..42).filter(|&kind| !names_function(kind)) {
        let (least, _) = operand_count(kind);
        let operands: Vec<u32> = [1, 0, 2][..least].to_vec();
        let modes = if (2..=6).contains(&kind) { 8 } else { 1 };
        leafs.extend((0..modes).map(|mode| Row { mode, ..leaf(kind, &operands) }));
    }
    let mut statements = vec![with(RETURN, 0), with(RETURN, 2)];
    for value in leafs {
        for lvalue in [None, Some(0), Some(2), Some(3)] {
            statements.push(instruction(lvalue, value.clone()));
        }
        statements.push(instruction(Some(0), Row::of(OPTIONAL, vec![value.clone()])));
        statements.push(Row::of(WHILE, vec![value, Row::of(BLOCK, vec![])]));
    }
    Alphabet {
        name: "every kind and mode",
        tables: tagged(&[&[0, 0, 0, 1]]),
        parameters: vec![vec![]],
        frames: kind_frames(),
        statements,
        longest: 2,
    }
}

/// What can show that a kind raises a barrier, tracks, makes constant or global, or uses.
fn kind_frames() -> Vec<Frame> {
    let load = |to: u32, from: u32| instruction(Some(to), leaf(0, &[from]));
    let call = || instruction(None, leaf(11, &[3]));
    let global = || instruction(Some(1), leaf(28, &[]));
    let property = || instruction(Some(1), leaf(23, &[0]));
    let frame = |before: Vec<Row>, after: Vec<Row>| Frame { before, after };
    vec![
        frame(vec![], vec![]),
        frame(vec![load(0, 3)], vec![with(RETURN, 0)]),
        frame(vec![], vec![call(), with(RETURN, 0)]),
        frame(vec![], vec![load(1, 2), call(), with(RETURN, 1)]),
        frame(vec![], vec![load(2, 3), call(), with(RETURN, 2)]),
        frame(vec![], vec![property(), call(), with(RETURN, 1)]),
        frame(vec![global()], vec![call(), with(RETURN, 0)]),
        frame(vec![load(1, 3), call()], vec![]),
        frame(vec![load(1, 3), call(), load(2, 3)], vec![with(RETURN, 2)]),
    ]
}

/// Scope and Pruned rows in each other, with shared declarations and uses.
fn scopes() -> Alphabet {
    let scope = |dependencies: &[u32], declarations: &[u32], reassignments: &[u32]| Scope {
        dependencies: dependencies.to_vec(),
        declarations: declarations.to_vec(),
        reassignments: reassignments.to_vec(),
    };
    let tables = Input {
        identifiers: identifiers(&[(0, 0), (1, 0), (0, 0)]),
        scopes: vec![scope(&[], &[0], &[2]), scope(&[], &[1], &[]), scope(&[], &[], &[2])],
        ..Input::default()
    };
    let small = [
        vec![],
        vec![with(RETURN, 0)],
        vec![with(RETURN, 2)],
        vec![with(RETURN, 1)],
        vec![scoped(PRUNED, 0, vec![])],
        vec![scoped(PRUNED, 0, vec![]), with(RETURN, 2)],
        vec![scoped(SCOPE, 2, vec![with(RETURN, 2)])],
        vec![scoped(SCOPE, 1, vec![with(THROW, 0)])],
        vec![scoped(PRUNED, 1, vec![with(RETURN, 1)]), scoped(SCOPE, 2, vec![with(RETURN, 1)])],
    ];
    let mut statements: Vec<Row> = (0..3).map(|identifier| with(RETURN, identifier)).collect();
    for inner in &small {
        for number in 0..3 {
            statements.push(scoped(SCOPE, number, inner.clone()));
            statements.push(scoped(PRUNED, number, inner.clone()));
        }
    }
    Alphabet {
        name: "scopes in scopes",
        tables: vec![tables],
        parameters: vec![vec![]],
        frames: bare(),
        statements,
        longest: 3,
    }
}

/// Every form of a use, alone and in scopes, where it can name, escape or share a declaration.
fn uses() -> Alphabet {
    let empty = || Row::of(BLOCK, vec![]);
    let forms = |identifier: u32| {
        let handler = Row { children: vec![empty()], ..with(HANDLER, identifier) };
        [
            with(RETURN, identifier),
            with(THROW, identifier),
            with(SWITCH, identifier),
            Row { children: vec![with(CASE, identifier)], ..with(SWITCH, 3) },
            Row { children: vec![empty()], ..with(IF, identifier) },
            Row::of(TRY, vec![empty(), handler]),
            instruction(None, leaf(9, &[3, identifier])),
            instruction(Some(identifier), leaf(28, &[])),
            instruction(None, moded(2, 1, &[], identifier)),
        ]
    };
    let mut statements = Vec::new();
    for form in forms(0).into_iter().chain(forms(2)) {
        statements.push(form.clone());
        statements.push(scoped(SCOPE, 1, vec![form.clone()]));
        statements.push(scoped(SCOPE, 2, vec![scoped(SCOPE, 1, vec![form])]));
    }
    let tables = Input {
        identifiers: identifiers(&[(0, 0), (1, 0), (0, 0), (3, 1)]),
        scopes: vec![
            Scope { declarations: vec![0], ..Scope::default() },
            Scope::default(),
            Scope { reassignments: vec![2], ..Scope::default() },
        ],
        ..Input::default()
    };
    let pruned = || scoped(PRUNED, 0, vec![]);
    let load = |to: u32| instruction(Some(to), leaf(0, &[3]));
    let call = || instruction(None, leaf(11, &[3]));
    let befores = [
        vec![],
        vec![pruned()],
        vec![scoped(SCOPE, 1, vec![pruned()])],
        vec![scoped(SCOPE, 2, vec![scoped(SCOPE, 1, vec![pruned()])])],
        vec![load(0), call()],
        vec![load(0), load(2), call()],
    ];
    Alphabet {
        name: "every form of a use",
        tables: vec![tables],
        parameters: vec![vec![], vec![2]],
        frames: befores.map(|before| Frame { before, after: vec![] }).into(),
        statements,
        longest: 2,
    }
}

/// A call in every place that a value can have, between a load and a use in another.
fn nesting() -> Alphabet {
    let call = || leaf(11, &[2]);
    let used = || leaf(13, &[1]);
    let empty = || Row::of(BLOCK, vec![]);
    let effect = || instruction(None, call());
    let mut values = vec![call(), used()];
    for inner in [call(), used()] {
        values.push(Row::of(LOGICAL, vec![inner.clone(), used()]));
        values.push(Row::of(LOGICAL, vec![used(), inner.clone()]));
        values.push(Row::of(CONDITIONAL, vec![used(), inner.clone(), used()]));
        values.push(Row::of(SEQUENCE, vec![effect(), inner.clone()]));
        values.push(Row::of(SEQUENCE, vec![inner.clone()]));
        values.push(Row::of(OPTIONAL, vec![inner]));
    }
    let mut statements = vec![instruction(Some(1), leaf(0, &[0])), with(RETURN, 1), with(IF, 1)];
    statements[2].children = vec![empty(), Row::of(BLOCK, vec![effect()])];
    for value in values {
        statements.push(instruction(Some(0), value.clone()));
        statements.push(Row::of(DO_WHILE, vec![empty(), value.clone()]));
        statements.push(Row::of(WHILE, vec![value.clone(), Row::of(BLOCK, vec![effect()])]));
        statements.push(Row::of(FOR, vec![used(), value.clone(), empty(), call()]));
        statements.push(Row::of(FOR_OF, vec![value.clone(), used(), empty()]));
        statements.push(Row::of(FOR_IN, vec![value, Row::of(BLOCK, vec![with(RETURN, 1)])]));
    }
    Alphabet {
        name: "values in values and terminals",
        tables: tagged(&[&[0, 0, 1]]),
        parameters: vec![vec![]],
        frames: bare(),
        statements,
        longest: 3,
    }
}

/// Leafs that name functions, and functions in functions.
fn functions() -> Alphabet {
    let lists: [&[u32]; 4] = [&[], &[1], &[1, 2], &[2, 1, 2]];
    let function = |parameters: &[u32], nested: &[u32]| Function {
        parameters: parameters.to_vec(),
        nested: nested.to_vec(),
    };
    let tables = lists.iter().flat_map(|nested| {
        [&[][..], &[2]].map(|inner| Input {
            identifiers: identifiers(&[(0, 0), (1, 0), (2, 0), (1, 0)]),
            functions: vec![function(&[0], nested), function(&[1], inner), function(&[2, 0], &[])],
            scopes: vec![Scope { declarations: vec![2], ..Scope::default() }],
            ..Input::default()
        })
    });
    let mut statements = vec![with(RETURN, 3), with(RETURN, 1)];
    for function in 0..3u32 {
        for (kind, lvalue) in [(17, Some(3)), (30, None)] {
            let operands = vec![function];
            let named =
                Row { code: LEAF, kind, number: Some(function), operands, ..Row::default() };
            statements.push(instruction(lvalue, named.clone()));
            statements.push(instruction(lvalue, Row::of(OPTIONAL, vec![named])));
        }
    }
    statements.push(scoped(SCOPE, 0, vec![]));
    statements.push(scoped(PRUNED, 0, vec![]));
    Alphabet {
        name: "functions in functions",
        tables: tables.collect(),
        parameters: vec![vec![], vec![1], vec![3]],
        frames: bare(),
        statements,
        longest: 3,
    }
}

/// Shared declarations at every place that the last pass visits, and the letter.
fn declarations() -> Alphabet {
    let scope = Scope { dependencies: vec![1], declarations: vec![2], reassignments: vec![3] };
    let tables = [[0, 0, 0, 0, 4], [0, 0, 0, 3, 4], [0, 1, 1, 0, 4]].map(|numbers| Input {
        identifiers: numbers.map(|declaration| Identifier { declaration, tag: 0 }).to_vec(),
        scopes: vec![scope.clone(), Scope::default()],
        ..Input::default()
    });
    let mut statements = Vec::new();
    for identifier in 0..4 {
        statements.push(with(RETURN, identifier));
        statements.push(instruction(Some(identifier), leaf(28, &[])));
        let tag = Row { marks: vec![identifier], ..leaf(15, &[identifier]) };
        statements.push(instruction(None, tag));
    }
    for code in [SCOPE, PRUNED] {
        statements.push(scoped(code, 0, vec![]));
        statements.push(scoped(code, 0, vec![with(RETURN, 3)]));
        statements.push(scoped(code, 1, vec![with(RETURN, 2)]));
    }
    statements.push(Row { children: vec![with(CASE, 1), with(CASE, 2)], ..with(SWITCH, 0) });
    let handler = Row { children: vec![Row::of(BLOCK, vec![])], ..with(HANDLER, 3) };
    statements.push(Row::of(TRY, vec![Row::of(BLOCK, vec![]), handler]));
    for kind in BARRIER_KINDS {
        if kind == 11 {
            statements.push(instruction(None, leaf(kind, &[4])));
            statements.push(instruction(Some(0), leaf(kind, &[1])));
        }
    }
    Alphabet {
        name: "shared declarations",
        tables: tables.to_vec(),
        parameters: vec![vec![], vec![0], vec![2, 2]],
        frames: bare(),
        statements,
        longest: 3,
    }
}
