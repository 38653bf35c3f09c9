//! Families of inputs, each a function from a size to an input with one tree.

use judge::input::*;
use judge::random::Random;

pub struct Family {
    pub name: &'static str,
    pub title: &'static str,
    pub sizes: &'static [usize],
    /// Sizes beyond this are left out for the Rust, which would not end in reasonable time.
    pub rust_up_to: usize,
    pub make: fn(usize) -> Input,
}

/// Row counts, growing by 4 up to the limit of rows.
const ROWS: &[usize] = &[1_024, 4_096, 16_384, 65_536, 262_144];
/// Function counts, growing by 4 up to the limit of functions.
const FUNCTIONS: &[usize] = &[16, 64, 256, 1_024, 4_096];
/// The Rust's visits grow by 4 with each two functions more; the last sizes are for others.
const DOUBLED: &[usize] = &[6, 8, 10, 12, 14, 16, 18, 20, 64, 256, 1_024, 4_096];
const PANELS: &[usize] = &[50, 125, 200, 500];

pub fn all() -> Vec<Family> {
    let by_rows =
        |name, title, make| Family { name, title, sizes: ROWS, rust_up_to: usize::MAX, make };
    vec![
        by_rows("loads-calls", "n loads and n calls", loads_calls),
        by_rows("no-barriers", "n loads and n calls without barriers", no_barriers),
        by_rows("load-call-use", "load, call, use n times", load_call_use),
        by_rows("one-tracked", "one tracked identifier and n calls", one_tracked),
        Family {
            name: "chain",
            title: "n Leafs over a chain of n functions",
            sizes: FUNCTIONS,
            rust_up_to: usize::MAX,
            make: chain,
        },
        Family {
            name: "doubled",
            title: "n functions, each listing the next twice",
            sizes: DOUBLED,
            rust_up_to: 20,
            make: doubled,
        },
        by_rows("deep-scopes", "deep scopes", deep_scopes),
        Family {
            name: "panel",
            title: "typical panels",
            sizes: PANELS,
            rust_up_to: usize::MAX,
            make: panel,
        },
    ]
}

fn unnamed(count: usize) -> Vec<Identifier> {
    (0..count as u32).map(|declaration| Identifier { declaration, tag: 0 }).collect()
}

fn input(identifiers: Vec<Identifier>, statements: Vec<Row>) -> Input {
    let body = Row::of(BLOCK, statements);
    Input { identifiers, trees: vec![Tree { parameters: vec![], body }], ..Input::default() }
}

fn instruction(lvalue: Option<u32>, kind: u8, operands: &[u32]) -> Row {
    let marks = if matches!(kind, 0 | 1 | 23) { operands.to_vec() } else { vec![] };
    let leaf = Row { code: LEAF, kind, operands: operands.to_vec(), marks, ..Row::default() };
    Row { code: INSTRUCTION, identifier: lvalue, children: vec![leaf], ..Row::default() }
}

fn with(code: u8, identifier: u32) -> Row {
    Row { code, identifier: Some(identifier), ..Row::default() }
}

fn scoped(code: u8, number: usize, statements: Vec<Row>) -> Row {
    let children = vec![Row::of(BLOCK, statements)];
    Row { code, number: Some(number as u32), children, ..Row::default() }
}

/// Every identifier but the first is loaded from it, then so many calls.
fn loads_calls(rows: usize) -> Input {
    let count = rows / 4;
    let loads = (1..count as u32).map(|to| instruction(Some(to), 0, &[0]));
    let calls = (1..count).map(|_| instruction(None, 11, &[0]));
    input(unnamed(count), loads.chain(calls).collect())
}

/// The same, with the calls' answers in unnamed lvalues.
fn no_barriers(rows: usize) -> Input {
    let count = rows / 4;
    let loads = (1..count as u32).map(|to| instruction(Some(to), 0, &[0]));
    let calls = (1..count as u32).map(|to| instruction(Some(to), 11, &[0]));
    input(unnamed(count), loads.chain(calls).collect())
}

fn load_call_use(rows: usize) -> Input {
    let count = (rows - 1) / 5;
    let one =
        |to: u32| [instruction(Some(to), 0, &[0]), instruction(None, 11, &[0]), with(RETURN, to)];
    input(unnamed(count + 1), (1..=count as u32).flat_map(one).collect())
}

/// As many identifiers as in the other families, of which one is tracked.
fn one_tracked(rows: usize) -> Input {
    let calls = (rows - 4) / 2;
    let mut statements = vec![instruction(Some(1), 0, &[0])];
    statements.extend((0..calls).map(|_| instruction(None, 11, &[0])));
    statements.push(with(RETURN, 1));
    input(unnamed(rows / 4), statements)
}

fn functions(count: usize, listed: usize) -> Vec<Function> {
    let one = |at: usize| {
        let next = (at + 1) as u32;
        let nested = if at + 1 < count { vec![next; listed] } else { vec![] };
        Function { parameters: vec![at as u32], nested }
    };
    (0..count).map(one).collect()
}

fn named_function(number: usize) -> Row {
    let mut row = instruction(None, 30, &[]);
    row.children[0].number = Some(number as u32);
    row
}

/// Function i lists function i + 1, and one Leaf names each.
fn chain(count: usize) -> Input {
    let leafs = (0..count).map(named_function).collect();
    Input { functions: functions(count, 1), ..input(unnamed(count), leafs) }
}

fn doubled(count: usize) -> Input {
    let leaf = vec![named_function(0)];
    Input { functions: functions(count, 2), ..input(unnamed(count), leaf) }
}

/// Towers of 60 scopes in each other; on top a Pruned row, a use of what it declares in the
/// tower, and one in the first scope of the next tower.
fn deep_scopes(rows: usize) -> Input {
    const HEIGHT: usize = 60;
    let towers = (rows - 1) / (2 * HEIGHT + 4);
    let mut statements = Vec::new();
    for tower in 0..towers {
        let declared = (tower % 256) as u32;
        let mut inner = vec![scoped(PRUNED, tower % 256, vec![]), with(RETURN, declared)];
        for level in (0..HEIGHT).rev() {
            inner = vec![scoped(SCOPE, 256 + level, inner)];
        }
        let first = &mut inner[0].children[0].children;
        first.insert(0, with(RETURN, (declared + 255) % 256));
        statements.extend(inner);
    }
    let mut scopes: Vec<Scope> =
        (0..256).map(|at| Scope { declarations: vec![at], ..Scope::default() }).collect();
    scopes.extend((0..HEIGHT as u32).map(|level| Scope {
        dependencies: vec![256 + level],
        declarations: vec![320 + level],
        reassignments: vec![384 + level],
    }));
    Input { scopes, ..input(unnamed(448), statements) }
}

/// A component as a compiler meets it: parameters taken apart, scopes that call and make JSX,
/// handlers, branches and a result. The parts come in turn as long as one still fits.
fn panel(rows: usize) -> Input {
    let mut made = Panel { random: Random::new(rows as u64), input: Input::default() };
    let props = made.identifier(0);
    let mut statements = Vec::new();
    let mut left = rows - 2;
    let mut turn = 0;
    while left >= Panel::SMALLEST {
        if Panel::SIZES[turn % 4] <= left {
            statements.extend(made.part(turn % 4, props));
            left -= Panel::SIZES[turn % 4];
        }
        turn += 1;
    }
    statements.extend((0..left).map(|_| Row::of(BREAK, vec![])));
    statements.push(with(RETURN, props));
    let tree = Tree { parameters: vec![props], body: Row::of(BLOCK, statements) };
    Input { trees: vec![tree], ..made.input }
}

struct Panel {
    random: Random,
    input: Input,
}

impl Panel {
    fn identifier(&mut self, tag: u8) -> u32 {
        let number = self.input.identifiers.len() as u32;
        self.input.identifiers.push(Identifier { declaration: number, tag });
        number
    }

    /// A new scope with what it needs and makes.
    fn scope(&mut self, dependencies: Vec<u32>, declarations: Vec<u32>) -> usize {
        self.input.scopes.push(Scope { dependencies, declarations, reassignments: vec![] });
        self.input.scopes.len() - 1
    }

    /// The row counts of the four parts.
    const SIZES: [usize; 4] = [12, 16, 4, 8];
    const SMALLEST: usize = 4;

    fn part(&mut self, number: usize, props: u32) -> Vec<Row> {
        let rows = match number {
            0 => self.state(props),
            1 => self.element(props),
            2 => self.handler(props),
            _ => self.branch(props),
        };
        assert_eq!(rows.iter().map(Row::size).sum::<usize>(), Self::SIZES[number]);
        rows
    }

    /// A property stored under an author's name.
    fn property(&mut self, props: u32, name: u32) -> Vec<Row> {
        let (object, value) = (self.identifier(0), self.identifier(0));
        let mut store = instruction(None, 4, &[value]);
        store.children[0].marks = vec![name];
        vec![instruction(Some(object), 0, &[props]), instruction(Some(value), 23, &[object]), store]
    }

    fn state(&mut self, props: u32) -> Vec<Row> {
        let name = self.identifier(1);
        let mut rows = self.property(props, name);
        let (hook, argument, result) = (self.identifier(0), self.identifier(0), self.identifier(1));
        rows.push(instruction(Some(hook), 28, &[]));
        rows.push(instruction(Some(argument), 0, &[name]));
        rows.push(instruction(Some(result), 11, &[hook, argument]));
        rows
    }

    fn handler(&mut self, props: u32) -> Vec<Row> {
        let (parameter, closure) = (self.identifier(0), self.identifier(0));
        let function = Function { parameters: vec![parameter], nested: vec![] };
        self.input.functions.push(function);
        let mut leaf = instruction(Some(closure), 30, &[props]);
        leaf.children[0].number = Some(self.input.functions.len() as u32 - 1);
        let scope = self.scope(vec![props], vec![closure]);
        vec![scoped(SCOPE, scope, vec![leaf])]
    }

    fn branch(&mut self, props: u32) -> Vec<Row> {
        let (test, value, name) = (self.identifier(0), self.identifier(0), self.identifier(1));
        let mut store = instruction(None, 4, &[value]);
        (store.children[0].mode, store.children[0].marks) = (2, vec![name]);
        let then = Row::of(BLOCK, vec![instruction(Some(value), 7, &[]), store]);
        let check = Row { children: vec![then], ..with(IF, test) };
        vec![instruction(Some(test), 0, &[props]), check]
    }

    fn element(&mut self, props: u32) -> Vec<Row> {
        let name = self.identifier(1);
        let (tag, text, child, element) =
            (self.identifier(0), self.identifier(0), self.identifier(0), self.identifier(0));
        let mut jsx = instruction(Some(element), 15, &[tag, text, child]);
        jsx.children[0].marks = vec![tag];
        let mut inner = self.property(props, name);
        inner.extend([
            instruction(Some(tag), 28, &[]),
            instruction(Some(text), 8, &[]),
            instruction(Some(child), 0, &[name]),
            jsx,
        ]);
        let code = if self.random.chance(25) { PRUNED } else { SCOPE };
        let scope = self.scope(vec![props], vec![element]);
        vec![scoped(code, scope, inner)]
    }
}
