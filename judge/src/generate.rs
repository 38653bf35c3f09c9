//! Seeded inputs that the Rust can have. A profile drawn first makes inputs small or large, flat
//! or deep; a few identifiers are drawn much more often than the others, so that rows meet.

use crate::input::*;
use crate::patterns;
use crate::possible::{DEPTH, operand_count};
use crate::random::Random;

/// The kinds that act in the third pass.
const ACTING: [u8; 20] = [0, 1, 2, 3, 4, 5, 6, 11, 12, 22, 23, 24, 25, 26, 27, 28, 29, 33, 37, 38];

/// The input of a seed.
pub fn input(seed: u64) -> Input {
    let mut random = Random::new(seed);
    let profile = Profile::draw(&mut random);
    let tables = tables(&mut random, &profile);
    let mut maker = Maker { random, profile, input: tables, contexts: Vec::new(), hot: Vec::new() };
    maker.prepare();
    for _ in 0..maker.profile.trees {
        maker.tree();
    }
    maker.input
}

struct Profile {
    identifiers: usize,
    scopes: usize,
    functions: usize,
    trees: usize,
    rows: usize,
    /// How many identifiers are drawn often.
    hot: usize,
    /// In percent: identifiers with a name, with a declaration shared with another.
    named: usize,
    shared: usize,
    /// In percent: statements that are Instructions, Leafs directly below, kinds that act.
    instructions: usize,
    leafs: usize,
    acting: usize,
    /// In percent: Leafs that name a function besides.
    naming: usize,
    /// In percent: Instructions with an lvalue, statements drawn as a scope.
    lvalues: usize,
    scoped: usize,
    /// In percent: places where a whole pattern of statements is put.
    patterns: usize,
    /// Whether statements go into each other as deep as rows may.
    deep: bool,
}

impl Profile {
    fn draw(random: &mut Random) -> Profile {
        let large = random.chance(4);
        let identifiers = if large { 1 + random.below(80) } else { 1 + random.below(9) };
        Profile {
            identifiers: if random.chance(1) { 0 } else { identifiers },
            scopes: random.below(if large { 12 } else { 5 }),
            functions: random.below(if large { 9 } else { 5 }),
            trees: *random.pick(&[1, 1, 1, 1, 2, 2, 3]),
            rows: if large { 40 + random.below(300) } else { 2 + random.below(40) },
            hot: 1 + random.below(4),
            named: *random.pick(&[0, 0, 10, 25, 50, 80]),
            shared: *random.pick(&[0, 0, 15, 40, 70]),
            instructions: *random.pick(&[30, 55, 75, 90]),
            leafs: *random.pick(&[40, 75, 92, 100]),
            acting: *random.pick(&[20, 60, 85]),
            naming: *random.pick(&[0, 0, 0, 3, 25]),
            lvalues: *random.pick(&[40, 65, 85]),
            scoped: *random.pick(&[0, 15, 35, 60]),
            patterns: *random.pick(&[0, 5, 25, 60]),
            deep: random.chance(3),
        }
    }
}

/// Identifiers drawn by the maker, with the tables that patterns look into.
impl patterns::Source for Maker {
    fn random(&mut self) -> &mut Random {
        &mut self.random
    }

    fn identifier(&mut self) -> u32 {
        Maker::identifier(self)
    }

    fn leaf_of(&mut self, kind: u8) -> Row {
        Maker::leaf_of(self, kind)
    }

    fn input(&self) -> &Input {
        &self.input
    }
}

fn tables(random: &mut Random, profile: &Profile) -> Input {
    let count = profile.identifiers;
    let identifiers = (0..count).map(|at| {
        let shared = random.chance(profile.shared);
        let declaration = if shared { random.below(count) } else { at } as u32;
        let named = random.chance(profile.named);
        Identifier { declaration, tag: if named { *random.pick(&[1, 1, 1, 2, 3]) } else { 0 } }
    });
    Input { identifiers: identifiers.collect(), ..Input::default() }
}

struct Maker {
    random: Random,
    profile: Profile,
    input: Input,
    /// The operands of every Leaf that names a function.
    contexts: Vec<Vec<u32>>,
    hot: Vec<u32>,
}

impl Maker {
    /// Fills the tables of scopes and functions.
    fn prepare(&mut self) {
        let count = self.profile.identifiers;
        if count > 0 {
            self.hot = (0..self.profile.hot).map(|_| self.random.below(count) as u32).collect();
        }
        for _ in 0..self.profile.scopes {
            let scope = Scope {
                dependencies: self.list(3),
                declarations: self.list(3),
                reassignments: self.list(3),
            };
            self.input.scopes.push(scope);
        }
        self.functions();
    }

    /// Functions list only functions that come later in a random order.
    fn functions(&mut self) {
        let count = self.profile.functions;
        let mut order: Vec<usize> = (0..count).collect();
        for at in (1..count).rev() {
            order.swap(at, self.random.below(at + 1));
        }
        self.input.functions = vec![Function::default(); count];
        for (at, &function) in order.iter().enumerate() {
            let later = &order[at + 1..];
            let nested = if later.is_empty() { 0 } else { self.random.below(4) };
            let nested = (0..nested).map(|_| *self.random.pick(later) as u32).collect();
            let parameters = self.parameters();
            self.input.functions[function] = Function { parameters, nested };
        }
        self.contexts = (0..count).map(|_| self.list(2)).collect();
    }

    /// Parameters of a function, without regard to which identifiers are drawn often.
    fn parameters(&mut self) -> Vec<u32> {
        let count = self.profile.identifiers;
        if count == 0 {
            return Vec::new();
        }
        (0..self.random.below(3)).map(|_| self.random.below(count) as u32).collect()
    }

    fn identifier(&mut self) -> u32 {
        if self.random.chance(65) {
            *self.random.pick(&self.hot)
        } else {
            self.random.below(self.profile.identifiers) as u32
        }
    }

    fn exactly(&mut self, count: usize) -> Vec<u32> {
        (0..count).map(|_| self.identifier()).collect()
    }

    /// Up to `most` identifiers, and seldom many more.
    fn list(&mut self, most: usize) -> Vec<u32> {
        if self.profile.identifiers == 0 {
            return Vec::new();
        }
        let count =
            if self.random.chance(2) { self.random.below(12) } else { self.random.below(most + 1) };
        self.exactly(count)
    }

    fn tree(&mut self) {
        let parameters = if self.random.chance(40) { self.list(2) } else { Vec::new() };
        let mut left = self.profile.rows;
        let body = self.block(0, &mut left);
        self.input.trees.push(Tree { parameters, body });
    }

    fn block(&mut self, depth: usize, left: &mut usize) -> Row {
        let mut block = Row::of(BLOCK, Vec::new());
        let most = if depth == 0 { 60 } else { 1 + self.random.below(5) };
        while *left > 0 && depth < DEPTH && block.children.len() < most {
            if depth < DEPTH - 12
                && self.profile.identifiers > 0
                && self.random.chance(self.profile.patterns)
            {
                let pattern = self.pattern();
                *left = left.saturating_sub(pattern.iter().map(Row::size).sum());
                block.children.extend(pattern);
                continue;
            }
            let statement = self.statement(depth + 1, left);
            block.children.push(statement);
            if self.profile.deep && depth > 0 && self.random.chance(70) {
                break;
            }
        }
        block
    }

    /// Statements made to meet each other; none without identifiers.
    fn pattern(&mut self) -> Vec<Row> {
        if self.profile.identifiers == 0 { Vec::new() } else { patterns::statements(self) }
    }

    fn statement(&mut self, depth: usize, left: &mut usize) -> Row {
        *left = left.saturating_sub(1);
        let none = self.profile.identifiers == 0;
        let plain = if self.profile.deep { 10 } else { self.profile.instructions };
        // A Leaf below an Instruction, and the rows of a terminal, take up to three levels more.
        if depth + 3 > DEPTH {
            return self.shallow(depth, none);
        }
        if self.random.chance(plain) {
            return self.instruction(depth, left);
        }
        if !self.input.scopes.is_empty() && self.random.chance(self.profile.scoped) {
            return self.scope(depth, left);
        }
        let code = *self.random.pick(&[
            BREAK, CONTINUE, RETURN, RETURN, RETURN, THROW, SWITCH, DO_WHILE, WHILE, FOR, FOR_OF,
            FOR_IN, IF, IF, LABEL, TRY,
        ]);
        let code = if none && matches!(code, RETURN | THROW | SWITCH | IF) { LABEL } else { code };
        self.terminal(code, depth, left)
    }

    /// A statement for the last levels.
    fn shallow(&mut self, depth: usize, none: bool) -> Row {
        if depth < DEPTH && self.random.chance(60) {
            return self.instruction(depth, &mut 0);
        }
        if none {
            return Row::of(BREAK, Vec::new());
        }
        let code = *self.random.pick(&[RETURN, RETURN, THROW, BREAK, CONTINUE]);
        self.terminal(code, depth, &mut 0)
    }

    fn scope(&mut self, depth: usize, left: &mut usize) -> Row {
        let number = Some(self.random.below(self.input.scopes.len()) as u32);
        let code = *self.random.pick(&[SCOPE, PRUNED]);
        Row { code, number, children: vec![self.block(depth + 1, left)], ..Row::default() }
    }

    fn terminal(&mut self, code: u8, depth: usize, left: &mut usize) -> Row {
        let identifier = match code {
            RETURN | THROW | SWITCH | IF => Some(self.identifier()),
            _ => None,
        };
        let below = depth + 1;
        let children = match code {
            SWITCH => (0..self.random.below(4)).map(|_| self.case(below, left)).collect(),
            DO_WHILE => vec![self.block(below, left), self.value(below, left)],
            WHILE | FOR_IN => vec![self.value(below, left), self.block(below, left)],
            FOR_OF => {
                vec![self.value(below, left), self.value(below, left), self.block(below, left)]
            }
            FOR => {
                let mut rows =
                    vec![self.value(below, left), self.value(below, left), self.block(below, left)];
                if self.random.chance(60) {
                    rows.push(self.value(below, left));
                }
                rows
            }
            IF => (0..1 + self.random.below(2)).map(|_| self.block(below, left)).collect(),
            LABEL => vec![self.block(below, left)],
            TRY => vec![self.block(below, left), self.handler(below, left)],
            _ => Vec::new(),
        };
        Row { code, identifier, children, ..Row::default() }
    }

    fn optional(&mut self, percent: usize) -> Option<u32> {
        let some = self.profile.identifiers > 0 && self.random.chance(percent);
        some.then(|| self.identifier())
    }

    fn case(&mut self, depth: usize, left: &mut usize) -> Row {
        let identifier = self.optional(60);
        let full = self.random.chance(75);
        let children = if full { vec![self.block(depth + 1, left)] } else { Vec::new() };
        Row { code: CASE, identifier, children, ..Row::default() }
    }

    fn handler(&mut self, depth: usize, left: &mut usize) -> Row {
        let identifier = self.optional(60);
        Row {
            code: HANDLER,
            identifier,
            children: vec![self.block(depth + 1, left)],
            ..Row::default()
        }
    }

    fn instruction(&mut self, depth: usize, left: &mut usize) -> Row {
        let identifier = self.optional(self.profile.lvalues);
        let children = if self.random.chance(self.profile.leafs) {
            *left = left.saturating_sub(1);
            vec![self.leaf()]
        } else {
            vec![self.value(depth + 1, left)]
        };
        Row { code: INSTRUCTION, identifier, children, ..Row::default() }
    }

    fn value(&mut self, depth: usize, left: &mut usize) -> Row {
        *left = left.saturating_sub(1);
        let leaf = if self.profile.deep { 15 } else { 55 };
        if *left == 0 || depth + 3 > DEPTH || self.random.chance(leaf) {
            return self.leaf();
        }
        let code = *self.random.pick(&[LOGICAL, CONDITIONAL, SEQUENCE, SEQUENCE, OPTIONAL]);
        let below = depth + 1;
        let children = match code {
            LOGICAL => (0..2).map(|_| self.value(below, left)).collect(),
            CONDITIONAL => (0..3).map(|_| self.value(below, left)).collect(),
            SEQUENCE => {
                let count = self.random.below(4);
                let mut rows: Vec<Row> =
                    (0..count).map(|_| self.instruction(below, left)).collect();
                rows.push(self.value(below, left));
                rows
            }
            _ => vec![self.value(below, left)],
        };
        Row::of(code, children)
    }

    fn leaf(&mut self) -> Row {
        let mut kind = if self.random.chance(self.profile.acting) {
            *self.random.pick(&ACTING)
        } else {
            self.random.below(42) as u8
        };
        if self.random.chance(self.profile.naming) {
            kind = *self.random.pick(&[17, 30]);
        }
        if self.profile.identifiers == 0 {
            kind = *self.random.pick(&[7, 8, 15, 16, 18, 19, 20, 21, 28, 32, 39, 40]);
        }
        if names_function(kind) {
            match self.input.functions.len() {
                0 => kind = 18,
                count => return self.function_leaf(kind, count),
            }
        }
        self.leaf_of(kind)
    }

    /// A Leaf of a kind that names no function.
    fn leaf_of(&mut self, kind: u8) -> Row {
        let operands = self.operands(kind);
        let marks = self.marks(kind, &operands);
        let mode = if (2..=6).contains(&kind) { self.mode() } else { 0 };
        Row { code: LEAF, kind, mode, operands, marks, ..Row::default() }
    }

    fn function_leaf(&mut self, kind: u8, count: usize) -> Row {
        let function = self.random.below(count);
        let operands = self.contexts[function].clone();
        Row { code: LEAF, number: Some(function as u32), kind, operands, ..Row::default() }
    }

    fn operands(&mut self, kind: u8) -> Vec<u32> {
        let (least, most) = operand_count(kind);
        let mut operands = self.exactly(least);
        if most > least {
            let more = self.list(2);
            operands.extend(more);
        }
        operands
    }

    fn marks(&mut self, kind: u8, operands: &[u32]) -> Vec<u32> {
        match kind {
            0 | 1 | 5 | 23 | 26 => vec![operands[0]],
            12 => vec![operands[1]],
            15 if !operands.is_empty() && self.random.chance(70) => vec![operands[0]],
            2..=4 => vec![self.identifier()],
            6 => self.list(3),
            _ => Vec::new(),
        }
    }

    fn mode(&mut self) -> u8 {
        if self.random.chance(40) { *self.random.pick(&[0, 4]) } else { self.random.below(8) as u8 }
    }
}
