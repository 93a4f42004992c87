//! Random programs, written as tokens and as the stream that these mean at
//! once. Their names and counts are in order; their types need not be.

use super::random::Random;
use super::vocabulary::{self, OPERATORS};

pub struct Program {
    pub tokens: Vec<Vec<u8>>,
    pub stream: Vec<u8>,
}

struct Variable {
    name: Vec<u8>,
    of: u8,
    number: u8,
}

struct Struct {
    name: Vec<u8>,
    parameters: Vec<Variable>,
}

struct Writer<'r> {
    random: &'r mut Random,
    /// Whether binary expressions may stand bare.
    bare: bool,
    /// About how many more statements, items and operands to write.
    budget: usize,
    /// The greatest nesting of ifs and Fixes, and of expressions.
    nesting: usize,
    levels: usize,
    out: Program,
    structs: Vec<Struct>,
    steps: Vec<Vec<u8>>,
    owner: usize,
    living: Vec<Variable>,
    declared: Vec<Vec<u8>>,
}

/// The level of an operand that no operator may be bare in.
const OPERAND: usize = 5;
const COMPARISON: usize = 2;

/// A random program of about this many parts.
pub fn program(random: &mut Random, bare: bool, budget: usize) -> Program {
    let deep = random.one_in(8);
    let (nesting, levels) = if deep { (12, 24) } else { (8, 16) };
    let mut writer = Writer {
        random,
        bare,
        budget,
        nesting,
        levels,
        out: Program { tokens: Vec::new(), stream: Vec::new() },
        structs: Vec::new(),
        steps: Vec::new(),
        owner: 0,
        living: Vec::new(),
        declared: Vec::new(),
    };
    writer.declare_structs();
    writer.struct_texts();
    writer.items(0);
    writer.out
}

impl Writer<'_> {
    fn token(&mut self, token: &str) {
        self.out.tokens.push(token.as_bytes().to_vec());
    }

    fn tokens(&mut self, tokens: &[&str]) {
        tokens.iter().for_each(|token| self.token(token));
    }

    fn name(&mut self, name: &[u8]) {
        self.out.tokens.push(name.to_vec());
    }

    fn byte(&mut self, byte: u8) {
        self.out.stream.push(byte);
    }

    /// Takes from the budget; whether there was any.
    fn spend(&mut self) -> bool {
        let left = self.budget > 0;
        self.budget = self.budget.saturating_sub(1);
        left
    }

    /// A count up to this greatest one, mostly small.
    fn some(&mut self, greatest: usize) -> usize {
        match self.random.below(12) {
            0 => greatest,
            1 => self.random.below(greatest + 1),
            _ => self.random.below(greatest.min(4) + 1),
        }
    }

    fn new_name(&mut self, taken: impl Fn(&Self, &[u8]) -> bool) -> Vec<u8> {
        loop {
            let name = vocabulary::name(self.random);
            if !taken(self, &name) {
                return name;
            }
        }
    }

    fn random_type(&mut self) -> u8 {
        if self.random.one_in(2) {
            self.random.below(3) as u8
        } else {
            16 + self.random.below(self.structs.len()) as u8
        }
    }

    /// A type in the text; its byte is the caller's to write.
    fn type_token(&mut self, of: u8) {
        match of {
            0..=2 => self.token(["Int", "Nat", "Bool"][usize::from(of)]),
            _ => {
                let name = self.structs[usize::from(of) - 16].name.clone();
                self.name(&name);
            }
        }
    }

    fn declare_structs(&mut self) {
        let count = self.some(16).max(1);
        for _ in 0..count {
            let name = self.new_name(|w, name| w.structs.iter().any(|s| s.name == name));
            self.structs.push(Struct { name, parameters: Vec::new() });
        }
        self.byte(count as u8);
        for index in 0..count {
            let parameters = self.some(8);
            self.byte(parameters as u8);
            for number in 0..parameters as u8 {
                let of = self.random_type();
                self.byte(of);
                let taken = |w: &Self, name: &[u8]| {
                    w.structs[index].parameters.iter().any(|p| p.name == name)
                };
                let name = self.new_name(taken);
                self.structs[index].parameters.push(Variable { name, of, number });
            }
        }
    }

    fn struct_texts(&mut self) {
        for index in 0..self.structs.len() {
            self.owner = index;
            self.token("struct");
            let name = self.structs[index].name.clone();
            self.name(&name);
            self.token("(");
            self.parameter_texts();
            self.tokens(&[")", "{"]);
            self.step_texts(index + 1 == self.structs.len());
            self.token("}");
        }
    }

    fn parameter_texts(&mut self) {
        for index in 0..self.structs[self.owner].parameters.len() {
            if index > 0 {
                self.token(",");
            }
            let parameter = &self.structs[self.owner].parameters[index];
            let (name, of) = (parameter.name.clone(), parameter.of);
            self.name(&name);
            self.token(":");
            self.type_token(of);
        }
    }

    /// The steps of a struct; the last one makes sure that there are any.
    fn step_texts(&mut self, last: bool) {
        let mut count = self.some(8);
        if last && self.steps.is_empty() {
            count = count.max(1);
        }
        self.byte(count as u8);
        let mut here = Vec::new();
        for _ in 0..count {
            let number = self.step_number(&here);
            here.push(number);
            let name = self.steps[number].clone();
            self.name(&name);
            self.byte(number as u8);
            self.living.clear();
            self.declared.clear();
            self.token("{");
            self.statements(0);
            self.token("}");
        }
    }

    /// A new name or an old one, seldom one that this struct has already.
    fn step_number(&mut self, here: &[usize]) -> usize {
        if !self.steps.is_empty() && (self.steps.len() == 32 || self.random.one_in(3)) {
            let number = self.random.below(self.steps.len());
            let full = self.steps.len() == 32;
            if full || !here.contains(&number) || self.random.one_in(20) {
                return number;
            }
        }
        let name = self.new_name(|w, name| w.steps.iter().any(|step| step == name));
        self.steps.push(name);
        self.steps.len() - 1
    }

    fn statements(&mut self, ifs: usize) {
        let count = if self.budget == 0 { 0 } else { self.some(32) };
        self.byte(count as u8);
        for _ in 0..count {
            self.statement(ifs);
        }
    }

    fn statement(&mut self, ifs: usize) {
        self.spend();
        match self.random.below(6) {
            0 | 1 if ifs < self.nesting && self.budget > 0 => return self.if_then(ifs),
            2 if self.declared.len() < 8 => self.declaration(),
            3 => self.construct(4, 1),
            _ if self.has_variable() => {
                self.path(3);
                self.token(":=");
                self.expression(1, 0);
            }
            _ => self.construct(4, 1),
        }
        self.token(";");
    }

    fn if_then(&mut self, ifs: usize) {
        self.token("if");
        self.byte(1);
        self.expression(1, 0);
        self.tokens(&["then", "{"]);
        let living = self.living.len();
        self.statements(ifs + 1);
        self.living.truncate(living);
        self.token("}");
    }

    fn declaration(&mut self) {
        let of = self.random_type();
        let name = self.new_name(|w, name| {
            w.declared.iter().any(|other| other == name)
                || w.structs[w.owner].parameters.iter().any(|p| p.name == name)
        });
        let number = 8 + self.declared.len() as u8;
        self.type_token(of);
        self.name(&name);
        self.token(":=");
        self.out.stream.extend([2, of, number]);
        self.declared.push(name.clone());
        self.expression(1, 0);
        self.living.push(Variable { name, of, number });
    }

    fn has_variable(&self) -> bool {
        !self.living.is_empty() || !self.structs[self.owner].parameters.is_empty()
    }

    /// A path of one to four variables after this byte; there is a variable.
    fn path(&mut self, byte: u8) {
        let parameters = &self.structs[self.owner].parameters;
        let first = self.random.below(parameters.len() + self.living.len());
        let mut variable =
            parameters.get(first).unwrap_or_else(|| &self.living[first - parameters.len()]);
        let mut path = vec![variable];
        while path.len() < 4 && variable.of >= 16 && !self.random.one_in(3) {
            let inner = &self.structs[usize::from(variable.of) - 16].parameters;
            if inner.is_empty() {
                break;
            }
            variable = &inner[self.random.below(inner.len())];
            path.push(variable);
        }
        self.out.stream.extend([byte, path.len() as u8]);
        for (index, variable) in path.into_iter().enumerate() {
            if index > 0 {
                self.out.tokens.push(b".".to_vec());
            }
            self.out.tokens.push(variable.name.clone());
            self.out.stream.push(variable.number);
        }
    }

    /// A constructor after this byte, its arguments at this depth.
    fn construct(&mut self, byte: u8, depth: usize) {
        let number = self.random.below(self.structs.len());
        let name = self.structs[number].name.clone();
        self.out.stream.extend([byte, number as u8]);
        self.name(&name);
        self.token("(");
        for index in 0..self.structs[number].parameters.len() {
            if index > 0 {
                self.token(",");
            }
            self.expression(depth, 0);
        }
        self.token(")");
    }

    /// An expression at this depth, in which operators below this level are
    /// put in brackets.
    fn expression(&mut self, depth: usize, level: usize) {
        let left = self.spend();
        if self.random.one_in(12) {
            self.token("(");
            self.within(depth, 0, left);
            self.token(")");
        } else {
            self.within(depth, level, left);
        }
    }

    fn within(&mut self, depth: usize, level: usize, left: bool) {
        if !left || depth >= self.levels {
            return self.leaf();
        }
        match self.random.below(10) {
            0 => {
                self.token("!");
                self.byte(16);
                self.expression(depth + 1, OPERAND);
            }
            1 => self.construct(17, depth + 1),
            2..=6 => self.binary(depth, level),
            _ => self.leaf(),
        }
    }

    fn binary(&mut self, depth: usize, level: usize) {
        let number = self.random.below(OPERATORS.len());
        let (operator, own) = OPERATORS[number];
        let bare = self.bare && own >= level && !self.random.one_in(4);
        if !bare {
            self.token("(");
        }
        let (left, right) = match (self.bare, own) {
            (false, _) => (OPERAND, OPERAND),
            (true, COMPARISON) => (COMPARISON + 1, COMPARISON + 1),
            (true, own) => (own, own + 1),
        };
        self.byte(32 + number as u8);
        self.expression(depth + 1, left);
        self.token(operator);
        self.expression(depth + 1, right);
        if !bare {
            self.token(")");
        }
    }

    fn leaf(&mut self) {
        match self.random.below(8) {
            0 => self.literal(19),
            1 => self.literal(20),
            2 => {
                let value = self.random.below(2);
                self.out.stream.extend([21, value as u8]);
                self.token(["false", "true"][value]);
            }
            3 => {
                let of = self.random_type();
                self.out.stream.extend([22, of]);
                self.token("null");
                self.type_token(of);
            }
            4 => {
                self.byte(23);
                self.token("this");
            }
            _ if self.has_variable() => self.path(18),
            _ => self.literal(19),
        }
    }

    fn literal(&mut self, byte: u8) {
        let literal = if byte == 19 { vocabulary::int } else { vocabulary::nat };
        let (token, bytes) = literal(self.random);
        self.out.tokens.push(token);
        self.byte(byte);
        self.out.stream.extend(bytes);
    }

    /// The items of the schedule or of a Fix.
    fn items(&mut self, fixes: usize) {
        let count = self.some(32).max(1);
        self.byte(count as u8);
        for index in 0..count {
            if index > 0 {
                self.token("<");
            }
            let fix = self.random.one_in(3) && fixes < self.nesting && self.spend();
            if fix {
                self.byte(3);
                self.tokens(&["Fix", "("]);
                self.items(fixes + 1);
                self.token(")");
            } else {
                self.step_item();
            }
        }
    }

    fn step_item(&mut self) {
        let typed = self.random.one_in(3);
        self.byte(if typed { 2 } else { 1 });
        if typed {
            let number = self.random.below(self.structs.len());
            let name = self.structs[number].name.clone();
            self.byte(number as u8);
            self.name(&name);
            self.token(".");
        }
        let step = self.random.below(self.steps.len());
        let name = self.steps[step].clone();
        self.byte(step as u8);
        self.name(&name);
    }
}
