//! Expressions of a text: their types, levels, commands and stack heights, and what does not fit in them.

use super::cursor::Cursor;
use super::declared::Declared;
use super::{Findings, NAME, Sort, TYPE, count};

/// Variables that a path has at most.
const MOST_PATH: usize = 4;

/// Brackets and arguments that the walk goes into; in deeper ones it is lost.
const MOST_OPEN: usize = 256;

/// What is known of an expression: its type, where there is no mistake in it; levels, commands and the greatest height of the stack.
#[derive(Debug, Clone, Copy)]
pub struct Value<'t> {
    pub of: Option<&'t str>,
    pub at: usize,
    pub levels: usize,
    pub commands: usize,
    pub height: usize,
}

impl<'t> Value<'t> {
    fn leaf(of: Option<&'t str>, at: usize, commands: usize) -> Value<'t> {
        Value { of, at, levels: 1, commands, height: 1 }
    }
}

/// A local: name, type, and whether it is alive.
#[derive(Debug)]
pub struct Local<'t> {
    pub name: &'t str,
    pub of: &'t str,
    pub alive: bool,
}

/// What is declared where an expression is.
pub struct Scope<'t, 'd> {
    pub declared: &'d Declared<'t>,
    /// The struct at hand, by its number.
    pub own: usize,
    pub locals: Vec<Local<'t>>,
}

pub struct Reader<'t, 'd> {
    pub cursor: Cursor<'t>,
    pub scope: Scope<'t, 'd>,
    pub open: usize,
}

impl<'t> Reader<'t, '_> {
    /// An expression whose operators bind at least so tightly.
    pub fn expression(&mut self, least: usize, found: &mut Findings) -> Option<Value<'t>> {
        let mut left = self.operand(found)?;
        while let Some(binds) = binding(self.cursor.peek()).filter(|&binds| binds >= least) {
            let (operator, at) = self.cursor.take()?;
            let right = self.expression(binds + 1, found)?;
            left = Value {
                of: joined(operator, at, left, right, found),
                at: left.at,
                levels: 1 + left.levels.max(right.levels),
                commands: left.commands + right.commands + 1,
                height: left.height.max(1 + right.height),
            };
        }
        Some(left)
    }

    /// An expression without an operator between two, after any number of `!`.
    fn operand(&mut self, found: &mut Findings) -> Option<Value<'t>> {
        let begin = self.cursor.place();
        let mut nots = Vec::new();
        while self.cursor.peek() == "!" {
            nots.push(self.cursor.take()?.1);
        }
        let mut value = self.bare(found)?;
        if let (Some(&at), Some(of)) = (nots.last(), value.of.filter(|of| *of != "Bool")) {
            found.add(TYPE, at, format!("! takes a Bool, and this is {of}"));
            value.of = None;
        }
        value.levels += nots.len();
        value.commands += nots.len();
        value.at = begin;
        Some(value)
    }

    fn bare(&mut self, found: &mut Findings) -> Option<Value<'t>> {
        let (token, at) = self.cursor.take()?;
        match token {
            "(" => {
                self.enter()?;
                let value = self.expression(0, found)?;
                self.open -= 1;
                self.cursor.pass(")")?;
                Some(value)
            }
            "this" => Some(Value::leaf(Some(self.scope.declared.structs.get(self.scope.own)?.name), at, 1)),
            "true" | "false" => Some(Value::leaf(Some("Bool"), at, 1)),
            "null" => {
                let (of, type_at) = self.cursor.take()?;
                Some(Value::leaf(self.type_name(of, type_at, found), at, 1))
            }
            _ if token.starts_with(['+', '-']) => Some(Value::leaf(literal::<i32>(token, "Int", at, found), at, 1)),
            _ if token.ends_with('n') && token.starts_with(|c: char| c.is_ascii_digit()) => {
                Some(Value::leaf(literal::<u32>(token, "Nat", at, found), at, 1))
            }
            _ if self.cursor.peek() == "(" => self.construction((token, at), found),
            _ => self.path((token, at), found).map(|(of, variables)| Value::leaf(of, at, variables + 1)),
        }
    }

    fn enter(&mut self) -> Option<()> {
        self.open += 1;
        (self.open <= MOST_OPEN).then_some(())
    }

    /// A type's name; none where no struct has it.
    pub fn type_name(&self, of: &'t str, at: usize, found: &mut Findings) -> Option<&'t str> {
        if self.scope.declared.is_type(of) {
            return Some(of);
        }
        found.add(NAME, at, format!("{of} is not declared: no struct has that name"));
        None
    }

    /// `Name ( Exp , .. )` after its name.
    pub fn construction(&mut self, (name, at): (&'t str, usize), found: &mut Findings) -> Option<Value<'t>> {
        self.cursor.pass("(")?;
        self.enter()?;
        let of = self.type_name(name, at, found);
        let parameters = self.scope.declared.structure(name).map(|structure| structure.parameters.clone());
        let mut value = Value { of, at, levels: 1, commands: 1, height: 1 };
        let mut arguments = 0;
        while self.cursor.peek() != ")" {
            let argument = self.expression(0, found)?;
            if let Some((parameter, asked)) = parameters.as_ref().and_then(|all| all.get(arguments)) {
                fits(&format!("{parameter} of {name}"), asked, argument, found);
            }
            value.levels = value.levels.max(1 + argument.levels);
            value.commands += argument.commands;
            value.height = value.height.max(arguments + argument.height);
            arguments += 1;
            self.cursor.met(",");
        }
        let end = self.cursor.place();
        if let Some(asked) = parameters.map(|all| all.len()).filter(|&asked| asked != arguments) {
            let says = format!("{}, {name} has {}", count(arguments, "argument"), count(asked, "parameter"));
            found.add(NAME, end, says);
        }
        self.open -= 1;
        self.cursor.pass(")")?;
        Some(value)
    }

    /// The type of a path after its first name, and how many variables it has.
    pub fn path(&mut self, (name, at): (&'t str, usize), found: &mut Findings) -> Option<(Option<&'t str>, usize)> {
        let (mut of, mut last) = (self.first(name, at, found), name);
        let mut variables = 1;
        while self.cursor.met(".") {
            let (next, next_at) = self.cursor.take()?;
            variables += 1;
            if variables == MOST_PATH + 1 {
                found.add_17(Sort::Count, next_at, format!("a path has at most {MOST_PATH} variables"));
            }
            of = of.and_then(|of| self.further((last, of), (next, next_at), found));
            last = next;
        }
        Some((of, variables))
    }

    /// The type of a path's first variable: a parameter or a living local.
    fn first(&self, name: &str, at: usize, found: &mut Findings) -> Option<&'t str> {
        let own = self.scope.declared.structs.get(self.scope.own)?;
        let local = self.scope.locals.iter().find(|local| local.name == name);
        if let Some(of) = own.parameter(name).or(local.filter(|local| local.alive).map(|local| local.of)) {
            return self.scope.declared.is_type(of).then_some(of);
        }
        found.add(
            NAME,
            at,
            match local {
                Some(_) => format!("{name} is not alive here: it is a local of an if that has ended"),
                None => {
                    format!("{name} is not declared here: {} has no such parameter, the step no such local", own.name)
                }
            },
        );
        None
    }

    /// The type of a variable after another one.
    fn further(
        &self,
        (before, of): (&str, &'t str),
        (name, at): (&str, usize),
        found: &mut Findings,
    ) -> Option<&'t str> {
        let next = self.scope.declared.structure(of);
        let parameter = next.and_then(|structure| structure.parameter(name));
        match (next, parameter) {
            (None, _) => found.add(NAME, at, format!("{before} is {of} and no reference: it has no {name}")),
            (Some(_), None) => found.add(NAME, at, format!("{before} refers to a {of}, which has no parameter {name}")),
            _ => {}
        }
        parameter
    }
}

/// Holds a value to the type that its place asks for.
pub fn fits(place: &str, asked: &str, value: Value, found: &mut Findings) {
    if let Some(of) = value.of.filter(|of| *of != asked) {
        found.add(TYPE, value.at, format!("{place} is {asked}, the value is {of}"));
    }
}

/// How tightly an operator binds; none for a token that is no operator between two.
fn binding(token: &str) -> Option<usize> {
    match token {
        "||" => Some(1),
        "&&" => Some(2),
        "=" | "!=" | "<=" | ">=" | "<" | ">" => Some(3),
        "+" | "-" => Some(4),
        "*" | "/" | "%" => Some(5),
        _ => None,
    }
}

/// The type of two expressions with an operator between them.
fn joined<'t>(operator: &str, at: usize, a: Value<'t>, b: Value<'t>, found: &mut Findings) -> Option<&'t str> {
    let (a, b) = (a.of?, b.of?);
    let number = a == b && matches!(a, "Int" | "Nat");
    let (right, asks) = match operator {
        "=" | "!=" => (a == b, "two of one type"),
        "&&" | "||" => (a == b && a == "Bool", "two Bool"),
        _ => (number, "two Int or two Nat"),
    };
    if !right {
        found.add(TYPE, at, format!("{operator} takes {asks}, and these are {a} and {b}"));
        return None;
    }
    Some(if matches!(operator, "+" | "-" | "*" | "/" | "%") { a } else { "Bool" })
}

/// The type of a literal that is inside it.
fn literal<'t, N: std::str::FromStr>(token: &str, of: &'t str, at: usize, found: &mut Findings) -> Option<&'t str> {
    if token.trim_end_matches('n').parse::<N>().is_ok() {
        return Some(of);
    }
    let range = if of == "Int" { "-2147483648 to 2147483647" } else { "0 to 4294967295" };
    found.add(NAME, at, format!("{token} is outside {of}, which goes from {range}"));
    None
}
