//! The statements of a text, step by step: values whose types do not fit, limits that are passed, and ifs that nest too deep.

use super::cursor::Cursor;
use super::declared::Declared;
use super::expression::{Local, Reader, Scope, Value, fits};
use super::{Findings, LIMIT, NAME, NESTING, Sort, TYPE};

const MOST_LEVELS: usize = 16;
const MOST_IFS: usize = 8;
const MOST_HEIGHT: usize = 16;
const MOST_STEP_COMMANDS: usize = 64;
const MOST_COMMANDS: usize = 1_024;
const MOST_STATEMENTS: usize = 32;
const MOST_LOCALS: usize = 8;

/// A body that is open: its statements so far, and the locals that were alive before it.
struct Body {
    statements: usize,
    alive: usize,
}

struct Walk<'t, 'd, 'f> {
    reader: Reader<'t, 'd>,
    bodies: Vec<Body>,
    commands: usize,
    found: &'f mut Findings,
}

/// Walks over all steps of a text.
pub fn walk<'t>(text: &'t [u8], declared: &Declared<'t>, found: &mut Findings) -> Option<()> {
    let scope = Scope { declared, own: 0, locals: Vec::new() };
    let reader = Reader { cursor: Cursor::new(text), scope, open: 0 };
    let mut walk = Walk { reader, bodies: Vec::new(), commands: 0, found };
    let mut all = 0;
    while walk.reader.cursor.met("struct") {
        while walk.reader.cursor.take()?.0 != "{" {}
        while !walk.reader.cursor.met("}") {
            let (name, at) = walk.reader.cursor.take()?;
            walk.step(name, at)?;
            all += walk.commands;
            if all > MOST_COMMANDS && all - walk.commands <= MOST_COMMANDS {
                walk.found.add(
                    LIMIT,
                    at,
                    format!("with step {name} there are {all} commands; a program has at most {MOST_COMMANDS}"),
                );
            }
        }
        walk.reader.scope.own += 1;
    }
    Some(())
}

impl<'t> Walk<'t, '_, '_> {
    fn step(&mut self, name: &str, at: usize) -> Option<()> {
        self.commands = 0;
        self.reader.scope.locals.clear();
        self.reader.cursor.pass("{")?;
        self.bodies.push(Body { statements: 0, alive: 0 });
        while !self.bodies.is_empty() {
            if self.reader.cursor.met("}") {
                let alive = self.bodies.pop()?.alive;
                self.reader.scope.locals[alive..].iter_mut().for_each(|local| local.alive = false);
            } else {
                self.statement()?;
            }
        }
        if self.commands > MOST_STEP_COMMANDS {
            let says = format!("step {name} has {} commands; {MOST_STEP_COMMANDS} is the most", self.commands);
            self.found.add(LIMIT, at, says);
        }
        Some(())
    }

    fn statement(&mut self) -> Option<()> {
        let body = self.bodies.last_mut()?;
        body.statements += 1;
        let at = self.reader.cursor.place();
        if body.statements == MOST_STATEMENTS + 1 {
            let says = format!("a step or an if has at most {MOST_STATEMENTS} statements");
            self.found.add_17(Sort::Count, at, says);
        }
        if self.reader.cursor.met("if") {
            return self.condition(at);
        }
        let first = self.reader.cursor.take()?;
        match self.reader.cursor.peek() {
            "(" => self.construct(first)?,
            ":=" | "." => self.update(first)?,
            _ => self.declare(first)?,
        }
        self.reader.cursor.pass(";")
    }

    /// `if Exp then {`.
    fn condition(&mut self, at: usize) -> Option<()> {
        let value = self.value(1)?;
        if let Some(of) = value.of.filter(|of| *of != "Bool") {
            self.found.add(TYPE, value.at, format!("an if takes a Bool, and this is {of}"));
        }
        if self.bodies.len() > MOST_IFS {
            self.found.add(NESTING, at, format!("ifs nest at most {MOST_IFS} deep"));
        }
        self.reader.cursor.pass("then")?;
        self.reader.cursor.pass("{")?;
        self.bodies.push(Body { statements: 0, alive: self.reader.scope.locals.len() });
        Some(())
    }

    /// An expression of a statement, which has so many commands more.
    fn value(&mut self, more: usize) -> Option<Value<'t>> {
        let value = self.reader.expression(0, self.found)?;
        self.hold(value, more);
        Some(value)
    }

    /// Holds an expression to the limits, and counts its commands.
    fn hold(&mut self, value: Value<'t>, more: usize) {
        self.commands += value.commands + more;
        if value.levels > MOST_LEVELS {
            let says = format!("this expression nests {} deep; {MOST_LEVELS} is the most", value.levels);
            self.found.add(NESTING, value.at, says);
        }
        if value.height > MOST_HEIGHT {
            let says = format!("this expression takes a stack of {}; {MOST_HEIGHT} is the most", value.height);
            self.found.add(LIMIT, value.at, says);
        }
    }

    /// `Name ( Exp , .. )` as a statement; its arguments nest one level less than those of an expression.
    fn construct(&mut self, name: (&'t str, usize)) -> Option<()> {
        let value = self.reader.construction(name, self.found)?;
        self.hold(Value { levels: value.levels - 1, ..value }, 0);
        Some(())
    }

    /// `Var := Exp`, after its first name.
    fn update(&mut self, name: (&'t str, usize)) -> Option<()> {
        let (asked, variables) = self.reader.path(name, self.found)?;
        self.reader.cursor.pass(":=")?;
        let value = self.value(1 + variables)?;
        if let Some(asked) = asked {
            fits(&self.spelled(name.1), asked, value, self.found);
        }
        Some(())
    }

    /// A variable as it is written, from its place to the `:=`.
    fn spelled(&self, at: usize) -> String {
        self.reader.cursor.since(at).split(":=").next().unwrap_or("").split_whitespace().collect()
    }

    /// `Type Name := Exp`, after its type.
    fn declare(&mut self, (of, type_at): (&'t str, usize)) -> Option<()> {
        let (name, at) = self.reader.cursor.take()?;
        self.reader.cursor.pass(":=")?;
        let asked = self.reader.type_name(of, type_at, self.found);
        let own = self.reader.scope.declared.structs.get(self.reader.scope.own)?;
        if own.parameter(name).is_some() {
            self.found.add(NAME, at, format!("{name} is declared twice: it is a parameter of {}", own.name));
        } else if self.reader.scope.locals.iter().any(|local| local.name == name) {
            self.found.add(NAME, at, format!("{name} is declared twice in this step"));
        }
        if self.reader.scope.locals.len() == MOST_LOCALS {
            self.found.add(NAME, at, format!("a step has at most {MOST_LOCALS} locals"));
        }
        let value = self.value(2)?;
        if let Some(asked) = asked {
            fits(name, asked, value, self.found);
        }
        self.reader.scope.locals.push(Local { name, of, alive: true });
        Some(())
    }
}
