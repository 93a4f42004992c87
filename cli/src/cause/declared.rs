//! The declarations of a text: structs with parameters and steps, and what is wrong with them: a name twice, a type that is none, too many.

use super::cursor::Cursor;
use super::{Findings, STEP, Sort, count};

const MOST_STRUCTS: usize = 16;
const MOST_PARAMETERS: usize = 8;
const MOST_STEPS: usize = 8;
const MOST_STEP_NAMES: usize = 32;

#[derive(Debug, Default)]
pub struct Declared<'t> {
    pub structs: Vec<Struct<'t>>,
}

#[derive(Debug)]
pub struct Struct<'t> {
    pub name: &'t str,
    /// Names and types.
    pub parameters: Vec<(&'t str, &'t str)>,
    pub steps: Vec<&'t str>,
}

impl<'t> Struct<'t> {
    /// The type of a parameter.
    pub fn parameter(&self, name: &str) -> Option<&'t str> {
        self.parameters.iter().find(|(own, _)| *own == name).map(|(_, of)| *of)
    }
}

impl<'t> Declared<'t> {
    /// Reads the declarations, past the bodies of steps; the cursor is at the schedule then.
    pub fn read(cursor: &mut Cursor<'t>, found: &mut Findings) -> Option<Declared<'t>> {
        let mut declared = Declared::default();
        let mut types = Vec::new();
        let mut step_names: Vec<&str> = Vec::new();
        while cursor.met("struct") {
            let (name, at) = cursor.take()?;
            if declared.structure(name).is_some() {
                found.add_17(Sort::Declaration, at, format!("struct {name} is declared twice"));
            }
            if declared.structs.len() == MOST_STRUCTS {
                found.add_17(Sort::Declaration, at, format!("a program has at most {MOST_STRUCTS} structs"));
            }
            let parameters = parameters(cursor, name, &mut types, found)?;
            let steps = steps(cursor, name, &mut step_names, found)?;
            declared.structs.push(Struct { name, parameters, steps });
        }
        for (of, at) in types {
            if !declared.is_type(of) {
                found.add_17(Sort::Declaration, at, format!("{of} is not a type: no struct of that name is declared"));
            }
        }
        Some(declared)
    }

    pub fn structure(&self, name: &str) -> Option<&Struct<'t>> {
        self.structs.iter().find(|known| known.name == name)
    }

    pub fn is_type(&self, name: &str) -> bool {
        matches!(name, "Int" | "Nat" | "Bool") || self.structure(name).is_some()
    }

    /// Whether any struct has such a step.
    pub fn has_step(&self, name: &str) -> bool {
        self.structs.iter().any(|structure| structure.steps.contains(&name))
    }
}

/// `( Par , .. )`; the types with their places are looked at when all structs are known.
fn parameters<'t>(
    cursor: &mut Cursor<'t>,
    owner: &str,
    types: &mut Vec<(&'t str, usize)>,
    found: &mut Findings,
) -> Option<Vec<(&'t str, &'t str)>> {
    let mut parameters: Vec<(&str, &str)> = Vec::new();
    cursor.pass("(")?;
    while !cursor.met(")") {
        let (name, at) = cursor.take()?;
        if parameters.iter().any(|(known, _)| *known == name) {
            found.add_17(Sort::Declaration, at, format!("parameter {name} of {owner} is declared twice"));
        }
        if parameters.len() == MOST_PARAMETERS {
            found.add_17(Sort::Declaration, at, format!("a struct has at most {MOST_PARAMETERS} parameters"));
        }
        cursor.pass(":")?;
        let of = cursor.take()?;
        types.push(of);
        parameters.push((name, of.0));
        cursor.met(",");
    }
    Some(parameters)
}

/// `{ Step .. }`, with the names of steps in the whole text.
fn steps<'t>(
    cursor: &mut Cursor<'t>,
    owner: &str,
    all: &mut Vec<&'t str>,
    found: &mut Findings,
) -> Option<Vec<&'t str>> {
    let mut steps = Vec::new();
    cursor.pass("{")?;
    while !cursor.met("}") {
        let (name, at) = cursor.take()?;
        if steps.contains(&name) {
            found.add(STEP, at, format!("{owner} has a step {name} already"));
        }
        if steps.len() == MOST_STEPS {
            found.add_17(Sort::Declaration, at, format!("a struct has at most {}", count(MOST_STEPS, "step")));
        }
        if !all.contains(&name) {
            if all.len() == MOST_STEP_NAMES {
                let says = format!("a program has at most {MOST_STEP_NAMES} names of steps");
                found.add_17(Sort::Declaration, at, says);
            }
            all.push(name);
        }
        steps.push(name);
        cursor.pass_body()?;
    }
    Some(steps)
}
