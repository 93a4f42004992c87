//! Names and what they are declared as. Every table is as short as the
//! stream's numbers (01, "Program stream"), so a look-up takes a bounded
//! number of comparisons.

use crate::limits::{FIRST_LOCAL, LOCALS, PARAMETERS, STEP_NAMES, STRUCTS};

/// A type by its byte: "0 Int, 1 Nat, 2 Bool, 16 + k struct k" (01).
#[derive(Clone, Copy, PartialEq, Eq, Debug)]
pub struct Type(pub u8);

pub const INT: Type = Type(0);
pub const NAT: Type = Type(1);
pub const BOOL: Type = Type(2);
const FIRST_STRUCT: u8 = 16;

impl Type {
    pub fn of_struct(index: u8) -> Type {
        Type(FIRST_STRUCT + index)
    }

    /// The struct that a value of this type refers to.
    fn referred(self) -> Option<usize> {
        self.0.checked_sub(FIRST_STRUCT).map(usize::from)
    }
}

/// Something declared with a type: a parameter or a local.
#[derive(Clone, Copy, Debug)]
struct Variable<'t> {
    name: &'t [u8],
    of: Type,
}

#[derive(Debug)]
struct Struct<'t> {
    name: &'t [u8],
    parameters: Vec<Variable<'t>>,
}

/// The declarations of a program, and the locals of the step at hand.
#[derive(Debug, Default)]
pub struct Names<'t> {
    structs: Vec<Struct<'t>>,
    steps: Vec<&'t [u8]>,
    /// The struct whose steps are read, by its number.
    current: usize,
    locals: Vec<Variable<'t>>,
    /// Bit i tells that local 8 + i is alive.
    living: u8,
    /// For each open if body, the locals alive when it began.
    scopes: Vec<u8>,
}

/// The number of a name among the variables of one scope.
fn position(variables: &[Variable], name: &[u8]) -> Option<usize> {
    variables.iter().position(|variable| variable.name == name)
}

impl<'t> Names<'t> {
    /// "Structs [...] get numbers in order of first declaration"; "a struct
    /// [...] name declared twice" and a seventeenth struct are 17 (02 §1).
    pub fn declare_struct(&mut self, name: &'t [u8]) -> Option<()> {
        if self.structs.len() == STRUCTS || self.structure(name).is_some() {
            return None;
        }
        self.structs.push(Struct { name, parameters: Vec::with_capacity(PARAMETERS) });
        Some(())
    }

    /// The number of a struct; a struct's name is alive in the whole program.
    pub fn structure(&self, name: &[u8]) -> Option<u8> {
        self.structs.iter().position(|known| known.name == name).map(|index| index as u8)
    }

    /// A parameter of this struct; "a [...] parameter [...] name declared
    /// twice" and a ninth parameter are 17 (02 §1).
    pub fn declare_parameter(&mut self, structure: usize, name: &'t [u8], of: Type) -> Option<()> {
        let parameters = &mut self.structs[structure].parameters;
        if parameters.len() == PARAMETERS || position(parameters, name).is_some() {
            return None;
        }
        parameters.push(Variable { name, of });
        Some(())
    }

    pub fn parameter_count(&self, structure: u8) -> usize {
        self.structs[usize::from(structure)].parameters.len()
    }

    /// From here on, steps are of this struct.
    pub fn enter_struct(&mut self, structure: usize) {
        self.current = structure;
    }

    /// The number of a step's name: "in order of first declaration" (02 §1),
    /// over all structs. Numbers go to 31 (01).
    pub fn declare_step(&mut self, name: &'t [u8]) -> Option<u8> {
        self.locals.clear();
        self.living = 0;
        if let Some(number) = self.step(name) {
            return Some(number);
        }
        if self.steps.len() == STEP_NAMES {
            return None;
        }
        self.steps.push(name);
        Some(self.steps.len() as u8 - 1)
    }

    /// The number of a step's name, wherever it is declared.
    pub fn step(&self, name: &[u8]) -> Option<u8> {
        self.steps.iter().position(|known| *known == name).map(|index| index as u8)
    }

    /// The number of a new local, "from 8 in each step"; "a [...] local name
    /// declared twice or a local named as a parameter of its struct" and a
    /// ninth local are 17 (02 §1).
    pub fn declare_local(&mut self, name: &'t [u8], of: Type) -> Option<u8> {
        let taken = position(&self.structs[self.current].parameters, name).is_some()
            || position(&self.locals, name).is_some();
        if taken || self.locals.len() == LOCALS {
            return None;
        }
        self.locals.push(Variable { name, of });
        Some(FIRST_LOCAL + self.locals.len() as u8 - 1)
    }

    /// "A local lives from the end of its declaration" (01).
    pub fn declaration_ends(&mut self) {
        self.living |= 1 << (self.locals.len() - 1);
    }

    /// "to the end of the innermost if body or step holding it" (01).
    pub fn body_begins(&mut self) {
        self.scopes.push(self.living);
    }

    pub fn body_ends(&mut self) {
        self.living = self.scopes.pop().unwrap_or(0);
    }

    /// A path's first variable: a parameter of the struct or a living local.
    pub fn first_variable(&self, name: &[u8]) -> Option<(u8, Type)> {
        let parameters = &self.structs[self.current].parameters;
        if let Some(index) = position(parameters, name) {
            return Some((index as u8, parameters[index].of));
        }
        let index = position(&self.locals, name)?;
        (self.living >> index & 1 == 1).then(|| (FIRST_LOCAL + index as u8, self.locals[index].of))
    }

    /// "each later variable is a parameter of the struct its predecessor
    /// refers to" (01)
    pub fn later_variable(&self, before: Type, name: &[u8]) -> Option<(u8, Type)> {
        let parameters = &self.structs[before.referred()?].parameters;
        let index = position(parameters, name)?;
        Some((index as u8, parameters[index].of))
    }
}
