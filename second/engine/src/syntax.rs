//! The syntax of a program (000, section 3) as 01's "Program stream" gives
//! it; statements and expressions are kept in postfix order.

use crate::limits::PATH;
use crate::operators::Operator;
use crate::types::Type;
use std::ops::Range;

/// One to four variables.
#[derive(Clone, Copy, Debug)]
pub struct Path {
    pub variables: [u8; PATH],
    pub length: u8,
}

impl Path {
    /// The variables before the last, and the last.
    pub fn split_last(&self) -> (&[u8], u8) {
        let last = usize::from(self.length) - 1;
        (&self.variables[..last], self.variables[last])
    }

    pub fn as_slice(&self) -> &[u8] {
        &self.variables[..usize::from(self.length)]
    }
}

/// A node follows the expressions inside it; an if's body stands between
/// `IfOpen`, after the condition, and `IfClose`.
#[derive(Clone, Copy, Debug)]
pub enum Node {
    Value(Type, u32),
    This,
    Path(Path),
    Not,
    /// Whether the operands are Int is told by the checker of types.
    Op {
        operator: Operator,
        signed: bool,
    },
    Construct(u8),
    IfOpen,
    IfClose,
    Declare(Type, u8),
    Update(Path),
    ConstructStatement(u8),
}

/// A step of a struct, with its nodes in the tree's.
#[derive(Clone, Debug)]
pub struct Step {
    pub structure: u8,
    pub name: u8,
    pub nodes: Range<usize>,
}

/// The schedule as a flat list: a Fix is its opening, its items and its
/// close, which tells where the first of them stands.
#[derive(Clone, Copy, Debug)]
pub enum Item {
    Step(u8),
    TypedStep(u8, u8),
    FixOpen,
    FixClose { body: usize },
}

#[derive(Clone, Debug, Default)]
pub struct Tree {
    /// The parameter types of each struct.
    pub structs: Vec<Vec<Type>>,
    /// Structs in order, each struct's steps in stream order.
    pub steps: Vec<Step>,
    pub nodes: Vec<Node>,
    pub schedule: Vec<Item>,
}
