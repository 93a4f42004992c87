//! A struct instance (000, definition 3): struct, the commands it holds,
//! stack, and its parameters and locals.

use crate::compile::Part;
use crate::limits::{DEPTH, VARIABLES};

#[derive(Clone, Copy, Debug)]
pub struct Instance {
    pub structure: u8,
    pub held: Part,
    pub stack: Stack,
    /// Parameters at 0 to 7, locals at 8 to 15; a reference is its label.
    pub variables: [u32; VARIABLES],
}

impl Instance {
    pub fn new(structure: u8) -> Self {
        let variables = [0; VARIABLES];
        Instance { structure, held: Part::default(), stack: Stack::default(), variables }
    }

    /// Takes up the commands of a started step, with an empty stack.
    pub fn start(&mut self, part: Part) {
        self.held = part;
        self.stack.height = 0;
    }
}

/// A stack of values; the checker bounds its height.
#[derive(Clone, Copy, Debug, Default)]
pub struct Stack {
    height: u8,
    values: [u32; DEPTH],
}

impl Stack {
    pub fn push(&mut self, value: u32) {
        self.values[usize::from(self.height)] = value;
        self.height += 1;
    }

    pub fn pop(&mut self) -> u32 {
        self.height -= 1;
        self.values[usize::from(self.height)]
    }

    pub fn top(&mut self) -> &mut u32 {
        &mut self.values[usize::from(self.height) - 1]
    }

    /// The two values on top, the upper one last.
    pub fn top_two(&self) -> (u32, u32) {
        let height = usize::from(self.height);
        (self.values[height - 2], self.values[height - 1])
    }

    /// The values from below.
    pub fn values(&self) -> &[u32] {
        &self.values[..usize::from(self.height)]
    }

    /// Takes the topmost values off, as they stand from below.
    pub fn pop_many(&mut self, count: usize) -> &[u32] {
        let from = usize::from(self.height) - count;
        self.height = from as u8;
        &self.values[from..from + count]
    }
}
