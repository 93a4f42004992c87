//! The commands of each step after 000, definition 2, with their counts and
//! depth (01, "Names, types, commands"); 6 for what is too large.

use crate::command::Command;
use crate::limits::{COMMANDS, DEPTH, ITEMS, NESTING, STEP_COMMANDS};
use crate::refusal::Refusal;
use crate::syntax::{Item, Node, Path, Tree};
use crate::types::Type;

/// The commands of one step, as a part of all commands.
#[derive(Clone, Copy, PartialEq, Eq, Debug, Default)]
pub struct Part {
    pub first: u16,
    pub end: u16,
}

impl Part {
    pub fn is_empty(self) -> bool {
        self.first == self.end
    }
}

pub struct Code {
    pub commands: Vec<Command>,
    /// In the order of the tree's steps.
    pub parts: Vec<Part>,
    pub depth: usize,
}

/// Compiles every step; refuses a program that is too large.
pub fn compile(tree: &Tree) -> Result<Code, Refusal> {
    let is_item = |entry: &&Item| !matches!(entry, Item::FixClose { .. });
    if tree.schedule.iter().filter(is_item).count() > ITEMS {
        return Err(Refusal::Size);
    }
    let mut parts = Vec::with_capacity(tree.steps.len());
    let mut emitter = Emitter::new(&tree.structs);
    for step in &tree.steps {
        let first = emitter.commands.len();
        emitter.height = 0;
        for node in &tree.nodes[step.nodes.clone()] {
            emitter.node(node);
            emitter.bound(first)?;
        }
        parts.push(Part { first: first as u16, end: emitter.commands.len() as u16 });
    }
    Ok(Code { commands: emitter.commands, parts, depth: emitter.depth })
}

struct Emitter<'t> {
    structs: &'t [Vec<Type>],
    commands: Vec<Command>,
    height: usize,
    depth: usize,
    /// Where the open ifs stand.
    open: [usize; NESTING],
    ifs: usize,
}

impl<'t> Emitter<'t> {
    fn new(structs: &'t [Vec<Type>]) -> Self {
        let commands = Vec::with_capacity(COMMANDS);
        Emitter { structs, commands, height: 0, depth: 0, open: [0; NESTING], ifs: 0 }
    }

    /// Whether the step begun at `first` and the whole are small enough.
    fn bound(&self, first: usize) -> Result<(), Refusal> {
        let count = self.commands.len();
        if count - first > STEP_COMMANDS || count > COMMANDS || self.depth > DEPTH {
            return Err(Refusal::Size);
        }
        Ok(())
    }

    /// Appends a command that takes some values off the stack and puts some on.
    fn emit(&mut self, command: Command, taken: usize, put: usize) {
        self.commands.push(command);
        self.height = self.height - taken + put;
        self.depth = self.depth.max(self.height);
    }

    fn node(&mut self, node: &Node) {
        match *node {
            Node::Value(of, value) => self.emit(Command::Push { of, value }, 0, 1),
            Node::This => self.emit(Command::PushThis, 0, 1),
            Node::Path(ref path) => self.read(path.as_slice()),
            Node::Not => self.emit(Command::Not, 1, 1),
            Node::Op { operator, signed } => self.emit(Command::Op { operator, signed }, 2, 1),
            // A construct statement leaves its label on the stack.
            Node::Construct(structure) | Node::ConstructStatement(structure) => {
                let arguments = self.structs[usize::from(structure)].len();
                self.emit(Command::Cons(structure), arguments, 1);
            }
            Node::IfOpen => self.open_if(),
            Node::IfClose => self.close_if(),
            Node::Declare(_, local) => {
                self.emit(Command::PushThis, 0, 1);
                self.emit(Command::Wr(local), 2, 0);
            }
            Node::Update(ref path) => self.update(path),
        }
    }

    fn read(&mut self, variables: &[u8]) {
        self.emit(Command::PushThis, 0, 1);
        for &variable in variables {
            self.emit(Command::Rd(variable), 1, 1);
        }
    }

    fn update(&mut self, path: &Path) {
        let (before, last) = path.split_last();
        self.read(before);
        self.emit(Command::Wr(last), 2, 0);
    }

    fn open_if(&mut self) {
        self.open[self.ifs] = self.commands.len();
        self.ifs += 1;
        self.emit(Command::If(0), 1, 0);
    }

    /// No statement lowers the stack, so the height after a body taken is
    /// never below that after one passed over, and goes on as the greater.
    fn close_if(&mut self) {
        self.ifs -= 1;
        let at = self.open[self.ifs];
        let body = self.commands.len() - at - 1;
        self.commands[at] = Command::If(body as u8);
    }
}
