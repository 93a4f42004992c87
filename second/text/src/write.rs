//! Writes a tree as a program stream (01, "Program stream"), or finds 17
//! (02 §1): "more of anything than the stream's counts, numbers or bytes
//! hold, nesting apart", and what `names` finds.

use crate::limits::{ITEMS, PATH, STATEMENTS, STEPS, STREAM_BYTES, STRUCTS};
use crate::names::{BOOL, INT, NAT, Names, Type};
use crate::syntax::{Node, TokenIndex, Tree};
use crate::token::{Kind, Token};

struct Writer<'t> {
    text: &'t [u8],
    tokens: &'t [Token],
    names: Names<'t>,
    /// The structs whose steps are begun.
    begun: usize,
    stream: Vec<u8>,
}

/// The stream of a tree; `None` for 17.
pub fn stream(text: &[u8], tokens: &[Token], tree: &Tree) -> Option<Vec<u8>> {
    let stream = Vec::with_capacity(2 * tokens.len());
    let mut writer = Writer { text, tokens, names: Names::default(), begun: 0, stream };
    writer.structs(tree)?;
    for (node, count) in tree.nodes() {
        writer.node(node, count)?;
    }
    (writer.stream.len() <= STREAM_BYTES).then_some(writer.stream)
}

/// The value of digits, or `None` beyond this greatest value.
fn decimal(digits: &[u8], greatest: u32) -> Option<u32> {
    let mut value = 0u64;
    for digit in digits {
        value = value * 10 + u64::from(digit - b'0');
        if value > u64::from(greatest) {
            return None;
        }
    }
    Some(value as u32)
}

/// "Int (-2147483648 to 2147483647)", "in two's complement" (01).
fn int(literal: &[u8]) -> Option<u32> {
    match literal.split_first()? {
        (b'-', digits) => decimal(digits, i32::MIN.unsigned_abs()).map(u32::wrapping_neg),
        (_, digits) => decimal(digits, i32::MAX.unsigned_abs()),
    }
}

/// "Nat (0 to 4294967295)" (01).
fn nat(literal: &[u8]) -> Option<u32> {
    decimal(literal.split_last()?.1, u32::MAX)
}

impl<'t> Writer<'t> {
    fn byte(&mut self, byte: u8) {
        self.stream.push(byte);
    }

    /// A count that the stream's byte for it may hold.
    fn count(&mut self, count: usize, greatest: usize) -> Option<()> {
        if count > greatest {
            return None;
        }
        self.byte(count as u8);
        Some(())
    }

    fn name(&self, token: TokenIndex) -> &'t [u8] {
        self.tokens[token as usize].bytes(self.text)
    }

    fn type_of(&self, token: TokenIndex) -> Option<Type> {
        match self.tokens[token as usize].kind {
            Kind::Int => Some(INT),
            Kind::Nat => Some(NAT),
            Kind::Bool => Some(BOOL),
            _ => self.names.structure(self.name(token)).map(Type::of_struct),
        }
    }

    /// All structs are declared before any type is read: a type may name a
    /// later struct.
    fn structs(&mut self, tree: &Tree) -> Option<()> {
        self.count(tree.structs.len(), STRUCTS)?;
        for structure in &tree.structs {
            self.names.declare_struct(self.name(structure.name))?;
        }
        let mut parameters = tree.parameters.iter();
        for (index, structure) in tree.structs.iter().enumerate() {
            self.byte(structure.parameters as u8);
            for parameter in parameters.by_ref().take(structure.parameters) {
                let of = self.type_of(parameter.of)?;
                self.names.declare_parameter(index, self.name(parameter.name), of)?;
                self.byte(of.0);
            }
        }
        Some(())
    }

    fn node(&mut self, node: Node, count: usize) -> Option<()> {
        match node {
            Node::Head => {}
            Node::Steps => return self.steps(count),
            Node::Step(name) => return self.step(name, count),
            Node::If => self.byte(1),
            Node::Body => return self.body(count),
            Node::BodyEnd => self.names.body_ends(),
            Node::Declare(of) => return self.declaration(of),
            Node::DeclareEnd => self.names.declaration_ends(),
            Node::Update(first) => return self.path(3, first, count),
            Node::ConstructStatement(name) => return self.construct(4, name, count),
            Node::Not => self.byte(16),
            Node::Construct(name) => return self.construct(17, name, count),
            Node::Path(first) => return self.path(18, first, count),
            Node::IntLiteral(token) => return self.literal(19, int(self.name(token))?),
            Node::NatLiteral(token) => return self.literal(20, nat(self.name(token))?),
            Node::BoolLiteral(value) => self.stream.extend([21, u8::from(value)]),
            Node::Null(of) => self.stream.extend([22, self.type_of(of)?.0]),
            Node::This => self.byte(23),
            Node::Operator(byte) => self.byte(byte),
            Node::Schedule => return self.count(count, ITEMS),
            Node::StepItem(step) => self.stream.extend([1, self.names.step(self.name(step))?]),
            Node::TypedStepItem(structure) => return self.typed_step(structure),
            Node::Fix => {
                self.byte(3);
                return self.count(count, ITEMS);
            }
        }
        Some(())
    }

    fn steps(&mut self, count: usize) -> Option<()> {
        self.names.enter_struct(self.begun);
        self.begun += 1;
        self.count(count, STEPS)
    }

    fn step(&mut self, name: TokenIndex, count: usize) -> Option<()> {
        let number = self.names.declare_step(self.name(name))?;
        self.byte(number);
        self.count(count, STATEMENTS)
    }

    fn body(&mut self, count: usize) -> Option<()> {
        self.names.body_begins();
        self.count(count, STATEMENTS)
    }

    fn declaration(&mut self, of: TokenIndex) -> Option<()> {
        let local_type = self.type_of(of)?;
        let local = self.names.declare_local(self.name(of + 1), local_type)?;
        self.stream.extend([2, local_type.0, local]);
        Some(())
    }

    /// "A path is a length 1-4 and that many variables" (01); a longer one is
    /// 17.
    fn path(&mut self, byte: u8, first: TokenIndex, length: usize) -> Option<()> {
        self.byte(byte);
        self.count(length, PATH)?;
        let (number, mut of) = self.names.first_variable(self.name(first))?;
        self.byte(number);
        for index in 1..length as TokenIndex {
            let (number, next) = self.names.later_variable(of, self.name(first + 2 * index))?;
            self.byte(number);
            of = next;
        }
        Some(())
    }

    /// "other than one argument per parameter" is 17 (02 §1).
    fn construct(&mut self, byte: u8, name: TokenIndex, arguments: usize) -> Option<()> {
        let structure = self.names.structure(self.name(name))?;
        if self.names.parameter_count(structure) != arguments {
            return None;
        }
        self.stream.extend([byte, structure]);
        Some(())
    }

    fn literal(&mut self, byte: u8, value: u32) -> Option<()> {
        self.byte(byte);
        self.stream.extend(value.to_le_bytes());
        Some(())
    }

    /// Whether the struct has the step is the checker's 7 (01); here both
    /// names need a declaration.
    fn typed_step(&mut self, structure: TokenIndex) -> Option<()> {
        let number = self.names.structure(self.name(structure))?;
        let step = self.names.step(self.name(structure + 2))?;
        self.stream.extend([2, number, step]);
        Some(())
    }
}
