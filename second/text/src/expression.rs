//! The expressions of 000, section 3, with 02's rules for binary ones. The
//! open expressions are kept in a list of frames, whatever their nesting.

use crate::grammar::Parser;
use crate::syntax::{Binary, Node, NodeIndex, TokenIndex};
use crate::token::Kind;

/// The levels of operators, from the weakest (02 §2): "then x, / and %, then
/// + and -, then the six comparisons, then and, then or".
const LEVELS: usize = 5;
const COMPARISON: usize = 2;

fn level(operator: Kind) -> usize {
    match operator {
        Kind::Or => 0,
        Kind::And => 1,
        Kind::Plus | Kind::Minus => 3,
        Kind::Times | Kind::Divide | Kind::Remainder => 4,
        _ => COMPARISON,
    }
}

/// What an open expression stands in.
#[derive(Clone, Copy, PartialEq, Eq, Debug)]
enum Within {
    /// A statement, up to a token that cannot go on with the expression.
    Statement,
    /// '(' Exp ')'
    Brackets,
    /// The arguments of this constructor.
    Arguments(NodeIndex),
}

/// An expression of which a part has been read.
#[derive(Clone, Copy, Debug)]
pub struct Frame {
    within: Within,
    /// For each level, the node before the operand that an operator of this
    /// level would take on its left.
    before: [NodeIndex; LEVELS],
    /// No further operator (02 §1), or no further comparison (02 §2), may
    /// follow.
    full: bool,
}

impl Frame {
    /// A frame whose expression begins after this node.
    fn new(within: Within, before: NodeIndex) -> Frame {
        Frame { within, before: [before; LEVELS], full: false }
    }

    /// Whether this operator may follow here; if so, takes it in.
    fn allows(&mut self, level: usize, binary: Binary) -> bool {
        let allowed = match binary {
            // "Each binary expression stands in brackets" (02 §1).
            Binary::Bracketed => self.within == Within::Brackets && !self.full,
            // "Two comparisons in a row without brackets give 16" (02 §2).
            Binary::Bare => level != COMPARISON || !self.full,
        };
        self.full = match binary {
            Binary::Bracketed => true,
            Binary::Bare => level == COMPARISON || (self.full && level > COMPARISON),
        };
        allowed
    }
}

impl Parser<'_> {
    /// An expression of a statement.
    pub fn expression(&mut self) -> Option<()> {
        self.open(Within::Statement);
        self.open_expressions()
    }

    /// '(' Exps ')' of a constructor statement.
    pub fn construct_statement(&mut self, name: TokenIndex) -> Option<()> {
        let node = self.tree.append(Node::ConstructStatement(name));
        if self.arguments(node)? { Some(()) } else { self.open_expressions() }
    }

    fn open(&mut self, within: Within) {
        self.frames.push(Frame::new(within, self.tree.last()));
    }

    /// Reads until no expression is open.
    fn open_expressions(&mut self) -> Option<()> {
        while !self.frames.is_empty() {
            while !self.operand()? {}
            while self.operand_read()? {}
        }
        Some(())
    }

    /// Where an operand is due: whether a whole one has been read, or what
    /// comes before or around one.
    fn operand(&mut self) -> Option<bool> {
        match self.kind() {
            Kind::Name if self.next_kind() == Kind::Open => {
                let name = self.take();
                let node = self.tree.append(Node::Construct(name));
                self.arguments(node)
            }
            Kind::Name => self.variable(Node::Path).map(|()| true),
            Kind::Open => {
                self.take();
                self.open(Within::Brackets);
                Some(false)
            }
            Kind::Not => {
                self.take();
                self.tree.append(Node::Not);
                Some(false)
            }
            _ => self.constant(),
        }
    }

    /// Literal | 'null' Type | 'this'; "null is followed by its type" (02 §1).
    fn constant(&mut self) -> Option<bool> {
        let token = self.token();
        let node = match self.kind() {
            Kind::IntLiteral => Node::IntLiteral(token),
            Kind::NatLiteral => Node::NatLiteral(token),
            Kind::True => Node::BoolLiteral(true),
            Kind::False => Node::BoolLiteral(false),
            Kind::This => Node::This,
            Kind::Null => Node::Null(token + 1),
            _ => return None,
        };
        if self.goes_on(Kind::Null) {
            self.type_name()?;
        } else {
            self.take();
        }
        self.tree.append(node);
        Some(true)
    }

    /// '(' Exps ')' of a constructor: whether it is read, there being none,
    /// or the first of them is due.
    fn arguments(&mut self, node: NodeIndex) -> Option<bool> {
        self.expect(Kind::Open)?;
        if self.goes_on(Kind::Close) {
            return Some(true);
        }
        self.tree.count_one(node);
        self.open(Within::Arguments(node));
        Some(false)
    }

    /// After an operand: whether one has been read of the expression around,
    /// too. If not, another one is due, or none is open.
    fn operand_read(&mut self) -> Option<bool> {
        let kind = self.kind();
        if kind.is_operator() {
            return self.operator(kind).map(|()| false);
        }
        match (self.frames.last()?.within, kind) {
            (Within::Statement, _) => {
                self.frames.pop();
            }
            (_, Kind::Close) => {
                self.take();
                self.frames.pop();
                return Some(!self.frames.is_empty());
            }
            (Within::Arguments(node), Kind::Comma) => {
                self.take();
                self.frames.pop();
                self.tree.count_one(node);
                self.open(Within::Arguments(node));
            }
            _ => return None,
        }
        Some(false)
    }

    /// Exp BOp Exp: the operator goes before its left operand, which is
    /// whole; "each level from left to right" (02 §2).
    fn operator(&mut self, kind: Kind) -> Option<()> {
        let level = level(kind);
        let frame = self.frames.last_mut()?;
        if !frame.allows(level, self.binary) {
            return None;
        }
        frame.before[level + 1..].fill(self.tree.last());
        self.tree.insert_after(frame.before[level], Node::Operator(kind as u8));
        self.take();
        Some(())
    }
}
