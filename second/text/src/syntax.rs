//! The syntax of a program: declarations of structs, and steps and schedule
//! as a list of nodes linked in the order of the stream (01, "Program
//! stream": "Expressions, outermost first").

/// Where a binary expression may stand.
#[derive(Clone, Copy, PartialEq, Eq, Debug)]
pub enum Binary {
    /// "Each binary expression stands in brackets" (02 §1).
    Bracketed,
    /// "Binary expressions may now stand bare" (02 §2).
    Bare,
}

/// The index of a token.
pub type TokenIndex = u32;

/// The index of a node.
pub type NodeIndex = u32;

#[derive(Clone, Copy, Debug)]
pub enum Node {
    /// The list's head; it stands for nothing.
    Head,
    /// The steps of the next struct; the count is theirs.
    Steps,
    /// A step by its name; the count is of statements.
    Step(TokenIndex),
    If,
    /// The body of an if, after its condition; the count is of statements.
    Body,
    BodyEnd,
    /// A declaration by its type, which its name follows.
    Declare(TokenIndex),
    DeclareEnd,
    /// An update by its path's first name; the count is of names.
    Update(TokenIndex),
    /// A constructor by the struct's name; the count is of arguments.
    ConstructStatement(TokenIndex),
    Construct(TokenIndex),
    /// A path by its first name, the others standing two tokens apart; the
    /// count is of names.
    Path(TokenIndex),
    IntLiteral(TokenIndex),
    NatLiteral(TokenIndex),
    BoolLiteral(bool),
    /// A null by its type.
    Null(TokenIndex),
    This,
    Not,
    /// A binary operator by its stream byte.
    Operator(u8),
    /// The whole schedule; the count is of items.
    Schedule,
    StepItem(TokenIndex),
    /// A typed step execution by its struct's name; the step's stands two
    /// tokens on.
    TypedStepItem(TokenIndex),
    /// The count is of items.
    Fix,
}

#[derive(Clone, Copy, Debug)]
struct Link {
    node: Node,
    count: u32,
    next: NodeIndex,
}

/// A parameter by the tokens of its name and type.
#[derive(Clone, Copy, Debug)]
pub struct Parameter {
    pub name: TokenIndex,
    pub of: TokenIndex,
}

/// A struct by its name, with how many parameters it declares.
#[derive(Clone, Copy, Debug)]
pub struct Struct {
    pub name: TokenIndex,
    pub parameters: usize,
}

#[derive(Debug)]
pub struct Tree {
    pub structs: Vec<Struct>,
    /// The parameters of all structs, in order.
    pub parameters: Vec<Parameter>,
    links: Vec<Link>,
    last: NodeIndex,
}

const HEAD: NodeIndex = 0;

impl Tree {
    pub fn with_capacity(nodes: usize) -> Tree {
        let mut links = Vec::with_capacity(nodes);
        links.push(Link { node: Node::Head, count: 0, next: HEAD });
        Tree { structs: Vec::new(), parameters: Vec::new(), links, last: HEAD }
    }

    /// The last node in the stream's order.
    pub fn last(&self) -> NodeIndex {
        self.last
    }

    pub fn append(&mut self, node: Node) -> NodeIndex {
        self.insert_after(self.last, node);
        self.last = self.links.len() as NodeIndex - 1;
        self.last
    }

    /// Puts a node behind another one, which is not the last.
    pub fn insert_after(&mut self, before: NodeIndex, node: Node) {
        let new = self.links.len() as NodeIndex;
        let next = std::mem::replace(&mut self.links[before as usize].next, new);
        self.links.push(Link { node, count: 0, next });
    }

    /// One more of what this node counts.
    pub fn count_one(&mut self, index: NodeIndex) {
        self.links[index as usize].count += 1;
    }

    /// The nodes after the head in the stream's order, with their counts.
    pub fn nodes(&self) -> impl Iterator<Item = (Node, usize)> {
        let mut at = HEAD;
        std::iter::from_fn(move || {
            at = self.links[at as usize].next;
            let link = self.links[at as usize];
            (at != HEAD).then_some((link.node, link.count as usize))
        })
    }
}
