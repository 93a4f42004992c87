//! The grammar of 000, section 3, without its expressions. No function here
//! calls itself on what is nested in the text.

use crate::expression::Frame;
use crate::syntax::{Binary, Node, NodeIndex, Parameter, Struct, TokenIndex, Tree};
use crate::token::{Kind, Token};

/// Reads tokens into a tree; each function answers `None` where no derivation
/// goes on with the token at hand.
pub struct Parser<'t> {
    tokens: &'t [Token],
    at: usize,
    pub binary: Binary,
    pub tree: Tree,
    /// The lists of statements or items that are open, outermost first.
    lists: Vec<NodeIndex>,
    /// The expressions that are open, outermost first.
    pub frames: Vec<Frame>,
}

/// The tree of a derived text; `None` for 16: "no derivation" (02 §1).
pub fn parse(tokens: &[Token], binary: Binary) -> Option<Tree> {
    let tree = Tree::with_capacity(tokens.len() + 1);
    let mut parser = Parser { tokens, at: 0, binary, tree, lists: Vec::new(), frames: Vec::new() };
    parser.program()?;
    Some(parser.tree)
}

impl Parser<'_> {
    pub fn kind(&self) -> Kind {
        self.tokens[self.at].kind
    }

    /// The kind after the token at hand, which is not the end.
    pub fn next_kind(&self) -> Kind {
        self.tokens[self.at + 1].kind
    }

    /// The token at hand.
    pub fn token(&self) -> TokenIndex {
        self.at as TokenIndex
    }

    /// Goes past the token at hand, which is not the end.
    pub fn take(&mut self) -> TokenIndex {
        self.at += 1;
        self.at as TokenIndex - 1
    }

    /// Goes past a token if it is of this kind.
    pub fn goes_on(&mut self, kind: Kind) -> bool {
        let holds = self.kind() == kind;
        if holds {
            self.at += 1;
        }
        holds
    }

    pub fn expect(&mut self, kind: Kind) -> Option<TokenIndex> {
        self.goes_on(kind).then(|| self.at as TokenIndex - 1)
    }

    pub fn type_name(&mut self) -> Option<TokenIndex> {
        self.kind().is_type().then(|| self.take())
    }

    /// Program ::= Defs Sched, Defs ::= Struct | Struct Defs
    fn program(&mut self) -> Option<()> {
        self.structure()?;
        while self.kind() == Kind::Struct {
            self.structure()?;
        }
        self.schedule()?;
        self.expect(Kind::End).map(|_| ())
    }

    /// Struct ::= 'struct' Id '(' Pars ')' '{' Steps '}'
    fn structure(&mut self) -> Option<()> {
        self.expect(Kind::Struct)?;
        let name = self.expect(Kind::Name)?;
        self.expect(Kind::Open)?;
        let parameters = self.parameters()?;
        self.tree.structs.push(Struct { name, parameters });
        self.expect(Kind::BraceOpen)?;
        self.steps()
    }

    /// Pars ::= Par ParList | empty, ParList ::= ',' Par ParList | empty;
    /// with the closing bracket. How many there are.
    fn parameters(&mut self) -> Option<usize> {
        if self.goes_on(Kind::Close) {
            return Some(0);
        }
        let mut count = 1;
        self.parameter()?;
        while self.goes_on(Kind::Comma) {
            self.parameter()?;
            count += 1;
        }
        self.expect(Kind::Close)?;
        Some(count)
    }

    /// Par ::= Id ':' Type
    fn parameter(&mut self) -> Option<()> {
        let name = self.expect(Kind::Name)?;
        self.expect(Kind::Colon)?;
        let of = self.type_name()?;
        self.tree.parameters.push(Parameter { name, of });
        Some(())
    }

    /// Steps ::= Id '{' Stats '}' Steps | empty; with the closing brace.
    fn steps(&mut self) -> Option<()> {
        let steps = self.tree.append(Node::Steps);
        while !self.goes_on(Kind::BraceClose) {
            let name = self.expect(Kind::Name)?;
            self.expect(Kind::BraceOpen)?;
            self.tree.count_one(steps);
            self.open_list(Node::Step(name));
            self.statements()?;
        }
        Some(())
    }

    fn open_list(&mut self, node: Node) {
        let list = self.tree.append(node);
        self.lists.push(list);
    }

    /// One more statement or item of the innermost open list.
    fn count_member(&mut self) {
        if let Some(&list) = self.lists.last() {
            self.tree.count_one(list);
        }
    }

    /// Stats ::= Stat Stats | empty; with the closing brace of the step.
    fn statements(&mut self) -> Option<()> {
        while !self.lists.is_empty() {
            if self.goes_on(Kind::BraceClose) {
                self.lists.pop();
                if !self.lists.is_empty() {
                    self.tree.append(Node::BodyEnd);
                }
                continue;
            }
            self.count_member();
            self.statement()?;
        }
        Some(())
    }

    /// Stat, of an if up to the opening brace of its body. What comes after
    /// an Id tells a declaration from a constructor and an update.
    fn statement(&mut self) -> Option<()> {
        match self.kind() {
            Kind::If => self.if_then(),
            Kind::Int | Kind::Nat | Kind::Bool => self.declaration(),
            Kind::Name => match self.next_kind() {
                Kind::Name => self.declaration(),
                Kind::Open => self.constructor(),
                _ => self.update(),
            },
            _ => None,
        }
    }

    /// 'if' Exp 'then' '{'
    fn if_then(&mut self) -> Option<()> {
        self.take();
        self.tree.append(Node::If);
        self.expression()?;
        self.expect(Kind::Then)?;
        self.expect(Kind::BraceOpen)?;
        self.open_list(Node::Body);
        Some(())
    }

    /// Type Id ':=' Exp ';'
    fn declaration(&mut self) -> Option<()> {
        let of = self.take();
        self.expect(Kind::Name)?;
        self.expect(Kind::Assign)?;
        self.tree.append(Node::Declare(of));
        self.expression()?;
        self.expect(Kind::Semicolon)?;
        self.tree.append(Node::DeclareEnd);
        Some(())
    }

    /// Var ':=' Exp ';'
    fn update(&mut self) -> Option<()> {
        self.variable(Node::Update)?;
        self.expect(Kind::Assign)?;
        self.expression()?;
        self.expect(Kind::Semicolon).map(|_| ())
    }

    /// Id '(' Exps ')' ';'
    fn constructor(&mut self) -> Option<()> {
        let name = self.take();
        self.construct_statement(name)?;
        self.expect(Kind::Semicolon).map(|_| ())
    }

    /// Var ::= Id '.' Var | Id
    pub fn variable(&mut self, node: fn(TokenIndex) -> Node) -> Option<()> {
        let first = self.expect(Kind::Name)?;
        let path = self.tree.append(node(first));
        self.tree.count_one(path);
        while self.goes_on(Kind::Dot) {
            self.expect(Kind::Name)?;
            self.tree.count_one(path);
        }
        Some(())
    }

    /// Sched ::= Sched '<' Sched | 'Fix' '(' Sched ')' | ...; a list of items
    /// ("the schedule A < Fix(B) is expressed as A; Fix(B)", 000 section 4).
    fn schedule(&mut self) -> Option<()> {
        self.open_list(Node::Schedule);
        loop {
            self.count_member();
            if self.goes_on(Kind::Fix) {
                self.expect(Kind::Open)?;
                self.open_list(Node::Fix);
                continue;
            }
            self.item()?;
            while self.lists.len() > 1 && self.goes_on(Kind::Close) {
                self.lists.pop();
            }
            if !self.goes_on(Kind::Less) {
                return (self.lists.len() == 1).then_some(());
            }
        }
    }

    /// Sched ::= Id | Id '.' Id
    fn item(&mut self) -> Option<()> {
        let first = self.expect(Kind::Name)?;
        if !self.goes_on(Kind::Dot) {
            self.tree.append(Node::StepItem(first));
            return Some(());
        }
        self.expect(Kind::Name)?;
        self.tree.append(Node::TypedStepItem(first));
        Some(())
    }
}
