//! The programs that the generator makes, after 01, "Program stream", with the
//! bytes of their types and operators. It knows no limit and checks nothing.

#[derive(Clone, Copy, Debug, PartialEq, Eq)]
pub enum Type {
    Int,
    Nat,
    Bool,
    Struct(u8),
}

impl Type {
    pub fn byte(self) -> u8 {
        match self {
            Type::Int => 0,
            Type::Nat => 1,
            Type::Bool => 2,
            Type::Struct(k) => 16 + k,
        }
    }
}

#[derive(Clone, Copy, Debug, PartialEq, Eq)]
#[repr(u8)]
pub enum Operator {
    Equal = 32,
    NotEqual,
    LessEqual,
    GreaterEqual,
    Less,
    Greater,
    Times,
    Divide,
    Remainder,
    Plus,
    Minus,
    And,
    Or,
}

impl Operator {
    pub fn byte(self) -> u8 {
        self as u8
    }
}

/// The first of the eight locals.
pub const FIRST_LOCAL: u8 = 8;

#[derive(Clone, Debug, PartialEq, Eq)]
pub struct Program {
    pub structs: Vec<StructDef>,
    pub schedule: Vec<Item>,
}

#[derive(Clone, Debug, PartialEq, Eq, Default)]
pub struct StructDef {
    pub parameters: Vec<Type>,
    pub steps: Vec<Step>,
}

#[derive(Clone, Debug, PartialEq, Eq)]
pub struct Step {
    pub name: u8,
    pub body: Vec<Statement>,
}

#[derive(Clone, Debug, PartialEq, Eq)]
pub enum Statement {
    If { condition: Expression, body: Vec<Statement> },
    Declare { of: Type, local: u8, value: Expression },
    Update { path: Path, value: Expression },
    Construct { of: u8, arguments: Vec<Expression> },
}

#[derive(Clone, Debug, PartialEq, Eq)]
pub enum Expression {
    Not(Box<Expression>),
    Construct { of: u8, arguments: Vec<Expression> },
    Path(Path),
    Literal { of: Type, value: u32 },
    Null(Type),
    This,
    Binary { operator: Operator, left: Box<Expression>, right: Box<Expression> },
}

/// One to four variables.
#[derive(Clone, Debug, PartialEq, Eq)]
pub struct Path(pub Vec<u8>);

#[derive(Clone, Debug, PartialEq, Eq)]
pub enum Item {
    Step { name: u8 },
    StepOf { of: u8, name: u8 },
    Fix(Vec<Item>),
}
