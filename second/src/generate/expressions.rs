//! Random well-typed expressions and paths.

use super::random::Random;
use super::syntax::{Expression, FIRST_LOCAL, Operator, Path, Type};

const ORDERS: [Operator; 4] =
    [Operator::LessEqual, Operator::GreaterEqual, Operator::Less, Operator::Greater];
const EDGES: [u32; 8] =
    [0, 1, 0x7FFF_FFFF, 0x8000_0000, 0x8000_0001, 0xFFFF_FFFE, 0xFFFF_FFFF, 65_536];

/// What an expression of a step may use.
#[derive(Clone, Debug)]
pub struct Scope {
    pub structs: Vec<Vec<Type>>,
    pub owner: u8,
    pub living: [Option<Type>; 8],
    pub declared: [bool; 8],
}

impl Scope {
    pub fn new(structs: &[Vec<Type>], owner: u8) -> Scope {
        Scope { structs: structs.to_vec(), owner, living: [None; 8], declared: [false; 8] }
    }

    fn parameters(&self, of: u8) -> &[Type] {
        &self.structs[usize::from(of)]
    }

    /// A path of the given type, where a few walks find one.
    pub fn path(&self, random: &mut Random, wanted: Type) -> Option<Path> {
        (0..8).find_map(|_| self.walk(random, wanted))
    }

    fn walk(&self, random: &mut Random, wanted: Type) -> Option<Path> {
        let mut firsts: Vec<(u8, Type)> = (0..).zip(self.parameters(self.owner).to_vec()).collect();
        let locals = (FIRST_LOCAL..).zip(self.living);
        firsts.extend(locals.filter_map(|(local, of)| of.map(|of| (local, of))));
        if firsts.is_empty() {
            return None;
        }
        let (first, mut of) = *random.pick(&firsts);
        let mut variables = vec![first];
        loop {
            if of == wanted && random.chance(70) {
                return Some(Path(variables));
            }
            let Type::Struct(reached) = of else { break };
            let count = self.parameters(reached).len();
            if count == 0 || variables.len() == 4 {
                break;
            }
            let next = random.below(count);
            variables.push(next as u8);
            of = self.parameters(reached)[next];
        }
        (of == wanted).then_some(Path(variables))
    }

    /// An expression of the given type nested at most `levels` deep.
    pub fn expression(&self, random: &mut Random, of: Type, levels: usize) -> Expression {
        if levels <= 1 || random.chance(30) {
            return self.leaf(random, of);
        }
        match of {
            Type::Int | Type::Nat => self.arithmetic(random, of, levels - 1),
            Type::Bool => self.truth(random, levels - 1),
            Type::Struct(k) if random.chance(15) => {
                let arguments = self.arguments(random, k, levels - 1);
                Expression::Construct { of: k, arguments }
            }
            Type::Struct(_) => self.leaf(random, of),
        }
    }

    pub fn arguments(&self, random: &mut Random, of: u8, levels: usize) -> Vec<Expression> {
        let parameters = self.parameters(of).iter();
        parameters.map(|of| self.expression(random, *of, levels)).collect()
    }

    fn leaf(&self, random: &mut Random, of: Type) -> Expression {
        if random.chance(65)
            && let Some(path) = self.path(random, of)
        {
            return Expression::Path(path);
        }
        match of {
            Type::Struct(k) if k == self.owner && random.chance(50) => Expression::This,
            Type::Struct(_) => Expression::Null(of),
            _ if random.chance(10) => Expression::Null(of),
            Type::Bool => Expression::Literal { of, value: random.below(2) as u32 },
            _ => literal(random, of),
        }
    }

    fn arithmetic(&self, random: &mut Random, of: Type, levels: usize) -> Expression {
        let minus = if of == Type::Int { 25 } else { 5 };
        let operator = match random.below(100) {
            roll if roll < minus => Operator::Minus,
            roll if roll < minus + 15 => Operator::Divide,
            roll if roll < minus + 30 => Operator::Remainder,
            roll if roll < minus + 40 => Operator::Times,
            _ => Operator::Plus,
        };
        let left = self.expression(random, of, levels);
        let divides = matches!(operator, Operator::Divide | Operator::Remainder);
        let right = if divides && random.chance(85) {
            Expression::Literal { of, value: random.from_to(1, 9) as u32 }
        } else {
            self.expression(random, of, levels)
        };
        binary(operator, left, right)
    }

    fn truth(&self, random: &mut Random, levels: usize) -> Expression {
        let number = *random.pick(&[Type::Int, Type::Nat]);
        let (operator, of) = match random.below(5) {
            0 => {
                let inner = self.expression(random, Type::Bool, levels);
                return Expression::Not(Box::new(inner));
            }
            1 => (*random.pick(&[Operator::And, Operator::Or]), Type::Bool),
            2 => (*random.pick(&[Operator::Equal, Operator::NotEqual]), self.any_type(random)),
            _ => (*random.pick(&ORDERS), number),
        };
        let left = self.expression(random, of, levels);
        let right = self.expression(random, of, levels);
        binary(operator, left, right)
    }

    pub fn any_type(&self, random: &mut Random) -> Type {
        any_type(random, self.structs.len())
    }
}

pub fn binary(operator: Operator, left: Expression, right: Expression) -> Expression {
    Expression::Binary { operator, left: Box::new(left), right: Box::new(right) }
}

pub fn any_type(random: &mut Random, structs: usize) -> Type {
    match random.below(10) {
        0..=2 => Type::Int,
        3..=4 => Type::Nat,
        5..=6 => Type::Bool,
        _ => Type::Struct(random.below(structs) as u8),
    }
}

/// Mostly a small number, now and then one at an edge.
pub fn number(random: &mut Random, of: Type) -> u32 {
    match random.below(100) {
        0..=3 => *random.pick(&EDGES),
        4..=15 if of == Type::Int => 0u32.wrapping_sub(random.below(12) as u32),
        16..=20 => random.below(100_000) as u32,
        _ => random.below(12) as u32,
    }
}

fn literal(random: &mut Random, of: Type) -> Expression {
    Expression::Literal { of, value: number(random, of) }
}
