//! Random well-typed programs. A step is calm when what it changes comes to
//! rest, so that a Fix round it mostly ends; other steps hold any statement.

use super::encode::{image, program_stream};
use super::expressions::{Scope, any_type, binary};
use super::random::Random;
use super::syntax::{
    Expression, FIRST_LOCAL, Item, Operator, Path, Program, Statement, Step, StructDef, Type,
};
use engine::check;

/// A program inside every limit, save now and then over one of number 6.
pub fn random_program(random: &mut Random) -> Program {
    let mut program = draft(random);
    if random.chance(3) {
        return program;
    }
    while check(&image(&program_stream(&program)), &mut [None; 1_024]).number == 6 {
        shorten(random, &mut program);
    }
    program
}

/// Takes a statement from the end of a step, or an item off the schedule.
fn shorten(random: &mut Random, program: &mut Program) {
    let steps = program.structs.iter_mut().flat_map(|one| &mut one.steps);
    let mut filled: Vec<&mut Step> = steps.filter(|step| !step.body.is_empty()).collect();
    if filled.is_empty() || random.chance(5) && program.schedule.len() > 1 {
        program.schedule.pop();
    } else {
        let at = random.below(filled.len());
        filled[at].body.pop();
    }
}

fn draft(random: &mut Random) -> Program {
    let count = match random.below(20) {
        0..=5 => 1,
        6..=12 => 2,
        13..=16 => 3,
        _ => random.from_to(4, 16),
    };
    let structs: Vec<Vec<Type>> = (0..count)
        .map(|_| {
            let most = if random.chance(10) { 8 } else { 4 };
            (0..random.below(most + 1)).map(|_| any_type(random, count)).collect()
        })
        .collect();
    let mut definitions: Vec<StructDef> = Vec::new();
    for owner in 0..count {
        let parameters = structs[owner].clone();
        let steps = steps(random, &structs, owner as u8);
        definitions.push(StructDef { parameters, steps });
    }
    if definitions.iter().all(|one| one.steps.is_empty()) {
        let body = calm_body(random, &mut Scope::new(&structs, 0));
        definitions[0].steps.push(Step { name: 0, body });
    }
    let schedule = schedule(random, &definitions);
    Program { structs: definitions, schedule }
}

/// Names below 16 are those of calm steps.
fn is_calm(name: u8) -> bool {
    name < 16
}

fn steps(random: &mut Random, structs: &[Vec<Type>], owner: u8) -> Vec<Step> {
    let most = if random.chance(6) { 8 } else { 3 };
    let mut steps: Vec<Step> = Vec::new();
    for _ in 0..random.below(most + 1) {
        let spread = if random.chance(15) { 16 } else { 3 };
        let name = (random.below(spread) + 16 * random.below(2)) as u8;
        if steps.iter().any(|step| step.name == name) {
            continue;
        }
        let mut scope = Scope::new(structs, owner);
        let body = if is_calm(name) {
            calm_body(random, &mut scope)
        } else {
            let count = if random.chance(8) { 0 } else { random.from_to(1, 4) };
            wild_body(random, &mut scope, count, 0)
        };
        steps.push(Step { name, body });
    }
    steps
}

fn wild_body(random: &mut Random, scope: &mut Scope, count: usize, ifs: usize) -> Vec<Statement> {
    (0..count).map(|_| wild_statement(random, scope, ifs)).collect()
}

fn wild_statement(random: &mut Random, scope: &mut Scope, ifs: usize) -> Statement {
    let levels = if random.chance(5) { 7 } else { 3 };
    match random.below(10) {
        0..=1 if ifs < 8 => {
            let condition = scope.expression(random, Type::Bool, levels);
            let living = scope.living;
            let count = random.below(3);
            let body = wild_body(random, scope, count, ifs + 1);
            scope.living = living;
            Statement::If { condition, body }
        }
        2..=3 => declare(random, scope, levels),
        4..=5 => construct(random, scope, 2),
        _ => {
            let of = scope.any_type(random);
            match scope.path(random, of) {
                None => declare(random, scope, levels),
                Some(path) => {
                    let value = scope.expression(random, of, levels);
                    Statement::Update { path, value }
                }
            }
        }
    }
}

fn construct(random: &mut Random, scope: &Scope, levels: usize) -> Statement {
    let of = random.below(scope.structs.len()) as u8;
    Statement::Construct { of, arguments: scope.arguments(random, of, levels) }
}

/// Declares a local not declared yet; once all are, constructs instead.
fn declare(random: &mut Random, scope: &mut Scope, levels: usize) -> Statement {
    let local = random.below(8);
    if scope.declared[local] {
        return construct(random, scope, 1);
    }
    let of = scope.any_type(random);
    let value = scope.expression(random, of, levels);
    scope.declared[local] = true;
    scope.living[local] = Some(of);
    Statement::Declare { of, local: FIRST_LOCAL + local as u8, value }
}

fn calm_body(random: &mut Random, scope: &mut Scope) -> Vec<Statement> {
    let mut body = Vec::new();
    for _ in 0..random.from_to(1, 3) {
        if random.chance(20) {
            body.push(declare(random, scope, 3));
        }
        match calm_statement(random, scope) {
            Some(statement) => body.push(statement),
            None if body.is_empty() => body.push(declare(random, scope, 2)),
            None => {}
        }
    }
    body
}

/// Something of the instance's own that comes to rest.
fn calm_statement(random: &mut Random, scope: &Scope) -> Option<Statement> {
    let parameters = &scope.structs[usize::from(scope.owner)];
    if parameters.is_empty() {
        return None;
    }
    let at = random.below(parameters.len());
    let (path, of) = (Path(vec![at as u8]), parameters[at]);
    let own = Expression::Path(path.clone());
    match of {
        Type::Int | Type::Nat => {
            let bound = Expression::Literal { of, value: random.below(8) as u32 };
            let one = Expression::Literal { of, value: random.from_to(1, 3) as u32 };
            let condition = binary(Operator::Less, own.clone(), bound);
            let value = binary(Operator::Plus, own, one);
            Some(Statement::If { condition, body: vec![Statement::Update { path, value }] })
        }
        Type::Bool if random.chance(30) => Some(construct_once(random, scope, path)),
        Type::Bool => {
            let other = scope.expression(random, Type::Bool, 3);
            let value = binary(Operator::Or, own, other);
            Some(Statement::Update { path, value })
        }
        Type::Struct(k) if k == scope.owner => {
            let value = Expression::Path(Path(vec![at as u8, at as u8]));
            Some(Statement::Update { path, value })
        }
        Type::Struct(_) => Some(Statement::Update { path, value: Expression::Null(of) }),
    }
}

/// If not done: construct, and done. The null instances construct each time,
/// so they are left out by asking for another instance than `null`.
fn construct_once(random: &mut Random, scope: &Scope, done: Path) -> Statement {
    let null = Expression::Null(Type::Struct(scope.owner));
    let condition = binary(
        Operator::And,
        binary(Operator::NotEqual, Expression::This, null),
        Expression::Not(Box::new(Expression::Path(done.clone()))),
    );
    let of = random.below(scope.structs.len()) as u8;
    let settled = |of: &Type| match of {
        Type::Bool => Expression::Literal { of: *of, value: 1 },
        _ => Expression::Null(*of),
    };
    let arguments = scope.structs[usize::from(of)].iter().map(settled).collect();
    let value = Expression::Literal { of: Type::Bool, value: 1 };
    let body =
        vec![Statement::Construct { of, arguments }, Statement::Update { path: done, value }];
    Statement::If { condition, body }
}

fn schedule(random: &mut Random, structs: &[StructDef]) -> Vec<Item> {
    let names = |one: &StructDef| one.steps.iter().map(|step| step.name).collect::<Vec<u8>>();
    let all: Vec<(u8, u8)> = (0..)
        .zip(structs)
        .flat_map(|(of, one)| names(one).into_iter().map(move |n| (of, n)))
        .collect();
    let calm: Vec<(u8, u8)> = all.iter().copied().filter(|(_, name)| is_calm(*name)).collect();
    let count = if random.chance(5) { random.from_to(5, 32) } else { random.from_to(1, 4) };
    (0..count).map(|_| item(random, &all, &calm, 0)).collect()
}

fn item(random: &mut Random, all: &[(u8, u8)], calm: &[(u8, u8)], fixes: usize) -> Item {
    let deeper = if fixes == 0 { 45 } else { 30 };
    if fixes < 8 && random.chance(deeper) {
        let inside = if calm.is_empty() || random.chance(8) { all } else { calm };
        let count = random.from_to(1, 3);
        return Item::Fix((0..count).map(|_| item(random, inside, calm, fixes + 1)).collect());
    }
    let (of, name) = *random.pick(all);
    if random.chance(40) { Item::StepOf { of, name } } else { Item::Step { name } }
}
