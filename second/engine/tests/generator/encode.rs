//! Streams of generated programs (01, "Program stream").
use super::{Exp, Item, Source, Stat};

fn path(path: &[u8], out: &mut Vec<u8>) {
    out.push(path.len() as u8);
    out.extend_from_slice(path);
}

fn exp(expression: &Exp, out: &mut Vec<u8>) {
    match expression {
        Exp::Literal(2, value) => out.extend([21, *value as u8]),
        Exp::Literal(of, value) => {
            out.push(19 + of);
            out.extend((*value as u32).to_le_bytes());
        }
        Exp::Null(of) => out.extend([22, *of]),
        Exp::This => out.push(23),
        Exp::Path(variables) => {
            out.push(18);
            path(variables, out);
        }
        Exp::Not(inner) => {
            out.push(16);
            exp(inner, out);
        }
        Exp::Op(byte, left, right) => {
            out.push(*byte);
            exp(left, out);
            exp(right, out);
        }
        Exp::Construct(structure, arguments) => {
            out.extend([17, *structure]);
            arguments.iter().for_each(|argument| exp(argument, out));
        }
    }
}

fn stats(statements: &[Stat], out: &mut Vec<u8>) {
    out.push(statements.len() as u8);
    for statement in statements {
        match statement {
            Stat::If(condition, body) => {
                out.push(1);
                exp(condition, out);
                stats(body, out);
            }
            Stat::Declare(of, local, value) => {
                out.extend([2, *of, *local]);
                exp(value, out);
            }
            Stat::Update(variables, value) => {
                out.push(3);
                path(variables, out);
                exp(value, out);
            }
            Stat::Construct(structure, arguments) => {
                out.extend([4, *structure]);
                arguments.iter().for_each(|argument| exp(argument, out));
            }
        }
    }
}

fn items(list: &[Item], out: &mut Vec<u8>) {
    out.push(list.len() as u8);
    for item in list {
        match item {
            Item::Step(name) => out.extend([1, *name]),
            Item::Typed(structure, name) => out.extend([2, *structure, *name]),
            Item::Fix(body) => {
                out.push(3);
                items(body, out);
            }
        }
    }
}

pub fn stream(source: &Source) -> Vec<u8> {
    let mut out = vec![source.structs.len() as u8];
    for types in &source.structs {
        path(types, &mut out);
    }
    for own in &source.steps {
        out.push(own.len() as u8);
        for (name, statements) in own {
            out.push(*name);
            stats(statements, &mut out);
        }
    }
    items(&source.schedule, &mut out);
    out
}
