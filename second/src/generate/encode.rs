//! Streams and images of programs and tables, the reverse of the readers: 01,
//! "Blocks", "Program stream" and "Table and turns". Counts are written as
//! they come, so that a stream may break every limit.

use super::syntax::{Expression, Item, Path, Program, Statement, Type};

pub const BLOCK_BYTES: usize = 512;
const PAYLOAD_BYTES: usize = 504;

/// A record of a table: a struct byte and its values.
#[derive(Clone, Debug, PartialEq, Eq)]
pub struct Record {
    pub of: u8,
    pub values: Vec<u32>,
}

pub fn program_stream(program: &Program) -> Vec<u8> {
    let mut out = vec![program.structs.len() as u8];
    for definition in &program.structs {
        out.push(definition.parameters.len() as u8);
        out.extend(definition.parameters.iter().map(|of| of.byte()));
    }
    for definition in &program.structs {
        out.push(definition.steps.len() as u8);
        for step in &definition.steps {
            out.push(step.name);
            statements(&mut out, &step.body);
        }
    }
    items(&mut out, &program.schedule);
    out
}

fn statements(out: &mut Vec<u8>, body: &[Statement]) {
    out.push(body.len() as u8);
    for statement in body {
        match statement {
            Statement::If { condition, body } => {
                out.push(1);
                expression(out, condition);
                statements(out, body);
            }
            Statement::Declare { of, local, value } => {
                out.extend([2, of.byte(), *local]);
                expression(out, value);
            }
            Statement::Update { path, value } => {
                out.push(3);
                variables(out, path);
                expression(out, value);
            }
            Statement::Construct { of, arguments } => {
                out.extend([4, *of]);
                arguments.iter().for_each(|argument| expression(out, argument));
            }
        }
    }
}

fn variables(out: &mut Vec<u8>, path: &Path) {
    out.push(path.0.len() as u8);
    out.extend_from_slice(&path.0);
}

fn expression(out: &mut Vec<u8>, given: &Expression) {
    match given {
        Expression::Not(inner) => {
            out.push(16);
            expression(out, inner);
        }
        Expression::Construct { of, arguments } => {
            out.extend([17, *of]);
            arguments.iter().for_each(|argument| expression(out, argument));
        }
        Expression::Path(path) => {
            out.push(18);
            variables(out, path);
        }
        Expression::Literal { of: Type::Bool, value } => out.extend([21, *value as u8]),
        Expression::Literal { of, value } => {
            out.push(if *of == Type::Int { 19 } else { 20 });
            out.extend_from_slice(&value.to_le_bytes());
        }
        Expression::Null(of) => out.extend([22, of.byte()]),
        Expression::This => out.push(23),
        Expression::Binary { operator, left, right } => {
            out.push(operator.byte());
            expression(out, left);
            expression(out, right);
        }
    }
}

fn items(out: &mut Vec<u8>, list: &[Item]) {
    out.push(list.len() as u8);
    for item in list {
        match item {
            Item::Step { name } => out.extend([1, *name]),
            Item::StepOf { of, name } => out.extend([2, *of, *name]),
            Item::Fix(body) => {
                out.push(3);
                items(out, body);
            }
        }
    }
}

pub fn table_stream(records: &[Record]) -> Vec<u8> {
    let mut out = (records.len() as u16).to_le_bytes().to_vec();
    for record in records {
        out.push(record.of);
        out.extend(record.values.iter().flat_map(|value| value.to_le_bytes()));
    }
    out
}

/// The image of a stream; that of an empty stream is one block using no byte.
pub fn image(stream: &[u8]) -> Vec<u8> {
    let count = stream.len().div_ceil(PAYLOAD_BYTES).max(1);
    let mut out = vec![0; count * BLOCK_BYTES];
    for (index, block) in out.chunks_exact_mut(BLOCK_BYTES).enumerate() {
        let part = &stream[(index * PAYLOAD_BYTES).min(stream.len())..];
        let part = &part[..part.len().min(PAYLOAD_BYTES)];
        block[0..2].copy_from_slice(&(index as u16).to_le_bytes());
        block[2..4].copy_from_slice(&(part.len() as u16).to_le_bytes());
        block[4..4 + part.len()].copy_from_slice(part);
        seal(block);
    }
    out
}

/// Makes the sums of a block right, straight from their definition.
pub fn seal(block: &mut [u8]) {
    let a: u32 = block[..508].iter().map(|&byte| u32::from(byte)).sum();
    let b: u32 = (0..508).map(|i| (508 - i as u32) * u32::from(block[i])).sum();
    block[508..510].copy_from_slice(&(a as u16).to_le_bytes());
    block[510..512].copy_from_slice(&(b as u16).to_le_bytes());
}
