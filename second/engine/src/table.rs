//! Reads and writes the table of instances (01, "Table and turns"; numbers
//! 9 to 12).

use crate::blocks::{self, BlockFault};
use crate::cursor::Cursor;
use crate::instance::Instance;
use crate::limits::{INSTANCES, TABLE_BYTES};
use crate::refusal::Refusal;
use crate::types::Type;

/// The instances of a table image, the null ones before the records.
pub fn read(image: &[u8], structs: &[Vec<Type>]) -> Result<Vec<Instance>, Refusal> {
    let stream = blocks::stream(image, TABLE_BYTES).map_err(|fault| match fault {
        BlockFault::Length => Refusal::TableLength,
        BlockFault::Sums | BlockFault::Form => Refusal::TableBlock,
    })?;
    let mut cursor = Cursor::new(&stream);
    let count = usize::from(cursor.pair().ok_or(Refusal::TableEnd)?);
    if structs.len() + count > INSTANCES {
        return Err(Refusal::TableValue);
    }
    let mut instances = Vec::with_capacity(INSTANCES);
    instances.extend((0..structs.len() as u8).map(|index| null_instance(index, structs)));
    for _ in 0..count {
        instances.push(record(&mut cursor, structs)?);
    }
    if !cursor.at_end() {
        return Err(Refusal::TableEnd);
    }
    if !references_hold(&instances, structs) {
        return Err(Refusal::TableValue);
    }
    Ok(instances)
}

fn null_instance(index: u8, structs: &[Vec<Type>]) -> Instance {
    let mut instance = Instance::new(index);
    for (variable, of) in instance.variables.iter_mut().zip(&structs[usize::from(index)]) {
        *variable = of.default_value();
    }
    instance
}

/// One record; its references are left for later.
fn record(cursor: &mut Cursor, structs: &[Vec<Type>]) -> Result<Instance, Refusal> {
    let structure = cursor.byte().ok_or(Refusal::TableEnd)?;
    let types = structs.get(usize::from(structure)).ok_or(Refusal::TableValue)?;
    let mut instance = Instance::new(structure);
    for (variable, &of) in instance.variables.iter_mut().zip(types) {
        *variable = cursor.number().ok_or(Refusal::TableEnd)?;
        if of == Type::Bool && *variable > 1 {
            return Err(Refusal::TableValue);
        }
    }
    Ok(instance)
}

/// Whether every reference names an existing label of its struct.
fn references_hold(instances: &[Instance], structs: &[Vec<Type>]) -> bool {
    let names_instance = |label: u32, structure: u8| {
        instances.get(label as usize).is_some_and(|named| named.structure == structure)
    };
    instances.iter().all(|instance| {
        let types = &structs[usize::from(instance.structure)];
        instance.variables.iter().zip(types).all(|(&value, &of)| match of {
            Type::Struct(structure) => names_instance(value, structure),
            _ => true,
        })
    })
}

/// Writes the records as blocks; the number of blocks. The output has room
/// for the largest table.
pub fn write(instances: &[Instance], structs: &[Vec<Type>], output: &mut [u8]) -> usize {
    let records = &instances[structs.len()..];
    let mut stream = Vec::with_capacity(TABLE_BYTES);
    stream.extend_from_slice(&(records.len() as u16).to_le_bytes());
    for instance in records {
        stream.push(instance.structure);
        let parameters = structs[usize::from(instance.structure)].len();
        for value in &instance.variables[..parameters] {
            stream.extend_from_slice(&value.to_le_bytes());
        }
    }
    blocks::write(&stream, output)
}
