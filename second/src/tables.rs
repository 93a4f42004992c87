//! Tables as text (docs/FORMAT.md, "Tables as text"): a line for each record,
//! with its label, its struct and a value for each of its parameters. A text
//! as a table image, and a table image as text; the engine judges the images.

use crate::generate::encode::{BLOCK_BYTES, Record, image, table_stream};
use engine::{Type, check, run};

/// The types of each struct's parameters.
type Structs = Vec<Vec<Type>>;

/// The table image of a text, where the engine accepts it.
pub fn table_image(program: &[u8], text: &str) -> Result<Vec<u8>, String> {
    let structs = structs(program)?;
    let mut records = Vec::new();
    for (line, text) in text.split('\n').enumerate() {
        let words: Vec<&str> =
            text.split([' ', '\t', '\r', ',']).filter(|w| !w.is_empty()).collect();
        if !words.is_empty() {
            let label = structs.len() + records.len();
            let refused = || format!("line {} of the table is no record {label}", line + 1);
            records.push(record(&words, label, &structs).ok_or_else(refused)?);
        }
    }
    let table = image(&table_stream(&records));
    judge(program, &table)?;
    Ok(table)
}

/// The text of a table image that the engine accepts.
pub fn table_text(program: &[u8], table: &[u8]) -> Result<String, String> {
    let structs = structs(program)?;
    judge(program, table)?;
    let stream = stream(table);
    let mut text = String::new();
    let mut rest = &stream[2..];
    for label in structs.len().. {
        let Some((&of, behind)) = rest.split_first() else { break };
        let types = &structs[usize::from(of)];
        let (values, next) = behind.split_at(4 * types.len());
        text += &format!("{label} {of}");
        for (value, &of) in values.chunks_exact(4).zip(types) {
            text += &format!(" {}", number_of(of, value.try_into().expect("four bytes")));
        }
        text += "\n";
        rest = next;
    }
    Ok(text)
}

/// The record of a line's words, which begin with its label and its struct.
fn record(words: &[&str], label: usize, structs: &Structs) -> Option<Record> {
    let numbers: Option<Vec<i64>> = words.iter().map(|word| number(word)).collect();
    let (&[own, of], values) = numbers.as_deref()?.split_first_chunk()?;
    let of = u8::try_from(of).ok()?;
    let types = structs.get(usize::from(of))?;
    if own != label as i64 || values.len() != types.len() {
        return None;
    }
    let values = values.iter().zip(types).map(|(&number, &of)| value_of(of, number));
    Some(Record { of, values: values.collect::<Option<_>>()? })
}

/// A number in decimal: no plus sign, and no minus sign before 0.
fn number(word: &str) -> Option<i64> {
    let digits = word.strip_prefix('-').unwrap_or(word);
    if !digits.bytes().all(|byte| byte.is_ascii_digit()) {
        return None;
    }
    match i64::from(digits.parse::<u32>().ok()?) {
        value if digits == word => Some(value),
        0 => None,
        value => Some(-value),
    }
}

/// The value that a number stands for, an Int in two's complement.
fn value_of(of: Type, number: i64) -> Option<u32> {
    match of {
        Type::Int => i32::try_from(number).ok().map(i32::cast_unsigned),
        Type::Nat | Type::Bool | Type::Struct(_) => u32::try_from(number).ok(),
    }
}

fn number_of(of: Type, value: [u8; 4]) -> i64 {
    match of {
        Type::Int => i32::from_le_bytes(value).into(),
        Type::Nat | Type::Bool | Type::Struct(_) => u32::from_le_bytes(value).into(),
    }
}

/// Refuses with 1 to 12, as a run that takes no turn does.
fn judge(program: &[u8], table: &[u8]) -> Result<(), String> {
    match run(program, table, &[], &mut [0; 8_704], &mut [None; 1_024]).number {
        number @ 1..=14 => Err(format!("the table is refused {number}")),
        _ => Ok(()),
    }
}

/// The structs of an accepted program, as the front of its stream has them.
fn structs(program: &[u8]) -> Result<Structs, String> {
    let number = check(program, &mut [None; 1_024]).number;
    if number != 0 {
        return Err(format!("the program is refused {number}"));
    }
    let mut bytes = stream(program).into_iter();
    let mut byte = || bytes.next().expect("a whole program");
    let count = byte();
    let mut structs = Vec::new();
    for _ in 0..count {
        let parameters = 0..byte();
        let of = |byte| Type::from_byte(byte, count.into()).expect("a type");
        structs.push(parameters.map(|_| of(byte())).collect());
    }
    Ok(structs)
}

/// The stream of an accepted image: of each block the bytes that it uses.
fn stream(image: &[u8]) -> Vec<u8> {
    let used = |block: &[u8]| usize::from(u16::from_le_bytes([block[2], block[3]]));
    image.chunks(BLOCK_BYTES).flat_map(|block| &block[4..4 + used(block)]).copied().collect()
}
