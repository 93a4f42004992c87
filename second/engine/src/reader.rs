//! Reads a program stream (01, "Program stream"): 4 where it ends early or
//! goes on, 5 at a byte not allowed at its place, whichever comes first.

use crate::cursor::Cursor;
use crate::limits::*;
use crate::operators::Operator;
use crate::refusal::Refusal;
use crate::syntax::{Item, Node, Path, Step, Tree};
use crate::types::Type;
use std::ops::RangeInclusive;

struct Reader<'s> {
    cursor: Cursor<'s>,
    struct_count: usize,
    tree: Tree,
}

/// The tree of a whole stream.
pub fn read(stream: &[u8]) -> Result<Tree, Refusal> {
    let mut reader = Reader { cursor: Cursor::new(stream), struct_count: 0, tree: Tree::default() };
    reader.tree.nodes.reserve(stream.len());
    reader.structs()?;
    reader.all_steps()?;
    reader.items(0)?;
    if !reader.cursor.at_end() {
        return Err(Refusal::ProgramEnd);
    }
    Ok(reader.tree)
}

impl Reader<'_> {
    fn byte(&mut self) -> Result<u8, Refusal> {
        self.cursor.byte().ok_or(Refusal::ProgramEnd)
    }

    fn byte_in(&mut self, allowed: RangeInclusive<u8>) -> Result<u8, Refusal> {
        let byte = self.byte()?;
        if allowed.contains(&byte) { Ok(byte) } else { Err(Refusal::ProgramByte) }
    }

    fn number(&mut self) -> Result<u32, Refusal> {
        self.cursor.number().ok_or(Refusal::ProgramEnd)
    }

    fn type_byte(&mut self) -> Result<Type, Refusal> {
        Type::from_byte(self.byte()?, self.struct_count).ok_or(Refusal::ProgramByte)
    }

    fn struct_byte(&mut self) -> Result<u8, Refusal> {
        let byte = self.byte()?;
        if usize::from(byte) < self.struct_count { Ok(byte) } else { Err(Refusal::ProgramByte) }
    }

    fn structs(&mut self) -> Result<(), Refusal> {
        self.struct_count = usize::from(self.byte_in(1..=STRUCTS as u8)?);
        for _ in 0..self.struct_count {
            let count = self.byte_in(0..=PARAMETERS as u8)?;
            let mut parameters = Vec::with_capacity(PARAMETERS);
            for _ in 0..count {
                parameters.push(self.type_byte()?);
            }
            self.tree.structs.push(parameters);
        }
        Ok(())
    }

    fn all_steps(&mut self) -> Result<(), Refusal> {
        for structure in 0..self.struct_count as u8 {
            for _ in 0..self.byte_in(0..=STEPS)? {
                let name = self.byte_in(0..=LAST_NAME)?;
                let first = self.tree.nodes.len();
                self.statements(0)?;
                let nodes = first..self.tree.nodes.len();
                self.tree.steps.push(Step { structure, name, nodes });
            }
        }
        Ok(())
    }

    /// A count and that many statements, inside so many ifs.
    fn statements(&mut self, ifs: usize) -> Result<(), Refusal> {
        for _ in 0..self.byte_in(0..=STATEMENTS)? {
            let statement = self.statement(ifs)?;
            self.tree.nodes.push(statement);
        }
        Ok(())
    }

    fn statement(&mut self, ifs: usize) -> Result<Node, Refusal> {
        match self.byte()? {
            1 if ifs < NESTING => {
                self.expression(1)?;
                self.tree.nodes.push(Node::IfOpen);
                self.statements(ifs + 1)?;
                Ok(Node::IfClose)
            }
            2 => {
                let of = self.type_byte()?;
                let local = self.byte_in(FIRST_LOCAL..=VARIABLES as u8 - 1)?;
                self.expression(1)?;
                Ok(Node::Declare(of, local))
            }
            3 => {
                let path = self.path()?;
                self.expression(1)?;
                Ok(Node::Update(path))
            }
            4 => Ok(Node::ConstructStatement(self.construct(1)?)),
            _ => Err(Refusal::ProgramByte),
        }
    }

    fn path(&mut self) -> Result<Path, Refusal> {
        let length = self.byte_in(1..=PATH as u8)?;
        let mut variables = [0; PATH];
        variables[0] = self.byte_in(0..=VARIABLES as u8 - 1)?;
        for later in &mut variables[1..usize::from(length)] {
            *later = self.byte_in(0..=FIRST_LOCAL - 1)?;
        }
        Ok(Path { variables, length })
    }

    /// The struct of a construct whose arguments are at this level.
    fn construct(&mut self, level: usize) -> Result<u8, Refusal> {
        let structure = self.struct_byte()?;
        for _ in 0..self.tree.structs[usize::from(structure)].len() {
            self.expression(level)?;
        }
        Ok(structure)
    }

    /// An expression at this level, an outermost one being at 1.
    fn expression(&mut self, level: usize) -> Result<(), Refusal> {
        let byte = self.byte()?;
        if level > EXPRESSION_LEVELS {
            return Err(Refusal::ProgramByte);
        }
        let node = match byte {
            16 => {
                self.expression(level + 1)?;
                Node::Not
            }
            17 => Node::Construct(self.construct(level + 1)?),
            18 => Node::Path(self.path()?),
            19 => Node::Value(Type::Int, self.number()?),
            20 => Node::Value(Type::Nat, self.number()?),
            21 => Node::Value(Type::Bool, u32::from(self.byte_in(0..=1)?)),
            22 => {
                let of = self.type_byte()?;
                Node::Value(of, of.default_value())
            }
            23 => Node::This,
            _ => {
                let operator = Operator::from_byte(byte).ok_or(Refusal::ProgramByte)?;
                self.expression(level + 1)?;
                self.expression(level + 1)?;
                Node::Op { operator, signed: false }
            }
        };
        self.tree.nodes.push(node);
        Ok(())
    }

    /// A count and that many items, inside so many Fixes.
    fn items(&mut self, fixes: usize) -> Result<(), Refusal> {
        for _ in 0..self.byte_in(1..=ITEMS_TOGETHER)? {
            let item = match self.byte()? {
                1 => Item::Step(self.byte_in(0..=LAST_NAME)?),
                2 => Item::TypedStep(self.struct_byte()?, self.byte_in(0..=LAST_NAME)?),
                3 if fixes < NESTING => {
                    self.tree.schedule.push(Item::FixOpen);
                    let body = self.tree.schedule.len();
                    self.items(fixes + 1)?;
                    Item::FixClose { body }
                }
                _ => return Err(Refusal::ProgramByte),
            };
            self.tree.schedule.push(item);
        }
        Ok(())
    }
}
