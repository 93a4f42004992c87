//! Names (7) and types (8) of a program (01, "Names, types, commands"): 7
//! wins wherever it stands, so a breach of types is noted and checking goes on.

use crate::limits::{FIRST_LOCAL, NESTING, PARAMETERS};
use crate::refusal::Refusal;
use crate::syntax::{Item, Node, Path, Step, Tree};
use crate::types::Type;

/// Checks every step and the schedule; tells each operator's operand type.
pub fn check(tree: &mut Tree) -> Result<(), Refusal> {
    let names = step_names(&tree.steps, tree.structs.len())?;
    scheduled(&tree.schedule, &names)?;
    let mut breach = false;
    for step in &tree.steps {
        let mut typing = Typing::new(&tree.structs, step.structure);
        for node in &mut tree.nodes[step.nodes.clone()] {
            typing.node(node)?;
        }
        breach |= typing.breach;
    }
    if breach { Err(Refusal::Typing) } else { Ok(()) }
}

/// For each struct the set of its step names, no name twice.
fn step_names(steps: &[Step], structs: usize) -> Result<Vec<u32>, Refusal> {
    let mut names = vec![0u32; structs];
    for step in steps {
        let own = &mut names[usize::from(step.structure)];
        let name = 1 << step.name;
        if *own & name != 0 {
            return Err(Refusal::Name);
        }
        *own |= name;
    }
    Ok(names)
}

/// A scheduled step is one of some struct, or of the named one.
fn scheduled(schedule: &[Item], names: &[u32]) -> Result<(), Refusal> {
    let anywhere = names.iter().fold(0, |all, own| all | own);
    for item in schedule {
        let (places, name) = match *item {
            Item::Step(name) => (anywhere, name),
            Item::TypedStep(structure, name) => (names[usize::from(structure)], name),
            Item::FixOpen | Item::FixClose { .. } => continue,
        };
        if places & (1 << name) == 0 {
            return Err(Refusal::Name);
        }
    }
    Ok(())
}

/// The checker inside one step: the types of the expressions not yet taken
/// up, and the locals as sets of bits with their types.
struct Typing<'t> {
    structs: &'t [Vec<Type>],
    own: u8,
    types: Vec<Type>,
    locals: [Type; PARAMETERS],
    declared: u8,
    living: u8,
    outer: [u8; NESTING],
    ifs: usize,
    breach: bool,
}

impl<'t> Typing<'t> {
    fn new(structs: &'t [Vec<Type>], own: u8) -> Self {
        Typing {
            structs,
            own,
            types: Vec::new(),
            locals: [Type::Int; PARAMETERS],
            declared: 0,
            living: 0,
            outer: [0; NESTING],
            ifs: 0,
            breach: false,
        }
    }

    fn node(&mut self, node: &mut Node) -> Result<(), Refusal> {
        match node {
            Node::Value(of, _) => self.types.push(*of),
            Node::This => self.types.push(Type::Struct(self.own)),
            Node::Path(path) => {
                let of = self.path(path)?;
                self.types.push(of);
            }
            Node::Not => {
                self.expect(Type::Bool);
                self.types.push(Type::Bool);
            }
            Node::Op { operator, signed } => {
                let operands = self.operands();
                self.breach |= !operator.allows(operands);
                *signed = operands == Type::Int;
                self.types.push(operator.result(operands));
            }
            Node::Construct(structure) => {
                self.arguments(*structure);
                self.types.push(Type::Struct(*structure));
            }
            Node::ConstructStatement(structure) => self.arguments(*structure),
            Node::IfOpen => self.open(),
            Node::IfClose => self.close(),
            Node::Declare(of, local) => {
                self.expect(*of);
                self.declare(*of, *local)?;
            }
            Node::Update(path) => {
                let of = self.path(path)?;
                self.expect(of);
            }
        }
        Ok(())
    }

    /// Takes up the last expression, which must be of this type.
    fn expect(&mut self, of: Type) {
        self.breach |= self.types.pop() != Some(of);
    }

    /// Takes up two expressions of one type.
    fn operands(&mut self) -> Type {
        let of = self.types.pop().unwrap_or(Type::Int);
        self.expect(of);
        of
    }

    fn arguments(&mut self, structure: u8) {
        let structs = self.structs;
        for &of in structs[usize::from(structure)].iter().rev() {
            self.expect(of);
        }
    }

    /// The condition is Bool; locals of the body end with it.
    fn open(&mut self) {
        self.expect(Type::Bool);
        self.outer[self.ifs] = self.living;
        self.ifs += 1;
    }

    fn close(&mut self) {
        self.ifs -= 1;
        self.living = self.outer[self.ifs];
    }

    fn declare(&mut self, of: Type, local: u8) -> Result<(), Refusal> {
        let index = local - FIRST_LOCAL;
        let bit = 1 << index;
        if self.declared & bit != 0 {
            return Err(Refusal::Name);
        }
        self.declared |= bit;
        self.living |= bit;
        self.locals[usize::from(index)] = of;
        Ok(())
    }

    /// The type of a path's first variable.
    fn first(&self, variable: u8) -> Result<Type, Refusal> {
        let found = match variable.checked_sub(FIRST_LOCAL) {
            None => self.parameter(self.own, variable),
            Some(index) => {
                (self.living & (1 << index) != 0).then(|| self.locals[usize::from(index)])
            }
        };
        found.ok_or(Refusal::Name)
    }

    fn parameter(&self, structure: u8, variable: u8) -> Option<Type> {
        self.structs[usize::from(structure)].get(usize::from(variable)).copied()
    }

    /// The type of a path's last variable.
    fn path(&mut self, path: &Path) -> Result<Type, Refusal> {
        let (&first, later) = path.as_slice().split_first().ok_or(Refusal::Name)?;
        let mut of = self.first(first)?;
        for &variable in later {
            let Type::Struct(structure) = of else {
                self.breach = true;
                break;
            };
            let Some(next) = self.parameter(structure, variable) else {
                self.breach = true;
                break;
            };
            of = next;
        }
        Ok(of)
    }
}
