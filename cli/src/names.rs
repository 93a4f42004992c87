//! The names of a program text that the library has accepted: structs, parameters, steps and locals with the numbers that docs/FORMAT.md gives them, and for
//! each command of a step the statement that it belongs to. These are labels: nothing is accepted or refused by them.

use crate::tokens::{Token, tokens};

#[derive(Debug, Default)]
pub struct Names {
    pub structs: Vec<NamedStruct>,
    /// The step names by their numbers.
    pub steps: Vec<String>,
}

#[derive(Debug)]
pub struct NamedStruct {
    pub name: String,
    /// Names and the names of their types.
    pub parameters: Vec<(String, String)>,
    pub steps: Vec<NamedStep>,
}

#[derive(Debug)]
pub struct NamedStep {
    pub number: usize,
    /// Names from local 8 on, and the names of their types.
    pub locals: Vec<(String, String)>,
    /// The statement of each command, by position.
    pub statements: Vec<String>,
}

/// The names of an accepted text; none where the text is not of that form.
pub fn names(text: &[u8]) -> Option<Names> {
    let mut scan = Scan { text, tokens: tokens(text), at: 0 };
    let mut names = Names::default();
    while scan.peek() == "struct" {
        let structure = scan.structure(&mut names.steps)?;
        names.structs.push(structure);
    }
    Some(names)
}

struct Scan<'t> {
    text: &'t [u8],
    tokens: Vec<Token>,
    at: usize,
}

impl Scan<'_> {
    fn spelled(&self, at: usize) -> &str {
        let token = self.tokens.get(at).map(|t| &self.text[t.begin..t.end]);
        token.and_then(|bytes| std::str::from_utf8(bytes).ok()).unwrap_or("")
    }

    fn peek(&self) -> &str {
        self.spelled(self.at)
    }

    fn take(&mut self) -> Option<String> {
        let token = self.peek().to_string();
        self.at += 1;
        (!token.is_empty()).then_some(token)
    }

    /// Passes a token of this spelling.
    fn pass(&mut self, wanted: &str) -> Option<()> {
        let met = self.peek() == wanted;
        self.at += 1;
        met.then_some(())
    }

    fn structure(&mut self, step_names: &mut Vec<String>) -> Option<NamedStruct> {
        self.pass("struct")?;
        let name = self.take()?;
        self.pass("(")?;
        let mut parameters = Vec::new();
        while self.peek() != ")" {
            let parameter = self.take()?;
            self.pass(":")?;
            parameters.push((parameter, self.take()?));
            if self.peek() == "," {
                self.at += 1;
            }
        }
        self.pass(")")?;
        self.pass("{")?;
        let mut steps = Vec::new();
        while self.peek() != "}" {
            steps.push(self.step(step_names)?);
        }
        self.pass("}")?;
        Some(NamedStruct { name, parameters, steps })
    }

    fn step(&mut self, step_names: &mut Vec<String>) -> Option<NamedStep> {
        let name = self.take()?;
        let known = step_names.iter().position(|known| *known == name);
        let number = known.unwrap_or(step_names.len());
        if known.is_none() {
            step_names.push(name);
        }
        let mut step = NamedStep { number, locals: Vec::new(), statements: Vec::new() };
        self.pass("{")?;
        let mut open = 1;
        while open > 0 {
            match self.peek() {
                "}" => {
                    open -= 1;
                    self.at += 1;
                }
                "if" => {
                    self.condition(&mut step)?;
                    open += 1;
                }
                _ => self.simple(&mut step)?,
            }
        }
        Some(step)
    }

    /// `if Exp then {`: the commands of the expression and the `if n`.
    fn condition(&mut self, step: &mut NamedStep) -> Option<()> {
        let begin = self.at;
        let end = self.find("then")?;
        let commands = self.commands(begin + 1, end) + 1;
        step.statements.extend(std::iter::repeat_n(self.shown(begin, end), commands));
        self.at = end + 1;
        self.pass("{")
    }

    /// A statement that ends in a semicolon.
    fn simple(&mut self, step: &mut NamedStep) -> Option<()> {
        let begin = self.at;
        let end = self.find(";")?;
        let commands = match (begin..end).find(|&i| self.spelled(i) == ":=") {
            None => self.commands(begin, end),
            Some(sign) if sign == begin + 2 && self.spelled(begin + 1) != "." => {
                step.locals.push((self.spelled(begin + 1).to_string(), self.spelled(begin).to_string()));
                self.commands(sign + 1, end) + 2
            }
            Some(sign) => {
                let variables = (sign - begin).div_ceil(2);
                self.commands(sign + 1, end) + 1 + variables
            }
        };
        step.statements.extend(std::iter::repeat_n(self.shown(begin, end), commands));
        self.at = end + 1;
        Some(())
    }

    /// The next token of this spelling.
    fn find(&self, wanted: &str) -> Option<usize> {
        (self.at..self.tokens.len()).find(|&i| self.spelled(i) == wanted)
    }

    /// How many commands an expression has. Operators, literals and constructors have one each; a path has `push this` and one for each variable.
    fn commands(&self, begin: usize, end: usize) -> usize {
        let mut count = 0;
        let mut after_null = false;
        for at in begin..end {
            let token = self.spelled(at);
            let word = token.starts_with(|c: char| c.is_ascii_alphabetic());
            count += match token {
                _ if after_null => 0,
                "(" | ")" | "," | "." => 0,
                "null" | "true" | "false" | "this" => 1,
                _ if word && self.spelled(at + 1) == "(" => 1,
                _ if word && at > begin && self.spelled(at - 1) == "." => 1,
                _ if word => 2,
                _ => 1,
            };
            after_null = token == "null";
        }
        count
    }

    /// Tokens as they are written, with one blank for each gap.
    fn shown(&self, begin: usize, end: usize) -> String {
        let mut out = String::new();
        for at in begin..end {
            if at > begin && self.tokens[at].begin > self.tokens[at - 1].end {
                out.push(' ');
            }
            out += self.spelled(at);
        }
        out
    }
}
