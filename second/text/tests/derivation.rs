//! "Text free of 15 escapes 16 precisely when the grammar, written without
//! the reader, derives it, and then has one reading" (02 §1): the grammar as
//! rules, derivations counted over spans of tokens.

mod common;
use common::Reader;
use text::{read, read_bare};

const COMMON: &str = "
Program = Defs Sched
Defs = Struct | Struct Defs
Struct = struct Id ( Pars ) { Steps }
Pars = Par ParList | empty
ParList = , Par ParList | empty
Par = Id : Type
Type = Int | Nat | Bool | Id
Steps = Id { Stats } Steps | empty
Stats = Stat Stats | empty
Stat = if Exp then { Stats } | Type Id := Exp ; | Var := Exp ; | Id ( Exps ) ;
Exps = Exp ExpList | empty
ExpList = , Exp ExpList | empty
Var = Id . Var | Id
Sched = Item | Item < Sched
Item = Id | Id . Id | Fix ( Sched )
Operand = Id ( Exps ) | Var | Literal | null Type | this
Literal = INT | NAT | true | false
Comparison = = | != | <= | >= | < | >
";

const BRACKETED: &str = "
Exp = ( Exp Operator Exp ) | ( Exp ) | ! Exp | Operand
Operator = Comparison | * | / | % | + | - | && | ||
";

const BARE: &str = "
Exp = Exp || And | And
And = And && Compared | Compared
Compared = Sum Comparison Sum | Sum
Sum = Sum + Product | Sum - Product | Product
Product = Product * Unary | Product / Unary | Product % Unary | Unary
Unary = ! Unary | ( Exp ) | Operand
";

#[derive(Clone, Copy)]
enum Symbol {
    Rule(usize),
    Terminal(&'static str),
}

/// The rules by number, each a list of alternatives; the first derives a
/// program.
struct Grammar {
    names: Vec<&'static str>,
    rules: Vec<Vec<Vec<Symbol>>>,
    /// The fewest tokens of what a rule derives.
    fewest: Vec<usize>,
}

impl Grammar {
    fn new(expressions: &'static str) -> Grammar {
        let lines = COMMON.lines().chain(expressions.lines()).filter(|line| !line.is_empty());
        let parts = lines.map(|line| line.split_once(" = ").expect("a rule"));
        let (names, bodies): (Vec<_>, Vec<_>) = parts.unzip();
        let symbol = |word: &'static str| match names.iter().position(|name| *name == word) {
            Some(rule) => Symbol::Rule(rule),
            None => Symbol::Terminal(word),
        };
        let row = |row: &'static str| {
            row.split(' ').filter(|word| *word != "empty").map(symbol).collect::<Vec<_>>()
        };
        let rules: Vec<Vec<_>> =
            bodies.iter().map(|body| body.split(" | ").map(row).collect()).collect();
        let mut grammar = Grammar { fewest: vec![1000; rules.len()], names, rules };
        for _ in 0..grammar.rules.len() {
            for rule in 0..grammar.rules.len() {
                let least = grammar.rules[rule].iter().map(|row| grammar.fewest(row)).min();
                grammar.fewest[rule] = least.expect("an alternative").min(1000);
            }
        }
        grammar
    }

    fn rule(&self, name: &str) -> usize {
        self.names.iter().position(|known| *known == name).expect("a rule")
    }

    fn fewest(&self, row: &[Symbol]) -> usize {
        let of = |symbol: &Symbol| match symbol {
            Symbol::Rule(rule) => self.fewest[*rule],
            Symbol::Terminal(_) => 1,
        };
        row.iter().map(of).sum()
    }
}

struct Counter<'g> {
    grammar: &'g Grammar,
    tokens: &'g [&'static str],
    /// By rule, start and end.
    known: Vec<Option<u64>>,
}

const WORDS: [&str; 12] = [
    "struct", "if", "then", "null", "this", "Fix", "Int", "Nat", "Bool", "String", "true", "false",
];

fn is_terminal(symbol: &str, token: &str) -> bool {
    let first = token.as_bytes()[0];
    match symbol {
        "Id" => first.is_ascii_alphabetic() && !WORDS.contains(&token),
        "INT" => token.len() > 1 && matches!(first, b'+' | b'-'),
        "NAT" => first.is_ascii_digit(),
        _ => symbol == token,
    }
}

impl Counter<'_> {
    /// The derivations of these tokens from a row of symbols.
    fn of_row(&mut self, row: &[Symbol], start: usize, end: usize) -> u64 {
        let Some((first, rest)) = row.split_first() else { return u64::from(start == end) };
        if end - start < self.grammar.fewest(row) {
            return 0;
        }
        let rule = match *first {
            Symbol::Rule(rule) => rule,
            Symbol::Terminal(symbol) if is_terminal(symbol, self.tokens[start]) => {
                return self.of_row(rest, start + 1, end);
            }
            Symbol::Terminal(_) => return 0,
        };
        let last = end - self.grammar.fewest(rest);
        let from = if rest.is_empty() { end } else { start + self.grammar.fewest[rule] };
        let mut count = 0;
        for middle in from..=last {
            let right = self.of_row(rest, middle, end);
            if right > 0 {
                count += right * self.of(rule, start, middle);
            }
        }
        count
    }

    fn of(&mut self, rule: usize, start: usize, end: usize) -> u64 {
        let side = self.tokens.len() + 1;
        let place = (rule * side + start) * side + end;
        if let Some(count) = self.known[place] {
            return count;
        }
        let grammar = self.grammar;
        let count = grammar.rules[rule].iter().map(|row| self.of_row(row, start, end)).sum();
        self.known[place] = Some(count);
        count
    }
}

fn count(grammar: &Grammar, name: &str, tokens: &[&'static str]) -> u64 {
    let places = grammar.rules.len() * (tokens.len() + 1) * (tokens.len() + 1);
    let mut counter = Counter { grammar, tokens, known: vec![None; places] };
    counter.of(grammar.rule(name), 0, tokens.len())
}

/// Compares the reader's 16 for a text with the count of derivations of the
/// part in question from this nonterminal; tells whether there is one.
fn compare(reader: Reader, count: u64, text: &str) -> bool {
    assert!(count <= 1, "{count} derivations: {text}");
    assert_eq!(common::outcome(reader, text.as_bytes()).0 != 16, count == 1, "{text}");
    count == 1
}

fn both(name: &str, tokens: &[&'static str], text: &str) -> (bool, bool) {
    thread_local! {
        static GRAMMARS: (Grammar, Grammar) = (Grammar::new(BRACKETED), Grammar::new(BARE));
    }
    GRAMMARS.with(|(bracketed, bare)| {
        let bracketed = compare(read, count(bracketed, name, tokens), text);
        let bare = compare(read_bare, count(bare, name, tokens), text);
        assert!(!bracketed || bare, "what is derived with brackets is derived bare: {text}");
        (bracketed, bare)
    })
}

fn of_expression(tokens: &[&'static str]) -> (bool, bool) {
    both("Exp", tokens, &format!("struct P ( x : P ) {{ s {{ x := {} ; }} }} s", tokens.join(" ")))
}

fn of_program(tokens: &[&'static str]) -> (bool, bool) {
    both("Program", tokens, &tokens.join(" "))
}

#[test]
fn all_short_expressions() {
    const ALPHABET: [&str; 9] = ["x", "(", ")", "!", "+", "<", "&&", "P", ","];
    let mut derived = (0, 0);
    for length in 0..=5u32 {
        for mut number in 0..ALPHABET.len().pow(length) {
            let mut expression = Vec::new();
            for _ in 0..length {
                expression.push(ALPHABET[number % ALPHABET.len()]);
                number /= ALPHABET.len();
            }
            let (bracketed, bare) = of_expression(&expression);
            derived.0 += usize::from(bracketed);
            derived.1 += usize::from(bare);
        }
    }
    assert!(derived.0 > 20 && derived.1 > derived.0, "{derived:?}");
}

struct Chance(u64);

impl Chance {
    fn below(&mut self, bound: usize) -> usize {
        self.0 =
            self.0.wrapping_mul(6_364_136_223_846_793_005).wrapping_add(1_442_695_040_888_963_407);
        (self.0 >> 33) as usize % bound
    }
}

const ANY: [&str; 41] = [
    "struct", "if", "then", "null", "this", "Fix", "Int", "Nat", "Bool", "String", "true", "false",
    "(", ")", "{", "}", ",", ":", ";", ":=", ".", "!", "=", "!=", "<=", ">=", "<", ">", "*", "/",
    "%", "+", "-", "&&", "||", "x", "P", "s", "+1", "-1", "1n",
];

/// Tokens that may often stand for each other.
const ALIKE: [&[&str]; 4] = [
    &["=", "<=", "<", ">", "*", "%", "+", "-", "&&", "||"],
    &["x", "P", "s", "true", "+1", "1n", "this"],
    &["Int", "Nat", "P", "Bool"],
    &[",", ".", ";", "<", "!"],
];

fn alike(chance: &mut Chance, token: &'static str) -> &'static str {
    let group = ALIKE.iter().find(|group| group.contains(&token));
    group.map_or(token, |group| group[chance.below(group.len())])
}

/// Some tokens lost, doubled, exchanged, replaced or put in.
fn damage(chance: &mut Chance, tokens: &mut Vec<&'static str>) {
    for _ in 0..1 + chance.below(3) {
        let (at, other) = (chance.below(tokens.len()), chance.below(tokens.len()));
        match chance.below(8) {
            0 if tokens.len() > 1 => drop(tokens.remove(at)),
            1 => tokens.insert(at, tokens[at]),
            2 => tokens.swap(at, other),
            3 => tokens[at] = ANY[chance.below(ANY.len())],
            5..=7 => tokens[at] = alike(chance, tokens[at]),
            _ => tokens.insert(at, ANY[chance.below(ANY.len())]),
        }
    }
}

#[test]
fn damaged_expressions() {
    const EXPRESSIONS: [&str; 6] = [
        "( ( x + P ( x , ! x ) ) && ( null P = this ) )",
        "x * x + x < x - x % x && ! x || x",
        "! ( x . x / ! ! ( x ) )",
        "P ( P ( ) , ( x ) , +1 , ( 1n - x . x ) )",
        "( ( ( x || x ) ) != ( true >= false ) )",
        "x = x && x <= x || ( x < x ) > x && ! x . x",
    ];
    let mut chance = Chance(1);
    let mut derived = 0;
    for round in 0..1500 {
        let mut expression = EXPRESSIONS[round % EXPRESSIONS.len()].split(' ').collect();
        damage(&mut chance, &mut expression);
        derived += usize::from(of_expression(&expression).1);
    }
    assert!(derived > 100, "{derived}");
}

#[test]
fn damaged_programs() {
    const PROGRAMS: [&str; 5] = [
        "struct P ( x : Int , y : P ) { s { x := y . x ; if x then { P ( x , y ) ; } } } s < P . s",
        "struct P ( ) { s { Int l := +1 ; P q := null P ; } t { } } struct Q ( ) { } Fix ( s < t )",
        "struct P ( ) { s { if ( x ) then { if x then { } x := x ; } } } Fix ( Fix ( s ) < P . s )",
        "struct P ( x : Bool ) { } struct Q ( x : P ) { s { x . x := this ; } } s < Fix ( Q . s )",
        "struct P ( x : Nat ) { s { x := ( x + 1n ) ; Bool x := ! ( x < x ) ; P ( ) ; } } s",
    ];
    let mut chance = Chance(2);
    let mut derived = 0;
    for round in 0..700 {
        let mut tokens = PROGRAMS[round % PROGRAMS.len()].split(' ').collect();
        damage(&mut chance, &mut tokens);
        derived += usize::from(of_program(&tokens).0);
    }
    for program in PROGRAMS {
        assert_eq!(of_program(&program.split(' ').collect::<Vec<_>>()), (true, true));
    }
    assert!(derived > 50, "{derived}");
}
