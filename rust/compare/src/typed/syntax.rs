//! A text as trees: lines, equations, sums, products and factors, letter by letter.

use super::Broken;
use std::collections::BTreeSet;

const RESERVED: [&str; 5] = ["n", "at", "unknowns", "derivatives", "none"];

/// What a side of an equation is made of.
#[derive(Clone, Debug)]
pub enum Tree {
    Number(u64),
    Variable,
    /// An unknown with its index.
    Indexed(String, Box<Tree>),
    /// An unknown with its primes.
    Derivative(String, i64),
    Sum(Vec<(bool, Tree)>),
    Product(Vec<Tree>),
    Power(Box<Tree>, u64),
}

impl Tree {
    pub fn has_unknown(&self) -> bool {
        match self {
            Tree::Number(_) | Tree::Variable => false,
            Tree::Indexed(..) | Tree::Derivative(..) => true,
            Tree::Sum(parts) => parts.iter().any(|(_, part)| part.has_unknown()),
            Tree::Product(factors) => factors.iter().any(Tree::has_unknown),
            Tree::Power(base, _) => base.has_unknown(),
        }
    }
}

/// An equation or a relation.
#[derive(Clone, Debug)]
pub struct Statement {
    pub n0: Option<i64>,
    /// Whether the left side is 0 and nothing else.
    pub is_zero_left: bool,
    pub left: Tree,
    pub right: Tree,
}

/// The parts of a text.
#[derive(Debug, Default)]
pub struct Text {
    pub is_differential: bool,
    /// The pieces of the first line that begins with `unknowns`.
    pub heading: Option<Vec<String>>,
    pub statements: Vec<Statement>,
    /// Every name but the reserved ones.
    pub names: BTreeSet<String>,
    /// The names with a prime or `(x)` behind them.
    pub marked: BTreeSet<String>,
}

/// The text without remarks, with one kind of line end and one kind of blank; a line end inside brackets is a blank.
fn plain(text: &str) -> Vec<char> {
    let mut letters: Vec<char> = Vec::new();
    let (mut depth, mut is_remark) = (0usize, false);
    let mut all = text.chars().peekable();
    if all.peek() == Some(&'\u{feff}') {
        all.next();
    }
    while let Some(c) = all.next() {
        if c == '\r' && all.peek() == Some(&'\n') {
            continue;
        }
        let is_end = c == '\n' || c == '\r';
        is_remark = (is_remark || c == '#') && !is_end;
        match c {
            _ if is_remark => {}
            _ if is_end => letters.push(if depth > 0 { ' ' } else { '\n' }),
            '\t' | '\u{a0}' => letters.push(' '),
            '(' => {
                depth += 1;
                letters.push(c);
            }
            ')' => {
                depth = depth.saturating_sub(1);
                letters.push(c);
            }
            _ => letters.push(c),
        }
    }
    letters
}

fn in_name(c: char) -> bool {
    c.is_ascii_alphanumeric() || c == '_'
}

/// The names of a text with the letters behind each.
fn names(letters: &[char]) -> Vec<(String, &[char])> {
    let mut found = Vec::new();
    let mut at = 0;
    while at < letters.len() {
        let is_number = letters[at].is_ascii_digit();
        let is_part = |c: char| if is_number { c.is_ascii_digit() } else { in_name(c) };
        let width = letters[at..].iter().take_while(|&&c| is_part(c)).count();
        if width > 0 && !is_number {
            found.push((letters[at..at + width].iter().collect(), &letters[at + width..]));
        }
        at += width.max(1);
    }
    found
}

/// Whether a prime or `(x)` begins what stands behind a name.
fn is_marked(behind: &[char]) -> bool {
    let close: Vec<char> = behind.iter().copied().filter(|c| *c != ' ').take(3).collect();
    close.first() == Some(&'\'') || close == ['(', 'x', ')']
}

pub fn read(text: &str, is_differential: bool) -> Result<Text, Broken> {
    if text.len() > 1_048_576 {
        return Err(Broken("length"));
    }
    let letters = plain(text);
    let mut whole = Text::default();
    let mut says_derivatives = false;
    for (name, behind) in names(&letters) {
        says_derivatives |= name == "derivatives";
        if is_marked(behind) {
            whole.marked.insert(name.clone());
        }
        if !RESERVED.contains(&&name[..]) {
            whole.names.insert(name);
        }
    }
    whole.is_differential = is_differential || says_derivatives || letters.contains(&'\'');
    for line in letters.split(|c| *c == '\n') {
        let begins = names(line).first().is_some_and(|(name, _)| name == "unknowns");
        let first = line.iter().position(|c| *c != ' ' && *c != ';');
        let is_first = whole.heading.is_none() && whole.statements.is_empty();
        if is_first && begins && first.is_some_and(|at| line[at] == 'u') {
            let pieces = line[first.unwrap_or(0)..].split(|c| *c == ';');
            whole.heading = Some(pieces.map(|piece| piece.iter().collect()).collect());
            continue;
        }
        for piece in line.split(|c| *c == ';').filter(|piece| piece.iter().any(|c| *c != ' ')) {
            whole.statements.push(statement(piece, whole.is_differential)?);
        }
    }
    Ok(whole)
}

fn statement(piece: &[char], is_differential: bool) -> Result<Statement, Broken> {
    let mut letters = Letters { left: piece, is_differential, depth: 0 };
    let mut n0 = None;
    let mut tried = letters.clone();
    if tried.name()?.as_deref() == Some("at") && !is_differential {
        if tried.name()?.as_deref() != Some("n") {
            return Err(Broken("at without n"));
        }
        tried.sign('=')?;
        n0 = Some(tried.integer()?);
        tried.sign(':')?;
        letters = tried;
    }
    let before: String = letters.left.iter().take_while(|c| **c != '=').filter(|c| **c != ' ').collect();
    let left = letters.sum()?;
    letters.sign('=')?;
    let right = letters.sum()?;
    match letters.letter() {
        None => Ok(Statement { n0, is_zero_left: before.chars().all(|c| c == '0'), left, right }),
        Some(_) => Err(Broken("behind the equation")),
    }
}

/// The letters of an equation that are left, and how many brackets are open.
#[derive(Clone)]
pub struct Letters<'a> {
    left: &'a [char],
    is_differential: bool,
    depth: usize,
}

impl<'a> Letters<'a> {
    pub fn new(left: &'a [char], is_differential: bool) -> Letters<'a> {
        Letters { left, is_differential, depth: 0 }
    }

    /// The next letter that is no blank.
    pub fn letter(&mut self) -> Option<char> {
        while self.left.first() == Some(&' ') {
            self.left = &self.left[1..];
        }
        self.left.first().copied()
    }

    fn has(&mut self, sign: char) -> bool {
        let found = self.letter() == Some(sign);
        if found {
            self.left = &self.left[1..];
        }
        found
    }

    pub fn sign(&mut self, sign: char) -> Result<(), Broken> {
        if self.has(sign) {
            Ok(())
        } else {
            Err(Broken("a sign is missing"))
        }
    }

    fn variable(&self) -> &'static str {
        if self.is_differential {
            "x"
        } else {
            "n"
        }
    }

    /// A name, if one stands here.
    pub fn name(&mut self) -> Result<Option<String>, Broken> {
        if !self.letter().is_some_and(|c| in_name(c) && !c.is_ascii_digit()) {
            return Ok(None);
        }
        let width = self.left.iter().take_while(|c| in_name(**c)).count();
        let (name, left) = self.left.split_at(width);
        self.left = left;
        if width > 64 {
            return Err(Broken("a long name"));
        }
        Ok(Some(name.iter().collect()))
    }

    /// The digits of a number.
    fn number(&mut self) -> Result<u64, Broken> {
        self.letter();
        let width = self.left.iter().take_while(|c| c.is_ascii_digit()).count();
        let (digits, left) = self.left.split_at(width);
        let behind: String = left.iter().take(3).collect();
        let begins = |letters: &str| behind.starts_with(|c| letters.contains(c));
        let digit = |at: usize, is: fn(&char) -> bool| left.get(at).is_some_and(is);
        let has_sign = digit(1, |c| *c == '+' || *c == '-');
        let is_exponent = begins("eE") && digit(if has_sign { 2 } else { 1 }, char::is_ascii_digit);
        let is_base = digits == ['0'] && begins("xXbBoO") && digit(1, char::is_ascii_hexdigit);
        if width == 0 || width > 12 || is_exponent || is_base || begins("_") {
            return Err(Broken("a number"));
        }
        self.left = left;
        Ok(digits.iter().fold(0, |number, c| 10 * number + u64::from(c.to_digit(10).unwrap_or(0))))
    }

    /// A number with a minus before it or not.
    pub fn integer(&mut self) -> Result<i64, Broken> {
        let is_negative = self.has('-');
        let size = self.number()? as i64;
        Ok(if is_negative { -size } else { size })
    }

    fn sum(&mut self) -> Result<Tree, Broken> {
        let mut is_minus = self.has('-');
        if !is_minus {
            self.has('+');
        }
        let mut parts = Vec::new();
        loop {
            parts.push((is_minus, self.product()?));
            is_minus = match self.letter() {
                Some('+') => false,
                Some('-') => true,
                _ => return Ok(Tree::Sum(parts)),
            };
            self.left = &self.left[1..];
        }
    }

    fn product(&mut self) -> Result<Tree, Broken> {
        let mut factors = vec![self.factor()?];
        loop {
            if !self.has('*') {
                let behind_unknown = factors.last().is_some_and(Tree::has_unknown);
                match self.letter() {
                    Some(c) if c.is_ascii_digit() => return Err(Broken("a number behind a factor")),
                    Some('(') if self.is_differential && behind_unknown => {
                        return Err(Broken("a bracket behind an unknown"))
                    }
                    Some(c) if c == '(' || in_name(c) => {}
                    _ => break,
                }
            }
            factors.push(self.factor()?);
        }
        if factors.iter().filter(|factor| factor.has_unknown()).count() > 1 {
            return Err(Broken("two unknowns in a product"));
        }
        Ok(Tree::Product(factors))
    }

    fn factor(&mut self) -> Result<Tree, Broken> {
        let base = self.base()?;
        if !self.has('^') {
            return Ok(base);
        }
        let power = self.number()?;
        if power > 64 || base.has_unknown() {
            return Err(Broken("a power"));
        }
        Ok(Tree::Power(Box::new(base), power))
    }

    fn base(&mut self) -> Result<Tree, Broken> {
        match self.letter() {
            Some('(') => self.bracket(),
            Some(c) if c.is_ascii_digit() => Ok(Tree::Number(self.number()?)),
            _ => match self.name()? {
                None => Err(Broken("no factor")),
                Some(name) if name == self.variable() => self.after_variable(),
                Some(name) if self.is_differential => Ok(self.derivative(name)),
                Some(name) => {
                    let index = self.bracket()?;
                    if index.has_unknown() {
                        return Err(Broken("an unknown in an index"));
                    }
                    Ok(Tree::Indexed(name, Box::new(index)))
                }
            },
        }
    }

    fn bracket(&mut self) -> Result<Tree, Broken> {
        self.sign('(')?;
        self.depth += 1;
        if self.depth > 64 {
            return Err(Broken("too many brackets"));
        }
        let inner = self.sum()?;
        self.depth -= 1;
        self.sign(')')?;
        Ok(inner)
    }

    /// No bracket with a number or the variable alone.
    fn after_variable(&mut self) -> Result<Tree, Broken> {
        let mut tried = self.clone();
        if tried.has('(') {
            let is_variable = tried.clone().name()?.as_deref() == Some(self.variable());
            let is_number = tried.letter().is_some_and(|c| c.is_ascii_digit());
            let is_alone = if is_variable {
                tried.name()?;
                tried.has(')')
            } else {
                is_number && tried.number().is_ok() && tried.has(')')
            };
            if is_alone {
                return Err(Broken("a value of the variable"));
            }
        }
        Ok(Tree::Variable)
    }

    /// The primes behind a name, and `(x)` where no blank stands before it.
    fn derivative(&mut self, name: String) -> Tree {
        let mut primes = 0;
        let mut tried = self.clone();
        while tried.has('\'') {
            primes += 1;
            *self = tried.clone();
        }
        let mut tried = self.clone();
        if self.left.first() == Some(&'(') && tried.has('(') {
            let is_x = tried.name().is_ok_and(|name| name.as_deref() == Some("x"));
            if is_x && tried.has(')') {
                *self = tried;
            }
        }
        Tree::Derivative(name, primes)
    }
}
