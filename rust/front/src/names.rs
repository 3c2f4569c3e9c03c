//! The unknowns of a typed text: how a name becomes one, and which of them a misprint could have made.

use crate::tokens::{unread, Place, Unread, Word, RESERVED};
use std::collections::BTreeSet;

/// The most unknowns (SCOPE 1.1).
const MOST: usize = 4;
/// Names that are read as functions unless the first line has them as unknowns, in lower case.
const FUNCTIONS: &str =
    "sin cos tan cot sinh cosh tanh asin acos atan arcsin arccos arctan exp log ln sqrt abs diff derivative";
/// Names that are read as numbers where a differential text has them without a prime.
const NUMBERS: [&str; 2] = ["e", "pi"];

/// An unknown and how it is met.
struct Unknown {
    name: String,
    place: Place,
    /// How often equations have it.
    count: usize,
}

/// The unknowns in the order of their columns.
pub struct Names {
    variable: &'static str,
    is_differential: bool,
    /// The names of the text.
    words: BTreeSet<String>,
    /// Those with a prime or `(x)` behind them somewhere, so that they are no numbers.
    marked: BTreeSet<String>,
    unknowns: Vec<Unknown>,
    /// Whether the first line has named all of them.
    is_closed: bool,
}

impl Names {
    pub fn new(words: &[(Word, Place)], is_differential: bool) -> Names {
        let variable = if is_differential { "x" } else { "n" };
        let mut names = BTreeSet::from([variable.to_string()]);
        let mut marked = BTreeSet::new();
        for (at, (word, _)) in words.iter().enumerate() {
            let Word::Name(name) = word else { continue };
            if !RESERVED.contains(&&name[..]) {
                names.insert(name.clone());
            }
            let behind = |by: usize| words.get(at + by).map(|(word, _)| word);
            let is_at_x = behind(1) == Some(&Word::Sign('('))
                && behind(2) == Some(&Word::Name("x".into()))
                && behind(3) == Some(&Word::Sign(')'));
            if behind(1) == Some(&Word::Sign('\'')) || is_at_x {
                marked.insert(name.clone());
            }
        }
        Names { variable, is_differential, words: names, marked, unknowns: Vec::new(), is_closed: false }
    }

    pub fn variable(&self) -> &'static str {
        self.variable
    }

    pub fn list(&self) -> Vec<String> {
        self.unknowns.iter().map(|unknown| unknown.name.clone()).collect()
    }

    /// The number of times that equations have an unknown.
    pub fn count(&self) -> usize {
        self.unknowns.iter().map(|unknown| unknown.count).sum()
    }

    /// No other unknown than those of the first line.
    pub fn close(&mut self) {
        self.is_closed = true;
    }

    /// The column of a name of the first line's order.
    pub fn known(&self, name: &str, place: Place) -> Result<usize, Unread> {
        match self.unknowns.iter().position(|unknown| unknown.name == name) {
            Some(at) => Ok(at + 1),
            None => unread(place, format!("`{name}` is none of the unknowns of the first line")),
        }
    }

    /// An unknown that the first line has.
    pub fn declare(&mut self, name: &str, place: Place) -> Result<(), Unread> {
        if self.unknowns.iter().any(|unknown| unknown.name == name) {
            return unread(place, format!("`{name}` stands here twice"));
        }
        self.add(name, place)
    }

    /// The column of an unknown that an equation has, which is new or known.
    pub fn column(&mut self, name: &str, place: Place) -> Result<usize, Unread> {
        let found = self.unknowns.iter().position(|unknown| unknown.name == name);
        let at = match found {
            Some(at) => at,
            None => {
                self.new_one(name, place)?;
                self.unknowns.len() - 1
            }
        };
        self.unknowns[at].count += 1;
        Ok(at + 1)
    }

    fn add(&mut self, name: &str, place: Place) -> Result<(), Unread> {
        if RESERVED.contains(&name) || name == self.variable {
            return unread(place, format!("`{name}` has a meaning of its own and cannot be an unknown"));
        }
        if self.unknowns.len() == MOST {
            return unread(place, format!("`{name}` would be a fifth unknown, and four are the most"));
        }
        self.unknowns.push(Unknown { name: name.into(), place, count: 0 });
        Ok(())
    }

    /// An unknown that an equation is the first to have. Its name must not have another reading.
    fn new_one(&mut self, name: &str, place: Place) -> Result<(), Unread> {
        if RESERVED.contains(&name) {
            return self.add(name, place);
        }
        if self.is_closed {
            return unread(place, format!("`{name}` is none of the unknowns of the first line"));
        }
        match self.other_reading(name) {
            Some(other) => {
                unread(place, format!("{other}; if `{name}` is an unknown, a first line `unknowns {name}, ..` says so"))
            }
            None => self.add(name, place),
        }
    }

    /// What a name could be if it is no unknown, and what to write then.
    fn other_reading(&self, name: &str) -> Option<String> {
        let lower = name.to_ascii_lowercase();
        if lower == "diff" || lower == "derivative" {
            return Some("derivatives are written with primes: y', y''".into());
        }
        let mut instead = "";
        if self.is_differential {
            instead =
                "; an unknown with an equation of its own can stand for it: u' = u for exp(x), s'' = -s for sin(x)";
        }
        if FUNCTIONS.split(' ').any(|function| function == lower) {
            let x = self.variable;
            return Some(format!("`{name}` is a function, and coefficients are polynomials in {x}{instead}"));
        }
        if self.is_differential && NUMBERS.contains(&name) && !self.marked.contains(name) {
            return Some(format!("`{name}` is a number that is no integer, and coefficients are integers{instead}"));
        }
        let product = self.product(name)?;
        Some(format!("`{name}` is the product {product}, or one unknown: write {product} for the product"))
    }

    /// Whether a name is the variable with a number behind it, and a prime shows that it is an unknown.
    fn is_numbered(&self, name: &str) -> bool {
        let number = name.strip_prefix(self.variable);
        number.is_some_and(|number| number.bytes().all(|c| c.is_ascii_digit())) && self.marked.contains(name)
    }

    /// A name as a product of the variable, its powers written without `^`, and other names of the text.
    fn product(&self, name: &str) -> Option<String> {
        if self.is_numbered(name) {
            return None;
        }
        // The factors that make up the first letters of the name, for every number of letters.
        let mut factors: Vec<Option<Vec<String>>> = vec![None; name.len() + 1];
        factors[0] = Some(Vec::new());
        for at in 0..name.len() {
            let Some(before) = factors[at].clone() else { continue };
            let rest = &name[at..];
            for word in self.words.iter().filter(|word| *word != name && rest.starts_with(&word[..])) {
                factors[at + word.len()] = Some([&before[..], std::slice::from_ref(word)].concat());
            }
            let digits = rest.bytes().take_while(u8::is_ascii_digit).count();
            if digits > 0 && before.last().is_some_and(|last| last == self.variable) {
                let power = format!("{}^{}", self.variable, &rest[..digits]);
                factors[at + digits] = Some([&before[..before.len() - 1], &[power]].concat());
            }
        }
        factors[name.len()].as_ref().map(|factors| factors.join("*"))
    }

    /// What a misprint could have made of the names, where no first line says that they are meant.
    pub fn doubts(&self, equations: usize, remains: impl Fn(usize) -> bool) -> Vec<String> {
        if self.is_closed {
            return Vec::new();
        }
        let mut doubts = Vec::new();
        for (at, unknown) in self.unknowns.iter().enumerate() {
            let cancels = || (!remains(at + 1)).then(|| "cancels wherever it stands".into());
            let reason = self.by_case(at).or_else(|| self.without_prime(unknown)).or_else(|| self.inside(unknown));
            let reason = reason.or_else(|| self.alone(unknown, equations)).or_else(cancels);
            let (name, Place { line, column }) = (&unknown.name, unknown.place);
            doubts.extend(reason.map(|reason| format!("line {line}, column {column}: `{name}` {reason}")));
        }
        doubts
    }

    fn alone(&self, unknown: &Unknown, equations: usize) -> Option<String> {
        let is_open = self.unknowns.len() > equations;
        (is_open && unknown.count == 1).then(|| "stands once, and there are more unknowns than equations".into())
    }

    fn inside(&self, unknown: &Unknown) -> Option<String> {
        if self.is_numbered(&unknown.name) {
            return None;
        }
        let others = self.unknowns.iter().map(|other| &other.name[..]).filter(|other| *other != unknown.name);
        let mut inside = [self.variable].into_iter().chain(others);
        let other = inside.find(|other| unknown.name.contains(other))?;
        Some(format!("contains `{other}` and is read as one unknown"))
    }

    fn by_case(&self, at: usize) -> Option<String> {
        let name = &self.unknowns[at].name;
        let other = self.unknowns[..at].iter().find(|other| other.name.eq_ignore_ascii_case(name))?;
        Some(format!("and `{}` are two unknowns", other.name))
    }

    fn without_prime(&self, unknown: &Unknown) -> Option<String> {
        let is_new = self.is_differential && !self.marked.is_empty() && !self.marked.contains(&unknown.name);
        is_new.then(|| "has no prime anywhere and is read as an unknown, not as a number".into())
    }
}
