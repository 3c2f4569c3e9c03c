//! Expressions as a person writes them: sums and products of numbers, the variable and unknowns, each product with one
//! unknown at most.

use crate::names::Names;
use crate::tokens::{unread, Place, Unread, Word};
use std::collections::BTreeMap;

/// Brackets inside brackets go so deep and no deeper.
const DEPTH: usize = 64;
/// Past this power nothing is worked out: 15 is the most that a system can have.
const POWER: usize = 64;
/// Blocks are within ± this (SCOPE 1.2).
pub const BLOCK: i64 = 64;
/// No coefficient on the way is past ± this, so that sums of products stay far from the end of i128.
const LARGEST: u128 = 1 << 100;

/// Coefficients from power 0 upward, the last of them not 0.
pub type Polynomial = Vec<i128>;

/// What an expression comes to: a polynomial, and a polynomial for each unknown at a block (or with so many
/// derivatives).
#[derive(Clone, Debug, Default)]
pub struct Linear {
    pub free: Polynomial,
    pub terms: BTreeMap<(i64, usize), (Polynomial, Place)>,
}

/// What the text speaks of.
#[derive(Clone, Copy, Debug, PartialEq, Eq)]
pub enum Kind {
    /// Unknowns with an index in n; in a relation at some n also with a number.
    Recurrence { at: Option<i64> },
    /// Unknowns with primes, the variable x.
    Differential,
}

/// The words still to be read, and the unknowns met so far.
pub struct Reader {
    pub words: Vec<(Word, Place)>,
    pub at: usize,
    pub kind: Kind,
    pub names: Names,
    depth: usize,
}

fn trim(polynomial: &mut Polynomial) {
    while polynomial.last() == Some(&0) {
        polynomial.pop();
    }
}

/// A polynomial without zeros at its end, unless a coefficient is too large.
fn bounded(mut polynomial: Polynomial) -> Option<Polynomial> {
    trim(&mut polynomial);
    polynomial.iter().all(|a| a.unsigned_abs() <= LARGEST).then_some(polynomial)
}

/// Sum of two polynomials, the second one times a sign.
fn plus(a: &[i128], b: &[i128], sign: i128) -> Option<Polynomial> {
    let at = |p: &[i128], power: usize| p.get(power).copied().unwrap_or(0);
    let sum = (0..a.len().max(b.len())).map(|power| at(a, power).checked_add(sign.checked_mul(at(b, power))?));
    bounded(sum.collect::<Option<_>>()?)
}

fn times(a: &[i128], b: &[i128]) -> Option<Polynomial> {
    if a.is_empty() || b.is_empty() {
        return Some(Vec::new());
    }
    if a.len() + b.len() > POWER + 2 {
        return None;
    }
    let mut product = vec![0i128; a.len() + b.len() - 1];
    for (i, x) in a.iter().enumerate() {
        for (j, y) in b.iter().enumerate() {
            product[i + j] = product[i + j].checked_add(x.checked_mul(*y)?)?;
        }
    }
    bounded(product)
}

impl Linear {
    fn polynomial(free: Polynomial) -> Linear {
        Linear { free, ..Linear::default() }
    }

    /// The sum with another one times a sign, or nothing where a number is too large.
    pub fn plus(mut self, other: Linear, sign: i128) -> Option<Linear> {
        self.free = plus(&self.free, &other.free, sign)?;
        for (key, (p, place)) in other.terms {
            let (sum, _) = self.terms.entry(key).or_insert_with(|| (Vec::new(), place));
            *sum = plus(sum, &p, sign)?;
        }
        Some(self)
    }

    fn times(mut self, factor: &[i128]) -> Option<Linear> {
        self.free = times(&self.free, factor)?;
        for (p, _) in self.terms.values_mut() {
            *p = times(p, factor)?;
        }
        Some(self)
    }
}

/// Refuses what is too large to be worked out.
pub fn fitting(worked_out: Option<Linear>, place: Place) -> Result<Linear, Unread> {
    let reason = "too large: on the way no coefficient is past ±2^100, and no power past 64";
    worked_out.map_or_else(|| unread(place, reason), Ok)
}

impl Reader {
    pub fn new(words: Vec<(Word, Place)>, kind: Kind) -> Reader {
        let names = Names::new(&words, kind == Kind::Differential);
        Reader { words, at: 0, kind, names, depth: 0 }
    }

    pub fn word(&self) -> &Word {
        &self.words[self.at].0
    }

    /// The word so many behind the next one.
    pub fn ahead(&self, by: usize) -> &Word {
        &self.words[(self.at + by).min(self.words.len() - 1)].0
    }

    pub fn place(&self) -> Place {
        self.words[self.at].1
    }

    pub fn pass(&mut self) {
        self.at = (self.at + 1).min(self.words.len() - 1);
    }

    pub fn has(&mut self, sign: char) -> bool {
        let found = *self.word() == Word::Sign(sign);
        if found {
            self.pass();
        }
        found
    }

    /// The sign that has to stand here.
    pub fn want(&mut self, sign: char) -> Result<(), Unread> {
        if self.has(sign) {
            return Ok(());
        }
        unread(self.place(), format!("`{sign}` is missing, here stands {}{}", self.word(), self.misplaced()))
    }

    /// What to write for a sign that often stands where it cannot.
    pub fn misplaced(&self) -> &'static str {
        match self.word() {
            Word::Sign('\'') => "; a prime stands directly behind an unknown: y', y'(x)",
            Word::Sign('*') => "; a power is written with ^",
            Word::Sign('^') => "; a power of a power needs brackets",
            Word::Sign(',') => {
                "; `;` or the end of a line stands between equations, and nothing between the digits of a number"
            }
            _ => "",
        }
    }

    /// A whole number with its sign.
    pub fn integer(&mut self) -> Result<i128, Unread> {
        let sign = if self.has('-') { -1 } else { 1 };
        let Word::Number(number) = *self.word() else {
            return unread(self.place(), format!("a number is missing, here stands {}", self.word()));
        };
        self.pass();
        Ok(sign * number)
    }

    /// A sum of products.
    pub fn sum(&mut self) -> Result<Linear, Unread> {
        let mut sum = Linear::default();
        let mut sign = if self.has('-') {
            -1
        } else {
            self.has('+');
            1
        };
        loop {
            let place = self.place();
            let product = self.product()?;
            sum = fitting(sum.plus(product, sign), place)?;
            sign = match self.word() {
                Word::Sign('+') => 1,
                Word::Sign('-') => -1,
                _ => return Ok(sum),
            };
            self.pass();
        }
    }

    /// Factors with `*` or nothing between them, one of them with an unknown at most.
    fn product(&mut self) -> Result<Linear, Unread> {
        let mut product = self.factor()?;
        let mut has_unknown = !product.terms.is_empty();
        loop {
            let place = self.place();
            if !self.has('*') && !self.goes_on(has_unknown)? {
                return Ok(product);
            }
            let factor = self.factor()?;
            has_unknown = !factor.terms.is_empty();
            let both = match (product.terms.is_empty(), has_unknown) {
                (true, _) => factor.times(&product.free),
                (_, false) => product.times(&factor.free),
                _ => return unread(place, self.not_linear()),
            };
            product = fitting(both, place)?;
        }
    }

    fn not_linear(&self) -> String {
        let hint = match self.kind {
            Kind::Differential => "; the variable is x, and every other name is an unknown",
            Kind::Recurrence { .. } => "",
        };
        format!("a product of two unknowns: equations have to be linear{hint}")
    }

    /// Whether a factor follows without a `*`. What could also be something else than a product is refused.
    fn goes_on(&self, is_behind_unknown: bool) -> Result<bool, Unread> {
        match self.word() {
            Word::Number(number) => {
                let reason = format!("`{number}` behind a factor: write `*` for a product, `^` for a power");
                unread(self.place(), format!("{reason}, nothing between the digits of a number"))
            }
            Word::Sign('(') if is_behind_unknown && self.kind == Kind::Differential => {
                unread(self.place(), self.value_or_product())
            }
            Word::Name(_) | Word::Sign('(') => Ok(true),
            _ => Ok(false),
        }
    }

    /// Why a bracket behind an unknown of a differential text is not read.
    fn value_or_product(&self) -> String {
        let primes = self.words[..self.at].iter().rev().take_while(|(word, _)| *word == Word::Sign('\'')).count();
        let name = self.words[..self.at - primes].last().map(|(word, _)| word);
        let both = match (name, self.ahead(1), self.ahead(2)) {
            (Some(Word::Name(name)), Word::Number(0), Word::Sign(')')) => {
                let over = ["", "", "/2", "/6"].get(primes).copied().unwrap_or("/k! for k primes");
                format!(
                    "a value at 0, or a product: equations hold at every x; `wurgalm series` takes the value as \
                     --start '{name}({primes})=VALUE{over}'"
                )
            }
            (_, Word::Number(_), Word::Sign(')')) => {
                "a value at one x, or a product: equations hold at every x; `wurgalm series --start` takes values at 0"
                    .into()
            }
            _ => "the unknown at what the bracket says, or a product: the unknown is written as y or y(x)".into(),
        };
        both + ", a product with `*`"
    }

    /// A number, the variable, an unknown or a bracket, and a power of it.
    fn factor(&mut self) -> Result<Linear, Unread> {
        let place = self.place();
        let base = self.base()?;
        if !self.has('^') {
            return Ok(base);
        }
        let power = self.power()?;
        if !base.terms.is_empty() {
            return unread(place, "a power of an unknown: equations have to be linear");
        }
        let mut product = Some(vec![1]);
        for _ in 0..power {
            product = product.and_then(|product| times(&product, &base.free));
        }
        fitting(product.map(Linear::polynomial), place)
    }

    /// The number behind `^`.
    fn power(&mut self) -> Result<usize, Unread> {
        let exponential = match self.word() {
            Word::Number(number) if *number <= POWER as i128 => {
                let power = *number as usize;
                self.pass();
                return Ok(power);
            }
            Word::Name(_) | Word::Sign('(') => "; an exponential is an unknown with an equation of its own",
            _ => "",
        };
        let reason = format!("a power is a number from 0 to {POWER}, here stands {}", self.word());
        unread(self.place(), reason + exponential)
    }

    fn base(&mut self) -> Result<Linear, Unread> {
        let (word, place) = (self.word().clone(), self.place());
        match word {
            Word::Number(number) => {
                self.pass();
                let mut free = vec![number];
                trim(&mut free);
                Ok(Linear::polynomial(free))
            }
            Word::Sign('(') => {
                self.pass();
                self.bracket(place)
            }
            Word::Name(name) if name == self.names.variable() => {
                self.pass();
                self.variable()
            }
            Word::Name(name) => {
                self.pass();
                self.unknown(&name, place)
            }
            word => {
                let reason = format!("an unknown, a number or a bracket is missing, here stands {word}");
                unread(place, reason + self.misplaced())
            }
        }
    }

    /// The variable, behind its name. It has no prime and no value.
    fn variable(&mut self) -> Result<Linear, Unread> {
        let variable = self.names.variable();
        if *self.word() == Word::Sign('\'') {
            let reason = format!("{variable} is the variable of differential equations and has no prime");
            return unread(self.place(), reason + ": give the unknown another name");
        }
        let inner = matches!(self.ahead(1), Word::Number(_)) || *self.ahead(1) == Word::Name(variable.into());
        if *self.word() == Word::Sign('(') && inner && *self.ahead(2) == Word::Sign(')') {
            let reason = format!("a product, or a value: {variable} is the variable; write `*` for a product");
            return unread(self.place(), reason);
        }
        Ok(Linear::polynomial(vec![0, 1]))
    }

    /// The rest of a bracket that has been opened.
    fn bracket(&mut self, place: Place) -> Result<Linear, Unread> {
        self.depth += 1;
        if self.depth > DEPTH {
            return unread(place, format!("too many brackets inside each other: {DEPTH} are the most"));
        }
        let inner = self.sum()?;
        self.depth -= 1;
        self.want(')')?;
        Ok(inner)
    }

    fn unknown(&mut self, name: &str, place: Place) -> Result<Linear, Unread> {
        if self.kind == Kind::Differential && name == "n" {
            return unread(place, self.mixed());
        }
        let column = self.names.column(name, place)?;
        let key = match self.kind {
            Kind::Recurrence { at } => self.index(name, place, at)?,
            Kind::Differential => self.derivatives(),
        };
        let mut unknown = Linear::default();
        unknown.terms.insert((key, column), (vec![1], place));
        Ok(unknown)
    }

    /// Why n is not read in a differential text.
    fn mixed(&self) -> String {
        let reason = "n is the variable of recurrences, and here x is";
        match self.words.iter().find(|(word, _)| *word == Word::Sign('\'')) {
            Some((_, Place { line, column })) => {
                format!("{reason}, because of the prime in line {line}, column {column}: a text is of one kind")
            }
            None => format!("{reason}: a recurrence is typed without --differential"),
        }
    }

    /// The primes behind an unknown, and `(x)` directly behind them, which says nothing more.
    fn derivatives(&mut self) -> i64 {
        let mut primes = 0;
        while self.has('\'') {
            primes += 1;
        }
        let is_at_x = *self.word() == Word::Sign('(')
            && *self.ahead(1) == Word::Name("x".into())
            && *self.ahead(2) == Word::Sign(')');
        if is_at_x && self.is_close() {
            for _ in 0..3 {
                self.pass();
            }
        }
        primes
    }

    /// Whether the next word stands directly behind the one before, a name or a sign.
    fn is_close(&self) -> bool {
        let Some((word, place)) = self.at.checked_sub(1).map(|at| &self.words[at]) else { return false };
        let width = match word {
            Word::Name(name) => name.len(),
            _ => 1,
        };
        self.place() == Place { line: place.line, column: place.column + width }
    }

    fn without_index(&self, name: &str) -> String {
        let written = name.strip_suffix("_n").filter(|letters| !letters.is_empty()).unwrap_or(name);
        let has_n = self.words.iter().any(|(word, _)| *word == Word::Name("n".into())) || written != name;
        let hint = if has_n { "" } else { "; a differential equation has primes, or is typed with --differential" };
        format!("`{name}` has no index: write {written}(n), {written}(n+1) and so on{hint}")
    }

    /// The index of an unknown, as its block.
    fn index(&mut self, name: &str, named: Place, at: Option<i64>) -> Result<i64, Unread> {
        let place = self.place();
        if !self.has('(') {
            return unread(named, self.without_index(name));
        }
        let wanted = if at.is_some() { "n, n and a number, or a number" } else { "n, or n and a number" };
        let mut inner = self.words[self.at..].iter().take_while(|(word, _)| !matches!(word, Word::Sign(')' | '=')));
        if let Some((other, place)) = inner.find(|(word, _)| matches!(word, Word::Name(name) if name != "n")) {
            let hint = "; a differential equation has primes, or is typed with --differential";
            return unread(*place, format!("{other} in an index: an index is {wanted}{hint}"));
        }
        let index = self.bracket(place)?;
        let block = match (&index.free[..], at.map(i128::from)) {
            _ if !index.terms.is_empty() => None,
            ([block, 1], _) => Some(*block),
            ([], Some(n0)) => Some(-n0),
            ([index], Some(n0)) => Some(index - n0),
            _ => None,
        };
        let Some(block) = block else {
            let value = index.free.first().unwrap_or(&0);
            let relation = format!("; a value at one index is a relation: at n = {value}: {name}({value}) = ..");
            let hint = if at.is_none() && index.free.len() < 2 { &relation[..] } else { "" };
            return unread(place, format!("an index is {wanted}{hint}"));
        };
        match i64::try_from(block) {
            Ok(block) if (-BLOCK..=BLOCK).contains(&block) => Ok(block),
            _ => unread(named, format!("n{block:+}: an index is at most {BLOCK} away from n")),
        }
    }
}
