//! Equations as a person writes them, made a sheet or a differential sheet.

use crate::differentials;
use crate::expressions::{fitting, Kind, Linear, Polynomial, Reader, BLOCK};
use crate::tokens::{unread, words, Place, Unread, Word};
use wurgalm::System;

/// A text of more bytes is not looked at: what `wurgalm show` writes of the longest sheet is shorter.
const LONGEST: usize = 1 << 20;
/// No coefficient and no n0 of a sheet is past ± this (SCOPE 1.4, 1.22).
const C: i128 = 268_435_455;
/// The highest power of n (SCOPE 1.4).
const DEGREE: usize = 15;
/// Highest minus lowest block is at most this (SCOPE 1.2).
const SPAN: i64 = 4;
/// The most equations (SCOPE 1.1) and the most relations (SCOPE 1.23).
const MOST: [usize; 2] = [6, 16];

/// What the first line says.
#[derive(Default)]
pub(crate) struct Heading {
    pub place: Place,
    pub l: Option<i64>,
    pub t: Option<i64>,
    pub order: Option<Vec<i64>>,
    pub derivatives: Option<i64>,
    pub powers: Option<i64>,
}

/// An equation with everything on its left: terms, and what its right side comes to.
pub(crate) struct Statement {
    pub n0: Option<i64>,
    pub linear: Linear,
    pub place: Place,
}

/// What a text stands for.
pub struct Typed {
    /// The bytes of a sheet or of a differential sheet.
    pub sheet: Vec<u8>,
    pub is_differential: bool,
    /// The unknowns in the order of their columns.
    pub names: Vec<String>,
    /// Which unknowns a misprint could have made, and where they are met first.
    pub doubts: Vec<String>,
}

/// The bytes of the sheet that a text stands for.
pub fn sheet_of(text: &str, is_differential: bool) -> Result<Vec<u8>, Unread> {
    read(text, is_differential).map(|typed| typed.sheet)
}

/// Reads a text. It is taken for a differential one where it has primes or its first line says so, or where that is
/// asked for.
pub fn read(text: &str, is_differential: bool) -> Result<Typed, Unread> {
    if text.len() > LONGEST {
        return unread(Place { line: 1, column: 1 }, format!("a text has at most {LONGEST} bytes"));
    }
    let words = words(text)?;
    let tells = |word: &Word| *word == Word::Sign('\'') || *word == Word::Name("derivatives".into());
    let is_differential = is_differential || words.iter().any(|(word, _)| tells(word));
    let kind = if is_differential { Kind::Differential } else { Kind::Recurrence { at: None } };
    let mut reader = Reader::new(words, kind);
    let (heading, statements) = reader.all()?;
    let names = reader.names.list();
    let make = if is_differential { differentials::sheet_of } else { recurrence };
    let sheet = make(&names, &heading, &statements, reader.place())?;
    let equations = statements.iter().filter(|statement| statement.n0.is_none()).count();
    let remains = |column: usize| occurring(&statements).any(|((_, c), _)| *c == column);
    let doubts = reader.names.doubts(equations, remains);
    Ok(Typed { sheet, is_differential, names, doubts })
}

/// The terms of all statements that have not cancelled.
pub(crate) fn occurring(statements: &[Statement]) -> impl Iterator<Item = (&(i64, usize), &(Polynomial, Place))> {
    statements.iter().flat_map(|s| &s.linear.terms).filter(|(_, (p, _))| !p.is_empty())
}

impl Reader {
    /// The first line, if there is one, and all equations and relations.
    fn all(&mut self) -> Result<(Heading, Vec<Statement>), Unread> {
        let mut heading = Heading { place: Place { line: 1, column: 1 }, ..Heading::default() };
        let mut statements = Vec::new();
        self.blank();
        if *self.word() == Word::Name("unknowns".into()) {
            heading.place = self.place();
            self.pass();
            self.first_line(&mut heading)?;
        }
        self.blank();
        while *self.word() != Word::End {
            statements.push(self.statement()?);
            if !matches!(self.word(), Word::LineEnd | Word::Sign(';') | Word::End) {
                let reason = format!("the equation could end here; {} does not fit", self.word());
                return unread(self.place(), reason + self.misplaced());
            }
            self.blank();
        }
        Ok((heading, statements))
    }

    fn blank(&mut self) {
        while matches!(self.word(), Word::LineEnd | Word::Sign(';')) {
            self.pass();
        }
    }

    /// Names with commas between them.
    fn list(&mut self, mut each: impl FnMut(&mut Reader, &str, Place) -> Result<(), Unread>) -> Result<(), Unread> {
        loop {
            let place = self.place();
            let Word::Name(name) = self.word().clone() else {
                return unread(place, format!("the name of an unknown is missing, here stands {}", self.word()));
            };
            self.pass();
            each(self, &name, place)?;
            if !self.has(',') {
                return Ok(());
            }
        }
    }

    /// `unknowns x, y; l = 1; t = 0; order x, y` or `unknowns y; derivatives 2; powers 2`, behind its first word.
    fn first_line(&mut self, heading: &mut Heading) -> Result<(), Unread> {
        self.list(|reader, name, place| reader.names.declare(name, place))?;
        self.names.close();
        while self.has(';') {
            self.part(heading)?;
        }
        match self.word() {
            Word::LineEnd | Word::End => Ok(()),
            word => unread(self.place(), format!("the first line could end here; {word} does not fit")),
        }
    }

    /// One part of the first line, each at most once and each of the kind of the text.
    fn part(&mut self, heading: &mut Heading) -> Result<(), Unread> {
        let place = self.place();
        let (parts, listed): (&[&str], _) = match self.kind {
            Kind::Differential => (&["derivatives", "powers"], "derivatives or powers"),
            Kind::Recurrence { .. } => (&["l", "t", "order"], "l, t or order"),
        };
        let Word::Name(name) = self.word().clone() else {
            return unread(place, format!("{listed} is missing, here stands {}", self.word()));
        };
        if !parts.contains(&&name[..]) {
            let hint = "the first equation begins on a line of its own";
            return unread(place, format!("`{name}` is not {listed}, which may stand in the first line; {hint}"));
        }
        self.pass();
        let is_new = match name.as_str() {
            "l" => heading.l.replace(self.block()?).is_none(),
            "t" => heading.t.replace(self.block()?).is_none(),
            "derivatives" => heading.derivatives.replace(self.up_to_highest()?).is_none(),
            "powers" => heading.powers.replace(self.up_to_highest()?).is_none(),
            _ => heading.order.replace(self.order()?).is_none(),
        };
        if is_new {
            Ok(())
        } else {
            unread(place, format!("`{name}` stands in the first line twice"))
        }
    }

    fn block(&mut self) -> Result<i64, Unread> {
        self.want('=')?;
        self.within(-BLOCK, BLOCK, "a block is within ±64")
    }

    fn up_to_highest(&mut self) -> Result<i64, Unread> {
        self.within(0, differentials::HIGHEST, "derivatives and powers are from 0 to 2")
    }

    /// `none`, or the columns of the order.
    fn order(&mut self) -> Result<Vec<i64>, Unread> {
        let mut order = Vec::new();
        if *self.word() == Word::Name("none".into()) {
            self.pass();
            return Ok(order);
        }
        self.list(|reader, name, place| {
            let column = reader.names.known(name, place)? as i64;
            if order.contains(&column) {
                return unread(place, format!("`{name}` stands in the order twice"));
            }
            order.push(column);
            Ok(())
        })?;
        Ok(order)
    }

    /// A number from one to another.
    fn within(&mut self, least: i64, most: i64, wanted: &str) -> Result<i64, Unread> {
        let place = self.place();
        match i64::try_from(self.integer()?) {
            Ok(number) if (least..=most).contains(&number) => Ok(number),
            _ => unread(place, wanted),
        }
    }

    /// An equation, with `at n = NUMBER:` before it if it is a relation.
    fn statement(&mut self) -> Result<Statement, Unread> {
        let place = self.place();
        let n0 = self.relation_index()?;
        if let Kind::Recurrence { at } = &mut self.kind {
            *at = n0;
        }
        let begins_with_0 = *self.word() == Word::Number(0) && *self.ahead(1) == Word::Sign('=');
        let unknowns = self.names.count();
        let left = self.sum()?;
        let equals = self.place();
        self.want('=')?;
        let right = self.sum()?;
        let linear = fitting(left.plus(right, -1), equals)?;
        if self.names.count() == unknowns && !begins_with_0 {
            let reason = "an equation without an unknown: leave it out, or write it as 0 = ..";
            return unread(place, format!("{reason}; {} is the variable", self.names.variable()));
        }
        if self.names.count() > unknowns && linear.terms.values().all(|(p, _)| p.is_empty()) {
            return unread(place, "every unknown of this equation cancels: leave it out, or write it as 0 = ..");
        }
        Ok(Statement { n0, linear, place })
    }

    fn relation_index(&mut self) -> Result<Option<i64>, Unread> {
        if *self.word() != Word::Name("at".into()) {
            return Ok(None);
        }
        if self.kind == Kind::Differential {
            let hint = "starting values are given to `wurgalm series --start`";
            return unread(self.place(), format!("a differential sheet has no relations; {hint}"));
        }
        self.pass();
        if *self.word() != Word::Name("n".into()) {
            let reason = format!("`n` is missing, here stands {}: a relation begins with at n = NUMBER:", self.word());
            return unread(self.place(), reason);
        }
        self.pass();
        self.want('=')?;
        let most = C as i64;
        let n0 = self.within(-most, most, "the index of a relation is within ±268,435,455")?;
        self.want(':')?;
        Ok(Some(n0))
    }
}

/// The coefficients of a sheet for a polynomial that was typed.
fn coefficients(polynomial: &Polynomial, place: Place) -> Result<Vec<i64>, Unread> {
    if polynomial.len() > DEGREE + 1 {
        return unread(place, format!("the power {} of n is past 15", polynomial.len() - 1));
    }
    match polynomial.iter().find(|a| a.unsigned_abs() > C as u128) {
        Some(a) => unread(place, format!("the coefficient {a} is past ±268,435,455")),
        None => Ok(polynomial.iter().map(|&a| a as i64).collect()),
    }
}

/// Highest and lowest block: those of the first line, or those that occur.
fn blocks(heading: &Heading, statements: &[Statement]) -> Result<(i64, i64), Unread> {
    let l = heading.l.or_else(|| occurring(statements).map(|((s, _), _)| *s).max());
    let t = heading.t.or_else(|| occurring(statements).map(|((s, _), _)| *s).min());
    let l = l.or(t).unwrap_or(0);
    let t = t.unwrap_or(l);
    for ((s, _), (_, place)) in occurring(statements) {
        if !(t..=l).contains(s) {
            return unread(*place, format!("n{s:+} is outside the first line's l = {l} and t = {t}"));
        }
        if l - s > SPAN {
            return unread(
                *place,
                format!("the indices reach from n{l:+} to n{s:+}, and n{:+} is the lowest then", l - SPAN),
            );
        }
    }
    if !(0..=SPAN).contains(&(l - t)) {
        return unread(heading.place, format!("l = {l} and t = {t}: l is at least t and at most t + 4"));
    }
    Ok((l, t))
}

fn recurrence(names: &[String], heading: &Heading, statements: &[Statement], end: Place) -> Result<Vec<u8>, Unread> {
    if names.is_empty() {
        return unread(end, "there is no unknown: write an equation, or a first line with `unknowns x`");
    }
    let (l, t) = blocks(heading, statements)?;
    let mut builder = System::builder(names.len(), l, t).order(heading.order.as_deref().unwrap_or_default());
    let mut counts = [0, 0];
    for Statement { n0, linear, place } in statements {
        let kind = usize::from(n0.is_some());
        counts[kind] += 1;
        if counts[kind] > MOST[kind] {
            return unread(*place, format!("{} {} are the most", MOST[kind], ["equations", "relations"][kind]));
        }
        let read = |(&(s, c), (p, place)): (&(i64, usize), &(Polynomial, Place))| Ok((s, c, coefficients(p, *place)?));
        let occurring = linear.terms.iter().filter(|(_, (p, _))| !p.is_empty());
        let terms: Vec<(i64, usize, Vec<i64>)> = occurring.map(read).collect::<Result<_, _>>()?;
        let terms: Vec<wurgalm::Term> = terms.iter().map(|(s, c, p)| (*s, *c, &p[..])).collect();
        let right = coefficients(&linear.free.iter().map(|a| -a).collect(), *place)?;
        builder = match n0 {
            Some(n0) => builder.relation(*n0, &terms, &right),
            None => builder.equation(&terms, &right),
        };
    }
    let written = builder.build().and_then(|system| system.to_sheet());
    written.or_else(|refusal| unread(heading.place, refusal.to_string()))
}
