//! What `wurgalm series` writes, read back.

use super::conditions::{Place, Sum};
use super::whole::Whole;
use std::collections::BTreeMap;

/// The names under which the unknowns are asked for.
pub const NAMES: [&str; 4] = ["a", "b", "c", "d"];

/// A fraction as it is written: the numerator and the positive denominator.
#[derive(Clone, Debug, PartialEq, Eq)]
pub struct Fraction {
    pub numerator: Whole,
    pub denominator: Whole,
}

impl Fraction {
    pub fn read(text: &str) -> Option<Fraction> {
        let (numerator, denominator) = text.split_once('/').unwrap_or((text, "1"));
        let (numerator, denominator) = (Whole::read(numerator)?, Whole::read(denominator)?);
        (!denominator.is_zero()).then_some(Fraction { numerator, denominator })
    }

    fn negated(self) -> Fraction {
        Fraction { numerator: self.numerator.negated(), denominator: self.denominator }
    }
}

/// What `--free` says of a value.
#[derive(Clone, Debug, PartialEq, Eq)]
pub enum Verdict {
    Free,
    /// A number, and other values with their factors; none where it is forced.
    Given(Fraction, Vec<(Place, Fraction)>),
}

impl Verdict {
    pub fn is_forced(&self) -> bool {
        matches!(self, Verdict::Given(_, others) if others.is_empty())
    }

    /// The equation that it says of its place, in whole numbers; none where the value is free.
    pub fn sum(&self, place: Place) -> Option<Sum> {
        let Verdict::Given(number, others) = self else { return None };
        // All is multiplied by the product of the denominators.
        let all = || others.iter().map(|(_, factor)| factor).chain([number]);
        let product = all().fold(Whole::from(1), |product, each| product.times(&each.denominator));
        let times = |each: &Fraction| each.numerator.times(&product.over(&each.denominator));
        let other = |(place, factor): &(Place, Fraction)| (*place, times(factor).negated());
        let factors = others.iter().map(other).chain([(place, product.clone())]).collect();
        Some(Sum { factors, right: times(number) })
    }
}

/// `b(-3)`
pub fn place(text: &str) -> Option<Place> {
    let (name, index) = text.strip_suffix(')')?.split_once('(')?;
    Some((index.parse().ok()?, NAMES.iter().position(|known| *known == name)? + 1))
}

pub fn named((index, column): Place) -> String {
    format!("{}({index})", NAMES[column - 1])
}

/// `6 - 4 a(0) + 1/2 b(1)`
fn given(text: &str) -> Option<Verdict> {
    let (mut number, mut others) = (Fraction::read("0")?, Vec::new());
    let marked = text.replace(" + ", "\n").replace(" - ", "\n-");
    for part in marked.split('\n') {
        let (is_negative, part) = part.strip_prefix('-').map_or((false, part), |part| (true, part));
        let (factor, value) = match part.split_once(' ') {
            Some((factor, value)) => (Fraction::read(factor)?, Some(place(value)?)),
            None if part.ends_with(')') => (Fraction::read("1")?, Some(place(part)?)),
            None => (Fraction::read(part)?, None),
        };
        let factor = if is_negative { factor.negated() } else { factor };
        match value {
            Some(value) => others.push((value, factor)),
            None => number = factor,
        }
    }
    Some(Verdict::Given(number, others))
}

fn verdict(line: &str) -> Option<(Place, Verdict)> {
    let (value, told) = line.split_once(' ')?;
    let verdict = if told == "is free" {
        Verdict::Free
    } else if let Some(number) = told.strip_prefix("is ") {
        given(number.strip_suffix(", forced")?).filter(Verdict::is_forced)?
    } else {
        given(told.strip_prefix("follows: ")?).filter(|verdict| !verdict.is_forced())?
    };
    Some((place(value)?, verdict))
}

/// The answer of `--free`: the lines before the empty one, and the verdicts behind it.
pub struct Free {
    pub heading: Vec<String>,
    pub verdicts: BTreeMap<Place, Verdict>,
}

impl Free {
    pub fn read(text: &str) -> Option<Free> {
        let (heading, verdicts) = text.split_once("\n\n")?;
        let verdicts = verdicts.lines().map(verdict).collect::<Option<_>>()?;
        Some(Free { heading: heading.lines().map(str::to_string).collect(), verdicts })
    }

    /// The places that are called free.
    pub fn free(&self) -> Vec<Place> {
        self.verdicts.iter().filter(|(_, verdict)| **verdict == Verdict::Free).map(|(&place, _)| place).collect()
    }

    /// How many constants there are, those on which no value shown depends among them; none where those of the indices shown are
    /// counted alone.
    pub fn constants(&self) -> Option<usize> {
        let more = self.heading.iter().find_map(|line| line.strip_suffix(" more, on which no value shown depends"));
        let more = more.map_or(Some(0), |told| told.split(' ').next()?.parse().ok())?;
        let is_shown_alone = self.heading.iter().any(|line| line == "the count is that of the indices shown");
        (!is_shown_alone).then(|| more + self.free().len())
    }

    /// The places that the first line lists.
    pub fn listed(&self) -> Option<Vec<Place>> {
        let (count, listed) = self.heading.first()?.split_once(" free")?;
        let places: Vec<Place> =
            listed.strip_prefix(": ").map_or(Some(Vec::new()), |list| list.split(", ").map(place).collect())?;
        let plural = if places.len() == 1 { "" } else { "s" };
        (count == format!("{} constant{plural}", places.len())).then_some(places)
    }
}

/// The number of an equation of which it is told that all its values are 0.
pub fn unloaded(message: &str) -> Option<usize> {
    let (number, told) = message.split_once("equation ")?.1.split_once(' ')?;
    told.ends_with(", where all its values are 0").then(|| number.parse().ok())?
}

/// The terms of an answer with one `--start` or none, all of them numbers: the table behind the empty line.
pub fn terms(text: &str, m: usize) -> Option<BTreeMap<Place, Fraction>> {
    let (_, table) = text.split_once("\n\n")?;
    let mut lines = table.lines().skip_while(|line| line.starts_with("with "));
    let heading: Vec<&str> = lines.next()?.split_whitespace().collect();
    if heading[0] != "n" || heading[1..] != NAMES[..m] {
        return None;
    }
    let mut values = BTreeMap::new();
    for line in lines {
        let mut words = line.split_whitespace();
        let index: i64 = words.next()?.parse().ok()?;
        let numbers: Vec<Fraction> = words.map(Fraction::read).collect::<Option<_>>()?;
        if numbers.len() != m {
            return None;
        }
        values.extend(numbers.into_iter().enumerate().map(|(at, number)| ((index, at + 1), number)));
    }
    Some(values)
}

/// What is told where there is no sequence: the n at which something cannot hold.
pub fn failing(message: &str) -> Option<i64> {
    let (_, behind) = message.split_once("cannot hold at n = ")?;
    let end = behind.find(|byte: char| byte != '-' && !byte.is_ascii_digit()).unwrap_or(behind.len());
    behind[..end].parse().ok()
}

/// What is told of a starting value that cannot be: its place, and what it is, as it is written.
pub fn settled(message: &str) -> Option<(Place, String)> {
    let (_, behind) = message.split_once(" cannot be: ")?;
    let (value, number) = behind.strip_suffix(" by what stands before it")?.split_once(" is ")?;
    Some((place(value)?, number.to_string()))
}
