//! What the arguments of `wurgalm series` ask for.

use super::fractions::Fraction;
use super::model::Kind;
use crate::command::{Arguments, End};
use crate::output::shown;
use crate::run::names_for;
use std::time::Duration;

/// The most terms.
const TERMS: i64 = 400;
/// Terms where no number is given.
const FEW: i64 = 8;
/// Indices are within ± this.
const INDEX: i64 = 1_048_576;
/// The longest limit in seconds, a day.
const LONGEST: u64 = 86_400;

/// What the arguments ask for; the names in them are looked up where the system is known.
pub struct Asked {
    pub kind: Kind,
    pub from: Option<i64>,
    pub terms: i64,
    pub names: Vec<String>,
    pub starts: Vec<String>,
    pub is_free: bool,
    /// Where a picture goes, over which interval, and of which unknown.
    pub plot: Option<String>,
    pub over: (Fraction, Fraction),
    pub of: Option<String>,
    pub limit: Option<Duration>,
}

fn misused<T>(told: impl Into<String>) -> Result<T, End> {
    Err(End::Misused(told.into()))
}

fn number(text: &str, option: &str, least: i64, most: i64) -> Result<i64, End> {
    match text.parse() {
        Ok(number) if (least..=most).contains(&number) => Ok(number),
        _ => misused(format!("{option} wants a number from {least} to {most}")),
    }
}

fn integer(arguments: &mut Arguments, option: &str, least: i64, most: i64) -> Result<Option<i64>, End> {
    arguments.value(option)?.map(|text| number(&text, option, least, most)).transpose()
}

/// `10s`, `500ms` or `2m`.
fn limit(text: &str) -> Result<Duration, End> {
    let (digits, unit) = text.split_at(text.find(|c: char| !c.is_ascii_digit()).unwrap_or(text.len()));
    let by = match unit {
        "ms" => Some(1),
        "s" => Some(1_000),
        "m" => Some(60_000),
        _ => None,
    };
    let milliseconds = digits.parse().ok().zip(by).and_then(|(number, by): (u64, u64)| number.checked_mul(by));
    match milliseconds {
        Some(limit @ 1..) if limit <= LONGEST * 1_000 => Ok(Duration::from_millis(limit)),
        _ => misused("--limit wants a time up to a day, such as 10s, 500ms or 2m"),
    }
}

fn interval(text: Option<String>) -> Result<(Fraction, Fraction), End> {
    let Some(text) = text else { return Ok((Fraction::from(0), Fraction::from(1))) };
    let ends = text.split_once(':').and_then(|(from, to)| Some((Fraction::read(from)?, Fraction::read(to)?)));
    let rising = |ends: &(Fraction, Fraction)| ends.0.plus(&ends.1.clone().negated()).is_negative();
    match ends.filter(rising) {
        Some(ends) => Ok(ends),
        None => misused("--over wants an interval such as 0:3/2"),
    }
}

/// The file of a picture.
fn plot(arguments: &mut Arguments) -> Result<Option<String>, End> {
    let Some(file) = arguments.value("--plot")? else { return Ok(None) };
    if !file.to_ascii_lowercase().ends_with(".svg") {
        return misused(format!("--plot writes SVG, and `{}` does not end in .svg", shown(&file)));
    }
    Ok(Some(file))
}

impl Asked {
    pub fn new(arguments: &mut Arguments, is_differential: bool) -> Result<Asked, End> {
        let first = integer(arguments, "--first", -INDEX, INDEX)?;
        let below = integer(arguments, "--zero-below", -INDEX, INDEX)?;
        let kind = match (first, below) {
            (Some(_), Some(_)) => return misused("either --first or --zero-below"),
            (Some(k), None) => Kind::First(k),
            (None, Some(index)) => Kind::ZeroBelow(index),
            (None, None) if is_differential => Kind::ZeroBelow(0),
            (None, None) => Kind::TwoSided,
        };
        let from = integer(arguments, "--from", -INDEX, INDEX)?;
        let terms = integer(arguments, "--terms", 1, TERMS)?.unwrap_or(FEW);
        let names = names_for(arguments.value("--names")?, is_differential)?;
        let mut starts = Vec::new();
        while let Some(text) = arguments.value("--start")? {
            starts.push(text);
        }
        let is_free = arguments.flag("--free");
        let limit = arguments.value("--limit")?.map(|text| limit(&text)).transpose()?;
        let (plot, over, of) = (plot(arguments)?, interval(arguments.value("--over")?)?, arguments.value("--of")?);
        Ok(Asked { kind, from, terms, names, starts, is_free, plot, over, of, limit })
    }
}

/// The column of a name of the model, or a sentence with those there are.
pub fn column(name: &str, names: &[String]) -> Result<usize, End> {
    let known = match names {
        [one] => format!("the one name is {one}"),
        all => format!("the names are {}", all.join(", ")),
    };
    match names.iter().position(|known| known == name) {
        Some(at) => Ok(at + 1),
        None => misused(format!("there is no unknown `{}`: {known}", shown(name))),
    }
}

/// Starting values.
pub struct Start {
    /// As they were written, without the spaces.
    pub text: String,
    /// Index, column, value.
    pub values: Vec<(i64, usize, Fraction)>,
}

impl Start {
    /// `x(0)=1,y(0)=1/2` by the names of the unknowns, within the indices that are shown.
    pub fn new(text: &str, names: &[String], (first, last): (i64, i64)) -> Result<Start, End> {
        let mut start = Start { text: String::new(), values: Vec::new() };
        for part in text.split(',') {
            let Some((name, index, value)) = parts(part) else {
                return misused(format!("--start wants `x(0)=1,y(0)=1/2`, and `{}` is none of it", shown(part.trim())));
            };
            let column = column(name, names)?;
            let index = number(index, "the index of a starting value", -INDEX, INDEX)?;
            let Some(number) = Fraction::read(value) else {
                return misused(format!("--start wants a number such as 1, -1/2 or 0.25, not `{}`", shown(value)));
            };
            if !(first..=last).contains(&index) {
                return misused(format!("{name}({index}) is outside the indices {first} to {last}"));
            }
            if start.values.iter().any(|&(i, c, _)| (i, c) == (index, column)) {
                return misused(format!("--start gives {name}({index}) twice"));
            }
            start.text += if start.text.is_empty() { "" } else { "," };
            start.text += &format!("{name}({index})={value}");
            start.values.push((index, column, number));
        }
        Ok(start)
    }
}

/// Name, index and value of `x(0)=1`.
fn parts(part: &str) -> Option<(&str, &str, &str)> {
    let (place, value) = part.split_once('=')?;
    let (name, index) = place.trim().strip_suffix(')')?.split_once('(')?;
    Some((name.trim(), index.trim(), value.trim()))
}
