//! The words of a typed text, each with its line and column.

use std::fmt;

/// A line and a column, both from 1.
#[derive(Clone, Copy, Debug, PartialEq, Eq, Default)]
pub struct Place {
    pub line: usize,
    pub column: usize,
}

/// What cannot be read, and where.
#[derive(Clone, Debug, PartialEq, Eq)]
pub struct Unread {
    pub place: Place,
    pub reason: String,
}

impl fmt::Display for Unread {
    fn fmt(&self, f: &mut fmt::Formatter) -> fmt::Result {
        write!(f, "line {}, column {}: {}", self.place.line, self.place.column, self.reason)
    }
}

/// A fault at a place.
pub fn unread<T>(place: Place, reason: impl Into<String>) -> Result<T, Unread> {
    Err(Unread { place, reason: reason.into() })
}

#[derive(Clone, Debug, PartialEq, Eq)]
pub enum Word {
    Number(i128),
    Name(String),
    /// One of + - * ^ ( ) = ; : , '
    Sign(char),
    LineEnd,
    End,
}

impl fmt::Display for Word {
    fn fmt(&self, f: &mut fmt::Formatter) -> fmt::Result {
        match self {
            Word::Number(number) => write!(f, "`{number}`"),
            Word::Name(name) => write!(f, "`{name}`"),
            Word::Sign(sign) => write!(f, "`{sign}`"),
            Word::LineEnd => write!(f, "the end of the line"),
            Word::End => write!(f, "the end"),
        }
    }
}

/// Digits that a number may have: more are past every limit.
const DIGITS: usize = 12;
/// Letters that a name may have.
const LETTERS: usize = 64;

/// Names that have a meaning of their own; in differential equations x has one too.
pub const RESERVED: [&str; 5] = ["n", "at", "unknowns", "derivatives", "none"];

pub fn is_name(text: &str) -> bool {
    text.starts_with(begins_name) && text.chars().all(in_name) && text.len() <= LETTERS
}

fn begins_name(c: char) -> bool {
    c.is_ascii_alphabetic() || c == '_'
}

fn in_name(c: char) -> bool {
    c.is_ascii_alphanumeric() || c == '_'
}

/// The words of a text. A line ends with LF, CR LF or CR, and goes on inside brackets; what stands behind # is for the
/// reader.
pub fn words(text: &str) -> Result<Vec<(Word, Place)>, Unread> {
    let text = text.strip_prefix('\u{feff}').unwrap_or(text).replace("\r\n", "\n").replace('\r', "\n");
    let mut found = Vec::new();
    let mut depth = 0usize;
    for (line, content) in text.lines().enumerate() {
        let content: Vec<char> = content.split('#').next().unwrap_or("").chars().collect();
        let mut at = 0;
        while at < content.len() {
            let place = Place { line: line + 1, column: at + 1 };
            let (word, width) = first_word(&content[at..], place)?;
            match word {
                Some(Word::Sign('(')) => depth += 1,
                Some(Word::Sign(')')) => depth = depth.saturating_sub(1),
                _ => {}
            }
            found.extend(word.map(|word| (word, place)));
            at += width;
        }
        if depth == 0 {
            found.push((Word::LineEnd, Place { line: line + 1, column: content.len() + 1 }));
        }
    }
    let lines = text.lines().count();
    let last = text.lines().last().map_or(0, |line| line.chars().count());
    found.push((Word::End, Place { line: lines.max(1), column: last + 1 }));
    Ok(found)
}

/// The word that a line, or what is left of it, begins with, and its width; a blank is no word.
fn first_word(rest: &[char], place: Place) -> Result<(Option<Word>, usize), Unread> {
    let run = |is: fn(char) -> bool| rest.iter().take_while(|&&c| is(c)).collect::<String>();
    match rest[0] {
        c if c.is_ascii_digit() => {
            let digits = run(|c| c.is_ascii_digit());
            Ok((Some(number(&digits, &rest[digits.len()..], place)?), digits.len()))
        }
        c if begins_name(c) => {
            let name = run(in_name);
            if name.len() > LETTERS {
                return unread(place, format!("a name has at most {LETTERS} letters"));
            }
            let width = name.len();
            Ok((Some(Word::Name(name)), width))
        }
        c if "+-*^()=;:,'".contains(c) => Ok((Some(Word::Sign(c)), 1)),
        ' ' | '\t' | '\u{a0}' => Ok((None, 1)),
        c => unread(place, no_meaning(c, rest.get(1).copied())),
    }
}

/// A number. What stands directly behind it must not make it a number of another kind.
fn number(digits: &str, behind: &[char], place: Place) -> Result<Word, Unread> {
    let is_digit = |at: usize| behind.get(at).is_some_and(|c: &char| c.is_ascii_digit());
    let is_hexadecimal = |at: usize| behind.get(at).is_some_and(|c: &char| c.is_ascii_hexdigit());
    match behind.first() {
        Some('e' | 'E') if is_digit(1) || matches!(behind.get(1), Some('+' | '-')) && is_digit(2) => unread(
            place,
            "a number with an exponent, or a product with an unknown: multiply the equation so that its coefficients \
             are integers and write them out, or write `*` between the two",
        ),
        Some('x' | 'X' | 'b' | 'B' | 'o' | 'O') if digits == "0" && is_hexadecimal(1) => {
            unread(place, "a number to another base, or 0 times an unknown: write the number to base 10, or a `*`")
        }
        Some('_') => unread(place, "a number goes on with `_`: write its digits without a gap, or `*` before a name"),
        _ => match digits.parse() {
            Ok(number) if digits.len() <= DIGITS => Ok(Word::Number(number)),
            _ => unread(place, format!("a number with too many digits: {DIGITS} are the most")),
        },
    }
}

/// Why a sign cannot be read, and what to write for it.
fn no_meaning(c: char, next: Option<char>) -> String {
    let instead = match c {
        '/' if next == Some('d') => return "derivatives are written with primes: y', y''".into(),
        '/' => return "fractions are not read: multiply the equation so that its coefficients are integers".into(),
        '.' => return "decimals are not read: multiply the equation so that its coefficients are integers".into(),
        '[' | ']' | '{' | '}' => ": brackets and indices are written with ( and )",
        '"' | '\u{2032}' | '\u{2033}' | '\u{2019}' | '`' => ": a prime is written as '",
        '\u{2212}' | '\u{2013}' | '\u{2014}' => ": minus is written as -",
        '\u{b7}' | '\u{d7}' | '\u{22c5}' => ": a product is written with *",
        '\u{b2}' | '\u{b3}' => ": powers are written as ^2, ^3",
        c if c.is_alphanumeric() => ": names have the letters a to z and A to Z, digits and _",
        _ => "",
    };
    let shown = if c.is_ascii_graphic() { c.to_string() } else { c.escape_debug().to_string() };
    format!("`{shown}` has no meaning here{instead}")
}
