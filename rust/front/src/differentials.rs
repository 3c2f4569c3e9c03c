//! Differential sheets as text and from text (SCOPE 10).

use crate::expressions::Polynomial;
use crate::tokens::{unread, Place, Unread};
use crate::typing::{occurring, Heading, Statement};
use crate::writing::join_term;
use std::collections::BTreeMap;

/// The highest derivative, and the highest power of x (SCOPE 10.2).
pub(crate) const HIGHEST: i64 = 2;
/// No factor is past ± this (SCOPE 10.5).
const FACTOR: u128 = 1_048_576;
/// The most equations (SCOPE 10.3).
const EQUATIONS: usize = 6;

/// The names of the unknowns where none are given.
pub(crate) const UNKNOWNS: [&str; 4] = ["y", "z", "u", "v"];

/// The numbers of a sheet that the proved reader has taken.
fn numbers(sheet: &[u8]) -> Vec<i64> {
    let text = String::from_utf8_lossy(sheet);
    text.split_ascii_whitespace().filter_map(|number| number.parse().ok()).collect()
}

/// A differential sheet without a fault, as equations.
pub fn shown(sheet: &[u8], names: &[String]) -> String {
    let mut numbers = numbers(sheet).into_iter().skip(1);
    let mut next = || numbers.next().unwrap_or(0);
    let (m, derivatives, powers) = (next(), next(), next());
    let mut text = format!("unknowns {}; derivatives {derivatives}; powers {powers}\n", names[..m as usize].join(", "));
    for _ in 0..next() {
        // By falling derivative and then by unknown; the coefficients are those of the powers of x.
        let mut terms: BTreeMap<(i64, i64), [i64; HIGHEST as usize + 1]> = BTreeMap::new();
        for _ in 0..next() {
            let (k, j, c, a) = (next(), next(), next(), next());
            terms.entry((-k, c)).or_default()[j as usize] = a;
        }
        let mut left = String::new();
        for ((k, c), p) in terms {
            join_term(&mut left, &p, "x", &format!("{}{}", names[c as usize - 1], "'".repeat(-k as usize)));
        }
        text += if left.is_empty() { "0" } else { &left };
        text += " = 0\n";
    }
    text
}

/// The differential sheet of equations that were typed.
pub(crate) fn sheet_of(
    names: &[String],
    heading: &Heading,
    statements: &[Statement],
    end: Place,
) -> Result<Vec<u8>, Unread> {
    if names.is_empty() {
        return unread(end, "there is no unknown: write an equation, or a first line with `unknowns y`");
    }
    let derivatives = heading.derivatives.or_else(|| occurring(statements).map(|((k, _), _)| *k).max()).unwrap_or(0);
    let highest = |(_, (p, _)): (&_, &(Polynomial, Place))| p.len() as i64 - 1;
    let powers = heading.powers.or_else(|| occurring(statements).map(highest).max()).unwrap_or(0);
    let (derivatives, powers) = (derivatives.min(HIGHEST), powers.min(HIGHEST));
    let mut text = format!("3 {} {derivatives} {powers}\n{}\n", names.len(), statements.len());
    for (at, statement) in statements.iter().enumerate() {
        if at >= EQUATIONS {
            return unread(statement.place, "six equations are the most");
        }
        if !statement.linear.free.is_empty() {
            let reason = "an equation of a differential sheet has an unknown in every term";
            let load = "an unknown with an equation of its own can stand for a load: q' = 0 for a constant q";
            return unread(statement.place, format!("{reason}; {load}"));
        }
        text += &line(statement, derivatives, powers)?;
    }
    Ok(text.into_bytes())
}

/// The line of one equation: its terms by falling derivative, rising power and rising column.
fn line(statement: &Statement, derivatives: i64, powers: i64) -> Result<String, Unread> {
    let mut terms = BTreeMap::new();
    for (&(k, c), (p, place)) in &statement.linear.terms {
        let p: &Polynomial = p;
        if !p.is_empty() && k > derivatives {
            return unread(*place, format!("{k} primes, and {derivatives} are the most here"));
        }
        if p.len() as i64 > powers + 1 {
            return unread(*place, format!("the power {} of x, and {powers} is the highest here", p.len() - 1));
        }
        for (j, &a) in p.iter().enumerate().filter(|(_, &a)| a != 0) {
            if a.unsigned_abs() > FACTOR {
                return unread(*place, format!("the factor {a} is past ±1,048,576"));
            }
            terms.insert((-k, j, c), a);
        }
    }
    let numbers: String = terms.iter().map(|((k, j, c), a)| format!(" {} {j} {c} {a}", -k)).collect();
    Ok(format!("{}{numbers}\n", terms.len()))
}
