//! Systems as text: polynomials, equations, relations, and the first line, in the form that [`crate::typing`] reads
//! back.

use crate::tokens::{is_name, RESERVED};
use std::fmt::Write;
use wurgalm::{Equation, System};

/// The names of the unknowns of a recurrence where none are given.
pub const UNKNOWNS: [&str; 4] = ["x", "y", "z", "w"];

/// A power of the variable times a size that is not 0: `1`, `n`, `3n^2`, or with a sign between the two `3*n^2`.
fn monomial(size: u64, power: usize, variable: &str, times: &str) -> String {
    let number = match (size, power) {
        (_, 0) => size.to_string(),
        (1, _) => String::new(),
        _ => format!("{size}{times}"),
    };
    match power {
        0 => number,
        1 => format!("{number}{variable}"),
        _ => format!("{number}{variable}^{power}"),
    }
}

/// Adds a part with its sign to a sum: ` - ` or ` + ` between two, `-` or nothing in front of the first.
fn join(sum: &mut String, is_negative: bool, part: &str) {
    *sum += match (sum.is_empty(), is_negative) {
        (true, true) => "-",
        (true, false) => "",
        (false, true) => " - ",
        (false, false) => " + ",
    };
    *sum += part;
}

/// A polynomial, highest power first; `0` where it has no coefficients.
pub fn polynomial(coefficients: &[i64], variable: &str) -> String {
    sum_of_powers(coefficients, variable, "")
}

/// A polynomial, highest power first, with such a sign between a number and a power.
pub fn sum_of_powers(coefficients: &[i64], variable: &str, times: &str) -> String {
    let mut sum = String::new();
    for (power, &a) in coefficients.iter().enumerate().rev().filter(|(_, &a)| a != 0) {
        join(&mut sum, a < 0, &monomial(a.unsigned_abs(), power, variable, times));
    }
    if sum.is_empty() {
        sum += "0";
    }
    sum
}

/// Adds a polynomial times an unknown to a sum: a single power stands as it is, a longer polynomial in brackets.
pub fn join_term(sum: &mut String, coefficients: &[i64], variable: &str, unknown: &str) {
    let mut powers = coefficients.iter().enumerate().filter(|(_, &a)| a != 0);
    match (powers.next(), powers.next()) {
        (Some((0, &a)), None) if a.abs() == 1 => join(sum, a < 0, unknown),
        (Some((power, &a)), None) => {
            join(sum, a < 0, &format!("{} {unknown}", monomial(a.unsigned_abs(), power, variable, "")))
        }
        _ => join(sum, false, &format!("({}) {unknown}", polynomial(coefficients, variable))),
    }
}

/// `n`, `n+1`, `n-2`.
pub fn index(block: i64) -> String {
    match block {
        0 => "n".into(),
        _ => format!("n{block:+}"),
    }
}

/// An equation: its terms, and its right side.
pub fn equation(equation: Equation, names: &[String]) -> String {
    let mut left = String::new();
    for (s, c, p) in equation.terms() {
        join_term(&mut left, p, "n", &format!("{}({})", names[c - 1], index(s)));
    }
    if left.is_empty() {
        left += "0";
    }
    format!("{left} = {}", polynomial(equation.right(), "n"))
}

/// A relation. Where its equation has terms, with numbers for coefficients, every index is worked out and negative
/// terms stand on the other side.
pub fn relation(n0: i64, row: Equation, names: &[String]) -> String {
    let has_numbers = row.terms().all(|(_, _, p)| p.len() == 1) && row.right().len() <= 1;
    if !has_numbers || row.terms().next().is_none() {
        return format!("at n = {n0}: {}", equation(row, names));
    }
    let (mut left, mut right) = (String::new(), String::new());
    for (s, c, p) in row.terms() {
        let side = if p[0] > 0 { &mut left } else { &mut right };
        join_term(side, &[p[0].abs()], "n", &format!("{}({})", names[c - 1], n0 + s));
    }
    for &a in row.right() {
        let side = if a > 0 { &mut right } else { &mut left };
        join(side, false, &a.abs().to_string());
    }
    let shown = |side: String| if side.is_empty() { "0".into() } else { side };
    format!("at n = {n0}: {} = {}", shown(left), shown(right))
}

/// The first line: the unknowns, the blocks and the column order.
pub fn first_line(system: &System, names: &[String]) -> String {
    let sizes = system.sizes();
    let order: Vec<&str> = system.order().iter().map(|&c| names[c as usize - 1].as_str()).collect();
    let order = if order.is_empty() { "none".into() } else { order.join(", ") };
    format!("unknowns {}; l = {}; t = {}; order {order}", names[..sizes.m].join(", "), sizes.l, sizes.t)
}

/// A whole system, a line for each equation and each relation.
pub fn system(system: &System, names: &[String]) -> String {
    let mut text = first_line(system, names) + "\n";
    for row in system.equations() {
        let _ = writeln!(text, "{}", equation(row, names));
    }
    for (n0, row) in system.relations() {
        let _ = writeln!(text, "{}", relation(n0, row, names));
    }
    text
}

/// The names that an option gives, separated by commas, or others that are usual.
pub fn names(option: Option<String>, usual: [&str; 4]) -> Result<Vec<String>, String> {
    // Where x is the variable it is not among the usual names.
    let is_free = |name: &str| !RESERVED.contains(&name) && (name != "x" || usual.contains(&"x"));
    let Some(option) = option else { return Ok(usual.map(String::from).to_vec()) };
    let mut names: Vec<String> = option.split(',').map(String::from).collect();
    let is_right = |name: &String| is_name(name) && is_free(name);
    let is_new = |at: usize| !names[..at].contains(&names[at]);
    if names.len() > 4 || !names.iter().all(is_right) || !(0..names.len()).all(is_new) {
        return Err(
            "--names wants one to four different names, none of them the variable, with commas between them".into()
        );
    }
    // Names that are not given are made up, so that every column has one.
    for number in names.len() + 1..=4 {
        let made_up = (0..).map(|tail| format!("x{number}{}", "_".repeat(tail)));
        let new = made_up.into_iter().find(|name| !names.contains(name)).unwrap_or_default();
        names.push(new);
    }
    Ok(names)
}
