//! Systems and reports as JSON.

use std::fmt::Display;
use wurgalm::{Equation, Report, System};

pub fn list<T: Display>(members: impl IntoIterator<Item = T>) -> String {
    let members: Vec<String> = members.into_iter().map(|member| member.to_string()).collect();
    format!("[{}]", members.join(","))
}

fn equation(equation: Equation) -> String {
    let term =
        |(s, c, p): (i64, usize, &[i64])| format!("{{\"block\":{s},\"column\":{c},\"coefficients\":{}}}", list(p));
    format!("\"terms\":{},\"right\":{}", list(equation.terms().map(term)), list(equation.right()))
}

/// An accepted run: the report, and the system that it leaves.
pub fn answer(system: &System, report: &Report, side: &str) -> String {
    let sizes = system.sizes();
    let root = report.root.map_or("null".into(), |root| root.to_string());
    let equations = list(system.equations().map(|row| format!("{{{}}}", equation(row))));
    let relations = list(system.relations().map(|(n0, row)| format!("{{\"n0\":{n0},{}}}", equation(row))));
    format!(
        "{{\"side\":\"{side}\",\"unknowns\":{},\"l\":{},\"t\":{},\"rank\":{},\"shifts\":{},\"order\":{},\"root\":{root},\
         \"multiplicity\":{},\"equations\":{equations},\"relations\":{relations}}}\n",
        sizes.m, sizes.l, sizes.t, report.rank, report.shifts, list(system.order()), report.multiplicity
    )
}
