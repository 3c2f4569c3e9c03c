//! `wurgalm solutions`: the polynomial solutions of a system.

use crate::command::{is_differential, last, Arguments, Outcome};
use crate::run::{names_for, refused, system_of};
use crate::writing::sum_of_powers;
use wurgalm::Solutions;

/// What the variable of the polynomials may be called; an unknown may have the first of these names.
const VARIABLES: [&str; 5] = ["x", "s", "t", "u", "v"];

/// A line for each unknown of each sequence, an empty one between two sequences, and `none` where there is none.
fn text(list: &Solutions, names: &[String]) -> String {
    let is_free = |variable: &&str| !names[..list.unknowns].iter().any(|name| name == variable);
    let variable = VARIABLES.into_iter().find(is_free).unwrap_or("x");
    let line = |sequence: usize, unknown: usize| {
        let coefficients = list.polynomial(sequence, unknown);
        format!("{} = {}\n", names[unknown - 1], sum_of_powers(&coefficients, variable, "*"))
    };
    let lines = |sequence| (1..=list.unknowns).map(|unknown| line(sequence, unknown)).collect::<String>();
    let parts: Vec<String> = (0..list.sequences.len()).map(lines).collect();
    if parts.is_empty() {
        "none\n".into()
    } else {
        parts.join("\n")
    }
}

pub fn solutions(mut arguments: Arguments) -> Outcome {
    let names = arguments.value("--names")?;
    let is_differential = is_differential(&mut arguments, last);
    let names = names_for(names, is_differential)?;
    let file = arguments.files(1, 1)?.remove(0);
    let list = system_of(&file, is_differential)?.solutions().map_err(|refusal| refused(refusal, &file))?;
    Ok(list.map_or("none\n".into(), |list| text(&list, &names)).into_bytes())
}
