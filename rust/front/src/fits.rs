//! `wurgalm fits`: whether a model explains a record, which is text or CSV.
//!
//! As text a record is a line with the first index and the number of vectors, and a line for each vector. As CSV it has a line for each
//! vector, the index first and the values of the unknowns behind it, with a line of names above them or without.

use crate::command::{bytes_of, first, is_differential, named, Arguments, End, Outcome};
use crate::output::shown;
use crate::run::{counted, names_for, refused, system_of};
use wurgalm::{Answer, Record};

/// A record that owns its values.
struct Recorded {
    first: i64,
    vectors: usize,
    values: Vec<i64>,
}

fn number(text: &str, line: usize) -> Result<i64, String> {
    text.trim().parse().map_err(|_| format!("line {line}: `{}` is not a number", shown(text.trim())))
}

/// The text of a record. What some programs put in front of UTF-8, a byte order mark, is left out; a line ends as on
/// any machine.
fn text_of(bytes: Vec<u8>) -> Result<String, String> {
    let text = String::from_utf8(bytes).map_err(|error| {
        let line =
            1 + error.as_bytes()[..error.utf8_error().valid_up_to()].iter().filter(|&&byte| byte == b'\n').count();
        format!("line {line}: a record is UTF-8 text, and here are bytes that are not")
    })?;
    let text = text.strip_prefix('\u{feff}').unwrap_or(&text);
    Ok(text.replace("\r\n", "\n").replace('\r', "\n"))
}

/// Whether a field is the name of a column: a letter begins it, in quotation marks or not, and it is no number.
fn is_name(field: &str) -> bool {
    let field = field.trim().trim_matches('"');
    field.starts_with(|first: char| first.is_alphabetic() || first == '_') && field.parse::<f64>().is_err()
}

/// Names of columns, which are refused where they are those of the unknowns in another order.
fn header(fields: &[&str], unknowns: &[String], line: usize) -> Result<(), String> {
    let names: Vec<&str> = fields[1..].iter().map(|field| field.trim().trim_matches('"')).collect();
    let are_unknowns = unknowns.iter().all(|unknown| names.contains(&&unknown[..]));
    if are_unknowns && names != unknowns {
        let (names, unknowns) = (shown(&names.join(", ")), unknowns.join(", "));
        return Err(format!("line {line}: the columns are {names}, and the values are read as {unknowns}"));
    }
    Ok(())
}

/// A record in CSV.
fn of_csv(text: &str, unknowns: &[String]) -> Result<Recorded, String> {
    let m = unknowns.len();
    let mut recorded = Recorded { first: 0, vectors: 0, values: Vec::new() };
    let lines = text.lines().enumerate().filter(|(_, content)| !content.trim().is_empty());
    for (place, (at, content)) in lines.enumerate() {
        let (line, fields): (usize, Vec<&str>) = (at + 1, content.split(',').collect());
        if place == 0 && fields.len() == m + 1 && fields.iter().all(|field| is_name(field)) {
            header(&fields, unknowns, line)?;
            continue;
        }
        let numbers = fields.iter().map(|field| number(field, line)).collect::<Result<Vec<i64>, _>>()?;
        if numbers.len() != m + 1 {
            return Err(format!("line {line}: {} numbers, and an index and {m} values are needed", numbers.len()));
        }
        if recorded.vectors == 0 {
            recorded.first = numbers[0];
        }
        if i128::from(numbers[0]) != i128::from(recorded.first) + recorded.vectors as i128 {
            return Err(format!("line {line}: index {} does not follow the one before it", numbers[0]));
        }
        recorded.vectors += 1;
        recorded.values.extend(&numbers[1..]);
    }
    Ok(recorded)
}

/// A record as text.
fn of_text(text: &str, unknowns: &[String]) -> Result<Recorded, String> {
    let m = unknowns.len();
    let mut numbers = Vec::new();
    for (at, line) in text.lines().enumerate() {
        for word in line.split_ascii_whitespace() {
            numbers.push(number(word, at + 1)?);
        }
    }
    let [first, count, values @ ..] = &numbers[..] else {
        return Err("line 1: the first index and the number of vectors are missing".into());
    };
    match usize::try_from(*count) {
        Ok(vectors) if vectors.checked_mul(m) == Some(values.len()) => {
            Ok(Recorded { first: *first, vectors, values: values.to_vec() })
        }
        _ => Err(format!("{} values, and {count} vectors of {m} each are announced", values.len())),
    }
}

pub fn fits(mut arguments: Arguments) -> Outcome {
    let as_csv = arguments.flag("--csv");
    let is_differential = is_differential(&mut arguments, first);
    let files = arguments.files(2, 2)?;
    let [model, record] = &files[..] else { return Err(End::Misused("MODEL and RECORD".into())) };
    let system = system_of(model, is_differential)?;
    let (bytes, sizes, name) = (bytes_of(record)?, system.sizes(), named(record));
    let names = names_for(None, is_differential)?;
    let read = |text: String| {
        let reader = if as_csv || text.contains(',') { of_csv } else { of_text };
        reader(&text, &names[..sizes.m])
    };
    let recorded = text_of(bytes).and_then(read).map_err(|reason| End::Refused(format!("{name}: {reason}")))?;
    let Recorded { first, vectors, values } = &recorded;
    let answer = system.explains(&Record { first: *first, vectors: *vectors, values });
    match answer.map_err(|refusal| refused(refusal, record))? {
        // Nothing tested is no success.
        Answer::Fits { tested: 0 } => Err(End::Refused(format!(
            "{name}: nothing is tested: the record has {}, and an equation is tested where {} follow one another",
            counted(*vectors, "vector"),
            sizes.l - sizes.t + 1
        ))),
        Answer::Fits { tested } => Ok(format!("fits: {tested} tested, every sum is zero\n").into_bytes()),
        Answer::Equation { number, n, sum } => {
            Err(End::Refused(format!("{name}: equation {number} does not hold at n = {n}: its sum is {sum}")))
        }
        Answer::Relation { number, n0, sum } => {
            Err(End::Refused(format!("{name}: relation {number} does not hold at n = {n0}: its sum is {sum}")))
        }
    }
}
