//! The polynomial solutions of differential equations: `polynomials DIFFERENTIAL ..`. For each differential sheet a line with its name and
//! what was found, and then a line for each solution of a list of which all of them are combinations.
//!
//!     cargo run --release --example polynomials -- ../examples/polynomials/legendre-*.differential
//!
//! An unknown is called y, or y1, y2 and so on where there are several. The coefficients of a solution have no common divisor. Where no list
//! is made stands `refused` with the number.

use std::path::Path;
use std::{env, fs, process};
use wurgalm::{read_differential, row_store, solutions, Refusal, Solutions, EQUATIONS, RELATION_STORE};

/// A message, and the end of the program.
fn end(message: &str) -> ! {
    eprintln!("{message}");
    process::exit(2)
}

/// A polynomial in x from its coefficients, lowest power first, written from the highest power down.
fn written(coefficients: &[i64]) -> String {
    let mut text = String::new();
    for (power, &a) in coefficients.iter().enumerate().rev().filter(|(_, &a)| a != 0) {
        let sign = match (text.is_empty(), a < 0) {
            (true, false) => "",
            (true, true) => "-",
            (false, false) => " + ",
            (false, true) => " - ",
        };
        let number = if power > 0 && a.abs() == 1 { String::new() } else { a.abs().to_string() };
        let variable = match power {
            0 => String::new(),
            1 => "x".into(),
            _ => format!("x^{power}"),
        };
        text += &format!("{sign}{number}{variable}");
    }
    if text.is_empty() {
        "0".into()
    } else {
        text
    }
}

fn found(sheet: &[u8]) -> Result<Option<Solutions>, Refusal> {
    let (mut rows, mut relations) = (vec![0; row_store(EQUATIONS)], vec![0; RELATION_STORE]);
    let heading = read_differential(sheet, &mut rows, &mut relations)?;
    solutions(&rows, &relations, heading.sizes, heading.relations)
}

/// The line of one solution.
fn line(list: &Solutions, sequence: usize) -> String {
    let name = |unknown: usize| if list.unknowns == 1 { "y".into() } else { format!("y{unknown}") };
    let parts = (1..=list.unknowns).map(|c| format!("{} = {}", name(c), written(&list.polynomial(sequence, c))));
    parts.collect::<Vec<_>>().join(", ")
}

fn main() {
    let paths: Vec<String> = env::args().skip(1).collect();
    if paths.is_empty() {
        end("polynomials DIFFERENTIAL ..");
    }
    for path in &paths {
        let Ok(sheet) = fs::read(path) else { end(&format!("{path} cannot be read")) };
        let name = Path::new(path).file_stem().map_or("".into(), |name| name.to_string_lossy());
        match found(&sheet) {
            Err(refusal) => println!("{name}: refused {}", refusal.0),
            Ok(None) => println!("{name}: no polynomial"),
            Ok(Some(list)) => {
                println!("{name}: up to degree {}, solutions {}", list.last, list.sequences.len());
                (0..list.sequences.len()).for_each(|sequence| println!("  {}", line(&list, sequence)));
            }
        }
    }
}
