//! The replay of an elimination that was made elsewhere: `replay SHEET LOG`. It writes `0` and the sheet that the steps of the log lead
//! to, or the number of the refusal; 13 says that a step or the end is not right. The lines of a log are told in `examples/README.md`.
//!
//!     cargo run --release --example replay -- ../examples/k2.sheet ../examples/logs/k2-other.log
//!
//! With `replay SHEET` it writes our own log of the leading run, or the run's refusal.

use std::{env, fs, process};
use wurgalm::{read_sheet, replay, row_store, run_logged, write_sheet, Heading, Log, Refusal, Sizes};
use wurgalm::{EQUATIONS, RELATION_STORE};

/// Bytes that are enough for any sheet: twelve for each number, of 22 rows of 336 numbers.
const SHEET: usize = 12 * (EQUATIONS + 16) * 400;

/// A message, and the end of the program.
fn end(message: &str) -> ! {
    eprintln!("{message}");
    process::exit(2)
}

fn text_of(path: &str) -> String {
    fs::read_to_string(path).unwrap_or_else(|_| end(&format!("{path} cannot be read")))
}

fn replayed(sheet: &str, log: &Log) -> Result<String, Refusal> {
    let (mut rows, mut relations) = (vec![0; row_store(EQUATIONS)], vec![0; RELATION_STORE]);
    let Heading { sizes, relations: count, .. } = read_sheet(sheet.as_bytes(), &mut rows, &mut relations)?;
    let report = replay(&mut rows, &mut relations, sizes, count, log)?;
    let sizes = Sizes { equations: report.rank, ..sizes };
    let (heading, mut bytes) = (Heading { sizes, relations: report.relations, order: report.order }, vec![0; SHEET]);
    let length = write_sheet(&rows, &relations, &heading, &mut bytes)?;
    Ok(format!("0\n{}", String::from_utf8_lossy(&bytes[..length])))
}

fn own(sheet: &str) -> Result<String, Refusal> {
    let (mut rows, mut relations) = (vec![0; row_store(EQUATIONS)], vec![0; RELATION_STORE]);
    let Heading { sizes, relations: count, .. } = read_sheet(sheet.as_bytes(), &mut rows, &mut relations)?;
    Ok(run_logged(&mut rows, &mut relations, sizes, count)?.1.to_string())
}

fn main() {
    let arguments: Vec<String> = env::args().skip(1).collect();
    let answer = match &arguments[..] {
        [sheet] => own(&text_of(sheet)),
        [sheet, log] => match text_of(log).parse() {
            Ok(log) => replayed(&text_of(sheet), &log),
            Err(_) => end(&format!("{log} is no log")),
        },
        _ => end("replay SHEET [LOG]"),
    };
    match answer {
        Ok(text) => print!("{text}"),
        Err(refusal) => println!("{}", refusal.0),
    }
}
