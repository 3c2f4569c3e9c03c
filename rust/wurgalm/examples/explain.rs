//! Whether a model explains a record: `explain MODEL RECORD`. The model is a sheet, or a differential sheet where its name ends in
//! `.differential`. The record is a line with its first index and the number of its vectors, and a line for each vector.
//!
//!     cargo run --release --example explain -- ../examples/legendre.differential ../examples/legendre.record
//!
//! It writes `fits` with the number tested, or `equation` or `relation` with its number, its index and its sum, or `refused` with the number.

use std::path::PathBuf;
use std::{env, fs, process};
use wurgalm::{check_record, read_differential, read_sheet, row_store, Answer, Record, EQUATIONS, RELATION_STORE};

/// A message, and the end of the program.
fn end(message: &str) -> ! {
    eprintln!("{message}");
    process::exit(2)
}

fn main() {
    let paths: Vec<PathBuf> = env::args_os().skip(1).map(PathBuf::from).collect();
    let [model, record] = &paths[..] else { end("explain MODEL RECORD") };
    let (Ok(sheet), Ok(text)) = (fs::read(model), fs::read_to_string(record)) else { end("a file cannot be read") };
    let Ok(numbers) = text.split_ascii_whitespace().map(str::parse).collect::<Result<Vec<i64>, _>>() else {
        end("the record has something that is not a number")
    };
    let [first, vectors, values @ ..] = &numbers[..] else { end("the record has no first line") };
    let Ok(vectors) = usize::try_from(*vectors) else { end("the record has less than no vectors") };

    let (mut rows, mut relations) = (vec![0; row_store(EQUATIONS)], vec![0; RELATION_STORE]);
    let is_differential = model.extension().is_some_and(|extension| extension == "differential");
    let read = if is_differential { read_differential } else { read_sheet };
    let answer = read(&sheet, &mut rows, &mut relations).and_then(|heading| {
        let record = Record { first: *first, vectors, values };
        check_record(&rows, &relations, heading.sizes, heading.relations, &record)
    });
    match answer {
        Ok(Answer::Fits { tested }) => println!("fits {tested}"),
        Ok(Answer::Equation { number, n, sum }) => println!("equation {number} {n} {sum}"),
        Ok(Answer::Relation { number, n0, sum }) => println!("relation {number} {n0} {sum}"),
        Err(refusal) => println!("refused {}", refusal.0),
    }
}
