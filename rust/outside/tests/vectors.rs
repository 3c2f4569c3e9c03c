//! Every vector of the folder that WURGALM_VECTORS names, and those of the folder `calls` beside it. The tests are left out unless they
//! are asked for by `-- --include-ignored`, and fail where no folder is named.

use outside::differential;
use outside::elimination::{run, Side};
use outside::record::Record;
use outside::sheet::{read, write, Sheet};
use outside::stores::{check_record_on_stores, row_store, store, Asked, RELATION_STORE};
use outside::system::Sizes;
use std::path::PathBuf;
use std::{env, fs};

fn folder() -> PathBuf {
    env::var_os("WURGALM_VECTORS").expect("WURGALM_VECTORS names a folder").into()
}

#[test]
#[ignore = "needs a folder of vectors"]
fn batches() {
    let mut count = 0;
    for file in fs::read_dir(folder()).unwrap() {
        let path = file.unwrap().path();
        if path.extension().is_some_and(|e| e == "in") {
            let expected = fs::read(path.with_extension("out")).unwrap();
            let written = outside::batch::output(&fs::read(&path).unwrap(), None);
            assert!(written == expected, "{} differs", path.display());
            count += 1;
        }
    }
    println!("{count} batches");
    assert!(count > 0);
}

/// What a file of runs says of one sheet and side: the line, and the sheet where the refusal is 0. Older files do not tell how often the
/// root occurs.
fn run_text(bytes: &[u8], side: Side, with_times: bool) -> Vec<u8> {
    let name = if side == Side::Leading { "leading" } else { "trailing" };
    let mult = |times: usize| if with_times { format!(" mult {times}") } else { String::new() };
    let outcome = read(bytes, None).and_then(|sheet| run(&sheet.system, side, None));
    match outcome {
        Err(refusal) => format!("{name} {} shifts 0 root none rank 0{}\n", refusal.number(), mult(0)).into_bytes(),
        Ok(run) => {
            let root = run.root.map_or("none".to_string(), |r| r.to_string());
            let (shifts, rank, times) = (run.shifts, run.rank(), mult(run.multiplicity));
            let mut text = format!("{name} 0 shifts {shifts} root {root} rank {rank}{times}\n").into_bytes();
            text.extend(write(&Sheet { system: run.system, order: run.order }));
            text
        }
    }
}

/// Each sheet of a file is followed by the text that is expected of it. Returns how many there are.
fn followed_by(file: &[u8], expected: impl Fn(&[u8]) -> Vec<u8>) -> usize {
    continued_by(file, |bytes, _| expected(bytes))
}

/// The same where what is expected depends on what follows.
fn continued_by(file: &[u8], expected: impl Fn(&[u8], &[u8]) -> Vec<u8>) -> usize {
    let mut rest = file;
    let mut count = 0;
    while !rest.is_empty() {
        let end = rest.iter().position(|&b| b == b'\n').unwrap();
        let line = std::str::from_utf8(&rest[..end]).unwrap();
        let length: usize = line.strip_prefix("sheet ").unwrap().parse().unwrap();
        let (bytes, after) = rest[end + 1..].split_at(length);
        let expected = expected(bytes, after);
        assert!(after.starts_with(&expected), "{}", String::from_utf8_lossy(bytes));
        rest = &after[expected.len()..];
        count += 1;
    }
    assert!(count > 0);
    count
}

/// `run.txt` has both sides of each sheet.
#[test]
#[ignore = "needs a folder of vectors"]
fn runs() {
    let all = fs::read(folder().join("run.txt")).expect("the folder has a file of runs");
    let with_times = all.windows(6).any(|bytes| bytes == b" mult ");
    let sides = |bytes: &[u8]| {
        let sides = [Side::Leading, Side::Trailing].into_iter();
        sides.flat_map(|side| run_text(bytes, side, with_times)).collect()
    };
    println!("runs: {} cases", followed_by(&all, sides));
}

/// Differential sheets, each followed by the answer and, where that is 0, by the recurrence's sheet (02, U3).
#[test]
#[ignore = "needs a folder of vectors"]
fn differential_sheets() {
    let answered = |bytes: &[u8]| match differential::answer(bytes, None) {
        Ok(sheet) => [b"answer 0\n", &sheet[..]].concat(),
        Err(refusal) => format!("answer {}\n", refusal.number()).into_bytes(),
    };
    let file = fs::read(folder().join("../calls/differential.txt")).expect("the folder has one of calls beside it");
    println!("differential sheets: {} cases", followed_by(&file, answered));
}

/// What is answered to the record in the two lines behind a sheet, after those lines.
fn record_text(sheet: &[u8], after: &[u8]) -> Vec<u8> {
    let lines: Vec<&[u8]> = after.splitn(3, |&b| b == b'\n').collect();
    let numbers = |line: &[u8]| -> Vec<i64> {
        let words = std::str::from_utf8(line).unwrap().split_ascii_whitespace();
        words.filter_map(|word| word.parse().ok()).collect()
    };
    let (heading, values) = (numbers(lines[0]), numbers(lines[1]));
    let record = Record { first: heading[0], vectors: heading[1] as usize, values: &values };
    let system = read(sheet, None).unwrap().system;
    let (mut rows, mut relations) = (vec![0; row_store(system.rows.len())], vec![0; RELATION_STORE]);
    store(&system, &mut rows, &mut relations);
    let (Sizes { m, l, t }, equations) = (system.sizes, system.rows.len());
    let asked = Asked { m, equations, l, t, count: system.relations.len() };
    let mut result = [7; 4];
    let number = check_record_on_stores(&rows, &relations, asked, &record, &mut result, None);
    let [kind, which, index, sum] = result;
    let answer = match (number, kind) {
        (0, 0) => format!("fits {which}"),
        (0, 1) => format!("equation {which} {index} {sum}"),
        (0, _) => format!("relation {which} {index} {sum}"),
        _ => format!("refused {number}"),
    };
    [lines[0], b"\n", lines[1], b"\n", answer.as_bytes(), b"\n"].concat()
}

/// Sheets, each followed by a record and its answer (02, U10).
#[test]
#[ignore = "needs a folder of vectors"]
fn records() {
    let file = fs::read(folder().join("../calls/records.txt")).expect("the folder has one of calls beside it");
    println!("records: {} cases", continued_by(&file, record_text));
}
