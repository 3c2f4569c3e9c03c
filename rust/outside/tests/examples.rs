//! The stored answers of `examples/`: what this implementation writes on the same sheets, batches and differential sheets, shows of runs and
//! replays, and finds of polynomials.

use outside::logs::{replay, run_logged, Step};
use outside::polynomial::Polynomial;
use outside::record::{check, Answer, Record};
use outside::sheet::{read, write, Sheet};
use outside::solutions::list;
use outside::steps::{prepared, run_steps, State};
use std::fs;
use std::path::{Path, PathBuf};

/// The examples of one kind, each with its stored answer.
fn examples(extension: &str) -> Vec<(Vec<u8>, PathBuf, Vec<u8>)> {
    let folder = Path::new(env!("CARGO_MANIFEST_DIR")).join("../../examples");
    let files = fs::read_dir(folder).unwrap().map(|file| file.unwrap().path());
    let with_answer = |path: PathBuf| {
        let answer = path.with_extension("answer");
        (fs::read(path).unwrap(), answer.clone(), fs::read(answer).unwrap())
    };
    files.filter(|path| path.extension().is_some_and(|e| e == extension)).map(with_answer).collect()
}

fn answered(batch: &[u8], name: &Path, answer: &[u8]) {
    assert!(outside::batch::output(batch, None) == answer, "{} differs", name.display());
}

#[test]
fn sheets() {
    let sheets = examples("sheet");
    assert!(!sheets.is_empty());
    for (sheet, name, answer) in sheets {
        answered(&batch_of(&sheet), &name, &answer);
    }
}

/// A batch of one sheet.
fn batch_of(sheet: &[u8]) -> Vec<u8> {
    [format!("1\n1 {}\n", sheet.len()).as_bytes(), sheet].concat()
}

/// The recurrence of each differential sheet, behind the line `0`, and the answer to it.
#[test]
fn differential_sheets() {
    let sheets = examples("differential");
    assert!(!sheets.is_empty());
    for (sheet, name, answer) in sheets {
        let induced = fs::read(name.with_extension("induced")).unwrap();
        assert!(outside::differential::output(&sheet, None) == induced, "{} differs", name.display());
        answered(&batch_of(&induced[2..]), &name, &answer);
    }
}

#[test]
fn batches() {
    let batches = examples("batch");
    assert!(!batches.is_empty());
    for (batch, name, answer) in batches {
        answered(&batch, &name, &answer);
    }
}

/// Each record is held against the differential sheet of its name: what is answered stands beside it.
#[test]
fn records() {
    let folder = Path::new(env!("CARGO_MANIFEST_DIR")).join("../../examples");
    let paths = fs::read_dir(folder).unwrap().map(|file| file.unwrap().path());
    let records: Vec<PathBuf> = paths.filter(|path| path.extension().is_some_and(|e| e == "record")).collect();
    assert!(!records.is_empty());
    for path in records {
        let text = fs::read_to_string(&path).unwrap();
        let numbers: Vec<i64> = text.split_ascii_whitespace().map(|number| number.parse().unwrap()).collect();
        let [first, vectors, values @ ..] = &numbers[..] else { panic!("no first line") };
        let sheet = outside::differential::read(&fs::read(path.with_extension("differential")).unwrap(), None).unwrap();
        let record = Record { first: *first, vectors: *vectors as usize, values };
        let answer = match check(&sheet.recurrence(None), &record, None).unwrap() {
            Answer::Fits(tested) => format!("fits {tested}\n"),
            Answer::Equation(number, n, sum) => format!("equation {number} {n} {sum}\n"),
            Answer::Relation(number, n0, sum) => format!("relation {number} {n0} {sum}\n"),
        };
        assert_eq!(fs::read_to_string(path.with_extension("explained")).unwrap(), answer, "{}", path.display());
    }
}

/// What is shown of a run while it works, a line after each step.
#[test]
fn progress() {
    let folder = Path::new(env!("CARGO_MANIFEST_DIR")).join("../../examples");
    for name in ["k2", "surplus", "contradiction"] {
        let sheet = fs::read(folder.join(name).with_extension("sheet")).unwrap();
        let stored = fs::read_to_string(folder.join(name).with_extension("progress")).unwrap();
        assert_eq!(shown(prepared(read(&sheet, None).unwrap().system)), stored, "{name}");
    }
}

fn shown(mut state: State) -> String {
    let (mut text, mut steps) = (String::new(), 0);
    loop {
        let stop = match run_steps(&state, 1, None) {
            Ok(stop) => stop,
            Err(refused) => return text + &format!("refused {}, steps {steps}\n", refused.refusal.number()),
        };
        steps += stop.steps;
        state = stop.state;
        let (settled, rows) = (state.columns.len(), state.system.rows.len());
        let (shifts, relations) = (state.shifts, state.system.relations.len());
        text += &format!("steps {steps}, settled {settled} of {rows}, shifts {shifts}, relations {relations}\n");
        if stop.finished {
            let root = state.report().0.map_or("no root".into(), |root| format!("last root {root}"));
            return text + &format!("finished, rank {settled}, {root}\n");
        }
    }
}

/// A log as text: a line for each step, and the order.
fn log_of(text: &str) -> (Vec<Step>, [i64; 4]) {
    let (mut steps, mut order) = (Vec::new(), [0; 4]);
    for line in text.lines() {
        let (kind, numbers) = line.split_once(' ').unwrap_or((line, ""));
        let numbers: Vec<i128> = numbers.split_ascii_whitespace().map(|number| number.parse().unwrap()).collect();
        let row = |k: usize| numbers[k] as usize;
        steps.push(match kind {
            "exchange" => Step::Exchange(row(0), row(1)),
            "combine" => {
                let (g, h) = numbers[4..].split_at(row(3));
                let (g, h) = (Polynomial::new(g.to_vec()), Polynomial::new(h[1..].to_vec()));
                Step::Combine { i: row(0), j: row(1), integer: numbers[2], g, h }
            }
            "up" => Step::Up(row(0)),
            "down" => Step::Down(row(0)),
            "drop" => Step::Drop(row(0)),
            _ => {
                assert_eq!(kind, "order");
                order.iter_mut().zip(&numbers).for_each(|(place, &column)| *place = column as i64);
                continue;
            }
        });
    }
    (steps, order)
}

/// What the replay of each log leaves of its sheet; and that `k2-own` is the log of our own run.
#[test]
fn logs() {
    let folder = Path::new(env!("CARGO_MANIFEST_DIR")).join("../../examples");
    let sheet = |name: &str| read(&fs::read(folder.join(name).with_extension("sheet")).unwrap(), None).unwrap().system;
    let paths = fs::read_dir(folder.join("logs")).unwrap().map(|file| file.unwrap().path());
    let (mut accepted, mut refused) = (0, 0);
    for path in paths.filter(|path| path.extension().is_some_and(|e| e == "log")) {
        let name = path.file_stem().unwrap().to_str().unwrap().split('-').next().unwrap();
        let (steps, order) = log_of(&fs::read_to_string(&path).unwrap());
        let numbers: Vec<i64> = steps.iter().flat_map(Step::numbers).chain(order).collect();
        let answer = match replay(&sheet(name), steps.len(), &numbers, None) {
            Ok(run) => {
                accepted += 1;
                let left = write(&Sheet { system: run.system, order: run.order });
                format!("0\n{}", String::from_utf8(left).unwrap())
            }
            Err(number) => {
                refused += 1;
                format!("{number}\n")
            }
        };
        assert_eq!(fs::read_to_string(path.with_extension("replayed")).unwrap(), answer, "{}", path.display());
    }
    assert!(accepted > 1 && refused > 2);
    let own = log_of(&fs::read_to_string(folder.join("logs/k2-own.log")).unwrap()).0;
    assert_eq!(run_logged(&sheet("k2"), None).unwrap().1, own);
}

/// The polynomials that were found for each differential sheet of the folder, by their terms: each `+ a x^k` or `- a x^k` is read back.
#[test]
fn polynomials() {
    let folder = Path::new(env!("CARGO_MANIFEST_DIR")).join("../../examples/polynomials");
    let mut sheets = 0;
    for name in ["legendre", "hermite", "chebyshev", "euler", "pair", "half", "laguerre"] {
        let stored = fs::read_to_string(folder.join(name).with_extension("found")).unwrap();
        let mut lines = stored.lines();
        while let Some((sheet, says)) = lines.next().and_then(|line| line.split_once(": ")) {
            let bytes = fs::read(folder.join(sheet).with_extension("differential")).unwrap();
            let system = outside::differential::read(&bytes, None).unwrap().recurrence(None);
            sheets += 1;
            let found = match list(&system, None) {
                Err(refusal) => {
                    assert_eq!(says, format!("refused {}", refusal.number()));
                    continue;
                }
                Ok(None) => {
                    assert_eq!(says, "no polynomial");
                    continue;
                }
                Ok(Some(found)) => found,
            };
            assert_eq!(says, format!("up to degree {}, solutions {}", found.last, found.sequences.len()));
            for values in found.sequences {
                let line = lines.next().unwrap().trim();
                let mut stored = vec![0; values.len()];
                for (unknown, polynomial) in line.split(", ").enumerate() {
                    let (_, terms) = polynomial.split_once(" = ").unwrap();
                    for (power, a) in terms.replace("- ", "-").replace("+ ", "").split(' ').map(term) {
                        stored[power * system.sizes.m + unknown] = a;
                    }
                }
                assert_eq!(stored, values, "{sheet}");
            }
        }
        assert!(lines.next().is_none(), "{name}");
    }
    assert_eq!(sheets, 34);
}

/// The power and the coefficient of `a`, `ax` or `ax^k`, where a 1 is not written.
fn term(text: &str) -> (usize, i128) {
    let Some((number, power)) = text.split_once('x') else { return (0, text.parse().unwrap()) };
    let a = match number {
        "" => 1,
        "-" => -1,
        _ => number.parse().unwrap(),
    };
    (power.strip_prefix('^').map_or(1, |power| power.parse().unwrap()), a)
}
