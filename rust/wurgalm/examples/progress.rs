//! A leading run that shows how far it has come: `progress SHEET [BUDGET]`. After each call of at most BUDGET steps, 1 where none is given,
//! it writes a line: the steps so far, how many of the rows that are left are settled, the shifts, the relations.
//!
//!     cargo run --release --example progress -- ../examples/k2.sheet
//!
//! At the end stands `finished` with the rank and the last root, or `refused` with the number and the steps before it. On a screen the lines
//! overwrite each other.

use std::io::{stdout, IsTerminal, Write};
use std::{env, fs, process, thread, time};
use wurgalm::{read_sheet, row_store, Progress, Run, EQUATIONS, RELATION_STORE};

/// On a screen each line stays for so long, so that it can be seen.
const PAUSE: time::Duration = time::Duration::from_millis(100);

/// A message, and the end of the program.
fn end(message: &str) -> ! {
    eprintln!("{message}");
    process::exit(2)
}

fn shown(taken: usize, progress: &Progress) -> String {
    let state = &progress.state;
    let (settled, rows) = (state.settled, state.sizes.equations);
    format!("steps {taken}, settled {settled} of {rows}, shifts {}, relations {}", state.shifts, state.relations)
}

fn main() {
    let arguments: Vec<String> = env::args().skip(1).collect();
    let (path, budget) = match &arguments[..] {
        [path] => (path, 1),
        [path, budget] => (path, budget.parse().unwrap_or(0)),
        _ => end("progress SHEET [BUDGET]"),
    };
    if budget == 0 {
        end("a budget is a number from 1 on");
    }
    let Ok(sheet) = fs::read(path) else { end("the sheet cannot be read") };
    let (mut rows, mut relations) = (vec![0; row_store(EQUATIONS)], vec![0; RELATION_STORE]);
    let read = read_sheet(&sheet, &mut rows, &mut relations);
    let run = read.and_then(|heading| Run::prepare(&mut rows, &mut relations, heading.sizes, heading.relations));
    let mut run = match run {
        Ok(run) => run,
        Err(refusal) => return println!("refused {}", refusal.0),
    };

    let on_screen = stdout().is_terminal();
    let below = if on_screen { "\n" } else { "" };
    let mut taken = 0;
    for answer in run.steps(budget) {
        let progress = match answer {
            Ok(progress) => progress,
            Err(refused) => {
                return println!("{below}refused {}, steps {}", refused.refusal.0, taken + refused.steps);
            }
        };
        taken += progress.steps;
        let line = shown(taken, &progress);
        if on_screen {
            print!("\r{line}");
            stdout().flush().unwrap_or_else(|_| end("standard output cannot be written"));
            thread::sleep(PAUSE);
        } else {
            println!("{line}");
        }
        if let Some(report) = progress.report {
            let root = report.root.map_or("no root".into(), |root| format!("last root {root}"));
            println!("{below}finished, rank {}, {root}", report.rank);
        }
    }
}
