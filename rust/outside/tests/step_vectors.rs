//! The files `steps.txt` and `states.txt` of the folder `calls` beside the one that WURGALM_VECTORS names (02, U9). The tests are left out
//! unless they are asked for by `-- --include-ignored`, and fail where no folder is named.

use outside::elimination::Side;
use outside::sheet::read;
use outside::step_calls::{prepare_on_stores, run_steps_on_stores, STATE, STEPS};
use outside::stores::{row_store, run_on_stores, store, write_on_stores, Asked, RELATION_STORE, RESULT};
use outside::system::System;
use std::path::PathBuf;
use std::{env, fs};

fn file(name: &str) -> String {
    let folder: PathBuf = env::var_os("WURGALM_VECTORS").expect("WURGALM_VECTORS names a folder").into();
    fs::read_to_string(folder.join("../calls").join(name)).expect("the folder has one of calls beside it")
}

fn numbers(words: &str) -> Vec<i64> {
    words.split_ascii_whitespace().map(|word| word.parse().unwrap()).collect()
}

/// A system in stores, and the state that is prepared of it.
fn stores(system: &System) -> (Vec<i64>, Vec<i64>, [i64; STATE]) {
    let (mut rows, mut relations) = (vec![0; row_store(system.rows.len())], vec![0; RELATION_STORE]);
    store(system, &mut rows, &mut relations);
    let mut state = [7; STATE];
    assert_eq!(prepare_on_stores(&rows, &relations, asked(system), &mut state, None), 0);
    (rows, relations, state)
}

fn asked(system: &System) -> Asked {
    let (sizes, equations, count) = (system.sizes, system.rows.len(), system.relations.len());
    Asked { m: sizes.m, equations, l: sizes.l, t: sizes.t, count }
}

/// The state that the stores hold: its shifts, and the sheet of its rows, relations and settled columns.
fn state_text(rows: &[i64], relations: &[i64], state: &[i64; STATE]) -> String {
    let [m, equations, l, t, count, settled, ref columns @ .., shifts] = *state;
    let asked = Asked { m: m as usize, equations: equations as usize, l, t, count: count as usize };
    let (mut bytes, mut length) = (vec![0; 1 << 20], [0]);
    let number = write_on_stores(rows, relations, asked, columns, &mut bytes, &mut length, None);
    assert_eq!((number, columns.iter().filter(|&&c| c != 0).count()), (0, settled as usize));
    format!("state {shifts}\n{}", std::str::from_utf8(&bytes[..length[0] as usize]).unwrap())
}

/// What the runs with the budgets say, one line each, and the state that they come to.
fn runs_text(system: &System, budgets: &[i64]) -> String {
    let (mut rows, mut relations, mut state) = stores(system);
    let mut text = String::new();
    for &budget in budgets {
        let mut result = [7; STEPS];
        let number = run_steps_on_stores(&mut rows, &mut relations, &mut state, budget as usize, &mut result, None);
        let (steps, zeros) = (result[0], result[2..] == [0; RESULT]);
        match (number, result[1]) {
            (0, 0) => text += &format!("steps {steps} going\n"),
            (0, _) => text += &format!("steps {steps} done\n"),
            _ => {
                text += &format!("steps {steps} refused {number}\n");
                assert!(zeros && result[1] == 0 && state == [0; STATE]);
                assert!(rows.iter().chain(&relations).all(|&a| a == 0));
                return text;
            }
        }
        assert!(zeros || result[1] == 1);
    }
    text + &state_text(&rows, &relations, &state)
}

/// The old call is the run to the end.
fn whole_run(system: &System) {
    let (mut rows, mut relations, mut state) = stores(system);
    let (mut rows_of_run, mut relations_of_run) = (rows.clone(), relations.clone());
    let (mut result, mut numbers) = ([7; STEPS], [7; RESULT]);
    let side = Side::Leading;
    let whole = run_on_stores(side, &mut rows_of_run, &mut relations_of_run, asked(system), &mut numbers, None);
    let number = run_steps_on_stores(&mut rows, &mut relations, &mut state, usize::MAX, &mut result, None);
    assert_eq!((number, &rows, &relations), (whole, &rows_of_run, &relations_of_run));
    assert_eq!(result[1..], [&[(whole == 0) as i64], &numbers[..]].concat());
}

#[test]
#[ignore = "needs a folder of vectors"]
fn budgets() {
    let all = file("steps.txt");
    let (mut rest, mut count) = (&all[..], 0);
    while !rest.is_empty() {
        let (line, after) = rest.split_once('\n').unwrap();
        let length: usize = line.strip_prefix("sheet ").unwrap().parse().unwrap();
        let (sheet, after) = after.split_at(length);
        let (line, after) = after.split_once('\n').unwrap();
        let system = read(sheet.as_bytes(), None).unwrap().system;
        let text = runs_text(&system, &numbers(line.strip_prefix("budgets").unwrap()));
        assert!(after.starts_with(&text), "{sheet}{line}\n{text}");
        whole_run(&system);
        rest = &after[text.len()..];
        count += 1;
    }
    println!("steps: {count} cases");
    assert!(count > 0);
}

/// A store of a length, with numbers at positions and zeros elsewhere.
fn store_of(line: &str, name: &str) -> Vec<i64> {
    let numbers = numbers(line.strip_prefix(name).unwrap());
    let mut store = vec![0; numbers[0] as usize];
    numbers[1..].chunks(2).for_each(|pair| store[pair[0] as usize] = pair[1]);
    store
}

#[test]
#[ignore = "needs a folder of vectors"]
fn states() {
    let all = file("states.txt");
    let lines: Vec<&str> = all.lines().collect();
    for case in lines.chunks(4) {
        let mut state = numbers(case[0].strip_prefix("state").unwrap());
        let (mut rows, mut relations) = (store_of(case[1], "rows"), store_of(case[2], "relations"));
        let before = (rows.clone(), relations.clone(), state.clone());
        let mut result = [7; STEPS];
        let number = run_steps_on_stores(&mut rows, &mut relations, &mut state, 0, &mut result, None);
        assert_eq!(format!("answer {number}"), case[3], "{}", case[..3].join("\n"));
        assert!((rows, relations, state) == before, "{} has moved", case[0]);
        assert!(number == 0 && result[0] == 0 || number != 0 && result == [7; STEPS]);
    }
    println!("states: {} cases", lines.len() / 4);
    assert!(!lines.is_empty());
}
