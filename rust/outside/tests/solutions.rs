//! Lists of polynomial solutions, by hand, on many small systems, and on a file of vectors (02, U13).

use outside::fault::Fault;
use outside::list_checks::judged;
use outside::polynomial::Polynomial;
use outside::refusal::Refusal;
use outside::row::Row;
use outside::sheet::read;
use outside::solutions::*;
use outside::stores::{row_store, store, Asked, RELATION_STORE, ROW};
use outside::system::{Relation, Sizes, System};
use std::{env, fs, path::PathBuf};

fn system(sheet: &str) -> System {
    read(sheet.as_bytes(), None).expect("a whole sheet").system
}

fn listed(sheet: &str) -> Result<Option<List>, Refusal> {
    let system = system(sheet);
    sides_zero(&system, None).and_then(|()| list(&system, None))
}

fn some(last: usize, sequences: &[&[i128]]) -> Result<Option<List>, Refusal> {
    Ok(Some(List { last, sequences: sequences.iter().map(|values| values.to_vec()).collect() }))
}

/// The recurrence of a differential sheet.
fn of_differential(sheet: &str) -> Result<Option<List>, Refusal> {
    list(&outside::differential::read(sheet.as_bytes(), None).unwrap().recurrence(None), None)
}

/// (SCOPE 14.81)
#[test]
fn polynomials_of_old() {
    let legendre = |k: i64| format!("3 1 2 2\n1\n4 2 0 1 1 2 2 1 -1 1 1 1 -2 0 0 1 {}\n", k * (k + 1));
    assert_eq!(of_differential(&legendre(1)), some(1, &[&[0, 1]]));
    assert_eq!(of_differential(&legendre(3)), some(3, &[&[0, -3, 0, 5]]));
    assert_eq!(of_differential(&legendre(5)), some(5, &[&[0, 15, 0, -70, 0, 63]]));
    let hermite = "3 1 2 1\n1\n3 2 0 1 1 1 1 1 -2 0 0 1 14\n";
    assert_eq!(of_differential(hermite), some(7, &[&[0, -105, 0, 210, 0, -84, 0, 8]]));
    let chebyshev = "3 1 2 2\n1\n4 2 0 1 1 2 2 1 -1 1 1 1 -1 0 0 1 16\n";
    assert_eq!(of_differential(chebyshev), some(4, &[&[1, 0, -8, 0, 8]]));
}

#[test]
fn last_index() {
    let root = |r: i64| listed(&format!("3 1 0 0\n1\n1 0 1 2 {} 1\n0\n0\n", -r));
    assert_eq!(root(0), some(0, &[&[1]]));
    assert_eq!(root(2), some(2, &[&[0, 0, 1]]));
    assert!(root(15).unwrap().is_some_and(|list| list.last == 15));
    assert_eq!((root(16), root(-1)), (Err(Refusal::NotListed), Ok(None)));
    // (n - 2) (n + 5) x(n - 1): 2 is the root, and N one less.
    assert_eq!(listed("3 1 -1 -1\n1\n1 -1 1 3 -10 3 1\n0\n0\n"), some(1, &[&[0, 1]]));
    // No root; no equation, so a rank below m; and a side.
    assert_eq!(listed("3 1 0 0\n1\n1 0 1 1 7\n0\n0\n"), Ok(None));
    assert_eq!(listed("3 1 0 0\n0\n0\n0\n"), Err(Refusal::NotListed));
    assert_eq!(listed("3 1 0 0\n1\n1 0 1 1 7\n0\n0\n1\n1 3\n"), Err(Refusal::NotListed));
    assert_eq!(listed("3 1 0 0\n1\n1 0 1 1 7\n1\n2 0\n0\n2\n0\n1 3\n"), Err(Refusal::NotListed));
}

/// n (n - 1) (n - 2) x(n) leaves all of 0 to 2 free; a relation, 2 x(0) + 3 x(1) - 5 x(2) = 0, binds x(0).
#[test]
fn relations() {
    let equation = "3 1 1 -1\n1\n1 0 1 4 0 2 -3 1\n";
    assert_eq!(listed(&format!("{equation}0\n0\n")), some(2, &[&[1, 0, 0], &[0, 1, 0], &[0, 0, 1]]));
    let relation = "1\n1 3 1 1 1 -5 0 1 1 3 -1 1 1 2\n0\n";
    assert_eq!(listed(&format!("{equation}{relation}")), some(2, &[&[-3, 2, 0], &[5, 0, 2]]));
}

/// 12 comes from an entry within 0 to N only, and before 8 of the same one.
#[test]
fn limits() {
    // -(n + 62) x(n + 63), so that N is 1, and the relation a n^k x(n + 63) at an n0.
    let with = |n0: i64, power: usize, a: i64| {
        let zeros = "0 ".repeat(power);
        listed(&format!("3 1 64 63\n1\n1 63 1 2 -62 -1\n1\n{n0} 1 63 1 {} {zeros}{a}\n0\n", power + 1))
    };
    assert_eq!(listed("3 1 64 63\n1\n1 63 1 2 -62 -1\n0\n0\n"), some(1, &[&[0, 1]]));
    assert_eq!(with(-63, 0, 1), some(1, &[&[0, 1]]));
    assert_eq!(with(-62, 0, 1), some(1, &[]));
    assert_eq!(with(-62, 4, 18), some(1, &[]));
    assert_eq!(with(-62, 4, 19), Err(Refusal::Coefficient));
    assert_eq!(with(-62, 6, 19), Err(Refusal::Coefficient));
    assert_eq!(with(-62, 6, 20), Err(Refusal::Value));
    assert_eq!(with(-64, 15, 268_435_455), some(1, &[&[0, 1]]));
    assert_eq!(with(-61, 15, 268_435_455), some(1, &[&[0, 1]]));
}

// ---- the call ----

#[derive(Clone, Debug, PartialEq)]
struct Stores {
    rows: Vec<i64>,
    relations: Vec<i64>,
    asked: Asked,
    work_rows: Vec<i64>,
    work_relations: Vec<i64>,
    matrix: Vec<i64>,
    list: Vec<i64>,
    result: Vec<i64>,
}

impl Stores {
    /// A system's stores, all others full of 9; two numbers more than needed in each.
    fn of(system: &System) -> Stores {
        let (Sizes { m, l, t }, equations) = (system.sizes, system.rows.len());
        let asked = Asked { m, equations, l, t, count: system.relations.len() };
        let (mut rows, mut relations) = (vec![9; row_store(equations) + 2], vec![9; RELATION_STORE + 2]);
        store(system, &mut rows, &mut relations);
        let nines = |need: usize| vec![9; need + 2];
        let (work_rows, work_relations) = (nines(row_store(equations)), nines(RELATION_STORE));
        let (matrix, list, result) = (nines(MATRIX), nines(LIST), nines(ANSWER));
        Stores { rows, relations, asked, work_rows, work_relations, matrix, list, result }
    }

    fn call(&mut self, fault: Option<Fault>) -> u8 {
        let Stores { work_rows, work_relations, matrix, list, .. } = self;
        let lent = Lent { rows: work_rows, relations: work_relations, matrix, list };
        solutions_on_stores(&self.rows, &self.relations, self.asked, lent, &mut self.result, fault)
    }

    /// What the call leaves and answers.
    fn after(&self, fault: Option<Fault>) -> (u8, Stores) {
        let mut after = self.clone();
        (after.call(fault), after)
    }

    /// Zeros in the needed part of each store that is written, the rest as it was.
    fn cleared(&self) -> Stores {
        let mut cleared = self.clone();
        cleared.work_rows[..row_store(self.asked.equations)].fill(0);
        cleared.work_relations[..RELATION_STORE].fill(0);
        cleared.matrix[..MATRIX].fill(0);
        cleared.list[..LIST].fill(0);
        cleared.result[..ANSWER].fill(0);
        cleared
    }
}

const TWO: &str = "3 1 1 -1\n1\n1 0 1 4 0 2 -3 1\n1\n1 3 1 1 1 -5 0 1 1 3 -1 1 1 2\n0\n";

/// 20 n^6 x(n + 63) at -62, which is past 2^40.
const PAST_LIMIT: &str = "3 1 64 63\n1\n1 63 1 2 -62 -1\n1\n-62 1 63 1 7 0 0 0 0 0 0 20\n0\n";
/// n (n - 1) (n - 2) x(n), and 20,000 x(0) = x(1), 20,000 x(1) = x(2): the last of the values 1, 20,000 and 400,000,000 is past C.
const LARGE: &str = "3 1 1 -1\n1\n1 0 1 4 0 2 -3 1\n2\n1 2 0 1 1 -1 -1 1 1 20000\n2 2 0 1 1 -1 -1 1 1 20000\n0\n";

#[test]
fn what_is_left() {
    let stores = Stores::of(&system(TWO));
    let mut expected = stores.cleared();
    expected.list[..3].copy_from_slice(&[-3, 2, 0]);
    expected.list[COLUMNS..COLUMNS + 3].copy_from_slice(&[5, 0, 2]);
    expected.result[..3].copy_from_slice(&[1, 2, 2]);
    assert_eq!(stores.after(None), (0, expected));
    // Nothing to list; refused during the work; and before it.
    let none = Stores::of(&system("3 1 0 0\n1\n1 0 1 2 1 1\n0\n0\n"));
    assert_eq!(none.after(None), (0, none.cleared()));
    for (sheet, number) in [
        ("3 1 0 0\n0\n0\n0\n", 14),
        ("3 1 0 0\n1\n1 0 1 2 -16 1\n0\n0\n", 14),
        ("3 1 1 0\n1\n1 1 1 3 0 0 268435455\n0\n0\n", 8),
        (PAST_LIMIT, 12),
        (LARGE, 8),
    ] {
        let stores = Stores::of(&system(sheet));
        assert_eq!(stores.after(None), (number, stores.cleared()), "{sheet}");
    }
    let side = Stores::of(&system("3 1 0 0\n1\n1 0 1 1 7\n0\n0\n1\n1 3\n"));
    assert_eq!(side.after(None), (14, side.clone()));
}

#[test]
fn refused_before_the_work() {
    let refusal = |change: fn(&mut Stores)| {
        let mut stores = Stores::of(&system(TWO));
        change(&mut stores);
        let (number, after) = stores.after(None);
        assert_eq!(after, stores);
        number
    };
    assert_eq!(refusal(|s| (s.asked.m, s.list) = (5, vec![])), 2);
    assert_eq!(refusal(|s| (s.asked.equations, s.rows) = (usize::MAX, vec![])), 2);
    assert_eq!(refusal(|s| (s.asked.count, s.rows[0]) = (17, i64::MIN)), 2);
    assert_eq!(refusal(|s| s.rows.truncate(ROW - 1)), 1);
    assert_eq!(refusal(|s| s.relations.truncate(RELATION_STORE - 1)), 1);
    assert_eq!(refusal(|s| s.work_rows.truncate(ROW - 1)), 1);
    assert_eq!(refusal(|s| s.work_relations.truncate(RELATION_STORE - 1)), 1);
    assert_eq!(refusal(|s| s.matrix.truncate(MATRIX - 1)), 1);
    assert_eq!(refusal(|s| s.list.truncate(LIST - 1)), 1);
    assert_eq!(refusal(|s| (s.rows[0], s.result) = (i64::MIN, vec![0; 2])), 1);
    assert_eq!(refusal(|s| (s.rows[0], s.rows[ROW - 1]) = (i64::MIN, 1)), 5);
    assert_eq!(refusal(|s| s.rows[ROW - 1] = 1), 14);
    assert_eq!(refusal(|s| s.relations[ROW] = 1), 14);
}

// ---- many systems ----

/// Numbers that look like chance, the same each time.
struct Chance(u64);

impl Chance {
    fn below(&mut self, n: i128) -> i128 {
        self.0 = self.0.wrapping_mul(6364136223846793005).wrapping_add(1442695040888963407);
        ((self.0 >> 33) as i128).rem_euclid(n)
    }

    fn one_in(&mut self, n: i128) -> bool {
        self.below(n) == 0
    }
}

fn small(chance: &mut Chance) -> Polynomial {
    let large = if chance.one_in(6) { 30_000 } else { 5 };
    let count = 1 + chance.below(3);
    let coefficients = (0..count).map(|_| chance.below(2 * large + 1) - large).collect();
    let p = Polynomial::new(coefficients);
    match chance.below(20) {
        0 => (0..10).fold(p, |p, _| p.times(&Polynomial::linear(0))),
        _ => p,
    }
}

/// A system whose trailing block is nearly triangular, with roots there that give a small N.
fn made(chance: &mut Chance) -> System {
    let m = 1 + chance.below(3) as usize;
    let t = if chance.one_in(4) { chance.below(60) as i64 - 30 } else { chance.below(5) as i64 - 2 };
    let l = t + chance.below(3) as i64;
    let mut rows = Vec::new();
    for unknown in 1..=m {
        let mut row = Row::default();
        for block in t..=l {
            for column in 1..=m {
                if block > t && chance.one_in(2) || block == t && column > unknown && chance.one_in(3) {
                    row.set(block, column, small(chance));
                }
            }
        }
        let mut diagonal = Polynomial::new(vec![1 + chance.below(3)]);
        for _ in 0..1 + chance.below(3) {
            let last = if chance.one_in(5) { 13 + chance.below(5) } else { chance.below(9) - 1 };
            diagonal = diagonal.times(&Polynomial::linear(last - t as i128));
        }
        row.set(t, unknown, diagonal);
        rows.push(row);
    }
    if chance.one_in(12) {
        rows.pop();
    }
    if chance.one_in(6) {
        rows.extend(rows.first().cloned());
    }
    let mut relations = Vec::new();
    for _ in 0..chance.below(5) - 2 {
        let mut row = Row::default();
        for block in t..=l {
            for column in 1..=m {
                row.set(block, column, small(chance));
            }
        }
        let n0 = chance.below(9) - t as i128 - 1;
        relations.push(Relation { n0, row });
    }
    let mut system = System { sizes: Sizes { m, l, t }, rows, relations };
    if chance.one_in(15) {
        if let Some(row) = system.all_rows_mut().last() {
            row.set_right(Polynomial::new(vec![2]));
        }
    }
    system
}

/// Lists, and systems without one, with all that is promised of them.
#[test]
fn many() {
    let mut chance = Chance(13);
    let mut seen = [0; 16];
    let mut sequences = 0;
    for _ in 0..500 {
        let system = made(&mut chance);
        let outcome = sides_zero(&system, None).and_then(|()| list(&system, None));
        match &outcome {
            Ok(None) => {
                judged(&system, None).unwrap();
                seen[1] += 1;
            }
            Ok(Some(list)) => {
                judged(&system, Some(list)).unwrap();
                sequences += list.sequences.len();
                seen[0] += 1;
            }
            Err(refusal) => seen[refusal.number() as usize] += 1,
        }
    }
    println!("{sequences} sequences; lists, none, and refusals by their number: {seen:?}");
    assert!([0, 1, 8, 12, 14].iter().all(|&k| seen[k] > 0), "{seen:?}");
}

/// Systems on which one fault or another shows that the others do not meet.
fn particular() -> Vec<Stores> {
    let sheets = [
        TWO,
        // N = 15 and 16.
        "3 1 0 0\n1\n1 0 1 2 -15 1\n0\n0\n",
        "3 1 0 0\n1\n1 0 1 2 -16 1\n0\n0\n",
        // A side, beside a shift that is refused with 8.
        "3 1 1 0\n1\n1 1 1 3 0 0 268435455\n0\n0\n1\n1 1\n",
        // No root.
        "3 1 0 0\n1\n1 0 1 1 7\n0\n0\n",
        PAST_LIMIT,
        LARGE,
    ];
    sheets.iter().map(|sheet| Stores::of(&system(sheet))).collect()
}

/// Each planted fault shows in some system, or in a store that is too short.
#[test]
fn faults() {
    let mut chance = Chance(31);
    let mut cases = particular();
    cases.extend((0..300).map(|_| Stores::of(&made(&mut chance))));
    let mut short = Stores::of(&system(TWO));
    short.matrix.truncate(MATRIX - COLUMNS);
    cases.push(short);
    let mut short = Stores::of(&system(TWO));
    short.list.truncate(LIST - 1);
    cases.push(short);
    let right: Vec<(u8, Stores)> = cases.iter().map(|case| case.after(None)).collect();
    let place = |of: Fault| Fault::ALL.iter().position(|&fault| fault == of).unwrap();
    let mut missed = Vec::new();
    for &fault in &Fault::ALL[place(Fault::RelationSideListed)..=place(Fault::ListShorter)] {
        match cases.iter().zip(&right).position(|(case, right)| case.after(Some(fault)) != *right) {
            Some(k) => println!("{fault:?}: {k}"),
            None => missed.push(fault),
        }
    }
    assert_eq!(missed, []);
}

// ---- vectors ----

/// `N TOP count K` and K lines, `none`, or `refused N`.
fn solutions_text(system: &System) -> String {
    let stores = Stores::of(system);
    let (number, after) = stores.after(None);
    let mut expected = if number == 0 || after != stores { stores.cleared() } else { stores.clone() };
    let [any, last, count] = after.result[..ANSWER] else { unreachable!() };
    let columns = (last as usize + 1) * system.sizes.m;
    expected.result[..ANSWER].copy_from_slice(&[any, last, count]);
    let mut text = match (number, any) {
        (0, 0) => "none\n".to_string(),
        (0, _) => format!("N {last} count {count}\n"),
        _ => format!("refused {number}\n"),
    };
    if (number, any) == (0, 1) {
        for at in (0..count as usize).map(|k| k * COLUMNS) {
            let sequence = &after.list[at..at + columns];
            expected.list[at..at + columns].copy_from_slice(sequence);
            text += &(sequence.iter().map(i64::to_string).collect::<Vec<_>>().join(" ") + "\n");
        }
        let sequences = (0..count as usize).map(|k| &after.list[k * COLUMNS..k * COLUMNS + columns]);
        let sequences = sequences.map(|values| values.iter().map(|&a| a as i128).collect()).collect();
        judged(system, Some(&List { last: last as usize, sequences })).unwrap();
    }
    if (number, any) == (0, 0) {
        judged(system, None).unwrap();
    }
    assert!(after == expected, "a store is left otherwise: {system:?}");
    text
}

/// Every case of `calls/solutions.txt` beside the folder that WURGALM_VECTORS names.
#[test]
#[ignore = "needs a folder of vectors"]
fn vectors() {
    let folder: PathBuf = env::var_os("WURGALM_VECTORS").expect("WURGALM_VECTORS names a folder").into();
    let file = fs::read(folder.join("../calls/solutions.txt")).expect("the folder has one of calls beside it");
    let (mut rest, mut count) = (&file[..], 0);
    while !rest.is_empty() {
        let end = rest.iter().position(|&b| b == b'\n').unwrap();
        let line = std::str::from_utf8(&rest[..end]).unwrap();
        let length: usize = line.strip_prefix("sheet ").unwrap().parse().unwrap();
        let (bytes, after) = rest[end + 1..].split_at(length);
        let expected = solutions_text(&read(bytes, None).unwrap().system);
        assert!(after.starts_with(expected.as_bytes()), "{}{expected}", String::from_utf8_lossy(bytes));
        rest = &after[expected.len()..];
        count += 1;
    }
    println!("solutions: {count} cases");
    assert!(count > 0);
}
