//! Polynomial solutions (02, U13) through the library.

use std::fs;
use std::path::Path;
use wurgalm::{read_differential, read_sheet, row_store, solutions, stores};
use wurgalm::{Heading, Refusal, Solutions, EQUATIONS, LIST_STORE, MATRIX_STORE, RELATION_STORE, ROW, SEQUENCE};

/// n (n - 1) (n - 2) x(n) = 0 with 2 x(0) + 3 x(1) - 5 x(2) = 0.
const TWO: &str = "3 1 1 -1\n1\n1 0 1 4 0 2 -3 1\n1\n1 3 1 1 1 -5 0 1 1 3 -1 1 1 2\n0\n";

fn read(sheet: &str) -> (Vec<i64>, Vec<i64>, Heading) {
    let (mut rows, mut relations) = (vec![0; row_store(EQUATIONS)], vec![0; RELATION_STORE]);
    let heading = read_sheet(sheet.as_bytes(), &mut rows, &mut relations).unwrap();
    (rows, relations, heading)
}

fn of_sheet(sheet: &str) -> Result<Option<Solutions>, Refusal> {
    let (rows, relations, heading) = read(sheet);
    solutions(&rows, &relations, heading.sizes, heading.relations)
}

fn of_differential(sheet: &[u8]) -> Result<Option<Solutions>, Refusal> {
    let (mut rows, mut relations) = (vec![0; row_store(EQUATIONS)], vec![0; RELATION_STORE]);
    let heading = read_differential(sheet, &mut rows, &mut relations).unwrap();
    solutions(&rows, &relations, heading.sizes, heading.relations)
}

fn some(last: usize, unknowns: usize, sequences: &[&[i64]]) -> Result<Option<Solutions>, Refusal> {
    let sequences = sequences.iter().map(|values| values.to_vec()).collect();
    Ok(Some(Solutions { last, unknowns, sequences }))
}

#[test]
fn lists() {
    assert_eq!(of_sheet(TWO), some(2, 1, &[&[-3, 2, 0], &[5, 0, 2]]));
    // n (x(n) - 2 y(n)) = 0, (n - 1) y(n) = 0: at index 1 x = 2 y, at index 0 anything in x.
    assert_eq!(of_sheet("3 2 0 0\n2\n2 0 1 1 1 0 2 1 -2\n1 0 2 2 -1 1\n0\n0\n"), some(1, 2, &[&[0, 0, 2, 1]]));
    assert_eq!(of_sheet("3 1 0 0\n1\n1 0 1 1 7\n0\n0\n"), Ok(None));
    assert_eq!(of_sheet("3 1 0 0\n1\n1 0 1 2 1 1\n0\n0\n"), Ok(None));
    // N = 15 and 16; no equation; a right side.
    assert_eq!(of_sheet("3 1 0 0\n1\n1 0 1 2 -15 1\n0\n0\n").unwrap().unwrap().last, 15);
    assert_eq!(of_sheet("3 1 0 0\n1\n1 0 1 2 -16 1\n0\n0\n"), Err(Refusal(14)));
    assert_eq!(of_sheet("3 1 0 0\n0\n0\n0\n"), Err(Refusal(14)));
    assert_eq!(of_sheet("3 1 0 0\n1\n1 0 1 1 7\n0\n0\n1\n1 3\n"), Err(Refusal(14)));
    // 20 n^6 at -62 is past 2^40; 20,000 x(0) = x(1), 20,000 x(1) = x(2) lists 400,000,000.
    assert_eq!(of_sheet("3 1 64 63\n1\n1 63 1 2 -62 -1\n1\n-62 1 63 1 7 0 0 0 0 0 0 20\n0\n"), Err(Refusal(12)));
    let large = "2\n1 2 0 1 1 -1 -1 1 1 20000\n2 2 0 1 1 -1 -1 1 1 20000\n0\n";
    assert_eq!(of_sheet(&format!("3 1 1 -1\n1\n1 0 1 4 0 2 -3 1\n{large}")), Err(Refusal(8)));
}

#[test]
fn parts_of_a_list() {
    let list = of_sheet("3 2 0 0\n2\n2 0 1 1 1 0 2 1 -2\n1 0 2 2 -1 1\n0\n0\n").unwrap().unwrap();
    assert_eq!((list.polynomial(0, 1), list.polynomial(0, 2)), (vec![0, 2], vec![0, 1]));
    assert!([(0, 0), (0, 3), (1, 1)].iter().all(|&(sequence, unknown)| list.polynomial(sequence, unknown).is_empty()));
}

/// The polynomials of Legendre, Chebyshev and Hermite by their own recurrences, made primitive, and those of the sheets of `examples/`.
#[test]
fn examples() {
    let folder = Path::new(env!("CARGO_MANIFEST_DIR")).join("../../examples/polynomials");
    // k P(k) = (2k - 1) x P(k-1) - (k - 1) P(k-2), T(k) = 2x T(k-1) - T(k-2), H(k) = 2x H(k-1) - 2 (k - 1) H(k-2)
    type Next = fn(i64) -> (i64, i64, i64);
    let families: [(&str, Next); 3] = [
        ("legendre", |k| (2 * k - 1, k - 1, k)),
        ("chebyshev", |k| (if k == 1 { 1 } else { 2 }, 1, 1)),
        ("hermite", |k| (2, 2 * (k - 1), 1)),
    ];
    for (name, next) in families {
        let (mut before, mut last) = ((vec![0], 1), (vec![1], 1));
        for k in 1..=10 {
            // Each is a list of numbers over one denominator.
            let (a, b, over) = next(k);
            let below = last.1 * before.1;
            let at =
                |(numbers, own): &(Vec<i64>, i64), place: usize| numbers.get(place).map_or(0, |n| n * (below / own));
            let value = |j: usize| a * j.checked_sub(1).map_or(0, |j| at(&last, j)) - b * at(&before, j);
            let mut numbers: Vec<i64> = (0..=k as usize).map(value).collect();
            let mut denominator = below * over;
            let common = numbers.iter().fold(denominator, |d, &n| divisor(d, n));
            numbers.iter_mut().for_each(|n| *n /= common);
            denominator /= common;
            let primitive = numbers.iter().fold(0, |d, &n| divisor(d, n));
            let expected: Vec<i64> = numbers.iter().map(|n| n / primitive).collect();
            let sheet = fs::read(folder.join(format!("{name}-{k:02}.differential"))).unwrap();
            let list = of_differential(&sheet).unwrap().unwrap();
            assert_eq!((list.last, list.sequences.len()), (k as usize, 1), "{name} {k}");
            assert_eq!(list.polynomial(0, 1), expected, "{name} {k}");
            (before, last) = (last, (numbers, denominator));
        }
    }
}

fn divisor(a: i64, b: i64) -> i64 {
    if b == 0 {
        a.abs()
    } else {
        divisor(b, a % b)
    }
}

/// What the call leaves in every store: after a list, after 14 before the work, after 14 during it, and where a store is too short.
#[test]
fn what_is_left() {
    for (sheet, short, number) in [
        (TWO, 0, 0),
        (TWO, 1, 1),
        ("3 1 0 0\n1\n1 0 1 1 7\n0\n0\n1\n1 3\n", 0, 14),
        ("3 1 0 0\n1\n1 0 1 2 -16 1\n0\n0\n", 0, 14),
        ("3 1 0 0\n0\n0\n0\n", 0, 14),
    ] {
        let (rows, relations, heading) = read(sheet);
        let needs = [heading.sizes.equations * ROW, RELATION_STORE, MATRIX_STORE, LIST_STORE - short, 3];
        let before = needs.map(|need| vec![9; need]);
        let [mut a, mut b, mut c, mut d, mut e] = before.clone();
        let (s, count) = (heading.sizes, heading.relations);
        let answer = stores::solutions(
            &rows,
            &relations,
            s.m,
            s.equations,
            s.l,
            s.t,
            count,
            &mut a,
            &mut b,
            &mut c,
            &mut d,
            &mut e,
        );
        assert_eq!(answer, number, "{sheet}");
        let mut expected = needs.map(|need| vec![0; need]);
        if number == 0 {
            expected[3][..3].copy_from_slice(&[-3, 2, 0]);
            expected[3][SEQUENCE..SEQUENCE + 3].copy_from_slice(&[5, 0, 2]);
            expected[4].copy_from_slice(&[1, 2, 2]);
        } else if number == 1 || sheet.ends_with("1\n1 3\n") {
            expected = before;
        }
        assert!([a, b, c, d, e] == expected, "{sheet}");
    }
}
