//! The systems of known result, K1 to K11 (SCOPE 7.1 to 7.11), and K2 with input relations (SCOPE 7.12).

use outside::elimination::{run, Run, Side};
use outside::polynomial::Polynomial;
use outside::refusal::Refusal;
use outside::row::Row;
use outside::system::{Relation, Sizes, System};

const X: usize = 1;
const Y: usize = 2;

/// An equation from block, column and coefficients.
fn row(terms: &[(i64, usize, &[i128])]) -> Row {
    let mut row = Row::default();
    for &(block, column, coefficients) in terms {
        row.set(block, column, Polynomial::new(coefficients.to_vec()));
    }
    row
}

fn system(l: i64, t: i64, rows: &[Row]) -> System {
    System { sizes: Sizes { m: rows.len(), l, t }, rows: rows.to_vec(), relations: Vec::new() }
}

fn leading(l: i64, t: i64, rows: &[Row]) -> Result<Run, Refusal> {
    run(&system(l, t, rows), Side::Leading, None)
}

fn power(n: usize) -> Vec<i128> {
    let mut coefficients = vec![0; n];
    coefficients.push(1);
    coefficients
}

#[test]
fn k1() {
    let first = row(&[(0, X, &[-1, 1]), (-3, Y, &[-1])]);
    let second = row(&[(0, X, &[-2]), (-1, Y, &[-2, 1])]);
    let run = leading(0, -3, &[first, second.clone()]).unwrap();
    assert_eq!(run.system.rows, [second, row(&[(0, Y, &[0, -1, 1]), (-2, Y, &[-2])])]);
    assert_eq!((run.shifts, run.order, run.root), (1, vec![1, 2], Some(1)));
    assert_eq!(run.system.relations, []);
}

fn k2() -> System {
    system(1, 0, &[row(&[(1, X, &[0, 1]), (0, Y, &[-1])]), row(&[(1, X, &[1]), (0, X, &[-1])])])
}

#[test]
fn k2_through_the_batch() {
    let input = "1\n1 54\n3 2 1 0\n2\n2 1 1 2 0 1 0 2 1 -1\n2 1 1 1 1 0 1 1 -1\n0\n0\n";
    let output = "0\n3 2 1 0\n2\n2 1 1 2 -1 -1 1 2 1 1\n2 1 2 2 0 1 0 2 2 -1 -1\n2\n0 2 1 1 1 1 0 1 1 -1\n-1 2 1 1 2 0 1 0 2 1 -1\n2 1 2\n";
    let counts = "1 0\n0 0\n0 0\n0 0\n0 0\n0 0\n0 0\n0 0\n";
    assert_eq!(String::from_utf8(outside::batch::output(input.as_bytes(), None)).unwrap(), format!("{output}{counts}"));
    let run = run(&k2(), Side::Leading, None).unwrap();
    assert_eq!((run.shifts, run.root), (1, Some(0)));
}

#[test]
fn k2_with_input_relations() {
    let mut system = k2();
    system.relations = vec![Relation { n0: 7, row: Row::default() }; 14];
    assert_eq!(run(&system, Side::Leading, None).unwrap().system.relations.len(), 16);
    system.relations.push(system.relations[0].clone());
    assert_eq!(run(&system, Side::Leading, None), Err(Refusal::Relations));
}

#[test]
fn k3() {
    let only = row(&[(1, X, &[-3, 1]), (0, X, &[-1])]);
    let run = leading(1, 0, std::slice::from_ref(&only)).unwrap();
    assert_eq!((run.system.rows, run.root, run.shifts), (vec![only], Some(3), 0));
}

/// A zero row is dropped; of two equal equations the second is (02, U6).
#[test]
fn k4_k5() {
    let none = leading(0, 0, &[row(&[])]).unwrap();
    assert_eq!((none.rank(), none.system.rows, none.root), (0, vec![], None));
    let twice = row(&[(1, X, &[1]), (0, Y, &[1])]);
    let one = leading(1, 0, &[twice.clone(), twice.clone()]).unwrap();
    assert_eq!((one.rank(), one.order, one.system.rows), (1, vec![X], vec![twice]));
}

#[test]
fn k6() {
    let run = leading(4, 0, &[row(&[(0, X, &[1])])]).unwrap();
    assert_eq!((run.system.rows, run.shifts), (vec![row(&[(4, X, &[1])])], 4));
}

/// n leaves the multipliers, so that the degree stays within 15 (02, U7); the row in turn has its relation at 0 all the same.
#[test]
fn k7_k8() {
    let second = row(&[(0, X, &[0, 1]), (0, Y, &[0, 1])]);
    for (n, side, root) in [(14, Side::Leading, 1), (15, Side::Leading, 1), (15, Side::Trailing, 0)] {
        let system = system(0, 0, &[row(&[(0, X, &power(n)), (0, Y, &[1])]), second.clone()]);
        let mut left = power(n);
        left[0] = -1;
        let run = run(&system, side, None).unwrap();
        assert_eq!(run.system.rows[1], row(&[(0, Y, &left)]));
        assert_eq!(run.system.relations, [Relation { n0: 0, row: second.clone() }]);
        assert_eq!((run.shifts, run.order, run.root), (0, vec![1, 2], Some(root)));
    }
}

#[test]
fn k9_k10() {
    let with = |a, p: &[i128]| leading(0, 0, &[row(&[(0, X, &[a]), (0, Y, &[1])]), row(&[(0, X, &[1]), (0, Y, p)])]);
    assert!(with(10_000, &[1, 20_000]).is_ok());
    assert_eq!(with(20_000, &[1, 20_000]), Err(Refusal::Coefficient));
    assert_eq!(with(20_000, &[20_000]).unwrap().system.rows[1], row(&[(0, Y, &[1])]));
}

#[test]
fn k11() {
    let run = run(&system(1, 0, &[row(&[(1, X, &[0, 1])])]), Side::Trailing, None).unwrap();
    assert_eq!((run.system.rows, run.shifts, run.root), (vec![row(&[(0, X, &[-1, 1])])], 1, Some(1)));
}
