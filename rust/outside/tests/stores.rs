//! What calls on stores leave, and the order of their checks.

use outside::elimination::Side;
use outside::stores::*;

const K3: Asked = Asked { m: 1, equations: 1, l: 1, t: 0, count: 0 };

/// (n-3)x(n+1) - x(n) in stores with 9 past the needed part.
fn k3_stores() -> (Vec<i64>, Vec<i64>, Vec<i64>) {
    let (mut rows, mut relations) = (vec![0; ROW + 2], vec![0; RELATION_STORE + 2]);
    (rows[0], rows[1], rows[64]) = (-3, 1, -1);
    rows[ROW..].fill(9);
    relations[RELATION_STORE..].fill(9);
    (rows, relations, vec![9; RESULT + 2])
}

#[test]
fn accepted() {
    let (mut rows, mut relations, mut result) = k3_stores();
    let before = (rows.clone(), relations.clone());
    assert_eq!(run_on_stores(Side::Leading, &mut rows, &mut relations, K3, &mut result, None), 0);
    assert_eq!((rows, relations), before);
    assert_eq!(result, [0, 0, 1, 0, 0, 0, 1, 3, 1, 1, 9, 9]);
}

#[test]
fn refused_during_the_work() {
    let (mut rows, mut relations, mut result) = k3_stores();
    rows[2] = 268_435_455;
    (rows[0], rows[1], rows[64]) = (0, 0, 0);
    assert_eq!(run_on_stores(Side::Trailing, &mut rows, &mut relations, K3, &mut result, None), 8);
    assert!(rows[..ROW].iter().chain(&relations[..RELATION_STORE]).chain(&result[..RESULT]).all(|&a| a == 0));
    assert_eq!(
        (&rows[ROW..], &relations[RELATION_STORE..], &result[RESULT..]),
        (&[9; 2][..], &[9; 2][..], &[9; 2][..])
    );
}

#[test]
fn refused_before_the_work() {
    let refusal = |asked, change: fn(&mut Vec<i64>, &mut Vec<i64>, &mut Vec<i64>)| {
        let (mut rows, mut relations, mut result) = k3_stores();
        change(&mut rows, &mut relations, &mut result);
        let before = (rows.clone(), relations.clone(), result.clone());
        let number = run_on_stores(Side::Leading, &mut rows, &mut relations, asked, &mut result, None);
        assert_eq!((rows, relations, result), before);
        number
    };
    assert_eq!(refusal(Asked { m: 0, ..K3 }, |rows, _, _| rows.clear()), 2);
    assert_eq!(refusal(Asked { equations: 7, ..K3 }, |rows, _, _| rows.clear()), 2);
    assert_eq!(refusal(Asked { equations: usize::MAX, ..K3 }, |_, _, result| result.clear()), 2);
    assert_eq!(refusal(Asked { equations: 2, ..K3 }, |_, _, _| ()), 1);
    assert_eq!(refusal(Asked { count: 17, ..K3 }, |_, _, result| result.clear()), 2);
    assert_eq!(refusal(Asked { l: i64::MAX, t: i64::MIN, ..K3 }, |_, _, _| ()), 2);
    assert_eq!(refusal(K3, |rows, _, result| (rows[0], *result) = (i64::MIN, vec![])), 1);
    assert_eq!(refusal(K3, |_, relations, _| relations.truncate(RELATION_STORE - 1)), 1);
    assert_eq!(refusal(K3, |rows, _, _| rows[0] = 268_435_456), 5);
    assert_eq!(refusal(K3, |rows, _, _| rows[16] = 1), 5);
    assert_eq!(refusal(K3, |_, relations, _| relations[RELATION_STORE - 1] = 1), 5);
    assert_eq!(refusal(K3, |rows, _, _| rows[ROW - 1] = -268_435_456), 5);
    assert_eq!(refusal(K3, |rows, _, _| rows.truncate(ROW - 1)), 1);
}

/// (n-3)x(n+1) - x(n) = 5 - n^15, which a leading run leaves as it is.
#[test]
fn accepted_with_a_side() {
    let (mut rows, mut relations, mut result) = k3_stores();
    (rows[ENTRIES], rows[ROW - 1]) = (5, -1);
    let before = (rows.clone(), relations.clone());
    assert_eq!(run_on_stores(Side::Leading, &mut rows, &mut relations, K3, &mut result, None), 0);
    assert_eq!((&rows, &relations), (&before.0, &before.1));
    assert_eq!(right_side(&rows, K3, 1), [5, 0, 0, 0, 0, 0, 0, 0, 0, 0, 0, 0, 0, 0, 0, -1]);
    assert_eq!(check_right_side(&rows, K3, 1), 0);
    assert_eq!(right_side(&rows, K3, 2), []);
    assert_eq!(check_right_side(&rows, K3, 0), 2);
    assert_eq!(check_right_side(&rows, Asked { l: 0, t: 1, ..K3 }, 1), 2);
    assert_eq!(check_right_side(&rows[..ROW - 1], K3, 1), 1);
    assert_eq!(right_side(&rows[..ROW - 1], K3, 1), []);
}

#[test]
fn refused_as_inconsistent() {
    let (mut rows, mut relations, mut result) = k3_stores();
    rows[..ROW].fill(0);
    rows[ROW - 1] = 1;
    for side in [Side::Leading, Side::Trailing] {
        let (mut rows, mut relations, mut result) = (rows.clone(), relations.clone(), result.clone());
        assert_eq!(run_on_stores(side, &mut rows, &mut relations, K3, &mut result, None), 10);
        assert!(rows[..ROW].iter().chain(&relations[..RELATION_STORE]).chain(&result[..RESULT]).all(|&a| a == 0));
        assert_eq!((rows[ROW], relations[RELATION_STORE], result[RESULT]), (9, 9, 9));
    }
    // A relation is not refused so.
    (rows[0], rows[ROW - 1], relations[RELATION - 1]) = (1, 0, 1);
    let asked = Asked { count: 1, ..K3 };
    assert_eq!(run_on_stores(Side::Leading, &mut rows, &mut relations, asked, &mut result, None), 0);
    assert_eq!((relations[RELATION - 1], result[0]), (1, 1));
}

#[test]
fn one_polynomial() {
    let (rows, _, _) = k3_stores();
    assert_eq!(polynomial(&rows, K3, 1, 0, 1)[..2], [-1, 0]);
    assert_eq!(check_polynomial(&rows, K3, 1, 0, 1), 0);
    assert_eq!(polynomial(&rows, K3, 2, 0, 1), []);
    assert_eq!(check_polynomial(&rows, K3, 2, 0, 1), 2);
    assert_eq!(check_polynomial(&rows[..ROW - 1], K3, 1, 0, 1), 1);
    assert_eq!(check_polynomial(&rows[..ROW - 1], Asked { t: -4, ..K3 }, 1, 0, 1), 2);
}

#[test]
fn written() {
    let (rows, relations, mut result) = k3_stores();
    let text = b"3 1 1 0\n1\n2 1 1 2 -3 1 0 1 1 -1\n0\n0\n";
    let mut bytes = vec![b'#'; text.len() + 1];
    assert_eq!(write_on_stores(&rows, &relations, K3, &[0; 4], &mut bytes, &mut result, None), 0);
    assert_eq!(
        (&bytes[..text.len()], bytes[text.len()], result[0], result[1]),
        (&text[..], b'#', text.len() as i64, 9)
    );
    let short = &mut bytes[..text.len() - 1];
    assert_eq!(write_on_stores(&rows, &relations, K3, &[0; 4], short, &mut result, None), 1);
    assert_eq!(write_on_stores(&rows, &relations, K3, &[2, 0, 0, 0], &mut [], &mut result, None), 2);
    assert_eq!(write_on_stores(&rows, &relations, K3, &[1], &mut [], &mut result, None), 1);
}

/// Two equations of three unknowns, K3's twice: one is left, and the place of the other is zero (02, U6).
#[test]
fn dropped() {
    let (mut rows, mut relations, mut result) = k3_stores();
    rows.splice(ROW..ROW, rows[..ROW].to_vec());
    let before = rows.clone();
    let asked = Asked { m: 3, equations: 2, ..K3 };
    assert_eq!(run_on_stores(Side::Leading, &mut rows, &mut relations, asked, &mut result, None), 0);
    assert_eq!(rows[..ROW], before[..ROW]);
    assert!(rows[ROW..2 * ROW].iter().all(|&a| a == 0));
    assert_eq!(rows[2 * ROW..], [9, 9]);
    assert_eq!(result, [0, 0, 1, 0, 0, 0, 1, 3, 1, 1, 9, 9]);
    // The root 3 of both left the multiplier (02, U7).
    assert!(relations[..RELATION].iter().all(|&a| a == 0));
}

/// No equations need no row store: nothing is read or written there.
#[test]
fn no_equations() {
    for side in [Side::Leading, Side::Trailing] {
        let (_, mut relations, mut result) = k3_stores();
        let asked = Asked { equations: 0, ..K3 };
        assert_eq!(run_on_stores(side, &mut [], &mut relations, asked, &mut result, None), 0);
        assert_eq!(result, [0, 0, 0, 0, 0, 0, 0, 0, 0, 0, 9, 9]);
    }
    let (rows, relations, mut result) = k3_stores();
    let mut bytes = [b'#'; 20];
    let asked = Asked { equations: 0, ..K3 };
    assert_eq!(write_on_stores(&rows, &relations, asked, &[1, 0, 0, 0], &mut bytes, &mut result, None), 0);
    assert_eq!(&bytes[..result[0] as usize], b"3 1 1 0\n0\n0\n1 1\n");
    assert_eq!(check_polynomial(&rows, asked, 1, 0, 1), 2);
    assert_eq!(check_right_side(&rows, asked, 1), 2);
}

/// The order argument: different columns, and zeros behind them.
#[test]
fn orders() {
    let relations = vec![0; RELATION_STORE];
    let written = |order: &[i64]| {
        let (mut bytes, mut result) = ([0; 40], [0]);
        let asked = Asked { m: 3, equations: 0, ..K3 };
        let number = write_on_stores(&[], &relations, asked, order, &mut bytes, &mut result, None);
        (number, String::from_utf8(bytes[..result[0] as usize].to_vec()).unwrap())
    };
    for (order, line) in [([0; 4], "0"), ([2, 0, 0, 0], "1 2"), ([3, 1, 0, 0], "2 3 1"), ([2, 3, 1, 0], "3 2 3 1")] {
        assert_eq!(written(&order), (0, format!("3 3 1 0\n0\n0\n{line}\n")));
    }
    for order in [[4, 0, 0, 0], [0, 1, 0, 0], [1, 0, 2, 0], [1, 1, 0, 0], [1, 2, 3, 1], [-1, 0, 0, 0], [1, 2, 3, 4]] {
        assert_eq!(written(&order), (2, String::new()));
    }
}
