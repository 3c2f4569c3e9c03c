//! Differential sheets (02, U3): how each token is judged, recurrences worked out by hand, and what they say of series.

use outside::differential::{answer, output, read, Differential, Term};
use outside::row::Row;
use outside::stores::{read_differential_on_stores, write_recurrence_on_stores, HEADING, RELATION_STORE, ROW};

/// The recurrence's sheet as text, or the refusal.
fn answered(sheet: &str) -> Result<String, u8> {
    answer(sheet.as_bytes(), None).map(|text| String::from_utf8(text).unwrap()).map_err(|refusal| refusal.number())
}

/// x^2 y'' + x y' + (x^2 - 4) y: the terms at block 0 add up to n (n - 1) + n - 4.
#[test]
fn bessel() {
    let sheet = "3 1 2 2\n1\n4 2 2 1 1 1 1 1 1 0 0 1 -4 0 2 1 1\n";
    assert_eq!(answered(sheet).unwrap(), "3 1 2 -2\n1\n2 0 1 3 -4 0 1 -2 1 1 1\n0\n0\n");
}

/// y'' = x y: (n + 1) (n + 2) y(n + 2) = y(n - 1).
#[test]
fn airy() {
    let sheet = "3 1 2 1\n1\n2 2 0 1 1 0 1 1 -1\n";
    assert_eq!(answered(sheet).unwrap(), "3 1 2 -1\n1\n2 2 1 3 2 3 1 -1 1 1 -1\n0\n0\n");
}

/// x y' - y has n - 1 at block 0; with x y' - x y' nothing would be left, but no place has two terms.
#[test]
fn cancelled() {
    assert_eq!(answered("3 1 1 1\n1\n2 1 1 1 1 0 0 1 -1\n").unwrap(), "3 1 1 -1\n1\n1 0 1 2 -1 1\n0\n0\n");
    assert_eq!(answered("3 1 1 1\n1\n2 1 1 1 1 1 1 1 -1\n"), Err(3));
}

// ---- what a recurrence says ----

/// A series: its coefficients from index `first` on, one list for each unknown, zero elsewhere.
struct Series {
    first: i128,
    coefficients: Vec<Vec<i128>>,
}

impl Series {
    fn at(&self, n: i128, column: i128) -> i128 {
        let list = &self.coefficients[column as usize - 1];
        usize::try_from(n - self.first).ok().and_then(|place| list.get(place)).copied().unwrap_or(0)
    }

    /// The coefficient at n of x^j times the k-th derivative, term by term: x^e has the k-th derivative e (e - 1) .. (e - k + 1) x^(e - k).
    fn term_at(&self, term: &Term, n: i128) -> i128 {
        let e = n - term.power + term.derivative;
        term.factor * (0..term.derivative).map(|i| e - i).product::<i128>() * self.at(e, term.column)
    }

    fn row_at(&self, row: &Row, n: i128) -> i128 {
        let value = |p: &[i128]| p.iter().rev().fold(0, |sum, a| sum * n + a);
        row.entries().map(|(s, c, p)| value(p.coefficients()) * self.at(n + s as i128, c as i128)).sum()
    }
}

/// Every term of every place, one at a time and all together, in a series from x^-5 to x^6: the recurrence has at each n what the
/// differential equation has.
#[test]
fn series() {
    let coefficients = |c: i128| (0..12).map(|e| 3 + 7 * c + e * e * c - 5 * e).collect();
    let series = Series { first: -5, coefficients: (1..=4).map(coefficients).collect() };
    let mut terms = Vec::new();
    for derivative in [2, 1, 0] {
        for (power, column) in (0..=2).flat_map(|j| (1..=4).map(move |c| (j, c))) {
            terms.push(Term { derivative, power, column, factor: 1 + derivative * 17 - power * 5 + column });
        }
    }
    let mut equations: Vec<Vec<Term>> = terms.iter().map(|&term| vec![term]).collect();
    equations.push(terms);
    let mut sheet = read(b"3 4 2 2\n4\n0\n0\n0\n0\n", None).unwrap();
    for equation in equations {
        sheet.equations = vec![equation.clone()];
        let Differential { equations, .. } = &sheet;
        let row = &sheet.recurrence(None).rows[0];
        for n in -12..=12 {
            let sum: i128 = equations[0].iter().map(|term| series.term_at(term, n)).sum();
            assert_eq!(series.row_at(row, n), sum, "{equation:?} at {n}");
        }
    }
}

// ---- tokens ----

/// What follows `3 2 2 1` and the count 2, and how it is judged.
#[test]
fn judged() {
    let cases = [
        (0, &["0\n0\n", "1 2 1 2 1048576\n0\n", "0\n1 0 0 1 -1048576\n", "2 1 1 1 5 1 1 2 5\n0\n"][..]),
        (0, &["3 2 1 2 1 1 0 1 1 0 0 1 1\n0\n", "2 1 0 2 1 1 1 1 1\n0\n"]),
        // Ranges.
        (2, &["13 ", "-1\n", "1 3 ", "1 -1 ", "1 2 2 ", "1 2 -1 ", "1 2 1 0 ", "1 2 1 3 ", "2 1 0 1 1 3 "]),
        (5, &["1 2 1 1 1048577\n", "1 2 1 1 -1048577 ", "1 2 1 1 9999999999\n"]),
        // The order, at the token that breaks it, and a zero factor.
        (3, &["2 1 0 1 1 2 ", "2 1 1 1 1 1 0 ", "2 1 1 2 1 1 1 1 ", "2 1 1 2 1 1 1 2 ", "1 2 1 1 0\n"]),
        // A range comes before the order, and both before the separator.
        (2, &["2 1 1 2 1 1 1 3\n", "2 1 1 2 1 1 2\n", "2 1 1 2 1 3\n", "1 3\n", "13\n"]),
        (5, &["2 1 1 1 1 1 1 2 1048577 "]),
        (3, &["1\n", "0 ", "1 2\n", "1 2 1\n", "1 2 1 1\n", "1 2 1 1 5 ", "2 1 1 1 5\n", "\n", "x", "1 2 1 1 -0\n"]),
        (3, &["01", "12345678901", "1 2 1 1 00"]),
        // The bytes end, or go on.
        (4, &["", "0", "0\n", "1 ", "1 2 1 1 -", "1 2 1 1 5", "1 2 1 1 1048577", "0\n0\n\n", "0\n0\nx", "0\n0\n0\n"]),
    ];
    for (number, rests) in cases {
        for rest in rests {
            let found = answered(&format!("3 2 2 1\n2\n{rest}"));
            assert_eq!(found.err().unwrap_or(0), number, "{rest:?}");
        }
    }
    let sizes = ["3 0 ", "3 5 ", "3 1 3 ", "3 1 -1 ", "3 1 0 3\n", "3 1 0 -1\n", "4 ", "3 1 0 0\n7\n", "3 2 0 0\n-1\n"];
    for sheet in sizes {
        assert_eq!(answered(sheet), Err(2), "{sheet:?}");
    }
    assert_eq!(output(b"3 1 0 0\n1\n1 0 0 1 7\n", None), b"0\n3 1 0 0\n1\n1 0 1 1 7\n0\n0\n");
    assert_eq!(output(b"", None), b"4\n");
    // Any number of equations up to six (02, U6).
    assert_eq!(output(b"3 4 2 2\n0\n", None), b"0\n3 4 2 -2\n0\n0\n0\n");
    let six = "1 0 0 1 7\n".repeat(6);
    let recurrence = "1 0 1 1 7\n".repeat(6);
    let expected = format!("3 1 0 0\n6\n{recurrence}0\n0\n");
    assert_eq!(answered(&format!("3 1 0 0\n6\n{six}")), Ok(expected));
}

// ---- stores ----

#[test]
fn stores() {
    let sheet = b"3 1 2 1\n1\n2 2 0 1 1 0 1 1 -1\n";
    let lent = || (vec![9; ROW + 1], vec![9; RELATION_STORE + 1], vec![9; HEADING + 1]);
    let (mut rows, mut relations, mut result) = lent();
    assert_eq!(read_differential_on_stores(sheet, &mut rows, &mut relations, &mut result, None), 0);
    assert_eq!(rows[..4], [2, 3, 1, 0]);
    assert_eq!((rows[192], rows[193], rows[ROW - 1], rows[ROW]), (-1, 0, 0, 9));
    assert!(relations[..RELATION_STORE].iter().all(|&a| a == 0) && relations[RELATION_STORE] == 9);
    assert_eq!(result, [1, 2, -1, 0, 0, 0, 0, 0, 1, 9]);
    let (mut rows, mut relations, mut result) = lent();
    let short = &mut rows[..ROW - 1];
    assert_eq!(read_differential_on_stores(sheet, short, &mut relations, &mut result, None), 1);
    assert_eq!(read_differential_on_stores(&sheet[1..], &mut [], &mut [], &mut [], None), 3);
    assert_eq!((rows, relations, result), lent());
}

#[test]
fn written() {
    let sheet = b"3 1 2 1\n1\n2 2 0 1 1 0 1 1 -1\n";
    let text = answer(sheet, None).unwrap();
    let (mut bytes, mut result) = (vec![b'#'; text.len() + 1], vec![9; 2]);
    assert_eq!(write_recurrence_on_stores(sheet, &mut bytes[..text.len() - 1], &mut result, None), 1);
    assert_eq!(write_recurrence_on_stores(sheet, &mut bytes, &mut [], None), 1);
    assert_eq!(write_recurrence_on_stores(&sheet[..9], &mut [], &mut [], None), 4);
    assert!(bytes.iter().all(|&byte| byte == b'#') && result == [9; 2]);
    assert_eq!(write_recurrence_on_stores(sheet, &mut bytes, &mut result, None), 0);
    assert_eq!((&bytes[..text.len()], bytes[text.len()], &result[..]), (&text[..], b'#', &[text.len() as i64, 9][..]));
}
