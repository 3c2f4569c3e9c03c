//! Records and what a system says of them, by hand (02, U10).

use outside::record::{check, Answer, Record};
use outside::refusal::Refusal;
use outside::sheet::read;

fn answer(sheet: &str, first: i64, vectors: usize, values: &[i64]) -> Result<Answer, Refusal> {
    let system = read(sheet.as_bytes(), None).expect("a whole sheet").system;
    check(&system, &Record { first, vectors, values }, None)
}

/// x(n + 1) - x(n) = 2 n + 1, whose solutions are n^2 and a constant.
const SQUARES: &str = "3 1 1 0\n1\n2 1 1 1 1 0 1 1 -1\n0\n0\n1\n2 1 2\n";

#[test]
fn squares() {
    assert_eq!(answer(SQUARES, -2, 5, &[4, 1, 0, 1, 4]), Ok(Answer::Fits(4)));
    assert_eq!(answer(SQUARES, -2, 5, &[4, 1, 0, 1, 5]), Ok(Answer::Equation(1, 1, 1)));
    assert_eq!(answer(SQUARES, -2, 5, &[4, 1, 0, 2, 4]), Ok(Answer::Equation(1, 0, 1)));
    assert_eq!(answer(SQUARES, 7, 1, &[3]), Ok(Answer::Fits(0)));
    assert_eq!(answer(SQUARES, 7, 0, &[]), Ok(Answer::Fits(0)));
}

/// Both equations are tested at an n before the next n; the relation, x(0) = y(0), after all of them, and only where 0 is in the record.
#[test]
fn order() {
    let sheet = "3 2 1 0\n2\n2 1 1 1 1 0 1 1 -1\n2 1 2 1 1 0 2 1 -1\n1\n0 2 0 1 1 1 0 2 1 -1\n0\n";
    assert_eq!(answer(sheet, 0, 3, &[1, 1, 1, 2, 2, 2]), Ok(Answer::Equation(2, 0, 1)));
    assert_eq!(answer(sheet, 0, 3, &[1, 4, 1, 4, 1, 4]), Ok(Answer::Relation(1, 0, -3)));
    assert_eq!(answer(sheet, 1, 3, &[1, 4, 1, 4, 1, 4]), Ok(Answer::Fits(4)));
    assert_eq!(answer(sheet, -1, 2, &[1, 4, 1, 4]), Ok(Answer::Fits(2)));
    assert_eq!(answer(sheet, -1, 3, &[1, 1, 1, 1, 1, 1]), Ok(Answer::Fits(5)));
}

/// n^2 x(n) is evaluated though x is 0; at 2^20 it is 2^40, and with 1 added past it. A nonzero sum before it comes first.
#[test]
fn limit() {
    let sheet = |lowest: i64| format!("3 1 0 0\n1\n1 0 1 3 {lowest} 0 1\n0\n0\n");
    assert_eq!(answer(&sheet(0), 1 << 20, 1, &[0]), Ok(Answer::Fits(1)));
    assert_eq!(answer(&sheet(1), 1 << 20, 1, &[0]), Err(Refusal::Value));
    assert_eq!(answer(&sheet(0), 1 << 20, 1, &[-65_536]), Ok(Answer::Equation(1, 1 << 20, -1 << 56)));
    assert_eq!(answer(&sheet(1), (1 << 20) - 1, 2, &[0, 0]), Err(Refusal::Value));
    assert_eq!(
        answer(&sheet(1), (1 << 20) - 1, 2, &[1, 0]),
        Ok(Answer::Equation(1, (1 << 20) - 1, (1 << 40) - (1 << 21) + 2))
    );
}
