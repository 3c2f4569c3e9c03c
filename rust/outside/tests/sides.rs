//! Right sides (02, U1): what runs make of them, worked out by hand, and the fifth section of a sheet.

use outside::elimination::{run, Run, Side};
use outside::refusal::Refusal;
use outside::sheet::{read, write, Sheet};

/// A run of a sheet, on either side.
fn of(sheet: &str, side: Side) -> Result<Run, Refusal> {
    run(&read(sheet.as_bytes(), None).expect("a whole sheet").system, side, None)
}

/// The sheet that a run leaves.
fn left(sheet: &str, side: Side) -> String {
    let run = of(sheet, side).unwrap();
    String::from_utf8(write(&Sheet { system: run.system, order: run.order })).unwrap()
}

/// Two equations in x(n) and y(n) and their right sides, each as a line of a sheet.
fn two(equations: [&str; 2], sides: [&str; 2]) -> String {
    let [first, second] = equations;
    format!("3 2 0 0\n2\n{first}\n{second}\n0\n0\n2\n{}\n{}\n", sides[0], sides[1])
}

const X: &str = "1 0 1 1 1";
const N_X: &str = "1 0 1 2 0 1";
const X_AND_Y: &str = "2 0 1 1 1 0 2 1 1";
const X_LESS_Y: &str = "2 0 1 1 1 0 2 1 -1";

/// x + y = n and x - y = 2 leave -2 y = 2 - n, which 2 does not divide.
#[test]
fn combined() {
    let sheet = two([X_AND_Y, X_LESS_Y], ["2 0 1", "1 2"]);
    assert_eq!(left(&sheet, Side::Leading), "3 2 0 0\n2\n2 0 1 1 1 0 2 1 1\n1 0 2 1 -2\n0\n2 1 2\n2\n2 0 1\n2 2 -1\n");
}

/// x + y = 2 n and x - y = 4 leave -2 y = 4 - 2 n, divided -y = 2 - n.
#[test]
fn divided() {
    let sheet = two([X_AND_Y, X_LESS_Y], ["2 0 2", "1 4"]);
    assert!(left(&sheet, Side::Leading).ends_with("2\n2 0 2\n2 2 -1\n"));
}

/// n x = 1 and x + y = 4 leave n y = 4 n - 1, and x + y = 4 at 0.
#[test]
fn listed() {
    let sheet = two([N_X, X_AND_Y], ["1 1", "1 4"]);
    let expected = "3 2 0 0\n2\n1 0 1 2 0 1\n1 0 2 2 0 1\n1\n0 2 0 1 1 1 0 2 1 1\n2 1 2\n3\n1 1\n2 -1 4\n1 4\n";
    assert_eq!(left(&sheet, Side::Leading), expected);
}

/// x(n) = n^2 becomes x(n + 1) = (n + 1)^2, and on the trailing side n x(n + 1) = n^3 becomes (n - 1) x(n) = (n - 1)^3.
#[test]
fn shifted() {
    let leading = left("3 1 1 0\n1\n1 0 1 1 1\n0\n0\n1\n3 0 0 1\n", Side::Leading);
    assert_eq!(leading, "3 1 1 0\n1\n1 1 1 1 1\n0\n1 1\n1\n3 1 2 1\n");
    let trailing = left("3 1 1 0\n1\n1 1 1 2 0 1\n0\n0\n1\n4 0 0 0 1\n", Side::Trailing);
    assert_eq!(trailing, "3 1 1 0\n1\n1 0 1 2 -1 1\n0\n1 1\n1\n4 -1 3 -3 1\n");
}

/// The right side counts in no width: the wider row eliminates nothing, whichever has a side.
#[test]
fn widths() {
    let wide = "2 1 1 1 1 0 2 1 1";
    let narrow = "1 1 1 1 1";
    for sides in ["0\n1 5", "1 5\n0", "1 5\n1 5"] {
        let sheet = format!("3 2 1 0\n2\n{wide}\n{narrow}\n0\n0\n2\n{sides}\n");
        assert!(left(&sheet, Side::Leading).starts_with(&format!("3 2 1 0\n2\n{narrow}\n1 1 2 1 ")));
    }
}

#[test]
fn repeated_and_inconsistent() {
    let both = |sheet: &str| {
        let [leading, trailing] = [Side::Leading, Side::Trailing].map(|side| of(sheet, side).unwrap_err().number());
        assert_eq!(leading, trailing);
        leading
    };
    let ranks = |sheet: &str| [Side::Leading, Side::Trailing].map(|side| of(sheet, side).unwrap().rank());
    assert_eq!(ranks(&two([X, X], ["2 0 1", "2 0 1"])), [1, 1]);
    assert_eq!(both(&two([X, X], ["2 0 1", "2 1 1"])), 10);
    assert_eq!(both(&two(["0", X], ["1 3", "0"])), 10);
    assert_eq!(both(&two([X, "0"], ["1 3", "1 3"])), 10);
    assert_eq!(ranks(&two([X, "0"], ["1 3", "0"])), [1, 1]);
    assert_eq!(ranks(&two(["0", X], ["0", "1 3"])), [1, 1]);
    // 2 x = C and 3 x = -C leave 0 = -5 C, divided 0 = -1; with n more, 0 = -5 C - 3 n, which 3 divides.
    let (twice, thrice) = ("1 0 1 1 2", "1 0 1 1 3");
    assert_eq!(both(&two([twice, thrice], ["1 268435455", "1 -268435455"])), 10);
    assert_eq!(both(&two([twice, thrice], ["2 268435455 1", "1 -268435455"])), 8);
    // n x = n^15 and (n + 1) x = 0 leave 0 = -(n + 1) n^15.
    let next = "1 0 1 2 1 1";
    assert_eq!(both(&two([N_X, next], ["16 0 0 0 0 0 0 0 0 0 0 0 0 0 0 0 1", "0"])), 7);
    // With sixteen relations the root of n is one too many.
    let relations = "0 0\n".repeat(16);
    let sides = "0\n".repeat(17);
    assert_eq!(both(&format!("3 2 0 0\n2\n{N_X}\n{next}\n16\n{relations}0\n18\n1 1\n{sides}")), 9);
}

/// A relation that says 0 = 1 is kept as it is.
#[test]
fn relations_are_not_refused() {
    let sheet = "3 1 0 0\n1\n1 0 1 1 1\n1\n7 0\n1 1\n2\n0\n1 1\n";
    assert_eq!(left(sheet, Side::Leading), sheet);
    assert_eq!(left(sheet, Side::Trailing), sheet);
}

/// Limits on the side alone: x(n) = C n, shifted x(n + 1) = C n + C; with n^2 the shift gives 2 C n.
#[test]
fn limits() {
    let with = |side: &str| of(&format!("3 1 1 0\n1\n1 0 1 1 1\n0\n0\n1\n{side}\n"), Side::Leading);
    assert!(with("2 0 268435455").is_ok());
    assert_eq!(with("3 0 0 268435455"), Err(Refusal::Coefficient));
    let n_15 = "16 0 0 0 0 0 0 0 0 0 0 0 0 0 0 0 1";
    assert_eq!(of(&two([N_X, X_AND_Y], ["0", n_15]), Side::Leading), Err(Refusal::Degree));
    assert!(of(&two([X, X_AND_Y], ["0", n_15]), Side::Leading).is_ok());
}

/// What follows the fourth section of a sheet with one equation and one relation, and how it is judged.
#[test]
fn fifth_section() {
    let judged = |rest: &str| {
        let sheet = format!("3 1 0 0\n1\n1 0 1 1 1\n1\n0 0\n0\n{rest}");
        match read(sheet.as_bytes(), None) {
            Ok(found) => {
                assert_eq!(String::from_utf8(write(&found)).unwrap(), sheet);
                0
            }
            Err(refusal) => refusal.number(),
        }
    };
    let cases = [
        (0, &["", "2\n1 5\n0\n", "2\n0\n1 5\n", "2\n3 0 0 -268435455\n2 0 1\n"][..]),
        (2, &["1\n", "3\n", "0\n", "-2\n", "1 ", "2\n17 ", "2\n-1\n", "2\n0\n17\n", "2\n0\n-1\n"]),
        (3, &["\n", " ", "x", "x\n", "02\n", "2 ", "2\n\n", "2\n00", "2\n0\n0\n", "2\n0\n0 ", "2\n0\n0\nx"]),
        (3, &["2\n0 ", "2\n1\n", "2\n1 0\n", "2\n1 0 ", "2\n2 1 0\n", "2\n1 5 ", "2\n1 5\n0 ", "2\n0\n1\n5\n"]),
        (4, &["2", "-", "1", "2\n", "2\n0", "2\n0\n", "2\n0\n0", "2\n1 5\n", "2\n1 5\n0", "2\n1 5\n0\n0"]),
        (4, &["2\n1 5\n0\n\n", "2\n1 5\n0\nx", "2\n0\n1 5\n "]),
        (5, &["2\n1 268435456\n", "2\n2 268435456 0\n", "2\n0\n1 -268435456 "]),
    ];
    for (number, rests) in cases {
        for rest in rests {
            assert_eq!(judged(rest), number, "{rest:?}");
        }
    }
}
