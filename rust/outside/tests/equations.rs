//! Any number of equations (02, U6): rows that become zero, the rank, and the counts and orders of sheets.

use outside::elimination::{run, Run, Side};
use outside::sheet::{read, write, Sheet};

/// A run of a sheet, on either side.
fn of(sheet: &str, side: Side) -> Run {
    run(&read(sheet.as_bytes(), None).expect("a whole sheet").system, side, None).expect("an accepted system")
}

/// The sheet that a run leaves.
fn left(sheet: &str, side: Side) -> String {
    let run = of(sheet, side);
    String::from_utf8(write(&Sheet { system: run.system, order: run.order })).unwrap()
}

/// x + y, a zero row, 2 x + 2 y, x - y, x: the zero row and the multiple go, then x - y leaves y, and x goes too.
#[test]
fn dropped() {
    let rows = "2 0 1 1 1 0 2 1 1\n0\n2 0 1 1 2 0 2 1 2\n2 0 1 1 1 0 2 1 -1\n1 0 1 1 1\n";
    for side in [Side::Leading, Side::Trailing] {
        let left = left(&format!("3 2 0 0\n5\n{rows}0\n0\n"), side);
        assert_eq!(left, "3 2 0 0\n2\n2 0 1 1 1 0 2 1 1\n1 0 2 1 -1\n0\n2 1 2\n");
    }
}

/// A combination may exchange the rows first: the wider row is dropped, the narrower one stays in its place.
#[test]
fn dropped_after_an_exchange() {
    let sheet = "3 1 1 0\n2\n2 1 1 1 1 0 1 1 1\n1 1 1 1 1\n0\n0\n";
    // x(n+1) + x(n) and x(n+1) leave x(n), shifted x(n+1), which goes.
    assert_eq!(left(sheet, Side::Leading), "3 1 1 0\n1\n1 1 1 1 1\n0\n1 1\n");
    assert_eq!((of(sheet, Side::Leading).rank(), of(sheet, Side::Leading).shifts), (1, 1));
}

/// Six equations x(n), all but the first shifted up from block 0 and then dropped: six times D shifts.
#[test]
fn shifts() {
    let sheet = format!("3 1 4 0\n6\n{}0\n0\n", "1 0 1 1 1\n".repeat(6));
    let run = of(&sheet, Side::Leading);
    assert_eq!((run.shifts, run.rank(), run.system.rows.len()), (24, 1, 1));
}

/// Fewer equations than unknowns: the order has as many columns as rows are left.
#[test]
fn lacking() {
    let sheet = "3 4 0 0\n2\n2 0 3 1 1 0 4 1 1\n1 0 2 1 5\n0\n0\n";
    assert_eq!(left(sheet, Side::Leading), "3 4 0 0\n2\n2 0 3 1 1 0 4 1 1\n1 0 2 1 5\n0\n2 3 2\n");
    for m in 1..=4 {
        let none = format!("3 {m} 4 0\n0\n1\n7 0\n0\n");
        assert_eq!(left(&none, Side::Trailing), none);
        assert_eq!((of(&none, Side::Leading).rank(), of(&none, Side::Leading).root), (0, None));
    }
}

/// What follows the sizes of three unknowns, and how it is judged.
#[test]
fn counts_and_orders() {
    let zeros = |count: usize| format!("{count}\n{}0\n0\n", "0\n".repeat(count));
    let judged = |rest: &str| {
        let sheet = format!("3 3 0 0\n{rest}");
        read(sheet.as_bytes(), None).map_or_else(
            |refusal| refusal.number(),
            |found| {
                assert_eq!(write(&found), sheet.as_bytes());
                0
            },
        )
    };
    (0..=6).for_each(|count| assert_eq!(judged(&zeros(count)), 0, "{count} equations"));
    assert_eq!([judged(&zeros(7)), judged("-1\n")], [2, 2]);
    let orders = [
        (0, &["0\n", "1 3\n", "2 3 1\n", "3 2 1 3\n"][..]),
        (2, &["4 1 2 3 1\n", "-1 1\n", "1 0\n", "1 4\n", "2 1 1\n", "3 1 2 2\n"]),
        (3, &["0 1\n", "1\n", "1 2 3\n", "2 3\n1\n"]),
        (4, &["2 3 1", "1 "]),
    ];
    for (number, lines) in orders {
        for line in lines {
            assert_eq!(judged(&format!("1\n0\n0\n{line}")), number, "{line:?}");
        }
    }
}

/// A fifth section where there is nothing that could have a right side.
#[test]
fn fifth_section_of_none() {
    let cases =
        [("", 0), ("0\n", 3), ("0 ", 3), ("1\n", 2), ("-1\n", 2), ("1 ", 2), ("0", 4), ("1", 4), ("x", 3), ("00\n", 3)];
    for (rest, number) in cases {
        let found = read(format!("3 1 0 0\n0\n0\n0\n{rest}").as_bytes(), None);
        assert_eq!(found.map_or_else(|refusal| refusal.number(), |_| 0), number, "{rest:?}");
    }
    assert!(read(b"3 1 0 0\n0\n1\n5 0\n0\n1\n1 9\n", None).is_ok());
}
