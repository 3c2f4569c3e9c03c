//! What needs no library: the lengths of the stores, and the part that holds a right side.

use wurgalm::{right_side, row_store, Sizes, ENTRIES, EQUATIONS, RELATION, RELATION_STORE, ROW};

#[test]
fn lengths() {
    assert_eq!((ENTRIES, ROW, RELATION, RELATION_STORE, row_store(EQUATIONS)), (320, 336, 337, 5_392, 2_016));
}

#[test]
fn right_sides() {
    let rows: Vec<i64> = (0..row_store(3) as i64).collect();
    let sizes = Sizes { m: 2, equations: 3, l: 64, t: 60 };
    for row in 1..=3 {
        let side: Vec<i64> = (0..16).map(|k| row * 336 - 16 + k).collect();
        assert_eq!(right_side(&rows, sizes, row as usize), side);
    }
    assert_eq!(right_side(&rows, sizes, 0), []);
    assert_eq!(right_side(&rows, sizes, 4), []);
    assert_eq!(right_side(&rows[..row_store(3) - 1], sizes, 1), []);
    let sizes = |m, equations, l, t| Sizes { m, equations, l, t };
    let wrong_counts =
        [sizes(0, 3, 0, 0), sizes(5, 3, 0, 0), sizes(3, 0, 0, 0), sizes(3, 7, 0, 0), sizes(3, usize::MAX, 0, 0)];
    let wrong_blocks = [(65, 64), (-64, -65), (0, 1), (5, 0), (i64::MAX, i64::MIN)].map(|(l, t)| sizes(3, 3, l, t));
    for sizes in wrong_counts.into_iter().chain(wrong_blocks) {
        assert_eq!(right_side(&rows, sizes, 1), [], "{sizes:?}");
    }
}
