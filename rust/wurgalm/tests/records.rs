//! Records (02, U10) through the library.

use std::fs;
use std::path::Path;
use wurgalm::{check_record, read_differential, read_sheet, row_store, Answer, Heading, Record, Refusal};
use wurgalm::{EQUATIONS, RELATION_STORE};

/// The model of `examples/legendre.differential` and the record beside it: it fits up to index 6, and the number at 7 does not.
#[test]
fn measured() {
    let folder = Path::new(env!("CARGO_MANIFEST_DIR")).join("../../examples");
    let sheet = fs::read(folder.join("legendre.differential")).unwrap();
    let text = fs::read_to_string(folder.join("legendre.record")).unwrap();
    let explained = fs::read_to_string(folder.join("legendre.explained")).unwrap();
    let numbers: Vec<i64> = text.split_ascii_whitespace().map(|number| number.parse().unwrap()).collect();
    let [first, vectors, values @ ..] = &numbers[..] else { panic!("no first line") };
    let (mut rows, mut relations) = (vec![0; row_store(EQUATIONS)], vec![0; RELATION_STORE]);
    let heading = read_differential(&sheet, &mut rows, &mut relations).unwrap();
    let answer = |vectors: usize, values: &[i64]| {
        check_record(&rows, &relations, heading.sizes, heading.relations, &Record { first: *first, vectors, values })
    };
    let vectors = *vectors as usize;
    assert_eq!(vectors, values.len());
    assert_eq!(answer(vectors, values), Ok(Answer::Equation { number: 1, n: 5, sum: 42 }));
    assert_eq!(explained, "equation 1 5 42\n");
    assert_eq!(answer(vectors - 1, values), Ok(Answer::Fits { tested: 7 }));
}

/// (n + 1) x(n + 1) - 2 x(n) = 0, and x(0) = 45 as a relation.
const SHEET: &[u8] = b"3 1 1 0\n1\n2 1 1 2 1 1 0 1 1 -2\n1\n0 1 0 1 1 1\n0\n2\n0\n1 45\n";

fn answer(sheet: &[u8], first: i64, vectors: usize, values: &[i64]) -> Result<Answer, Refusal> {
    let (mut rows, mut relations) = (vec![0; row_store(EQUATIONS)], vec![0; RELATION_STORE]);
    let Heading { sizes, relations: count, .. } = read_sheet(sheet, &mut rows, &mut relations).unwrap();
    let (rows_before, relations_before) = (rows.clone(), relations.clone());
    let answer = check_record(&rows, &relations, sizes, count, &Record { first, vectors, values });
    assert!(rows == rows_before && relations == relations_before);
    answer
}

#[test]
fn answers() {
    let good = [45, 90, 90, 60, 30, 12, 4];
    assert_eq!(answer(SHEET, 0, 7, &good), Ok(Answer::Fits { tested: 7 }));
    assert_eq!(answer(SHEET, 0, 6, &[45, 90, 90, 60, 30, 13]), Ok(Answer::Equation { number: 1, n: 4, sum: 5 }));
    assert_eq!(answer(SHEET, 0, 3, &[90, 180, 180]), Ok(Answer::Relation { number: 1, n0: 0, sum: 45 }));
    assert_eq!(answer(SHEET, 0, 0, &[]), Ok(Answer::Fits { tested: 0 }));
}

#[test]
fn refusals() {
    let zeros = [0; 70];
    for (first, vectors) in [(1_048_577, 0), (-1_048_577, 1), (1_048_576, 2), (0, 65), (i64::MAX, 1), (0, usize::MAX)] {
        assert_eq!(answer(SHEET, first, vectors, &zeros), Err(Refusal(2)), "{first} {vectors}");
    }
    assert_eq!(answer(SHEET, 0, 7, &zeros[..6]), Err(Refusal(1)));
    assert_eq!(answer(SHEET, 0, 2, &[0, 65_537]), Err(Refusal(5)));
    assert_eq!(answer(SHEET, 0, 1, &[0, 65_537]), Ok(Answer::Fits { tested: 0 }));
    // n^2 and n^2 + 1 at both ends: 2^40 is a value, and one more is not, though x is 0 there.
    for first in [1 << 20, -1 << 20] {
        let sheet = |lowest: i64| format!("3 1 0 0\n1\n1 0 1 3 {lowest} 0 1\n0\n0\n");
        let sum = Answer::Equation { number: 1, n: first, sum: 1 << 56 };
        assert_eq!(answer(sheet(0).as_bytes(), first, 1, &[65_536]), Ok(sum));
        assert_eq!(answer(sheet(1).as_bytes(), first, 1, &[0]), Err(Refusal(12)));
    }
}
