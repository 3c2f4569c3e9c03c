//! K2, K8 and K11 (SCOPE 7.2, 7.8, 7.11) through the library.

use wurgalm::{batch, batch_output, read_differential, read_sheet, right_side, row_store, run_leading, run_trailing};
use wurgalm::{write_recurrence, write_sheet, Heading, Refusal, Report, Sizes};
use wurgalm::{EQUATIONS, RECURRENCE, RELATION, RELATION_STORE, ROW};

const K2: &[u8] = b"3 2 1 0\n2\n2 1 1 2 0 1 0 2 1 -1\n2 1 1 1 1 0 1 1 -1\n0\n0\n";
const K2_ANSWER: &[u8] =
    b"3 2 1 0\n2\n2 1 1 2 -1 -1 1 2 1 1\n2 1 2 2 0 1 0 2 2 -1 -1\n2\n0 2 1 1 1 1 0 1 1 -1\n-1 2 1 1 2 0 1 0 2 1 -1\n2 1 2\n";

type Run = fn(&mut [i64], &mut [i64], Sizes, usize) -> Result<Report, Refusal>;

fn stores() -> (Vec<i64>, Vec<i64>) {
    (vec![0; row_store(EQUATIONS)], vec![0; RELATION_STORE])
}

#[test]
fn k2() {
    let (mut rows, mut relations) = stores();
    let heading = read_sheet(K2, &mut rows, &mut relations).unwrap();
    let sizes = Sizes { m: 2, equations: 2, l: 1, t: 0 };
    assert_eq!(heading, Heading { sizes, relations: 0, order: [0; 4] });
    let report = run_leading(&mut rows, &mut relations, sizes, 0).unwrap();
    assert_eq!(
        report,
        Report { relations: 2, shifts: 1, order: [1, 2, 0, 0], root: Some(0), rank: 2, multiplicity: 1 }
    );
    let mut bytes = [0; 200];
    let heading = Heading { sizes, relations: 2, order: report.order };
    let length = write_sheet(&rows, &relations, &heading, &mut bytes).unwrap();
    assert_eq!(&bytes[..length], K2_ANSWER);
    assert_eq!(write_sheet(&rows, &relations, &heading, &mut bytes[..length - 1]), Err(Refusal(1)));
}

/// n leaves the multipliers once, so that no degree passes 15 (02, U7); the relation at 0 stays.
#[test]
fn k8() {
    let [first, second] = ["2 0 1 16 0 0 0 0 0 0 0 0 0 0 0 0 0 0 0 1 0 2 1 1", "2 0 1 2 0 1 0 2 2 0 1"];
    let left = "1 0 2 16 -1 0 0 0 0 0 0 0 0 0 0 0 0 0 0 1";
    let sides: [(Run, i64, usize); 2] = [(run_leading, 1, 1), (run_trailing, 0, 15)];
    for (run, root, multiplicity) in sides {
        let (mut rows, mut relations) = stores();
        let sheet = format!("3 2 0 0\n2\n{first}\n{second}\n0\n0\n");
        let heading = read_sheet(sheet.as_bytes(), &mut rows, &mut relations).unwrap();
        let report = run(&mut rows, &mut relations, heading.sizes, 0).unwrap();
        let order = [1, 2, 0, 0];
        assert_eq!(report, Report { relations: 1, shifts: 0, order, root: Some(root), rank: 2, multiplicity });
        let mut bytes = [0; 200];
        let heading = Heading { relations: 1, order: report.order, ..heading };
        let length = write_sheet(&rows, &relations, &heading, &mut bytes).unwrap();
        assert_eq!(&bytes[..length], format!("3 2 0 0\n2\n{first}\n{left}\n1\n0 {second}\n2 1 2\n").as_bytes());
    }
}

/// C (n - 1) (n + 1)^2 x = 0 and (n - 1)^2 (n + 1) y = 0 (02, U8): 1 and -1 occur three times each, and divisions by n - r leave ±C.
#[test]
fn multiple_roots() {
    let sides: [(Run, i64); 2] = [(run_leading, 1), (run_trailing, -1)];
    let sheet = b"3 2 0 0\n2\n1 0 1 4 -268435455 -268435455 268435455 268435455\n1 0 2 4 1 -1 -1 1\n0\n0\n";
    for (run, root) in sides {
        let (mut rows, mut relations) = stores();
        let heading = read_sheet(sheet, &mut rows, &mut relations).unwrap();
        let report = run(&mut rows, &mut relations, heading.sizes, 0).unwrap();
        let order = [1, 2, 0, 0];
        assert_eq!(report, Report { relations: 0, shifts: 0, order, root: Some(root), rank: 2, multiplicity: 3 });
    }
}

#[test]
fn k11() {
    let (mut rows, mut relations) = stores();
    let heading = read_sheet(b"3 1 1 0\n1\n1 1 1 2 0 1\n0\n0\n", &mut rows, &mut relations).unwrap();
    let report = run_trailing(&mut rows, &mut relations, heading.sizes, 0).unwrap();
    assert_eq!(
        report,
        Report { relations: 0, shifts: 1, order: [1, 0, 0, 0], root: Some(1), rank: 1, multiplicity: 1 }
    );
    assert_eq!(rows[64..66], [-1, 1]);
}

/// x(n) = n^2 with the relation x(7) = 5, read, shifted to x(n + 1) = n^2 + 2 n + 1, and written.
#[test]
fn right_sides() {
    let (mut rows, mut relations) = stores();
    let sheet = b"3 1 1 0\n1\n1 0 1 1 1\n1\n7 1 0 1 1 1\n0\n2\n3 0 0 1\n1 5\n";
    let heading = read_sheet(sheet, &mut rows, &mut relations).unwrap();
    let sizes = Sizes { m: 1, equations: 1, l: 1, t: 0 };
    assert_eq!(heading, Heading { sizes, relations: 1, order: [0; 4] });
    assert_eq!(right_side(&rows, sizes, 1)[..4], [0, 0, 1, 0]);
    assert_eq!((relations[0], relations[RELATION - 16], relations[RELATION]), (7, 5, 0));
    let report = run_leading(&mut rows, &mut relations, sizes, 1).unwrap();
    assert_eq!(report, Report { relations: 1, shifts: 1, order: [1, 0, 0, 0], root: None, rank: 1, multiplicity: 0 });
    assert_eq!(right_side(&rows, sizes, 1)[..4], [1, 2, 1, 0]);
    let mut bytes = [0; 100];
    let length = write_sheet(&rows, &relations, &Heading { order: report.order, ..heading }, &mut bytes).unwrap();
    assert_eq!(&bytes[..length], b"3 1 1 0\n1\n1 1 1 1 1\n1\n7 1 0 1 1 1\n1 1\n2\n3 1 2 1\n1 5\n");
    assert_eq!(read_sheet(&[&sheet[..], b"\n"].concat(), &mut rows, &mut relations), Err(Refusal(4)));
}

/// 0 = 1 is refused with 10, and the stores are zero then.
#[test]
fn inconsistent() {
    let (mut rows, mut relations) = stores();
    rows[ROW - 16] = 1;
    assert_eq!(run_trailing(&mut rows, &mut relations, Sizes { m: 1, equations: 1, l: 0, t: 0 }, 0), Err(Refusal(10)));
    assert!(rows.iter().all(|&a| a == 0));
}

/// x(n + 1) + y(n) = n twice and a zero equation between: one equation is left (02, U6); with another right side there is no solution.
#[test]
fn repeated() {
    let (mut rows, mut relations) = stores();
    let equation = "2 1 1 1 1 0 2 1 1\n";
    let sheet = |side: &str| format!("3 2 1 0\n3\n{equation}0\n{equation}0\n1 2\n3\n2 0 1\n0\n{side}\n").into_bytes();
    let heading = read_sheet(&sheet("2 0 1"), &mut rows, &mut relations).unwrap();
    let sizes = Sizes { m: 2, equations: 3, l: 1, t: 0 };
    assert_eq!(heading, Heading { sizes, relations: 0, order: [2, 0, 0, 0] });
    let report = run_leading(&mut rows, &mut relations, sizes, 0).unwrap();
    assert_eq!(report, Report { relations: 0, shifts: 0, order: [1, 0, 0, 0], root: None, rank: 1, multiplicity: 0 });
    assert!(rows[ROW..].iter().all(|&a| a == 0));
    let mut bytes = [0; 100];
    let left = Heading { sizes: Sizes { equations: report.rank, ..sizes }, relations: 0, order: report.order };
    let length = write_sheet(&rows, &relations, &left, &mut bytes).unwrap();
    assert_eq!(&bytes[..length], format!("3 2 1 0\n1\n{equation}0\n1 1\n1\n2 0 1\n").as_bytes());
    read_sheet(&sheet("2 1 1"), &mut rows, &mut relations).unwrap();
    assert_eq!(run_trailing(&mut rows, &mut relations, sizes, 0), Err(Refusal(10)));
}

/// No equation at all, from a sheet and from a differential sheet.
#[test]
fn no_equations() {
    let sizes = Sizes { m: 3, equations: 0, l: 1, t: 0 };
    let (_, mut relations) = stores();
    let heading = read_sheet(b"3 3 1 0\n0\n0\n0\n", &mut [], &mut relations).unwrap();
    assert_eq!(heading, Heading { sizes, relations: 0, order: [0; 4] });
    assert_eq!(read_differential(b"3 3 1 0\n0\n", &mut [], &mut relations), Ok(heading));
    let report = run_leading(&mut [], &mut relations, sizes, 0).unwrap();
    assert_eq!(report, Report { relations: 0, shifts: 0, order: [0; 4], root: None, rank: 0, multiplicity: 0 });
    assert_eq!(run_leading(&mut [], &mut relations, Sizes { equations: 7, ..sizes }, 0), Err(Refusal(2)));
}

/// x^2 y'' + x y' + (x^2 - 4) y = 0 (SCOPE 10.22, 10.23): (n^2 - 4) y(n) + y(n - 2) = 0, moved up to block 2 by two shifts.
#[test]
fn bessel() {
    let sheet = b"3 1 2 2\n1\n4 2 2 1 1 1 1 1 1 0 0 1 -4 0 2 1 1\n";
    let (mut rows, mut relations) = stores();
    let heading = read_differential(sheet, &mut rows, &mut relations).unwrap();
    let sizes = Sizes { m: 1, equations: 1, l: 2, t: -2 };
    assert_eq!(heading, Heading { sizes, relations: 0, order: [0; 4] });
    let mut bytes = [0; RECURRENCE];
    let length = write_recurrence(sheet, &mut bytes).unwrap();
    assert_eq!(&bytes[..length], b"3 1 2 -2\n1\n2 0 1 3 -4 0 1 -2 1 1 1\n0\n0\n");
    assert_eq!(read_sheet(&bytes[..length], &mut stores().0, &mut stores().1), Ok(heading));
    let report = run_leading(&mut rows, &mut relations, sizes, 0).unwrap();
    assert_eq!(
        report,
        Report { relations: 0, shifts: 2, order: [1, 0, 0, 0], root: Some(0), rank: 1, multiplicity: 1 }
    );
    assert_eq!((&rows[..4], rows[128]), (&[0, 4, 1, 0][..], 1));
    assert_eq!(write_recurrence(sheet, &mut bytes[..length - 1]), Err(Refusal(1)));
    assert_eq!(write_recurrence(&sheet[..20], &mut bytes), Err(Refusal(4)));
    assert_eq!(read_differential(&sheet[..20], &mut rows, &mut relations), Err(Refusal(4)));
}

#[test]
fn k2_in_a_batch() {
    let input = [b"1\n1 54\n", K2].concat();
    let expected = [b"0\n", K2_ANSWER, b"1 0\n", &b"0 0\n".repeat(7)].concat();
    let mut output = vec![b'#'; batch_output(1)];
    assert_eq!(batch(&input, &mut output), Ok(expected.len()));
    assert_eq!(output[..expected.len()], expected);
    assert!(output[expected.len()..].iter().all(|&byte| byte == b'#'));
    assert_eq!(batch(&input, &mut output[..expected.len() - 1]), Err(Refusal(1)));
    assert!(output[..expected.len() - 1].iter().all(|&byte| byte == 0));
    assert_eq!(batch(&input[..60], &mut output), Ok(2));
    assert_eq!(output[..2], *b"3\n");
}
