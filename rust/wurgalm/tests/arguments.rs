//! Arguments at the ends of their types, and ones that do not belong together: worked or refused, without a panic.

use wurgalm::{batch, batch_output, check_record, prepare, replay, right_side, row_store, run_leading, run_logged};
use wurgalm::{
    run_steps, run_trailing, solutions, stores, write_sheet, Answer, Heading, Log, LogStep, Record, Refusal,
};
use wurgalm::{Report, Sizes, Solutions, State, System, EQUATIONS, RELATION_STORE, ROW, SHEETS};

const K2: &[u8] = b"3 2 1 0\n2\n2 1 1 2 0 1 0 2 1 -1\n2 1 1 1 1 0 1 1 -1\n0\n0\n"; // n x(n+1) = y(n), x(n+1) = x(n)
const TWICE: &[u8] = b"3 1 0 0\n2\n1 0 1 1 5\n1 0 1 1 5\n0\n0\n"; // 5 x(n) = 0, two times
const COUNTS: [usize; 7] = [7, 17, 1_001, usize::MAX / 336, usize::MAX / 2, usize::MAX - 1, usize::MAX];
const BLOCKS: [i64; 6] = [i64::MIN, i64::MIN + 1, -65, 65, i64::MAX - 1, i64::MAX];

fn system(sheet: &[u8]) -> System {
    System::from_sheet(sheet).expect("a whole sheet")
}

/// Runs the leading side in the stores of the system, which is told nothing of it.
fn run_in_stores(system: &mut System) -> Report {
    let (rows, relations, heading) = system.stores();
    run_leading(rows, relations, heading.sizes, heading.relations).expect("a run")
}

#[test]
fn stores_are_counted_without_wrapping() {
    assert_eq!((row_store(0), row_store(6)), (0, 6 * ROW));
    assert_eq!(batch_output(2), 2 * 65_538 + 192);
    for count in COUNTS {
        assert_eq!(row_store(count), row_store(EQUATIONS));
        assert!((batch_output(7)..=batch_output(SHEETS)).contains(&batch_output(count)));
    }
    assert_eq!(batch_output(usize::MAX), 1_000 * 65_538 + 192);
    let mut output = vec![0; batch_output(0)];
    assert_eq!(batch(b"1001\n", &mut output), Ok(2)); // more sheets than a batch has: broken
    assert_eq!(output[..2], *b"3\n");
}

#[test]
fn sizes_past_every_range_are_refused() {
    let (mut rows, mut relations) = (vec![0; row_store(usize::MAX)], vec![0; RELATION_STORE]);
    let right = Sizes { m: 1, equations: 1, l: 0, t: 0 };
    let mut wrong: Vec<(Sizes, usize)> = Vec::new();
    for count in COUNTS {
        wrong.extend([
            (Sizes { m: count, ..right }, 0),
            (Sizes { equations: count, ..right }, 0),
            (right, count.max(17)),
        ]);
    }
    for l in BLOCKS {
        wrong.extend(BLOCKS.map(|t| (Sizes { l, t, ..right }, 0)));
        wrong.extend([(Sizes { l, ..right }, 0), (Sizes { t: l, ..right }, 0)]);
    }
    for (sizes, count) in wrong {
        let heading = Heading { sizes, relations: count, order: [0; 4] };
        let record = Record { first: 0, vectors: 0, values: &[] };
        assert_eq!(run_leading(&mut rows, &mut relations, sizes, count), Err(Refusal(2)));
        assert_eq!(run_trailing(&mut rows, &mut relations, sizes, count), Err(Refusal(2)));
        assert_eq!(run_logged(&mut rows, &mut relations, sizes, count), Err(Refusal(2)));
        assert_eq!(replay(&mut rows, &mut relations, sizes, count, &Log::default()), Err(Refusal(2)));
        assert_eq!(prepare(&rows, &relations, sizes, count), Err(Refusal(2)));
        assert_eq!(solutions(&rows, &relations, sizes, count), Err(Refusal(2)));
        assert_eq!(check_record(&rows, &relations, sizes, count, &record), Err(Refusal(2)));
        assert_eq!(write_sheet(&rows, &relations, &heading, &mut [0; 99]), Err(Refusal(2)));
        if sizes != right {
            assert_eq!(right_side(&rows, sizes, 1), []);
            let mut state = State { sizes, relations: count, settled: 0, order: [0; 4], shifts: 0 };
            assert_eq!(run_steps(&mut rows, &mut relations, &mut state, 1).unwrap_err().refusal, Refusal(11));
        }
        let built = System::builder(sizes.m, sizes.l, sizes.t).equation(&[(sizes.l, sizes.m, &[1])], &[]);
        assert!(sizes.equations != 1 || count != 0 || built.build() == Err(Refusal(2)));
    }
}

#[test]
fn counts_of_other_things_past_every_range() {
    let (mut rows, mut relations) = (vec![0; row_store(1)], vec![0; RELATION_STORE]);
    let sizes = Sizes { m: 1, equations: 1, l: 0, t: 0 };
    for vectors in COUNTS.into_iter().filter(|&vectors| vectors > 64) {
        for first in BLOCKS {
            let record = Record { first, vectors, values: &[1; 64] };
            assert_eq!(check_record(&rows, &relations, sizes, 0, &record), Err(Refusal(2)));
        }
        let mut result = [0; 10];
        let number = stores::replay(&mut rows, &mut relations, 1, 1, 0, 0, 0, vectors, &[0; 40], &mut result);
        assert!(number == 2 || number == 1, "{vectors} steps are refused");
        assert!(Log::of_numbers(vectors, &[0; 40]).is_err());
        assert_eq!(right_side(&rows, sizes, vectors), []);
    }
    let record = Record { first: 0, vectors: 1, values: &[7] };
    assert_eq!(check_record(&rows, &relations, sizes, 0, &record), Ok(Answer::Fits { tested: 1 }));
    let state = prepare(&rows, &relations, sizes, 0).unwrap();
    for count in COUNTS {
        let listed = State { relations: count.max(17), ..state };
        for mut state in [State { settled: count, ..state }, State { shifts: count, ..state }, listed] {
            assert_eq!(run_steps(&mut rows, &mut relations, &mut state, count).unwrap_err().refusal, Refusal(11));
        }
        let step = LogStep::Exchange { i: count, j: count };
        let log = Log { steps: vec![step], order: [1, 0, 0, 0] };
        assert_eq!(replay(&mut rows, &mut relations, sizes, 0, &log), Err(Refusal(13)));
    }
}

#[test]
fn a_report_of_another_system_is_refused() {
    let mut ran = system(K2);
    let report = run_in_stores(&mut ran);
    assert_eq!((report.rank, report.relations, report.order), (2, 2, [1, 2, 0, 0]));
    let untouched = ran.clone();
    let wrong = [
        Report { rank: 1, order: [1, 0, 0, 0], ..report }, // a row too few
        Report { rank: 3, ..report },
        Report { rank: usize::MAX, ..report },
        Report { relations: 1, ..report }, // a relation too few
        Report { relations: 17, ..report },
        Report { relations: usize::MAX, ..report },
        Report { order: [2, 1, 0, 0], ..report }, // not triangular in it
        Report { order: [1, 1, 0, 0], ..report },
        Report { order: [1, 3, 0, 0], ..report },
        Report { order: [1, 2, 3, 0], ..report },
        Report { order: [1, i64::MAX, 0, 0], ..report },
        Report { order: [i64::MIN, 2, 0, 0], ..report },
        Report { order: [1, 0, 0, 0], ..report },
        Report { order: [0; 4], ..report },
    ];
    for wrong in wrong {
        assert_eq!(ran.settle(&wrong), Err(Refusal(11)), "{wrong:?}");
        assert_eq!(ran, untouched);
    }
    assert_eq!(system(TWICE).settle(&report), Err(Refusal(11)));
    assert_eq!(system(K2).settle(&report), Err(Refusal(11))); // it was not run
    ran.settle(&report).unwrap();
    ran.settle(&report).unwrap();
    let mut whole = system(K2);
    whole.run_leading().unwrap();
    assert_eq!(ran, whole);
}

#[test]
fn every_report_of_its_own_run_is_taken() {
    let sheets = [K2, TWICE, b"3 1 0 0\n0\n0\n0\n", b"3 2 1 0\n1\n2 1 1 2 0 1 0 2 1 -1\n1\n-4 1 0 1 1 5\n1 2\n"];
    for sheet in sheets {
        let mut leading = system(sheet);
        let report = run_in_stores(&mut leading);
        assert_eq!(leading.settle(&report), Ok(()));
        let mut trailing = system(sheet);
        let (rows, relations, heading) = trailing.stores();
        let report = run_trailing(rows, relations, heading.sizes, heading.relations).unwrap();
        assert_eq!(trailing.settle(&report), Ok(()));
        let mut whole = system(sheet);
        whole.run_trailing().unwrap();
        assert_eq!(trailing, whole);
    }
}

#[test]
fn polynomials_that_are_not_there() {
    for unknowns in [0, 1, 2, usize::MAX] {
        let list = Solutions { last: usize::MAX, unknowns, sequences: vec![vec![1, 2, 3], vec![]] };
        for sequence in [0, 1, 2, usize::MAX] {
            for unknown in [0, 1, 2, usize::MAX] {
                assert!(list.polynomial(sequence, unknown).len() <= 3);
            }
        }
    }
}

#[test]
fn a_builder_takes_numbers_of_any_size() {
    for s in BLOCKS {
        for c in [0, 2, usize::MAX] {
            assert_eq!(System::builder(1, 0, 0).equation(&[(s, c, &[1])], &[]).build(), Err(Refusal(2)));
            assert_eq!(System::builder(1, 0, 0).relation(s, &[(0, c, &[1])], &[]).build(), Err(Refusal(2)));
        }
        let twice = [(0, 1, &[i64::MAX][..]), (0, 1, &[i64::MAX])];
        assert_eq!(System::builder(1, 0, 0).equation(&twice, &[]).build(), Err(Refusal(5)));
        assert_eq!(System::builder(1, 0, 0).equation(&[], &[i64::MIN]).build(), Err(Refusal(5)));
        assert_eq!(System::builder(2, 0, 0).order(&[s]).build(), Err(Refusal(2)));
    }
    assert_eq!(System::builder(2, 0, 0).order(&[1, 2, 1, 2, 1]).build(), Err(Refusal(2)));
    let many = (0..40).fold(System::builder(1, 0, 0), |built, n0| built.relation(n0, &[], &[]).equation(&[], &[]));
    assert_eq!(many.build(), Err(Refusal(2)));
    let system = system(K2);
    for number in [0, 3, usize::MAX] {
        assert!(system.equation(number).is_none() && system.relation(number).is_none());
    }
    let equation = system.equation(1).unwrap();
    for block in BLOCKS {
        assert_eq!((equation.entry(block, 1), equation.entry(0, usize::MAX)), (&[][..], &[][..]));
    }
}

/// Whatever report is settled in the stores of whatever run, what is taken is what the stores hold: the rows and the
/// order of the run, and its relations, perhaps with some behind them that say 0 = 0.
#[test]
fn reports_of_the_examples_are_not_exchanged() {
    let folder = concat!(env!("CARGO_MANIFEST_DIR"), "/../../examples");
    let files = std::fs::read_dir(folder).expect("the examples").map(|file| file.expect("a file").path());
    let sheets: Vec<Vec<u8>> = files
        .filter(|path| path.extension().is_some_and(|kind| kind == "sheet"))
        .map(|path| std::fs::read(path).expect("a sheet"))
        .collect();
    let ran: Vec<(System, Report)> = sheets
        .iter()
        .filter(|sheet| system(sheet).run_leading().is_ok())
        .map(|sheet| {
            let mut system = system(sheet);
            let report = run_in_stores(&mut system);
            (system, report)
        })
        .collect();
    assert!(ran.len() > 8);
    let mut refused = 0;
    for (before, own) in &ran {
        for (_, other) in &ran {
            let mut system = before.clone();
            match system.settle(other) {
                Ok(()) => {
                    assert_eq!((other.rank, other.order), (own.rank, own.order));
                    let more = (own.relations + 1..=other.relations).map(|number| system.relation(number).unwrap());
                    assert!(own.relations <= other.relations);
                    more.for_each(|(n0, equation)| assert_eq!((n0, equation.terms().count()), (0, 0)));
                }
                Err(refusal) => {
                    refused += 1;
                    assert_eq!((refusal, &system), (Refusal(11), before));
                    assert_ne!(other, own);
                }
            }
        }
    }
    assert!(refused > ran.len());
}
