//! The fast version beside `outside`.

use super::{batch, read, run, stream, write, System};
use crate::batches::{framed, sheet_with_answer_of};
use crate::cases::{text, Case, Kind};
use crate::random::Random;
use crate::sheets::{sheet, whole_sheet, whole_sheet_with};
use crate::systems::{fits, large_shared_system, large_system, limited_roots, multiple_roots, shared_roots};
use outside::batch::{answer, output, OUTPUT, SHEET_BYTES};
use outside::elimination::Side;
use outside::polynomial::Polynomial;
use outside::row::Row;
use outside::sheet::Sheet;
use outside::system::{Relation, System as Slow};
use outside::C;
use std::io::Read;

/// Whole and broken batches of every kind.
#[test]
fn same_as_outside() {
    for k in 0..5000 {
        let Case::Batch { input } = Kind::Batch.case(k) else { unreachable!() };
        assert!(batch(&input) == output(&input, None), "{}", text(&input));
    }
}

/// An input that comes in pieces of no fixed length.
struct Pieces<'a>(&'a [u8], Random);

impl Read for Pieces<'_> {
    fn read(&mut self, bytes: &mut [u8]) -> std::io::Result<usize> {
        let most = self.1.pick(&[1, 7, 30, 4096, 65_536]).min(bytes.len());
        self.0.read(&mut bytes[..most])
    }
}

#[test]
fn in_pieces() {
    for k in 0..300 {
        let Case::Batch { input } = Kind::Batch.case(k) else { unreachable!() };
        let mut written = Vec::new();
        stream(Pieces(&input, Random::new(k as u64)), &mut written).expect("nothing fails in memory");
        assert!(written == output(&input, None), "{}", text(&input));
    }
}

/// A sheet of one of the kinds, or none if it is too long for a batch.
fn sheet_of(random: &mut Random) -> Option<Vec<u8>> {
    let equations = random.below(7);
    let bytes = match random.below(10) {
        0 | 1 => sheet(random),
        2 => whole_sheet(random),
        3 => whole_sheet_with(random, equations),
        4 => sheet_text(large_system(random)),
        5 => sheet_text(large_shared_system(random)),
        6 => sheet_text(shared_roots(random)),
        7 => sheet_text(random.pick(&[multiple_roots, limited_roots])(random)),
        8 => sheet_text(with_sides(random)),
        _ => sheet_text(long_system(random)),
    };
    Some(bytes).filter(|bytes| bytes.len() <= SHEET_BYTES as usize)
}

fn sheet_text(system: Slow) -> Vec<u8> {
    outside::sheet::write(&Sheet { system, order: Vec::new() })
}

fn coefficients(random: &mut Random, length: usize) -> Polynomial {
    let size = random.pick(&[9, 99_999, 9_999_999, 99_999_999, C]);
    Polynomial::new((0..length).map(|_| random.between(-size, size)).chain([1]).collect())
}

/// Every row has a right side.
fn with_sides(random: &mut Random) -> Slow {
    let mut system = large_system(random);
    system
        .all_rows_mut()
        .for_each(|row| row.set_right(Polynomial::new(vec![random.between(-9, 9), random.between(1, 9)])));
    system
}

/// Relations of degree 15 with long numbers, as many as there is room for.
fn long_system(random: &mut Random) -> Slow {
    let mut system = large_system(random);
    system.relations.clear();
    for _ in 0..random.below(11) {
        let mut row = Row::default();
        for block in system.sizes.t..=system.sizes.l {
            (1..=4).for_each(|column| row.set(block, column, coefficients(random, 15)));
        }
        if random.one_in(3) {
            row.set_right(coefficients(random, 15));
        }
        assert!(fits(&row));
        system.relations.push(Relation { n0: random.between(-C, C), row });
    }
    system
}

/// What a sheet is answered, and by how much the run shifts and its last root.
type Answer = Result<(Vec<u8>, usize, Option<i64>), u8>;

fn slow_answer(bytes: &[u8]) -> Answer {
    let run = || {
        let system = outside::sheet::read(bytes, None)?.system;
        let run = outside::elimination::run(&system, Side::Leading, None)?;
        let sheet = Sheet { system: run.system, order: run.order };
        Ok((outside::sheet::write(&sheet), run.shifts, run.root.map(|root| root as i64)))
    };
    run().map_err(|refusal: outside::refusal::Refusal| refusal.number())
}

fn fast_answer(system: &mut System, bytes: &[u8]) -> Answer {
    read(bytes, system)?;
    let mut again = Vec::new();
    write(system, &mut again);
    assert!(again == bytes, "written as it was read: {}", text(bytes));
    let report = run(system)?;
    let mut written = b"before".to_vec();
    write(system, &mut written);
    Ok((written.split_off(6), report.shifts, report.root))
}

/// Reading, running and writing by themselves, on sheets of all kinds, and the same sheets in batches; every refusal comes up.
#[test]
fn sheets_of_all_kinds() {
    let mut random = Random::new(29);
    let mut system = System::new();
    let mut refusals = [0; 11];
    for _ in 0..500 {
        let mut sheets: Vec<Vec<u8>> = std::iter::repeat_with(|| sheet_of(&mut random)).flatten().take(10).collect();
        if random.one_in(20) {
            let length = OUTPUT - 2 + random.below(6);
            sheets.push(sheet_with_answer_of(&mut random, length));
        }
        for sheet in &sheets {
            assert!(fast_answer(&mut system, sheet) == slow_answer(sheet), "{}", text(sheet));
            refusals[answer(sheet, None).map_or_else(|refusal| refusal.number(), |_| 0) as usize] += 1;
        }
        let input = framed(&mut random, &sheets);
        assert!(batch(&input) == output(&input, None), "{}", text(&input));
    }
    let comes_up = |number: usize| number == 6 || refusals[number] > 2;
    assert!((0..11).all(comes_up), "{refusals:?}");
}
