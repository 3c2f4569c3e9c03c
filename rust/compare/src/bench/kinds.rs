//! The seven kinds of batches that are measured, 1,000 sheets each, the same at every run.

use crate::batches::framed;
use crate::random::Random;
use crate::sheets::sheet;
use crate::systems::{large_shared_system, nonzero, polynomial, row, row_operation, set_equations};
use crate::systems::{small_side, triangle, Shape, SMALL};
use outside::batch::SHEET_BYTES;
use outside::logs::{run_logged, Step};
use outside::polynomial::Polynomial;
use outside::row::Row;
use outside::sheet::{read, write, Sheet};
use outside::system::{Relation, Sizes, System};
use outside::{C, DEGREE, EQUATIONS};
use std::fs;
use std::io;
use std::path::Path;

/// Sheets of a batch: as many as one may have.
pub const SHEETS: usize = 1_000;

/// A kind of sheet, and the seed of its batch.
pub struct Kind {
    pub name: &'static str,
    /// What its sheets are.
    pub about: &'static str,
    seed: u64,
    make: fn(&mut Random) -> Vec<u8>,
}

pub const KINDS: [Kind; 7] = [
    Kind { name: "small", about: "m ≤ 2, D ≤ 1, degree ≤ 2", seed: 7, make: small },
    Kind { name: "mixed", about: "all kinds of systems, two thirds of the sheets damaged", seed: 3, make: sheet },
    Kind { name: "large", about: "30 kB a sheet: m = 4, D = 4, degree 15, 6 relations", seed: 8, make: large },
    Kind { name: "elimination", about: "much elimination, m = 4, D = 4", seed: 9, make: elimination },
    Kind { name: "right-sides", about: "every equation has a right side", seed: 10, make: right_sides },
    Kind { name: "ranks", about: "0 to 6 equations, many of them dependent", seed: 11, make: ranks },
    Kind {
        name: "common-roots",
        about: "leading entries with common roots, m = 4, D = 4",
        seed: 5,
        make: common_roots,
    },
];

impl Kind {
    pub fn sheets(&self) -> Vec<Vec<u8>> {
        self.first(SHEETS)
    }

    /// The first sheets of the batch.
    pub fn first(&self, count: usize) -> Vec<Vec<u8>> {
        let mut random = Random::new(self.seed);
        let all = std::iter::repeat_with(|| (self.make)(&mut random));
        all.filter(|bytes| bytes.len() <= SHEET_BYTES as usize).take(count).collect()
    }

    /// The input of the batch program.
    pub fn batch(&self) -> Vec<u8> {
        batch_of(&self.sheets())
    }
}

/// Sheets in a frame.
pub fn batch_of(sheets: &[Vec<u8>]) -> Vec<u8> {
    framed(&mut Random::new(1), sheets)
}

/// Writes the batch of each kind into a folder, as `small.batch` and so on.
pub fn write_inputs(folder: &Path) -> io::Result<()> {
    fs::create_dir_all(folder)?;
    KINDS.iter().try_for_each(|kind| fs::write(folder.join(format!("{}.batch", kind.name)), kind.batch()))
}

// ---- how much elimination ----

/// Steps of the accepted sheets of a batch, and relations that they add.
#[derive(Default)]
pub struct Work {
    pub combinations: usize,
    pub exchanges: usize,
    pub shifts: usize,
    pub drops: usize,
    pub relations: usize,
}

impl Work {
    pub fn of(sheets: &[Vec<u8>]) -> Work {
        let mut work = Work::default();
        let systems = sheets.iter().filter_map(|bytes| read(bytes, None).ok()).map(|sheet| sheet.system);
        systems.for_each(|system| work.add(&system));
        work
    }

    /// Adds the run of one system.
    fn add(&mut self, system: &System) {
        let Ok((run, steps)) = run_logged(system, None) else { return };
        self.relations += run.system.relations.len() - system.relations.len();
        for step in &steps {
            match step {
                Step::Combine { .. } => self.combinations += 1,
                Step::Exchange(..) => self.exchanges += 1,
                Step::Up(_) | Step::Down(_) => self.shifts += 1,
                Step::Drop(_) => self.drops += 1,
            }
        }
    }
}

// ---- the kinds ----

pub(crate) fn text(system: System) -> Vec<u8> {
    write(&Sheet { system, order: Vec::new() })
}

fn system(sizes: Sizes, rows: Vec<Row>) -> System {
    System { sizes, rows, relations: Vec::new() }
}

/// Sizes about block 0, with so many unknowns and so many blocks below the highest one.
pub(crate) fn sizes(m: usize, d: usize) -> Sizes {
    let l = d as i64 / 2;
    Sizes { m, l, t: l - d as i64 }
}

fn small(random: &mut Random) -> Vec<u8> {
    let sizes = sizes(1 + random.below(2), random.below(2));
    let shape = Shape { density: 75, ..SMALL };
    let rows = (0..sizes.m).map(|_| row(random, sizes.m, sizes.l, sizes.t, shape)).collect();
    text(system(sizes, rows))
}

/// Every entry below the highest block has 16 coefficients, and those of the highest block are numbers, so that an elimination stays
/// within the degree. Relations are only read and written: their coefficients are as long as they can be.
fn large(random: &mut Random) -> Vec<u8> {
    let sizes = sizes(4, 4);
    let rows = (0..sizes.m).map(|_| numbers_above(random, sizes, DEGREE, C / 64)).collect();
    let relations = (0..6).map(|_| Relation { n0: random.between(-C, C), row: full_row(random, sizes, DEGREE, C) });
    text(System { relations: relations.collect(), ..system(sizes, rows) })
}

/// Polynomials of the given degree in all blocks, with coefficients of any size up to the given one.
fn full_row(random: &mut Random, sizes: Sizes, degree: usize, size: i128) -> Row {
    let mut row = Row::default();
    for block in sizes.t..=sizes.l {
        for column in 1..=sizes.m {
            row.set(block, column, full_polynomial(random, degree, size));
        }
    }
    row
}

fn full_polynomial(random: &mut Random, degree: usize, size: i128) -> Polynomial {
    let below = (0..degree).map(|_| random.between(-size, size)).collect::<Vec<_>>();
    Polynomial::new(below.into_iter().chain([nonzero(random, size)]).collect())
}

/// A full row whose entries in the highest block are small numbers.
pub(crate) fn numbers_above(random: &mut Random, sizes: Sizes, degree: usize, size: i128) -> Row {
    let mut row = full_row(random, sizes, degree, size);
    (1..=sizes.m).for_each(|column| row.set(sizes.l, column, Polynomial::new(vec![random.between(-2, 2)])));
    row
}

/// Four thin rows with a nearly triangular leading block; each is then moved down by up to two blocks, and polynomial multiples of
/// the rows before it are added in every block that this left free. So each row takes combinations, a shift, combinations again.
fn elimination(random: &mut Random) -> Vec<u8> {
    let sizes = sizes(4, 4);
    let thin: Vec<Row> = (1..=sizes.m).map(|column| thin_row(random, sizes, column)).collect();
    let rows = (0..sizes.m).map(|i| buried(random, &thin[..i], &thin[i])).collect();
    text(system(sizes, rows))
}

/// Entries in the three highest blocks, in the highest one mostly from the given column on, which has the pivot.
fn thin_row(random: &mut Random, sizes: Sizes, column: usize) -> Row {
    let shape = Shape { degree: 1, size: 2, density: 90 };
    let mut row = row(random, sizes.m, sizes.l, sizes.l - 2, shape);
    for earlier in (1..column).filter(|_| !random.one_in(5)) {
        row.set(sizes.l, earlier, Polynomial::default());
    }
    let (number, root) = (nonzero(random, 1), random.between(-6, 6));
    row.set(sizes.l, column, random.pick(&[Polynomial::new(vec![number]), Polynomial::linear(root)]));
    row
}

/// The row some blocks lower, with multiples of others in its blocks and above it.
fn buried(random: &mut Random, others: &[Row], row: &Row) -> Row {
    let one = Polynomial::new(vec![1]);
    let depth = random.below(3);
    let mut sum = lowered(row, depth);
    for other in others {
        for blocks in 0..=depth {
            let factor = polynomial(random, Shape { degree: 1, size: 2, density: 100 });
            sum = sum.combined(&one, &lowered(other, blocks), &factor);
        }
    }
    sum
}

/// The same equation so many blocks lower.
fn lowered(row: &Row, blocks: usize) -> Row {
    (0..blocks).fold(row.clone(), |row, _| row.mirrored().shifted().mirrored())
}

fn common_roots(random: &mut Random) -> Vec<u8> {
    text(large_shared_system(random))
}

/// A triangular system that row operations hide, with any sizes.
fn hidden(random: &mut Random) -> System {
    let sizes = sizes(1 + random.below(4), random.below(5));
    let triangle = triangle(random, sizes, Shape { degree: 1, size: 3, density: 60 });
    let mut system = System { relations: Vec::new(), ..triangle };
    (0..random.below(8)).for_each(|_| row_operation(random, &mut system));
    system
}

fn right_sides(random: &mut Random) -> Vec<u8> {
    let mut system = hidden(random);
    system.rows.iter_mut().for_each(|row| row.set_right(small_side(random)));
    text(system)
}

fn ranks(random: &mut Random) -> Vec<u8> {
    let mut system = hidden(random);
    let equations = random.below(EQUATIONS + 1);
    set_equations(random, &mut system, equations);
    text(system)
}

#[cfg(test)]
mod tests {
    use super::*;
    use outside::batch::answer;

    const SOME: usize = 100;

    fn first(name: &str) -> Vec<Vec<u8>> {
        KINDS.iter().find(|kind| kind.name == name).expect("one of the kinds").first(SOME)
    }

    fn systems(name: &str) -> Vec<System> {
        first(name).iter().map(|bytes| read(bytes, None).expect("a whole sheet").system).collect()
    }

    #[test]
    fn most_are_accepted() {
        for kind in KINDS.iter().filter(|kind| kind.name != "mixed") {
            let accepted = kind.first(SOME).iter().filter(|sheet| answer(sheet, None).is_ok()).count();
            assert!(accepted * 5 >= SOME * 4, "{}: {accepted}", kind.name);
        }
    }

    #[test]
    fn small_and_large() {
        for System { sizes, rows, .. } in systems("small") {
            assert!(sizes.m <= 2 && sizes.d() <= 1 && rows.iter().all(|row| row.degree() <= 2));
        }
        assert!(first("large").iter().all(|sheet| (28_000..=SHEET_BYTES as usize).contains(&sheet.len())));
    }

    #[test]
    fn much_elimination() {
        let work = Work::of(&first("elimination"));
        assert!(work.combinations >= 8 * SOME && work.shifts >= 2 * SOME && work.relations >= SOME / 2);
    }

    #[test]
    fn sides_and_ranks() {
        assert!(systems("right-sides").iter().all(|system| system.rows.iter().all(|row| !row.right().is_zero())));
        let ranks = systems("ranks");
        assert!((0..=EQUATIONS).all(|count| ranks.iter().any(|system| system.rows.len() == count)));
        assert!(Work::of(&first("ranks")).drops >= SOME / 2);
    }
}
