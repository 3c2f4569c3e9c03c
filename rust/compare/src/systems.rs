//! Random systems, of kinds that together reach every rule of the elimination and every refusal of a run (SCOPE 2, 6). Most have
//! no right side, a third has some. Half have as many equations as unknowns, the others any number from 0 to 6: some equations are
//! lacking, or there are repeated, combined, zero and new ones between them.

use crate::random::Random;
use outside::polynomial::Polynomial;
use outside::row::Row;
use outside::system::{Relation, Sizes, System};
use outside::{C, DEGREE, EQUATIONS, RELATIONS};

/// How large the polynomials of a system may be.
#[derive(Clone, Copy)]
pub(crate) struct Shape {
    pub degree: usize,
    pub size: i128,
    /// Of a hundred entries, how many are nonzero.
    pub density: usize,
}

pub(crate) const SMALL: Shape = Shape { degree: 2, size: 4, density: 50 };

/// A system of some kind, within all limits of an input.
pub fn system(random: &mut Random) -> System {
    let mut system = match random.below(16) {
        0 => plain(random, SMALL),
        1 => plain(random, Shape { degree: 3, size: 6, density: 80 }),
        2 => plain(random, Shape { degree: 1, size: 2, density: 30 }),
        3 => staircase(random),
        4 | 5 => hidden_triangle(random),
        6 => dependent(random),
        7 => many_roots(random),
        8 => plain(random, Shape { degree: DEGREE, size: 3, density: 40 }),
        9 => high_degree(random),
        10 => near_limit(random),
        11 => one_unknown(random),
        12 => shared_roots(random),
        13 => multiple_roots(random),
        _ => limited_roots(random),
    };
    let with_sides = random.one_in(3);
    if with_sides {
        add_sides(random, &mut system);
    }
    if random.one_in(2) {
        let equations = random.below(EQUATIONS + 1);
        set_equations(random, &mut system, equations);
        if with_sides && random.one_in(4) {
            add_sides(random, &mut system);
        }
    }
    debug_assert!(within_limits(&system));
    system
}

/// A system of some kind with so many equations.
pub fn system_with(random: &mut Random, equations: usize) -> System {
    let mut system = system(random);
    set_equations(random, &mut system, equations);
    system
}

/// A large system: four unknowns, five blocks, nearly all entries nonzero.
pub fn large_system(random: &mut Random) -> System {
    let sizes = Sizes { m: 4, l: 2, t: -2 };
    let mut system = triangle(random, sizes, Shape { degree: 1, size: 5, density: 95 });
    for _ in 0..4 {
        row_operation(random, &mut system);
    }
    system
}

/// A large system whose leading entries have common roots, so that every combination divides by them.
pub fn large_shared_system(random: &mut Random) -> System {
    let mut system = large_system(random);
    let most = system.rows.iter().map(Row::degree).max().unwrap_or(0);
    let common = product(random, (DEGREE - most).min(3), 4);
    let leading = system.sizes.l;
    for row in &mut system.rows {
        for column in 1..=4 {
            row.set(leading, column, row.entry(leading, column).times(&common));
        }
    }
    system
}

fn within_limits(system: &System) -> bool {
    system.all_rows().all(fits) && system.rows.len() <= EQUATIONS && system.relations.len() <= RELATIONS
}

pub fn fits(row: &Row) -> bool {
    row.degree() <= DEGREE && row.size() <= C
}

// ---- parts ----

pub fn sizes(random: &mut Random) -> Sizes {
    sizes_with(random, 1, 4)
}

fn sizes_with(random: &mut Random, least: usize, most: usize) -> Sizes {
    let m = least + random.below(most - least + 1);
    let d = random.below(5) as i64;
    let l = match random.below(8) {
        0 => 64,
        1 => d - 64,
        2 => random.between(d as i128 - 64, 64) as i64,
        _ => random.between(-3, 4) as i64,
    };
    Sizes { m, l, t: l - d }
}

pub fn nonzero(random: &mut Random, size: i128) -> i128 {
    let a = random.between(1, size);
    if random.one_in(2) {
        a
    } else {
        -a
    }
}

/// A nonzero polynomial: a constant, any coefficients, or a product of linear factors.
pub(crate) fn polynomial(random: &mut Random, shape: Shape) -> Polynomial {
    match random.below(10) {
        0..=2 => Polynomial::new(vec![nonzero(random, shape.size)]),
        3..=5 => {
            let mut coefficients: Vec<i128> =
                (0..random.below(shape.degree + 1)).map(|_| random.between(-shape.size, shape.size)).collect();
            coefficients.push(nonzero(random, shape.size));
            Polynomial::new(coefficients)
        }
        6 => {
            let mut coefficients = vec![0; random.below(shape.degree + 1)];
            coefficients.push(nonzero(random, shape.size));
            Polynomial::new(coefficients)
        }
        _ => {
            let factors = random.below(shape.degree.min(5) + 1);
            product(random, factors, 6).times_number(nonzero(random, 2))
        }
    }
}

/// A product of so many factors n - r, with r of at most the given size.
fn product(random: &mut Random, factors: usize, size: i128) -> Polynomial {
    let mut p = Polynomial::new(vec![1]);
    for _ in 0..factors {
        p = p.times(&Polynomial::linear(random.between(-size, size)));
    }
    p
}

/// A row with entries in some of the blocks from high down to low.
pub(crate) fn row(random: &mut Random, m: usize, high: i64, low: i64, shape: Shape) -> Row {
    let mut row = Row::default();
    for block in low..=high {
        for column in 1..=m {
            if random.below(100) < shape.density {
                row.set(block, column, polynomial(random, shape));
            }
        }
    }
    row
}

/// Mostly few relations, now and then nearly as many as there can be.
fn relations(random: &mut Random, sizes: Sizes, shape: Shape) -> Vec<Relation> {
    let count = match random.below(8) {
        0..=4 => 0,
        5 => 1 + random.below(3),
        6 => 12 + random.below(5),
        _ => random.below(RELATIONS + 1),
    };
    (0..count).map(|_| relation(random, sizes, shape)).collect()
}

fn relation(random: &mut Random, sizes: Sizes, shape: Shape) -> Relation {
    let small = random.between(-9, 9);
    let n0 = random.pick(&[0, small, small, small, C, -C]);
    let thin = Shape { density: shape.density / 2, ..shape };
    let row = if random.one_in(4) { Row::default() } else { row(random, sizes.m, sizes.l, sizes.t, thin) };
    Relation { n0, row }
}

fn system_of(random: &mut Random, sizes: Sizes, rows: Vec<Row>) -> System {
    let relations = relations(random, sizes, SMALL);
    System { sizes, rows, relations }
}

// ---- right sides ----

/// Right sides for some of the equations and relations, in place of those that they have. Now and then an equation keeps nothing else.
fn add_sides(random: &mut Random, system: &mut System) {
    let side = random.pick(&[small_side, small_side, large_side, high_side]);
    let density = random.pick(&[20, 50, 100]);
    for row in system.all_rows_mut() {
        if random.below(100) < density {
            row.set_right(side(random));
        }
    }
    if random.one_in(20) && !system.rows.is_empty() {
        let mut row = Row::default();
        row.set_right(side(random));
        let i = random.below(system.rows.len());
        system.rows[i] = row;
    }
}

pub(crate) fn small_side(random: &mut Random) -> Polynomial {
    polynomial(random, SMALL).times_number(random.pick(&[1, 1, 1, 2, 6]))
}

/// Coefficients such that a combination or a shift is just within ±C or past it, by the right side alone.
fn large_side(random: &mut Random) -> Polynomial {
    let size = random.pick(&[C, C / 2, C / 3, 16_400]);
    let below: Vec<i128> = (0..random.below(4)).map(|_| random.pick(&[0, 1, -1, size, -size, size - 1])).collect();
    let last = random.pick(&[size, -size, size - 1, 1, -1]);
    Polynomial::new(below.into_iter().chain([last]).collect())
}

/// A degree such that a combination is just within 15 or past it, by the right side alone.
fn high_side(random: &mut Random) -> Polynomial {
    let mut coefficients = vec![0; 11 + random.below(DEGREE - 10)];
    coefficients[0] = random.between(-2, 2);
    coefficients.push(nonzero(random, 3));
    Polynomial::new(coefficients)
}

// ---- more and fewer equations ----

/// Equations left out, or others put in anywhere, until there are so many.
pub(crate) fn set_equations(random: &mut Random, system: &mut System, equations: usize) {
    while system.rows.len() > equations {
        system.rows.remove(random.below(system.rows.len()));
    }
    while system.rows.len() < equations {
        let row = another_row(random, system);
        system.rows.insert(random.below(system.rows.len() + 1), row);
    }
}

/// A row beside those that are there: one of them again, as it is, shifted or times a polynomial; a sum of two; zero; or new.
fn another_row(random: &mut Random, system: &System) -> Row {
    let Sizes { m, l, t } = system.sizes;
    let one = Polynomial::new(vec![1]);
    let factor = polynomial(random, Shape { degree: 1, size: 3, density: 100 });
    let new = row(random, m, l, t, SMALL);
    if system.rows.is_empty() {
        return new;
    }
    let (first, second) = (random.pick(&system.rows), random.pick(&system.rows));
    let made = match random.below(12) {
        0 => Row::default(),
        1 | 2 => new,
        3 | 4 => first.clone(),
        5 | 6 => first.shifted(),
        7 | 8 => first.combined(&factor, &Row::default(), &one),
        _ => first.combined(&one, &second, &factor),
    };
    let inside = made.entries().all(|(block, _, _)| (t..=l).contains(&block));
    if inside && fits(&made) {
        made
    } else {
        first
    }
}

// ---- kinds ----

/// Entries anywhere.
fn plain(random: &mut Random, shape: Shape) -> System {
    let sizes = sizes(random);
    let rows = (0..sizes.m).map(|_| row(random, sizes.m, sizes.l, sizes.t, shape)).collect();
    system_of(random, sizes, rows)
}

/// Rows that lie in different blocks, so that they have different widths and many are shifted.
fn staircase(random: &mut Random) -> System {
    let sizes = sizes(random);
    let steps = sizes.d() as usize + 1;
    let mut rows = Vec::new();
    for _ in 0..sizes.m {
        let high = sizes.l - random.below(steps) as i64;
        let low = sizes.t + random.below((high - sizes.t + 1) as usize) as i64;
        rows.push(row(random, sizes.m, high, low, Shape { degree: 1, size: 3, density: 70 }));
    }
    system_of(random, sizes, rows)
}

/// A system whose leading block is triangular in a random order of the columns.
pub(crate) fn triangle(random: &mut Random, sizes: Sizes, shape: Shape) -> System {
    let order = random.permutation(sizes.m);
    let mut rows = Vec::new();
    for j in 0..sizes.m {
        let mut row = row(random, sizes.m, sizes.l, sizes.t, shape);
        order[..j].iter().for_each(|&column| row.set(sizes.l, column, Polynomial::default()));
        row.set(sizes.l, order[j], polynomial(random, shape));
        rows.push(row);
    }
    system_of(random, sizes, rows)
}

/// A triangular system that row operations, shifts down and exchanges hide.
fn hidden_triangle(random: &mut Random) -> System {
    let sizes = sizes_with(random, 2, 4);
    let shape = Shape { degree: 1 + random.below(2), size: 3, density: 30 };
    let mut system = triangle(random, sizes, shape);
    for _ in 0..random.below(8) {
        row_operation(random, &mut system);
    }
    system
}

/// One change that keeps the solutions, or nearly so; it is left out where it would pass a limit.
pub(crate) fn row_operation(random: &mut Random, system: &mut System) {
    let Sizes { m, t, .. } = system.sizes;
    let (i, j) = (random.below(m), random.below(m));
    if i == j {
        let row = &system.rows[i];
        if row.entries().all(|(block, _, _)| block > t) {
            system.rows[i] = row.mirrored().shifted().mirrored();
        }
    } else if random.one_in(4) {
        system.rows.swap(i, j);
    } else {
        let factor = polynomial(random, Shape { degree: 1, size: 2, density: 100 });
        let changed = system.rows[i].combined(&Polynomial::new(vec![1]), &system.rows[j], &factor);
        if fits(&changed) {
            system.rows[i] = changed;
        }
    }
}

/// A system of which one row is a combination of the others, one of them shifted where that is possible. Of half of them the right
/// sides are combined too; then in half of those they are changed, so that there is no solution.
fn dependent(random: &mut Random) -> System {
    let sizes = sizes_with(random, 2, 4);
    let mut system = triangle(random, sizes, Shape { degree: 1, size: 2, density: 30 });
    let with_sides = random.one_in(2);
    if with_sides {
        add_sides(random, &mut system);
    }
    let which = random.below(sizes.m);
    let mut sum = Row::default();
    for (i, row) in system.rows.iter().enumerate().filter(|(i, _)| *i != which) {
        let up = row.shifted();
        let shifted = i % 2 == 0 && up.entries().all(|(block, _, _)| block <= sizes.l);
        let factor = polynomial(random, SMALL);
        sum = sum.combined(&Polynomial::new(vec![1]), if shifted { &up } else { row }, &factor);
    }
    if fits(&sum) {
        system.rows[which] = sum;
    }
    if with_sides && random.one_in(2) {
        add_sides(random, &mut system);
    }
    system
}

/// Pivots that are products of several linear factors, so that many relations are listed.
fn many_roots(random: &mut Random) -> System {
    let sizes = sizes_with(random, 2, 4);
    let mut rows = Vec::new();
    for _ in 0..sizes.m {
        let mut row = row(random, sizes.m, sizes.l, sizes.t, Shape { degree: 0, size: 2, density: 30 });
        let factors = random.below(8);
        row.set(sizes.l, 1 + random.below(sizes.m), product(random, factors, 3));
        rows.push(row);
    }
    let mut system = system_of(random, sizes, rows);
    system.rows.retain(fits);
    system.rows.resize(sizes.m, Row::default());
    system
}

/// Entries of degree near 15, such that a combination is just within the limit or just past it.
fn high_degree(random: &mut Random) -> System {
    let sizes = sizes_with(random, 2, 3);
    let high = 5 + random.below(11);
    let mut rows = Vec::new();
    for i in 0..sizes.m {
        let mut row = row(random, sizes.m, sizes.l, sizes.t, Shape { degree: 1, size: 2, density: 30 });
        let power = if i == 0 { high } else { (16 - high.min(15)).saturating_sub(random.below(2)) };
        let mut coefficients = vec![0; power];
        coefficients.push(nonzero(random, 2));
        coefficients[0] += random.between(-1, 1);
        row.set(sizes.l, 1 + random.below(2), Polynomial::new(coefficients));
        rows.push(row);
    }
    system_of(random, sizes, rows)
}

/// Coefficients up to ±C, or about the square root of C, such that a combination or a shift is just within the limit or past it.
fn near_limit(random: &mut Random) -> System {
    let sizes = sizes(random);
    let size = random.pick(&[C, C, 16_400, 16_400, 100, C / 4]);
    let rows = (0..sizes.m).map(|_| large_row(random, sizes, size)).collect();
    let mut system = system_of(random, sizes, rows);
    for relation in &mut system.relations {
        relation.row = large_row(random, sizes, size);
    }
    system
}

fn large_row(random: &mut Random, sizes: Sizes, size: i128) -> Row {
    let mut row = Row::default();
    for _ in 0..1 + random.below(4) {
        let block = sizes.l - random.below(sizes.d() as usize + 1) as i64;
        let near = random.between(size - size / 8, size);
        let a = random.pick(&[near, -near, size, -size, 1, -1, 2]);
        let below = random.pick(&[vec![], vec![], vec![1], vec![size - 1], vec![-size, 3], vec![0, 0, 0]]);
        let coefficients = below.into_iter().chain([a]).collect();
        row.set(block, 1 + random.below(sizes.m), Polynomial::new(coefficients));
    }
    row
}

/// One unknown, so that the report is about one polynomial, often of high degree with many or large roots.
fn one_unknown(random: &mut Random) -> System {
    let sizes = sizes_with(random, 1, 1);
    let factors = random.below(DEGREE + 1);
    let size = random.pick(&[1, 2, 4, 30, 16_000]);
    let mut p = Polynomial::new(vec![nonzero(random, 3)]);
    for _ in 0..factors {
        let longer = p.times(&Polynomial::linear(random.between(-size, size)));
        if longer.size() <= C {
            p = longer;
        }
    }
    let mut row = row(random, 1, sizes.l, sizes.t, SMALL);
    row.set(sizes.l - random.below(sizes.d() as usize + 1) as i64, 1, p);
    system_of(random, sizes, vec![row])
}

// ---- common roots ----

/// Leading and trailing entries that share roots, each several times or once, among them 0, 1 and -1.
pub fn shared_roots(random: &mut Random) -> System {
    let sizes = sizes_with(random, 2, 4);
    let size = random.pick(&[1, 1, 2, 6, 40]);
    let roots: Vec<i128> = (0..1 + random.below(3)).map(|_| random.between(-size, size)).collect();
    let mut rows = Vec::new();
    for _ in 0..sizes.m {
        let mut row = row(random, sizes.m, sizes.l, sizes.t, Shape { degree: 1, size: 2, density: 30 });
        for block in [sizes.l, sizes.t] {
            for column in 1..=1 + random.below(2) {
                row.set(block, column, with_roots(random, &roots));
            }
        }
        rows.push(row);
    }
    system_of(random, sizes, rows)
}

/// Leading and trailing blocks that are triangular, or nearly so, with roots that several diagonal polynomials have, once or more often:
/// 0, 1, -1, small ones, and ones so large that they can occur twice, three times or once only.
pub fn multiple_roots(random: &mut Random) -> System {
    let sizes = sizes(random);
    let order = random.permutation(sizes.m);
    let small = random.between(-9, 9);
    let far = random.pick(&[645, 16_383, C]) * random.pick(&[1, -1]);
    let mut roots = vec![random.pick(&[0, 0, 1, 1, -1, -1, small, small, far])];
    if random.one_in(3) {
        roots.push(random.between(-3, 3));
    }
    let mut rows = Vec::new();
    for j in 0..sizes.m {
        let mut row = row(random, sizes.m, sizes.l, sizes.t, Shape { degree: 0, size: 2, density: 30 });
        for block in [sizes.l, sizes.t] {
            order[..j].iter().for_each(|&column| row.set(block, column, Polynomial::default()));
            row.set(block, order[j], with_roots(random, &roots));
        }
        rows.push(row);
    }
    let mut system = system_of(random, sizes, rows);
    for _ in 0..random.pick(&[0, 0, 1, 3]) {
        row_operation(random, &mut system);
    }
    system
}

/// A small polynomial times n - r for each root, once, several times or not at all.
fn with_roots(random: &mut Random, roots: &[i128]) -> Polynomial {
    let mut p = polynomial(random, Shape { degree: 1, size: 3, density: 100 });
    for &r in roots {
        let times = random.pick(&[0, 1, 1, 1, 2, 2, 3, 5]);
        for longer in std::iter::repeat_n(Polynomial::linear(r), times) {
            p = Some(p.times(&longer)).filter(|q| q.degree() <= DEGREE && q.size() <= C).unwrap_or(p);
        }
    }
    p
}

/// Entries that share the root 1 or -1, or both, and others: a quotient's coefficients are about ±C, so that some division is left out.
pub fn limited_roots(random: &mut Random) -> System {
    let sizes = sizes_with(random, 2, 2);
    let mut roots = random.pick(&[vec![1], vec![1], vec![-1], vec![-1], vec![-1, 1]]);
    match random.below(3) {
        0 => {}
        1 => roots.push(random.between(-3, 3)),
        _ => roots.push(random.pick(&[-1000, -30, -7, 0, 7, 30, 1000])),
    }
    let rows = 2 + random.below(2);
    let mut all = Vec::new();
    for _ in 0..rows {
        let mut row = row(random, 2, sizes.l, sizes.t, Shape { degree: 0, size: 2, density: 50 });
        let entry = limited_entry(random, &roots);
        for block in [sizes.l, sizes.t] {
            row.set(block, 1, entry.clone());
        }
        all.push(row);
    }
    system_of(random, sizes, all)
}

/// A hill of coefficients that rise to some height and fall again, times n - r for each root, and times a number such that the hill's top is
/// at ±C or on one side of it; now and then no hill.
fn limited_entry(random: &mut Random, roots: &[i128]) -> Polynomial {
    let top = random.pick(&[1, 1, 2, 3, 3, 4, 5]);
    let rising = (1..top).chain([top; 2].into_iter().take(1 + random.below(2)));
    let mut hill: Vec<i128> = rising.chain((1..top).rev()).collect();
    if roots[0] == -1 {
        hill.iter_mut().skip(1).step_by(2).for_each(|a| *a = -*a);
    }
    let hill = Polynomial::new(hill);
    let mut p = hill.clone();
    for (k, &r) in roots.iter().enumerate() {
        for _ in 0..if k == 0 { random.pick(&[1, 1, 1, 2]) } else { 1 } {
            p = p.times(&Polynomial::linear(r));
        }
    }
    // The quotient at the first root.
    let wide = p.over_root(roots[0]).map_or(1, |q| q.size()).max(p.size());
    let number = random.pick(&[C / wide, C / wide + 1, (C + 1) / wide, C / p.size(), C / p.size() / 2 + 1, 1, 2]);
    let number = if number * p.size() > C { C / p.size() } else { number };
    p.times_number(if random.one_in(2) { number } else { -number })
}

#[cfg(test)]
mod tests {
    use super::*;
    use outside::elimination::{run, Side};
    use outside::fault::Fault;

    type Make = fn(&mut Random) -> System;

    /// How many of so many systems are accepted, and for how many the fault makes a difference, on either side.
    fn noticed(make: Make, fault: Fault) -> [[usize; 2]; 2] {
        let mut random = Random::new(21);
        let mut counts = [[0; 2]; 2];
        for _ in 0..1_000 {
            let system = make(&mut random);
            assert!(within_limits(&system));
            for (count, side) in counts.iter_mut().zip([Side::Leading, Side::Trailing]) {
                let right = run(&system, side, None);
                count[0] += right.is_ok() as usize;
                count[1] += (right != run(&system, side, Some(fault))) as usize;
            }
        }
        counts
    }

    /// On either side.
    #[test]
    fn counted_roots() {
        let faults = [Fault::TimesOnce, Fault::TimesOnceEach, Fault::TimesOneDiagonal, Fault::TimesMost];
        for fault in faults.into_iter().chain([Fault::TimesLastRow, Fault::TimesOfAllRoots]) {
            let counts = noticed(multiple_roots, fault);
            assert!(counts.iter().all(|count| count[0] >= 500 && count[1] >= 50), "{fault:?}: {counts:?}");
        }
        let limited = noticed(limited_roots, Fault::TimesLimited);
        assert!(limited.iter().all(|count| count[1] >= 20), "{limited:?}");
    }

    #[test]
    fn common_roots() {
        let cases: [(Make, Fault, usize); 4] = [
            (shared_roots, Fault::CommonOnce, 100),
            (limited_roots, Fault::CommonUnlimited, 100),
            (limited_roots, Fault::CommonDescending, 20),
            (large_shared_system, Fault::CommonKept, 900),
        ];
        for (make, fault, least) in cases {
            let counts = noticed(make, fault);
            assert!(counts[0][0] >= 200 && counts[0][1] >= least, "{fault:?}: {counts:?}");
        }
    }
}
