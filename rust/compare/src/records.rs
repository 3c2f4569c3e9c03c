//! Random records with the systems that they are held against: fitting ones that are made from solutions, failing at one index, with
//! values, indices and values of Horner's rule at the ends of their ranges and one past them.

use crate::random::Random;
use crate::systems::{fits, nonzero, sizes, system};
use outside::polynomial::Polynomial;
use outside::record::{Record, INDEX, LIMIT, VALUE, VECTORS};
use outside::row::Row;
use outside::system::{Relation, Sizes, System};
use outside::{C, EQUATIONS, RELATIONS};

/// A record with its own numbers.
#[derive(Clone, Debug, PartialEq, Eq)]
pub struct Recorded {
    pub first: i64,
    pub vectors: usize,
    pub values: Vec<i64>,
}

impl Recorded {
    pub fn record(&self) -> Record<'_> {
        Record { first: self.first, vectors: self.vectors, values: &self.values }
    }

    /// Numbers behind those that are needed, of any size.
    pub fn lengthen(&mut self, random: &mut Random) {
        let more = random.pick(&[0, 0, 0, 1, 7]);
        self.values.extend((0..more).map(|_| random.junk()));
    }

    fn last(&self) -> i128 {
        self.first as i128 + self.vectors as i128 - 1
    }
}

/// A system, and a record that it may explain.
pub fn recorded(random: &mut Random) -> (System, Recorded) {
    match random.below(8) {
        0 => {
            let system = system(random);
            let recorded = plain(random, &system);
            (system, recorded)
        }
        1 | 2 => limited(random),
        _ => solved(random),
    }
}

/// How many vectors: few, some more than the blocks need, or the most.
fn vectors(random: &mut Random, sizes: Sizes) -> usize {
    let blocks = sizes.d() as usize + 1;
    let some = random.below(VECTORS + 1);
    random.pick(&[0, 1, blocks - 1, blocks, blocks, blocks + 1, blocks + 3, blocks + 3, some, VECTORS])
}

/// The first index of so many vectors: near 0, at an end of the range, or anywhere.
fn first(random: &mut Random, vectors: usize) -> i64 {
    let highest = INDEX - (vectors as i128 - 1).max(0);
    let first = match random.below(10) {
        0 => -INDEX,
        1 => highest,
        2 => random.between(-INDEX, highest),
        _ => random.between(-8, 4),
    };
    first as i64
}

/// Numbers without connection to the system, most of them 0 or small.
fn plain(random: &mut Random, system: &System) -> Recorded {
    let vectors = vectors(random, system.sizes);
    let size = random.pick(&[0, 0, 1, 9, VALUE]);
    let values = (0..vectors * system.sizes.m).map(|_| random.between(-size, size) as i64).collect();
    let mut recorded = Recorded { first: first(random, vectors), vectors, values };
    if random.one_in(2) {
        near_relation(random, system, &mut recorded);
    }
    recorded
}

/// A first index at which some relation has its blocks in the record, or one of them just outside.
fn near_relation(random: &mut Random, system: &System, recorded: &mut Recorded) {
    if system.relations.is_empty() {
        return;
    }
    let n0 = random.pick(&system.relations).n0;
    let back = random.between(0, recorded.vectors as i128 + 1) - 1;
    let first = n0 + system.sizes.t as i128 - back;
    if (-INDEX..=INDEX - VECTORS as i128).contains(&first) {
        recorded.first = first as i64;
    }
}

// ---- records that are solutions ----

/// A polynomial with another index: p(n + s).
fn moved(p: &Polynomial, s: i64) -> Polynomial {
    let step = |p: Polynomial, _| if s > 0 { p.after_increment() } else { p.after_decrement() };
    (0..s.abs()).fold(p.clone(), step)
}

fn value(p: &Polynomial, n: i128) -> i128 {
    p.coefficients().iter().rev().fold(0, |v, a| v * n + a)
}

/// What a row makes of the unknowns that are these polynomials.
fn made(row: &Row, unknowns: &[Polynomial]) -> Polynomial {
    let product = |(s, c, p): (i64, usize, &Polynomial)| p.times(&moved(&unknowns[c - 1], s));
    row.entries().map(product).fold(Polynomial::default(), |sum, p| sum.plus(&p))
}

/// A few entries of small degree.
fn left_part(random: &mut Random, sizes: Sizes) -> Row {
    let mut row = Row::default();
    for _ in 0..random.pick(&[1, 2, 2, 3, 6]) {
        let (s, c) = (random.between(sizes.t as i128, sizes.l as i128) as i64, 1 + random.below(sizes.m));
        let degree = random.below(3);
        row.set(s, c, Polynomial::new((0..=degree).map(|_| random.between(-4, 4)).collect()));
    }
    row
}

/// A row that those unknowns satisfy: with the right side that they make, or, by a factor each, with none.
fn satisfied(random: &mut Random, sizes: Sizes, unknowns: &[Polynomial]) -> Row {
    let mut row = left_part(random, sizes);
    let two: Vec<(i64, usize)> = row.entries().map(|(s, c, _)| (s, c)).take(2).collect();
    if let ([(s, c), (u, d)], true) = (&two[..], random.one_in(2)) {
        let factor = nonzero(random, 3);
        row = Row::default();
        row.set(*s, *c, moved(&unknowns[d - 1], *u).times_number(factor));
        row.set(*u, *d, moved(&unknowns[c - 1], *s).times_number(-factor));
    } else {
        row.set_right(made(&row, unknowns));
    }
    if fits(&row) {
        row
    } else {
        Row::default()
    }
}

/// Unknowns that are polynomials, equations and relations that they satisfy, and their values; or one of those values, a right side, or a
/// relation's right side changed.
fn solved(random: &mut Random) -> (System, Recorded) {
    let sizes = sizes(random);
    let vectors = vectors(random, sizes);
    let first = first(random, vectors);
    let degree = if first.abs() < 10 { random.below(4) } else { 0 };
    let size = if degree == 0 { random.pick(&[3, VALUE]) } else { 1 };
    let mut unknowns = Vec::new();
    for _ in 0..sizes.m {
        let degree = random.below(degree + 1);
        unknowns.push(Polynomial::new((0..=degree).map(|_| random.between(-size, size)).collect()));
    }
    if random.one_in(6) {
        unknowns[0] = Polynomial::new(vec![random.pick(&[VALUE, -VALUE])]);
    }
    let index = |k: usize| first as i128 + k as i128;
    for p in &mut unknowns {
        if (0..vectors).any(|k| value(p, index(k)).abs() > VALUE) {
            *p = Polynomial::new(vec![nonzero(random, 2)]);
        }
    }
    let values = (0..vectors).flat_map(|k| unknowns.iter().map(move |p| value(p, index(k)) as i64)).collect();
    let mut recorded = Recorded { first, vectors, values };
    let rows = (0..random.below(EQUATIONS + 1)).map(|_| satisfied(random, sizes, &unknowns)).collect();
    let mut system = System { sizes, rows, relations: Vec::new() };
    for _ in 0..random.pick(&[0, 0, 1, 2, 4, RELATIONS]) {
        let relation = relation(random, &system, &recorded, &unknowns);
        system.relations.push(relation);
    }
    if random.one_in(2) {
        spoil(random, &mut system, &mut recorded);
    }
    (system, recorded)
}

/// An index at which all blocks are in the record, or, on either side, one of them is not.
fn place(random: &mut Random, sizes: Sizes, recorded: &Recorded) -> i128 {
    let (low, high) = (recorded.first as i128 - sizes.t as i128, recorded.last() - sizes.l as i128);
    match random.below(6) {
        0 => low - 1,
        1 => high + 1,
        2 => low,
        3 => high,
        _ => random.between(low.min(high), high.max(low)),
    }
}

/// A relation that those unknowns satisfy: of a row that they satisfy, or of any other with the right side that is asked for there.
fn relation(random: &mut Random, system: &System, recorded: &Recorded, unknowns: &[Polynomial]) -> Relation {
    let n0 = place(random, system.sizes, recorded);
    let mut row = satisfied(random, system.sizes, unknowns);
    if random.one_in(2) {
        row = left_part(random, system.sizes);
        let sum = value(&made(&row, unknowns), n0);
        row.set_right(Polynomial::new(vec![sum]));
    }
    Relation { n0, row: if fits(&row) { row } else { Row::default() } }
}

/// One thing made wrong, so that the record fails at an index or so.
fn spoil(random: &mut Random, system: &mut System, recorded: &mut Recorded) {
    let by = nonzero(random, 3);
    let (equations, relations, values) = (system.rows.len(), system.relations.len(), recorded.values.len());
    match random.below(4) {
        0 if relations > 0 => {
            let row = &mut system.relations[random.below(relations)].row;
            row.set_right(row.right().plus(&Polynomial::new(vec![by])));
        }
        1 if equations > 0 => {
            // Nothing more at one index: the row fails at every other one.
            let at = place(random, system.sizes, recorded);
            let row = &mut system.rows[random.below(equations)];
            row.set_right(row.right().plus(&Polynomial::linear(at).times_number(by)));
        }
        _ if values > 0 => {
            let some = random.below(values);
            let at = random.pick(&[0, values - 1, values - 1, some]);
            recorded.values[at] = (recorded.values[at] + by as i64).clamp(-VALUE as i64, VALUE as i64);
        }
        _ => {}
    }
    let within = |row: &Row| fits(row);
    debug_assert!(system.all_rows().all(within));
}

// ---- values of Horner's rule ----

/// A polynomial whose value at n is the number, with the digits of it to the base n as coefficients; or one more of the second digit and
/// a negative first one.
pub fn reaching(n: i128, number: i128, from_above: bool) -> Option<Polynomial> {
    let (base, mut left) = (n.abs(), number.abs());
    if base < 16 {
        return None;
    }
    let mut digits = Vec::new();
    while left > 0 {
        digits.push(left % base);
        left /= base;
    }
    if from_above {
        digits[0] -= base;
        digits[1] += 1;
    }
    let p = Polynomial::new(digits).times_number(number.signum());
    Some(if n < 0 { p.mirrored() } else { p })
}

/// A record of zeros or nearly so and a system one of whose entries or right sides is at the limit, or near it, at one index that is tested
/// or just not.
fn limited(random: &mut Random) -> (System, Recorded) {
    let sizes = sizes(random);
    let vectors = vectors(random, sizes).max(1);
    let near = random.pick(&[16, 300, 5_000, 70_000]);
    let first = match random.below(4) {
        0 => first(random, vectors),
        1 => -INDEX as i64,
        2 => (INDEX - vectors as i128 + 1) as i64,
        _ => random.between(-near, near) as i64,
    };
    let size = random.pick(&[0, 0, 0, 1, VALUE]);
    let values = (0..vectors * sizes.m).map(|_| random.between(-size, size) as i64).collect();
    let recorded = Recorded { first, vectors, values };
    let rows = vec![Row::default(); 1 + random.below(3)];
    let mut system = System { sizes, rows, relations: Vec::new() };
    for _ in 0..random.below(3) {
        let n0 = place(random, sizes, &recorded);
        system.relations.push(Relation { n0, row: Row::default() });
    }
    for _ in 0..random.pick(&[1, 1, 2]) {
        put_limit(random, &mut system, &recorded);
    }
    if random.one_in(3) {
        // A right side alone, so that there is a nonzero sum before the limit or behind it.
        let equations = system.rows.len();
        let row = &mut system.rows[random.below(equations)];
        row.set_right(Polynomial::new(vec![nonzero(random, C)]));
    }
    (system, recorded)
}

/// An entry or a right side that is at the limit, or near it, at an index.
fn put_limit(random: &mut Random, system: &mut System, recorded: &Recorded) {
    let (sizes, equations, relations) = (system.sizes, system.rows.len(), system.relations.len());
    let number = (LIMIT + random.pick(&[0, 0, 1, 1, -1, 2])) * random.pick(&[1, -1]);
    let at = place(random, sizes, recorded);
    let (n, row) = if random.one_in(3) && relations > 0 {
        let relation = &mut system.relations[random.below(relations)];
        (relation.n0, &mut relation.row)
    } else {
        (at, &mut system.rows[random.below(equations)])
    };
    let Some(p) = reaching(n, number, random.one_in(3)) else { return };
    if random.one_in(3) {
        row.set_right(p);
    } else {
        row.set(random.between(sizes.t as i128, sizes.l as i128) as i64, 1 + random.below(sizes.m), p);
    }
}

/// Indices, number of vectors, values and their store made wrong, or brought to the ends of their ranges.
pub fn damage_record(random: &mut Random, recorded: &mut Recorded) {
    let (end, most) = (INDEX as i64, VALUE as i64);
    match random.below(5) {
        0 => {
            let last = end - recorded.vectors as i64;
            let ends = [end, end + 1, -end, -end - 1, last, last + 1, last + 2, i64::MIN, i64::MAX];
            recorded.first = random.pick(&ends);
        }
        1 => {
            recorded.vectors = random.pick(&[0, 0, 1, VECTORS, VECTORS + 1, usize::MAX, 1 << 62, recorded.vectors + 1]);
            if random.one_in(2) {
                recorded.values.resize(4 * (VECTORS + 1), 0);
            }
            if random.one_in(2) {
                recorded.first = random.pick(&[-end, end, -end - 1, end + 1]);
            }
        }
        2 => {
            let less = random.pick(&[0, 1, 1, 2, 100]);
            recorded.values.truncate(recorded.values.len().saturating_sub(less));
        }
        _ if !recorded.values.is_empty() => {
            let at = random.below(recorded.values.len());
            recorded.values[at] = random.pick(&[most, most + 1, -most, -most - 1, i64::MIN, i64::MAX]);
        }
        _ => {}
    }
}
