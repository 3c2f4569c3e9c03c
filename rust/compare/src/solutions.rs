//! Systems whose polynomial solutions are listed (02, U13): most of them have some, by the way they are made, and others are one step away
//! from a list: a right side, a rank below m, an N past 15, a value past a limit. And what is promised of a list, of the library's.

use crate::cases::{asked_of, lent, Answer, Case, Stores};
use crate::random::Random;
use crate::records::reaching;
use crate::subject::Subject;
use crate::systems::{fits, nonzero, system};
use outside::list_checks::judged;
use outside::polynomial::Polynomial;
use outside::record::LIMIT;
use outside::row::Row;
use outside::solutions::{Lent, List, ANSWER, COLUMNS, LIST, MATRIX};
use outside::stores::{row_store, Asked, RELATION_STORE};
use outside::system::{Relation, Sizes, System};
use outside::{C, DEGREE, EQUATIONS, RELATIONS};

// ---- calls ----

/// The stores that a call writes beside the result: rows, relations, matrix, list.
pub type Work = [Vec<i64>; 4];

/// The answer of a call; what it leaves of the work stores and of the list stands in the place of a state, one store behind the other.
pub fn called(subject: &dyn Subject, stores: &Stores, asked: Asked, work: &Work) -> Answer {
    let (mut stores, mut work) = (stores.clone(), work.clone());
    let [rows, relations, matrix, list] = &mut work;
    let lent = Lent { rows, relations, matrix, list };
    let number = subject.solutions(&stores.rows, &stores.relations, asked, lent, &mut stores.result);
    Answer { number, stores, bytes: Vec::new(), state: work.concat() }
}

/// Numbers that the work stores and the list need, in the order of [`Work`].
pub fn needs(equations: usize) -> [usize; 4] {
    [row_store(equations.min(EQUATIONS)), RELATION_STORE, MATRIX, LIST]
}

/// Work stores of the needed lengths or longer, with junk in them; of every eighth call one that may be too short.
pub fn work(random: &mut Random, equations: usize) -> Work {
    let lengths = needs(equations).map(|need| need + random.pick(&[0, 0, 0, 1, 40]));
    let mut work = lengths.map(|length| (0..length).map(|_| random.junk()).collect::<Vec<i64>>());
    if random.one_in(8) {
        let at = random.below(4);
        let need = needs(equations)[at];
        let short = [0, need.saturating_sub(1), need.saturating_sub(1), need.saturating_sub(COLUMNS), need / 2];
        work[at].truncate(random.pick(&short));
    }
    work
}

// ---- systems ----

/// A system within all limits of an input.
pub fn solvable(random: &mut Random) -> System {
    let mut system = match random.below(14) {
        0 | 1 => without_sides(random),
        2 | 3 => classical(random),
        4 => limited(random),
        5 => chained(random),
        6 => full(random),
        7 => diagonal(random),
        _ => triangle(random),
    };
    if random.one_in(3) {
        add_relations(random, &mut system);
    }
    if random.one_in(16) {
        let at = random.below(system.rows.len().max(1));
        system.rows.drain(at..system.rows.len().min(at + 1));
    }
    if random.one_in(6) && (1..EQUATIONS).contains(&system.rows.len()) {
        let (at, from) = (random.below(system.rows.len() + 1), random.below(system.rows.len()));
        let row = if random.one_in(3) { Row::default() } else { system.rows[from].clone() };
        system.rows.insert(at, row);
    }
    if random.one_in(24) {
        let side = Polynomial::new(vec![nonzero(random, 3)]);
        let count = system.all_rows().count();
        if count > 0 {
            let some = random.below(count);
            let at = random.pick(&[0, count - 1, some]);
            system.all_rows_mut().nth(at).expect("a row").set_right(side);
        }
    }
    system
}

/// Any system, mostly without its right sides.
fn without_sides(random: &mut Random) -> System {
    let mut system = system(random);
    if !random.one_in(6) {
        system.all_rows_mut().for_each(|row| row.set_right(Polynomial::default()));
    }
    system
}

/// The product of n - r over the roots.
fn with_roots(roots: &[i128]) -> Polynomial {
    roots.iter().fold(Polynomial::new(vec![1]), |p, &r| p.times(&Polynomial::linear(r)))
}

/// The factor of the derivative that a block stands above the lowest one: 0 where it would reach back over index 0.
fn rising(t: i64, s: i64) -> Polynomial {
    with_roots(&(1..=s - t).map(|j| -(t + j) as i128).collect::<Vec<_>>())
}

fn small(random: &mut Random) -> Polynomial {
    let size = random.pick(&[1, 4, 4, 30_000]);
    let degree = random.below(3);
    Polynomial::new((0..=degree).map(|_| random.between(-size, size)).collect())
}

/// A last index: mostly small, now and then near 15 or negative.
fn last(random: &mut Random) -> i128 {
    match random.below(8) {
        0 => random.between(13, 17),
        1 => random.between(-3, 0),
        2 => random.between(0, 15),
        _ => random.between(0, 7),
    }
}

fn blocks(random: &mut Random) -> (i64, i64) {
    let t = match random.below(6) {
        0 => random.pick(&[64, 60, -64]),
        1 => random.between(-64, 60) as i64,
        2 => random.between(-4, 4) as i64,
        _ => 0,
    };
    (t + random.between(0, (64 - t).min(4) as i128) as i64, t)
}

/// A trailing block that is triangular with roots at small indices, and above it entries with the factors that derivatives have, so that
/// there are solutions; or without these factors. Rows are then added to each other.
fn triangle(random: &mut Random) -> System {
    let m = 1 + random.below(4);
    let (l, t) = blocks(random);
    let derived = !random.one_in(3);
    let mut rows = Vec::new();
    for unknown in 1..=m {
        let mut row = Row::default();
        let roots: Vec<i128> = (0..1 + random.below(3)).map(|_| last(random) - t as i128).collect();
        for (s, c) in (t..=l).flat_map(|s| (1..=m).map(move |c| (s, c))) {
            let entry = if (s, c) == (t, unknown) {
                with_roots(&roots).times_number(nonzero(random, 3))
            } else if s == t && c < unknown || !random.one_in(if s == t { 3 } else { 2 }) {
                continue;
            } else if derived {
                rising(t, s).times(&Polynomial::new(vec![nonzero(random, 4)]))
            } else {
                small(random)
            };
            row.set(s, c, entry);
        }
        if !fits(&row) {
            row = Row::default();
            row.set(t, unknown, with_roots(&roots[..1]));
        }
        rows.push(row);
    }
    for _ in 0..random.below(3) {
        let (a, b) = (random.below(m), random.below(m));
        let factor = random.pick(&[Polynomial::new(vec![1]), Polynomial::new(vec![-2]), Polynomial::linear(0)]);
        let sum = rows[a].combined(&Polynomial::new(vec![1]), &rows[b], &factor);
        if a != b && fits(&sum) {
            rows[a] = sum;
        }
    }
    System { sizes: Sizes { m, l, t }, rows, relations: Vec::new() }
}

/// One block, with as many roots as fit: every root within 0 to N is a free column.
fn diagonal(random: &mut Random) -> System {
    let m = 1 + random.below(4);
    let (_, t) = blocks(random);
    let d = random.between(0, (64 - t).min(2) as i128) as i64;
    let row = |unknown| {
        let roots: Vec<i128> = (0..1 + random.below(5)).map(|_| last(random) - t as i128).collect();
        let mut row = Row::default();
        row.set(t, unknown, with_roots(&roots));
        if !fits(&row) {
            row.set(t, unknown, with_roots(&roots[..1]));
        }
        row
    };
    let rows = (1..=m).map(row).collect();
    System { sizes: Sizes { m, l: t + d, t }, rows, relations: Vec::new() }
}

/// Four unknowns and N = 15, so that there are 64 columns, with up to 15 roots in each row.
fn full(random: &mut Random) -> System {
    let t = random.between(0, 12) as i64;
    let d = random.below(3) as i64;
    let mut rows = Vec::new();
    for unknown in 1..=4 {
        let mut row = Row::default();
        let (mut roots, most) = (vec![15 - t as i128], random.pick(&[1, 4, 12, 15]));
        for index in random.permutation(15) {
            roots.push(index as i128 - 1 - t as i128);
            if roots.len() > most || with_roots(&roots).size() > C {
                roots.pop();
            }
        }
        row.set(t, unknown, with_roots(&roots));
        if d > 0 && random.one_in(2) {
            row.set(t + d, 1 + random.below(4), rising(t, t + d).times_number(nonzero(random, 2)));
        }
        rows.push(row);
    }
    System { sizes: Sizes { m: 4, l: t + d, t }, rows, relations: Vec::new() }
}

/// Legendre's, Chebyshev's, Hermite's, Laguerre's and Euler's equations of some degree, which may be past 15, or of a number that is no degree's.
fn classical(random: &mut Random) -> System {
    let k = random.between(0, 17);
    let (a, b) = (random.between(-2, 16), random.between(0, 9));
    let sheet = match random.below(5) {
        0 => format!("3 1 2 2\n1\n4 2 0 1 1 2 2 1 -1 1 1 1 -2 0 0 1 {}\n", k * (k + 1) + random.pick(&[0, 0, 0, 1])),
        1 => format!("3 1 2 2\n1\n4 2 0 1 1 2 2 1 -1 1 1 1 -1 0 0 1 {}\n", k * k),
        2 => format!("3 1 2 1\n1\n3 2 0 1 1 1 1 1 -2 0 0 1 {}\n", 2 * k + random.pick(&[0, 0, 0, 1])),
        3 => format!("3 1 2 1\n1\n4 2 1 1 1 1 0 1 1 1 1 1 -1 0 0 1 {k}\n"),
        _ => format!("3 1 2 2\n1\n3 2 2 1 1 1 1 1 {} 0 0 1 {}\n", 1 - a - b, a * b),
    };
    // A factor 0 is no term.
    let sheet = sheet.replace("4 2 0 1 1 2 2 1 -1 1 1 1 -2 0 0 1 0\n", "3 2 0 1 1 2 2 1 -1 1 1 1 -2\n");
    let zero = outside::differential::read(b"3 1 2 0\n1\n1 2 0 1 1\n", None).expect("y'' = 0");
    outside::differential::read(sheet.as_bytes(), None).unwrap_or(zero).recurrence(None)
}

/// Free columns at 0 to N that relations tie together, a x(i+1) = b x(i): products of large a and b are at ±C or near it, in the elimination and
/// in what is listed. Of every third one the last relation has a value past ±2^40, which is found before the elimination.
fn chained(random: &mut Random) -> System {
    let last = 1 + random.below(9) as i128;
    let mut row = Row::default();
    row.set(0, 1, with_roots(&(0..=last).collect::<Vec<_>>()));
    let factor = |random: &mut Random| {
        let some = nonzero(random, 400);
        random.pick(&[1, -1, 2, 645, 646, 16_383, 16_384, -16_385, 40_000, C, -C, C / 2, some, some])
    };
    let mut relations = Vec::new();
    for _ in 0..1 + random.below(7) {
        let mut row = Row::default();
        for s in 0..=2 {
            if !random.one_in(3) {
                row.set(s, 1, Polynomial::new(vec![factor(random)]));
            }
        }
        relations.push(Relation { n0: random.between(-1, last), row });
    }
    if random.one_in(3) {
        let mut row = Row::default();
        row.set(0, 1, with_roots(&[0; DEGREE]).times_number(nonzero(random, C)));
        relations.push(Relation { n0: random.between(1, last + 1), row });
    }
    System { sizes: Sizes { m: 1, l: 2, t: 0 }, rows: vec![row], relations }
}

/// Entries near ±2^40 or ±C at an index within 0 to N, or just outside: in an equation or a relation.
fn limited(random: &mut Random) -> System {
    let t = random.pick(&[64, 63, 60, 40, 20, -20, -40, -60, -64]);
    let l = (t + random.between(0, 2) as i64).min(64);
    let last = random.between(0, 4);
    let m = 1 + random.below(2);
    let mut rows = Vec::new();
    for unknown in 1..=m {
        let mut row = Row::default();
        row.set(t, unknown, Polynomial::linear(last - t as i128));
        rows.push(row);
    }
    let mut system = System { sizes: Sizes { m, l, t }, rows, relations: Vec::new() };
    for _ in 0..1 + random.below(2) {
        let (s, index) = (random.between(t as i128, l as i128), random.between(-1, last + 1));
        let near = random.pick(&[LIMIT, LIMIT, C]);
        let number = (near + random.pick(&[0, 0, 1, 1, -1])) * random.pick(&[1, -1]);
        let Some(p) = reaching(index - s, number, random.one_in(3)) else { continue };
        let mut row = Row::default();
        row.set(s as i64, 1 + random.below(m), p);
        if random.one_in(3) {
            let n0 = index - s;
            system.relations.push(Relation { n0, row });
        } else if s > t as i128 {
            let at = random.below(m);
            let unknown = row.entries().next().map_or(1, |(_, unknown, _)| unknown);
            system.rows[at].set(s as i64, unknown, row.entry(s as i64, unknown));
        }
    }
    system
}

/// A few relations that speak of indices within 0 to N, and of others.
fn add_relations(random: &mut Random, system: &mut System) {
    let Sizes { m, l, t } = system.sizes;
    for _ in 0..random.pick(&[1, 1, 2, 3, 16]) {
        if system.relations.len() == RELATIONS {
            return;
        }
        let mut row = Row::default();
        for (s, c) in (t..=l).flat_map(|s| (1..=m).map(move |c| (s, c))) {
            if random.one_in(3) {
                row.set(s, c, small(random));
            }
        }
        system.relations.push(Relation { n0: random.between(-1, 9) - t as i128, row });
    }
}

// ---- what is promised ----

/// Lists of the library, held against what is promised of them.
#[derive(Default)]
pub struct Listed {
    lists: usize,
    sequences: usize,
    without: usize,
    /// (N + 1) m = 64
    full: usize,
    pub differences: Vec<String>,
}

impl Listed {
    /// The k-th case: its list is one of the system, and complete, or the system has no polynomial solution.
    pub fn test(&mut self, k: usize, subject: &dyn Subject) {
        let mut random = Random::new((0x50 << 40) + k as u64);
        let system = solvable(&mut random);
        let (stores, asked) = (lent(&mut random, &system, ANSWER), asked_of(&system));
        let work = needs(asked.equations).map(|need| vec![7; need]);
        let answer = called(subject, &stores, asked, &work);
        if answer.number != 0 {
            return;
        }
        let list = list_of(&answer, asked);
        match &list {
            Some(list) => {
                self.lists += 1;
                self.sequences += list.sequences.len();
                self.full += ((list.last + 1) * asked.m == COLUMNS) as usize;
            }
            None => self.without += 1,
        }
        if let Err(wrong) = judged(&system, list.as_ref()) {
            let case = Case::Solutions { stores, asked, work };
            self.differences.push(format!("{wrong}, {list:?}\n{}", case.shown()));
        }
    }

    pub fn print(&self) {
        let Listed { lists, sequences, without, full, .. } = self;
        println!(
            "lists: {lists}, {full} of them with 64 columns; sequences: {sequences}; systems without a list: {without}"
        );
    }
}

/// The list that an accepting call has left.
fn list_of(answer: &Answer, asked: Asked) -> Option<List> {
    let [any, last, count] = answer.stores.result[..3] else { unreachable!("three numbers") };
    let (last, columns) = (last as usize, (last as usize + 1) * asked.m);
    let needs = needs(asked.equations);
    let places = &answer.state[needs[..3].iter().sum()..];
    let sequence = |values: &[i64]| values[..columns].iter().map(|&a| a as i128).collect();
    let sequences = places.chunks_exact(COLUMNS).take(count as usize).map(sequence).collect();
    (any == 1).then_some(List { last, sequences })
}

#[cfg(test)]
mod tests {
    use super::*;
    use crate::cases::Kind;
    use crate::subject::Outside;
    use outside::fault::Fault;
    use std::collections::BTreeMap;

    /// Every answer comes up, 64 columns do, and lists of every number of sequences up to six.
    #[test]
    fn cases() {
        let (mut numbers, mut lists, mut columns) = (BTreeMap::new(), BTreeMap::new(), BTreeMap::new());
        for k in 0..3_000 {
            let Case::Solutions { stores, asked, work } = Kind::Solutions.case(k) else { unreachable!() };
            let answer = called(&Outside(None), &stores, asked, &work);
            *numbers.entry(answer.number).or_insert(0) += 1;
            if answer.number == 0 {
                let result = &answer.stores.result;
                *lists.entry((result[0], result[2])).or_insert(0) += 1;
                *columns.entry((result[1] + 1) * asked.m as i64).or_insert(0) += 1;
            }
        }
        println!("{numbers:?}\n{lists:?}\n{columns:?}");
        let often = |number: u8, least: i32| assert!(numbers[&number] >= least, "{number}: {numbers:?}");
        [0, 1, 2, 5, 8, 12, 14].into_iter().for_each(|number| often(number, 20));
        [7, 9].into_iter().for_each(|number| often(number, 8));
        assert!((0..=6).all(|count| lists.get(&(1, count)).is_some_and(|&often| often >= 5)), "{lists:?}");
        assert!(lists[&(0, 0)] >= 100 && columns[&64] >= 20);
    }

    #[test]
    fn promised() {
        let mut listed = Listed::default();
        (0..500).for_each(|k| listed.test(k, &Outside(None)));
        assert_eq!(listed.differences, Vec::<String>::new());
        assert!(listed.lists >= 100 && listed.without >= 20 && listed.full >= 5);
        for fault in [Fault::LastOfLeastRoot, Fault::RelationsNotAsked] {
            let mut listed = Listed::default();
            (0..500).for_each(|k| listed.test(k, &Outside(Some(fault))));
            assert!(!listed.differences.is_empty(), "{fault:?}");
        }
    }
}
