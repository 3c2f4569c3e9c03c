//! Systems and their sizes (SCOPE 1).

use crate::refusal::Refusal;
use crate::row::Row;
use crate::{EQUATIONS, RELATIONS};

/// Unknowns, highest block, lowest block.
#[derive(Clone, Copy, Debug, PartialEq, Eq)]
pub struct Sizes {
    pub m: usize,
    pub l: i64,
    pub t: i64,
}

/// m is from 1 to 4 (SCOPE 1.1).
pub fn unknowns_in_range(m: i128) -> bool {
    (1..=4).contains(&m)
}

/// A system has 0 to 6 equations, however many unknowns it has (02, U6).
pub fn equation_count_in_range(count: i128) -> bool {
    (0..=EQUATIONS as i128).contains(&count)
}

/// A block number is from -64 to 64 (SCOPE 1.2).
pub fn block_in_range(s: i128) -> bool {
    (-64..=64).contains(&s)
}

/// t is a block number, not above l and at most 4 below it (SCOPE 1.2).
pub fn lowest_in_range(l: i128, t: i128) -> bool {
    block_in_range(t) && (0..=4).contains(&(l - t))
}

impl Sizes {
    /// The sizes of a call, 2 where one is out of its range (SCOPE 3.32).
    pub fn checked(m: usize, l: i64, t: i64) -> Result<Sizes, Refusal> {
        let (wide_l, wide_t) = (l as i128, t as i128);
        if unknowns_in_range(m as i128) && block_in_range(wide_l) && lowest_in_range(wide_l, wide_t) {
            Ok(Sizes { m, l, t })
        } else {
            Err(Refusal::Range)
        }
    }

    /// D
    pub fn d(&self) -> i64 {
        self.l - self.t
    }

    fn mirrored(&self) -> Sizes {
        Sizes { m: self.m, l: -self.t, t: -self.l }
    }
}

/// An equation that is asked for at one integer, n0 (SCOPE 1.21).
#[derive(Clone, Debug, PartialEq, Eq)]
pub struct Relation {
    pub n0: i128,
    pub row: Row,
}

/// The number of its equations is that of its rows.
#[derive(Clone, Debug, PartialEq, Eq)]
pub struct System {
    pub sizes: Sizes,
    pub rows: Vec<Row>,
    pub relations: Vec<Relation>,
}

impl System {
    /// The equations, and behind them those of the relations.
    pub fn all_rows(&self) -> impl Iterator<Item = &Row> {
        self.rows.iter().chain(self.relations.iter().map(|r| &r.row))
    }

    pub fn all_rows_mut(&mut self) -> impl Iterator<Item = &mut Row> {
        self.rows.iter_mut().chain(self.relations.iter_mut().map(|r| &mut r.row))
    }

    /// The mirror: -n for n, block -s for block s, -n0 for n0 (SCOPE 2.91).
    pub fn mirrored(&self) -> System {
        let relation = |r: &Relation| Relation { n0: -r.n0, row: r.row.mirrored() };
        System {
            sizes: self.sizes.mirrored(),
            rows: self.rows.iter().map(Row::mirrored).collect(),
            relations: self.relations.iter().map(relation).collect(),
        }
    }
}

/// A relation count is from 0 to 16 (SCOPE 1.23).
pub fn relation_count_in_range(count: i128) -> bool {
    (0..=RELATIONS as i128).contains(&count)
}
