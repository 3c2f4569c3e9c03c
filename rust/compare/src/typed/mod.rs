//! A second reader of typed texts, made from the rules of `wurgalm type` in docs/wurgalm.1 alone, and texts to read.
//!
//! [`syntax`] makes a tree of each equation, letter by letter; [`meaning`] works the trees out with [`wide`] numbers
//! and keeps the rules on names and limits; [`sheets`] takes a sheet for the same [`Meaning`]; [`texts`] makes texts.

pub mod meaning;
pub mod sheets;
pub mod syntax;
pub mod texts;
pub mod wide;

use std::collections::BTreeMap;

/// The coefficients that are not 0, by their power.
pub type Powers = BTreeMap<usize, i64>;

/// Terms by block (or derivative) and column, and the right side.
#[derive(Clone, Debug, Default, PartialEq, Eq)]
pub struct Row {
    pub terms: BTreeMap<(i64, usize), Powers>,
    pub right: Powers,
}

/// What a text or a sheet says.
#[derive(Clone, Debug, Default, PartialEq, Eq)]
pub struct Meaning {
    pub unknowns: usize,
    /// l and t, or the highest derivative and the highest power.
    pub bounds: (i64, i64),
    pub equations: Vec<Row>,
    pub relations: Vec<(i64, Row)>,
    pub order: Vec<usize>,
}

/// A text that breaks a rule.
#[derive(Clone, Copy, Debug, PartialEq, Eq)]
pub struct Broken(pub &'static str);
