//! Polynomial solutions: all sequences that satisfy a system, begin at index 0 or later and end, as a list of which they are combinations.

use crate::{accepted, row_store, stores, Refusal, Sizes, EQUATIONS, RELATION_STORE};

/// Numbers that one sequence takes in the list store: 16 indices of four unknowns.
pub const SEQUENCE: usize = 64;
/// Numbers that the list store of [`stores::solutions`] needs.
pub const LIST_STORE: usize = SEQUENCE * SEQUENCE;
/// Numbers that its work matrix needs: a row of [`SEQUENCE`] numbers for each of 20 × 6 equations and 16 relations.
pub const MATRIX_STORE: usize = 136 * SEQUENCE;
/// Numbers of its result.
const ANSWER: usize = 3;

/// The list of a system whose last index N is 0 or above; it may be empty.
///
/// A sequence belongs to a column, an index with an unknown, at which it is positive and every other sequence is 0; the list is in the
/// order of these columns. The values of a sequence have no common divisor above 1. Every solution with finitely many nonzero terms, none of
/// them below index 0, is, times some nonzero integer, an integer combination of the sequences.
#[derive(Clone, Debug, PartialEq, Eq)]
pub struct Solutions {
    /// N: all values past this index are 0.
    pub last: usize,
    /// The unknowns of the system.
    pub unknowns: usize,
    /// The values at the indices 0 to N of each, those of all unknowns at an index together.
    pub sequences: Vec<Vec<i64>>,
}

impl Solutions {
    /// The values of one unknown, counted from 1, at the indices 0 to N: the coefficients of a polynomial from power 0 upward where the
    /// system is the recurrence of a differential sheet. Empty where there is no such sequence, counted from 0, or no such unknown.
    ///
    /// ```
    /// let list = wurgalm::Solutions { last: 1, unknowns: 2, sequences: vec![vec![3, 0, 0, 6]] };
    /// assert_eq!((list.polynomial(0, 1), list.polynomial(0, 2)), (vec![3, 0], vec![0, 6])); // 3, and 6x
    /// assert_eq!(list.polynomial(0, 3), []);
    /// ```
    pub fn polynomial(&self, sequence: usize, unknown: usize) -> Vec<i64> {
        let values = self.sequences.get(sequence).map_or(&[][..], |values| values);
        if (1..=self.unknowns).contains(&unknown) {
            values.iter().skip(unknown - 1).step_by(self.unknowns).copied().collect()
        } else {
            Vec::new()
        }
    }
}

/// Lists the polynomial solutions of the system in the stores, which are only read. `None` says that there is none beside zero, because the
/// trailing diagonal has no root, or its largest one gives a negative N.
///
/// 14 says that no list is made: a right side is not zero, the trailing rank is below m, or N is above 15. The trailing run has its own
/// refusals; 12 is a value of Horner's rule past ±2^40 at some index, 8 a number past ±268,435,455 in a row or in the list.
///
/// ```
/// let sheet = b"3 1 2 2\n1\n4 2 0 1 1 2 2 1 -1 1 1 1 -2 0 0 1 12\n"; // (1 - x^2) y'' - 2x y' + 12 y = 0
/// let (mut rows, mut relations) = (vec![0; wurgalm::row_store(1)], vec![0; wurgalm::RELATION_STORE]);
/// let heading = wurgalm::read_differential(sheet, &mut rows, &mut relations).unwrap();
/// let found = wurgalm::solutions(&rows, &relations, heading.sizes, heading.relations).unwrap();
/// let list = found.expect("Legendre's polynomial of degree 3");
/// assert_eq!((list.last, list.sequences.len()), (3, 1));
/// assert_eq!(list.polynomial(0, 1), [0, -3, 0, 5]); // 5x^3 - 3x
/// ```
pub fn solutions(rows: &[i64], relations: &[i64], sizes: Sizes, count: usize) -> Result<Option<Solutions>, Refusal> {
    let Sizes { m, equations, l, t } = sizes;
    let (mut work_rows, mut work_relations) = (vec![0; row_store(EQUATIONS)], vec![0; RELATION_STORE]);
    let (mut matrix, mut list, mut result) = (vec![0; MATRIX_STORE], vec![0; LIST_STORE], [0; ANSWER]);
    let number = stores::solutions(
        rows,
        relations,
        m,
        equations,
        l,
        t,
        count,
        &mut work_rows,
        &mut work_relations,
        &mut matrix,
        &mut list,
        &mut result,
    );
    let [found, last, sequences] = result;
    accepted(number, (found == 1).then(|| listed(&list, m, last as usize, sequences as usize)))
}

/// The sequences at the front of a list store.
fn listed(list: &[i64], unknowns: usize, last: usize, sequences: usize) -> Solutions {
    let columns = (last + 1) * unknowns;
    let sequences = list.chunks_exact(SEQUENCE).take(sequences).map(|values| values[..columns].to_vec()).collect();
    Solutions { last, unknowns, sequences }
}
