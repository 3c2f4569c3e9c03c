//! The recurrence regulariser, written a second time from the scope document (document 01) and the requests to it
//! (document 02) alone.
//!
//! Nothing here is taken from the proved crates: rows are maps from block and column to a polynomial, integers have
//! 128 bits, roots are found between turning points and counted by derivatives, n + 1 is put in by Horner's rule, n -
//! r is divided out from the lowest power up, polynomial solutions are found in fractions. A comment cites the rule of
//! `docs/SCOPE.md` that the code below it renders, or a request as (02, U1). What the documents left open follows the
//! paragraphs 8 to 19, 42 to 44, 50 to 56, 70 to 78, 80 to 82, 90 to 93, 100 to 107, 120 to 128, 140 to
//! 148 and 150 to 156 of `docs/DECISIONS.md`.
//!
//! A run by steps (02, U9) writes down all of its states and then picks the one that its budget comes to.
//!
//! Every public function takes an `Option<Fault>`: `None` follows the rules, `Some` is one of the wrong versions of
//! [`fault::Fault`], with which a comparison shows that it would notice.

pub mod batch;
pub mod common_roots;
pub mod differential;
pub mod elimination;
pub mod fault;
pub mod list_checks;
pub mod logs;
pub mod polynomial;
pub mod record;
pub mod refusal;
pub mod roots;
pub mod row;
pub mod sheet;
pub mod solutions;
pub mod step_calls;
pub mod steps;
pub mod stores;
pub mod system;

/// No coefficient of an input or output is past ±C (SCOPE 1.4).
pub const C: i128 = 268_435_455;
/// The highest degree of a polynomial (SCOPE 1.4).
pub const DEGREE: usize = 15;
/// The most equations that a system has (02, U6).
pub const EQUATIONS: usize = 6;
/// The most relations that a system has (SCOPE 1.23).
pub const RELATIONS: usize = 16;
