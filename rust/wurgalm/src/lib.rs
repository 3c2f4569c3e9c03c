//! The proved regulariser from Rust.
//!
//! [`stores`] has the exported functions as they are: calls on lent stores, which answer with a refusal number. Below it
//! are the same calls with their answers taken apart. The exported functions have no precondition, so nothing here is
//! tested before a call; `docs/SCOPE.md` says what each call does with every argument.
//!
//! Rows lie in stores of 64-bit numbers, 336 a row: 320 for its entries, five blocks from block l downward, four columns a block, 16
//! coefficients a column, and 16 for its right side; see [`row_store`], [`RELATION_STORE`] and [`right_side`].

#![deny(unsafe_code)]

#[allow(unsafe_code)] // the calls of the exported functions; nothing else needs it
mod foreign;
mod logs;
mod refusal;
mod solutions;
mod steps;
pub mod stores;
mod system;

pub use logs::{replay, run_logged, Log, LogStep, Malformed, LOG_STEP, LOG_STEPS};
pub use solutions::{solutions, Solutions, LIST_STORE, MATRIX_STORE, SEQUENCE};
pub use steps::{prepare, run_steps, Progress, Refused, Run, State, Steps};
pub use system::{Builder, Equation, System, Term};

/// Numbers that hold one polynomial, from power 0 upward.
pub const COEFFICIENTS: usize = 16;
/// Numbers that hold the entries of one row; its right side begins behind them.
pub const ENTRIES: usize = 5 * 4 * COEFFICIENTS;
/// Numbers that hold one row: its entries and its right side.
pub const ROW: usize = ENTRIES + COEFFICIENTS;
/// Numbers that hold one relation: n0 and a row.
pub const RELATION: usize = 1 + ROW;
/// Numbers that the relation store needs.
pub const RELATION_STORE: usize = 16 * RELATION;

/// The most equations that a system has. A row store for so many is long enough for any system.
pub const EQUATIONS: usize = 6;
/// Numbers that a run puts into the result store.
const RESULT: usize = 10;
/// Numbers that a reader puts into the result store.
const HEADING: usize = 9;
/// Numbers that the answer to a record has.
const RECORD: usize = 4;

/// The most sheets of a batch.
pub const SHEETS: usize = 1_000;
/// Bytes that are enough for the sheet of any recurrence, which is proved (SCOPE 10.42).
pub const RECURRENCE: usize = 25_223;

/// Numbers that the row store of a system with so many equations needs. No system has more than [`EQUATIONS`], and a
/// store for those is long enough for every call: it refuses a larger number with 2.
///
/// ```
/// assert_eq!(wurgalm::row_store(2), 2 * wurgalm::ROW);
/// let (mut rows, mut relations) = (vec![0; wurgalm::row_store(usize::MAX)], vec![0; wurgalm::RELATION_STORE]);
/// let sizes = wurgalm::Sizes { m: 1, equations: usize::MAX, l: 0, t: 0 };
/// assert_eq!(wurgalm::run_leading(&mut rows, &mut relations, sizes, 0), Err(wurgalm::Refusal(2)));
/// ```
pub const fn row_store(equations: usize) -> usize {
    at_most(equations, EQUATIONS) * ROW
}

const fn at_most(count: usize, most: usize) -> usize {
    if count < most {
        count
    } else {
        most
    }
}

/// Unknowns, equations, highest block, lowest block. There may be fewer equations than unknowns, or more.
#[derive(Clone, Copy, Debug, PartialEq, Eq)]
pub struct Sizes {
    pub m: usize,
    pub equations: usize,
    pub l: i64,
    pub t: i64,
}

/// A refusal under its number, 1 to 5 or 7 to 14.
#[derive(Clone, Copy, Debug, PartialEq, Eq)]
pub struct Refusal(pub u8);

/// What an accepted run reports; its rows and relations are in the stores.
#[derive(Clone, Copy, Debug, PartialEq, Eq)]
pub struct Report {
    pub relations: usize,
    pub shifts: usize,
    /// c(1) to c(w), w the rank, and zeros past them.
    pub order: [i64; 4],
    /// The largest integer root of a diagonal polynomial; the smallest on the trailing side.
    pub root: Option<i64>,
    /// How many equations are left. The others became zero; their places, behind those that are left, are zero.
    pub rank: usize,
    /// How often the root occurs in the product of the diagonal polynomials; 0 where there is none.
    pub multiplicity: usize,
}

/// What a sheet holds beside the rows and relations, which are in the stores.
#[derive(Clone, Copy, Debug, PartialEq, Eq)]
pub struct Heading {
    pub sizes: Sizes,
    pub relations: usize,
    /// The columns of the sheet's order line, zeros past them.
    pub order: [i64; 4],
}

impl Sizes {
    fn in_range(&self) -> bool {
        let block = |s: i64| (-64..=64).contains(&s);
        let counts = (1..=4).contains(&self.m) && self.equations <= EQUATIONS;
        counts && block(self.l) && block(self.t) && (0..=4).contains(&(self.l - self.t))
    }
}

/// The part of the row store that holds the right side of a row, counted from 1: sixteen coefficients from power 0 upward. It is empty
/// where a size or the row is out of its range, or the store is too short.
///
/// ```
/// let mut rows = vec![0; wurgalm::row_store(1)]; // x(n) = 3 + 5 n
/// rows[0] = 1;
/// (rows[wurgalm::ENTRIES], rows[wurgalm::ENTRIES + 1]) = (3, 5);
/// let sizes = wurgalm::Sizes { m: 1, equations: 1, l: 0, t: 0 };
/// assert_eq!(wurgalm::right_side(&rows, sizes, 1)[..3], [3, 5, 0]);
/// assert_eq!(wurgalm::right_side(&rows, sizes, 2), []);
/// ```
pub fn right_side(rows: &[i64], sizes: Sizes, row: usize) -> &[i64] {
    if sizes.in_range() && (1..=sizes.equations).contains(&row) && rows.len() >= row_store(sizes.equations) {
        &rows[row * ROW - COEFFICIENTS..row * ROW]
    } else {
        &[]
    }
}

fn accepted<T>(number: u8, answer: T) -> Result<T, Refusal> {
    if number == 0 {
        Ok(answer)
    } else {
        Err(Refusal(number))
    }
}

fn report(number: u8, result: [i64; RESULT]) -> Result<Report, Refusal> {
    let [relations, shifts, a, b, c, d, any, root, rank, multiplicity] = result;
    let root = if any == 1 { Some(root) } else { None };
    let (relations, shifts, rank) = (relations as usize, shifts as usize, rank as usize);
    let multiplicity = multiplicity as usize;
    accepted(number, Report { relations, shifts, order: [a, b, c, d], root, rank, multiplicity })
}

/// Regularises the leading side of the system in the stores. What is left has the sizes of the system with `rank` equations.
///
/// ```
/// let (mut rows, mut relations) = (vec![0; wurgalm::row_store(3)], vec![0; wurgalm::RELATION_STORE]);
/// rows[0] = 2; // 2 x(n) = 0, and the same once more, as the third of three equations
/// rows[2 * wurgalm::ROW] = 2;
/// let sizes = wurgalm::Sizes { m: 1, equations: 3, l: 0, t: 0 };
/// let report = wurgalm::run_leading(&mut rows, &mut relations, sizes, 0).unwrap();
/// assert_eq!((report.rank, report.order), (1, [1, 0, 0, 0]));
/// assert_eq!((rows[0], rows[2 * wurgalm::ROW]), (2, 0));
/// ```
pub fn run_leading(rows: &mut [i64], relations: &mut [i64], sizes: Sizes, count: usize) -> Result<Report, Refusal> {
    let mut result = [0; RESULT];
    let Sizes { m, equations, l, t } = sizes;
    let number = stores::run_leading(rows, relations, m, equations, l, t, count, &mut result);
    report(number, result)
}

/// Regularises the trailing side of the system in the stores.
///
/// ```
/// let (mut rows, mut relations) = (vec![0; wurgalm::row_store(2)], vec![0; wurgalm::RELATION_STORE]);
/// (rows[0], rows[1], rows[2]) = (4, 4, 1); // (n + 2)^2 x(n) = 0
/// let y = wurgalm::ROW + wurgalm::COEFFICIENTS;
/// (rows[y], rows[y + 1], rows[y + 2]) = (-10, -3, 1); // (n + 2) (n - 5) y(n) = 0
/// let sizes = wurgalm::Sizes { m: 2, equations: 2, l: 0, t: 0 };
/// let report = wurgalm::run_trailing(&mut rows, &mut relations, sizes, 0).unwrap();
/// assert_eq!((report.root, report.multiplicity), (Some(-2), 3));
/// let report = wurgalm::run_leading(&mut rows, &mut relations, sizes, 0).unwrap();
/// assert_eq!((report.root, report.multiplicity), (Some(5), 1));
/// ```
pub fn run_trailing(rows: &mut [i64], relations: &mut [i64], sizes: Sizes, count: usize) -> Result<Report, Refusal> {
    let mut result = [0; RESULT];
    let Sizes { m, equations, l, t } = sizes;
    let number = stores::run_trailing(rows, relations, m, equations, l, t, count, &mut result);
    report(number, result)
}

fn heading(number: u8, result: [i64; HEADING]) -> Result<Heading, Refusal> {
    let [m, l, t, relations, a, b, c, d, equations] = result;
    let sizes = Sizes { m: m as usize, equations: equations as usize, l, t };
    accepted(number, Heading { sizes, relations: relations as usize, order: [a, b, c, d] })
}

/// Reads a sheet into the stores. A row store for [`EQUATIONS`] equations is long enough for any.
///
/// ```
/// let sheet = b"3 1 0 0\n0\n0\n0\n"; // one unknown, no equations
/// let (mut rows, mut relations) = (vec![0; wurgalm::row_store(wurgalm::EQUATIONS)], vec![0; wurgalm::RELATION_STORE]);
/// let heading = wurgalm::read_sheet(sheet, &mut rows, &mut relations).unwrap();
/// assert_eq!(heading.sizes, wurgalm::Sizes { m: 1, equations: 0, l: 0, t: 0 });
/// assert_eq!(wurgalm::read_sheet(sheet, &mut [], &mut []), Err(wurgalm::Refusal(1))); // the relation store is too short
/// ```
pub fn read_sheet(bytes: &[u8], rows: &mut [i64], relations: &mut [i64]) -> Result<Heading, Refusal> {
    let mut result = [0; HEADING];
    let number = stores::read_sheet(bytes, rows, relations, &mut result);
    heading(number, result)
}

/// Reads a differential sheet and puts the recurrence for the coefficients of its series into the stores: a run can follow at once.
///
/// ```
/// let sheet = b"3 1 2 1\n1\n2 2 0 1 1 0 1 1 -1\n"; // y'' - x y = 0
/// let (mut rows, mut relations) = (vec![0; wurgalm::row_store(1)], vec![0; wurgalm::RELATION_STORE]);
/// let heading = wurgalm::read_differential(sheet, &mut rows, &mut relations).unwrap();
/// assert_eq!(heading.sizes, wurgalm::Sizes { m: 1, equations: 1, l: 2, t: -1 });
/// assert_eq!(rows[..3], [2, 3, 1]); // (n + 1) (n + 2) y(n + 2)
/// let report = wurgalm::run_leading(&mut rows, &mut relations, heading.sizes, heading.relations).unwrap();
/// assert_eq!(report.root, Some(-1)); // from y(0) and y(1) on everything follows
/// ```
pub fn read_differential(bytes: &[u8], rows: &mut [i64], relations: &mut [i64]) -> Result<Heading, Refusal> {
    let mut result = [0; HEADING];
    let number = stores::read_differential(bytes, rows, relations, &mut result);
    heading(number, result)
}

/// Writes the recurrence of a differential sheet, as a sheet, to the beginning of `bytes`, and tells its length. [`RECURRENCE`] bytes
/// are enough for any.
///
/// ```
/// let mut bytes = vec![0; wurgalm::RECURRENCE];
/// let length = wurgalm::write_recurrence(b"3 1 1 0\n1\n2 1 0 1 1 0 0 1 -1\n", &mut bytes).unwrap(); // y' = y
/// assert_eq!(bytes[..length], *b"3 1 1 0\n1\n2 1 1 2 1 1 0 1 1 -1\n0\n0\n"); // (n + 1) y(n+1) - y(n) = 0
/// ```
pub fn write_recurrence(sheet: &[u8], bytes: &mut [u8]) -> Result<usize, Refusal> {
    let mut result = [0; 1];
    let number = stores::write_recurrence(sheet, bytes, &mut result);
    accepted(number, result[0] as usize)
}

/// Writes the sheet of the system in the stores to the beginning of `bytes`, and tells its length. The order of the heading is different
/// columns of 1 to m, and zeros past them.
///
/// ```
/// let sizes = wurgalm::Sizes { m: 1, equations: 1, l: 0, t: 0 };
/// let heading = wurgalm::Heading { sizes, relations: 0, order: [1, 0, 0, 0] };
/// let (mut rows, relations, mut bytes) = (vec![0; wurgalm::row_store(1)], vec![0; wurgalm::RELATION_STORE], [0; 100]);
/// rows[1] = 7; // 7n x(n) = 0
/// let length = wurgalm::write_sheet(&rows, &relations, &heading, &mut bytes).unwrap();
/// assert_eq!(bytes[..length], *b"3 1 0 0\n1\n1 0 1 2 0 7\n0\n1 1\n");
/// ```
pub fn write_sheet(rows: &[i64], relations: &[i64], heading: &Heading, bytes: &mut [u8]) -> Result<usize, Refusal> {
    let mut result = [0; 1];
    let (Sizes { m, equations, l, t }, count) = (heading.sizes, heading.relations);
    let number = stores::write_sheet(rows, relations, m, equations, l, t, count, &heading.order, bytes, &mut result);
    accepted(number, result[0] as usize)
}

/// Recorded vectors, one after another, each of m numbers: at most 64 of them, that of index `first` first. Indices are within
/// ±1,048,576, values within ±65,536.
#[derive(Clone, Copy, Debug, PartialEq, Eq)]
pub struct Record<'a> {
    pub first: i64,
    pub vectors: usize,
    pub values: &'a [i64],
}

/// Whether a system explains a record.
#[derive(Clone, Copy, Debug, PartialEq, Eq)]
pub enum Answer {
    /// Every sum is zero, of so many equations and relations at the indices where the record has all they speak of.
    Fits { tested: usize },
    /// The first sum that is not zero is that of an equation, counted from 1, at n.
    Equation { number: usize, n: i64, sum: i64 },
    /// All equations fit, and the first sum that is not zero is that of a relation, counted from 1, at its n0.
    Relation { number: usize, n0: i64, sum: i64 },
}

/// Asks whether the system in the stores explains a record. An equation is tested at each n for which all vectors from n + t to n + l are
/// in the record, by rising n, then by number; the relations after them, in their order, where their n0 is such an n. Nothing but the
/// answer is written. The refusal 12 says that in Horner's rule for an entry or a right side a value passed ±2^40, before any sum that is
/// not zero.
///
/// ```
/// use wurgalm::{check_record, Answer, Record};
/// let (mut rows, relations) = (vec![0; wurgalm::row_store(1)], vec![0; wurgalm::RELATION_STORE]);
/// (rows[0], rows[1]) = (1, 1); // (n + 1) x(n + 1) - 2 x(n) = 0
/// rows[4 * wurgalm::COEFFICIENTS] = -2;
/// let sizes = wurgalm::Sizes { m: 1, equations: 1, l: 1, t: 0 };
/// let record = Record { first: 0, vectors: 4, values: &[45, 90, 90, 60] };
/// assert_eq!(check_record(&rows, &relations, sizes, 0, &record), Ok(Answer::Fits { tested: 3 }));
/// let record = Record { first: 0, vectors: 5, values: &[45, 90, 90, 60, 31] };
/// let failure = Answer::Equation { number: 1, n: 3, sum: 4 }; // 4 x(4) - 2 x(3)
/// assert_eq!(check_record(&rows, &relations, sizes, 0, &record), Ok(failure));
/// ```
pub fn check_record(
    rows: &[i64],
    relations: &[i64],
    sizes: Sizes,
    count: usize,
    record: &Record,
) -> Result<Answer, Refusal> {
    let mut result = [0; RECORD];
    let (Sizes { m, equations, l, t }, Record { first, vectors, values }) = (sizes, *record);
    let number = stores::check_record(rows, relations, m, equations, l, t, count, first, vectors, values, &mut result);
    let [kind, which, index, sum] = result;
    let answer = match kind {
        0 => Answer::Fits { tested: which as usize },
        1 => Answer::Equation { number: which as usize, n: index, sum },
        _ => Answer::Relation { number: which as usize, n0: index, sum },
    };
    accepted(number, answer)
}

/// Works a whole batch, writes what the batch program would write to the beginning of `output`, and tells its length. At the end stand
/// eight lines, the accepted and the refused sheets of each client. A broken batch is worked too: its output ends in the line `3`, without those
/// lines. The only refusal is 1, an output store that is too short, which is then zero;
/// [`batch_output`] bytes are enough.
///
/// ```
/// let sheet = "3 1 1 0\n1\n2 1 1 2 -3 1 0 1 1 -1\n0\n0\n"; // (n - 3) x(n + 1) - x(n) = 0
/// let input = format!("2\n1 {}\n{sheet}8 3\n3 0", sheet.len());
/// let mut output = vec![0; wurgalm::batch_output(2)];
/// let length = wurgalm::batch(input.as_bytes(), &mut output).unwrap();
/// let answer = "0\n3 1 1 0\n1\n2 1 1 2 -3 1 0 1 1 -1\n0\n1 1\n"; // the same system, in the column order 1
/// let refused = "4\n"; // the other sheet is cut
/// let counts = "1 0\n0 0\n0 0\n0 0\n0 0\n0 0\n0 0\n0 1\n"; // accepted and refused sheets of clients 1 to 8
/// assert_eq!(output[..length], *format!("{answer}{refused}{counts}").as_bytes());
/// ```
pub fn batch(input: &[u8], output: &mut [u8]) -> Result<usize, Refusal> {
    let mut result = [0; 1];
    let number = stores::batch(input, output, &mut result);
    accepted(number, result[0] as usize)
}

/// Bytes that are enough for the output of a batch of so many sheets. No batch has more than [`SHEETS`], and the bytes
/// for those are enough for every input: one that names more is broken, and its output ends in the line `3`.
///
/// ```
/// let mut output = vec![0; wurgalm::batch_output(0)];
/// assert_eq!(wurgalm::batch(b"0\n", &mut output), Ok(32)); // eight lines `0 0`
/// assert_eq!(wurgalm::batch_output(usize::MAX), wurgalm::batch_output(wurgalm::SHEETS));
/// ```
pub const fn batch_output(sheets: usize) -> usize {
    at_most(sheets, SHEETS) * (2 + 65_536) + 8 * 24
}
