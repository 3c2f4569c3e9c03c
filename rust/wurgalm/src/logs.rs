//! Elimination logs: the steps of a leading run, written down so that others can make them again, and the replay of steps that an
//! elimination elsewhere has made, with pivots of its own choice. What a replay accepts has the sequences of the input, whoever made the
//! log.

use crate::{report, stores, Refusal, Report, Sizes, COEFFICIENTS, RESULT};
use std::error::Error;
use std::fmt;
use std::str::FromStr;

/// Numbers of a step in a store: the kind, i, j, the integer, and the coefficients of g and of h.
pub const LOG_STEP: usize = 4 + 2 * COEFFICIENTS;
/// The most steps of a log.
pub const LOG_STEPS: usize = 1_000;
/// Numbers of a column order.
const ORDER: usize = 4;
/// Numbers that a run's log takes in a store.
const LOG_STORE: usize = LOG_STEP * LOG_STEPS + ORDER;

/// A step of an elimination. Rows are counted from 1 among those that are there when its turn comes.
#[derive(Clone, Copy, Debug, PartialEq, Eq)]
pub enum LogStep {
    /// Two different rows change places.
    Exchange { i: usize, j: usize },
    /// Row i becomes (g × row i + h × row j) / integer. j is another row, g is not zero, and the positive integer divides every
    /// coefficient, on both sides. Row i as it was is listed as a relation at each integer root of g.
    Combine { i: usize, j: usize, integer: i64, g: [i64; COEFFICIENTS], h: [i64; COEFFICIENTS] },
    /// Each block of row i moves up, with n + 1 for n. Block l is zero before.
    Up { i: usize },
    /// Each block of row i moves down, with n - 1 for n. Block t is zero before.
    Down { i: usize },
    /// Row i, zero on both sides, is left out.
    Drop { i: usize },
}

/// Numbers in a log that are none of its steps: a kind that there is not, a row below 0, a field that is not 0 where the kind does not use
/// it, or a store too short.
#[derive(Clone, Copy, Debug, PartialEq, Eq)]
pub struct Malformed;

impl fmt::Display for Malformed {
    fn fmt(&self, f: &mut fmt::Formatter) -> fmt::Result {
        write!(f, "no log")
    }
}

impl Error for Malformed {}

impl LogStep {
    /// The combination with multipliers of so many coefficients, from power 0 upward; at most sixteen each.
    ///
    /// ```
    /// let step = wurgalm::LogStep::combine(2, 1, 1, &[2], &[0, -1]).unwrap(); // 2 × row 2 - n × row 1
    /// assert_eq!(step.to_string(), "combine 2 1 1 1 2 2 0 -1");
    /// assert_eq!(wurgalm::LogStep::combine(2, 1, 1, &[1; 17], &[]), None);
    /// ```
    pub fn combine(i: usize, j: usize, integer: i64, g: &[i64], h: &[i64]) -> Option<LogStep> {
        Some(LogStep::Combine { i, j, integer, g: multiplier(g)?, h: multiplier(h)? })
    }

    /// The 36 numbers of the step. A row that is no `i64` is past every row, and so is the number in its place.
    ///
    /// ```
    /// assert_eq!(wurgalm::LogStep::Exchange { i: 1, j: 2 }.numbers()[..4], [1, 1, 2, 0]);
    /// ```
    pub fn numbers(&self) -> [i64; LOG_STEP] {
        let mut numbers = [0; LOG_STEP];
        let (kind, i, j) = match *self {
            LogStep::Exchange { i, j } => (1, i, j),
            LogStep::Combine { i, j, integer, g, h } => {
                numbers[3] = integer;
                numbers[4..4 + COEFFICIENTS].copy_from_slice(&g);
                numbers[4 + COEFFICIENTS..].copy_from_slice(&h);
                (2, i, j)
            }
            LogStep::Up { i } => (3, i, 0),
            LogStep::Down { i } => (4, i, 0),
            LogStep::Drop { i } => (5, i, 0),
        };
        numbers[0] = kind;
        (numbers[1], numbers[2]) = (row_number(i), row_number(j));
        numbers
    }

    /// The step of 36 numbers. Its condition, and whether its numbers are within their limits, is for [`replay`] to say.
    ///
    /// ```
    /// use wurgalm::{LogStep, Malformed};
    /// let mut numbers = LogStep::Up { i: 2 }.numbers();
    /// assert_eq!(LogStep::of_numbers(&numbers), Ok(LogStep::Up { i: 2 }));
    /// numbers[2] = 1; // a shift has one row
    /// assert_eq!(LogStep::of_numbers(&numbers), Err(Malformed));
    /// ```
    pub fn of_numbers(numbers: &[i64; LOG_STEP]) -> Result<LogStep, Malformed> {
        let row = |number: i64| usize::try_from(number).map_err(|_| Malformed);
        let (i, j) = (row(numbers[1])?, row(numbers[2])?);
        let step = match numbers[0] {
            1 => LogStep::Exchange { i, j },
            2 => {
                let (g, h) = numbers[4..].split_at(COEFFICIENTS);
                LogStep::combine(i, j, numbers[3], g, h).ok_or(Malformed)?
            }
            3 => LogStep::Up { i },
            4 => LogStep::Down { i },
            5 => LogStep::Drop { i },
            _ => return Err(Malformed),
        };
        // A field that the kind does not use is 0, as in what would be written.
        if step.numbers() == *numbers {
            Ok(step)
        } else {
            Err(Malformed)
        }
    }
}

fn row_number(row: usize) -> i64 {
    i64::try_from(row).unwrap_or(i64::MAX)
}

fn multiplier(coefficients: &[i64]) -> Option<[i64; COEFFICIENTS]> {
    let mut all = [0; COEFFICIENTS];
    all.get_mut(..coefficients.len())?.copy_from_slice(coefficients);
    Some(all)
}

/// The steps of an elimination, and the columns in whose order the leading matrix is triangular at its end, zeros past them.
///
/// As text a log has a line for each step, `exchange I J`, `up I`, `down I`, `drop I`, or `combine I J INTEGER` with each multiplier as the
/// number of its coefficients and those, lowest power first; the last line is `order` and the columns. It is read as it is
/// written and not otherwise: one space between two words, no sign `+`, no zero that could be left out, and each line with
/// its end, so that a log of which a part is missing is none.
///
/// ```
/// let log: wurgalm::Log = "up 2\ncombine 2 1 1 1 2 2 0 -1\norder 1 2\n".parse().unwrap(); // 2 × row 2 - n × row 1
/// assert_eq!(log.steps[0], wurgalm::LogStep::Up { i: 2 });
/// assert_eq!(log.order, [1, 2, 0, 0]);
/// assert_eq!(log.numbers().len(), 2 * wurgalm::LOG_STEP + 4);
/// assert_eq!(wurgalm::Log::of_numbers(2, &log.numbers()), Ok(log));
/// for text in ["up 2\norder 1", "up 2\n", "up +2\norder 1\n", "up  2\norder 1\n", "order1\n", "order 1 0\n"] {
///     assert_eq!(text.parse::<wurgalm::Log>(), Err(wurgalm::Malformed));
/// }
/// ```
#[derive(Clone, Debug, PartialEq, Eq, Default)]
pub struct Log {
    pub steps: Vec<LogStep>,
    pub order: [i64; ORDER],
}

impl Log {
    /// The numbers of [`stores::replay`]: those of the steps, and the order behind them.
    ///
    /// ```
    /// let log: wurgalm::Log = "drop 3\norder 2 1\n".parse().unwrap();
    /// let numbers = log.numbers();
    /// assert_eq!((numbers[0], numbers[1]), (5, 3));
    /// assert_eq!(numbers[wurgalm::LOG_STEP..], [2, 1, 0, 0]);
    /// ```
    pub fn numbers(&self) -> Vec<i64> {
        self.steps.iter().flat_map(LogStep::numbers).chain(self.order).collect()
    }

    /// The log of so many steps at the beginning of a store.
    ///
    /// ```
    /// let log = wurgalm::Log::of_numbers(0, &[2, 1, 0, 0]).unwrap();
    /// assert_eq!(log.to_string(), "order 2 1\n");
    /// assert_eq!(wurgalm::Log::of_numbers(1, &[2, 1, 0, 0]), Err(wurgalm::Malformed)); // too short for a step
    /// ```
    pub fn of_numbers(steps: usize, numbers: &[i64]) -> Result<Log, Malformed> {
        let of_steps = steps.checked_mul(LOG_STEP).ok_or(Malformed)?;
        let (of_steps, behind) = numbers.split_at_checked(of_steps).ok_or(Malformed)?;
        let step = |numbers: &[i64]| LogStep::of_numbers(numbers.first_chunk().ok_or(Malformed)?);
        let steps = of_steps.chunks(LOG_STEP).map(step).collect::<Result<_, _>>()?;
        Ok(Log { steps, order: *behind.first_chunk().ok_or(Malformed)? })
    }
}

impl fmt::Display for LogStep {
    fn fmt(&self, f: &mut fmt::Formatter) -> fmt::Result {
        match self {
            LogStep::Exchange { i, j } => write!(f, "exchange {i} {j}"),
            LogStep::Combine { i, j, integer, g, h } => {
                write!(f, "combine {i} {j} {integer}")?;
                [g, h].into_iter().try_for_each(|p| {
                    let count = p.iter().rposition(|&a| a != 0).map_or(0, |last| last + 1);
                    write!(f, " {count}")?;
                    p[..count].iter().try_for_each(|a| write!(f, " {a}"))
                })
            }
            LogStep::Up { i } => write!(f, "up {i}"),
            LogStep::Down { i } => write!(f, "down {i}"),
            LogStep::Drop { i } => write!(f, "drop {i}"),
        }
    }
}

impl fmt::Display for Log {
    fn fmt(&self, f: &mut fmt::Formatter) -> fmt::Result {
        self.steps.iter().try_for_each(|step| writeln!(f, "{step}"))?;
        write!(f, "order")?;
        let count = self.order.iter().rposition(|&column| column != 0).map_or(0, |last| last + 1);
        self.order[..count].iter().try_for_each(|column| write!(f, " {column}"))?;
        writeln!(f)
    }
}

impl FromStr for LogStep {
    type Err = Malformed;

    fn from_str(line: &str) -> Result<LogStep, Malformed> {
        let mut words = line.split_ascii_whitespace();
        let kind = words.next().ok_or(Malformed)?;
        let numbers: Vec<i64> = words.map(|word| word.parse().map_err(|_| Malformed)).collect::<Result<_, _>>()?;
        let row = |number: i64| usize::try_from(number).map_err(|_| Malformed);
        let step = match (kind, &numbers[..]) {
            ("exchange", &[i, j]) => LogStep::Exchange { i: row(i)?, j: row(j)? },
            ("combine", &[i, j, integer, ref multipliers @ ..]) => {
                let (g, rest) = counted(multipliers)?;
                let (h, _) = counted(rest)?;
                LogStep::combine(row(i)?, row(j)?, integer, g, h).ok_or(Malformed)?
            }
            ("up", &[i]) => LogStep::Up { i: row(i)? },
            ("down", &[i]) => LogStep::Down { i: row(i)? },
            ("drop", &[i]) => LogStep::Drop { i: row(i)? },
            _ => return Err(Malformed),
        };
        as_written(step, line)
    }
}

/// What was read of a text, if that is how it is written.
fn as_written<Read: fmt::Display>(read: Read, text: &str) -> Result<Read, Malformed> {
    if read.to_string() == text {
        Ok(read)
    } else {
        Err(Malformed)
    }
}

/// So many numbers as the first of them says, and those behind them.
fn counted(numbers: &[i64]) -> Result<(&[i64], &[i64]), Malformed> {
    let (&count, rest) = numbers.split_first().ok_or(Malformed)?;
    usize::try_from(count).ok().and_then(|count| rest.split_at_checked(count)).ok_or(Malformed)
}

impl FromStr for Log {
    type Err = Malformed;

    fn from_str(text: &str) -> Result<Log, Malformed> {
        let lines: Vec<&str> = text.lines().collect();
        let (last, steps) = lines.split_last().ok_or(Malformed)?;
        let steps = steps.iter().map(|line| line.parse()).collect::<Result<_, _>>()?;
        let columns = last.strip_prefix("order").ok_or(Malformed)?;
        let mut order = [0; ORDER];
        for (k, column) in columns.split_ascii_whitespace().enumerate() {
            *order.get_mut(k).ok_or(Malformed)? = column.parse().map_err(|_| Malformed)?;
        }
        as_written(Log { steps, order }, text)
    }
}

/// Regularises the leading side of the system in the stores as [`run_leading`] does, and tells its steps. The log is accepted by
/// [`replay`], with the same rows, relations and report.
///
/// ```
/// let (mut rows, mut relations) = (vec![0; wurgalm::row_store(2)], vec![0; wurgalm::RELATION_STORE]);
/// rows[0] = 2; // 2 x(n) = 0 and 3 x(n) = 0
/// rows[wurgalm::ROW] = 3;
/// let sizes = wurgalm::Sizes { m: 1, equations: 2, l: 0, t: 0 };
/// let (report, log) = wurgalm::run_logged(&mut rows, &mut relations, sizes, 0).unwrap();
/// assert_eq!(report.rank, 1);
/// assert_eq!(log.to_string(), "combine 2 1 1 1 2 1 -3\ndrop 2\norder 1\n");
/// ```
///
/// [`run_leading`]: crate::run_leading
pub fn run_logged(
    rows: &mut [i64],
    relations: &mut [i64],
    sizes: Sizes,
    count: usize,
) -> Result<(Report, Log), Refusal> {
    let (mut log, mut result) = (vec![0; LOG_STORE], [0; RESULT + 1]);
    let Sizes { m, equations, l, t } = sizes;
    let number = stores::run_logged(rows, relations, m, equations, l, t, count, &mut log, &mut result);
    let [run @ .., steps] = result;
    let report = report(number, run)?;
    let log = Log::of_numbers(steps as usize, &log).expect("a run writes the log of its steps");
    Ok((report, log))
}

/// Makes the steps of a log on the system in the stores, each one tested when its turn comes, and lists the relations that they would
/// lose. The log is accepted if at its end the leading matrix is triangular in its order, with no zero on the diagonal. Then the same
/// sequences satisfy what is left, and the report is that of a run; its shifts are the steps up.
///
/// The refusal 13 says that a step or the end is not right; 9, 7 and 8 are the limits of a run, met by a step that is.
///
/// ```
/// use wurgalm::{replay, Refusal};
/// let sheet = b"3 2 1 0\n2\n2 1 1 2 0 1 0 2 1 -1\n2 1 1 1 1 0 1 1 -1\n0\n0\n"; // n x(n+1) = y(n), x(n+1) = x(n)
/// let (mut rows, mut relations) = (vec![0; wurgalm::row_store(2)], vec![0; wurgalm::RELATION_STORE]);
/// let heading = wurgalm::read_sheet(sheet, &mut rows, &mut relations).unwrap();
/// // The second equation first: g is -1, and no relation is lost, where our own run lists two.
/// let log = "exchange 1 2\ncombine 2 1 1 1 -1 2 0 1\nup 2\ncombine 2 1 1 1 1 2 1 1\norder 1 2\n".parse().unwrap();
/// let report = replay(&mut rows, &mut relations, heading.sizes, 0, &log).unwrap();
/// assert_eq!((report.relations, report.shifts, report.order), (0, 1, [1, 2, 0, 0]));
/// // Once more it would not do: row 2 has no zero in its leading block to be shifted.
/// assert_eq!(replay(&mut rows, &mut relations, heading.sizes, 0, &log), Err(Refusal(13)));
/// ```
pub fn replay(
    rows: &mut [i64],
    relations: &mut [i64],
    sizes: Sizes,
    count: usize,
    log: &Log,
) -> Result<Report, Refusal> {
    let (numbers, mut result) = (log.numbers(), [0; RESULT]);
    let (Sizes { m, equations, l, t }, steps) = (sizes, log.steps.len());
    let number = stores::replay(rows, relations, m, equations, l, t, count, steps, &numbers, &mut result);
    report(number, result)
}
