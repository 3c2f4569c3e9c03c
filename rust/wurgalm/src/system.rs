//! A system that owns its stores: built, read, looked at, worked and written.

use crate::{check_record, read_differential, read_sheet, replay, row_store, run_leading, run_logged, run_trailing};
use crate::{solutions, write_sheet, Answer, Heading, Log, Record, Refusal, Report, Sizes, Solutions};
use crate::{COEFFICIENTS, ENTRIES, EQUATIONS, RELATION, RELATION_STORE, ROW};

/// Bytes that are enough for any sheet: 22 rows, each of 336 coefficients with at most ten digits, a sign and a separator.
const SHEET: usize = 131_072;
/// Columns that a store has for each block.
const COLUMNS: usize = 4;
/// Blocks that a store has for each row.
const BLOCKS: usize = 5;
/// The most relations of a system.
const RELATIONS: usize = 16;

/// A call that reads a sheet of some kind into stores.
type ReadCall = fn(&[u8], &mut [i64], &mut [i64]) -> Result<Heading, Refusal>;
/// A call that works the system in the stores.
type RunCall = fn(&mut [i64], &mut [i64], Sizes, usize) -> Result<Report, Refusal>;

/// A term of an equation: block, column (from 1) and the coefficients from power 0 upward.
pub type Term<'a> = (i64, usize, &'a [i64]);

/// A system with its relations and its column order.
///
/// ```
/// let sheet = b"3 2 1 0\n2\n2 1 1 2 0 1 0 2 1 -1\n2 1 1 1 1 0 1 1 -1\n0\n0\n"; // n x(n+1) = y(n), x(n+1) = x(n)
/// let mut system = wurgalm::System::from_sheet(sheet).unwrap();
/// let report = system.run_leading().unwrap();
/// assert_eq!((report.root, report.shifts, report.rank), (Some(0), 1, 2));
/// assert_eq!(system.equation(1).unwrap().entry(1, 1), [-1, -1]); // (-n - 1) x(n+1) + y(n+1) = 0
/// assert_eq!(system.relation(2).unwrap().0, -1);
/// ```
#[derive(Clone, Debug, PartialEq, Eq)]
pub struct System {
    rows: Vec<i64>,
    relations: Vec<i64>,
    heading: Heading,
}

/// One equation of a [`System`], or the equation of one of its relations.
///
/// ```
/// let system = wurgalm::System::builder(1, 1, 0).equation(&[(1, 1, &[1]), (0, 1, &[0, -2])], &[3]).build().unwrap();
/// let equation = system.equation(1).unwrap(); // x(n+1) - 2n x(n) = 3
/// assert_eq!(equation.terms().collect::<Vec<_>>(), [(1, 1, &[1][..]), (0, 1, &[0, -2][..])]);
/// assert_eq!(equation.right(), [3]);
/// ```
#[derive(Clone, Copy, Debug, PartialEq, Eq)]
pub struct Equation<'a> {
    row: &'a [i64],
    sizes: Sizes,
}

/// The coefficients up to the last that is not 0.
fn trimmed(polynomial: &[i64]) -> &[i64] {
    let length = polynomial.iter().rposition(|&a| a != 0).map_or(0, |last| last + 1);
    &polynomial[..length]
}

impl<'a> Equation<'a> {
    /// The coefficients at a block and a column, without the zeros past the highest power; none where there is no such place.
    ///
    /// ```
    /// let system = wurgalm::System::builder(1, 1, 0).equation(&[(1, 1, &[0, 3])], &[]).build().unwrap(); // 3n x(n+1) = 0
    /// let equation = system.equation(1).unwrap();
    /// assert_eq!((equation.entry(1, 1), equation.entry(0, 1), equation.entry(9, 9)), (&[0, 3][..], &[][..], &[][..]));
    /// ```
    pub fn entry(&self, block: i64, column: usize) -> &'a [i64] {
        if !(self.sizes.t..=self.sizes.l).contains(&block) || !(1..=self.sizes.m).contains(&column) {
            return &[];
        }
        let at = ((self.sizes.l - block) as usize * COLUMNS + column - 1) * COEFFICIENTS;
        trimmed(&self.row[at..at + COEFFICIENTS])
    }

    /// The coefficients of the right side, without the zeros past the highest power.
    ///
    /// ```
    /// let system = wurgalm::System::builder(1, 0, 0).equation(&[(0, 1, &[1])], &[0, 2]).build().unwrap(); // x(n) = 2n
    /// assert_eq!(system.equation(1).unwrap().right(), [0, 2]);
    /// ```
    pub fn right(&self) -> &'a [i64] {
        trimmed(&self.row[ENTRIES..ROW])
    }

    /// The entries that are not zero, by falling block and then by column.
    ///
    /// ```
    /// let system = wurgalm::System::builder(2, 1, 0).equation(&[(0, 2, &[7]), (1, 1, &[1])], &[]).build().unwrap();
    /// let terms: Vec<_> = system.equation(1).unwrap().terms().collect(); // x(n+1) + 7 y(n) = 0
    /// assert_eq!(terms, [(1, 1, &[1][..]), (0, 2, &[7][..])]);
    /// ```
    pub fn terms(self) -> impl Iterator<Item = Term<'a>> {
        let places = (self.sizes.t..=self.sizes.l).rev().flat_map(move |s| (1..=self.sizes.m).map(move |c| (s, c)));
        places.map(move |(s, c)| (s, c, self.entry(s, c))).filter(|(_, _, p)| !p.is_empty())
    }
}

impl System {
    /// A system of m unknowns with blocks from l down to t, to which equations are added.
    ///
    /// ```
    /// let system = wurgalm::System::builder(1, 1, 0)
    ///     .equation(&[(1, 1, &[-3, 1]), (0, 1, &[-1])], &[]) // (n - 3) x(n+1) - x(n) = 0
    ///     .build()
    ///     .unwrap();
    /// assert_eq!(system.to_sheet().unwrap(), b"3 1 1 0\n1\n2 1 1 2 -3 1 0 1 1 -1\n0\n0\n");
    /// let refused = wurgalm::System::builder(5, 1, 0).build().unwrap_err();
    /// assert_eq!(refused.to_string(), "refused with 2: a size, block, column, count or order is out of its range");
    /// ```
    pub fn builder(m: usize, l: i64, t: i64) -> Builder {
        let heading = Heading { sizes: Sizes { m, equations: 0, l, t }, relations: 0, order: [0; 4] };
        Builder { system: System { rows: Vec::new(), relations: vec![0; RELATION_STORE], heading }, refusal: None }
    }

    /// The system of a sheet, or the sheet's fault.
    ///
    /// ```
    /// assert_eq!(wurgalm::System::from_sheet(b"3 1 0 0\n1\n"), Err(wurgalm::Refusal(4)));
    /// ```
    pub fn from_sheet(bytes: &[u8]) -> Result<System, Refusal> {
        System::read(bytes, read_sheet)
    }

    /// The recurrence of a differential sheet, or the sheet's fault.
    ///
    /// ```
    /// let airy = wurgalm::System::from_differential(b"3 1 2 1\n1\n2 2 0 1 1 0 1 1 -1\n").unwrap(); // y'' - x y = 0
    /// assert_eq!(airy.equation(1).unwrap().entry(2, 1), [2, 3, 1]); // (n + 1) (n + 2) y(n+2)
    /// ```
    pub fn from_differential(bytes: &[u8]) -> Result<System, Refusal> {
        System::read(bytes, read_differential)
    }

    fn read(bytes: &[u8], reader: ReadCall) -> Result<System, Refusal> {
        let (mut rows, mut relations) = (vec![0; row_store(EQUATIONS)], vec![0; RELATION_STORE]);
        let heading = reader(bytes, &mut rows, &mut relations)?;
        rows.truncate(row_store(heading.sizes.equations));
        Ok(System { rows, relations, heading })
    }

    /// The sheet of the system.
    ///
    /// ```
    /// let sheet = b"3 1 0 0\n0\n0\n1 1\n";
    /// assert_eq!(wurgalm::System::from_sheet(sheet).unwrap().to_sheet().unwrap(), sheet);
    /// ```
    pub fn to_sheet(&self) -> Result<Vec<u8>, Refusal> {
        let mut bytes = vec![0; SHEET];
        let length = write_sheet(&self.rows, &self.relations, &self.heading, &mut bytes)?;
        bytes.truncate(length);
        Ok(bytes)
    }

    /// Unknowns, equations and blocks.
    ///
    /// ```
    /// let system = wurgalm::System::from_sheet(b"3 2 1 0\n0\n0\n0\n").unwrap();
    /// assert_eq!(system.sizes(), wurgalm::Sizes { m: 2, equations: 0, l: 1, t: 0 });
    /// ```
    pub fn sizes(&self) -> Sizes {
        self.heading.sizes
    }

    /// How many relations there are.
    ///
    /// ```
    /// let sheet = b"3 2 1 0\n1\n2 1 1 2 0 1 0 2 1 -1\n1\n-4 1 0 1 1 5\n1 2\n"; // n x(n+1) - y(n) = 0; at n = -4: 5 x(n) = 0
    /// assert_eq!(wurgalm::System::from_sheet(sheet).unwrap().relation_count(), 1);
    /// ```
    pub fn relation_count(&self) -> usize {
        self.heading.relations
    }

    /// The columns of its order; none where it has no order.
    ///
    /// ```
    /// let sheet = b"3 2 1 0\n1\n2 1 1 2 0 1 0 2 1 -1\n1\n-4 1 0 1 1 5\n1 2\n"; // n x(n+1) - y(n) = 0; at n = -4: 5 x(n) = 0
    /// assert_eq!(wurgalm::System::from_sheet(sheet).unwrap().order(), [2]);
    /// ```
    pub fn order(&self) -> &[i64] {
        trimmed(&self.heading.order)
    }

    /// An equation, counted from 1.
    ///
    /// ```
    /// let sheet = b"3 2 1 0\n1\n2 1 1 2 0 1 0 2 1 -1\n1\n-4 1 0 1 1 5\n1 2\n"; // n x(n+1) - y(n) = 0; at n = -4: 5 x(n) = 0
    /// let system = wurgalm::System::from_sheet(sheet).unwrap();
    /// assert_eq!(system.equation(1).unwrap().entry(0, 2), [-1]);
    /// assert_eq!(system.equation(2), None);
    /// ```
    pub fn equation(&self, number: usize) -> Option<Equation<'_>> {
        let sizes = self.heading.sizes;
        let in_range = (1..=sizes.equations).contains(&number);
        in_range.then(|| Equation { row: &self.rows[(number - 1) * ROW..number * ROW], sizes })
    }

    /// A relation, counted from 1: its n0 and its equation.
    ///
    /// ```
    /// let sheet = b"3 2 1 0\n1\n2 1 1 2 0 1 0 2 1 -1\n1\n-4 1 0 1 1 5\n1 2\n"; // n x(n+1) - y(n) = 0; at n = -4: 5 x(n) = 0
    /// let system = wurgalm::System::from_sheet(sheet).unwrap();
    /// let (n0, equation) = system.relation(1).unwrap();
    /// assert_eq!((n0, equation.entry(0, 1)), (-4, &[5][..]));
    /// assert_eq!(system.relation(0), None);
    /// ```
    pub fn relation(&self, number: usize) -> Option<(i64, Equation<'_>)> {
        if !(1..=self.heading.relations).contains(&number) {
            return None;
        }
        let relation = &self.relations[(number - 1) * RELATION..number * RELATION];
        Some((relation[0], Equation { row: &relation[1..], sizes: self.heading.sizes }))
    }

    /// All equations in their order.
    ///
    /// ```
    /// let sheet = b"3 2 1 0\n1\n2 1 1 2 0 1 0 2 1 -1\n1\n-4 1 0 1 1 5\n1 2\n"; // n x(n+1) - y(n) = 0; at n = -4: 5 x(n) = 0
    /// let system = wurgalm::System::from_sheet(sheet).unwrap();
    /// assert_eq!(system.equations().map(|equation| equation.terms().count()).collect::<Vec<_>>(), [2]);
    /// ```
    pub fn equations(&self) -> impl Iterator<Item = Equation<'_>> {
        (1..=self.heading.sizes.equations).filter_map(|number| self.equation(number))
    }

    /// All relations in their order.
    ///
    /// ```
    /// let sheet = b"3 2 1 0\n1\n2 1 1 2 0 1 0 2 1 -1\n1\n-4 1 0 1 1 5\n1 2\n"; // n x(n+1) - y(n) = 0; at n = -4: 5 x(n) = 0
    /// let system = wurgalm::System::from_sheet(sheet).unwrap();
    /// assert_eq!(system.relations().map(|(n0, _)| n0).collect::<Vec<_>>(), [-4]);
    /// ```
    pub fn relations(&self) -> impl Iterator<Item = (i64, Equation<'_>)> {
        (1..=self.heading.relations).filter_map(|number| self.relation(number))
    }

    /// The row store, the relation store and the heading, for the calls on stores.
    ///
    /// ```
    /// let mut system = wurgalm::System::from_sheet(b"3 1 0 0\n1\n1 0 1 1 5\n0\n0\n").unwrap(); // 5 x(n) = 0
    /// let (rows, relations, heading) = system.stores();
    /// let report = wurgalm::run_leading(rows, relations, heading.sizes, heading.relations).unwrap();
    /// system.settle(&report).unwrap(); // the system takes the rank, the relations and the order of the run
    /// assert_eq!(system.order(), [1]);
    /// ```
    pub fn stores(&mut self) -> (&mut [i64], &mut [i64], Heading) {
        (&mut self.rows, &mut self.relations, self.heading)
    }

    /// Regularises the leading side. The system is then what the run leaves, with the run's order; after a refusal of the run it is
    /// empty.
    ///
    /// ```
    /// let twice = b"3 2 1 0\n2\n2 1 1 1 1 0 2 1 1\n2 1 1 1 1 0 2 1 1\n0\n0\n"; // x(n+1) + y(n) = 0, two times
    /// let mut system = wurgalm::System::from_sheet(twice).unwrap();
    /// assert_eq!(system.run_leading().unwrap().rank, 1);
    /// assert_eq!((system.sizes().equations, system.order()), (1, &[1][..]));
    /// ```
    pub fn run_leading(&mut self) -> Result<Report, Refusal> {
        self.run(run_leading)
    }

    /// Regularises the trailing side, as [`System::run_leading`] does the leading one.
    ///
    /// ```
    /// let mut system = wurgalm::System::builder(1, 0, 0).equation(&[(0, 1, &[-6, 1, 1])], &[]).build().unwrap();
    /// assert_eq!(system.run_trailing().unwrap().root, Some(-3)); // (n - 2) (n + 3) x(n) = 0
    /// ```
    pub fn run_trailing(&mut self) -> Result<Report, Refusal> {
        self.run(run_trailing)
    }

    fn run(&mut self, side: RunCall) -> Result<Report, Refusal> {
        let Heading { sizes, relations, .. } = self.heading;
        let answer = side(&mut self.rows, &mut self.relations, sizes, relations);
        self.settle_answer(answer)
    }

    /// Regularises the leading side as [`System::run_leading`] does, and tells the steps; see [`run_logged`].
    ///
    /// ```
    /// let sheet = b"3 1 0 0\n2\n1 0 1 1 2\n1 0 1 1 3\n0\n0\n"; // 2 x(n) = 0, 3 x(n) = 0
    /// let (report, log) = wurgalm::System::from_sheet(sheet).unwrap().run_logged().unwrap();
    /// assert_eq!(report.rank, 1);
    /// assert_eq!(log.to_string(), "combine 2 1 1 1 2 1 -3\ndrop 2\norder 1\n");
    /// ```
    pub fn run_logged(&mut self) -> Result<(Report, Log), Refusal> {
        let Heading { sizes, relations, .. } = self.heading;
        let answer = run_logged(&mut self.rows, &mut self.relations, sizes, relations);
        self.settle_answer(answer.as_ref().map(|(report, _)| *report).map_err(|refusal| *refusal)).and(answer)
    }

    /// Makes the steps of a log; see [`replay`]. The system is then what they leave, with the log's order.
    ///
    /// ```
    /// let sheet = b"3 2 1 0\n2\n2 1 1 2 0 1 0 2 1 -1\n2 1 1 1 1 0 1 1 -1\n0\n0\n"; // n x(n+1) = y(n), x(n+1) = x(n)
    /// let mut system = wurgalm::System::from_sheet(sheet).unwrap();
    /// let log = "exchange 1 2\ncombine 2 1 1 1 -1 2 0 1\nup 2\ncombine 2 1 1 1 1 2 1 1\norder 1 2\n".parse().unwrap();
    /// assert_eq!(system.replay(&log).unwrap().relations, 0);
    /// assert_eq!(system.equation(2).unwrap().entry(0, 1), [-1, -1]); // y(n+1) - (n + 1) x(n) = 0
    /// assert_eq!(system.replay(&log), Err(wurgalm::Refusal(13))); // row 2 has nothing more to be shifted
    /// ```
    pub fn replay(&mut self, log: &Log) -> Result<Report, Refusal> {
        let Heading { sizes, relations, .. } = self.heading;
        let answer = replay(&mut self.rows, &mut self.relations, sizes, relations, log);
        self.settle_answer(answer)
    }

    /// The polynomial solutions of the system, which stays as it is; see [`solutions`].
    ///
    /// ```
    /// let euler = wurgalm::System::from_differential(b"3 1 2 2\n1\n3 2 2 1 1 1 1 1 -2 0 0 1 2\n").unwrap();
    /// let list = euler.solutions().unwrap().unwrap(); // x^2 y'' - 2x y' + 2y = 0
    /// assert_eq!((list.polynomial(0, 1), list.polynomial(1, 1)), (vec![0, 1, 0], vec![0, 0, 1])); // x and x^2
    /// ```
    pub fn solutions(&self) -> Result<Option<Solutions>, Refusal> {
        solutions(&self.rows, &self.relations, self.heading.sizes, self.heading.relations)
    }

    /// A run or a replay that was refused on its way leaves zeros, one that its checks refused leaves all as it was.
    fn settle_answer(&mut self, answer: Result<Report, Refusal>) -> Result<Report, Refusal> {
        match answer {
            Ok(report) => self.take(&report),
            Err(Refusal(1..=5)) => {}
            Err(_) => {
                self.take(&Report { relations: 0, shifts: 0, order: [0; 4], root: None, rank: 0, multiplicity: 0 })
            }
        }
        answer
    }

    /// Takes the sizes of what a run has left in the stores. Where the stores do not hold what the report tells, it is
    /// that of another system: it is refused with 11, and the system stays as it was.
    ///
    /// ```
    /// let mut system = wurgalm::System::from_sheet(b"3 1 0 0\n2\n1 0 1 1 5\n1 0 1 1 5\n0\n0\n").unwrap();
    /// let (rows, relations, heading) = system.stores(); // 5 x(n) = 0, two times
    /// let mut run = wurgalm::Run::prepare(rows, relations, heading.sizes, heading.relations).unwrap();
    /// let report = run.advance(252).unwrap().report.unwrap();
    /// system.settle(&report).unwrap();
    /// assert_eq!(system.to_sheet().unwrap(), b"3 1 0 0\n1\n1 0 1 1 5\n0\n1 1\n");
    /// let mut other = wurgalm::System::from_sheet(b"3 1 0 0\n2\n1 0 1 1 5\n1 0 1 1 5\n0\n0\n").unwrap();
    /// assert_eq!(other.settle(&report), Err(wurgalm::Refusal(11))); // it was not run: two rows are left
    /// ```
    pub fn settle(&mut self, report: &Report) -> Result<(), Refusal> {
        if !self.holds(report) {
            return Err(Refusal(11));
        }
        self.take(report);
        Ok(())
    }

    /// Whether the stores hold what a run with this report leaves: so many rows, triangular in its order on one side,
    /// so many relations, those of before among them, and zeros past them.
    fn holds(&self, report: &Report) -> bool {
        let (Sizes { m, equations, l, t }, Report { rank, relations, order, .. }) = (self.heading.sizes, *report);
        if rank > equations.min(COLUMNS) || !(self.heading.relations..=RELATIONS).contains(&relations) {
            return false;
        }
        let (columns, behind) = order.split_at(rank);
        let is_column = |(i, c): (usize, &i64)| (1..=m as i64).contains(c) && !columns[..i].contains(c);
        let unused = [&self.rows[rank * ROW..], &self.relations[relations * RELATION..], behind];
        columns.iter().enumerate().all(is_column)
            && unused.into_iter().flatten().all(|&number| number == 0)
            && (self.is_triangular(l, columns) || self.is_triangular(t, columns))
    }

    /// Whether in this block each row has an entry in its own column, and no later row has one there.
    fn is_triangular(&self, block: i64, columns: &[i64]) -> bool {
        columns.iter().enumerate().all(|(i, &column)| {
            let mut entries = self.equations().skip(i).map(|equation| equation.entry(block, column as usize));
            entries.next().is_some_and(|diagonal| !diagonal.is_empty()) && entries.all(|below| below.is_empty())
        })
    }

    fn take(&mut self, report: &Report) {
        self.heading.sizes.equations = report.rank;
        self.heading.relations = report.relations;
        self.heading.order = report.order;
        self.rows.truncate(row_store(report.rank));
    }

    /// Whether the system explains a record; see [`check_record`].
    ///
    /// ```
    /// let system = wurgalm::System::builder(1, 1, 0).equation(&[(1, 1, &[1]), (0, 1, &[-2])], &[]).build().unwrap();
    /// let record = wurgalm::Record { first: 0, vectors: 3, values: &[1, 2, 5] }; // x(n+1) = 2 x(n)
    /// let failure = wurgalm::Answer::Equation { number: 1, n: 1, sum: 1 };
    /// assert_eq!(system.explains(&record), Ok(failure));
    /// ```
    pub fn explains(&self, record: &Record) -> Result<Answer, Refusal> {
        check_record(&self.rows, &self.relations, self.heading.sizes, self.heading.relations, record)
    }
}

/// A system to which equations, relations and an order are added. What is wrong is told by [`Builder::build`].
///
/// ```
/// let system = wurgalm::System::builder(2, 1, 0)
///     .equation(&[(1, 1, &[0, 1]), (0, 2, &[-1])], &[]) // n x(n+1) - y(n) = 0
///     .relation(0, &[(0, 1, &[1])], &[5]) // at n = 0: x(0) = 5
///     .order(&[1])
///     .build()
///     .unwrap();
/// assert_eq!(system.relation(1).unwrap().1.right(), [5]);
/// ```
#[derive(Clone, Debug)]
pub struct Builder {
    system: System,
    refusal: Option<Refusal>,
}

impl Builder {
    /// Adds an equation: its terms, and the coefficients of its right side. Terms at one place add up.
    ///
    /// ```
    /// let places = &[(0, 1, &[1, 1][..]), (0, 1, &[2])]; // (n + 1) x(n) + 2 x(n) = 4
    /// let system = wurgalm::System::builder(1, 0, 0).equation(places, &[4]).build().unwrap();
    /// assert_eq!(system.equation(1).unwrap().entry(0, 1), [3, 1]);
    /// ```
    pub fn equation(mut self, terms: &[Term], right: &[i64]) -> Builder {
        match self.row(terms, right) {
            Ok(row) => self.system.rows.extend(row),
            Err(refusal) => self.refuse(refusal),
        }
        self.system.heading.sizes.equations += 1;
        self
    }

    /// Adds a relation: an equation at one index.
    ///
    /// ```
    /// let system = wurgalm::System::builder(1, 0, 0).relation(7, &[(0, 1, &[1])], &[9]).build().unwrap(); // at n = 7: x(7) = 9
    /// assert_eq!(system.to_sheet().unwrap(), b"3 1 0 0\n0\n1\n7 1 0 1 1 1\n0\n1\n1 9\n");
    /// ```
    pub fn relation(mut self, n0: i64, terms: &[Term], right: &[i64]) -> Builder {
        let at = self.system.heading.relations * RELATION;
        match self.row(terms, right) {
            Ok(row) if self.system.heading.relations < RELATIONS => {
                self.system.relations[at] = n0;
                self.system.relations[at + 1..at + RELATION].copy_from_slice(&row);
            }
            Ok(_) => self.refuse(Refusal(2)),
            Err(refusal) => self.refuse(refusal),
        }
        self.system.heading.relations += 1;
        self
    }

    /// Sets the column order.
    ///
    /// ```
    /// let system = wurgalm::System::builder(2, 0, 0).order(&[2, 1]).build().unwrap();
    /// assert_eq!(system.order(), [2, 1]);
    /// assert_eq!(wurgalm::System::builder(2, 0, 0).order(&[1, 1]).build(), Err(wurgalm::Refusal(2)));
    /// ```
    pub fn order(mut self, columns: &[i64]) -> Builder {
        let order = &mut self.system.heading.order;
        if columns.len() > order.len() {
            self.refuse(Refusal(2));
        } else {
            order.fill(0);
            order[..columns.len()].copy_from_slice(columns);
        }
        self
    }

    /// The system, or the first thing that is wrong with it: 2 for a size, block, column, count or order, 5 for a number.
    ///
    /// ```
    /// let too_large = wurgalm::System::builder(1, 0, 0).equation(&[(0, 1, &[268_435_456])], &[]);
    /// assert_eq!(too_large.build(), Err(wurgalm::Refusal(5)));
    /// let no_such_block = wurgalm::System::builder(1, 0, 0).equation(&[(1, 1, &[1])], &[]);
    /// assert_eq!(no_such_block.build(), Err(wurgalm::Refusal(2)));
    /// ```
    pub fn build(self) -> Result<System, Refusal> {
        match self.refusal {
            Some(refusal) => Err(refusal),
            None => self.system.to_sheet().map(|_| self.system),
        }
    }

    fn refuse(&mut self, refusal: Refusal) {
        self.refusal.get_or_insert(refusal);
    }

    fn row(&self, terms: &[Term], right: &[i64]) -> Result<[i64; ROW], Refusal> {
        let Sizes { m, l, t, .. } = self.system.heading.sizes;
        let mut row = [0; ROW];
        for &(s, c, p) in terms {
            let block = l.checked_sub(s).filter(|place| (0..BLOCKS as i64).contains(place) && s >= t);
            let Some(block) = block.filter(|_| (1..=m.min(COLUMNS)).contains(&c)) else { return Err(Refusal(2)) };
            add(&mut row[(block as usize * COLUMNS + c - 1) * COEFFICIENTS..][..COEFFICIENTS], p)?;
        }
        add(&mut row[ENTRIES..], right)?;
        Ok(row)
    }
}

/// Adds coefficients to those of a place: 2 where there are too many of them, 5 where a sum is no 64-bit number.
fn add(place: &mut [i64], polynomial: &[i64]) -> Result<(), Refusal> {
    if polynomial.len() > place.len() {
        return Err(Refusal(2));
    }
    for (sum, &a) in place.iter_mut().zip(polynomial) {
        *sum = sum.checked_add(a).ok_or(Refusal(5))?;
    }
    Ok(())
}
