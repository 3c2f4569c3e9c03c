//! The leading run by steps, for a program that has to stay responsive: a state is prepared, and each call takes at most as many steps as
//! its budget says. A step is a combination with the exchange before it, a shift, a settled row or a dropped one.

use crate::{accepted, report, stores, Refusal, Report, Sizes, RESULT};
use std::error::Error;
use std::fmt;

/// Numbers that a state takes in a store.
const STATE: usize = 11;
/// Numbers that a run by steps puts into the result store: the steps, whether it is finished, and those of a whole run.
const STEPS: usize = 2 + RESULT;

/// Where a leading run stands between two calls; its rows and relations are in the stores. It may be kept and handed in later: a call looks
/// at every number of it, and refuses with 11 what is out of its range or does not belong to the stores.
#[derive(Clone, Copy, Debug, PartialEq, Eq)]
pub struct State {
    /// The sizes, with the number of rows that are left as the equations.
    pub sizes: Sizes,
    pub relations: usize,
    /// How many rows are settled.
    pub settled: usize,
    /// Their columns, and zeros past them.
    pub order: [i64; 4],
    /// The shifts so far.
    pub shifts: usize,
}

impl State {
    /// The eleven numbers of [`stores::run_steps`]. A count that is no `i64` is past its range, and so is the number in its place.
    fn numbers(&self) -> [i64; STATE] {
        let State { sizes: Sizes { m, equations, l, t }, relations, settled, order: [a, b, c, d], shifts } = *self;
        let [m, equations, relations, settled, shifts] =
            [m, equations, relations, settled, shifts].map(|count| i64::try_from(count).unwrap_or(i64::MAX));
        [m, equations, l, t, relations, settled, a, b, c, d, shifts]
    }

    fn of_numbers(numbers: [i64; STATE]) -> State {
        let [m, equations, l, t, relations, settled, a, b, c, d, shifts] = numbers;
        let sizes = Sizes { m: m as usize, equations: equations as usize, l, t };
        let (relations, settled, shifts) = (relations as usize, settled as usize, shifts as usize);
        State { sizes, relations, settled, order: [a, b, c, d], shifts }
    }
}

/// What a call that was not refused has come to.
#[derive(Clone, Copy, Debug, PartialEq, Eq)]
pub struct Progress {
    /// The steps of this call.
    pub steps: usize,
    /// The state that it has come to.
    pub state: State,
    /// Where no row is left: what the whole run reports.
    pub report: Option<Report>,
}

/// A call that was refused: by the checks (1 or 11) before its first step, or by a step (7 to 10), which is not among those counted.
#[derive(Clone, Copy, Debug, PartialEq, Eq)]
pub struct Refused {
    pub refusal: Refusal,
    /// The steps of this call before the refused one.
    pub steps: usize,
}

impl fmt::Display for Refused {
    fn fmt(&self, f: &mut fmt::Formatter) -> fmt::Result {
        write!(f, "refused with {}, steps before it: {}", self.refusal.0, self.steps)
    }
}

impl Error for Refused {}

/// The state before the first step of a leading run on the system in the stores, which are checked as for the run and only read.
///
/// ```
/// let (rows, relations) = (vec![0; wurgalm::row_store(1)], vec![0; wurgalm::RELATION_STORE]);
/// let sizes = wurgalm::Sizes { m: 1, equations: 1, l: 0, t: 0 };
/// let state = wurgalm::prepare(&rows, &relations, sizes, 0).unwrap();
/// assert_eq!((state.sizes, state.settled, state.shifts), (sizes, 0, 0));
/// assert_eq!(wurgalm::prepare(&rows, &relations, sizes, 17), Err(wurgalm::Refusal(2))); // 16 relations are the most
/// ```
pub fn prepare(rows: &[i64], relations: &[i64], sizes: Sizes, count: usize) -> Result<State, Refusal> {
    let mut numbers = [0; STATE];
    let Sizes { m, equations, l, t } = sizes;
    let number = stores::prepare(rows, relations, m, equations, l, t, count, &mut numbers);
    accepted(number, State::of_numbers(numbers))
}

/// Takes at most so many steps from a state, fewer if the run finishes; the stores and the state then hold what it has come to. With
/// budget 0 the state is checked, and nothing moves. A refusal by the checks leaves all as it was; one by a step leaves zeros in stores
/// and state.
///
/// However a budget is divided over calls, they come to the same end as one call with all of it, and a run to the end is [`run_leading`].
///
/// ```
/// let (mut rows, mut relations) = (vec![0; wurgalm::row_store(2)], vec![0; wurgalm::RELATION_STORE]);
/// rows[0] = 1; // x(n) = 0, and the same once more
/// rows[wurgalm::ROW] = 1;
/// let sizes = wurgalm::Sizes { m: 1, equations: 2, l: 0, t: 0 };
/// let mut state = wurgalm::prepare(&rows, &relations, sizes, 0).unwrap();
/// let progress = wurgalm::run_steps(&mut rows, &mut relations, &mut state, 2).unwrap();
/// assert_eq!((progress.steps, progress.report), (2, None)); // row 1 is settled, row 2 has become zero
/// let progress = wurgalm::run_steps(&mut rows, &mut relations, &mut state, 9).unwrap();
/// assert_eq!((progress.steps, state.sizes.equations), (1, 1)); // row 2 is dropped
/// assert_eq!(progress.report.unwrap().rank, 1);
/// state.shifts = 1; // no system with one block has shifts
/// let refused = wurgalm::run_steps(&mut rows, &mut relations, &mut state, 0).unwrap_err();
/// assert_eq!((refused.refusal, refused.steps), (wurgalm::Refusal(11), 0));
/// ```
///
/// [`run_leading`]: crate::run_leading
pub fn run_steps(
    rows: &mut [i64],
    relations: &mut [i64],
    state: &mut State,
    budget: usize,
) -> Result<Progress, Refused> {
    let (mut numbers, mut result) = (state.numbers(), [0; STEPS]);
    let number = stores::run_steps(rows, relations, &mut numbers, budget, &mut result);
    let [steps, finished, run @ ..] = result;
    let steps = steps as usize;
    // What the checks refuse is not written, and may have counts that are no `i64`.
    if number != 1 && number != 11 {
        *state = State::of_numbers(numbers);
    }
    let whole = report(number, run).map_err(|refusal| Refused { refusal, steps })?;
    Ok(Progress { steps, state: *state, report: (finished == 1).then_some(whole) })
}

/// A leading run that is taken step by step, in stores that it has lent as long as it lasts.
///
/// ```
/// let sheet = b"3 2 1 0\n2\n2 1 1 2 0 1 0 2 1 -1\n2 1 1 1 1 0 1 1 -1\n0\n0\n"; // n x(n+1) = y(n), x(n+1) = x(n)
/// let (mut rows, mut relations) = (vec![0; wurgalm::row_store(2)], vec![0; wurgalm::RELATION_STORE]);
/// let heading = wurgalm::read_sheet(sheet, &mut rows, &mut relations).unwrap();
/// let mut run = wurgalm::Run::prepare(&mut rows, &mut relations, heading.sizes, heading.relations).unwrap();
/// let mut shown = Vec::new();
/// for progress in run.steps(2) {
///     let progress = progress.unwrap();
///     shown.push((progress.steps, progress.state.settled, progress.state.relations)); // or a bar, or a look at the user
/// }
/// assert_eq!(shown, [(2, 1, 1), (2, 1, 2), (1, 2, 2)]);
/// assert_eq!(run.taken(), 5);
/// assert_eq!(run.state().order, [1, 2, 0, 0]);
/// ```
#[derive(Debug)]
pub struct Run<'a> {
    rows: &'a mut [i64],
    relations: &'a mut [i64],
    state: State,
    taken: usize,
    is_refused: bool,
}

impl<'a> Run<'a> {
    /// The run before its first step, of the system in the stores.
    ///
    /// ```
    /// let (mut rows, mut relations) = (vec![0; wurgalm::row_store(1)], vec![0; wurgalm::RELATION_STORE]);
    /// let sizes = wurgalm::Sizes { m: 1, equations: 1, l: 0, t: 0 };
    /// let run = wurgalm::Run::prepare(&mut rows, &mut relations, sizes, 0).unwrap();
    /// assert_eq!((run.taken(), run.state().settled), (0, 0));
    /// assert!(wurgalm::Run::prepare(&mut rows, &mut relations, sizes, 17).is_err()); // 16 relations are the most
    /// ```
    pub fn prepare(
        rows: &'a mut [i64],
        relations: &'a mut [i64],
        sizes: Sizes,
        count: usize,
    ) -> Result<Run<'a>, Refusal> {
        let state = prepare(rows, relations, sizes, count)?;
        Ok(Run::resume(rows, relations, state))
    }

    /// A run that was left in that state, with its rows and relations in the stores. The first call checks them.
    ///
    /// ```
    /// let (mut rows, mut relations) = (vec![0; wurgalm::row_store(1)], vec![0; wurgalm::RELATION_STORE]);
    /// rows[0] = 5; // 5 x(n) = 0
    /// let sizes = wurgalm::Sizes { m: 1, equations: 1, l: 0, t: 0 };
    /// let kept = wurgalm::Run::prepare(&mut rows, &mut relations, sizes, 0).unwrap().state(); // eleven numbers
    /// let mut run = wurgalm::Run::resume(&mut rows, &mut relations, kept); // at another time
    /// assert_eq!(run.advance(9).unwrap().report.unwrap().rank, 1);
    /// ```
    pub fn resume(rows: &'a mut [i64], relations: &'a mut [i64], state: State) -> Run<'a> {
        Run { rows, relations, state, taken: 0, is_refused: false }
    }

    /// The state that it has come to. Where a step was refused, all its numbers are 0.
    ///
    /// ```
    /// let (mut rows, mut relations) = (vec![0; wurgalm::row_store(1)], vec![0; wurgalm::RELATION_STORE]);
    /// rows[0] = 5; // 5 x(n) = 0
    /// let sizes = wurgalm::Sizes { m: 1, equations: 1, l: 0, t: 0 };
    /// let mut run = wurgalm::Run::prepare(&mut rows, &mut relations, sizes, 0).unwrap();
    /// run.advance(1).unwrap();
    /// assert_eq!((run.state().settled, run.state().order), (1, [1, 0, 0, 0]));
    /// ```
    pub fn state(&self) -> State {
        self.state
    }

    /// The steps of all calls so far.
    ///
    /// ```
    /// let (mut rows, mut relations) = (vec![0; wurgalm::row_store(1)], vec![0; wurgalm::RELATION_STORE]);
    /// rows[0] = 5; // 5 x(n) = 0
    /// let sizes = wurgalm::Sizes { m: 1, equations: 1, l: 0, t: 0 };
    /// let mut run = wurgalm::Run::prepare(&mut rows, &mut relations, sizes, 0).unwrap();
    /// run.advance(9).unwrap();
    /// assert_eq!(run.taken(), 1); // the one row is settled, and nothing is left to do
    /// ```
    pub fn taken(&self) -> usize {
        self.taken
    }

    /// Takes at most so many steps, as [`run_steps`] does.
    ///
    /// ```
    /// let (mut rows, mut relations) = (vec![0; wurgalm::row_store(1)], vec![0; wurgalm::RELATION_STORE]);
    /// rows[0] = 5; // 5 x(n) = 0
    /// let sizes = wurgalm::Sizes { m: 1, equations: 1, l: 0, t: 0 };
    /// let mut run = wurgalm::Run::prepare(&mut rows, &mut relations, sizes, 0).unwrap();
    /// assert_eq!(run.advance(0).unwrap().report, None); // a look at the state
    /// assert_eq!(run.advance(1).unwrap().report.unwrap().rank, 1);
    /// ```
    pub fn advance(&mut self, budget: usize) -> Result<Progress, Refused> {
        let answer = run_steps(self.rows, self.relations, &mut self.state, budget);
        let (Ok(Progress { steps, .. }) | Err(Refused { steps, .. })) = answer;
        self.taken += steps;
        self.is_refused = answer.is_err();
        answer
    }

    /// An iterator that takes at most so many steps each time. What finishes the run is its last item, and so is a refusal; after a refusal
    /// it has no other. With budget 0, which never finishes anything, it has one item, a look at the state.
    ///
    /// ```
    /// let (mut rows, mut relations) = (vec![0; wurgalm::row_store(1)], vec![0; wurgalm::RELATION_STORE]);
    /// rows[0] = 5; // 5 x(n) = 0
    /// let sizes = wurgalm::Sizes { m: 1, equations: 1, l: 0, t: 0 };
    /// let mut run = wurgalm::Run::prepare(&mut rows, &mut relations, sizes, 0).unwrap();
    /// let reports: Vec<_> = run.steps(1).map(|progress| progress.unwrap().report).collect();
    /// assert_eq!(reports.last().unwrap().unwrap().rank, 1);
    /// ```
    pub fn steps(&mut self, budget: usize) -> Steps<'_, 'a> {
        let has_ended = self.is_refused;
        Steps { run: self, budget, has_ended }
    }
}

/// What [`Run::steps`] gives: an item for each call.
#[derive(Debug)]
pub struct Steps<'r, 'a> {
    run: &'r mut Run<'a>,
    budget: usize,
    has_ended: bool,
}

impl Iterator for Steps<'_, '_> {
    type Item = Result<Progress, Refused>;

    fn next(&mut self) -> Option<Self::Item> {
        if self.has_ended {
            return None;
        }
        let answer = self.run.advance(self.budget);
        self.has_ended = self.budget == 0 || !matches!(answer, Ok(Progress { report: None, .. }));
        Some(answer)
    }
}

impl std::iter::FusedIterator for Steps<'_, '_> {}
