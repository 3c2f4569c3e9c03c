//! Times of single calls on stores, the library beside the calls of `fast`, in one run: of each call cases that are worked to the end, on
//! stores that are filled before each call, outside the time that is taken. Seven passes go over all cases, the library's and the other's in
//! turn; the time of a case is the shortest of its seven.

use crate::cases::asked_of;
use crate::random::Random;
use crate::records::{recorded, Recorded};
use crate::solutions::{needs, solvable};
use crate::subject::{Fast, Library, Outside, Subject};
use crate::systems::{large_system, system};
use outside::elimination::{run, Side};
use outside::logs::{LOGGED_RESULT, LOG_STORE};
use outside::polynomial::Polynomial;
use outside::record::Answer;
use outside::row::Row;
use outside::solutions::Lent;
use outside::step_calls::{STATE, STEPS};
use outside::stores::{row_store, store, Asked, RELATION_STORE};
use outside::system::{Sizes, System};
use outside::EQUATIONS;
use std::time::{Duration, Instant};

/// The time of a case is the shortest of so many.
const PASSES: usize = 7;

/// A system in stores, with what a call takes beside it.
struct Input {
    rows: Vec<i64>,
    relations: Vec<i64>,
    asked: Asked,
    state: Vec<i64>,
    record: Recorded,
    steps: usize,
    log: Vec<i64>,
}

impl Input {
    fn of(system: &System) -> Input {
        let (mut rows, mut relations) = (vec![0; row_store(system.rows.len())], vec![0; RELATION_STORE]);
        store(system, &mut rows, &mut relations);
        let record = Recorded { first: 0, vectors: 0, values: Vec::new() };
        Input { rows, relations, asked: asked_of(system), state: vec![0; STATE], record, steps: 0, log: Vec::new() }
    }
}

/// The stores that the calls are lent.
#[derive(PartialEq)]
struct Stores {
    rows: Vec<i64>,
    relations: Vec<i64>,
    result: Vec<i64>,
    state: Vec<i64>,
    log: Vec<i64>,
    work: [Vec<i64>; 4],
}

impl Stores {
    fn new() -> Stores {
        let (rows, relations) = (vec![0; row_store(EQUATIONS)], vec![0; RELATION_STORE]);
        let (result, state, log) = (vec![0; STEPS.max(LOGGED_RESULT)], vec![0; STATE], vec![7; LOG_STORE]);
        Stores { rows, relations, result, state, log, work: needs(EQUATIONS).map(|need| vec![7; need]) }
    }

    /// The input as it is lent. What the calls fill themselves has whatever the call before has left.
    fn fill(&mut self, input: &Input) {
        self.rows[..input.rows.len()].copy_from_slice(&input.rows);
        self.relations.copy_from_slice(&input.relations);
        self.state.copy_from_slice(&input.state);
    }
}

/// A call of the subject on the stores, and its number.
type Call = fn(&dyn Subject, &Input, &mut Stores) -> u8;

const LEADING: Call =
    |subject, input, s| subject.run(Side::Leading, &mut s.rows, &mut s.relations, input.asked, &mut s.result);
const TRAILING: Call =
    |subject, input, s| subject.run(Side::Trailing, &mut s.rows, &mut s.relations, input.asked, &mut s.result);
const PREPARE: Call = |subject, input, s| subject.prepare(&s.rows, &s.relations, input.asked, &mut s.state);
const STEP: Call = |subject, _, s| subject.run_steps(&mut s.rows, &mut s.relations, &mut s.state, 1, &mut s.result);
const RECORD: Call =
    |subject, input, s| subject.check_record(&s.rows, &s.relations, input.asked, &input.record.record(), &mut s.result);
const LOGGED: Call =
    |subject, input, s| subject.run_logged(&mut s.rows, &mut s.relations, input.asked, &mut s.log, &mut s.result);
const REPLAY: Call = |subject, input, s| {
    subject.replay(&mut s.rows, &mut s.relations, input.asked, input.steps, &input.log, &mut s.result)
};
const SOLUTIONS: Call = |subject, input, s| {
    let [rows, relations, matrix, list] = &mut s.work;
    subject.solutions(&s.rows, &s.relations, input.asked, Lent { rows, relations, matrix, list }, &mut s.result)
};

// ---- the cases ----

/// A system whose run is accepted and does more than settle the rows: small ones, and every second one of four unknowns and five blocks.
fn worked(random: &mut Random, side: Side, large: bool) -> System {
    loop {
        let system = if large { large_system(random) } else { system(random) };
        if run(&system, side, None).is_ok_and(|run| run.system != system) {
            return system;
        }
    }
}

fn runs(count: usize, side: Side) -> Vec<Input> {
    let mut random = Random::new(30);
    (0..count).map(|k| Input::of(&worked(&mut random, side, k % 2 == 1))).collect()
}

fn leading_runs(count: usize) -> Vec<Input> {
    runs(count, Side::Leading)
}

fn trailing_runs(count: usize) -> Vec<Input> {
    runs(count, Side::Trailing)
}

/// Every state of some runs but the last, as it is handed in.
fn states(count: usize) -> Vec<Input> {
    let mut all = Vec::new();
    for input in leading_runs(1 + count / 4) {
        let mut stores = Stores::new();
        stores.fill(&input);
        PREPARE(&Outside(None), &input, &mut stores);
        stores.result[1] = 0;
        while stores.result[1] == 0 && all.len() < count {
            let (rows, relations) = (stores.rows[..input.rows.len()].to_vec(), stores.relations.clone());
            let (record, log) = (input.record.clone(), Vec::new());
            all.push(Input { rows, relations, state: stores.state.clone(), record, log, ..input });
            STEP(&Outside(None), &input, &mut stores);
        }
    }
    all
}

/// Records of 20 vectors and more that fit, with at least 20 tests.
fn records(count: usize) -> Vec<Input> {
    let mut random = Random::new(31);
    let mut all = Vec::new();
    while all.len() < count {
        let (system, record) = recorded(&mut random);
        let answer = outside::record::check(&system, &record.record(), None);
        if record.vectors >= 20 && matches!(answer, Ok(Answer::Fits(20..))) {
            all.push(Input { record, ..Input::of(&system) });
        }
    }
    all
}

/// Runs with their own logs.
fn logs(count: usize) -> Vec<Input> {
    let mut all = leading_runs(count);
    for input in &mut all {
        let mut stores = Stores::new();
        stores.fill(input);
        assert_eq!(LOGGED(&Outside(None), input, &mut stores), 0);
        input.steps = stores.result[LOGGED_RESULT - 1] as usize;
        input.log = stores.log;
    }
    all
}

/// Systems that have sequences to list.
fn lists(count: usize) -> Vec<Input> {
    let mut random = Random::new(32);
    let has_some = |system: &System| {
        let list = outside::solutions::sides_zero(system, None).and_then(|()| outside::solutions::list(system, None));
        matches!(list, Ok(Some(list)) if !list.sequences.is_empty())
    };
    let systems = std::iter::repeat_with(|| solvable(&mut random)).filter(has_some);
    systems.take(count).map(|system| Input::of(&system)).collect()
}

/// One equation p x = 0, in one block: what is left of a run is the search for roots.
fn one_polynomial(p: Polynomial) -> Input {
    let mut row = Row::default();
    row.set(0, 1, p);
    Input::of(&System { sizes: Sizes { m: 1, l: 0, t: 0 }, rows: vec![row], relations: Vec::new() })
}

/// Degree 15: half of them products with many roots, half with large coefficients that have few.
fn polynomials(count: usize) -> Vec<Input> {
    let mut random = Random::new(2);
    let mut all = Vec::new();
    while all.len() < count {
        let p = if all.len() % 2 == 0 { product(&mut random) } else { large_coefficients(&mut random) };
        if p.degree() == 15 && p.size() <= outside::C {
            all.push(one_polynomial(p));
        }
    }
    all
}

fn product(random: &mut Random) -> Polynomial {
    let factors = (0..15).map(|_| Polynomial::linear(random.between(-4, 4)));
    factors.fold(Polynomial::new(vec![1]), |p, factor| p.times(&factor))
}

/// (n - r) times a polynomial with coefficients of eight digits, so that there is a root and the search is not cut short.
fn large_coefficients(random: &mut Random) -> Polynomial {
    let coefficients = (0..14).map(|_| random.between(-99_999_999, 99_999_999)).chain([1]).collect();
    Polynomial::new(coefficients).times(&Polynomial::linear(random.pick(&[1, -1, 2])))
}

fn constants(count: usize) -> Vec<Input> {
    (0..count).map(|_| one_polynomial(Polynomial::new(vec![1]))).collect()
}

/// A kind of call: what it is, its cases, and the call.
pub struct Bench {
    pub name: &'static str,
    what: &'static str,
    count: usize,
    inputs: fn(usize) -> Vec<Input>,
    call: Call,
}

/// One kind, with so many cases.
const fn bench(
    name: &'static str,
    what: &'static str,
    count: usize,
    inputs: fn(usize) -> Vec<Input>,
    call: Call,
) -> Bench {
    Bench { name, what, count, inputs, call }
}

pub const BENCHES: [Bench; 10] = [
    bench("leading", "a leading run", 600, leading_runs, LEADING),
    bench("trailing", "a trailing run", 600, trailing_runs, TRAILING),
    bench("prepare", "a prepared state", 600, leading_runs, PREPARE),
    bench("step", "one step", 1_000, states, STEP),
    bench("record", "a record of 20 to 64 vectors", 600, records, RECORD),
    bench("logged", "a leading run with its log", 600, leading_runs, LOGGED),
    bench("replay", "the replay of that log", 600, logs, REPLAY),
    bench("solutions", "a list of polynomial solutions", 600, lists, SOLUTIONS),
    bench("roots", "the roots of degree 15, by a run", 200, polynomials, LEADING),
    bench("constants", "the same run on a constant", 200, constants, LEADING),
];

// ---- measuring ----

/// One call of each case. The shortest times so far are kept, without the filling of the stores.
fn pass(subject: &dyn Subject, inputs: &[Input], call: Call, stores: &mut Stores, shortest: &mut [Duration]) {
    for (input, shortest) in inputs.iter().zip(shortest) {
        stores.fill(input);
        let start = Instant::now();
        let number = call(subject, input, stores);
        *shortest = start.elapsed().min(*shortest);
        assert_eq!(number, 0, "a case that is worked to the end");
    }
}

/// Both leave the same in all stores, case by case.
fn same(inputs: &[Input], call: Call, subjects: [&dyn Subject; 2], what: &str) {
    let mut stores = [Stores::new(), Stores::new()];
    for input in inputs {
        let numbers = [0, 1].map(|k| {
            stores[k].fill(input);
            call(subjects[k], input, &mut stores[k])
        });
        assert!(numbers[0] == numbers[1] && stores[0] == stores[1], "{what}: something else than the fast version");
    }
}

impl Bench {
    /// One line of the table.
    fn measured(&self, library: Option<&dyn Subject>) {
        let inputs = (self.inputs)(self.count);
        if let Some(library) = library {
            same(&inputs, self.call, [library, &Fast], self.what);
        }
        let mut stores = Stores::new();
        let (mut ours, mut fast) = (vec![Duration::MAX; inputs.len()], vec![Duration::MAX; inputs.len()]);
        for _ in 0..PASSES {
            if let Some(library) = library {
                pass(library, &inputs, self.call, &mut stores, &mut ours);
            }
            pass(&Fast, &inputs, self.call, &mut stores, &mut fast);
        }
        let mean = |times: &[Duration]| times.iter().sum::<Duration>().as_secs_f64() * 1e6 / times.len() as f64;
        let (ours, ratio) = match library {
            Some(_) => (format!("{:.2} µs", mean(&ours)), format!("{:.2}", mean(&ours) / mean(&fast))),
            None => ("-".into(), "-".into()),
        };
        println!("| {}, mean of {} | {ours} | {:.2} µs | {ratio} |", self.what, inputs.len(), mean(&fast));
    }

    /// One pass of one side over the first cases, for a profile.
    pub fn once(&self, library: bool, count: usize) {
        let subject: Box<dyn Subject> = if library { Box::new(Library::needed()) } else { Box::new(Fast) };
        let inputs = (self.inputs)(count);
        let mut shortest = vec![Duration::MAX; inputs.len()];
        pass(subject.as_ref(), &inputs, self.call, &mut Stores::new(), &mut shortest);
    }
}

/// The rows `| what | library | fast version | ratio |` of all calls; without the library times of the fast version only.
pub fn calls(library: bool) {
    let library = library.then(Library::needed);
    for bench in &BENCHES {
        bench.measured(library.as_ref().map(|library| library as &dyn Subject));
    }
}
