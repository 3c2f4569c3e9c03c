//! The exported functions with arguments of every size and stores of every length from 0 to beyond the need. Each store lies
//! between guards that no call may touch, and every answer and every store is compared with the outside implementation.

use compare::cases::{Answer, Stores};
use compare::differentials::{longest_differential, whole_differential};
use compare::logs::{elsewhere, Log};
use compare::random::Random;
use compare::records::{reaching, recorded, Recorded};
use compare::sheets::{whole_sheet, whole_sheet_with};
use compare::solutions::{needs, solvable, Work};
use compare::steps::{budgets, handed_in, in_parts, MOST_STEPS};
use compare::subject::{Library, Outside, Subject};
use compare::systems::{limited_roots, multiple_roots, shared_roots};
use outside::elimination::Side;
use outside::logs::{run_logged, LOG_STORE, STEP};
use outside::polynomial::Polynomial;
use outside::record::{Record, INDEX, LIMIT, VALUE, VECTORS};
use outside::row::Row;
use outside::sheet::{read, write, Sheet};
use outside::solutions::{Lent, ANSWER, LAST};
use outside::step_calls::{STATE, STEPS};
use outside::stores::{row_store, Asked, RELATION_STORE, RESULT};
use outside::system::{Relation, Sizes, System};
use outside::{C, DEGREE, EQUATIONS};

/// Numbers on either side of a lent store.
const GUARD: usize = 64;

/// A lent store between two guards.
struct Guarded<T> {
    all: Vec<T>,
    guard: T,
}

impl<T: Copy + PartialEq> Guarded<T> {
    fn new(store: &[T], guard: T) -> Guarded<T> {
        let side = [guard; GUARD];
        Guarded { all: [&side[..], store, &side[..]].concat(), guard }
    }

    fn lent(&mut self) -> &mut [T] {
        let end = self.all.len() - GUARD;
        &mut self.all[GUARD..end]
    }

    /// The store as the call left it, the guards as they were.
    fn returned(self) -> Vec<T> {
        let end = self.all.len() - GUARD;
        let untouched = |side: &[T]| side.iter().all(|&a| a == self.guard);
        assert!(untouched(&self.all[..GUARD]) && untouched(&self.all[end..]), "a call wrote outside its store");
        self.all[GUARD..end].to_vec()
    }
}

/// The numbers that are answered: 0 to 14 without 6, and one place for any other.
const NUMBERS: usize = 16;
/// How many of them are printed.
const PRINTED: usize = 15;

/// A sheet of two equations and a relation, without its fifth section.
const FOUR_SECTIONS: &[u8] = b"3 2 1 0\n2\n0\n0\n1\n0 0\n0\n";

/// The same without equations and relations.
const NO_ROWS: &[u8] = b"3 2 1 0\n0\n0\n0\n";

const MARK: i64 = 0x5a5a_5a5a_5a5a_5a5a;

/// A call on one of the exported functions, all arguments as they are handed in.
enum Call {
    Run(Side, Asked),
    Read(Vec<u8>),
    Write(Asked, Vec<i64>, Vec<u8>),
    Batch(Vec<u8>, Vec<u8>),
    Differential(Vec<u8>),
    Recurrence(Vec<u8>, Vec<u8>),
    Record(Asked, Recorded),
    /// The state store.
    Prepare(Asked, Vec<i64>),
    /// The state and the budget.
    Steps(Vec<i64>, usize),
    /// The log's store.
    Logged(Asked, Vec<i64>),
    Replay(Asked, Log),
    /// The stores of the work, and the list.
    Solutions(Asked, Work),
}

/// A list that is asked for, all of its stores between guards.
fn list_answer(subject: &dyn Subject, asked: Asked, work: &Work, stores: &Stores) -> Answer {
    let [mut rows, mut relations, mut result] =
        [&stores.rows, &stores.relations, &stores.result].map(|store| Guarded::new(store, MARK));
    let mut work = work.each_ref().map(|store| Guarded::new(store, MARK));
    let [a, b, c, d] = &mut work;
    let lent = Lent { rows: a.lent(), relations: b.lent(), matrix: c.lent(), list: d.lent() };
    let number = subject.solutions(rows.lent(), relations.lent(), asked, lent, result.lent());
    let stores = Stores { rows: rows.returned(), relations: relations.returned(), result: result.returned() };
    Answer { number, stores, bytes: Vec::new(), state: work.map(Guarded::returned).concat() }
}

fn answer(subject: &dyn Subject, call: &Call, stores: &Stores) -> Answer {
    if let Call::Solutions(asked, work) = call {
        return list_answer(subject, *asked, work, stores);
    }
    let mut rows = Guarded::new(&stores.rows, MARK);
    let mut relations = Guarded::new(&stores.relations, MARK);
    let mut result = Guarded::new(&stores.result, MARK);
    let lent: &[u8] = match call {
        Call::Write(_, _, bytes) | Call::Batch(_, bytes) | Call::Recurrence(_, bytes) => bytes,
        _ => &[],
    };
    let mut bytes = Guarded::new(lent, 0x5a);
    let lent: &[i64] = match call {
        Call::Record(_, recorded) => &recorded.values,
        Call::Replay(_, log) => &log.numbers,
        _ => &[],
    };
    let mut values = Guarded::new(lent, MARK);
    let held: &[i64] = match call {
        Call::Prepare(_, state) | Call::Steps(state, _) | Call::Logged(_, state) => state,
        _ => &[],
    };
    let mut state = Guarded::new(held, MARK);
    let number = match call {
        Call::Run(side, asked) => subject.run(*side, rows.lent(), relations.lent(), *asked, result.lent()),
        Call::Read(sheet) => subject.read(sheet, rows.lent(), relations.lent(), result.lent()),
        Call::Write(asked, order, _) => {
            subject.write(rows.lent(), relations.lent(), *asked, order, bytes.lent(), result.lent())
        }
        Call::Batch(input, _) => subject.batch_call(input, bytes.lent(), result.lent()),
        Call::Differential(sheet) => subject.read_differential(sheet, rows.lent(), relations.lent(), result.lent()),
        Call::Recurrence(sheet, _) => subject.write_recurrence(sheet, bytes.lent(), result.lent()),
        Call::Record(asked, Recorded { first, vectors, .. }) => {
            let record = Record { first: *first, vectors: *vectors, values: values.lent() };
            subject.check_record(rows.lent(), relations.lent(), *asked, &record, result.lent())
        }
        Call::Prepare(asked, _) => subject.prepare(rows.lent(), relations.lent(), *asked, state.lent()),
        Call::Steps(_, budget) => {
            subject.run_steps(rows.lent(), relations.lent(), state.lent(), *budget, result.lent())
        }
        Call::Logged(asked, _) => {
            subject.run_logged(rows.lent(), relations.lent(), *asked, state.lent(), result.lent())
        }
        Call::Replay(asked, log) => {
            subject.replay(rows.lent(), relations.lent(), *asked, log.steps, values.lent(), result.lent())
        }
        Call::Solutions(..) => unreachable!("answered above"),
    };
    assert!(values.returned() == lent, "a call wrote into a record or a log");
    let stores = Stores { rows: rows.returned(), relations: relations.returned(), result: result.returned() };
    Answer { number, stores, bytes: bytes.returned(), state: state.returned() }
}

struct Fuzz {
    right: Outside,
    library: Library,
    calls: usize,
    differences: usize,
    /// How often each number was answered.
    answers: [usize; NUMBERS],
}

impl Fuzz {
    fn call(&mut self, what: &str, call: &Call, stores: &Stores) {
        let (expected, found) = (answer(&self.right, call, stores), answer(&self.library, call, stores));
        self.calls += 1;
        self.answers[(found.number as usize).min(NUMBERS - 1)] += 1;
        if expected != found {
            self.differences += 1;
            if self.differences <= 10 {
                let lengths = (stores.rows.len(), stores.relations.len(), stores.result.len());
                println!("DIFFERENCE: {what}, lengths {lengths:?}: {} and {}", expected.number, found.number);
            }
        }
    }

    /// The same stores with one of them at every length, the others as they are.
    fn every_length(&mut self, what: &str, call: &Call, whole: &Stores, step: usize) {
        for length in 0..=whole.rows.len() {
            self.call(what, call, &Stores { rows: whole.rows[..length].to_vec(), ..whole.clone() });
        }
        for length in (0..=whole.relations.len()).step_by(step).chain([RELATION_STORE - 1, RELATION_STORE]) {
            self.call(what, call, &Stores { relations: whole.relations[..length].to_vec(), ..whole.clone() });
        }
        for length in 0..=whole.result.len() {
            self.call(what, call, &Stores { result: whole.result[..length].to_vec(), ..whole.clone() });
        }
    }

    /// The same stores with one number changed, at every position.
    fn every_position(&mut self, what: &str, call: &Call, whole: &Stores) {
        for number in [1, C as i64 + 1] {
            for at in 0..whole.rows.len() {
                let mut stores = whole.clone();
                stores.rows[at] = number;
                self.call(what, call, &stores);
            }
            for at in 0..whole.relations.len() {
                let mut stores = whole.clone();
                stores.relations[at] = number;
                self.call(what, call, &stores);
            }
        }
    }

    /// A batch, whole and cut at every place, with output stores of every length, and a result store from none to more than it needs.
    fn every_batch_store(&mut self, input: &[u8]) {
        let result = |length| Stores { rows: Vec::new(), relations: Vec::new(), result: vec![7; length] };
        let most = outside::batch::output(input, None).len() + 3;
        for length in 0..most {
            for count in 0..3 {
                self.call("batch, output", &Call::Batch(input.to_vec(), vec![b'#'; length]), &result(count));
            }
        }
        for end in 0..input.len() {
            self.call("batch, input", &Call::Batch(input[..end].to_vec(), vec![b'#'; most]), &result(1));
        }
    }

    /// A fifth section that is right and ones that are wrong in each way, cut at every place, with and without bytes behind them.
    fn every_fifth_section(&mut self, stores: &Stores) {
        let long = |count: usize, given: usize| format!("3\n0\n{count}{}\n0\n", " 1".repeat(given));
        let counts = [0, 1, 2, 4, 20, 21].map(|count| format!("{count}\n2 0 1\n0\n1 5\n"));
        let lists = [(16, 16), (17, 17), (16, 17), (17, 16), (16, 15), (1, 2)].map(|(count, given)| long(count, given));
        let sides = [
            ["2 0 1", "0", "1 5"],
            ["0", "0", "1 -268435455"],
            ["0", "0", "0"],
            ["0", "0", "1 0"],
            ["0", "3 0 1 0", "0"],
            ["1", "0", "0"],
            ["0", "-1", "0"],
            ["0", "1 268435456", "0"],
            ["0", "2 -268435456 0", "0"],
            ["0 0", "0", "0"],
            ["", "0", "0"],
        ];
        let sides = sides.map(|lines| format!("3\n{}\n", lines.join("\n")));
        for section in counts.iter().chain(&lists).chain(&sides) {
            for end in 0..=section.len() {
                for behind in ["", "\n", " ", "0", "1\n", "x"] {
                    for begin in [FOUR_SECTIONS, NO_ROWS] {
                        let sheet = [begin, &section.as_bytes()[..end], behind.as_bytes()].concat();
                        self.call("read, fifth section", &Call::Read(sheet), stores);
                    }
                }
            }
        }
    }

    /// A differential sheet, whole and cut at every place, with each of its numbers made others, with stores of every length.
    fn every_differential(&mut self, sheet: &[u8], stores: &Stores, step: usize) {
        self.every_length("differential", &Call::Differential(sheet.to_vec()), stores, step);
        for end in 0..=sheet.len() {
            for behind in ["", "\n", " ", "0", "-", "x", "1\n"] {
                let cut = [&sheet[..end], behind.as_bytes()].concat();
                self.call("differential, cut", &Call::Differential(cut.clone()), stores);
                self.call("recurrence, cut", &Call::Recurrence(cut, vec![b'#'; wurgalm::RECURRENCE]), stores);
            }
        }
        for changed in with_other_numbers(sheet) {
            self.call("differential, number", &Call::Differential(changed), stores);
        }
        let most = outside::differential::answer(sheet, None).map_or(3, |text| text.len() + 3);
        for length in 0..most {
            for count in 0..3 {
                let stores = Stores { result: vec![7; count], ..stores.clone() };
                self.call("recurrence, bytes", &Call::Recurrence(sheet.to_vec(), vec![b'#'; length]), &stores);
            }
        }
    }

    /// Sizes from a list that has the ends of every range, one past them, and the ends of the types: first the unknowns with all blocks,
    /// then with all numbers of equations.
    fn every_size(&mut self, make: impl Fn(Asked) -> Call, whole: &Stores) {
        let ends = [i64::MIN, i64::MIN + 1, -65, -64, -63, -5, -1, 0, 1, 4, 60, 63, 64, 65, i64::MAX - 1, i64::MAX];
        let blocks = || ends.into_iter().flat_map(|l| ends.map(|t| (l, t)));
        let equations = [0, 1, 2, 3, 4, 5, 6, 7, 8, 1 << 32, 1 << 56, usize::MAX];
        for m in [0, 1, 2, 3, 4, 5, 1 << 32, 1 << 56, usize::MAX] {
            for count in [0, 1, 15, 16, 17, usize::MAX] {
                let as_unknowns = blocks().map(|(l, t)| (m, l, t));
                let others = equations.into_iter().flat_map(|equations| [(equations, 4, 0), (equations, 5, 0)]);
                for (equations, l, t) in as_unknowns.chain(others) {
                    let asked = Asked { m, equations, l, t, count };
                    self.call(&format!("{asked:?}"), &make(asked), whole);
                }
            }
        }
    }

    /// The calls on a sheet's system: each store at every length, the sheet cut at every place, the order of every length.
    fn every_call(&mut self, sheet: &[u8], step: usize) {
        let (stores, asked, order) = stores_of(sheet);
        self.every_length("leading", &Call::Run(Side::Leading, asked), &stores, step);
        self.every_length("trailing", &Call::Run(Side::Trailing, asked), &stores, step);
        self.every_length("read", &Call::Read(sheet.to_vec()), &stores, step);
        let room = vec![b'#'; sheet.len() + 3];
        self.every_length("write", &Call::Write(asked, order.clone(), room), &stores, step);
        for length in 0..sheet.len() + 3 {
            self.call("write, bytes", &Call::Write(asked, order.clone(), vec![b'#'; length]), &stores);
            self.call("read, bytes", &Call::Read(sheet[..length.min(sheet.len())].to_vec()), &stores);
        }
        for length in 0..7 {
            let mut order = order.clone();
            order.resize(length, 0);
            self.call("write, order", &Call::Write(asked, order, vec![b'#'; sheet.len()]), &stores);
        }
    }

    /// Orders of four numbers, each from one below the columns to one above them.
    fn every_order(&mut self, sheet: &[u8]) {
        let (stores, asked, _) = stores_of(sheet);
        let numbers = asked.m as i64 + 3;
        for place in 0..numbers.pow(4) {
            let order = [1, numbers, numbers.pow(2), numbers.pow(3)].map(|unit| place / unit % numbers - 1);
            self.call("write, every order", &Call::Write(asked, order.to_vec(), vec![b'#'; sheet.len() + 9]), &stores);
        }
    }
}

/// Runs whose pivots share roots, and whose diagonal has roots several times.
impl Fuzz {
    fn both_sides(&mut self, what: &str, system: System) {
        let (stores, asked, _) = stores_of(&write(&Sheet { system, order: Vec::new() }));
        for side in [Side::Leading, Side::Trailing] {
            self.call(&format!("{side:?}, {what}"), &Call::Run(side, asked), &stores);
        }
    }

    /// A root that occurs in either pivot from never to more often than the degree allows with another one beside it.
    fn every_multiplicity(&mut self) {
        for (r, other) in [-2, -1, 0, 1, 2].into_iter().flat_map(|r| [-3, 0, 1, 4].map(|other| (r, other))) {
            for (often, beside) in (0..=DEGREE).flat_map(|often| (0..=2).map(move |beside| (often, beside))) {
                for times in 0..=4 {
                    let a = power(r, often).times(&power(other, beside)).times_number(6);
                    let b = power(r, times).times(&power(other, 1)).times_number(-4);
                    if fits(&a) && fits(&b) {
                        self.both_sides(&format!("{r} {often} and {times} times"), pivots(&a, &b));
                        self.both_sides(&format!("{r} {times} and {often} times"), pivots(&b, &a));
                    }
                }
            }
        }
    }

    /// A root that occurs in each of two diagonal polynomials from never to as often as fits, small and large, with others beside it that
    /// are smaller and larger.
    fn every_count(&mut self) {
        let roots = [0, 1, -1, 2, -2, 3, -7, 30, 645, -645, 16_383, -16_383, C, -C];
        for (r, other) in roots.into_iter().flat_map(|r| [-1, 0, 1, 4].map(|other| (r, other))) {
            let fits_often = |times: &usize| i128::checked_pow(r, *times as u32).is_some_and(|a| a.abs() <= C);
            let counts: Vec<usize> = (0..=DEGREE).filter(fits_often).collect();
            for (&often, &times) in counts.iter().flat_map(|often| counts.iter().map(move |times| (often, times))) {
                for beside in 0..=2 {
                    let (p, q) = (power(r, often).times(&power(other, beside)), power(r, times));
                    let (p, q) = (p.times_number(C / p.size().max(1)), q.times_number(-(C / q.size().max(1))));
                    if !p.is_zero() && !q.is_zero() && fits(&p) && fits(&q) {
                        let what = format!("{r} counted {often} and {times} times, beside {other}");
                        self.both_sides(&what, diagonal(&p, &q));
                    }
                }
            }
        }
    }

    /// A common root 1 or -1 at which a quotient reaches each number near ±C, for the pivot, the other row or both, alone, and with another
    /// common root that comes before it or after it.
    fn every_limit(&mut self) {
        let others = [vec![], vec![-1], vec![1], vec![-1000], vec![-3], vec![0], vec![2], vec![1000], vec![1, 1]];
        for (r, others) in [1, -1].into_iter().flat_map(|r| others.clone().map(|others| (r, others))) {
            let beside = others.iter().fold(Polynomial::new(vec![1]), |p, &other| p.times(&Polynomial::linear(other)));
            for top in 1..=6 {
                let quotient = hill(r, top).times(&beside);
                for number in (-2..=2).map(|more| C / quotient.size() + more).chain([C / quotient.size() / 2]) {
                    let large = quotient.times(&Polynomial::linear(r)).times_number(number);
                    let small = beside.times(&Polynomial::linear(r)).times_number(2);
                    if number > 0 && fits(&large) {
                        for (a, b) in [(&large, &small), (&small, &large), (&large, &large)] {
                            self.both_sides(&format!("{r} and {others:?}, {top} times {number}"), pivots(a, b));
                        }
                    }
                }
            }
        }
    }
}

/// Records.
impl Fuzz {
    /// A record with stores of every length and values of every number, and with each end of every range of its own.
    fn every_record(&mut self, system: System, recorded: &Recorded, step: usize) {
        let (stores, asked, _) = stores_of(&write(&Sheet { system, order: Vec::new() }));
        let call = |recorded: Recorded| Call::Record(asked, recorded);
        self.every_length("record", &call(recorded.clone()), &stores, step);
        for length in 0..=recorded.values.len() {
            let values = recorded.values[..length].to_vec();
            self.call("record, length", &call(Recorded { values, ..recorded.clone() }), &stores);
        }
        let most = VALUE as i64;
        for at in 0..recorded.values.len() {
            for number in [0, most, most + 1, -most, -most - 1, i64::MIN, i64::MAX] {
                let mut changed = recorded.clone();
                changed.values[at] = number;
                self.call("record, value", &call(changed), &stores);
            }
        }
        let (end, long) = (INDEX as i64, vec![0; 4 * (VECTORS + 1)]);
        let ends = [-end - 1, -end, -end + 1, 0, end - 64, end - 63, end - 1, end, end + 1, i64::MIN, i64::MAX];
        for vectors in [0, 1, 2, 5, VECTORS - 1, VECTORS, VECTORS + 1, 1 << 62, usize::MAX] {
            for first in ends {
                for values in [&long, &recorded.values] {
                    let changed = Recorded { first, vectors, values: values.clone() };
                    self.call("record, range", &call(changed), &stores);
                }
            }
        }
    }

    /// Entries and right sides that are near the limit at an index, small and large: at that index, beside it, with a recorded 0 and without.
    fn every_value(&mut self) {
        for n in [16, 17, 100, 4_095, 4_096, 65_536, INDEX - 1, INDEX, INDEX + 64].into_iter().flat_map(|n| [n, -n]) {
            for (more, sign) in (-2..=2).flat_map(|more| [(more, 1), (more, -1)]) {
                for from_above in [false, true] {
                    let p = reaching(n, (LIMIT + more) * sign, from_above).expect("no small index");
                    self.every_value_at(&p, n);
                }
            }
        }
    }

    fn every_value_at(&mut self, p: &Polynomial, n: i128) {
        // In the block that brings an index of the record to n.
        let block = if n.abs() > INDEX { -64 * n.signum() as i64 } else { 0 };
        for side in [false, true] {
            let mut row = Row::default();
            if side {
                row.set_right(p.clone());
            } else {
                row.set(block, 1, p.clone());
            }
            let sizes = Sizes { m: 1, l: block, t: block };
            let relation = Relation { n0: n, row: row.clone() };
            let as_equation = System { sizes, rows: vec![Row::default(), row], relations: Vec::new() };
            let as_relation = System { sizes, rows: vec![Row::default()], relations: vec![relation] };
            for system in [as_equation, as_relation] {
                let (stores, asked, _) = stores_of(&write(&Sheet { system, order: Vec::new() }));
                for (first, value) in (-1..=1).flat_map(|more| [0, 1, -65_536].map(|value| (n + more, value))) {
                    let first = first as i64 + block;
                    let recorded = Recorded { first, vectors: 1, values: vec![value] };
                    self.call(&format!("record, {p:?} at {n}"), &Call::Record(asked, recorded), &stores);
                }
            }
        }
    }
}

/// Work by steps.
impl Fuzz {
    /// Every state of a run: each of its numbers made each of those near an end of some range, with stores of every length.
    fn every_step(&mut self, sheet: &[u8], step: usize) {
        let states = states_of(sheet);
        for (stores, state) in &states {
            for (place, number) in (0..STATE).flat_map(|place| NEAR_ENDS.map(|number| (place, number))) {
                let mut changed = state.clone();
                changed[place] = number;
                for budget in [0, 1, usize::MAX] {
                    self.call("state", &Call::Steps(changed.clone(), budget), stores);
                }
            }
        }
        let (stores, state) = &states[states.len() / 2];
        self.every_length("steps", &Call::Steps(state.clone(), 2), stores, step);
        for length in 0..=STATE + 2 {
            let mut state = state.clone();
            state.resize(length, 7);
            self.call("state, length", &Call::Steps(state.clone(), 2), stores);
            let none = Stores { rows: Vec::new(), relations: Vec::new(), result: Vec::new() };
            self.call("state, length", &Call::Steps(state.clone(), 2), &none);
            let asked = asked_of(sheet);
            let stores = stores_of(sheet).0;
            self.call("prepare, length", &Call::Prepare(asked, state.clone()), &stores);
            self.call("prepare, length", &Call::Prepare(Asked { m: 5, ..asked }, state), &stores);
        }
        self.every_length("prepare", &Call::Prepare(asked_of(sheet), vec![7; STATE]), &stores_of(sheet).0, step);
    }

    /// Two numbers of a state at once, at every two places.
    fn every_two(&mut self, sheet: &[u8]) {
        let states = states_of(sheet);
        let (stores, state) = &states[states.len() / 2];
        for (a, b) in (0..STATE).flat_map(|a| (0..a).map(move |b| (a, b))) {
            for (number, other) in (-1..=5).flat_map(|number| (-1..=5).map(move |other| (number, other))) {
                let mut changed = state.clone();
                (changed[a], changed[b]) = (number, other);
                self.call("state, two numbers", &Call::Steps(changed, 3), stores);
            }
        }
    }

    /// States of any numbers, mostly within their ranges, with stores that know nothing of them.
    fn any_state(&mut self, random: &mut Random, stores: &Stores) {
        let d = random.between(0, 4) as i64;
        let l = random.between(-6, 6) as i64;
        let mut state = [1, 0, l, l - d, 0, 0, 0, 0, 0, 0, 0];
        state[0] = random.between(1, 4) as i64;
        state[1] = random.between(0, 6) as i64;
        state[4] = random.pick(&[0, 0, 0, 1, 16]);
        state[5] = random.between(0, state[0].min(state[1]) as i128) as i64;
        for place in 0..state[5] as usize {
            state[6 + place] = random.between(1, state[0] as i128) as i64;
        }
        state[10] = random.between(0, 6 * d as i128) as i64;
        for _ in 0..random.pick(&[0, 0, 1, 2]) {
            let number = random.junk();
            state[random.below(STATE)] = random.pick(&[number, number % 70, number % 6, number % 2]);
        }
        let budget = random.pick(&[0, 1, 2, 300]);
        self.call("any state", &Call::Steps(state.to_vec(), budget), stores);
    }
}

/// Elimination logs.
impl Fuzz {
    /// Our own log of a sheet: with each of its numbers made others, each number of steps about its own and about the most, a log's store of
    /// every length; and the run that writes it, with stores of every length.
    fn every_log(&mut self, sheet: &[u8], step: usize) {
        let (stores, asked, _) = stores_of(sheet);
        let log = own_log(sheet);
        for (place, number) in (0..log.numbers.len()).flat_map(|place| NEAR_LOG_ENDS.map(|number| (place, number))) {
            let mut changed = log.clone();
            changed.numbers[place] = number;
            self.call("replay, number", &Call::Replay(asked, changed), &stores);
        }
        let counts = (0..=log.steps + 2).chain([999, 1_000, 1_001, 1 << 32, 1 << 58, usize::MAX / STEP, usize::MAX]);
        for steps in counts {
            self.call("replay, steps", &Call::Replay(asked, Log { steps, ..log.clone() }), &stores);
        }
        for length in 0..=log.numbers.len() {
            let numbers = log.numbers[..length].to_vec();
            self.call("replay, length", &Call::Replay(asked, Log { numbers, ..log.clone() }), &stores);
        }
        self.every_length("replay", &Call::Replay(asked, log), &stores, step);
        for length in (0..LOG_STORE).step_by(997).chain(LOG_STORE - 2..=LOG_STORE + 2) {
            self.call("run with its log, length", &Call::Logged(asked, vec![7; length]), &stores);
        }
    }

    /// A run with its log, with stores of every length.
    fn every_logged(&mut self, sheet: &[u8]) {
        let (stores, asked, _) = stores_of(sheet);
        self.every_length("run with its log", &Call::Logged(asked, vec![7; LOG_STORE + 1]), &stores, 97);
    }
}

/// Our own log of a sheet; where its run is refused, a log of no steps.
fn own_log(sheet: &[u8]) -> Log {
    match run_logged(&read(sheet, None).expect("a whole sheet").system, None) {
        Ok((run, steps)) => Log::of(&steps, &run.order),
        Err(_) => Log::of(&[], &[]),
    }
}

/// Numbers that are near an end of some range of a log, and the ends of the type.
const NEAR_LOG_ENDS: [i64; 16] =
    [i64::MIN, -(C as i64) - 1, -(C as i64), -1, 0, 1, 2, 3, 4, 5, 6, 7, C as i64, C as i64 + 1, 1 << 32, i64::MAX];

/// Polynomial solutions.
impl Fuzz {
    fn solutions(&mut self, what: &str, system: System) {
        let (stores, asked, _) = stores_of(&write(&Sheet { system, order: Vec::new() }));
        self.call(what, &Call::Solutions(asked, work_of(asked, 0)), &stores);
    }

    /// A system with stores of every length, those of the work and the list at every 97th and near their ends.
    fn every_work_store(&mut self, system: System) {
        let (stores, asked, _) = stores_of(&write(&Sheet { system, order: Vec::new() }));
        let stores = Stores { result: vec![7; ANSWER + 2], ..stores };
        self.every_length("solutions", &Call::Solutions(asked, work_of(asked, 2)), &stores, 17);
        for (at, need) in needs(asked.equations).into_iter().enumerate() {
            for length in (0..need).step_by(97).chain([need.saturating_sub(1), need, need + 1]) {
                let mut work = work_of(asked, 2);
                work[at].resize(length, 7);
                self.call("solutions, work stores", &Call::Solutions(asked, work), &stores);
            }
        }
    }

    /// Each N near the ends of its range, in each lowest block, for each number of unknowns.
    fn every_last_index(&mut self) {
        for t in (-64..=64).step_by(4).chain([-1, 1]) {
            for (last, m) in (-2..=LAST + 2).flat_map(|last| (1..=4).map(move |m| (last, m))) {
                let mut rows = vec![Row::default(); m];
                for (row, unknown) in rows.iter_mut().zip(1..) {
                    let index = if unknown == m { last } else { last / 2 };
                    row.set(t, unknown, Polynomial::linear(index - t as i128));
                }
                let system = System { sizes: Sizes { m, l: t, t }, rows, relations: Vec::new() };
                self.solutions(&format!("solutions, N = {last}"), system);
            }
        }
    }
}

/// Work stores of the needed lengths and so many numbers more.
fn work_of(asked: Asked, more: usize) -> Work {
    needs(asked.equations).map(|need| vec![7; need + more])
}

/// Numbers that are near an end of some range of a state, and the ends of the type.
const NEAR_ENDS: [i64; 28] = [
    i64::MIN,
    i64::MIN + 1,
    -(1 << 32),
    -65,
    -64,
    -5,
    -4,
    -1,
    0,
    1,
    2,
    3,
    4,
    5,
    6,
    7,
    8,
    15,
    16,
    17,
    23,
    24,
    25,
    64,
    65,
    1 << 32,
    i64::MAX - 1,
    i64::MAX,
];

fn asked_of(sheet: &[u8]) -> Asked {
    stores_of(sheet).1
}

/// Each state of the run of a sheet, with its stores.
fn states_of(sheet: &[u8]) -> Vec<(Stores, Vec<i64>)> {
    let (stores, asked, _) = stores_of(sheet);
    let stores = Stores { result: vec![7; STEPS + 2], ..stores };
    let mut state = vec![7; STATE];
    assert_eq!(Outside(None).prepare(&stores.rows, &stores.relations, asked, &mut state), 0, "a whole sheet");
    let end = in_parts(&Outside(None), &stores, &state, &[MOST_STEPS as usize]).remove(0);
    let steps = end.stores.result[0] as usize;
    let after = |steps| {
        let answer = in_parts(&Outside(None), &stores, &state, &[steps]).remove(0);
        (Stores { result: stores.result.clone(), ..answer.stores }, answer.state)
    };
    (0..=steps).map(after).collect()
}

/// Coefficients that rise to the top and fall again, with signs such that n - r times it has small ones, where r is 1 or -1.
fn hill(r: i128, top: i128) -> Polynomial {
    let p = Polynomial::new((1..top).chain((1..=top).rev()).collect());
    if r == 1 {
        p
    } else {
        p.mirrored()
    }
}

fn power(r: i128, times: usize) -> Polynomial {
    std::iter::repeat_n(Polynomial::linear(r), times).fold(Polynomial::new(vec![1]), |p, factor| p.times(&factor))
}

fn fits(p: &Polynomial) -> bool {
    p.degree() <= DEGREE && p.size() <= C
}

/// a x + y and b x - y, all in block 0, so that both sides meet a and b.
fn pivots(a: &Polynomial, b: &Polynomial) -> System {
    let row = |entry: &Polynomial, number| {
        let mut row = Row::default();
        row.set(0, 1, entry.clone());
        row.set(0, 2, Polynomial::new(vec![number]));
        row
    };
    System { sizes: Sizes { m: 2, l: 0, t: 0 }, rows: vec![row(a, 1), row(b, -1)], relations: Vec::new() }
}

/// p x and q y, all in block 0, so that p and q are the diagonal polynomials of both sides.
fn diagonal(p: &Polynomial, q: &Polynomial) -> System {
    let (mut first, mut second) = (Row::default(), Row::default());
    first.set(0, 1, p.clone());
    second.set(0, 2, q.clone());
    System { sizes: Sizes { m: 2, l: 0, t: 0 }, rows: vec![first, second], relations: Vec::new() }
}

/// The sheet with one number, at every place, made each of those that are near an end of some range, and made no number.
fn with_other_numbers(sheet: &[u8]) -> Vec<Vec<u8>> {
    let others = [
        "-1",
        "0",
        "1",
        "2",
        "3",
        "4",
        "5",
        "6",
        "7",
        "36",
        "37",
        "1048576",
        "1048577",
        "-1048576",
        "-1048577",
        "",
        "x",
        "00",
        "-0",
        "9999999999",
        "99999999999",
    ];
    let is_separator = |byte: &u8| *byte == b' ' || *byte == b'\n';
    let ends: Vec<usize> = (0..sheet.len()).filter(|&at| is_separator(&sheet[at])).collect();
    let mut changed = Vec::new();
    let mut begin = 0;
    for end in ends {
        changed.extend(others.map(|other| [&sheet[..begin], other.as_bytes(), &sheet[end..]].concat()));
        begin = end + 1;
    }
    changed
}

/// Stores that hold the system of a sheet, a little longer than they need to be.
fn stores_of(sheet: &[u8]) -> (Stores, Asked, Vec<i64>) {
    let rows = vec![7; row_store(EQUATIONS) + 3];
    let mut stores = Stores { rows, relations: vec![7; RELATION_STORE + 3], result: vec![7; RESULT + 2] };
    let number = Outside(None).read(sheet, &mut stores.rows, &mut stores.relations, &mut stores.result);
    assert_eq!(number, 0, "a whole sheet");
    let [m, l, t, count, equations] = [0, 1, 2, 3, 8].map(|k| stores.result[k]);
    let order = stores.result[4..8].to_vec();
    (stores, Asked { m: m as usize, equations: equations as usize, l, t, count: count as usize }, order)
}

/// A batch of the sheet, of one that is refused, and of none.
fn batch_of(sheet: &[u8]) -> Vec<u8> {
    [format!("3\n1 {}\n", sheet.len()).as_bytes(), sheet, b"8 1\nx4 0\n"].concat()
}

/// A sheet whose leading run is answered by this number.
fn answered(random: &mut Random, number: u8) -> Vec<u8> {
    let is_answered = |sheet: &Vec<u8>| {
        let (stores, asked, _) = stores_of(sheet);
        answer(&Outside(None), &Call::Run(Side::Leading, asked), &stores).number == number
    };
    std::iter::repeat_with(|| whole_sheet(random)).find(is_answered).expect("sheets without end")
}

fn main() {
    let mut fuzz =
        Fuzz { right: Outside(None), library: Library::needed(), calls: 0, differences: 0, answers: [0; NUMBERS] };
    let mut random = Random::new(77);
    let small = Stores { rows: vec![7; row_store(EQUATIONS)], relations: vec![7; 9], result: vec![7; RESULT] };
    for (round, step) in [1, 7, 13, 17].into_iter().enumerate() {
        fuzz.every_call(&whole_sheet(&mut random), step);
        fuzz.every_order(format!("3 {} 0 0\n0\n0\n0\n", round + 1).as_bytes());
    }
    for equations in 0..=EQUATIONS {
        fuzz.every_call(&whole_sheet_with(&mut random, equations), 17);
    }
    for number in 7..=10 {
        let (stores, asked, _) = stores_of(&answered(&mut random, number));
        fuzz.every_length(&format!("leading, {number}"), &Call::Run(Side::Leading, asked), &stores, 17);
        fuzz.every_length(&format!("trailing of a leading {number}"), &Call::Run(Side::Trailing, asked), &stores, 17);
    }
    fuzz.every_multiplicity();
    fuzz.every_limit();
    fuzz.every_count();
    for _ in 0..10_000 {
        fuzz.both_sides("shared roots", shared_roots(&mut random));
        fuzz.both_sides("shared roots, limit", limited_roots(&mut random));
        fuzz.both_sides("multiple roots", multiple_roots(&mut random));
    }
    let sheet = b"3 2 1 0\n2\n2 1 1 2 0 1 0 2 1 -1\n2 1 1 1 1 0 1 1 -1\n1\n0 0\n0\n";
    let (stores, asked, order) = stores_of(sheet);
    fuzz.every_position("leading", &Call::Run(Side::Leading, asked), &stores);
    fuzz.every_position("trailing", &Call::Run(Side::Trailing, asked), &stores);
    fuzz.every_position("write", &Call::Write(asked, order, vec![b'#'; 99]), &stores);
    for _ in 0..20_000 {
        let noise = (0..random.below(60)).map(|_| random.pick(b"0011223 \n\n -9x")).collect();
        fuzz.call("read, noise", &Call::Read(noise), &small);
    }
    let sheet = b"3 2 1 0\n2\n2 1 1 2 0 1 0 2 1 -1\n2 1 1 1 1 0 1 1 -1\n1\n0 0\n0\n3\n2 0 1\n0\n1 5\n";
    let (stores, asked, order) = stores_of(sheet);
    fuzz.every_position("leading, sides", &Call::Run(Side::Leading, asked), &stores);
    fuzz.every_position("trailing, sides", &Call::Run(Side::Trailing, asked), &stores);
    fuzz.every_position("write, sides", &Call::Write(asked, order, vec![b'#'; 120]), &stores);
    fuzz.every_fifth_section(&stores);
    for _ in 0..20_000 {
        let noise: Vec<u8> = (0..random.below(20)).map(|_| random.pick(b"0022331 \n\n\n -9x")).collect();
        let sides = random.pick(&["", "3", "3\n", "3\n0\n0\n", "3\n1 2\n0\n", "3\n1 2\n0\n0\n"]);
        let sheet = [FOUR_SECTIONS, sides.as_bytes(), &noise].concat();
        fuzz.call("read, sides", &Call::Read(sheet), &stores);
    }
    for _ in 0..4 {
        fuzz.every_batch_store(&batch_of(&whole_sheet(&mut random)));
    }
    for _ in 0..20_000 {
        let noise = (0..random.below(30)).map(|_| random.pick(b"0011223 \n\n -9x")).collect();
        fuzz.call("batch, noise", &Call::Batch(noise, vec![b'#'; random.below(9)]), &small);
    }
    let rows = vec![7; row_store(EQUATIONS) + 3];
    let stores = Stores { rows, relations: vec![7; RELATION_STORE + 3], result: vec![7; RESULT + 1] };
    let small_sheets = [
        &b"3 2 2 2\n2\n3 2 2 1 7 1 1 1 -5 0 0 2 1048576\n2 1 0 2 -1 0 2 1 3\n"[..],
        b"3 1 0 0\n1\n0\n",
        b"3 3 1 2\n0\n",
        b"3 1 0 1\n6\n0\n1 0 1 1 3\n0\n1 0 0 1 5\n0\n0\n",
    ];
    for (round, sheet) in small_sheets.into_iter().enumerate() {
        fuzz.every_differential(sheet, &stores, [1, 7, 13, 17][round]);
    }
    for _ in 0..3 {
        fuzz.every_differential(&whole_differential(&mut random), &stores, 17);
    }
    fuzz.every_length("longest differential", &Call::Differential(longest_differential()), &stores, 17);
    for _ in 0..20_000 {
        let begin = random.pick(&["", "3 2 1 1\n", "3 2 2 2\n2\n", "3 1 2 1\n1\n2 1 1 1 5 "]);
        let noise: Vec<u8> = (0..random.below(30)).map(|_| random.pick(b"0011223  \n-9x")).collect();
        let sheet = [begin.as_bytes(), &noise].concat();
        fuzz.call("differential, noise", &Call::Differential(sheet.clone()), &stores);
        fuzz.call("recurrence, noise", &Call::Recurrence(sheet, vec![b'#'; random.below(99)]), &stores);
    }
    for step in [1, 7, 13, 17] {
        let (system, recorded) = recorded(&mut random);
        fuzz.every_record(system, &recorded, step);
    }
    let (stores, asked, _) = stores_of(sheet);
    let measured = Recorded { first: -1, vectors: 3, values: vec![1, 0, 1, -1, 1, 1] };
    fuzz.every_position("record", &Call::Record(asked, measured.clone()), &stores);
    fuzz.every_value();
    for _ in 0..20_000 {
        let (system, recorded) = recorded(&mut random);
        let (stores, asked, _) = stores_of(&write(&Sheet { system, order: Vec::new() }));
        fuzz.call("record", &Call::Record(asked, recorded), &stores);
    }
    for step in [1, 7, 13, 17] {
        fuzz.every_step(&whole_sheet(&mut random), step);
    }
    for number in 7..=10 {
        fuzz.every_step(&answered(&mut random, number), 17);
    }
    let sheet = b"3 2 1 0\n2\n2 1 1 2 0 1 0 2 1 -1\n2 1 1 1 1 0 1 1 -1\n1\n0 0\n0\n3\n2 0 1\n0\n1 5\n";
    fuzz.every_step(sheet, 17);
    fuzz.every_two(sheet);
    let (stores, state) = &states_of(sheet)[2];
    fuzz.every_position("state", &Call::Steps(state.clone(), 2), stores);
    let (whole, asked, _) = stores_of(sheet);
    fuzz.every_position("prepare", &Call::Prepare(asked, vec![7; STATE]), &whole);
    for _ in 0..20_000 {
        let (stores, state) = handed_in(&mut random);
        let budget = budgets(&mut random)[0];
        fuzz.call("state, changed", &Call::Steps(state, budget), &stores);
    }
    let no_rows =
        Stores { rows: vec![0; row_store(EQUATIONS)], relations: vec![0; RELATION_STORE], result: vec![7; STEPS] };
    for _ in 0..20_000 {
        fuzz.any_state(&mut random, &no_rows);
        fuzz.any_state(&mut random, stores);
    }
    for step in [7, 13, 17] {
        fuzz.every_log(&answered(&mut random, 0), step);
    }
    fuzz.every_log(sheet, 17);
    for number in [0, 7, 8, 9, 10] {
        fuzz.every_logged(&answered(&mut random, number));
    }
    let log = own_log(sheet);
    let (whole, asked, _) = stores_of(sheet);
    fuzz.every_position("replay", &Call::Replay(asked, log.clone()), &whole);
    for _ in 0..30_000 {
        let (system, log) = elsewhere(&mut random);
        let (stores, asked, _) = stores_of(&write(&Sheet { system, order: Vec::new() }));
        fuzz.call("replay, made elsewhere", &Call::Replay(asked, log), &stores);
    }
    for _ in 0..2 {
        fuzz.every_work_store(solvable(&mut random));
    }
    fuzz.every_last_index();
    for _ in 0..10_000 {
        fuzz.solutions("solutions", solvable(&mut random));
    }
    // n (n - 1) (n - 2) x(n) = 0 with 2 x(0) + 3 x(1) - 5 x(2) = 0, and one number other.
    let sheet = b"3 1 1 -1\n1\n1 0 1 4 0 2 -3 1\n1\n1 3 1 1 1 -5 0 1 1 3 -1 1 1 2\n0\n";
    let (stores, asked, _) = stores_of(sheet);
    fuzz.every_position("solutions", &Call::Solutions(asked, work_of(asked, 0)), &stores);
    // Zero systems in whole stores, and no stores at all: a size is refused before a length.
    let zeros =
        Stores { rows: vec![0; row_store(EQUATIONS)], relations: vec![0; RELATION_STORE], result: vec![7; RESULT] };
    let none = Stores { rows: Vec::new(), relations: Vec::new(), result: Vec::new() };
    for stores in [zeros, none] {
        fuzz.every_size(|asked| Call::Run(Side::Leading, asked), &stores);
        fuzz.every_size(|asked| Call::Run(Side::Trailing, asked), &stores);
        fuzz.every_size(|asked| Call::Write(asked, vec![0; 4], vec![b'#'; 400]), &stores);
        fuzz.every_size(|asked| Call::Record(asked, measured.clone()), &stores);
        fuzz.every_size(|asked| Call::Prepare(asked, vec![7; STATE]), &stores);
        fuzz.every_size(|asked| Call::Replay(asked, log.clone()), &stores);
        fuzz.every_size(|asked| Call::Logged(asked, vec![7; 9]), &stores);
        fuzz.every_size(|asked| Call::Solutions(asked, work_of(asked, 0)), &stores);
    }
    let answers = &fuzz.answers[..PRINTED];
    println!("{} calls, {} differences, answers 0 to {}: {answers:?}", fuzz.calls, fuzz.differences, PRINTED - 1);
    std::process::exit((fuzz.differences > 0) as i32);
}
