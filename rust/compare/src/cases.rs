//! One call each, made from a number: the stores as they are lent and the other arguments, good or bad.

use crate::batches::batch;
use crate::differentials::{differential, input};
use crate::logs::{elsewhere, log_store, logged_and_replayed, replayed, Log};
use crate::random::Random;
use crate::records::{damage_record, recorded, Recorded};
use crate::sheets::sheet;
use crate::solutions::{called, solvable, work, Work};
use crate::steps::{budgets, handed_in, in_parts, prepared_and_run, state_store};
use crate::subject::Subject;
use crate::systems::system;
use outside::elimination::Side;
use outside::logs::LOGGED_RESULT;
use outside::solutions::ANSWER;
use outside::step_calls::STEPS;
use outside::stores::{
    row_store, store, Asked, COEFFICIENTS, ENTRIES, HEADING, RECORD, RELATION, RELATION_STORE, RESULT, ROW,
};
use outside::system::{Sizes, System};
use outside::{C, EQUATIONS};

/// The lent stores of a call.
#[derive(Clone, PartialEq, Eq)]
pub struct Stores {
    pub rows: Vec<i64>,
    pub relations: Vec<i64>,
    pub result: Vec<i64>,
}

/// What a call leaves: its number, the stores, the bytes of a writer or of the batch program, and the state of a run by steps, the log
/// of a run or what else the call works in.
#[derive(Clone, PartialEq, Eq)]
pub struct Answer {
    pub number: u8,
    pub stores: Stores,
    pub bytes: Vec<u8>,
    pub state: Vec<i64>,
}

impl Answer {
    /// The answer of a call with no rows or relations, or of a program.
    fn of_bytes(number: u8, bytes: Vec<u8>, result: Vec<i64>) -> Answer {
        Answer { bytes, ..Answer::of_stores(number, Stores { rows: Vec::new(), relations: Vec::new(), result }) }
    }

    fn of_stores(number: u8, stores: Stores) -> Answer {
        Answer { number, stores, bytes: Vec::new(), state: Vec::new() }
    }
}

#[derive(Clone)]
pub enum Case {
    /// A run on stores.
    Run { side: Side, stores: Stores, asked: Asked },
    /// A sheet that is read into stores; what was read is then written into a byte store of `room` bytes more than the sheet has.
    Read { sheet: Vec<u8>, stores: Stores, room: isize },
    /// A system in stores that is written into a byte store.
    Write { stores: Stores, asked: Asked, order: Vec<i64>, bytes: Vec<u8> },
    /// An input of the batch program.
    Batch { input: Vec<u8> },
    /// A batch that is worked by a call, into a byte store.
    BatchCall { input: Vec<u8>, bytes: Vec<u8>, result: Vec<i64> },
    /// A differential sheet whose recurrence is read into stores; what was read is then written.
    Differential { sheet: Vec<u8>, stores: Stores },
    /// A differential sheet whose recurrence is written into a byte store.
    Recurrence { sheet: Vec<u8>, bytes: Vec<u8>, result: Vec<i64> },
    /// An input of the program `induce`.
    Induce { input: Vec<u8> },
    /// A record that is held against the system in stores.
    Record { stores: Stores, asked: Asked, recorded: Recorded },
    /// A system that a state is prepared of, with runs of these budgets from there.
    Steps { stores: Stores, asked: Asked, state: Vec<i64>, budgets: Vec<usize> },
    /// A state that is handed in, with runs of these budgets.
    State { stores: Stores, state: Vec<i64>, budgets: Vec<usize> },
    /// A run with its log, in a store, and the replay of that log.
    Logged { stores: Stores, asked: Asked, log: Vec<i64> },
    /// The replay of a log that was made elsewhere.
    Replay { stores: Stores, asked: Asked, log: Log },
    /// A system whose polynomial solutions are listed, with the stores for that.
    Solutions { stores: Stores, asked: Asked, work: Work },
}

#[derive(Clone, Copy, Debug, PartialEq, Eq)]
pub enum Kind {
    Leading,
    Trailing,
    Read,
    Write,
    Batch,
    BatchCall,
    Differential,
    Recurrence,
    Induce,
    Record,
    Steps,
    State,
    Logged,
    Replay,
    Solutions,
}

impl Kind {
    /// Calls on stores, which take no time to speak of.
    pub const CALLS: [Kind; 12] = [
        Kind::Leading,
        Kind::Trailing,
        Kind::Read,
        Kind::Write,
        Kind::Differential,
        Kind::Recurrence,
        Kind::Record,
        Kind::Steps,
        Kind::State,
        Kind::Logged,
        Kind::Replay,
        Kind::Solutions,
    ];
    /// Batches and programs.
    pub const SLOW: [Kind; 3] = [Kind::Batch, Kind::BatchCall, Kind::Induce];

    /// The k-th case of its kind. Leading and trailing runs have the same systems.
    pub fn case(self, k: usize) -> Case {
        let stream = if self == Kind::Trailing { Kind::Leading } else { self };
        let mut random = Random::new(((stream as u64 + 1) << 40) + k as u64);
        match self {
            Kind::Leading => run_case(&mut random, Side::Leading),
            Kind::Trailing => run_case(&mut random, Side::Trailing),
            Kind::Read => read_case(&mut random),
            Kind::Write => write_case(&mut random),
            Kind::Batch => Case::Batch { input: batch(&mut random) },
            Kind::BatchCall => batch_call_case(&mut random),
            Kind::Differential => differential_case(&mut random),
            Kind::Recurrence => recurrence_case(&mut random),
            Kind::Induce => Case::Induce { input: input(&mut random) },
            Kind::Record => record_case(&mut random),
            Kind::Steps => steps_case(&mut random),
            Kind::State => state_case(&mut random),
            Kind::Logged => logged_case(&mut random),
            Kind::Replay => replay_case(&mut random),
            Kind::Solutions => solutions_case(&mut random),
        }
    }
}

fn run_case(random: &mut Random, side: Side) -> Case {
    let system = system(random);
    let mut stores = lent(random, &system, RESULT);
    let mut asked = asked_of(&system);
    if random.one_in(5) {
        damage(random, &mut stores, &mut asked);
    }
    Case::Run { side, stores, asked }
}

fn read_case(random: &mut Random) -> Case {
    let sheet = sheet(random);
    let stores = stores_to_fill(random);
    Case::Read { sheet, stores, room: random.pick(&[0, 0, 1, 50, -1]) }
}

/// Stores for what a reader finds: junk in them, and of every fourth call one that may be too short.
fn stores_to_fill(random: &mut Random) -> Stores {
    let mut stores =
        Stores { rows: vec![0; row_store(EQUATIONS)], relations: vec![0; RELATION_STORE], result: vec![0; HEADING] };
    for store in [&mut stores.rows, &mut stores.relations, &mut stores.result] {
        store.fill_with(|| random.junk());
    }
    lengthen(random, &mut stores);
    if random.one_in(8) {
        shorten(random, &mut stores);
    }
    if random.one_in(8) {
        stores.rows.truncate(ROW * random.below(EQUATIONS + 1));
    }
    stores
}

fn differential_case(random: &mut Random) -> Case {
    let sheet = differential(random);
    Case::Differential { sheet, stores: stores_to_fill(random) }
}

/// A differential sheet with a byte store for its recurrence: just long enough, longer, one byte too short, or much shorter.
fn recurrence_case(random: &mut Random) -> Case {
    let sheet = differential(random);
    let exact = outside::differential::answer(&sheet, None).map_or(70, |text| text.len());
    let length = random.pick(&[exact, exact, exact + 1, exact + 70, exact - 1, exact - 1, exact / 2, 0]);
    let bytes = (0..length).map(|k| k as u8 | 1).collect();
    let result = (0..random.pick(&[1, 1, 1, 2, 5, 0])).map(|_| random.junk()).collect();
    Case::Recurrence { sheet, bytes, result }
}

fn write_case(random: &mut Random) -> Case {
    let system = system(random);
    let mut stores = lent(random, &system, 1);
    let mut asked = asked_of(&system);
    let mut order = vec![0; 4];
    if random.one_in(2) {
        let columns = random.permutation(system.sizes.m);
        let some = random.below(columns.len() + 1);
        let count = random.pick(&[columns.len(), some]);
        columns[..count].iter().zip(&mut order).for_each(|(&column, place)| *place = column as i64);
    }
    if random.one_in(6) {
        let at = random.below(4);
        order[at] = random.pick(&[0, 1, 2, 3, 4, 5, -1, i64::MIN, i64::MAX]);
    }
    if random.one_in(10) {
        order.resize(random.below(7), 0);
    }
    if random.one_in(5) {
        damage(random, &mut stores, &mut asked);
    }
    let text = outside::sheet::write(&outside::sheet::Sheet { system, order: written_order(&order) });
    let exact = text.len();
    let length = random.pick(&[exact, exact, exact + 1, exact + 70, exact - 1, exact / 2]);
    Case::Write { stores, asked, order, bytes: (0..length).map(|k| k as u8).collect() }
}

/// A batch with a byte store for its output: just long enough, longer, one byte too short, or much shorter.
fn batch_call_case(random: &mut Random) -> Case {
    let input = batch(random);
    let exact = outside::batch::output(&input, None).len();
    let length = random.pick(&[exact, exact, exact + 1, exact + 70, exact - 1, exact - 1, exact / 2, 0]);
    let bytes = (0..length).map(|k| k as u8 | 1).collect();
    let result = (0..random.pick(&[1, 1, 1, 2, 5, 0])).map(|_| random.junk()).collect();
    Case::BatchCall { input, bytes, result }
}

/// A system and a record, with stores, sizes and record of every sixth call made wrong.
fn record_case(random: &mut Random) -> Case {
    let (system, mut recorded) = recorded(random);
    let mut stores = lent(random, &system, RECORD);
    let mut asked = asked_of(&system);
    recorded.lengthen(random);
    if random.one_in(6) {
        if random.one_in(2) {
            damage(random, &mut stores, &mut asked);
        }
        damage_record(random, &mut recorded);
    }
    Case::Record { stores, asked, recorded }
}

/// A system with budgets, its stores and sizes of every sixth call made wrong.
fn steps_case(random: &mut Random) -> Case {
    let system = system(random);
    let mut stores = lent(random, &system, STEPS);
    let mut asked = asked_of(&system);
    let state = state_store(random);
    if random.one_in(6) {
        damage(random, &mut stores, &mut asked);
    }
    Case::Steps { stores, asked, state, budgets: budgets(random) }
}

fn state_case(random: &mut Random) -> Case {
    let (stores, state) = handed_in(random);
    let mut budgets = budgets(random);
    budgets.truncate(3);
    Case::State { stores, state, budgets }
}

/// A system and a store for its log, its stores and sizes of every sixth call made wrong.
fn logged_case(random: &mut Random) -> Case {
    let system = system(random);
    let mut stores = lent(random, &system, LOGGED_RESULT);
    let mut asked = asked_of(&system);
    if random.one_in(6) {
        damage(random, &mut stores, &mut asked);
        if random.one_in(3) {
            stores.result.truncate(RESULT);
        }
    }
    Case::Logged { stores, asked, log: log_store(random) }
}

/// A system and a log for it, stores, sizes and the log's length of every sixth call made wrong.
fn replay_case(random: &mut Random) -> Case {
    let (system, mut log) = elsewhere(random);
    let mut stores = lent(random, &system, RESULT);
    let mut asked = asked_of(&system);
    if random.one_in(6) {
        damage(random, &mut stores, &mut asked);
        if random.one_in(3) {
            log.numbers.truncate(random.pick(&[0, 3, 39]));
        }
    }
    Case::Replay { stores, asked, log }
}

/// A system, its stores and sizes of every eighth call made wrong.
fn solutions_case(random: &mut Random) -> Case {
    let system = solvable(random);
    let mut stores = lent(random, &system, ANSWER);
    let mut asked = asked_of(&system);
    let work = work(random, asked.equations);
    if random.one_in(8) {
        damage(random, &mut stores, &mut asked);
    }
    if random.one_in(20) {
        stores.result.truncate(ANSWER - 1);
    }
    Case::Solutions { stores, asked, work }
}

fn written_order(order: &[i64]) -> Vec<usize> {
    order.iter().filter(|&&c| c > 0).map(|&c| c as usize).collect()
}

pub(crate) fn asked_of(system: &System) -> Asked {
    let (Sizes { m, l, t }, equations) = (system.sizes, system.rows.len());
    Asked { m, equations, l, t, count: system.relations.len() }
}

/// The system in stores, of the needed length or longer, with junk past the needed part and in the result.
pub(crate) fn lent(random: &mut Random, system: &System, result: usize) -> Stores {
    let mut stores = Stores {
        rows: vec![0; row_store(system.rows.len())],
        relations: vec![0; RELATION_STORE],
        result: (0..result).map(|_| random.junk()).collect(),
    };
    store(system, &mut stores.rows, &mut stores.relations);
    lengthen(random, &mut stores);
    stores
}

fn lengthen(random: &mut Random, stores: &mut Stores) {
    for store in [&mut stores.rows, &mut stores.relations, &mut stores.result] {
        let more = random.pick(&[0, 0, 1, 5, ROW + 10]);
        store.extend((0..more).map(|_| random.junk()));
    }
}

fn shorten(random: &mut Random, stores: &mut Stores) {
    let store = match random.below(3) {
        0 => &mut stores.rows,
        1 => &mut stores.relations,
        _ => &mut stores.result,
    };
    let length = store.len();
    store.truncate(random.pick(&[
        0,
        1,
        length / 2,
        length.saturating_sub(1),
        RELATION_STORE - 1,
        ROW - 1,
        RESULT - 1,
        HEADING - 1,
    ]));
}

/// Sizes, lengths and numbers made wrong, each with some chance.
fn damage(random: &mut Random, stores: &mut Stores, asked: &mut Asked) {
    if random.one_in(3) {
        damage_sizes(random, asked);
    }
    if random.one_in(3) {
        shorten(random, stores);
    }
    if random.one_in(2) {
        damage_number(random, stores, *asked);
    }
}

fn damage_sizes(random: &mut Random, asked: &mut Asked) {
    let far = random.pick(&[i64::MIN, i64::MAX, 65, -65, 66, -69, asked.l, asked.t, 0]);
    match random.below(6) {
        0 => asked.m = random.pick(&[0, 1, 2, 3, 4, 5, usize::MAX, 1 << 61]),
        5 => asked.equations = random.pick(&[0, 1, 2, 3, 4, 5, 6, 7, 7, usize::MAX, 1 << 61]),
        1 => asked.l = far,
        2 => asked.t = far,
        3 => {
            (asked.l, asked.t) =
                random.pick(&[(i64::MAX, i64::MIN), (far, far), (asked.t, asked.l), (asked.l + 1, asked.t)])
        }
        _ => asked.count = random.pick(&[0, 1, 15, 16, 17, usize::MAX]),
    }
}

/// A number at some position of the needed parts, used or not.
pub(crate) fn damage_number(random: &mut Random, stores: &mut Stores, asked: Asked) {
    let number = random.pick(&[C as i64 + 1, -C as i64 - 1, C as i64, -C as i64, 1, -1, i64::MIN, i64::MAX, 0]);
    let in_rows = random.one_in(2);
    let (store, record) = if in_rows { (&mut stores.rows, ROW) } else { (&mut stores.relations, RELATION) };
    if store.is_empty() {
        return;
    }
    let place = match random.below(5) {
        0 => asked.count.min(15) * RELATION,
        1 => random.below(40) * COEFFICIENTS,
        // In a right side.
        2 => record * random.below(EQUATIONS) + (record - ROW) + ENTRIES + random.below(COEFFICIENTS),
        _ => random.below(store.len()),
    };
    let last = store.len() - 1;
    store[place.min(last)] = number;
}

// ---- calls ----

impl Case {
    /// What the subject answers.
    pub fn answered(&self, subject: &dyn Subject) -> Vec<Answer> {
        match self {
            Case::Run { side, stores, asked } => {
                let mut stores = stores.clone();
                let number = subject.run(*side, &mut stores.rows, &mut stores.relations, *asked, &mut stores.result);
                vec![Answer::of_stores(number, stores)]
            }
            Case::Read { sheet, stores, room } => read_and_written(subject, sheet, stores, *room),
            Case::Write { stores, asked, order, bytes } => vec![written(subject, stores, *asked, order, bytes.clone())],
            Case::Batch { input } => vec![Answer::of_bytes(0, subject.batch(input), Vec::new())],
            Case::BatchCall { input, bytes, result } => {
                let (mut bytes, mut result) = (bytes.clone(), result.clone());
                let number = subject.batch_call(input, &mut bytes, &mut result);
                vec![Answer::of_bytes(number, bytes, result)]
            }
            Case::Differential { sheet, stores } => differential_and_written(subject, sheet, stores),
            Case::Steps { stores, asked, state, budgets } => prepared_and_run(subject, stores, *asked, state, budgets),
            Case::State { stores, state, budgets } => in_parts(subject, stores, state, budgets),
            Case::Logged { stores, asked, log } => logged_and_replayed(subject, stores, *asked, log),
            Case::Replay { stores, asked, log } => vec![replayed(subject, stores, *asked, log)],
            Case::Solutions { stores, asked, work } => vec![called(subject, stores, *asked, work)],
            Case::Recurrence { sheet, bytes, result } => {
                let (mut bytes, mut result) = (bytes.clone(), result.clone());
                let number = subject.write_recurrence(sheet, &mut bytes, &mut result);
                vec![Answer::of_bytes(number, bytes, result)]
            }
            Case::Induce { input } => vec![Answer::of_bytes(0, subject.induce(input), Vec::new())],
            Case::Record { stores, asked, recorded } => {
                let mut stores = stores.clone();
                let record = recorded.record();
                let number = subject.check_record(&stores.rows, &stores.relations, *asked, &record, &mut stores.result);
                vec![Answer::of_stores(number, stores)]
            }
        }
    }

    /// The case for a reader: its sizes, and its sheet or as much of it as there is.
    pub fn shown(&self) -> String {
        match self {
            Case::Run { side, stores, asked } => format!("{side:?} {}", stores.shown(*asked)),
            Case::Write { stores, asked, order, bytes } => {
                format!("write, order {order:?}, {} bytes, {}", bytes.len(), stores.shown(*asked))
            }
            Case::Read { sheet, stores, room } => {
                format!("read, {}, room {room}\n{}", stores.lengths(), text(sheet))
            }
            Case::Batch { input } => format!("batch\n{}", text(input)),
            Case::BatchCall { input, bytes, result } => {
                format!("batch, {} bytes, result {}\n{}", bytes.len(), result.len(), text(input))
            }
            Case::Differential { sheet, stores } => format!("differential, {}\n{}", stores.lengths(), text(sheet)),
            Case::Recurrence { sheet, bytes, result } => {
                format!("recurrence, {} bytes, result {}\n{}", bytes.len(), result.len(), text(sheet))
            }
            Case::Induce { input } => format!("induce, {} bytes\n{}", input.len(), text(input)),
            Case::Record { stores, asked, recorded } => format!("{recorded:?}, {}", stores.shown(*asked)),
            Case::Steps { stores, asked, state, budgets } => {
                format!("budgets {budgets:?}, state of {}, {}", state.len(), stores.shown(*asked))
            }
            Case::State { stores, state, budgets } => {
                format!("budgets {budgets:?}, state {state:?}, {}\n{}", stores.lengths(), stores.numbers())
            }
            Case::Logged { stores, asked, log } => format!("log store {}, {}", log.len(), stores.shown(*asked)),
            Case::Replay { stores, asked, log } => {
                format!("{} steps, log {:?}, {}", log.steps, log.numbers, stores.shown(*asked))
            }
            Case::Solutions { stores, asked, work } => {
                let lengths: Vec<usize> = work.iter().map(Vec::len).collect();
                format!("solutions, work stores {lengths:?}, {}", stores.shown(*asked))
            }
        }
    }
}

/// Bytes as text, those that can't be printed as escapes.
pub fn text(bytes: &[u8]) -> String {
    bytes.iter().map(|&b| if b == b'\n' { "\n".into() } else { b.escape_ascii().to_string() }).collect()
}

impl Stores {
    fn lengths(&self) -> String {
        let (rows, relations, result) = (self.rows.len(), self.relations.len(), self.result.len());
        format!("row store {rows}, relation store {relations}, result {result}")
    }

    /// The numbers that are not 0, each behind its position, of the rows and of the relations.
    fn numbers(&self) -> String {
        let nonzero = |store: &[i64]| -> Vec<String> {
            let numbered = store.iter().enumerate().filter(|(_, &number)| number != 0);
            numbered.map(|(at, number)| format!("{at} {number}")).collect()
        };
        let (rows, relations) = (nonzero(&self.rows), nonzero(&self.relations));
        format!("rows {}\nrelations {}\n", rows.join(" "), relations.join(" "))
    }

    fn shown(&self, asked: Asked) -> String {
        let mut bytes = vec![0; 1 << 17];
        let mut result = [0];
        let number = outside::stores::write_on_stores(
            &self.rows,
            &self.relations,
            asked,
            &[0; 4],
            &mut bytes,
            &mut result,
            None,
        );
        let lengths = (self.rows.len(), self.relations.len(), self.result.len());
        let sheet = if number == 0 { text(&bytes[..result[0] as usize]) } else { format!("no sheet: {number}\n") };
        format!("{asked:?}, lengths {lengths:?}\n{sheet}")
    }
}

fn written(subject: &dyn Subject, stores: &Stores, asked: Asked, order: &[i64], mut bytes: Vec<u8>) -> Answer {
    let mut stores = stores.clone();
    let number = subject.write(&stores.rows, &stores.relations, asked, order, &mut bytes, &mut stores.result);
    Answer { bytes, ..Answer::of_stores(number, stores) }
}

/// The answer of the reader and, on acceptance, that of the writer on what was read.
fn read_and_written(subject: &dyn Subject, sheet: &[u8], stores: &Stores, room: isize) -> Vec<Answer> {
    let mut stores = stores.clone();
    let number = subject.read(sheet, &mut stores.rows, &mut stores.relations, &mut stores.result);
    let room = sheet.len().saturating_add_signed(room);
    then_written(subject, Answer::of_stores(number, stores), room)
}

/// The same for the recurrence of a differential sheet, with room enough for any.
fn differential_and_written(subject: &dyn Subject, sheet: &[u8], stores: &Stores) -> Vec<Answer> {
    let mut stores = stores.clone();
    let number = subject.read_differential(sheet, &mut stores.rows, &mut stores.relations, &mut stores.result);
    then_written(subject, Answer::of_stores(number, stores), wurgalm::RECURRENCE)
}

/// The answer of a reader, and, where it is 0, that of the writer on what was read.
fn then_written(subject: &dyn Subject, read: Answer, room: usize) -> Vec<Answer> {
    if read.number != 0 {
        return vec![read];
    }
    let result = &read.stores.result;
    let [m, l, t, count, equations] = [0, 1, 2, 3, 8].map(|place| result[place]);
    let asked = Asked { m: m as usize, equations: equations as usize, l, t, count: count as usize };
    let written = written(subject, &read.stores, asked, &result[4..8], vec![b'#'; room]);
    vec![read, written]
}
