//! Calls on lent stores: layout, checks, and what each call leaves in them.
//!
//! The calls have the arguments of the exported functions: a lent store `result` takes the answer, its length is
//! checked with the other lengths, and it is left as the other stores are.

use crate::batch;
use crate::differential;
use crate::elimination::{run, Run, Side};
use crate::fault::{is, Fault};
use crate::polynomial::Polynomial;
use crate::record::{self, Record};
use crate::refusal::Refusal;
use crate::row::Row;
use crate::sheet::{self, Sheet};
use crate::system::{equation_count_in_range, relation_count_in_range, Relation, Sizes, System};
use crate::{C, EQUATIONS, RELATIONS};

/// Coefficients of a column, from power 0 upward (SCOPE 3.2).
pub const COEFFICIENTS: usize = 16;
/// Columns of a block (SCOPE 3.2).
pub const COLUMNS: usize = 4;
/// Numbers of a row's entries: five blocks, from block l downward (SCOPE 3.2).
pub const ENTRIES: usize = 5 * COLUMNS * COEFFICIENTS;
/// Numbers of a row: its entries, and its right side behind them (02, U1).
pub const ROW: usize = ENTRIES + COEFFICIENTS;
/// Numbers of a relation: n0, and a row behind it (SCOPE 3.4).
pub const RELATION: usize = 1 + ROW;
/// The relation store needs 16 × 337 numbers (SCOPE 3.11; 02, U1).
pub const RELATION_STORE: usize = RELATIONS * RELATION;
/// Numbers that the answer of a run takes (SCOPE 3.52; 02, U8).
pub const RESULT: usize = 10;
/// Numbers that the answer of a reader takes (SCOPE 3.52; 02, U6).
pub const HEADING: usize = 9;
/// Numbers that the answer to a record takes (SCOPE 12.41).
pub const RECORD: usize = 4;

/// The sizes and the relation count of a call, as they are given.
#[derive(Clone, Copy, Debug, PartialEq, Eq)]
pub struct Asked {
    pub m: usize,
    pub equations: usize,
    pub l: i64,
    pub t: i64,
    pub count: usize,
}

impl Asked {
    /// The sizes, with which a relation count above 16 and an equation count above 6 are refused too (SCOPE 3.32; 02, U6).
    pub(crate) fn sizes(&self, fault: Option<Fault>) -> Result<Sizes, Refusal> {
        let seven = self.equations == EQUATIONS + 1 && is(fault, Fault::EquationsNotLimited);
        let equations_right = equation_count_in_range(self.equations as i128) || seven;
        if !relation_count_in_range(self.count as i128) || !equations_right {
            return Err(Refusal::Range);
        }
        Sizes::checked(self.m, self.l, self.t)
    }

    /// The numbers that the row store needs: those of a row for each equation (02, U6).
    fn row_need(&self, fault: Option<Fault>) -> usize {
        let rows = if is(fault, Fault::RowOfEachUnknown) { self.m.max(self.equations) } else { self.equations };
        row_store(rows.min(EQUATIONS + 1))
    }
}

/// The numbers that a row store of so many equations needs (SCOPE 3.11).
pub fn row_store(equations: usize) -> usize {
    equations * ROW
}

// ---- the layout ----

/// The block, column and power that a position of a row holds.
fn place(sizes: Sizes, position: usize) -> (i64, usize, usize) {
    let (entry, power) = (position / COEFFICIENTS, position % COEFFICIENTS);
    (sizes.l - (entry / COLUMNS) as i64, entry % COLUMNS + 1, power)
}

/// Where the entry at a block and column begins in a row.
fn entry_position(sizes: Sizes, block: i64, column: usize) -> usize {
    ((sizes.l - block) as usize * COLUMNS + column - 1) * COEFFICIENTS
}

/// The entries and the right side of a row in a store. With the fault their places are the other way round.
fn parts(numbers: &[i64], fault: Option<Fault>) -> (&[i64], &[i64]) {
    if is(fault, Fault::SideFirst) {
        let (side, entries) = numbers.split_at(COEFFICIENTS);
        (entries, side)
    } else {
        numbers.split_at(ENTRIES)
    }
}

fn load_polynomial(numbers: &[i64]) -> Polynomial {
    Polynomial::new(numbers.iter().map(|&a| a as i128).collect())
}

/// The row in 336 numbers of a store, whose unused positions hold 0 (SCOPE 3.3, 3.34). A right side has none of those.
fn load_row(numbers: &[i64], sizes: Sizes, fault: Option<Fault>) -> Result<Row, Refusal> {
    let mut row = Row::default();
    let (entries, side) = parts(numbers, fault);
    let side = load_polynomial(side);
    if !is(fault, Fault::SideNotLookedAt) {
        within_limit(&side, fault)?;
    }
    row.set_right(side);
    for (position, held) in entries.chunks(COEFFICIENTS).enumerate() {
        let (block, column, _) = place(sizes, position * COEFFICIENTS);
        let p = load_polynomial(held);
        if p.is_zero() {
            continue;
        }
        if block < sizes.t || column > sizes.m {
            if is(fault, Fault::UnusedPositions) {
                continue;
            }
            return Err(Refusal::Number);
        }
        within_limit(&p, fault)?;
        row.set(block, column, p);
    }
    Ok(row)
}

/// 5 for a number past ±C (SCOPE 3.34).
fn within_limit(p: &Polynomial, fault: Option<Fault>) -> Result<(), Refusal> {
    let lowest = if is(fault, Fault::LimitBelow) { -C - 1 } else { -C };
    let fits = p.coefficients().iter().all(|a| (lowest..=C).contains(a));
    if fits {
        Ok(())
    } else {
        Err(Refusal::Number)
    }
}

fn load_relation(numbers: &[i64], sizes: Sizes, fault: Option<Fault>) -> Result<Relation, Refusal> {
    let n0 = numbers[0] as i128;
    within_limit(&Polynomial::new(vec![n0]), fault)?;
    Ok(Relation { n0, row: load_row(&numbers[1..], sizes, fault)? })
}

/// The system in two stores that are long enough; behind the relations in use they hold 0 (SCOPE 3.13).
fn load(rows: &[i64], relations: &[i64], sizes: Sizes, asked: Asked, fault: Option<Fault>) -> Result<System, Refusal> {
    let (used, unused) = relations[..RELATION_STORE].split_at(asked.count * RELATION);
    if unused.iter().any(|&a| a != 0) && !is(fault, Fault::UnusedPlaces) {
        return Err(Refusal::Number);
    }
    let rows = rows.chunks_exact(ROW).take(asked.equations).map(|numbers| load_row(numbers, sizes, fault));
    let relations = used.chunks(RELATION).map(|numbers| load_relation(numbers, sizes, fault));
    Ok(System { sizes, rows: rows.collect::<Result<_, _>>()?, relations: relations.collect::<Result<_, _>>()? })
}

fn store_row(row: &Row, sizes: Sizes, numbers: &mut [i64]) {
    numbers.fill(0);
    for (block, column, p) in row.entries() {
        store_polynomial(p, &mut numbers[entry_position(sizes, block, column)..]);
    }
    store_polynomial(row.right(), &mut numbers[ENTRIES..]);
}

fn store_polynomial(p: &Polynomial, numbers: &mut [i64]) {
    for (place, &a) in numbers[..COEFFICIENTS].iter_mut().zip(p.coefficients()) {
        *place = a as i64;
    }
}

/// Puts a system into two stores that are long enough; what lies behind their needed parts stays (SCOPE 3.12).
pub fn store(system: &System, rows: &mut [i64], relations: &mut [i64]) {
    for (row, numbers) in system.rows.iter().zip(rows.chunks_mut(ROW)) {
        store_row(row, system.sizes, numbers);
    }
    let needed = &mut relations[..RELATION_STORE];
    needed.fill(0);
    for (relation, numbers) in system.relations.iter().zip(needed.chunks_mut(RELATION)) {
        numbers[0] = relation.n0 as i64;
        store_row(&relation.row, system.sizes, &mut numbers[1..]);
    }
}

/// A column order as four numbers, zeros past its end.
pub(crate) fn order_numbers(order: &[usize]) -> [i64; COLUMNS] {
    let mut numbers = [0; COLUMNS];
    for (place, &column) in numbers.iter_mut().zip(order) {
        *place = column as i64;
    }
    numbers
}

// ---- the checks ----

/// 1 where a store has fewer numbers than it needs (SCOPE 3.33).
fn long_enough(lengths: &[(usize, usize)]) -> Result<(), Refusal> {
    if lengths.iter().all(|(length, need)| length >= need) {
        Ok(())
    } else {
        Err(Refusal::Short)
    }
}

/// The system of a call, if nothing is refused: sizes come first (2), lengths next (1), numbers last (5) (SCOPE 3.31).
/// `extra` are the lengths and needs of the call's other stores.
pub(crate) fn checked(
    rows: &[i64],
    relations: &[i64],
    asked: Asked,
    extra: &[(usize, usize)],
    fault: Option<Fault>,
) -> Result<System, Refusal> {
    let mut lengths = vec![(rows.len(), asked.row_need(fault)), (relations.len(), RELATION_STORE)];
    lengths.extend(extra);
    if is(fault, Fault::LengthsFirst) {
        long_enough(&lengths)?;
    }
    let sizes = asked.sizes(fault)?;
    if is(fault, Fault::NumbersBeforeLengths) {
        rows.chunks_exact(ROW)
            .take(asked.equations)
            .try_for_each(|numbers| load_row(numbers, sizes, fault).map(drop))?;
    }
    long_enough(&lengths)?;
    load(rows, relations, sizes, asked, fault)
}

// ---- the calls ----

fn number_of(answer: Result<(), Refusal>) -> u8 {
    answer.map_or_else(Refusal::number, |()| 0)
}

/// A run, whose stores hold its input and then its output (SCOPE 3.21). The answer is the relation count, the shifts,
/// c(1) to c(4), 1 or 0 for a root, the root, the rank, and how often the root occurs (SCOPE 3.52; 02, U6, U8).
pub fn run_on_stores(
    side: Side,
    rows: &mut [i64],
    relations: &mut [i64],
    asked: Asked,
    result: &mut [i64],
    fault: Option<Fault>,
) -> u8 {
    let result_need = if is(fault, Fault::RunResultNine) { RESULT - 1 } else { RESULT };
    let system = match checked(rows, relations, asked, &[(result.len(), result_need)], fault) {
        Ok(system) => system,
        Err(refusal) => return refusal.number(),
    };
    match run(&system, side, fault) {
        Ok(run) => {
            store(&run.system, rows, relations);
            // Row places past w hold 0 (02, U6).
            let (left, need) = (row_store(run.system.rows.len()), row_store(asked.equations));
            if !is(fault, Fault::FreedKept) {
                rows[left..need].fill(0);
            }
            let rank = match fault {
                Some(Fault::RankOfEquations) => asked.equations,
                Some(Fault::RankOneMore) => run.rank() + 1,
                _ => run.rank(),
            };
            let numbers = run_numbers(&run, rank);
            result.iter_mut().zip(numbers).for_each(|(place, number)| *place = number);
            0
        }
        Err(refusal) => {
            zero_needed(rows, row_store(asked.equations), fault);
            zero_needed(relations, RELATION_STORE, fault);
            zero_needed(result, RESULT.min(result.len()), fault);
            refusal.number()
        }
    }
}

fn run_numbers(run: &Run, rank: usize) -> [i64; RESULT] {
    let c = order_numbers(&run.order);
    let root = run.root.unwrap_or(0) as i64;
    let (count, shifts) = (run.system.relations.len() as i64, run.shifts as i64);
    let (any, times) = (run.root.is_some() as i64, run.multiplicity as i64);
    [count, shifts, c[0], c[1], c[2], c[3], any, root, rank as i64, times]
}

/// A refusal that comes while the work is going on makes the needed part zero (SCOPE 6.33).
pub(crate) fn zero_needed(store: &mut [i64], need: usize, fault: Option<Fault>) {
    match fault {
        Some(Fault::StoresKept) => {}
        Some(Fault::ZeroedPastNeed) => store.fill(0),
        _ => store[..need].fill(0),
    }
}

/// What a reader needs of the result store.
fn heading_need(fault: Option<Fault>) -> usize {
    if is(fault, Fault::ReadResultTen) {
        HEADING + 1
    } else {
        HEADING
    }
}

/// Reads a sheet into stores, which stay as they are on a refusal (SCOPE 4.43); that they are too short comes last
/// (SCOPE 4.42). The answer is m, l, t, the relation count, c(1) to c(4), the equation count (SCOPE 3.52; 02, U6).
pub fn read_on_stores(
    bytes: &[u8],
    rows: &mut [i64],
    relations: &mut [i64],
    result: &mut [i64],
    fault: Option<Fault>,
) -> u8 {
    number_of(read_to_stores(bytes, rows, relations, result, fault))
}

fn read_to_stores(
    bytes: &[u8],
    rows: &mut [i64],
    relations: &mut [i64],
    result: &mut [i64],
    fault: Option<Fault>,
) -> Result<(), Refusal> {
    let fixed = [(relations.len(), RELATION_STORE), (result.len(), heading_need(fault))];
    if is(fault, Fault::ShortBeforeRest) {
        long_enough(&fixed)?;
    }
    fill(&sheet::read(bytes, fault)?, rows, relations, result, heading_need(fault))
}

/// A sheet that is without a fault put into stores that are long enough, and its sizes, relation count and order into the result.
fn fill(
    sheet: &Sheet,
    rows: &mut [i64],
    relations: &mut [i64],
    result: &mut [i64],
    result_need: usize,
) -> Result<(), Refusal> {
    let Sheet { system, order } = sheet;
    long_enough(&[(rows.len(), row_store(system.rows.len()))])?;
    long_enough(&[(relations.len(), RELATION_STORE), (result.len(), result_need)])?;
    store(system, rows, relations);
    let (Sizes { m, l, t }, c) = (system.sizes, order_numbers(order));
    let (equations, relations) = (system.rows.len() as i64, system.relations.len() as i64);
    result[..HEADING].copy_from_slice(&[m as i64, l, t, relations, c[0], c[1], c[2], c[3], equations]);
    Ok(())
}

/// Reads a differential sheet and puts its recurrence into stores, as [`read_on_stores`] does with a sheet (SCOPE 10.41).
pub fn read_differential_on_stores(
    bytes: &[u8],
    rows: &mut [i64],
    relations: &mut [i64],
    result: &mut [i64],
    fault: Option<Fault>,
) -> u8 {
    let short = long_enough(&[(relations.len(), RELATION_STORE), (result.len(), heading_need(fault))]);
    let first = if is(fault, Fault::DifferentialShortFirst) { short } else { Ok(()) };
    let filled = first.and_then(|()| differential::read(bytes, fault)).and_then(|read| {
        let sheet = Sheet { system: read.recurrence(fault), order: Vec::new() };
        fill(&sheet, rows, relations, result, heading_need(fault))
    });
    number_of(filled)
}

/// Reads a differential sheet and writes its recurrence into a byte store; the answer is the length (SCOPE 10.42). That a store is too
/// short comes last.
pub fn write_recurrence_on_stores(bytes: &[u8], output: &mut [u8], result: &mut [i64], fault: Option<Fault>) -> u8 {
    number_of(write_recurrence(bytes, output, result, fault))
}

fn write_recurrence(bytes: &[u8], output: &mut [u8], result: &mut [i64], fault: Option<Fault>) -> Result<(), Refusal> {
    let room = long_enough(&[(result.len(), 1)]);
    if is(fault, Fault::RecurrenceResultFirst) {
        room?;
    }
    let text = differential::answer(bytes, fault)?;
    room?;
    let fits = long_enough(&[(output.len(), text.len())]);
    if fits.is_err() && is(fault, Fault::RecurrenceCut) {
        output.copy_from_slice(&text[..output.len()]);
    }
    fits?;
    output[..text.len()].copy_from_slice(&text);
    if is(fault, Fault::RecurrenceTailZeroed) {
        output[text.len()..].fill(0);
    }
    result[0] = text.len() as i64;
    Ok(())
}

/// Writes a sheet into a byte store; the answer is its length. That the byte store is too short comes last
/// (SCOPE 4.54).
pub fn write_on_stores(
    rows: &[i64],
    relations: &[i64],
    asked: Asked,
    order: &[i64],
    bytes: &mut [u8],
    result: &mut [i64],
    fault: Option<Fault>,
) -> u8 {
    number_of(write_from_stores(rows, relations, asked, order, bytes, result, fault))
}

fn write_from_stores(
    rows: &[i64],
    relations: &[i64],
    asked: Asked,
    order: &[i64],
    bytes: &mut [u8],
    result: &mut [i64],
    fault: Option<Fault>,
) -> Result<(), Refusal> {
    let extra = [(order.len(), COLUMNS), (result.len(), 1)];
    if is(fault, Fault::LengthsFirst) {
        long_enough(&extra)?;
    }
    asked.sizes(fault)?;
    let order = order_argument(order, asked.m, fault)?;
    let system = checked(rows, relations, asked, &extra, fault)?;
    let text = sheet::write(&Sheet { system, order });
    long_enough(&[(bytes.len(), text.len())])?;
    bytes[..text.len()].copy_from_slice(&text);
    result[0] = text.len() as i64;
    Ok(())
}

/// The order argument is one of the sizes: four numbers, different columns of 1..m first and zeros past them (02, U6).
/// Where fewer than four are lent there is no order to judge, and the lengths will refuse.
fn order_argument(order: &[i64], m: usize, fault: Option<Fault>) -> Result<Vec<usize>, Refusal> {
    let Some(numbers) = order.get(..COLUMNS) else { return Ok(Vec::new()) };
    let columns: Vec<i64> = numbers.iter().copied().filter(|&c| c != 0).collect();
    let zeros_behind = numbers.starts_with(&columns) || is(fault, Fault::OrderGaps);
    let different = columns.iter().enumerate().all(|(k, c)| !columns[..k].contains(c));
    let whole = columns.is_empty() || columns.len() == m || !is(fault, Fault::OrderWhole);
    if zeros_behind && different && whole && columns.iter().all(|c| (1..=m as i64).contains(c)) {
        Ok(columns.iter().map(|&c| c as usize).collect())
    } else {
        Err(Refusal::Range)
    }
}

/// Works a whole batch into a byte store; the answer is the length of the output. A broken batch is worked too. The result's length is
/// checked before the work; that the output store is too short is found during it, and all of that store is needed.
pub fn batch_on_stores(input: &[u8], output: &mut [u8], result: &mut [i64], fault: Option<Fault>) -> u8 {
    number_of(batch_to_stores(input, output, result, fault))
}

fn batch_to_stores(input: &[u8], output: &mut [u8], result: &mut [i64], fault: Option<Fault>) -> Result<(), Refusal> {
    if !is(fault, Fault::BatchResultLast) {
        long_enough(&[(result.len(), 1)])?;
    }
    let text = batch::output(input, fault);
    let broken = text == b"3\n" || text.ends_with(b"\n3\n");
    if broken && is(fault, Fault::BatchBrokenRefused) {
        return Err(Refusal::Form);
    }
    let fits = long_enough(&[(output.len(), text.len())]);
    match fault {
        _ if fits.is_ok() => output[..text.len()].copy_from_slice(&text),
        Some(Fault::BatchStoresKept) => return fits,
        Some(Fault::BatchCut) => output.copy_from_slice(&text[..output.len()]),
        _ => output.fill(0),
    }
    if is(fault, Fault::BatchTailZeroed) && fits.is_ok() {
        output[text.len()..].fill(0);
    }
    long_enough(&[(result.len(), 1)])?;
    result[0] = if fits.is_ok() { text.len() as i64 } else { 0 };
    fits
}

// ---- records ----

/// Whether the system in the stores explains a record (02, U10). The answer is 0 for "fits", 1 for an equation, 2 for a relation; the
/// number tested, or which failed; its index and its sum. The range of the record is looked at with the sizes (2), the length of its store
/// with the other lengths (1), its values after the other numbers (5). On 12 the answer is zeros.
pub fn check_record_on_stores(
    rows: &[i64],
    relations: &[i64],
    asked: Asked,
    record: &Record,
    result: &mut [i64],
    fault: Option<Fault>,
) -> u8 {
    let system = match record_from_stores(rows, relations, asked, record, result.len(), fault) {
        Ok(system) => system,
        Err(refusal) => return refusal.number(),
    };
    let (number, numbers) = match record::check(&system, record, fault) {
        Ok(answer) => (0, record_numbers(answer)),
        Err(refusal) if is(fault, Fault::RecordResultKept) => return refusal.number(),
        Err(refusal) => (refusal.number(), [0; RECORD]),
    };
    result.iter_mut().zip(numbers).for_each(|(place, number)| *place = number);
    number
}

fn record_from_stores(
    rows: &[i64],
    relations: &[i64],
    asked: Asked,
    record: &Record,
    result: usize,
    fault: Option<Fault>,
) -> Result<System, Refusal> {
    let result_need = if is(fault, Fault::RecordResultThree) { RECORD - 1 } else { RECORD };
    asked.sizes(fault)?;
    let in_range = record.in_range(fault);
    if !is(fault, Fault::RecordAfterLengths) {
        in_range?;
    }
    let need = record.vectors.saturating_mul(asked.m);
    let system = checked(rows, relations, asked, &[(record.values.len(), need), (result, result_need)], fault)?;
    in_range?;
    record.values_right(asked.m, fault)?;
    Ok(system)
}

fn record_numbers(answer: record::Answer) -> [i64; RECORD] {
    match answer {
        record::Answer::Fits(tested) => [0, tested as i64, 0, 0],
        record::Answer::Equation(number, n, sum) => [1, number as i64, n as i64, sum as i64],
        record::Answer::Relation(number, n, sum) => [2, number as i64, n as i64, sum as i64],
    }
}

// ---- one polynomial of a row store ----

/// The part of the row store that holds one polynomial (SCOPE 3.41), empty where the check is not 0 (SCOPE 3.44). The relation count of
/// the sizes plays no part.
pub fn polynomial(rows: &[i64], sizes: Asked, row: usize, block: i64, column: usize) -> &[i64] {
    match polynomial_place(rows, sizes, row, block, column) {
        Ok(at) => &rows[at..at + COEFFICIENTS],
        Err(_) => &[],
    }
}

/// 2 for a size or place out of its range, otherwise 1 for a store too short (SCOPE 3.42, 3.43).
pub fn check_polynomial(rows: &[i64], sizes: Asked, row: usize, block: i64, column: usize) -> u8 {
    number_of(polynomial_place(rows, sizes, row, block, column).map(drop))
}

fn polynomial_place(rows: &[i64], asked: Asked, row: usize, block: i64, column: usize) -> Result<usize, Refusal> {
    let sizes = row_sizes(asked, row)?;
    let inside = (asked.t..=asked.l).contains(&block) && (1..=asked.m).contains(&column);
    if !inside {
        return Err(Refusal::Range);
    }
    long_enough(&[(rows.len(), row_store(asked.equations))])?;
    Ok((row - 1) * ROW + entry_position(sizes, block, column))
}

/// The sizes, 2 where one of them or the row is out of its range.
fn row_sizes(asked: Asked, row: usize) -> Result<Sizes, Refusal> {
    let sizes = Asked { count: 0, ..asked }.sizes(None)?;
    if (1..=asked.equations).contains(&row) {
        Ok(sizes)
    } else {
        Err(Refusal::Range)
    }
}

/// The part of the row store that holds the right side of a row, empty where the check is not 0 (02, U1).
pub fn right_side(rows: &[i64], sizes: Asked, row: usize) -> &[i64] {
    match right_side_place(rows, sizes, row) {
        Ok(at) => &rows[at..at + COEFFICIENTS],
        Err(_) => &[],
    }
}

/// As [`check_polynomial`].
pub fn check_right_side(rows: &[i64], sizes: Asked, row: usize) -> u8 {
    number_of(right_side_place(rows, sizes, row).map(drop))
}

fn right_side_place(rows: &[i64], asked: Asked, row: usize) -> Result<usize, Refusal> {
    row_sizes(asked, row)?;
    long_enough(&[(rows.len(), row_store(asked.equations))])?;
    Ok((row - 1) * ROW + ENTRIES)
}
