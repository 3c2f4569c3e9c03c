//! Cases that were made elsewhere, from a file of runs, a file of differential sheets, a file of records or a batch with its output. A subject is called with stores of several lengths,
//! and every number of every store is judged, before and after. What is expected comes from the file alone: its sheets are taken apart
//! here into the numbers that the stores have to hold.

use crate::cases::text;
use crate::records::Recorded;
use crate::subject::Subject;
use outside::elimination::Side;
use outside::record::Record;
use outside::stores::Asked;
use std::str;
use wurgalm::{row_store, COEFFICIENTS, ENTRIES, EQUATIONS, RECURRENCE, RELATION, RELATION_STORE, ROW};

/// Numbers of the result of a run.
const RESULT: usize = 10;
/// Numbers of the result of a reader.
const HEADING: usize = 9;
/// Numbers of the answer to a record.
const RECORD: usize = 4;

/// What a run of a sheet leaves.
#[derive(Debug, PartialEq, Eq)]
pub struct Left {
    pub refusal: u8,
    pub shifts: i64,
    pub root: Option<i64>,
    pub rank: i64,
    /// How often the root occurs, where the file tells it.
    pub multiplicity: Option<i64>,
    /// Empty on a refusal.
    pub sheet: Vec<u8>,
}

/// A sheet, and what its runs leave.
#[derive(Debug, PartialEq, Eq)]
pub struct Runs {
    pub sheet: Vec<u8>,
    pub leading: Left,
    pub trailing: Left,
}

/// A differential sheet, its refusal or 0, and the sheet of its recurrence, empty on a refusal.
#[derive(Debug, PartialEq, Eq)]
pub struct Induced {
    pub sheet: Vec<u8>,
    pub refusal: u8,
    pub recurrence: Vec<u8>,
}

/// A sheet with a record, and the refusal or 0 with the four numbers of the answer, zeros on a refusal.
#[derive(Debug, PartialEq, Eq)]
pub struct Measured {
    pub sheet: Vec<u8>,
    pub recorded: Recorded,
    pub refusal: u8,
    pub answer: [i64; RECORD],
}

// ---- the files ----

/// The cases of a file of records: a line `sheet BYTES` and so many bytes, a line `record FIRST VECTORS`, a line of values, which may be
/// empty or too short, and `fits TESTED`, `equation NUMBER N SUM`, `relation NUMBER N0 SUM` or `refused REFUSAL`.
pub fn records_of(mut file: &[u8]) -> Result<Vec<Measured>, String> {
    let mut cases = Vec::new();
    while !file.is_empty() {
        let sheet = sheet_of(&mut file)?;
        let (heading, values, answer) = (next_line(&mut file)?, next_line(&mut file)?, next_line(&mut file)?);
        let [first, vectors] =
            heading.strip_prefix("record ").and_then(numbers_of).ok_or(format!("no record at {heading:?}"))?;
        let values =
            values.split_ascii_whitespace().map(|value| value.parse().map_err(|_| format!("no value {value:?}")));
        let recorded = Recorded { first, vectors: vectors as usize, values: values.collect::<Result<_, _>>()? };
        let (refusal, answer) = record_answer(answer).ok_or(format!("no answer at {answer:?}"))?;
        cases.push(Measured { sheet, recorded, refusal, answer });
    }
    Ok(cases)
}

/// So many numbers that are a space apart.
fn numbers_of<const COUNT: usize>(line: &str) -> Option<[i64; COUNT]> {
    let numbers: Result<Vec<i64>, _> = line.split(' ').map(str::parse).collect();
    numbers.ok()?.try_into().ok()
}

fn record_answer(line: &str) -> Option<(u8, [i64; RECORD])> {
    let (word, rest) = line.split_once(' ')?;
    let failure = |kind| numbers_of(rest).map(|[number, index, sum]| (0, [kind, number, index, sum]));
    match word {
        "fits" => numbers_of(rest).map(|[tested]| (0, [0, tested, 0, 0])),
        "equation" => failure(1),
        "relation" => failure(2),
        "refused" => rest.parse().ok().map(|refusal| (refusal, [0; RECORD])),
        _ => None,
    }
}

/// The cases of a `run.txt`: a line `sheet BYTES` and so many bytes, a line `leading REFUSAL shifts S root R rank W mult M` with the
/// sheet that is left where the refusal is 0, and the same for the trailing side. Files that are older have no ` mult M`.
pub fn runs_of(mut file: &[u8]) -> Result<Vec<Runs>, String> {
    let mut cases = Vec::new();
    while !file.is_empty() {
        let sheet = sheet_of(&mut file)?;
        let (leading, trailing) = (left(&mut file, "leading")?, left(&mut file, "trailing")?);
        cases.push(Runs { sheet, leading, trailing });
    }
    Ok(cases)
}

/// The cases of a file of differential sheets: a line `sheet BYTES` and so many bytes, a line `answer REFUSAL`, and the recurrence's
/// sheet where the refusal is 0.
pub fn induced_of(mut file: &[u8]) -> Result<Vec<Induced>, String> {
    let mut cases = Vec::new();
    while !file.is_empty() {
        let sheet = sheet_of(&mut file)?;
        let line = next_line(&mut file)?;
        let refusal = line.strip_prefix("answer ").and_then(|refusal| refusal.parse().ok());
        let refusal = refusal.ok_or_else(|| format!("no answer at {line:?}"))?;
        cases.push(Induced { sheet, refusal, recurrence: sheet_lines(&mut file)? });
    }
    Ok(cases)
}

/// A line `sheet BYTES`, and so many bytes.
pub(crate) fn sheet_of(file: &mut &[u8]) -> Result<Vec<u8>, String> {
    let line = next_line(file)?;
    let length = line.strip_prefix("sheet ").and_then(|length| length.parse().ok());
    let Some((sheet, rest)) = length.and_then(|length| file.split_at_checked(length)) else {
        return Err(format!("no sheet at {line:?}"));
    };
    *file = rest;
    Ok(sheet.to_vec())
}

/// The sheet that follows, or nothing: its lines have numbers alone, and all other lines begin with a letter.
pub(crate) fn sheet_lines(file: &mut &[u8]) -> Result<Vec<u8>, String> {
    let mut sheet = Vec::new();
    while file.first().is_some_and(|first| !first.is_ascii_alphabetic()) {
        sheet.extend(next_line(file)?.bytes().chain([b'\n']));
    }
    Ok(sheet)
}

pub(crate) fn next_line<'a>(file: &mut &'a [u8]) -> Result<&'a str, String> {
    let end = file.iter().position(|&b| b == b'\n').ok_or("the file ends in the middle of a line")?;
    let line = str::from_utf8(&file[..end]).map_err(|_| "a line is no text")?;
    *file = &file[end + 1..];
    Ok(line)
}

fn left(file: &mut &[u8], side: &str) -> Result<Left, String> {
    let line = next_line(file)?;
    let words: Vec<&str> = line.split(' ').collect();
    let wrong = || format!("no {side} run at {line:?}");
    let [name, refusal, "shifts", shifts, "root", root, "rank", rank, ref times @ ..] = words[..] else {
        return Err(wrong());
    };
    let root = if root == "none" { None } else { Some(root.parse().map_err(|_| wrong())?) };
    let refusal = refusal.parse().map_err(|_| wrong())?;
    let number = |word: &str| word.parse::<i64>().map_err(|_| wrong());
    let multiplicity = match times {
        [] => None,
        ["mult", times] => Some(number(times)?),
        _ => return Err(wrong()),
    };
    let (shifts, rank) = (number(shifts)?, number(rank)?);
    if name != side {
        return Err(wrong());
    }
    Ok(Left { refusal, shifts, root, rank, multiplicity, sheet: sheet_lines(file)? })
}

// ---- a sheet as numbers of stores ----

/// What the needed parts of the stores hold for a sheet, and its column order.
#[derive(Clone)]
pub(crate) struct Held {
    pub asked: Asked,
    pub rows: Vec<i64>,
    pub relations: Vec<i64>,
    pub order: [i64; 4],
}

/// The numbers of a sheet one after the other. Its lines play no part: every count is among the numbers.
struct Numbers<'a>(str::SplitAsciiWhitespace<'a>);

impl Numbers<'_> {
    fn more(&mut self) -> Option<i64> {
        self.0.next().map(|token| token.parse().expect("a number"))
    }

    fn next(&mut self) -> i64 {
        self.more().expect("a whole sheet")
    }

    fn count(&mut self) -> usize {
        self.next() as usize
    }

    /// The number of coefficients, and those.
    fn polynomial(&mut self, place: &mut [i64]) {
        let count = self.count();
        place[..count].fill_with(|| self.next());
    }

    /// The terms of an equation.
    fn equation(&mut self, l: i64, row: &mut [i64]) {
        for _ in 0..self.count() {
            let (s, c) = (self.next(), self.next());
            let at = ((l - s) * 4 + c - 1) as usize * COEFFICIENTS;
            self.polynomial(&mut row[at..at + COEFFICIENTS]);
        }
    }
}

/// The numbers that a sheet without a fault puts into stores.
pub(crate) fn held(sheet: &[u8]) -> Held {
    let mut numbers = Numbers(str::from_utf8(sheet).expect("a whole sheet").split_ascii_whitespace());
    let (_, m, l, t) = (numbers.next(), numbers.count(), numbers.next(), numbers.next());
    let equations = numbers.count();
    let (mut rows, mut relations) = (vec![0; row_store(equations)], vec![0; RELATION_STORE]);
    rows.chunks_mut(ROW).for_each(|row| numbers.equation(l, row));
    let count = numbers.count();
    for relation in relations.chunks_mut(RELATION).take(count) {
        relation[0] = numbers.next();
        numbers.equation(l, &mut relation[1..]);
    }
    let mut order = [0; 4];
    numbers.polynomial(&mut order);
    if numbers.more().is_some() {
        rows.chunks_mut(ROW).for_each(|row| numbers.polynomial(&mut row[ENTRIES..]));
        relations.chunks_mut(RELATION).take(count).for_each(|row| numbers.polynomial(&mut row[1 + ENTRIES..]));
    }
    assert!(numbers.more().is_none(), "a whole sheet");
    Held { asked: Asked { m, equations, l, t, count }, rows, relations, order }
}

// ---- lent stores ----

/// What a lent store holds where nothing is said about it.
pub(crate) fn unsaid<T: Member>(length: usize) -> Vec<T> {
    (0..length).map(T::unsaid).collect()
}

/// A member of a store.
pub(crate) trait Member: Copy + PartialEq + Default {
    fn unsaid(at: usize) -> Self;
}

impl Member for i64 {
    fn unsaid(at: usize) -> i64 {
        0x5a5a_5a5a_5a5a_5a5a ^ at as i64
    }
}

impl Member for u8 {
    fn unsaid(at: usize) -> u8 {
        b'#' ^ (at % 7) as u8
    }
}

/// The numbers, and behind them so many that the call has nothing to do with; or one number less.
pub(crate) fn lent<T: Member>(needed: &[T], more: isize) -> Vec<T> {
    let length = needed.len().saturating_add_signed(more);
    let mut store = unsaid(length);
    let both = length.min(needed.len());
    store[..both].copy_from_slice(&needed[..both]);
    store
}

/// The stores of a call: how long each is beside its need, and what a call does with one that is too short.
const LENGTHS: [[isize; 3]; 6] = [[0, 0, 0], [3, 0, 0], [0, ROW as isize, 1], [-1, 0, 0], [0, -1, 5], [7, 0, -1]];

/// The same for a record: rows, relations, result, values. The values of a file are as many as are needed, or too few.
const RECORD_LENGTHS: [[isize; 4]; 7] =
    [[0, 0, 0, 0], [3, 1, 2, 5], [-1, 0, 0, 0], [0, -1, 0, 2], [0, 0, -1, 0], [0, 0, 0, -1], [7, 0, -4, 0]];

/// Whether a store is shorter than it needs to be, which one that needs no number never is.
pub(crate) fn is_short(needs: &[usize], more: &[isize]) -> bool {
    needs.iter().zip(more).any(|(&need, &more)| need.saturating_add_signed(more) < need)
}

// ---- judging ----

/// What was different, for a reader.
pub type Judgement = Result<(), String>;

/// Counts calls.
#[derive(Default)]
pub struct Judge {
    pub calls: usize,
}

pub(crate) fn same<T: PartialEq + std::fmt::Debug>(what: &str, found: &[T], expected: &[T]) -> Judgement {
    if found.len() != expected.len() {
        return Err(format!("{what}: {} members and not {}", found.len(), expected.len()));
    }
    match found.iter().zip(expected).position(|(a, b)| a != b) {
        None => Ok(()),
        Some(at) => Err(format!("{what} at {at}: {:?} and not {:?}", found[at], expected[at])),
    }
}

pub(crate) fn numbered(what: &str, found: u8, expected: u8) -> Judgement {
    if found == expected {
        Ok(())
    } else {
        Err(format!("{what} answers {found} and not {expected}"))
    }
}

/// A call that reads a sheet, or the recurrence of a differential sheet, into a row store, a relation store and a result.
type Reader = fn(&dyn Subject, &[u8], &mut [i64], &mut [i64], &mut [i64]) -> u8;

const READ: Reader = |subject, sheet, rows, relations, result| subject.read(sheet, rows, relations, result);
const READ_DIFFERENTIAL: Reader =
    |subject, sheet, rows, relations, result| subject.read_differential(sheet, rows, relations, result);

impl Judge {
    /// Every call on one case.
    pub fn runs(&mut self, case: &Runs, subject: &dyn Subject) -> Judgement {
        let judged = match case.leading.refusal {
            // What is refused before the work of a run is refused by the reader.
            number @ 1..=5 => self.unread(READ, &case.sheet, number, subject),
            _ => {
                let input = held(&case.sheet);
                self.read(READ, &case.sheet, &input, subject)
                    .and_then(|()| self.written(&case.sheet, &input, subject))
                    .and_then(|()| self.run(Side::Leading, &input, &case.leading, subject))
                    .and_then(|()| self.run(Side::Trailing, &input, &case.trailing, subject))
            }
        };
        judged.map_err(|difference| format!("{difference}\n{}", text(&case.sheet)))
    }

    /// Every call on a differential sheet, and the program `induce`.
    pub fn induced(&mut self, case: &Induced, subject: &dyn Subject) -> Judgement {
        let judged = match case.refusal {
            0 => {
                let input = held(&case.recurrence);
                self.read(READ_DIFFERENTIAL, &case.sheet, &input, subject)
                    .and_then(|()| self.written(&case.recurrence, &input, subject))
                    .and_then(|()| self.recurrence(case, subject))
            }
            number => {
                let unread = self.unread(READ_DIFFERENTIAL, &case.sheet, number, subject);
                unread.and_then(|()| self.no_recurrence(case, subject))
            }
        };
        let judged = judged.and_then(|()| self.program(case, subject));
        judged.map_err(|difference| format!("{difference}\n{}", text(&case.sheet)))
    }

    /// A record is held against the system of its sheet. Nothing but the result is written, and that only where the answer is 0, or 12.
    pub fn record(&mut self, case: &Measured, subject: &dyn Subject) -> Judgement {
        let input = held(&case.sheet);
        let judged = RECORD_LENGTHS.iter().try_for_each(|more| self.record_in(case, &input, *more, subject));
        judged.map_err(|difference| {
            let Recorded { first, vectors, values } = &case.recorded;
            format!("{difference}\n{}record {first} {vectors}\n{values:?}", text(&case.sheet))
        })
    }

    fn record_in(&mut self, case: &Measured, input: &Held, more: [isize; 4], subject: &dyn Subject) -> Judgement {
        let needs = [input.rows.len(), RELATION_STORE, RECORD, case.recorded.values.len()];
        let given = [input.rows.clone(), input.relations.clone(), unsaid(RECORD), case.recorded.values.clone()];
        // A store of values that is too short is not made longer.
        let more = if case.refusal == 1 { [more[0], more[1], more[2], more[3].min(0)] } else { more };
        let before = [0, 1, 2, 3].map(|k| lent(&given[k], more[k]));
        let [rows, relations, mut result, values] = before.clone();
        let Recorded { first, vectors, .. } = case.recorded;
        let record = Record { first, vectors, values: &values };
        let found = subject.check_record(&rows, &relations, input.asked, &record, &mut result);
        // What is out of its range comes before a store that is too short.
        let number = if is_short(&needs, &more) && case.refusal != 2 { 1 } else { case.refusal };
        let expected = if number == 0 || number > 5 { lent(&case.answer, more[2]) } else { before[2].clone() };
        self.calls += 1;
        numbered("a record", found, number)?;
        same("row store", &rows, &before[0])?;
        same("relation store", &relations, &before[1])?;
        same("values", &values, &before[3])?;
        same("result of a record", &result, &expected)
    }

    /// The recurrence is written as a sheet, and nothing past its end.
    fn recurrence(&mut self, case: &Induced, subject: &dyn Subject) -> Judgement {
        let needed = &case.recurrence;
        for (more, result) in [(0, 0), (5, 3), (-1, 0), (9, -1)] {
            let before = (lent(&unsaid(needed.len()), more), lent(&unsaid(1), result));
            let mut after = before.clone();
            let found = subject.write_recurrence(&case.sheet, &mut after.0, &mut after.1);
            let refused = is_short(&[needed.len(), 1], &[more, result]);
            let accepted = || (lent(needed, more), lent(&[needed.len() as i64], result));
            let expected = if refused { before } else { accepted() };
            self.calls += 1;
            numbered("writing a recurrence", found, refused as u8)?;
            same("recurrence that was written", &after.0, &expected.0)?;
            same("result of writing a recurrence", &after.1, &expected.1)?;
        }
        Ok(())
    }

    /// A fault of the sheet comes before a store that is too short, and both stores stay as they are.
    fn no_recurrence(&mut self, case: &Induced, subject: &dyn Subject) -> Judgement {
        for (bytes, result) in [(RECURRENCE, 1), (0, 1), (RECURRENCE, 0), (0, 0)] {
            let before = (unsaid::<u8>(bytes), unsaid::<i64>(result));
            let mut after = before.clone();
            let found = subject.write_recurrence(&case.sheet, &mut after.0, &mut after.1);
            self.calls += 1;
            numbered("writing a recurrence", found, case.refusal)?;
            same("byte store", &after.0, &before.0)?;
            same("result", &after.1, &before.1)?;
        }
        Ok(())
    }

    /// `induce` writes `0` and the recurrence, or the refusal alone on a line.
    fn program(&mut self, case: &Induced, subject: &dyn Subject) -> Judgement {
        let expected = [format!("{}\n", case.refusal).as_bytes(), &case.recurrence].concat();
        self.calls += 1;
        same("output of induce", &subject.induce(&case.sheet), &expected)
    }

    /// The reader refuses the sheet, and leaves all stores as they are.
    fn unread(&mut self, reader: Reader, sheet: &[u8], number: u8, subject: &dyn Subject) -> Judgement {
        let before = (unsaid::<i64>(row_store(EQUATIONS)), unsaid::<i64>(RELATION_STORE), unsaid::<i64>(HEADING));
        let mut after = before.clone();
        self.calls += 1;
        numbered("reading", reader(subject, sheet, &mut after.0, &mut after.1, &mut after.2), number)?;
        same("row store", &after.0, &before.0)?;
        same("relation store", &after.1, &before.1)?;
        same("result", &after.2, &before.2)
    }

    /// The reader fills the stores, whatever they held, and writes nothing past their needed parts.
    fn read(&mut self, reader: Reader, sheet: &[u8], input: &Held, subject: &dyn Subject) -> Judgement {
        let Asked { m, equations, l, t, count } = input.asked;
        let [a, b, c, d] = input.order;
        let heading = [m as i64, l, t, count as i64, a, b, c, d, equations as i64];
        let needs = [row_store(equations), RELATION_STORE, HEADING];
        for more in LENGTHS {
            let before: [Vec<i64>; 3] = needs.map(unsaid);
            let before = [0, 1, 2].map(|k| lent(&before[k], more[k]));
            let [mut rows, mut relations, mut result] = before.clone();
            let found = reader(subject, sheet, &mut rows, &mut relations, &mut result);
            let parts: [&[i64]; 3] = [&input.rows, &input.relations, &heading];
            let short = is_short(&needs, &more);
            let expected = if short { before } else { [0, 1, 2].map(|k| lent(parts[k], more[k])) };
            self.calls += 1;
            numbered("reading", found, short as u8)?;
            same("row store that was read", &rows, &expected[0])?;
            same("relation store that was read", &relations, &expected[1])?;
            same("result of reading", &result, &expected[2])?;
        }
        Ok(())
    }

    /// The writer writes the sheet, and nothing past its end.
    fn written(&mut self, sheet: &[u8], held: &Held, subject: &dyn Subject) -> Judgement {
        for (more, past, result) in [(0, 0, 0), (5, 2, 3), (-1, 0, 0), (0, -1, 0), (9, 0, -1)] {
            let refused = is_short(&[sheet.len(), held.rows.len(), 1], &[more, past, result]);
            let (rows, relations) = (lent(&held.rows, past), lent(&held.relations, past.max(0)));
            let before = (lent(&unsaid(sheet.len()), more), lent(&unsaid(1), result));
            let mut after = before.clone();
            let found = subject.write(&rows, &relations, held.asked, &held.order, &mut after.0, &mut after.1);
            let accepted = || (lent(sheet, more), lent(&[sheet.len() as i64], result));
            let expected = if refused { before } else { accepted() };
            self.calls += 1;
            numbered("writing", found, refused as u8)?;
            same("bytes that were written", &after.0, &expected.0)?;
            same("result of writing", &after.1, &expected.1)?;
        }
        Ok(())
    }

    /// A run leaves what the file says, zeros on a refusal, and everything as it is in stores that are too short.
    fn run(&mut self, side: Side, input: &Held, left: &Left, subject: &dyn Subject) -> Judgement {
        let after = if left.refusal == 0 {
            let mut output = held(&left.sheet);
            let [a, b, c, d] = output.order;
            let root = [left.root.is_some() as i64, left.root.unwrap_or(0)];
            let (count, times) = (output.asked.count as i64, left.multiplicity.unwrap_or(0));
            let result = [count, left.shifts, a, b, c, d, root[0], root[1], left.rank, times];
            self.written(&left.sheet, &output, subject)?;
            // The places of rows that were dropped are zero.
            output.rows.resize(input.rows.len(), 0);
            [output.rows, output.relations, result.to_vec()]
        } else {
            [vec![0; input.rows.len()], vec![0; RELATION_STORE], vec![0; RESULT]]
        };
        let needs = [input.rows.len(), RELATION_STORE, RESULT];
        for more in LENGTHS {
            let before = [input.rows.clone(), input.relations.clone(), unsaid(RESULT)];
            let before = [0, 1, 2].map(|k| lent(&before[k], more[k]));
            let [mut rows, mut relations, mut result] = before.clone();
            let found = subject.run(side, &mut rows, &mut relations, input.asked, &mut result);
            let short = is_short(&needs, &more);
            let mut expected = if short { before } else { [0, 1, 2].map(|k| lent(&after[k], more[k])) };
            // Of a root whose count the file does not tell it is known that it occurs.
            if !short && left.root.is_some() && left.multiplicity.is_none() && result[RESULT - 1] > 0 {
                expected[2][RESULT - 1] = result[RESULT - 1];
            }
            self.calls += 1;
            numbered(&format!("{side:?} run"), found, if short { 1 } else { left.refusal })?;
            same(&format!("{side:?} row store"), &rows, &expected[0])?;
            same(&format!("{side:?} relation store"), &relations, &expected[1])?;
            same(&format!("{side:?} result"), &result, &expected[2])?;
        }
        Ok(())
    }

    /// A batch is worked into a byte store. In one that is too short it leaves zeros; without a result store nothing changes.
    pub fn batch(&mut self, input: &[u8], output: &[u8], subject: &dyn Subject) -> Judgement {
        for (more, result) in [(0, 0), (4, 2), (-1, 0), (-1, 1), (0, -1)] {
            let before = (lent(&unsaid(output.len()), more), lent(&unsaid(1), result));
            let mut after = before.clone();
            let found = subject.batch_call(input, &mut after.0, &mut after.1);
            let expected = match (more, result) {
                (_, -1) => before,
                (-1, _) => (vec![0; output.len() - 1], lent(&[0], result)),
                _ => (lent(output, more), lent(&[output.len() as i64], result)),
            };
            self.calls += 1;
            numbered("a batch", found, is_short(&[output.len(), 1], &[more, result]) as u8)?;
            same("output of a batch", &after.0, &expected.0)?;
            same("result of a batch", &after.1, &expected.1)?;
        }
        Ok(())
    }
}

#[cfg(test)]
mod tests {
    use super::*;
    use crate::differentials::differential;
    use crate::random::Random;
    use crate::records::recorded;
    use crate::sheets::whole_sheet;
    use crate::subject::Outside;
    use outside::elimination::run;
    use outside::fault::Fault;
    use outside::sheet::{read, write, Sheet};

    /// The lines that a file of runs has for a sheet.
    fn lines(sheet: &[u8], side: Side) -> Vec<u8> {
        let name = if side == Side::Leading { "leading" } else { "trailing" };
        match read(sheet, None).and_then(|sheet| run(&sheet.system, side, None)) {
            Err(refusal) => format!("{name} {} shifts 0 root none rank 0 mult 0\n", refusal.number()).into_bytes(),
            Ok(run) => {
                let root = run.root.map_or("none".into(), |root| root.to_string());
                let (shifts, rank, times) = (run.shifts, run.rank(), run.multiplicity);
                let line = format!("{name} 0 shifts {shifts} root {root} rank {rank} mult {times}\n");
                [line.into_bytes(), write(&Sheet { system: run.system, order: run.order })].concat()
            }
        }
    }

    fn file(sheets: &[Vec<u8>]) -> Vec<u8> {
        let case = |sheet: &Vec<u8>| {
            let line = format!("sheet {}\n", sheet.len()).into_bytes();
            [line, sheet.clone(), lines(sheet, Side::Leading), lines(sheet, Side::Trailing)].concat()
        };
        sheets.iter().flat_map(case).collect()
    }

    fn some_sheets() -> Vec<Vec<u8>> {
        let mut random = Random::new(11);
        let mut sheets: Vec<Vec<u8>> = (0..400).map(|_| whole_sheet(&mut random)).collect();
        sheets.extend([b"3 1 0 0\n1\n0\n0\n0\n1\n0\n".to_vec(), b"3 5 0 0\n".to_vec(), Vec::new()]);
        sheets.extend([b"3 1 0 0\n0\n0\n0\n0\n".to_vec(), b"3 1 0 0\n0\n0\n0\n1\n".to_vec()]);
        sheets
    }

    #[test]
    fn right() {
        let cases = runs_of(&file(&some_sheets())).unwrap();
        assert_eq!(cases.len(), 405);
        let mut judge = Judge::default();
        for case in &cases {
            judge.runs(case, &Outside(None)).unwrap();
        }
        assert!(judge.calls > 10_000);
    }

    /// Faults of every kind of call are noticed.
    #[test]
    fn wrong() {
        use Fault::*;
        let cases = runs_of(&file(&some_sheets())).unwrap();
        let faults = [
            [SideNotCombined, SideOutOfContent, SideNotDivided, SideNotShifted, SideNotMirrored, SideOutOfDegree],
            [SideOutOfLimit, SideOutOfShiftLimit, SideInWidth, RelationWithoutSide, LeftZeroDropped, SideFirst],
            [LaterRowsStay, LastRowMovesUp, ZeroRowInconsistent, FreedKept, RankOfEquations, RankOneMore],
            [RowOfEachUnknown, EquationsAsUnknowns, OrderAllOrNone, OrderWhole, NoSidesRange, NoSidesForm],
            [CommonKept, CommonListed, CommonOnce, CommonUnlimited, CommonDescending, OneQuotientTaken],
            [TimesOnce, TimesOnceEach, TimesOneDiagonal, TimesBesideNo, RunResultNine, ReadResultTen],
            [StoresKept, ZeroedPastNeed, ZeroSides, SideOfEquations, SmallestRootReported, TrailingDescending],
        ];
        for fault in faults.concat() {
            let noticed = |case: &Runs| Judge::default().runs(case, &Outside(Some(fault))).is_err();
            assert!(cases.iter().any(noticed), "{fault:?}");
        }
    }

    #[test]
    fn batches() {
        let sheet = b"3 1 0 0\n1\n1 0 1 1 1\n0\n0\n1\n1 5\n";
        let input = [format!("2\n1 {}\n", sheet.len()).as_bytes(), sheet, b"8 0\n"].concat();
        let answers = b"0\n3 1 0 0\n1\n1 0 1 1 1\n0\n1 1\n1\n1 5\n4\n";
        let output = [&answers[..], b"1 0\n", &b"0 0\n".repeat(6), b"0 1\n"].concat();
        Judge::default().batch(&input, &output, &Outside(None)).unwrap();
        for fault in [Fault::BatchStoresKept, Fault::BatchCut, Fault::BatchTailZeroed, Fault::BatchResultLast] {
            assert!(Judge::default().batch(&input, &output, &Outside(Some(fault))).is_err(), "{fault:?}");
        }
        for fault in [Fault::OtherClient, Fault::RefusedAccepted, Fault::OneLine, Fault::SilentClients] {
            assert!(Judge::default().batch(&input, &output, &Outside(Some(fault))).is_err(), "{fault:?}");
        }
    }

    /// Differential sheets with their answers, as a file of them has both.
    fn differential_cases() -> Vec<Induced> {
        let mut random = Random::new(12);
        let mut file = Vec::new();
        for _ in 0..600 {
            let sheet = differential(&mut random);
            file.extend(format!("sheet {}\n", sheet.len()).bytes().chain(sheet.iter().copied()));
            file.extend(b"answer ".iter().copied().chain(outside::differential::output(&sheet, None)));
        }
        induced_of(&file).unwrap()
    }

    #[test]
    fn differential_sheets() {
        use Fault::*;
        let cases = differential_cases();
        assert_eq!(cases.len(), 600);
        let mut judge = Judge::default();
        for case in &cases {
            judge.induced(case, &Outside(None)).unwrap();
        }
        assert!(judge.calls > 4_000);
        let recurrences = [DerivativeFactor, VariableUp, TermsOverwrite, RecurrenceCut, RecurrenceTailZeroed];
        let sheets = [TermTwice, FactorZero, DifferentialBytesAfter, RecurrenceResultFirst];
        for fault in recurrences.into_iter().chain(sheets) {
            let noticed = |case: &Induced| Judge::default().induced(case, &Outside(Some(fault))).is_err();
            assert!(cases.iter().any(noticed), "{fault:?}");
        }
        for file in ["sheet", "sheet 9\n", "sheet 1\n3answer", "sheet 1\n3answer x\n", "sheet 0\nleading 4\n"] {
            assert!(induced_of(file.as_bytes()).is_err(), "{file:?}");
        }
    }

    /// Sheets with records and their answers, as a file of them has all three.
    fn record_cases() -> Vec<Measured> {
        let mut random = Random::new(13);
        let mut file = Vec::new();
        while file.len() < 400_000 {
            let (system, recorded) = recorded(&mut random);
            let Ok(answer) = outside::record::check(&system, &recorded.record(), None) else { continue };
            let sheet = write(&Sheet { system, order: Vec::new() });
            let values: Vec<String> = recorded.values.iter().map(i64::to_string).collect();
            let answer = match answer {
                outside::record::Answer::Fits(tested) => format!("fits {tested}"),
                outside::record::Answer::Equation(number, n, sum) => format!("equation {number} {n} {sum}"),
                outside::record::Answer::Relation(number, n, sum) => format!("relation {number} {n} {sum}"),
            };
            let record = format!("record {} {}\n{}\n", recorded.first, recorded.vectors, values.join(" "));
            file.extend(format!("sheet {}\n", sheet.len()).bytes().chain(sheet));
            file.extend(format!("{record}{answer}\n").bytes());
        }
        let past = "3 1 0 0\n1\n1 0 1 3 1 0 1\n0\n0\n";
        let lines =
            ["1048576 1\n0\nrefused 12", "1048577 1\n0\nrefused 2", "0 1\n\nrefused 1", "0 1\n65537\nrefused 5"];
        for lines in lines {
            file.extend(format!("sheet {}\n{past}record {lines}\n", past.len()).bytes());
        }
        records_of(&file).unwrap()
    }

    #[test]
    fn records() {
        use Fault::*;
        let cases = record_cases();
        assert!(cases.len() > 300);
        let mut judge = Judge::default();
        for case in &cases {
            judge.record(case, &Outside(None)).unwrap();
        }
        assert_eq!(judge.calls, 7 * cases.len());
        let places = [RelationsFirst, BlockBefore, BlockBehind, RelationBefore, RelationBehind, IndicesFall, SideAdded];
        let calls = [RecordResultKept, RecordResultThree, RecordAfterLengths, ValuesPast, ValueIsSize, NumberFromZero];
        for fault in places.into_iter().chain(calls).chain([LimitReached, EquationsCounted, ByUnknown]) {
            let noticed = |case: &Measured| Judge::default().record(case, &Outside(Some(fault))).is_err();
            assert!(cases.iter().any(noticed), "{fault:?}");
        }
        let sheet = "sheet 1\n3";
        for lines in
            ["record 1\n\nfits 0\n", "record 1 1\nx\nfits 0\n", "record 1 0\n\nfits\n", "record 1 0\n\nfails 1\n"]
        {
            assert!(records_of(format!("{sheet}{lines}").as_bytes()).is_err(), "{lines:?}");
        }
    }

    /// A file that does not tell how often a root occurs: all else is judged, and that it does occur.
    #[test]
    fn without_multiplicities() {
        let sheet = b"3 1 0 0\n1\n1 0 1 3 4 -4 1\n0\n0\n".to_vec();
        let told = String::from_utf8(file(std::slice::from_ref(&sheet))).unwrap();
        assert_eq!(told.matches(" root 2 rank 1 mult 2\n").count(), 2);
        let older = told.replace(" mult 2", "");
        for (told, once) in [(told, true), (older, false)] {
            let case = &runs_of(told.as_bytes()).unwrap()[0];
            Judge::default().runs(case, &Outside(None)).unwrap();
            assert_eq!(Judge::default().runs(case, &Outside(Some(Fault::TimesOnce))).is_err(), once);
            assert!(Judge::default().runs(case, &Outside(Some(Fault::RankOneMore))).is_err());
        }
    }

    #[test]
    fn broken_files() {
        let one_side = "sheet 0\nleading 4 shifts 0 root none rank 0 mult 0\n";
        let no_times = "sheet 0\nleading 4 shifts 0 root none rank 0 mult\ntrailing 4 shifts 0 root none rank 0 mult\n";
        for file in ["sheet", "sheet 9\n", "sheet 1\n3leading 4", one_side, no_times, "x 1\n3"] {
            assert!(runs_of(file.as_bytes()).is_err(), "{file:?}");
        }
    }
}
