//! Cases of polynomial solutions that were made elsewhere (02, U13): a file of sheets with their lists. As in `runs`, what is expected comes
//! from the file alone, and every number of every store is judged.

use crate::cases::text;
use crate::runs::{held, is_short, lent, next_line, numbered, same, sheet_of, unsaid};
use crate::runs::{Held, Judge, Judgement};
use crate::solutions::{needs, Work};
use crate::subject::Subject;
use outside::solutions::Lent;
use outside::stores::Asked;
use wurgalm::{EQUATIONS, ROW, SEQUENCE};

/// Numbers of the result.
const ANSWER: usize = 3;

/// What the call comes to.
#[derive(Clone, Debug, PartialEq, Eq)]
pub enum Outcome {
    /// N, and the sequences by their columns.
    Listed(i64, Vec<Vec<i64>>),
    None,
    Refused(u8),
}

/// A sheet with its list.
#[derive(Debug, PartialEq, Eq)]
pub struct Solved {
    pub sheet: Vec<u8>,
    pub outcome: Outcome,
}

/// The cases of a file: a line `sheet BYTES` and so many bytes, and then `N TOP count K` with K lines of numbers, `none`, or `refused N`.
pub fn solutions_of(mut file: &[u8]) -> Result<Vec<Solved>, String> {
    let mut cases = Vec::new();
    while !file.is_empty() {
        let sheet = sheet_of(&mut file)?;
        let line = next_line(&mut file)?;
        let wrong = || format!("no list at {line:?}");
        let words: Vec<&str> = line.split(' ').collect();
        let outcome = match words[..] {
            ["none"] => Outcome::None,
            ["refused", number] => Outcome::Refused(number.parse().map_err(|_| wrong())?),
            ["N", last, "count", count] => {
                let last: i64 = last.parse().map_err(|_| wrong())?;
                let count: usize = count.parse().map_err(|_| wrong())?;
                let sequences: Result<_, String> = (0..count).map(|_| sequence(&mut file)).collect();
                Outcome::Listed(last, sequences?)
            }
            _ => return Err(wrong()),
        };
        cases.push(Solved { sheet, outcome });
    }
    Ok(cases)
}

fn sequence(file: &mut &[u8]) -> Result<Vec<i64>, String> {
    let line = next_line(file)?;
    line.split(' ').map(|number| number.parse().map_err(|_| format!("no sequence at {line:?}"))).collect()
}

// ---- judging ----

/// How long each store is beside its need: rows, relations, work rows, work relations, matrix, list, result.
const LENGTHS: [[isize; 7]; 10] = [
    [0, 0, 0, 0, 0, 0, 0],
    [3, 1, 2, 5, 7, 9, 4],
    [0, ROW as isize, ROW as isize, 0, SEQUENCE as isize, 0, 1],
    [-1, 0, 0, 0, 0, 0, 0],
    [0, -1, 0, 0, 0, 0, 0],
    [0, 0, -1, 0, 0, 0, 0],
    [0, 0, 0, -1, 0, 0, 0],
    [0, 0, 0, 0, -1, 0, 0],
    [0, 0, 0, 0, 0, -1, 0],
    [1, 1, 1, 1, 1, 1, -1],
];

/// The parts of the stores that the call leaves, for each of the work stores, the list and the result; none where the stores stay.
fn left(outcome: &Outcome, input: &Held) -> Option<(Work, [i64; ANSWER])> {
    let mut work = needs(input.asked.equations).map(|need| vec![0; need]);
    let result = match outcome {
        // 14 for a right side comes before the work.
        Outcome::Refused(14) if has_side(input) => return None,
        Outcome::Refused(_) | Outcome::None => [0; ANSWER],
        Outcome::Listed(last, sequences) => {
            for (places, values) in work[3].chunks_mut(SEQUENCE).zip(sequences) {
                places[..values.len()].copy_from_slice(values);
            }
            [1, *last, sequences.len() as i64]
        }
    };
    Some((work, result))
}

fn has_side(input: &Held) -> bool {
    let Asked { equations, count, .. } = input.asked;
    let rows = (0..equations.min(EQUATIONS)).map(|row| &input.rows[row * ROW..(row + 1) * ROW]);
    let relations = (0..count).map(|k| &input.relations[k * (ROW + 1) + 1..(k + 1) * (ROW + 1)]);
    rows.chain(relations).any(|row| row[wurgalm::ENTRIES..].iter().any(|&a| a != 0))
}

impl Judge {
    /// The list of a sheet's system, in stores of several lengths.
    pub fn listed(&mut self, case: &Solved, subject: &dyn Subject) -> Judgement {
        let input = held(&case.sheet);
        let judged = LENGTHS.iter().try_for_each(|more| self.listed_in(case, &input, *more, subject));
        judged.map_err(|difference| format!("{difference}\n{}{:?}", text(&case.sheet), case.outcome))
    }

    fn listed_in(&mut self, case: &Solved, input: &Held, more: [isize; 7], subject: &dyn Subject) -> Judgement {
        let [a, b, c, d] = needs(input.asked.equations);
        let needed = [input.rows.len(), input.relations.len(), a, b, c, d, ANSWER];
        let (rows, relations) = (lent(&input.rows, more[0]), lent(&input.relations, more[1]));
        let before: Vec<Vec<i64>> = (2..7).map(|k| lent(&unsaid(needed[k]), more[k])).collect();
        let mut after = before.clone();
        let [work_rows, work_relations, matrix, list, result] = &mut after[..] else { unreachable!() };
        let stores = Lent { rows: work_rows, relations: work_relations, matrix, list };
        let (kept_rows, kept_relations) = (rows.clone(), relations.clone());
        let found = subject.solutions(&rows, &relations, input.asked, stores, result);
        self.calls += 1;
        let short = is_short(&needed, &more);
        let number = match case.outcome {
            _ if short => 1,
            Outcome::Refused(number) => number,
            _ => 0,
        };
        numbered("the list", found, number)?;
        same("row store", &rows, &kept_rows)?;
        same("relation store", &relations, &kept_relations)?;
        let mut expected = before;
        if let (false, Some((work, result))) = (short, left(&case.outcome, input)) {
            let [a, b, c, d] = work;
            for (k, needed) in [a, b, c, d, result.to_vec()].into_iter().enumerate() {
                expected[k] = lent(&needed, more[k + 2]);
            }
        }
        let names = ["work rows", "work relations", "work matrix", "list", "result"];
        (0..5).try_for_each(|k| same(names[k], &after[k], &expected[k]))
    }
}

#[cfg(test)]
mod tests {
    use super::*;
    use crate::random::Random;
    use crate::solutions::solvable;
    use crate::subject::Outside;
    use outside::fault::Fault;
    use outside::sheet::{write, Sheet};
    use outside::solutions::{list, sides_zero};

    /// Sheets with their lists, as a file of them has both.
    fn cases() -> Vec<Solved> {
        let mut random = Random::new(15);
        let mut file = Vec::new();
        for _ in 0..400 {
            let system = solvable(&mut random);
            let sheet = write(&Sheet { system: system.clone(), order: Vec::new() });
            file.extend(format!("sheet {}\n", sheet.len()).bytes().chain(sheet.iter().copied()));
            let outcome = match sides_zero(&system, None).and_then(|()| list(&system, None)) {
                Err(refusal) => format!("refused {}\n", refusal.number()),
                Ok(None) => "none\n".into(),
                Ok(Some(list)) => {
                    let mut lines = format!("N {} count {}\n", list.last, list.sequences.len());
                    for values in &list.sequences {
                        lines += &(values.iter().map(i128::to_string).collect::<Vec<_>>().join(" ") + "\n");
                    }
                    lines
                }
            };
            file.extend(outcome.bytes());
        }
        solutions_of(&file).unwrap()
    }

    #[test]
    fn lists() {
        use Fault::*;
        let cases = cases();
        assert_eq!(cases.len(), 400);
        let mut judge = Judge::default();
        for case in &cases {
            judge.listed(case, &Outside(None)).unwrap();
        }
        assert!(judge.calls >= 4_000);
        let rows = [LastOfLeastRoot, RowsOneLater, RelationsNotAsked, FirstPositive, DivisorKept, ListTight];
        let stores = [WorkStoresKept, RefusedListKept, SidesZeroStores, MatrixOfEquations, ListShorter];
        for fault in rows.into_iter().chain(stores) {
            let noticed = |case: &Solved| Judge::default().listed(case, &Outside(Some(fault))).is_err();
            assert!(cases.iter().any(noticed), "{fault:?}");
        }
        let sheet = "sheet 14\n3 1 1 0\n0\n0\n0\n";
        for lines in ["N 1\n", "N 0 count 1\nx\n", "N 0 count 1\n", "refused\n", "no\n", ""] {
            assert!(solutions_of(format!("{sheet}{lines}").as_bytes()).is_err(), "{lines:?}");
        }
    }
}
