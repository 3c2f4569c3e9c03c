//! Cases of elimination logs that were made elsewhere (02, U12): a file of sheets with logs and what their replays leave. As in `runs`,
//! what is expected comes from the file alone, and every number of every store is judged.

use crate::cases::text;
use crate::logs::Log;
use crate::runs::{held, is_short, lent, next_line, numbered, same, sheet_lines, sheet_of, unsaid};
use crate::runs::{Held, Judge, Judgement};
use crate::subject::Subject;
use wurgalm::{LOG_STEP, LOG_STEPS, RELATION_STORE, ROW};

/// Numbers of the result of a run.
const RUN: usize = 10;
/// Numbers that a run needs for its log.
const LOG_STORE: usize = LOG_STEP * LOG_STEPS + 4;

/// A sheet with a log, and the answer to its replay.
#[derive(Debug, PartialEq, Eq)]
pub struct Replayed {
    pub sheet: Vec<u8>,
    /// Whether the log is the one that the leading run of this sheet writes.
    pub is_own: bool,
    pub log: Log,
    pub answer: u8,
    /// Shifts, root, rank, and how often the root occurs.
    pub report: (i64, Option<i64>, i64, i64),
    /// The sheet that is left, where it is accepted.
    pub left: Option<Vec<u8>>,
}

/// The cases of a file: a line `sheet BYTES` and so many bytes, a line `own STEPS` or `log STEPS`, a line with the numbers of the log, a
/// line `answer REFUSAL shifts S root R rank W mult M`, and, if it is accepted, a sheet.
pub fn logs_of(mut file: &[u8]) -> Result<Vec<Replayed>, String> {
    let mut cases = Vec::new();
    while !file.is_empty() {
        let sheet = sheet_of(&mut file)?;
        let line = next_line(&mut file)?;
        let (is_own, steps) = heading_of(line).ok_or(format!("no log at {line:?}"))?;
        let line = next_line(&mut file)?;
        let numbers = line.split_ascii_whitespace().map(|word| word.parse().ok()).collect::<Option<_>>();
        let numbers = numbers.ok_or(format!("no numbers at {line:?}"))?;
        let line = next_line(&mut file)?;
        let (answer, report) = answer_of(line).ok_or(format!("no answer at {line:?}"))?;
        let left = if answer == 0 { Some(sheet_lines(&mut file)?) } else { None };
        cases.push(Replayed { sheet, is_own, log: Log { steps, numbers }, answer, report, left });
    }
    Ok(cases)
}

fn heading_of(line: &str) -> Option<(bool, usize)> {
    let (word, steps) = line.split_once(' ')?;
    let is_own = match word {
        "own" => true,
        "log" => false,
        _ => return None,
    };
    Some((is_own, steps.parse().ok()?))
}

type Report = (i64, Option<i64>, i64, i64);

fn answer_of(line: &str) -> Option<(u8, Report)> {
    let words: Vec<&str> = line.split(' ').collect();
    let ["answer", answer, "shifts", shifts, "root", root, "rank", rank, "mult", times] = words[..] else {
        return None;
    };
    let root = if root == "none" { None } else { Some(root.parse().ok()?) };
    Some((answer.parse().ok()?, (shifts.parse().ok()?, root, rank.parse().ok()?, times.parse().ok()?)))
}

// ---- judging ----

/// How long each store is beside its need: rows, relations, result, log.
const LENGTHS: [[isize; 4]; 7] = [
    [0, 0, 0, 0],
    [3, 1, 2, 5],
    [ROW as isize, 0, 1, LOG_STEP as isize],
    [-1, 0, 0, 0],
    [0, -1, 0, 0],
    [0, 0, -1, 0],
    [0, 0, 0, -1],
];

/// The three stores that both calls write: rows, relations, result.
type Three = [Vec<i64>; 3];

fn same_stores(when: &str, found: &Three, expected: &Three) -> Judgement {
    let names = ["row store", "relation store", "result"];
    (0..3).try_for_each(|k| same(&format!("{} {when}", names[k]), &found[k], &expected[k]))
}

impl Replayed {
    /// What the needed parts hold after the work: the sheet that is left and the ten numbers, or zeros.
    fn after(&self, input: &Held) -> Three {
        let Some(sheet) = &self.left else {
            return [vec![0; input.rows.len()], vec![0; RELATION_STORE], vec![0; RUN]];
        };
        let mut output = held(sheet);
        // The places of rows that were dropped are zero.
        output.rows.resize(input.rows.len(), 0);
        let (([a, b, c, d], count), (shifts, root, rank, times)) =
            ((output.order, output.asked.count as i64), self.report);
        let (any, root) = (root.is_some() as i64, root.unwrap_or(0));
        [output.rows, output.relations, vec![count, shifts, a, b, c, d, any, root, rank, times]]
    }

    /// Whether the file's log has all numbers that its steps need.
    fn is_whole(&self) -> bool {
        self.log.steps <= LOG_STEPS && self.log.numbers.len() == LOG_STEP * self.log.steps + 4
    }
}

impl Judge {
    /// A log is replayed in stores of several lengths, and, where it is our own, the run is made with its log.
    pub fn replayed(&mut self, case: &Replayed, subject: &dyn Subject) -> Judgement {
        let input = held(&case.sheet);
        let judged: Judgement = LENGTHS.iter().try_for_each(|more| {
            self.replayed_in(case, &input, *more, subject)?;
            if case.is_own {
                self.logged_in(case, &input, *more, subject)?;
            }
            Ok(())
        });
        judged.map_err(|difference| {
            format!("{difference}\n{}{} steps {:?}", text(&case.sheet), case.log.steps, case.log.numbers)
        })
    }

    fn replayed_in(&mut self, case: &Replayed, input: &Held, more: [isize; 4], subject: &dyn Subject) -> Judgement {
        // A log that is too short in the file stays so.
        let log = lent(&case.log.numbers, if case.is_whole() { more[3] } else { 0 });
        let given = [input.rows.clone(), input.relations.clone(), unsaid(RUN)];
        let needs = [given[0].len(), given[1].len(), given[2].len(), case.log.numbers.len()];
        let short = is_short(&needs[..3], &more[..3]) || log.len() < needs[3];
        let number = if short && case.answer != 2 { 1 } else { case.answer };
        let mut stores = [0, 1, 2].map(|k| lent(&given[k], more[k]));
        let mut expected = stores.clone();
        if number == 0 || number > 5 {
            let after = case.after(input);
            expected = [0, 1, 2].map(|k| lent(&after[k], more[k]));
        }
        let [rows, relations, result] = &mut stores;
        let found = subject.replay(rows, relations, input.asked, case.log.steps, &log, result);
        self.calls += 1;
        numbered("the replay", found, number)?;
        same_stores("after the replay", &stores, &expected)
    }

    fn logged_in(&mut self, case: &Replayed, input: &Held, more: [isize; 4], subject: &dyn Subject) -> Judgement {
        let given = [input.rows.clone(), input.relations.clone(), unsaid(RUN + 1)];
        let needs = [given[0].len(), given[1].len(), given[2].len(), LOG_STORE];
        let mut stores = [0, 1, 2].map(|k| lent(&given[k], more[k]));
        let mut log = lent(&unsaid(LOG_STORE), more[3]);
        let (mut expected, mut expected_log) = (stores.clone(), log.clone());
        let short = is_short(&needs, &more);
        if !short {
            let mut after = case.after(input);
            after[2].push(case.log.steps as i64);
            expected = [0, 1, 2].map(|k| lent(&after[k], more[k]));
            let mut numbers = case.log.numbers.clone();
            numbers.resize(LOG_STORE, 0);
            expected_log = lent(&numbers, more[3]);
        }
        let [rows, relations, result] = &mut stores;
        let found = subject.run_logged(rows, relations, input.asked, &mut log, result);
        self.calls += 1;
        numbered("the run with its log", found, short as u8)?;
        same_stores("after the run with its log", &stores, &expected)?;
        same("log", &log, &expected_log)
    }
}

#[cfg(test)]
mod tests {
    use super::*;
    use crate::logs::elsewhere;
    use crate::random::Random;
    use crate::subject::Outside;
    use outside::fault::Fault;
    use outside::logs::{log_need, replay, run_logged};
    use outside::sheet::{write, Sheet};
    use outside::system::System;

    fn case(system: &System, word: &str, log: &Log) -> Vec<u8> {
        let sheet = write(&Sheet { system: system.clone(), order: Vec::new() });
        let numbers: Vec<String> = log.numbers.iter().map(i64::to_string).collect();
        let mut case = format!("sheet {}\n", sheet.len()).into_bytes();
        case.extend(sheet);
        case.extend(format!("{word} {}\n{}\n", log.steps, numbers.join(" ")).bytes());
        let answer = match () {
            () if log.steps > LOG_STEPS => Err(2),
            () if log.numbers.len() < log_need(log.steps) => Err(1),
            () => replay(system, log.steps, &log.numbers, None),
        };
        match answer {
            Ok(run) => {
                let root = run.root.map_or("none".into(), |root| root.to_string());
                let (shifts, rank, times) = (run.shifts, run.rank(), run.multiplicity);
                case.extend(format!("answer 0 shifts {shifts} root {root} rank {rank} mult {times}\n").bytes());
                case.extend(write(&Sheet { system: run.system, order: run.order }));
            }
            Err(number) => case.extend(format!("answer {number} shifts 0 root none rank 0 mult 0\n").bytes()),
        }
        case
    }

    /// Sheets with logs, as a file of them has both.
    fn cases() -> Vec<Replayed> {
        let mut random = Random::new(15);
        let mut file = Vec::new();
        for _ in 0..400 {
            let (system, mut log) = elsewhere(&mut random);
            // No file has more numbers than its log.
            if log.steps <= LOG_STEPS {
                log.numbers.truncate(log_need(log.steps));
            }
            file.extend(case(&system, "log", &log));
            if let Ok((run, steps)) = run_logged(&system, None) {
                file.extend(case(&system, "own", &Log::of(&steps, &run.order)));
            }
        }
        logs_of(&file).unwrap()
    }

    #[test]
    fn logs_of_sheets() {
        use Fault::*;
        let cases = cases();
        assert!(cases.len() > 500 && cases.iter().filter(|case| case.is_own).count() > 100);
        let mut judge = Judge::default();
        for case in &cases {
            judge.replayed(case, &Outside(None)).unwrap();
        }
        assert!(judge.calls > 4_000);
        let steps = [LogRootsOfH, LogRowAfterStep, LogDownPlain, LogLeftDivided, LogUnusedFields, LogDropAny];
        let stores = [LogStoresKept, ReplayResultNine, LoggedStoreShorter, LoggedResultTen, LoggedTailKept];
        let own = [LoggedExchangeLeft, LoggedDropLeft, LoggedIntegerOne, LoggedNoOrder, LogStepsMore];
        for fault in steps.into_iter().chain(stores).chain(own) {
            let noticed = |case: &Replayed| Judge::default().replayed(case, &Outside(Some(fault))).is_err();
            assert!(cases.iter().any(noticed), "{fault:?}");
        }
        let sheet = "sheet 11\n3 1 0 0\n0\n0\n";
        for lines in ["0\nlogs 1\n", "0\nlog 0\n0 0 0 x\n", "0\nlog 0\n0 0 0 0\nanswer 0\n"] {
            assert!(logs_of(format!("{sheet}{lines}").as_bytes()).is_err(), "{lines:?}");
        }
    }
}
