//! Which step of a log is refused, found with the proved replay alone.
//!
//! The steps are made one after the other, so a beginning of a log with a step that is not right is refused with 13 whatever stands behind
//! it. A beginning whose steps are all right can be gone on with so that the answer is another one (see [`goings_on`]). So the
//! shortest beginning that is refused with 13 whatever follows ends in the wrong step; where there is none, the end of the log is wrong.

use wurgalm::{Log, LogStep, Refusal, Report, System, LOG_STEPS};

/// "A step of the log, or its end, is not right."
const WRONG: Refusal = Refusal(13);
/// "A coefficient has passed the limit."
const PAST_LIMIT: Refusal = Refusal(8);
/// The most steps that are put behind a beginning: a row has to go up at most four times.
const BEHIND: usize = 4;
/// 1, and n^15.
const ONE: [i64; 16] = [1, 0, 0, 0, 0, 0, 0, 0, 0, 0, 0, 0, 0, 0, 0, 0];
const POWER: [i64; 16] = [0, 0, 0, 0, 0, 0, 0, 0, 0, 0, 0, 0, 0, 0, 0, 1];
/// n (n^2 - 1) (n^2 - 4) .. (n^2 - 49), which has fifteen integer roots.
const FIFTEEN_ROOTS: [i64; 16] =
    [0, -25_401_600, 0, 38_402_064, 0, -15_291_640, 0, 2_475_473, 0, -191_620, 0, 7_462, 0, -140, 0, 1];

/// Where a log is refused.
#[derive(Clone, Copy, Debug, PartialEq, Eq)]
pub enum LogPlace {
    /// At a step, counted from 1.
    Step(usize),
    /// At its end: all steps are right.
    End,
}

fn replayed(system: &System, steps: Vec<LogStep>, order: [i64; 4]) -> Result<Report, Refusal> {
    system.clone().replay(&Log { steps, order })
}

/// Combines row i with row j, h being zero.
fn combined(i: usize, j: usize, integer: i64, g: [i64; 16]) -> LogStep {
    LogStep::Combine { i, j, integer, g, h: [0; 16] }
}

/// What may stand behind the steps of a beginning, and the order at the end of it. Where two rows are left, the first is multiplied two
/// times: by n^15, which passes degree 15 unless the row is zero, and by what has so many roots that it passes 16 relations if it is. A
/// row that is alone is shifted up until its leading entry is not zero, or dropped. Where no row is left, nothing has to follow.
fn goings_on(system: &System) -> Vec<(Vec<LogStep>, [i64; 4])> {
    let sizes = system.sizes();
    let two = [POWER, FIFTEEN_ROOTS].map(|g| (vec![combined(1, 2, 1, g); 2], [0; 4]));
    let none = [(Vec::new(), [0; 4]), (vec![LogStep::Drop { i: 1 }], [0; 4])];
    let ups = (0..=(sizes.l - sizes.t) as usize).map(|ups| vec![LogStep::Up { i: 1 }; ups]);
    let alone = ups.flat_map(|ups| (1..=sizes.m as i64).map(move |column| (ups.clone(), [column, 0, 0, 0])));
    two.into_iter().chain(none).chain(alone).collect()
}

/// Whether something can follow the steps such that the answer is none of those.
fn can_avoid(answers: &[Refusal], system: &System, steps: &[LogStep]) -> bool {
    let avoids = |answer: Result<_, Refusal>| answer.map_or_else(|refusal| !answers.contains(&refusal), |_| true);
    goings_on(system).into_iter().any(|(more, order)| avoids(replayed(system, [steps, &more].concat(), order)))
}

/// Whether something can follow the steps with which the answer is not 13, so that all of them are right.
fn can_go_on(system: &System, steps: &[LogStep]) -> bool {
    can_avoid(&[WRONG], system, steps)
}

/// How many numbers from 0 to `most` come before the first one for which something does not hold, from which on it never does.
fn count_while(most: usize, holds: impl Fn(usize) -> bool) -> usize {
    let (mut low, mut high) = (0, most + 1);
    while low < high {
        let middle = low + (high - low) / 2;
        if holds(middle) {
            low = middle + 1;
        } else {
            high = middle;
        }
    }
    low
}

/// Whether row i, one of at least two, is zero behind the steps: only then does a number past every coefficient divide it.
fn is_zero(system: &System, steps: &[LogStep], i: usize) -> bool {
    can_go_on(system, &[steps, &[combined(i, if i == 1 { 2 } else { 1 }, i64::MAX, ONE)]].concat())
}

/// The place at which the log is refused with 13. In one case the calls do not tell it: where a row without unknowns and with a right
/// side is left alone, from which nothing leads to an end. It may be shifted, and no answer but 8 can show that it was.
fn wrong_place(system: &System, log: &Log) -> Option<LogPlace> {
    let steps = &log.steps;
    if steps.len() + BEHIND > LOG_STEPS {
        return None;
    }
    let right = count_while(steps.len(), |length| can_go_on(system, &steps[..length]));
    if right > steps.len() {
        return Some(LogPlace::End);
    }
    // The beginning of `right` steps cannot be gone on with, the one before it can.
    let (last, before) = steps[..right].split_last()?;
    let is_untold = match *last {
        LogStep::Drop { i } => is_zero(system, before, i),
        LogStep::Up { .. } | LogStep::Down { .. } => !can_avoid(&[WRONG, PAST_LIMIT], system, before),
        _ => false,
    };
    (!is_untold).then_some(LogPlace::Step(right))
}

/// The place at which a log is refused with a number, where it can be told.
pub fn place(system: &System, log: &Log, refusal: Refusal) -> Option<LogPlace> {
    let steps = &log.steps;
    match refusal {
        WRONG => wrong_place(system, log),
        // A limit is met by a step, and before that step the answer is another one.
        Refusal(7..=9) => {
            let answer = |length| replayed(system, steps[..length].to_vec(), log.order);
            Some(LogPlace::Step(count_while(steps.len(), |length| answer(length) != Err(refusal))))
        }
        _ => None,
    }
}
