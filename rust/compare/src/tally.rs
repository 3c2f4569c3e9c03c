//! How often each refusal, shift count, relation count, rank and multiplicity came up.

use crate::cases::{Answer, Kind};
use outside::batch::CLIENTS;
use std::collections::BTreeMap;

/// The tables have a column for each number up to this one.
const COLUMNS: u8 = 14;

/// Counts for the cases of one kind.
#[derive(Default)]
pub struct Tally {
    refusals: BTreeMap<u8, usize>,
    shifts: BTreeMap<i64, usize>,
    relations: BTreeMap<i64, usize>,
    roots: BTreeMap<i64, usize>,
    ranks: BTreeMap<i64, usize>,
    multiplicities: BTreeMap<i64, usize>,
    /// Of records: "fits", an equation, a relation.
    kinds: BTreeMap<i64, usize>,
    /// Of polynomial solutions: how many sequences a list has, -1 where there is none.
    lists: BTreeMap<i64, usize>,
}

impl Tally {
    pub fn count(&mut self, kind: Kind, answers: &[Answer]) {
        match kind {
            Kind::Batch => return self.count_batch(&answers[0].bytes),
            Kind::Induce => return self.count_induced(&answers[0].bytes),
            _ => {}
        }
        for answer in answers {
            *self.refusals.entry(answer.number).or_default() += 1;
        }
        if let (Kind::Record, 0) = (kind, answers[0].number) {
            *self.kinds.entry(answers[0].stores.result[0]).or_default() += 1;
        }
        if let (Kind::Solutions, 0) = (kind, answers[0].number) {
            let result = &answers[0].stores.result;
            *self.lists.entry(if result[0] == 1 { result[2] } else { -1 }).or_default() += 1;
        }
        if let (Kind::Leading | Kind::Trailing, 0) = (kind, answers[0].number) {
            let result = &answers[0].stores.result;
            *self.relations.entry(result[0]).or_default() += 1;
            *self.shifts.entry(result[1]).or_default() += 1;
            *self.roots.entry(result[6]).or_default() += 1;
            *self.ranks.entry(result[8]).or_default() += 1;
            *self.multiplicities.entry(result[9]).or_default() += 1;
        }
    }

    /// The answers of a batch; the 3 of a broken frame is counted as one more.
    fn count_batch(&mut self, output: &[u8]) {
        let text = String::from_utf8_lossy(output);
        let lines: Vec<&str> = text.lines().collect();
        for number in numbers(&lines, Vec::new()).unwrap_or_default() {
            *self.refusals.entry(number).or_default() += 1;
        }
    }

    /// The answer of `induce`, which stands alone on its first line.
    fn count_induced(&mut self, output: &[u8]) {
        let first = output.split(|&byte| byte == b'\n').next().unwrap_or_default();
        let number = std::str::from_utf8(first).ok().and_then(|line| line.parse().ok());
        number.into_iter().for_each(|number: u8| *self.refusals.entry(number).or_default() += 1);
    }

    /// How often a refusal came up.
    pub fn refused(&self, number: u8) -> usize {
        self.refusals.get(&number).copied().unwrap_or(0)
    }

    /// The other tables, for runs.
    pub fn print_runs(&self, name: &str) {
        let (counts, report) = (
            [("shifts", &self.shifts), ("relations", &self.relations)],
            [("root", &self.roots), ("rank", &self.ranks), ("multiplicity", &self.multiplicities)],
        );
        for (what, table) in counts.into_iter().chain(report) {
            let cells: Vec<String> = table.iter().map(|(n, times)| format!("{n}: {times}")).collect();
            println!("{name}, {what}: {}", cells.join(", "));
        }
    }
}

impl Tally {
    /// How often a record fits, and fails at an equation or a relation.
    pub fn print_kinds(&self, name: &str) {
        let [fits, equation, relation] = [0, 1, 2].map(|kind| self.kinds.get(&kind).copied().unwrap_or(0));
        println!("{name}, fits: {fits}, equation: {equation}, relation: {relation}");
    }

    /// How often there is no list, and how often a list has so many sequences.
    pub fn print_lists(&self, name: &str) {
        let none = self.lists.get(&-1).copied().unwrap_or(0);
        let cells: Vec<String> = self.lists.range(0..).map(|(n, times)| format!("{n}: {times}")).collect();
        println!("{name}, no list: {none}, lists by their sequences: {}", cells.join(", "));
    }
}

/// The answers of a batch whose first ones are known, from the lines behind those: a refusal's line, or `0` and the lines of a sheet.
/// The last line is the 3 of a broken frame, or the last lines say how many were accepted and refused. Only what follows tells whether a
/// sheet has a fifth section: it is taken to have one, and if then the rest makes no sense, to have none.
fn numbers(lines: &[&str], mut answers: Vec<u8>) -> Option<Vec<u8>> {
    if let Some(counts) = counts(lines) {
        let accepted = answers.iter().filter(|&&number| number == 0).count();
        return (counts == (accepted, answers.len() - accepted)).then_some(answers);
    }
    let (first, rest) = lines.split_first()?;
    answers.push(first.parse().ok()?);
    if rest.is_empty() {
        return (answers.last() == Some(&3)).then_some(answers);
    }
    if answers.last() != Some(&0) {
        return numbers(rest, answers);
    }
    let (after_order, sides) = sheet_end(rest)?;
    let after_sides = after_order.get(..=sides).filter(|section| is_fifth(section)).map(|_| &after_order[sides + 1..]);
    let with_sides = after_sides.and_then(|after| numbers(after, answers.clone()));
    with_sides.or_else(|| numbers(after_order, answers))
}

/// The sums over the clients, where the lines are the last ones of a batch: how many sheets of each are accepted and refused.
fn counts(lines: &[&str]) -> Option<(usize, usize)> {
    let count = |line: &&str| {
        let (accepted, refused) = line.split_once(' ')?;
        Some((accepted.parse::<usize>().ok()?, refused.parse::<usize>().ok()?))
    };
    let clients: Vec<(usize, usize)> = lines.iter().map(count).collect::<Option<_>>()?;
    let sums = || clients.iter().fold((0, 0), |(a, r), (accepted, refused)| (a + accepted, r + refused));
    (clients.len() == CLIENTS).then(sums)
}

/// The sums over the clients that the output of a whole batch ends with.
pub fn last_counts(output: &[u8]) -> Option<(usize, usize)> {
    let text = String::from_utf8_lossy(output);
    let lines: Vec<&str> = text.lines().collect();
    counts(&lines[lines.len().saturating_sub(CLIENTS)..])
}

/// What follows the order line of a sheet, which comes after sizes, e and its equations, r and its relations; and e + r.
fn sheet_end<'a>(lines: &'a [&'a str]) -> Option<(&'a [&'a str], usize)> {
    let count = |line: usize| lines.get(line)?.parse::<usize>().ok();
    let equations = count(1)?;
    let relations = count(2 + equations)?;
    Some((lines.get(4 + equations + relations..)?, equations + relations))
}

/// Whether lines have the form of a fifth section: their count, and each with as many numbers as it says, not all of them none.
fn is_fifth(section: &[&str]) -> bool {
    let (count, sides) = (section[0], &section[1..]);
    let right = |side: &&str| side.split(' ').next() == Some(&side.matches(' ').count().to_string());
    count == sides.len().to_string() && sides.iter().all(right) && sides.iter().any(|side| *side != "0")
}

/// A line for each kind and side, a column for each refusal.
pub fn print_refusals(lines: &[(String, &Tally)]) {
    println!("| answers | {} |", (0..=COLUMNS).map(|n| n.to_string()).collect::<Vec<_>>().join(" | "));
    println!("|---|{}", "---:|".repeat(COLUMNS as usize + 1));
    for (name, tally) in lines {
        let cells: Vec<String> = (0..=COLUMNS).map(|n| tally.refused(n).to_string()).collect();
        println!("| {name} | {} |", cells.join(" | "));
    }
}

#[cfg(test)]
mod tests {
    use super::*;
    use crate::cases::Case;
    use crate::subject::Outside;

    fn counted(kind: Kind, cases: usize) -> Tally {
        let mut tally = Tally::default();
        (0..cases).for_each(|k| tally.count(kind, &kind.case(k).answered(&Outside(None))));
        tally
    }

    /// Every number that a call can answer comes up, and comes up often.
    #[test]
    fn every_refusal_comes_up() {
        for kind in [Kind::Leading, Kind::Trailing] {
            let tally = counted(kind, 4_000);
            for number in [0, 1, 2, 5, 7, 8, 9, 10] {
                assert!(tally.refused(number) >= 20, "{kind:?}: {number} comes up {} times", tally.refused(number));
            }
            assert!((0..=4).all(|rank| tally.ranks[&rank] >= 20), "{kind:?}: {:?}", tally.ranks);
            let times = &tally.multiplicities;
            assert!((0..=4).all(|k| times.get(&k).is_some_and(|&often| often >= 20)), "{kind:?}: {times:?}");
        }
        let (read, batch) = (counted(Kind::Read, 4_000), counted(Kind::Batch, 400));
        assert!((0..=5).all(|number| read.refused(number) >= 20));
        assert!((0..=10).all(|number| number == 6 || batch.refused(number) >= 10));
        for kind in [Kind::Differential, Kind::Recurrence] {
            let tally = counted(kind, 4_000);
            assert!((0..=5).all(|number| tally.refused(number) >= 20), "{kind:?}");
        }
        let induced = counted(Kind::Induce, 1_000);
        assert!([0, 2, 3, 4, 5].iter().all(|&number| induced.refused(number) >= 20));
        let records = counted(Kind::Record, 4_000);
        for number in [0, 1, 2, 5, 12] {
            assert!(records.refused(number) >= 20, "record: {number} comes up {} times", records.refused(number));
        }
        assert!((0..=2).all(|kind| records.kinds[&kind] >= 100), "{:?}", records.kinds);
        let (steps, states) = (counted(Kind::Steps, 2_000), counted(Kind::State, 4_000));
        for number in [0, 1, 2, 5, 7, 8, 9, 10, 11] {
            assert!(steps.refused(number) >= 20, "steps: {number} comes up {} times", steps.refused(number));
        }
        for number in [0, 1, 7, 8, 9, 10, 11] {
            assert!(states.refused(number) >= 20, "state: {number} comes up {} times", states.refused(number));
        }
        let (logged, replays) = (counted(Kind::Logged, 2_000), counted(Kind::Replay, 4_000));
        for number in [0, 1, 2, 5, 7, 8, 9, 10] {
            assert!(logged.refused(number) >= 10, "logged: {number} comes up {} times", logged.refused(number));
        }
        for number in [0, 1, 2, 5, 7, 8, 9, 13] {
            assert!(replays.refused(number) >= 20, "replay: {number} comes up {} times", replays.refused(number));
        }
        assert_eq!(replays.refused(10), 0);
    }

    /// As many answers are counted as the last lines of a batch say, with their kinds.
    #[test]
    fn answers_of_batches() {
        for k in 0..400 {
            let Case::Batch { input } = Kind::Batch.case(k) else { unreachable!() };
            let output = outside::batch::output(&input, None);
            let mut tally = Tally::default();
            tally.count_batch(&output);
            let all: usize = tally.refusals.values().sum();
            if let Some((accepted, refused)) = last_counts(&output) {
                assert_eq!((tally.refused(0), all), (accepted, accepted + refused), "batch {k}");
            } else {
                assert!(tally.refused(3) > 0, "batch {k}");
            }
        }
    }
}
