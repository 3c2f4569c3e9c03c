//! What a sheet without a fault says (SCOPE 4 and 10).

use super::{Meaning, Powers, Row};

/// The numbers of a sheet, one after the other.
struct Numbers(std::vec::IntoIter<i64>);

impl Numbers {
    fn next(&mut self) -> i64 {
        self.0.next().unwrap_or(0)
    }

    fn powers(&mut self) -> Powers {
        let count = self.next() as usize;
        (0..count).map(|power| (power, self.next())).filter(|(_, number)| *number != 0).collect()
    }

    fn row(&mut self) -> Row {
        let mut row = Row::default();
        for _ in 0..self.next() {
            let key = (self.next(), self.next() as usize);
            row.terms.insert(key, self.powers());
        }
        row
    }
}

fn numbers(sheet: &[u8]) -> Option<Numbers> {
    let text = std::str::from_utf8(sheet).ok()?;
    let numbers: Option<Vec<i64>> = text.split_ascii_whitespace().map(|number| number.parse().ok()).collect();
    Some(Numbers(numbers?.into_iter()))
}

/// What a sheet says, or nothing where its numbers are not there.
pub fn recurrence(sheet: &[u8]) -> Option<Meaning> {
    let mut numbers = numbers(sheet)?;
    numbers.next();
    let mut whole = Meaning { unknowns: numbers.next() as usize, ..Meaning::default() };
    whole.bounds = (numbers.next(), numbers.next());
    whole.equations = (0..numbers.next()).map(|_| numbers.row()).collect();
    whole.relations = (0..numbers.next()).map(|_| (numbers.next(), numbers.row())).collect();
    whole.order = (0..numbers.next()).map(|_| numbers.next() as usize).collect();
    if numbers.0.len() > 0 {
        numbers.next();
        let rows = whole.equations.iter_mut().chain(whole.relations.iter_mut().map(|(_, row)| row));
        rows.for_each(|row| row.right = numbers.powers());
    }
    (numbers.0.len() == 0).then_some(whole)
}

/// What a differential sheet says.
pub fn differential(sheet: &[u8]) -> Option<Meaning> {
    let mut numbers = numbers(sheet)?;
    numbers.next();
    let mut whole = Meaning { unknowns: numbers.next() as usize, ..Meaning::default() };
    whole.bounds = (numbers.next(), numbers.next());
    for _ in 0..numbers.next() {
        let mut row = Row::default();
        for _ in 0..numbers.next() {
            let (derivative, power) = (numbers.next(), numbers.next() as usize);
            let column = numbers.next() as usize;
            row.terms.entry((derivative, column)).or_default().insert(power, numbers.next());
        }
        whole.equations.push(row);
    }
    (numbers.0.len() == 0).then_some(whole)
}
