//! Random batches, whole and with broken frames.

use crate::random::Random;
use crate::sheets::sheet;
use outside::batch::{answer, OUTPUT, SHEETS, SHEET_BYTES};
use outside::fault::Fault;
use outside::polynomial::Polynomial;
use outside::row::Row;
use outside::sheet::{write, Sheet};
use outside::system::{Relation, Sizes, System};
use outside::C;

/// The bytes of a batch: of half whole, of the others broken somewhere.
pub fn batch(random: &mut Random) -> Vec<u8> {
    let count = match random.below(40) {
        0 => 60,
        1..=4 => 0,
        _ => 1 + random.below(8),
    };
    let mut sheets: Vec<Vec<u8>> = (0..count).map(|_| sheet(random)).collect();
    sheets.retain(|bytes| bytes.len() <= SHEET_BYTES as usize);
    if random.one_in(6) {
        let length = OUTPUT - 2 + random.below(6);
        sheets.push(sheet_with_answer_of(random, length));
    }
    if random.one_in(100) {
        sheets = vec![b"3 1 0 0\n1\n0\n0\n0\n".to_vec(); SHEETS as usize];
    }
    if random.one_in(50) {
        sheets.push(vec![b'1'; SHEET_BYTES as usize]);
    }
    let broken = random.one_in(2);
    if broken {
        broken_batch(random, &sheets)
    } else {
        framed(random, &sheets)
    }
}

fn sheet_line(random: &mut Random, bytes: &[u8]) -> String {
    format!("{} {}\n", 1 + random.below(8), bytes.len())
}

/// The sheets in a frame without faults, except that there can be more than 1,000 of them.
pub fn framed(random: &mut Random, sheets: &[Vec<u8>]) -> Vec<u8> {
    let mut batch = format!("{}\n", sheets.len()).into_bytes();
    for sheet in sheets {
        batch.extend(sheet_line(random, sheet).bytes());
        batch.extend(sheet);
    }
    batch
}

fn broken_batch(random: &mut Random, sheets: &[Vec<u8>]) -> Vec<u8> {
    match random.below(4) {
        0 => {
            let mut batch = framed(random, sheets);
            batch.truncate(random.below(batch.len() + 1));
            batch
        }
        1 => {
            let mut batch = framed(random, sheets);
            batch.extend(random.pick(&["\n", "0", " ", "1 5\n", "x", "3\n"]).bytes());
            batch
        }
        2 => with_count_line(random, sheets),
        _ => with_sheet_line(random, sheets),
    }
}

/// The first line wrong.
fn with_count_line(random: &mut Random, sheets: &[Vec<u8>]) -> Vec<u8> {
    let n = sheets.len();
    let line = match random.below(8) {
        0 => format!("{}\n", n + 1),
        1 => format!("{}\n", n.saturating_sub(1)),
        2 => format!("0{n}\n"),
        3 => format!("{n} \n"),
        4 => format!("{n} 1\n"),
        5 => format!("{n}"),
        6 => random.pick(&["-0\n", "-1\n", "1001\n", "99999999999\n", "\n", " \n", "x\n", "-", "00"]).to_string(),
        _ => format!("{n}\r\n"),
    };
    let framed = framed(random, sheets);
    let first = framed.iter().position(|&b| b == b'\n').expect("the count's line") + 1;
    [line.as_bytes(), &framed[first..]].concat()
}

/// The line of one sheet wrong.
fn with_sheet_line(random: &mut Random, sheets: &[Vec<u8>]) -> Vec<u8> {
    let wrong = random.below(sheets.len().max(1));
    let mut batch = format!("{}\n", sheets.len()).into_bytes();
    for (k, sheet) in sheets.iter().enumerate() {
        let line = if k == wrong { wrong_line(random, sheet.len()) } else { sheet_line(random, sheet) };
        batch.extend(line.bytes());
        batch.extend(sheet);
    }
    batch
}

fn wrong_line(random: &mut Random, length: usize) -> String {
    let client = 1 + random.below(8);
    match random.below(12) {
        0 => format!("0 {length}\n"),
        1 => format!("9 {length}\n"),
        2 => format!("{client} {}\n", length + 1),
        3 => format!("{client} {}\n", length.saturating_sub(1)),
        4 => format!("{client} {}\n", SHEET_BYTES + 1),
        5 => format!("{client}  {length}\n"),
        6 => format!("{client} 0{length}\n"),
        7 => format!("{client} {length} \n"),
        8 => format!("{client}\n{length}\n"),
        9 => format!("{client} -{length}\n"),
        10 => format!("{client} {length}"),
        _ => random.pick(&["\n", "1\n", "8 0\n", "x 1\n", "1 99999999999\n", "-1 5\n", "01 5\n"]).to_string(),
    }
}

// ---- answers of a wished length ----

/// A sheet whose answer has just so many bytes, where so many are 60,000 to 66,000.
///
/// Row 1 is a·u + r and each other row b·u + r, with an a of five roots and r of low degree: each combination lists a full row of
/// degree 15 five times and leaves a shorter row, and those are triangular. The one input relation stays as it is, so its numbers
/// set the length. Half of these sheets have right sides.
pub fn sheet_with_answer_of(random: &mut Random, length: usize) -> Vec<u8> {
    loop {
        let mut system = long_answer(random);
        let answered = answer(&text_of(&system), Some(Fault::LargeOutput)).map_or(0, |text| text.len());
        if answered >= length && shorten(&mut system.relations[0], answered - length) {
            return text_of(&system);
        }
    }
}

fn text_of(system: &System) -> Vec<u8> {
    write(&Sheet { system: system.clone(), order: Vec::new() })
}

fn long_answer(random: &mut Random) -> System {
    let sizes = Sizes { m: 4, l: -60, t: -64 };
    let places = || (sizes.t..=sizes.l).flat_map(|block| (1..=sizes.m).map(move |column| (block, column)));
    let factors: Vec<Polynomial> = (0..20).map(|_| long_factor(random)).collect();
    let mut rows = Vec::new();
    for i in 0..sizes.m {
        let leading = if i == 0 { Polynomial::new(vec![0, 4, 0, -5, 0, 1]) } else { increasing(random) };
        let mut row = Row::default();
        for ((block, column), u) in places().zip(&factors) {
            let entry = match (block == sizes.l, column) {
                (true, 1) => leading.clone(),
                (true, _) => leading.times(u).plus(&Polynomial::new(vec![(column == i + 1) as i128])),
                (false, _) => leading.times(u).plus(&rest(random)),
            };
            row.set(block, column, entry);
        }
        rows.push(row);
    }
    let mut row = Row::default();
    places().for_each(|(block, column)| row.set(block, column, Polynomial::new(vec![-C; 16])));
    let mut system = System { sizes, rows, relations: vec![Relation { n0: -C, row }] };
    if random.one_in(2) {
        system.all_rows_mut().for_each(|row| row.set_right(Polynomial::new(vec![random.between(0, 99)])));
    }
    system
}

/// Degree 10, coefficients of seven digits.
fn rest(random: &mut Random) -> Polynomial {
    Polynomial::new((0..11).map(|_| random.between(1_000_000, 9_999_999)).collect())
}

/// Eleven coefficients such that five times their size still has nine digits.
fn long_factor(random: &mut Random) -> Polynomial {
    Polynomial::new((0..11).map(|_| -random.between(23_000_000, 23_500_000)).collect())
}

/// Degree 5, coefficients 1 and 2.
fn increasing(random: &mut Random) -> Polynomial {
    Polynomial::new((0..6).map(|k| if k == 5 { 1 } else { random.between(1, 2) }).collect())
}

/// Takes so many bytes off the relation's coefficients, nine at most off each; whether there were enough.
fn shorten(relation: &mut Relation, mut bytes: usize) -> bool {
    relation.row = {
        let mut row = Row::default();
        row.set_right(relation.row.right().clone());
        for (block, column, p) in relation.row.entries() {
            let mut coefficients = p.coefficients().to_vec();
            for a in &mut coefficients {
                let less = bytes.min(8);
                *a /= 10i128.pow(less as u32);
                bytes -= less;
            }
            row.set(block, column, Polynomial::new(coefficients));
        }
        row
    };
    bytes == 0
}

#[cfg(test)]
mod tests {
    use super::*;

    #[test]
    fn answers_of_a_wished_length() {
        let mut random = Random::new(5);
        let mut with_sides = 0;
        for length in [OUTPUT - 1, OUTPUT, OUTPUT + 1].repeat(4) {
            let sheet = sheet_with_answer_of(&mut random, length);
            assert!(sheet.len() <= SHEET_BYTES as usize);
            assert_eq!(answer(&sheet, Some(Fault::LargeOutput)).unwrap().len(), length);
            assert_eq!(answer(&sheet, None).is_ok(), length <= OUTPUT);
            with_sides += (length > OUTPUT && answer(&sheet, Some(Fault::LargeFifth)).is_ok()) as usize;
        }
        assert!(with_sides > 0);
    }
}
