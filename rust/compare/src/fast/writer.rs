//! Sheets from the work area: numbers of up to three digits from a table, eight digits at once, and lines that are still as they were read
//! from the sheet itself.

use super::{Row, System, LEFT, SIDE};

/// Room for any sheet: four rows and sixteen relations with a right side each, and what a store of eight bytes takes behind it.
pub const ROOM: usize = 80 * 1024;

/// The longest text of a term: block, column, count, sixteen coefficients.
const TERM: usize = 10 + 16 * 11;

/// Appends the sheet in the work area.
pub fn write(system: &System, output: &mut Vec<u8>) {
    let start = output.len();
    output.resize(start + room(system), 0);
    let length = write_at(system, &[], &mut output[start..]);
    output.truncate(start + length);
}

/// Room for the sheet in the work area.
fn room(system: &System) -> usize {
    let rows = (0..system.equations).map(|i| system.row(i)).chain(system.listed().map(|(_, row)| row));
    rows.map(|row| 24 + TERM * (row.mask.count_ones() as usize)).sum::<usize>() + 64
}

/// Writes the sheet in the work area at the start of the bytes, and tells its length. Lines that are still those of the sheet that was read
/// are taken from there, if it is at hand.
pub fn write_at(system: &System, sheet: &[u8], bytes: &mut [u8]) -> usize {
    let mut writer = Writer { bytes, at: 0, sheet, l: system.l };
    let System { m, equations, l, blocks, given, count, .. } = *system;
    if !system.changed && !sheet.is_empty() {
        writer.copy(system.body.of(sheet));
        writer.order(&system.order);
        writer.copy(system.fifth.of(sheet));
        return writer.at;
    }
    writer.numbers(&[3, m as i32, l, l - blocks as i32 + 1]);
    writer.numbers(&[equations as i32]);
    for i in 0..equations {
        writer.line_of(system.row(i));
    }
    writer.numbers(&[(given.count + count) as i32]);
    writer.copy(given.lines.of(sheet));
    writer.relations(system);
    writer.order(&system.order);
    if has_sides(system) {
        writer.numbers(&[(equations + given.count + count) as i32]);
        (0..equations).for_each(|i| writer.side_of(system.row(i)));
        writer.copy(given.sides.of(sheet));
        system.listed().for_each(|(_, row)| writer.side_of(row));
    }
    writer.at
}

fn has_sides(system: &System) -> bool {
    let rows = (0..system.equations).fold(0, |mask, i| mask | system.row(i).mask);
    let mask = system.listed().fold(rows, |mask, (_, row)| mask | row.mask);
    system.given.with_side || mask >> SIDE & 1 != 0
}

struct Writer<'a> {
    bytes: &'a mut [u8],
    at: usize,
    sheet: &'a [u8],
    l: i32,
}

impl Writer<'_> {
    /// Eight bytes, of which the next ones take the place of all but the first so many.
    #[inline(always)]
    fn eight(&mut self, bytes: u64, length: usize) {
        self.bytes[self.at..self.at + 8].copy_from_slice(&bytes.to_le_bytes());
        self.at += length;
    }

    fn copy(&mut self, text: &[u8]) {
        self.bytes[self.at..self.at + text.len()].copy_from_slice(text);
        self.at += text.len();
    }

    /// A line of numbers.
    fn numbers(&mut self, numbers: &[i32]) {
        numbers.iter().for_each(|&n| self.number(n));
        self.end_line();
    }

    /// A number and a space.
    #[inline(always)]
    fn number(&mut self, n: i32) {
        match TABLE.get((n + SHORT) as usize) {
            Some(&text) => self.eight(text, (text >> 56) as usize),
            None => self.long(n),
        }
    }

    /// A number of four to nine digits, and a space.
    #[inline]
    fn long(&mut self, n: i32) {
        let size = n.unsigned_abs();
        let (high, low) = (size / 100_000_000, size % 100_000_000);
        let digits = eight_digits(low);
        let zeros = if high == 0 { digits.trailing_zeros() & !7 } else { 0 };
        let text = (digits | 0x3030_3030_3030_3030) >> zeros;
        self.eight(b'-' as u64, (n < 0) as usize);
        self.eight(b'0' as u64 + high as u64, (high != 0) as usize);
        self.eight(text, 8 - zeros as usize / 8);
        self.eight(b' ' as u64, 1);
    }

    /// A line feed in the place of the last space.
    fn end_line(&mut self) {
        self.bytes[self.at - 1] = b'\n';
    }

    /// The line of a row's left part.
    fn line_of(&mut self, row: &Row) {
        if row.changed || self.sheet.is_empty() {
            self.equation(row);
        } else {
            self.copy(row.line.of(self.sheet));
        }
    }

    fn equation(&mut self, row: &Row) {
        let left = row.mask & LEFT;
        self.number(left.count_ones() as i32);
        super::each(left, |e| {
            self.number(self.l - (e / 4) as i32);
            self.number((e % 4 + 1) as i32);
            self.number(row.lengths[e] as i32);
            row.coefficients(e).iter().for_each(|&a| self.number(a));
        });
        self.end_line();
    }

    /// The relations that are not given. A line that is the same as the one before is copied from there.
    fn relations(&mut self, system: &System) {
        let mut before = (usize::MAX, 0, 0);
        for (relation, row) in system.listed() {
            self.number(relation.n0);
            let start = self.at;
            if before.0 == relation.row {
                self.bytes.copy_within(before.1..before.2, start);
                self.at += before.2 - before.1;
            } else {
                self.line_of(row);
            }
            before = (relation.row, start, self.at);
        }
    }

    fn order(&mut self, order: &[u8; 4]) {
        let columns = order.iter().filter(|&&c| c != 0).count();
        self.number(columns as i32);
        order[..columns].iter().for_each(|&c| self.number(c as i32));
        self.end_line();
    }

    /// The line of a row's right side. A sheet without a fifth section has no text of it.
    fn side_of(&mut self, row: &Row) {
        if !row.has(SIDE) {
            self.eight(u64::from_le_bytes(*b"0\n\0\0\0\0\0\0"), 2);
        } else if row.changed || self.sheet.is_empty() {
            self.number(row.lengths[SIDE] as i32);
            row.coefficients(SIDE).iter().for_each(|&a| self.number(a));
            self.end_line();
        } else {
            self.copy(row.side.of(self.sheet));
        }
    }
}

/// The digits of a number below 100,000,000, the highest in the lowest byte: by fours, by pairs and one by one.
#[inline(always)]
fn eight_digits(n: u32) -> u64 {
    let fours = (n / 10_000) as u64 | ((n % 10_000) as u64) << 32;
    let high = (fours * 10_486) >> 20 & 0x7f_0000_007f;
    let pairs = high | (fours - high * 100) << 16;
    let tens = (pairs * 103) >> 10 & 0x000f_000f_000f_000f;
    tens | (pairs - tens * 10) << 8
}

/// Numbers of at most this size have a place in the table.
const SHORT: i32 = 999;

/// The texts of the numbers from -999 on, with a space behind each, and their lengths in the highest byte.
static TABLE: [u64; 2 * SHORT as usize + 1] = short_numbers();

const fn short_numbers() -> [u64; 2 * SHORT as usize + 1] {
    let mut table = [0; 2 * SHORT as usize + 1];
    let mut n = -SHORT;
    while n <= SHORT {
        let (mut text, mut rest, mut length) = (b' ' as u64, n.unsigned_abs() as u64, 1);
        while rest > 0 || length == 1 {
            text = text << 8 | (b'0' as u64 + rest % 10);
            rest /= 10;
            length += 1;
        }
        if n < 0 {
            text = text << 8 | b'-' as u64;
            length += 1;
        }
        table[(n + SHORT) as usize] = text | length << 56;
        n += 1;
    }
    table
}

#[cfg(test)]
mod tests {
    use super::*;

    #[test]
    fn numbers() {
        let mut bytes = [0; 64];
        for k in (0..200_000)
            .chain((0..28).flat_map(|k| [(1 << k) - 1, 1 << k]))
            .chain((1..=super::super::C as i32).step_by(997))
        {
            for n in [k, -k] {
                let mut writer = Writer { bytes: &mut bytes, at: 0, sheet: &[], l: 0 };
                writer.number(n);
                let length = writer.at;
                assert_eq!(&bytes[..length], format!("{n} ").as_bytes());
            }
        }
    }
}
