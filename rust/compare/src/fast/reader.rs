//! Sheets into the work area. A line is read eight bytes at a time, as if it had no fault; one that has is read again, one byte after the
//! other, by the rules of SCOPE 4.31 to 4.37.

use super::{Given, Row, System, Text, C, RELATIONS, SIDE};

/// A place in bytes. What lies behind `end` may be loaded, and counts for nothing.
#[derive(Clone, Copy)]
pub struct Cursor<'a> {
    bytes: &'a [u8],
    at: usize,
    end: usize,
}

// ---- eight bytes at a time ----

const ONES: u64 = 0x0101_0101_0101_0101;
/// The digit 0 eight times.
const ZEROS: u64 = ONES * b'0' as u64;

#[inline(always)]
fn eight(bytes: &[u8], at: usize) -> Option<u64> {
    bytes.get(at..at + 8).map(|part| u64::from_le_bytes(part.try_into().expect("eight bytes")))
}

/// The highest bit of each byte that is no digit, for bytes without their '0'. It is right up to the first such byte.
#[inline(always)]
fn stops(bytes: u64) -> u64 {
    (bytes.wrapping_add(ONES * 0x76) | bytes) & (ONES * 0x80)
}

/// The number of eight digits, the highest in the lowest byte.
#[inline(always)]
fn eight_digits(digits: u64) -> u32 {
    const PAIRS: u64 = 0xff_0000_00ff;
    let pairs = digits.wrapping_mul(10).wrapping_add(digits >> 8);
    let high = (pairs & PAIRS).wrapping_mul(100 + (1_000_000 << 32));
    let low = (pairs >> 16 & PAIRS).wrapping_mul(1 + (10_000 << 32));
    (high.wrapping_add(low) >> 32) as u32
}

#[inline(always)]
fn with_sign(value: u32, minus: usize) -> i32 {
    (value as i32 ^ -(minus as i32)).wrapping_add(minus as i32)
}

/// A number within ±C, the place behind its separator, and whether something is wrong with it.
struct Token {
    value: i32,
    next: usize,
    wrong: bool,
}

/// The number at a place, with this separator behind it.
#[inline(always)]
fn token(bytes: &[u8], at: usize, separator: u8) -> Option<Token> {
    let text = eight(bytes, at)?;
    let minus = (text as u8 == b'-') as usize;
    let text = text >> (8 * minus);
    let digits = text ^ ZEROS;
    let one = digits as u8 as u32;
    if (one < 10) & (one >= minus as u32) & ((text >> 8) as u8 == separator) {
        return Some(Token { value: with_sign(one, minus), next: at + minus + 2, wrong: false });
    }
    let stops = stops(digits) & !0 >> 8;
    if stops == 0 {
        return long_token(bytes, at + minus, minus, separator);
    }
    let bits = stops.trailing_zeros() & 56;
    let length = bits as usize / 8 + minus;
    // The first of several digits is from 1 to 9.
    let wrong = ((text >> bits) as u8 != separator) | (one.wrapping_sub(1) > 8);
    let value = with_sign(eight_digits(digits << (64 - bits & 63)), minus);
    Some(Token { value, next: at + length + 1, wrong })
}

/// A number of seven to nine digits behind its sign.
#[inline(never)]
fn long_token(bytes: &[u8], start: usize, minus: usize, separator: u8) -> Option<Token> {
    let digits = eight(bytes, start)? ^ ZEROS;
    let rest = eight(bytes, start + 8)?;
    let ninth = (rest as u8).wrapping_sub(b'0') as u32;
    let (size, length, after) = match stops(digits) {
        0 if ninth < 10 => (eight_digits(digits) * 10 + ninth, 9, rest >> 8),
        0 => (eight_digits(digits), 8, rest),
        _ => (eight_digits(digits << 8), 7, digits >> 56 ^ b'0' as u64),
    };
    let wrong = (after as u8 != separator) | (digits as u8 == 0) | (size > C as u32);
    Some(Token { value: with_sign(size, minus), next: start + length + 1, wrong })
}

/// The number at a place as `token` has it, but for its value: 0 for 0, 1 for any other.
#[inline(always)]
fn passed(bytes: &[u8], at: usize, separator: u8) -> Option<Token> {
    let text = eight(bytes, at)?;
    let minus = (text as u8 == b'-') as usize;
    // The minus passes as a digit.
    let digits = (text ^ ZEROS) - (b'-' ^ b'0') as u64 * minus as u64;
    let first = (text >> (8 * minus)) as u8;
    let stops = stops(digits);
    if stops == 0 {
        return passed_long(bytes, at, first, minus, separator);
    }
    let bits = stops.trailing_zeros() & 56;
    let length = bits as usize / 8;
    let zero_first = (first == b'0') & (length > 1);
    let wrong = ((text >> bits) as u8 != separator) | (length == minus) | zero_first;
    Some(Token { value: (first != b'0') as i32, next: at + length + 1, wrong })
}

/// The same for a number of eight bytes or more.
#[inline(always)]
fn passed_long(bytes: &[u8], at: usize, first: u8, minus: usize, separator: u8) -> Option<Token> {
    let after = eight(bytes, at + 8)?;
    let separator = separator as u64;
    let more = if after & 0xff == separator {
        0
    } else if (after >> 8 & 0xff == separator) & (minus == 1) & ((after as u8).wrapping_sub(b'0') < 10) {
        1
    } else {
        return long_token(bytes, at + minus, minus, separator as u8);
    };
    Some(Token { value: 1, next: at + more + 9, wrong: first == b'0' })
}

// ---- one byte after the other ----

impl<'a> Cursor<'a> {
    pub fn new(bytes: &'a [u8], at: usize, end: usize) -> Cursor<'a> {
        Cursor { bytes, at, end }
    }

    pub fn at(&self) -> usize {
        self.at
    }

    fn text_from(&self, start: usize) -> Text {
        Text { start, end: self.at }
    }

    pub fn ended(&self) -> Result<(), u8> {
        judged(self.at == self.end, 4)
    }

    /// The next number and its separator.
    fn number(&mut self) -> Result<(i64, u8), u8> {
        let rest = &self.bytes[self.at..self.end];
        let negative = rest.first() == Some(&b'-');
        let start = negative as usize;
        let mut at = start;
        let mut value = 0i64;
        while at < rest.len() && rest[at].wrapping_sub(b'0') < 10 {
            value = value.wrapping_mul(10).wrapping_add((rest[at] - b'0') as i64);
            at += 1;
        }
        let digits = at - start;
        let separated = at < rest.len() && (rest[at] == b' ' || rest[at] == b'\n');
        if separated && digits.wrapping_sub(1) < 10 && (rest[start] != b'0' || (digits == 1 && !negative)) {
            self.at += at + 1;
            return Ok((if negative { -value } else { value }, rest[at]));
        }
        Err(token_fault(rest))
    }

    /// The next number, where it has one digit and this separator behind it.
    #[inline(always)]
    fn one_digit(&mut self, separator: u8) -> Option<i32> {
        let [digit, found] = *self.bytes[..self.end].get(self.at..)?.first_chunk()?;
        let digit = digit.wrapping_sub(b'0');
        if (digit < 10) & (found == separator) {
            self.at += 2;
            return Some(digit as i32);
        }
        None
    }

    /// A number from low to high, else 2, with its separator, else 3.
    #[inline(always)]
    pub fn within(&mut self, low: i32, high: i32, separator: u8) -> Result<i32, u8> {
        let start = self.at;
        match self.one_digit(separator) {
            Some(value) if value >= low && value <= high => Ok(value),
            _ => self.longer_within(start, low, high, separator),
        }
    }

    #[inline(never)]
    fn longer_within(&mut self, start: usize, low: i32, high: i32, separator: u8) -> Result<i32, u8> {
        self.at = start;
        match token(self.bytes, start, separator) {
            Some(Token { value, next, wrong: false }) if value >= low && value <= high && next <= self.end => {
                self.at = next;
                Ok(value)
            }
            _ => self.judged_within(low, high, separator),
        }
    }

    #[cold]
    fn judged_within(&mut self, low: i32, high: i32, separator: u8) -> Result<i32, u8> {
        let (value, found) = self.number()?;
        judged(value >= low as i64 && value <= high as i64, 2)?;
        judged(found == separator, 3)?;
        Ok(value as i32)
    }

    /// A count from 0 to high; the line ends behind 0.
    fn count(&mut self, high: i32) -> Result<usize, u8> {
        let start = self.at;
        match self.one_digit(b'\n') {
            Some(0) => return Ok(0),
            _ => self.at = start,
        }
        match self.one_digit(b' ') {
            Some(value) if value > 0 && value <= high => return Ok(value as usize),
            _ => self.at = start,
        }
        let (value, found) = self.number()?;
        judged(value >= 0 && value <= high as i64, 2)?;
        judged(found == line_end_if(value == 0), 3)?;
        Ok(value as usize)
    }

    /// A number within ±C.
    #[inline]
    fn coefficient(&mut self, separator: u8) -> Result<i32, u8> {
        match token(self.bytes, self.at, separator) {
            Some(Token { value, next, wrong: false }) if next <= self.end => {
                self.at = next;
                Ok(value)
            }
            _ => self.judged_coefficient(separator),
        }
    }

    #[cold]
    fn judged_coefficient(&mut self, separator: u8) -> Result<i32, u8> {
        let (value, found) = self.number()?;
        judged(value.abs() <= C, 5)?;
        judged(found == separator, 3)?;
        Ok(value as i32)
    }
}

/// The refusal of a token that is no number, or that has no separator.
#[cold]
fn token_fault(rest: &[u8]) -> u8 {
    if rest.iter().any(|&b| b == b' ' || b == b'\n') {
        return 3;
    }
    let digits = rest.strip_prefix(b"-").unwrap_or(rest);
    let minus = digits.len() < rest.len();
    let leading_zero = digits.first() == Some(&b'0') && (minus || digits.len() > 1);
    if digits.len() <= 10 && digits.iter().all(u8::is_ascii_digit) && !leading_zero {
        4
    } else {
        3
    }
}

#[inline]
fn judged(good: bool, refusal: u8) -> Result<(), u8> {
    if good {
        Ok(())
    } else {
        Err(refusal)
    }
}

fn line_end_if(last: bool) -> u8 {
    if last {
        b'\n'
    } else {
        b' '
    }
}

// ---- the sections ----

/// Reads a sheet into the work area, all of it.
pub fn read(bytes: &[u8], system: &mut System) -> Result<(), u8> {
    sections(&mut Cursor::new(bytes, 0, bytes.len()), system, true)
}

/// Reads the sheet between two places. Its relations are looked at, and stay where they are.
pub fn read_with_text(bytes: &[u8], start: usize, end: usize, system: &mut System) -> Result<(), u8> {
    sections(&mut Cursor::new(bytes, start, end), system, false)
}

fn sections(cursor: &mut Cursor, system: &mut System, all: bool) -> Result<(), u8> {
    let start = cursor.at;
    cursor.within(3, 3, b' ')?;
    system.m = cursor.within(1, 4, b' ')? as usize;
    system.l = cursor.within(-64, 64, b' ')?;
    let t = cursor.within((system.l - 4).max(-64), system.l, b'\n')?;
    system.blocks = (system.l - t + 1) as usize;
    let shape = Shape { m: system.m as i32, l: system.l, blocks: system.blocks as i32 };
    system.equations = cursor.within(0, 6, b'\n')? as usize;
    for i in 0..system.equations {
        equation::<true>(cursor, shape, system.row_mut(i))?;
    }
    let relations = cursor.within(0, RELATIONS as i32, b'\n')? as usize;
    if all {
        kept_relations(cursor, shape, system, relations)?;
    } else {
        given_relations(cursor, shape, system, relations)?;
    }
    system.body = cursor.text_from(start);
    order(cursor, system)?;
    let start = cursor.at;
    if cursor.ended().is_err() {
        sides(cursor, system)?;
    }
    system.fifth = cursor.text_from(start);
    cursor.ended()
}

fn kept_relations(cursor: &mut Cursor, shape: Shape, system: &mut System, count: usize) -> Result<(), u8> {
    system.given = Given::NONE;
    (system.count, system.kept_count) = (count, count);
    for k in 0..count {
        system.relations[k].n0 = cursor.coefficient(b' ')?;
        system.relations[k].row = k;
        equation::<true>(cursor, shape, &mut system.kept[k])?;
    }
    Ok(())
}

fn given_relations(cursor: &mut Cursor, shape: Shape, system: &mut System, count: usize) -> Result<(), u8> {
    (system.count, system.kept_count) = (0, 0);
    let start = cursor.at;
    for _ in 0..count {
        cursor.coefficient(b' ')?;
        equation::<false>(cursor, shape, &mut system.kept[0])?;
    }
    system.given = Given { count, lines: cursor.text_from(start), sides: Text::NONE, with_side: false };
    Ok(())
}

fn order(cursor: &mut Cursor, system: &mut System) -> Result<(), u8> {
    let count = cursor.count(system.m as i32)?;
    system.order = [0; 4];
    for place in 0..count {
        let start = cursor.at;
        let separator = line_end_if(place + 1 == count);
        let free = |c: i32| c >= 1 && c <= system.m as i32 && !system.order[..place].contains(&(c as u8));
        let c = match cursor.one_digit(separator) {
            Some(c) if free(c) => c,
            _ => {
                cursor.at = start;
                let (c, found) = cursor.number()?;
                judged((1..=4).contains(&c) && free(c as i32), 2)?;
                judged(found == separator, 3)?;
                c as i32
            }
        };
        system.order[place] = c as u8;
    }
    Ok(())
}

/// The fifth section.
fn sides(cursor: &mut Cursor, system: &mut System) -> Result<(), u8> {
    let relations = system.given.count + system.count;
    let all = system.equations + relations;
    cursor.within(all as i32, all as i32, b'\n')?;
    judged(all > 0, 3)?;
    let mut zeros = true;
    for i in 0..system.equations {
        zeros &= side::<true>(cursor, zeros && i + 1 == all, system.row_mut(i))?;
    }
    for k in 0..system.count {
        zeros &= side::<true>(cursor, zeros && k + 1 == relations, &mut system.kept[k])?;
    }
    if system.given.count > 0 {
        given_sides(cursor, zeros, system)?;
    }
    Ok(())
}

/// The right sides of relations that stay where they are, of which one must not be zero where those of the equations are.
fn given_sides(cursor: &mut Cursor, equations_zero: bool, system: &mut System) -> Result<(), u8> {
    let start = cursor.at;
    let mut zeros = true;
    for k in 1..=system.given.count {
        zeros &= side::<false>(cursor, equations_zero && zeros && k == system.given.count, &mut system.kept[0])?;
    }
    (system.given.sides, system.given.with_side) = (cursor.text_from(start), !zeros);
    Ok(())
}

/// Reads the right side of a row, and tells whether it is zero, which it must not be where the others are.
fn side<const KEPT: bool>(cursor: &mut Cursor, others_zero: bool, row: &mut Row) -> Result<bool, u8> {
    let start = cursor.at;
    let count = cursor.count(16)?;
    judged(count > 0 || !others_zero, 3)?;
    if count > 0 {
        let numbers = &mut row.numbers[SIDE];
        match list::<KEPT>(cursor.bytes, cursor.at, count, b'\n', numbers) {
            Some(next) if next <= cursor.end => cursor.at = next,
            _ => judged_list(cursor, count, b'\n', numbers)?,
        }
        row.lengths[SIDE] = count as u8;
        row.mask |= 1 << SIDE;
    }
    row.side = cursor.text_from(start);
    Ok(count == 0)
}

// ---- equations ----

/// The sizes that an equation is read by.
#[derive(Clone, Copy)]
struct Shape {
    m: i32,
    l: i32,
    blocks: i32,
}

impl Shape {
    /// Whether there is such a term.
    #[inline(always)]
    fn has(&self, block: i32, column: u32, count: u32) -> bool {
        ((block as u32) < self.blocks as u32) & (column.wrapping_sub(1) < self.m as u32) & (count.wrapping_sub(1) < 16)
    }
}

/// Reads an equation; one that is not kept leaves nothing of use in the row.
fn equation<const KEPT: bool>(cursor: &mut Cursor, shape: Shape, row: &mut Row) -> Result<(), u8> {
    let start = cursor.at;
    match line::<KEPT>(cursor.bytes, start, shape, row) {
        Some(next) if next <= cursor.end => cursor.at = next,
        _ => judged_line(cursor, shape, row)?,
    }
    row.changed = false;
    row.line = cursor.text_from(start);
    Ok(())
}

/// Reads the line of an equation, and tells where the next one begins; nothing where something is not right.
fn line<const KEPT: bool>(bytes: &[u8], at: usize, shape: Shape, row: &mut Row) -> Option<usize> {
    row.mask = 0;
    row.lengths = [0; SIDE + 1];
    if eight(bytes, at)? as u16 == u16::from_le_bytes(*b"0\n") {
        return Some(at + 2);
    }
    let count = token(bytes, at, b' ')?;
    if count.wrong || count.value < 1 || count.value > shape.m * shape.blocks {
        return None;
    }
    let (mut at, mut last) = (count.next, -1);
    for term in 1..=count.value {
        let head = term_head(bytes, at, shape)?;
        if head.e <= last {
            return None;
        }
        let e = head.e as usize;
        at = list::<KEPT>(bytes, head.next, head.length, line_end_if(term == count.value), &mut row.numbers[e])?;
        row.lengths[e] = head.length as u8;
        row.mask |= 1 << e;
        last = head.e;
    }
    Some(at)
}

/// What stands before the coefficients of a term.
struct TermHead {
    e: i32,
    length: usize,
    next: usize,
}

/// Block, column and count, mostly of one digit each.
#[inline(always)]
fn term_head(bytes: &[u8], at: usize, shape: Shape) -> Option<TermHead> {
    let text = eight(bytes, at)?;
    let minus = (text as u8 == b'-') as usize;
    let text = text >> (8 * minus);
    if text & 0xff00_ff00_ff00 != 0x2000_2000_2000 {
        return longer_term_head(bytes, at, shape);
    }
    let digit = |k: u32| ((text >> (8 * k)) as u8).wrapping_sub(b'0') as u32;
    let (size, c, count) = (digit(0), digit(2), digit(4));
    let block = shape.l - with_sign(size, minus);
    let form = (size < 10) & (size >= minus as u32) & (count < 10);
    let next = at + minus + 6;
    (form & shape.has(block, c, count)).then_some(TermHead {
        e: block * 4 + c as i32 - 1,
        length: count as usize,
        next,
    })
}

/// The same with at most two digits for block and count.
#[inline(never)]
fn longer_term_head(bytes: &[u8], at: usize, shape: Shape) -> Option<TermHead> {
    let text = eight(bytes, at)?;
    let minus = (text as u8 == b'-') as usize;
    let (size, length, right) = one_or_two_digits(text >> (8 * minus));
    let block = shape.l - with_sign(size, minus);
    let at = at + minus + length;
    let text = eight(bytes, at)?;
    let c = (text as u8).wrapping_sub(b'0') as u32;
    let (count, length, counted) = one_or_two_digits(text >> 16);
    let form = right & counted & (size >= minus as u32) & ((text >> 8) as u8 == b' ');
    let next = at + 2 + length;
    (form & shape.has(block, c, count)).then_some(TermHead {
        e: block * 4 + c as i32 - 1,
        length: count as usize,
        next,
    })
}

/// A number of one or two digits with a space behind it, its length with that, and whether it is one.
#[inline(always)]
fn one_or_two_digits(text: u64) -> (u32, usize, bool) {
    let digit = |k: u32| ((text >> (8 * k)) as u8).wrapping_sub(b'0') as u32;
    let (first, second) = (digit(0), digit(1));
    let two = second < 10;
    let value = if two { first * 10 + second } else { first };
    let after = if two { text >> 16 } else { text >> 8 };
    (value, 2 + two as usize, (first < 10) & (first >= two as u32) & (after as u8 == b' '))
}

/// So many coefficients, one at least, the last of them nonzero; the place behind them.
#[inline(always)]
fn list<const KEPT: bool>(bytes: &[u8], at: usize, count: usize, end: u8, numbers: &mut [i32; 16]) -> Option<usize> {
    if KEPT {
        *numbers = [0; 16];
    }
    let (mut at, mut wrong) = (at, false);
    let (last, before) = numbers[..count].split_last_mut()?;
    for place in before {
        let token = if KEPT { token(bytes, at, b' ')? } else { passed(bytes, at, b' ')? };
        if KEPT {
            *place = token.value;
        }
        at = token.next;
        wrong |= token.wrong;
    }
    let token = if KEPT { token(bytes, at, end)? } else { passed(bytes, at, end)? };
    if KEPT {
        *last = token.value;
    }
    (!wrong & !token.wrong & (token.value != 0)).then_some(token.next)
}

// ---- equations, judged ----

#[cold]
fn judged_line(cursor: &mut Cursor, shape: Shape, row: &mut Row) -> Result<(), u8> {
    let count = cursor.count(shape.m * shape.blocks)?;
    row.mask = 0;
    row.lengths = [0; SIDE + 1];
    let mut last = -1;
    for term in 1..=count {
        let (e, length) = judged_term_head(cursor, shape, last)?;
        judged_list(cursor, length, line_end_if(term == count), &mut row.numbers[e as usize])?;
        row.lengths[e as usize] = length as u8;
        row.mask |= 1 << e;
        last = e;
    }
    Ok(())
}

fn judged_term_head(cursor: &mut Cursor, shape: Shape, last: i32) -> Result<(i32, usize), u8> {
    let (s, separator) = cursor.number()?;
    let block = shape.l as i64 - s;
    judged((0..shape.blocks as i64).contains(&block), 2)?;
    judged(block >= last.max(0) as i64 / 4 && separator == b' ', 3)?;
    let (c, separator) = cursor.number()?;
    judged((1..=shape.m as i64).contains(&c), 2)?;
    let e = block * 4 + c - 1;
    judged(e > last as i64 && separator == b' ', 3)?;
    Ok((e as i32, cursor.judged_within(1, 16, b' ')? as usize))
}

#[cold]
fn judged_list(cursor: &mut Cursor, count: usize, end: u8, numbers: &mut [i32; 16]) -> Result<(), u8> {
    *numbers = [0; 16];
    for k in 0..count - 1 {
        numbers[k] = cursor.coefficient(b' ')?;
    }
    numbers[count - 1] = cursor.coefficient(end)?;
    judged(numbers[count - 1] != 0, 3)
}
