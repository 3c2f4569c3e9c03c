//! Sheets, read and written (SCOPE 4).

use crate::fault::{is, Fault};
use crate::polynomial::Polynomial;
use crate::refusal::Refusal;
use crate::row::Row;
use crate::system::{block_in_range, equation_count_in_range, lowest_in_range, relation_count_in_range};
use crate::system::{unknowns_in_range, Relation, Sizes, System};
use crate::{C, DEGREE};

/// A system and a column order, empty if none.
#[derive(Clone, Debug, PartialEq, Eq)]
pub struct Sheet {
    pub system: System,
    pub order: Vec<usize>,
}

// ---- tokens ----

/// One space between two numbers, byte 10 behind a line (SCOPE 4.1).
#[derive(Clone, Copy, PartialEq, Eq)]
pub enum Separator {
    Space = b' ' as isize,
    LineEnd = b'\n' as isize,
}

/// The line ends after the last number of so many.
pub(crate) fn after(number: usize, of: usize) -> Separator {
    if number == of {
        Separator::LineEnd
    } else {
        Separator::Space
    }
}

/// One to ten digits, a minus or none in front, no superfluous zero (SCOPE 4.2).
fn number(token: &[u8], fault: Option<Fault>) -> Option<i128> {
    let (negative, digits) = match token {
        [b'-', digits @ ..] => (true, digits),
        digits => (false, digits),
    };
    let most = if is(fault, Fault::EleventhDigit) { 11 } else { 10 };
    let minus_zero = negative && digits == b"0";
    let leading_zero = digits.len() > 1 && digits[0] == b'0';
    if digits.is_empty()
        || digits.len() > most
        || !digits.iter().all(u8::is_ascii_digit)
        || minus_zero && !is(fault, Fault::MinusZero)
        || leading_zero && !is(fault, Fault::LeadingZero)
    {
        return None;
    }
    let size = digits.iter().fold(0, |value, digit| value * 10 + i128::from(digit - b'0'));
    Some(if negative { -size } else { size })
}

/// The fault of bytes that end with no separator: 4 where they could begin a number, 3 where not (SCOPE 4.32).
fn cut_token(rest: &[u8], fault: Option<Fault>) -> Refusal {
    let can_begin = rest.is_empty() || rest == b"-" || number(rest, fault).is_some();
    if can_begin || is(fault, Fault::CutTokenEnds) {
        Refusal::End
    } else {
        Refusal::Form
    }
}

/// What a token's value is refused with, if it is.
pub(crate) type Judgement = Result<(), Refusal>;

/// The fault under its number, where the value has it.
pub(crate) fn refused_if(found: bool, refusal: Refusal) -> Judgement {
    if found {
        Err(refusal)
    } else {
        Ok(())
    }
}

/// The bytes of a sheet or of a batch that are still to be read. The first fault ends the reading (SCOPE 4.37).
pub struct Reader<'a> {
    pub bytes: &'a [u8],
    pub fault: Option<Fault>,
}

impl<'a> Reader<'a> {
    /// The next number: its form (3; SCOPE 4.33), its range and its order (2, 5, 3; SCOPE 4.34, 4.35), which `judge`
    /// tells, and then its separator (3; SCOPE 4.36).
    pub fn number(
        &mut self,
        separator: impl FnOnce(i128) -> Separator,
        judge: impl FnOnce(i128) -> Judgement,
    ) -> Result<i128, Refusal> {
        // A token ends before the next space or byte 10 (SCOPE 4.31).
        let is_separator = |b: &u8| *b == Separator::Space as u8 || *b == Separator::LineEnd as u8;
        let Some(end) = self.bytes.iter().position(is_separator) else {
            return Err(cut_token(self.bytes, self.fault));
        };
        let value = number(&self.bytes[..end], self.fault).ok_or(Refusal::Form)?;
        let right_separator = refused_if(self.bytes[end] != separator(value) as u8, Refusal::Form);
        if is(self.fault, Fault::SeparatorFirst) {
            right_separator?;
        }
        judge(value)?;
        right_separator?;
        self.bytes = &self.bytes[end + 1..];
        Ok(value)
    }

    /// A number under refusal 2, for sizes, blocks, columns and counts.
    pub fn within(&mut self, separator: Separator, in_range: impl FnOnce(i128) -> bool) -> Result<i128, Refusal> {
        self.number(|_| separator, |value| refused_if(!in_range(value), Refusal::Range))
    }
}

/// 5 for a number past ±C (SCOPE 4.34).
fn within_limit(value: i128, fault: Option<Fault>) -> Judgement {
    let refusal = if is(fault, Fault::CoefficientIsSize) { Refusal::Range } else { Refusal::Number };
    refused_if(value.abs() > C, refusal)
}

// ---- reading ----

/// The sheet that the bytes hold: four sections in their order, each with its count, a fifth for the right sides if one
/// of them is not zero, and nothing behind (SCOPE 4.11, 4.16; 02, U1).
pub fn read(bytes: &[u8], fault: Option<Fault>) -> Result<Sheet, Refusal> {
    read_by(&mut Reader { bytes, fault })
}

/// The first fault of a sheet, and where the token begins at which the reading ended, in bytes from 0.
pub fn fault_place(bytes: &[u8]) -> Option<(Refusal, usize)> {
    let mut reader = Reader { bytes, fault: None };
    let refusal = read_by(&mut reader).err()?;
    Some((refusal, bytes.len() - reader.bytes.len()))
}

fn read_by(reader: &mut Reader) -> Result<Sheet, Refusal> {
    let fault = reader.fault;
    let sizes = reader.sizes()?;
    let rows = reader.equations(sizes)?;
    let relations = reader.relations(sizes)?;
    let order = reader.order(sizes)?;
    let mut system = System { sizes, rows, relations };
    // Any byte behind the fourth section begins the fifth (02, U1).
    if !reader.bytes.is_empty() {
        reader.sides(&mut system)?;
    }
    // Bytes behind the fifth section are 4 (SCOPE 4.37; 02, U1).
    if !reader.bytes.is_empty() && !is(fault, Fault::BytesAfter) {
        return Err(Refusal::End);
    }
    Ok(Sheet { system, order })
}

impl Reader<'_> {
    /// 3, m, l and t on a line (SCOPE 4.12).
    fn sizes(&mut self) -> Result<Sizes, Refusal> {
        self.within(Separator::Space, |count| count == 3)?;
        let m = self.within(Separator::Space, unknowns_in_range)?;
        let l = self.within(Separator::Space, block_in_range)?;
        let t = self.within(Separator::LineEnd, |t| lowest_in_range(l, t))?;
        Ok(Sizes { m: m as usize, l: l as i64, t: t as i64 })
    }

    /// The equation count, 0 to 6, and the equations (SCOPE 4.13; 02, U6).
    fn equations(&mut self, sizes: Sizes) -> Result<Vec<Row>, Refusal> {
        let fault = self.fault;
        let in_range = |count| match fault {
            Some(Fault::EquationsAsUnknowns) => count == sizes.m as i128,
            Some(Fault::SevenEquations) => (0..=7).contains(&count),
            _ => equation_count_in_range(count),
        };
        let count = self.within(Separator::LineEnd, in_range)?;
        (0..count).map(|_| self.equation(sizes)).collect()
    }

    /// The relation count, and for each relation n0 and an equation (SCOPE 4.14).
    fn relations(&mut self, sizes: Sizes) -> Result<Vec<Relation>, Refusal> {
        let count = self.within(Separator::LineEnd, relation_count_in_range)?;
        (0..count).map(|_| self.relation(sizes)).collect()
    }

    fn relation(&mut self, sizes: Sizes) -> Result<Relation, Refusal> {
        let fault = self.fault;
        let n0 = self.number(|_| Separator::Space, |value| within_limit(value, fault))?;
        Ok(Relation { n0, row: self.equation(sizes)? })
    }

    /// The number of terms, at most m × (D + 1), and the terms (SCOPE 4.21), ordered by block and column (SCOPE 4.23).
    fn equation(&mut self, sizes: Sizes) -> Result<Row, Refusal> {
        let most = sizes.m as i128 * (sizes.d() as i128 + 1);
        let separator = |count| if count == 0 { Separator::LineEnd } else { Separator::Space };
        let count = self.number(separator, |count| refused_if(!(0..=most).contains(&count), Refusal::Range))?;
        let mut row = Row::default();
        let mut before = None;
        for term in 1..=count as usize {
            let (s, c) = self.term_place(sizes, before)?;
            let p = self.coefficients(after(term, count as usize))?;
            row.set(s, c, p);
            before = Some((s, c));
        }
        Ok(row)
    }

    /// The block and the column of a term. The term order is judged at the token that breaks it (SCOPE 4.35).
    fn term_place(&mut self, sizes: Sizes, before: Option<(i64, usize)>) -> Result<(i64, usize), Refusal> {
        let any_order = is(self.fault, Fault::TermOrder);
        let order_first = is(self.fault, Fault::OrderBeforeRange);
        let s = self.number(
            |_| Separator::Space,
            |s| {
                refused_if(!(sizes.t as i128..=sizes.l as i128).contains(&s), Refusal::Range)?;
                let rises = before.is_some_and(|(last, _)| s > last as i128);
                refused_if(rises && !any_order, Refusal::Form)
            },
        )? as i64;
        let c = self.number(
            |_| Separator::Space,
            |c| {
                let in_range = refused_if(!(1..=sizes.m as i128).contains(&c), Refusal::Range);
                let falls = before.is_some_and(|(last, column)| s == last && c <= column as i128);
                let in_order = refused_if(falls && !any_order, Refusal::Form);
                if order_first {
                    in_order.and(in_range)
                } else {
                    in_range.and(in_order)
                }
            },
        )?;
        Ok((s, c as usize))
    }

    /// The number of coefficients, 1 to 16, and those from power 0 on (SCOPE 4.22), the last of them not 0
    /// (SCOPE 4.24).
    fn coefficients(&mut self, line: Separator) -> Result<Polynomial, Refusal> {
        let count = self.within(Separator::Space, |count| (1..=DEGREE as i128 + 1).contains(&count))?;
        self.listed(count as usize, line, Fault::ZeroLast)
    }

    /// So many coefficients, the last of them not 0 unless the fault is planted.
    fn listed(&mut self, count: usize, line: Separator, zero_last: Fault) -> Result<Polynomial, Refusal> {
        let fault = self.fault;
        let mut coefficients = Vec::new();
        for place in 1..=count {
            let last = place == count;
            let separator = if last { line } else { Separator::Space };
            let judge = |a| {
                within_limit(a, fault)?;
                refused_if(last && a == 0 && !is(fault, zero_last), Refusal::Form)
            };
            coefficients.push(self.number(|_| separator, judge)?);
        }
        Ok(Polynomial::new(coefficients))
    }

    /// The order line: a count up to m, and so many different columns (SCOPE 4.15; 02, U6); otherwise it is 2 (SCOPE 4.34).
    fn order(&mut self, sizes: Sizes) -> Result<Vec<usize>, Refusal> {
        let m = sizes.m;
        let separator = |count| if count == 0 { Separator::LineEnd } else { Separator::Space };
        let all_or_none = is(self.fault, Fault::OrderAllOrNone);
        let in_range = |count| (0..=m as i128).contains(&count) && !(all_or_none && count != 0 && count != m as i128);
        let count = self.number(separator, |count| refused_if(!in_range(count), Refusal::Range))?;
        let twice = is(self.fault, Fault::ColumnTwice);
        let mut order = Vec::new();
        for place in 1..=count as usize {
            let fits = |c| (1..=m as i128).contains(&c) && (twice || !order.contains(&(c as usize)));
            let column = self.within(after(place, count as usize), fits)?;
            order.push(column as usize);
        }
        Ok(order)
    }

    /// The fifth section: the count of equations plus relations, another number is 2, and a line for each right side
    /// (02, U1). Where there are neither, it has zeros only: the count 0 is 3.
    fn sides(&mut self, system: &mut System) -> Result<(), Refusal> {
        let fault = self.fault;
        if is(fault, Fault::StrayByteIsEnd) && !matches!(self.bytes[0], b'-' | b'0'..=b'9') {
            return Err(Refusal::End);
        }
        let equations_alone = is(fault, Fault::SideOfEquations);
        let count = if equations_alone { system.rows.len() } else { system.all_rows().count() };
        let refusal = if is(fault, Fault::SideCountForm) { Refusal::Form } else { Refusal::Range };
        let zeros_only = count == 0 && !is(fault, Fault::ZeroSides) && !is(fault, Fault::ZeroSidesLast);
        let judge = |found| {
            let any = is(fault, Fault::NoSidesForm);
            refused_if(zeros_only && (any || found == 0 && !is(fault, Fault::NoSidesRange)), Refusal::Form)?;
            refused_if(found != count as i128 || zeros_only, refusal)
        };
        self.number(|_| Separator::LineEnd, judge)?;
        let mut any = is(fault, Fault::ZeroSides) || is(fault, Fault::ZeroSidesLast);
        for (place, row) in system.all_rows_mut().take(count).enumerate() {
            let side = self.side(!any && place + 1 == count)?;
            any |= !side.is_zero();
            row.set_right(side);
        }
        if is(fault, Fault::ZeroSidesLast) && self.bytes.is_empty() {
            let zeros = system.all_rows().all(|row| row.right().is_zero());
            return refused_if(zeros, Refusal::Form);
        }
        Ok(())
    }

    /// The number of coefficients, 0 to 16, and those from power 0 on, the last of them not 0. Where only zeros stand
    /// before the last line, its count is not 0 either (3; 02, U1).
    fn side(&mut self, nonzero: bool) -> Result<Polynomial, Refusal> {
        let most = DEGREE as i128 + 1 + is(self.fault, Fault::SideSeventeen) as i128;
        let separator = |count| if count == 0 { Separator::LineEnd } else { Separator::Space };
        let judge = |count| {
            refused_if(!(0..=most).contains(&count), Refusal::Range)?;
            refused_if(nonzero && count == 0, Refusal::Form)
        };
        let count = self.number(separator, judge)?;
        self.listed(count as usize, Separator::LineEnd, Fault::SideZeroLast)
    }
}

// ---- writing ----

/// The bytes of a sheet, with the fifth section exactly if some right side is not zero (02, U1).
pub fn write(sheet: &Sheet) -> Vec<u8> {
    let Sizes { m, l, t } = sheet.system.sizes;
    let mut lines = vec![format!("3 {m} {l} {t}"), sheet.system.rows.len().to_string()];
    lines.extend(sheet.system.rows.iter().map(equation_text));
    lines.push(sheet.system.relations.len().to_string());
    lines.extend(sheet.system.relations.iter().map(|r| format!("{} {}", r.n0, equation_text(&r.row))));
    lines.push(order_text(&sheet.order));
    let sides: Vec<&Polynomial> = sheet.system.all_rows().map(Row::right).collect();
    if sides.iter().any(|side| !side.is_zero()) {
        lines.push(sides.len().to_string());
        lines.extend(sides.into_iter().map(side_text));
    }
    (lines.join("\n") + "\n").into_bytes()
}

fn equation_text(row: &Row) -> String {
    let mut terms: Vec<_> = row.entries().collect();
    terms.sort_by_key(|&(s, c, _)| (-s, c));
    let mut numbers = vec![terms.len() as i128];
    for (s, c, p) in terms {
        numbers.extend([s as i128, c as i128, p.coefficients().len() as i128]);
        numbers.extend(p.coefficients());
    }
    joined(numbers)
}

fn side_text(side: &Polynomial) -> String {
    let coefficients = side.coefficients();
    joined(std::iter::once(coefficients.len() as i128).chain(coefficients.iter().copied()))
}

fn order_text(order: &[usize]) -> String {
    joined(std::iter::once(order.len()).chain(order.iter().copied()))
}

fn joined<T: ToString>(numbers: impl IntoIterator<Item = T>) -> String {
    numbers.into_iter().map(|n| n.to_string()).collect::<Vec<_>>().join(" ")
}
