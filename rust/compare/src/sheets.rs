//! Random sheets, whole and damaged at every kind of place.

use crate::random::Random;
use crate::systems::{large_system, system, system_with};
use outside::sheet::{write, Sheet};
use outside::system::System;
use outside::{C, EQUATIONS};

/// The bytes of a sheet: of a third whole, of the others with one to three damages.
pub fn sheet(random: &mut Random) -> Vec<u8> {
    let whole = whole_sheet(random);
    if random.one_in(3) {
        return whole;
    }
    let mut bytes = whole;
    for _ in 0..random.pick(&[1, 1, 1, 2, 3]) {
        bytes = damaged(random, bytes);
    }
    bytes
}

/// A sheet without any fault.
pub fn whole_sheet(random: &mut Random) -> Vec<u8> {
    let system = if random.one_in(40) { large_system(random) } else { system(random) };
    with_order(random, system)
}

/// A sheet without any fault that has so many equations.
pub fn whole_sheet_with(random: &mut Random, equations: usize) -> Vec<u8> {
    let system = system_with(random, equations);
    with_order(random, system)
}

/// The system's sheet, with no order, one of all columns or one of some.
fn with_order(random: &mut Random, system: System) -> Vec<u8> {
    let m = system.sizes.m;
    let mut order = random.permutation(m);
    let some = random.below(m + 1);
    order.truncate(random.pick(&[0, 0, m, some]));
    write(&Sheet { system, order })
}

fn damaged(random: &mut Random, bytes: Vec<u8>) -> Vec<u8> {
    match random.below(11) {
        0 => damaged_byte(random, bytes),
        1 => cut(random, bytes),
        2 | 3 => damaged_terms(random, Draft::of(&bytes)).bytes(),
        4 => damaged_line(random, Draft::of(&bytes)).bytes(),
        5 => damaged_order(random, Draft::of(&bytes)).bytes(),
        6 | 7 => damaged_sides(random, Draft::of(&bytes)).bytes(),
        8 => damaged_equations(random, Draft::of(&bytes)).bytes(),
        _ => damaged_token(random, Draft::of(&bytes)).bytes(),
    }
}

// ---- bytes ----

const BYTES: &[u8] = b"  \n\n-01234567899+.ax\t\r\0\x7f\xff";

pub(crate) fn damaged_byte(random: &mut Random, mut bytes: Vec<u8>) -> Vec<u8> {
    let at = random.below(bytes.len() + 1);
    let byte = random.pick(BYTES);
    match random.below(5) {
        _ if at == bytes.len() => bytes.push(byte),
        0 => bytes.insert(at, byte),
        1 => drop(bytes.remove(at)),
        2 => bytes.push(byte),
        _ => {
            // A change at a separator as often as anywhere.
            let is_separator = |at: &usize| bytes[*at] == b' ' || bytes[*at] == b'\n';
            let at = (at..bytes.len()).find(is_separator).filter(|_| random.one_in(2)).unwrap_or(at);
            bytes[at] = byte;
        }
    }
    bytes
}

/// The beginning of a sheet, the last token now and then spoiled.
pub(crate) fn cut(random: &mut Random, mut bytes: Vec<u8>) -> Vec<u8> {
    bytes.truncate(random.below(bytes.len() + 1));
    let last =
        random.pick(&["", "", "", "", "-", "-0", "0", "00", "07", "+", "x", "12345678901", "1234567890", " ", "\n"]);
    bytes.extend(last.bytes());
    bytes
}

// ---- tokens ----

/// The tokens of a sheet by lines.
pub(crate) struct Draft(pub Vec<Vec<String>>);

impl Draft {
    pub fn of(bytes: &[u8]) -> Draft {
        let text: String = bytes.iter().map(|&b| b as char).collect();
        let lines = text.strip_suffix('\n').unwrap_or(&text).split('\n');
        Draft(lines.map(|line| line.split(' ').map(String::from).collect()).collect())
    }

    /// The number that a line begins with.
    fn count(&self, line: usize) -> Option<usize> {
        self.0.get(line)?.first()?.parse().ok()
    }

    /// Which line has the column order, where the counts before it still tell.
    fn order_line(&self) -> Option<usize> {
        let relations = self.count(1)?.min(EQUATIONS) + 2;
        let order = relations + self.count(relations)?.min(16) + 1;
        (order < self.0.len()).then_some(order)
    }

    pub fn bytes(&self) -> Vec<u8> {
        let text = self.0.iter().map(|line| line.join(" ") + "\n").collect::<String>();
        text.chars().map(|c| c as u8).collect()
    }
}

/// One token changed. Lines are chosen first, so that short lines come up as often as long ones.
pub(crate) fn damaged_token(random: &mut Random, mut draft: Draft) -> Draft {
    let line = random.below(draft.0.len());
    let tokens = &mut draft.0[line];
    let among = if random.one_in(2) { tokens.len() } else { tokens.len().min(6) };
    let at = random.below(among);
    match random.below(12) {
        0 => drop(tokens.remove(at)),
        1 => tokens.insert(at, tokens[at].clone()),
        2 => {
            let other = random.below(tokens.len());
            tokens.swap(at, other);
        }
        _ => tokens[at] = other_token(random, &tokens[at]),
    }
    draft
}

fn other_token(random: &mut Random, token: &str) -> String {
    let value: i128 = token.parse().unwrap_or(1);
    let number = match random.below(12) {
        0 => return if value < 0 { format!("-0{}", -value) } else { format!("0{value}") },
        1 => {
            return random
                .pick(&["-0", "", "-", "--1", "+1", "1-", "0x1", "00", "1.0", "99999999999", "-10000000000"])
                .into()
        }
        2 => random.pick(&[9_999_999_999, -9_999_999_999, 1_000_000_000]),
        3 => random.pick(&[C + 1, -C - 1, C, -C]),
        4 => random.pick(&[value + 1, value - 1, -value, value * 10]),
        5 => random.pick(&[65, -65, 64, -64, 5, 7, 17, 16, 21]),
        6 | 7 => 0,
        _ => random.between(-3, 6),
    };
    number.to_string()
}

/// The places of the terms of an equation line, if it has the form of one.
fn terms(tokens: &[String], from: usize) -> Option<Vec<(usize, usize)>> {
    let mut terms = Vec::new();
    let mut at = from + 1;
    while at < tokens.len() {
        let count: usize = tokens.get(at + 2)?.parse().ok()?;
        let end = at + 3 + count.min(16);
        if end > tokens.len() {
            return None;
        }
        terms.push((at, end));
        at = end;
    }
    Some(terms)
}

/// Two terms exchanged, a term repeated or left out, a last coefficient made zero, a coefficient more.
fn damaged_terms(random: &mut Random, mut draft: Draft) -> Draft {
    let end = draft.order_line().unwrap_or(draft.0.len());
    let with_terms: Vec<usize> = (2..end).filter(|&line| draft.0[line].len() > 4).collect();
    if with_terms.is_empty() {
        return draft;
    }
    let tokens = &mut draft.0[random.pick(&with_terms)];
    let found = terms(tokens, 0).or_else(|| terms(tokens, 1)).unwrap_or_default();
    if found.is_empty() {
        return draft;
    }
    let mut parts: Vec<Vec<String>> = found.iter().map(|&(at, end)| tokens[at..end].to_vec()).collect();
    let (i, j) = (random.below(parts.len()), random.below(parts.len()));
    match random.below(9) {
        0 => parts.insert(i, parts[i].clone()),
        1 => drop(parts.remove(i)),
        2 => *parts[i].last_mut().expect("a term has three tokens or more") = "0".into(),
        3 => parts[i].push(random.between(-2, 2).to_string()),
        4 => parts[i][1] = random.between(-1, 5).to_string(),
        5 | 6 if parts[i].len() > 3 => {
            let at = 3 + random.below(parts[i].len() - 3);
            parts[i][at] = random.pick(&[C + 1, -C - 1, C, -C, 2_000_000_000]).to_string();
        }
        _ => parts.swap(i, j),
    }
    tokens.truncate(found[0].0);
    tokens.extend(parts.concat());
    draft
}

/// Equations left out or put in, mostly with the count that fits then.
fn damaged_equations(random: &mut Random, mut draft: Draft) -> Draft {
    let Some(count) = draft.count(1).filter(|&count| count <= EQUATIONS && 2 + count <= draft.0.len()) else {
        return draft;
    };
    let wished =
        random.pick(&[0, count.saturating_sub(1), count + 1, EQUATIONS, EQUATIONS + 1, EQUATIONS + 1, EQUATIONS + 2]);
    let mut lines: Vec<Vec<String>> = draft.0.splice(2..2 + count, []).collect();
    lines.resize(wished, vec!["0".into()]);
    draft.0.splice(2..2, lines);
    if !random.one_in(6) {
        draft.0[1] = vec![wished.to_string()];
    }
    draft
}

/// The column order made wrong, or put in where there was none.
fn damaged_order(random: &mut Random, mut draft: Draft) -> Draft {
    let m: usize = draft.0[0].get(1).and_then(|m| m.parse().ok()).unwrap_or(1).clamp(1, 5);
    let mut order = random.permutation(m);
    let (i, j) = (random.below(m), random.below(m));
    match random.below(5) {
        0 => order[i] = order[j],
        1 => order[i] = random.below(6),
        2 => order.truncate(i),
        3 => order.push(random.below(6)),
        _ => {}
    }
    let count = random.pick(&[m, m, m, m, order.len(), i]);
    let line = std::iter::once(count).chain(order).map(|n| n.to_string()).collect();
    let at = draft.order_line().unwrap_or(draft.0.len() - 1);
    draft.0[at] = line;
    draft
}

/// The fifth section made new, or wrong: its count, zeros only, a line that is missing or too many, a list that is too long or too
/// short, a last coefficient that is zero, a coefficient past ±C, something behind it.
fn damaged_sides(random: &mut Random, mut draft: Draft) -> Draft {
    let Some(order) = draft.order_line() else { return draft };
    let mut lines = draft.0.split_off(order + 1);
    if lines.len() < 2 || random.one_in(3) {
        lines = new_sides(random, order - 3);
    }
    // Where nothing could have a right side there is a count alone.
    if lines.len() < 2 {
        lines[0] = vec![other_count(random, 0)];
        lines.extend(random.pick(&[None, None, Some("0"), Some("1 5"), Some("")]).map(|line| vec![line.to_string()]));
        draft.0.extend(lines);
        return draft;
    }
    let at = 1 + random.below(lines.len() - 1);
    match random.below(10) {
        0 => lines[0] = vec![other_count(random, order - 3)],
        1 => lines[1..].fill(vec!["0".into()]),
        2 => {
            lines[1..].fill(vec!["0".into()]);
            lines.push(vec![random.pick(&["", "0", "x", "1 5", "-"]).into()]);
        }
        3 => lines.push(vec![random.pick(&["", "0", "x", "1 5", "1"]).into()]),
        4 => lines[at] = side_line(random.pick(&[16, 17, 18]), vec!["1".into(); random.pick(&[16, 17])]),
        5 => lines[at] = side_line(random.pick(&[1, 2, 2, 3]), vec![random.pick(&["1", "0"]).into(), "0".into()]),
        6 => lines[at] = side_line(2, vec![random.pick(&[C + 1, -C - 1, C, -C]).to_string(), "1".into()]),
        7 => drop(lines.remove(at)),
        8 => lines.insert(at, lines[at].clone()),
        _ => {}
    }
    draft.0.extend(lines);
    draft
}

/// A count of the fifth section that is mostly not the one it needs.
fn other_count(random: &mut Random, needed: usize) -> String {
    let needed = needed as i128;
    random.pick(&[needed + 1, needed - 1, -needed, needed, 0, 1, 4, 16, 20, 21]).to_string()
}

fn side_line(count: usize, coefficients: Vec<String>) -> Vec<String> {
    std::iter::once(count.to_string()).chain(coefficients).collect()
}

/// A fifth section of so many lines, half of them zero.
fn new_sides(random: &mut Random, count: usize) -> Vec<Vec<String>> {
    let mut side = |_| {
        let length = random.pick(&[0, 0, 0, 1, 2, 16]);
        side_line(length, (0..length).map(|_| random.pick(&["1", "-2", "7"]).into()).collect())
    };
    std::iter::once(vec![count.to_string()]).chain((0..count).map(&mut side)).collect()
}

/// A line left out, repeated, exchanged with another or broken.
pub(crate) fn damaged_line(random: &mut Random, mut draft: Draft) -> Draft {
    let lines = &mut draft.0;
    let (i, j) = (random.below(lines.len()), random.below(lines.len()));
    match random.below(5) {
        0 if lines.len() > 1 => drop(lines.remove(i)),
        1 => lines.insert(i, lines[j].clone()),
        2 => lines.swap(i, j),
        3 => lines.push(vec!["0".into()]),
        _ => {
            let at = random.below(lines[i].len() + 1);
            let rest = lines[i].split_off(at);
            lines.insert(i + 1, rest);
        }
    }
    draft
}
