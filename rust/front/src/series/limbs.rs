//! Sizes of any length, as limbs of 64 bits from the lowest upward. The highest limb of a result is not 0; 0 has none.
//!
//! Long products are taken apart in halves (Karatsuba), greatest common divisors go by many steps of Euclid's at once
//! (Lehmer), and decimal digits by halves of the number.

use std::cmp::Ordering;

/// Products of sizes below so many limbs are taken limb by limb.
const SHORT: usize = 32;
/// The largest power of ten that a limb holds, and its exponent.
const DECIMAL: (u64, usize) = (10_000_000_000_000_000_000, 19);
/// Decimal limbs that are taken one by one.
const FEW: usize = 16;

pub fn trimmed(mut limbs: Vec<u64>) -> Vec<u64> {
    while limbs.last() == Some(&0) {
        limbs.pop();
    }
    limbs
}

/// Without the zeros at its end.
fn cut(limbs: &[u64]) -> &[u64] {
    &limbs[..limbs.iter().rposition(|&limb| limb != 0).map_or(0, |at| at + 1)]
}

pub fn compared(a: &[u64], b: &[u64]) -> Ordering {
    a.len().cmp(&b.len()).then_with(|| a.iter().rev().cmp(b.iter().rev()))
}

// ---- sums ----

/// Adds b to the limbs of a from the lowest on, and gives what is carried out of them; a has as many limbs at least.
fn add(a: &mut [u64], b: &[u64]) -> bool {
    let mut carry = false;
    let (low, high) = a.split_at_mut(b.len());
    for (limb, &other) in low.iter_mut().zip(b) {
        let (sum, first) = limb.overflowing_add(other);
        let (sum, second) = sum.overflowing_add(u64::from(carry));
        (*limb, carry) = (sum, first || second);
    }
    for limb in high {
        if !carry {
            break;
        }
        (*limb, carry) = limb.overflowing_add(1);
    }
    carry
}

/// Takes b from the limbs of a, which are not below it.
fn take(a: &mut [u64], b: &[u64]) {
    let mut borrow = false;
    let (low, high) = a.split_at_mut(b.len());
    for (limb, &other) in low.iter_mut().zip(b) {
        let (difference, first) = limb.overflowing_sub(other);
        let (difference, second) = difference.overflowing_sub(u64::from(borrow));
        (*limb, borrow) = (difference, first || second);
    }
    for limb in high {
        if !borrow {
            break;
        }
        (*limb, borrow) = limb.overflowing_sub(1);
    }
}

pub fn added(a: &[u64], b: &[u64]) -> Vec<u64> {
    let (long, short) = if a.len() < b.len() { (b, a) } else { (a, b) };
    let mut sum = Vec::with_capacity(long.len() + 1);
    sum.extend_from_slice(long);
    if add(&mut sum, short) {
        sum.push(1);
    }
    sum
}

/// a - b, where a is not smaller.
pub fn less(a: &[u64], b: &[u64]) -> Vec<u64> {
    let mut difference = a.to_vec();
    take(&mut difference, b);
    trimmed(difference)
}

// ---- products ----

/// Adds factor × b to the limbs of a, which have room for it.
fn add_multiple(a: &mut [u64], b: &[u64], factor: u64) {
    let mut carry = 0;
    for (limb, &other) in a.iter_mut().zip(b) {
        let sum = u128::from(factor) * u128::from(other) + u128::from(*limb) + carry;
        (*limb, carry) = (sum as u64, sum >> 64);
    }
    for limb in &mut a[b.len()..] {
        if carry == 0 {
            break;
        }
        let sum = u128::from(*limb) + carry;
        (*limb, carry) = (sum as u64, sum >> 64);
    }
}

/// The product in as many limbs as both have together.
fn product(a: &[u64], b: &[u64]) -> Vec<u64> {
    let (long, short) = if a.len() < b.len() { (b, a) } else { (a, b) };
    let mut limbs = vec![0; long.len() + short.len()];
    if short.len() < SHORT {
        for (at, &factor) in short.iter().enumerate() {
            add_multiple(&mut limbs[at..], long, factor);
        }
        return limbs;
    }
    let half = long.len().div_ceil(2);
    if short.len() <= half {
        for (at, part) in long.chunks(short.len()).enumerate() {
            add(&mut limbs[at * short.len()..], cut(&product(part, short)));
        }
        return limbs;
    }
    let ((a0, a1), (b0, b1)) = (long.split_at(half), short.split_at(half));
    let (low, high) = (product(a0, b0), product(a1, b1));
    let mut middle = product(&added(a0, a1), &added(b0, b1));
    take(&mut middle, cut(&low));
    take(&mut middle, cut(&high));
    limbs[..low.len()].copy_from_slice(&low);
    limbs[2 * half..].copy_from_slice(&high);
    add(&mut limbs[half..], cut(&middle));
    limbs
}

pub fn multiplied(a: &[u64], b: &[u64]) -> Vec<u64> {
    trimmed(product(a, b))
}

/// Times a power of two.
pub fn shifted_up(a: &[u64], bits: u64) -> Vec<u64> {
    let (limbs, bits) = ((bits / 64) as usize, bits % 64);
    let mut shifted = vec![0; limbs];
    if bits == 0 {
        shifted.extend_from_slice(a);
        return shifted;
    }
    let mut carry = 0;
    for &limb in a {
        shifted.push(limb << bits | carry);
        carry = limb >> (64 - bits);
    }
    shifted.push(carry);
    trimmed(shifted)
}

/// Over a power of two, rounded down.
pub fn shifted_down(a: &[u64], bits: u64) -> Vec<u64> {
    let (limbs, bits) = ((bits / 64).min(a.len() as u64) as usize, bits % 64);
    let a = &a[limbs..];
    if bits == 0 {
        return a.to_vec();
    }
    let above = |at: usize| a.get(at + 1).map_or(0, |next| next << (64 - bits));
    trimmed((0..a.len()).map(|at| a[at] >> bits | above(at)).collect())
}

// ---- quotients ----

/// Quotient and remainder of two limbs by one that is larger than the upper of them.
fn divided_pair(high: u64, low: u64, by: u64) -> (u64, u64) {
    let both = u128::from(high) << 64 | u128::from(low);
    ((both / u128::from(by)) as u64, (both % u128::from(by)) as u64)
}

/// Divides by one limb in place, and gives the remainder.
fn divide_by_limb(a: &mut [u64], by: u64) -> u64 {
    a.iter_mut().rev().fold(0, |rest, limb| {
        let (quotient, rest) = divided_pair(rest, *limb, by);
        *limb = quotient;
        rest
    })
}

/// Quotient and remainder, by long division in limbs; b is not 0.
pub fn divided(a: &[u64], b: &[u64]) -> (Vec<u64>, Vec<u64>) {
    if compared(a, b) == Ordering::Less {
        return (Vec::new(), a.to_vec());
    }
    if let [limb] = b {
        let mut quotient = a.to_vec();
        let rest = divide_by_limb(&mut quotient, *limb);
        return (trimmed(quotient), trimmed(vec![rest]));
    }
    // With the highest bit of the divisor set, a limb of the quotient is guessed at most two too large.
    let bits = u64::from(b[b.len() - 1].leading_zeros());
    let (mut rest, divisor) = (shifted_up(a, bits), shifted_up(b, bits));
    rest.resize(a.len() + 1, 0);
    let size = divisor.len();
    let mut quotient = vec![0; rest.len() - size];
    for at in (0..quotient.len()).rev() {
        let part = &mut rest[at..=at + size];
        let mut guess = guessed(part, &divisor);
        let mut is_below = take_multiple(part, &divisor, guess);
        while is_below {
            guess -= 1;
            is_below = !add(part, &divisor);
        }
        quotient[at] = guess;
    }
    (trimmed(quotient), shifted_down(cut(&rest), bits))
}

/// A limb of a quotient from the two highest limbs of the divisor: right, or up to two too large.
fn guessed(part: &[u64], divisor: &[u64]) -> u64 {
    let size = divisor.len();
    let (high, next) = (divisor[size - 1], divisor[size - 2]);
    if part[size] >= high {
        return u64::MAX;
    }
    let (mut guess, mut left) = divided_pair(part[size], part[size - 1], high);
    while u128::from(guess) * u128::from(next) > (u128::from(left) << 64 | u128::from(part[size - 2])) {
        guess -= 1;
        let (sum, is_over) = left.overflowing_add(high);
        if is_over {
            break;
        }
        left = sum;
    }
    guess
}

/// Takes factor × divisor away, and tells whether that was too much.
fn take_multiple(part: &mut [u64], divisor: &[u64], factor: u64) -> bool {
    let mut carry = 0u128;
    for (limb, &other) in part.iter_mut().zip(divisor) {
        let product = u128::from(factor) * u128::from(other) + carry;
        let (difference, is_below) = limb.overflowing_sub(product as u64);
        (*limb, carry) = (difference, (product >> 64) + u128::from(is_below));
    }
    let last = &mut part[divisor.len()];
    let is_below = u128::from(*last) < carry;
    *last = last.wrapping_sub(carry as u64);
    is_below
}

// ---- common divisors ----

fn short_divisor(mut a: u64, mut b: u64) -> u64 {
    while b != 0 {
        (a, b) = (b, a % b);
    }
    a
}

/// The 62 bits of a size that begin where those of one of `limbs` limbs do whose highest has `zeros` zeros in front.
fn top(a: &[u64], limbs: usize, zeros: u32) -> i64 {
    let limb = |back: usize| limbs.checked_sub(back).and_then(|at| a.get(at)).copied().unwrap_or(0);
    let both = u128::from(limb(1)) << 64 | u128::from(limb(2));
    (both << zeros >> 66) as i64
}

/// Steps of Euclid's that the highest bits of two sizes settle: x a - y b and v b - u a, where the signs are such that
/// both are not negative, or the other way round. None where not even one is settled.
fn steps(mut a: i64, mut b: i64) -> Option<[i64; 4]> {
    let [mut x, mut y, mut u, mut v] = [1, 0, 0, 1];
    while b + u != 0 && b + v != 0 {
        let quotient = (a + x) / (b + u);
        if quotient != (a + y) / (b + v) {
            break;
        }
        (x, u) = (u, x - quotient * u);
        (y, v) = (v, y - quotient * v);
        (a, b) = (b, a - quotient * b);
    }
    (y != 0).then_some([x, y, u, v])
}

/// x a + y b, which is not negative, where x and y have different signs or one of them is 0.
fn combined(a: &[u64], x: i64, b: &[u64], y: i64) -> Vec<u64> {
    let (a, x, b, y) = if x < 0 || y > 0 { (b, y, a, x) } else { (a, x, b, y) };
    let (x, y) = (u128::from(x.unsigned_abs()), u128::from(y.unsigned_abs()));
    let (mut above, mut below, mut limbs) = (0, 0, Vec::with_capacity(a.len().max(b.len())));
    for at in 0..a.len().max(b.len()) {
        above += x * u128::from(a.get(at).copied().unwrap_or(0));
        below += y * u128::from(b.get(at).copied().unwrap_or(0));
        let (difference, is_below) = (above as u64).overflowing_sub(below as u64);
        limbs.push(difference);
        (above, below) = (above >> 64, (below >> 64) + u128::from(is_below));
    }
    trimmed(limbs)
}

/// The greatest common divisor; that of 0 and 0 is 0.
pub fn common_divisor(mut a: Vec<u64>, mut b: Vec<u64>) -> Vec<u64> {
    if compared(&a, &b) == Ordering::Less {
        std::mem::swap(&mut a, &mut b);
    }
    while let Some(&last) = b.last() {
        if b.len() == 1 {
            let rest = divide_by_limb(&mut a, last);
            return vec![short_divisor(last, rest)];
        }
        let zeros = a[a.len() - 1].leading_zeros();
        let settled =
            if a.len() > b.len() + 1 { None } else { steps(top(&a, a.len(), zeros), top(&b, a.len(), zeros)) };
        (a, b) = match settled {
            Some([x, y, u, v]) => (combined(&a, x, &b, y), combined(&a, u, &b, v)),
            None => {
                let rest = divided(&a, &b).1;
                (b, rest)
            }
        };
    }
    a
}

// ---- decimal digits ----

/// The size of decimal digits.
pub fn of_digits(digits: &str) -> Vec<u64> {
    let mut limbs: Vec<u64> = Vec::new();
    let first = digits.len() % DECIMAL.1;
    let parts = std::iter::once(&digits.as_bytes()[..first]).chain(digits.as_bytes()[first..].chunks(DECIMAL.1));
    for part in parts {
        let mut carry = part.iter().fold(0, |number, digit| number * 10 + u128::from(digit - b'0'));
        for limb in &mut limbs {
            let sum = u128::from(*limb) * u128::from(DECIMAL.0) + carry;
            (*limb, carry) = (sum as u64, sum >> 64);
        }
        limbs.push(carry as u64);
        limbs = trimmed(limbs);
    }
    limbs
}

/// The digits of a size, as many as `least` at least.
fn few_digits(a: &[u64], least: usize) -> String {
    let (mut parts, mut limbs) = (Vec::new(), a.to_vec());
    while !limbs.is_empty() {
        parts.push(divide_by_limb(&mut limbs, DECIMAL.0));
        limbs = trimmed(limbs);
    }
    let mut digits = parts.pop().unwrap_or(0).to_string();
    for part in parts.iter().rev() {
        digits += &format!("{part:0width$}", width = DECIMAL.1);
    }
    "0".repeat(least.saturating_sub(digits.len())) + &digits
}

/// The digits of a size below the square of the last power, as many as `least` at least.
fn digits_by(a: &[u64], powers: &[Vec<u64>], least: usize) -> String {
    let Some((power, smaller)) = powers.split_last() else { return few_digits(a, least) };
    if compared(a, power) == Ordering::Less {
        return digits_by(a, smaller, least);
    }
    let behind = DECIMAL.1 * FEW << smaller.len();
    let (high, low) = divided(a, power);
    digits_by(&high, smaller, least.saturating_sub(behind)) + &digits_by(&low, smaller, behind)
}

/// The decimal digits of a size.
pub fn digits(a: &[u64]) -> String {
    if a.len() <= FEW {
        return few_digits(a, 1);
    }
    let mut powers = vec![of_digits(&format!("1{}", "0".repeat(DECIMAL.1 * FEW)))];
    while powers[powers.len() - 1].len() * 2 <= a.len() + 1 {
        let last = &powers[powers.len() - 1];
        powers.push(multiplied(last, last));
    }
    digits_by(a, &powers, 1)
}
