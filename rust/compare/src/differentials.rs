//! Random differential sheets (SCOPE 10), whole and damaged at every kind of token, and inputs of the program `induce`.

use crate::random::Random;
use crate::sheets::{cut, damaged_byte, damaged_line, damaged_token, Draft};
use outside::differential::{FACTOR, HIGHEST};
use outside::{C, EQUATIONS};

/// The bytes of a differential sheet: of a third whole, of the others with one to three damages.
pub fn differential(random: &mut Random) -> Vec<u8> {
    let mut bytes = whole_differential(random);
    if random.one_in(3) {
        return bytes;
    }
    for _ in 0..random.pick(&[1, 1, 1, 2, 3]) {
        bytes = damaged(random, bytes);
    }
    bytes
}

/// A differential sheet without any fault.
pub fn whole_differential(random: &mut Random) -> Vec<u8> {
    let m = random.between(1, 4);
    let (order, degree) = (random.between(0, HIGHEST), random.between(0, HIGHEST));
    // Of all places one in so many has a term.
    let thin = random.pick(&[1, 1, 2, 3, 8]);
    let equations = random.below(EQUATIONS + 1);
    let mut text = format!("3 {m} {order} {degree}\n{equations}\n");
    for _ in 0..equations {
        let mut terms = Vec::new();
        for k in (0..=order).rev() {
            for (j, c) in (0..=degree).flat_map(|j| (1..=m).map(move |c| (j, c))) {
                if random.one_in(thin) {
                    terms.push(format!(" {k} {j} {c} {}", factor(random)));
                }
            }
        }
        text += &format!("{}{}\n", terms.len(), terms.concat());
    }
    text.into_bytes()
}

/// A sheet of the most bytes: six equations with a term at every place, each factor of the most digits.
pub fn longest_differential() -> Vec<u8> {
    let places = || (0..=HIGHEST).rev().flat_map(|k| (0..=HIGHEST).flat_map(move |j| (1..=4).map(move |c| (k, j, c))));
    let terms: String = places().map(|(k, j, c)| format!(" {k} {j} {c} -{FACTOR}")).collect();
    let equation = format!("{}{terms}\n", places().count());
    format!("3 4 {HIGHEST} {HIGHEST}\n{EQUATIONS}\n{}", equation.repeat(EQUATIONS)).into_bytes()
}

fn factor(random: &mut Random) -> i128 {
    match random.below(6) {
        0 => random.pick(&[FACTOR, -FACTOR, FACTOR - 1, 1 - FACTOR]),
        1 | 2 => random.pick(&[1, -1]),
        3 => random.between(1, FACTOR),
        _ => random.pick(&[2, -2, 3, -4, 5, 12, -36, 100]),
    }
}

fn damaged(random: &mut Random, bytes: Vec<u8>) -> Vec<u8> {
    match random.below(10) {
        0 => damaged_byte(random, bytes),
        1 => cut(random, bytes),
        2 => damaged_line(random, Draft::of(&bytes)).bytes(),
        3 => damaged_token(random, Draft::of(&bytes)).bytes(),
        4 => damaged_heading(random, Draft::of(&bytes)).bytes(),
        _ => damaged_terms(random, Draft::of(&bytes)).bytes(),
    }
}

/// A number of the first line, the equation count or a term count that is another, mostly at an end of its range.
fn damaged_heading(random: &mut Random, mut draft: Draft) -> Draft {
    let line = random.below(draft.0.len().min(3));
    let at = random.below(draft.0[line].len().min(4));
    let value: i128 = draft.0[line][at].parse().unwrap_or(1);
    let other = random.pick(&[value + 1, value - 1, 0, 1, 2, 3, 4, 5, 6, 7, -1, 36, 37, C]);
    draft.0[line][at] = other.to_string();
    draft
}

/// Terms exchanged, repeated or left out, and numbers of a term made others: with the count that fits, and now and then without.
fn damaged_terms(random: &mut Random, mut draft: Draft) -> Draft {
    let with_terms: Vec<usize> = (2..draft.0.len()).filter(|&line| draft.0[line].len() > 4).collect();
    if with_terms.is_empty() {
        return draft;
    }
    let tokens = &mut draft.0[random.pick(&with_terms)];
    let mut terms: Vec<Vec<String>> = tokens[1..].chunks(4).map(<[String]>::to_vec).collect();
    let (i, j) = (random.below(terms.len()), random.below(terms.len()));
    let after = (i + 1).min(terms.len() - 1);
    match random.below(12) {
        0 => terms.swap(i, j),
        1 | 2 => terms.swap(i, after),
        3 => terms.insert(i, terms[i].clone()),
        4 => drop(terms.remove(i)),
        // One number of the term before, so that the order breaks there, at the number after it, or not at all.
        5 | 6 => {
            let at = random.below(3);
            let number = terms[i].get(at).cloned();
            terms[after].get_mut(at).into_iter().zip(number).for_each(|(place, number)| *place = number);
        }
        7 | 8 => {
            let at = random.below(3).min(terms[i].len() - 1);
            let value: i128 = terms[i][at].parse().unwrap_or(1);
            terms[i][at] = random.pick(&[value + 1, value - 1, 0, 1, 2, 3, 4, 5, -1]).to_string();
        }
        9 => *terms[i].last_mut().expect("a chunk has a token") = "0".into(),
        _ => *terms[i].last_mut().expect("a chunk has a token") = far_factor(random),
    }
    let count = if random.one_in(6) { tokens[0].clone() } else { terms.len().to_string() };
    *tokens = std::iter::once(count).chain(terms.concat()).collect();
    draft
}

fn far_factor(random: &mut Random) -> String {
    let far = [FACTOR, -FACTOR, FACTOR + 1, -FACTOR - 1, C, -C, C + 1, 9_999_999_999, -9_999_999_999, 10_000_000_000];
    random.pick(&far).to_string()
}

// ---- inputs of the program ----

/// Bytes of the longest sheet.
const LONGEST: usize = 3_268;
/// Bytes of as many tokens as a sheet may have, 4 and 1 and 6 × (1 + 36 × 4), each with eleven bytes and its separator.
const TOKEN_BYTES: usize = 875 * 12;

/// An input of `induce`: a sheet as above; or one with more behind it than any sheet has, or with a token in it that is longer than that.
pub fn input(random: &mut Random) -> Vec<u8> {
    let mut bytes = if random.one_in(20) { longest_differential() } else { differential(random) };
    if random.one_in(4) {
        let length = random.pick(&[1, 100, 2_000, 4_096, TOKEN_BYTES, 8_192, 65_536, 200_000]) + random.below(40);
        let at = if random.one_in(2) { bytes.len() } else { random.below(bytes.len() + 1) };
        let tail = match random.below(4) {
            0 => vec![b'0'; length],
            1 => (0..length).map(|_| random.pick(b"0123456789 \n-x")).collect(),
            2 => vec![random.pick(b"1 \n-x\0"); length],
            _ => bytes.iter().copied().cycle().take(length).collect(),
        };
        bytes.splice(at..at, tail);
    }
    bytes
}

/// Inputs that are taken whether or not chance makes them: none, the longest sheet, and that one cut or lengthened by some bytes.
pub fn corner_inputs() -> Vec<Vec<u8>> {
    let longest = longest_differential();
    let mut inputs = vec![Vec::new(), b"\n".to_vec(), longest.clone()];
    inputs.push(longest[..longest.len() - 1].to_vec());
    for more in [1, 2, 100, 4_096, TOKEN_BYTES - LONGEST, TOKEN_BYTES - LONGEST + 1, 65_536, 1 << 20] {
        for byte in *b"0 \nx" {
            inputs.push([&longest[..], &vec![byte; more]].concat());
        }
    }
    for token in [10, 11, 12, 4_096, TOKEN_BYTES - 1, TOKEN_BYTES, TOKEN_BYTES + 1, 65_536, 1 << 20] {
        inputs.push(vec![b'1'; token]);
        inputs.push([&vec![b'1'; token][..], b" "].concat());
        inputs.push([b"3 1 0 0\n1\n1 0 0 1 ", &vec![b'1'; token][..], b"\n"].concat());
    }
    inputs
}

#[cfg(test)]
mod tests {
    use super::*;
    use outside::differential::{answer, read};

    #[test]
    fn whole_sheets() {
        let mut random = Random::new(3);
        for _ in 0..2_000 {
            let sheet = whole_differential(&mut random);
            assert!(read(&sheet, None).is_ok(), "{}", String::from_utf8_lossy(&sheet));
        }
    }

    /// Every answer to a differential sheet comes up, and comes up often.
    #[test]
    fn every_answer() {
        let mut random = Random::new(4);
        let mut counts = [0; 6];
        for _ in 0..4_000 {
            let number = answer(&differential(&mut random), None).err().map_or(0, |refusal| refusal.number());
            counts[number as usize] += 1;
        }
        assert!([0, 2, 3, 4, 5].iter().all(|&number| counts[number] >= 100), "{counts:?}");
    }

    #[test]
    fn longest() {
        let longest = longest_differential();
        assert_eq!(longest.len(), LONGEST);
        let recurrence = answer(&longest, None).unwrap();
        assert!(recurrence.len() <= wurgalm::RECURRENCE, "{}", recurrence.len());
    }
}
