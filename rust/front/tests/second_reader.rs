//! Typed texts through two readers: the one of the command, and the one of `compare::typed` that was made from the
//! manual.

use compare::random::Random;
use compare::typed::meaning::meaning;
use compare::typed::{sheets, texts, Meaning};
use front::typing::read;

/// Both readers take a text for one system, or both refuse it. Whether they take it.
fn agree(text: &str, is_differential: bool) -> bool {
    let first = read(text, is_differential);
    let second = meaning(text, is_differential);
    match (&first, &second) {
        (Ok(typed), Ok((meaning, is_differential))) => {
            assert_eq!(typed.is_differential, *is_differential, "{text}");
            assert_eq!(&said(&typed.sheet, *is_differential), meaning, "{text}");
        }
        (Ok(typed), Err(broken)) => {
            panic!("{text:?} is read as {}, but {broken:?}", String::from_utf8_lossy(&typed.sheet))
        }
        (Err(unread), Ok(meaning)) => panic!("{text:?} is not read: {unread}, but it is {meaning:?}"),
        (Err(_), Err(_)) => {}
    }
    first.is_ok()
}

fn said(sheet: &[u8], is_differential: bool) -> Meaning {
    let said = if is_differential { sheets::differential(sheet) } else { sheets::recurrence(sheet) };
    said.unwrap_or_else(|| panic!("no sheet: {}", String::from_utf8_lossy(sheet)))
}

#[test]
fn both_read_the_same_systems() {
    let mut random = Random::new(45);
    let mut taken = [0, 0];
    for _ in 0..20_000 {
        let text = texts::some(&mut random);
        let is_differential = random.one_in(10);
        taken[usize::from(agree(&text, is_differential))] += 1;
    }
    assert!(taken[0] > 4_000 && taken[1] > 4_000, "{taken:?}");
}
