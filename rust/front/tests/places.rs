//! Damaged sheets: the place of the fault is the one that the second reader comes to.

use compare::differentials::differential;
use compare::random::Random;
use compare::sheets::sheet;
use front::places::{Judge, What};
use outside::refusal::Refusal;

const DAMAGED: usize = 10_000;
const KINDS: [What; 4] = [What::Token, What::Separator, What::EndsEarly, What::GoesOn];

/// The place of so many damaged sheets, by the proved reader and by the second one.
fn agree(
    seed: u64,
    is_differential: bool,
    made: fn(&mut Random) -> Vec<u8>,
    second: fn(&[u8]) -> Option<(Refusal, usize)>,
) {
    let (mut random, mut judge) = (Random::new(seed), Judge::new(is_differential));
    let (mut damaged, mut kinds) = (0, [0; KINDS.len()]);
    while damaged < DAMAGED {
        let sheet = made(&mut random);
        let fault = judge.fault(&sheet);
        let place = fault.map(|fault| (fault.refusal.0, fault.token));
        let agreed = second(&sheet).map(|(refusal, token)| (refusal.number(), token));
        assert_eq!(place, agreed, "{}", String::from_utf8_lossy(&sheet));
        if let Some(fault) = fault {
            damaged += 1;
            kinds[KINDS.iter().position(|&what| what == fault.what).unwrap()] += 1;
        }
    }
    assert!(kinds.iter().all(|&count| count > DAMAGED / 100), "{kinds:?}");
}

#[test]
fn the_second_reader_agrees() {
    agree(33, false, sheet, outside::sheet::fault_place);
}

#[test]
fn the_second_reader_agrees_on_differential_sheets() {
    agree(34, true, differential, outside::differential::fault_place);
}
