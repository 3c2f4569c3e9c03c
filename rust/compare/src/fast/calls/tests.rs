//! Every kind of case that belongs to these calls, held against the outside implementation: numbers and all stores, refusals too.

use crate::cases::Kind;
use crate::judge::judge;
use crate::logs::OwnLogs;
use crate::solutions::Listed;
use crate::steps::Divided;
use crate::subject::{Fast, Outside};

const CASES: usize = 2_000;

fn same(kind: Kind) {
    for k in 0..CASES {
        let judged = judge(&kind.case(k), &Outside(None), &Fast);
        assert!(judged.difference.is_none(), "{kind:?} {k}: {}", judged.difference.unwrap_or_default());
    }
}

#[test]
fn leading_runs() {
    same(Kind::Leading);
}

#[test]
fn trailing_runs() {
    same(Kind::Trailing);
}

#[test]
fn steps() {
    same(Kind::Steps);
}

#[test]
fn states() {
    same(Kind::State);
}

#[test]
fn records() {
    same(Kind::Record);
}

#[test]
fn logged_runs() {
    same(Kind::Logged);
}

#[test]
fn replays() {
    same(Kind::Replay);
}

#[test]
fn lists() {
    same(Kind::Solutions);
}

/// What is said of divided budgets, of our own logs and of lists holds here too.
#[test]
fn promises() {
    let (mut divided, mut own, mut listed) = (Divided::default(), OwnLogs::default(), Listed::default());
    for k in 0..CASES / 2 {
        divided.test(k, &Fast);
        own.test(k, &Fast);
        listed.test(k, &Fast);
    }
    let differences = [divided.differences, own.differences, listed.differences].concat();
    assert_eq!(differences, Vec::<String>::new());
}
