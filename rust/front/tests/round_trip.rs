//! Sheets through `show` and `type`: they come back byte for byte.

use compare::differentials::whole_differential;
use compare::random::Random;
use compare::sheets::whole_sheet;
use front::typing::sheet_of;
use front::writing::{self, UNKNOWNS};
use wurgalm::System;

const SHEETS: usize = 10_000;

#[test]
fn sheets_come_back() {
    let mut random = Random::new(30);
    let names = writing::names(None, UNKNOWNS).unwrap();
    let (mut with_sides, mut with_relations) = (0, 0);
    for _ in 0..SHEETS {
        let sheet = whole_sheet(&mut random);
        let system = System::from_sheet(&sheet).unwrap();
        with_relations += usize::from(system.relation_count() > 0);
        with_sides += usize::from(system.equations().any(|equation| !equation.right().is_empty()));
        let text = writing::system(&system, &names);
        match sheet_of(&text, false) {
            Ok(typed) => assert!(typed == sheet, "another sheet comes back:\n{text}"),
            Err(unread) => panic!("{unread}\n{text}"),
        }
    }
    assert!(with_sides > SHEETS / 10 && with_relations > SHEETS / 10);
}

#[test]
fn answers_come_back() {
    let mut random = Random::new(31);
    let names = writing::names(Some("deflection,s,M".into()), UNKNOWNS).unwrap();
    for _ in 0..SHEETS / 10 {
        let mut system = System::from_sheet(&whole_sheet(&mut random)).unwrap();
        if system.run_leading().is_ok() {
            let text = writing::system(&system, &names);
            assert_eq!(sheet_of(&text, false).unwrap(), system.to_sheet().unwrap(), "{text}");
        }
    }
}

#[test]
fn differential_sheets_come_back() {
    let mut random = Random::new(32);
    let names = writing::names(None, ["y", "z", "u", "v"]).unwrap();
    for _ in 0..SHEETS {
        let sheet = whole_differential(&mut random);
        let text = front::differentials::shown(&sheet, &names);
        assert_eq!(sheet_of(&text, true).unwrap(), sheet, "{text}");
        assert_eq!(sheet_of(&text, false).unwrap(), sheet, "{text}");
    }
}
