//! What a person may type, and the place of what cannot be read.

use compare::random::Random;
use front::typing::sheet_of;
use wurgalm::System;

fn typed(text: &str) -> String {
    String::from_utf8(sheet_of(text, false).unwrap()).unwrap()
}

/// Line, column and reason.
fn unread(text: &str) -> String {
    sheet_of(text, false).unwrap_err().to_string()
}

#[test]
fn many_ways_to_write_one_sheet() {
    let sheet = "3 2 1 0\n2\n2 1 1 2 0 1 0 2 1 -1\n2 1 1 1 1 0 1 1 -1\n0\n0\n";
    for text in [
        "n*x(n+1) - y(n) = 0; x(n+1) = x(n)",
        "n x(n + 1) = y(n)\n\n  x(1+n) - x(n) = 0 # the same\n",
        "unknowns x, y\nn*x(n+1) - y(n) = 0; 2x(n+1) - x(n) - x(n+1) = 0",
    ] {
        assert_eq!(typed(text), sheet, "{text}");
    }
    assert_eq!(typed("(n + 1)^2 x(n) = 3 + n^2 - 1"), "3 1 0 0\n1\n1 0 1 3 1 2 1\n0\n0\n1\n3 2 0 1\n");
    assert_eq!(typed("at n = -2: x(-1) = 4; x(n) = 0"), "3 1 1 0\n1\n1 0 1 1 1\n1\n-2 1 1 1 1 1\n0\n2\n0\n1 4\n");
    assert_eq!(typed("unknowns x, y; l = 2; t = -1; order y\n"), "3 2 2 -1\n0\n0\n1 2\n");
    assert_eq!(typed("x^2*y'' + x*y' + (x^2 - 1)*y = 0"), "3 1 2 2\n1\n4 2 2 1 1 1 1 1 1 0 0 1 -1 0 2 1 1\n");
    assert_eq!(typed("y'' = x z; z' = y"), "3 2 2 1\n2\n2 2 0 1 1 0 1 2 -1\n2 1 0 2 1 0 0 1 -1\n");
    assert_eq!(typed("y''(x) = x z(x); z'(x) = y"), typed("y'' = x z; z' = y"));
    assert_eq!(typed("x1' = x2; x2' = x1"), "3 2 1 0\n2\n2 1 0 1 1 0 0 2 -1\n2 1 0 2 1 0 0 1 -1\n");
    assert_eq!(typed("unknowns sin, xy\nx sin' = xy(x)"), "3 2 1 1\n1\n2 1 1 1 1 0 0 2 -1\n");
    assert_eq!(typed("0 = 3; n(n + 1) x(n) = 0"), "3 1 0 0\n2\n0\n1 0 1 3 0 1 1\n0\n0\n2\n1 3\n0\n");
    assert_eq!(typed("\u{feff}x(n) = 0\r# all\r\ny(n)\u{a0}= 0"), typed("x(n) = 0; y(n) = 0"));
    assert_eq!(sheet_of("y = x*y", true).unwrap(), b"3 1 0 1\n1\n2 0 0 1 1 0 1 1 -1\n");
}

/// Texts that could mean two things.
const TWO_READINGS: &[(&str, &str)] = &[
    ("y'' + y(0) = 0", "line 1, column 8: a value at 0, or a product"),
    ("y'' + y = 0; y(0) = 0", "line 1, column 15: a value at 0, or a product"),
    ("y'' + y = 0\ny'(0) = 0", "line 2, column 3: a value at 0, or a product"),
    ("y' = y(2)", "line 1, column 7: a value at one x, or a product"),
    ("(y + y')(0) = 0", "line 1, column 9: a value at one x, or a product"),
    ("y' = y(x+1)", "line 1, column 7: the unknown at what the bracket says, or a product"),
    ("y' = y (x)", "line 1, column 8: the unknown at what the bracket says, or a product"),
    ("y(x)(x + 1) = y'", "line 1, column 5: the unknown at what the bracket says, or a product"),
    ("x(0) y = y'", "line 1, column 2: a product, or a value"),
    ("n(3) x(n) = 0", "line 1, column 2: a product, or a value"),
    ("y'' + 1e-3*y = 0", "line 1, column 7: a number with an exponent, or a product"),
    ("2E3(n) = 0", "line 1, column 1: a number with an exponent, or a product"),
    ("0x10(n) = 0", "line 1, column 1: a number to another base, or 0 times an unknown"),
    ("1_000 x(n) = 0", "line 1, column 1: a number goes on with `_`"),
    ("1 000 x(n) = 0", "line 1, column 3: `0` behind a factor"),
    ("(n + 1)2 x(n) = 0", "line 1, column 8: `2` behind a factor"),
    ("x y' = xy", "line 1, column 8: `xy` is the product x*y, or one unknown"),
    ("y' = x2", "line 1, column 6: `x2` is the product x^2, or one unknown"),
    ("nx(n+1) = y(n); x(n+1) = x(n)", "line 1, column 1: `nx` is the product n*x, or one unknown"),
    ("a(n+1) = ab(n); b(n) = a(n)", "line 1, column 10: `ab` is the product a*b, or one unknown"),
];

/// Texts with something that equations do not have.
const NOT_READ: &[(&str, &str)] = &[
    ("y'' + y = sin(x)", "line 1, column 11: `sin` is a function"),
    ("y'' + y = sin x", "line 1, column 11: `sin` is a function"),
    ("y'' = Exp(x)", "line 1, column 7: `Exp` is a function"),
    ("x(n+1) = sqrt(n)", "line 1, column 10: `sqrt` is a function"),
    ("y' = e^x", "line 1, column 6: `e` is a number that is no integer"),
    ("y' + y = pi", "line 1, column 10: `pi` is a number that is no integer"),
    ("y' = 2^x y", "line 1, column 8: a power is a number from 0 to 64, here stands `x`; an exponential"),
    ("y'' + 0.25 y = 0", "line 1, column 8: decimals are not read: multiply"),
    ("y'' + 1/4 y = 0", "line 1, column 8: fractions are not read: multiply"),
    ("dy/dx = y", "line 1, column 3: derivatives are written with primes"),
    ("diff(y,x) = y'", "line 1, column 1: derivatives are written with primes"),
    (
        "F(n+1) = F(n); F(0) = 1",
        "line 1, column 17: an index is n, or n and a number; a value at one index is a relation",
    ),
    (
        "2x(n) y' = y",
        "line 1, column 4: n is the variable of recurrences, and here x is, because of the prime in line 1",
    ),
    ("x'' + x = 0", "line 1, column 2: x is the variable of differential equations and has no prime"),
    ("(x y)' = 0", "line 1, column 6: `=` is missing, here stands `'`; a prime stands directly behind an unknown"),
    ("y(x) = 0", "line 1, column 3: `x` in an index"),
    ("at x = 0: y = 1\ny' = y", "line 1, column 1: a differential sheet has no relations"),
    ("at m = 0: x(0) = 1", "line 1, column 4: `n` is missing"),
    ("n = 3; x(n) = 0", "line 1, column 1: an equation without an unknown"),
    ("y' = y; 2 = 2", "line 1, column 9: an equation without an unknown"),
    ("x(n) = x(n)", "line 1, column 1: every unknown of this equation cancels"),
    ("unknowns x; x(n+1) = x(n)", "line 1, column 13: `x` is not l, t or order"),
    ("unknowns x; l = 1; l = 2", "line 1, column 20: `l` stands in the first line twice"),
    ("unknowns x; powers 2", "line 1, column 13: `powers` is not l, t or order"),
    ("unknowns y; l = 1; derivatives 2", "line 1, column 13: `l` is not derivatives or powers"),
    ("\n\nunknowns x; l = 0; t = 1", "line 3, column 1: l = 0 and t = 1"),
    ("x(n) = \u{1b}", "line 1, column 8: `\\u{1b}` has no meaning here"),
    ("x(n+1) + (-2)^63*2^64*x(n) = 0", "line 1, column 17: too large"),
    ("y' + (-2)^63*2^64*y = 0", "line 1, column 13: too large"),
    ("2^64*2^63 = -x(n)", "line 1, column 5: too large"),
];

#[test]
fn places() {
    for (text, place) in [
        ("x(n) = 0\nx(n) + y = 0", "line 2, column 8: `y` has no index"),
        ("x(n) x(n) = 0", "line 1, column 6: a product of two unknowns"),
        ("x(n)^2 = 0", "line 1, column 1: a power of an unknown"),
        ("x(2n) = 0", "line 1, column 2: an index is n, or n and a number"),
        ("x(1) = 0", "line 1, column 2: an index is n, or n and a number"),
        ("x(n) = 1/2", "line 1, column 9: fractions are not read"),
        ("x(n) & 1", "line 1, column 6: `&` has no meaning here"),
        ("x(n) + 1", "line 1, column 9: `=` is missing"),
        ("x(n) = 0 = 0", "line 1, column 10: the equation could end here"),
        ("x(n+65) = 0", "line 1, column 1: n+65: an index is at most 64 away from n"),
        ("x(n+5) = x(n)", "line 1, column 10: the indices reach from n+5 to n+0"),
        ("n^16 x(n) = 0", "line 1, column 6: the power 16 of n is past 15"),
        ("268435456 x(n) = 0", "line 1, column 11: the coefficient 268435456 is past"),
        ("a(n)+b(n)+c(n)+d(n)+e(n)=0", "line 1, column 21: `e` would be a fifth unknown"),
        ("unknowns x\ny(n) = 0", "line 2, column 1: `y` is none of the unknowns"),
        ("unknowns x; order x, x", "line 1, column 22: `x` stands in the order twice"),
        ("unknowns x; l = 0; t = 0\nx(n+1) = 0", "line 2, column 1: n+1 is outside"),
        ("y''' = 0", "line 1, column 1: 3 primes"),
        ("y' = 1", "line 1, column 1: an equation of a differential sheet has an unknown in every term"),
        ("", "line 1, column 1: there is no unknown"),
        ("none(n) = 0", "line 1, column 1: `none` has a meaning of its own"),
        ("unknowns y, x\ny' = 0", "line 1, column 13: `x` has a meaning of its own"),
        ("(x(n) = 0", "line 1, column 7: `)` is missing"),
    ] {
        assert!(unread(text).starts_with(place), "{text}: {}", unread(text));
    }
    for (text, place) in TWO_READINGS.iter().chain(NOT_READ) {
        assert!(unread(text).starts_with(place), "{text}: {}", unread(text));
    }
    let seven = "x(n) = 0;".repeat(7);
    assert!(unread(&seven).starts_with("line 1, column 55: 6 equations are the most"), "{}", unread(&seven));
    let deep = "(".repeat(1000);
    assert!(unread(&deep).contains("too many brackets"));
}

/// A name that a misprint could have made is told, once, unless the first line has it.
#[test]
fn doubts() {
    for (text, expected) in [
        ("n*x(n+1) - y(n) = 0; x(n+1) = x(n)", &[][..]),
        ("x*u' = q; q' = x*u", &[]),
        ("unknowns y, k\ny'' + y = k", &[]),
        ("y'' + y = f(x)", &["line 1, column 11: `f` stands once, and there are more unknowns than equations"]),
        ("y'' + y = k", &["line 1, column 11: `k` has no prime anywhere and is read as an unknown, not as a number"]),
        (
            "y'' + y = 0; z = y",
            &["line 1, column 14: `z` has no prime anywhere and is read as an unknown, not as a number"],
        ),
        ("y' = Y(x); Y' = y", &["line 1, column 6: `Y` and `y` are two unknowns"]),
        ("xi' = xi", &["line 1, column 1: `xi` contains `x` and is read as one unknown"]),
        (
            "y1' = y2; y2' = y; y' = y1",
            &[
                "line 1, column 1: `y1` contains `y` and is read as one unknown",
                "line 1, column 7: `y2` contains `y` and is read as one unknown",
            ],
        ),
        ("x(n+1) + 0 y(n) = 0; x(n) = 0", &["line 1, column 12: `y` cancels wherever it stands"]),
    ] {
        assert_eq!(front::typing::read(text, false).unwrap().doubts, expected, "{text}");
    }
}

/// Overflow ends this build, so that the fuzz below would see one.
#[test]
fn overflow_is_checked() {
    let is_checked = std::panic::catch_unwind(|| std::hint::black_box(i128::MAX) + std::hint::black_box(1)).is_err();
    assert!(is_checked, "rust/Cargo.toml has no overflow-checks for this package");
}

/// A sheet is made, which the proved reader takes, or the text is refused with a place. Whether it is made.
fn ends(text: &str, is_differential: bool) -> bool {
    match front::typing::read(text, is_differential) {
        Ok(typed) if typed.is_differential => assert!(System::from_differential(&typed.sheet).is_ok(), "{text}"),
        Ok(typed) => assert!(System::from_sheet(&typed.sheet).is_ok(), "{text}"),
        Err(unread) => {
            assert!(unread.place.line > 0 && unread.place.column > 0 && !unread.reason.is_empty(), "{text}");
            assert!(!unread.reason.contains(char::is_control), "{text}");
            return false;
        }
    }
    true
}

/// Parts of texts, put together at random.
#[rustfmt::skip]
const PARTS: &[&str] = &[
    "x", "y", "n", "(", ")", "+", "-", "*", "^", "=", ";", ":", ",", "'", "\n", " ", "0", "1", "2", "7", "99999999999",
    "at n = ", "unknowns ", "l = ", "t = ", "order ", "derivatives ", "powers ", "none", "x(n+1)", "y(n)", "x(n-64)",
    "n^15", "#", "\u{e9}", "/", "\0", "(n + 1)^64", " = 0\n", "y''", "y(x)", "y(0)", "xy", "sin(x)", "1e-3",
    "e", "\r", "\u{feff}",
];

#[test]
fn any_text_ends() {
    let mut random = Random::new(37);
    let mut taken = 0;
    for _ in 0..100_000 {
        let text: String = (0..1 + random.below(14)).map(|_| random.pick(PARTS)).collect();
        taken += usize::from(ends(&text, false)) + usize::from(ends(&text, true));
    }
    assert!(taken > 100, "{taken}");
}

/// Factors whose products come to the limits of every type.
const LARGE: &[&str] = &[
    "2^63",
    "2^64",
    "(-2)^63",
    "(-2)^64",
    "(-2)^31",
    "2^36",
    "2^27",
    "999999999999",
    "268435455",
    "(-1)",
    "0",
    "(n + 1)^30",
    "n^64",
    "(x - 1)^33",
    "(2^50 - 1)",
    "(2^50 + 2^50)",
    "(1 - 2^63)",
    "3",
    "x^2",
    "n",
];

/// Large factors in each place that has numbers.
#[test]
fn large_numbers_end() {
    let mut random = Random::new(45);
    let mut told = 0;
    for _ in 0..100_000 {
        let mut factors = || (0..1 + random.below(4)).map(|_| random.pick(LARGE)).collect::<Vec<_>>().join("*");
        let (a, b, c) = (factors(), factors(), factors());
        let text = match random.below(5) {
            0 => format!("x(n+1) + {a}*x(n) - {b}*x(n) = {c}"),
            1 => format!("x(n + {a}) = {b} - {c}"),
            2 => format!("at n = 5: {a} x({b}) = {c}; x(n) = 0"),
            3 => format!("{a}*y'' = {b}*y' - ({c})*y"),
            _ => format!("unknowns x; l = {a}; t = {b}\n{c} = x(n)"),
        };
        ends(&text, false);
        told += usize::from(sheet_of(&text, false).is_err_and(|unread| unread.reason.starts_with("too large")));
    }
    assert!(told > 1_000, "{told}");
}

/// Texts as they are made for the two readers.
#[test]
fn near_misses_end() {
    let mut random = Random::new(46);
    for _ in 0..20_000 {
        let text = compare::typed::texts::some(&mut random);
        ends(&text, random.one_in(3));
    }
}
