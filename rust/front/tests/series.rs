//! `wurgalm series`: known systems by hand, its arithmetic and its pictures. Random systems are held against the
//! input's equations by the comparison (`rust/compare/src/series`).

use compare::random::Random;
use compare::series::whole::Whole;
use front::command::End;
use front::series::clock::Clock;
use front::series::fractions::Fraction;
use front::series::integers::Integer;
use front::series::model::{Kind, Lacking, Model};
use front::series::of_sheet;
use front::series::plot::{points, Picture, STEPS};
use front::series::range::{Range, Value};
use wurgalm::System;

// ---- by hand ----

fn example(name: &str) -> System {
    let path = format!("{}/../../examples/{name}", env!("CARGO_MANIFEST_DIR"));
    let sheet = std::fs::read(path).unwrap();
    let read = if name.ends_with(".differential") { System::from_differential } else { System::from_sheet };
    read(&sheet).unwrap()
}

/// A range that is worked out to its end.
fn range(model: &Model, kind: Kind, shown: (i64, i64)) -> Result<Range, Lacking> {
    Range::new(model, kind, shown, shown.1, &Clock::quiet(None))
}

fn free(model: &Model, range: &Range) -> Vec<(i64, usize)> {
    range.free(model, &Clock::quiet(None)).unwrap()
}

fn set(range: &mut Range, index: i64, column: usize, value: &str) -> bool {
    range.set(index, column, &fraction(value), &Clock::quiet(None)).unwrap()
}

fn fraction(text: &str) -> Fraction {
    Fraction::read(text).unwrap()
}

#[test]
fn k2_has_one_constant() {
    for kind in [Kind::TwoSided, Kind::First(0)] {
        let model = Model::new(example("k2.sheet"), kind).unwrap();
        let mut range = range(&model, kind, (0, 6)).unwrap();
        assert_eq!((free(&model, &range), range.elsewhere), (vec![(0, 1)], 0));
        assert!(!set(&mut range, 0, 2, "1") && set(&mut range, 0, 1, "3/2"));
        for n in 0..=6 {
            let times = Fraction::from(n).times(&fraction("3/2"));
            assert_eq!(range.value(n, 1), Value::Given(fraction("3/2"), vec![]));
            assert_eq!(range.value(n, 2), Value::Given(times, vec![]));
        }
    }
}

#[test]
fn the_loaded_beam_has_two_constants() {
    let kind = Kind::First(0);
    let model = Model::new(example("loaded.sheet"), kind).unwrap();
    let mut range = range(&model, kind, (0, 4)).unwrap();
    assert_eq!((free(&model, &range), range.elsewhere), (vec![(0, 1), (0, 2)], 0));
    assert_eq!(range.value(0, 3), Value::Given(fraction("6"), vec![((0, 1), fraction("-4"))]));
    assert!(set(&mut range, 0, 1, "1") && set(&mut range, 0, 2, "0"));
    // w = 1, 0, 1, 2, 7/6 from M + 4w = 6 (n + 1), s' = M, w' = s.
    for (n, w) in ["1", "0", "1", "2", "7/6"].iter().enumerate() {
        assert_eq!(range.value(n as i64, 1), Value::Given(fraction(w), vec![]));
    }
}

#[test]
fn no_series_below_a_load() {
    let kind = Kind::ZeroBelow(0);
    let model = Model::new(example("loaded.sheet"), kind).unwrap();
    let is_told = |told: &str| told.contains("equation 3") && told.contains("n = -2");
    assert!(matches!(range(&model, kind, (0, 4)), Err(Lacking::None(told)) if is_told(&told)));
}

// ---- arithmetic ----

#[test]
fn integers_agree_with_those_of_the_machine() {
    let mut random = Random::new(311);
    for _ in 0..20_000 {
        let size = 1i128 << random.below(62);
        let (a, b) = (random.between(-size, size), random.between(-size, size));
        let (x, y) = (Integer::from(a as i64), Integer::from(b as i64));
        assert_eq!(x.plus(&y).to_string(), (a + b).to_string());
        let product = x.times(&y);
        assert_eq!(product.to_string(), (a * b).to_string());
        if b != 0 {
            let c = a * b + random.between(0, b.abs() - 1) * (a * b).signum();
            let (quotient, rest) = Integer::read(&c.to_string()).unwrap().divided(&y);
            assert_eq!((quotient.to_string(), rest.to_string()), ((c / b).to_string(), (c % b).to_string()));
        }
    }
}

#[test]
fn long_division_comes_back() {
    let mut random = Random::new(312);
    let limbs = |random: &mut Random| {
        let mut number = Integer::from(1);
        for _ in 0..random.below(12) {
            // Limbs of all ones and of zeros are those where a guess fails.
            let limb = random.pick(&[0, 0, 1, 0xffff_ffff, 0xffff_ffff, 0x8000_0000, 0x7fff_ffff, 12_345]);
            number = number.times(&Integer::from(1 << 32)).plus(&Integer::from(limb));
        }
        number
    };
    for _ in 0..20_000 {
        let (a, b) = (limbs(&mut random), limbs(&mut random));
        let (quotient, rest) = a.divided(&b);
        assert_eq!(quotient.times(&b).plus(&rest), a);
        assert!(!rest.is_negative() && rest.plus(&b.clone().negated()).is_negative());
        assert_eq!(Integer::read(&a.to_string()), Some(a.clone()));
        let divisor = a.times(&b).common_divisor(&b);
        assert_eq!(divisor, b);
    }
}

/// An integer of so many limbs, with long runs of ones and of zeros.
fn long(random: &mut Random, limbs: usize) -> Integer {
    let mut number = Integer::from(1);
    for _ in 0..limbs {
        let limb = random.pick(&[0, 1, i64::MAX, i64::MAX, 0x1234_5678_9abc_def1, 3]);
        number = number.shifted(64).plus(&Integer::from(limb));
    }
    if random.one_in(2) {
        number.negated()
    } else {
        number
    }
}

fn whole(number: &Integer) -> Whole {
    Whole::read(&number.to_string()).unwrap()
}

/// Products by halves, divisors by many steps at once and digits by halves, against numbers that share nothing with
/// them.
#[test]
fn long_integers_agree_with_others() {
    let mut random = Random::new(313);
    for round in 0..100 {
        let sizes = if round % 10 == 0 { 260 } else { 70 };
        let mut next = || {
            let limbs = random.below(sizes);
            long(&mut random, limbs)
        };
        let (a, b, c) = (next(), next(), next());
        assert_eq!(Integer::read(&a.to_string()), Some(a.clone()));
        assert_eq!(whole(&a.times(&b)), whole(&a).times(&whole(&b)));
        assert_eq!(a.times(&b).plus(&c), c.plus(&b.times(&a)));
        assert_eq!(whole(&a.plus(&b)), whole(&a).plus(&whole(&b)));
        let (quotient, rest) = a.times(&b).plus(&c).divided(&b);
        assert_eq!(quotient.times(&b).plus(&rest), a.times(&b).plus(&c));
        assert!(rest.clone().size().plus(&b.clone().size().negated()).is_negative());
        assert_eq!(whole(&a.common_divisor(&b)), whole(&a).divisor(&whole(&b)));
        let divisor = a.times(&c).common_divisor(&b.times(&c));
        assert!(divisor.divided(&c).1.is_zero());
        assert_eq!(whole(&divisor), whole(&a.times(&c)).divisor(&whole(&b.times(&c))));
        let bits = random.below(200) as i64;
        assert_eq!(a.shifted(bits).shifted(-bits), a);
    }
}

#[test]
fn polynomials_have_their_values() {
    let mut random = Random::new(314);
    for _ in 0..2_000 {
        let coefficients: Vec<i64> =
            (0..random.below(17)).map(|_| random.between(-(1 << 28), 1 << 28) as i64).collect();
        let size = 1 << random.below(21);
        let n = random.between(-size, size) as i64;
        let wide: Vec<i128> = coefficients.iter().map(|&a| a.into()).collect();
        assert_eq!(whole(&Integer::value(&coefficients, n)), Whole::value(&wide, n.into()));
    }
}

// ---- slow sheets ----

/// A polynomial as a sheet writes it: a product of factors n - a with roots up to 400 away, or random.
fn polynomial(random: &mut Random, degree: usize, size: i128, has_roots: bool) -> String {
    let mut coefficients: Vec<i128> = vec![1];
    if has_roots && random.one_in(2) {
        for _ in 0..1 + random.below(2) {
            let reach = random.pick(&[5, 60, 400]);
            let a = random.between(-reach, reach);
            let at = |p: &[i128], k: usize| p.get(k).copied().unwrap_or(0);
            let next = |p: &[i128], k: usize| if k == 0 { 0 } else { p[k - 1] } - a * at(p, k);
            coefficients = (0..=coefficients.len()).map(|k| next(&coefficients, k)).collect();
        }
    } else {
        coefficients = (0..=random.below(degree + 1)).map(|_| random.between(1, size)).collect();
    }
    let words: Vec<String> = coefficients.iter().map(i128::to_string).collect();
    format!("{} {}", words.len(), words.join(" "))
}

/// A row of a sheet; its leading block has roots.
fn row(random: &mut Random, m: usize, (l, t): (i64, i64), degree: usize, size: i128) -> String {
    let mut terms = Vec::new();
    for s in (t..=l).rev() {
        for c in 1..=m {
            if !random.one_in(4) {
                terms.push(format!(" {s} {c} {}", polynomial(random, degree, size, s == l)));
            }
        }
    }
    format!("{}{}\n", terms.len(), terms.concat())
}

/// Sheets of up to four unknowns, D up to 4, degrees up to 15, with roots and relations hundreds of indices away: such
/// took minutes.
#[test]
fn far_roots_take_no_long_time() {
    let mut random = Random::new(315);
    let mut answered = 0;
    for _ in 0..250 {
        let (m, d, t) = (2 + random.below(3), random.below(5) as i64, -(random.below(5) as i64));
        let (degree, size) = (random.pick(&[1, 2, 4, 8, 15]), random.pick(&[2, 9, 1_000, 20_000]));
        let rows: String = (0..m).map(|_| row(&mut random, m, (t + d, t), degree, size)).collect();
        let relations = random.pick(&[0, 0, 1, 3]);
        let relation = |random: &mut Random| {
            format!("{} {}", random.between(-300, 400), row(random, m, (t + d, t), degree.min(2), size))
        };
        let held: String = (0..relations).map(|_| relation(&mut random)).collect();
        let sheet = format!("3 {m} {} {t}\n{m}\n{rows}{relations}\n{held}0\n", t + d);
        let kind = random.pick(&["--first=0", "--first=-100", "--zero-below=0", "--from=0"]);
        let words = [kind, "--terms=3", "--limit=20s"].map(String::from);
        match of_sheet(&words, sheet.as_bytes()) {
            Ok(_) => answered += 1,
            Err(End::Refused(told)) => assert!(!told.contains("limit of"), "{words:?} {told}\n{sheet}"),
            Err(other) => panic!("{other:?}\n{sheet}"),
        }
    }
    assert!(answered > 60, "{answered}");
}

// ---- the picture ----

/// Every tag of a file is closed, in its place.
fn is_well_formed(svg: &str) -> bool {
    let (mut open, mut rest) = (Vec::new(), svg);
    while let Some(at) = rest.find('<') {
        let Some(end) = rest[at..].find('>') else { return false };
        let tag = &rest[at + 1..at + end];
        rest = &rest[at + end + 1..];
        let name = tag.trim_start_matches('/').split_whitespace().next().unwrap_or("");
        if tag.starts_with('?') || tag.ends_with('/') {
            continue;
        }
        if !tag.starts_with('/') {
            open.push(name);
        } else if open.pop() != Some(name) {
            return false;
        }
        if tag.matches('"').count() % 2 != 0 {
            return false;
        }
    }
    open.is_empty()
}

#[test]
fn the_picture_has_the_computed_points() {
    let kind = Kind::ZeroBelow(0);
    let model = Model::new(example("airy.differential"), kind).unwrap();
    let (shown, over) = ((0, 30), (fraction("-3"), fraction("3/2")));
    let mut curves = Vec::new();
    for (a, b) in [("1", "0"), ("0", "1")] {
        let mut range = range(&model, kind, shown).unwrap();
        assert!(set(&mut range, 0, 1, a) && set(&mut range, 1, 1, b));
        let number = |n| match range.value(n, 1) {
            Value::Given(number, others) if others.is_empty() => number,
            other => panic!("{other:?}"),
        };
        let values: Vec<Fraction> = (0..=30).map(number).collect();
        let points = points(0, &values, &over).unwrap();
        assert_eq!(points.len() as i64, STEPS + 1);
        for (step, (x, y)) in points.iter().enumerate() {
            let place = -3.0 + 4.5 * step as f64 / STEPS as f64;
            let (mut sum, mut term, mut second) = (0.0, a.parse::<f64>().unwrap(), b.parse::<f64>().unwrap() * place);
            // y(n+3) = y(n) / ((n+2)(n+3)), summed as numbers of the machine.
            for n in (0..=30).step_by(3) {
                sum += term + if n < 30 { second } else { 0.0 };
                let n = f64::from(n);
                term *= place.powi(3) / ((n + 2.0) * (n + 3.0));
                second *= place.powi(3) / ((n + 3.0) * (n + 4.0));
            }
            assert!((x - place).abs() < 1e-12 && (y - sum).abs() < 1e-9, "{x} {y} {sum}");
        }
        curves.push((format!("y(0) = {a} & y(1) < {b}"), points));
    }
    let picture = Picture { title: "a < b".into(), horizontal: "x".into(), vertical: "y".into(), curves };
    let (svg, at) = (picture.svg(), picture.places());
    assert!(is_well_formed(&svg), "{svg}");
    let drawn: Vec<&str> = svg.lines().filter(|line| line.starts_with("<polyline")).collect();
    assert_eq!(drawn.len(), 2);
    for (line, (_, points)) in drawn.iter().zip(&picture.curves) {
        let pairs: Vec<&str> = line.split('"').nth(1).unwrap().split(' ').collect();
        assert_eq!(pairs.len(), points.len());
        for (pair, &(x, y)) in pairs.iter().zip(points) {
            let (h, v) = pair.split_once(',').unwrap();
            let (h, v): (f64, f64) = (h.parse().unwrap(), v.parse().unwrap());
            let place = at(x, y);
            assert!((h - place.0).abs() < 0.006 && (v - place.1).abs() < 0.006);
        }
    }
}

/// The exponential series at -80 has terms of size 10^33 and the sum 10^-35: more bits are taken than a number of the
/// machine has.
#[test]
fn a_sum_that_cancels_is_right() {
    let (mut values, mut factorial) = (vec![fraction("1")], Fraction::from(1));
    for n in 1..400 {
        factorial = factorial.times(&Fraction::from(n));
        values.push(Fraction::from(1).over(&factorial));
    }
    let drawn = points(0, &values, &(fraction("-80"), fraction("-70"))).unwrap();
    for (x, y) in drawn {
        assert!((y / x.exp() - 1.0).abs() < 1e-12, "{x} {y}");
    }
}

#[test]
fn what_cannot_be_drawn() {
    let (one, ten) = ([fraction("1")], |digits: usize| format!("1{}", "0".repeat(digits)));
    let (large, next) = (ten(20), format!("{}1", &ten(20)[..20]));
    let intervals = [
        (large, next),
        ("0".into(), ten(305)),
        (format!("-{}", ten(308)), ten(308)),
        ("0".into(), format!("1/{}", ten(320))),
    ];
    for (from, to) in intervals {
        let told = points(0, &one, &(fraction(&from), fraction(&to))).unwrap_err();
        assert!(told.contains("interval cannot be drawn"), "{told}");
    }
    let large = points(400, &one, &(fraction("0"), fraction("100000"))).unwrap_err();
    assert!(large.contains("too large"), "{large}");
    let small = points(2_000, &one, &(fraction("0"), fraction("1/2"))).unwrap_err();
    assert!(small.contains("too small"), "{small}");
    // A constant is drawn in the middle, however large it is.
    for value in ["0", "1", "-7", &ten(299), "1/3"] {
        let points = points(0, &[fraction(value)], &(fraction("0"), fraction("1"))).unwrap();
        let curves = vec![("\u{1}\u{fffe}a\u{7f}".to_string(), points)];
        let picture = Picture { title: "\u{0}".into(), horizontal: "x".into(), vertical: "y".into(), curves };
        let svg = picture.svg();
        assert!(is_well_formed(&svg) && !svg.contains("NaN") && !svg.contains("inf"), "{svg}");
        assert!(svg.chars().all(|c| c == '\n' || !c.is_control() && c != '\u{fffe}'), "{svg}");
    }
}

/// Ticks of a narrow interval have so many digits that they differ.
#[test]
fn narrow_intervals_have_labels() {
    let points = points(0, &[fraction("0"), fraction("1")], &(fraction("1000000"), fraction("1000001"))).unwrap();
    let picture =
        Picture { title: "t".into(), horizontal: "x".into(), vertical: "y".into(), curves: vec![("a".into(), points)] };
    let svg = picture.svg();
    let labels: Vec<&str> = svg.lines().filter(|line| line.contains("text-anchor=\"middle\">1")).collect();
    let of = |line: &str| line.split('>').nth(1).unwrap_or("").to_string();
    assert!(labels.len() > 3 && labels.windows(2).all(|pair| of(pair[0]) != of(pair[1])), "{svg}");
}

#[test]
fn negative_powers_stand_away_from_zero() {
    let values = [fraction("1"), fraction("0"), fraction("2")];
    assert!(points(-1, &values, &(fraction("0"), fraction("1"))).is_err_and(|told| told.contains("negative powers")));
    let drawn = points(-1, &values, &(fraction("1"), fraction("2"))).unwrap();
    assert!((drawn[STEPS as usize].1 - 4.5).abs() < 1e-12);
}
