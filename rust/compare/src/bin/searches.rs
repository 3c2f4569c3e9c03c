//! The root search beside earlier ones, on the same 100 polynomials of degree 15. Each argument is NAME=PROGRAM, a build of `root_values`,
//! which reads polynomials and prints their roots; the first is the one that is measured. `tests/searches/run` builds that one.
//! All have to find the roots that `outside` finds. For each kind of polynomial a line of the table gives the
//! instructions and the time of one search, and what share of an earlier search each is. It ends with 1 if a share is above 1.

use compare::random::Random;
use outside::polynomial::Polynomial;
use outside::roots::integer_roots;
use outside::C;
use std::fs::{remove_file, write, File};
use std::path::{Path, PathBuf};
use std::process::{Command, Stdio};
use std::time::Instant;

/// Polynomials of each kind; there are five.
const OF_A_KIND: usize = 20;
/// A time is the shortest of so many passes.
const PASSES: usize = 7;
/// Instructions are counted over so many searches of each polynomial.
const COUNTED: u64 = 10;
/// A pass makes as many searches as take about so many instructions.
const INSTRUCTIONS_OF_A_PASS: f64 = 2e8;

// ---- the polynomials ----

fn coefficients(random: &mut Random, lowest: i128, highest: i128) -> Polynomial {
    let middle = (0..14).map(|_| random.between(-C, C)).collect::<Vec<_>>();
    Polynomial::new([vec![lowest], middle, vec![highest]].concat())
}

fn is_prime(n: i128) -> bool {
    (2..).take_while(|d| d * d <= n).all(|d| n % d != 0)
}

/// Coefficients up to ±C.
fn any(random: &mut Random) -> Polynomial {
    let (lowest, highest) = (random.between(-C, C), random.between(-C, C));
    coefficients(random, lowest, highest)
}

/// So that large roots cannot be left out at once.
fn small_highest(random: &mut Random) -> Polynomial {
    let (lowest, highest) = (random.between(-C, C), random.pick(&[1, 2, 3, -1, -2, -3]));
    coefficients(random, lowest, highest)
}

/// A prime near C has few divisors, and looking for them takes longest.
fn prime_lowest(random: &mut Random) -> Polynomial {
    let prime = (random.between(C - 100_000, C - 1_000)..).find(|&n| is_prime(n)).expect("a prime");
    let highest = random.pick(&[1, 2, 3, -1, -2, -3]);
    coefficients(random, prime, highest)
}

fn many_roots(random: &mut Random) -> Polynomial {
    let factors = (0..15).map(|_| Polynomial::linear(random.between(-4, 4)));
    factors.fold(Polynomial::new(vec![1]), |p, factor| p.times(&factor))
}

/// Seven squares of n + b/2 with something added, and 2 n + an odd number.
fn no_roots(random: &mut Random) -> Polynomial {
    let mut p = Polynomial::new(vec![2 * random.between(-4, 4) + 1, 2]);
    for _ in 0..7 {
        let b = random.between(-3, 3);
        p = p.times(&Polynomial::new(vec![b * b / 4 + random.between(1, 6), b, 1]));
    }
    p
}

type Kind = (&'static str, fn(&mut Random) -> Polynomial);

const KINDS: [Kind; 5] = [
    ("random to ±C", any),
    ("small highest coefficient", small_highest),
    ("lowest coefficient a prime near C", prime_lowest),
    ("many roots", many_roots),
    ("no roots", no_roots),
];

fn of_kind(random: &mut Random, make: fn(&mut Random) -> Polynomial) -> Vec<Polynomial> {
    let all = std::iter::repeat_with(|| make(random));
    all.filter(|p| p.degree() == 15 && p.size() <= C).take(OF_A_KIND).collect()
}

// ---- the programs ----

/// A file with the polynomials, each to be searched so often.
fn input(polynomials: &[Polynomial], searches: u64) -> PathBuf {
    let line = |p: &Polynomial| p.coefficients().iter().map(|a| a.to_string()).collect::<Vec<_>>().join(" ");
    let lines: Vec<String> = polynomials.iter().map(line).collect();
    let path = std::env::temp_dir().join(format!("wurgalm-searches-{}-{searches}", std::process::id()));
    write(&path, format!("{searches}\n{}\n", lines.join("\n"))).expect("the input is written");
    path
}

fn command(program: &str, input: &Path) -> Command {
    let mut command = Command::new(program);
    command.stdin(File::open(input).expect("the input is there"));
    command
}

/// The roots that a program prints: what stands between "roots" and " from".
fn printed(program: &str, polynomials: &[Polynomial]) -> Vec<Vec<i128>> {
    let path = input(polynomials, 1);
    let output = command(program, &path).output().expect("the program runs").stdout;
    remove_file(path).expect("the input is removed");
    let text = String::from_utf8(output).expect("text");
    let roots = |line: &str| -> Vec<i128> {
        let list = line.split(" from").next().expect("a first part");
        list.split_whitespace().map(|word| word.parse().expect("a number")).collect()
    };
    text.lines().filter_map(|line| line.strip_prefix("roots")).map(roots).collect()
}

/// What `measure` says of a run with one search of each polynomial, and of a run with so many more.
fn of_runs(polynomials: &[Polynomial], searches: u64, measure: impl Fn(&Path) -> f64) -> [f64; 2] {
    [1, 1 + searches].map(|n| {
        let path = input(polynomials, n);
        let measured = measure(&path);
        remove_file(path).expect("the input is removed");
        measured
    })
}

/// The part of one search, without what the process takes beside it.
fn of_a_search(polynomials: &[Polynomial], searches: u64, [once, more]: [f64; 2]) -> f64 {
    (more - once) / (searches as f64 * polynomials.len() as f64)
}

/// By callgrind, of the whole process.
fn instructions(program: &str, path: &Path) -> f64 {
    let mut command = Command::new("valgrind");
    command.args(["--tool=callgrind", "--callgrind-out-file=/dev/null", program]);
    let output = command.stdin(File::open(path).expect("the input is there")).output().expect("valgrind runs");
    let text = String::from_utf8_lossy(&output.stderr).into_owned();
    let line = text.lines().find(|line| line.contains("Collected")).expect("a number of instructions");
    line.rsplit(' ').next().and_then(|word| word.parse().ok()).expect("a number")
}

fn seconds(program: &str, path: &Path) -> f64 {
    let start = Instant::now();
    command(program, path).stdout(Stdio::null()).status().expect("the program runs");
    start.elapsed().as_secs_f64()
}

/// The time of a search by each program, from the shortest runs; in every pass each program has its turn.
fn times(programs: &[(&str, &str)], polynomials: &[Polynomial], counted: &[f64]) -> Vec<f64> {
    let searches = |k: usize| (INSTRUCTIONS_OF_A_PASS / (counted[k] * polynomials.len() as f64)).ceil() as u64;
    let mut shortest = vec![[f64::INFINITY; 2]; programs.len()];
    for _ in 0..PASSES {
        for (k, (_, program)) in programs.iter().enumerate() {
            let [once, more] = of_runs(polynomials, searches(k), |path| seconds(program, path));
            shortest[k] = [shortest[k][0].min(once), shortest[k][1].min(more)];
        }
    }
    shortest.iter().enumerate().map(|(k, &runs)| of_a_search(polynomials, searches(k), runs)).collect()
}

// ---- the table ----

/// A line of the table: each program's measure and, for the earlier ones, the share. True if none is above 1.
fn line(what: &str, measured: &[f64]) -> bool {
    let cells = measured.iter().enumerate().map(|(k, &m)| match k {
        0 => format!(" {m:.0} |"),
        _ => format!(" {m:.0} | {:.3} |", measured[0] / m),
    });
    println!("| {what} |{}", cells.collect::<String>());
    measured.iter().all(|&m| measured[0] <= m)
}

fn main() {
    let arguments: Vec<String> = std::env::args().skip(1).collect();
    let programs: Vec<(&str, &str)> = arguments.iter().map(|a| a.split_once('=').expect("NAME=PROGRAM")).collect();
    let earlier: String = programs.iter().skip(1).map(|(name, _)| format!(" {name} | share |")).collect();
    println!("| kind | {} |{earlier}", programs[0].0);
    println!("|---|---:|{}", "---:|---:|".repeat(programs.len() - 1));
    let mut random = Random::new(4);
    let mut no_slower = true;
    for (what, make) in KINDS {
        let polynomials = of_kind(&mut random, make);
        let expected: Vec<Vec<i128>> = polynomials.iter().map(integer_roots).collect();
        for (name, program) in &programs {
            assert!(printed(program, &polynomials) == expected, "{what}: {name} finds other roots");
        }
        let count = |program: &str| of_runs(&polynomials, COUNTED, |path| instructions(program, path));
        let counted: Vec<f64> =
            programs.iter().map(|(_, program)| of_a_search(&polynomials, COUNTED, count(program))).collect();
        let timed = times(&programs, &polynomials, &counted);
        no_slower &= line(&format!("{what}: instructions"), &counted);
        no_slower &= line(&format!("{what}: nanoseconds"), &timed.iter().map(|t| t * 1e9).collect::<Vec<_>>());
    }
    if !no_slower {
        println!("A search takes more than an earlier one.");
        std::process::exit(1);
    }
}
