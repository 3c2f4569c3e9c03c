//! Every subcommand on damaged files, texts and options, in process: none panics, each ends in time, no message and no
//! answer has a control character, and the exit status is one of the manual's, with the usage behind wrong use alone.
//!
//! A case is drawn from its number. `WURGALM_ATTACKS` says how many there are, `WURGALM_ATTACK` is the number of one
//! alone, `WURGALM_ATTACK_LEFT_OUT` names subcommands that are left out. tests/attack/run has overflow checked, and
//! many more cases than a plain test.

use compare::differentials::{differential, whole_differential};
use compare::random::Random;
use compare::sheets::{sheet, whole_sheet};
use front::command::{dispatch, Ended};
use std::ffi::{OsStr, OsString};
use std::os::unix::ffi::{OsStrExt, OsStringExt};
use std::panic::{catch_unwind, AssertUnwindSafe};
use std::path::{Path, PathBuf};
use std::sync::Mutex;
use std::time::{Duration, Instant};
use std::{env, fs, thread};
use wurgalm::System;

/// Cases where no number is given.
const FEW: usize = 3_000;
/// How long a case may take.
const TIME: Duration = Duration::from_secs(10);
/// Kilobytes of memory that all cases together may need.
const MEMORY: usize = 100_000;

/// Numbers at the edges of what is read, with bars between them.
const NUMBERS: &str = "0|1|-1|2|-2|3|-0|00|+1|7|16|17|64|65|400|401|1048576|1048577|268435455|268435456|-268435455|\
    2147483648|4294967296|9223372036854775807|9223372036854775808|-9223372036854775808|18446744073709551615|\
    18446744073709551616|340282366920938463463374607431768211456|1e3|1/2|-1/3|1/0|0.5|1e400|NaN|inf|";

/// Parts of texts: what the grammar has, and what it has not.
const PARTS: &str = "x|y|z|w|n|x(n)|y(n+1)|x(n-1)|x(n+4)|y'|y''|z''''|x^2|(|)|+|-|*|^|=|;|:|,|\n| |#|at n = 0:|at n =|\
    unknowns x, y|unknowns|l = 1|t = 0|order|order x|derivatives 2|powers 2|none|sin(x)|e|1e-3|2^|(-2)^63|2^64|[|]|{|\
    \u{1b}[31m|\u{0}|\u{feff}|\u{202e}|é|∑|\r\n|\t|'|\"|\\|/|<|&";

/// Bytes that are put in.
const BYTES: &[u8] = b"0123456789-+ \n\r\t,;=()xyn'^*\x00\x1b\x7f\x9b\xff\xc3\xef";

/// Values of options, of whatever kind.
const VALUES: &str = "x|y|u,v|x,y,z,w|a,b,c,d,e|x,x|,|n,e|x(0)=1|y(2)=1|x(0)=1/2,y(0)=3|x(0)=|z(9)=1|\
    y(0)=99999999999999999999|0:1|1:0|-1:3/2|0:1e9|0:0|\u{1b}[2J|--sheet|-|--|ü";

/// One of those between the bars.
fn one_of(random: &mut Random, all: &'static str) -> &'static str {
    let all: Vec<&str> = all.split('|').collect();
    random.pick(&all)
}

fn damaged(random: &mut Random, mut bytes: Vec<u8>) -> Vec<u8> {
    for _ in 0..random.below(4) {
        let at = random.below(bytes.len() + 1);
        let length = (1 + random.below(6)).min(bytes.len() - at);
        match random.below(8) {
            0 => bytes.truncate(at),
            1 => drop(bytes.drain(at..at + length)),
            2 => bytes.insert(at, random.pick(BYTES)),
            3 if length > 0 => bytes[at] = random.pick(BYTES),
            4 => bytes = number_put(random, bytes),
            5 => {
                let part = bytes[at..at + length].to_vec();
                bytes.splice(at..at, part.repeat(1 + random.below(40)));
            }
            6 => bytes.splice(at..at, one_of(random, PARTS).bytes()).for_each(drop),
            _ => {
                let lines: Vec<&[u8]> = bytes.split_inclusive(|&byte| byte == b'\n').collect();
                bytes = random.permutation(lines.len()).iter().flat_map(|line| lines[line - 1].to_vec()).collect();
            }
        }
    }
    bytes
}

/// One of the numbers in the place of a word.
fn number_put(random: &mut Random, bytes: Vec<u8>) -> Vec<u8> {
    let ends = |byte: &u8| matches!(byte, b' ' | b'\n');
    let words = bytes.split(ends).count();
    let chosen = random.below(words);
    let mut made = Vec::new();
    for (at, word) in bytes.split_inclusive(ends).enumerate() {
        match word.last() {
            Some(last) if at == chosen && ends(last) => {
                made.extend(one_of(random, NUMBERS).bytes());
                made.push(*last);
            }
            _ => made.extend(word),
        }
    }
    made
}

fn text(random: &mut Random) -> Vec<u8> {
    let system = System::from_sheet(&whole_sheet(random));
    match (random.below(4), system) {
        (0 | 1, Ok(system)) => {
            let names = front::writing::UNKNOWNS.map(String::from);
            damaged(random, front::writing::system(&system, &names).into_bytes())
        }
        (2, _) => {
            let shown = b"x^2*y'' + x*y' + (x^2 - 4)*y = 0\n(1 - x)^3 z''' = 3*y' - 5; 2 x (x + 1) y = z\n".to_vec();
            damaged(random, shown)
        }
        _ if random.one_in(2) => {
            let equations = (0..1 + random.below(3)).map(|_| format!("{} = {}", sum(random), sum(random)));
            let whole = equations.collect::<Vec<_>>().join(random.pick(&["; ", "\n"])).into_bytes();
            if random.one_in(3) {
                damaged(random, whole)
            } else {
                whole
            }
        }
        _ => {
            let parts = 1 + random.below(30);
            (0..parts).flat_map(|_| part(random).bytes()).collect()
        }
    }
}

/// A sum of products, large numbers and powers among their factors.
fn sum(random: &mut Random) -> String {
    let is_differential = random.one_in(4);
    let product = |random: &mut Random| {
        let variable = if is_differential { "x" } else { "n" };
        let factors = (0..random.below(4)).map(|_| {
            let (number, power) = (one_of(random, NUMBERS), one_of(random, "2|3|15|16|31|63|64|127|1000"));
            match random.below(6) {
                5 => "(-2)^63*2^64".into(),
                0 => number.into(),
                1 => format!("({number})^{power}"),
                2 => format!("({variable} - {})^{power}", random.below(99)),
                3 => format!("{variable}^{power}"),
                _ => variable.into(),
            }
        });
        let mut factors: Vec<String> = factors.collect();
        let unknowns = if is_differential { ["y", "y'", "y''", "z"] } else { ["x(n)", "x(n+1)", "y(n)", "y(n-1)"] };
        factors.push(random.pick(&unknowns).into());
        factors.join(random.pick(&["*", " ", " * "]))
    };
    let products: Vec<String> = (0..1 + random.below(4)).map(|_| product(random)).collect();
    products.join(random.pick(&[" + ", " - ", "-"]))
}

fn part(random: &mut Random) -> &'static str {
    if random.one_in(4) {
        one_of(random, NUMBERS)
    } else {
        one_of(random, PARTS)
    }
}

fn record(random: &mut Random, columns: usize) -> Vec<u8> {
    let (vectors, most) = (random.below(12), random.pick(&[0, 0, 9]));
    let (first, is_csv) = (random.between(-5, 5), random.one_in(2));
    let mut lines = Vec::new();
    match is_csv {
        true if random.one_in(2) => lines.push(["n", "x", "y", "z", "w"][..=columns].join(",")),
        true => {}
        false => lines.push(format!("{first} {vectors}")),
    }
    for vector in 0..vectors {
        let mut values: Vec<String> = (0..columns).map(|_| random.between(-most, most).to_string()).collect();
        if is_csv {
            values.insert(0, (first + vector as i128).to_string());
        }
        lines.push(values.join(if is_csv { "," } else { " " }));
    }
    let end = random.pick(&["\n", "\r\n", "\r"]);
    let mark = if random.one_in(4) { "\u{feff}" } else { "" };
    let whole = format!("{mark}{}{end}", lines.join(end)).into_bytes();
    if random.one_in(2) {
        damaged(random, whole)
    } else {
        whole
    }
}

/// The log of a run, or some log where there is none.
fn log(random: &mut Random, whole: &[u8]) -> Vec<u8> {
    let logged = System::from_sheet(whole).and_then(|mut system| system.run_logged());
    let log = logged.map_or("up 1\nexchange 1 2\ndrop 1\norder 1 2\n".into(), |(_, log)| log.to_string());
    damaged(random, log.into_bytes())
}

/// A folder for the files of one thread.
struct Folder(PathBuf);

impl Folder {
    /// A file of some name, which may have any bytes.
    fn put(&self, random: &mut Random, name: &str, bytes: &[u8]) -> OsString {
        let mut name = name.as_bytes().to_vec();
        if random.one_in(20) {
            name.splice(1..1, *b"\x1b[31m\xff\n");
        }
        let path = self.0.join(OsStr::from_bytes(&name));
        fs::write(&path, bytes).unwrap();
        path.into()
    }

    /// A sheet of either kind, named after it or not.
    fn system(&self, random: &mut Random) -> OsString {
        let is_differential = random.one_in(3);
        let made: [fn(&mut Random) -> Vec<u8>; 2] =
            if is_differential { [differential, whole_differential] } else { [sheet, whole_sheet] };
        let bytes = random.pick(&made)(random);
        let bytes = if random.one_in(4) { damaged(random, bytes) } else { bytes };
        let is_named_so = is_differential != random.one_in(10);
        self.put(random, if is_named_so { "a.differential" } else { "a.sheet" }, &bytes)
    }

    fn kept(&self, random: &mut Random) -> OsString {
        let words = ["steps", "--keep", "--budget", random.pick(&["1", "2", "3", "9"])].map(OsString::from);
        let whole = whole_sheet(random);
        let sheet = self.put(random, "b.sheet", &whole);
        let kept = dispatch(words.into_iter().chain([sheet]).collect()).unwrap_or_default();
        let kept = damaged(random, kept);
        self.put(random, "b.kept", &kept)
    }
}

/// What a subcommand is called with: its files, its options that have a value, and those that have none.
fn files(random: &mut Random, folder: &Folder, name: &str) -> Vec<OsString> {
    match name {
        "type" => {
            let typed = text(random);
            if random.one_in(2) {
                let bytes = typed.into_iter().filter(|&byte| byte != 0).collect();
                return vec!["-e".into(), OsString::from_vec(bytes)];
            }
            vec![folder.put(random, "a.equations", &typed)]
        }
        "fits" | "replay" => {
            let whole = whole_sheet(random);
            let system = System::from_sheet(&whole);
            let columns = if random.one_in(4) { 1 } else { system.map_or(1, |system| system.sizes().m) };
            let bytes = if name == "fits" { record(random, columns) } else { log(random, &whole) };
            let whole = if random.one_in(4) { damaged(random, whole) } else { whole };
            vec![folder.put(random, "a.sheet", &whole), folder.put(random, "a.log", &bytes)]
        }
        "steps" if random.one_in(2) => vec!["--resume".into(), folder.kept(random)],
        _ => vec![folder.system(random)],
    }
}

/// The subcommands with their options: a value is behind those that end in `=`. A batch writes as it goes, and is
/// tested as a process.
const SUBCOMMANDS: &[(&str, &[&str])] = &[
    ("show", &["--differential", "--names="]),
    ("type", &["--differential"]),
    ("check", &["--differential"]),
    ("run", &["--trailing", "--sheet", "--json", "--differential", "--names="]),
    ("induce", &["--sheet", "--names=", "--differential"]),
    ("steps", &["--budget=", "--keep", "--differential", "--names="]),
    ("fits", &["--differential", "--csv"]),
    ("log", &["--differential"]),
    ("replay", &["--sheet", "--json", "--differential", "--names="]),
    ("solutions", &["--differential", "--names="]),
    (
        "series",
        &["--first=", "--zero-below=", "--from=", "--terms=", "--start=", "--free", "--over=", "--of=", "--names="],
    ),
];

fn options(random: &mut Random, known: &[&str], words: &mut Vec<OsString>) {
    let count = random.pick(&[0, 0, 0, 1, 1, 2, 3]);
    for _ in 0..count {
        let option = if random.one_in(30) { one_of(random, PARTS) } else { random.pick(known) };
        let value = if random.one_in(2) { one_of(random, NUMBERS) } else { one_of(random, VALUES) };
        let at = random.below(words.len() + 1);
        match option.strip_suffix('=') {
            None => words.insert(at, option.into()),
            Some(_) if random.one_in(2) => words.insert(at, format!("{option}{value}").into()),
            Some(name) => {
                words.insert(at, value.into());
                words.insert(at, name.into());
            }
        }
    }
}

fn case(number: usize, folder: &Folder) -> Vec<OsString> {
    let mut random = Random::new((45 << 40) + number as u64);
    let (name, known) = random.pick(SUBCOMMANDS);
    let mut words = files(&mut random, folder, name);
    options(&mut random, known, &mut words);
    words.insert(0, name.into());
    words
}

/// Whether a text has no control character but the ends of its lines.
fn is_plain(text: &str) -> bool {
    !text.chars().any(|character| character.is_control() && character != '\n' || character == '\u{202e}')
}

/// What is wrong with an end, if something is. An answer may have been written as far as it was found.
fn fault(answer: &Result<Vec<u8>, Ended>, is_written: bool) -> Option<&'static str> {
    match answer {
        Ok(answer) => match std::str::from_utf8(answer) {
            Err(_) => Some("the answer is no UTF-8 text"),
            Ok(text) if !is_plain(text) => Some("the answer has a control character"),
            Ok("") if !is_written => Some("there is no answer"),
            Ok(_) => None,
        },
        Err(Ended { status, message }) => {
            let mut lines = message.lines();
            let first = lines.next().unwrap_or_default();
            let is_wrong_use = lines.next().is_some_and(|line| line.starts_with("usage: wurgalm "));
            match status {
                1 | 2 if !first.starts_with("wurgalm: ") => Some("the message does not begin with the command"),
                1 if message.lines().count() > 1 => Some("a refusal has more than its line"),
                2 if !is_wrong_use && message.lines().count() > 1 => Some("no usage behind the message"),
                1 | 2 if !is_plain(message) => Some("the message has a control character"),
                1 | 2 if first.chars().count() > 4_100 => Some("the message is too long"),
                1 | 2 => None,
                _ => Some("the exit status is none of the manual's"),
            }
        }
    }
}

fn shown(words: &[OsString]) -> String {
    let quoted = |word: &OsString| match fs::read(Path::new(word)) {
        Ok(bytes) => format!("<{}>", bytes.escape_ascii()),
        Err(_) => format!("'{}'", word.as_bytes().escape_ascii()),
    };
    words.iter().map(quoted).collect::<Vec<_>>().join(" ")
}

/// Runs a case, and tells what is wrong with how it ends.
fn attacked(number: usize, folder: &Folder, left_out: &str) -> (String, Option<String>) {
    let words = case(number, folder);
    let name = words[0].to_string_lossy().into_owned();
    if left_out.split(',').any(|left_out| left_out == name) {
        return (format!("{name} left out"), None);
    }
    let (begin, told) = (Instant::now(), shown(&words));
    let answer = catch_unwind(AssertUnwindSafe(|| dispatch(words)));
    let fault = match &answer {
        Err(_) => Some("a panic"),
        Ok(_) if begin.elapsed() > TIME => Some("it takes too long"),
        Ok(answer) => fault(answer, name == "series"),
    };
    let ended = match &answer {
        Ok(Ok(_)) => format!("{name} 0"),
        Ok(Err(Ended { status, .. })) => format!("{name} {status}"),
        Err(_) => format!("{name} panic"),
    };
    let fault = fault.map(|fault| format!("{number} ({ended}, {:?}): {fault}: {told}", begin.elapsed()));
    (ended, fault)
}

/// Kilobytes that the process has had at most.
fn peak() -> usize {
    let status = fs::read_to_string("/proc/self/status").unwrap_or_default();
    let line = status.lines().find_map(|line| line.strip_prefix("VmHWM:"));
    line.and_then(|line| line.split_whitespace().next()?.parse().ok()).unwrap_or(0)
}

#[test]
fn nothing_breaks() {
    let number = |name: &str| env::var(name).ok().and_then(|number| number.parse().ok());
    let one: Option<usize> = number("WURGALM_ATTACK");
    let count = number("WURGALM_ATTACKS").unwrap_or(FEW);
    let (first, last) = one.map_or((0, count), |one| (one, one + 1));
    let left_out = &env::var("WURGALM_ATTACK_LEFT_OUT").unwrap_or_default()[..];
    let threads = thread::available_parallelism().map_or(1, |count| count.get());
    let folder = Path::new(env!("CARGO_TARGET_TMPDIR")).join(format!("attack-{}", std::process::id()));
    let told = Mutex::new((Vec::new(), std::collections::BTreeMap::<String, usize>::new()));
    thread::scope(|scope| {
        for at in 0..threads {
            let (told, folder) = (&told, Folder(folder.join(at.to_string())));
            scope.spawn(move || {
                fs::create_dir_all(&folder.0).unwrap();
                for number in (first + at..last).step_by(threads) {
                    let (ended, fault) = attacked(number, &folder, left_out);
                    let mut told = told.lock().unwrap();
                    *told.1.entry(ended).or_default() += 1;
                    told.0.extend(fault);
                }
            });
        }
    });
    let _ = fs::remove_dir_all(&folder);
    let (faults, ends) = told.into_inner().unwrap();
    println!("{} cases, {} kB: {ends:?}", last - first, peak());
    assert!(faults.is_empty(), "{} faults\n{}", faults.len(), faults.join("\n"));
    assert!(peak() < MEMORY, "{} kB of memory", peak());
    // Each subcommand has come to an answer and to a refusal.
    let is_met = |(name, _): &(&str, _)| ["0", "1"].iter().all(|end| ends.contains_key(&format!("{name} {end}")));
    assert!(one.is_some() || !left_out.is_empty() || SUBCOMMANDS.iter().all(is_met), "{ends:?}");
}
