//! Times of the proved library and program, each as a ratio to the version of `fast`. Build all programs with --release: the batch
//! program of the fast version is one of its own, so that a process is compared with a process.
//!
//!     bench                   the tables of docs/BENCHMARKS.md: batches, then single calls
//!     bench batches KIND ..   the first of them, of these kinds; of all where none is named
//!     bench calls             the second
//!     bench once SIDE CALL    one pass of `library` or `fast` over 100 cases of one call, for a profile
//!     bench kinds             what the seven kinds of batches are, and how much elimination is in each
//!     bench inputs FOLDER     writes those batches into a folder
//!     bench series FILE.csv   measures the series, and writes them and FILE.svg, their picture
//!     bench picture FILE.csv  draws that picture again

use compare::bench::calls::{self as single, BENCHES};
use compare::bench::process::Program;
use compare::bench::{batches, curves, kinds, picture};
use compare::fast;
use compare::random::Random;
use compare::sheets::whole_sheet;
use compare::subject::Library;
use compare::systems::large_system;
use outside::sheet::{write, Sheet};
use std::fs;
use std::hint::black_box;
use std::io;
use std::path::Path;
use std::time::{Duration, Instant};
use wurgalm::Heading;

const SHEETS: usize = 1_000;
/// A measurement is the shortest of so many passes.
const PASSES: usize = 7;

/// The shortest time of a pass.
fn shortest(mut pass: impl FnMut()) -> Duration {
    let timed = |_| {
        let start = Instant::now();
        pass();
        start.elapsed()
    };
    (0..PASSES).map(timed).min().expect("at least one pass")
}

// ---- what is measured ----

/// Four unknowns and five blocks.
fn large_sheets(random: &mut Random) -> Vec<Vec<u8>> {
    let mut one = || write(&Sheet { system: large_system(random), order: Vec::new() });
    (0..SHEETS).map(|_| one()).collect()
}

// ---- the two sides ----

/// Stores of the largest sizes.
struct Stores {
    rows: Vec<i64>,
    relations: Vec<i64>,
}

impl Stores {
    fn new() -> Stores {
        Stores { rows: vec![0; wurgalm::row_store(wurgalm::EQUATIONS)], relations: vec![0; wurgalm::RELATION_STORE] }
    }

    /// A sheet in the stores.
    fn of(sheet: &[u8]) -> (Stores, Heading) {
        let mut stores = Stores::new();
        let heading = wurgalm::read_sheet(sheet, &mut stores.rows, &mut stores.relations).expect("a whole sheet");
        (stores, heading)
    }
}

/// One line of the table. Without the library there is a time of the fast version only.
fn line(what: &str, library: Option<Duration>, fast: Duration, bytes: Option<usize>) {
    let speed = |time: Duration| match bytes {
        Some(bytes) => format!("{:.1} MB/s", bytes as f64 / time.as_secs_f64() / 1e6),
        None => format!("{:.3} ms", time.as_secs_f64() * 1e3),
    };
    let ratio = library.map_or("-".into(), |time| format!("{:.2}", time.as_secs_f64() / fast.as_secs_f64()));
    println!("| {what} | {} | {} | {ratio} |", library.map_or("-".into(), speed), speed(fast));
}

fn reading_and_writing(library: bool) {
    let mut random = Random::new(4);
    let mut sheets: Vec<Vec<u8>> = (0..SHEETS / 2).map(|_| whole_sheet(&mut random)).collect();
    sheets.extend(large_sheets(&mut random).into_iter().take(SHEETS / 2));
    let bytes = sheets.iter().map(Vec::len).sum();
    line("reading sheets", library.then(|| reading(&sheets)), fast_reading(&sheets), Some(bytes));
    line("writing sheets", library.then(|| writing(&sheets)), fast_writing(&sheets), Some(bytes));
}

fn reading(sheets: &[Vec<u8>]) -> Duration {
    let mut stores = Stores::new();
    shortest(|| {
        for sheet in sheets {
            black_box(wurgalm::read_sheet(sheet, &mut stores.rows, &mut stores.relations)).expect("a whole sheet");
        }
    })
}

fn fast_reading(sheets: &[Vec<u8>]) -> Duration {
    let mut system = fast::System::new();
    shortest(|| sheets.iter().for_each(|sheet| fast::read(sheet, &mut system).expect("a whole sheet")))
}

fn writing(sheets: &[Vec<u8>]) -> Duration {
    let lent: Vec<(Stores, Heading)> = sheets.iter().map(|sheet| Stores::of(sheet)).collect();
    let mut bytes = vec![0; 1 << 17];
    shortest(|| {
        for (stores, heading) in &lent {
            let written = wurgalm::write_sheet(&stores.rows, &stores.relations, heading, &mut bytes);
            black_box(written).expect("a valid system");
        }
    })
}

fn fast_writing(sheets: &[Vec<u8>]) -> Duration {
    let systems: Vec<Box<fast::System>> = sheets.iter().map(|sheet| fast_system(sheet)).collect();
    let mut output = Vec::with_capacity(1 << 17);
    shortest(|| {
        for system in &systems {
            output.clear();
            fast::write(system, &mut output);
            black_box(&output);
        }
    })
}

fn fast_system(sheet: &[u8]) -> Box<fast::System> {
    let mut system = fast::System::new();
    fast::read(sheet, &mut system).expect("a whole sheet");
    system
}

/// Writes the measured series into a file, and the picture of them beside it.
fn series(file: &Path) -> io::Result<()> {
    let program = Program::proved(&Library::needed());
    fs::write(file, curves::written(&curves::points(&program)))?;
    draw(file)
}

/// The picture of series that are in a file, beside it.
fn draw(file: &Path) -> io::Result<()> {
    let text = fs::read_to_string(file)?;
    let points = curves::read(&text).expect("a file of series");
    fs::write(file.with_extension("svg"), picture::drawn(&points))
}

/// The table of single calls.
fn calls(library: bool) {
    println!("| what | library | fast version | ratio |");
    println!("|---|---:|---:|---:|");
    single::calls(library);
    reading_and_writing(library);
}

/// The library, where it is built.
fn library() -> Option<Library> {
    let library = Library::found();
    if library.is_none() {
        eprintln!("The library is not built: times of the fast version only.");
    }
    library
}

fn main() -> io::Result<()> {
    let arguments: Vec<String> = std::env::args().skip(1).collect();
    let timed = |names: &[&str]| batches::table(library().as_ref().map(Program::proved).as_ref(), names);
    match &arguments.iter().map(String::as_str).collect::<Vec<_>>()[..] {
        [] => {
            timed(&[]);
            println!();
            calls(library().is_some());
        }
        ["batches", names @ ..] => timed(names),
        ["calls"] => calls(library().is_some()),
        ["once", side, name] => {
            BENCHES.iter().filter(|bench| bench.name == *name).for_each(|bench| bench.once(*side == "library", 100));
        }
        ["kinds"] => batches::contents(),
        ["inputs", folder] => kinds::write_inputs(Path::new(folder))?,
        ["series", file] => series(Path::new(file))?,
        ["picture", file] => draw(Path::new(file))?,
        _ => {
            eprintln!("bench [batches KIND .. | calls | once SIDE CALL | kinds | inputs FOLDER | series FILE.csv | picture FILE.csv]");
            std::process::exit(2);
        }
    }
    Ok(())
}
