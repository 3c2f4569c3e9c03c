//! What is compared: the outside implementation, right or with a planted fault, the proved library with its programs, and the calls of `fast`.

use crate::fast::calls;
use outside::elimination::Side;
use outside::fault::Fault;
use outside::logs::{replay_on_stores, run_logged_on_stores};
use outside::record::Record;
use outside::solutions::{solutions_on_stores, Lent};
use outside::step_calls::{prepare_on_stores, run_steps_on_stores};
use outside::stores::{batch_on_stores, check_record_on_stores, read_differential_on_stores, read_on_stores};
use outside::stores::{run_on_stores, write_on_stores, write_recurrence_on_stores, Asked};
use std::env;
use std::io::{Read, Write};
use std::path::{Path, PathBuf};
use std::process::{ChildStdin, Command, Stdio};

/// The calls on stores and the programs, with the arguments of the exported functions.
pub trait Subject {
    fn name(&self) -> String;
    fn run(&self, side: Side, rows: &mut [i64], relations: &mut [i64], asked: Asked, result: &mut [i64]) -> u8;
    fn read(&self, bytes: &[u8], rows: &mut [i64], relations: &mut [i64], result: &mut [i64]) -> u8;
    #[allow(clippy::too_many_arguments)]
    fn write(
        &self,
        rows: &[i64],
        relations: &[i64],
        asked: Asked,
        order: &[i64],
        bytes: &mut [u8],
        result: &mut [i64],
    ) -> u8;
    /// What the batch program writes.
    fn batch(&self, input: &[u8]) -> Vec<u8>;
    /// The same by a call on stores.
    fn batch_call(&self, input: &[u8], output: &mut [u8], result: &mut [i64]) -> u8;
    fn read_differential(&self, bytes: &[u8], rows: &mut [i64], relations: &mut [i64], result: &mut [i64]) -> u8;
    fn write_recurrence(&self, sheet: &[u8], bytes: &mut [u8], result: &mut [i64]) -> u8;
    /// What the program `induce` writes.
    fn induce(&self, input: &[u8]) -> Vec<u8>;
    fn check_record(&self, rows: &[i64], relations: &[i64], asked: Asked, record: &Record, result: &mut [i64]) -> u8;
    fn prepare(&self, rows: &[i64], relations: &[i64], asked: Asked, state: &mut [i64]) -> u8;
    fn run_steps(
        &self,
        rows: &mut [i64],
        relations: &mut [i64],
        state: &mut [i64],
        budget: usize,
        result: &mut [i64],
    ) -> u8;
    fn run_logged(
        &self,
        rows: &mut [i64],
        relations: &mut [i64],
        asked: Asked,
        log: &mut [i64],
        result: &mut [i64],
    ) -> u8;
    fn replay(
        &self,
        rows: &mut [i64],
        relations: &mut [i64],
        asked: Asked,
        steps: usize,
        log: &[i64],
        result: &mut [i64],
    ) -> u8;
    fn solutions(&self, rows: &[i64], relations: &[i64], asked: Asked, lent: Lent, result: &mut [i64]) -> u8;
}

/// The outside implementation.
pub struct Outside(pub Option<Fault>);

impl Subject for Outside {
    fn name(&self) -> String {
        self.0.map_or("outside".into(), |fault| format!("{fault:?}"))
    }

    fn run(&self, side: Side, rows: &mut [i64], relations: &mut [i64], asked: Asked, result: &mut [i64]) -> u8 {
        run_on_stores(side, rows, relations, asked, result, self.0)
    }

    fn read(&self, bytes: &[u8], rows: &mut [i64], relations: &mut [i64], result: &mut [i64]) -> u8 {
        read_on_stores(bytes, rows, relations, result, self.0)
    }

    fn write(
        &self,
        rows: &[i64],
        relations: &[i64],
        asked: Asked,
        order: &[i64],
        bytes: &mut [u8],
        result: &mut [i64],
    ) -> u8 {
        write_on_stores(rows, relations, asked, order, bytes, result, self.0)
    }

    fn batch(&self, input: &[u8]) -> Vec<u8> {
        outside::batch::output(input, self.0)
    }

    fn batch_call(&self, input: &[u8], output: &mut [u8], result: &mut [i64]) -> u8 {
        batch_on_stores(input, output, result, self.0)
    }

    fn read_differential(&self, bytes: &[u8], rows: &mut [i64], relations: &mut [i64], result: &mut [i64]) -> u8 {
        read_differential_on_stores(bytes, rows, relations, result, self.0)
    }

    fn write_recurrence(&self, sheet: &[u8], bytes: &mut [u8], result: &mut [i64]) -> u8 {
        write_recurrence_on_stores(sheet, bytes, result, self.0)
    }

    fn induce(&self, input: &[u8]) -> Vec<u8> {
        outside::differential::output(input, self.0)
    }

    fn check_record(&self, rows: &[i64], relations: &[i64], asked: Asked, record: &Record, result: &mut [i64]) -> u8 {
        check_record_on_stores(rows, relations, asked, record, result, self.0)
    }

    fn prepare(&self, rows: &[i64], relations: &[i64], asked: Asked, state: &mut [i64]) -> u8 {
        prepare_on_stores(rows, relations, asked, state, self.0)
    }

    fn run_steps(
        &self,
        rows: &mut [i64],
        relations: &mut [i64],
        state: &mut [i64],
        budget: usize,
        result: &mut [i64],
    ) -> u8 {
        run_steps_on_stores(rows, relations, state, budget, result, self.0)
    }

    fn run_logged(
        &self,
        rows: &mut [i64],
        relations: &mut [i64],
        asked: Asked,
        log: &mut [i64],
        result: &mut [i64],
    ) -> u8 {
        run_logged_on_stores(rows, relations, asked, log, result, self.0)
    }

    fn replay(
        &self,
        rows: &mut [i64],
        relations: &mut [i64],
        asked: Asked,
        steps: usize,
        log: &[i64],
        result: &mut [i64],
    ) -> u8 {
        replay_on_stores(rows, relations, asked, steps, log, result, self.0)
    }

    fn solutions(&self, rows: &[i64], relations: &[i64], asked: Asked, lent: Lent, result: &mut [i64]) -> u8 {
        solutions_on_stores(rows, relations, asked, lent, result, self.0)
    }
}

/// The static library of `exports_c`, and the programs `regularise` and `induce`.
pub struct Library {
    program: PathBuf,
    induce: PathBuf,
}

/// A program of the repository's `target/bin`, or what a variable names in its place.
fn program(name: &str, variable: &str) -> PathBuf {
    match env::var_os(variable) {
        Some(program) => PathBuf::from(program),
        None => Path::new(env!("CARGO_MANIFEST_DIR")).join("../../target/bin").join(name),
    }
}

impl Library {
    /// The library and the programs, `None` where one of these is not built. WURGALM_PROGRAM names another batch
    /// program, WURGALM_INDUCE another `induce`.
    pub fn found() -> Option<Library> {
        let (program, induce) = (program("regularise", "WURGALM_PROGRAM"), program("induce", "WURGALM_INDUCE"));
        if program.exists() && induce.exists() {
            Some(Library { program, induce })
        } else {
            None
        }
    }

    /// As [`Library::found`], or a message and the end of the program.
    pub fn needed() -> Library {
        Library::found().unwrap_or_else(|| {
            eprintln!("needs target/bin/regularise and target/bin/induce: run `tools/build`");
            std::process::exit(2)
        })
    }

    pub fn program(&self) -> &Path {
        &self.program
    }

    pub fn induce_program(&self) -> &Path {
        &self.induce
    }
}

impl Subject for Library {
    fn name(&self) -> String {
        "library".into()
    }

    fn run(&self, side: Side, rows: &mut [i64], relations: &mut [i64], asked: Asked, result: &mut [i64]) -> u8 {
        let Asked { m, equations, l, t, count } = asked;
        match side {
            Side::Leading => wurgalm::stores::run_leading(rows, relations, m, equations, l, t, count, result),
            Side::Trailing => wurgalm::stores::run_trailing(rows, relations, m, equations, l, t, count, result),
        }
    }

    fn read(&self, bytes: &[u8], rows: &mut [i64], relations: &mut [i64], result: &mut [i64]) -> u8 {
        wurgalm::stores::read_sheet(bytes, rows, relations, result)
    }

    fn write(
        &self,
        rows: &[i64],
        relations: &[i64],
        asked: Asked,
        order: &[i64],
        bytes: &mut [u8],
        result: &mut [i64],
    ) -> u8 {
        let Asked { m, equations, l, t, count } = asked;
        wurgalm::stores::write_sheet(rows, relations, m, equations, l, t, count, order, bytes, result)
    }

    fn batch(&self, input: &[u8]) -> Vec<u8> {
        output_of(Command::new(&self.program), input)
    }

    fn batch_call(&self, input: &[u8], output: &mut [u8], result: &mut [i64]) -> u8 {
        wurgalm::stores::batch(input, output, result)
    }

    fn read_differential(&self, bytes: &[u8], rows: &mut [i64], relations: &mut [i64], result: &mut [i64]) -> u8 {
        wurgalm::stores::read_differential(bytes, rows, relations, result)
    }

    fn write_recurrence(&self, sheet: &[u8], bytes: &mut [u8], result: &mut [i64]) -> u8 {
        wurgalm::stores::write_recurrence(sheet, bytes, result)
    }

    fn induce(&self, input: &[u8]) -> Vec<u8> {
        output_of(Command::new(&self.induce), input)
    }

    fn check_record(&self, rows: &[i64], relations: &[i64], asked: Asked, record: &Record, result: &mut [i64]) -> u8 {
        let (Asked { m, equations, l, t, count }, Record { first, vectors, values }) = (asked, *record);
        wurgalm::stores::check_record(rows, relations, m, equations, l, t, count, first, vectors, values, result)
    }

    fn prepare(&self, rows: &[i64], relations: &[i64], asked: Asked, state: &mut [i64]) -> u8 {
        let Asked { m, equations, l, t, count } = asked;
        wurgalm::stores::prepare(rows, relations, m, equations, l, t, count, state)
    }

    fn run_steps(
        &self,
        rows: &mut [i64],
        relations: &mut [i64],
        state: &mut [i64],
        budget: usize,
        result: &mut [i64],
    ) -> u8 {
        wurgalm::stores::run_steps(rows, relations, state, budget, result)
    }

    fn run_logged(
        &self,
        rows: &mut [i64],
        relations: &mut [i64],
        asked: Asked,
        log: &mut [i64],
        result: &mut [i64],
    ) -> u8 {
        let Asked { m, equations, l, t, count } = asked;
        wurgalm::stores::run_logged(rows, relations, m, equations, l, t, count, log, result)
    }

    fn replay(
        &self,
        rows: &mut [i64],
        relations: &mut [i64],
        asked: Asked,
        steps: usize,
        log: &[i64],
        result: &mut [i64],
    ) -> u8 {
        let Asked { m, equations, l, t, count } = asked;
        wurgalm::stores::replay(rows, relations, m, equations, l, t, count, steps, log, result)
    }

    fn solutions(&self, rows: &[i64], relations: &[i64], asked: Asked, lent: Lent, result: &mut [i64]) -> u8 {
        let Asked { m, equations, l, t, count } = asked;
        let Lent { rows: a, relations: b, matrix, list } = lent;
        wurgalm::stores::solutions(rows, relations, m, equations, l, t, count, a, b, matrix, list, result)
    }
}

/// The calls of `fast`; what it has no call for is answered by the outside implementation.
pub struct Fast;

impl Subject for Fast {
    fn name(&self) -> String {
        "fast".into()
    }

    fn run(&self, side: Side, rows: &mut [i64], relations: &mut [i64], asked: Asked, result: &mut [i64]) -> u8 {
        let Asked { m, equations, l, t, count } = asked;
        match side {
            Side::Leading => calls::run_leading(rows, relations, m, equations, l, t, count, result),
            Side::Trailing => calls::run_trailing(rows, relations, m, equations, l, t, count, result),
        }
    }

    fn read(&self, bytes: &[u8], rows: &mut [i64], relations: &mut [i64], result: &mut [i64]) -> u8 {
        Outside(None).read(bytes, rows, relations, result)
    }

    fn write(
        &self,
        rows: &[i64],
        relations: &[i64],
        asked: Asked,
        order: &[i64],
        bytes: &mut [u8],
        result: &mut [i64],
    ) -> u8 {
        Outside(None).write(rows, relations, asked, order, bytes, result)
    }

    fn batch(&self, input: &[u8]) -> Vec<u8> {
        crate::fast::batch(input)
    }

    fn batch_call(&self, input: &[u8], output: &mut [u8], result: &mut [i64]) -> u8 {
        Outside(None).batch_call(input, output, result)
    }

    fn read_differential(&self, bytes: &[u8], rows: &mut [i64], relations: &mut [i64], result: &mut [i64]) -> u8 {
        Outside(None).read_differential(bytes, rows, relations, result)
    }

    fn write_recurrence(&self, sheet: &[u8], bytes: &mut [u8], result: &mut [i64]) -> u8 {
        Outside(None).write_recurrence(sheet, bytes, result)
    }

    fn induce(&self, input: &[u8]) -> Vec<u8> {
        Outside(None).induce(input)
    }

    fn check_record(&self, rows: &[i64], relations: &[i64], asked: Asked, record: &Record, result: &mut [i64]) -> u8 {
        let (Asked { m, equations, l, t, count }, Record { first, vectors, values }) = (asked, *record);
        calls::check_record(rows, relations, m, equations, l, t, count, first, vectors, values, result)
    }

    fn prepare(&self, rows: &[i64], relations: &[i64], asked: Asked, state: &mut [i64]) -> u8 {
        let Asked { m, equations, l, t, count } = asked;
        calls::prepare(rows, relations, m, equations, l, t, count, state)
    }

    fn run_steps(
        &self,
        rows: &mut [i64],
        relations: &mut [i64],
        state: &mut [i64],
        budget: usize,
        result: &mut [i64],
    ) -> u8 {
        calls::run_steps(rows, relations, state, budget, result)
    }

    fn run_logged(
        &self,
        rows: &mut [i64],
        relations: &mut [i64],
        asked: Asked,
        log: &mut [i64],
        result: &mut [i64],
    ) -> u8 {
        let Asked { m, equations, l, t, count } = asked;
        calls::run_logged(rows, relations, m, equations, l, t, count, log, result)
    }

    fn replay(
        &self,
        rows: &mut [i64],
        relations: &mut [i64],
        asked: Asked,
        steps: usize,
        log: &[i64],
        result: &mut [i64],
    ) -> u8 {
        let Asked { m, equations, l, t, count } = asked;
        calls::replay(rows, relations, m, equations, l, t, count, steps, log, result)
    }

    fn solutions(&self, rows: &[i64], relations: &[i64], asked: Asked, lent: Lent, result: &mut [i64]) -> u8 {
        let Asked { m, equations, l, t, count } = asked;
        let Lent { rows: a, relations: b, matrix, list } = lent;
        calls::solutions(rows, relations, m, equations, l, t, count, a, b, matrix, list, result)
    }
}

/// What a program writes on an input.
pub fn output_of(command: Command, input: &[u8]) -> Vec<u8> {
    // A program that ends at a broken line leaves the rest of its input unread.
    output_fed(command, |mut stdin, _| drop(stdin.write_all(input)))
}

/// What a program writes whose input comes from `feed`, which also gets the program's process number. A program that ends by a signal
/// has that said after its output.
pub fn output_fed(mut command: Command, feed: impl FnOnce(ChildStdin, u32) + Send) -> Vec<u8> {
    let mut child = command.stdin(Stdio::piped()).stdout(Stdio::piped()).spawn().expect("the program starts");
    let (stdin, number) = (child.stdin.take().expect("a pipe"), child.id());
    let mut output = Vec::new();
    std::thread::scope(|scope| {
        scope.spawn(move || feed(stdin, number));
        child.stdout.take().expect("a pipe").read_to_end(&mut output).expect("the output is read");
    });
    let status = child.wait().expect("the program ends");
    if status.code().is_none() {
        output.extend(format!("{status}").bytes());
    }
    output
}
