//! `wurgalm batch`: what the batch program writes, the sheets worked by several threads while others are still to come.
//!
//! The batch is read as it comes and taken apart into its sheets ([`frames`](crate::frames)). Each is a batch of its own for the proved
//! call; the answers are written in the order of the sheets, as soon as all before them are, and the tallies add up. What is left at
//! the end goes to the proved call as well. At most [`AHEAD`] sheets for each thread are held at a time.

use crate::command::{named, unread, Arguments, End, FileName, Outcome, Patient};
use crate::frames::{Broken, Frames, Next};
use crate::output::{self, say, write_to};
use std::fs::File;
use std::io::{self, IsTerminal, Read, Write};
use std::sync::mpsc::{channel, sync_channel, Receiver, Sender, SyncSender};
use std::sync::Mutex;
use std::thread::{self, Builder, Scope};
use wurgalm::{batch as work, batch_output, Refusal};

/// The clients are 1 to so many (SCOPE 5.2).
const CLIENTS: usize = 8;
/// Sheets for each thread that are read before the first of them is answered.
const AHEAD: usize = 4;
/// Bytes that are read at a time.
const PIECE: usize = 65_536;

/// The accepted and the refused sheets of each client.
type Tally = [[usize; 2]; CLIENTS];
/// What the proved call writes on a batch of one sheet.
type Answer = Result<Vec<u8>, Refusal>;

/// A sheet for a thread, and where its answer goes.
struct Job {
    sheet: Vec<u8>,
    answer: Sender<Answer>,
}

/// An answer that is still to come, and the sheets of the batch.
struct Turn {
    answer: Receiver<Answer>,
    of: usize,
}

/// How a batch came to its end.
#[derive(Debug)]
pub enum Ended {
    Whole,
    Broken(Broken),
    /// A read failed, which ends the batch (SCOPE 5.41).
    Unread(io::Error),
}

/// What the proved call writes on a batch of at most one sheet.
fn answer_to(input: &[u8]) -> Answer {
    let mut output = vec![0; batch_output(1)];
    let length = work(input, &mut output)?;
    output.truncate(length);
    Ok(output)
}

/// The answer at the front of the output of one sheet, and the tally behind it.
fn parted(output: &[u8]) -> Option<(&[u8], Tally)> {
    // Behind one sheet each of the eight lines is `0 0`, `1 0` or `0 1`.
    let (answer, lines) = output.split_at_checked(output.len().checked_sub(4 * CLIENTS)?)?;
    let mut tally = [[0; 2]; CLIENTS];
    for (line, counts) in lines.chunks(4).zip(&mut tally) {
        *counts = [line[0], line[2]].map(|digit| usize::from(digit - b'0'));
    }
    Some((answer, tally))
}

fn tally_lines(totals: &Tally) -> String {
    totals.iter().map(|[accepted, refused]| format!("{accepted} {refused}\n")).collect()
}

/// A bar on standard error, whose line ends with it.
struct Bar {
    is_shown: bool,
    is_open: bool,
}

impl Bar {
    fn show(&mut self, done: usize, of: usize) {
        let step = (of / 100).max(1);
        if self.is_shown && (done.is_multiple_of(step) || done == of) {
            let full = 40 * done / of.max(1);
            say(&format!("\r[{}{}] {done} of {of}", "#".repeat(full), ".".repeat(40 - full)));
            self.is_open = true;
        }
    }
}

impl Drop for Bar {
    fn drop(&mut self) {
        if self.is_open {
            say("\n");
        }
    }
}

/// The answers that are written: their tallies, and how many they are.
struct Answers<Writer> {
    writer: Writer,
    totals: Tally,
    written: usize,
    bar: Bar,
}

impl<Writer: Write> Answers<Writer> {
    fn new(writer: Writer, is_shown: bool) -> Answers<Writer> {
        let bar = Bar { is_shown, is_open: false };
        Answers { writer, totals: Tally::default(), written: 0, bar }
    }

    /// Writes the answer to the next sheet of so many.
    fn write(&mut self, output: Answer, of: usize) -> Result<(), End> {
        let output = output?;
        let Some((answer, tally)) = parted(&output) else { return Err(End::Failed("an answer has no tally".into())) };
        write_to(&mut self.writer, answer)?;
        for (total, count) in self.totals.iter_mut().flatten().zip(tally.iter().flatten()) {
            *total += count;
        }
        self.written += 1;
        self.bar.show(self.written, of);
        Ok(())
    }

    /// Writes the answers in their order, as soon as they are there.
    fn write_all(&mut self, turns: &Receiver<Turn>) -> Result<(), End> {
        for turn in turns {
            let answer = turn.answer.recv();
            self.write(answer.map_err(|_| End::Failed("a thread has ended without its answer".into()))?, turn.of)?;
        }
        Ok(())
    }
}

/// The work of a thread: sheets as long as there are some.
fn work_sheets(jobs: &Mutex<Receiver<Job>>) {
    loop {
        let job = jobs.lock().unwrap_or_else(|poisoned| poisoned.into_inner()).recv();
        let Ok(Job { sheet, answer }) = job else { return };
        // Nobody waits for it where writing has failed.
        let _ = answer.send(answer_to(&sheet));
    }
}

/// Hands out all sheets of the input, until it ends, breaks or cannot be read, or until `hand_out` fails.
fn read_sheets(
    input: &mut impl Read,
    frames: &mut Frames,
    mut hand_out: impl FnMut(Vec<u8>, usize) -> Option<()>,
) -> Ended {
    let mut piece = vec![0; PIECE];
    loop {
        let read = match input.read(&mut piece) {
            Ok(0) => return frames.ends_early().map_or(Ended::Whole, Ended::Broken),
            Ok(read) => read,
            Err(error) => return Ended::Unread(error),
        };
        frames.take(&piece[..read]);
        loop {
            match frames.next_part() {
                Next::Waits => break,
                Next::Breaks(broken) => return Ended::Broken(broken),
                Next::Sheet(sheet) => {
                    // Where no more can be written the end of the writing says why.
                    if hand_out(sheet, frames.count()).is_none() {
                        return Ended::Whole;
                    }
                }
            }
        }
    }
}

/// The threads of a batch: as many as there are sheets, up to a number, or to as many as can be started.
struct Threads<'scope, 'env> {
    scope: &'scope Scope<'scope, 'env>,
    jobs: &'env Mutex<Receiver<Job>>,
    start: Start,
    most: usize,
    started: usize,
    work: Sender<Job>,
    turns: SyncSender<Turn>,
}

impl Threads<'_, '_> {
    /// Starts one more thread, if one more may be and can be started.
    fn start_one(&mut self) {
        if self.started < self.most {
            let jobs = self.jobs;
            match (self.start)().and_then(|thread| thread.spawn_scoped(self.scope, move || work_sheets(jobs))) {
                Ok(_) => self.started += 1,
                Err(_) => self.most = self.started,
            }
        }
    }

    /// Hands out a sheet once there is room for it; nothing where its answer cannot be written any more.
    fn hand_out(&mut self, sheet: Vec<u8>, of: usize) -> Option<()> {
        self.start_one();
        let (answer, turn) = channel();
        self.turns.send(Turn { answer: turn, of }).ok()?;
        if self.started == 0 {
            return answer.send(answer_to(&sheet)).ok();
        }
        self.work.send(Job { sheet, answer }).ok()
    }
}

/// What begins a thread, or why none can be.
pub type Start = fn() -> io::Result<Builder>;

/// Works a batch as it comes, with so many threads, and writes what the batch program writes.
pub fn answers(input: impl Read, writer: impl Write + Send, jobs: usize, is_shown: bool) -> Result<Ended, End> {
    answers_with(|| Ok(Builder::new()), input, writer, jobs, is_shown)
}

/// Works a batch with as many of so many threads as can be started, and with none where none can.
pub fn answers_with(
    start: Start,
    input: impl Read,
    writer: impl Write + Send,
    jobs: usize,
    is_shown: bool,
) -> Result<Ended, End> {
    let (mut input, mut frames, mut answers) = (Patient(input), Frames::new(), Answers::new(writer, is_shown));
    let ended = match threaded(start, &mut input, &mut frames, &mut answers, jobs) {
        Some(ended) => ended?,
        None => alone(&mut input, &mut frames, &mut answers)?,
    };
    // The eight lines, or `3`.
    let mut last = answer_to(&frames.left_over())?;
    if last == tally_lines(&Tally::default()).as_bytes() {
        last = tally_lines(&answers.totals).into_bytes();
    }
    write_to(&mut answers.writer, &last)?;
    Ok(ended)
}

/// Works the sheets with several threads: one reads, one writes, and so many work. Nothing has been read where the one
/// that writes cannot be started.
fn threaded<Writer: Write + Send>(
    start: Start,
    input: &mut impl Read,
    frames: &mut Frames,
    answers: &mut Answers<Writer>,
    jobs: usize,
) -> Option<Result<Ended, End>> {
    // The turns bound the sheets that wait for a thread too.
    let (work, works) = channel();
    let (turns, ordered) = sync_channel(AHEAD * jobs);
    let works = Mutex::new(works);
    thread::scope(|scope| {
        let writing =
            start().and_then(|thread| thread.spawn_scoped(scope, move || answers.write_all(&ordered))).ok()?;
        let mut threads = Threads { scope, jobs: &works, start, most: jobs, started: 0, work, turns };
        let ended = read_sheets(input, frames, |sheet, of| threads.hand_out(sheet, of));
        drop(threads);
        let lost = |_| Err(End::Failed("the answers have not all been written".into()));
        Some(writing.join().unwrap_or_else(lost).map(|()| ended))
    })
}

/// Works the sheets one after the other.
fn alone(input: &mut impl Read, frames: &mut Frames, answers: &mut Answers<impl Write>) -> Result<Ended, End> {
    let mut failed = Ok(());
    let ended = read_sheets(input, frames, |sheet, of| {
        failed = answers.write(answer_to(&sheet), of);
        failed.is_ok().then_some(())
    });
    failed.map(|()| ended)
}

/// A batch of a file, or of standard input for `-`.
fn answers_of(file: &FileName, jobs: usize, is_shown: bool) -> Result<Ended, End> {
    let _watch = output::watch();
    let writer = output::stream()?;
    if &**file == "-" {
        return answers(io::stdin().lock(), writer, jobs, is_shown);
    }
    answers(File::open(file).map_err(|error| unread(file, error))?, writer, jobs, is_shown)
}

pub fn batch(mut arguments: Arguments) -> Outcome {
    let available = || thread::available_parallelism().map_or(1, |count| count.get());
    let jobs = match arguments.value("--jobs")?.map(|jobs| jobs.parse()) {
        None => available(),
        Some(Ok(jobs)) if (1..=256).contains(&jobs) => jobs,
        Some(_) => return Err(End::Misused("--jobs wants a number from 1 to 256".into())),
    };
    let is_shown = arguments.flag("--progress") || io::stderr().is_terminal();
    let file = arguments.files(0, 1)?.pop().unwrap_or_else(|| "-".into());
    match answers_of(&file, jobs, is_shown)? {
        Ended::Whole => Ok(Vec::new()),
        Ended::Broken(Broken { line, column, reason }) => {
            let place = format!("{}: line {line}, column {column}", named(&file));
            Err(End::Refused(format!("{place}: {reason} (the batch is broken, its answers end in 3)")))
        }
        Ended::Unread(error) => Err(unread(&file, error)),
    }
}
