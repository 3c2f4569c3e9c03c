//! Clients of the batch program that wait for each answer before they send the next sheet, and outputs that cannot be written.

use crate::batches::sheet_with_answer_of;
use crate::cases::text;
use crate::random::Random;
use outside::batch::{answer, CLIENTS};
use std::fs::OpenOptions;
use std::io::{Read, Write};
use std::process::{Child, Command, Stdio};
use std::sync::mpsc::{channel, Receiver};
use std::thread::spawn;
use std::time::{Duration, Instant};

/// How long a client waits for an answer.
const PATIENCE: Duration = Duration::from_secs(3);

const K2: &[u8] = b"3 2 1 0\n2\n2 1 1 2 0 1 0 2 1 -1\n2 1 1 1 1 0 1 1 -1\n0\n0\n";

/// What the program writes for a sheet.
fn answered(sheet: &[u8]) -> Vec<u8> {
    match answer(sheet, None) {
        Ok(text) => [b"0\n", &text[..]].concat(),
        Err(refusal) => format!("{}\n", refusal.number()).into_bytes(),
    }
}

/// A program whose output is taken as it comes.
struct Talk {
    child: Child,
    output: Receiver<Vec<u8>>,
}

impl Talk {
    fn with(mut command: Command) -> Talk {
        let mut child = command.stdin(Stdio::piped()).stdout(Stdio::piped()).spawn().expect("the program starts");
        let mut stdout = child.stdout.take().expect("a pipe");
        let (sender, output) = channel();
        spawn(move || {
            let mut bytes = vec![0; 1 << 17];
            while let Ok(count @ 1..) = stdout.read(&mut bytes) {
                if sender.send(bytes[..count].to_vec()).is_err() {
                    return;
                }
            }
        });
        Talk { child, output }
    }

    fn send(&mut self, bytes: &[u8]) {
        let sent = self.child.stdin.as_mut().map(|stdin| stdin.write_all(bytes));
        drop(sent);
    }

    /// The input ends.
    fn close(&mut self) {
        self.child.stdin = None;
    }

    /// As many bytes as are expected, or those that came while the client was patient.
    fn take(&mut self, count: usize) -> Vec<u8> {
        let until = Instant::now() + PATIENCE;
        let mut taken = Vec::new();
        while taken.len() < count {
            match self.output.recv_timeout(until.saturating_duration_since(Instant::now())) {
                Ok(bytes) => taken.extend(bytes),
                Err(_) => break,
            }
        }
        taken
    }

    fn expect(&mut self, what: &str, expected: &[u8]) -> Result<(), String> {
        let taken = self.take(expected.len());
        if taken == expected {
            Ok(())
        } else {
            Err(format!("{what}: within {PATIENCE:?} came\n{}and not\n{}", text(&taken), text(expected)))
        }
    }
}

impl Drop for Talk {
    fn drop(&mut self) {
        drop(self.child.kill());
        drop(self.child.wait());
    }
}

/// A client sends the count and the first sheet, waits for its answer, sends the next.
fn waits(command: Command, sheets: &[&[u8]]) -> Result<(), String> {
    let mut talk = Talk::with(command);
    talk.send(format!("{}\n", sheets.len()).as_bytes());
    let mut counts = [(0, 0); CLIENTS];
    for (k, sheet) in sheets.iter().enumerate() {
        let place = k % CLIENTS;
        talk.send(format!("{} {}\n", place + 1, sheet.len()).as_bytes());
        talk.send(sheet);
        let expected = answered(sheet);
        let accepted = expected.starts_with(b"0");
        counts[place].0 += accepted as usize;
        counts[place].1 += !accepted as usize;
        talk.expect(&format!("sheet {} of {}", k + 1, sheets.len()), &expected)?;
    }
    talk.close();
    let last: String = counts.map(|(accepted, refused)| format!("{accepted} {refused}\n")).concat();
    talk.expect("the last lines", last.as_bytes())
}

/// The answers that have to come before more is sent. Returns what was different.
pub fn waiting(start: &dyn Fn() -> Command) -> Vec<Result<(), String>> {
    let long = sheet_with_answer_of(&mut Random::new(9), 65_000);
    let talks: [&[&[u8]]; 5] = [&[K2], &[K2, K2], &[b"", K2, b"x"], &[b"", b"", b""], &[&long, K2, &long]];
    talks.map(|sheets| waits(start(), sheets)).into()
}

// ---- outputs that cannot be written ----

/// What a program says on standard error about an input and an output.
fn told(mut command: Command, input: &[u8], output: Stdio) -> Vec<u8> {
    let mut child =
        command.stdin(Stdio::piped()).stdout(output).stderr(Stdio::piped()).spawn().expect("the program starts");
    drop(child.stdin.take().expect("a pipe").write_all(input));
    let mut said = Vec::new();
    child.stderr.take().expect("a pipe").read_to_end(&mut said).expect("standard error is read");
    child.wait().expect("the program ends");
    said
}

/// A full and a closed output are told on standard error, and nothing else is. Returns what was different.
pub fn unwritten(start: &dyn Fn() -> Command) -> Vec<Result<(), String>> {
    let input = [b"1\n1 54\n", K2].concat();
    let closed = || {
        let mut shell = Command::new("sh");
        shell.args(["-c", "exec \"$0\" >&-"]).arg(start().get_program());
        shell
    };
    let full = || OpenOptions::new().write(true).open("/dev/full").expect("a device without room").into();
    let mut results = Vec::new();
    for input in [&input[..], b"0\n", b"x"] {
        let cases = [
            ("a good output", told(start(), input, Stdio::null()), false),
            ("an output without room", told(start(), input, full()), true),
            ("a closed output", told(closed(), input, Stdio::null()), true),
        ];
        for (what, said, tells) in cases {
            let right = said.is_empty() != tells;
            let shown = || format!("{what}: on standard error came {:?}", text(&said));
            results.push(if right { Ok(()) } else { Err(shown()) });
        }
    }
    results
}
