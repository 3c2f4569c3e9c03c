//! The programs fed in pieces: what they write depends neither on where its input is cut nor on when the pieces come.

use crate::batches::batch;
use crate::differentials::{corner_inputs, input};
use crate::random::Random;
use crate::subject::output_fed;
use std::fs;
use std::io::Write;
use std::process::{ChildStdin, Command};
use std::thread::sleep;
use std::time::Duration;

/// What the feeder waits for before the next piece.
#[derive(Clone, Copy, Debug)]
pub enum Between {
    /// The program has taken the piece before.
    Taken,
    /// Some time has passed.
    Pause(Duration),
}

/// An input in pieces.
pub struct Fed {
    pub pieces: Vec<Vec<u8>>,
    pub between: Between,
}

impl Fed {
    /// The input whole.
    pub fn input(&self) -> Vec<u8> {
        self.pieces.concat()
    }

    /// What the program writes.
    pub fn output(&self, command: Command) -> Vec<u8> {
        output_fed(command, |stdin, number| self.feed(stdin, number))
    }

    fn feed(&self, mut stdin: ChildStdin, number: u32) {
        for piece in &self.pieces {
            // A program that has ended at a broken line takes no more.
            if stdin.write_all(piece).is_err() {
                return;
            }
            match self.between {
                Between::Taken => until_taken(number),
                Between::Pause(time) => sleep(time),
            }
        }
    }
}

/// Waits until the program sleeps, so that it has taken what was written, or has ended; half a second at most. Where the system does not
/// tell, for some time.
fn until_taken(number: u32) {
    let step = Duration::from_micros(50);
    for _ in 0..10_000 {
        match state(number) {
            Some('S' | 'Z' | 'X') => return,
            Some(_) => sleep(step),
            None => return sleep(40 * step),
        }
    }
}

/// The letter of a process's state.
fn state(number: u32) -> Option<char> {
    let stat = fs::read_to_string(format!("/proc/{number}/stat")).ok()?;
    stat.rsplit_once(") ")?.1.chars().next()
}

// ---- inputs ----

const K2: &str = "3 2 1 0\n2\n2 1 1 2 0 1 0 2 1 -1\n2 1 1 1 1 0 1 1 -1\n0\n0\n";

/// Small batches: whole, with bytes left over, with bytes missing, with a broken line, with a broken count.
fn small() -> Vec<Vec<u8>> {
    let k2 = format!("1 {}\n{K2}", K2.len());
    let batches = [
        format!("3\n{k2}8 0\n2 2\n3\n"),
        format!("1\n{k2}1 0\n"),
        format!("2\n{k2}1 6\n3 1 1"),
        format!("2\n{k2}9 2\n3\n"),
        format!("01\n{k2}"),
        "0\n".into(),
        "0\n0\n".into(),
    ];
    batches.map(String::into_bytes).into()
}

/// The inputs that the program is compared on.
pub fn all() -> Vec<Fed> {
    let mut all = Vec::new();
    for batch in small() {
        all.extend(cut_everywhere(&batch));
        all.push(Fed { pieces: batch.iter().map(|&byte| vec![byte]).collect(), between: Between::Taken });
    }
    all.extend(after_a_pause());
    let mut random = Random::new(6 << 40);
    all.extend((0..200).map(|_| {
        let batch = batch(&mut random);
        cut_anywhere(&mut random, batch)
    }));
    all
}

/// The inputs that the program `induce` is compared on: whole, cut at each place, byte by byte, and random ones cut anywhere.
pub fn differentials() -> Vec<Fed> {
    let mut all: Vec<Fed> =
        corner_inputs().into_iter().map(|input| Fed { pieces: vec![input], between: Between::Taken }).collect();
    for sheet in [&b"3 1 2 1\n1\n2 2 0 1 1 0 1 1 -1\n"[..], b"3 1 0 0\n1\n1 0 0 1 7\nx"] {
        all.extend(cut_everywhere(sheet));
        all.push(Fed { pieces: sheet.iter().map(|&byte| vec![byte]).collect(), between: Between::Taken });
    }
    let mut random = Random::new(7 << 40);
    all.extend((0..100).map(|_| {
        let input = input(&mut random);
        cut_anywhere(&mut random, input)
    }));
    all
}

/// The input in two pieces, for each place where it can be cut.
fn cut_everywhere(input: &[u8]) -> impl Iterator<Item = Fed> + '_ {
    let cut = |at| Fed { pieces: vec![input[..at].to_vec(), input[at..].to_vec()], between: Between::Taken };
    (1..input.len()).map(cut)
}

/// Left over bytes, a sheet's bytes and a line's that come 50 ms after the others, or then do not come.
fn after_a_pause() -> Vec<Fed> {
    let line = format!("1\n1 {}\n", K2.len());
    let (begin, end) = K2.split_at(20);
    let fed = |pieces: &[&str]| Fed {
        pieces: pieces.iter().map(|piece| piece.as_bytes().to_vec()).collect(),
        between: Between::Pause(Duration::from_millis(50)),
    };
    vec![
        fed(&[&line, K2]),
        fed(&[&line, begin, end]),
        fed(&[&line, begin]),
        fed(&[&line, K2, "\n"]),
        fed(&[&line, K2, "1 0\n"]),
        fed(&[&line, begin, end, "x"]),
        fed(&["0", "\n"]),
        fed(&["0\n", "x"]),
        fed(&["2\n1 ", "0\n1", " 0\n"]),
    ]
}

/// An input in two to six pieces.
fn cut_anywhere(random: &mut Random, input: Vec<u8>) -> Fed {
    let mut cuts: Vec<usize> = (0..1 + random.below(5)).map(|_| random.below(input.len() + 1)).collect();
    cuts.extend([0, input.len()]);
    cuts.sort();
    let pieces = cuts.windows(2).map(|ends| input[ends[0]..ends[1]].to_vec());
    Fed { pieces: pieces.filter(|piece| !piece.is_empty()).collect(), between: Between::Taken }
}

#[cfg(test)]
mod tests {
    use super::*;

    fn shell(script: &str) -> Command {
        let mut command = Command::new("sh");
        command.args(["-c", script]);
        command
    }

    /// A program that makes one `read` gets the first piece and no more. A system under load may start a program so late that it
    /// gets two pieces now and then.
    #[test]
    fn pieces_are_not_joined() {
        let all: Vec<Fed> =
            all().into_iter().filter(|fed| fed.pieces.len() > 1 && fed.pieces[0].len() < 65_536).collect();
        let joined = |fed: &&Fed| fed.output(shell("exec dd bs=65536 count=1 2>/dev/null")) != fed.pieces[0];
        let count = all.iter().filter(joined).count();
        assert!(count * 20 <= all.len(), "{count} of {} are joined", all.len());
    }

    #[test]
    fn all_pieces_come() {
        for fed in all() {
            assert_eq!(fed.output(shell("exec cat")), fed.input());
        }
    }
}
