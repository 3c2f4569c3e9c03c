//! `wurgalm batch` with several threads writes what the proved call writes on the whole batch, however the batch comes.

use compare::batches::{batch, framed};
use compare::random::Random;
use compare::sheets::sheet;
use front::batch::{answers, answers_with, Ended, Start};
use front::command::End;
use front::typing::sheet_of;
use std::io::{self, Read, Write};
use std::sync::atomic::{AtomicUsize, Ordering};
use std::sync::mpsc::{sync_channel, Receiver, SyncSender};
use std::thread::{self, Builder};
use std::time::Duration;

const BATCHES: usize = 1_000;

fn whole(input: &[u8]) -> Vec<u8> {
    let mut output = vec![0; wurgalm::batch_output(1_000)];
    let length = wurgalm::batch(input, &mut output).unwrap();
    output.truncate(length);
    output
}

/// The output, and whether the batch was taken for a whole one.
fn worked(input: impl Read, jobs: usize) -> (Vec<u8>, bool) {
    let mut output = Vec::new();
    let ended = answers(input, &mut output, jobs, false).unwrap();
    (output, matches!(ended, Ended::Whole))
}

fn same(input: &[u8], jobs: usize) {
    let (output, is_whole) = worked(input, jobs);
    let expected = whole(input);
    assert!(output == expected, "{}", String::from_utf8_lossy(input));
    // The last line is that of client 8, with two numbers, or `3`.
    let is_broken = expected == b"3\n" || expected.ends_with(b"\n3\n");
    assert_eq!(is_whole, !is_broken, "{}", String::from_utf8_lossy(input));
}

/// Bytes that come in pieces of any size, with interruptions, and now and then late, or not yet.
struct Slow<'a> {
    left: &'a [u8],
    random: Random,
}

impl Read for Slow<'_> {
    fn read(&mut self, piece: &mut [u8]) -> io::Result<usize> {
        match self.random.below(40) {
            0 => return Err(io::ErrorKind::Interrupted.into()),
            1 => thread::sleep(Duration::from_micros(200)),
            2 if self.random.one_in(10) => return Err(io::ErrorKind::WouldBlock.into()),
            _ => {}
        }
        let size = self.random.pick(&[1, 2, 3, 7, 50, 1_000]).min(self.left.len()).min(piece.len());
        let (now, later) = self.left.split_at(size);
        piece[..size].copy_from_slice(now);
        self.left = later;
        Ok(size)
    }
}

#[test]
fn same_bytes() {
    let mut random = Random::new(35);
    for _ in 0..BATCHES {
        let input = batch(&mut random);
        same(&input, 1 + random.below(4));
    }
}

#[test]
fn same_bytes_in_pieces() {
    let mut random = Random::new(37);
    for seed in 0..BATCHES as u64 {
        let input = batch(&mut random);
        let slow = Slow { left: &input, random: Random::new(seed) };
        let (output, _) = worked(slow, 1 + random.below(4));
        assert!(output == whole(&input), "{}", String::from_utf8_lossy(&input));
    }
}

#[test]
fn same_bytes_of_many_sheets() {
    let mut random = Random::new(36);
    let sheets: Vec<Vec<u8>> = (0..400).map(|_| sheet(&mut random)).collect();
    let input = framed(&mut random, &sheets);
    same(&input, 3);
}

#[test]
fn same_bytes_at_the_edges() {
    for input in [
        "",
        "0\n",
        "0",
        "00\n",
        "+1\n",
        "1\n",
        "1\n1 0\n",
        "1\n0 0\n",
        "1\n9 0\n",
        "1\n1 00\n",
        "1\n1 0\nx",
        "1\n1 0\n1 0\n",
        "2\n1 0\n1\n",
        "1001\n",
        "-0\n",
        "-",
        "1 ",
        "1\n1\n0\n",
        "1\n1 32769\n",
        "1\n\n",
    ] {
        same(input.as_bytes(), 2);
    }
}

/// Input and output that a test and a batch hand each other piece by piece.
struct Pieces(Receiver<Vec<u8>>);
struct Written(SyncSender<Vec<u8>>);

impl Read for Pieces {
    fn read(&mut self, piece: &mut [u8]) -> io::Result<usize> {
        let Ok(sent) = self.0.recv() else { return Ok(0) };
        piece[..sent.len()].copy_from_slice(&sent);
        Ok(sent.len())
    }
}

impl Write for Written {
    fn write(&mut self, bytes: &[u8]) -> io::Result<usize> {
        self.0.send(bytes.to_vec()).map_err(|_| io::ErrorKind::BrokenPipe)?;
        Ok(bytes.len())
    }

    fn flush(&mut self) -> io::Result<()> {
        Ok(())
    }
}

#[test]
fn answers_come_before_the_batch_ends() {
    let (send, pieces) = sync_channel(100);
    let (written, receive) = sync_channel(100);
    let working = thread::spawn(move || answers(Pieces(pieces), Written(written), 2, false));
    let next = || receive.recv_timeout(Duration::from_secs(60)).unwrap();
    for piece in ["3\n1 ", "3\n", "3 1"] {
        send.send(piece.into()).unwrap();
    }
    assert_eq!(next(), b"4\n"); // the sheet ends early
    send.send(b"8 14\n3 1 0 0\n0\n0\n0\n2 1x".to_vec()).unwrap();
    assert_eq!(next(), b"0\n3 1 0 0\n0\n0\n0\n");
    // The line of sheet 3 cannot become a line any more: nothing else is waited for, though the input is open.
    assert_eq!(next(), b"3\n");
    let Ok(Ended::Broken(broken)) = working.join().unwrap() else { panic!("the batch is broken") };
    assert_eq!((broken.line, broken.column), (8, 3));
    assert!(broken.reason.contains("the bytes of sheet 3"), "{}", broken.reason);
}

#[test]
fn a_writer_that_fails_ends_the_work() {
    let (send, pieces) = sync_channel(100);
    let (written, receive) = sync_channel(100);
    drop(receive);
    let working = thread::spawn(move || answers(Pieces(pieces), Written(written), 1, false));
    send.send(b"1000\n".to_vec()).unwrap();
    // Far more than is held at a time: it ends without reading them all.
    while send.send(b"1 3\n3 1".repeat(100)).is_ok() {}
    assert!(working.join().unwrap().is_err());
}

/// Threads that can still be started.
static LEFT: AtomicUsize = AtomicUsize::new(0);

fn few() -> io::Result<Builder> {
    let taken = LEFT.fetch_update(Ordering::Relaxed, Ordering::Relaxed, |left| left.checked_sub(1));
    taken.map(|_| Builder::new()).map_err(|_| io::ErrorKind::WouldBlock.into())
}

#[test]
fn threads_that_cannot_be_started() {
    let mut random = Random::new(38);
    let start: Start = few;
    for round in 0..BATCHES {
        let (input, mut output) = (batch(&mut random), Vec::new());
        LEFT.store(round % 5, Ordering::Relaxed);
        answers_with(start, &input[..], &mut output, 4, false).unwrap();
        assert!(output == whole(&input), "{} threads: {}", round % 5, String::from_utf8_lossy(&input));
    }
}

#[test]
fn a_writer_that_fails_ends_the_work_of_one_thread() {
    let (written, receive) = sync_channel(100);
    drop(receive);
    let none: Start = || Err(io::ErrorKind::WouldBlock.into());
    let input = [b"1000\n".to_vec(), b"1 3\n3 1".repeat(1_000)].concat();
    assert!(matches!(answers_with(none, &input[..], Written(written), 1, false), Err(End::Closed)));
}

#[test]
fn few_sheets_are_held() {
    let jobs = 2;
    let (send, pieces) = sync_channel(0);
    let (written, receive) = sync_channel(0);
    let working = thread::spawn(move || answers(Pieces(pieces), Written(written), jobs, false));
    let taken = AtomicUsize::new(0);
    thread::scope(|scope| {
        scope.spawn(|| {
            send.send(b"1000\n".to_vec()).unwrap();
            while send.send(b"1 3\n3 1".to_vec()).is_ok() {
                taken.fetch_add(1, Ordering::Relaxed);
            }
        });
        // Nobody takes an answer: no more is read than four sheets a thread, and those that are read and written beside them.
        let held = || taken.load(Ordering::Relaxed);
        let waits = (0..1_000).take_while(|_| held() < 4 * jobs);
        waits.for_each(|_| thread::sleep(Duration::from_millis(10)));
        thread::sleep(Duration::from_millis(200));
        assert!((4 * jobs..=4 * jobs + 3).contains(&held()), "{}", held());
        assert_eq!(receive.recv().unwrap(), b"4\n");
        drop(receive);
    });
    assert!(working.join().unwrap().is_err());
}

#[test]
fn an_answer_that_is_too_long() {
    let text = std::fs::read_to_string("../../examples/long.equations").unwrap();
    let sheet = sheet_of(&text, false).unwrap();
    assert_eq!(outside::batch::answer(&sheet, None), Err(outside::refusal::Refusal::Short));
    let input = [format!("1\n1 {}\n", sheet.len()).as_bytes(), &sheet].concat();
    assert_eq!(worked(&input[..], 1).0, [&b"1\n0 1\n"[..], &b"0 0\n".repeat(7)].concat());
    let mut system = wurgalm::System::from_sheet(&sheet).unwrap();
    system.run_leading().unwrap();
    assert!(system.to_sheet().unwrap().len() > 65_536);
}
