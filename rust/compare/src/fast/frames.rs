//! The frame of a batch, in windows of input and output.

use super::reader::{read_with_text, Cursor};
use super::writer::{write_at, ROOM};
use super::{elimination, System, OUTPUT};
use std::io::{Read, Write};

/// A line of the frame is judged by so many bytes.
const LINE: usize = 24;
const SHEET: usize = 32_768;
/// So many bytes are read at once.
const WINDOW: usize = 64 * 1024;
/// So many bytes are written at once, and a little more.
const WRITTEN: usize = 64 * 1024;
/// What may be loaded behind the last byte.
const BEHIND: usize = 16;

/// What the batch program writes.
pub fn batch(input: &[u8]) -> Vec<u8> {
    let mut output = Vec::with_capacity(input.len() + 1024);
    stream(input, &mut output).expect("nothing fails in memory");
    output
}

/// Works a batch off, from one end to the other.
pub fn stream(input: impl Read, output: impl Write) -> std::io::Result<()> {
    let mut batch = Batch {
        window: Window { input, bytes: vec![0; WINDOW + BEHIND], at: 0, end: 0 },
        answers: Answers { output, bytes: vec![0; WRITTEN + ROOM], end: 0 },
        clients: [[0; 2]; 8],
    };
    if batch.frames(&mut System::new())? {
        for [accepted, refused] in batch.clients {
            batch.answers.line(format_args!("{accepted} {refused}"));
        }
    } else {
        batch.answers.line(format_args!("3"));
    }
    batch.answers.flush()
}

/// The bytes that have been read and not yet worked off.
struct Window<R> {
    input: R,
    bytes: Vec<u8>,
    at: usize,
    end: usize,
}

impl<R: Read> Window<R> {
    /// Reads until there are so many bytes, or no more come.
    #[inline]
    fn need(&mut self, count: usize) {
        if self.end - self.at < count {
            self.fill(count);
        }
    }

    #[cold]
    fn fill(&mut self, count: usize) {
        self.bytes.copy_within(self.at..self.end, 0);
        (self.at, self.end) = (0, self.end - self.at);
        while self.end < count {
            match self.input.read(&mut self.bytes[self.end..WINDOW]) {
                Ok(0) => break,
                Ok(read) => self.end += read,
                Err(error) if error.kind() == std::io::ErrorKind::Interrupted => {}
                Err(_) => break,
            }
        }
    }

    /// Reads a line of the frame by a cursor.
    fn line<T>(&mut self, read: impl FnOnce(&mut Cursor) -> Result<T, u8>) -> Option<T> {
        self.need(LINE);
        let mut cursor = Cursor::new(&self.bytes[..self.end + BEHIND], self.at, self.end);
        let read = read(&mut cursor).ok();
        self.at = cursor.at();
        read
    }
}

/// The answers that have not been written.
struct Answers<W> {
    output: W,
    bytes: Vec<u8>,
    end: usize,
}

impl<W: Write> Answers<W> {
    fn line(&mut self, text: std::fmt::Arguments) {
        let mut rest = &mut self.bytes[self.end..];
        let room = rest.len();
        writeln!(rest, "{text}").expect("room for a line");
        self.end += room - rest.len();
    }

    fn refusal(&mut self, number: u8) {
        let line: &[u8] = if number < 10 { &[b'0' + number, b'\n'] } else { b"10\n" };
        self.bytes[self.end..self.end + line.len()].copy_from_slice(line);
        self.end += line.len();
    }

    fn flush(&mut self) -> std::io::Result<()> {
        self.output.write_all(&self.bytes[..self.end])?;
        self.end = 0;
        Ok(())
    }

    /// Makes room for an answer.
    #[inline]
    fn ready(&mut self) -> std::io::Result<()> {
        if self.end > WRITTEN {
            self.flush()?;
        }
        Ok(())
    }
}

struct Batch<R, W> {
    window: Window<R>,
    answers: Answers<W>,
    /// The accepted and the refused sheets of each client.
    clients: [[u32; 2]; 8],
}

impl<R: Read, W: Write> Batch<R, W> {
    /// Answers the sheets, and tells whether the batch was whole.
    fn frames(&mut self, system: &mut System) -> std::io::Result<bool> {
        let Some(sheets) = self.window.line(|cursor| cursor.within(0, 1000, b'\n')) else { return Ok(false) };
        for _ in 0..sheets {
            let line =
                self.window.line(|cursor| Ok((cursor.within(1, 8, b' ')?, cursor.within(0, SHEET as i32, b'\n')?)));
            let Some((client, length)) = line else { return Ok(false) };
            self.window.need(length as usize);
            if self.window.end - self.window.at < length as usize {
                return Ok(false);
            }
            self.answers.ready()?;
            let accepted = self.answer(system, length as usize);
            self.clients[client as usize - 1][!accepted as usize] += 1;
        }
        self.window.need(1);
        Ok(self.window.at == self.window.end)
    }

    /// Answers the next sheet, and tells whether it is accepted.
    fn answer(&mut self, system: &mut System, length: usize) -> bool {
        let start = self.window.at;
        self.window.at += length;
        let bytes = &self.window.bytes[..self.window.end + BEHIND];
        let answer = &mut self.answers.bytes[self.answers.end..];
        match worked(system, bytes, start, start + length, &mut answer[2..]) {
            Ok(written) => {
                answer[..2].copy_from_slice(b"0\n");
                self.answers.end += written + 2;
                true
            }
            Err(number) => {
                self.answers.refusal(number);
                false
            }
        }
    }
}

/// Writes the sheet that answers the one between two places, and tells its length.
fn worked(system: &mut System, bytes: &[u8], start: usize, end: usize, answer: &mut [u8]) -> Result<usize, u8> {
    read_with_text(bytes, start, end, system)?;
    elimination::eliminate(system, true)?;
    let length = write_at(system, bytes, answer);
    if length <= OUTPUT {
        Ok(length)
    } else {
        Err(1)
    }
}
