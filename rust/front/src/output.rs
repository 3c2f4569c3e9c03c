//! Standard output and standard error: an answer is written, or the command ends without success; a message never ends
//! the work.
//!
//! Rust's own start opens `/dev/null` in the place of a standard stream that is closed, and its `Stdout` takes a stream
//! that is not open for writing for one that is. So [`note_closed`] looks before that start, and [`write`] goes past
//! `Stdout`.

use crate::command::End;
use std::fs::{self, File};
use std::io::{self, ErrorKind, Write};
use std::os::fd::{AsFd, OwnedFd};
use std::os::unix::fs::FileTypeExt;
use std::path::Path;
use std::process;
use std::sync::atomic::{AtomicBool, Ordering};
use std::sync::Arc;
use std::thread;
use std::time::Duration;

/// The exit status where nobody reads the answer any more: what a shell shows where a closed pipe has ended a program.
pub const CLOSED: u8 = 141;
/// Characters of input that a message shows.
const SHOWN: usize = 60;
/// Characters of a whole message.
const MESSAGE: usize = 4_000;
/// How long to wait before a stream that is busy is tried again.
const BUSY: Duration = Duration::from_millis(5);
/// How often a pipe is looked at that nothing is written to.
const LOOK: Duration = Duration::from_millis(50);
/// Where Linux has the streams of a process.
const STREAMS: &str = "/proc/self/fd";
const OUTPUT: &str = "/proc/self/fd/1";

static IS_CLOSED: AtomicBool = AtomicBool::new(false);

/// Notes whether the command was started without a standard output. To be called before Rust's own start.
pub extern "C" fn note_closed() {
    let is_closed = Path::new(STREAMS).is_dir() && fs::symlink_metadata(OUTPUT).is_err();
    IS_CLOSED.store(is_closed, Ordering::Relaxed);
}

fn unwritten(why: impl std::fmt::Display) -> End {
    End::Failed(format!("the answer cannot be written: {why}"))
}

/// Standard output itself: `Stdout` would take a stream that is not open for writing for one that is.
pub fn stream() -> Result<File, End> {
    if IS_CLOSED.load(Ordering::Relaxed) {
        return Err(unwritten("standard output is closed"));
    }
    io::stdout().as_fd().try_clone_to_owned().map(File::from).map_err(unwritten)
}

/// Writes and flushes a piece of the answer to standard output, at once.
pub fn write(bytes: &[u8]) -> Result<(), End> {
    if bytes.is_empty() {
        return Ok(());
    }
    write_to(&mut stream()?, bytes)
}

/// Writes and flushes bytes, however slowly they are taken.
pub fn write_to(stream: &mut impl Write, mut bytes: &[u8]) -> Result<(), End> {
    while !bytes.is_empty() {
        match stream.write(bytes) {
            Ok(0) => return Err(unwritten("no more bytes are taken")),
            Ok(written) => bytes = &bytes[written..],
            Err(error) => wait_or_end(error)?,
        }
    }
    while let Err(error) = stream.flush() {
        wait_or_end(error)?;
    }
    Ok(())
}

/// Whether a write is to be tried again: after an interruption, or where the stream is busy and does not wait itself.
fn wait_or_end(error: io::Error) -> Result<(), End> {
    match error.kind() {
        ErrorKind::Interrupted => Ok(()),
        ErrorKind::WouldBlock => {
            thread::sleep(BUSY);
            Ok(())
        }
        ErrorKind::BrokenPipe => Err(End::Closed),
        _ => Err(unwritten(error)),
    }
}

/// Text on standard error. Where it cannot be written, it is lost, and the work goes on.
pub fn say(text: &str) {
    let mut stream = io::stderr();
    let _ = stream.write_all(text.as_bytes()).and_then(|()| stream.flush());
}

/// Whether a character would move the cursor, change colours or turn the direction of what stands behind it.
fn is_control(character: char) -> bool {
    let turns = ['\u{200e}'..='\u{200f}', '\u{2028}'..='\u{202e}', '\u{2066}'..='\u{2069}'];
    character.is_control() || turns.iter().any(|range| range.contains(&character))
}

/// Text without control characters, and no longer than so many of its characters.
fn escaped(text: &str, most: usize) -> String {
    let mut shown = String::new();
    for (count, character) in text.chars().enumerate() {
        if count == most {
            return shown + "..";
        }
        if is_control(character) {
            shown.extend(character.escape_default());
        } else {
            shown.push(character);
        }
    }
    shown
}

/// A part of the input or of the arguments as a message shows it.
pub fn shown(text: &str) -> String {
    escaped(text, SHOWN)
}

/// The name of a file as a message shows it: the longest that a folder holds is shown as a whole.
pub fn shown_name(name: &str) -> String {
    escaped(name, 255)
}

/// A whole message, whatever parts it was made of.
pub fn message(text: &str) -> String {
    escaped(text, MESSAGE)
}

/// Looks after standard output as long as it lives: see [`watch`].
pub struct Watch(Arc<AtomicBool>);

impl Drop for Watch {
    fn drop(&mut self) {
        self.0.store(false, Ordering::Relaxed);
    }
}

/// Ends the command where standard output is a pipe that nobody reads any more, though nothing is written to it.
/// Copying from a pipe that has ended writes nothing, and Linux refuses it all the same where the other has no reader.
/// Elsewhere, and where no thread can be started, only a write tells. What is no pipe is not copied to: Linux would set
/// the place of a file back that another thread has written to in the meantime.
pub fn watch() -> Watch {
    let is_watched = Arc::new(AtomicBool::new(true));
    let watch = Watch(Arc::clone(&is_watched));
    let is_pipe = |output: &File| output.metadata().is_ok_and(|stream| stream.file_type().is_fifo());
    if let (Ok((ended, _)), Some(output)) = (io::pipe(), stream().ok().filter(is_pipe)) {
        let look = move || look_after(&is_watched, File::from(OwnedFd::from(ended)), output);
        let _ = thread::Builder::new().stack_size(65_536).spawn(look);
    }
    watch
}

fn look_after(is_watched: &AtomicBool, mut ended: File, mut output: File) {
    while is_watched.load(Ordering::Relaxed) {
        let is_closed = io::copy(&mut ended, &mut output).is_err_and(|error| error.kind() == ErrorKind::BrokenPipe);
        if is_closed && is_watched.load(Ordering::Relaxed) {
            process::exit(i32::from(CLOSED));
        }
        thread::sleep(LOOK);
    }
}
