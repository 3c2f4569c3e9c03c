//! The dispatch: which subcommand, its arguments, its exit status.

use crate::output::{self, shown, shown_name};
use crate::{batch, check, fits, help, induce, log, replay, run, series, show, solutions, steps, type_in};
use std::ffi::{OsStr, OsString};
use std::fs::File;
use std::io::{self, ErrorKind, Read};
use std::ops::Deref;
use std::os::unix::ffi::OsStrExt;
use std::path::Path;
use std::process::ExitCode;
use std::thread;
use std::time::Duration;
use wurgalm::Refusal;

/// Why a command ends without its answer.
#[derive(Debug)]
pub enum End {
    /// The input is refused: exit status 1.
    Refused(String),
    /// The command is used wrongly: exit status 2, and its usage behind the message.
    Misused(String),
    /// A file cannot be read or written, or the answer cannot: exit status 2.
    Failed(String),
    /// Nobody reads the answer any more: exit status 141, and no message.
    Closed,
}

impl From<Refusal> for End {
    fn from(refusal: Refusal) -> End {
        End::Refused(refusal.to_string())
    }
}

/// What a subcommand writes to standard output, or why it does not.
pub type Outcome = Result<Vec<u8>, End>;

/// A file as it was given, whatever bytes its name has. It stands for the name that messages show.
#[derive(Clone, Debug)]
pub struct FileName {
    given: OsString,
    shown: String,
}

impl From<&OsStr> for FileName {
    fn from(given: &OsStr) -> FileName {
        let shown = if given.is_empty() { "\"\"".into() } else { shown_name(&given.to_string_lossy()) };
        FileName { given: given.into(), shown }
    }
}

impl From<&str> for FileName {
    fn from(given: &str) -> FileName {
        OsStr::new(given).into()
    }
}

impl AsRef<Path> for FileName {
    fn as_ref(&self) -> &Path {
        Path::new(&self.given)
    }
}

impl Deref for FileName {
    type Target = str;

    fn deref(&self) -> &str {
        &self.shown
    }
}

/// An option that may stand more than once.
const REPEATED: &str = "--start";

/// The arguments behind a subcommand: options, wherever they stand, and files.
pub struct Arguments {
    options: Vec<(String, Option<OsString>)>,
    files: Vec<OsString>,
    /// What is wrong with them, whatever the subcommand.
    fault: Option<String>,
}

/// The name of an option and the value behind its `=`; none for a file.
fn option_of(word: &OsStr) -> Option<(String, Option<OsString>)> {
    let bytes = word.as_bytes();
    if bytes.len() < 2 || bytes[0] != b'-' {
        return None;
    }
    let is_long = bytes.starts_with(b"--");
    let sign = bytes.iter().position(|&byte| is_long && byte == b'=');
    let name = String::from_utf8_lossy(&bytes[..sign.unwrap_or(bytes.len())]).into_owned();
    Some((name, sign.map(|sign| OsStr::from_bytes(&bytes[sign + 1..]).into())))
}

impl Arguments {
    /// Words in any order. An option that takes a value has it behind `=` or as the next word; behind `--` are files.
    pub fn new<Word: Into<OsString>>(words: Vec<Word>) -> Arguments {
        let mut arguments = Arguments { options: Vec::new(), files: Vec::new(), fault: None };
        let mut words = words.into_iter().map(Into::into);
        while let Some(word) = words.next() {
            if word == "--" {
                arguments.files.extend(words);
                break;
            }
            match option_of(&word) {
                None => arguments.files.push(word),
                Some((name, None)) if help::takes_value(&name) => {
                    let value = words.next();
                    arguments.take(name, value);
                }
                Some((name, value)) => arguments.take(name, value),
            }
        }
        arguments
    }

    /// Takes an option with its value, or notes what is wrong with it.
    fn take(&mut self, name: String, value: Option<OsString>) {
        let fault = match &value {
            None if help::takes_value(&name) => Some(format!("{name} needs a value behind it")),
            Some(_) if !help::takes_value(&name) && help::is_option(&name) => Some(format!("{name} takes no value")),
            _ if name != REPEATED && self.has(&name) => Some(format!("{} stands twice", shown(&name))),
            _ => None,
        };
        self.fault = self.fault.take().or(fault);
        self.options.push((name, value));
    }

    fn has(&self, name: &str) -> bool {
        self.options.iter().any(|(known, _)| known == name)
    }

    /// Whether the help is asked for.
    fn asks_help(&self) -> bool {
        self.has("--help") || self.has("-h")
    }

    fn sound(&self) -> Result<(), End> {
        self.fault.as_ref().map_or(Ok(()), |fault| Err(End::Misused(fault.clone())))
    }

    /// Whether an option is there, which is taken out.
    pub fn flag(&mut self, name: &str) -> bool {
        let before = self.options.len();
        self.options.retain(|(known, _)| known != name);
        self.options.len() < before
    }

    /// The value of an option, the first where it may stand several times, which is taken out.
    pub fn value(&mut self, name: &str) -> Result<Option<String>, End> {
        self.sound()?;
        let Some(at) = self.options.iter().position(|(known, _)| known == name) else { return Ok(None) };
        let (_, value) = self.options.remove(at);
        let text = value.unwrap_or_default().into_string();
        text.map(Some).map_err(|_| End::Misused(format!("the value of {name} is no UTF-8 text")))
    }

    /// The files: between `least` and `most` of them, and no option that is not known.
    pub fn files(self, least: usize, most: usize) -> Result<Vec<FileName>, End> {
        self.sound()?;
        if let Some((option, _)) = self.options.first() {
            return Err(End::Misused(format!("there is no option {} here", shown(option))));
        }
        if self.files.len() < least {
            return Err(End::Misused("a file is missing".into()));
        }
        if let Some(more) = self.files.get(most) {
            return Err(End::Misused(format!("one argument too many: {}", shown(&more.to_string_lossy()))));
        }
        if self.files.iter().filter(|file| *file == "-").count() > 1 {
            return Err(End::Misused("standard input is read once, and `-` stands twice".into()));
        }
        Ok(self.files.iter().map(|file| FileName::from(&file[..])).collect())
    }
}

/// Bytes that no sheet has, nor the equations of one as `show` writes them, nor a record.
const INPUT: usize = 262_144;
/// How long to wait before an input that has nothing yet, and does not wait itself, is tried again.
const BUSY: Duration = Duration::from_millis(5);

/// An input that is waited for.
pub struct Patient<Input>(pub Input);

impl<Input: Read> Read for Patient<Input> {
    fn read(&mut self, piece: &mut [u8]) -> io::Result<usize> {
        loop {
            match self.0.read(piece) {
                Err(error) if error.kind() == ErrorKind::Interrupted => {}
                Err(error) if error.kind() == ErrorKind::WouldBlock => thread::sleep(BUSY),
                read => return read,
            }
        }
    }
}

/// The bytes of a file, or of standard input for `-`: a sheet, equations or a record.
pub fn bytes_of(file: &FileName) -> Result<Vec<u8>, End> {
    bytes_up_to(INPUT, "no sheet has so many, nor have equations or a record that can be worked", file)
}

/// The bytes of a file, or of standard input for `-`. More than so many are refused, and no more are read.
pub fn bytes_up_to(most: usize, why: &str, file: &FileName) -> Result<Vec<u8>, End> {
    let read = |input: &mut dyn Read| {
        let mut bytes = Vec::new();
        Patient(input).take(most as u64 + 1).read_to_end(&mut bytes).map(|_| bytes)
    };
    let bytes = if &**file == "-" {
        let _watch = output::watch();
        read(&mut io::stdin().lock())
    } else {
        File::open(file).and_then(|mut input| read(&mut input))
    };
    let bytes = bytes.map_err(|error| unread(file, error))?;
    if bytes.len() > most {
        return Err(End::Refused(format!("{}: more than {most} bytes: {why}", named(file))));
    }
    Ok(bytes)
}

/// A file that cannot be read.
pub fn unread(file: &str, error: io::Error) -> End {
    End::Failed(format!("{}: {error}", named(file)))
}

/// A file as messages name it.
pub fn named(file: &str) -> &str {
    if file == "-" {
        "standard input"
    } else {
        file
    }
}

/// Whether a file is taken for a differential sheet: by the option, or by its name.
pub fn is_differential(arguments: &mut Arguments, file: impl FnOnce(&Arguments) -> Option<&Path>) -> bool {
    let is_named = file(arguments).and_then(Path::extension).is_some_and(|extension| extension == "differential");
    arguments.flag("--differential") || is_named
}

/// The last file, which is the only one in most subcommands.
pub fn last(arguments: &Arguments) -> Option<&Path> {
    arguments.files.last().map(Path::new)
}

/// The first file.
pub fn first(arguments: &Arguments) -> Option<&Path> {
    arguments.files.first().map(Path::new)
}

type Subcommand = fn(Arguments) -> Outcome;

/// Every subcommand by its name.
const SUBCOMMANDS: &[(&str, Subcommand)] = &[
    ("show", show::show),
    ("type", type_in::type_in),
    ("check", check::check),
    ("run", run::run),
    ("induce", induce::induce),
    ("steps", steps::steps),
    ("fits", fits::fits),
    ("log", log::log),
    ("replay", replay::replay),
    ("solutions", solutions::solutions),
    ("series", series::series),
    ("batch", batch::batch),
];

/// How a command ends that has no answer, or only a part of one.
#[derive(Debug)]
pub struct Ended {
    pub status: u8,
    /// What is said on standard error.
    pub message: String,
}

impl End {
    /// The exit status and the message, with what stands behind the message of a wrong use.
    fn ended(self, usage: &str) -> Ended {
        let line = |text: String| format!("wurgalm: {}\n", output::message(&text));
        match self {
            End::Refused(text) => Ended { status: 1, message: line(text) },
            End::Misused(text) => Ended { status: 2, message: line(text) + usage },
            End::Failed(text) => Ended { status: 2, message: line(text) },
            End::Closed => Ended { status: output::CLOSED, message: String::new() },
        }
    }
}

/// The help of all subcommands, or of one.
fn help_on(words: &[OsString]) -> Outcome {
    match words {
        [] => Ok(help::overview().into_bytes()),
        [name] if SUBCOMMANDS.iter().any(|(known, _)| name == known) => {
            Ok(help::page(&name.to_string_lossy()).into_bytes())
        }
        [name, ..] => {
            let name = shown(&name.to_string_lossy());
            Err(End::Misused(format!("there is no help on {name}; `wurgalm --help` lists the subcommands")))
        }
    }
}

/// What is left of the answer to be written, or how the command ends.
pub fn dispatch(mut words: Vec<OsString>) -> Result<Vec<u8>, Ended> {
    if words.is_empty() {
        return Err(End::Misused("which subcommand?".into()).ended(&help::overview()));
    }
    let name = words.remove(0);
    if matches!(name.to_str(), Some("--help" | "-h" | "help")) {
        return help_on(&words).map_err(|end| end.ended(""));
    }
    if matches!(name.to_str(), Some("--version" | "-V")) {
        return Ok(format!("wurgalm {}\n", env!("CARGO_PKG_VERSION")).into_bytes());
    }
    let Some((name, subcommand)) = SUBCOMMANDS.iter().find(|(known, _)| name == *known) else {
        let name = shown(&name.to_string_lossy());
        return Err(End::Misused(format!("there is no subcommand {name}; `wurgalm --help` lists them")).ended(""));
    };
    let arguments = Arguments::new(words);
    if arguments.asks_help() {
        return Ok(help::page(name).into_bytes());
    }
    subcommand(arguments).map_err(|end| match end {
        End::Misused(message) => End::Misused(format!("{name}: {message}")).ended(&format!("{}\n", help::usage(name))),
        end => end.ended(""),
    })
}

/// Runs the command: its answer to standard output, messages to standard error. The exit status is 0 where the input is
/// accepted and the whole answer is written, 1 where it is refused, 2 for wrong use and for what cannot be read or
/// written, 141 where nobody reads the answer.
pub fn main(words: Vec<OsString>) -> ExitCode {
    match dispatch(words).and_then(|answer| output::write(&answer).map_err(|end| end.ended(""))) {
        Ok(()) => ExitCode::SUCCESS,
        Err(Ended { status, message }) => {
            output::say(&message);
            ExitCode::from(status)
        }
    }
}
