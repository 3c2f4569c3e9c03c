//! The help of each subcommand.

const TAIL: &str =
    "Exit status: 0 accepted, 1 refused, 2 wrong use or a file that cannot be read or written, 141 where nobody reads\n\
     the answer. Messages are on standard error. `-` is standard input; behind `--` every word is a file.\n";

/// Name, arguments, and what it does.
const PAGES: &[(&str, &str, &str)] = &[
    (
        "show",
        "[--differential] [--names X,Y,..] FILE",
        "Writes a sheet as equations. The first line has the unknowns, the blocks l and t and the column order; relations are\n\
         written as `at n = 0: x(1) = x(0)`. `wurgalm type` makes the same sheet of it again.\n",
    ),
    (
        "type",
        "[--differential] [--explain] [-e TEXT | FILE]",
        "Makes a sheet of equations, a line or a `;` after each: `n*x(n+1) - y(n) = 0; x(n+1) = x(n)`. Unknowns have any names and\n\
         are columns in the order in which they occur; # begins a remark. A relation is `at n = 0: x(1) = x(0)`. With primes, as\n\
         `x^2*y'' + x*y' + (x^2 - 1)*y = 0`, it makes a differential sheet. A first line `unknowns x, y; l = 1; t = 0; order x`\n\
         or `unknowns y; derivatives 2; powers 2` may say what the equations leave open. --explain writes the columns and what was\n\
         read to standard error.\n",
    ),
    (
        "check",
        "[--differential] FILE",
        "Tells line, column and token of the first fault of a sheet, why it is one, and what would be right there.\n",
    ),
    (
        "run",
        "[--trailing] [--sheet | --json] [--differential] [--names X,Y,..] FILE",
        "Regularises the leading side of a system, or the trailing one, and writes rank, relations, shifts, the root with how often it\n\
         occurs, and the rows. --sheet writes the sheet that the batch program answers, --json all of it for programs.\n",
    ),
    (
        "induce",
        "[--sheet] [--names X,Y,..] FILE",
        "Makes of a differential sheet the recurrence for the coefficients of its series, as equations or as a sheet.\n",
    ),
    (
        "steps",
        "[--budget N] [--keep] [--resume] [--differential] [--names X,Y,..] FILE",
        "Takes the leading run by N steps at a time, 1 where none is given, with a progress line on standard error after each. --keep\n\
         takes N steps and writes the run as it stands then, a sheet, a line with the shifts and a line `end`; --resume goes on\n\
         with such a file.\n",
    ),
    (
        "fits",
        "[--differential] [--csv] MODEL RECORD",
        "Says whether a model explains a record, or the first equation, index and sum where it does not. A record is text, the first\n\
         index and the number of vectors and then the vectors, or CSV, a line `index,value,..` for each vector.\n",
    ),
    (
        "log",
        "[--differential] FILE",
        "Writes the steps of the leading run as a log: a line for each, `exchange I J`, `up I`, `down I`, `drop I`, or\n\
         `combine I J INTEGER` with each multiplier as the number of its coefficients and those; last `order` and the columns.\n",
    ),
    (
        "replay",
        "[--sheet | --json] [--differential] [--names X,Y,..] SHEET LOG",
        "Makes the steps of a log, whoever wrote it, on a system, tests each one, and writes what they lead to as `run` does. A log that\n\
         is refused is told with the line of the step, or of its end.\n",
    ),
    (
        "solutions",
        "[--differential] [--names X,Y,..] FILE",
        "Lists the polynomial solutions, a line for each unknown and an empty line between two solutions, or writes `none`. Every\n\
         polynomial solution is, times an integer, an integer combination of those listed. The value at n of a recurrence's unknown\n\
         is the coefficient of power n, of x, or of s where an unknown is called x.\n",
    ),
    (
        "series",
        "[--first K | --zero-below A] [--from A] [--terms N] [--start X(0)=1,..].. [--free] [--plot FILE.svg] [--over A:B] [--of X]\n\
         \x20      [--limit TIME] [--differential] [--names X,Y,..] FILE",
        "Writes the first N terms of the sequences of a system, exact, and which of them are free. The equations hold at every n; with\n\
         --first at n >= K; with --zero-below, and for a differential sheet with 0, the values below A are 0. --start gives values, and\n\
         may stand several times; --free tells of each value whether it is free, forced or follows; --plot draws the sum of X(n) x^n\n\
         over an interval, a curve for each --start. Terms are written as they are found where that takes longer than a second; --limit\n\
         10s, 500ms or 2m ends the work after that time, with exit status 1. docs/SERIES.md has examples.\n",
    ),
    (
        "batch",
        "[--jobs N] [--progress] [FILE]",
        "Works a batch as it comes and writes the same bytes as `regularise`, the sheets worked by N threads. A progress bar is on\n\
         standard error where that is a terminal, or with --progress. A broken batch has exit status 1, and its place is told.\n",
    ),
];

/// The parts of all usages between brackets and bars: an option and its value, an option alone, or files.
fn parts() -> impl Iterator<Item = &'static str> {
    PAGES.iter().flat_map(|(_, arguments, _)| arguments.split(['[', ']', '|'])).map(str::trim)
}

/// Whether some subcommand has that option.
pub fn is_option(option: &str) -> bool {
    option.starts_with('-') && parts().any(|part| part.split(' ').next() == Some(option))
}

/// Whether an option has a value behind it: its usage says what.
pub fn takes_value(option: &str) -> bool {
    is_option(option) && !parts().any(|part| part == option)
}

pub fn overview() -> String {
    let mut text = String::from("wurgalm SUBCOMMAND ..: the recurrence regulariser\n\n");
    for (name, arguments, _) in PAGES {
        text += &format!("  wurgalm {name} {arguments}\n");
    }
    text + "\nA file is a differential sheet where its name ends in .differential, or with --differential.\n\
            `wurgalm SUBCOMMAND --help` says more. "
        + TAIL
}

pub fn usage(name: &str) -> String {
    let arguments = PAGES.iter().find(|(known, ..)| *known == name).map_or("", |(_, arguments, _)| arguments);
    format!("usage: wurgalm {name} {arguments}")
}

pub fn page(name: &str) -> String {
    let text = PAGES.iter().find(|(known, ..)| *known == name).map_or("", |(_, _, text)| text);
    format!("{}\n\n{text}{TAIL}", usage(name))
}
