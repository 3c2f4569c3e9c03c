//! `wurgalm series` as a process: names, limits, what is left after it is ended, and the files it writes.

use std::fs;
use std::io::{BufRead, BufReader};
use std::os::unix::fs::{symlink, PermissionsExt};
use std::path::{Path, PathBuf};
use std::process::{Command, Output, Stdio};

/// x(n+1) = x(n), y(n+1) = 2 y(n).
const PLAIN: &str = "3 2 1 0\n2\n2 1 1 1 1 0 1 1 -1\n2 1 2 1 1 0 2 1 -2\n0\n0\n";

/// A folder of its own for a test.
struct Folder(PathBuf);

impl Folder {
    fn new(name: &str) -> Folder {
        let path = std::env::temp_dir().join(format!("wurgalm-series-{}-{name}", std::process::id()));
        fs::create_dir_all(&path).unwrap();
        Folder(path)
    }

    fn file(&self, name: &str, content: &str) -> String {
        let path = self.0.join(name);
        fs::write(&path, content).unwrap();
        path.to_str().unwrap().into()
    }

    fn path(&self, name: &str) -> String {
        self.0.join(name).to_str().unwrap().into()
    }

    fn names(&self) -> Vec<String> {
        let names = fs::read_dir(&self.0).unwrap().map(|entry| entry.unwrap().file_name().into_string().unwrap());
        let mut names: Vec<String> = names.collect();
        names.sort();
        names
    }
}

impl Drop for Folder {
    fn drop(&mut self) {
        let _ = fs::remove_dir_all(&self.0);
    }
}

fn command() -> Command {
    let mut command = Command::new(env!("CARGO_BIN_EXE_wurgalm"));
    command.arg("series");
    command
}

fn run(words: &[&str]) -> Output {
    command().args(words).stdin(Stdio::null()).output().unwrap()
}

fn told(output: &Output) -> String {
    String::from_utf8_lossy(&output.stderr).lines().next().unwrap_or("").into()
}

/// Four unknowns, D = 4 and degree 15: terms of a hundred thousand digits soon.
fn heavy() -> String {
    let polynomial = |seed: usize| (0..16).map(|k| format!(" {}", 1 + (seed * 31 + k * 17) % 97)).collect::<String>();
    let term = |i: usize, s: usize, c: usize| format!(" {s} {c} 16{}", polynomial(i * 100 + s * 10 + c));
    let row = |i: usize| {
        let others = (0..4).rev().flat_map(|s| (1..=4).map(move |c| (s, c)));
        let terms: String = std::iter::once((4, i)).chain(others).map(|(s, c)| term(i, s, c)).collect();
        format!("17{terms}\n")
    };
    format!("3 4 4 0\n4\n{}0\n0\n", (1..=4).map(row).collect::<String>())
}

// ---- names and starting values ----

#[test]
fn names_are_those_of_the_model() {
    let folder = Folder::new("names");
    let (sheet, plot) = (folder.file("a.sheet", PLAIN), folder.path("a.svg"));
    let wrong: [(&[&str], &str); 10] = [
        (&["--start", "z(0)=5"], "there is no unknown `z`: the names are x, y"),
        (&["--start", "w(0)=5"], "there is no unknown `w`: the names are x, y"),
        (&["--names", "u,v", "--start", "x(0)=5"], "there is no unknown `x`: the names are u, v"),
        (&["--names", "u,v,k", "--start", "k(0)=5"], "there is no unknown `k`: the names are u, v"),
        (&["--of", "w", "--start", "x(0)=1,y(0)=1", "--plot", &plot], "there is no unknown `w`: the names are x, y"),
        (&["--start", "x(0)=1,x(0)=1"], "--start gives x(0) twice"),
        (&["--start", "x(0)=1, x( 0 )=2"], "--start gives x(0) twice"),
        (&["--start", "x(9)=1"], "x(9) is outside the indices 0 to 7"),
        (&["--start", "x(0)=1e3"], "--start wants a number such as 1, -1/2 or 0.25, not `1e3`"),
        (&["--start", "x(0)=1,"], "--start wants `x(0)=1,y(0)=1/2`, and `` is none of it"),
    ];
    for (words, says) in wrong {
        let output = run(&[words, &[&sheet[..]]].concat());
        assert_eq!((output.status.code(), told(&output)), (Some(2), format!("wurgalm: series: {says}")));
        assert!(output.stdout.is_empty() && folder.names() == ["a.sheet"], "{words:?}");
    }
    let right = run(&["--names", "u,v", "--start", "u(0) = 1 ,\tv(1)=4", "--terms", "2", &sheet]);
    let text = String::from_utf8(right.stdout).unwrap();
    assert!(text.ends_with("\nwith u(0)=1,v(1)=4\nn  u  v\n0  1  2\n1  1  4\n"), "{text}");
}

// ---- the file of a picture ----

#[test]
fn no_input_is_written_over() {
    let folder = Folder::new("over");
    let sheet = folder.file("k.svg", PLAIN);
    let (link, hard, chain) = (folder.path("link.svg"), folder.path("hard.svg"), folder.path("chain.svg"));
    symlink(&sheet, &link).unwrap();
    fs::hard_link(&sheet, &hard).unwrap();
    symlink(&link, &chain).unwrap();
    let start = ["--start", "x(0)=1,y(0)=1", "--plot"];
    for (plot, input) in [(&sheet, &sheet), (&link, &sheet), (&hard, &sheet), (&sheet, &chain), (&chain, &hard)] {
        let output = run(&[&start[..], &[plot, input]].concat());
        assert_eq!(output.status.code(), Some(2));
        assert!(told(&output).contains("is the file that is read as"), "{}", told(&output));
    }
    let output = command().args(start).args([&link, "-"]).stdin(fs::File::open(&sheet).unwrap()).output().unwrap();
    assert_eq!(output.status.code(), Some(2));
    assert!(told(&output).ends_with("is the file that is read as standard input, and is left as it is"));
    assert_eq!(fs::read_to_string(&sheet).unwrap(), PLAIN);
    assert_eq!(folder.names(), ["chain.svg", "hard.svg", "k.svg", "link.svg"]);
}

#[test]
fn a_picture_is_whole_or_not_there() {
    let folder = Folder::new("whole");
    let (sheet, plot, old) = (folder.file("a.sheet", PLAIN), folder.path("a.svg"), folder.file("old.svg", "old"));
    let start = ["--start", "x(0)=1,y(0)=1"];
    // No answer, no picture: the second starting vector cannot be.
    for plot in [&plot, &old] {
        let output = run(&[&start[..], &["--start", "x(0)=1,x(1)=2", "--plot", plot, &sheet]].concat());
        assert_eq!(output.status.code(), Some(1));
        assert!(told(&output).ends_with("x(1) = 2 cannot be: x(1) is 1 by what stands before it"));
    }
    assert_eq!(
        (folder.names(), fs::read_to_string(&old).unwrap()),
        (vec!["a.sheet".into(), "old.svg".into()], "old".into())
    );
    // An answer that cannot be written has none either.
    let full = fs::OpenOptions::new().write(true).open("/dev/full").unwrap();
    let output = command().args(start).args(["--plot", &plot, &sheet]).stdout(full).output().unwrap();
    assert_eq!((output.status.code(), Path::new(&plot).exists()), (Some(2), false));
    // A disk that is full after a kilobyte leaves nothing, and what was there.
    for plot in [&plot, &old] {
        let words =
            format!("trap '' XFSZ; ulimit -f 1; exec \"$0\" series --start 'x(0)=1,y(0)=1' --plot {plot} {sheet}");
        let output = Command::new("bash").args(["-c", &words, env!("CARGO_BIN_EXE_wurgalm")]).output().unwrap();
        assert_eq!(output.status.code(), Some(2), "{}", told(&output));
        assert!(told(&output).contains("File too large"), "{}", told(&output));
    }
    assert_eq!(
        (folder.names(), fs::read_to_string(&old).unwrap()),
        (vec!["a.sheet".into(), "old.svg".into()], "old".into())
    );
    // What is read-only stays, what is a folder stays, a link is written through.
    fs::set_permissions(&old, fs::Permissions::from_mode(0o444)).unwrap();
    assert_eq!(run(&[&start[..], &["--plot", &old, &sheet]].concat()).status.code(), Some(2));
    fs::set_permissions(&old, fs::Permissions::from_mode(0o640)).unwrap();
    symlink(&old, &plot).unwrap();
    assert_eq!(run(&[&start[..], &["--plot", &plot, &sheet]].concat()).status.code(), Some(0));
    assert!(fs::symlink_metadata(&plot).unwrap().is_symlink());
    assert!(fs::read_to_string(&old).unwrap().ends_with("</svg>\n"));
    assert_eq!(fs::metadata(&old).unwrap().permissions().mode() & 0o777, 0o640);
    assert_eq!(folder.names(), ["a.sheet", "a.svg", "old.svg"]);
    let output = run(&[&start[..], &["--plot", "a.png", &sheet]].concat());
    assert_eq!(told(&output), "wurgalm: series: --plot writes SVG, and `a.png` does not end in .svg");
}

#[test]
fn nothing_reaches_a_picture_that_is_no_number() {
    let folder = Folder::new("numbers");
    let (sheet, plot) = (folder.file("a.sheet", PLAIN), folder.path("a.svg"));
    let large = format!("1{}", "0".repeat(308));
    for over in [
        "100000000000000000000:100000000000000000001".into(),
        format!("0:{large}"),
        format!("-{large}:{large}"),
        format!("0:1/{large}0000"),
        "5:5".into(),
        "0:NaN".into(),
        "0:inf".into(),
        "0:1e20".into(),
    ] {
        let output = run(&["--start", "x(0)=1,y(0)=1", "--over", &over, "--plot", &plot, &sheet]);
        assert_eq!((output.status.code(), folder.names()), (Some(2), vec!["a.sheet".into()]), "{over}");
    }
    for start in ["x(0)=1,\u{1}y(0)=1", "x(0)=1,y(0)=1\u{1b}[31m", "x(0)\u{fffe}=1", "x\u{7}(0)=1,y(0)=1"] {
        let output = run(&["--start", start, "--plot", &plot, &sheet]);
        assert_eq!((output.status.code(), folder.names()), (Some(2), vec!["a.sheet".into()]), "{start:?}");
        assert!(output.stderr.iter().all(|&byte| byte == b'\n' || byte >= 32), "{start:?}");
    }
    let output = run(&["--start", "x(0)=1,\n\u{85}y(0)=1\u{2028}", "--plot", &plot, &sheet]);
    assert_eq!(output.status.code(), Some(0));
    let svg = fs::read_to_string(&plot).unwrap();
    assert!(svg.contains(">x(0) = 1, y(0) = 1<") && svg.chars().all(|c| c == '\n' || !c.is_control()), "{svg}");
}

// ---- long work ----

#[test]
fn a_limit_ends_it_and_leaves_the_terms() {
    let folder = Folder::new("limit");
    let sheet = folder.file("heavy.sheet", &heavy());
    let words = ["--first", "0", "--terms", "400"];
    let output = run(&[&words[..], &["--limit", "1500ms", &sheet]].concat());
    assert_eq!(output.status.code(), Some(1));
    assert!(told(&output).contains("the limit of 1.5s is over at index"), "{}", told(&output));
    let text = String::from_utf8(output.stdout).unwrap();
    let lines: Vec<&str> = text.lines().skip(5).collect();
    assert!(text.ends_with('\n') && lines.len() > 5, "{}", lines.len());
    assert!(lines.iter().enumerate().all(|(at, line)| line.split(' ').next() == Some(&at.to_string())));
    for wrong in ["10", "s", "0s", "1h", "-1s", "99999999999999999999s", "1.5s"] {
        assert_eq!(run(&["--limit", wrong, &sheet]).status.code(), Some(2), "{wrong}");
    }
}

/// What was written when the command is killed are whole terms, the same as in an answer that goes further.
#[test]
fn an_end_from_outside_leaves_the_terms() {
    let folder = Folder::new("killed");
    let sheet = folder.file("heavy.sheet", &heavy());
    let words = ["--first", "0", "--terms", "400", &sheet];
    let mut child = command().args(words).stdout(Stdio::piped()).spawn().unwrap();
    let mut reader = BufReader::new(child.stdout.take().unwrap());
    let mut read = String::new();
    while read.lines().count() < 30 {
        assert!(reader.read_line(&mut read).unwrap() > 0);
    }
    child.kill().unwrap();
    child.wait().unwrap();
    let whole = run(&["--first", "0", "--terms", "30", &sheet]);
    let whole = String::from_utf8(whole.stdout).unwrap();
    let same = whole.lines().zip(read.lines()).filter(|(a, b)| a.split_whitespace().eq(b.split_whitespace())).count();
    assert_eq!(same, 30);
}

/// A cell has more characters than a width of Rust's own can have.
#[test]
fn cells_are_as_long_as_they_are() {
    let folder = Folder::new("cells");
    let sheet = folder.file("heavy.sheet", &heavy());
    let output = run(&["--first", "0", "--from", "0", "--terms", "60", &sheet]);
    assert_eq!(output.status.code(), Some(0));
    let longest = String::from_utf8(output.stdout).unwrap().lines().map(str::len).max().unwrap();
    assert!(longest > 4 * 65_535, "{longest}");
}
