//! Batch programs as processes: each reads its input from a file and writes its output into another one, both in memory where the
//! system has a folder for that, so that no pipe and no disk has a part in what is measured.

use crate::subject::Library;
use std::fs::{create_dir_all, read, remove_dir_all, write, File};
use std::path::{Path, PathBuf};
use std::process::Command;
use std::time::{Duration, Instant};

/// A batch program.
pub struct Program(PathBuf);

impl Program {
    /// The proved one.
    pub fn proved(library: &Library) -> Program {
        Program(library.program().to_path_buf())
    }

    /// That of the fast version, which is built beside the running program.
    pub fn fast() -> Program {
        let path = std::env::current_exe().expect("this program").with_file_name("fast_batch");
        if !path.exists() {
            eprintln!("{} is missing: `cargo build --release` makes it", path.display());
            std::process::exit(2);
        }
        Program(path)
    }

    /// The time from the start of the process to its end. The output is written over what its file holds.
    fn timed(&self, input: &Path, output: &Path) -> Duration {
        let input = File::open(input).expect("the input is there");
        let output = File::options().write(true).open(output).expect("the output's file is there");
        let mut command = Command::new(&self.0);
        command.stdin(input).stdout(output);
        let start = Instant::now();
        let status = command.status().expect("the program runs");
        let time = start.elapsed();
        assert!(status.success(), "{}: {status}", self.0.display());
        time
    }
}

/// A folder for the files of one input, which goes with its value.
struct Folder(PathBuf);

impl Folder {
    fn new() -> Folder {
        let memory = Path::new("/dev/shm");
        let place = if memory.is_dir() { memory.to_path_buf() } else { std::env::temp_dir() };
        let folder = place.join(format!("wurgalm-bench-{}", std::process::id()));
        create_dir_all(&folder).expect("a folder for inputs and outputs");
        Folder(folder)
    }

    fn file(&self, name: &str, bytes: &[u8]) -> PathBuf {
        let path = self.0.join(name);
        write(&path, bytes).expect("the file is written");
        path
    }
}

impl Drop for Folder {
    fn drop(&mut self) {
        drop(remove_dir_all(&self.0));
    }
}

/// What both programs took on one input, pass by pass.
pub struct Measured {
    library: Vec<Duration>,
    fast: Vec<Duration>,
}

/// Both programs on one input, by turns, so many passes; the one that begins is the other one in the next pass. Their outputs have to be
/// the same. Without the library the fast version is alone.
pub fn measured(library: Option<&Program>, input: &[u8], passes: usize) -> Measured {
    let (folder, fast) = (Folder::new(), Program::fast());
    let input = folder.file("input", input);
    let outputs = ["library", "fast"].map(|name| folder.file(name, b""));
    fast.timed(&input, &outputs[1]);
    if let Some(library) = library {
        library.timed(&input, &outputs[0]);
        let [found, expected] = outputs.each_ref().map(|path| read(path).expect("the output is there"));
        assert!(found == expected, "the program writes something else than the fast version");
    }
    let mut measured = Measured { library: Vec::new(), fast: Vec::new() };
    for turn in (0..passes).flat_map(|pass| [pass, pass + 1]) {
        if turn % 2 == 1 {
            measured.fast.push(fast.timed(&input, &outputs[1]));
        } else if let Some(library) = library {
            measured.library.push(library.timed(&input, &outputs[0]));
        }
    }
    measured
}

impl Measured {
    /// The shortest pass of the proved program, where there is one.
    pub fn shortest_library(&self) -> Option<Duration> {
        self.library.iter().min().copied()
    }

    pub fn shortest_fast(&self) -> Duration {
        self.fast.iter().min().copied().expect("at least one pass")
    }

    /// How often the fast version's time the proved program took, from the shortest passes of both.
    pub fn ratio(&self) -> Option<f64> {
        self.shortest_library().map(|time| time.as_secs_f64() / self.shortest_fast().as_secs_f64())
    }

    /// The least, the middle and the greatest ratio of a pass.
    pub fn spread(&self) -> Option<[f64; 3]> {
        let pairs = self.library.iter().zip(&self.fast);
        let mut ratios: Vec<f64> = pairs.map(|(ours, fast)| ours.as_secs_f64() / fast.as_secs_f64()).collect();
        ratios.sort_by(f64::total_cmp);
        Some([*ratios.first()?, ratios[ratios.len() / 2], *ratios.last()?])
    }
}

/// Milliseconds.
pub fn milliseconds(time: Duration) -> f64 {
    time.as_secs_f64() * 1e3
}
