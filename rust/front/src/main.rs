//! The command `wurgalm`; everything is in the library of this package.

use std::env;
use std::process::ExitCode;

/// What is called before Rust's own start, which would hide that standard output is closed.
#[cfg(target_os = "linux")]
#[used]
#[link_section = ".init_array"]
static BEFORE_THE_START: extern "C" fn() = front::output::note_closed;

fn main() -> ExitCode {
    front::main(env::args_os().skip(1).collect())
}
