//! The batch program of the fast version, a process of its own beside the proved one.

use std::io::{stdin, stdout};

fn main() {
    compare::fast::stream(stdin().lock(), stdout().lock()).expect("the input is read and the output written");
}
