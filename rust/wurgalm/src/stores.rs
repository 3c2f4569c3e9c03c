//! The exported functions, as safe Rust: each answers 0 or its refusal number, and takes its answer in the lent store `result`.

pub use crate::foreign::{
    batch, check_record, prepare, read_differential, read_sheet, replay, run_leading, run_logged, run_steps,
    run_trailing, solutions, write_recurrence, write_sheet,
};
