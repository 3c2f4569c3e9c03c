//! `wurgalm log`: the steps of our own leading run, as text.

use crate::command::{is_differential, last, Arguments, Outcome};
use crate::run::{refused, system_of};

pub fn log(mut arguments: Arguments) -> Outcome {
    let is_differential = is_differential(&mut arguments, last);
    let file = arguments.files(1, 1)?.remove(0);
    let (_, log) = system_of(&file, is_differential)?.run_logged().map_err(|refusal| refused(refusal, &file))?;
    Ok(log.to_string().into_bytes())
}
