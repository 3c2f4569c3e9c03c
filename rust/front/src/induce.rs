//! `wurgalm induce`: the recurrence for the coefficients of the series of a differential sheet.

use crate::command::{Arguments, Outcome};
use crate::run::{names_for, system_of};
use crate::writing;

pub fn induce(mut arguments: Arguments) -> Outcome {
    let as_sheet = arguments.flag("--sheet");
    arguments.flag("--differential");
    let names = names_for(arguments.value("--names")?, true)?;
    let file = arguments.files(1, 1)?.remove(0);
    let system = system_of(&file, true)?;
    if as_sheet {
        return Ok(system.to_sheet()?);
    }
    Ok(writing::system(&system, &names).into_bytes())
}
