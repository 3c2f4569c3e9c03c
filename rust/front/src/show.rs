//! `wurgalm show`: a sheet as equations.

use crate::check::with_place;
use crate::command::{bytes_of, is_differential, last, Arguments, End, Outcome};
use crate::{differentials, writing};
use wurgalm::System;

pub fn show(mut arguments: Arguments) -> Outcome {
    let names = arguments.value("--names")?;
    let is_differential = is_differential(&mut arguments, last);
    let file = arguments.files(1, 1)?.remove(0);
    let sheet = bytes_of(&file)?;
    let usual = if is_differential { differentials::UNKNOWNS } else { writing::UNKNOWNS };
    let names = writing::names(names, usual).map_err(End::Misused)?;
    if is_differential {
        System::from_differential(&sheet).map_err(|refusal| with_place(refusal, &file, &sheet, true))?;
        return Ok(differentials::shown(&sheet, &names).into_bytes());
    }
    let system = System::from_sheet(&sheet).map_err(|refusal| with_place(refusal, &file, &sheet, false))?;
    Ok(writing::system(&system, &names).into_bytes())
}
