//! `wurgalm type`: equations as a person writes them, made a sheet.

use crate::command::{bytes_of, named, Arguments, End, Outcome};
use crate::typing::{read, Typed};
use crate::{differentials, writing};
use std::io::{self, Write};
use wurgalm::System;

pub fn type_in(mut arguments: Arguments) -> Outcome {
    let is_differential = arguments.flag("--differential");
    let is_explained = arguments.flag("--explain");
    let typed = arguments.value("-e")?;
    let most = usize::from(typed.is_none());
    let files = arguments.files(0, most)?;
    let (name, text) = match typed {
        Some(text) => ("-e".into(), text),
        None => {
            let file = files.into_iter().next().unwrap_or_else(|| "-".into());
            let bytes = bytes_of(&file)?;
            (file, String::from_utf8_lossy(&bytes).into_owned())
        }
    };
    let typed = read(&text, is_differential).map_err(|unread| End::Refused(format!("{}: {unread}", named(&name))))?;
    if is_explained || !typed.doubts.is_empty() {
        // What cannot be told does not keep the sheet back.
        let _ = io::stderr().lock().write_all(explained(&typed).as_bytes());
    }
    Ok(typed.sheet)
}

/// What was read: the doubts with what to do, the columns, and each equation and relation as the sheet has it.
fn explained(typed: &Typed) -> String {
    let names = &typed.names;
    let mut text = String::new();
    for doubt in &typed.doubts {
        text += &format!("note: {doubt}\n");
    }
    if !typed.doubts.is_empty() {
        text += &format!("note: a first line `unknowns {}` says that these names are meant\n", names.join(", "));
    }
    let columns: Vec<String> = (1..).zip(names).map(|(column, name)| format!("{name} in column {column}")).collect();
    text += &format!("unknowns: {}\n", columns.join(", "));
    let shown = if typed.is_differential {
        differentials::shown(&typed.sheet, names)
    } else {
        System::from_sheet(&typed.sheet).map_or(String::new(), |system| writing::system(&system, names))
    };
    for line in shown.lines().skip(1) {
        text += &format!("read: {line}\n");
    }
    text
}
