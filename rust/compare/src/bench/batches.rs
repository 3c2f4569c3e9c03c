//! The table of batches: the proved program beside that of the fast version, on the seven kinds.

use super::kinds::{Kind, Work, KINDS};
use super::process::{measured, milliseconds, Measured, Program};
use crate::fast;
use crate::tally::last_counts;

/// Passes over one batch.
const PASSES: usize = 25;

/// A line for each kind, as docs/BENCHMARKS.md has it; of the named ones only, where there are names.
pub fn table(library: Option<&Program>, names: &[&str]) {
    println!("| batch of 1,000 sheets | library | fast version | ratio | least, median, greatest |");
    println!("|---|---:|---:|---:|---:|");
    for kind in KINDS.iter().filter(|kind| names.is_empty() || names.contains(&kind.name)) {
        line(kind, &measured(library, &kind.batch(), PASSES));
    }
}

fn line(kind: &Kind, measured: &Measured) {
    let library = measured.shortest_library().map_or("-".into(), |time| format!("{:.3} ms", milliseconds(time)));
    let ratio = measured.ratio().map_or("-".into(), |ratio| format!("{ratio:.2}"));
    let spread = measured.spread().map_or("-".into(), |ratios| ratios.map(|ratio| format!("{ratio:.2}")).join(", "));
    let fast = milliseconds(measured.shortest_fast());
    println!("| {} | {library} | {fast:.3} ms | {ratio} | {spread} |", kind.name);
}

/// What each kind is: its bytes, the answers to it, and the elimination in it.
pub fn contents() {
    println!("| batch | its sheets | bytes | accepted, refused | combinations | exchanges | shifts | rows dropped | relations |");
    println!("|---|---|---:|---:|---:|---:|---:|---:|---:|");
    for kind in &KINDS {
        let (batch, sheets) = (kind.batch(), kind.sheets());
        let (accepted, refused) = last_counts(&fast::batch(&batch)).expect("a whole batch");
        let Work { combinations, exchanges, shifts, drops, relations } = Work::of(&sheets);
        let counts = format!("{combinations} | {exchanges} | {shifts} | {drops} | {relations}");
        println!("| {} | {} | {} | {accepted}, {refused} | {counts} |", kind.name, kind.about, batch.len());
    }
}
