//! What the batch program writes (SCOPE 5).

use crate::elimination::{run, Side};
use crate::fault::{is, Fault};
use crate::refusal::Refusal;
use crate::sheet::{read, write, Reader, Separator, Sheet};

/// The most bytes of an answering sheet; with more the answer is 1 (SCOPE 5.13).
pub const OUTPUT: usize = 65_536;
/// The most sheets of a batch (SCOPE 5.1).
pub const SHEETS: i128 = 1_000;
/// The most bytes of a sheet (SCOPE 5.2).
pub const SHEET_BYTES: i128 = 32_768;
/// Clients have the numbers from 1 to this one (SCOPE 5.2).
pub const CLIENTS: usize = 8;

/// The leading-side sheet that answers the bytes of a sheet; the order that those carry has no use (SCOPE 4.44).
pub fn answer(bytes: &[u8], fault: Option<Fault>) -> Result<Vec<u8>, Refusal> {
    let sheet = read(bytes, fault)?;
    let run = run(&sheet.system, Side::Leading, fault)?;
    let mut sheet = Sheet { system: run.system, order: run.order };
    let text = write(&sheet);
    let mut length = text.len();
    if is(fault, Fault::LargeFifth) {
        sheet.system.all_rows_mut().for_each(|row| *row = row.left());
        length = write(&sheet).len();
    }
    if length > OUTPUT && !is(fault, Fault::LargeOutput) {
        return Err(Refusal::Short);
    }
    Ok(text)
}

/// What the batch program writes for a whole input.
pub fn output(input: &[u8], fault: Option<Fault>) -> Vec<u8> {
    let mut batch = Batch { input: Reader { bytes: input, fault }, written: Vec::new(), clients: Default::default() };
    let whole = batch.sheets();
    // A broken batch ends in the line `3`, with no other after it (SCOPE 5.21).
    if whole.is_none() {
        batch.written.extend(b"3\n");
    }
    // The numbers of accepted and of refused sheets, client by client (SCOPE 5.12).
    if whole.is_some() || is(fault, Fault::CountsAfterBreak) {
        batch.close();
    }
    batch.written
}

/// The accepted and the refused sheets of a client.
#[derive(Clone, Copy, Default)]
struct Counts {
    accepted: usize,
    refused: usize,
}

impl Counts {
    fn with(self, other: Counts) -> Counts {
        Counts { accepted: self.accepted + other.accepted, refused: self.refused + other.refused }
    }
}

struct Batch<'a> {
    input: Reader<'a>,
    written: Vec<u8>,
    clients: [Counts; CLIENTS],
}

impl Batch<'_> {
    /// All sheets with their answers, `None` at the first broken place. Numbers follow the grammar of sheets.
    fn sheets(&mut self) -> Option<()> {
        let count = self.input.within(Separator::LineEnd, |count| (0..=SHEETS).contains(&count)).ok()?;
        for _ in 0..count {
            self.sheet()?;
        }
        let left_over = !self.input.bytes.is_empty() && !is(self.input.fault, Fault::LeftOver);
        if left_over {
            None
        } else {
            Some(())
        }
    }

    /// The line with client and length, and so many bytes (SCOPE 5.2).
    fn sheet(&mut self) -> Option<()> {
        let clients = 1..=CLIENTS as i128;
        let client = self.input.within(Separator::Space, |client| clients.contains(&client)).ok()?;
        let length = self.input.within(Separator::LineEnd, |length| (0..=SHEET_BYTES).contains(&length)).ok()?;
        let there = self.input.bytes.len();
        let mut length = length as usize;
        if is(self.input.fault, Fault::MissingAnswered) {
            length = length.min(there);
        }
        // A sheet of which bytes are missing is not answered.
        if length > there {
            return None;
        }
        let (bytes, rest) = self.input.bytes.split_at(length);
        self.input.bytes = rest;
        self.answer(client as usize, bytes);
        Some(())
    }

    /// A line `0` and the sheet, or one line with the refusal (SCOPE 5.11); it is counted for its client.
    fn answer(&mut self, client: usize, bytes: &[u8]) {
        let fault = self.input.fault;
        let place = if is(fault, Fault::OtherClient) { client % CLIENTS } else { client - 1 };
        let counts = &mut self.clients[place];
        match answer(bytes, fault) {
            Ok(text) => {
                self.written.extend(b"0\n");
                self.written.extend(text);
                counts.accepted += 1;
            }
            Err(refusal) => {
                self.written.extend(format!("{}\n", refusal.number()).bytes());
                if is(fault, Fault::RefusedAccepted) {
                    counts.accepted += 1;
                } else {
                    counts.refused += 1;
                }
            }
        }
    }

    /// A line for each client, also for one who sent nothing (SCOPE 5.12).
    fn close(&mut self) {
        let fault = self.input.fault;
        let mut lines = self.clients.to_vec();
        if is(fault, Fault::OneLine) {
            lines = vec![lines.iter().fold(Counts::default(), |sum, &counts| sum.with(counts))];
        }
        if is(fault, Fault::SilentClients) {
            lines.retain(|counts| counts.accepted + counts.refused > 0);
        }
        for Counts { accepted, refused } in lines {
            self.written.extend(format!("{accepted} {refused}\n").bytes());
        }
    }
}
