//! The place of a sheet's first fault, found with the proved reader alone.
//!
//! A beginning of a sheet is refused with 4 as long as it could go on to be one (SCOPE 4.32). So the shortest beginning that is refused
//! with another number ends at the byte that shows the fault, and what begins there is a token or the separator behind it.

use wurgalm::{read_differential, read_sheet, row_store, Heading, Refusal, EQUATIONS, RELATION_STORE};

/// "The bytes end early, or go on."
const ENDS: Refusal = Refusal(4);
/// More lines than any sheet without a fault has: 3 with counts, 1 with sizes, 1 with the order, 22 rows and as many right sides.
const LINES: usize = 50;

/// What the fault is, beside its number.
#[derive(Clone, Copy, Debug, PartialEq, Eq)]
pub enum What {
    /// The token is no number, or another than may stand here.
    Token,
    /// The token may stand here, the byte behind it may not.
    Separator,
    /// The bytes end before the sheet does.
    EndsEarly,
    /// The sheet ends, and the bytes go on.
    GoesOn,
}

/// The first fault of a sheet.
#[derive(Clone, Copy, Debug, PartialEq, Eq)]
pub struct Fault {
    pub refusal: Refusal,
    pub what: What,
    /// Where the token begins, in bytes from 0.
    pub token: usize,
    /// Where the token ends.
    pub end: usize,
}

/// The proved call that reads a sheet of some kind into stores.
type ReadCall = fn(&[u8], &mut [i64], &mut [i64]) -> Result<Heading, Refusal>;

/// A reader of sheets or of differential sheets, with stores for it.
pub struct Judge {
    rows: Vec<i64>,
    relations: Vec<i64>,
    reader: ReadCall,
}

pub(crate) fn is_separator(byte: &u8) -> bool {
    matches!(byte, b' ' | b'\n')
}

impl Judge {
    pub fn new(is_differential: bool) -> Judge {
        let (rows, relations) = (vec![0; row_store(EQUATIONS)], vec![0; RELATION_STORE]);
        Judge { rows, relations, reader: if is_differential { read_differential } else { read_sheet } }
    }

    pub fn read(&mut self, bytes: &[u8]) -> Result<Heading, Refusal> {
        (self.reader)(bytes, &mut self.rows, &mut self.relations)
    }

    /// Whether the bytes are a sheet, or could go on to be one.
    pub fn could_begin(&mut self, bytes: &[u8]) -> bool {
        self.read(bytes).map_or_else(|refusal| refusal == ENDS, |_| true)
    }

    /// The first fault, if there is one.
    pub fn fault(&mut self, bytes: &[u8]) -> Option<Fault> {
        let refusal = self.read(bytes).err()?;
        if refusal == ENDS {
            return Some(self.end_fault(bytes));
        }
        // Whatever follows a fault, it stays the first one: the beginnings that have it are all from some length on.
        let (mut without, mut with) = (0, bytes.len());
        while without + 1 < with {
            let middle = without + (with - without) / 2;
            if self.could_begin(&bytes[..middle]) {
                without = middle;
            } else {
                with = middle;
            }
        }
        let last = with - 1;
        let token = bytes[..last].iter().rposition(is_separator).map_or(0, |at| at + 1);
        let end = last + bytes[last..].iter().position(is_separator).unwrap_or(bytes.len() - last);
        let what = if self.other_separator(&bytes[..with]) { What::Separator } else { What::Token };
        Some(Fault { refusal, what, token, end })
    }

    /// Whether the bytes, which end in a separator, could begin a sheet with the other one in its place.
    fn other_separator(&mut self, bytes: &[u8]) -> bool {
        let Some((last, front)) = bytes.split_last() else { return false };
        let other = if *last == b' ' { b'\n' } else { b' ' };
        is_separator(last) && self.could_begin(&[front, &[other]].concat())
    }

    /// Which of the two that 4 stands for it is, and where. Where the longest beginning that is a sheet has all its sections, bytes go on
    /// behind it.
    fn end_fault(&mut self, bytes: &[u8]) -> Fault {
        let ends = bytes.iter().enumerate().filter(|(_, &byte)| byte == b'\n').map(|(at, _)| at + 1).take(LINES);
        let whole: Vec<usize> = ends.filter(|&end| end < bytes.len() && self.read(&bytes[..end]).is_ok()).collect();
        let goes_on = whole.last().copied().filter(|&end| !self.could_begin_more(&bytes[..end]));
        let token = goes_on.unwrap_or_else(|| bytes.iter().rposition(is_separator).map_or(0, |at| at + 1));
        let what = if goes_on.is_some() { What::GoesOn } else { What::EndsEarly };
        let end = token + bytes[token..].iter().position(is_separator).unwrap_or(bytes.len() - token);
        Fault { refusal: ENDS, what, token, end }
    }

    /// Whether a sheet can have another section behind it: a byte that is no number is refused as one then, and with 4 where nothing
    /// may follow.
    fn could_begin_more(&mut self, sheet: &[u8]) -> bool {
        self.read(&[sheet, b"x"].concat()) != Err(ENDS)
    }
}

/// Line and column of a byte, both from 1.
pub fn line_and_column(bytes: &[u8], at: usize) -> (usize, usize) {
    let before = &bytes[..at];
    let line = before.iter().filter(|&&byte| byte == b'\n').count() + 1;
    let column = at - before.iter().rposition(|&byte| byte == b'\n').map_or(0, |end| end + 1) + 1;
    (line, column)
}
