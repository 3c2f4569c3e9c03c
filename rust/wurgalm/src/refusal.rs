//! What a refusal says, in words.

use crate::Refusal;
use std::error::Error;
use std::fmt;

impl Refusal {
    /// What the number means, as a sentence without its point.
    ///
    /// ```
    /// assert_eq!(wurgalm::Refusal(10).meaning(), "no sequence satisfies the system");
    /// assert_eq!(wurgalm::Refusal(13).meaning(), "a step of the log, or its end, is not right");
    /// assert_eq!(wurgalm::Refusal(6).meaning(), "no call gives this number");
    /// ```
    pub const fn meaning(self) -> &'static str {
        match self.0 {
            1 => "a store is too short, or the answer has more than 65,536 bytes",
            2 => "a size, block, column, count or order is out of its range",
            3 => "something is not a number, or stands in a wrong form or order",
            4 => "the bytes end early, or go on behind the last section",
            5 => "a number is past its limit",
            7 => "a degree has passed 15",
            8 => "a coefficient has passed 268,435,455 in the course of the run",
            9 => "more than 16 relations would have to be listed",
            10 => "no sequence satisfies the system",
            11 => "the state that was handed in is not right",
            12 => "a value of Horner's rule has passed 2^40",
            13 => "a step of the log, or its end, is not right",
            14 => "the system is not one whose polynomial solutions are listed",
            _ => "no call gives this number",
        }
    }
}

impl fmt::Display for Refusal {
    /// ```
    /// assert_eq!(wurgalm::Refusal(7).to_string(), "refused with 7: a degree has passed 15");
    /// ```
    fn fmt(&self, f: &mut fmt::Formatter) -> fmt::Result {
        write!(f, "refused with {}: {}", self.0, self.meaning())
    }
}

impl Error for Refusal {}
