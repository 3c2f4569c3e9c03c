//! The refusals (SCOPE 6).

/// Each refusal under its number. 6 was that of dependent equations, and does not occur any more (02, U6).
#[derive(Clone, Copy, Debug, PartialEq, Eq, PartialOrd, Ord, Hash)]
#[repr(u8)]
pub enum Refusal {
    /// A store is too short, or an answering sheet too long (SCOPE 6.1).
    Short = 1,
    /// A number is out of the range of a size, a block, a column or a count (SCOPE 6.2).
    Range = 2,
    /// A token is no number; or separator, term order or last coefficient is wrong (SCOPE 6.3).
    Form = 3,
    /// A sheet stops too early, or something follows it (SCOPE 6.4).
    End = 4,
    /// A number is past ±C, or an unused position is not 0 (SCOPE 6.5).
    Number = 5,
    /// A degree has passed 15 (SCOPE 6.7).
    Degree = 7,
    /// A coefficient has passed ±C (SCOPE 6.8).
    Coefficient = 8,
    /// There is no place for a relation (SCOPE 6.9).
    Relations = 9,
    /// A row's left part is zero and its right side is not (02, U1).
    Inconsistent = 10,
    /// A state that is handed in is not right (02, U9).
    State = 11,
    /// A value of Horner's rule has passed ±2^40 (02, U10).
    Value = 12,
    /// The polynomial solutions of such a system are not listed (02, U13). Its right sides are looked at before the work begins.
    NotListed = 14,
}

impl Refusal {
    pub fn number(self) -> u8 {
        self as u8
    }

    /// Whether the refusal comes while the work is going on, so that stores become zero (SCOPE 6.33), or before it
    /// begins (SCOPE 6.32). The system itself is refused during the work, a state before it.
    pub fn during_the_work(self) -> bool {
        self >= Refusal::Degree && self != Refusal::State
    }
}
