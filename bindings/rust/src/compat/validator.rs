//! Whether such numbers are given out.
use super::PhoneNumber;
use super::metadata::{DATABASE, Database};
use crate::database::Rules;

/// What the count of a number's digits says. No call of this crate answers it, as none of that crate does.
#[derive(Clone, Copy, Debug, PartialEq, Eq)]
pub enum Validation {
    /// Such a count is possible.
    IsPossible,
    /// It is possible where the area code is left out.
    IsPossibleLocalOnly,
    /// The calling code is listed nowhere.
    InvalidCountryCode,
    /// There are fewer digits than any number of the region has.
    TooShort,
    /// No number of the region has so many, though some have fewer and some more.
    InvalidLength,
    /// There are more digits than any number of the region has.
    TooLong,
}

impl Validation {
    /// Whether the count is possible, perhaps without the area code alone.
    pub fn is_possible(&self) -> bool {
        matches!(self, Validation::IsPossible | Validation::IsPossibleLocalOnly)
    }

    /// Whether it isn't.
    pub fn is_invalid(&self) -> bool {
        !self.is_possible()
    }

    /// Whether there are too few digits, too many, or another count than any number has.
    pub fn is_invalid_length(&self) -> bool {
        matches!(self, Validation::TooShort | Validation::InvalidLength | Validation::TooLong)
    }
}

/// Whether such numbers are given out.
pub fn is_valid(number: &PhoneNumber) -> bool {
    is_valid_with(&DATABASE, number)
}

/// Whether such numbers are given out, by these metadata.
pub fn is_valid_with(database: &Database, number: &PhoneNumber) -> bool {
    database.asked.by(Rules::Crate).is_valid(&number.read).expect("memory is given")
}
