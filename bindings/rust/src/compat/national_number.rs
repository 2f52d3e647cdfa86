//! National numbers.
use super::ParseError;
use std::fmt;
use std::str::FromStr;

/// A national number.
#[derive(Clone, Copy, Debug, PartialEq, Eq, Hash)]
pub struct NationalNumber {
    value: u64,
    zeros: u8,
}

impl NationalNumber {
    /// The number of this value behind so many zeros; `TooLong` where the value is 2^56 or more.
    pub fn new(value: u64, zeros: u8) -> Result<NationalNumber, ParseError> {
        if value < 1 << 56 { Ok(NationalNumber { value, zeros }) } else { Err(ParseError::TooLong) }
    }

    /// The number without its leading zeros.
    pub fn value(&self) -> u64 {
        self.value
    }

    /// How many zeros stand before it.
    pub fn zeros(&self) -> u8 {
        self.zeros
    }
}

impl FromStr for NationalNumber {
    type Err = ParseError;

    /// The number that digits are; its zeros are all that stand before the value, of which one is asked. Of 256 zeros and
    /// more, it has so many less, as in that crate.
    fn from_str(text: &str) -> Result<NationalNumber, ParseError> {
        let value = text.trim_start_matches('0');
        let zeros = text.len() - value.len();
        NationalNumber::new(value.parse()?, zeros as u8)
    }
}

/// The value, and the count of zeros in the eight bits above its 56.
impl From<NationalNumber> for u64 {
    fn from(number: NationalNumber) -> u64 {
        u64::from(number.zeros) << 56 | number.value
    }
}

/// The digits, with the leading zeros.
impl fmt::Display for NationalNumber {
    fn fmt(&self, f: &mut fmt::Formatter<'_>) -> fmt::Result {
        f.write_str(&"0".repeat(usize::from(self.zeros)))?;
        self.value.fmt(f)
    }
}
