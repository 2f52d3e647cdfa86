//! Countries.
use crate::number::PhoneNumber as Read;

pub use crate::Region as Id;
pub use crate::Source;
pub use Id::*;

/// A calling code, and how it was found.
#[derive(Clone, Copy, Debug, PartialEq, Eq, Hash)]
pub struct Code {
    value: u16,
    source: Source,
}

impl Code {
    pub(super) fn of(number: &Read) -> Code {
        Code { value: number.code(), source: number.source() }
    }

    /// A calling code that was found so.
    pub fn new(value: u16, source: Source) -> Code {
        Code { value, source }
    }

    /// The calling code, as 64 for New Zealand.
    pub fn value(&self) -> u16 {
        self.value
    }

    /// How it was found.
    pub fn source(&self) -> Source {
        self.source
    }
}

impl From<Code> for u16 {
    fn from(code: Code) -> u16 {
        code.value
    }
}
