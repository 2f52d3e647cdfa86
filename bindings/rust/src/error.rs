//! Why a call fails.
use crate::ffi;
use std::fmt;

/// Why a call fails. Its text has the error's words.
///
/// ```
/// use phonenumber_proved::{Database, Error};
/// let refused = Database::world()?.parse(None, "call me").unwrap_err();
/// assert_eq!((refused, refused.to_string().as_str()), (Error::NoNumber, "not a number"));
/// # Ok::<(), Error>(())
/// ```
#[derive(Clone, Copy, Debug, PartialEq, Eq, Hash, PartialOrd, Ord)]
#[non_exhaustive]
pub enum Error {
    /// No parser takes the text, or its national part is not viable.
    NoNumber,
    /// The calling code is listed nowhere, or there is none and no default region gives one.
    InvalidCountryCode,
    /// Too few digits follow a plus sign or an international prefix; not given by the crate's rules.
    TooShortAfterIdd,
    /// Too few digits are there for a national number.
    TooShortNsn,
    /// More digits are there than a national number may have.
    TooLong,
    /// A national text that is no number, as that of zeros alone.
    MalformedInteger,
    /// No territory of the database has the number's calling code.
    UnknownCode,
    /// The text is no database: the status, as `phone.h` has it.
    Database(u32),
    /// The text is no table of prefixes: its first line that is no entry, counted from 1.
    Line(usize, LineFault),
    /// The text is not UTF-8.
    NotUtf8,
    /// The default region is no region's id.
    NoRegion,
    /// The database has no territory of the region.
    NoTerritory,
    /// Texts or default regions have the layout of no column.
    Layout,
    /// There was no memory. What was open is open.
    Memory,
    /// The file can't be read.
    Io(std::io::ErrorKind),
    /// A status that `phone.h` doesn't have for the call.
    Other(u32),
}

/// What is wrong with a line of a table of prefixes. Of several the first one here is named.
#[derive(Clone, Copy, Debug, PartialEq, Eq, Hash, PartialOrd, Ord)]
#[non_exhaustive]
pub enum LineFault {
    /// The line is empty, or a carriage return alone.
    Empty,
    /// No tab stands in the line.
    NoTab,
    /// What stands before the first tab isn't 1 to 15 ASCII digits.
    NoPrefix,
    /// What stands after the first tab isn't UTF-8.
    NotUtf8,
    /// An earlier line has the prefix.
    PrefixTwice,
}

impl Error {
    /// The error of a status.
    pub(crate) fn of(status: u32) -> Error {
        match status {
            1 => Error::NoNumber,
            2 => Error::InvalidCountryCode,
            3 => Error::TooShortAfterIdd,
            4 => Error::TooShortNsn,
            5 => Error::TooLong,
            6 => Error::MalformedInteger,
            ffi::MEMORY => Error::Memory,
            8..=12 => Error::Database(status),
            ffi::NOT_UTF8 => Error::NotUtf8,
            ffi::NO_REGION => Error::NoRegion,
            ffi::UNKNOWN_CODE => Error::UnknownCode,
            ffi::NO_TERRITORY => Error::NoTerritory,
            ffi::BAD_LAYOUT => Error::Layout,
            _ => Error::Other(status),
        }
    }

    /// The error of a status that the opening of a table of prefixes gives, and of its line.
    pub(crate) fn of_prefixes(status: u32, line: usize) -> Error {
        match status {
            25 => Error::Line(line, LineFault::Empty),
            26 => Error::Line(line, LineFault::NoTab),
            27 => Error::Line(line, LineFault::NoPrefix),
            28 => Error::Line(line, LineFault::NotUtf8),
            29 => Error::Line(line, LineFault::PrefixTwice),
            _ => Error::of(status),
        }
    }
}

/// Writes the words of a status; none takes more than 128 bytes.
fn write_words(status: u32, f: &mut fmt::Formatter<'_>) -> fmt::Result {
    let (mut out, mut wrote) = ([0u8; 128], 0);
    // SAFETY: the buffer is valid for its length, and apart from the length that is written.
    let answer = unsafe { ffi::phone_status_words(status, out.as_mut_ptr(), out.len(), &mut wrote) };
    match out.get(..wrote).map(std::str::from_utf8) {
        Some(Ok(words)) if answer == ffi::OK => f.write_str(words),
        _ => write!(f, "status {status} of the library"),
    }
}

impl fmt::Display for Error {
    fn fmt(&self, f: &mut fmt::Formatter<'_>) -> fmt::Result {
        let status = match self {
            Error::NoNumber => 1,
            Error::InvalidCountryCode => 2,
            Error::TooShortAfterIdd => 3,
            Error::TooShortNsn => 4,
            Error::TooLong => 5,
            Error::MalformedInteger => 6,
            Error::Memory => ffi::MEMORY,
            Error::NotUtf8 => ffi::NOT_UTF8,
            Error::NoRegion => ffi::NO_REGION,
            Error::NoTerritory => ffi::NO_TERRITORY,
            Error::Layout => ffi::BAD_LAYOUT,
            Error::UnknownCode => ffi::UNKNOWN_CODE,
            Error::Database(status) | Error::Other(status) => *status,
            Error::Line(line, fault) => return write!(f, "line {line}: {fault}"),
            Error::Io(kind) => return write!(f, "I/O error: {kind}"),
        };
        write_words(status, f)
    }
}

/// The words of the fault.
impl fmt::Display for LineFault {
    fn fmt(&self, f: &mut fmt::Formatter<'_>) -> fmt::Result {
        write_words(25 + *self as u32, f)
    }
}

impl std::error::Error for Error {}

impl From<std::io::Error> for Error {
    fn from(error: std::io::Error) -> Error {
        Error::Io(error.kind())
    }
}
