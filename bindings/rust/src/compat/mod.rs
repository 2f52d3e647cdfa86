//! The names of the crate `phonenumber` 0.3.10, over the library's own metadata.
//!
//! A program that uses them changes its import, and is answered by that crate's rules:
//!
//! ```
//! use phonenumber_proved::compat::{self as phonenumber, Mode};
//!
//! let country = Some("DE".parse().unwrap());
//! let number = phonenumber::parse(country, "301/23456").unwrap();
//! assert!(phonenumber::is_valid(&number));
//! assert_eq!(number.format().mode(Mode::National).to_string(), "030 123456");
//! assert_eq!(number.country().id(), Some(phonenumber::country::DE));
//! ```
//!
//! The first call opens the metadata, for all threads, and they take some 6 MB; their records are made once one is asked for.
//! A call ends the program where memory is lacking. Its own tests are run over these names (`tools/crate-tests`).
use crate::database::Rules;

mod error;
mod formatter;
mod national_number;
mod phone_number;
mod texts;
mod validator;

pub mod country;
pub mod metadata;
#[cfg(feature = "serde")]
mod with_serde;

pub use crate::{Mode, Type, is_viable};
pub use error::{LoadError, MetadataError, ParseError};
pub use formatter::{Formatter, format, format_with};
pub use metadata::Metadata;
pub use national_number::NationalNumber;
pub use phone_number::{Country, PhoneNumber};
pub use texts::{Carrier, Extension};
pub use validator::{Validation, is_valid, is_valid_with};

use metadata::{DATABASE, Database};

/// The number that a text is.
///
/// ```
/// use phonenumber_proved::compat::{ParseError, parse};
/// assert!(matches!(parse(None, "call me"), Err(ParseError::NoNumber)));
/// ```
pub fn parse<S: AsRef<str>>(country: Option<country::Id>, string: S) -> Result<PhoneNumber, ParseError> {
    parse_with(&DATABASE, country, string)
}

/// The number that a text is, by these metadata.
pub fn parse_with<S: AsRef<str>>(
    database: &Database,
    country: Option<country::Id>,
    string: S,
) -> Result<PhoneNumber, ParseError> {
    let read = database.asked.by(Rules::Crate).parse(country, string);
    read.map(PhoneNumber::of).map_err(ParseError::of)
}
