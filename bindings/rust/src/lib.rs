//! Phone numbers, parsed and formatted as crates/phone_c proves it.
//!
//! ```
//! use phonenumber_proved::{Database, Mode, Region, Type};
//! let world = Database::world()?;
//! let number = world.parse(Region::NZ, "03-331 6005 ext. 12")?;
//! assert_eq!(number.to_string(), "+6433316005");
//! assert_eq!(world.format(&number).mode(Mode::National).to_string(), "03 331 6005 ext. 12");
//! assert_eq!(world.number_type(&number)?, Type::FixedLine);
//! assert_eq!(world.region(&number)?, Some(Region::NZ));
//! assert!(world.is_valid(&number)? && number.extension() == Some("12"));
//! # Ok::<(), Box<dyn std::error::Error>>(())
//! ```
//!
//! Texts are parsed and numbers described by libphonenumber's rules; [`Database::by`] takes those of the
//! crate `phonenumber` 0.3.10.
//!
//! ```
//! use phonenumber_proved::{Database, Region, Rules};
//! let world = Database::world()?;
//! let text = "+44 (0)20 7946 0018";
//! assert_eq!(world.parse(Region::US, text)?.to_string(), "+442079460018");
//! assert_eq!(world.by(Rules::Crate).parse(Region::US, text)?.to_string(), "+4402079460018");
//! # Ok::<(), phonenumber_proved::Error>(())
//! ```
//!
//! A [`PhoneNumber`] is plain data. Any number of threads may use a [`Database`] and its clones at once: they
//! share the metadata, which take some 6 MB. The calls are proved. This crate over them is tested: that the
//! declarations of `phonenumber-proved-sys` fit, and that memory is given back. The module `compat` has the
//! names of the crate `phonenumber`.
mod call;
mod columns;
pub mod compat;
mod database;
mod dialling;
mod error;
mod found;
mod number;
mod own;
mod places;
mod possible;
mod prefixes;
mod questions;
mod records;
mod region;
mod short;
mod typing;
#[cfg(feature = "serde")]
mod with_serde;

use phonenumber_proved_sys as ffi;

pub use columns::{Column, Columns, Offset, Texts, TextsBuf};
pub use database::{By, Database, Formatter, Rules};
pub use dialling::{FactsAnywhere, Layout, Layouts};
pub use error::{Error, LineFault};
pub use found::{Alternates, Found, Leniency};
pub use number::{Mode, PhoneNumber, Source, Type};
pub use own::{extract, match_numbers};
pub use places::{Atlas, AtlasTables};
pub use possible::{Possibility, Sameness};
pub use prefixes::Prefixes;
pub use questions::{
    Form, NumberFacts, NumberMatch, RegionFacts, has_letters, is_geographical, library_match_numbers, mobile_token, normalize,
};
pub use region::Region;
pub use short::{Cost, ShortFacts, ShortNumbers, SmsServices};
pub use typing::Typing;

/// The metadata that [`Database::world`] opens, as JSON, which a program that names it holds besides.
#[cfg(feature = "table")]
pub const WORLD: &str = include_str!(concat!(env!("PHONE_TABLES"), "/world.json"));

/// The path at which it lay when this crate was built, in the compact form, which opens sooner, for programs that load it
/// when they run.
#[cfg(feature = "table")]
pub const WORLD_PATH: &str = concat!(env!("PHONE_TABLES"), "/world.compact");

/// The metadata of short numbers that go with this crate.
#[cfg(feature = "table")]
pub const SHORT: &str = include_str!(concat!(env!("PHONE_TABLES"), "/short.json"));

/// The metadata of SMS services that go with this crate, short numbers that messages are sent to.
#[cfg(feature = "table")]
pub const SMS: &str = include_str!(concat!(env!("PHONE_TABLES"), "/sms.json"));

/// The alternate formats that go with this crate, for [`Alternates`].
#[cfg(feature = "table")]
pub const ALTERNATES: &str = include_str!(concat!(env!("PHONE_TABLES"), "/alternates.json"));

/// The time zones by prefix that go with this crate, for [`Prefixes::of`]; those of a prefix are parted by `&`.
///
/// ```
/// use phonenumber_proved::{Prefixes, TIME_ZONES};
/// let zones = Prefixes::of(TIME_ZONES)?;
/// assert_eq!(zones.longest("12015550123")?, Some(("1201", "America/New_York".to_owned())));
/// # Ok::<(), phonenumber_proved::Error>(())
/// ```
#[cfg(feature = "table")]
pub const TIME_ZONES: &str = include_str!(concat!(env!("PHONE_TABLES"), "/timezones.tsv"));

/// The English names of carriers by prefix that go with this crate, for [`Prefixes::of`].
#[cfg(feature = "table")]
pub const CARRIERS: &str = include_str!(concat!(env!("PHONE_TABLES"), "/carriers.tsv"));

/// Where these data are from, by name and version, as `libphonenumber 9.0.35`.
#[cfg(feature = "table")]
pub const TABLE_VERSION: &str = include_str!(concat!(env!("PHONE_TABLES"), "/VERSION")).trim_ascii_end();

/// Whether a text may be a number at all: it looks at characters alone.
///
/// ```
/// assert!(phonenumber_proved::is_viable("03-331 6005") && !phonenumber_proved::is_viable("call me"));
/// ```
pub fn is_viable(text: impl AsRef<str>) -> bool {
    let (text, mut told) = (text.as_ref(), 0);
    // SAFETY: the slice is valid for its length.
    unsafe { ffi::phone_is_viable(text.as_ptr(), text.len(), &mut told) == ffi::OK && told == 1 }
}

/// The examples of the crate's README.
#[cfg(all(doctest, feature = "table"))]
#[doc = include_str!("../README.md")]
struct Readme;

#[test]
fn the_version_of_the_calls_is_that_of_the_declarations_or_later() {
    // SAFETY: the call takes nothing.
    assert!(unsafe { ffi::phone_version() } >= ffi::VERSION);
}

#[cfg(feature = "table")]
#[test]
fn the_table_of_the_library_is_that_of_the_crate() {
    let mut len = 0;
    // SAFETY: the call writes the length alone, and the text, of that length, is never freed.
    let text = unsafe { std::slice::from_raw_parts(ffi::phone_world_text(&mut len), len) };
    assert_eq!(text, WORLD.as_bytes());
    let mut out = [0; 64];
    // SAFETY: the buffer is valid for its length, and initialized.
    assert_eq!(unsafe { ffi::phone_table_version(out.as_mut_ptr(), out.len(), &mut len) }, ffi::OK);
    assert_eq!(&out[..len], TABLE_VERSION.as_bytes());
}
