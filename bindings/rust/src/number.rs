//! A phone number.
use crate::call::text_of;
use crate::database::world;
use crate::error::Error;
use crate::ffi;
use std::fmt;
use std::str::FromStr;

/// The format of a number.
#[derive(Clone, Copy, Debug, PartialEq, Eq, Hash, PartialOrd, Ord)]
pub enum Mode {
    /// `+6433316005`
    E164,
    /// `+64 3 331 6005`
    International,
    /// `03 331 6005`
    National,
    /// `tel:+64-3-331-6005`
    Rfc3966,
}

/// How a calling code was found.
#[derive(Clone, Copy, Debug, Default, PartialEq, Eq, Hash, PartialOrd, Ord)]
pub enum Source {
    /// After a plus sign.
    Plus,
    /// After an international prefix.
    Idd,
    /// At the front of the digits.
    Number,
    /// From the default region.
    #[default]
    Default,
}

/// The kind of a number.
#[derive(Clone, Copy, Debug, PartialEq, Eq, Hash, PartialOrd, Ord)]
pub enum Type {
    FixedLine,
    Mobile,
    FixedLineOrMobile,
    TollFree,
    PremiumRate,
    SharedCost,
    PersonalNumber,
    Voip,
    Pager,
    Uan,
    Emergency,
    Voicemail,
    ShortCode,
    StandardRate,
    Carrier,
    NoInternational,
    Unknown,
}

/// The kinds in the order of their numbers in `phone.h`.
pub(crate) const TYPES: [Type; 17] = [
    Type::FixedLine,
    Type::Mobile,
    Type::FixedLineOrMobile,
    Type::TollFree,
    Type::PremiumRate,
    Type::SharedCost,
    Type::PersonalNumber,
    Type::Voip,
    Type::Pager,
    Type::Uan,
    Type::Emergency,
    Type::Voicemail,
    Type::ShortCode,
    Type::StandardRate,
    Type::Carrier,
    Type::NoInternational,
    Type::Unknown,
];

/// The sources in the order of their numbers there.
const SOURCES: [Source; 4] = [Source::Plus, Source::Idd, Source::Number, Source::Default];

/// A phone number that a database parsed: plain data of its own, which outlives the database and goes to
/// any thread.
///
/// Two are equal where calling code, national number, extension, carrier and source are; in this order
/// they are ordered, the national number by its value and then by its leading zeros. The text of a
/// number is its E.164 text, whatever the code. With the feature `serde` serde writes and reads it,
/// as `{"code":64,"national":"33316005","extension":null,"carrier":null,"source":"default"}`.
///
/// ```
/// use phonenumber_proved::{Database, PhoneNumber};
/// fn any_thread<T: Send + Sync + 'static>() {}
/// any_thread::<PhoneNumber>();
/// let world = Database::world()?;
/// let mut numbers = vec![world.parse(None, "+64 3 331 6005")?, world.parse(None, "+1 650 253 0000")?];
/// drop(world);
/// numbers.sort();
/// assert_eq!(numbers[0].to_string(), "+16502530000");
/// # Ok::<(), phonenumber_proved::Error>(())
/// ```
#[derive(Clone, PartialEq, Eq, Hash, PartialOrd, Ord)]
pub struct PhoneNumber {
    code: u16,
    value: u64,
    zeros: u8,
    extension: Option<String>,
    carrier: Option<String>,
    source: Source,
}

impl PhoneNumber {
    /// The number of a calling code, and of a national number as a value with zeros before it; found after a
    /// plus sign, without extension and carrier. No database is asked whether there is such a number;
    /// `Error::TooLong` where the value is 2^56 or more.
    ///
    /// ```
    /// use phonenumber_proved::{Error, PhoneNumber};
    /// let number = PhoneNumber::from_parts(39, 236618300, 1)?.with_extension(Some("7"));
    /// assert_eq!((number.to_string().as_str(), number.extension()), ("+390236618300", Some("7")));
    /// assert_eq!(PhoneNumber::from_parts(39, 1 << 56, 0), Err(Error::TooLong));
    /// # Ok::<(), Error>(())
    /// ```
    pub fn from_parts(code: u16, national_value: u64, national_zeros: u8) -> Result<PhoneNumber, Error> {
        let (value, zeros, source) = (national_value, national_zeros, Source::Plus);
        let number = PhoneNumber { code, value, zeros, extension: None, carrier: None, source };
        if value < 1 << 56 { Ok(number) } else { Err(Error::TooLong) }
    }

    /// The same number with this extension.
    pub fn with_extension(self, extension: Option<&str>) -> PhoneNumber {
        PhoneNumber { extension: extension.map(str::to_owned), ..self }
    }

    /// The same number with this carrier's selection code.
    pub fn with_carrier(self, carrier: Option<&str>) -> PhoneNumber {
        PhoneNumber { carrier: carrier.map(str::to_owned), ..self }
    }

    /// The same number, whose calling code was found so.
    pub fn with_source(self, source: Source) -> PhoneNumber {
        PhoneNumber { source, ..self }
    }

    /// The number that a call wrote, with the bytes of its texts.
    pub(crate) fn of(number: &ffi::Number, texts: &[u8]) -> PhoneNumber {
        let text = |part: ffi::Part| {
            let bytes = (part.is_there != 0).then(|| &texts[part.start..part.start + part.len]);
            bytes.map(|bytes| String::from_utf8_lossy(bytes).into_owned())
        };
        PhoneNumber {
            code: number.code,
            value: number.value,
            zeros: number.zeros,
            extension: text(number.extension),
            carrier: text(number.carrier),
            source: SOURCES[usize::from(number.source)],
        }
    }

    /// The number for a call, with the bytes of its texts.
    pub(crate) fn to_ffi(&self) -> (ffi::Number, String) {
        let mut texts = String::new();
        let mut part = |text: &Option<String>| {
            let start = texts.len();
            texts.push_str(text.as_deref().unwrap_or(""));
            ffi::Part { start, len: texts.len() - start, is_there: u8::from(text.is_some()) }
        };
        let (extension, carrier) = (part(&self.extension), part(&self.carrier));
        (ffi::Number { extension, carrier, ..self.plain() }, texts)
    }

    /// The number without its texts, for calls that don't look at them.
    pub(crate) fn plain(&self) -> ffi::Number {
        ffi::Number {
            value: self.value,
            code: self.code,
            source: self.source as u8,
            zeros: self.zeros,
            ..ffi::Number::default()
        }
    }

    /// The calling code, as 64 for New Zealand.
    pub fn code(&self) -> u16 {
        self.code
    }

    /// How the calling code was found.
    pub fn source(&self) -> Source {
        self.source
    }

    /// The national number without its leading zeros, below 2^56.
    pub fn national_value(&self) -> u64 {
        self.value
    }

    /// How many zeros stand before that value.
    pub fn national_zeros(&self) -> u8 {
        self.zeros
    }

    /// The digits of the national number, with its leading zeros.
    pub fn national(&self) -> String {
        "0".repeat(usize::from(self.zeros)) + &self.value.to_string()
    }

    /// What is dialled once the call is answered; it may be empty.
    pub fn extension(&self) -> Option<&str> {
        self.extension.as_deref()
    }

    /// The carrier's selection code, where one was dialled.
    pub fn carrier(&self) -> Option<&str> {
        self.carrier.as_deref()
    }
}

impl FromStr for PhoneNumber {
    type Err = Error;

    /// The number that a text is without a default region, by libphonenumber's rules and the library's own
    /// metadata, which the first call opens.
    ///
    /// ```
    /// let number: phonenumber_proved::PhoneNumber = "+64 3 331 6005".parse()?;
    /// assert_eq!((number.code(), number.to_string().as_str()), (64, "+6433316005"));
    /// # Ok::<(), phonenumber_proved::Error>(())
    /// ```
    fn from_str(text: &str) -> Result<PhoneNumber, Error> {
        world()?.parse(None, text)
    }
}

/// The E.164 text, whatever the code.
impl fmt::Display for PhoneNumber {
    fn fmt(&self, f: &mut fmt::Formatter<'_>) -> fmt::Result {
        let number = self.plain();
        // SAFETY: the buffer is valid for its length, and initialized.
        let text = text_of(32, |out, len, wrote| unsafe { ffi::phone_key(&number, out, len, wrote) });
        f.pad(&text.map_err(|_| fmt::Error)?)
    }
}

impl fmt::Debug for PhoneNumber {
    fn fmt(&self, f: &mut fmt::Formatter<'_>) -> fmt::Result {
        write!(f, "PhoneNumber({self})")
    }
}
