//! A phone number.
use super::formatter::{self, Formatter};
use super::metadata::{DATABASE, Database, Metadata};
use super::{Carrier, Extension, NationalNumber, ParseError, Type, country, validator};
use crate::database::Rules;
use crate::number::PhoneNumber as Read;
use std::fmt;
use std::ops::Deref;
use std::str::FromStr;

/// A phone number.
#[derive(Clone, PartialEq, Eq, Hash)]
pub struct PhoneNumber {
    pub(super) read: Read,
    code: country::Code,
    national: NationalNumber,
    extension: Option<Extension>,
    carrier: Option<Carrier>,
}

impl PhoneNumber {
    pub(super) fn of(read: Read) -> PhoneNumber {
        PhoneNumber {
            code: country::Code::of(&read),
            national: NationalNumber::new(read.national_value(), read.national_zeros()).expect("the value is below 2^56"),
            extension: read.extension().map(Extension::from),
            carrier: read.carrier().map(Carrier::from),
            read,
        }
    }

    /// The number of these parts.
    ///
    /// ```
    /// use phonenumber_proved::compat::{NationalNumber, PhoneNumber, country, country::Source, parse};
    /// let code = country::Code::new(64, Source::Plus);
    /// let number = PhoneNumber::new(code, NationalNumber::new(33316005, 0)?, Some("12".into()), None);
    /// assert_eq!(number, parse(None, "+64 3 331 6005 ext. 12")?);
    /// # Ok::<(), phonenumber_proved::compat::ParseError>(())
    /// ```
    pub fn new(
        code: country::Code,
        national: NationalNumber,
        extension: Option<Extension>,
        carrier: Option<Carrier>,
    ) -> PhoneNumber {
        let read = Read::from_parts(code.value(), national.value(), national.zeros()).expect("the value is below 2^56");
        let read = read.with_extension(extension.as_deref()).with_carrier(carrier.as_deref());
        PhoneNumber { read: read.with_source(code.source()), code, national, extension, carrier }
    }

    /// The number's country.
    pub fn country(&self) -> Country<'_> {
        Country(self)
    }

    /// The calling code.
    pub fn code(&self) -> &country::Code {
        &self.code
    }

    /// The national number.
    pub fn national(&self) -> &NationalNumber {
        &self.national
    }

    /// What is dialled once the call is answered.
    pub fn extension(&self) -> Option<&Extension> {
        self.extension.as_ref()
    }

    /// The carrier's selection code, where one was dialled.
    pub fn carrier(&self) -> Option<&Carrier> {
        self.carrier.as_ref()
    }

    /// The formatter of the number, by E.164 until `mode` asks for another.
    pub fn format(&self) -> Formatter<'_, 'static, 'static> {
        formatter::format(self)
    }

    /// The formatter of the number by these metadata.
    pub fn format_with<'n, 'd>(&'n self, database: &'d Database) -> Formatter<'n, 'd, 'static> {
        formatter::format_with(database, self)
    }

    /// The metadata of the number's region, or of its calling code where that serves none.
    ///
    /// ```
    /// use phonenumber_proved::compat::{metadata::DATABASE, parse};
    /// let id = |text| Some(parse(None, text).unwrap().metadata(&DATABASE)?.id());
    /// assert_eq!((id("+64 3 331 6005"), id("+800 1234 5678"), id("+1 999 111 1111")), (Some("NZ"), Some("001"), None));
    /// ```
    pub fn metadata<'a>(&self, database: &'a Database) -> Option<&'a Metadata> {
        let of_code = database.by_code(&self.code.value())?;
        match database.asked.by(Rules::Crate).region(&self.read).expect("memory is given") {
            Some(id) => database.by_id(id.as_str()),
            None if of_code.len() == 1 && of_code[0].id() == "001" => of_code.first().copied(),
            None => None,
        }
    }

    /// Whether such numbers are given out.
    pub fn is_valid(&self) -> bool {
        validator::is_valid(self)
    }

    /// Whether such numbers are given out, by these metadata.
    pub fn is_valid_with(&self, database: &Database) -> bool {
        validator::is_valid_with(database, self)
    }

    /// The kind of the number.
    ///
    /// ```
    /// use phonenumber_proved::compat::{Type, metadata::DATABASE, parse};
    /// let number = parse(None, "+64 3 331 6005")?;
    /// assert_eq!(number.number_type(&DATABASE), Type::FixedLine);
    /// # Ok::<(), phonenumber_proved::compat::ParseError>(())
    /// ```
    pub fn number_type(&self, database: &Database) -> Type {
        database.asked.by(Rules::Crate).number_type(&self.read).expect("memory is given")
    }
}

impl fmt::Debug for PhoneNumber {
    fn fmt(&self, f: &mut fmt::Formatter<'_>) -> fmt::Result {
        let (code, national) = (&self.code, &self.national);
        let mut shown = f.debug_struct("PhoneNumber");
        shown.field("code", code).field("national", national);
        shown.field("extension", &self.extension).field("carrier", &self.carrier).finish()
    }
}

impl FromStr for PhoneNumber {
    type Err = ParseError;

    /// The number that a text is, without a country.
    fn from_str(text: &str) -> Result<PhoneNumber, ParseError> {
        super::parse(None, text)
    }
}

/// The E.164 text.
impl fmt::Display for PhoneNumber {
    fn fmt(&self, f: &mut fmt::Formatter<'_>) -> fmt::Result {
        self.format().fmt(f)
    }
}

/// A number's country.
#[derive(Clone, Copy, Debug)]
pub struct Country<'a>(&'a PhoneNumber);

impl Country<'_> {
    /// The calling code, as 64 for New Zealand.
    pub fn code(&self) -> u16 {
        self.0.code.value()
    }

    /// The id of the number's region.
    pub fn id(&self) -> Option<country::Id> {
        DATABASE.asked.by(Rules::Crate).region(&self.0.read).expect("memory is given")
    }
}

impl Deref for Country<'_> {
    type Target = country::Code;

    fn deref(&self) -> &country::Code {
        &self.0.code
    }
}
