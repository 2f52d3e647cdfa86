//! The metadata of numbering plans: what a database has of each region.
//!
//! A pattern is told as its text, and no cache of compiled ones is there: a program that searches with one compiles it.
use super::Type;
use super::error::{LoadError, MetadataError};
use crate::database::{Rules, world};
use crate::{PhoneNumber as Read, ffi};
use std::borrow::Borrow;
use std::collections::HashMap;
use std::fmt;
use std::hash::Hash;
use std::path::Path;
use std::sync::{Arc, LazyLock, OnceLock};

mod json;
pub mod loader;
mod xml;

/// The library's own metadata, which the first call opens.
pub static DATABASE: LazyLock<Database> = LazyLock::new(|| {
    let asked = world().expect("memory is given").clone();
    Database { asked, index: OnceLock::new() }
});

/// The metadata of numbering plans.
#[derive(Clone, Debug)]
pub struct Database {
    pub(super) asked: crate::Database,
    index: OnceLock<Arc<Index>>,
}

/// The records of a database, by what they are looked up by.
#[derive(Debug, Default)]
struct Index {
    by_id: HashMap<String, Arc<Metadata>>,
    by_code: HashMap<u16, Vec<Arc<Metadata>>>,
    regions: HashMap<u16, Vec<String>>,
}

impl Index {
    fn of(records: Vec<loader::Metadata>) -> Result<Index, MetadataError> {
        let mut index = Index::default();
        for record in records {
            let metadata = Arc::new(Metadata::of(record)?);
            let of_code = index.by_code.entry(metadata.country_code).or_default();
            let ids = index.regions.entry(metadata.country_code).or_default();
            let place = if metadata.main_country_for_code { 0 } else { ids.len() };
            ids.insert(place, metadata.id.clone());
            of_code.insert(place, metadata.clone());
            index.by_id.insert(metadata.id.clone(), metadata);
        }
        Ok(index)
    }
}

impl Database {
    /// The database that a file is, in the form of [`Database::parse`].
    pub fn load<P: AsRef<Path>>(path: P) -> Result<Database, LoadError> {
        Database::from(loader::load(std::io::BufReader::new(std::fs::File::open(path)?))?)
    }

    /// The database that a text is: libphonenumber's XML, or JSON, a list of records, each with the fields of
    /// [`loader::Metadata`].
    ///
    /// ```
    /// use phonenumber_proved::compat::{MetadataError, metadata::Database, parse_with};
    /// let own = r#"[{"id":"NZ","country_code":64,"general":{"national_number":"\\d{8,9}"}}]"#;
    /// let number = parse_with(&Database::parse(own).unwrap(), None, "+64 3 331 6005").unwrap();
    /// assert_eq!(number.national().value(), 33316005);
    /// let refused = Database::parse(r#"[{"id":"NZ","country_code":64}]"#).unwrap_err();
    /// assert_eq!(refused.to_string(), r#"metadata: missing value: "generalDesc""#);
    /// ```
    pub fn parse<S: AsRef<str>>(content: S) -> Result<Database, LoadError> {
        Database::from(loader::load(content.as_ref().as_bytes())?)
    }

    /// The database of records.
    pub fn from(meta: Vec<loader::Metadata>) -> Result<Database, LoadError> {
        let text = loader::text_of(&meta);
        let index = OnceLock::from(Arc::new(Index::of(meta)?));
        Ok(Database { asked: crate::Database::from_json(text)?, index })
    }

    /// The records; those of the library are made of its text once they are asked for.
    fn index(&self) -> &Index {
        self.index.get_or_init(|| {
            let mut len = 0;
            // SAFETY: the call writes the length alone, and the text, of that length, is never freed.
            let text = unsafe { std::slice::from_raw_parts(ffi::phone_world_text(&mut len), len) };
            let text = std::str::from_utf8(text).expect("the library's metadata are UTF-8");
            let records = loader::records_of(text).expect("the library's metadata are records");
            Arc::new(Index::of(records).expect("the library's metadata lack nothing"))
        })
    }

    /// The metadata of a region, by its id.
    ///
    /// ```
    /// use phonenumber_proved::compat::metadata::DATABASE;
    /// let metadata = DATABASE.by_id("NZ").unwrap();
    /// assert_eq!((metadata.country_code(), metadata.national_prefix()), (64, Some("0")));
    /// assert!(metadata.descriptors().fixed_line().unwrap().is_match("33316005"));
    /// ```
    pub fn by_id<Q: ?Sized + Hash + Eq>(&self, key: &Q) -> Option<&Metadata>
    where
        String: Borrow<Q>,
    {
        self.index().by_id.get(key).map(AsRef::as_ref)
    }

    /// The metadata of the regions of a calling code, the main region's first.
    pub fn by_code<Q: ?Sized + Hash + Eq>(&self, key: &Q) -> Option<Vec<&Metadata>>
    where
        u16: Borrow<Q>,
    {
        self.index().by_code.get(key).map(|them| them.iter().map(AsRef::as_ref).collect())
    }

    /// The ids of the regions of a calling code, the main region's first; `001` of a code that serves none.
    pub fn region<Q: ?Sized + Hash + Eq>(&self, code: &Q) -> Option<Vec<&str>>
    where
        u16: Borrow<Q>,
    {
        self.index().regions.get(code).map(|ids| ids.iter().map(AsRef::as_ref).collect())
    }

    /// The metadata of each id.
    pub fn iter(&self) -> impl Iterator<Item = &Metadata> {
        self.index().by_id.values().map(AsRef::as_ref)
    }
}

/// A pattern, as its text.
#[derive(Clone, Debug, PartialEq, Eq, Hash)]
pub struct Pattern(String);

impl Pattern {
    /// The text.
    pub fn as_str(&self) -> &str {
        &self.0
    }
}

impl fmt::Display for Pattern {
    fn fmt(&self, f: &mut fmt::Formatter<'_>) -> fmt::Result {
        f.write_str(&self.0)
    }
}

fn missing(phase: &str, name: &str) -> MetadataError {
    MetadataError::MissingValue { phase: phase.to_owned(), name: name.to_owned() }
}

/// The metadata of a region, or of a calling code that serves none.
#[derive(Clone, Debug)]
pub struct Metadata {
    descriptors: Descriptors,
    id: String,
    country_code: u16,
    international_prefix: Option<Pattern>,
    preferred_international_prefix: Option<String>,
    national_prefix: Option<String>,
    preferred_extension_prefix: Option<String>,
    national_prefix_for_parsing: Option<Pattern>,
    national_prefix_transform_rule: Option<String>,
    formats: Vec<Format>,
    international_formats: Vec<Format>,
    main_country_for_code: bool,
    leading_digits: Option<Pattern>,
    mobile_number_portable: bool,
}

impl Metadata {
    fn of(record: loader::Metadata) -> Result<Metadata, MetadataError> {
        let formats = |them: Vec<loader::Format>| them.into_iter().map(Format::of).collect::<Result<_, _>>();
        Ok(Metadata {
            descriptors: Descriptors::of(&record)?,
            id: record.id.ok_or_else(|| missing("metadata", "id"))?,
            country_code: record.country_code.ok_or_else(|| missing("metadata", "countryCode"))?,
            international_prefix: record.international_prefix.map(Pattern),
            preferred_international_prefix: record.preferred_international_prefix,
            national_prefix: record.national_prefix,
            preferred_extension_prefix: record.preferred_extension_prefix,
            national_prefix_for_parsing: record.national_prefix_for_parsing.map(Pattern),
            national_prefix_transform_rule: record.national_prefix_transform_rule,
            formats: formats(record.formats)?,
            international_formats: formats(record.international_formats)?,
            main_country_for_code: record.main_country_for_code,
            leading_digits: record.leading_digits.map(Pattern),
            mobile_number_portable: record.mobile_number_portable,
        })
    }

    /// What the numbers of each kind look like.
    pub fn descriptors(&self) -> &Descriptors {
        &self.descriptors
    }

    /// The id of the region, as `NZ`; `001` of a calling code that serves none.
    pub fn id(&self) -> &str {
        &self.id
    }

    /// The calling code, as 64 for New Zealand.
    pub fn country_code(&self) -> u16 {
        self.country_code
    }

    /// The pattern of what is dialled before a calling code.
    pub fn international_prefix(&self) -> Option<&Pattern> {
        self.international_prefix.as_ref()
    }

    /// The one that is written, where the pattern has several.
    pub fn preferred_international_prefix(&self) -> Option<&str> {
        self.preferred_international_prefix.as_deref()
    }

    /// What is dialled before a national number within the region, as `0`.
    pub fn national_prefix(&self) -> Option<&str> {
        self.national_prefix.as_deref()
    }

    /// What stands before an extension, where that isn't ` ext. `.
    pub fn preferred_extension_prefix(&self) -> Option<&str> {
        self.preferred_extension_prefix.as_deref()
    }

    /// The pattern of a national prefix, where it is more than one text.
    pub fn national_prefix_for_parsing(&self) -> Option<&Pattern> {
        self.national_prefix_for_parsing.as_ref()
    }

    /// What takes the place of what that pattern matches.
    pub fn national_prefix_transform_rule(&self) -> Option<&str> {
        self.national_prefix_transform_rule.as_deref()
    }

    /// The formats of national numbers.
    pub fn formats(&self) -> &[Format] {
        &self.formats
    }

    /// Those of international text, where it has formats of its own.
    pub fn international_formats(&self) -> &[Format] {
        &self.international_formats
    }

    /// Whether it is the main region of its calling code.
    pub fn is_main_country_for_code(&self) -> bool {
        self.main_country_for_code
    }

    /// The pattern of the leading digits of the region's numbers, where regions share a calling code.
    pub fn leading_digits(&self) -> Option<&Pattern> {
        self.leading_digits.as_ref()
    }

    /// Whether a mobile number may be kept under another carrier.
    pub fn is_mobile_number_portable(&self) -> bool {
        self.mobile_number_portable
    }

    /// The record by which a number of this calling code is formatted by one format alone.
    pub(super) fn printing(&self, format: &Format) -> loader::Metadata {
        let any = loader::Descriptor { national_number: Some("1".to_owned()), ..loader::Descriptor::default() };
        loader::Metadata {
            id: Some("001".to_owned()),
            country_code: Some(self.country_code),
            general: Some(any),
            national_prefix: self.national_prefix.clone(),
            preferred_extension_prefix: self.preferred_extension_prefix.clone(),
            formats: vec![format.record()],
            ..loader::Metadata::default()
        }
    }
}

/// What the numbers of a kind look like; a kind of which a region has none isn't there.
macro_rules! kinds {
    ($($kind:ident = $($type:ident)|*,)*) => {
        /// What the numbers of each kind look like.
        #[derive(Clone, Debug)]
        pub struct Descriptors {
            general: Descriptor,
            $($kind: Option<Descriptor>,)*
        }

        impl Descriptors {
            fn of(record: &loader::Metadata) -> Result<Descriptors, MetadataError> {
                let of = |it: &Option<loader::Descriptor>| it.clone().map(Descriptor::of).transpose();
                Ok(Descriptors {
                    general: of(&record.general)?.ok_or_else(|| missing("metadata", "generalDesc"))?,
                    $($kind: of(&record.$kind)?,)*
                })
            }

            /// What the numbers of a kind look like, of `Unknown` those of any.
            pub fn get(&self, kind: Type) -> Option<&Descriptor> {
                match kind {
                    Type::Unknown => Some(&self.general),
                    $($(Type::$type)|* => self.$kind.as_ref(),)*
                }
            }

            /// What all numbers look like.
            pub fn general(&self) -> &Descriptor {
                &self.general
            }

            $(
                /// What the numbers of this kind look like.
                pub fn $kind(&self) -> Option<&Descriptor> {
                    self.$kind.as_ref()
                }
            )*
        }
    };
}

kinds! {
    fixed_line = FixedLine | FixedLineOrMobile,
    mobile = Mobile,
    toll_free = TollFree,
    premium_rate = PremiumRate,
    shared_cost = SharedCost,
    personal_number = PersonalNumber,
    voip = Voip,
    pager = Pager,
    uan = Uan,
    emergency = Emergency,
    voicemail = Voicemail,
    short_code = ShortCode,
    standard_rate = StandardRate,
    carrier = Carrier,
    no_international = NoInternational,
}

/// What national numbers look like.
#[derive(Clone)]
pub struct Descriptor {
    record: loader::Descriptor,
    national_number: Pattern,
    /// A database whose valid numbers are these, once it was asked.
    asked: OnceLock<crate::Database>,
}

impl fmt::Debug for Descriptor {
    fn fmt(&self, f: &mut fmt::Formatter<'_>) -> fmt::Result {
        self.record.fmt(f)
    }
}

impl Descriptor {
    fn of(record: loader::Descriptor) -> Result<Descriptor, MetadataError> {
        let pattern = record.national_number.clone().ok_or_else(|| missing("descriptor", "national_number"))?;
        Ok(Descriptor { record, national_number: Pattern(pattern), asked: OnceLock::new() })
    }

    /// The pattern of their digits.
    pub fn national_number(&self) -> &Pattern {
        &self.national_number
    }

    /// How many digits they may have, the least first.
    pub fn possible_length(&self) -> &[u16] {
        &self.record.possible_length
    }

    /// How many they may have where the area code is left out.
    pub fn possible_local_length(&self) -> &[u16] {
        &self.record.possible_local_length
    }

    /// The digits of an example.
    pub fn example(&self) -> Option<&str> {
        self.record.example.as_deref()
    }

    /// Whether these digits are such a number: their count is possible, and the pattern begins there. A text that is no
    /// national number, of digits and below 2^56, is none.
    pub fn is_match(&self, value: &str) -> bool {
        let digits = value.trim_start_matches('0');
        let (zeros, digits) = if digits.is_empty() { (value.len().max(1) - 1, "0") } else { (value.len() - digits.len(), digits) };
        if value.is_empty() || !digits.bytes().all(|it| it.is_ascii_digit()) {
            return false;
        }
        let (Ok(number), Ok(zeros)) = (digits.parse(), u8::try_from(zeros)) else { return false };
        let Ok(number) = Read::from_parts(1, number, zeros) else { return false };
        self.asked().by(Rules::Crate).is_valid(&number).expect("memory is given")
    }

    fn asked(&self) -> &crate::Database {
        self.asked.get_or_init(|| {
            let record = loader::Metadata {
                id: Some("001".to_owned()),
                country_code: Some(1),
                general: Some(self.record.clone()),
                premium_rate: Some(self.record.clone()),
                ..loader::Metadata::default()
            };
            crate::Database::from_json(loader::text_of(&vec![record])).expect("its database was opened")
        })
    }
}

/// A number format.
#[derive(Clone)]
pub struct Format {
    record: loader::Format,
    pattern: Pattern,
    leading_digits: Vec<Pattern>,
}

impl fmt::Debug for Format {
    fn fmt(&self, f: &mut fmt::Formatter<'_>) -> fmt::Result {
        self.record.fmt(f)
    }
}

impl Format {
    fn of(record: loader::Format) -> Result<Format, MetadataError> {
        let pattern = record.pattern.clone().ok_or_else(|| missing("format", "pattern"))?;
        record.format.as_ref().ok_or_else(|| missing("format", "format"))?;
        let leading_digits = record.leading_digits.iter().cloned().map(Pattern).collect();
        Ok(Format { record, pattern: Pattern(pattern), leading_digits })
    }

    /// The record of a format that is used for any number.
    fn record(&self) -> loader::Format {
        loader::Format { leading_digits: Vec::new(), ..self.record.clone() }
    }

    /// The pattern that parts a national number into groups.
    pub fn pattern(&self) -> &Pattern {
        &self.pattern
    }

    /// The template that lays the groups out, with `$1` for the first.
    pub fn format(&self) -> &str {
        self.record.format.as_deref().unwrap_or("")
    }

    /// The patterns of the leading digits for which it is meant, of which the last decides.
    pub fn leading_digits(&self) -> &[Pattern] {
        &self.leading_digits
    }

    /// How national text begins: `$NP` stands for the national prefix, `$FG` for the first group.
    pub fn national_prefix(&self) -> Option<&str> {
        self.record.national_prefix_formatting_rule.as_deref()
    }

    /// Whether national text may lack the national prefix.
    pub fn is_national_prefix_optional(&self) -> bool {
        self.record.national_prefix_optional_when_formatting
    }

    /// How national text with a carrier's selection code begins: `$CC` stands for that.
    pub fn domestic_carrier(&self) -> Option<&str> {
        self.record.domestic_carrier.as_deref()
    }
}
