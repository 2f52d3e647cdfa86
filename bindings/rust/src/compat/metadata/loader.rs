//! The records of which a database is made, and the texts that have them.
use super::json::{self, Json};
use super::xml;
use crate::Error;
use crate::compat::error::{LoadError, MetadataError};
use crate::dialling::push_text;
use std::io::BufRead;

/// What stands in a record.
pub(super) trait Value: Sized {
    /// The value that a part of a JSON text is.
    fn read(json: &Json) -> Result<Self, LoadError>;

    fn write(&self, out: &mut String);

    /// Whether a record has the value: it is left out where it is none.
    fn is_there(&self) -> bool {
        true
    }
}

/// The error of a text whose values are of the wrong kind, and of one that is no JSON.
const WRONG_KIND: LoadError = LoadError::Database(Error::Database(11));
const NO_JSON: LoadError = LoadError::Database(Error::Database(10));

impl Value for String {
    fn read(json: &Json) -> Result<String, LoadError> {
        if let Json::Text(text) = json { Ok(text.clone()) } else { Err(WRONG_KIND) }
    }

    fn write(&self, out: &mut String) {
        push_text(out, self);
    }
}

impl Value for u16 {
    fn read(json: &Json) -> Result<u16, LoadError> {
        if let Json::Number(text) = json { text.parse().map_err(|_| WRONG_KIND) } else { Err(WRONG_KIND) }
    }

    fn write(&self, out: &mut String) {
        out.push_str(&self.to_string());
    }
}

impl Value for bool {
    fn read(json: &Json) -> Result<bool, LoadError> {
        if let Json::Truth(truth) = json { Ok(*truth) } else { Err(WRONG_KIND) }
    }

    fn write(&self, out: &mut String) {
        out.push_str(if *self { "true" } else { "false" });
    }

    fn is_there(&self) -> bool {
        *self
    }
}

impl<T: Value> Value for Option<T> {
    fn read(json: &Json) -> Result<Option<T>, LoadError> {
        if *json == Json::Null { Ok(None) } else { T::read(json).map(Some) }
    }

    fn write(&self, out: &mut String) {
        if let Some(value) = self {
            value.write(out);
        }
    }

    fn is_there(&self) -> bool {
        self.is_some()
    }
}

impl<T: Value> Value for Vec<T> {
    fn read(json: &Json) -> Result<Vec<T>, LoadError> {
        if let Json::List(items) = json { items.iter().map(T::read).collect() } else { Err(WRONG_KIND) }
    }

    fn write(&self, out: &mut String) {
        for (place, item) in self.iter().enumerate() {
            out.push(if place == 0 { '[' } else { ',' });
            item.write(out);
        }
        out.push_str(if self.is_empty() { "[]" } else { "]" });
    }

    fn is_there(&self) -> bool {
        !self.is_empty()
    }
}

/// A record whose members are its fields.
macro_rules! record {
    ($(#[$doc:meta])* $name:ident, $phase:literal { $($field:ident: $type:ty,)* }) => {
        $(#[$doc])*
        #[derive(Clone, Debug, Default, PartialEq, Eq)]
        pub struct $name {
            $(pub $field: $type,)*
        }

        impl Value for $name {
            fn read(json: &Json) -> Result<$name, LoadError> {
                let Json::Object(members) = json else { return Err(WRONG_KIND) };
                let mut record = $name::default();
                for (key, value) in members {
                    match key.as_str() {
                        $(stringify!($field) => record.$field = Value::read(value)?,)*
                        // What the records of the crate keep from reading XML is in the other fields already.
                        "defaults" if $phase == "territory" => {}
                        name => return Err(unhandled($phase, name)),
                    }
                }
                Ok(record)
            }

            fn write(&self, out: &mut String) {
                out.push('{');
                $(if self.$field.is_there() {
                    if !out.ends_with('{') {
                        out.push(',');
                    }
                    push_text(out, stringify!($field));
                    out.push(':');
                    self.$field.write(out);
                })*
                out.push('}');
            }
        }
    };
}

fn unhandled(phase: &str, name: &str) -> LoadError {
    MetadataError::UnhandledElement { phase: phase.to_owned(), name: name.to_owned() }.into()
}

record! {
    /// The record of a territory. Without `id`, `country_code` or `general` it is an error.
    Metadata, "territory" {
        general: Option<Descriptor>,
        fixed_line: Option<Descriptor>,
        mobile: Option<Descriptor>,
        toll_free: Option<Descriptor>,
        premium_rate: Option<Descriptor>,
        shared_cost: Option<Descriptor>,
        personal_number: Option<Descriptor>,
        voip: Option<Descriptor>,
        pager: Option<Descriptor>,
        uan: Option<Descriptor>,
        emergency: Option<Descriptor>,
        voicemail: Option<Descriptor>,
        short_code: Option<Descriptor>,
        standard_rate: Option<Descriptor>,
        carrier: Option<Descriptor>,
        no_international: Option<Descriptor>,
        id: Option<String>,
        country_code: Option<u16>,
        international_prefix: Option<String>,
        preferred_international_prefix: Option<String>,
        national_prefix: Option<String>,
        preferred_extension_prefix: Option<String>,
        national_prefix_for_parsing: Option<String>,
        national_prefix_transform_rule: Option<String>,
        formats: Vec<Format>,
        international_formats: Vec<Format>,
        main_country_for_code: bool,
        leading_digits: Option<String>,
        mobile_number_portable: bool,
    }
}

record! {
    /// The record of a number format. Without `pattern` or `format` it is an error.
    Format, "format" {
        pattern: Option<String>,
        format: Option<String>,
        leading_digits: Vec<String>,
        national_prefix_formatting_rule: Option<String>,
        national_prefix_optional_when_formatting: bool,
        domestic_carrier: Option<String>,
    }
}

record! {
    /// The record of a kind's numbers. Without `national_number` it is an error.
    Descriptor, "descriptor" {
        national_number: Option<String>,
        possible_length: Vec<u16>,
        possible_local_length: Vec<u16>,
        example: Option<String>,
    }
}

/// The records of a text: libphonenumber's XML, or JSON, a list of objects whose members are these fields.
///
/// ```
/// use phonenumber_proved::compat::metadata::loader::load;
/// let text = r#"<phoneNumberMetadata><territories>
///     <territory id="NZ" countryCode="64"><generalDesc><possibleLengths national="[8-10]"/></generalDesc></territory>
/// </territories></phoneNumberMetadata>"#;
/// let records = load(text.as_bytes()).unwrap();
/// assert_eq!(records[0].general.as_ref().unwrap().possible_length, [8, 9, 10]);
/// ```
pub fn load<R: BufRead>(mut reader: R) -> Result<Vec<Metadata>, LoadError> {
    let mut text = String::new();
    reader.read_to_string(&mut text)?;
    let text = text.trim_start_matches('\u{feff}');
    if text.trim_start().starts_with('<') { xml::records_of(text) } else { records_of(text) }
}

/// The records that a JSON text has.
pub(super) fn records_of(text: &str) -> Result<Vec<Metadata>, LoadError> {
    Value::read(&json::read(text).ok_or(NO_JSON)?)
}

/// The JSON text of records.
pub(in crate::compat) fn text_of(records: &Vec<Metadata>) -> String {
    let mut text = String::new();
    records.write(&mut text);
    text
}
