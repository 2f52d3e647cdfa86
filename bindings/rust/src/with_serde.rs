//! A number for serde: its calling code, the digits of its national number, extension, carrier and source.
use crate::number::{PhoneNumber, Source};
use serde::de::{Error, IgnoredAny, MapAccess, Visitor};
use serde::ser::SerializeStruct;
use serde::{Deserialize, Deserializer, Serialize, Serializer};
use std::fmt;

const FIELDS: [&str; 5] = ["code", "national", "extension", "carrier", "source"];

/// The sources, each with its word.
const SOURCES: [(Source, &str); 4] =
    [(Source::Plus, "plus"), (Source::Idd, "idd"), (Source::Number, "number"), (Source::Default, "default")];

impl Serialize for PhoneNumber {
    fn serialize<S: Serializer>(&self, serializer: S) -> Result<S::Ok, S::Error> {
        let mut out = serializer.serialize_struct("PhoneNumber", FIELDS.len())?;
        out.serialize_field("code", &self.code())?;
        out.serialize_field("national", &self.national())?;
        out.serialize_field("extension", &self.extension())?;
        out.serialize_field("carrier", &self.carrier())?;
        out.serialize_field("source", SOURCES[self.source() as usize].1)?;
        out.end()
    }
}

/// What is read of a number so far.
#[derive(Default)]
struct Parts {
    code: Option<u16>,
    national: Option<String>,
    extension: Option<String>,
    carrier: Option<String>,
    source: Option<String>,
}

impl Parts {
    /// The number; without a source it was found after a plus sign.
    fn number<E: Error>(self) -> Result<PhoneNumber, E> {
        let code = self.code.ok_or_else(|| E::missing_field("code"))?;
        let national = self.national.ok_or_else(|| E::missing_field("national"))?;
        let word = self.source.as_deref().unwrap_or("plus");
        let source = SOURCES.iter().find(|it| it.1 == word).ok_or_else(|| E::custom("no source of a calling code"))?.0;
        let is_digits = !national.is_empty() && national.bytes().all(|b| b.is_ascii_digit());
        let value = national.parse().ok().filter(|_| is_digits);
        let value: u64 = value.ok_or_else(|| E::custom("no national number"))?;
        let zeros = (national.len() - value.to_string().len()).try_into();
        let number = zeros.ok().and_then(|zeros| PhoneNumber::from_parts(code, value, zeros).ok());
        let number = number.ok_or_else(|| E::custom("no national number"))?;
        let (extension, carrier) = (self.extension.as_deref(), self.carrier.as_deref());
        Ok(number.with_extension(extension).with_carrier(carrier).with_source(source))
    }
}

struct Fields;

impl<'de> Visitor<'de> for Fields {
    type Value = PhoneNumber;

    fn expecting(&self, f: &mut fmt::Formatter<'_>) -> fmt::Result {
        f.write_str("a phone number")
    }

    fn visit_map<A: MapAccess<'de>>(self, mut map: A) -> Result<PhoneNumber, A::Error> {
        let mut parts = Parts::default();
        while let Some(key) = map.next_key::<String>()? {
            match key.as_str() {
                "code" => parts.code = Some(map.next_value()?),
                "national" => parts.national = Some(map.next_value()?),
                "extension" => parts.extension = map.next_value()?,
                "carrier" => parts.carrier = map.next_value()?,
                "source" => parts.source = Some(map.next_value()?),
                _ => drop(map.next_value::<IgnoredAny>()?),
            }
        }
        parts.number()
    }

    fn visit_seq<A: serde::de::SeqAccess<'de>>(self, mut seq: A) -> Result<PhoneNumber, A::Error> {
        let parts = Parts {
            code: seq.next_element()?,
            national: seq.next_element()?,
            extension: seq.next_element()?.flatten(),
            carrier: seq.next_element()?.flatten(),
            source: seq.next_element()?,
        };
        parts.number()
    }
}

impl<'de> Deserialize<'de> for PhoneNumber {
    fn deserialize<D: Deserializer<'de>>(deserializer: D) -> Result<PhoneNumber, D::Error> {
        deserializer.deserialize_struct("PhoneNumber", &FIELDS, Fields)
    }
}
