//! What the crate `phonenumber` writes by serde, and reads: its own forms, in both directions.
use super::country::{Code, Id, Source};
use super::{Carrier, Extension, NationalNumber, PhoneNumber, Type};
use serde::de::{Error, IgnoredAny, MapAccess, SeqAccess, Visitor};
use serde::ser::SerializeStruct;
use serde::{Deserialize, Deserializer, Serialize, Serializer};
use std::fmt;
use std::marker::PhantomData;

/// A struct whose fields are these, in their order, each with how it is told and its type, and how one is made of them.
macro_rules! fields {
    ($name:ident { $($field:ident: $type:ty = $told:expr),* } $made:expr) => {
        impl Serialize for $name {
            fn serialize<S: Serializer>(&self, serializer: S) -> Result<S::Ok, S::Error> {
                let count = [$(stringify!($field)),*].len();
                let mut out = serializer.serialize_struct(stringify!($name), count)?;
                $(out.serialize_field(stringify!($field), &$told(self))?;)*
                out.end()
            }
        }

        impl<'de> Visitor<'de> for Fields<$name> {
            type Value = $name;

            fn expecting(&self, f: &mut fmt::Formatter<'_>) -> fmt::Result {
                f.write_str(concat!("struct ", stringify!($name)))
            }

            fn visit_seq<A: SeqAccess<'de>>(self, mut seq: A) -> Result<$name, A::Error> {
                $(let $field: $type = seq.next_element()?.ok_or_else(|| A::Error::missing_field(stringify!($field)))?;)*
                $made($($field),*).map_err(A::Error::custom)
            }

            fn visit_map<A: MapAccess<'de>>(self, mut map: A) -> Result<$name, A::Error> {
                $(let mut $field: Option<$type> = None;)*
                while let Some(key) = map.next_key::<String>()? {
                    match key.as_str() {
                        $(stringify!($field) if $field.is_some() => {
                            return Err(A::Error::duplicate_field(stringify!($field)));
                        })*
                        $(stringify!($field) => $field = Some(map.next_value()?),)*
                        _ => drop(map.next_value::<IgnoredAny>()?),
                    }
                }
                $(let $field = there($field, stringify!($field))?;)*
                $made($($field),*).map_err(A::Error::custom)
            }
        }

        impl<'de> Deserialize<'de> for $name {
            fn deserialize<D: Deserializer<'de>>(deserializer: D) -> Result<$name, D::Error> {
                deserializer.deserialize_struct(stringify!($name), &[$(stringify!($field)),*], Fields(PhantomData::<$name>))
            }
        }
    };
}

/// What reads a struct.
struct Fields<T>(PhantomData<T>);

/// A value that may be left out.
trait Absent: Sized {
    /// What stands for it then.
    fn absent() -> Option<Self> {
        None
    }
}
impl Absent for u16 {}
impl Absent for u64 {}
impl Absent for Source {}
impl Absent for Code {}
impl Absent for NationalNumber {}
impl<T> Absent for Option<T> {
    fn absent() -> Option<Self> {
        Some(None)
    }
}

/// A field that was read, or what stands for one that wasn't.
fn there<T: Absent, E: Error>(field: Option<T>, name: &'static str) -> Result<T, E> {
    field.or_else(T::absent).ok_or_else(|| E::missing_field(name))
}

fields! { Code { value: u16 = Code::value, source: Source = Code::source } |value, source| {
    Ok::<_, &str>(Code::new(value, source))
} }

fields! { NationalNumber { value: u64 = |it: &NationalNumber| u64::from(*it) } |value: u64| {
    NationalNumber::new(value & ((1 << 56) - 1), (value >> 56) as u8)
} }

fields! { PhoneNumber {
    code: Code = |it: &PhoneNumber| *it.code(),
    national: NationalNumber = |it: &PhoneNumber| *it.national(),
    extension: Option<Extension> = |it: &PhoneNumber| it.extension().cloned(),
    carrier: Option<Carrier> = |it: &PhoneNumber| it.carrier().cloned()
} |code, national, extension, carrier| Ok::<_, &str>(PhoneNumber::new(code, national, extension, carrier)) }

/// A text in a struct of its own.
macro_rules! texts {
    ($($name:ident)*) => {$(
        impl Serialize for $name {
            fn serialize<S: Serializer>(&self, serializer: S) -> Result<S::Ok, S::Error> {
                serializer.serialize_newtype_struct(stringify!($name), &**self)
            }
        }

        impl<'de> Visitor<'de> for Fields<$name> {
            type Value = $name;

            fn expecting(&self, f: &mut fmt::Formatter<'_>) -> fmt::Result {
                f.write_str(concat!("tuple struct ", stringify!($name)))
            }

            fn visit_newtype_struct<D: Deserializer<'de>>(self, deserializer: D) -> Result<$name, D::Error> {
                String::deserialize(deserializer).map($name::from)
            }

            fn visit_seq<A: SeqAccess<'de>>(self, mut seq: A) -> Result<$name, A::Error> {
                let text: Option<String> = seq.next_element()?;
                text.map($name::from).ok_or_else(|| A::Error::invalid_length(0, &self))
            }
        }

        impl<'de> Deserialize<'de> for $name {
            fn deserialize<D: Deserializer<'de>>(deserializer: D) -> Result<$name, D::Error> {
                deserializer.deserialize_newtype_struct(stringify!($name), Fields(PhantomData::<$name>))
            }
        }
    )*};
}

texts! { Extension Carrier }

/// A value of several, told by its word, or by its place among them.
macro_rules! words {
    ($name:ident { $($value:ident = $word:literal),* $(,)? }) => {
        impl Serialize for $name {
            fn serialize<S: Serializer>(&self, serializer: S) -> Result<S::Ok, S::Error> {
                const ALL: &[($name, &str)] = &[$(($name::$value, $word)),*];
                let place = ALL.iter().position(|it| it.0 == *self).expect("each value has a word");
                serializer.serialize_unit_variant(stringify!($name), place as u32, ALL[place].1)
            }
        }

        impl<'de> Deserialize<'de> for $name {
            fn deserialize<D: Deserializer<'de>>(deserializer: D) -> Result<$name, D::Error> {
                const WORDS: &[&str] = &[$($word),*];
                const VALUES: &[$name] = &[$($name::$value),*];
                let visitor = Words { name: stringify!($name), words: WORDS };
                Ok(VALUES[deserializer.deserialize_enum(stringify!($name), WORDS, visitor)?])
            }
        }
    };
}

/// What reads the place of a word among others.
#[derive(Clone, Copy)]
struct Words {
    name: &'static str,
    words: &'static [&'static str],
}

impl<'de> Visitor<'de> for Words {
    type Value = usize;

    fn expecting(&self, f: &mut fmt::Formatter<'_>) -> fmt::Result {
        write!(f, "variant identifier of {}", self.name)
    }

    fn visit_u64<E: Error>(self, place: u64) -> Result<usize, E> {
        let place = usize::try_from(place).ok().filter(|it| *it < self.words.len());
        place.ok_or_else(|| E::custom("no such variant"))
    }

    fn visit_str<E: Error>(self, word: &str) -> Result<usize, E> {
        self.words.iter().position(|it| *it == word).ok_or_else(|| E::unknown_variant(word, self.words))
    }

    fn visit_bytes<E: Error>(self, word: &[u8]) -> Result<usize, E> {
        std::str::from_utf8(word).map_err(E::custom).and_then(|word| self.visit_str(word))
    }

    fn visit_enum<A: serde::de::EnumAccess<'de>>(self, data: A) -> Result<usize, A::Error> {
        let (place, variant) = data.variant_seed(self)?;
        serde::de::VariantAccess::unit_variant(variant)?;
        Ok(place)
    }
}

impl<'de> serde::de::DeserializeSeed<'de> for Words {
    type Value = usize;

    fn deserialize<D: Deserializer<'de>>(self, deserializer: D) -> Result<usize, D::Error> {
        deserializer.deserialize_identifier(self)
    }
}

words! { Source { Plus = "plus", Idd = "idd", Number = "number", Default = "default" } }

words! { Type {
    FixedLine = "fixed_line", Mobile = "mobile", FixedLineOrMobile = "fixed_line_or_mobile", TollFree = "toll_free",
    PremiumRate = "premium_rate", SharedCost = "shared_cost", PersonalNumber = "personal_number", Voip = "voip",
    Pager = "pager", Uan = "uan", Emergency = "emergency", Voicemail = "voicemail", ShortCode = "short_code",
    StandardRate = "standard_rate", Carrier = "carrier", NoInternational = "no_international", Unknown = "unknown",
} }

impl Serialize for Id {
    fn serialize<S: Serializer>(&self, serializer: S) -> Result<S::Ok, S::Error> {
        serializer.serialize_unit_variant("Id", *self as u32, self.as_str())
    }
}

impl<'de> Deserialize<'de> for Id {
    fn deserialize<D: Deserializer<'de>>(deserializer: D) -> Result<Id, D::Error> {
        let visitor = Words { name: "Id", words: Id::NAMES };
        Ok(Id::ALL[deserializer.deserialize_enum("Id", Id::NAMES, visitor)?])
    }
}
