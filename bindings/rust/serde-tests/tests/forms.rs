//! What numbers are written as by serde, and read from.
use phonenumber_proved::compat::{self, NationalNumber, Type, country};
use phonenumber_proved::{Database, PhoneNumber, Region};

/// The shapes that the crate `phonenumber` 0.3.10 declares, of which serde's own macros make its forms.
mod theirs {
    use serde::{Deserialize, Serialize};

    #[derive(Serialize, Deserialize, Debug, PartialEq)]
    #[serde(rename_all = "snake_case")]
    pub enum Source {
        Plus,
        Idd,
        Number,
        Default,
    }

    #[derive(Serialize, Deserialize, Debug, PartialEq)]
    pub struct Code {
        pub value: u16,
        pub source: Source,
    }

    #[derive(Serialize, Deserialize, Debug, PartialEq)]
    pub struct NationalNumber {
        pub value: u64,
    }

    #[derive(Serialize, Deserialize, Debug, PartialEq)]
    pub struct Extension(pub String);

    #[derive(Serialize, Deserialize, Debug, PartialEq)]
    pub struct Carrier(pub String);

    #[derive(Serialize, Deserialize, Debug, PartialEq)]
    pub struct PhoneNumber {
        pub code: Code,
        pub national: NationalNumber,
        pub extension: Option<Extension>,
        pub carrier: Option<Carrier>,
    }
}

/// Countries and texts, and what that crate writes of the number that each is.
const FORMS: [(Option<country::Id>, &str, &str); 7] = [
    (None, "+64 3 331 6005", r#"{"code":{"value":64,"source":"plus"},"national":{"value":33316005},"extension":null,"carrier":null}"#),
    (
        None,
        "+64 3 331 6005 ext. 12",
        r#"{"code":{"value":64,"source":"plus"},"national":{"value":33316005},"extension":"12","carrier":null}"#,
    ),
    (
        None,
        "+39 02 3661 8300",
        r#"{"code":{"value":39,"source":"plus"},"national":{"value":72057594274546236},"extension":null,"carrier":null}"#,
    ),
    (
        Some(country::BR),
        "012 3121286979",
        r#"{"code":{"value":55,"source":"default"},"national":{"value":3121286979},"extension":null,"carrier":"12"}"#,
    ),
    (
        Some(country::NZ),
        "64(0)64123456",
        r#"{"code":{"value":64,"source":"number"},"national":{"value":64123456},"extension":null,"carrier":null}"#,
    ),
    (
        Some(country::NZ),
        "0064 3 331 6005",
        r#"{"code":{"value":64,"source":"idd"},"national":{"value":33316005},"extension":null,"carrier":null}"#,
    ),
    (
        Some(country::DE),
        "301/23456",
        r#"{"code":{"value":49,"source":"default"},"national":{"value":30123456},"extension":null,"carrier":null}"#,
    ),
];

#[test]
fn numbers_have_the_forms_of_that_crate_in_both_directions() {
    for (country, text, form) in FORMS {
        let number = compat::parse(country, text).unwrap();
        assert_eq!(serde_json::to_string(&number).unwrap(), form);
        let theirs: theirs::PhoneNumber = serde_json::from_str(form).unwrap();
        assert_eq!(serde_json::to_string(&theirs).unwrap(), form);
        assert_eq!(serde_json::from_str::<compat::PhoneNumber>(form).unwrap(), number);
        // The same bytes, each read by the other.
        let (ours, bytes) = (bincode::serialize(&number).unwrap(), bincode::serialize(&theirs).unwrap());
        assert_eq!(ours, bytes);
        assert_eq!(bincode::deserialize::<compat::PhoneNumber>(&bytes).unwrap(), number);
        assert_eq!(bincode::deserialize::<theirs::PhoneNumber>(&ours).unwrap(), theirs);
        let value = serde_json::to_value(&theirs).unwrap();
        assert_eq!(serde_json::from_value::<compat::PhoneNumber>(value).unwrap(), number);
    }
}

#[test]
fn parts_have_forms() {
    assert_eq!(serde_json::to_string(&Type::FixedLineOrMobile).unwrap(), r#""fixed_line_or_mobile""#);
    assert_eq!(serde_json::from_str::<Type>(r#""toll_free""#).unwrap(), Type::TollFree);
    assert_eq!(serde_json::to_string(&country::NZ).unwrap(), r#""NZ""#);
    assert_eq!(serde_json::from_str::<country::Id>(r#""NZ""#).unwrap(), country::NZ);
    assert_eq!(serde_json::from_str::<NationalNumber>(r#"{"value":7}"#).unwrap(), NationalNumber::new(7, 0).unwrap());
    let bytes = bincode::serialize(&(Type::Unknown, country::ZW, country::Source::Idd)).unwrap();
    assert_eq!(bytes[..4], 16u32.to_le_bytes());
    let read: (Type, country::Id, country::Source) = bincode::deserialize(&bytes).unwrap();
    assert_eq!(read, (Type::Unknown, country::ZW, country::Source::Idd));
    for wrong in [r#""nz""#, "1", "{}"] {
        assert!(serde_json::from_str::<country::Id>(wrong).is_err(), "{wrong}");
    }
    for wrong in [r#"{"code":{"value":64,"source":"plus"}}"#, r#"{"national":{"value":1}}"#, r#"{"code":1,"national":{"value":1}}"#] {
        assert!(serde_json::from_str::<compat::PhoneNumber>(wrong).is_err(), "{wrong}");
    }
    let less = r#"{"code":{"value":64,"source":"idd"},"national":{"value":33316005},"more":[1]}"#;
    assert_eq!(serde_json::from_str::<compat::PhoneNumber>(less).unwrap().code().source(), country::Source::Idd);
}

#[test]
fn our_own_numbers_have_a_form() {
    let world = Database::world().unwrap();
    for text in ["+64 3 331 6005 ext. 12", "+39 02 3661 8300", "+39 0010"] {
        let number = world.parse(None, text).unwrap();
        let form = serde_json::to_string(&number).unwrap();
        assert_eq!(serde_json::from_str::<PhoneNumber>(&form).unwrap(), number, "{form}");
        assert_eq!(bincode::deserialize::<PhoneNumber>(&bincode::serialize(&number).unwrap()).unwrap(), number);
    }
    let form = r#"{"code":64,"national":"33316005","extension":null,"carrier":null,"source":"default"}"#;
    assert_eq!(serde_json::to_string(&world.parse(Region::NZ, "03-331 6005").unwrap()).unwrap(), form);
}
