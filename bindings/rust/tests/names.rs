//! What users of the crate `phonenumber` count on, under its names, as tables.
use phonenumber_proved::WORLD;
use phonenumber_proved::compat::{
    self as phonenumber, MetadataError, Mode, NationalNumber, ParseError, PhoneNumber, Type, Validation, country,
    country::Id, country::Source, metadata, metadata::DATABASE,
};

/// Country, text, code, national number, source, extension, region, national text. All are valid, all but the last fixed lines; that
/// crate asks for the kind of a number without its leading zeros.
type Row = (Option<Id>, &'static str, u16, &'static str, Source, Option<&'static str>, Option<Id>, &'static str);
const READ: [Row; 5] = [
    (Some(country::NZ), "03-331 6005", 64, "33316005", Source::Default, None, Some(Id::NZ), "03 331 6005"),
    (None, "+64 3 331 6005", 64, "33316005", Source::Plus, None, Some(Id::NZ), "03 331 6005"),
    (Some(Id::DE), "301/23456", 49, "30123456", Source::Default, None, Some(Id::DE), "030 123456"),
    (
        Some(Id::NZ),
        "033316005 ext. 12",
        64,
        "33316005",
        Source::Default,
        Some("12"),
        Some(Id::NZ),
        "03 331 6005 ext. 12",
    ),
    (None, "+39 02 3661 8300", 39, "0236618300", Source::Plus, None, None, "02 3661 8300"),
];

#[test]
fn numbers_are_read_and_told() {
    for (hint, text, code, national, source, extension, region, printed) in READ {
        let kind = if region.is_some() { Type::FixedLine } else { Type::Unknown };
        let number = phonenumber::parse(hint, text).unwrap_or_else(|e| panic!("{text}: {e}"));
        assert_eq!(
            (number.code().value(), number.country().code(), number.country().source()),
            (code, code, source),
            "{text}"
        );
        assert_eq!(
            (number.national().to_string().as_str(), number.extension().map(AsRef::as_ref)),
            (national, extension),
            "{text}"
        );
        assert_eq!((number.number_type(&DATABASE), number.country().id()), (kind, region), "{text}");
        assert_eq!(number.format().mode(Mode::National).to_string(), printed, "{text}");
        assert!(number.is_valid() && phonenumber::is_valid_with(&DATABASE, &number), "{text}");
        assert_eq!(number.to_string().parse::<PhoneNumber>().unwrap().national(), number.national(), "{text}");
    }
}

#[test]
fn refusals_have_words() {
    for (hint, text, words) in [
        (None, "call me", "not a number"),
        (None, "03-331 6005", "invalid country code"),
        (Some(country::NZ), "+999 12", "invalid country code"),
    ] {
        let refused = phonenumber::parse(hint, text).unwrap_err();
        assert_eq!(refused.to_string(), words, "{text}");
    }
    assert!(matches!("call me".parse::<PhoneNumber>(), Err(ParseError::NoNumber)));
}

#[test]
fn ids_are_texts() {
    assert_eq!(("NZ".parse(), country::NZ.as_ref(), "nz".parse::<Id>().is_err()), (Ok(Id::NZ), "NZ", true));
    assert_eq!(country::NZ.to_string(), "NZ");
    // Each region of the table has an id; the codes that are no region's stand there under 001.
    let ids = WORLD.lines().filter_map(|line| line.strip_prefix("{\"id\":\"")?.get(..2)).filter(|id| *id != "00");
    assert_eq!(ids.filter(|id| id.parse::<Id>().is_ok_and(|it| it.as_ref() == *id)).count(), 245);
}

#[test]
fn threads_ask_at_once() {
    let numbers = READ.map(|(hint, text, ..)| phonenumber::parse(hint, text).unwrap());
    std::thread::scope(|threads| {
        for number in numbers.iter().cycle().take(2 * READ.len()) {
            threads.spawn(move || {
                for _ in 0..50 {
                    assert!(number.is_valid(), "{number}");
                    assert_eq!(number.to_string().parse::<PhoneNumber>().unwrap().national(), number.national());
                }
            });
        }
    });
}

#[test]
fn metadata_are_told() {
    let ids: Vec<&str> = DATABASE.iter().map(|it| it.id()).collect();
    assert_eq!((ids.len(), ids.iter().filter(|id| id.parse::<Id>().is_ok()).count()), (246, 245));
    assert_eq!(DATABASE.region(&44), Some(vec!["GB", "GG", "IM", "JE"]));
    assert_eq!((DATABASE.region(&800), DATABASE.region(&999)), (Some(vec!["001"]), None));
    let of_code: Vec<bool> = DATABASE.by_code(&44).unwrap().iter().map(|it| it.is_main_country_for_code()).collect();
    assert_eq!(of_code, [true, false, false, false]);
    let it = DATABASE.by_id("NZ").unwrap();
    assert_eq!((it.id(), it.country_code(), it.national_prefix(), it.preferred_international_prefix()), ("NZ", 64, Some("0"), Some("00")));
    assert_eq!((it.is_mobile_number_portable(), it.formats().len(), it.international_formats().len()), (true, 6, 6));
    assert_eq!(it.international_prefix().map(|it| it.as_str()), Some("0(?:0|161)"));
    let again = metadata::Database::parse(WORLD).unwrap();
    assert_eq!(format!("{:?}", again.by_id("NZ")), format!("{:?}", Some(it)));
}

#[test]
fn an_example_is_a_number_of_its_kind() {
    let kinds = [Type::FixedLine, Type::Mobile, Type::TollFree, Type::PremiumRate, Type::Voip, Type::Unknown];
    let mut count = 0;
    for id in ["NZ", "US", "DE", "IT", "BR", "GB", "JP"] {
        let descriptors = DATABASE.by_id(id).unwrap().descriptors();
        for it in kinds.iter().filter_map(|kind| descriptors.get(*kind)) {
            let Some(digits) = it.example() else { continue };
            assert!(it.is_match(digits) && descriptors.general().is_match(digits), "{id} {digits}");
            assert!(it.possible_length().contains(&(digits.len() as u16)), "{id} {digits}");
            for other in [format!("{digits}00000000"), format!("{digits}x"), String::new(), "0".to_owned()] {
                assert!(!it.is_match(&other), "{id} {other}");
            }
            count += 1;
        }
    }
    assert!(count > 25, "{count} examples");
}

#[test]
fn a_number_is_printed_by_a_format_of_choice() {
    let of = |pattern: &str, format: &str, rule: &str, carrier: &str| metadata::loader::Format {
        pattern: Some(pattern.to_owned()),
        format: Some(format.to_owned()),
        leading_digits: vec!["9".to_owned()],
        national_prefix_formatting_rule: Some(rule.to_owned()).filter(|it| !it.is_empty()),
        domestic_carrier: Some(carrier.to_owned()).filter(|it| !it.is_empty()),
        ..Default::default()
    };
    let any = metadata::loader::Descriptor { national_number: Some(r"\d+".to_owned()), ..Default::default() };
    let record = metadata::loader::Metadata {
        id: Some("NZ".to_owned()),
        country_code: Some(64),
        general: Some(any),
        national_prefix: Some("0".to_owned()),
        formats: vec![of(r"(\d)(\d{3})(\d+)", "$1/$2/$3", "", ""), of(r"(\d)(\d+)", "$1 $2", "($NP$FG)", "$NP $CC ($FG)")],
        ..Default::default()
    };
    let own = metadata::Database::from(vec![record]).unwrap();
    let formats = own.by_id("NZ").unwrap().formats();
    let number = phonenumber::parse(Some(Id::NZ), "03-331 6005 ext. 7").unwrap();
    let printed = |number: &PhoneNumber, place: usize| {
        let modes = [Mode::E164, Mode::International, Mode::National, Mode::Rfc3966];
        modes.map(|mode| number.format().mode(mode).with(&formats[place]).to_string())
    };
    assert_eq!(printed(&number, 0), ["+6433316005", "+64 3/331/6005 ext. 7", "3/331/6005 ext. 7", "tel:+64-3-331-6005;ext=7"]);
    assert_eq!(printed(&number, 1)[1..3], ["+64 3 3316005 ext. 7", "(03) 3316005 ext. 7"]);
    let dialled = PhoneNumber::new(*number.code(), *number.national(), None, Some("31".into()));
    assert_eq!(printed(&dialled, 1)[2], "0 31 (3) 3316005");
    // By its own metadata, whose formats are for other leading digits, the digits stay together.
    assert_eq!(number.format_with(&own).mode(Mode::International).to_string(), "+64 33316005 ext. 7");
    assert_eq!(number.format().database(&own).mode(Mode::National).with(&formats[0]).to_string(), "3/331/6005 ext. 7");
    let unknown = PhoneNumber::new(country::Code::new(999, Source::Plus), NationalNumber::new(1, 0).unwrap(), None, None);
    assert!(std::fmt::Write::write_fmt(&mut String::new(), format_args!("{}", unknown.format().with(&formats[0]))).is_err());
}

#[test]
fn numbers_are_read_by_metadata_of_choice() {
    let own = r#"[{"id":"NZ","country_code":999,"general":{"national_number":"\\d{5}"},"mobile":{"national_number":"2\\d{4}"}}]"#;
    let own = metadata::Database::parse(own).unwrap();
    let number = phonenumber::parse_with(&own, Some(Id::NZ), "21387").unwrap();
    assert_eq!((number.code().value(), number.number_type(&own), number.number_type(&DATABASE)), (999, Type::Mobile, Type::Unknown));
    assert_eq!((number.is_valid_with(&own), number.is_valid()), (true, false));
    assert_eq!((number.metadata(&own).map(|it| it.id()), number.metadata(&DATABASE).is_none()), (Some("NZ"), true));
    assert!(matches!(phonenumber::parse_with(&own, None, "+64 3 331 6005"), Err(ParseError::InvalidCountryCode)));
}

#[test]
fn what_is_no_database_is_told() {
    for (text, words) in [
        ("[", "malformed JSON"),
        (r#"[{"id":1}]"#, "a value is of the wrong kind"),
        (r#"[{"idd":"NZ"}]"#, r#"territory: unhandled element: "idd""#),
        (r#"[{"id":"NZ","country_code":64}]"#, r#"metadata: missing value: "generalDesc""#),
        (r#"[{"country_code":64,"general":{"national_number":"1"}}]"#, r#"metadata: missing value: "id""#),
        (r#"[{"id":"NZ","general":{"national_number":"1"}}]"#, r#"metadata: missing value: "countryCode""#),
        (r#"[{"id":"NZ","country_code":64,"general":{}}]"#, r#"descriptor: missing value: "national_number""#),
        (r#"[{"id":"NZ","country_code":64,"general":{"national_number":"("}}]"#, "a text is no pattern"),
        ("<a><b></a>", r#"mismatched tag: "a""#),
        ("</a>", r#"mismatched tag: "a""#),
        ("<a><b>", "unexpected end of file"),
        ("<!-- <a/>", "unexpected end of file"),
        ("<a b=1/>", "malformed XML: a tag has what is no attribute"),
        ("<a>&b;</a>", "malformed XML: an unknown reference"),
        (r#"[{"id":"NZ","country_code":64,"general":{"national_number":"1"},"formats":[{"pattern":"1"}]}]"#, r#"format: missing value: "format""#),
    ] {
        let refused = metadata::Database::parse(text).unwrap_err().to_string();
        assert_eq!(refused, words, "{text}");
    }
    assert!(metadata::Database::load("no such file").unwrap_err().to_string().starts_with("I/O error: "));
    let (phase, name, value) = ("a".to_owned(), "b".to_owned(), "c".to_owned());
    let words = MetadataError::UnhandledAttribute { phase, name, value }.to_string();
    assert_eq!((words.as_str(), MetadataError::UnexpectedEof.to_string().as_str()), (r#"a: unhandled attribute: "b"="c""#, "unexpected end of file"));
}

#[test]
fn national_numbers_are_read_and_made() {
    let number: NationalNumber = "0236618300".parse().unwrap();
    assert_eq!((number.value(), number.zeros(), u64::from(number)), (236618300, 1, 1 << 56 | 236618300));
    assert_eq!(number, NationalNumber::new(236618300, 1).unwrap());
    assert!(matches!(NationalNumber::new(1 << 56, 0), Err(ParseError::TooLong)));
    let refused = "000".parse::<NationalNumber>().unwrap_err();
    assert_eq!(refused.to_string(), "malformed integer part in phone number: cannot parse integer from empty string");
    assert!(std::error::Error::source(&refused).is_some());
    assert!(Validation::IsPossible.is_possible() && Validation::IsPossibleLocalOnly.is_possible());
    assert!(Validation::InvalidCountryCode.is_invalid() && !Validation::InvalidCountryCode.is_invalid_length());
    assert!(Validation::TooShort.is_invalid_length() && !Validation::TooLong.is_possible());
}

/// Texts of XML that are a territory's, and what is said of each.
const XML: [(&str, &str); 6] = [
    (r#"id="NZ" countryCode="64" color="1">"#, r#"territory: unhandled attribute: "color"="1""#),
    (r#"id="NZ" countryCode="x">"#, "malformed integer in XML: invalid digit found in string"),
    (r#"id="NZ" mainCountryForCode="yes">"#, "malformed truth value in XML: provided string was not `true` or `false`"),
    (r#"id="NZ"><color/>"#, r#"territory: unhandled element: "color""#),
    (r#"id="NZ"><mobile><color/></mobile>"#, r#"descriptor: unhandled element: "color""#),
    (r#"id="NZ" countryCode="64">"#, r#"metadata: missing value: "generalDesc""#),
];

#[test]
fn metadata_are_read_from_xml() {
    let around = |territory: &str| {
        format!(
            "<?xml version='1.0'?>\n<!DOCTYPE phoneNumberMetadata [ <!ELEMENT phoneNumberMetadata (territories)> ]>\n\
             <phoneNumberMetadata>\n<territories>\n<!-- one -->\n<territory {territory}</territory>\n</territories>\n</phoneNumberMetadata>\n"
        )
    };
    for (territory, words) in XML {
        assert_eq!(metadata::Database::parse(around(territory)).unwrap_err().to_string(), words, "{territory}");
    }
    let own = around(
        r#"id="NZ" countryCode="64" nationalPrefix="0" nationalPrefixFormattingRule="$NP$FG"
            carrierCodeFormattingRule='$NP $CC $FG' mobileNumberPortableRegion="true">
            <references><sourceUrl>http://example.org/?a=1&amp;b=2</sourceUrl></references>
            <availableFormats>
                <numberFormat pattern="(\d)(\d{3})(\d{4})">
                    <leadingDigits>[2-9]</leadingDigits><format>$1-$2 $3</format><intlFormat>$1 $2 $3</intlFormat>
                </numberFormat>
                <numberFormat pattern="(\d)(\d+)" nationalPrefixFormattingRule="($NP$FG)">
                    <leadingDigits>1</leadingDigits><format>$1 $2</format><intlFormat>NA</intlFormat>
                </numberFormat>
            </availableFormats>
            <generalDesc>
                <nationalNumberPattern>
                    [289]\d{7,9}|
                    [3-79]\d{7}
                </nationalNumberPattern>
            </generalDesc>
            <fixedLine>
                <possibleLengths national="8,[10-12]" localOnly="7"/>
                <exampleNumber>32345678</exampleNumber>
                <nationalNumberPattern>3[2-79]\d{6}</nationalNumberPattern>
            </fixedLine>"#,
    );
    let own = metadata::Database::parse(own).unwrap();
    let it = own.by_id("NZ").unwrap();
    assert_eq!((it.country_code(), it.formats().len(), it.international_formats().len()), (64, 2, 1));
    assert_eq!((it.formats()[1].national_prefix(), it.formats()[0].domestic_carrier()), (Some("($NP$FG)"), Some("$NP $CC $FG")));
    let fixed = it.descriptors().fixed_line().unwrap();
    assert_eq!((fixed.possible_length(), fixed.possible_local_length()), (&[8, 10, 11, 12][..], &[7][..]));
    let number = phonenumber::parse_with(&own, None, "+64 33316005").unwrap();
    assert_eq!((number.number_type(&own), number.is_valid_with(&own)), (Type::FixedLine, true));
    let printed = [Mode::National, Mode::International].map(|mode| number.format_with(&own).mode(mode).to_string());
    assert_eq!(printed, ["03-331 6005", "+64 3 331 6005"]);
}
