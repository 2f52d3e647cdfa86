//! What users of the crate `phonenumber` count on, as tables, by the rules of that crate: readings, kinds, regions,
//! printed texts, validity, and texts that made readers panic. Then what is by libphonenumber's rules, and what
//! belongs to neither.
use phonenumber_proved::{
    Column, Cost, Database, Error, Form, Found, Layout, Layouts, Leniency, LineFault, Mode, NumberMatch, PhoneNumber,
    Prefixes, Region, Rules, SHORT, ShortNumbers, Source, TABLE_VERSION, TIME_ZONES, Texts, TextsBuf, Type, WORLD, has_letters,
    is_geographical, is_viable, match_numbers, mobile_token, normalize,
};
use std::collections::{BTreeSet, HashMap, HashSet};
use std::sync::Arc;

/// The region that a row names, `-` for none.
fn region(id: &str) -> Result<Option<Region>, Error> {
    if id == "-" { Ok(None) } else { id.parse().map(Some) }
}

fn world() -> Database {
    Database::from_json(WORLD).expect("the table of the world is read")
}

/// Hint, text: all are 33316005 of New Zealand.
const ONE_NUMBER: [(Region, &str, Source); 15] = [
    (Region::NZ, "033316005", Source::Default),
    (Region::NZ, "33316005", Source::Default),
    (Region::NZ, "03-331 6005", Source::Default),
    (Region::NZ, "03 331 6005", Source::Default),
    (Region::NZ, "tel:03-331-6005;phone-context=+64", Source::Plus),
    (Region::NZ, "tel:03-331-6005;phone-context=+64;a=%A1", Source::Plus),
    (Region::NZ, "tel:03-331-6005;isub=12345;phone-context=+64", Source::Plus),
    (Region::NZ, "tel:+64-3-331-6005;isub=12345", Source::Plus),
    (Region::NZ, "03-331-6005;phone-context=+64", Source::Plus),
    (Region::NZ, "0064 3 331 6005", Source::Idd),
    (Region::US, "01164 3 331 6005", Source::Idd),
    (Region::US, "+64 3 331 6005", Source::Plus),
    (Region::US, "+01164 3 331 6005", Source::Plus),
    (Region::NZ, "+0064 3 331 6005", Source::Plus),
    (Region::NZ, "+ 00 64 3 331 6005", Source::Plus),
];

#[test]
fn one_number_is_written_in_many_ways() {
    let world = world();
    let world = world.by(Rules::Crate);
    for (hint, text, source) in ONE_NUMBER {
        let number = world.parse(Some(hint), text).unwrap_or_else(|e| panic!("{text}: {e}"));
        assert_eq!((number.code(), number.national_value(), number.national_zeros()), (64, 33316005, 0), "{text}");
        assert_eq!((number.source(), number.extension(), number.carrier()), (source, None, None), "{text}");
    }
}

/// Hint, text, code, value, source.
const READ: [(Option<Region>, &str, u16, u64, Source); 3] = [
    (Some(Region::NZ), "64(0)64123456", 64, 64123456, Source::Number),
    (Some(Region::DE), "301/23456", 49, 30123456, Source::Default),
    (None, "+81 *2345", 81, 2345, Source::Plus),
];

#[test]
fn numbers_are_read() {
    let world = world();
    let world = world.by(Rules::Crate);
    for (hint, text, code, value, source) in READ {
        let number = world.parse(hint, text).unwrap_or_else(|e| panic!("{text}: {e}"));
        assert_eq!((number.code(), number.national_value(), number.source()), (code, value, source), "{text}");
    }
}

/// Text, region, kind.
const KINDS: [(&str, Option<Region>, Type); 14] = [
    ("+80012340000", None, Type::TollFree),
    ("+61406823897", Some(Region::AU), Type::Mobile),
    ("+611900123456", Some(Region::AU), Type::PremiumRate),
    ("+32474091150", Some(Region::BE), Type::Mobile),
    ("+34666777888", Some(Region::ES), Type::Mobile),
    ("+34612345678", Some(Region::ES), Type::Mobile),
    ("+441212345678", Some(Region::GB), Type::FixedLine),
    ("+13459492311", Some(Region::KY), Type::FixedLine),
    ("+16137827274", Some(Region::CA), Type::FixedLineOrMobile),
    ("+1 520 878 2491", Some(Region::US), Type::FixedLineOrMobile),
    ("+1-520-878-2491", Some(Region::US), Type::FixedLineOrMobile),
    ("+1 800 723 3456", Some(Region::US), Type::TollFree),
    ("+1-800-723-3456", Some(Region::US), Type::TollFree),
    ("+330631966543", Some(Region::FR), Type::Mobile),
];

#[test]
fn regions_and_kinds_are_told() {
    let world = world();
    for (text, region, kind) in KINDS {
        for world in [world.by(Rules::Library), world.by(Rules::Crate)] {
            let number = world.parse(None, text).unwrap();
            assert_eq!(world.region(&number).unwrap(), region, "{text}");
            assert_eq!(world.number_type(&number).unwrap(), kind, "{text}");
        }
    }
}

#[test]
fn printed_numbers_are_read_back() {
    let world = world();
    for (text, region, _) in KINDS {
        let number = world.parse(None, text).unwrap();
        for mode in [Mode::International, Mode::E164, Mode::Rfc3966, Mode::National] {
            let hint = if mode == Mode::National { region } else { None };
            if mode == Mode::National && region.is_none() {
                continue;
            }
            let printed = world.format(&number).mode(mode).to_string();
            let again = world.parse(hint, &printed).unwrap_or_else(|e| panic!("{printed}: {e}"));
            assert_eq!((again.code(), again.national_value()), (number.code(), number.national_value()), "{printed}");
        }
    }
}

/// Hint, text, national, international.
const PRINTED: [(Region, &str, &str, &str); 7] = [
    (Region::BJ, "+2290195123456", "01 95 12 34 56", "+229 01 95 12 34 56"),
    (Region::FR, "+330631966543", "06 31 96 65 43", "+33 6 31 96 65 43"),
    (Region::US, "+1 6502530000", "(650) 253-0000", "+1 650-253-0000"),
    (Region::US, "+1 8002530000", "(800) 253-0000", "+1 800-253-0000"),
    (Region::US, "+1 9002530000", "(900) 253-0000", "+1 900-253-0000"),
    (Region::GB, "+44 2070313000", "020 7031 3000", "+44 20 7031 3000"),
    (Region::GB, "+44 7912345678", "07912 345678", "+44 7912 345678"),
];

#[test]
fn numbers_are_printed() {
    let world = world();
    for (hint, text, national, international) in PRINTED {
        let number = world.parse(Some(hint), text).unwrap();
        assert_eq!(world.format(&number).mode(Mode::National).to_string(), national);
        assert_eq!(world.format(&number).mode(Mode::International).to_string(), international);
    }
    let number = world.parse(Some(Region::FR), "+330631966543").unwrap();
    assert_eq!(world.format(&number).to_string(), "+33631966543");
    assert_eq!(world.format(&number).mode(Mode::Rfc3966).to_string(), "tel:+33-6-31-96-65-43");
}

/// Text, whether it is valid.
const VALID: [(&str, bool); 17] = [
    ("+229 01 95 12 34 56", true),
    ("+229 95 12 34 56", false),
    ("+1 6502530000", true),
    ("+39 0236618300", true),
    ("+330631966543", true),
    ("+44 7912345678", true),
    ("+800 12345678", true),
    ("+979 123456789", true),
    ("+64 21387835", true),
    ("+1 2530000", false),
    ("+44 791234567", false),
    ("+49 1234", false),
    ("+64 3316005", false),
    ("+3923 2366", false),
    ("+800 123456789", false),
    ("+32 474091150", true),
    ("+687 11.11.11", false),
];

#[test]
fn validity_is_told() {
    let world = world();
    for (text, is_valid) in VALID {
        let number = world.parse(None, text).unwrap();
        assert_eq!(world.is_valid(&number).unwrap(), is_valid, "{text}");
    }
}

#[test]
fn the_version_of_the_table_is_told() {
    let (name, version) = TABLE_VERSION.split_once(' ').unwrap();
    assert_eq!(name, "libphonenumber");
    assert!(version.split('.').all(|part| part.parse::<u32>().is_ok()), "{version}");
}

/// Texts that made a reader panic once, or are like those.
const HOSTILE: [&str; 15] = [
    ".;phone-context=",
    "+dwPAA;phone-context=AA",
    ";phone-context=",
    "tel:;phone-context=+",
    "tel:+;phone-context=",
    "+;phone-context=",
    "tel:;phone-context=",
    "+;phone-context=é",
    "tel:é;phone-context=+é",
    "+1;phone-context=ééé",
    "+\u{80};phone-context=",
    "tel:0;phone-context=+\u{10000}",
    "+\u{1F4A9};phone-context=\u{1F4A9}",
    "tel:+\u{FF1B}phone-context=",
    "+\u{FFFC};phone-context=\u{FFFC}",
];

#[test]
fn hostile_texts_are_refused() {
    let world = world();
    for text in HOSTILE {
        for world in [world.by(Rules::Library), world.by(Rules::Crate)] {
            assert!(world.parse(None, text).is_err(), "{text}");
            assert!(world.parse(Some(Region::US), text).is_err(), "{text}");
        }
    }
}

#[test]
fn viability_is_told() {
    for text in ["00", "111", "0800-4-pizza", "0800-4-PIZZA"] {
        assert!(is_viable(text), "{text}");
    }
    for text in ["1", "1+1+1", "80+0", "08-PIZZA", "8-PIZZA", "12. March", "1110@gmail.com"] {
        assert!(!is_viable(text), "{text}");
    }
}

#[test]
fn each_thread_may_have_a_table_of_its_own() {
    let threads: Vec<_> = (0..4)
        .map(|_| {
            std::thread::spawn(|| {
                let world = world();
                for (text, expected) in [("+1 6502530000", "+16502530000"), ("+39 0236618300", "+390236618300")] {
                    assert_eq!(world.parse(None, text).unwrap().to_string(), expected);
                }
            })
        })
        .collect();
    for thread in threads {
        thread.join().unwrap();
    }
}

/// What a function gives in a thread of its own.
fn elsewhere<T: Send + 'static>(made: impl FnOnce() -> T + Send + 'static) -> T {
    std::thread::spawn(made).join().unwrap()
}

#[test]
fn what_is_open_goes_from_thread_to_thread() {
    let (world, zones) = elsewhere(|| (world(), Prefixes::of(TIME_ZONES).unwrap()));
    let (world, zones, number, zone) = elsewhere(move || {
        let number = world.parse(Some(Region::NZ), "03-331 6005").unwrap();
        let zone = zones.longest("12015550123").unwrap();
        (world, zones, number, zone)
    });
    assert_eq!((world.region(&number).unwrap(), zone.unwrap().0), (Some(Region::NZ), "1201"));
    elsewhere(move || drop((world, zones)));
}

#[test]
fn threads_use_one_table_at_once() {
    let (world, zones) = (Arc::new(world()), Arc::new(Prefixes::of(TIME_ZONES).unwrap()));
    let threads: Vec<_> = (0..8)
        .map(|_| {
            let (world, zones) = (Arc::clone(&world), Arc::clone(&zones));
            std::thread::spawn(move || {
                for (text, region, kind) in KINDS.iter().cycle().take(20 * KINDS.len()) {
                    let number = world.parse(None, text).unwrap();
                    assert_eq!(world.region(&number).unwrap(), *region, "{text}");
                    assert_eq!(world.number_type(&number).unwrap(), *kind, "{text}");
                    assert_eq!(world.by(Rules::Crate).parse(None, text).unwrap(), number, "{text}");
                    let has_zone = zones.longest(&number.to_string()[1..]).unwrap().is_some();
                    assert_eq!(has_zone, region.is_some(), "{text}");
                }
                let mut field = world.typing(Some(Region::US)).unwrap();
                field.push_str("6502530").unwrap();
                assert_eq!(field.shown(), "650-2530");
            })
        })
        .collect();
    drop((world, zones));
    threads.into_iter().for_each(|thread| thread.join().unwrap());
}

/// What the system counts of this process's memory, in bytes.
fn resident() -> usize {
    let pages = std::fs::read_to_string("/proc/self/statm").unwrap();
    4096 * pages.split(' ').nth(1).unwrap().parse::<usize>().unwrap()
}

#[test]
fn clones_share_a_table() {
    let (world, short) = (world(), ShortNumbers::from_json(SHORT).unwrap());
    let asked = |(world, short): (Database, ShortNumbers)| {
        elsewhere(move || {
            let number = world.parse(Some(Region::NZ), "03-331 6005").unwrap();
            assert!(world.is_valid(&number).unwrap() && short.short(Region::NZ, "111").unwrap().is_emergency);
            (world, short)
        })
    };
    let mut clones: Vec<_> = std::iter::repeat_n((world, short), 100).map(asked).collect();
    assert!(resident() < 1_500_000_000, "a table each takes some 5.7 GB");
    let (world, _) = clones.swap_remove(50);
    drop(clones);
    assert_eq!(world.by(Rules::Crate).report(None, "+64 3 331 6005").unwrap().split('\t').nth(1), Some("+6433316005"));
}

/// Hint, text, E.164 text by libphonenumber's rules, E.164 text by the crate's, whether that one is valid.
const BY_RULES: [(Region, &str, &str, &str, bool); 4] = [
    (Region::US, "+44 (0)20 7946 0018", "+442079460018", "+4402079460018", false),
    (Region::US, "+49 176 12345678", "+4917612345678", "+497612345678", true),
    (Region::NZ, "03-331 6005", "+6433316005", "+6433316005", true),
    (Region::GB, "020 7946 0018", "+442079460018", "+442079460018", true),
];

#[test]
fn the_rules_are_the_callers_and_libphonenumbers_by_default() {
    let world = world();
    for (hint, text, by_library, by_crate, is_valid) in BY_RULES {
        let number = world.parse(Some(hint), text).unwrap();
        assert_eq!((number.to_string().as_str(), world.is_valid(&number).unwrap()), (by_library, true), "{text}");
        assert_eq!(world.by(Rules::default()).parse(Some(hint), text).unwrap(), number, "{text}");
        assert!(world.report(Some(hint), text).unwrap().starts_with(&format!("ok\t{by_library}\t")), "{text}");
        let port = world.by(Rules::Crate);
        let number = port.parse(Some(hint), text).unwrap();
        assert_eq!((number.to_string().as_str(), port.is_valid(&number).unwrap()), (by_crate, is_valid), "{text}");
        assert!(port.report(Some(hint), text).unwrap().starts_with(&format!("ok\t{by_crate}\t")), "{text}");
    }
}

#[test]
fn a_carrier_is_printed_by_the_crates_rules_alone() {
    let world = world();
    for (rules, national) in
        [(Rules::Library, "(11) 2345-6789 ext. 7"), (Rules::Crate, "0 31 (11) 2345-6789 ext. 7")]
    {
        let number = world.by(rules).parse(Some(Region::BR), "0 31 11 2345 6789 ext. 7").unwrap();
        assert_eq!((number.extension(), number.carrier()), (Some("7"), Some("31")));
        assert_eq!(world.by(rules).format(&number).mode(Mode::National).to_string(), national);
    }
}

/// Error, words.
const WORDS: [(Error, &str); 12] = [
    (Error::NoNumber, "not a number"),
    (Error::InvalidCountryCode, "invalid country code"),
    (Error::TooShortAfterIdd, "the number is too short after IDD"),
    (Error::TooShortNsn, "the number is too short after the country code"),
    (Error::TooLong, "the number is too long"),
    (Error::MalformedInteger, "malformed integer part in phone number"),
    (Error::Memory, "out of memory"),
    (Error::UnknownCode, "unknown calling code"),
    (Error::Database(10), "malformed JSON"),
    (Error::Line(2, LineFault::NoTab), "line 2: the line has no tab"),
    (Error::NoRegion, "unknown region"),
    (Error::Other(99), "status 99 of the library"),
];

#[test]
fn each_error_has_words() {
    for (error, words) in WORDS {
        assert_eq!(error.to_string(), words);
    }
}

/// Numbers in their order.
const ORDERED: [&str; 6] = [
    "+1 650 253 0000",
    "+39 02 3661 8300",
    "+44 20 7946 0018",
    "+64 21 387 835",
    "+64 3 331 6005",
    "+64 3 331 6005 ext. 12",
];

#[test]
fn numbers_are_keys_of_tables() {
    let world = world();
    let numbers: Vec<PhoneNumber> = ORDERED.iter().map(|text| world.parse(None, text).unwrap()).collect();
    drop(world);
    let hashed: HashSet<PhoneNumber> = numbers.iter().chain(&numbers).cloned().collect();
    let sorted: BTreeSet<PhoneNumber> = hashed.into_iter().collect();
    assert_eq!(Vec::from_iter(sorted), numbers);
    assert_eq!(format!("{:>14}|{:?}", numbers[4], numbers[4]), "   +6433316005|PhoneNumber(+6433316005)");
    let sent = std::thread::spawn(move || numbers.iter().map(PhoneNumber::to_string).collect::<Vec<_>>());
    assert_eq!(sent.join().unwrap()[4], "+6433316005");
}

#[test]
fn a_number_of_another_database_is_printed_by_e164() {
    let (world, none) = (world(), Database::from_json("[]").unwrap());
    let number = world.parse(None, "+64 3 331 6005").unwrap();
    let printer = none.format(&number).mode(Mode::National);
    assert_eq!((printer.to_text(), printer.to_string().as_str()), (Err(Error::UnknownCode), "+6433316005"));
    assert_eq!(none.region(&number), Ok(None));
}

/// What a row of a table in crates/replay/data says between its tabs, after the call's name, with its escapes undone.
fn rows<'t>(table: &'t str, call: &'t str) -> impl Iterator<Item = Vec<Vec<u8>>> + 't {
    let rows = table.lines().map(|line| line.split('\t').collect::<Vec<_>>());
    rows.filter(move |row| row[0] == call).map(|row| row[1..].iter().map(|field| plain(field)).collect())
}

fn plain(field: &str) -> Vec<u8> {
    let (mut out, mut rest) = (Vec::new(), field);
    while let Some((front, after)) = rest.split_once('\\') {
        out.extend(front.bytes());
        let digits = match after.as_bytes()[0] {
            b'x' => 2,
            b'u' => 4,
            b'U' => 8,
            _ => 0,
        };
        let code = u32::from_str_radix(&after[1..1 + digits], 16);
        match after.as_bytes()[0] {
            b't' => out.push(b'\t'),
            b'n' => out.push(b'\n'),
            b'x' => out.push(code.unwrap() as u8),
            b'u' | b'U' => out.extend(char::from_u32(code.unwrap()).unwrap().to_string().bytes()),
            other => out.push(other),
        }
        rest = &after[1 + digits..];
    }
    out.extend(rest.bytes());
    out
}

fn text(field: &[u8]) -> &str {
    std::str::from_utf8(field).unwrap()
}

const TYPED: &str = include_str!("../../../crates/replay/data/typed.tsv");
const SHORT_ROWS: &str = include_str!("../../../crates/replay/data/short.tsv");
const PREFIXES: &str = include_str!("../../../crates/replay/data/prefixes.tsv");

#[test]
fn keys_are_shown_as_they_are_typed() {
    let (world, mut count) = (world(), 0);
    for row in rows(TYPED, "typed").filter(|row| row[0] == b"world/world") {
        let (hint, keys, shown) = (region(text(&row[1])).unwrap(), text(&row[2]), text(&row[3]));
        let mut field = world.typing(hint).unwrap();
        let mut texts = Vec::new();
        for key in keys.chars() {
            field.push(key).unwrap();
            texts.push(field.shown().to_owned());
        }
        assert_eq!(texts.join("|"), shown, "{hint:?} {keys}");
        assert_eq!(world.typed(hint, keys).unwrap(), field.shown(), "{hint:?} {keys}");
        for n in 0..=field.keys().len() {
            let at = field.caret(n).unwrap();
            let before = field.shown()[..at].chars().filter(|c| c.is_ascii_digit() || *c == '+').collect::<String>();
            assert_eq!(before, field.keys()[..n], "{hint:?} {keys} {n}");
        }
        if texts.len() > 1 && field.keys().len() == keys.len() {
            field.back().unwrap();
            assert_eq!(field.shown(), texts[texts.len() - 2], "{hint:?} {keys}");
        }
        count += 1;
    }
    assert!(count > 1000, "{count} lines");
}

#[test]
fn short_numbers_are_told() {
    let (table, mut count) = (ShortNumbers::from_json(SHORT).unwrap(), 0);
    for row in rows(SHORT_ROWS, "short").filter(|row| row[0] == b"world/short") {
        let facts = table.short(text(&row[1]).parse().unwrap(), text(&row[2])).unwrap();
        let cost = match facts.cost {
            Cost::TollFree => "TOLL_FREE",
            Cost::StandardRate => "STANDARD_RATE",
            Cost::PremiumRate => "PREMIUM_RATE",
            Cost::Unknown => "UNKNOWN_COST",
        };
        let said = |is: bool| if is { "yes" } else { "no" };
        let told = [
            said(facts.is_possible),
            said(facts.is_valid),
            cost,
            said(facts.is_carrier_specific),
            said(facts.is_emergency),
            said(facts.reaches_emergency),
        ];
        assert_eq!(told.join("\t"), text(&row[3]), "{} {}", text(&row[1]), text(&row[2]));
        count += 1;
    }
    assert!(count > 2000, "{count} lines");
}

#[test]
fn the_longest_prefix_is_found() {
    let mut count = 0;
    for row in rows(PREFIXES, "prefix") {
        let told = Prefixes::of(&row[0]).and_then(|table| {
            let found = table.longest(text(&row[1]))?;
            Ok(found.map_or("none".to_owned(), |(prefix, text)| format!("{prefix}: {text}")))
        });
        let told = told.unwrap_or_else(|error| format!("!{error}"));
        assert_eq!(told, text(&row[2]), "{}", text(&row[3]));
        count += 1;
    }
    assert!(count > 20, "{count} lines");
}

#[test]
fn a_text_may_be_longer_than_the_first_buffer() {
    let zones = Prefixes::of(include_str!("../../../data/timezones.tsv")).unwrap();
    let (prefix, text) = zones.longest("18002345678").unwrap().unwrap();
    assert!(prefix == "1" && text.len() > 512 && text.ends_with("&Pacific/Saipan"), "{text}");
    assert_eq!(zones.longest("12015550123"), Ok(Some(("1201", "America/New_York".to_owned()))));
    assert_eq!(zones.longest("0"), Ok(None));
}

#[test]
fn what_is_no_region_is_refused() {
    for text in ["", "nz", "XX", "001", "NZ ", "N\0", "\u{1F4A9}"] {
        assert_eq!(text.parse::<Region>(), Err(Error::NoRegion), "{text:?}");
    }
    let ids: Vec<String> = Region::ALL.iter().map(Region::to_string).collect();
    assert!(ids.is_sorted() && ids.iter().zip(Region::ALL).all(|(id, region)| id.parse() == Ok(*region)));
    assert_eq!(world().regions().as_deref(), Ok(Region::ALL));
}

/// How rows write that a text is no number.
fn refusal(error: Error) -> String {
    let refusals = [
        Error::NoNumber,
        Error::InvalidCountryCode,
        Error::TooShortAfterIdd,
        Error::TooShortNsn,
        Error::TooLong,
        Error::MalformedInteger,
    ];
    match error {
        Error::NoTerritory => "UnknownRegion".to_owned(),
        Error::UnknownCode => "UnknownCode".to_owned(),
        _ => format!("error\t{}", 1 + refusals.iter().position(|it| *it == error).unwrap()),
    }
}

fn made(code: &str, value: &str, zeros: &str, extension: Option<&str>) -> PhoneNumber {
    let number = PhoneNumber::from_parts(code.parse().unwrap(), value.parse().unwrap(), zeros.parse().unwrap());
    number.unwrap().with_extension(extension)
}

fn parts(number: Option<PhoneNumber>) -> String {
    let Some(number) = number else { return "-".to_owned() };
    let text = |text: Option<&str>| text.map_or("-".to_owned(), |text| format!("={text}"));
    let source = format!("{:?}", number.source()).to_lowercase();
    let (extension, carrier) = (text(number.extension()), text(number.carrier()));
    format!("{}\t{source}\t{}\t{extension}\t{carrier}", number.code(), number.national())
}

fn found_in(text: &str, found: Vec<Found>) -> String {
    let (mut out, mut last, mut numbers) = (String::new(), 0, String::new());
    for it in &found {
        out += &format!("{}{{{}}}", &text[last..it.place.start], &text[it.place.clone()]);
        last = it.place.end;
        numbers += &format!("\t{}", it.number);
    }
    out + &text[last..] + &numbers
}

/// What a row's call answers, by rules; no answer where it is no call of these.
fn utility(world: &Database, rules: Rules, call: &str, row: &[&str]) -> Option<(usize, Result<String, Error>)> {
    let by = world.by(rules);
    let kind = |name: &str| (0..17).map(|at| KINDS_IN_ORDER[at]).find(|kind| format!("{kind:?}") == name).unwrap();
    Some(match (call, row) {
        ("possible", [code, value, zeros, ..]) => {
            (3, by.possibility(&made(code, value, zeros, None)).map(|it| format!("{it:?}")))
        }
        ("possible-text", [hint, text, ..]) => {
            (2, region(hint).and_then(|hint| by.possibility_of_text(hint, text)).map(|it| format!("{it:?}")))
        }
        ("same", [one, two, ..]) => (2, by.compare(one, two).map(|it| format!("{it:?}"))),
        ("dialled-from", [code, value, zeros, extension, from, ..]) => {
            let number = made(code, value, zeros, extension.strip_prefix('='));
            (5, from.parse().and_then(|from| world.dialled_from(from, &number)).map(|text| format!("={text}")))
        }
        ("example", [id, name, ..]) => (2, id.parse().and_then(|id| by.example(id, kind(name))).map(parts)),
        ("regions", _) => {
            let ids = world.regions().map(|ids| ids.into_iter().map(Region::as_str).collect::<Vec<_>>().join(" "));
            (0, ids.map(|ids| format!("={ids}")))
        }
        ("codes", _) => {
            let codes = world.codes().map(|codes| codes.iter().map(u16::to_string).collect::<Vec<_>>().join(" "));
            (0, codes.map(|codes| format!("={codes}")))
        }
        ("found", [hint, text, ..]) => {
            let found = region(hint).and_then(|hint| by.find(hint, Leniency::Valid, text));
            (2, found.map(|found| found_in(text, found)))
        }
        _ => return None,
    })
}

const KINDS_IN_ORDER: [Type; 17] = [
    Type::FixedLine,
    Type::Mobile,
    Type::FixedLineOrMobile,
    Type::TollFree,
    Type::PremiumRate,
    Type::SharedCost,
    Type::PersonalNumber,
    Type::Voip,
    Type::Pager,
    Type::Uan,
    Type::Emergency,
    Type::Voicemail,
    Type::ShortCode,
    Type::StandardRate,
    Type::Carrier,
    Type::NoInternational,
    Type::Unknown,
];

#[test]
fn what_is_possible_alike_dialled_listed_and_found_is_told() {
    let folder = concat!(env!("CARGO_MANIFEST_DIR"), "/../../crates/replay/data");
    let (mut opened, mut count) = (HashMap::new(), 0);
    for file in ["more.tsv", "rules.tsv", "found.tsv"] {
        let table = std::fs::read_to_string(format!("{folder}/{file}")).unwrap();
        for name in ["possible", "possible-text", "same", "dialled-from", "example", "regions", "codes", "found"] {
            for (rules, call) in [(Rules::Crate, name.to_owned()), (Rules::Library, format!("{name}-library"))] {
                for row in rows(&table, &call) {
                    let row: Vec<&str> = row.iter().map(|field| text(field)).collect();
                    let world = opened.entry(row[0].to_owned()).or_insert_with(|| {
                        Database::load(format!("{folder}/databases/{}.json", row[0])).unwrap()
                    });
                    let (fields, told) = utility(world, rules, name, &row[1..]).unwrap();
                    let mut wanted = row[1 + fields].to_owned();
                    if wanted.starts_with("error\t") {
                        wanted = wanted.split('\t').take(2).collect::<Vec<_>>().join("\t");
                    }
                    assert_eq!(told.unwrap_or_else(refusal), wanted, "{rules:?} {row:?}");
                    count += 1;
                }
            }
        }
    }
    assert!(count > 500, "{count} lines");
}

#[test]
fn further_questions_are_answered_or_refused() {
    let world = world();
    let none = Database::from_json("[]").unwrap();
    assert_eq!(none.about_region(Region::NZ).unwrap_err(), Error::NoTerritory);
    assert_eq!((none.national_prefix(Region::NZ), none.main_region(64), none.code_kinds(800)), (Ok(None), Ok(None), Ok(vec![])));
    // By either rules' numbers; an extension stays where digits are cut off.
    let number = world.parse(None, "+64 3 331 60059 ext. 12").unwrap();
    let left = world.truncated(&number).unwrap().unwrap();
    assert_eq!((left.national_value(), left.extension()), (33316005, Some("12")));
    assert_eq!(world.truncated(&PhoneNumber::from_parts(64, 12, 0).unwrap()), Ok(None));
    assert_eq!(match_numbers(&number, &left), Ok(NumberMatch::NoMatch));
    assert_eq!(match_numbers(&left, &left), Ok(NumberMatch::ExactMatch));
    assert_eq!(world.match_text(&left, "call me"), Ok(NumberMatch::NotANumber));
    assert_eq!(none.national_with(&left, "15").as_deref(), Ok("33316005"));
    assert_eq!((mobile_token(64).as_deref(), is_geographical(Type::Mobile, 64)), (Ok(""), Ok(false)));
    assert_eq!((normalize(Form::Digits, "").as_deref(), has_letters("")), (Ok(""), false));
}

/// All columns.
const COLUMNS: [Column; 13] = [
    Column::E164,
    Column::International,
    Column::National,
    Column::Rfc3966,
    Column::Code,
    Column::Value,
    Column::Zeros,
    Column::Type,
    Column::Region,
    Column::Validity,
    Column::Source,
    Column::Refusal,
    Column::IsNumber,
];

/// Examples of all regions and kinds in their modes, and texts that are none, under hints of each sort.
fn column_of_rows(world: &Database) -> Vec<(Option<Vec<u8>>, Option<&'static str>)> {
    let hints = [Some("NZ"), None, Some("US"), Some("ZZ"), Some("BR")];
    let mut rows: Vec<(Option<Vec<u8>>, Option<&str>)> = Vec::new();
    for region in world.regions().unwrap() {
        for kind in KINDS_IN_ORDER {
            let Some(number) = world.example(region, kind).unwrap() else { continue };
            for mode in [Mode::E164, Mode::International, Mode::National, Mode::Rfc3966] {
                let text = world.format(&number).mode(mode).to_text().unwrap().into_bytes();
                rows.push((Some(text), hints[rows.len() % 5]));
            }
        }
    }
    for text in [&b"call me"[..], b"", b"\xff", b"03-331 6005 ext. 12", b"0 31 11 2345 6789"] {
        rows.extend(hints.map(|hint| (Some(text.to_vec()), hint)));
    }
    rows.extend(hints.map(|hint| (None, hint)));
    rows
}

#[test]
fn a_row_of_a_column_is_what_the_calls_for_one_text_say() {
    let world = world();
    let rows = column_of_rows(&world);
    assert!(rows.len() > 5000, "{} rows", rows.len());
    let texts: TextsBuf = rows.iter().map(|(text, _)| text.as_ref()).collect();
    let hints: TextsBuf = rows.iter().map(|(_, hint)| *hint).collect();
    for rules in [Rules::Library, Rules::Crate] {
        let by = world.by(rules);
        let told = by.columns(&texts.texts(), &hints.texts(), &COLUMNS).unwrap();
        assert_eq!(told.len(), rows.len());
        for (row, (text, hint)) in rows.iter().enumerate() {
            let read = match text.as_ref().map(|text| std::str::from_utf8(text)) {
                None => Ok(None),
                // A hint that is no region's id is told first.
                Some(Err(_)) if *hint == Some("ZZ") => Err(Error::NoRegion),
                Some(Err(_)) => Err(Error::NotUtf8),
                Some(Ok(text)) => region(hint.unwrap_or("-")).and_then(|hint| by.parse(hint, text)).map(Some),
            };
            assert_eq!(told.refusal(row), read.as_ref().err().copied(), "{text:?} {hint:?}");
            let number = read.unwrap_or_default();
            assert_eq!(told.is_number(row), Some(number.is_some()));
            for mode in [Mode::E164, Mode::International, Mode::National, Mode::Rfc3966] {
                let text = number.as_ref().map(|it| by.format(it).mode(mode).to_text().unwrap());
                assert_eq!(told.text(mode, row), text.as_deref());
            }
            let of = |number: &PhoneNumber| (number.code(), number.national_value(), number.national_zeros());
            let parts = (told.codes()[row], told.national_values()[row], told.national_zeros()[row]);
            assert_eq!(parts, number.as_ref().map_or((0, 0, 0), of));
            let Some(number) = number else { continue };
            assert_eq!(told.number_type(row), by.number_type(&number).ok());
            assert_eq!(told.region(row), by.region(&number).unwrap().map(Region::as_str));
            assert_eq!(told.is_valid(row), by.is_valid(&number).ok());
        }
    }
}

#[test]
fn a_column_is_its_pieces_one_behind_the_other() {
    let world = world();
    let rows = column_of_rows(&world);
    let texts: TextsBuf = rows.iter().map(|(text, _)| text.as_ref()).collect();
    let (texts, hint) = (texts.texts(), Texts::one_hint("NZ"));
    let whole = world.columns(&texts, &hint, &COLUMNS).unwrap();
    let pieces: Vec<_> = std::thread::scope(|scope| {
        let asked: Vec<_> = (0..rows.len())
            .step_by(999)
            .map(|from| (from, texts.slice(from..rows.len().min(from + 999))))
            .map(|(from, piece)| (from, scope.spawn(move || world_columns(&piece))))
            .collect();
        asked.into_iter().map(|(from, told)| (from, told.join().unwrap())).collect()
    });
    for (from, piece) in pieces {
        for row in 0..piece.len() {
            assert_eq!(piece.text(Mode::International, row), whole.text(Mode::International, from + row));
            assert_eq!((piece.region(row), piece.refusal(row)), (whole.region(from + row), whole.refusal(from + row)));
        }
    }
}

fn world_columns(texts: &Texts<'_>) -> phonenumber_proved::Columns {
    Database::world().unwrap().columns(texts, &Texts::one_hint("NZ"), &COLUMNS).unwrap()
}

#[test]
fn columns_of_each_width_of_offsets_and_none_that_are_no_columns() {
    let world = world();
    let bytes = b"03-331 6005call me+1 650 253 0000";
    let (wide, narrow) = ([0u64, 11, 18, 18, 33], [0u32, 11, 18, 18, 33]);
    let told = [
        world.columns(&Texts::new(&wide, bytes), &Texts::one_hint("NZ"), &COLUMNS).unwrap(),
        world.columns(&Texts::new(&narrow, bytes), &Texts::one_hint("NZ"), &COLUMNS).unwrap(),
        world.columns(&Texts::new(&wide.map(|it| it as i64), bytes), &Texts::one_hint("NZ"), &COLUMNS).unwrap(),
        world.columns(&Texts::new(&narrow.map(|it| it as i32), bytes), &Texts::one_hint("NZ"), &COLUMNS).unwrap(),
    ];
    for it in &told {
        let texts: Vec<_> = (0..it.len()).map(|row| it.text(Mode::E164, row)).collect();
        assert_eq!(texts, [Some("+6433316005"), None, None, Some("+16502530000")]);
        assert_eq!((it.buffer(Column::E164, 1), it.text(Mode::E164, 4)), (&b"+6433316005+16502530000"[..], None));
    }
    let few = world.columns(&Texts::new(&wide, bytes), &Texts::one_hint(""), &[Column::Region, Column::Region]).unwrap();
    assert_eq!((few.region(0), few.region(3), few.is_number(0), few.codes()), (None, Some("US"), None, &[][..]));
    let none: [u64; 0] = [];
    for offsets in [&none[..], &[0], &[7]] {
        let told = world.columns(&Texts::new(offsets, bytes), &Texts::one_hint("NZ"), &COLUMNS).unwrap();
        assert_eq!((told.len(), told.is_empty(), told.text(Mode::E164, 0)), (0, true, None));
    }
    for offsets in [&[1, 0][..], &[0, 34], &[0, u64::MAX], &[34]] {
        let told = world.columns(&Texts::new(offsets, bytes), &Texts::one_hint("NZ"), &[Column::E164]);
        assert_eq!(told.unwrap_err(), Error::Layout, "{offsets:?}");
    }
    let lacking = Texts::new(&wide, bytes).with_bitmap(&[7], 5);
    assert_eq!(world.columns(&lacking, &Texts::one_hint(""), &COLUMNS).unwrap_err(), Error::Layout);
    let behind = Texts::new(&[0i64, -1], bytes);
    assert_eq!(world.columns(&behind, &Texts::one_hint(""), &COLUMNS).unwrap_err(), Error::Layout);
}

/// Hint, text, region: how a number is printed as it was written.
const ORIGINALS: [(Option<Region>, &str, Option<Region>, &str); 6] = [
    (Some(Region::NZ), "3 331-6005", Some(Region::NZ), "3 331 6005"),
    (Some(Region::NZ), "03-331-6005", Some(Region::NZ), "03 331 6005"),
    (Some(Region::NZ), "0064 33316005", Some(Region::NZ), "0064 33316005"),
    (Some(Region::US), "011 64 33316005", Some(Region::US), "011 64 3 331 6005"),
    (Some(Region::GB), "020 7946 0018 #5", Some(Region::GB), "020 7946 0018 #5"),
    (None, "+64 33316005", None, "+64 3 331 6005"),
];

#[test]
fn numbers_are_dialled_and_printed_as_they_were_written() {
    let (world, shorts) = (world(), ShortNumbers::from_json(SHORT).unwrap());
    for (hint, text, region, wanted) in ORIGINALS {
        let number = world.parse(hint, text).unwrap();
        assert_eq!(world.original_text(region, Some(text), &number).as_deref(), Ok(wanted), "{text}");
    }
    let number = world.parse(None, "+61 1300 123456").unwrap();
    let dialled = ["AU", "CX", "xx"].map(|id| world.library_mobile_text(id, true, None, &number).unwrap());
    assert_eq!(dialled, ["1300 123 456", "", ""]);
    let dialled = ["AU", "CX", "xx"].map(|id| world.mobile_text(id, true, &number).unwrap());
    assert_eq!(dialled, ["1300 123 456", "1300 123 456", ""]);
    let none = Database::from_json("[]").unwrap();
    assert_eq!(none.format_read(Mode::National, None, &number).as_deref(), Ok("1300123456"));
    assert_eq!(none.library_mobile_text(Region::AU, false, Some("as it was"), &number).as_deref(), Ok("as it was"));
    assert_eq!(none.mobile_text(Region::AU, false, &number).as_deref(), Ok(""));
    let quoted = Layout { pattern: r"(\d{4})(\d+)", format: "$1 \"\\\u{1}\" $2", ..Layout::default() };
    let own = Layouts::of(&[Layout { leading_digits: Some("2"), ..quoted }, quoted]).unwrap();
    let told = world.format_by(&own.clone(), Mode::National, &number).unwrap();
    assert_eq!(told, "1300 \"\\\u{1}\" 123456");
    assert_eq!(world.format_by(&own, Mode::E164, &number).as_deref(), Ok("+611300123456"));
    assert_eq!(world.library_format_by(&own, Mode::E164, &number).as_deref(), Ok("+611300 \"\\\u{1}\" 123456"));
    assert_eq!(Layouts::of(&[Layout { pattern: "(", ..quoted }]).unwrap_err(), Error::Database(12));
    let facts = world.short_anywhere(&shorts, &PhoneNumber::from_parts(1, 911, 0).unwrap()).unwrap();
    assert_eq!((facts.is_possible, facts.is_valid, facts.cost, facts.library_cost), (true, true, Cost::TollFree, Cost::Unknown));
    let examples = [Cost::TollFree, Cost::Unknown].map(|cost| shorts.example(Region::FR, Some(cost)).unwrap());
    assert_eq!(examples, [Some("15".to_owned()), None]);
}
