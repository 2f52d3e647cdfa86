//! libphonenumber's further questions, and those of our own answers, whose names begin with `own-`:
//! the rows of crates/replay/data/questions.tsv with their answers, asked of this crate's calls.
//! A row that is answered otherwise is a line of the failure.
use phonenumber_proved::{
    Cost, Database, Error, FactsAnywhere, Form, Layout, Layouts, Mode, NumberFacts, NumberMatch,
    PhoneNumber, Possibility, Region, SHORT, SMS, ShortNumbers, SmsServices, Type, extract,
    has_letters, is_geographical, library_match_numbers, match_numbers, mobile_token, normalize,
};
use std::collections::BTreeMap;

const ROWS: &str = include_str!("../../../crates/replay/data/questions.tsv");

/// How many rows there are.
const COUNT: usize = 7611;

/// How many rows of each question no call of this crate can be asked, 45 in all: their regions are
/// `-`, `001`, `AQ`, `XX` and `ZZ`, which `Region` hasn't. What is looked at there is that it has
/// none, and that libphonenumber tells nothing of them.
const NO_REGION: [(&str, usize); 9] = [
    ("code-of", 5),
    ("example", 5),
    ("example-invalid", 5),
    ("kinds-of-region", 5),
    ("nanpa", 5),
    ("ndd", 5),
    ("portable", 5),
    ("short-example", 5),
    ("short-example-cost", 5),
];

/// What rows are asked of.
struct Tables {
    world: Database,
    shorts: ShortNumbers,
    services: SmsServices,
}

/// A number, and the text that it was read from; none where a row has its parts.
struct Asked<'r> {
    number: PhoneNumber,
    raw: Option<&'r str>,
}

/// The answer to a row; none where there is no such question.
type Answer = Option<Result<String, Error>>;

/// A field without its escapes: of characters, of a tab, of a line feed, of a backslash.
fn plain(field: &str) -> String {
    let (mut out, mut rest) = (String::new(), field);
    while let Some((front, after)) = rest.split_once('\\') {
        out.push_str(front);
        let digits = match after.as_bytes()[0] {
            b'u' => 4,
            b'U' => 8,
            _ => 0,
        };
        let number = || u32::from_str_radix(&after[1..=digits], 16).unwrap();
        out.push(match after.as_bytes()[0] {
            b'u' | b'U' => char::from_u32(number()).unwrap(),
            b't' => '\t',
            b'n' => '\n',
            b'\\' => '\\',
            other => panic!("no escape is {:?}", char::from(other)),
        });
        rest = &after[1 + digits..];
    }
    out + rest
}

/// A calling code that a row names.
fn code(field: &str) -> u16 {
    field.parse().unwrap()
}

/// A field that may be none.
fn there(field: &str) -> Option<&str> {
    Some(field).filter(|it| *it != "-")
}

fn yes(it: bool) -> String {
    if it { "yes" } else { "no" }.to_owned()
}

fn kind(name: &str) -> Type {
    let all = [
        Type::FixedLine,
        Type::Mobile,
        Type::FixedLineOrMobile,
        Type::TollFree,
        Type::PremiumRate,
        Type::SharedCost,
        Type::PersonalNumber,
        Type::Voip,
        Type::Pager,
        Type::Uan,
        Type::Emergency,
        Type::Voicemail,
        Type::ShortCode,
        Type::StandardRate,
        Type::Carrier,
        Type::NoInternational,
        Type::Unknown,
    ];
    *all.iter().find(|kind| format!("{kind:?}") == name).unwrap()
}

fn kinds(kinds: Vec<Type>) -> String {
    let names: Vec<_> = kinds.iter().map(|kind| format!("{kind:?}")).collect();
    if names.is_empty() { "-".to_owned() } else { names.join(" ") }
}

fn mode(name: &str) -> Mode {
    let all = [Mode::E164, Mode::International, Mode::National, Mode::Rfc3966];
    *all.iter().find(|mode| format!("{mode:?}") == name).unwrap()
}

/// libphonenumber's name of a cost.
fn cost_name(cost: Cost) -> &'static str {
    match cost {
        Cost::TollFree => "TollFree",
        Cost::StandardRate => "StandardRate",
        Cost::PremiumRate => "PremiumRate",
        Cost::Unknown => "UnknownCost",
    }
}

fn cost(name: &str) -> Cost {
    let all = [Cost::TollFree, Cost::StandardRate, Cost::PremiumRate, Cost::Unknown];
    *all.iter().find(|cost| cost_name(**cost) == name).unwrap()
}

/// libphonenumber's name of what the count of digits says.
fn verdict(possibility: Possibility) -> String {
    match possibility {
        Possibility::Possible => "IsPossible",
        Possibility::PossibleLocally => "IsPossibleLocalOnly",
        Possibility::TooShort => "TooShort",
        Possibility::TooLong => "TooLong",
        Possibility::WrongLength => "InvalidLength",
        Possibility::UnknownCode => "InvalidCountryCode",
    }
    .to_owned()
}

fn likeness(told: Result<NumberMatch, Error>) -> Result<String, Error> {
    told.map(|it| format!("{it:?}"))
}

/// Calling code, national digits, and the extension where there is one.
fn parts(number: &PhoneNumber) -> String {
    let front = format!("{} {}", number.code(), number.national());
    match number.extension() {
        None | Some("") => front,
        Some(extension) => format!("{front} {extension}"),
    }
}

fn example(told: Result<Option<PhoneNumber>, Error>) -> Result<String, Error> {
    told.map(|number| number.as_ref().map_or("-".to_owned(), parts))
}

/// The layouts of a row, each by its four columns, of which the last two may be none.
fn layouts(fields: &[&str]) -> Result<Layouts, Error> {
    let columns = fields.chunks_exact(4);
    assert!(columns.len() > 0 && columns.remainder().is_empty(), "{fields:?}");
    Layouts::of(&columns.map(layout).collect::<Vec<_>>())
}

fn layout<'r>(fields: &[&'r str]) -> Layout<'r> {
    Layout {
        pattern: fields[0],
        format: fields[1],
        leading_digits: there(fields[2]),
        national_prefix_rule: there(fields[3]),
    }
}

impl Tables {
    fn open() -> Tables {
        Tables {
            world: Database::world().unwrap(),
            shorts: ShortNumbers::from_json(SHORT).unwrap(),
            services: SmsServices::from_json(SMS).unwrap(),
        }
    }

    /// The number of two fields: a region, or none, and a text that is read there; or `=`, and
    /// calling code, national digits and perhaps an extension.
    fn number<'r>(&self, hint: &str, text: &'r str) -> Result<Asked<'r>, Error> {
        if hint != "=" {
            let hint = there(hint).map(str::parse::<Region>).transpose()?;
            return Ok(Asked { number: self.world.parse(hint, text)?, raw: Some(text) });
        }
        let mut fields = text.splitn(3, ' ');
        let (code, digits) = (code(fields.next().unwrap()), fields.next().unwrap());
        let value: u64 = digits.parse().unwrap();
        let zeros = (digits.len() - value.to_string().len()).try_into().unwrap();
        let number = PhoneNumber::from_parts(code, value, zeros)?.with_extension(fields.next());
        Ok(Asked { number, raw: None })
    }

    /// The answer to a row of a question and its arguments.
    fn answer(&self, question: &str, fields: &[&str]) -> Answer {
        of_a_text(question, fields)
            .or_else(|| self.of_two_texts(question, fields))
            .or_else(|| self.of_a_code(question, fields))
            .or_else(|| self.of_a_region(question, fields))
            .or_else(|| match self.number(fields[0], fields[1]) {
                Ok(asked) => self.of_a_number(question, &asked, &fields[2..]),
                Err(error) => Some(Err(error)),
            })
    }

    fn of_two_texts(&self, question: &str, fields: &[&str]) -> Answer {
        let ask = match question {
            "match-texts" => Database::library_match_texts,
            "own-match-texts" => Database::match_texts,
            _ => return None,
        };
        Some(likeness(ask(&self.world, fields[0], fields[1])))
    }

    fn of_a_code(&self, question: &str, fields: &[&str]) -> Answer {
        let world = &self.world;
        Some(match question {
            "mobile-token" => mobile_token(code(fields[0])),
            "geographical-kind" => is_geographical(kind(fields[0]), code(fields[1])).map(yes),
            "region-of" => {
                world.main_region(code(fields[0])).map(|id| id.unwrap_or_else(|| "ZZ".to_owned()))
            }
            "regions-of" => self.regions_of(code(fields[0])),
            "kinds-of-code" => world.code_kinds(code(fields[0])).map(kinds),
            "example-code" => example(world.example_of_code(code(fields[0]))),
            "example-any" => example(world.example_of_kind(kind(fields[0]))),
            _ => return None,
        })
    }

    /// The main region of a calling code, then the other ones, by the alphabet.
    fn regions_of(&self, code: u16) -> Result<String, Error> {
        let Some(main) = self.world.main_region(code)? else { return Ok("-".to_owned()) };
        let mut ids = vec![main];
        for region in self.world.regions()? {
            if region.as_str() != ids[0] && self.world.about_region(region)?.code == code {
                ids.push(region.to_string());
            }
        }
        Ok(ids.join(" "))
    }

    fn of_a_region(&self, question: &str, fields: &[&str]) -> Answer {
        let (world, region) = (&self.world, fields[0].parse::<Region>());
        Some(match question {
            "portable" => region.and_then(|it| Ok(yes(world.about_region(it)?.is_portable))),
            "nanpa" => region.and_then(|it| Ok(yes(world.about_region(it)?.is_nanpa))),
            "code-of" => region.and_then(|it| Ok(world.about_region(it)?.code.to_string())),
            "ndd" => {
                let prefix = match fields[1] {
                    "no" => Database::national_prefix_digits,
                    _ => Database::national_prefix,
                };
                region.and_then(|it| Ok(prefix(world, it)?.unwrap_or_else(|| "-".to_owned())))
            }
            "kinds-of-region" => region.and_then(|it| world.region_kinds(it).map(kinds)),
            "example" => region.and_then(|it| example(world.example(it, Type::FixedLine))),
            "example-kind" => region.and_then(|it| example(world.example(it, kind(fields[1])))),
            "example-invalid" => region.and_then(|it| example(world.invalid_example(it))),
            "short-example" => {
                region.and_then(|it| Ok(self.shorts.example(it, None)?.unwrap_or_default()))
            }
            "short-example-cost" => region.and_then(|it| {
                Ok(self.shorts.example(it, Some(cost(fields[1])))?.unwrap_or_default())
            }),
            _ => return None,
        })
    }

    fn of_a_number(&self, question: &str, asked: &Asked<'_>, rest: &[&str]) -> Answer {
        self.facts(question, &asked.number)
            .or_else(|| self.short(question, &asked.number, rest))
            .or_else(|| self.compared(question, &asked.number, rest))
            .or_else(|| self.text(question, asked, rest))
    }

    /// What is known of a number.
    fn facts(&self, question: &str, n: &PhoneNumber) -> Answer {
        let world = &self.world;
        let about = |ask: fn(NumberFacts) -> String| world.about(n).map(ask);
        Some(match question {
            "keep" => Ok(kept(n)),
            "area-length" => about(|it| it.area_length.to_string()),
            "destination-length" => about(|it| it.destination_length.to_string()),
            "geographical" => about(|it| yes(it.is_geographical)),
            "from-abroad" => about(|it| yes(it.is_dialled_from_abroad)),
            "own-from-abroad" => world.reaches_from_abroad(n).map(yes),
            "possible" => world.possibility(n).map(verdict),
            "truncate" => world.truncated(n).map(|left| match left {
                Some(left) => format!("yes {}", parts(&left)),
                None => format!("no {}", parts(n)),
            }),
            _ => return None,
        })
    }

    /// What a number is as a short one.
    fn short(&self, question: &str, n: &PhoneNumber, rest: &[&str]) -> Answer {
        let about =
            |ask: fn(FactsAnywhere) -> String| self.world.short_anywhere(&self.shorts, n).map(ask);
        Some(match question {
            "short-possible" => about(|it| yes(it.is_possible)),
            "short-valid" => about(|it| yes(it.is_valid)),
            "short-carrier" => about(|it| yes(it.is_carrier_specific)),
            "short-cost" => about(|it| cost_name(it.library_cost).to_owned()),
            "short-own-cost" => about(|it| cost_name(it.cost).to_owned()),
            "short-sms" => rest[0]
                .parse::<Region>()
                .and_then(|region| self.world.is_sms_service(&self.services, region, n).map(yes)),
            _ => return None,
        })
    }

    /// How like a number and another, or a text, are; and what it is in a region, or as a kind.
    fn compared(&self, question: &str, n: &PhoneNumber, rest: &[&str]) -> Answer {
        let world = &self.world;
        let other = || self.number(rest[0], rest[1]).map(|it| it.number);
        Some(match question {
            "match" => likeness(other().and_then(|it| library_match_numbers(n, &it))),
            "own-match" => likeness(other().and_then(|it| match_numbers(n, &it))),
            "match-text" => likeness(world.library_match_text(n, rest[0])),
            "own-match-text" => likeness(world.match_text(n, rest[0])),
            "valid-for" => world.is_valid_for(rest[0], n).map(yes),
            "possible-kind" => world.library_possibility_as(kind(rest[0]), n).map(verdict),
            "own-possible-kind" => world.possibility_as(kind(rest[0]), n).map(verdict),
            _ => return None,
        })
    }

    /// How a number is written. What is no region's id is here no region, from which it is dialled.
    fn text(&self, question: &str, asked: &Asked<'_>, rest: &[&str]) -> Answer {
        let (world, n, raw) = (&self.world, &asked.number, asked.raw);
        let from = || rest[0].parse::<Region>().ok();
        let carrier = || there(rest[0]).unwrap_or_default();
        let symbols = || rest[1] == "yes";
        Some(match (question, raw) {
            ("print", _) => world.format_read(mode(rest[0]), raw, n),
            ("mobile", _) => world.library_mobile_text(rest[0], symbols(), raw, n),
            ("own-mobile", _) => world.mobile_text(rest[0], symbols(), n),
            ("original", _) => world.original_text(from(), raw, n),
            ("letters", _) => world.text_with_letters(from(), raw.unwrap_or_default(), n),
            ("own-letters", Some(raw)) => world.dialled_with_letters(from(), raw, n),
            ("own-letters", None) | ("dialled", _) => world.text_from(from(), raw, n),
            ("by-layouts", _) => {
                layouts(&rest[1..]).and_then(|own| world.library_format_by(&own, mode(rest[0]), n))
            }
            ("own-by-layouts", _) => {
                layouts(&rest[1..]).and_then(|own| world.format_by(&own, mode(rest[0]), n))
            }
            ("carrier", _) => world.national_with(n, carrier()),
            ("preferred", _) => world.national_with_preferred(n, carrier()),
            _ => return None,
        })
    }
}

fn of_a_text(question: &str, fields: &[&str]) -> Answer {
    Some(match question {
        "extract" => extract(fields[0]),
        "has-letters" => Ok(yes(has_letters(fields[0]))),
        "keys" => normalize(Form::Keys, fields[0]),
        "digits" => normalize(Form::Digits, fields[0]),
        "diallable" => normalize(Form::Diallable, fields[0]),
        _ => return None,
    })
}

/// All that is read: calling code, digits, extension, how the code was found, carrier.
fn kept(n: &PhoneNumber) -> String {
    let or_none = |it: Option<&str>| it.filter(|it| !it.is_empty()).unwrap_or("-").to_owned();
    let (extension, carrier) = (or_none(n.extension()), or_none(n.carrier()));
    format!("{} {} {extension} {:?} {carrier}", n.code(), n.national(), n.source())
}

/// An answer as a row has it. libphonenumber has no name of its own for digits that are no number.
fn shown(told: Result<String, Error>) -> String {
    match told {
        Ok(text) if text.is_empty() => "empty".to_owned(),
        Ok(text) => text,
        Err(Error::MalformedInteger) => "error NoNumber".to_owned(),
        Err(error) => format!("error {error:?}"),
    }
}

#[test]
fn further_questions_are_answered_as_their_rows_say() {
    let tables = Tables::open();
    let (mut count, mut wrong) = (0, Vec::new());
    let mut left_out: BTreeMap<String, usize> = BTreeMap::new();
    for line in ROWS.lines() {
        let row: Vec<String> = line.split('\t').map(plain).collect();
        let row: Vec<&str> = row.iter().map(String::as_str).collect();
        let ["question", "world/world", question, fields @ .., wanted, ""] = &row[..] else {
            panic!("no row is {line}")
        };
        count += 1;
        let told = tables.answer(question, fields);
        let told = told.unwrap_or_else(|| panic!("no question is {question}"));
        if told == Err(Error::NoRegion) && ["no", "0", "-", "empty"].contains(wanted) {
            *left_out.entry((*question).to_owned()).or_default() += 1;
            continue;
        }
        let told = shown(told);
        if told != *wanted {
            wrong.push(format!("{line}here: {told}"));
        }
    }
    assert!(wrong.is_empty(), "{} of {count} rows differ:\n{}", wrong.len(), wrong.join("\n"));
    let left_out: Vec<_> = left_out.iter().map(|(name, count)| (name.as_str(), *count)).collect();
    assert_eq!(left_out, NO_REGION);
    assert_eq!(count, COUNT);
}
