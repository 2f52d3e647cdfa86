//! The records that libphonenumber's XML has, `PhoneNumberMetadata.xml`, by XML 1.0 as far as that file needs it.
use super::loader::{Descriptor, Format, Metadata};
use crate::compat::error::{LoadError, MetadataError};

/// An element, with the text that stands in it, but for the text of those inside.
#[derive(Debug, Default)]
struct Element<'t> {
    name: &'t str,
    attributes: Vec<(&'t str, String)>,
    inside: Vec<Element<'t>>,
    text: String,
}

/// What is left of a text.
struct Rest<'t> {
    text: &'t str,
}

fn malformed(what: &str) -> LoadError {
    LoadError::Xml(what.to_owned())
}

impl<'t> Rest<'t> {
    /// What stands before a mark, past which it goes.
    fn until(&mut self, mark: &str) -> Result<&'t str, LoadError> {
        let (before, after) = self.text.split_once(mark).ok_or(MetadataError::UnexpectedEof)?;
        self.text = after;
        Ok(before)
    }

    fn takes(&mut self, mark: &str) -> bool {
        let after = self.text.strip_prefix(mark);
        self.text = after.unwrap_or(self.text);
        after.is_some()
    }

    /// A name, which may be empty.
    fn name(&mut self) -> &'t str {
        let is_end = |c: char| c.is_whitespace() || matches!(c, '>' | '/' | '=' | '<' | '"' | '\'');
        let (name, rest) = self.text.split_at(self.text.find(is_end).unwrap_or(self.text.len()));
        self.text = rest;
        name
    }

    /// Goes past a type declaration, whose subset in brackets has declarations of its own.
    fn skip_type(&mut self) -> Result<(), LoadError> {
        let (bracket, end) = (self.text.find('['), self.text.find('>'));
        if bracket.is_some_and(|at| end.is_some_and(|end| at < end)) {
            self.until("]")?;
        }
        self.until(">").map(|_| ())
    }

    /// The attributes of a tag, whose name was read, and whether it closes itself.
    fn attributes(&mut self) -> Result<(Vec<(&'t str, String)>, bool), LoadError> {
        let mut attributes = Vec::new();
        loop {
            self.text = self.text.trim_start();
            if self.takes("/>") {
                return Ok((attributes, true));
            }
            if self.takes(">") {
                return Ok((attributes, false));
            }
            let name = self.name();
            self.text = self.text.trim_start();
            let is_value = !name.is_empty() && self.takes("=");
            self.text = self.text.trim_start();
            let mark = if self.takes("\"") { "\"" } else { "'" };
            if self.text.is_empty() {
                return Err(MetadataError::UnexpectedEof.into());
            }
            if !is_value || mark == "'" && !self.takes("'") {
                return Err(malformed("a tag has what is no attribute"));
            }
            attributes.push((name, plain(self.until(mark)?)?));
        }
    }
}

/// A text whose references are undone.
fn plain(text: &str) -> Result<String, LoadError> {
    let (mut out, mut rest) = (String::new(), text);
    while let Some((before, after)) = rest.split_once('&') {
        let (name, after) = after.split_once(';').ok_or_else(|| malformed("a reference without an end"))?;
        out.push_str(before);
        out.push(match name {
            "amp" => '&',
            "lt" => '<',
            "gt" => '>',
            "quot" => '"',
            "apos" => '\'',
            _ => {
                let digits = name.strip_prefix('#').ok_or_else(|| malformed("an unknown reference"))?;
                let code = digits.strip_prefix('x').map_or(digits.parse(), |hex| u32::from_str_radix(hex, 16))?;
                char::from_u32(code).ok_or_else(|| malformed("a reference to no character"))?
            }
        });
        rest = after;
    }
    Ok(out + rest)
}

/// An element that has all elements of a text that stand in none.
fn read(text: &str) -> Result<Element<'_>, LoadError> {
    let mut rest = Rest { text };
    let mut open = vec![Element::default()];
    while !rest.text.is_empty() {
        let before = rest.text.split('<').next().unwrap_or_default();
        rest.text = &rest.text[before.len()..];
        let last = open.len() - 1;
        open[last].text += &plain(before)?;
        if rest.takes("<!--") {
            rest.until("-->")?;
        } else if rest.takes("<![CDATA[") {
            let text = rest.until("]]>")?;
            open[last].text += text;
        } else if rest.takes("<?") {
            rest.until("?>")?;
        } else if rest.takes("<!") {
            rest.skip_type()?;
        } else if rest.takes("</") {
            let name = rest.until(">")?.trim_end();
            let closed = open.pop().filter(|it| it.name == name && !open.is_empty());
            let closed = closed.ok_or_else(|| MetadataError::MismatchedTag(name.to_owned()))?;
            open[last - 1].inside.push(closed);
        } else if rest.takes("<") {
            let name = rest.name();
            let (attributes, is_closed) = rest.attributes()?;
            let element = Element { name, attributes, ..Element::default() };
            if is_closed { open[last].inside.push(element) } else { open.push(element) }
        }
    }
    let all = open.pop().filter(|_| open.is_empty());
    all.ok_or_else(|| MetadataError::UnexpectedEof.into())
}

fn unhandled_element(phase: &str, name: &str) -> LoadError {
    MetadataError::UnhandledElement { phase: phase.to_owned(), name: name.to_owned() }.into()
}

fn unhandled_attribute(phase: &str, name: &str, value: &str) -> LoadError {
    let (phase, name, value) = (phase.to_owned(), name.to_owned(), value.to_owned());
    MetadataError::UnhandledAttribute { phase, name, value }.into()
}

/// The records of a text.
pub(super) fn records_of(text: &str) -> Result<Vec<Metadata>, LoadError> {
    let all = read(text)?;
    let roots = all.inside.iter().filter(|it| it.name == "phoneNumberMetadata");
    let groups = roots.flat_map(|root| &root.inside).filter(|it| it.name == "territories");
    groups.flat_map(|group| &group.inside).filter(|it| it.name == "territory").map(territory).collect()
}

/// The record of a territory. What its attributes say of formats is said of each that doesn't say otherwise.
fn territory(element: &Element<'_>) -> Result<Metadata, LoadError> {
    let (mut record, mut any) = (Metadata::default(), Format::default());
    for (name, value) in &element.attributes {
        let text = Some(value.clone());
        match *name {
            "id" => record.id = text,
            "countryCode" => record.country_code = Some(value.parse()?),
            "internationalPrefix" => record.international_prefix = text,
            "preferredInternationalPrefix" => record.preferred_international_prefix = text,
            "nationalPrefix" => record.national_prefix = text,
            "preferredExtnPrefix" => record.preferred_extension_prefix = text,
            "nationalPrefixForParsing" => record.national_prefix_for_parsing = text,
            "nationalPrefixTransformRule" => record.national_prefix_transform_rule = text,
            "mainCountryForCode" => record.main_country_for_code = value.parse()?,
            "leadingDigits" => record.leading_digits = text,
            "mobileNumberPortableRegion" => record.mobile_number_portable = value.parse()?,
            _ if format_attribute(&mut any, name, value)? => {}
            _ => return Err(unhandled_attribute("territory", name, value)),
        }
    }
    for it in &element.inside {
        let kind = match it.name {
            "references" | "areaCodeOptional" => continue,
            "availableFormats" => {
                (record.formats, record.international_formats) = formats(it, &any)?;
                continue;
            }
            "generalDesc" => &mut record.general,
            "fixedLine" => &mut record.fixed_line,
            "mobile" => &mut record.mobile,
            "tollFree" => &mut record.toll_free,
            "premiumRate" => &mut record.premium_rate,
            "sharedCost" => &mut record.shared_cost,
            "personalNumber" => &mut record.personal_number,
            "voip" => &mut record.voip,
            "pager" => &mut record.pager,
            "uan" => &mut record.uan,
            "emergency" => &mut record.emergency,
            "voicemail" => &mut record.voicemail,
            "noInternationalDialling" => &mut record.no_international,
            name => return Err(unhandled_element("territory", name)),
        };
        *kind = Some(descriptor(it)?);
    }
    Ok(record)
}

/// Takes an attribute that formats and territories have; whether it is one.
fn format_attribute(format: &mut Format, name: &str, value: &str) -> Result<bool, LoadError> {
    match name {
        "nationalPrefixFormattingRule" => format.national_prefix_formatting_rule = Some(value.to_owned()),
        "nationalPrefixOptionalWhenFormatting" => format.national_prefix_optional_when_formatting = value.parse()?,
        "carrierCodeFormattingRule" => format.domestic_carrier = Some(value.to_owned()),
        _ => return Ok(false),
    }
    Ok(true)
}

/// The record of a kind's numbers.
fn descriptor(element: &Element<'_>) -> Result<Descriptor, LoadError> {
    let mut record = Descriptor::default();
    for it in &element.inside {
        match it.name {
            "nationalNumberPattern" => record.national_number = Some(it.text.clone()),
            "exampleNumber" => record.example = Some(it.text.clone()),
            "possibleLengths" => {
                for (name, value) in &it.attributes {
                    match *name {
                        "national" => record.possible_length = lengths(value)?,
                        "localOnly" => record.possible_local_length = lengths(value)?,
                        _ => return Err(unhandled_attribute("descriptor::possibleLength", name, value)),
                    }
                }
            }
            name => return Err(unhandled_element("descriptor", name)),
        }
    }
    Ok(record)
}

/// The lengths that a text lists, as `6,[8-10]`.
fn lengths(text: &str) -> Result<Vec<u16>, LoadError> {
    let mut all = Vec::new();
    for part in text.split(',').map(str::trim) {
        match part.strip_prefix('[').and_then(|it| it.strip_suffix(']')).and_then(|it| it.split_once('-')) {
            Some((first, last)) => all.extend(first.parse::<u16>()?..=last.parse()?),
            None => all.push(part.parse()?),
        }
    }
    Ok(all)
}

/// The records of national formats, and of those that international text has: with a template of its own, unless that is `NA`.
fn formats(element: &Element<'_>, any: &Format) -> Result<(Vec<Format>, Vec<Format>), LoadError> {
    let (mut national, mut international) = (Vec::new(), Vec::new());
    for it in &element.inside {
        if it.name != "numberFormat" {
            return Err(unhandled_element("formats", it.name));
        }
        let (mut record, mut template) = (any.clone(), None);
        for (name, value) in &it.attributes {
            match *name {
                "pattern" => record.pattern = Some(value.clone()),
                _ if format_attribute(&mut record, name, value)? => {}
                _ => return Err(unhandled_attribute("format", name, value)),
            }
        }
        for it in &it.inside {
            match it.name {
                "leadingDigits" => record.leading_digits.push(it.text.clone()),
                "format" => {
                    record.format = Some(it.text.clone());
                    template = Some(it.text.clone());
                }
                "intlFormat" => template = Some(it.text.clone()).filter(|it| it != "NA"),
                name => return Err(unhandled_element("format", name)),
            }
        }
        international.extend(template.map(|it| Format { format: Some(it), ..record.clone() }));
        national.push(record);
    }
    Ok((national, international))
}
