//! How a number is written so that it can be dialled, or as it was written, and what it is as a short number where its
//! region isn't told: by libphonenumber's rules.
use crate::call::{check, hint_of, text_of};
use crate::database::{Database, Rules};
use crate::error::Error;
use crate::ffi;
use crate::found::example_of;
use crate::number::{Mode, PhoneNumber};
use crate::records::Records;
use crate::region::Region;
use crate::short::{COSTS, Cost, ShortNumbers, SmsServices};
use std::fmt::{self, Write};

/// A layout of national digits, for [`Layouts`].
#[derive(Clone, Copy, Debug, Default)]
pub struct Layout<'a> {
    /// The pattern that parts all of the digits into groups.
    pub pattern: &'a str,
    /// The template that lays the groups out, with `$1` for the first.
    pub format: &'a str,
    /// The pattern of the digits in front for which it is meant.
    pub leading_digits: Option<&'a str>,
    /// How national text begins: `$NP` stands for the national prefix, `$FG` for the first group.
    pub national_prefix_rule: Option<&'a str>,
}

/// Layouts of a program's own, of which the first counts that suits a number. Threads use them at once, and clones share
/// them, as with a [`Database`].
///
/// ```
/// use phonenumber_proved::{Database, Layout, Layouts, Mode, Region};
/// let rule = Some("($NP$FG)");
/// let own = Layouts::of(&[Layout { pattern: r"(\d)(\d+)", format: "$1 $2", national_prefix_rule: rule, ..Layout::default() }])?;
/// let world = Database::world()?;
/// let number = world.parse(Region::NZ, "03-331 6005")?;
/// assert_eq!(world.format_by(&own, Mode::National, &number)?, "(03) 3316005");
/// assert_eq!(world.format_by(&own, Mode::International, &number)?, "+64 3 3316005");
/// # Ok::<(), phonenumber_proved::Error>(())
/// ```
#[derive(Clone)]
pub struct Layouts {
    records: Records,
}

impl fmt::Debug for Layouts {
    fn fmt(&self, f: &mut fmt::Formatter<'_>) -> fmt::Result {
        f.debug_struct("Layouts").finish_non_exhaustive()
    }
}

impl Layouts {
    /// These layouts; `Error::Database` where a pattern is none.
    pub fn of(layouts: &[Layout<'_>]) -> Result<Layouts, Error> {
        let mut text = String::from(r#"[{"id":"001","country_code":1,"general":{"national_number":"1"},"formats":["#);
        for (place, layout) in layouts.iter().enumerate() {
            text.push_str(if place == 0 { "{" } else { ",{" });
            push_field(&mut text, "pattern", layout.pattern);
            text.push(',');
            push_field(&mut text, "format", layout.format);
            if let Some(pattern) = layout.leading_digits {
                text.push_str(r#","leading_digits":["#);
                push_text(&mut text, pattern);
                text.push(']');
            }
            if let Some(rule) = layout.national_prefix_rule {
                text.push(',');
                push_field(&mut text, "national_prefix_formatting_rule", rule);
            }
            text.push('}');
        }
        text.push_str("]}]");
        Ok(Layouts { records: Records::open(text.as_bytes())? })
    }
}

fn push_field(out: &mut String, name: &str, value: &str) {
    push_text(out, name);
    out.push(':');
    push_text(out, value);
}

/// Writes a text of JSON.
pub(crate) fn push_text(out: &mut String, text: &str) {
    out.push('"');
    for c in text.chars() {
        match c {
            '"' | '\\' => out.extend(['\\', c]),
            // A String takes all that is written to it.
            c if c < ' ' => write!(out, "\\u{:04x}", u32::from(c)).unwrap_or_default(),
            c => out.push(c),
        }
    }
    out.push('"');
}

/// What is known of a number as a short number of any region of its calling code.
#[derive(Clone, Copy, Debug, PartialEq, Eq, Hash)]
#[non_exhaustive]
pub struct FactsAnywhere {
    /// Whether the count of its digits is possible in some region.
    pub is_possible: bool,
    /// Whether it is a short number of some region.
    pub is_valid: bool,
    /// The first that it costs, in the regions that know it, of premium rate, an unknown cost, standard rate, and nothing.
    pub cost: Cost,
    /// The same in all of them, as libphonenumber has it: unknown where one of them doesn't know it.
    pub library_cost: Cost,
    /// Whether only some carriers connect it, in the first region whose short number it is.
    pub is_carrier_specific: bool,
}

impl Database {
    pub(crate) fn dialled(&self, call: impl FnOnce(&mut ffi::Handle) -> u32) -> u32 {
        self.by(Rules::Library).records().with(call)
    }

    /// The text of a number in a mode, where the text that it was parsed from may be known: that stands for a number whose
    /// value is 0. One whose calling code the database lacks is written in E.164, in the other modes as its digits.
    ///
    /// ```
    /// use phonenumber_proved::{Database, Mode, Region};
    /// let world = Database::world()?;
    /// let number = world.parse(Region::IT, "000")?;
    /// assert_eq!(world.format_read(Mode::E164, Some("000"), &number)?, "+39000");
    /// assert_eq!(world.format_read(Mode::National, Some("000"), &number)?, "000");
    /// # Ok::<(), phonenumber_proved::Error>(())
    /// ```
    pub fn format_read(&self, mode: Mode, raw: Option<&str>, number: &PhoneNumber) -> Result<String, Error> {
        let ((number, texts), raw) = (number.to_ffi(), raw.unwrap_or(""));
        text_of(64, |out, len, wrote| {
            let (bytes, bytes_len, at) = (texts.as_ptr(), texts.len(), raw.as_ptr());
            // SAFETY: the handle is open, and lent to the call alone; the slices are valid, apart and initialized.
            self.dialled(|handle| unsafe {
                ffi::phone_format_read(handle, mode as u32, at, raw.len(), &number, bytes, bytes_len, out, len, wrote)
            })
        })
    }

    /// What a mobile phone dials to reach a number, as libphonenumber has it: like [`Database::mobile_text`], but a number that
    /// can't be dialled from abroad only in the main region of its calling code. The text that it was parsed from stands for
    /// one whose code the database lacks, or whose value is 0.
    ///
    /// ```
    /// use phonenumber_proved::{Database, PhoneNumber};
    /// let (world, number) = (Database::world()?, PhoneNumber::from_parts(1, 911, 0)?);
    /// let told = ["US", "CA"].map(|id| world.library_mobile_text(id, true, None, &number).unwrap());
    /// assert_eq!(told, ["911", ""]);
    /// # Ok::<(), phonenumber_proved::Error>(())
    /// ```
    pub fn library_mobile_text(
        &self, id: impl AsRef<str>, with_symbols: bool, raw: Option<&str>, number: &PhoneNumber,
    ) -> Result<String, Error> {
        let ((number, texts), id) = (number.to_ffi(), id.as_ref());
        let (raw, symbols) = (raw.unwrap_or(""), u8::from(with_symbols));
        text_of(64, |out, len, wrote| {
            let (bytes, bytes_len, region, at) = (texts.as_ptr(), texts.len(), id.as_ptr(), raw.as_ptr());
            // SAFETY: as in `format_read`.
            self.dialled(|handle| unsafe {
                ffi::phone_mobile_text(
                    handle, region, id.len(), symbols, at, raw.len(), &number, bytes, bytes_len, out, len, wrote,
                )
            })
        })
    }

    /// How a number is dialled from a region, as libphonenumber writes it; from none as international text.
    ///
    /// ```
    /// use phonenumber_proved::{Database, Region};
    /// let world = Database::world()?;
    /// let number = world.parse(Region::US, "(650) 253-0000")?;
    /// assert_eq!(world.text_from(Region::CA, None, &number)?, "1 (650) 253-0000");
    /// assert_eq!(world.text_from(Region::NZ, None, &number)?, "00 1 650-253-0000");
    /// assert_eq!(world.text_from(None, None, &number)?, "+1 650-253-0000");
    /// # Ok::<(), phonenumber_proved::Error>(())
    /// ```
    pub fn text_from(
        &self, region: impl Into<Option<Region>>, raw: Option<&str>, number: &PhoneNumber,
    ) -> Result<String, Error> {
        let ((number, texts), from, raw) = (number.to_ffi(), hint_of(region), raw.unwrap_or(""));
        text_of(64, |out, len, wrote| {
            let (bytes, bytes_len, at) = (texts.as_ptr(), texts.len(), raw.as_ptr());
            // SAFETY: as in `format_read`.
            self.dialled(|handle| unsafe {
                ffi::phone_text_from(
                    handle, from.as_ptr(), from.len(), at, raw.len(), &number, bytes, bytes_len, out, len, wrote,
                )
            })
        })
    }

    /// A number in the way in which the text was written that it was parsed from, of which no digit is lost and to which
    /// none is added; without that text as national text. The region is where it would be dialled from.
    ///
    /// ```
    /// use phonenumber_proved::{Database, Region};
    /// let (world, text) = (Database::world()?, "03-331-6005");
    /// let number = world.parse(Region::NZ, text)?;
    /// assert_eq!(world.original_text(Region::NZ, Some(text), &number)?, "03 331 6005");
    /// let (text, number) = ("+64 33316005", world.parse(None, "+64 33316005")?);
    /// assert_eq!(world.original_text(None, Some(text), &number)?, "+64 3 331 6005");
    /// # Ok::<(), phonenumber_proved::Error>(())
    /// ```
    pub fn original_text(
        &self, region: impl Into<Option<Region>>, raw: Option<&str>, number: &PhoneNumber,
    ) -> Result<String, Error> {
        let ((number, texts), from, raw) = (number.to_ffi(), hint_of(region), raw.unwrap_or(""));
        text_of(64, |out, len, wrote| {
            let (bytes, bytes_len, at) = (texts.as_ptr(), texts.len(), raw.as_ptr());
            // SAFETY: as in `format_read`.
            self.dialled(|handle| unsafe {
                ffi::phone_original_text(
                    handle, from.as_ptr(), from.len(), at, raw.len(), &number, bytes, bytes_len, out, len, wrote,
                )
            })
        })
    }

    /// The text of a number in a mode by a program's own layouts, as libphonenumber has it: E.164 text is laid out as well.
    pub fn library_format_by(&self, layouts: &Layouts, mode: Mode, number: &PhoneNumber) -> Result<String, Error> {
        let (number, texts) = number.to_ffi();
        text_of(64, |out, len, wrote| {
            let (bytes, bytes_len) = (texts.as_ptr(), texts.len());
            self.dialled(|handle| {
                // SAFETY: as in `format_read`, of two handles that are apart.
                layouts.records.with(|own| unsafe {
                    ffi::phone_format_by(handle, own, mode as u32, &number, bytes, bytes_len, out, len, wrote)
                })
            })
        })
    }

    /// What is known of a number as a short number, where its region isn't told.
    ///
    /// ```
    /// use phonenumber_proved::{Cost, Database, PhoneNumber, Region, SHORT, ShortNumbers};
    /// let (world, shorts) = (Database::world()?, ShortNumbers::from_json(SHORT)?);
    /// let facts = world.short_anywhere(&shorts, &PhoneNumber::from_parts(64, 111, 0)?)?;
    /// assert!(facts.is_valid && facts.cost == Cost::TollFree && !facts.is_carrier_specific);
    /// assert_eq!(shorts.example(Region::FR, None)?.as_deref(), Some("15"));
    /// # Ok::<(), phonenumber_proved::Error>(())
    /// ```
    pub fn short_anywhere(&self, shorts: &ShortNumbers, number: &PhoneNumber) -> Result<FactsAnywhere, Error> {
        let cost = self.known_cost(shorts, number)?;
        let (number, mut facts) = (number.plain(), ffi::FactsAnywhere::default());
        check(self.dialled(|handle| {
            // SAFETY: as in `format_by`.
            shorts.records.with(|own| unsafe { ffi::phone_short_anywhere(handle, own, &number, &mut facts) })
        }))?;
        Ok(FactsAnywhere {
            is_possible: facts.is_possible == 1,
            is_valid: facts.is_valid == 1,
            cost,
            library_cost: COSTS.get(facts.cost as usize).copied().ok_or(Error::Other(facts.cost))?,
            is_carrier_specific: facts.is_carrier_specific == 1,
        })
    }

    /// Whether a number is an SMS service of a region, a short number that messages are sent to.
    ///
    /// ```
    /// use phonenumber_proved::{Database, PhoneNumber, Region, SMS, SmsServices};
    /// let (world, services) = (Database::world()?, SmsServices::from_json(SMS)?);
    /// let told = [22000, 911].map(|digits| {
    ///     world.is_sms_service(&services, Region::US, &PhoneNumber::from_parts(1, digits, 0).unwrap())
    /// });
    /// assert_eq!(told, [Ok(true), Ok(false)]);
    /// # Ok::<(), phonenumber_proved::Error>(())
    /// ```
    pub fn is_sms_service(&self, services: &SmsServices, region: Region, number: &PhoneNumber) -> Result<bool, Error> {
        let (number, mut told) = (number.plain(), 0);
        check(self.dialled(|handle| {
            // SAFETY: as in `format_by`.
            services.records.with(|own| unsafe {
                ffi::phone_is_sms_service(handle, own, region.as_ptr(), region.len(), &number, &mut told)
            })
        }))?;
        Ok(told == 1)
    }

    /// An example of a calling code that serves no region, as 800; none of any other code.
    ///
    /// ```
    /// use phonenumber_proved::{Database, Mode};
    /// let world = Database::world()?;
    /// let number = world.example_of_code(800)?.unwrap();
    /// assert_eq!(world.format(&number).mode(Mode::E164).to_text()?, "+80012345678");
    /// assert_eq!(world.example_of_code(64)?, None);
    /// # Ok::<(), phonenumber_proved::Error>(())
    /// ```
    pub fn example_of_code(&self, code: u16) -> Result<Option<PhoneNumber>, Error> {
        example_of(|number, out, len, wrote| {
            // SAFETY: as in `format_read`.
            self.dialled(|handle| unsafe { ffi::phone_example_of_code(handle, code, number, out, len, wrote) })
        })
    }

    /// A number of a region that isn't valid, for tests; none where there is no such.
    ///
    /// ```
    /// use phonenumber_proved::{Database, Region};
    /// let world = Database::world()?;
    /// let number = world.invalid_example(Region::NZ)?.unwrap();
    /// assert!(!world.is_valid(&number)?);
    /// # Ok::<(), phonenumber_proved::Error>(())
    /// ```
    pub fn invalid_example(&self, region: Region) -> Result<Option<PhoneNumber>, Error> {
        example_of(|number, out, len, wrote| {
            let (id, id_len) = (region.as_ptr(), region.len());
            // SAFETY: as in `format_read`.
            self.dialled(|handle| unsafe { ffi::phone_invalid_example(handle, id, id_len, number, out, len, wrote) })
        })
    }
}

impl ShortNumbers {
    /// The example of a region's short numbers, of those of a cost or of all; none where the metadata give none.
    pub fn example(&self, region: Region, cost: Option<Cost>) -> Result<Option<String>, Error> {
        let cost = cost.map_or(ffi::COST_ANY, |cost| cost as u32);
        let found = text_of(32, |out, len, wrote| {
            // SAFETY: as in `format_read`.
            self.records.with(|handle| unsafe {
                ffi::phone_short_example(handle, region.as_ptr(), region.len(), cost, out, len, wrote)
            })
        });
        match found {
            Err(Error::Other(ffi::NO_EXAMPLE)) => Ok(None),
            told => told.map(Some),
        }
    }
}
