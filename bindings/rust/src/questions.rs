//! libphonenumber's further questions, answered by its rules.
use crate::call::{check, items_of, text_of};
use crate::database::{Database, Rules};
use crate::error::Error;
use crate::ffi;
use crate::number::{PhoneNumber, TYPES, Type};
use crate::possible::{POSSIBILITIES, Possibility};
use crate::region::Region;

/// How like two numbers are by libphonenumber's rules; [`Sameness`](crate::Sameness) has rules of its own.
#[derive(Clone, Copy, Debug, PartialEq, Eq, Hash, PartialOrd, Ord)]
pub enum NumberMatch {
    /// One of two texts is no number.
    NotANumber,
    /// Two numbers.
    NoMatch,
    /// The national number of one, leading zeros aside, is an end of the other's; or they are one, and just one
    /// has an extension.
    ShortNsnMatch,
    /// One national number and one extension, or none; the calling code of one isn't known, or was guessed.
    NsnMatch,
    /// One calling code, one national number, and one extension or none.
    ExactMatch,
}

const MATCHES: [NumberMatch; 5] = [
    NumberMatch::NotANumber,
    NumberMatch::NoMatch,
    NumberMatch::ShortNsnMatch,
    NumberMatch::NsnMatch,
    NumberMatch::ExactMatch,
];

/// What is made of a text by [`normalize`].
#[derive(Clone, Copy, Debug, PartialEq, Eq, Hash, PartialOrd, Ord)]
#[non_exhaustive]
pub enum Form {
    /// Each letter is turned to the digit of its key; all else stays.
    Keys,
    /// The values of its digits of any script, as 0 to 9; nothing else stays.
    Digits,
    /// Its digits from 0 to 9, plus signs, stars and number signs; nothing else stays.
    Diallable,
}

/// What is known of a region.
#[derive(Clone, Copy, Debug, PartialEq, Eq, Hash)]
#[non_exhaustive]
pub struct RegionFacts {
    /// Its calling code, as 64 for New Zealand.
    pub code: u16,
    /// Whether that is 1, of the North American Numbering Plan.
    pub is_nanpa: bool,
    /// Whether a mobile number is kept when the carrier is changed.
    pub is_portable: bool,
}

/// What is known of a number, its digits being those of the national number with its leading zeros.
#[derive(Clone, Copy, Debug, PartialEq, Eq, Hash)]
#[non_exhaustive]
pub struct NumberFacts {
    /// How many of its digits are its area's code; 0 where it has none.
    pub area_length: usize,
    /// How many are its national destination code; 0 where it has none.
    pub destination_length: usize,
    /// Whether it is of a place.
    pub is_geographical: bool,
    /// Whether it can be dialled from abroad, as libphonenumber has it: unless its region says that it is dialled at home
    /// alone. So it is also said of a number that isn't valid, unlike by [`Database::reaches_from_abroad`].
    pub is_dialled_from_abroad: bool,
}

pub(crate) fn matched(status: u32, told: u32) -> Result<NumberMatch, Error> {
    check(status)?;
    MATCHES.get(told as usize).copied().ok_or(Error::Other(told))
}

fn types_of(kinds: Vec<u32>) -> Result<Vec<Type>, Error> {
    kinds.into_iter().map(|kind| TYPES.get(kind as usize).copied().ok_or(Error::Other(kind))).collect()
}

impl Database {
    fn asked(&self, call: impl FnOnce(&mut ffi::Handle) -> u32) -> u32 {
        self.by(Rules::Library).records().with(call)
    }

    /// What is known of a region; `NoTerritory` where the database has none of it.
    ///
    /// ```
    /// use phonenumber_proved::{Database, Region, Type};
    /// let world = Database::world()?;
    /// let facts = world.about_region(Region::GB)?;
    /// assert_eq!((facts.code, facts.is_nanpa, facts.is_portable), (44, false, true));
    /// assert_eq!(world.national_prefix(Region::GB)?.as_deref(), Some("0"));
    /// assert_eq!(world.region_kinds(Region::AC)?, [Type::FixedLine, Type::Mobile, Type::Uan]);
    /// # Ok::<(), phonenumber_proved::Error>(())
    /// ```
    pub fn about_region(&self, region: Region) -> Result<RegionFacts, Error> {
        let mut facts = ffi::RegionFacts::default();
        // SAFETY: the handle is open, and lent to the call alone; the slice is valid and initialized.
        check(self.asked(|handle| unsafe {
            ffi::phone_about_region(handle, region.as_ptr(), region.len(), &mut facts)
        }))?;
        let ffi::RegionFacts { code, is_nanpa, is_portable } = facts;
        Ok(RegionFacts { code, is_nanpa: is_nanpa == 1, is_portable: is_portable == 1 })
    }

    /// The national prefix of a region, dialled there before a national number. A tilde in it means to wait for a tone.
    pub fn national_prefix(&self, region: Region) -> Result<Option<String>, Error> {
        self.prefix(region, 0)
    }

    /// The same prefix without its tildes.
    pub fn national_prefix_digits(&self, region: Region) -> Result<Option<String>, Error> {
        self.prefix(region, 1)
    }

    fn prefix(&self, region: Region, only_digits: u8) -> Result<Option<String>, Error> {
        let prefix = text_of(8, |out, len, wrote| {
            // SAFETY: as in `about_region`.
            self.asked(|handle| unsafe {
                ffi::phone_national_prefix(handle, region.as_ptr(), region.len(), only_digits, out, len, wrote)
            })
        })?;
        Ok(Some(prefix).filter(|prefix| !prefix.is_empty()))
    }

    /// The kinds of number that a region has, in libphonenumber's order.
    pub fn region_kinds(&self, region: Region) -> Result<Vec<Type>, Error> {
        types_of(items_of(16, |out, len, wrote| {
            // SAFETY: as in `about_region`.
            self.asked(|handle| unsafe {
                ffi::phone_region_kinds(handle, region.as_ptr(), region.len(), out, len, wrote)
            })
        })?)
    }

    /// The id of a calling code's main region, as `GB`; `001` for a code that serves no region.
    ///
    /// ```
    /// use phonenumber_proved::{Database, Region, Type};
    /// let world = Database::world()?;
    /// assert_eq!(world.main_region(44)?.as_deref(), Some("GB"));
    /// assert_eq!((world.main_region(800)?.as_deref(), world.main_region(999)?), (Some("001"), None));
    /// assert_eq!(world.code_kinds(800)?, [Type::TollFree]);
    /// # Ok::<(), phonenumber_proved::Error>(())
    /// ```
    pub fn main_region(&self, code: u16) -> Result<Option<String>, Error> {
        let id = text_of(8, |out, len, wrote| {
            // SAFETY: as in `about_region`.
            self.asked(|handle| unsafe { ffi::phone_main_region(handle, code, out, len, wrote) })
        });
        match id {
            Err(Error::UnknownCode) => Ok(None),
            told => told.map(Some),
        }
    }

    /// The kinds of number of a calling code that serves no region; none for other codes.
    pub fn code_kinds(&self, code: u16) -> Result<Vec<Type>, Error> {
        types_of(items_of(16, |out, len, wrote| {
            // SAFETY: as in `about_region`.
            self.asked(|handle| unsafe { ffi::phone_code_kinds(handle, code, out, len, wrote) })
        })?)
    }

    /// What is known of a number.
    ///
    /// ```
    /// use phonenumber_proved::{Database, Region};
    /// let world = Database::world()?;
    /// let number = world.parse(Region::US, "(650) 253-0000")?;
    /// let facts = world.about(&number)?;
    /// assert_eq!((facts.area_length, facts.destination_length), (3, 3));
    /// assert!(facts.is_geographical && facts.is_dialled_from_abroad);
    /// assert!(world.is_valid_for(Region::US, &number)? && !world.is_valid_for(Region::CA, &number)?);
    /// # Ok::<(), phonenumber_proved::Error>(())
    /// ```
    pub fn about(&self, number: &PhoneNumber) -> Result<NumberFacts, Error> {
        let (number, mut facts) = (number.plain(), ffi::NumberFacts::default());
        // SAFETY: the handle is open, and lent to the call alone.
        check(self.asked(|handle| unsafe { ffi::phone_about_number(handle, &number, &mut facts) }))?;
        let ffi::NumberFacts { area_length, destination_length, is_geographical, is_dialled_from_abroad } = facts;
        let (is_geographical, is_dialled_from_abroad) = (is_geographical == 1, is_dialled_from_abroad == 1);
        Ok(NumberFacts { area_length, destination_length, is_geographical, is_dialled_from_abroad })
    }

    /// Whether a number is valid for the territory of its calling code that has this id: a region's, or `001` of a code
    /// that serves none.
    pub fn is_valid_for(&self, id: impl AsRef<str>, number: &PhoneNumber) -> Result<bool, Error> {
        let (id, number, mut told) = (id.as_ref(), number.plain(), 0);
        // SAFETY: as in `about_region`.
        check(self.asked(|handle| unsafe {
            ffi::phone_is_valid_for(handle, id.as_ptr(), id.len(), &number, &mut told)
        }))?;
        Ok(told == 1)
    }

    /// What the count of a number's digits says of it as a number of a kind, as libphonenumber has it: by the lengths of the
    /// main region of its calling code, also where [`Database::possibility_as`] asks another.
    pub fn library_possibility_as(&self, kind: Type, number: &PhoneNumber) -> Result<Possibility, Error> {
        let (number, mut told) = (number.plain(), 0);
        // SAFETY: as in `about`.
        check(self.asked(|handle| unsafe {
            ffi::phone_possibility_as(handle, kind as u32, &number, &mut told)
        }))?;
        POSSIBILITIES.get(told as usize).copied().ok_or(Error::Other(told))
    }

    /// A valid number as it is; another without so many digits at its end that it is valid, where that can be.
    ///
    /// ```
    /// use phonenumber_proved::Database;
    /// let world = Database::world()?;
    /// let number = world.parse(None, "+64 3 331 60059")?;
    /// assert_eq!(world.truncated(&number)?.map(|it| it.to_string()).as_deref(), Some("+6433316005"));
    /// # Ok::<(), phonenumber_proved::Error>(())
    /// ```
    pub fn truncated(&self, number: &PhoneNumber) -> Result<Option<PhoneNumber>, Error> {
        let ((mut left, texts), mut told) = (number.to_ffi(), 0);
        // SAFETY: as in `about`.
        check(self.asked(|handle| unsafe { ffi::phone_truncate(handle, &mut left, &mut told) }))?;
        Ok((told == 1).then(|| PhoneNumber::of(&left, texts.as_bytes())))
    }

    /// How like a number and a text are, as libphonenumber has it: like [`Database::match_text`], but any digits may be an end
    /// of others.
    ///
    /// ```
    /// use phonenumber_proved::{Database, NumberMatch};
    /// let world = Database::world()?;
    /// let number = world.parse(None, "+64 3 331 6005")?;
    /// assert_eq!(world.library_match_text(&number, "0064 3 331 6005")?, NumberMatch::NsnMatch);
    /// assert_eq!(world.library_match_texts("+64 3 331 6005", "31 6005")?, NumberMatch::ShortNsnMatch);
    /// # Ok::<(), phonenumber_proved::Error>(())
    /// ```
    pub fn library_match_text(&self, number: &PhoneNumber, text: impl AsRef<str>) -> Result<NumberMatch, Error> {
        let ((number, texts), text, mut told) = (number.to_ffi(), text.as_ref(), 0);
        // SAFETY: the handle is open, and lent to the call alone; the slices are valid, apart and initialized.
        let status = self.asked(|handle| unsafe {
            let (bytes, len) = (texts.as_ptr(), texts.len());
            ffi::phone_match_text(handle, &number, bytes, len, text.as_ptr(), text.len(), &mut told)
        });
        matched(status, told)
    }

    /// How like two texts are, as libphonenumber has it.
    pub fn library_match_texts(&self, first: impl AsRef<str>, second: impl AsRef<str>) -> Result<NumberMatch, Error> {
        let (first, second, mut told) = (first.as_ref(), second.as_ref(), 0);
        // SAFETY: as in `match_text`.
        let status = self.asked(|handle| unsafe {
            ffi::phone_match_texts(handle, first.as_ptr(), first.len(), second.as_ptr(), second.len(), &mut told)
        });
        matched(status, told)
    }

    /// The national text of a number as it is dialled with the selection code of a carrier; its digits where the
    /// database lacks its calling code.
    ///
    /// ```
    /// use phonenumber_proved::{Database, Region};
    /// let world = Database::world()?;
    /// let number = world.parse(Region::BR, "0 31 21 2128-6979")?;
    /// assert_eq!(world.national_with(&number, "15")?, "0 15 (21) 2128-6979");
    /// assert_eq!(world.national_with_preferred(&number, "15")?, "0 31 (21) 2128-6979");
    /// # Ok::<(), phonenumber_proved::Error>(())
    /// ```
    pub fn national_with(&self, number: &PhoneNumber, carrier: &str) -> Result<String, Error> {
        self.with_carrier(number, carrier, 0)
    }

    /// The same with the number's own carrier, if it has one that isn't empty, and else with this one.
    pub fn national_with_preferred(&self, number: &PhoneNumber, carrier: &str) -> Result<String, Error> {
        self.with_carrier(number, carrier, 1)
    }

    fn with_carrier(&self, number: &PhoneNumber, carrier: &str, prefers_own: u8) -> Result<String, Error> {
        let (number, texts) = number.to_ffi();
        text_of(64, |out, len, wrote| {
            let (bytes, bytes_len, at) = (texts.as_ptr(), texts.len(), carrier.as_ptr());
            // SAFETY: as in `match_text`.
            self.asked(|handle| unsafe {
                ffi::phone_national_with(
                    handle, &number, bytes, bytes_len, at, carrier.len(), prefers_own, out, len, wrote,
                )
            })
        })
    }
}

/// How like two numbers are, as libphonenumber has it: like [`match_numbers`](crate::match_numbers), but any digits may be an end
/// of others.
pub fn library_match_numbers(first: &PhoneNumber, second: &PhoneNumber) -> Result<NumberMatch, Error> {
    let ((one, texts), (two, others), mut told) = (first.to_ffi(), second.to_ffi(), 0);
    // SAFETY: the slices are valid, apart and initialized.
    let status = unsafe {
        let (bytes, len) = (texts.as_ptr(), texts.len());
        ffi::phone_match_numbers(&one, bytes, len, &two, others.as_ptr(), others.len(), &mut told)
    };
    matched(status, told)
}

/// What stands before the area code of a mobile number of a calling code: `9` for 54, nothing for others.
pub fn mobile_token(code: u16) -> Result<String, Error> {
    // SAFETY: the buffer is valid for its length, and initialized.
    text_of(8, |out, len, wrote| unsafe { ffi::phone_mobile_token(code, out, len, wrote) })
}

/// Whether numbers of a kind are of a place under a calling code.
pub fn is_geographical(kind: Type, code: u16) -> Result<bool, Error> {
    let mut told = 0;
    // SAFETY: the call writes what it is given alone.
    check(unsafe { ffi::phone_is_geographical(kind as u32, code, &mut told) })?;
    Ok(told == 1)
}

/// A text in a form.
///
/// ```
/// use phonenumber_proved::{Form, has_letters, is_geographical, mobile_token, normalize, Type};
/// assert_eq!(normalize(Form::Keys, "1-800-FLOWERS")?, "1-800-3569377");
/// assert_eq!(normalize(Form::Digits, "+\u{661}2 x3")?, "123");
/// assert_eq!(normalize(Form::Diallable, "*21# (x)")?, "*21#");
/// assert!(has_letters("1-800-FLOWERS") && !has_letters("03-331 6005"));
/// assert!(mobile_token(54)? == "9" && is_geographical(Type::Mobile, 54)?);
/// # Ok::<(), phonenumber_proved::Error>(())
/// ```
pub fn normalize(form: Form, text: impl AsRef<str>) -> Result<String, Error> {
    let text = text.as_ref();
    text_of(text.len() + 1, |out, len, wrote| {
        // SAFETY: the slices are valid, apart and initialized.
        unsafe { ffi::phone_normalize(form as u32, text.as_ptr(), text.len(), out, len, wrote) }
    })
}

/// Whether a text is a number that is written with letters, three at least.
pub fn has_letters(text: impl AsRef<str>) -> bool {
    let (text, mut told) = (text.as_ref(), 0);
    // SAFETY: the slice is valid for its length.
    unsafe { ffi::phone_has_letters(text.as_ptr(), text.len(), &mut told) == ffi::OK && told == 1 }
}
