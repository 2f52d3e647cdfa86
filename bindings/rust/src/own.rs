//! Our own answers where libphonenumber's mislead, numbers with the letters in which they were written, an example of a kind,
//! and the part of a text in which a number may stand.
use crate::call::{check, hint_of, text_of};
use crate::database::Database;
use crate::dialling::Layouts;
use crate::error::Error;
use crate::ffi;
use crate::found::example_of;
use crate::number::{Mode, PhoneNumber, Type};
use crate::possible::{POSSIBILITIES, Possibility};
use crate::questions::{NumberMatch, matched};
use crate::region::Region;
use crate::short::{COSTS, Cost, ShortNumbers};

/// A call that writes how a number is dialled with its letters.
type Lettered = unsafe extern "C" fn(
    *mut ffi::Handle, *const u8, usize, *const u8, usize, *const ffi::Number, *const u8, usize, *mut u8, usize, *mut usize,
) -> u32;

impl Database {
    /// How a number is dialled from a region with the letters of the text that it was parsed from: the end of that text whose
    /// letters and digits are the number's, so that what is dialled reaches it. Without three letters, or such an end, it is
    /// dialled as [`Database::text_from`] has it.
    ///
    /// ```
    /// use phonenumber_proved::{Database, Region};
    /// let (world, text) = (Database::world()?, "0800 FLOWERS");
    /// let number = world.parse(Region::NZ, text)?;
    /// assert_eq!(world.dialled_with_letters(Region::NZ, text, &number)?, "0800 FLOWERS");
    /// assert_eq!(world.dialled_with_letters(Region::AT, text, &number)?, "00 64 800 FLOWERS");
    /// # Ok::<(), phonenumber_proved::Error>(())
    /// ```
    pub fn dialled_with_letters(
        &self, region: impl Into<Option<Region>>, raw: &str, number: &PhoneNumber,
    ) -> Result<String, Error> {
        self.lettered(ffi::phone_dialled_with_letters, region.into(), raw, number)
    }

    /// The same as libphonenumber has it, with what the text has from where the number's first three digits stand. That may
    /// lose the national prefix, or write it twice.
    ///
    /// ```
    /// use phonenumber_proved::{Database, Region};
    /// let (world, text) = (Database::world()?, "03 331 6005");
    /// let number = world.parse(Region::NZ, text)?;
    /// assert_eq!(world.text_with_letters(Region::NZ, text, &number)?, "003 331 6005");
    /// assert_eq!(world.dialled_with_letters(Region::NZ, text, &number)?, "03 331 6005");
    /// # Ok::<(), phonenumber_proved::Error>(())
    /// ```
    pub fn text_with_letters(
        &self, region: impl Into<Option<Region>>, raw: &str, number: &PhoneNumber,
    ) -> Result<String, Error> {
        self.lettered(ffi::phone_text_with_letters, region.into(), raw, number)
    }

    fn lettered(
        &self, call: Lettered, region: Option<Region>, raw: &str, number: &PhoneNumber,
    ) -> Result<String, Error> {
        let ((number, texts), from) = (number.to_ffi(), hint_of(region));
        text_of(64, |out, len, wrote| {
            let (bytes, bytes_len, at) = (texts.as_ptr(), texts.len(), raw.as_ptr());
            // SAFETY: the handle is open, and lent to the call alone; the slices are valid, apart and initialized.
            self.dialled(|handle| unsafe {
                call(handle, from.as_ptr(), from.len(), at, raw.len(), &number, bytes, bytes_len, out, len, wrote)
            })
        })
    }

    /// What a mobile phone dials to reach a number where a region's id is this, or `001` for the whole world; empty where it
    /// can't be dialled there. With symbols the text is laid out. Each region of the number's calling code is at home for it,
    /// where [`Database::library_mobile_text`] takes the main region alone.
    ///
    /// ```
    /// use phonenumber_proved::{Database, PhoneNumber, Region};
    /// let world = Database::world()?;
    /// let number = world.parse(Region::NZ, "03-331 6005")?;
    /// assert_eq!(world.mobile_text(Region::NZ, true, &number)?, "03 331 6005");
    /// assert_eq!(world.mobile_text(Region::US, false, &number)?, "+6433316005");
    /// assert_eq!(world.mobile_text(Region::CA, true, &PhoneNumber::from_parts(1, 911, 0)?)?, "911");
    /// # Ok::<(), phonenumber_proved::Error>(())
    /// ```
    pub fn mobile_text(
        &self, id: impl AsRef<str>, with_symbols: bool, number: &PhoneNumber,
    ) -> Result<String, Error> {
        let ((number, texts), id, symbols) = (number.to_ffi(), id.as_ref(), u8::from(with_symbols));
        text_of(64, |out, len, wrote| {
            let (bytes, bytes_len, region) = (texts.as_ptr(), texts.len(), id.as_ptr());
            // SAFETY: as in `lettered`.
            self.dialled(|handle| unsafe {
                ffi::phone_own_mobile_text(
                    handle, region, id.len(), symbols, &number, bytes, bytes_len, out, len, wrote,
                )
            })
        })
    }

    /// The text of a number in a mode by a program's own layouts. E.164 text isn't laid out, as
    /// [`Database::library_format_by`] does it.
    pub fn format_by(&self, layouts: &Layouts, mode: Mode, number: &PhoneNumber) -> Result<String, Error> {
        match mode {
            Mode::E164 => self.format_read(mode, None, number),
            _ => self.library_format_by(layouts, mode, number),
        }
    }

    /// Whether a number can be dialled from abroad: a valid one, unless its region says that it is dialled at home alone.
    ///
    /// ```
    /// use phonenumber_proved::Database;
    /// let world = Database::world()?;
    /// assert!(world.reaches_from_abroad(&world.parse(None, "+64 3 331 6005")?)?);
    /// assert!(!world.reaches_from_abroad(&world.parse(None, "+376 1800 1234")?)?);
    /// # Ok::<(), phonenumber_proved::Error>(())
    /// ```
    pub fn reaches_from_abroad(&self, number: &PhoneNumber) -> Result<bool, Error> {
        let (number, mut told) = (number.plain(), 0);
        // SAFETY: the handle is open, and lent to the call alone.
        check(self.dialled(|handle| unsafe { ffi::phone_reaches_from_abroad(handle, &number, &mut told) }))?;
        Ok(told == 1)
    }

    /// What the count of a number's digits says of it as a number of a kind; `Unknown` is any. A valid number is asked by the
    /// lengths of its own region, where [`Database::library_possibility_as`] takes those of the main one.
    ///
    /// ```
    /// use phonenumber_proved::{Database, Possibility, Type};
    /// let world = Database::world()?;
    /// let number = world.parse(None, "+64 800 123 456")?;
    /// assert_eq!(world.possibility_as(Type::TollFree, &number)?, Possibility::Possible);
    /// assert_eq!(world.possibility_as(Type::FixedLine, &number)?, Possibility::TooLong);
    /// let number = world.parse(None, "+1 268 406 1234")?;
    /// assert_eq!(world.possibility_as(Type::Pager, &number)?, Possibility::Possible);
    /// assert_eq!(world.library_possibility_as(Type::Pager, &number)?, Possibility::WrongLength);
    /// # Ok::<(), phonenumber_proved::Error>(())
    /// ```
    pub fn possibility_as(&self, kind: Type, number: &PhoneNumber) -> Result<Possibility, Error> {
        let (number, mut told) = (number.plain(), 0);
        // SAFETY: as in `reaches_from_abroad`.
        check(self.dialled(|handle| unsafe {
            ffi::phone_own_possibility(handle, kind as u32, &number, &mut told)
        }))?;
        POSSIBILITIES.get(told as usize).copied().ok_or(Error::Other(told))
    }

    /// What a number costs as a short number whose region isn't told: in the regions of its calling code that know it.
    pub(crate) fn known_cost(&self, shorts: &ShortNumbers, number: &PhoneNumber) -> Result<Cost, Error> {
        let (number, mut told) = (number.plain(), 0);
        check(self.dialled(|handle| {
            // SAFETY: the handles are open, apart, and lent to the call alone.
            shorts.records.with(|own| unsafe { ffi::phone_known_cost(handle, own, &number, &mut told) })
        }))?;
        COSTS.get(told as usize).copied().ok_or(Error::Other(told))
    }

    /// How like a number and a text are; a text without a calling code is parsed in the main region of the number's. An end
    /// of a number has seven digits at least, and a text with an international prefix may match exactly, unlike
    /// [`Database::library_match_text`] has it.
    ///
    /// ```
    /// use phonenumber_proved::{Database, NumberMatch};
    /// let world = Database::world()?;
    /// let number = world.parse(None, "+64 3 331 6005")?;
    /// assert_eq!(world.match_text(&number, "03 331 6005")?, NumberMatch::NsnMatch);
    /// assert_eq!(world.match_text(&number, "0064 3 331 6005")?, NumberMatch::ExactMatch);
    /// assert_eq!(world.match_texts("+64 3 331 6005", "tel:+64-3-331-6005")?, NumberMatch::ExactMatch);
    /// # Ok::<(), phonenumber_proved::Error>(())
    /// ```
    pub fn match_text(&self, number: &PhoneNumber, text: impl AsRef<str>) -> Result<NumberMatch, Error> {
        let ((number, texts), text, mut told) = (number.to_ffi(), text.as_ref(), 0);
        // SAFETY: as in `lettered`.
        let status = self.dialled(|handle| unsafe {
            let (bytes, len) = (texts.as_ptr(), texts.len());
            ffi::phone_own_match_text(handle, &number, bytes, len, text.as_ptr(), text.len(), &mut told)
        });
        matched(status, told)
    }

    /// How like two texts are, each perhaps without its calling code.
    pub fn match_texts(&self, first: impl AsRef<str>, second: impl AsRef<str>) -> Result<NumberMatch, Error> {
        let (first, second, mut told) = (first.as_ref(), second.as_ref(), 0);
        // SAFETY: as in `lettered`.
        let status = self.dialled(|handle| unsafe {
            let (one, two) = (first.as_ptr(), second.as_ptr());
            ffi::phone_own_match_texts(handle, one, first.len(), two, second.len(), &mut told)
        });
        matched(status, told)
    }

    /// An example of a number of a kind, of whatever region: of the lowest calling code that has one.
    ///
    /// ```
    /// use phonenumber_proved::{Database, Type};
    /// let world = Database::world()?;
    /// assert_eq!(world.example_of_kind(Type::Pager)?.unwrap().to_string(), "+12684061234");
    /// assert_eq!(world.example_of_kind(Type::Emergency)?, None);
    /// # Ok::<(), phonenumber_proved::Error>(())
    /// ```
    pub fn example_of_kind(&self, kind: Type) -> Result<Option<PhoneNumber>, Error> {
        example_of(|number, out, len, wrote| {
            // SAFETY: as in `lettered`.
            self.dialled(|handle| unsafe { ffi::phone_example_of_kind(handle, kind as u32, number, out, len, wrote) })
        })
    }
}

/// How like two numbers are. One of the calling code 0 is one whose code isn't known. An end of a number has seven digits at
/// least, which [`library_match_numbers`](crate::library_match_numbers) doesn't ask.
///
/// ```
/// use phonenumber_proved::{NumberMatch, PhoneNumber, library_match_numbers, match_numbers};
/// let number = PhoneNumber::from_parts(64, 33316005, 0)?;
/// let [other, end] = [3316005, 316005].map(|value| PhoneNumber::from_parts(0, value, 0).unwrap());
/// assert_eq!(match_numbers(&number, &other)?, NumberMatch::ShortNsnMatch);
/// assert_eq!(match_numbers(&number, &end)?, NumberMatch::NoMatch);
/// assert_eq!(library_match_numbers(&number, &end)?, NumberMatch::ShortNsnMatch);
/// # Ok::<(), phonenumber_proved::Error>(())
/// ```
pub fn match_numbers(first: &PhoneNumber, second: &PhoneNumber) -> Result<NumberMatch, Error> {
    let ((one, texts), (two, others), mut told) = (first.to_ffi(), second.to_ffi(), 0);
    // SAFETY: the slices are valid, apart and initialized.
    let status = unsafe {
        let (bytes, len) = (texts.as_ptr(), texts.len());
        ffi::phone_own_match_numbers(&one, bytes, len, &two, others.as_ptr(), others.len(), &mut told)
    };
    matched(status, told)
}

/// The part of a text in which a number may stand: from its first digit or plus sign on, up to a second number, without what
/// can't end a number. Empty where there is none.
///
/// ```
/// assert_eq!(phonenumber_proved::extract("Ring 03-331 6005!")?, "03-331 6005");
/// # Ok::<(), phonenumber_proved::Error>(())
/// ```
pub fn extract(text: impl AsRef<str>) -> Result<String, Error> {
    let text = text.as_ref();
    text_of(text.len(), |out, len, wrote| {
        // SAFETY: the slices are valid, apart and initialized.
        unsafe { ffi::phone_extract(text.as_ptr(), text.len(), out, len, wrote) }
    })
}
