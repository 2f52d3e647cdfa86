//! Whether a number is possible, and how like two are.
use crate::call::{check, hint_of};
use crate::database::{By, Database};
use crate::error::Error;
use crate::ffi;
use crate::number::PhoneNumber;
use crate::region::Region;

/// What the count of a number's digits says of it.
#[derive(Clone, Copy, Debug, PartialEq, Eq, Hash, PartialOrd, Ord)]
pub enum Possibility {
    /// Such numbers have this many digits.
    Possible,
    /// This many digits suffice where the number is dialled inside its area.
    PossibleLocally,
    /// Each such number has more digits: while one is typed, go on.
    TooShort,
    /// Each such number has fewer digits.
    TooLong,
    /// Some have fewer digits and some more, or no length is listed.
    WrongLength,
    /// No territory has the calling code.
    UnknownCode,
}

/// In the order of their numbers in `phone.h`.
pub(crate) const POSSIBILITIES: [Possibility; 6] = [
    Possibility::Possible,
    Possibility::PossibleLocally,
    Possibility::TooShort,
    Possibility::TooLong,
    Possibility::WrongLength,
    Possibility::UnknownCode,
];

/// How like two numbers are.
#[derive(Clone, Copy, Debug, PartialEq, Eq, Hash, PartialOrd, Ord)]
pub enum Sameness {
    /// One calling code, one national number, and one extension or none.
    Exact,
    /// One calling code and one national number; the extensions differ.
    Number,
    /// One of them has no calling code, and the national numbers are one, leading zeros aside.
    National,
    /// The national number of one is an end of the other's, of seven digits at least, and they haven't two
    /// calling codes that differ.
    End,
    /// None of these.
    Different,
}

const SAMENESSES: [Sameness; 5] =
    [Sameness::Exact, Sameness::Number, Sameness::National, Sameness::End, Sameness::Different];

impl Database {
    /// Whether the count of a number's digits is possible.
    pub fn possibility(&self, number: &PhoneNumber) -> Result<Possibility, Error> {
        self.by(Default::default()).possibility(number)
    }

    /// The same of a text, which may not be whole yet.
    ///
    /// ```
    /// use phonenumber_proved::{Database, Possibility, Region};
    /// let world = Database::world()?;
    /// assert_eq!(world.possibility_of_text(Region::US, "+1 650 253 000")?, Possibility::TooShort);
    /// assert_eq!(world.possibility_of_text(Region::US, "253 0000")?, Possibility::PossibleLocally);
    /// # Ok::<(), phonenumber_proved::Error>(())
    /// ```
    pub fn possibility_of_text(&self, hint: impl Into<Option<Region>>, text: impl AsRef<str>) -> Result<Possibility, Error> {
        self.by(Default::default()).possibility_of_text(hint, text)
    }

    /// How like the numbers of two texts are, each perhaps without its calling code.
    ///
    /// ```
    /// use phonenumber_proved::{Database, Sameness};
    /// let world = Database::world()?;
    /// assert_eq!(world.compare("+64 3 331 6005", "tel:+64-3-331-6005")?, Sameness::Exact);
    /// assert_eq!(world.compare("+64 3 331 6005", "331 6005")?, Sameness::End);
    /// # Ok::<(), phonenumber_proved::Error>(())
    /// ```
    pub fn compare(&self, first: impl AsRef<str>, second: impl AsRef<str>) -> Result<Sameness, Error> {
        self.by(Default::default()).compare(first, second)
    }
}

impl By<'_> {
    /// Whether the count of a number's digits is possible.
    pub fn possibility(&self, number: &PhoneNumber) -> Result<Possibility, Error> {
        let (number, mut told) = (number.plain(), 0);
        // SAFETY: the handle is open, and lent to the call alone.
        check(self.records().with(|handle| unsafe { ffi::phone_possibility(handle, &number, &mut told) }))?;
        POSSIBILITIES.get(told as usize).copied().ok_or(Error::Other(told))
    }

    /// The same of a text, which may not be whole yet.
    pub fn possibility_of_text(&self, hint: impl Into<Option<Region>>, text: impl AsRef<str>) -> Result<Possibility, Error> {
        let (hint, text, mut told) = (hint_of(hint), text.as_ref(), 0);
        // SAFETY: the handle is open, and lent to the call alone; the slices are valid, apart and initialized.
        check(self.records().with(|handle| unsafe {
            ffi::phone_text_possibility(handle, hint.as_ptr(), hint.len(), text.as_ptr(), text.len(), &mut told)
        }))?;
        POSSIBILITIES.get(told as usize).copied().ok_or(Error::Other(told))
    }

    /// How like the numbers of two texts are, each perhaps without its calling code.
    pub fn compare(&self, first: impl AsRef<str>, second: impl AsRef<str>) -> Result<Sameness, Error> {
        let (first, second, mut told) = (first.as_ref(), second.as_ref(), 0);
        // SAFETY: as in `possibility_of_text`.
        check(self.records().with(|handle| unsafe {
            ffi::phone_compare(handle, first.as_ptr(), first.len(), second.as_ptr(), second.len(), &mut told)
        }))?;
        SAMENESSES.get(told as usize).copied().ok_or(Error::Other(told))
    }
}
