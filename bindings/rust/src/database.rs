//! A database, and whose rules it is asked by.
use crate::call::{bytes_of, check, hint_of, text_of};
use crate::error::Error;
use crate::ffi;
use crate::number::{Mode, PhoneNumber, TYPES, Type};
use crate::records::Records;
use crate::region::Region;
use crate::typing::Typing;
use std::fmt;
use std::path::Path;
use std::sync::{Mutex, OnceLock, PoisonError};

/// By whose rules a text is parsed and a number described.
#[derive(Clone, Copy, Debug, Default, PartialEq, Eq, Hash, PartialOrd, Ord)]
#[non_exhaustive]
pub enum Rules {
    /// By those of libphonenumber.
    #[default]
    Library,
    /// By those of the crate `phonenumber` 0.3.10.
    Crate,
}

/// A database: the metadata of numbering plans. Any number of threads may use it at once: no call waits for
/// another. A clone shares them; they are freed with the last of the clones.
///
/// `hint` is the default region: the one in which a text was written, `Region::NZ` or `None`. Calls without rules follow
/// libphonenumber's.
///
/// ```
/// use phonenumber_proved::{Database, Prefixes, Region, ShortNumbers, Typing};
/// fn any_thread<T: Send + Sync>() {}
/// any_thread::<(Database, Prefixes, ShortNumbers, Typing<'_>)>();
/// let (world, text) = (Database::world()?, "03-331 6005");
/// let other = world.clone();
/// let read = std::thread::spawn(move || other.parse(Region::NZ, text));
/// assert_eq!(world.parse(Region::NZ, text)?, read.join().unwrap()?);
/// # Ok::<(), phonenumber_proved::Error>(())
/// ```
#[derive(Clone)]
pub struct Database {
    /// The same metadata, by the rules of each number.
    by_rules: [Records; 2],
}

impl fmt::Debug for Database {
    fn fmt(&self, f: &mut fmt::Formatter<'_>) -> fmt::Result {
        f.debug_struct("Database").finish_non_exhaustive()
    }
}

/// The library's own metadata, which the first call opens, for all threads.
pub(crate) fn world() -> Result<&'static Database, Error> {
    static WORLD: OnceLock<Database> = OnceLock::new();
    static OPENING: Mutex<()> = Mutex::new(());
    if let Some(world) = WORLD.get() {
        return Ok(world);
    }
    let _alone = OPENING.lock().unwrap_or_else(PoisonError::into_inner);
    if let Some(world) = WORLD.get() {
        return Ok(world);
    }
    let world = Database::world()?;
    Ok(WORLD.get_or_init(|| world))
}

impl Database {
    /// The library's own metadata, of all regions.
    ///
    /// ```
    /// use phonenumber_proved::{Database, Region};
    /// let world = Database::world()?;
    /// assert!(world.is_valid(&world.parse(Region::NZ, "03-331 6005")?)?);
    /// # Ok::<(), phonenumber_proved::Error>(())
    /// ```
    pub fn world() -> Result<Database, Error> {
        Database::of(Records::world()?)
    }

    /// The newest metadata that are here, and their version: those of the file `world.compact` in a folder, where the file
    /// `VERSION` beside it names a later version than the library's own have, else the library's. Where no folder is given, it is
    /// the one that the environment variable `PHONE_TABLES` names, else `../share/phonenumber-proved` beside this program's folder.
    ///
    /// ```
    /// use phonenumber_proved::{Database, Region};
    /// let (world, version) = Database::newest(None)?;
    /// assert!(version.starts_with("libphonenumber "));
    /// assert!(world.is_valid(&world.parse(Region::NZ, "03-331 6005")?)?);
    /// # Ok::<(), phonenumber_proved::Error>(())
    /// ```
    pub fn newest(folder: Option<&Path>) -> Result<(Database, String), Error> {
        let (records, version) = Records::newest(folder.map_or(&[], |it| it.as_os_str().as_encoded_bytes()))?;
        Ok((Database::of(records)?, version))
    }

    /// The database that a JSON text is, or the compact form of its records (`world.compact` is one).
    ///
    /// ```
    /// use phonenumber_proved::{Database, Error};
    /// assert_eq!(Database::from_json("[").unwrap_err(), Error::Database(10));
    /// assert_eq!(Database::from_json(b"\xff").unwrap_err(), Error::NotUtf8);
    /// ```
    pub fn from_json(text: impl AsRef<[u8]>) -> Result<Database, Error> {
        Database::of(Records::open(text.as_ref())?)
    }

    fn of(records: Records) -> Result<Database, Error> {
        let by_crate = records.asked_by(Rules::Crate)?;
        Ok(Database { by_rules: [records, by_crate] })
    }

    /// The database that a file is.
    ///
    /// ```
    /// use phonenumber_proved::{Database, Error, WORLD_PATH};
    /// assert!(Database::load(WORLD_PATH).is_ok());
    /// assert_eq!(Database::load("no such file").unwrap_err(), Error::Io(std::io::ErrorKind::NotFound));
    /// ```
    pub fn load(path: impl AsRef<Path>) -> Result<Database, Error> {
        Database::from_json(std::fs::read(path)?)
    }

    /// The database, asked by these rules.
    pub fn by(&self, rules: Rules) -> By<'_> {
        By { database: self, rules }
    }

    /// The number that a text is.
    ///
    /// ```
    /// use phonenumber_proved::{Database, Error};
    /// let world = Database::world()?;
    /// assert_eq!(world.parse(None, "call me").unwrap_err(), Error::NoNumber);
    /// # Ok::<(), Error>(())
    /// ```
    pub fn parse(&self, hint: impl Into<Option<Region>>, text: impl AsRef<str>) -> Result<PhoneNumber, Error> {
        self.by(Rules::Library).parse(hint, text)
    }

    /// The report line of a line, without a line feed.
    pub fn report(&self, hint: impl Into<Option<Region>>, line: impl AsRef<[u8]>) -> Result<String, Error> {
        self.by(Rules::Library).report(hint, line)
    }

    /// The kind of a number.
    pub fn number_type(&self, number: &PhoneNumber) -> Result<Type, Error> {
        self.by(Rules::Library).number_type(number)
    }

    /// A number's region.
    pub fn region(&self, number: &PhoneNumber) -> Result<Option<Region>, Error> {
        self.by(Rules::Library).region(number)
    }

    /// Whether such numbers are given out.
    pub fn is_valid(&self, number: &PhoneNumber) -> Result<bool, Error> {
        self.by(Rules::Library).is_valid(number)
    }

    /// The formatter of a number, by E.164 until `mode` sets another.
    pub fn format<'a>(&'a self, number: &'a PhoneNumber) -> Formatter<'a> {
        self.by(Rules::Library).format(number)
    }

    /// What is shown of a number while it is typed, once these keys are: digits of any script, and a plus
    /// sign before all of them. All else in the text is dropped. `hint` is the default region, in which
    /// digits without a plus sign are dialled.
    ///
    /// ```
    /// use phonenumber_proved::{Database, Region};
    /// let world = Database::world()?;
    /// assert_eq!(world.typed(Region::NZ, "0333160")?, "03 331 60");
    /// assert_eq!(world.typed(None, "+643331")?, "+64 3 331");
    /// # Ok::<(), phonenumber_proved::Error>(())
    /// ```
    pub fn typed(&self, hint: impl Into<Option<Region>>, keys: impl AsRef<str>) -> Result<String, Error> {
        let (hint, keys) = (hint_of(hint), keys.as_ref());
        text_of(64, |out, len, wrote| {
            // SAFETY: as in `By::parse`.
            self.by(Rules::Library).records().with(|handle| unsafe {
                ffi::phone_typing_shown(handle, hint.as_ptr(), hint.len(), keys.as_ptr(), keys.len(), out, len, wrote)
            })
        })
    }

    /// After how many characters of what `typed` shows of these keys the n-th key stands, counted from 1:
    /// 0 for no key, all characters from the last key on.
    pub fn caret(&self, hint: impl Into<Option<Region>>, keys: impl AsRef<str>, n: usize) -> Result<usize, Error> {
        let (hint, keys, mut told) = (hint_of(hint), keys.as_ref(), 0);
        // SAFETY: as in `By::parse`.
        check(self.by(Rules::Library).records().with(|handle| unsafe {
            ffi::phone_typing_caret(handle, hint.as_ptr(), hint.len(), keys.as_ptr(), keys.len(), n, &mut told)
        }))?;
        Ok(told)
    }

    /// What libphonenumber's formatter shows of a number while it is typed, once the characters of this text
    /// are: its marks come and go as digits are typed, and after a character that is neither a digit nor a
    /// plus sign before all else the text is shown as it was typed. Time grows with the square of its length.
    ///
    /// ```
    /// use phonenumber_proved::{Database, Region};
    /// let world = Database::world()?;
    /// assert_eq!(world.library_typed(Region::US, "16502")?, "1 (650) 2");
    /// assert_eq!(world.library_caret(Region::US, "16502", 5)?, 9);
    /// # Ok::<(), phonenumber_proved::Error>(())
    /// ```
    pub fn library_typed(&self, hint: impl Into<Option<Region>>, typed: impl AsRef<str>) -> Result<String, Error> {
        let (hint, typed) = (hint_of(hint), typed.as_ref());
        text_of(64, |out, len, wrote| {
            // SAFETY: as in `By::parse`.
            self.by(Rules::Library).records().with(|handle| unsafe {
                ffi::phone_keyed_shown(handle, hint.as_ptr(), hint.len(), typed.as_ptr(), typed.len(), out, len, wrote)
            })
        })
    }

    /// After how many characters of what `library_typed` shows of this text its n-th character stands,
    /// counted from 1; 0 for none.
    pub fn library_caret(
        &self, hint: impl Into<Option<Region>>, typed: impl AsRef<str>, n: usize,
    ) -> Result<usize, Error> {
        let (hint, typed, mut told) = (hint_of(hint), typed.as_ref(), 0);
        // SAFETY: as in `By::parse`.
        check(self.by(Rules::Library).records().with(|handle| unsafe {
            ffi::phone_keyed_caret(handle, hint.as_ptr(), hint.len(), typed.as_ptr(), typed.len(), n, &mut told)
        }))?;
        Ok(told)
    }

    /// A field in which nothing is typed yet.
    pub fn typing(&self, hint: impl Into<Option<Region>>) -> Result<Typing<'_>, Error> {
        Typing::new(self, hint)
    }
}

/// A database that is asked by rules of one's choice: [`Database::by`] gives it.
#[derive(Clone, Copy, Debug)]
pub struct By<'d> {
    database: &'d Database,
    rules: Rules,
}

impl<'d> By<'d> {
    pub(crate) fn records(&self) -> &'d Records {
        &self.database.by_rules[self.rules as usize]
    }

    /// The rules.
    pub fn rules(&self) -> Rules {
        self.rules
    }

    /// The number that a text is. `hint` is the default region: the one in which it was written.
    pub fn parse(&self, hint: impl Into<Option<Region>>, text: impl AsRef<str>) -> Result<PhoneNumber, Error> {
        let (hint, text) = (hint_of(hint), text.as_ref());
        let mut number = ffi::Number::default();
        let texts = bytes_of(64, |out, len, wrote| {
            let (at, hint_len) = (text.as_ptr(), hint.len());
            // SAFETY: the handle is open, and lent to the call alone; the slices are valid, apart and initialized.
            self.records().with(|handle| unsafe {
                ffi::phone_parse(handle, hint.as_ptr(), hint_len, at, text.len(), &mut number, out, len, wrote)
            })
        })?;
        Ok(PhoneNumber::of(&number, &texts))
    }

    /// The report line of a line, without a line feed.
    pub fn report(&self, hint: impl Into<Option<Region>>, line: impl AsRef<[u8]>) -> Result<String, Error> {
        let (hint, line) = (hint_of(hint), line.as_ref());
        text_of(512, |out, len, wrote| {
            // SAFETY: as in `parse`.
            self.records().with(|handle| unsafe {
                ffi::phone_report(handle, hint.as_ptr(), hint.len(), line.as_ptr(), line.len(), out, len, wrote)
            })
        })
    }

    /// The kind of a number.
    pub fn number_type(&self, number: &PhoneNumber) -> Result<Type, Error> {
        let (number, mut told) = (number.plain(), 0);
        // SAFETY: the handle is open, and lent to the call alone.
        check(self.records().with(|handle| unsafe { ffi::phone_kind(handle, &number, &mut told) }))?;
        TYPES.get(told as usize).copied().ok_or(Error::Other(told))
    }

    /// A number's region.
    pub fn region(&self, number: &PhoneNumber) -> Result<Option<Region>, Error> {
        let number = number.plain();
        let id = text_of(8, |out, len, wrote| {
            // SAFETY: as in `parse`.
            self.records().with(|handle| unsafe { ffi::phone_region(handle, &number, out, len, wrote) })
        })?;
        Ok(Region::of(&id))
    }

    /// Whether such numbers are given out.
    pub fn is_valid(&self, number: &PhoneNumber) -> Result<bool, Error> {
        let (number, mut told) = (number.plain(), 0);
        // SAFETY: as in `number_type`.
        check(self.records().with(|handle| unsafe { ffi::phone_is_valid(handle, &number, &mut told) }))?;
        Ok(told == 1)
    }

    /// The formatter of a number, by E.164 until `mode` sets another.
    pub fn format<'a>(&self, number: &'a PhoneNumber) -> Formatter<'a>
    where
        'd: 'a,
    {
        Formatter { by: *self, number, mode: Mode::E164 }
    }
}

/// The formatter of a number in a mode.
#[derive(Clone, Copy, Debug)]
pub struct Formatter<'a> {
    by: By<'a>,
    number: &'a PhoneNumber,
    mode: Mode,
}

impl Formatter<'_> {
    /// The same formatter in another mode.
    pub fn mode(self, mode: Mode) -> Self {
        Formatter { mode, ..self }
    }

    /// The text; `UnknownCode` where the database lists no territory of the number's code.
    pub fn to_text(&self) -> Result<String, Error> {
        let ((number, texts), mode) = (self.number.to_ffi(), self.mode as u32);
        text_of(64, |out, len, wrote| {
            // SAFETY: as in `By::parse`.
            self.by.records().with(|handle| unsafe {
                ffi::phone_format(handle, &number, texts.as_ptr(), texts.len(), mode, out, len, wrote)
            })
        })
    }
}

/// The text in the mode; the E.164 text where the database lists no territory of the number's code.
impl fmt::Display for Formatter<'_> {
    fn fmt(&self, f: &mut fmt::Formatter<'_>) -> fmt::Result {
        match self.to_text() {
            Ok(text) => f.pad(&text),
            Err(Error::UnknownCode) => self.number.fmt(f),
            Err(_) => Err(fmt::Error),
        }
    }
}
