//! Where numbers are: areas, carriers and names of countries in a locale, and time zones.
use crate::call::{hint_of, text_of};
use crate::database::{Database, Rules};
use crate::error::Error;
use crate::ffi;
use crate::number::PhoneNumber;
use crate::prefixes::Prefixes;
use crate::region::Region;
use std::fmt;
use std::sync::{Mutex, PoisonError};

/// The tables of texts that a locale asks; a table that isn't there is none.
#[derive(Clone, Copy, Debug, Default)]
pub struct AtlasTables<'t> {
    /// Areas in the locale's language; of English ones none, where those stand behind.
    pub areas: Option<&'t Prefixes>,
    /// Areas in English, which are asked behind those of the language.
    pub english_areas: Option<&'t Prefixes>,
    /// Carriers in the locale's language.
    pub carriers: Option<&'t Prefixes>,
    /// Carriers in English.
    pub english_carriers: Option<&'t Prefixes>,
    /// Lines of a region's id, a tab and its name; of several names of a region the first counts.
    pub names: &'t str,
}

/// What is known in a locale, as `de`, `zh_TW` or `sr-Latn-RS`. Threads ask it in turn.
///
/// ```
/// use phonenumber_proved::{Atlas, AtlasTables, Database, Prefixes, Region};
/// let (world, areas) = (Database::world()?, Prefixes::of("4144\tZürich\n")?);
/// let tables = AtlasTables { areas: Some(&areas), names: "CH\tSchweiz\n", ..AtlasTables::default() };
/// let german = Atlas::open("de", tables)?;
/// let number = world.parse(None, "+41 44 668 1800")?;
/// assert_eq!(german.description(&world, &number, None)?, "Zürich");
/// assert_eq!(german.description(&world, &number, Region::DE)?, "Schweiz");
/// # Ok::<(), phonenumber_proved::Error>(())
/// ```
pub struct Atlas {
    open: Mutex<Open>,
}

/// A handle that is closed when it is dropped.
struct Open(ffi::Atlas);

impl Drop for Open {
    fn drop(&mut self) {
        // SAFETY: the handle is lent to the call alone.
        unsafe { ffi::phone_atlas_close(&mut self.0) }
    }
}

// SAFETY: an atlas is plain data, and owners of tables of prefixes, which threads share; phone.h lets one thread after
// another use and close its handle, by one call at a time.
unsafe impl Send for Open {}

impl fmt::Debug for Atlas {
    fn fmt(&self, f: &mut fmt::Formatter<'_>) -> fmt::Result {
        f.debug_struct("Atlas").finish_non_exhaustive()
    }
}

/// The status of a call on a handle of a table; on a closed one where there is none.
fn lent(table: Option<&Prefixes>, call: impl FnOnce(&mut ffi::Prefixes) -> u32) -> u32 {
    match table {
        Some(table) => table.with(call),
        None => call(&mut ffi::Prefixes { at: std::ptr::null_mut() }),
    }
}

impl Atlas {
    /// The atlas of a locale with these tables, which it shares; `Error::Line` where a line of the names has no tab.
    pub fn open(locale: &str, tables: AtlasTables<'_>) -> Result<Atlas, Error> {
        let (mut open, mut line) = (Open(ffi::Atlas { at: std::ptr::null_mut() }), 0);
        let status = lent(tables.areas, |areas| {
            lent(tables.english_areas, |english_areas| {
                lent(tables.carriers, |carriers| {
                    lent(tables.english_carriers, |english_carriers| {
                        let (locale, locale_len) = (locale.as_ptr(), locale.len());
                        let (names, names_len) = (tables.names.as_ptr(), tables.names.len());
                        // SAFETY: the five handles are five, lent to the call alone; the slices are valid for their lengths.
                        unsafe {
                            ffi::phone_atlas_open(
                                locale, locale_len, areas, english_areas, carriers, english_carriers, names, names_len,
                                &mut open.0, &mut line,
                            )
                        }
                    })
                })
            })
        });
        if status == ffi::OK { Ok(Atlas { open: Mutex::new(open) }) } else { Err(Error::of_prefixes(status, line)) }
    }

    /// The description of a number: its area, and where none is known, or its kind is of no place, the name of its
    /// country; the name of its region where the user's is another; nothing where its kind is unknown.
    pub fn description(&self, database: &Database, number: &PhoneNumber, user: impl Into<Option<Region>>) -> Result<String, Error> {
        self.described(database, number, user, 0)
    }

    /// The same of a number as it stands: its kind isn't looked at.
    pub fn standing_description(
        &self,
        database: &Database,
        number: &PhoneNumber,
        user: impl Into<Option<Region>>,
    ) -> Result<String, Error> {
        self.described(database, number, user, 1)
    }

    fn described(
        &self,
        database: &Database,
        number: &PhoneNumber,
        user: impl Into<Option<Region>>,
        as_it_stands: u8,
    ) -> Result<String, Error> {
        let ((number, texts), user) = (number.to_ffi(), hint_of(user));
        self.told(database, |handle, atlas, out, len, wrote| {
            let (bytes, bytes_len, region) = (texts.as_ptr(), texts.len(), user.as_ptr());
            // SAFETY: both handles are open, and lent to the call alone; the slices are valid, apart and initialized.
            unsafe {
                ffi::phone_description(
                    handle, atlas, &number, bytes, bytes_len, region, user.len(), as_it_stands, out, len, wrote,
                )
            }
        })
    }

    /// The carrier to which a number's range was given first; nothing where its kind has no mobile carrier.
    pub fn carrier(&self, database: &Database, number: &PhoneNumber) -> Result<String, Error> {
        self.carrier_as(database, number, 0)
    }

    /// The same of a number as it stands: its kind isn't looked at.
    pub fn standing_carrier(&self, database: &Database, number: &PhoneNumber) -> Result<String, Error> {
        self.carrier_as(database, number, 1)
    }

    fn carrier_as(&self, database: &Database, number: &PhoneNumber, as_it_stands: u8) -> Result<String, Error> {
        let (number, texts) = number.to_ffi();
        self.told(database, |handle, atlas, out, len, wrote| {
            let (bytes, bytes_len) = (texts.as_ptr(), texts.len());
            // SAFETY: as in `described`.
            unsafe { ffi::phone_carrier(handle, atlas, &number, bytes, bytes_len, as_it_stands, out, len, wrote) }
        })
    }

    /// The carrier where it is safe to show as today's: nothing where a mobile number is kept when it is changed.
    pub fn safe_carrier(&self, database: &Database, number: &PhoneNumber) -> Result<String, Error> {
        let (number, texts) = number.to_ffi();
        self.told(database, |handle, atlas, out, len, wrote| {
            let (bytes, bytes_len) = (texts.as_ptr(), texts.len());
            // SAFETY: as in `described`.
            unsafe { ffi::phone_safe_carrier(handle, atlas, &number, bytes, bytes_len, out, len, wrote) }
        })
    }

    /// The name of a number's country; nothing where it is valid in several, or in none.
    pub fn country_name(&self, database: &Database, number: &PhoneNumber) -> Result<String, Error> {
        let (number, texts) = number.to_ffi();
        self.told(database, |handle, atlas, out, len, wrote| {
            let (bytes, bytes_len) = (texts.as_ptr(), texts.len());
            // SAFETY: as in `described`.
            unsafe { ffi::phone_country_name(handle, atlas, &number, bytes, bytes_len, out, len, wrote) }
        })
    }

    /// What a call writes that asks both a database and the atlas.
    fn told(
        &self,
        database: &Database,
        call: impl Fn(&mut ffi::Handle, &mut ffi::Atlas, *mut u8, usize, *mut usize) -> u32,
    ) -> Result<String, Error> {
        text_of(64, |out, len, wrote| {
            let mut open = self.open.lock().unwrap_or_else(PoisonError::into_inner);
            database.by(Rules::Library).records().with(|handle| call(handle, &mut open.0, out, len, wrote))
        })
    }
}

impl Database {
    /// The time zones of a number by a table of them, one at least: `Etc/Unknown` where none is known.
    ///
    /// ```
    /// use phonenumber_proved::{Database, Prefixes};
    /// let (world, zones) = (Database::world()?, Prefixes::of("41\tEurope/Zurich\n")?);
    /// let number = world.parse(None, "+41 44 668 1800")?;
    /// assert_eq!(world.time_zones(&zones, &number)?, ["Europe/Zurich"]);
    /// # Ok::<(), phonenumber_proved::Error>(())
    /// ```
    pub fn time_zones(&self, zones: &Prefixes, number: &PhoneNumber) -> Result<Vec<String>, Error> {
        self.zones_as(zones, number, 0)
    }

    /// The same of a number as it stands: its kind isn't looked at.
    pub fn standing_time_zones(&self, zones: &Prefixes, number: &PhoneNumber) -> Result<Vec<String>, Error> {
        self.zones_as(zones, number, 1)
    }

    fn zones_as(&self, zones: &Prefixes, number: &PhoneNumber, as_it_stands: u8) -> Result<Vec<String>, Error> {
        let (number, texts) = number.to_ffi();
        let told = text_of(64, |out, len, wrote| {
            let (bytes, bytes_len) = (texts.as_ptr(), texts.len());
            self.by(Rules::Library).records().with(|handle| {
                // SAFETY: both handles are open, and lent to the call alone; the slices are valid, apart and initialized.
                zones.with(|table| unsafe {
                    ffi::phone_time_zones(handle, table, &number, bytes, bytes_len, as_it_stands, out, len, wrote)
                })
            })
        })?;
        Ok(told.split('&').map(str::to_owned).collect())
    }
}
