//! Numbers in a text, and what the metadata list.
use crate::call::{bytes_of, hint_of, items_of, text_of};
use crate::database::{By, Database};
use crate::error::Error;
use crate::ffi;
use crate::number::{PhoneNumber, Type};
use crate::records::Records;
use crate::region::Region;
use std::fmt;
use std::ops::Range;
use std::path::Path;

/// Which pieces of a text are found.
#[derive(Clone, Copy, Debug, PartialEq, Eq, Hash, PartialOrd, Ord)]
#[non_exhaustive]
pub enum Leniency {
    /// Those that are parsed as a number with a possible count of digits.
    Possible,
    /// Those that are parsed as a valid number.
    Valid,
    /// Those valid ones that have the groups of digits of a format, in their order. Only [`Database::matches`] and
    /// [`Database::matches_by`] look at groups.
    StrictGrouping,
    /// Those valid ones whose groups of digits are those of a format.
    ExactGrouping,
}

/// Alternate formats of groups of digits, for [`Database::matches_by`]. Threads use them at once, and clones share them.
#[derive(Clone)]
pub struct Alternates {
    records: Records,
}

impl fmt::Debug for Alternates {
    fn fmt(&self, f: &mut fmt::Formatter<'_>) -> fmt::Result {
        f.debug_struct("Alternates").finish_non_exhaustive()
    }
}

impl Alternates {
    /// The formats of a JSON text.
    pub fn from_json(text: impl AsRef<[u8]>) -> Result<Alternates, Error> {
        Ok(Alternates { records: Records::open(text.as_ref())? })
    }

    /// The formats of a file.
    pub fn load(path: impl AsRef<Path>) -> Result<Alternates, Error> {
        Alternates::from_json(std::fs::read(path)?)
    }
}

/// A number in a text.
#[derive(Clone, Debug, PartialEq, Eq, Hash)]
#[non_exhaustive]
pub struct Found {
    /// Where it stands, in bytes of the text.
    pub place: Range<usize>,
    /// The number.
    pub number: PhoneNumber,
}

impl Database {
    /// The valid numbers in a text, from its front on. `hint` is the default region, in which it was
    /// written.
    ///
    /// ```
    /// use phonenumber_proved::{Database, Region};
    /// let (world, text) = (Database::world()?, "Ring 03-331 6005 today");
    /// let found = world.find(Region::NZ, text)?;
    /// assert_eq!((&text[found[0].place.clone()], found.len()), ("03-331 6005", 1));
    /// assert_eq!(found[0].number.to_string(), "+6433316005");
    /// # Ok::<(), phonenumber_proved::Error>(())
    /// ```
    pub fn find(&self, hint: impl Into<Option<Region>>, text: impl AsRef<str>) -> Result<Vec<Found>, Error> {
        self.by(Default::default()).find(hint, Leniency::Valid, text)
    }

    /// The numbers that stand in a text as libphonenumber finds them, from its front on, but that groups of digits are
    /// looked at without alternate formats. The tries are how many candidates and pieces without a number are looked at.
    ///
    /// ```
    /// use phonenumber_proved::{Database, Leniency, Region};
    /// let (world, text) = (Database::world()?, "On 3/10/2011: 03-331 6005");
    /// let found = world.matches(Region::NZ, Leniency::Valid, u64::MAX, text)?;
    /// assert_eq!((&text[found[0].place.clone()], found.len()), ("03-331 6005", 1));
    /// # Ok::<(), phonenumber_proved::Error>(())
    /// ```
    pub fn matches(
        &self,
        hint: impl Into<Option<Region>>,
        leniency: Leniency,
        tries: u64,
        text: impl AsRef<str>,
    ) -> Result<Vec<Found>, Error> {
        let hint = hint.into();
        let (id, text, leniency) = (hint_of(hint), text.as_ref(), leniency as u32);
        let by = self.by(Default::default());
        let places = items_of(4, |out: *mut ffi::Place, len, wrote| {
            let (at, id_len) = (text.as_ptr(), id.len());
            // SAFETY: as in `By::find`.
            by.records().with(|handle| unsafe {
                ffi::phone_matches(handle, id.as_ptr(), id_len, leniency, tries, at, text.len(), out, len, wrote)
            })
        })?;
        by.read_at(hint, text, places)
    }

    /// The same by alternate formats, so that all leniencies are libphonenumber's.
    ///
    /// ```
    /// use phonenumber_proved::{ALTERNATES, Alternates, Database, Leniency, Region};
    /// let (world, others) = (Database::world()?, Alternates::from_json(ALTERNATES)?);
    /// let (level, text) = (Leniency::ExactGrouping, "03 3316 005, not 033 31 60 05");
    /// assert_eq!(world.matches_by(&others, Region::NZ, level, u64::MAX, text)?[0].place, 0..11);
    /// assert_eq!(world.matches(Region::NZ, level, u64::MAX, text)?, []);
    /// # Ok::<(), phonenumber_proved::Error>(())
    /// ```
    pub fn matches_by(
        &self,
        alternates: &Alternates,
        hint: impl Into<Option<Region>>,
        leniency: Leniency,
        tries: u64,
        text: impl AsRef<str>,
    ) -> Result<Vec<Found>, Error> {
        let hint = hint.into();
        let (id, text, level) = (hint_of(hint), text.as_ref(), leniency as u32);
        let by = self.by(Default::default());
        let places = items_of(4, |out: *mut ffi::Place, len, wrote| {
            let (at, id_len) = (text.as_ptr(), id.len());
            by.records().with(|handle| {
                // SAFETY: as in `By::find`, of two handles that are apart.
                alternates.records.with(|own| unsafe {
                    ffi::phone_matches_by(handle, own, id.as_ptr(), id_len, level, tries, at, text.len(), out, len, wrote)
                })
            })
        })?;
        by.read_at(hint, text, places)
    }

    /// How a number is dialled from a region: its national text there, and else an international prefix, its
    /// calling code and its digits. `Error::NoTerritory` where the database has none of the region.
    ///
    /// ```
    /// use phonenumber_proved::{Database, Region};
    /// let world = Database::world()?;
    /// let number = world.parse(Region::NZ, "03-331 6005")?;
    /// assert_eq!(world.dialled_from(Region::DE, &number)?, "00 64 3 331 6005");
    /// assert_eq!(world.dialled_from(Region::NZ, &number)?, "03 331 6005");
    /// # Ok::<(), phonenumber_proved::Error>(())
    /// ```
    pub fn dialled_from(&self, region: Region, number: &PhoneNumber) -> Result<String, Error> {
        let (number, texts) = number.to_ffi();
        text_of(64, |out, len, wrote| {
            let (at, bytes) = (texts.as_ptr(), texts.len());
            // SAFETY: as in `By::find`.
            self.by(Default::default()).records().with(|handle| unsafe {
                ffi::phone_dialled_from(handle, region.as_ptr(), region.len(), &number, at, bytes, out, len, wrote)
            })
        })
    }

    /// The example number of a region and a kind; none where the database has none.
    ///
    /// ```
    /// use phonenumber_proved::{Database, Region, Type};
    /// let world = Database::world()?;
    /// let number = world.example(Region::NZ, Type::Mobile)?.expect("there is one");
    /// assert_eq!(world.number_type(&number)?, Type::Mobile);
    /// assert_eq!(world.example(Region::NZ, Type::Unknown)?, None);
    /// # Ok::<(), phonenumber_proved::Error>(())
    /// ```
    pub fn example(&self, region: Region, kind: Type) -> Result<Option<PhoneNumber>, Error> {
        self.by(Default::default()).example(region, kind)
    }

    /// The database's regions, by the alphabet.
    ///
    /// ```
    /// use phonenumber_proved::{Database, Region};
    /// let world = Database::world()?;
    /// assert_eq!((&world.regions()?[..2], world.regions()?.len()), (&[Region::AC, Region::AD][..], 245));
    /// assert_eq!(world.codes()?[..3], [1, 7, 20]);
    /// # Ok::<(), phonenumber_proved::Error>(())
    /// ```
    pub fn regions(&self) -> Result<Vec<Region>, Error> {
        regions_of(self.by(Default::default()).records())
    }

    /// The calling codes of the database, ascending.
    pub fn codes(&self) -> Result<Vec<u16>, Error> {
        items_of(256, |out, len, wrote| {
            // SAFETY: as in `By::find`.
            self.by(Default::default()).records().with(|handle| unsafe { ffi::phone_codes(handle, out, len, wrote) })
        })
    }
}

impl By<'_> {
    /// The numbers that stand in a text, from its front on; they don't overlap.
    pub fn find(
        &self,
        hint: impl Into<Option<Region>>,
        leniency: Leniency,
        text: impl AsRef<str>,
    ) -> Result<Vec<Found>, Error> {
        let hint = hint.into();
        let (id, text, leniency) = (hint_of(hint), text.as_ref(), leniency as u32);
        let places = items_of(4, |out: *mut ffi::Place, len, wrote| {
            let (at, id_len) = (text.as_ptr(), id.len());
            // SAFETY: the handle is open, and lent to the call alone; the slices are valid, apart and initialized.
            self.records().with(|handle| unsafe {
                ffi::phone_find(handle, id.as_ptr(), id_len, leniency, at, text.len(), out, len, wrote)
            })
        })?;
        self.read_at(hint, text, places)
    }

    /// The numbers at places of a text.
    fn read_at(&self, hint: Option<Region>, text: &str, places: Vec<ffi::Place>) -> Result<Vec<Found>, Error> {
        let found = |place: ffi::Place| {
            let place = place.start..place.end;
            Ok(Found { number: self.parse(hint, &text[place.clone()])?, place })
        };
        places.into_iter().map(found).collect()
    }

    /// The example number of a region and a kind; none where the database has none.
    pub fn example(&self, region: Region, kind: Type) -> Result<Option<PhoneNumber>, Error> {
        example_of(|number, out, len, wrote| {
            let (id, id_len) = (region.as_ptr(), region.len());
            // SAFETY: as in `find`.
            self.records().with(|handle| unsafe {
                ffi::phone_example(handle, id, id_len, kind as u32, number, out, len, wrote)
            })
        })
    }
}

/// The ids of the regions that records are of, by the alphabet.
pub(crate) fn regions_of(records: &Records) -> Result<Vec<Region>, Error> {
    let ids = bytes_of(512, |out, len, wrote| {
        // SAFETY: as in `By::find`.
        records.with(|handle| unsafe { ffi::phone_regions(handle, out, len, wrote) })
    })?;
    Ok(ids.chunks_exact(2).filter_map(|id| Region::of(std::str::from_utf8(id).ok()?)).collect())
}

/// The number that a call writes; none where it says that there is none.
pub(crate) fn example_of(
    mut call: impl FnMut(&mut ffi::Number, *mut u8, usize, *mut usize) -> u32,
) -> Result<Option<PhoneNumber>, Error> {
    let (mut number, mut is_there) = (ffi::Number::default(), true);
    let texts = bytes_of(64, |out, len, wrote| {
        let status = call(&mut number, out, len, wrote);
        is_there = status != ffi::NO_EXAMPLE;
        if is_there { status } else { ffi::OK }
    })?;
    Ok(is_there.then(|| PhoneNumber::of(&number, &texts)))
}
