//! Short numbers, which are dialled within a region alone.
use crate::call::check;
use crate::error::Error;
use crate::ffi;
use crate::found::regions_of;
use crate::records::Records;
use crate::region::Region;
use std::fmt;
use std::path::Path;

/// What a call of a short number costs.
#[derive(Clone, Copy, Debug, PartialEq, Eq, Hash, PartialOrd, Ord)]
pub enum Cost {
    TollFree,
    StandardRate,
    PremiumRate,
    Unknown,
}

pub(crate) const COSTS: [Cost; 4] = [Cost::TollFree, Cost::StandardRate, Cost::PremiumRate, Cost::Unknown];

/// What is known of a text as a short number of a region.
#[derive(Clone, Copy, Debug, PartialEq, Eq, Hash)]
#[non_exhaustive]
pub struct ShortFacts {
    /// Whether the count of its digits is possible.
    pub is_possible: bool,
    /// Whether it is a short number of the region.
    pub is_valid: bool,
    /// What a call costs.
    pub cost: Cost,
    /// Whether only some carriers connect it.
    pub is_carrier_specific: bool,
    /// Whether it is an emergency number.
    pub is_emergency: bool,
    /// Whether it reaches emergency services.
    pub reaches_emergency: bool,
}

/// Metadata of short numbers. Threads use it at once, and clones share it, as with a [`Database`](crate::Database).
///
/// ```
/// use phonenumber_proved::{Cost, Region, SHORT, ShortNumbers};
/// let table = ShortNumbers::from_json(SHORT)?;
/// let facts = table.short(Region::NZ, "111")?;
/// assert!(facts.is_valid && facts.is_emergency && facts.cost == Cost::TollFree);
/// # Ok::<(), phonenumber_proved::Error>(())
/// ```
#[derive(Clone)]
pub struct ShortNumbers {
    pub(crate) records: Records,
}

impl fmt::Debug for ShortNumbers {
    fn fmt(&self, f: &mut fmt::Formatter<'_>) -> fmt::Result {
        f.debug_struct("ShortNumbers").finish_non_exhaustive()
    }
}

impl ShortNumbers {
    /// The metadata of a JSON text.
    pub fn from_json(text: impl AsRef<[u8]>) -> Result<ShortNumbers, Error> {
        Ok(ShortNumbers { records: Records::open(text.as_ref())? })
    }

    /// The metadata of a file.
    pub fn load(path: impl AsRef<Path>) -> Result<ShortNumbers, Error> {
        ShortNumbers::from_json(std::fs::read(path)?)
    }

    /// What is known of a text as a short number of a region.
    pub fn short(&self, region: Region, text: impl AsRef<str>) -> Result<ShortFacts, Error> {
        let (text, mut facts) = (text.as_ref(), ffi::ShortFacts::default());
        // SAFETY: the handle is open, and lent to the call alone; the slices are valid, apart and initialized.
        check(self.records.with(|handle| unsafe {
            ffi::phone_short(handle, region.as_ptr(), region.len(), text.as_ptr(), text.len(), &mut facts)
        }))?;
        Ok(ShortFacts {
            is_possible: facts.is_possible == 1,
            is_valid: facts.is_valid == 1,
            cost: COSTS.get(facts.cost as usize).copied().ok_or(Error::Other(facts.cost))?,
            is_carrier_specific: facts.is_carrier_specific == 1,
            is_emergency: facts.is_emergency == 1,
            reaches_emergency: facts.reaches_emergency == 1,
        })
    }

    /// The ids of the regions whose short numbers it has, by the alphabet.
    ///
    /// ```
    /// use phonenumber_proved::{Region, SHORT, ShortNumbers};
    /// assert_eq!(ShortNumbers::from_json(SHORT)?.regions()?[..2], [Region::AC, Region::AD]);
    /// # Ok::<(), phonenumber_proved::Error>(())
    /// ```
    pub fn regions(&self) -> Result<Vec<Region>, Error> {
        regions_of(&self.records)
    }
}

/// Metadata of SMS services, short numbers that messages are sent to, for
/// [`Database::is_sms_service`](crate::Database::is_sms_service). Threads use it at once, and clones share it.
#[derive(Clone)]
pub struct SmsServices {
    pub(crate) records: Records,
}

impl fmt::Debug for SmsServices {
    fn fmt(&self, f: &mut fmt::Formatter<'_>) -> fmt::Result {
        f.debug_struct("SmsServices").finish_non_exhaustive()
    }
}

impl SmsServices {
    /// The metadata of a JSON text.
    pub fn from_json(text: impl AsRef<[u8]>) -> Result<SmsServices, Error> {
        Ok(SmsServices { records: Records::open(text.as_ref())? })
    }

    /// The metadata of a file.
    pub fn load(path: impl AsRef<Path>) -> Result<SmsServices, Error> {
        SmsServices::from_json(std::fs::read(path)?)
    }
}
