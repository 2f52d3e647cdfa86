//! The regions that have numbers.
use crate::error::Error;
use std::fmt;
use std::str::FromStr;

macro_rules! regions {
    ($($id:ident)*) => {
        /// A region that has numbers, under the two letters of ISO 3166, as `NZ`; `AC`, `TA` and `XK` are none of that standard's.
        ///
        /// ```
        /// use phonenumber_proved::{Database, Error, Region};
        /// let region: Region = "NZ".parse()?;
        /// assert_eq!((region, region.as_str(), "nz".parse::<Region>()), (Region::NZ, "NZ", Err(Error::NoRegion)));
        /// assert_eq!((Region::ALL.len(), Region::ALL[0]), (245, Region::AC));
        /// let number = Database::world()?.parse(Region::NZ, "03-331 6005")?;
        /// assert_eq!(number, Database::world()?.parse(Some(region), "033316005")?);
        /// # Ok::<(), Error>(())
        /// ```
        #[derive(Clone, Copy, Debug, PartialEq, Eq, Hash, PartialOrd, Ord)]
        #[non_exhaustive]
        pub enum Region { $(#[allow(missing_docs)] $id,)* }

        impl Region {
            /// All of them, by the alphabet.
            pub const ALL: &'static [Region] = &[$(Region::$id,)*];

            /// Their letters.
            pub(crate) const NAMES: &'static [&'static str] = &[$(stringify!($id),)*];
        }
    };
}

regions! {
    AC AD AE AF AG AI AL AM AO AR AS AT AU AW AX AZ BA BB BD BE BF BG BH BI BJ BL BM BN BO BQ
    BR BS BT BW BY BZ CA CC CD CF CG CH CI CK CL CM CN CO CR CU CV CW CX CY CZ DE DJ DK DM DO
    DZ EC EE EG EH ER ES ET FI FJ FK FM FO FR GA GB GD GE GF GG GH GI GL GM GN GP GQ GR GT GU
    GW GY HK HN HR HT HU ID IE IL IM IN IO IQ IR IS IT JE JM JO JP KE KG KH KI KM KN KP KR KW
    KY KZ LA LB LC LI LK LR LS LT LU LV LY MA MC MD ME MF MG MH MK ML MM MN MO MP MQ MR MS MT
    MU MV MW MX MY MZ NA NC NE NF NG NI NL NO NP NR NU NZ OM PA PE PF PG PH PK PL PM PR PS PT
    PW PY QA RE RO RS RU RW SA SB SC SD SE SG SH SI SJ SK SL SM SN SO SR SS ST SV SX SY SZ TA
    TC TD TG TH TJ TK TL TM TN TO TR TT TV TW TZ UA UG US UY UZ VA VC VE VG VI VN VU WF WS XK
    YE YT ZA ZM ZW
}

impl Region {
    /// The letters, as `NZ`.
    pub fn as_str(self) -> &'static str {
        Region::NAMES[self as usize]
    }

    /// Where the letters lie, and how many they are, for a call.
    pub(crate) fn as_ptr(self) -> *const u8 {
        self.as_str().as_ptr()
    }

    pub(crate) fn len(self) -> usize {
        self.as_str().len()
    }

    /// The region of an id that a call wrote; none where it is none's, as `001` is.
    pub(crate) fn of(id: &str) -> Option<Region> {
        Region::NAMES.binary_search(&id).ok().map(|place| Region::ALL[place])
    }
}

impl AsRef<str> for Region {
    fn as_ref(&self) -> &str {
        self.as_str()
    }
}

impl FromStr for Region {
    type Err = Error;

    /// The region of these letters, which are capitals; else `NoRegion`.
    fn from_str(text: &str) -> Result<Region, Error> {
        Region::of(text).ok_or(Error::NoRegion)
    }
}

/// The letters.
impl fmt::Display for Region {
    fn fmt(&self, f: &mut fmt::Formatter<'_>) -> fmt::Result {
        f.pad(self.as_str())
    }
}
