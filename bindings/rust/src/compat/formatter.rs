//! How numbers are formatted.
use super::metadata::{DATABASE, Database, Format, loader};
use super::{Mode, PhoneNumber};
use crate::database::Rules;
use std::fmt;

/// The formatter of a number in a mode.
#[derive(Clone, Copy, Debug)]
pub struct Formatter<'n, 'd, 'f> {
    number: &'n PhoneNumber,
    database: Option<&'d Database>,
    mode: Mode,
    format: Option<&'f Format>,
}

/// The formatter of a number, by E.164 until `mode` asks for another.
pub fn format(number: &PhoneNumber) -> Formatter<'_, 'static, 'static> {
    Formatter { number, database: None, mode: Mode::E164, format: None }
}

/// The formatter of a number by these metadata.
pub fn format_with<'d, 'n>(database: &'d Database, number: &'n PhoneNumber) -> Formatter<'n, 'd, 'static> {
    Formatter { number, database: Some(database), mode: Mode::E164, format: None }
}

impl<'n, 'd, 'f> Formatter<'n, 'd, 'f> {
    /// The same formatter by these metadata.
    pub fn database<'a>(self, database: &'a Database) -> Formatter<'n, 'a, 'f> {
        Formatter { number: self.number, database: Some(database), mode: self.mode, format: self.format }
    }

    /// The same formatter in another mode.
    pub fn mode(mut self, mode: Mode) -> Formatter<'n, 'd, 'f> {
        self.mode = mode;
        self
    }

    /// The same formatter by this format, whatever its leading digits. Each text opens a database of it.
    ///
    /// ```
    /// use phonenumber_proved::compat::{Mode, metadata::DATABASE, parse};
    /// let number = parse(None, "+64 3 331 6005").unwrap();
    /// let format = &DATABASE.by_id("US").unwrap().formats()[0];
    /// let metadata = DATABASE.by_id("NZ").unwrap();
    /// let of_mobile_phones = metadata.formats().iter().find(|it| it.format() == "$1 $2 $3").unwrap();
    /// let text = number.format().mode(Mode::International).with(of_mobile_phones);
    /// assert_ne!(text.to_string(), number.format().mode(Mode::International).to_string());
    /// # let _ = format;
    /// ```
    pub fn with<'a>(self, format: &'a Format) -> Formatter<'n, 'd, 'a> {
        Formatter { number: self.number, database: self.database, mode: self.mode, format: Some(format) }
    }

    /// The text; an error where no territory has the calling code.
    fn text(&self) -> Result<String, crate::Error> {
        let database = self.database.unwrap_or(&DATABASE);
        let Some(format) = self.format else {
            return database.asked.by(Rules::Crate).format(&self.number.read).mode(self.mode).to_text();
        };
        let of_code = database.by_code(&self.number.read.code()).ok_or(crate::Error::UnknownCode)?;
        let records = vec![of_code.first().ok_or(crate::Error::UnknownCode)?.printing(format)];
        let by_it = crate::Database::from_json(loader::text_of(&records))?;
        by_it.by(Rules::Crate).format(&self.number.read).mode(self.mode).to_text()
    }
}

/// The text in the mode; an error where no territory has the calling code, as in that crate.
impl fmt::Display for Formatter<'_, '_, '_> {
    fn fmt(&self, f: &mut fmt::Formatter<'_>) -> fmt::Result {
        f.pad(&self.text().map_err(|_| fmt::Error)?)
    }
}
