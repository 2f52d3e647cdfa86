//! A number as it is typed.
use crate::database::Database;
use crate::error::Error;
use crate::region::Region;

/// A number as it is typed: the keys so far, and what is shown of them.
///
/// ```
/// use phonenumber_proved::{Database, Region};
/// let world = Database::world()?;
/// let mut field = world.typing(Region::US)?;
/// for key in "6502530000".chars() {
///     field.push(key)?;
/// }
/// assert_eq!((field.shown(), field.caret(4)?), ("(650) 253-0000", 7));
/// field.back()?;
/// assert_eq!((field.shown(), field.keys()), ("(650) 253-000", "650253000"));
/// field.clear();
/// assert_eq!(field.shown(), "");
/// # Ok::<(), phonenumber_proved::Error>(())
/// ```
#[derive(Clone, Debug)]
pub struct Typing<'d> {
    database: &'d Database,
    hint: Option<Region>,
    keys: String,
    shown: String,
}

impl<'d> Typing<'d> {
    /// A field in which nothing is typed yet. `hint` is the default region, in which digits without a plus
    /// sign are dialled.
    pub fn new(database: &'d Database, hint: impl Into<Option<Region>>) -> Result<Typing<'d>, Error> {
        let hint = hint.into();
        database.typed(hint, "")?;
        Ok(Typing { database, hint, keys: String::new(), shown: String::new() })
    }

    /// What is shown.
    pub fn shown(&self) -> &str {
        &self.shown
    }

    /// The keys so far: digits of ASCII, and perhaps a plus sign before them.
    pub fn keys(&self) -> &str {
        &self.keys
    }

    /// Types a character. A digit of any script is the key of its value, and a plus sign is one before all
    /// others; any other character changes nothing. Where the call fails, the field stays as it was.
    pub fn push(&mut self, key: char) -> Result<(), Error> {
        self.show(format!("{}{key}", self.keys))
    }

    /// Types all characters of a text, as one pastes it.
    pub fn push_str(&mut self, text: &str) -> Result<(), Error> {
        self.show(format!("{}{text}", self.keys))
    }

    /// Takes the last key away, where there is one. Where the call fails, the field stays as it was.
    pub fn back(&mut self) -> Result<(), Error> {
        self.show(self.keys[..self.keys.len().saturating_sub(1)].to_owned())
    }

    /// Takes all keys away.
    pub fn clear(&mut self) {
        self.keys.clear();
        self.shown.clear();
    }

    /// After how many characters of what is shown the n-th key stands, counted from 1: 0 for no key, all of
    /// them from the last key on.
    pub fn caret(&self, n: usize) -> Result<usize, Error> {
        self.database.caret(self.hint, &self.keys, n)
    }

    /// Shows keys. What is shown is these, with marks between them.
    fn show(&mut self, keys: String) -> Result<(), Error> {
        self.shown = self.database.typed(self.hint, keys)?;
        self.keys = self.shown.chars().filter(|c| c.is_ascii_digit() || *c == '+').collect();
        Ok(())
    }
}
