//! Columns of texts, each row parsed by itself.
use crate::database::{By, Database};
use crate::error::Error;
use crate::ffi;
use crate::number::{Mode, TYPES, Type};
use sealed::Wanted;
use std::ops::Range;

/// What a column's offsets are: whole numbers of 32 or 64 bits. Those with a sign, as Arrow's, are never negative: one that is
/// stands past all bytes.
pub trait Offset: Copy + sealed::Ask {}

impl Offset for u64 {}
impl Offset for i64 {}
impl Offset for u32 {}
impl Offset for i32 {}

mod sealed {
    use super::{Texts, ffi};

    /// What a call wants beside its handle and its texts.
    pub struct Wanted<'a> {
        pub numbers: &'a [u32],
        pub places: &'a mut [ffi::Place],
        pub out: &'a mut [u64],
        pub wrote: &'a mut usize,
    }

    pub trait Ask: Sized {
        /// The call's status.
        fn ask(handle: &mut ffi::Handle, texts: &Texts<'_, Self>, hints: &Texts<'_, Self>, wanted: Wanted<'_>) -> u32;
    }

    /// The call of one width, over offsets that are laid out as its own.
    macro_rules! asks {
        ($offset:ty, $width:ty, $texts:ident, $call:ident) => {
            impl Ask for $offset {
                fn ask(
                    handle: &mut ffi::Handle,
                    texts: &Texts<'_, Self>,
                    hints: &Texts<'_, Self>,
                    it: Wanted<'_>,
                ) -> u32 {
                    let plain = |of: &Texts<'_, Self>| ffi::$texts {
                        offsets: of.offsets.as_ptr().cast::<$width>(),
                        offsets_len: of.offsets.len(),
                        bytes: of.bytes.as_ptr(),
                        bytes_len: of.bytes.len(),
                        bits: of.bits.as_ptr(),
                        bits_len: of.bits.len(),
                        first: of.first,
                    };
                    let (texts, hints, room) = (plain(texts), plain(hints), 8 * it.out.len());
                    let (places, bytes) = (it.places.as_mut_ptr(), it.out.as_mut_ptr().cast());
                    let (numbers, count, placed) = (it.numbers.as_ptr(), it.numbers.len(), it.places.len());
                    // SAFETY: the handle is open, and lent to the call alone; the slices are valid, apart and initialized.
                    unsafe { ffi::$call(handle, &texts, &hints, numbers, count, places, placed, bytes, room, it.wrote) }
                }
            }
        };
    }

    asks!(u64, u64, Texts, phone_columns);
    asks!(i64, u64, Texts, phone_columns);
    asks!(u32, u32, NarrowTexts, phone_narrow_columns);
    asks!(i32, u32, NarrowTexts, phone_narrow_columns);
}

/// A column of texts, of which nothing is copied: the i-th stands in `bytes` from `offsets[i]` to before `offsets[i + 1]`, as
/// Arrow's layout has it. There may be one default region for all texts.
#[derive(Clone, Copy, Debug)]
pub struct Texts<'a, O = u64> {
    offsets: &'a [O],
    bytes: &'a [u8],
    bits: &'a [u8],
    first: usize,
}

impl<'a, O: Offset> Texts<'a, O> {
    /// The texts between these offsets, of which there is one more than texts. [`Database::columns`] looks at them.
    pub fn new(offsets: &'a [O], bytes: &'a [u8]) -> Self {
        Texts { offsets, bytes, bits: &[], first: 0 }
    }

    /// The same where a bitmap says which texts are there: eight flags a byte, the first of a byte its lowest bit, that of
    /// the first text at place `first`. A bitmap without a byte says that all are there.
    pub fn with_bitmap(self, bits: &'a [u8], first: usize) -> Self {
        Texts { bits, first, ..self }
    }

    /// One default region for all texts: the id of the region in which they were written; the empty text is none.
    pub fn one_hint(id: &'a str) -> Self {
        Texts { offsets: &[], bytes: id.as_bytes(), bits: &[], first: 0 }
    }

    /// How many texts there are; 0 of one default region for all.
    pub fn len(&self) -> usize {
        self.offsets.len().saturating_sub(1)
    }

    /// Whether there is none.
    pub fn is_empty(&self) -> bool {
        self.len() == 0
    }

    /// The rows of a range, as a column; one default region for all stays so. It panics where the range isn't within the column.
    ///
    /// A column is cut so for threads: its answers are those of its pieces, one behind the other.
    pub fn slice(&self, rows: Range<usize>) -> Self {
        if self.offsets.is_empty() {
            return *self;
        }
        Texts { offsets: &self.offsets[rows.start..=rows.end], first: self.first + rows.start, ..*self }
    }
}

/// A column of texts that holds them, made of what gives them one by one: `None` is a text that isn't there.
///
/// ```
/// use phonenumber_proved::TextsBuf;
/// let texts: TextsBuf = [Some("03-331 6005"), None].into_iter().collect();
/// assert_eq!(texts.texts().len(), 2);
/// ```
#[derive(Clone, Debug)]
pub struct TextsBuf {
    offsets: Vec<u64>,
    bytes: Vec<u8>,
    bits: Vec<u8>,
}

impl TextsBuf {
    /// The column, lent.
    pub fn texts(&self) -> Texts<'_> {
        Texts::new(&self.offsets, &self.bytes).with_bitmap(&self.bits, 0)
    }
}

impl<T: AsRef<[u8]>> FromIterator<Option<T>> for TextsBuf {
    fn from_iter<I: IntoIterator<Item = Option<T>>>(rows: I) -> TextsBuf {
        let mut all = TextsBuf { offsets: vec![0], bytes: Vec::new(), bits: Vec::new() };
        for (row, text) in rows.into_iter().enumerate() {
            if row % 8 == 0 {
                all.bits.push(0);
            }
            if let Some(text) = text {
                all.bytes.extend_from_slice(text.as_ref());
                all.bits[row / 8] |= 1 << (row % 8);
            }
            all.offsets.push(all.bytes.len() as u64);
        }
        all
    }
}

/// An answer on each text, by its number in `phone.h`.
#[derive(Clone, Copy, Debug, PartialEq, Eq, Hash, PartialOrd, Ord)]
#[non_exhaustive]
pub enum Column {
    /// Its E.164 text.
    E164,
    /// Its international text.
    International,
    /// Its national text.
    National,
    /// Its `tel:` URI.
    Rfc3966,
    /// Its calling code.
    Code,
    /// Its national number without leading zeros.
    Value,
    /// How many zeros stand before that.
    Zeros,
    /// Its kind.
    Type,
    /// The letters of its region.
    Region,
    /// Whether it is valid.
    Validity,
    /// How its calling code was found.
    Source,
    /// Why it is none.
    Refusal,
    /// Whether it is a number.
    IsNumber,
}

impl Column {
    /// How many buffers it has.
    fn buffers(self) -> usize {
        if self <= Column::Rfc3966 { 2 } else { 1 }
    }
}

/// The answers on a column of texts. A column that wasn't asked for is empty, and its rows are `None`.
pub struct Columns {
    len: usize,
    /// Of each column, where its buffers stand in `out`.
    places: [[Range<usize>; 2]; 13],
    out: Vec<u64>,
}

impl std::fmt::Debug for Columns {
    fn fmt(&self, f: &mut std::fmt::Formatter<'_>) -> std::fmt::Result {
        f.debug_struct("Columns").field("len", &self.len).finish_non_exhaustive()
    }
}

impl Columns {
    /// How many rows there are.
    pub fn len(&self) -> usize {
        self.len
    }

    /// Whether there is none.
    pub fn is_empty(&self) -> bool {
        self.len == 0
    }

    /// The bytes of a column's buffer as they were written: of texts 0 has the offsets and 1 the bytes; of the others 0 has
    /// the values, of the width that `phone.h` has.
    pub fn buffer(&self, column: Column, which: usize) -> &[u8] {
        self.places[column as usize].get(which).map_or(&[], |place| &self.bytes()[place.clone()])
    }

    /// The values of a column whose rows have no texts.
    fn values<T: Copy>(&self, column: Column) -> &[T] {
        // SAFETY: a buffer begins at a multiple of eight bytes, and integers have any bytes.
        let (before, values, after) = unsafe { self.buffer(column, 0).align_to::<T>() };
        assert!(before.is_empty() && after.is_empty(), "the buffer has whole values");
        values
    }

    fn bytes(&self) -> &[u8] {
        // SAFETY: bytes need no alignment, and any are bytes.
        unsafe { std::slice::from_raw_parts(self.out.as_ptr().cast(), 8 * self.out.len()) }
    }

    /// The text of a row in a mode; `None` where it is no number.
    pub fn text(&self, mode: Mode, row: usize) -> Option<&str> {
        let column = [Column::E164, Column::International, Column::National, Column::Rfc3966][mode as usize];
        let offsets = self.values::<u64>(column);
        let text = &self.buffer(column, 1)[*offsets.get(row)? as usize..*offsets.get(row + 1)? as usize];
        // Each printed number has bytes.
        if text.is_empty() { None } else { std::str::from_utf8(text).ok() }
    }

    /// The calling codes; 0 where a row is no number.
    pub fn codes(&self) -> &[u16] {
        self.values(Column::Code)
    }

    /// The national numbers without leading zeros; 0 where a row is no number.
    pub fn national_values(&self) -> &[u64] {
        self.values(Column::Value)
    }

    /// How many zeros stand before each of these.
    pub fn national_zeros(&self) -> &[u8] {
        self.values(Column::Zeros)
    }

    /// The kind of a row's number; it means nothing where [`Columns::is_number`] is false.
    pub fn number_type(&self, row: usize) -> Option<Type> {
        TYPES.get(*self.values::<u8>(Column::Type).get(row)? as usize).copied()
    }

    /// The id of the region of a row's number.
    pub fn region(&self, row: usize) -> Option<&str> {
        let id = self.values::<[u8; 2]>(Column::Region).get(row)?;
        if id[0] == 0 { None } else { std::str::from_utf8(id).ok() }
    }

    /// Whether a row is a valid number.
    pub fn is_valid(&self, row: usize) -> Option<bool> {
        Some(*self.values::<u8>(Column::Validity).get(row)? == 1)
    }

    /// Why a row is no number; `None` where it is one, or its text isn't there.
    pub fn refusal(&self, row: usize) -> Option<Error> {
        match self.values::<u8>(Column::Refusal).get(row)? {
            0 => None,
            status => Some(Error::of(u32::from(*status))),
        }
    }

    /// Whether a row is a number.
    pub fn is_number(&self, row: usize) -> Option<bool> {
        let flags = self.values::<u8>(Column::IsNumber);
        if row < self.len { Some(flags.get(row / 8)? >> (row % 8) & 1 == 1) } else { None }
    }
}

impl Database {
    /// These columns of each text, parsed by itself with the default region at its place, or the one for all, as
    /// [`Database::parse`] parses it. A default region that isn't there, or is empty, is none; one that is no region's id is an
    /// error of its row, and so is a text that isn't UTF-8. `Error::Layout` where offsets go back or past the bytes, the bitmap
    /// lacks a flag, or default regions and texts aren't as many.
    ///
    /// ```
    /// use phonenumber_proved::{Column, Database, Error, Mode, Texts, TextsBuf};
    /// let world = Database::world()?;
    /// let texts: TextsBuf = [Some("03-331 6005"), None, Some("call me")].into_iter().collect();
    /// let told = world.columns(&texts.texts(), &Texts::one_hint("NZ"), &[Column::E164, Column::Region, Column::Refusal])?;
    /// assert_eq!((told.text(Mode::E164, 0), told.region(0)), (Some("+6433316005"), Some("NZ")));
    /// assert_eq!((told.text(Mode::E164, 1), told.refusal(1)), (None, None));
    /// assert_eq!(told.refusal(2), Some(Error::NoNumber));
    /// # Ok::<(), Error>(())
    /// ```
    pub fn columns<O: Offset>(
        &self,
        texts: &Texts<'_, O>,
        hints: &Texts<'_, O>,
        columns: &[Column],
    ) -> Result<Columns, Error> {
        self.by(Default::default()).columns(texts, hints, columns)
    }
}

impl By<'_> {
    /// These columns of each text, by the rules: see [`Database::columns`].
    pub fn columns<O: Offset>(
        &self,
        texts: &Texts<'_, O>,
        hints: &Texts<'_, O>,
        columns: &[Column],
    ) -> Result<Columns, Error> {
        let numbers: Vec<u32> = columns.iter().map(|column| *column as u32).collect();
        let mut places = vec![ffi::Place::default(); columns.iter().map(|column| column.buffers()).sum()];
        let mut out = vec![0; 2 * columns.len() * (texts.len() + 8)];
        loop {
            let mut wrote = 0;
            let wanted = Wanted { numbers: &numbers, places: &mut places, out: &mut out, wrote: &mut wrote };
            match self.records().with(|handle| O::ask(handle, texts, hints, wanted)) {
                ffi::OK => return Ok(laid(texts.len(), columns, &places, out)),
                ffi::TOO_SMALL => out = vec![0; wrote.div_ceil(8)],
                status => return Err(Error::of(status)),
            }
        }
    }
}

/// The columns whose buffers stand at these places, in order.
fn laid(len: usize, columns: &[Column], places: &[ffi::Place], out: Vec<u64>) -> Columns {
    let mut told = Columns { len, places: Default::default(), out };
    let mut left = places.iter();
    for column in columns {
        for place in left.by_ref().take(column.buffers()).enumerate() {
            told.places[*column as usize][place.0] = place.1.start..place.1.end;
        }
    }
    told
}
