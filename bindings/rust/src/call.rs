//! How texts go to the calls and come back.
use crate::error::Error;
use crate::ffi;
use crate::region::Region;

/// What a call writes into a buffer, which is made longer where it is too short.
pub(crate) fn items_of<T: Copy + Default>(
    room: usize,
    mut call: impl FnMut(*mut T, usize, *mut usize) -> u32,
) -> Result<Vec<T>, Error> {
    let mut out = vec![T::default(); room];
    loop {
        let mut wrote = 0;
        match call(out.as_mut_ptr(), out.len(), &mut wrote) {
            ffi::OK => {
                out.truncate(wrote);
                return Ok(out);
            }
            ffi::TOO_SMALL => out = vec![T::default(); wrote],
            status => return Err(Error::of(status)),
        }
    }
}

/// The same of bytes.
pub(crate) fn bytes_of(room: usize, call: impl FnMut(*mut u8, usize, *mut usize) -> u32) -> Result<Vec<u8>, Error> {
    items_of(room, call)
}

/// The same as a text.
pub(crate) fn text_of(room: usize, call: impl FnMut(*mut u8, usize, *mut usize) -> u32) -> Result<String, Error> {
    String::from_utf8(bytes_of(room, call)?).map_err(|_| Error::NotUtf8)
}

/// Nothing where a status is `OK`, else the error.
pub(crate) fn check(status: u32) -> Result<(), Error> {
    if status == ffi::OK { Ok(()) } else { Err(Error::of(status)) }
}

/// The letters of a default region; the empty text means none.
pub(crate) fn hint_of(hint: impl Into<Option<Region>>) -> &'static [u8] {
    hint.into().map_or("", Region::as_str).as_bytes()
}
