//! Tables of prefixes, as of time zones and carriers.
use crate::call::text_of;
use crate::error::Error;
use crate::ffi;
use crate::records::Shared;
use std::fmt;
use std::path::Path;

/// A table of prefixes: each line of its text is a prefix of 1 to 15 digits, a tab, and a text. Threads use
/// it at once, and clones share it, as with a [`Database`](crate::Database).
///
/// ```
/// use phonenumber_proved::{Error, LineFault, Prefixes};
/// let table = Prefixes::of("64\tNew Zealand\n643\tSouth Island\n")?;
/// assert_eq!(table.longest("6433316005")?, Some(("643", "South Island".to_owned())));
/// assert_eq!(table.longest("1")?, None);
/// let refused = Prefixes::of("64\tNew Zealand\n64\tagain\n").unwrap_err();
/// assert_eq!(refused, Error::Line(2, LineFault::PrefixTwice));
/// assert_eq!(refused.to_string(), "line 2: the prefix stands in an earlier line");
/// # Ok::<(), Error>(())
/// ```
#[derive(Clone)]
pub struct Prefixes {
    table: Shared<ffi::Prefixes>,
}

impl fmt::Debug for Prefixes {
    fn fmt(&self, f: &mut fmt::Formatter<'_>) -> fmt::Result {
        f.debug_struct("Prefixes").finish_non_exhaustive()
    }
}

impl Prefixes {
    /// The table that a text is; `Error::Line` by the first line that is no entry.
    pub fn of(text: impl AsRef<[u8]>) -> Result<Prefixes, Error> {
        let text = text.as_ref();
        let mut line = 0;
        // SAFETY: the slice is valid for its length, and the handle is closed and lent to the call alone.
        let open = |handle: &mut _| unsafe { ffi::phone_prefixes_open(text.as_ptr(), text.len(), handle, &mut line) };
        match Shared::by(open) {
            Ok(table) => Ok(Prefixes { table }),
            Err(status) => Err(Error::of_prefixes(status, line)),
        }
    }

    /// The table that a file is.
    pub fn load(path: impl AsRef<Path>) -> Result<Prefixes, Error> {
        Prefixes::of(std::fs::read(path)?)
    }

    /// The status of a call on a handle of the table, which is lent to it alone.
    pub(crate) fn with(&self, call: impl FnOnce(&mut ffi::Prefixes) -> u32) -> u32 {
        self.table.with(call)
    }

    /// Prefix and text of the entry whose prefix is the longest that begins these digits, such as those of
    /// an E.164 text after its plus sign; none exactly where no prefix begins them.
    pub fn longest<'t>(&self, digits: &'t str) -> Result<Option<(&'t str, String)>, Error> {
        let mut prefix_len = 0;
        let text = text_of(64, |out, len, wrote| {
            // SAFETY: the handle is open, and lent to the call alone; the slices are valid, apart and initialized.
            let status = self.table.with(|handle| unsafe {
                ffi::phone_prefixes_longest(handle, digits.as_ptr(), digits.len(), out, len, wrote, &mut prefix_len)
            });
            if status == ffi::NO_PREFIX { ffi::OK } else { status }
        })?;
        Ok((prefix_len > 0).then(|| (&digits[..prefix_len], text)))
    }
}
