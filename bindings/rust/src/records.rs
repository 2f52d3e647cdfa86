//! What is open, which any number of threads may use at once: each call is on a handle of its own.
use crate::database::Rules;
use crate::error::Error;
use crate::ffi;
use std::sync::atomic::{AtomicUsize, Ordering};
use std::sync::{Arc, Mutex, MutexGuard, PoisonError};

/// The two kinds of handles.
pub(crate) trait Kind: Sized {
    const CLOSED: Self;

    /// Opens a second handle on what is open behind this one, and gives the status.
    fn share(&mut self, mine: &mut Self) -> u32;

    fn close(&mut self);
}

impl Kind for ffi::Handle {
    const CLOSED: Self = ffi::Handle { at: std::ptr::null_mut() };

    fn share(&mut self, mine: &mut Self) -> u32 {
        // SAFETY: both handles are lent to the call alone.
        unsafe { ffi::phone_share(self, mine) }
    }

    fn close(&mut self) {
        // SAFETY: the handle is lent to the call alone.
        unsafe { ffi::phone_close(self) }
    }
}

impl Kind for ffi::Prefixes {
    const CLOSED: Self = ffi::Prefixes { at: std::ptr::null_mut() };

    fn share(&mut self, mine: &mut Self) -> u32 {
        // SAFETY: both handles are lent to the call alone.
        unsafe { ffi::phone_prefixes_share(self, mine) }
    }

    fn close(&mut self) {
        // SAFETY: the handle is lent to the call alone.
        unsafe { ffi::phone_prefixes_close(self) }
    }
}

/// A handle that is closed when it is dropped.
struct Open<H: Kind>(H);

impl<H: Kind> Open<H> {
    /// The handle that a call opens; its status where it doesn't.
    fn by(open: impl FnOnce(&mut H) -> u32) -> Result<Open<H>, u32> {
        let mut handle = Open(H::CLOSED);
        match open(&mut handle.0) {
            ffi::OK => Ok(handle),
            status => Err(status),
        }
    }
}

impl<H: Kind> Drop for Open<H> {
    fn drop(&mut self) {
        self.0.close()
    }
}

// SAFETY: a handle is of no thread. The crate phone_c_base proves that of a database and of a table of prefixes (`Handle`
// and `PrefixTable`, by `Send`), and phone.h lets one thread after another use and close it, by one call at a time.
unsafe impl<H: Kind> Send for Open<H> {}

/// What is open behind handles, of which each call has one to itself. A clone shares it; the last one closes it.
pub(crate) struct Shared<H: Kind>(Arc<Handles<H>>);

impl<H: Kind> Clone for Shared<H> {
    fn clone(&self) -> Self {
        Shared(Arc::clone(&self.0))
    }
}

/// The first handle, and those that were made of it, as many as calls were on it at once.
struct Handles<H: Kind> {
    idle: [Idle<H>; PLACES],
    first: Mutex<Open<H>>,
}

/// Handles that no call is on. They have lines of the processor's cache to themselves, or threads would slow one another.
#[repr(align(128))]
struct Idle<H: Kind>(Mutex<Vec<Open<H>>>);

/// So many threads find their handles in places of their own.
const PLACES: usize = 32;

/// The place of this thread.
fn place() -> usize {
    static THREADS: AtomicUsize = AtomicUsize::new(0);
    thread_local!(static PLACE: usize = THREADS.fetch_add(1, Ordering::Relaxed) % PLACES);
    PLACE.with(|place| *place)
}

fn locked<T>(mutex: &Mutex<T>) -> MutexGuard<'_, T> {
    mutex.lock().unwrap_or_else(PoisonError::into_inner)
}

impl<H: Kind> Shared<H> {
    /// What a call opens; its status where it doesn't.
    pub(crate) fn by(open: impl FnOnce(&mut H) -> u32) -> Result<Self, u32> {
        let first = Mutex::new(Open::by(open)?);
        let idle = std::array::from_fn(|_| Idle(Mutex::new(Vec::new())));
        Ok(Shared(Arc::new(Handles { idle, first })))
    }

    /// The status of a call on a handle, which is open, and lent to the call alone; `MEMORY` where none can be made for it.
    pub(crate) fn with(&self, call: impl FnOnce(&mut H) -> u32) -> u32 {
        let idle = &self.0.idle[place()].0;
        let known = locked(idle).pop();
        match known.map_or_else(|| self.another(), Ok) {
            Ok(mut handle) => {
                let status = call(&mut handle.0);
                locked(idle).push(handle);
                status
            }
            Err(status) => status,
        }
    }

    /// One handle more.
    fn another(&self) -> Result<Open<H>, u32> {
        Open::by(|mine| locked(&self.0.first).0.share(mine))
    }
}

/// The records that a JSON text has, and the rules by which they are asked.
pub(crate) type Records = Shared<ffi::Handle>;

impl Records {
    pub(crate) fn open(text: &[u8]) -> Result<Records, Error> {
        let (at, len, rules) = (text.as_ptr(), text.len(), Rules::Library as u32);
        // SAFETY: the slice is valid for its length, and the handle is closed and lent to the call alone.
        Shared::by(|handle| unsafe { ffi::phone_open(at, len, rules, handle) }).map_err(Error::of)
    }

    /// The library's own metadata, of all regions.
    pub(crate) fn world() -> Result<Records, Error> {
        // SAFETY: the handle is closed and lent to the call alone.
        Shared::by(|handle| unsafe { ffi::phone_open_world(handle, Rules::Library as u32) }).map_err(Error::of)
    }

    /// The newest metadata, of this folder or of the library, and their version, which is shorter than 64 bytes.
    pub(crate) fn newest(folder: &[u8]) -> Result<(Records, String), Error> {
        let (rules, at, len, mut out, mut wrote) = (Rules::Library as u32, folder.as_ptr(), folder.len(), [0; 64], 0);
        // SAFETY: both slices are valid for their lengths, and the handle is closed and lent to the call alone.
        let opens = |handle: &mut _| unsafe { ffi::phone_open_newest(handle, rules, at, len, out.as_mut_ptr(), out.len(), &mut wrote) };
        let records = Shared::by(opens).map_err(Error::of)?;
        Ok((records, String::from_utf8_lossy(&out[..wrote]).into_owned()))
    }

    /// The same records, asked by these rules.
    pub(crate) fn asked_by(&self, rules: Rules) -> Result<Records, Error> {
        let mut first = locked(&self.0.first);
        // SAFETY: both handles are lent to the call alone.
        Shared::by(|mine| unsafe { ffi::phone_share_by(&mut first.0, rules as u32, mine) }).map_err(Error::of)
    }
}
