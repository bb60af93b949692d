//! Objects of the library, which are freed when they are dropped, and what its calls copy out.
use crate::calls;
use crate::numbers::Kind;
use crate::refused::Refused;
use crate::sys::{self, Object as Raw, Sizes};
use std::cell::UnsafeCell;
use std::fmt;
use std::ptr;

/// An object, with a value or nothing.
///
/// It stays on its thread: a raw pointer makes it, and each type that has one, neither `Send` nor `Sync`.
pub struct Held {
    raw: UnsafeCell<Raw>,
}

impl Held {
    pub(crate) fn new() -> Held {
        let raw = Raw {
            at: ptr::null_mut(),
            is_full: false,
        };
        Held {
            raw: UnsafeCell::new(raw),
        }
    }

    /// What the calls take. One that only looks takes the value out for its time and puts it back, so that it needs a pointer
    /// that may write, also behind a shared reference.
    pub(crate) fn as_ptr(&self) -> *mut Raw {
        self.raw.get()
    }
}

impl Drop for Held {
    fn drop(&mut self) {
        calls::amqp_free(self);
    }
}

impl fmt::Debug for Held {
    fn fmt(&self, f: &mut fmt::Formatter<'_>) -> fmt::Result {
        match Kind::of(calls::amqp_kind(self)) {
            Ok(kind) => write!(f, "{kind:?}"),
            Err(refused) => write!(f, "{refused}"),
        }
    }
}

/// A type of this crate that is an object. No other can be one.
pub trait HasHeld {
    fn held(&self) -> &Held;
}

/// What each object has.
pub trait Object: HasHeld {
    /// The kind of what is in the object.
    #[doc(alias = "amqp_kind")]
    fn kind(&self) -> Result<Kind, Refused> {
        Kind::of(calls::amqp_kind(self.held()))
    }
}

impl<T: HasHeld> Object for T {}

/// Nothing if a call is done, or why it was refused.
pub(crate) fn done(status: u32) -> Result<(), Refused> {
    match status {
        sys::OK => Ok(()),
        status => Err(Refused::of(status)),
    }
}

/// Makes a buffer this long, whatever is in it, or leaves it if there is no memory.
pub(crate) fn resize(buffer: &mut Vec<u8>, size: usize) -> Result<(), Refused> {
    let more = size.saturating_sub(buffer.len());
    buffer.try_reserve_exact(more).map_err(|_| Refused::OutOfMemory)?;
    buffer.resize(size, 0);
    Ok(())
}

/// The bytes that a call copies out into a buffer, beside which it writes their size. If `room` is too small, it is called
/// again with a buffer of that size.
pub(crate) fn bytes(room: usize, mut copy: impl FnMut(&mut [u8], &mut usize) -> u32) -> Result<Vec<u8>, Refused> {
    let (mut buffer, mut size) = (Vec::new(), 0);
    resize(&mut buffer, room)?;
    let mut status = copy(&mut buffer, &mut size);
    if status == sys::BUFFER_TOO_SMALL {
        resize(&mut buffer, size)?;
        status = copy(&mut buffer, &mut size);
    }
    done(status)?;
    buffer.truncate(size);
    Ok(buffer)
}

/// The same of a call that copies out two runs of bytes.
pub(crate) fn both(
    room: usize,
    mut copy: impl FnMut(&mut [u8], &mut [u8], &mut Sizes) -> u32,
) -> Result<(Vec<u8>, Vec<u8>), Refused> {
    let (mut first, mut second, mut sizes) = (Vec::new(), Vec::new(), Sizes::default());
    resize(&mut first, room)?;
    resize(&mut second, room)?;
    let mut status = copy(&mut first, &mut second, &mut sizes);
    if status == sys::BUFFER_TOO_SMALL {
        resize(&mut first, sizes.first)?;
        resize(&mut second, sizes.second)?;
        status = copy(&mut first, &mut second, &mut sizes);
    }
    done(status)?;
    first.truncate(sizes.first);
    second.truncate(sizes.second);
    Ok((first, second))
}

/// The text of these bytes, which the library gives in UTF-8.
pub(crate) fn text(bytes: Vec<u8>) -> Result<String, Refused> {
    String::from_utf8(bytes).map_err(|_| Refused::NoText)
}

#[cfg(test)]
mod tests {
    use super::{both, bytes, Refused};
    use crate::sys;

    // Copies so many bytes out, as a call does.
    fn copy(count: usize, buffer: &mut [u8], size: &mut usize) -> u32 {
        *size = count;
        if buffer.len() < count {
            return sys::BUFFER_TOO_SMALL;
        }
        buffer[..count].fill(1);
        sys::OK
    }

    #[test]
    fn buffers_grow_to_the_size_that_is_written() {
        for count in [0, 31, 32, 33, 5000] {
            assert_eq!(bytes(32, |buffer, size| copy(count, buffer, size)), Ok(vec![1; count]));
            let two = both(32, |first, second, sizes| {
                let status = copy(count, first, &mut sizes.first);
                status.max(copy(40, second, &mut sizes.second))
            });
            assert_eq!(two, Ok((vec![1; count], vec![1; 40])));
        }
    }

    #[test]
    fn a_buffer_that_stays_too_small_is_a_refusal() {
        let grows = |buffer: &mut [u8], size: &mut usize| copy(buffer.len() + 1, buffer, size);
        assert_eq!(bytes(4, grows), Err(Refused::BufferTooSmall));
        let two = both(4, |first, _, sizes| copy(first.len() + 1, first, &mut sizes.first));
        assert_eq!(two, Err(Refused::BufferTooSmall));
        assert_eq!(
            bytes(4, |_, size| copy(usize::MAX, &mut [], size)),
            Err(Refused::OutOfMemory)
        );
        assert_eq!(bytes(4, |_, _| sys::UNKNOWN_TAG), Err(Refused::UnknownTag));
    }
}
