//! A handle that closes itself, and what calls answer.

use crate::{sys, AskError};
use std::cell::UnsafeCell;
use std::ptr;

/// A handle. It is not `Sync`: each call moves what it stands for out and back.
pub struct Handle(UnsafeCell<sys::gtd_handle>);

// SAFETY: what a handle stands for belongs to it alone, or is records behind a count that threads may share. The library keeps
// nothing for a thread.
unsafe impl Send for Handle {}

impl Handle {
    /// The empty handle.
    pub fn none() -> Handle {
        Handle(UnsafeCell::new(sys::gtd_handle { full: false, at: ptr::null_mut() }))
    }

    /// What a call is given. No other call may use the handle at the same time.
    pub fn get(&self) -> *mut sys::gtd_handle {
        self.0.get()
    }

    /// The handle that a call opens, if it answers yes.
    pub fn opened(open: impl FnOnce(*mut sys::gtd_handle) -> u32) -> Result<Handle, AskError> {
        let handle = Handle::none();
        done(open(handle.get()))?;
        Ok(handle)
    }

    /// The bytes of the text that the handle stands for.
    pub fn into_text(self) -> Result<String, AskError> {
        // SAFETY: `text_of` gives the address and the length of a buffer of its own.
        text_of(|out, room, length| unsafe { sys::gtd_text_bytes(self.get(), out, room, length) })
    }
}

impl Drop for Handle {
    fn drop(&mut self) {
        // SAFETY: nothing else uses the handle.
        unsafe { sys::gtd_close(self.get()) }
    }
}

/// The answer to a question of yes or no.
pub fn yes_or_no(answer: u32) -> Result<bool, AskError> {
    match answer {
        sys::YES => Ok(true),
        sys::NO => Ok(false),
        sys::RANGE => Err(AskError::Range),
        sys::MEMORY => Err(AskError::Memory),
        sys::YEAR => Err(AskError::Year),
        // The types of this crate give each call a handle of its kind, and enough room.
        other => unreachable!("libgtd answers {other}"),
    }
}

/// The answer of a call that is done, or says why not.
pub fn done(answer: u32) -> Result<(), AskError> {
    yes_or_no(answer).map(|_| ())
}

/// What a call has written, if it answers yes.
pub fn if_yes<T: Default>(call: impl FnOnce(&mut T) -> u32) -> Result<Option<T>, AskError> {
    let mut value = T::default();
    let is_there = yes_or_no(call(&mut value))?;
    Ok(is_there.then_some(value))
}

/// A list of unknown length, which a call writes to an address, for a room, and says how long it is.
pub fn list_of<T: Copy + Default>(mut call: impl FnMut(*mut T, usize, *mut usize) -> u32) -> Result<Vec<T>, AskError> {
    let mut list = vec![T::default(); 64];
    let mut length = 0;
    let mut answer = call(list.as_mut_ptr(), list.len(), &mut length);
    if answer == sys::SHORT {
        list.resize(length, T::default());
        answer = call(list.as_mut_ptr(), list.len(), &mut length);
    }
    done(answer)?;
    list.truncate(length);
    Ok(list)
}

/// A text of unknown length. The texts of the library are ASCII.
pub fn text_of(call: impl FnMut(*mut u8, usize, *mut usize) -> u32) -> Result<String, AskError> {
    Ok(String::from_utf8_lossy(&list_of(call)?).into_owned())
}
