//! What the calls of the library have in common.

use std::ffi::{CStr, c_char};

use lichenknit_sys as sys;

use crate::error::{Error, Result, TextFault};
use crate::kinds::TextKind;

/// The status of a call as a result.
pub(crate) fn checked(status: sys::sci_status) -> Result<()> {
    match status {
        sys::SCI_OK => Ok(()),
        other => Err(Error::of(other)),
    }
}

/// What a call writes.
pub(crate) fn written<T: Default>(call: impl FnOnce(*mut T) -> sys::sci_status) -> Result<T> {
    let mut value = T::default();
    checked(call(&mut value))?;
    Ok(value)
}

/// What a call writes, or None if it isn't there.
pub(crate) fn found<T: Default>(call: impl FnOnce(*mut T) -> sys::sci_status) -> Result<Option<T>> {
    match written(call) {
        Err(Error::NotEnabled) => Ok(None),
        other => other.map(Some),
    }
}

/// What a call writes that only an object without contents refuses, and the types of this crate have none.
pub(crate) fn read<T: Default>(call: impl FnOnce(*mut T) -> sys::sci_status) -> T {
    written(call).unwrap_or_default()
}

/// The text that a call writes into room that is large enough.
pub(crate) fn text_of(
    call: impl Fn(*mut u8, usize, *mut usize) -> sys::sci_status,
) -> Result<String> {
    let (mut text, mut used) = (Vec::new(), 0);
    loop {
        match checked(call(text.as_mut_ptr(), text.len(), &mut used)) {
            Err(Error::Full) => text.resize(used, 0),
            Err(error) => return Err(error),
            Ok(()) => break,
        }
    }
    text.truncate(used);
    Ok(String::from_utf8_lossy(&text).into_owned())
}

/// The status of a call that reads a text as a result, with the fault that it wrote.
pub(crate) fn read_text(status: sys::sci_status, fault: sys::sci_text_fault) -> Result<()> {
    match status {
        sys::SCI_TEXT => Err(Error::Text(TextFault {
            line: fault.line,
            kind: TextKind::of(fault.kind).unwrap_or(TextKind::Syntax),
        })),
        status => checked(status),
    }
}

/// A static text of the library.
pub(crate) fn text(at: *const c_char) -> &'static str {
    // SAFETY: the library gives static texts, which end with a zero.
    unsafe { CStr::from_ptr(at) }.to_str().unwrap_or("?")
}
