//! Clears the memory of contexts, which hold session keys, before it is given back.
use crate::{Receiver, Sender};
use core::mem::size_of;
use core::ptr::write_volatile;
use core::sync::atomic::{compiler_fence, Ordering};

/// Writes zero over every byte of a value, padding too. Nobody reads the value again, so only volatile writes are sure to stay; the fence
/// keeps them ahead of what the memory is used for next.
///
/// # Safety
///
/// Zero bytes must be a value of `T`.
unsafe fn clear<T>(value: &mut T) {
    let bytes: *mut u8 = (value as *mut T).cast();
    for at in 0..size_of::<T>() {
        // SAFETY: the byte is one of the value's, which is lent to us alone.
        unsafe { write_volatile(bytes.add(at), 0) };
    }
    compiler_fence(Ordering::SeqCst);
}

impl Drop for Sender {
    fn drop(&mut self) {
        // SAFETY: zero bytes are the closed context.
        unsafe { clear(&mut self.0) }
    }
}

impl Drop for Receiver {
    fn drop(&mut self) {
        // SAFETY: as for a sender.
        unsafe { clear(&mut self.0) }
    }
}
