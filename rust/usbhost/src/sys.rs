//! The archive's exports.

/// The archive's part of a host. It may be moved, and not copied; zeros are a closed one.
#[repr(C)]
pub(crate) struct Handle {
    at: *mut u8,
    is_live: bool,
}

impl Handle {
    pub(crate) const CLOSED: Handle = Handle { at: core::ptr::null_mut(), is_live: false };
}

// A slice crosses as a pointer and a length. No pointer may be null.
unsafe extern "C" {
    fn usb_handle_open(
        handle: &mut Handle,
        roots: u8,
        wide: u8,
        device_bytes: u32,
        statuses: *const u8,
        length: usize,
    ) -> u8;
    fn usb_handle_begin(handle: &mut Handle, want: *const u8, length: usize) -> u8;
    fn usb_handle_question(handle: &mut Handle, question: *mut u8, room: usize) -> u8;
    fn usb_handle_answer(handle: &mut Handle, answer: *const u8, length: usize) -> u8;
    fn usb_handle_answer_row(
        handle: &mut Handle,
        before: *const u8,
        before_length: usize,
        answer: *const u8,
        length: usize,
    ) -> u8;
    fn usb_handle_told(handle: &mut Handle, skip: usize, room: *mut u8, length: usize) -> usize;
    fn usb_handle_close(handle: &mut Handle) -> u8;
}

// SAFETY of each call below: the handle is closed or was opened here, and nobody else has it during the call. A slice's
// pointer is not null and good for its length, for reading or, of a `&mut` one, for writing.

pub(crate) fn open(handle: &mut Handle, roots: u8, is_wide: bool, device_bytes: u32, statuses: &[u8]) -> u8 {
    unsafe { usb_handle_open(handle, roots, u8::from(is_wide), device_bytes, statuses.as_ptr(), statuses.len()) }
}

pub(crate) fn begin(handle: &mut Handle, want: &[u8]) -> u8 {
    unsafe { usb_handle_begin(handle, want.as_ptr(), want.len()) }
}

pub(crate) fn question(handle: &mut Handle, room: &mut [u8]) -> u8 {
    unsafe { usb_handle_question(handle, room.as_mut_ptr(), room.len()) }
}

pub(crate) fn answer(handle: &mut Handle, answer: &[u8]) -> u8 {
    unsafe { usb_handle_answer(handle, answer.as_ptr(), answer.len()) }
}

pub(crate) fn answer_row(handle: &mut Handle, before: &[u8], answer: &[u8]) -> u8 {
    unsafe { usb_handle_answer_row(handle, before.as_ptr(), before.len(), answer.as_ptr(), answer.len()) }
}

/// Copies the records, and returns the number of their bytes.
pub(crate) fn told(handle: &mut Handle, room: &mut [u8]) -> usize {
    unsafe { usb_handle_told(handle, 0, room.as_mut_ptr(), room.len()) }
}

pub(crate) fn close(handle: &mut Handle) -> u8 {
    unsafe { usb_handle_close(handle) }
}
