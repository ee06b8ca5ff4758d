//! The archive's heap, over Rust's global allocator. Each block has its length before it.
use alloc::alloc::{alloc, dealloc, realloc};
use core::alloc::Layout;
use core::ptr;

/// The bytes before a block, which keep it aligned to 16.
const HEAD: usize = 16;

/// What the archive gets: whether there is a block, and its address.
#[repr(C)]
struct Tried {
    is_there: bool,
    block: *mut u8,
}

/// No memory: some address that is not null.
const NONE: Tried = Tried { is_there: false, block: ptr::without_provenance_mut(HEAD) };

fn layout(length: usize) -> Option<Layout> {
    Layout::from_size_align(length.checked_add(HEAD)?, HEAD).ok()
}

/// Notes the length of a block, if there is one.
///
/// # Safety
///
/// `start` is null, or a block of `layout(length)`.
unsafe fn tried(start: *mut u8, length: usize) -> Tried {
    if start.is_null() {
        return NONE;
    }
    // SAFETY: the block has HEAD bytes more than its length, and is aligned to HEAD.
    unsafe {
        start.cast::<usize>().write(length);
        Tried { is_there: true, block: start.add(HEAD) }
    }
}

#[unsafe(no_mangle)]
extern "C" fn rattle_alloc(length: usize, _alignment: usize) -> Tried {
    match layout(length) {
        // SAFETY: the layout has at least HEAD bytes, and the result is null or such a block.
        Some(it) => unsafe { tried(alloc(it), length) },
        None => NONE,
    }
}

#[unsafe(no_mangle)]
unsafe extern "C" fn rattle_realloc(block: *mut u8, _kept: usize, length: usize, _alignment: usize) -> Tried {
    // SAFETY: the archive gives a block that it got here, so its length is before it.
    let (start, old) = unsafe { (block.sub(HEAD), block.sub(HEAD).cast::<usize>().read()) };
    match (layout(old), layout(length)) {
        // SAFETY: `start` is a block of the old layout, and the new one has at least HEAD bytes.
        (Some(old), Some(new)) => unsafe { tried(realloc(start, old, new.size()), length) },
        _ => NONE,
    }
}

#[unsafe(no_mangle)]
unsafe extern "C" fn rattle_dealloc(block: *mut u8) {
    // SAFETY: as in `rattle_realloc`.
    let (start, length) = unsafe { (block.sub(HEAD), block.sub(HEAD).cast::<usize>().read()) };
    if let Some(it) = layout(length) {
        // SAFETY: it was allocated with this layout.
        unsafe { dealloc(start, it) };
    }
}
