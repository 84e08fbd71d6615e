//! Memory for a web page, which has none to share with the library: it puts its texts there.

/// Memory of so many bytes, aligned to eight.
#[no_mangle]
pub extern "C" fn lak_take(size: usize) -> *mut u64 {
    Box::leak(vec![0u64; size.div_ceil(8)].into_boxed_slice()).as_mut_ptr()
}

/// Gives back what `lak_take` gave for that size.
///
/// # Safety
///
/// It was given for that size, and wasn't given back.
#[no_mangle]
pub unsafe extern "C" fn lak_give(at: *mut u64, size: usize) {
    drop(unsafe { Box::from_raw(std::ptr::slice_from_raw_parts_mut(at, size.div_ceil(8))) });
}
