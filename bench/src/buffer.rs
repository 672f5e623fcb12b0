//! Buffers at fixed places within a page, so that no run is lucky.

use std::alloc::{alloc_zeroed, dealloc, handle_alloc_error, Layout};
use std::ops::{Deref, DerefMut};
use std::ptr::NonNull;
use std::slice;

const PAGE: usize = 4096;

/// Where in its page a buffer starts: texts and results apart, so that they do
/// not compete for the same lines of the cache.
#[derive(Clone, Copy)]
pub enum Place {
    Text = 0,
    Result = 1024,
    SecondResult = 2048,
}

/// A slice of plain numbers.
pub struct Buffer<U> {
    allocated: NonNull<u8>,
    layout: Layout,
    start: NonNull<U>,
    length: usize,
}

impl<U: Copy + Default> Buffer<U> {
    pub fn new(place: Place, length: usize) -> Self {
        let bytes = place as usize + length * size_of::<U>() + PAGE;
        let layout = Layout::from_size_align(bytes, PAGE).expect("a short buffer");
        // SAFETY: the layout is not empty, and the start lies within it.
        unsafe {
            let Some(allocated) = NonNull::new(alloc_zeroed(layout)) else {
                handle_alloc_error(layout)
            };
            let start = allocated.add(place as usize).cast::<U>();
            let mut buffer = Buffer {
                allocated,
                layout,
                start,
                length,
            };
            buffer.fill(U::default());
            buffer
        }
    }

    pub fn text(units: &[U]) -> Self {
        let mut buffer = Buffer::new(Place::Text, units.len());
        buffer.copy_from_slice(units);
        buffer
    }
}

impl<U> Drop for Buffer<U> {
    fn drop(&mut self) {
        // SAFETY: allocated with this layout.
        unsafe { dealloc(self.allocated.as_ptr(), self.layout) };
    }
}

impl<U> Deref for Buffer<U> {
    type Target = [U];

    fn deref(&self) -> &[U] {
        // SAFETY: so many numbers were allocated here and set to 0.
        unsafe { slice::from_raw_parts(self.start.as_ptr(), self.length) }
    }
}

impl<U> DerefMut for Buffer<U> {
    fn deref_mut(&mut self) -> &mut [U] {
        // SAFETY: as above, and borrowed mutably.
        unsafe { slice::from_raw_parts_mut(self.start.as_ptr(), self.length) }
    }
}
