//! More cells than 32 bits count.

use std::alloc::{alloc_zeroed, dealloc, Layout};
use std::fmt::Display;

use crate::report::Group;

/// More cells than 32 bits count: cut to 32 bits, their number would be small.
/// They are zero, and their memory is reserved only.
pub struct Reserved<U> {
    pub pointer: *mut U,
    layout: Layout,
}

impl<U> Reserved<U> {
    pub const COUNT: usize = (1 << 32) + 5;

    /// None, and a note, where the machine has no room for them.
    pub fn reserve(group: &mut Group, what: impl Display) -> Option<Self> {
        let layout = Layout::array::<U>(Self::COUNT).expect("less than isize::MAX");
        // SAFETY: the layout is not empty.
        let pointer = unsafe { alloc_zeroed(layout) };
        if pointer.is_null() {
            group.note(format!(
                "no room for {} bytes: {what} was not run",
                layout.size()
            ));
            return None;
        }
        Some(Reserved {
            pointer: pointer.cast(),
            layout,
        })
    }
}

impl<U> Drop for Reserved<U> {
    fn drop(&mut self) {
        // SAFETY: it was allocated with this layout.
        unsafe { dealloc(self.pointer.cast(), self.layout) };
    }
}
