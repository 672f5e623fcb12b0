//! glibc's iconv.

use std::ffi::{c_char, c_int, c_void, CStr};
use std::mem::size_of;
use std::ptr::null_mut;

extern "C" {
    fn iconv_open(to: *const c_char, from: *const c_char) -> *mut c_void;
    fn iconv(
        descriptor: *mut c_void,
        src: *mut *const u8,
        src_left: *mut usize,
        dst: *mut *mut u8,
        dst_left: *mut usize,
    ) -> usize;
    fn iconv_close(descriptor: *mut c_void) -> c_int;
    fn gnu_get_libc_version() -> *const c_char;
}

const FAILED: usize = usize::MAX;

/// iconv's name of a form, where it has the form.
pub fn name_of(form: &str) -> Option<&'static CStr> {
    match form {
        "FSS-UTF" => Some(c"UTF-8"),
        "UTF-16" => Some(c"UTF-16LE"),
        "UCS-4" => Some(c"UCS-4LE"),
        _ => None,
    }
}

pub fn version() -> String {
    // SAFETY: the answer is a C string that is never freed.
    unsafe { CStr::from_ptr(gnu_get_libc_version()) }
        .to_string_lossy()
        .into_owned()
}

/// A conversion descriptor, opened once and reset before each text.
pub struct Iconv(*mut c_void);

impl Iconv {
    pub fn open(from: &CStr, to: &CStr) -> Self {
        // SAFETY: both are C strings.
        let descriptor = unsafe { iconv_open(to.as_ptr(), from.as_ptr()) };
        assert!(
            descriptor as usize != FAILED,
            "iconv lacks {from:?} to {to:?}"
        );
        Iconv(descriptor)
    }

    pub fn convert<F, G>(&mut self, src: &[F], dst: &mut [G]) -> Option<usize> {
        let room = size_of_val(dst);
        let mut src_at = src.as_ptr().cast::<u8>();
        let mut src_left = size_of_val(src);
        let mut dst_at = dst.as_mut_ptr().cast::<u8>();
        let mut dst_left = room;
        // SAFETY: pointers and lengths are those of slices of plain numbers.
        let answer = unsafe {
            iconv(self.0, null_mut(), null_mut(), null_mut(), null_mut());
            iconv(
                self.0,
                &mut src_at,
                &mut src_left,
                &mut dst_at,
                &mut dst_left,
            )
        };
        (answer == 0 && src_left == 0).then(|| (room - dst_left) / size_of::<G>())
    }
}

impl Drop for Iconv {
    fn drop(&mut self) {
        // SAFETY: the descriptor is open, and used no more.
        unsafe { iconv_close(self.0) };
    }
}
