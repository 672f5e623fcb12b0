//! ICU's conversions, where it is installed.

use std::ffi::{c_char, CStr};

/// Whether the benchmark was built with ICU.
pub const INSTALLED: bool = cfg!(icu);

#[cfg(icu)]
mod linked {
    use super::c_char;

    extern "C" {
        pub fn bench_icu_utf8_to_utf16(src: *const u8, len: i32, dst: *mut u16, room: i32) -> i32;
        pub fn bench_icu_utf16_to_utf8(src: *const u16, len: i32, dst: *mut u8, room: i32) -> i32;
        pub fn bench_icu_utf16_to_utf32(src: *const u16, len: i32, dst: *mut u32, room: i32)
            -> i32;
        pub fn bench_icu_utf32_to_utf16(src: *const u32, len: i32, dst: *mut u16, room: i32)
            -> i32;
        pub fn bench_icu_utf8_to_utf32(
            src: *const u8,
            len: i32,
            dst: *mut u32,
            room: i32,
            between: *mut u16,
            between_room: i32,
        ) -> i32;
        pub fn bench_icu_utf32_to_utf8(
            src: *const u32,
            len: i32,
            dst: *mut u8,
            room: i32,
            between: *mut u16,
            between_room: i32,
        ) -> i32;
        pub fn bench_icu_version() -> *const c_char;
    }
}

/// Never called: without ICU no contestant of its name takes part.
#[cfg(not(icu))]
#[rustfmt::skip]
mod linked {
    use super::c_char;

    const ABSENT: &str = "ICU is not installed";

    pub unsafe fn bench_icu_utf8_to_utf16(_: *const u8, _: i32, _: *mut u16, _: i32) -> i32 { panic!("{ABSENT}") }
    pub unsafe fn bench_icu_utf16_to_utf8(_: *const u16, _: i32, _: *mut u8, _: i32) -> i32 { panic!("{ABSENT}") }
    pub unsafe fn bench_icu_utf16_to_utf32(_: *const u16, _: i32, _: *mut u32, _: i32) -> i32 { panic!("{ABSENT}") }
    pub unsafe fn bench_icu_utf32_to_utf16(_: *const u32, _: i32, _: *mut u16, _: i32) -> i32 { panic!("{ABSENT}") }
    pub unsafe fn bench_icu_utf8_to_utf32(_: *const u8, _: i32, _: *mut u32, _: i32, _: *mut u16, _: i32) -> i32 { panic!("{ABSENT}") }
    pub unsafe fn bench_icu_utf32_to_utf8(_: *const u32, _: i32, _: *mut u8, _: i32, _: *mut u16, _: i32) -> i32 { panic!("{ABSENT}") }
    pub unsafe fn bench_icu_version() -> *const c_char { panic!("{ABSENT}") }
}

pub fn version() -> Option<String> {
    // SAFETY: the answer is a C string that is never freed.
    INSTALLED.then(|| unsafe {
        CStr::from_ptr(linked::bench_icu_version())
            .to_string_lossy()
            .into_owned()
    })
}

fn answer(units: i32) -> Option<usize> {
    usize::try_from(units).ok()
}

/// A direct conversion, and its count, which writes nothing.
macro_rules! direct {
    ($convert:ident, $count:ident, $from:ty, $to:ty, $linked:ident) => {
        pub fn $convert(src: &[$from], dst: &mut [$to]) -> Option<usize> {
            // SAFETY: pointers and lengths are those of slices, which are short.
            answer(unsafe {
                linked::$linked(
                    src.as_ptr(),
                    src.len() as i32,
                    dst.as_mut_ptr(),
                    dst.len() as i32,
                )
            })
        }

        pub fn $count(src: &[$from]) -> Option<usize> {
            // SAFETY: as above; no buffer is lent.
            answer(unsafe {
                linked::$linked(src.as_ptr(), src.len() as i32, std::ptr::null_mut(), 0)
            })
        }
    };
}

direct!(
    utf8_to_utf16,
    utf8_to_utf16_count,
    u8,
    u16,
    bench_icu_utf8_to_utf16
);
direct!(
    utf16_to_utf8,
    utf16_to_utf8_count,
    u16,
    u8,
    bench_icu_utf16_to_utf8
);
direct!(
    utf16_to_utf32,
    utf16_to_utf32_count,
    u16,
    u32,
    bench_icu_utf16_to_utf32
);
direct!(
    utf32_to_utf16,
    utf32_to_utf16_count,
    u32,
    u16,
    bench_icu_utf32_to_utf16
);

/// A conversion through a buffer of UTF-16.
macro_rules! through_utf16 {
    ($convert:ident, $from:ty, $to:ty, $linked:ident) => {
        pub fn $convert(src: &[$from], dst: &mut [$to], between: &mut [u16]) -> Option<usize> {
            // SAFETY: pointers and lengths are those of slices, which are short.
            answer(unsafe {
                linked::$linked(
                    src.as_ptr(),
                    src.len() as i32,
                    dst.as_mut_ptr(),
                    dst.len() as i32,
                    between.as_mut_ptr(),
                    between.len() as i32,
                )
            })
        }
    };
}

through_utf16!(utf8_to_utf32, u8, u32, bench_icu_utf8_to_utf32);
through_utf16!(utf32_to_utf8, u32, u8, bench_icu_utf32_to_utf8);
