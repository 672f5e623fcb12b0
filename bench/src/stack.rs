//! The deepest stack of each export: the call runs on a stack of its own that
//! was painted beforehand, and the lowest word that lost its paint tells how
//! deep it went.

use std::arch::asm;

use crate::buffer::{Buffer, Place};
use crate::random::{self, Drawn, Random};
use crate::reference::{FssUtf, Ucs4, Utf16, UtfEbcdic, LONGEST_TEXT};
use crate::text::{self, Class, Size};

const PAINT: u64 = 0xA5A5_5A5A_C3C3_3C3C;
const STACK_WORDS: usize = 8192;

macro_rules! exports {
    ($($name:ident)*) => {
        /// Every export with its address. They are declared elsewhere, with
        /// their arguments; here these are laid out by hand.
        fn exports() -> Vec<(&'static str, *const ())> {
            vec![$({
                let address;
                // SAFETY: only takes an address.
                unsafe {
                    asm!(
                        concat!("lea {}, [rip + ", stringify!($name), "]"),
                        out(reg) address,
                        options(nomem, nostack, preserves_flags),
                    );
                }
                (stringify!($name), address)
            }),*]
        }
    };
}

exports! {
    jk_fss_utf_item_at jk_fss_utf_item_covering jk_fss_utf_decode_lossy
    jk_utf_ebcdic_item_at jk_utf_ebcdic_item_covering jk_utf_ebcdic_decode_lossy
    jk_utf16_item_at jk_utf16_item_covering jk_utf16_decode_lossy
    jk_ucs4_item_at jk_ucs4_item_covering jk_ucs4_decode_lossy
    jk_fss_utf_to_utf_ebcdic jk_fss_utf_to_utf_ebcdic_length
    jk_fss_utf_to_utf16 jk_fss_utf_to_utf16_length
    jk_fss_utf_to_ucs4 jk_fss_utf_to_ucs4_length
    jk_utf_ebcdic_to_fss_utf jk_utf_ebcdic_to_fss_utf_length
    jk_utf_ebcdic_to_utf16 jk_utf_ebcdic_to_utf16_length
    jk_utf_ebcdic_to_ucs4 jk_utf_ebcdic_to_ucs4_length
    jk_utf16_to_fss_utf jk_utf16_to_fss_utf_length
    jk_utf16_to_utf_ebcdic jk_utf16_to_utf_ebcdic_length
    jk_utf16_to_ucs4 jk_utf16_to_ucs4_length
    jk_ucs4_to_fss_utf jk_ucs4_to_fss_utf_length
    jk_ucs4_to_utf_ebcdic jk_ucs4_to_utf_ebcdic_length
    jk_ucs4_to_utf16 jk_ucs4_to_utf16_length
}

/// Room for every result: a value of UCS-4 takes at most seven units.
const ROOM: usize = 7 * LONGEST_TEXT;

/// A stack painted anew before each call.
struct Stack {
    words: Buffer<u64>,
    answer: [u64; 4],
}

impl Stack {
    fn new() -> Self {
        let mut words = Buffer::new(Place::Text, STACK_WORDS);
        words.fill(PAINT);
        Stack {
            words,
            answer: [0; 4],
        }
    }

    /// How many bytes a call takes below its arguments, the return address
    /// among them.
    ///
    /// # Safety
    ///
    /// The function is an export that answers a struct in memory, and these are
    /// its arguments.
    unsafe fn depth(&mut self, function: *const (), arguments: [usize; 6]) -> usize {
        // The sixth argument goes on the stack, since the answer's address is
        // the first. Two words, as the stack is aligned to 16 bytes at a call.
        let top = STACK_WORDS - 2;
        self.words[top] = arguments[5] as u64;
        asm!(
            "mov r12, rsp",
            "mov rsp, {top}",
            "call {function}",
            "mov rsp, r12",
            top = in(reg) self.words.as_mut_ptr().add(top),
            function = in(reg) function,
            in("rdi") self.answer.as_mut_ptr(),
            in("rsi") arguments[0],
            in("rdx") arguments[1],
            in("rcx") arguments[2],
            in("r8") arguments[3],
            in("r9") arguments[4],
            out("r12") _,
            clobber_abi("C"),
        );
        let lowest = self.words.iter().position(|word| *word != PAINT);
        let lowest = lowest.expect("the argument is no paint");
        self.words[lowest..].fill(PAINT);
        (top - lowest) * size_of::<u64>()
    }
}

/// The texts of a form, good and damaged; some of characters that only this
/// form has; and one that is too long.
fn texts<F: Drawn>() -> Vec<Vec<F::Unit>> {
    let mut texts = vec![Vec::new(), vec![F::unit(0x41); LONGEST_TEXT + 1]];
    let mut random = Random::new(200);
    for _ in 0..200 {
        let mut text = Vec::new();
        random::draw::<F>(&mut text, 200, &mut random);
        texts.push(text);
    }
    for size in Size::ALL {
        for class in Class::ALL {
            let good = text::encode::<F>(&text::characters(class, size));
            texts.push(text::strike::<F>(&good));
            texts.push(good);
        }
    }
    texts
}

/// The deepest stack of each export that reads a form, over all texts.
fn depths_of<F: Drawn>(form: &str, deepest: &mut Vec<(&'static str, usize)>) {
    let mut stack = Stack::new();
    let mut values = Buffer::<u32>::new(Place::Result, ROOM);
    let mut starts = Buffer::<u32>::new(Place::SecondResult, ROOM);
    let (dst, second) = (values.as_mut_ptr() as usize, starts.as_mut_ptr() as usize);
    let texts = texts::<F>();
    for (name, function) in exports() {
        let Some(kind) = name
            .strip_prefix("jk_")
            .and_then(|name| name.strip_prefix(form))
        else {
            continue;
        };
        let mut most = 0;
        for text in &texts {
            let (src, len) = (text.as_ptr() as usize, text.len());
            let mut call = |arguments| {
                // SAFETY: the kind of the export has these arguments, of which
                // the buffers are wider than any unit needs.
                most = most.max(unsafe { stack.depth(function, arguments) });
            };
            if kind.ends_with("_length") {
                call([src, len, 0, 0, 0, 0]);
            } else if kind.starts_with("_to_") {
                call([src, len, dst, ROOM, 0, 0]);
                call([src, len, dst, 0, 0, 0]);
            } else if kind == "_decode_lossy" {
                call([src, len, dst, ROOM, second, ROOM]);
                call([src, len, dst, 0, second, ROOM]);
            } else {
                // Every offset of a short text, many of a long one, and beyond.
                for offset in (0..len + 2).step_by(1 + len / 500) {
                    call([src, len, offset, 0, 0, 0]);
                }
            }
        }
        deepest.push((name, most));
    }
}

/// Every export with the bytes of its deepest stack, the deepest first.
pub fn depths() -> Vec<(&'static str, usize)> {
    let mut depths = Vec::new();
    depths_of::<FssUtf>("fss_utf", &mut depths);
    depths_of::<UtfEbcdic>("utf_ebcdic", &mut depths);
    depths_of::<Utf16>("utf16", &mut depths);
    depths_of::<Ucs4>("ucs4", &mut depths);
    depths.sort_by_key(|(_, bytes)| std::cmp::Reverse(*bytes));
    depths
}

#[cfg(test)]
mod tests {
    use super::*;
    use std::collections::BTreeSet;

    #[test]
    fn every_export_of_the_header_is_run() {
        let header = include_str!("../../include/jiskromet.h");
        let declared: BTreeSet<&str> = header
            .lines()
            .filter_map(|line| line.split_once(" jk_"))
            .filter(|(before, _)| before.starts_with("jk_"))
            .filter_map(|(_, after)| after.split_once('('))
            .map(|(name, _)| name)
            .collect();
        let run: BTreeSet<&str> = depths()
            .iter()
            .map(|(name, _)| name.strip_prefix("jk_").unwrap())
            .collect();
        assert_eq!(declared, run);
    }

    /// A function whose stack is known by sight.
    extern "C" fn shallow(answer: *mut u64) -> *mut u64 {
        answer
    }

    extern "C" fn deep(answer: *mut u64) -> *mut u64 {
        let array = std::hint::black_box([0x1111_u64; 100]);
        // SAFETY: the answer has room.
        unsafe { *answer = array[3] };
        answer
    }

    #[test]
    fn depth_is_what_a_call_takes() {
        let mut stack = Stack::new();
        // SAFETY: both take the answer's address and nothing else.
        let (shallow, deep) = unsafe {
            (
                stack.depth(shallow as *const (), [0; 6]),
                stack.depth(deep as *const (), [0; 6]),
            )
        };
        assert!((8..100).contains(&shallow), "{shallow}");
        assert!((800..2000).contains(&deep), "{deep}");
    }
}
