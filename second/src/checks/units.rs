//! Every unit alone, and every pair.

use crate::library::Linked;
use crate::random::{Drawn, Random};
use crate::reference::{FssUtf, Ucs4, Utf16, UtfEbcdic};
use crate::report::Group;

/// Both sides of each bound within UTF-16 and of the highest unit.
const UTF_16_BOUNDS: [u16; 22] = [
    0x0000, 0x0001, 0x0041, 0x007F, 0x0080, 0x07FF, 0x0800, 0xD7FE, 0xD7FF, 0xD800, 0xD801, 0xDBFE,
    0xDBFF, 0xDC00, 0xDC01, 0xDFFE, 0xDFFF, 0xE000, 0xE001, 0xFEFF, 0xFFFE, 0xFFFF,
];

const UCS_4_BOUNDS: [u32; 16] = [
    0x0,
    0x1,
    0x7F,
    0x80,
    0xD7FF,
    0xD800,
    0xDFFF,
    0xE000,
    0xFFFF,
    0x1_0000,
    0x10_FFFF,
    0x11_0000,
    0x7FFF_FFFE,
    0x7FFF_FFFF,
    0x8000_0000,
    0xFFFF_FFFF,
];

pub fn check(group: &mut Group) {
    bytes::<FssUtf>(group);
    bytes::<UtfEbcdic>(group);

    for unit in 0..=0xFFFF {
        group.agree_everywhere::<Utf16>(&[unit], "unit");
        // Each unit beside a high and a low one shows its role.
        group.agree_everywhere::<Utf16>(&[0xD800, unit], "after a high unit");
        group.agree_everywhere::<Utf16>(&[unit, 0xDFFF], "before a low unit");
    }
    for first in UTF_16_BOUNDS {
        for second in UTF_16_BOUNDS {
            group.agree_everywhere::<Utf16>(&[first, second], "pair of units");
            for third in UTF_16_BOUNDS {
                group.agree_everywhere::<Utf16>(&[first, second, third], "three units");
            }
        }
    }

    for first in UCS_4_BOUNDS {
        group.agree_everywhere::<Ucs4>(&[first], "unit");
        for second in UCS_4_BOUNDS {
            group.agree_everywhere::<Ucs4>(&[first, second], "pair of units");
        }
    }
    for bit in 0..32 {
        for unit in [1_u32 << bit, (1 << bit) - 1, !(1 << bit)] {
            group.agree_everywhere::<Ucs4>(&[unit], "unit");
        }
    }
    let mut random = Random::new(3);
    for _ in 0..5_000 {
        group.agree_everywhere::<Ucs4>(&[Ucs4::any_unit(&mut random)], "unit");
        group.agree_everywhere::<Ucs4>(&[Ucs4::telling_unit(&mut random)], "unit");
    }
}

fn bytes<F: Linked<Unit = u8>>(group: &mut Group) {
    for first in 0..=0xFF {
        group.agree_everywhere::<F>(&[first], "byte");
        for second in 0..=0xFF {
            group.agree_everywhere::<F>(&[first, second], "pair of bytes");
        }
    }
}
