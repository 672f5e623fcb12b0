//! Every value that UTF-16 holds, the bounds of the others, every pair of
//! bytes and every 16-bit unit, from form to form.

use super::{agree, each_pair, three_ways};
use crate::checks::boundaries::boundary_values;
use crate::library::LinkedTo;
use crate::random::{Drawn, Random};
use crate::reference::{FssUtf, Refusal, Ucs4, Utf16, UtfEbcdic};
use crate::report::Group;

pub fn check(group: &mut Group) {
    each_pair!(bounds(group));
    each_pair!(drawn(group));
    each_pair!(in_turn(group));
    bytes::<FssUtf, UtfEbcdic>(group);
    bytes::<FssUtf, Utf16>(group);
    bytes::<FssUtf, Ucs4>(group);
    bytes::<UtfEbcdic, FssUtf>(group);
    bytes::<UtfEbcdic, Utf16>(group);
    bytes::<UtfEbcdic, Ucs4>(group);
    utf_16_units::<FssUtf>(group);
    utf_16_units::<UtfEbcdic>(group);
    utf_16_units::<Ucs4>(group);
}

/// Each bound of any form's lengths with the values next to it, alone and
/// beside itself and others.
fn bounds<F: LinkedTo<G> + Drawn, G: LinkedTo<F>>(group: &mut Group) {
    let values = boundary_values();
    for &value in &values {
        let Some(sequence) = F::shortest(value) else {
            continue;
        };
        agree::<F, G>(group, "boundary value", &sequence);
        for length in 1..sequence.len() {
            agree::<F, G>(group, "boundary value cut short", &sequence[..length]);
        }
        for &other in &values {
            if let Some(other) = F::shortest(other) {
                let text = [&sequence[..], &other].concat();
                agree::<F, G>(group, "two boundary values", &text);
            }
        }
    }
}

/// Single characters of the source form.
fn drawn<F: LinkedTo<G> + Drawn, G: LinkedTo<F>>(group: &mut Group) {
    let mut random = Random::new(0xB00);
    for _ in 0..5_000 {
        let legal = F::encode(F::value(&mut random)).expect("a drawn value has an encoding");
        agree::<F, G>(group, "value", &legal);
    }
}

/// Every value from 0 to 10FFFF that both forms hold, in texts of 4,096. The two
/// that are turned away are left out of theirs; then each stands at its end.
fn in_turn<F: LinkedTo<G> + Drawn, G: LinkedTo<F>>(group: &mut Group) {
    for first in (0..0x11_0000).step_by(0x1000) {
        let mut text = Vec::new();
        let mut result = Vec::new();
        let mut turned_away = Vec::new();
        for value in first..first + 0x1000 {
            if let (Some(from), Some(to)) = (F::encode(value), G::encode(value)) {
                if value == 0xFFFE || value == 0xFFFF {
                    turned_away.push(from);
                    continue;
                }
                text.extend_from_slice(&from);
                result.extend_from_slice(&to);
            }
        }
        three_ways::<F, G>(group, "values in turn", &text, &Ok(result));

        for character in &turned_away {
            let refused = [&text[..], character].concat();
            let expected = Err(Refusal {
                fault: 12,
                offset: text.len(),
            });
            three_ways::<F, G>(group, "values in turn", &refused, &expected);
        }
        let count = if first == 0xF000 { 2 } else { 0 };
        group.check(turned_away.len() == count, || {
            let came = turned_away.len();
            format!("{came} values from {first:X} on are turned away, not {count}")
        });
    }
}

fn bytes<F: LinkedTo<G> + Drawn<Unit = u8>, G: LinkedTo<F>>(group: &mut Group) {
    for first in 0..=0xFF {
        agree::<F, G>(group, "byte", &[first]);
        for second in 0..=0xFF {
            agree::<F, G>(group, "pair of bytes", &[first, second]);
        }
    }
}

/// Each unit alone and beside a high and a low one, to another form.
fn utf_16_units<G: LinkedTo<Utf16>>(group: &mut Group)
where
    Utf16: LinkedTo<G>,
{
    for unit in 0..=0xFFFF {
        agree::<Utf16, G>(group, "unit", &[unit]);
        agree::<Utf16, G>(group, "after a high unit", &[0xD800, unit]);
        agree::<Utf16, G>(group, "before a low unit", &[unit, 0xDFFF]);
    }
}
