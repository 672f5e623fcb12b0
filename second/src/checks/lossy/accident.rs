//! The tender's accident: units of one alarm are lost, or of two where they
//! meet, and no other character of either may be spoiled.

use super::{named, told_items};
use crate::library::{JkItem, Linked, CHARACTER};
use crate::reference::{FssUtf, Ucs4, Utf16, UtfEbcdic, MARK_VALUE};
use crate::report::{told, told_decoding, Group};

/// "Three bytes of an alarm text were lost."
const LOST: usize = 3;

/// Alarms with letters of one, two, three and four bytes in FSS-UTF, up to five
/// in UTF-EBCDIC, and of one unit and two in UTF-16.
const ALARMS: [&str; 6] = [
    "open probe",
    "heater at full output",
    "ČIDLO 3: PŘERUŠENO, −25 °C",
    "TOPENÍ 7: PLNÝ VÝKON ≥ 100 %",
    "зонд 3 оборван ≠ 0",
    "警報\u{1D6B9}\u{100000}ヒーター全出力\u{10FFFF}",
];

/// Values that UTF-16 does not hold, of every length in the byte forms.
const FURTHER: [[u32; 9]; 2] = [
    [
        0x41,
        0xA9,
        0x7FFF_FFFF,
        0x2260,
        0x400_0000,
        0x9F,
        0x20_0000,
        0x4_0000,
        0x7FF,
    ],
    [
        0x3FF_FFFF,
        0x400,
        0x40_0000,
        0x1F_FFFF,
        0x7FFF_FFFF,
        0x42,
        0xD7FF,
        0xE000,
        0x3FFF,
    ],
];

pub fn check(group: &mut Group) {
    let alarms: Vec<Vec<u32>> = ALARMS
        .iter()
        .map(|alarm| alarm.chars().map(u32::from).collect())
        .collect();
    let further: Vec<Vec<u32>> = FURTHER.iter().map(|values| values.to_vec()).collect();
    let all = [&alarms[..], &further].concat();
    each_two::<FssUtf>(group, &all);
    each_two::<UtfEbcdic>(group, &all);
    each_two::<Utf16>(group, &alarms);
    each_two::<Ucs4>(group, &all);
}

/// What was lost, for the notes.
#[derive(Default)]
struct Losses {
    /// Places where three units were lost.
    places: usize,
    /// Those of them where the loss hit both alarms.
    both: usize,
    /// Places where another number of units was lost.
    others: usize,
    /// Characters that no loss hit.
    spared: usize,
    /// Losses whose remains, standing together, are the legal encoding of some
    /// character, which is then given.
    joined: usize,
}

/// Each alarm before each other, with the units lost at every place.
fn each_two<F: Linked>(group: &mut Group, alarms: &[Vec<u32>]) {
    let mut losses = Losses::default();
    for first in alarms {
        for second in alarms {
            // Units are lost in ones to eights; the tender's accident is three.
            for lost in 1..=8 {
                each_place::<F>(group, &mut losses, first, second, lost);
            }
        }
    }
    group.note(format!(
        "{}: {LOST} units lost at {} places, at {} of them from both alarms; \
         other numbers lost at {} places; {} characters spared; \
         the remains of {} losses stand together as a character",
        F::NAME,
        losses.places,
        losses.both,
        losses.others,
        losses.spared,
        losses.joined,
    ));
    group.check(losses.both > 0, || "no loss hit both alarms".to_string());
}

fn each_place<F: Linked>(
    group: &mut Group,
    losses: &mut Losses,
    first: &[u32],
    second: &[u32],
    lost: usize,
) {
    // Each character with its units' first place and the place behind them.
    let mut characters = Vec::new();
    let mut joined: Vec<F::Unit> = Vec::new();
    let mut border = 0;
    for (number, &value) in first.iter().chain(second).enumerate() {
        if number == first.len() {
            border = joined.len();
        }
        let start = joined.len();
        joined.extend_from_slice(&F::encode(value).expect("the form holds it"));
        characters.push((value, start, joined.len()));
    }

    for loss in 0..=joined.len() - lost {
        let text = [&joined[..loss], &joined[loss + lost..]].concat();
        let before = characters.iter().filter(|&&(_, _, end)| end <= loss);
        let after = characters
            .iter()
            .filter(|&&(_, start, _)| start >= loss + lost);
        let before: Vec<(u32, usize)> = before.map(|&(value, start, _)| (value, start)).collect();
        let after: Vec<(u32, usize)> = after
            .map(|&(value, start, _)| (value, start - lost))
            .collect();
        spared::<F>(group, losses, &text, &before, &after, lost, loss);
        if lost == LOST {
            losses.places += 1;
            losses.both += usize::from(loss < border && border < loss + lost);
        } else {
            losses.others += 1;
        }
        losses.spared += before.len() + after.len();
    }
}

/// What the loss did not hit comes out whole, where it now stands, and nothing
/// else comes but from the remains of what it hit.
fn spared<F: Linked>(
    group: &mut Group,
    losses: &mut Losses,
    text: &[F::Unit],
    before: &[(u32, usize)],
    after: &[(u32, usize)],
    lost: usize,
    loss: usize,
) {
    let source = || format!("{lost} units lost at {loss}, leaving {}", named::<F>(text));
    let mut values = vec![0; text.len()];
    let mut starts = vec![0; text.len()];
    let answer = F::decode_lossy(text, &mut values, &mut starts);
    let count = (answer.items as usize).min(text.len());
    let items: Vec<(u32, usize)> = values
        .into_iter()
        .zip(starts)
        .take(count)
        .map(|(value, start)| (value, start as usize))
        .collect();

    // Where the remains begin and end.
    let end =
        |&(value, start): &(u32, usize)| start + F::encode(value).map_or(0, |legal| legal.len());
    let from = before.last().map_or(0, end);
    let to = after.first().map_or(text.len(), |&(_, start)| start);
    let whole = items.len() >= before.len() + after.len()
        && items.starts_with(before)
        && items.ends_with(after);
    let others = if whole {
        &items[before.len()..items.len() - after.len()]
    } else {
        &items[..]
    };
    let within = others.iter().all(|(_, start)| (from..to).contains(start));
    let marks = others
        .iter()
        .filter(|(value, _)| *value == MARK_VALUE)
        .count();
    group.check(
        answer.fault == 0 && whole && within && answer.marks == marks as u64,
        || {
            format!(
                "{}: came {} with {}, but {} and {} were not hit",
                source(),
                told_decoding(answer),
                told_items(&items),
                told_items(before),
                told_items(after),
            )
        },
    );
    // No remains, no mark; remains are never passed over.
    group.check(others.is_empty() == (from == to), || {
        format!("{}: the remains gave {}", source(), told_items(others))
    });
    if marks < others.len() {
        losses.joined += 1;
    }

    // From each of its units a spared character is found whole.
    for item in before.iter().chain(after) {
        let &(value, start) = item;
        let expected = JkItem {
            kind: CHARACTER,
            fault: 0,
            value,
            offset: start as u64,
            length: (end(item) - start) as u64,
        };
        for place in start..end(item) {
            let came = F::item_covering(text, place);
            group.check(came == expected, || {
                format!(
                    "{}: from {place} came {}, not {}",
                    source(),
                    told(came),
                    told(expected),
                )
            });
        }
    }
}
