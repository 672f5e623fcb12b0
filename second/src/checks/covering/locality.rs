//! On which units the answer rests, of two texts at two places. The reference
//! is not asked.
//!
//! The distance back, by document 01: "Two texts within the limit that agree on
//! the asked unit and on those before it, that many back, or with the same
//! smaller number before it, give the same distance."
//!
//! What the item is, by request 103: "length and fault rest also on the units
//! up to the item's longest reach ahead". Two texts within the limit in which
//! items start, and that agree from there on, as many units as the longest item
//! has or up to the same end, give the same length, value and fault.

use super::longest_character;
use crate::checks::each_form;
use crate::library::{JkItem, Linked, CHARACTER, MARK};
use crate::random::{add_good, draw, Drawn, Random};
use crate::reference::LONGEST_TEXT;
use crate::report::{hex, told, Group};

const TEXTS_OF_EACH_FORM: usize = 40_000;

pub fn check(group: &mut Group) {
    let mut tried = Distances::default();
    each_form!(distances(group, &mut tried));
    group.note(format!(
        "distances: {} pairs of texts; of {} the unit stands near the beginning of both",
        tried.pairs, tried.near_beginning
    ));

    let mut tried = Items::default();
    each_form!(items(group, &mut tried));
    each_form!(neighbours(group));
    each_form!(at_the_limit(group));
    group.note(format!(
        "items: {} pairs of texts; of {} the reach goes beyond the end of both, \
         of {} one ends with it; {} differ directly before the item, \
         {} directly behind the reach; in {} more no item starts there",
        tried.pairs,
        tried.same_end,
        tried.one_ends,
        tried.differ_before,
        tried.differ_behind,
        tried.no_start,
    ));
    let counts = [
        tried.same_end,
        tried.one_ends,
        tried.differ_before,
        tried.differ_behind,
    ];
    group.check(counts.iter().all(|&count| count > 10_000), || {
        "too few pairs of one kind were tried".to_string()
    });
}

#[derive(Default)]
struct Distances {
    pairs: usize,
    near_beginning: usize,
}

fn distances<F: Linked + Drawn>(group: &mut Group, tried: &mut Distances) {
    let mut random = Random::new(0xF20 + F::LONGEST_ITEM as u64);
    let back = F::LONGEST_ITEM - 1;
    let mut text = Vec::new();
    let mut before = Vec::new();
    let mut after = Vec::new();
    for number in 0..TEXTS_OF_EACH_FORM {
        draw::<F>(&mut text, 24, &mut random);
        for place in 0..text.len() {
            let near = &text[place.saturating_sub(back)..=place];
            before.clear();
            if place >= back {
                let longest = if number % 1024 == 0 { 2_000 } else { 12 };
                draw::<F>(&mut before, longest, &mut random);
            } else {
                tried.near_beginning += 1;
            }
            draw::<F>(&mut after, 8, &mut random);
            let other = [&before[..], near, &after].concat();
            let other_place = before.len() + near.len() - 1;
            same_distance::<F>(group, (&text, place), (&other, other_place));
            tried.pairs += 1;
        }
    }

    // The same units at the beginning of a text and at the end of the longest.
    for _ in 0..20 {
        let near = units::<F>(back + 1, &mut random);
        let mut far = units::<F>(LONGEST_TEXT - near.len(), &mut random);
        far.extend_from_slice(&near);
        same_distance::<F>(group, (&near, back), (&far, LONGEST_TEXT - 1));
        tried.pairs += 1;
    }
}

fn same_distance<F: Linked>(
    group: &mut Group,
    (text, place): (&[F::Unit], usize),
    (other, other_place): (&[F::Unit], usize),
) {
    let came = F::item_covering(text, place);
    let other_came = F::item_covering(other, other_place);
    let distance = distance(came, place);
    let same = distance.is_some() && distance == self::distance(other_came, other_place);
    group.check(same, || {
        format!(
            "{}: from {place} of [{}] came {}, but from {other_place} of [{}] {}",
            F::NAME,
            hex::<F>(text),
            told(came),
            hex::<F>(other),
            told(other_came),
        )
    });
}

/// How far back of the asked place an item starts; None for any other answer.
fn distance(came: JkItem, place: usize) -> Option<u64> {
    match came.kind {
        CHARACTER | MARK => (place as u64).checked_sub(came.offset),
        _ => None,
    }
}

#[derive(Default)]
struct Items {
    pairs: usize,
    same_end: usize,
    one_ends: usize,
    differ_before: usize,
    differ_behind: usize,
    no_start: usize,
}

fn items<F: Linked + Drawn>(group: &mut Group, tried: &mut Items) {
    let mut random = Random::new(0xF40 + F::LONGEST_ITEM as u64);
    let longest = F::LONGEST_ITEM;
    let single = F::encode(0x41).expect("every form holds it")[0];
    let mut text = Vec::new();
    let mut before = Vec::new();
    let mut after = Vec::new();
    for number in 0..TEXTS_OF_EACH_FORM {
        draw::<F>(&mut text, 24, &mut random);
        for place in 0..text.len() {
            let came = F::item_covering(&text, place);
            let Some(distance) = distance(came, place) else {
                group.check(false, || {
                    format!("from {place} of [{}]: {}", hex::<F>(&text), told(came))
                });
                continue;
            };
            let start = came.offset as usize;
            let near = &text[start..text.len().min(start + longest)];

            // An item starts at the beginning of a text, behind a character and
            // behind a unit that takes none. Behind any other units the library
            // itself has to say so.
            before.clear();
            let most = if number % 1024 == 0 { 2_000 } else { 12 };
            let way = random.below(4);
            match way {
                0 => {}
                1 => {
                    let most = random.below(most + 1);
                    add_good::<F>(&mut before, most, &mut random);
                }
                2 => {
                    draw::<F>(&mut before, most, &mut random);
                    before.push(single);
                }
                _ => draw::<F>(&mut before, most, &mut random),
            }
            after.clear();
            if near.len() == longest {
                draw::<F>(&mut after, 8, &mut random);
            }
            let other = [&before[..], near, &after].concat();
            let other_start = before.len();
            if way == 3 && F::item_covering(&other, other_start).offset != other_start as u64 {
                tried.no_start += 1;
                continue;
            }
            same_item::<F>(group, (&text, came), (&other, other_start), distance);

            let behind = [text.get(start + longest), after.first()];
            let one_ends = behind.contains(&None) && behind[0] != behind[1];
            tried.pairs += 1;
            tried.same_end += usize::from(near.len() < longest);
            tried.one_ends += usize::from(one_ends);
            tried.differ_before += usize::from(differ([text[..start].last(), before.last()]));
            tried.differ_behind += usize::from(differ(behind));
        }
    }
}

/// Whether there are two units and not the same.
fn differ<U: PartialEq>(units: [Option<&U>; 2]) -> bool {
    units[0] != units[1] && !units.contains(&None)
}

/// Holds the answer from another text, in which an item starts at a place and
/// that agrees from there on, to what came from a text. The asked unit lies so
/// far behind the start of either.
fn same_item<F: Linked>(
    group: &mut Group,
    (text, came): (&[F::Unit], JkItem),
    (other, other_start): (&[F::Unit], usize),
    distance: u64,
) {
    let expected = JkItem {
        offset: other_start as u64,
        ..came
    };
    let other_place = other_start.saturating_add(distance as usize);
    let other_came = F::item_covering(other, other_place);
    group.check(other_came == expected, || {
        format!(
            "{}: from {distance} behind its start in [{}] came {}, \
             but from {other_place} of [{}] {}",
            F::NAME,
            hex::<F>(text),
            told(came),
            hex::<F>(other),
            told(other_came),
        )
    });
}

/// Units as a text of their own, and with every kind of unit directly before
/// them and directly behind the reach.
fn neighbours<F: Linked + Drawn>(group: &mut Group) {
    let mut random = Random::new(0xF50 + F::LONGEST_ITEM as u64);
    let single = F::encode(0x41).expect("every form holds it")[0];
    let (_, legal) = longest_character::<F>();
    let (lead, trailing) = (legal[0], legal[legal.len() - 1]);
    for number in 0..4_000 {
        let count = 1 + number % F::LONGEST_ITEM;
        let near = units::<F>(count, &mut random);
        let behind: &[&[F::Unit]] = match count == F::LONGEST_ITEM {
            true => &[&[], &[single], &[trailing], &[lead], &[trailing, trailing]],
            // The same end.
            false => &[&[]],
        };
        for before in [&[][..], &[single], &legal] {
            for behind in behind {
                let other = [before, &near, behind].concat();
                first_item::<F>(group, &near, (&other, before.len()));
            }
        }
    }
}

/// Units as a text of their own and at the end of the longest text, where an
/// item starts behind a unit that takes none.
fn at_the_limit<F: Linked + Drawn>(group: &mut Group) {
    let mut random = Random::new(0xF60 + F::LONGEST_ITEM as u64);
    let single = F::encode(0x41).expect("every form holds it")[0];
    let first = LONGEST_TEXT - F::LONGEST_ITEM - 1;
    let mut far = units::<F>(first, &mut random);
    for number in 0..2_000 {
        let count = 1 + number % F::LONGEST_ITEM;
        let near = units::<F>(count, &mut random);
        far.truncate(first);
        far.resize(LONGEST_TEXT - count, single);
        far.extend_from_slice(&near);
        first_item::<F>(group, &near, (&far, LONGEST_TEXT - count));
    }
}

/// `same_item` from each unit of the first item of a text.
fn first_item<F: Linked>(
    group: &mut Group,
    text: &[F::Unit],
    (other, other_start): (&[F::Unit], usize),
) {
    let came = F::item_covering(text, 0);
    let covered = (1..=text.len() as u64).contains(&came.length);
    group.check(covered && distance(came, 0) == Some(0), || {
        format!("from 0 of [{}] came {}", hex::<F>(text), told(came))
    });
    for distance in 0..came.length.min(text.len() as u64) {
        same_item::<F>(group, (text, came), (other, other_start), distance);
    }
}

fn units<F: Drawn>(count: usize, random: &mut Random) -> Vec<F::Unit> {
    (0..count).map(|_| F::telling_unit(random)).collect()
}
