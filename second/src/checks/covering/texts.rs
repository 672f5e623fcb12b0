//! The items found from every unit of random and damaged texts, and of leads
//! before every number of trailing units.

use std::collections::BTreeMap;

use super::{finds, longest_character};
use crate::checks::each_form;
use crate::library::Linked;
use crate::random::{draw, Drawn, Random};
use crate::reference::{items_of_units, Content, FssUtf, Ucs4, Utf16, UtfEbcdic};
use crate::report::Group;

const TEXTS_OF_EACH_FORM: usize = 90_000;

pub fn check(group: &mut Group) {
    let mut tried = Tried::default();
    each_form!(texts(group, &mut tried));
    let Tried {
        distances,
        characters,
        marks,
    } = &tried;
    group.note(format!(
        "{} texts; units at each distance from their item's start: {distances:?}",
        4 * TEXTS_OF_EACH_FORM
    ));
    group.note(format!(
        "{characters} units of characters; of marks, by their fault: {marks:?}"
    ));
    let faults = [2, 3, 4, 5, 10].map(|fault| marks.get(&fault).copied().unwrap_or(0));
    let counts = distances.iter().chain(&faults).chain([characters]);
    group.check(counts.into_iter().all(|&count| count > 1_000), || {
        "too few units of one kind were tried".to_string()
    });
    leads::<FssUtf>(group, (0..=0xFF).collect());
    leads::<UtfEbcdic>(group, (0..=0xFF).collect());
    leads::<Utf16>(group, (0..=0xFFFF).collect());
    leads::<Ucs4>(group, vec![0x0, 0xD800, 0xDC00, 0x7FFF_FFFF, 0x8000_0000]);
}

/// The units asked from, for the notes.
#[derive(Default)]
struct Tried {
    distances: [usize; 7],
    characters: usize,
    marks: BTreeMap<u32, usize>,
}

fn texts<F: Linked + Drawn>(group: &mut Group, tried: &mut Tried) {
    let mut random = Random::new(0xF00 + F::LONGEST_ITEM as u64);
    let mut text = Vec::new();
    for number in 0..TEXTS_OF_EACH_FORM {
        let longest = match number % 4096 {
            0 => 2_000,
            rest if rest % 16 == 0 => 64,
            _ => 24,
        };
        draw::<F>(&mut text, longest, &mut random);
        let covering = items_of_units::<F>(&text);
        finds::<F>(group, "random text", &text, &covering);
        for (unit, item) in covering.iter().enumerate() {
            tried.distances[unit - item.start] += 1;
            match item.content {
                Content::Character(_) => tried.characters += 1,
                Content::Mark(fault) => *tried.marks.entry(fault).or_default() += 1,
            }
        }
    }
}

/// Each unit before every number of trailing units up to one more than any
/// lead takes, at the text's beginning, behind a single one and behind a lead.
fn leads<F: Linked + Drawn>(group: &mut Group, units: Vec<F::Unit>) {
    let single = F::encode(0x41).expect("every form holds it")[0];
    let (_, legal) = longest_character::<F>();
    let (lead, trailing) = (legal[0], legal[legal.len() - 1]);
    for unit in units {
        for before in [&[][..], &[single], &[lead], &[lead, trailing]] {
            for count in 0..=F::LONGEST_ITEM {
                let text = [before, &[unit], &vec![trailing; count]].concat();
                finds::<F>(group, "trailing units", &text, &items_of_units::<F>(&text));
            }
        }
    }
}
