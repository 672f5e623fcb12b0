//! Stepping through a text from item to item.

use super::each_form;
use crate::library::{JkItem, Linked, CHARACTER, END, MARK};
use crate::random::{draw, Drawn, Random};
use crate::reference::{item_at, items, Content, Item, Reading};
use crate::report::{hex, told, Group};

const TEXTS_OF_EACH_FORM: usize = 50_000;

pub fn check(group: &mut Group) {
    each_form!(texts(group));
}

fn texts<F: Linked + Drawn>(group: &mut Group) {
    let mut random = Random::new(0x700 + F::LONGEST_ITEM as u64);
    let mut text = Vec::new();
    for number in 0..TEXTS_OF_EACH_FORM {
        let longest = match number {
            // Two texts of any length that is taken.
            0 | 1 => 65_536,
            _ if number % 500 == 0 => 3_000,
            _ => 40,
        };
        draw::<F>(&mut text, longest, &mut random);
        let expected = items::<F>(&text);
        walk::<F>(group, &text, &expected);

        // The reference's reader and its parting in one pass must agree too,
        // or neither is a witness.
        let same = expected
            .iter()
            .all(|item| item_at::<F>(&text, item.start) == Reading::Item(*item));
        group.check(same, || {
            format!(
                "{} [{}]: the reference is at odds",
                F::NAME,
                hex::<F>(&text)
            )
        });
        let units: usize = expected.iter().map(|item| item.length).sum();
        group.check(units == text.len(), || {
            format!(
                "{} [{}]: the items have {units} units",
                F::NAME,
                hex::<F>(&text)
            )
        });
    }
}

fn walk<F: Linked>(group: &mut Group, text: &[F::Unit], expected: &[Item]) {
    let mut walked = Vec::new();
    let mut offset = 0;
    // No text has more items than units, so a reader that does not move on is
    // stopped.
    for _ in 0..=text.len() {
        let answer = F::item_at(text, offset);
        let content = match answer.kind {
            CHARACTER => Content::Character(answer.value),
            MARK => Content::Mark(answer.fault),
            _ => break,
        };
        let length = answer.length as usize;
        walked.push(Item {
            start: offset,
            length,
            content,
        });
        offset = offset.saturating_add(length);
    }
    group.check(walked == expected, || {
        let same = walked
            .iter()
            .zip(expected)
            .take_while(|(came, item)| came == item)
            .count();
        format!(
            "{} [{}]: item {same}: expected {:?}, came {:?}",
            F::NAME,
            hex::<F>(text),
            expected.get(same),
            walked.get(same),
        )
    });
    let end = JkItem {
        kind: END,
        fault: 0,
        value: 0,
        offset: text.len() as u64,
        length: 0,
    };
    for _ in 0..3 {
        let answer = F::item_at(text, offset);
        group.check(answer == end, || {
            format!(
                "{} [{}] at its end {offset}: {}",
                F::NAME,
                hex::<F>(text),
                told(answer)
            )
        });
        // End moves on by nothing.
        offset = offset.saturating_add(answer.length as usize);
    }
}
