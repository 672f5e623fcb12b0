//! More than a million random and damaged texts, each read at every offset.

use super::each_form;
use crate::library::Linked;
use crate::random::{draw, Drawn, Random};
use crate::report::{hex, Group};

const TEXTS_OF_EACH_FORM: usize = 300_000;

/// Units that stand around the lent text without being lent.
const GUARD: usize = 8;

pub fn check(group: &mut Group) {
    each_form!(texts(group));
    group.note(format!("{} texts", 4 * TEXTS_OF_EACH_FORM));
}

fn texts<F: Linked + Drawn>(group: &mut Group) {
    let mut random = Random::new(0x100 + F::LONGEST_ITEM as u64);
    let mut text = Vec::new();
    let mut buffer = Vec::new();
    for number in 0..TEXTS_OF_EACH_FORM {
        let longest = match number % 4096 {
            0 => 2_000,
            rest if rest % 16 == 0 => 64,
            _ => 24,
        };
        draw::<F>(&mut text, longest, &mut random);

        // A reader that strays beyond the text meets units like those inside.
        buffer.clear();
        buffer.extend((0..GUARD).map(|_| F::telling_unit(&mut random)));
        buffer.extend_from_slice(&text);
        buffer.extend((0..GUARD).map(|_| F::telling_unit(&mut random)));
        let lent = &buffer[GUARD..GUARD + text.len()];
        group.agree_everywhere::<F>(lent, "random text");
        group.check(lent == text, || {
            format!(
                "{} [{}]: reading changed the text",
                F::NAME,
                hex::<F>(&text)
            )
        });
    }
}
