//! More than a million random and damaged texts, a twelfth for each pair.

use std::collections::BTreeMap;

use super::{converts, each_pair};
use crate::library::LinkedTo;
use crate::random::{draw_for, Drawn, Random};
use crate::reference::convert;
use crate::report::{hex, Group};

const TEXTS_OF_EACH_PAIR: usize = 100_000;

/// How often each fault came, with 0 for an accepted text.
type Came = BTreeMap<u32, usize>;

pub fn check(group: &mut Group) {
    let mut came = Came::new();
    // The fewest texts of a pair that were accepted, and refused by 12.
    let mut fewest = [TEXTS_OF_EACH_PAIR; 2];
    each_pair!(texts(group, &mut came, &mut fewest));
    let accepted = came.remove(&0).unwrap_or(0);
    let refused: Vec<String> = came
        .iter()
        .map(|(fault, count)| format!("{count} by {fault}"))
        .collect();
    group.note(format!(
        "{} texts, {accepted} of them accepted; refused: {}",
        12 * TEXTS_OF_EACH_PAIR,
        refused.join(", "),
    ));
    let [accepted, turned_away] = fewest;
    group.note(format!(
        "of each pair at least {accepted} accepted and {turned_away} refused by 12"
    ));
    // Neither is so frequent that the other is seldom.
    group.check(accepted >= TEXTS_OF_EACH_PAIR / 4, || {
        format!("of one pair {accepted} texts were accepted")
    });
    group.check(turned_away >= TEXTS_OF_EACH_PAIR / 20, || {
        format!("of one pair {turned_away} texts were refused by 12")
    });
    for fault in [2, 3, 4, 5, 6, 10] {
        group.check(came.contains_key(&fault), || {
            format!("no text had fault {fault}")
        });
    }
}

fn texts<F: LinkedTo<G> + Drawn, G: LinkedTo<F> + Drawn>(
    group: &mut Group,
    came: &mut Came,
    fewest: &mut [usize; 2],
) {
    let mut of_pair = Came::new();
    let stream = 0xA00 + 0x10 * F::LONGEST_ITEM + G::LONGEST_ITEM;
    let mut random = Random::new(stream as u64);
    let mut text = Vec::new();
    for number in 0..TEXTS_OF_EACH_PAIR {
        let longest = match number % 4096 {
            0 => 2_000,
            rest if rest % 16 == 0 => 64,
            _ => 24,
        };
        draw_for::<F, G>(&mut text, longest, &mut random);
        let expected = convert::<F, G>(&text);
        converts::<F, G>(group, "random text", &text, &expected);

        // The reference has to find its own way back, or it is no witness.
        if let Ok(result) = &expected {
            let again = convert::<G, F>(result);
            group.check(again.as_ref() == Ok(&text), || {
                format!(
                    "{} [{}] to {} and back: the reference is at odds",
                    F::NAME,
                    hex::<F>(&text),
                    G::NAME
                )
            });
        }
        let fault = expected.err().map_or(0, |refusal| refusal.fault);
        *of_pair.entry(fault).or_default() += 1;
    }

    for (fewest, fault) in fewest.iter_mut().zip([0, 12]) {
        *fewest = of_pair.get(&fault).copied().unwrap_or(0).min(*fewest);
    }
    for (fault, count) in of_pair {
        *came.entry(fault).or_default() += count;
    }
}
