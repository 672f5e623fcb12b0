//! Cells that are lent to the library, between others that are not.

use crate::random::{Drawn, Random};
use crate::reference::{Form, Role};
use crate::report::hex;

/// Cells on either side of lent ones that are not lent.
const GUARD: usize = 8;

/// Cells lent to the library between others that are not, and what they shall
/// hold after the call.
pub struct Lent<F: Form> {
    cells: Vec<F::Unit>,
    shall_hold: Vec<F::Unit>,
}

impl<F: Form> Lent<F> {
    fn new(cells: Vec<F::Unit>) -> Self {
        Lent {
            shall_hold: cells.clone(),
            cells,
        }
    }

    /// A text. A reader that strays beyond its end meets units that would go
    /// on with a sequence, and one that strays before its beginning meets leads
    /// that would take its first units, where the form has such.
    pub fn text(text: &[F::Unit]) -> Self
    where
        F: Drawn,
    {
        let mut random = Random::new(text.len() as u64);
        let mut guard = |cells: &mut Vec<F::Unit>, wanted: fn(Role) -> bool| {
            let until = cells.len() + GUARD;
            while cells.len() < until {
                let unit = F::telling_unit(&mut random);
                if F::LONGEST_ITEM == 1 || wanted(F::role(unit)) {
                    cells.push(unit);
                }
            }
        };
        let mut cells = Vec::with_capacity(text.len() + 2 * GUARD);
        guard(&mut cells, |role| matches!(role, Role::Lead(_)));
        cells.extend_from_slice(text);
        guard(&mut cells, |role| role == Role::Trailing);
        Lent::new(cells)
    }

    /// Cells for a result, each with a number of its own; `turned`, with the
    /// opposite of every bit.
    pub fn room(room: usize, turned: bool) -> Self {
        let filling = |cell: usize| {
            let spread = (cell as u32).wrapping_mul(0x9E37_79B9);
            let number = if turned { !spread } else { spread };
            F::unit(number >> (32 - 8 * size_of::<F::Unit>()))
        };
        Lent::new((1..=room + 2 * GUARD).map(filling).collect())
    }

    /// To the first lent cell. A call may reach the others as well, which is
    /// seen afterwards.
    pub fn pointer(&mut self) -> *mut F::Unit {
        self.cells.as_mut_ptr().wrapping_add(GUARD)
    }

    /// The first lent cells shall hold these units after the call.
    pub fn shall_begin(&mut self, units: &[F::Unit]) {
        self.shall_hold[GUARD..GUARD + units.len()].copy_from_slice(units);
    }

    pub fn holds(&self) -> bool {
        self.cells == self.shall_hold
    }

    /// The first cell that is not as it shall be, counted from the first lent
    /// one.
    pub fn difference(&self) -> String {
        let mut pairs = self.cells.iter().zip(&self.shall_hold).enumerate();
        match pairs.find(|(_, (came, shall))| came != shall) {
            Some((index, (&came, &shall))) => format!(
                "cell {} holds {}, not {}",
                index as isize - GUARD as isize,
                hex::<F>(&[came]),
                hex::<F>(&[shall]),
            ),
            None => "no cell differs".to_string(),
        }
    }
}
