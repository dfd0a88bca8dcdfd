use std::slice;

use crate::library::{self, done};
use crate::orders::check_order;
use crate::{Error, Tables};

/// The widths of all sets of variables. A set is a mask: bit i is variable i. The width of a member
/// is the number of nodes on its level if just the other members of the set are below it. So the
/// size of an order is a sum of widths: that of each variable in the set of it and those below it.
#[derive(Debug, Clone, PartialEq, Eq, Hash)]
pub struct Widths {
    inputs: usize,
    widths: Vec<u32>,
}

impl Widths {
    /// How many variables there are.
    #[must_use]
    pub fn inputs(&self) -> usize {
        self.inputs
    }

    /// The width of a variable in a set, and 0 if it isn't a member.
    ///
    /// # Panics
    /// If there is no such variable or no such set.
    #[must_use]
    pub fn width(&self, variable: usize, mask: usize) -> u32 {
        let inputs = self.inputs;
        assert!(variable < inputs, "variable: {variable}: variables are below {inputs}");
        self.row(mask)[variable]
    }

    /// The widths of all variables in a set, which are 0 at those that aren't members.
    ///
    /// # Panics
    /// If there is no such set.
    #[must_use]
    pub fn row(&self, mask: usize) -> &[u32] {
        assert!(mask < 1 << self.inputs, "mask: {mask}: there are {}", 1 << self.inputs);
        &self.widths[mask * self.inputs..][..self.inputs]
    }

    /// The row of each set, by rising masks.
    pub fn rows(&self) -> slice::ChunksExact<'_, u32> {
        self.widths.chunks_exact(self.inputs)
    }

    /// The number of nodes under an order.
    ///
    /// # Errors
    /// [`Error::BadOrder`].
    pub fn cost(&self, order: &[u8]) -> Result<u32, Error> {
        check_order(self.inputs, order)?;
        let mut mask = 0;
        let widths = order.iter().rev().map(|&variable| {
            mask |= 1 << variable;
            self.width(variable.into(), mask)
        });
        Ok(widths.sum())
    }
}

/// The widths of all sets of variables, from which recurrences of one's own are made.
///
/// ```
/// use minorder::{exact, widths, Tables};
///
/// let mux = Tables::from_words(3, 1, vec![0xca])?;
/// let found = widths(&mux)?;
/// assert_eq!((found.width(2, 0b111), found.width(2, 0b100)), (1, 2));
/// // the fewest nodes on the levels of each set where these are the lowest ones
/// let mut costs = vec![0];
/// for (mask, row) in found.rows().enumerate().skip(1) {
///     let members = (0..3).filter(|variable| mask >> variable & 1 == 1);
///     costs.push(members.map(|it| costs[mask ^ 1 << it] + row[it]).min().unwrap());
/// }
/// let best = exact(&mux)?;
/// assert_eq!((costs[0b111], found.cost(&best.order)?), (best.total, best.total));
/// # Ok::<(), minorder::Error>(())
/// ```
///
/// # Errors
/// Those of [every call](Error).
pub fn widths(tables: &Tables) -> Result<Widths, Error> {
    let inputs = tables.inputs();
    let mut widths = vec![0; inputs << inputs];
    done(library::widths(tables, &mut widths)?)?;
    Ok(Widths { inputs, widths })
}
