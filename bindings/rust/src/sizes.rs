use std::fmt;
use std::iter::Copied;
use std::slice;

use crate::diagrams::most_nodes;
use crate::figures::{orders, quotient};
use crate::library::{self, done};
use crate::orders::{check_pairs, counted};
use crate::{Error, Pair, Tables};

/// How many orders have each size, of all orders or of all that keep given pairs. If there is a
/// bound, orders of more nodes are counted, but not by their sizes. `for (size, orders) in &sizes`
/// goes over the sizes. As text there is a line for each, as `3 nodes: 2 orders`.
#[derive(Debug, Clone, PartialEq, Eq, Hash)]
pub struct Sizes {
    /// Rising sizes, and how many orders have each: at least one.
    counts: Vec<(u32, u64)>,
    /// How many orders there are.
    orders: u64,
    /// The bound, if there are orders of more nodes.
    bound: Option<u32>,
}

impl Sizes {
    /// The sizes that orders have, from the fewest nodes on, and how many orders have each.
    pub fn iter(&self) -> Copied<slice::Iter<'_, (u32, u64)>> {
        self.counts.iter().copied()
    }

    /// How many orders there are, also those of more nodes than the bound.
    #[must_use]
    pub fn orders(&self) -> u64 {
        self.orders
    }

    /// How many orders have at most as many nodes as the bound; without a bound these are all.
    #[must_use]
    pub fn total(&self) -> u64 {
        self.iter().map(|(_, orders)| orders).sum()
    }

    /// The fewest nodes that an order has; `None` if each has more than the bound.
    #[must_use]
    pub fn fewest(&self) -> Option<u32> {
        self.iter().next().map(|(size, _)| size)
    }

    /// The most nodes, up to the bound, that an order has; `None` if each has more than the bound.
    #[must_use]
    pub fn most(&self) -> Option<u32> {
        self.iter().next_back().map(|(size, _)| size)
    }

    /// How many orders have fewer nodes, so are better than one of this size; `None` if orders of
    /// more nodes than the bound may be among them.
    #[must_use]
    pub fn rank(&self, size: u32) -> Option<u64> {
        size.checked_sub(1).map_or(Some(0), |below| self.up_to(below))
    }

    /// The share of all orders that have at most so many nodes, from 0 to 1; `None` if orders of
    /// more nodes than the bound may be among them.
    #[must_use]
    pub fn share(&self, size: u32) -> Option<f64> {
        self.up_to(size).map(|orders| quotient(orders, self.orders))
    }

    /// The least size of an order for which [`Sizes::share`] is at least this share: for 0.5 the
    /// median, for 0 the fewest nodes. `None` if that is above the bound, or the share above 1.
    #[must_use]
    pub fn quantile(&self, share: f64) -> Option<u32> {
        let mut seen = 0;
        let reached = |&(_, orders): &(u32, u64)| {
            seen += orders;
            quotient(seen, self.orders) >= share
        };
        self.iter().find(reached).map(|(size, _)| size)
    }

    /// How many orders have at most so many nodes, if that is known.
    fn up_to(&self, size: u32) -> Option<u64> {
        let is_known = self.bound.map_or(true, |bound| size <= bound);
        let counts = self.iter().take_while(|&(it, _)| it <= size);
        is_known.then(|| counts.map(|(_, orders)| orders).sum())
    }
}

impl<'a> IntoIterator for &'a Sizes {
    type Item = (u32, u64);
    type IntoIter = Copied<slice::Iter<'a, (u32, u64)>>;

    fn into_iter(self) -> Self::IntoIter {
        self.iter()
    }
}

impl fmt::Display for Sizes {
    fn fmt(&self, to: &mut fmt::Formatter<'_>) -> fmt::Result {
        for (at, (size, orders)) in self.iter().enumerate() {
            let end_of_last = if at == 0 { "" } else { "\n" };
            let (nodes, orders) = (counted(size.into(), "node"), counted(orders, "order"));
            write!(to, "{end_of_last}{nodes}: {orders}")?;
        }
        Ok(())
    }
}

/// How many of the orders that keep the pairs have each size: each size up to `most` nodes, or all
/// sizes. Without pairs these are all orders. It takes more time and memory than [`orders`], up to
/// some gigabytes of 16 variables, but little more if few orders have at most `most` nodes.
///
/// ```
/// use minorder::{levels, sizes, Tables};
///
/// let mux = Tables::from_words(3, 1, vec![0xca])?;
/// let all = sizes(&mux, &[], None)?;
/// assert!(all.iter().eq([(3, 2), (4, 2), (5, 2)]));
/// assert_eq!((all.quantile(0.5), all.share(3)), (Some(4), Some(1.0 / 3.0)));
/// // how many orders are better than the one that selects last
/// let size = levels(&mux, &[0, 1, 2])?.iter().sum();
/// assert_eq!(sizes(&mux, &[], Some(size - 1))?.rank(size), Some(4));
/// # Ok::<(), minorder::Error>(())
/// ```
///
/// # Errors
/// [`Error::PairOutOfRange`], [`Error::PairCycle`], and those of [every call](Error).
pub fn sizes(tables: &Tables, pairs: &[Pair], most: Option<u32>) -> Result<Sizes, Error> {
    check_pairs(tables, pairs)?;
    let mut counts = vec![0; 1 + most_nodes(tables.inputs(), tables.outputs())];
    let (mut fewest, mut length) = (0, 0);
    let up_to = most.unwrap_or(u32::MAX);
    done(library::sizes(tables, pairs, up_to, &mut counts, &mut fewest, &mut length)?)?;
    let counts: Vec<_> = (fewest..)
        .zip(counts[..length].iter().copied())
        .filter(|&(_, orders)| orders > 0)
        .collect();
    let mut found = Sizes { counts, orders: 0, bound: None };
    found.orders = match most {
        None => found.total(),
        // as many as of any functions of these variables
        Some(_) => orders(&Tables::zero(tables.inputs(), 1)?, pairs)?.orders(),
    };
    found.bound = most.filter(|_| found.total() < found.orders);
    Ok(found)
}
