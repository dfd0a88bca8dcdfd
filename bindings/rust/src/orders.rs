use std::fmt;

use crate::library::{self, done};
use crate::many::{shape_of_all, Many};
use crate::{Error, Tables};

/// A pair of variables: `above` has to stand above `below`.
#[derive(Debug, Clone, Copy, Default, PartialEq, Eq, PartialOrd, Ord, Hash)]
#[repr(C)]
pub struct Pair {
    /// The upper variable.
    pub above: u8,
    /// The lower variable.
    pub below: u8,
}

/// An order and the sizes of the shared diagram under it. As text it is the order and its number
/// of nodes, as `2 0 1: 3 nodes`.
#[derive(Debug, Clone, PartialEq, Eq, Hash)]
pub struct FoundOrder {
    /// The variables, top first.
    pub order: Vec<u8>,
    /// The nodes on each level, top first.
    pub levels: Vec<u32>,
    /// Their sum.
    pub total: u32,
}

impl FoundOrder {
    /// A place for the library's answer.
    pub(crate) fn place(order: Vec<u8>) -> Self {
        Self { levels: vec![0; order.len()], order, total: 0 }
    }
}

impl fmt::Display for FoundOrder {
    fn fmt(&self, to: &mut fmt::Formatter<'_>) -> fmt::Result {
        for (level, variable) in self.order.iter().enumerate() {
            write!(to, "{}{variable}", if level == 0 { "" } else { " " })?;
        }
        write!(to, ": {}", counted(self.total.into(), "node"))
    }
}

/// The first order of the fewest nodes, compared as lists of numbers.
///
/// ```
/// use minorder::{exact, Tables};
///
/// // the first of two numbers of 3 bits is the greater one
/// let greater = Tables::from_fn(6, 1, |point, _| point & 7 > point >> 3)?;
/// let found = exact(&greater)?;
/// assert_eq!(found.order, [0, 3, 1, 4, 2, 5]);
/// assert_eq!(found.levels.iter().sum::<u32>(), found.total);
/// # Ok::<(), minorder::Error>(())
/// ```
///
/// # Errors
/// Those of [every call](Error).
pub fn exact(tables: &Tables) -> Result<FoundOrder, Error> {
    let mut found = FoundOrder::place(vec![0; tables.inputs()]);
    done(library::exact(tables, &mut found)?)?;
    Ok(found)
}

/// The first order of the fewest nodes among the orders that keep the pairs.
///
/// ```
/// use minorder::{exact_above, Error, Pair, Tables};
///
/// let mux = Tables::from_words(3, 1, vec![0xca])?;
/// let found = exact_above(&mux, &[Pair { above: 0, below: 2 }])?;
/// assert_eq!((found.order, found.total), (vec![0, 2, 1], 4));
/// let circle = [Pair { above: 0, below: 2 }, Pair { above: 2, below: 0 }];
/// assert_eq!(exact_above(&mux, &circle), Err(Error::PairCycle));
/// # Ok::<(), Error>(())
/// ```
///
/// # Errors
/// [`Error::PairOutOfRange`], [`Error::PairCycle`], and those of [every call](Error).
pub fn exact_above(tables: &Tables, pairs: &[Pair]) -> Result<FoundOrder, Error> {
    check_pairs(tables, pairs)?;
    let mut found = FoundOrder::place(vec![0; tables.inputs()]);
    done(library::exact_above(tables, pairs, &mut found)?)?;
    Ok(found)
}

/// What [`exact`] gives for each of many problems with the same numbers of inputs and outputs. For
/// small problems it takes less time than as many calls.
///
/// ```
/// use minorder::{exact_many, Tables};
///
/// let problems: Vec<Tables> =
///     (0..16).map(|table| Tables::from_words(2, 1, vec![table])).collect::<Result<_, _>>()?;
/// let totals: Vec<u32> = exact_many(&problems)?.iter().map(|found| found.total).collect();
/// assert_eq!(totals, [0, 2, 2, 1, 2, 1, 3, 2, 2, 3, 1, 2, 1, 2, 2, 0]);
/// # Ok::<(), minorder::Error>(())
/// ```
///
/// # Errors
/// [`Error::OtherShape`], and those of [every call](Error).
pub fn exact_many(problems: &[Tables]) -> Result<Vec<FoundOrder>, Error> {
    let mut many = Many::of(problems, shape_of_all(problems)?);
    done(library::exact_many(&mut many)?)?;
    Ok(many.found())
}

/// The level counts of the shared diagram under an order.
///
/// ```
/// let mux = minorder::Tables::from_words(3, 1, vec![0xca])?;
/// assert_eq!(minorder::levels(&mux, &[0, 1, 2])?, [1, 2, 2]);
/// # Ok::<(), minorder::Error>(())
/// ```
///
/// # Errors
/// [`Error::BadOrder`], and those of [every call](Error).
pub fn levels(tables: &Tables, order: &[u8]) -> Result<Vec<u32>, Error> {
    check_order(tables.inputs(), order)?;
    let mut levels = vec![0; tables.inputs()];
    done(library::levels(tables, order, &mut levels)?)?;
    Ok(levels)
}

/// What one pass of Rudell's sifting makes of an order.
///
/// ```
/// let mux = minorder::Tables::from_words(3, 1, vec![0xca])?;
/// assert_eq!(minorder::sift(&mux, &[0, 1, 2])?.order, [2, 0, 1]);
/// # Ok::<(), minorder::Error>(())
/// ```
///
/// # Errors
/// [`Error::BadOrder`], and those of [every call](Error).
pub fn sift(tables: &Tables, order: &[u8]) -> Result<FoundOrder, Error> {
    check_order(tables.inputs(), order)?;
    let mut found = FoundOrder::place(order.to_vec());
    done(library::sift(tables, &mut found)?)?;
    Ok(found)
}

/// Refuses an order that hasn't each variable once.
pub(crate) fn check_order(inputs: usize, order: &[u8]) -> Result<(), Error> {
    let mut sorted = order.to_vec();
    sorted.sort_unstable();
    if sorted.iter().map(|&variable| usize::from(variable)).eq(0..inputs) {
        Ok(())
    } else {
        Err(Error::BadOrder { order: order.to_vec(), inputs })
    }
}

/// Refuses a pair of a variable that there isn't.
pub(crate) fn check_pairs(tables: &Tables, pairs: &[Pair]) -> Result<(), Error> {
    let inputs = tables.inputs();
    match pairs.iter().find(|pair| usize::from(pair.above.max(pair.below)) >= inputs) {
        Some(&pair) => Err(Error::PairOutOfRange { pair, inputs }),
        None => Ok(()),
    }
}

/// A number of things, as `1 node` and `2 nodes`.
pub(crate) fn counted(count: u64, thing: &str) -> String {
    format!("{count} {thing}{}", if count == 1 { "" } else { "s" })
}
