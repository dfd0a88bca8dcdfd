use std::fmt;

use crate::library::{self, done};
use crate::orders::{check_pairs, counted};
use crate::{Error, Pair, Tables};

/// What all orders have, or all that keep given pairs: how many they are, and the fewest, the most
/// and the mean of their nodes. As text these are four lines.
#[derive(Debug, Clone, Copy, PartialEq, Eq, Hash)]
#[repr(C)]
pub struct Figures {
    orders: u64,
    optimal_orders: u64,
    worst_orders: u64,
    total_nodes: u64,
    fewest_nodes: u32,
    most_nodes: u32,
}

impl Figures {
    /// How many orders there are.
    #[must_use]
    pub fn orders(&self) -> u64 {
        self.orders
    }

    /// How many of them have the fewest nodes.
    #[must_use]
    pub fn optimal_orders(&self) -> u64 {
        self.optimal_orders
    }

    /// How many of them have the most nodes.
    #[must_use]
    pub fn worst_orders(&self) -> u64 {
        self.worst_orders
    }

    /// The sum of the nodes of all of them.
    #[must_use]
    pub fn total_nodes(&self) -> u64 {
        self.total_nodes
    }

    /// The fewest nodes under an order.
    #[must_use]
    pub fn fewest_nodes(&self) -> u32 {
        self.fewest_nodes
    }

    /// The most nodes under an order.
    #[must_use]
    pub fn most_nodes(&self) -> u32 {
        self.most_nodes
    }

    /// The mean number of nodes, rounded.
    #[must_use]
    pub fn mean(&self) -> f64 {
        quotient(self.total_nodes, self.orders)
    }

    /// The mean number of nodes as a fraction in lowest terms: its numerator and its denominator.
    #[must_use]
    pub fn exact_mean(&self) -> (u64, u64) {
        let (mut divisor, mut rest) = (self.total_nodes, self.orders);
        while rest != 0 {
            (divisor, rest) = (rest, divisor % rest);
        }
        (self.total_nodes / divisor, self.orders / divisor)
    }
}

impl fmt::Display for Figures {
    fn fmt(&self, to: &mut fmt::Formatter<'_>) -> fmt::Result {
        let optimal = counted(self.optimal_orders, "order");
        let worst = counted(self.worst_orders, "order");
        writeln!(to, "orders: {}", self.orders)?;
        writeln!(to, "fewest nodes: {}, under {optimal}", self.fewest_nodes)?;
        writeln!(to, "most nodes: {}, under {worst}", self.most_nodes)?;
        // a half of the last digit is rounded up
        let (nodes, orders) = (u128::from(self.total_nodes), u128::from(self.orders.max(1)));
        let hundredths = (200 * nodes + orders) / (2 * orders);
        write!(to, "mean nodes: {}.{:02}", hundredths / 100, hundredths % 100)
    }
}

/// What all orders have that keep the pairs; without pairs these are all orders. It takes longer
/// than [`exact`](crate::exact) where that leaves most sets of variables out.
///
/// ```
/// use minorder::{orders, Pair, Tables};
///
/// let mux = Tables::from_words(3, 1, vec![0xca])?;
/// let all = orders(&mux, &[])?;
/// assert_eq!((all.orders(), all.fewest_nodes(), all.optimal_orders()), (6, 3, 2));
/// assert_eq!((all.most_nodes(), all.exact_mean()), (5, (4, 1)));
/// // those with an input above the variable that selects
/// let text = orders(&mux, &[Pair { above: 0, below: 2 }])?.to_string();
/// let lines: Vec<&str> = text.lines().collect();
/// assert_eq!(lines[..2], ["orders: 3", "fewest nodes: 4, under 1 order"]);
/// assert_eq!(lines[2..], ["most nodes: 5, under 2 orders", "mean nodes: 4.67"]);
/// # Ok::<(), minorder::Error>(())
/// ```
///
/// # Errors
/// [`Error::PairOutOfRange`], [`Error::PairCycle`], and those of [every call](Error).
pub fn orders(tables: &Tables, pairs: &[Pair]) -> Result<Figures, Error> {
    check_pairs(tables, pairs)?;
    let mut figures = Figures {
        orders: 0,
        optimal_orders: 0,
        worst_orders: 0,
        total_nodes: 0,
        fewest_nodes: 0,
        most_nodes: 0,
    };
    done(library::orders(tables, pairs, &mut figures)?)?;
    Ok(figures)
}

/// The quotient of two numbers, rounded: once if both are below 2^53, as numbers of orders are.
#[allow(clippy::cast_precision_loss)]
pub(crate) fn quotient(dividend: u64, divisor: u64) -> f64 {
    dividend as f64 / divisor as f64
}
