#![doc = include_str!("../README.md")]
//!
//! # The calls
//! [`Tables`] are the truth tables of 1 to 16 functions of 1 to 16 variables.
//!
//! - [`exact`] finds the first variable order under which their shared diagram has the fewest
//!   nodes, [`exact_above`] the first among the orders that keep some pairs, and [`exact_many`]
//!   that of each of many problems. [`exact_diagram`] and [`exact_diagram_many`] give the diagrams
//!   under these orders, too.
//! - [`certify`] gives a certificate of that order, and [`check`] the verdict on one.
//! - [`levels`] gives the level counts under any order, and [`diagram`] the diagram itself.
//! - [`sift`] gives what one pass of sifting makes of an order.
//! - [`orders`] says of all orders, or of those that keep some pairs, how many they are, and their
//!   fewest, most and mean nodes; [`sizes`] says how many of them have each size. [`widths`] gives
//!   the widths of all sets of variables, from which the size of each order follows.
//! - [`read_pla`] reads the tables and names of a PLA file.
//! - [`library_version`] gives the version of the library that is called.
//!
//! An order lists each variable once, top first. Level counts are numbers of decision nodes, top
//! level first: one root a function, no complement edges, terminals not counted. A call runs on
//! the calling thread and keeps nothing, so threads may call at the same time.

#![warn(missing_docs)]
#![deny(unsafe_code)]
#![warn(clippy::undocumented_unsafe_blocks)]

mod certificate_faults;
mod certificates;
mod diagrams;
mod error;
mod figures;
mod library;
mod many;
mod operators;
mod orders;
mod pla;
mod sizes;
mod tables;
mod version;
mod widths;

pub use certificate_faults::CertificateFault;
pub use certificates::{certify, check, Reason, Verdict};
pub use diagrams::{diagram, exact_diagram, exact_diagram_many, Diagram, Node};
pub use error::Error;
pub use figures::{orders, Figures};
pub use orders::{exact, exact_above, exact_many, levels, sift, FoundOrder, Pair};
pub use pla::{read_pla, Pla, PlaFault};
pub use sizes::{sizes, Sizes};
pub use tables::Tables;
pub use version::{library_version, Version};
pub use widths::{widths, Widths};
