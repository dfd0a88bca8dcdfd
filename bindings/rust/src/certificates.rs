use std::fmt;

use crate::certificate_faults::{first_fault, MOST_BYTES, MOST_PAIRS};
use crate::library::{self, done, Judged};
use crate::orders::check_pairs;
use crate::{Error, Pair, Tables};

/// The status of a text that is no certificate.
const BAD_CERTIFICATE: u32 = 3;

/// Why a certificate isn't good.
#[derive(Debug, Clone, Copy, PartialEq, Eq, Hash)]
#[non_exhaustive]
pub enum Reason {
    /// Its inputs or outputs are others.
    Shape,
    /// Its order hasn't each variable once.
    Order,
    /// Its order breaks a pair.
    Pairs,
    /// Its levels are not its order's level counts.
    Levels,
    /// Its total is not the sum of its levels.
    Total,
    /// The value of the empty set is not 0.
    Start,
    /// A listed cost, with the nodes above its set, is above the total.
    CellTooBig,
    /// From a set by a variable the value rises by more than the width.
    Edge {
        /// The set: bit i is variable i.
        mask: u16,
        /// The variable.
        variable: u8,
    },
}

impl fmt::Display for Reason {
    /// The words of `ordercheck`.
    fn fmt(&self, to: &mut fmt::Formatter<'_>) -> fmt::Result {
        match self {
            Self::Edge { mask, variable } => write!(to, "Edge {mask:04x} {variable}"),
            other => write!(to, "{other:?}"),
        }
    }
}

/// The verdict on a certificate, and what it states. If it is valid, no order that keeps `pairs`
/// has fewer nodes than `total`; without pairs these are all orders.
#[derive(Debug, Clone, PartialEq, Eq, Hash)]
pub struct Verdict {
    /// The first reason why it isn't good; none if it is valid.
    pub reason: Option<Reason>,
    /// The certificate's total.
    pub total: u32,
    /// The certificate's pairs.
    pub pairs: Vec<Pair>,
}

impl Verdict {
    /// Whether the certificate is good.
    #[must_use]
    pub fn is_valid(&self) -> bool {
        self.reason.is_none()
    }
}

impl fmt::Display for Verdict {
    /// The line of `ordercheck`.
    fn fmt(&self, to: &mut fmt::Formatter<'_>) -> fmt::Result {
        match (self.reason, self.pairs.len()) {
            (Some(reason), _) => write!(to, "invalid {reason}"),
            (None, 0) => write!(to, "valid {}", self.total),
            (None, pairs) => write!(to, "valid {} pairs {pairs}", self.total),
        }
    }
}

/// The text of the certificate of the first order of the fewest nodes among those that keep the
/// pairs, as `minorder --cert` writes it and [`check`] and `ordercheck` accept it. It takes longer
/// than [`exact`](crate::exact).
///
/// ```
/// use minorder::{certify, check, Tables};
///
/// let mux = Tables::from_words(3, 1, vec![0xca])?;
/// let text = certify(&mux, &[])?;
/// assert!(check(&mux, &text)?.is_valid());
/// assert_eq!(check(&mux, text.replace("total 3", "total 2"))?.to_string(), "invalid Total");
/// # Ok::<(), minorder::Error>(())
/// ```
///
/// # Errors
/// [`Error::PairOutOfRange`], [`Error::PairCycle`], and those of [every call](Error).
pub fn certify(tables: &Tables, pairs: &[Pair]) -> Result<String, Error> {
    check_pairs(tables, pairs)?;
    let (mut text, mut length) = (vec![0; MOST_BYTES], 0);
    done(library::certify(tables, pairs, &mut text, &mut length)?)?;
    text.truncate(length);
    Ok(String::from_utf8_lossy(&text).into_owned())
}

/// The verdict on a certificate's text.
///
/// ```
/// use minorder::{check, CertificateFault, Error, Tables};
///
/// let mux = Tables::from_words(3, 1, vec![0xca])?;
/// let refused = Error::BadCertificate { line: 2, fault: CertificateFault::BadNumber };
/// assert_eq!(check(&mux, "bddorder-certificate 2\ninputs 03\n"), Err(refused));
/// # Ok::<(), Error>(())
/// ```
///
/// # Errors
/// [`Error::BadCertificate`] with the first faulty line, [`Error::UnknownReason`], and those of
/// [every call](Error).
pub fn check(tables: &Tables, certificate: impl AsRef<[u8]>) -> Result<Verdict, Error> {
    let (mut judged, mut total) = (Judged::default(), 0);
    let (mut pairs, mut count) = (vec![Pair::default(); MOST_PAIRS.into()], 0);
    let text = certificate.as_ref();
    let status = library::check(tables, text, &mut judged, &mut total, &mut pairs, &mut count)?;
    if status == BAD_CERTIFICATE {
        if let Some((line, fault)) = first_fault(text) {
            return Err(Error::BadCertificate { line, fault });
        }
    }
    done(status)?;
    pairs.truncate(count);
    Ok(Verdict { reason: reason_of(&judged)?, total, pairs })
}

// a mask has 16 bits, and a variable is below 16
#[allow(clippy::cast_possible_truncation)]
fn reason_of(judged: &Judged) -> Result<Option<Reason>, Error> {
    Ok(Some(match judged.reason {
        0 => return Ok(None),
        1 => Reason::Shape,
        2 => Reason::Order,
        3 => Reason::Pairs,
        4 => Reason::Levels,
        5 => Reason::Total,
        6 => Reason::Start,
        7 => Reason::CellTooBig,
        8 => Reason::Edge { mask: judged.mask as u16, variable: judged.variable as u8 },
        other => return Err(Error::UnknownReason(other)),
    }))
}
