use std::fmt;

use crate::{CertificateFault, Pair, PlaFault, Version};

/// Why a call was refused. Its text is one line that names the argument.
///
/// Every call of the library may return `IncompatibleLibrary`, `OutOfMemory` or `UnknownStatus`.
#[derive(Debug, Clone, PartialEq, Eq)]
#[non_exhaustive]
pub enum Error {
    /// Another number of inputs than 1 to 16.
    BadInputs(usize),
    /// Another number of outputs than 1 to 16.
    BadOutputs(usize),
    /// Another number of words than the tables of all outputs take.
    BadWords {
        /// How many there are.
        given: usize,
        /// How many the tables take.
        wanted: usize,
    },
    /// An output has another number of values than its function has points.
    BadValues {
        /// The number of the output, from 0.
        output: usize,
        /// How many values it has.
        given: usize,
        /// How many points the function has.
        wanted: usize,
    },
    /// The functions haven't this variable.
    BadVariable {
        /// The variable.
        variable: usize,
        /// How many variables there are.
        inputs: usize,
    },
    /// Two tables don't fit together: an operator takes equal numbers of inputs and outputs, and
    /// [`Tables::concat`](crate::Tables::concat) equal numbers of inputs.
    DifferentShapes {
        /// The inputs and outputs of the first.
        left: (usize, usize),
        /// The inputs and outputs of the other.
        right: (usize, usize),
    },
    /// The order hasn't each variable once.
    BadOrder {
        /// The order.
        order: Vec<u8>,
        /// How many variables there are.
        inputs: usize,
    },
    /// A pair has a variable that the functions haven't.
    PairOutOfRange {
        /// The pair.
        pair: Pair,
        /// How many variables there are.
        inputs: usize,
    },
    /// The pairs lead from a variable back to itself.
    PairCycle,
    /// Of many problems this one has other numbers of inputs and outputs than the first.
    OtherShape(usize),
    /// The text is no certificate.
    BadCertificate {
        /// Its first faulty line, from 1; 0 where no line is faulty, as of a long text.
        line: usize,
        /// What is wrong there.
        fault: CertificateFault,
    },
    /// The text is no PLA file.
    BadPla {
        /// Its first faulty line, from 1; 0 where no line is faulty, as of an empty or a long text.
        line: usize,
        /// What is wrong there.
        fault: PlaFault,
    },
    /// The library has another major version than this crate, or is older than it needs.
    IncompatibleLibrary {
        /// The version of the library, which [`library_version`](crate::library_version) gives.
        found: Version,
        /// The oldest version that would do.
        needed: Version,
    },
    /// The library was refused memory.
    OutOfMemory,
    /// The library ended with a status that this crate doesn't know.
    UnknownStatus(u32),
    /// The library gave a reason for its verdict that this crate doesn't know.
    UnknownReason(u32),
    /// The library gave a fault of a PLA file that this crate doesn't know.
    UnknownFault(u32),
}

impl fmt::Display for Error {
    fn fmt(&self, to: &mut fmt::Formatter<'_>) -> fmt::Result {
        match self {
            Self::BadInputs(given) => write!(to, "inputs: {given}: there are 1 to 16"),
            Self::BadOutputs(given) => write!(to, "outputs: {given}: there are 1 to 16"),
            Self::BadWords { given, wanted } => {
                write!(to, "words: {given}: the tables of all outputs take {wanted}")
            }
            Self::BadValues { output, given, wanted } => {
                write!(to, "values: {given} of output {output}: the function has {wanted} points")
            }
            Self::BadVariable { variable, inputs } => {
                write!(to, "variable: {variable}: variables are below {inputs}")
            }
            Self::DifferentShapes { left, right } => {
                write!(to, "tables: inputs and outputs {left:?} and {right:?} don't fit together")
            }
            Self::BadOrder { order, inputs } => {
                write!(to, "order: {order:?}: an order has each variable below {inputs} once")
            }
            Self::PairOutOfRange { pair, inputs } => {
                let Pair { above, below } = pair;
                write!(to, "pairs: {above} above {below}: variables are below {inputs}")
            }
            Self::PairCycle => write!(to, "pairs: they lead from a variable back to itself"),
            Self::OtherShape(problem) => {
                write!(to, "problems: problem {problem} hasn't the first one's inputs and outputs")
            }
            Self::BadCertificate { line: 0, fault } => write!(to, "certificate: {fault}"),
            Self::BadCertificate { line, fault } => write!(to, "certificate line {line}: {fault}"),
            Self::BadPla { fault: PlaFault::TooLong, .. } => write!(to, "TooLong"),
            Self::BadPla { line, fault } => write!(to, "line {line}: {fault}"),
            Self::IncompatibleLibrary { found, needed } => {
                write!(to, "library: version {found}: the crate needs one compatible with {needed}")
            }
            Self::OutOfMemory => write!(to, "the library was refused memory"),
            Self::UnknownStatus(status) => write!(to, "the library ended with status {status}"),
            Self::UnknownReason(reason) => write!(to, "the library gave the reason {reason}"),
            Self::UnknownFault(fault) => write!(to, "the library gave the fault {fault}"),
        }
    }
}

impl std::error::Error for Error {}
