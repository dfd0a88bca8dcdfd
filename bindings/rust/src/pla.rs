use std::fmt;
use std::str::FromStr;

use crate::library::{self, done, Fault, Found, Place};
use crate::tables::{words_of, MOST_INPUTS, MOST_OUTPUTS};
use crate::{Error, Tables};

/// The status of a text that is no PLA file.
const BAD_PLA: u32 = 9;

/// A PLA file: the truth tables of its outputs, and its names. [`read_pla`] reads it, and so do
/// `parse` and `try_from`.
///
/// ```
/// use minorder::Pla;
///
/// let and: Pla = ".i 2\n.o 1\n11 1\n".parse()?;
/// assert_eq!(and.tables.words(), [0b1000]);
/// assert_eq!(Pla::try_from(&b".i 2\n.o 1\n11 1\n"[..])?, and);
/// # Ok::<(), minorder::Error>(())
/// ```
#[derive(Debug, Clone, PartialEq, Eq, Hash)]
pub struct Pla {
    /// The truth tables of the outputs.
    pub tables: Tables,
    /// The names of the inputs; x0, x1, .. if the file has none.
    pub inputs: Vec<String>,
    /// The names of the outputs; f0, f1, .. if the file has none.
    pub outputs: Vec<String>,
}

impl FromStr for Pla {
    type Err = Error;

    fn from_str(text: &str) -> Result<Self, Error> {
        read_pla(text)
    }
}

impl TryFrom<&[u8]> for Pla {
    type Error = Error;

    fn try_from(text: &[u8]) -> Result<Self, Error> {
        read_pla(text)
    }
}

/// What is wrong with a line of a PLA file, by the words that `minorder` prints.
#[derive(Debug, Clone, Copy, PartialEq, Eq, Hash)]
#[non_exhaustive]
pub enum PlaFault {
    /// A term stands before `.i` and `.o`, names stand before their number, or a number is missing.
    MissingHead,
    /// `.i` or `.o` stands there again.
    RepeatedHead,
    /// The number of inputs isn't 1 to 16.
    InputCount,
    /// The number of outputs isn't 1 to 16.
    OutputCount,
    /// Something else stands where a number belongs.
    BadNumber,
    /// There are not as many names as inputs or outputs.
    NameCount,
    /// A name has a byte outside visible ASCII.
    BadName,
    /// The directive isn't one that is read.
    UnknownDirective,
    /// The type is neither `f` nor `fd`, or `.type f` stands behind a term.
    UnsupportedType,
    /// An output is `-` or `2`, but the type isn't `f`.
    DontCare,
    /// An input of a term is spelled in another way than `0`, `1`, `-` or `2`.
    BadInputChar,
    /// An output of a term is spelled in another way than `0`, `1`, `~`, `-` or `2`.
    BadOutputChar,
    /// The term has too few inputs and outputs.
    ShortTerm,
    /// The term has too many inputs and outputs.
    LongTerm,
    /// The text has more than 16,777,216 bytes.
    TooLong,
}

impl PlaFault {
    /// In the order of their numbers, from 1.
    const ALL: [Self; 15] = [
        Self::MissingHead,
        Self::RepeatedHead,
        Self::InputCount,
        Self::OutputCount,
        Self::BadNumber,
        Self::NameCount,
        Self::BadName,
        Self::UnknownDirective,
        Self::UnsupportedType,
        Self::DontCare,
        Self::BadInputChar,
        Self::BadOutputChar,
        Self::ShortTerm,
        Self::LongTerm,
        Self::TooLong,
    ];
}

impl fmt::Display for PlaFault {
    /// The word of `minorder`.
    fn fmt(&self, to: &mut fmt::Formatter<'_>) -> fmt::Result {
        write!(to, "{self:?}")
    }
}

/// The tables and the names of a PLA file's text, which is refused where `minorder` refuses it.
///
/// ```
/// use minorder::{exact, read_pla};
///
/// let mux = read_pla(".i 3\n.o 1\n.ilb a b s\n1-0 1\n-11 1\n")?;
/// assert_eq!((mux.inputs.join(" "), mux.outputs.join(" ")), ("a b s".into(), "f0".into()));
/// assert_eq!(exact(&mux.tables)?.order, [2, 0, 1]);
/// assert_eq!(read_pla(".i 2\n.o 1\n11 -\n").unwrap_err().to_string(), "line 3: DontCare");
/// # Ok::<(), minorder::Error>(())
/// ```
///
/// # Errors
/// [`Error::BadPla`] with the first faulty line, and those of [every call](Error).
pub fn read_pla(text: impl AsRef<[u8]>) -> Result<Pla, Error> {
    let text = text.as_ref();
    let mut words = vec![0; MOST_OUTPUTS * words_of(MOST_INPUTS)];
    let mut found = Found::default();
    match library::read_pla(text, &mut found, &mut words)? {
        BAD_PLA => return Err(refusal(&found.fault)),
        status => done(status)?,
    }
    let (inputs, outputs) = (found.inputs as usize, found.outputs as usize);
    words.truncate(outputs * words_of(inputs));
    Ok(Pla {
        tables: Tables::from_words(inputs, outputs, words)?,
        inputs: names(text, &found.input_names[..inputs], 'x'),
        outputs: names(text, &found.output_names[..outputs], 'f'),
    })
}

fn refusal(found: &Fault) -> Error {
    match PlaFault::ALL.get((found.kind as usize).wrapping_sub(1)) {
        Some(&fault) => Error::BadPla { line: found.line, fault },
        None => Error::UnknownFault(found.kind),
    }
}

/// The names at these places of a text, and a letter with a number where it gives none.
fn names(text: &[u8], places: &[Place], letter: char) -> Vec<String> {
    let name = |(number, place): (usize, &Place)| match place.length {
        0 => format!("{letter}{number}"),
        length => String::from_utf8_lossy(&text[place.start..][..length]).into_owned(),
    };
    places.iter().enumerate().map(name).collect()
}
