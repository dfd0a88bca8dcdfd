use std::fmt;
use std::ops::RangeInclusive;
use std::str;

use CertificateFault::{BadLine, BadNumber, MissingLine, NotRising, TooLong, TrailingText};

/// A certificate has no more bytes.
pub(crate) const MOST_BYTES: usize = 1 << 20;
/// A certificate has no more pairs.
pub(crate) const MOST_PAIRS: u16 = 240;
/// No level count, total or cost is greater.
const MOST_NODES: u32 = 999_999;

/// What is wrong with a line of a certificate, by the words that `ordercheck` prints.
#[derive(Debug, Clone, Copy, PartialEq, Eq, Hash)]
#[non_exhaustive]
pub enum CertificateFault {
    /// It isn't there, or has no line feed.
    MissingLine,
    /// It has another fixed word, or another number of words.
    BadLine,
    /// It spells a number in another way, or has a number that is beyond its bound.
    BadNumber,
    /// It isn't above the line before.
    NotRising,
    /// It stands behind the last one.
    TrailingText,
    /// The text has more than 1,048,576 bytes.
    TooLong,
}

impl fmt::Display for CertificateFault {
    /// The word of `ordercheck`.
    fn fmt(&self, to: &mut fmt::Formatter<'_>) -> fmt::Result {
        write!(to, "{self:?}")
    }
}

/// The first faulty line of a text, from 1, and what is wrong there; line 0 if the text is too
/// long. The library says only that there is a fault.
pub(crate) fn first_fault(text: &[u8]) -> Option<(usize, CertificateFault)> {
    if text.len() > MOST_BYTES {
        return Some((0, TooLong));
    }
    let mut lines = Lines { rest: text, line: 0 };
    lines.read().err().map(|fault| (lines.line, fault))
}

type Read<T> = Result<T, CertificateFault>;

/// The lines of a certificate that aren't read yet, and the number of the last one that is.
struct Lines<'a> {
    rest: &'a [u8],
    line: usize,
}

impl<'a> Lines<'a> {
    fn read(&mut self) -> Read<()> {
        let format = match self.words(2)?[..] {
            [b"bddorder-certificate", b"1"] => 1,
            [b"bddorder-certificate", b"2"] => 2,
            _ => return Err(BadLine),
        };
        let inputs = self.number("inputs", 1..=16)?;
        self.number("outputs", 1..=16)?;
        self.numbers("order", inputs as usize, &(0..=15))?;
        self.numbers("levels", inputs as usize, &(0..=MOST_NODES))?;
        self.number("total", 0..=MOST_NODES)?;
        if format == 2 {
            self.pairs(inputs)?;
        }
        self.cells(inputs)?;
        if self.words(1)? != [b"end"] {
            return Err(BadLine);
        }
        self.line += 1;
        if self.rest.is_empty() {
            Ok(())
        } else {
            Err(TrailingText)
        }
    }

    fn pairs(&mut self, inputs: u32) -> Read<()> {
        let mut last = None;
        for _ in 0..self.number("pairs", 0..=MOST_PAIRS.into())? {
            let words = self.words(2)?;
            let pair = Some((
                decimal(words[0], &(0..=inputs - 1))?,
                decimal(words[1], &(0..=inputs - 1))?,
            ));
            if pair <= last {
                return Err(NotRising);
            }
            last = pair;
        }
        Ok(())
    }

    fn cells(&mut self, inputs: u32) -> Read<()> {
        let mut last = None;
        for _ in 0..self.number("cells", 0..=(1 << inputs) - 1)? {
            let words = self.words(2)?;
            let set = Some(mask(words[0], (1 << inputs) - 2)?);
            decimal(words[1], &(0..=MOST_NODES))?;
            if set <= last {
                return Err(NotRising);
            }
            last = set;
        }
        Ok(())
    }

    /// The words of the next line, which has so many.
    fn words(&mut self, count: usize) -> Read<Vec<&'a [u8]>> {
        self.line += 1;
        let end = self.rest.iter().position(|&byte| byte == b'\n').ok_or(MissingLine)?;
        let words: Vec<_> = self.rest[..end].split(|&byte| byte == b' ').collect();
        self.rest = &self.rest[end + 1..];
        if words.len() == count {
            Ok(words)
        } else {
            Err(BadLine)
        }
    }

    /// The numbers of the next line, behind its name.
    fn numbers(&mut self, name: &str, count: usize, range: &RangeInclusive<u32>) -> Read<Vec<u32>> {
        let words = self.words(count + 1)?;
        if words[0] != name.as_bytes() {
            return Err(BadLine);
        }
        words[1..].iter().map(|word| decimal(word, range)).collect()
    }

    fn number(&mut self, name: &str, range: RangeInclusive<u32>) -> Read<u32> {
        Ok(self.numbers(name, 1, &range)?[0])
    }
}

/// A number without a sign and without leading zeros.
fn decimal(word: &[u8], range: &RangeInclusive<u32>) -> Read<u32> {
    let is_plain = word == b"0" || !word.starts_with(b"0") && word.iter().all(u8::is_ascii_digit);
    let text = str::from_utf8(word).ok().filter(|_| is_plain);
    text.and_then(|it| it.parse().ok()).filter(|it| range.contains(it)).ok_or(BadNumber)
}

/// A set of variables: four lowercase hexadecimal digits.
fn mask(word: &[u8], most: u32) -> Read<u32> {
    let is_plain = word.len() == 4 && word.iter().all(|it| matches!(it, b'0'..=b'9' | b'a'..=b'f'));
    let text = str::from_utf8(word).ok().filter(|_| is_plain);
    text.and_then(|it| u32::from_str_radix(it, 16).ok()).filter(|&it| it <= most).ok_or(BadNumber)
}
