use std::array;
use std::borrow::Borrow;

use crate::Error;

pub(crate) const MOST_INPUTS: usize = 16;
pub(crate) const MOST_OUTPUTS: usize = 16;
const WORD: usize = u64::BITS as usize;

/// The truth tables of 1 to 16 functions of the same 1 to 16 variables. Bit i of a point is the
/// value of variable i there.
///
/// `&`, `|`, `^` and `!` work output by output, on values and on references. They panic if the
/// numbers of inputs or outputs differ; [`Tables::combine`] returns an error instead.
///
/// ```
/// use minorder::{exact, Tables};
///
/// let [a, b, c] = Tables::variables()?;
/// let sum = &a ^ &b ^ &c;
/// let carry = &a & &b | &c & (a ^ b);
/// assert_eq!(exact(&Tables::concat(&[sum, carry])?)?.to_string(), "0 1 2: 8 nodes");
/// # Ok::<(), minorder::Error>(())
/// ```
#[derive(Debug, Clone, PartialEq, Eq, Hash)]
pub struct Tables {
    inputs: usize,
    outputs: usize,
    words: Vec<u64>,
}

impl Tables {
    /// From words of 64 points: bit p % 64 of word p / 64 of a table is the value at the point p,
    /// and the tables of all outputs stand one after the other. Below 6 inputs a table takes one
    /// word, whose bits from 2^inputs on are ignored.
    ///
    /// ```
    /// let mux = minorder::Tables::from_words(3, 1, vec![0xca])?;
    /// assert_eq!(minorder::exact(&mux)?.order, [2, 0, 1]);
    /// assert!(minorder::Tables::from_words(7, 1, vec![0xca]).is_err());
    /// # Ok::<(), minorder::Error>(())
    /// ```
    ///
    /// # Errors
    /// [`Error::BadInputs`], [`Error::BadOutputs`], [`Error::BadWords`].
    pub fn from_words(inputs: usize, outputs: usize, words: Vec<u64>) -> Result<Self, Error> {
        let mut tables = Self::zero(inputs, outputs)?;
        if words.len() != tables.words.len() {
            return Err(Error::BadWords { given: words.len(), wanted: tables.words.len() });
        }
        tables.words = words;
        tables.trim();
        Ok(tables)
    }

    /// From a closure, which is called once for each point and each output and gives the output's
    /// value there.
    ///
    /// ```
    /// // the sum of two numbers of 2 bits
    /// let sum = minorder::Tables::from_fn(4, 3, |point, output| {
    ///     ((point & 3) + (point >> 2)) >> output & 1 == 1
    /// })?;
    /// assert_eq!(minorder::exact(&sum)?.total, 11);
    /// # Ok::<(), minorder::Error>(())
    /// ```
    ///
    /// # Errors
    /// [`Error::BadInputs`], [`Error::BadOutputs`].
    pub fn from_fn(
        inputs: usize,
        outputs: usize,
        value: impl FnMut(usize, usize) -> bool,
    ) -> Result<Self, Error> {
        Ok(Self::zero(inputs, outputs)?.filled(value))
    }

    /// From the values of each output, by rising points.
    ///
    /// ```
    /// let parity = minorder::Tables::from_bools(2, &[[false, true, true, false]])?;
    /// assert_eq!(minorder::exact(&parity)?.total, 3);
    /// # Ok::<(), minorder::Error>(())
    /// ```
    ///
    /// # Errors
    /// [`Error::BadInputs`], [`Error::BadOutputs`], [`Error::BadValues`].
    pub fn from_bools(inputs: usize, outputs: &[impl AsRef<[bool]>]) -> Result<Self, Error> {
        // the shape comes first, so that 2^inputs is a number
        Self::zero(inputs, outputs.len())?;
        let wanted = 1 << inputs;
        for (output, values) in outputs.iter().enumerate() {
            let given = values.as_ref().len();
            if given != wanted {
                return Err(Error::BadValues { output, given, wanted });
            }
        }
        Self::from_fn(inputs, outputs.len(), |point, output| outputs[output].as_ref()[point])
    }

    /// The functions that are the variables themselves, of as many inputs as there are variables.
    ///
    /// ```
    /// // a multiplexer
    /// let [a, b, s] = minorder::Tables::variables()?;
    /// assert_eq!((&s & b | !s & a).words(), [0xca]);
    /// # Ok::<(), minorder::Error>(())
    /// ```
    ///
    /// # Errors
    /// [`Error::BadInputs`].
    pub fn variables<const N: usize>() -> Result<[Self; N], Error> {
        let zero = Self::zero(N, 1)?;
        Ok(array::from_fn(|variable| zero.clone().filled(|point, _| point >> variable & 1 == 1)))
    }

    /// The function that is one of the variables itself.
    ///
    /// ```
    /// use minorder::Tables;
    ///
    /// let variables = (0..8).map(|it| Tables::variable(8, it)).collect::<Result<Vec<_>, _>>()?;
    /// let parity = variables.into_iter().reduce(|sum, it| sum ^ it).unwrap();
    /// assert_eq!(minorder::exact(&parity)?.levels, [1, 2, 2, 2, 2, 2, 2, 2]);
    /// # Ok::<(), minorder::Error>(())
    /// ```
    ///
    /// # Errors
    /// [`Error::BadInputs`], [`Error::BadVariable`].
    pub fn variable(inputs: usize, variable: usize) -> Result<Self, Error> {
        let zero = Self::zero(inputs, 1)?;
        if variable >= inputs {
            return Err(Error::BadVariable { variable, inputs });
        }
        Ok(zero.filled(|point, _| point >> variable & 1 == 1))
    }

    /// The functions of all parts, one after the other, as outputs of one diagram.
    ///
    /// ```
    /// use minorder::Tables;
    ///
    /// let [a, b] = Tables::variables()?;
    /// let half_adder = Tables::concat(&[&a ^ &b, &a & &b])?;
    /// assert_eq!(half_adder.words(), [0b0110, 0b1000]);
    /// assert_eq!(half_adder.output(1), a & b);
    /// # Ok::<(), minorder::Error>(())
    /// ```
    ///
    /// # Errors
    /// [`Error::BadOutputs`], [`Error::DifferentShapes`].
    pub fn concat(parts: &[impl Borrow<Self>]) -> Result<Self, Error> {
        let parts = || parts.iter().map(Borrow::borrow);
        let left = parts().next().map_or((1, 0), Self::shape);
        let mut all = Self::zero(left.0, parts().map(Self::outputs).sum())?;
        if let Some(other) = parts().find(|part| part.inputs != left.0) {
            return Err(Error::DifferentShapes { left, right: other.shape() });
        }
        all.words = parts().flat_map(Self::words).copied().collect();
        Ok(all)
    }

    /// One of the functions.
    ///
    /// # Panics
    /// If there is no such output.
    #[must_use]
    pub fn output(&self, output: usize) -> Self {
        self.assert_output(output);
        let each = self.words_of_each();
        let words = self.words[output * each..][..each].to_vec();
        Self { inputs: self.inputs, outputs: 1, words }
    }

    /// The functions that an operator makes of two tables, output by output. The operator gets
    /// words of 64 points, so it has to work bit by bit.
    ///
    /// ```
    /// use minorder::{Error, Tables};
    ///
    /// let [a, b] = Tables::variables()?;
    /// assert_eq!(a.combine(&b, |a, b| a & !b)?, &a & !b);
    /// let other = Tables::variable(3, 0)?;
    /// let refused = Error::DifferentShapes { left: (2, 1), right: (3, 1) };
    /// assert_eq!(a.combine(&other, |a, b| a | b), Err(refused));
    /// # Ok::<(), Error>(())
    /// ```
    ///
    /// # Errors
    /// [`Error::DifferentShapes`].
    pub fn combine(&self, other: &Self, operator: impl Fn(u64, u64) -> u64) -> Result<Self, Error> {
        let mut combined = self.clone();
        combined.assign_combined(other, operator)?;
        Ok(combined)
    }

    /// How many variables the functions have.
    #[must_use]
    pub fn inputs(&self) -> usize {
        self.inputs
    }

    /// How many functions there are.
    #[must_use]
    pub fn outputs(&self) -> usize {
        self.outputs
    }

    /// The words of all tables, as [`Tables::from_words`] takes them.
    #[must_use]
    pub fn words(&self) -> &[u64] {
        &self.words
    }

    /// The value of an output at a point.
    ///
    /// # Panics
    /// If there is no such output, or the functions have no such point.
    #[must_use]
    pub fn value(&self, point: usize, output: usize) -> bool {
        assert!(point < 1 << self.inputs, "point: {point}: there are {}", 1 << self.inputs);
        self.assert_output(output);
        self.words[output * self.words_of_each() + point / WORD] >> (point % WORD) & 1 == 1
    }

    /// The functions that are 0 everywhere.
    pub(crate) fn zero(inputs: usize, outputs: usize) -> Result<Self, Error> {
        if !(1..=MOST_INPUTS).contains(&inputs) {
            return Err(Error::BadInputs(inputs));
        }
        if !(1..=MOST_OUTPUTS).contains(&outputs) {
            return Err(Error::BadOutputs(outputs));
        }
        Ok(Self { inputs, outputs, words: vec![0; outputs * words_of(inputs)] })
    }

    /// The functions with these values, which were 0 everywhere.
    fn filled(mut self, mut value: impl FnMut(usize, usize) -> bool) -> Self {
        let each = self.words_of_each();
        for output in 0..self.outputs {
            for point in 0..1 << self.inputs {
                let bit = u64::from(value(point, output)) << (point % WORD);
                self.words[output * each + point / WORD] |= bit;
            }
        }
        self
    }

    /// Puts what [`Tables::combine`] returns in the place of these tables.
    pub(crate) fn assign_combined(
        &mut self,
        other: &Self,
        operator: impl Fn(u64, u64) -> u64,
    ) -> Result<(), Error> {
        let (left, right) = (self.shape(), other.shape());
        if left != right {
            return Err(Error::DifferentShapes { left, right });
        }
        for (word, &of_other) in self.words.iter_mut().zip(&other.words) {
            *word = operator(*word, of_other);
        }
        self.trim();
        Ok(())
    }

    /// Negates the functions.
    pub(crate) fn complement(&mut self) {
        self.words.iter_mut().for_each(|word| *word = !*word);
        self.trim();
    }

    /// The numbers of inputs and outputs.
    pub(crate) fn shape(&self) -> (usize, usize) {
        (self.inputs, self.outputs)
    }

    /// Clears the bits beyond the last point.
    fn trim(&mut self) {
        if self.inputs < 6 {
            self.words.iter_mut().for_each(|word| *word &= (1 << (1 << self.inputs)) - 1);
        }
    }

    fn assert_output(&self, output: usize) {
        assert!(output < self.outputs, "output: {output}: there are {}", self.outputs);
    }

    fn words_of_each(&self) -> usize {
        words_of(self.inputs)
    }
}

/// How many words the table of a function of so many variables takes.
pub(crate) fn words_of(inputs: usize) -> usize {
    (1 << inputs).max(WORD) / WORD
}
