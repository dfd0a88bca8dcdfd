use crate::{Error, FoundOrder, Tables};

/// Problems with the same numbers of inputs and outputs, and places for the library's answers, of
/// each problem behind those of the one before.
pub(crate) struct Many {
    pub shape: (usize, usize),
    pub words: Vec<u64>,
    pub orders: Vec<u8>,
    pub levels: Vec<u32>,
    pub totals: Vec<u32>,
}

impl Many {
    /// Problems that all have this shape.
    pub(crate) fn of(problems: &[Tables], shape: (usize, usize)) -> Self {
        Self {
            shape,
            words: problems.iter().flat_map(Tables::words).copied().collect(),
            orders: vec![0; problems.len() * shape.0],
            levels: vec![0; problems.len() * shape.0],
            totals: vec![0; problems.len()],
        }
    }

    /// The answer to each problem.
    pub(crate) fn found(&self) -> Vec<FoundOrder> {
        let inputs = self.shape.0;
        let each = self.orders.chunks(inputs).zip(self.levels.chunks(inputs)).zip(&self.totals);
        each.map(|((order, levels), &total)| FoundOrder {
            order: order.to_vec(),
            levels: levels.to_vec(),
            total,
        })
        .collect()
    }
}

/// The numbers of inputs and outputs that all problems have; those of some functions if there are
/// no problems.
pub(crate) fn shape_of_all(problems: &[Tables]) -> Result<(usize, usize), Error> {
    let shape = problems.first().map_or((1, 1), Tables::shape);
    match problems.iter().position(|tables| tables.shape() != shape) {
        Some(other) => Err(Error::OtherShape(other)),
        None => Ok(shape),
    }
}
