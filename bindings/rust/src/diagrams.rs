use std::slice;

use crate::library::{self, done};
use crate::many::{shape_of_all, Many};
use crate::orders::check_order;
use crate::{Error, FoundOrder, Tables};

/// A call for many diagrams has room for at most so many nodes.
const ROOM: usize = 1 << 20;

/// A node of a diagram: its variable, and its children where that is 0 and where it is 1.
/// 0 and 1 are the terminals, k + 2 is node k.
#[derive(Debug, Clone, Copy, Default, PartialEq, Eq, Hash)]
#[repr(C)]
pub struct Node {
    /// The variable.
    pub variable: u32,
    /// The child where the variable is 0.
    pub low: u32,
    /// The child where the variable is 1.
    pub high: u32,
}

/// The reduced shared diagram of functions under an order. `for node in &diagram` goes over its
/// nodes from below.
#[derive(Debug, Clone, PartialEq, Eq, Hash)]
pub struct Diagram {
    /// How many variables the functions have.
    pub inputs: usize,
    /// The nodes, level by level from below: children stand before parents.
    pub nodes: Vec<Node>,
    /// The root of each output: 0, 1, or k + 2 for node k.
    pub roots: Vec<u32>,
}

impl Diagram {
    /// The nodes, level by level from below: children come before parents, and parents before
    /// children with `rev`.
    pub fn iter(&self) -> slice::Iter<'_, Node> {
        self.nodes.iter()
    }

    /// The value of an output at a point.
    ///
    /// # Panics
    /// If there is no such output, or the functions have no such point.
    #[must_use]
    pub fn value(&self, point: usize, output: usize) -> bool {
        assert!(point < 1 << self.inputs, "point: {point}: there are {}", 1 << self.inputs);
        assert!(output < self.roots.len(), "output: {output}: there are {}", self.roots.len());
        let mut at = self.roots[output];
        while at > 1 {
            let node = self.nodes[at as usize - 2];
            at = if point >> node.variable & 1 == 0 { node.low } else { node.high };
        }
        at == 1
    }
}

impl<'a> IntoIterator for &'a Diagram {
    type Item = &'a Node;
    type IntoIter = slice::Iter<'a, Node>;

    fn into_iter(self) -> Self::IntoIter {
        self.iter()
    }
}

/// The reduced shared diagram under an order. A loop over its nodes builds it in another package.
///
/// ```
/// use minorder::{diagram, exact, Tables};
///
/// let mux = Tables::from_words(3, 1, vec![0xca])?;
/// let best = diagram(&mux, &exact(&mux)?.order)?;
/// // by points: the bits of the table
/// let mut values = vec![0, 0xff];
/// for node in &best {
///     let variable = [0xaa, 0xcc, 0xf0][node.variable as usize];
///     values.push(values[node.low as usize] & !variable | values[node.high as usize] & variable);
/// }
/// assert_eq!(values[best.roots[0] as usize], 0xca);
/// # Ok::<(), minorder::Error>(())
/// ```
///
/// # Errors
/// [`Error::BadOrder`], and those of [every call](Error).
pub fn diagram(tables: &Tables, order: &[u8]) -> Result<Diagram, Error> {
    check_order(tables.inputs(), order)?;
    written(tables, |nodes, roots, count| library::diagram(tables, order, nodes, roots, count))
}

/// The first order of the fewest nodes, as [`exact`](crate::exact) gives it, and the reduced shared
/// diagram under it, as [`diagram`] gives it, by one call.
///
/// ```
/// use minorder::{exact_diagram, Tables};
///
/// let mux = Tables::from_words(3, 1, vec![0xca])?;
/// let (found, best) = exact_diagram(&mux)?;
/// assert_eq!(found.to_string(), "2 0 1: 3 nodes");
/// assert_eq!(best.nodes.len(), 3);
/// assert!((0..8).all(|point| best.value(point, 0) == mux.value(point, 0)));
/// # Ok::<(), minorder::Error>(())
/// ```
///
/// # Errors
/// Those of [every call](Error).
pub fn exact_diagram(tables: &Tables) -> Result<(FoundOrder, Diagram), Error> {
    let mut found = FoundOrder::place(vec![0; tables.inputs()]);
    let best = written(tables, |nodes, roots, count| {
        let status = library::exact_diagram(tables, &mut found, nodes, roots)?;
        *count = found.total as usize;
        Ok(status)
    })?;
    Ok((found, best))
}

/// What [`exact_diagram`] gives for each of many problems with the same numbers of inputs and
/// outputs. For small problems it takes less time than as many calls.
///
/// ```
/// use minorder::{exact_diagram_many, Tables};
///
/// let problems: Vec<Tables> =
///     (0..16).map(|table| Tables::from_words(2, 1, vec![table])).collect::<Result<_, _>>()?;
/// let answers = exact_diagram_many(&problems)?;
/// assert!(answers.iter().all(|(found, best)| best.nodes.len() == found.total as usize));
/// let xor = &answers[6].1;
/// assert_eq!([0, 1, 2, 3].map(|point| xor.value(point, 0)), [false, true, true, false]);
/// # Ok::<(), minorder::Error>(())
/// ```
///
/// # Errors
/// [`Error::OtherShape`], and those of [every call](Error).
pub fn exact_diagram_many(problems: &[Tables]) -> Result<Vec<(FoundOrder, Diagram)>, Error> {
    let (inputs, outputs) = shape_of_all(problems)?;
    let most = most_nodes(inputs, outputs);
    let mut answers = Vec::with_capacity(problems.len());
    for part in problems.chunks(ROOM / most) {
        let mut many = Many::of(part, (inputs, outputs));
        let mut nodes = vec![Node::default(); part.len() * most];
        let mut roots = vec![0; part.len() * outputs];
        done(library::exact_diagram_many(&mut many, &mut nodes, &mut roots)?)?;
        let mut nodes = nodes.into_iter();
        for (found, roots) in many.found().into_iter().zip(roots.chunks(outputs)) {
            let nodes = nodes.by_ref().take(found.total as usize).collect();
            answers.push((found, Diagram { inputs, nodes, roots: roots.to_vec() }));
        }
    }
    Ok(answers)
}

/// The diagram that a call writes: its nodes, its roots, and the number of its nodes.
fn written(
    tables: &Tables,
    write: impl FnOnce(&mut [Node], &mut [u32], &mut usize) -> Result<u32, Error>,
) -> Result<Diagram, Error> {
    let mut nodes = vec![Node::default(); most_nodes(tables.inputs(), tables.outputs())];
    let (mut roots, mut count) = (vec![0; tables.outputs()], 0);
    done(write(&mut nodes, &mut roots, &mut count)?)?;
    nodes.truncate(count);
    nodes.shrink_to_fit();
    Ok(Diagram { inputs: tables.inputs(), nodes, roots })
}

/// As many nodes as a diagram of such functions has at most: on each level one for each output
/// and values of the variables above, and one for each function of its variables and those below.
pub(crate) fn most_nodes(inputs: usize, outputs: usize) -> usize {
    let level = |above: usize| match inputs - above {
        below @ 1..=4 => (outputs << above).min(1 << (1 << below)),
        _ => outputs << above,
    };
    (0..inputs).map(level).sum()
}
