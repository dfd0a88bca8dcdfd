//! The calls of the C library as functions over slices, which give its statuses.
#![allow(unsafe_code)]

use crate::many::Many;
use crate::version::check_library;
use crate::{Error, Figures, FoundOrder, Node, Pair, Tables};

/// The answer of a check.
#[derive(Default)]
#[repr(C)]
pub struct Judged {
    pub reason: u32,
    pub mask: u32,
    pub variable: u32,
}

/// A name, as a part of a text; of length 0 where there is none.
#[derive(Default, Clone, Copy)]
#[repr(C)]
pub struct Place {
    pub start: usize,
    pub length: usize,
}

/// What is wrong with a PLA file.
#[derive(Default)]
#[repr(C)]
pub struct Fault {
    pub line: usize,
    pub kind: u32,
}

/// What a PLA file says besides its truth tables, or its first fault.
#[derive(Default)]
pub struct Found {
    pub inputs: u32,
    pub outputs: u32,
    pub input_names: [Place; 16],
    pub output_names: [Place; 16],
    pub fault: Fault,
}

#[rustfmt::skip]
extern "C" {
    fn minorder_version() -> u32;
    fn minorder_exact_with_lengths(
        tables: *const u64, words: usize, inputs: u32, outputs: u32,
        order: *mut u8, order_length: usize, levels: *mut u32, levels_length: usize, total: *mut u32,
    ) -> u32;
    fn minorder_exact_above_with_lengths(
        tables: *const u64, words: usize, inputs: u32, outputs: u32, pairs: *const Pair, count: usize,
        order: *mut u8, order_length: usize, levels: *mut u32, levels_length: usize, total: *mut u32,
    ) -> u32;
    fn minorder_exact_many_with_lengths(
        tables: *const u64, words: usize, inputs: u32, outputs: u32,
        orders: *mut u8, orders_length: usize, levels: *mut u32, levels_length: usize,
        totals: *mut u32, count: usize,
    ) -> u32;
    fn minorder_levels_with_lengths(
        tables: *const u64, words: usize, inputs: u32, outputs: u32,
        order: *const u8, order_length: usize, levels: *mut u32, levels_length: usize,
    ) -> u32;
    fn minorder_sift_with_lengths(
        tables: *const u64, words: usize, inputs: u32, outputs: u32,
        order: *mut u8, order_length: usize, levels: *mut u32, levels_length: usize, total: *mut u32,
    ) -> u32;
    fn minorder_diagram_with_lengths(
        tables: *const u64, words: usize, inputs: u32, outputs: u32,
        order: *const u8, order_length: usize, nodes: *mut Node, room: usize,
        roots: *mut u32, roots_length: usize, count: *mut usize,
    ) -> u32;
    fn minorder_exact_diagram_with_lengths(
        tables: *const u64, words: usize, inputs: u32, outputs: u32,
        order: *mut u8, order_length: usize, levels: *mut u32, levels_length: usize,
        nodes: *mut Node, room: usize, roots: *mut u32, roots_length: usize, total: *mut u32,
    ) -> u32;
    fn minorder_exact_diagram_many_with_lengths(
        tables: *const u64, words: usize, inputs: u32, outputs: u32,
        totals: *mut u32, count: usize, orders: *mut u8, orders_length: usize,
        levels: *mut u32, levels_length: usize, nodes: *mut Node, room: usize,
        roots: *mut u32, roots_length: usize,
    ) -> u32;
    fn minorder_orders_with_pairs(
        tables: *const u64, words: usize, inputs: u32, outputs: u32, pairs: *const Pair, count: usize,
        figures: *mut Figures,
    ) -> u32;
    fn minorder_sizes_with_pairs(
        tables: *const u64, words: usize, inputs: u32, outputs: u32, pairs: *const Pair, count: usize,
        most: u32, orders: *mut u64, room: usize, fewest: *mut u32, sizes: *mut usize,
    ) -> u32;
    fn minorder_widths_with_lengths(
        tables: *const u64, words: usize, inputs: u32, outputs: u32,
        widths: *mut u32, widths_length: usize,
    ) -> u32;
    fn minorder_certify_with_pairs(
        tables: *const u64, words: usize, inputs: u32, outputs: u32, pairs: *const Pair, count: usize,
        text: *mut u8, room: usize, length: *mut usize,
    ) -> u32;
    fn minorder_check_total_with_pairs(
        tables: *const u64, words: usize, inputs: u32, outputs: u32,
        certificate: *const u8, length: usize, verdict: *mut Judged, total: *mut u32,
        pairs: *mut Pair, room: usize, count: *mut usize,
    ) -> u32;
    fn minorder_read_pla_with_lengths(
        text: *const u8, length: usize, inputs: *mut u32, outputs: *mut u32,
        input_names: *mut Place, input_places: usize, output_names: *mut Place, output_places: usize,
        tables: *mut u64, room: usize, fault: *mut Fault,
    ) -> u32;
}

/// The status of a call, which is made only if the library has a version that this crate can call.
fn status_of(call: impl FnOnce() -> u32) -> Result<u32, Error> {
    check_library()?;
    Ok(call())
}

/// The error that a status other than 0 stands for. Shapes and orders are checked before the
/// calls, so that their statuses don't come.
pub fn done(status: u32) -> Result<(), Error> {
    match status {
        0 => Ok(()),
        4 => Err(Error::OutOfMemory),
        8 => Err(Error::PairCycle),
        other => Err(Error::UnknownStatus(other)),
    }
}

/// The numbers of inputs and outputs.
fn shape(tables: &Tables) -> (u32, u32) {
    (small(tables.inputs()), small(tables.outputs()))
}

// counts of inputs and outputs are at most 16
#[allow(clippy::cast_possible_truncation)]
fn small(count: usize) -> u32 {
    count as u32
}

/// The library's version: 10203 for 1.2.3.
pub fn version() -> u32 {
    // SAFETY: the call takes nothing and returns a number.
    unsafe { minorder_version() }
}

pub fn exact(tables: &Tables, found: &mut FoundOrder) -> Result<u32, Error> {
    let (words, (inputs, outputs)) = (tables.words(), shape(tables));
    let FoundOrder { order, levels, total } = found;
    // SAFETY: each pointer is of a slice and comes with its length, or of one number; what is
    // written is borrowed by this call alone.
    status_of(|| unsafe {
        minorder_exact_with_lengths(
            words.as_ptr(),
            words.len(),
            inputs,
            outputs,
            order.as_mut_ptr(),
            order.len(),
            levels.as_mut_ptr(),
            levels.len(),
            total,
        )
    })
}

pub fn exact_above(tables: &Tables, pairs: &[Pair], found: &mut FoundOrder) -> Result<u32, Error> {
    let (words, (inputs, outputs)) = (tables.words(), shape(tables));
    let FoundOrder { order, levels, total } = found;
    // SAFETY: as in `exact`; a `Pair` is laid out as C's.
    status_of(|| unsafe {
        minorder_exact_above_with_lengths(
            words.as_ptr(),
            words.len(),
            inputs,
            outputs,
            pairs.as_ptr(),
            pairs.len(),
            order.as_mut_ptr(),
            order.len(),
            levels.as_mut_ptr(),
            levels.len(),
            total,
        )
    })
}

pub fn exact_many(many: &mut Many) -> Result<u32, Error> {
    let (inputs, outputs) = many.shape;
    // SAFETY: as in `exact`.
    status_of(|| unsafe {
        minorder_exact_many_with_lengths(
            many.words.as_ptr(),
            many.words.len(),
            small(inputs),
            small(outputs),
            many.orders.as_mut_ptr(),
            many.orders.len(),
            many.levels.as_mut_ptr(),
            many.levels.len(),
            many.totals.as_mut_ptr(),
            many.totals.len(),
        )
    })
}

pub fn levels(tables: &Tables, order: &[u8], levels: &mut [u32]) -> Result<u32, Error> {
    let (words, (inputs, outputs)) = (tables.words(), shape(tables));
    // SAFETY: as in `exact`.
    status_of(|| unsafe {
        minorder_levels_with_lengths(
            words.as_ptr(),
            words.len(),
            inputs,
            outputs,
            order.as_ptr(),
            order.len(),
            levels.as_mut_ptr(),
            levels.len(),
        )
    })
}

pub fn sift(tables: &Tables, found: &mut FoundOrder) -> Result<u32, Error> {
    let (words, (inputs, outputs)) = (tables.words(), shape(tables));
    let FoundOrder { order, levels, total } = found;
    // SAFETY: as in `exact`.
    status_of(|| unsafe {
        minorder_sift_with_lengths(
            words.as_ptr(),
            words.len(),
            inputs,
            outputs,
            order.as_mut_ptr(),
            order.len(),
            levels.as_mut_ptr(),
            levels.len(),
            total,
        )
    })
}

pub fn diagram(
    tables: &Tables,
    order: &[u8],
    nodes: &mut [Node],
    roots: &mut [u32],
    count: &mut usize,
) -> Result<u32, Error> {
    let (words, (inputs, outputs)) = (tables.words(), shape(tables));
    // SAFETY: as in `exact`; a `Node` is laid out as C's.
    status_of(|| unsafe {
        minorder_diagram_with_lengths(
            words.as_ptr(),
            words.len(),
            inputs,
            outputs,
            order.as_ptr(),
            order.len(),
            nodes.as_mut_ptr(),
            nodes.len(),
            roots.as_mut_ptr(),
            roots.len(),
            count,
        )
    })
}

pub fn exact_diagram(
    tables: &Tables,
    found: &mut FoundOrder,
    nodes: &mut [Node],
    roots: &mut [u32],
) -> Result<u32, Error> {
    let (words, (inputs, outputs)) = (tables.words(), shape(tables));
    let FoundOrder { order, levels, total } = found;
    // SAFETY: as in `diagram`.
    status_of(|| unsafe {
        minorder_exact_diagram_with_lengths(
            words.as_ptr(),
            words.len(),
            inputs,
            outputs,
            order.as_mut_ptr(),
            order.len(),
            levels.as_mut_ptr(),
            levels.len(),
            nodes.as_mut_ptr(),
            nodes.len(),
            roots.as_mut_ptr(),
            roots.len(),
            total,
        )
    })
}

pub fn exact_diagram_many(
    many: &mut Many,
    nodes: &mut [Node],
    roots: &mut [u32],
) -> Result<u32, Error> {
    let (inputs, outputs) = many.shape;
    // SAFETY: as in `diagram`.
    status_of(|| unsafe {
        minorder_exact_diagram_many_with_lengths(
            many.words.as_ptr(),
            many.words.len(),
            small(inputs),
            small(outputs),
            many.totals.as_mut_ptr(),
            many.totals.len(),
            many.orders.as_mut_ptr(),
            many.orders.len(),
            many.levels.as_mut_ptr(),
            many.levels.len(),
            nodes.as_mut_ptr(),
            nodes.len(),
            roots.as_mut_ptr(),
            roots.len(),
        )
    })
}

pub fn orders(tables: &Tables, pairs: &[Pair], figures: &mut Figures) -> Result<u32, Error> {
    let (words, (inputs, outputs)) = (tables.words(), shape(tables));
    // SAFETY: as in `exact`; a `Pair` and a `Figures` are laid out as C's.
    status_of(|| unsafe {
        minorder_orders_with_pairs(
            words.as_ptr(),
            words.len(),
            inputs,
            outputs,
            pairs.as_ptr(),
            pairs.len(),
            figures,
        )
    })
}

pub fn sizes(
    tables: &Tables,
    pairs: &[Pair],
    most: u32,
    orders: &mut [u64],
    fewest: &mut u32,
    length: &mut usize,
) -> Result<u32, Error> {
    let (words, (inputs, outputs)) = (tables.words(), shape(tables));
    // SAFETY: as in `exact`; a `Pair` is laid out as C's.
    status_of(|| unsafe {
        minorder_sizes_with_pairs(
            words.as_ptr(),
            words.len(),
            inputs,
            outputs,
            pairs.as_ptr(),
            pairs.len(),
            most,
            orders.as_mut_ptr(),
            orders.len(),
            fewest,
            length,
        )
    })
}

pub fn widths(tables: &Tables, widths: &mut [u32]) -> Result<u32, Error> {
    let (words, (inputs, outputs)) = (tables.words(), shape(tables));
    // SAFETY: as in `exact`.
    status_of(|| unsafe {
        minorder_widths_with_lengths(
            words.as_ptr(),
            words.len(),
            inputs,
            outputs,
            widths.as_mut_ptr(),
            widths.len(),
        )
    })
}

pub fn certify(
    tables: &Tables,
    pairs: &[Pair],
    text: &mut [u8],
    length: &mut usize,
) -> Result<u32, Error> {
    let (words, (inputs, outputs)) = (tables.words(), shape(tables));
    // SAFETY: as in `exact`; a `Pair` is laid out as C's.
    status_of(|| unsafe {
        minorder_certify_with_pairs(
            words.as_ptr(),
            words.len(),
            inputs,
            outputs,
            pairs.as_ptr(),
            pairs.len(),
            text.as_mut_ptr(),
            text.len(),
            length,
        )
    })
}

pub fn check(
    tables: &Tables,
    certificate: &[u8],
    judged: &mut Judged,
    total: &mut u32,
    pairs: &mut [Pair],
    count: &mut usize,
) -> Result<u32, Error> {
    let (words, (inputs, outputs)) = (tables.words(), shape(tables));
    // SAFETY: as in `exact`; a `Judged` and a `Pair` are laid out as C's.
    status_of(|| unsafe {
        minorder_check_total_with_pairs(
            words.as_ptr(),
            words.len(),
            inputs,
            outputs,
            certificate.as_ptr(),
            certificate.len(),
            judged,
            total,
            pairs.as_mut_ptr(),
            pairs.len(),
            count,
        )
    })
}

pub fn read_pla(text: &[u8], found: &mut Found, words: &mut [u64]) -> Result<u32, Error> {
    // SAFETY: as in `exact`; a `Place` and a `Fault` are laid out as C's.
    status_of(|| unsafe {
        minorder_read_pla_with_lengths(
            text.as_ptr(),
            text.len(),
            &mut found.inputs,
            &mut found.outputs,
            found.input_names.as_mut_ptr(),
            found.input_names.len(),
            found.output_names.as_mut_ptr(),
            found.output_names.len(),
            words.as_mut_ptr(),
            words.len(),
            &mut found.fault,
        )
    })
}
