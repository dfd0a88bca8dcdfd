//! A native baseline: exact variable ordering by the dynamic program over subsets (Friedman and Supowit 1990), depth first and
//! on threads. It claims nothing but speed, and trusts its input: products of 0, 1 and -, and outputs of 0 and 1.
//!
//! With `--bound` it leaves out each set whose fewest nodes, with one for each variable outside that some output depends on, are
//! above the bound, and makes tables only on the way to the others; the bound must be the size of some order.
//!
//! usage: baseline [--bound NODES] [WORKERS] FILE      (rustc -O baseline.rs)

use std::sync::atomic::{AtomicU32, AtomicUsize, Ordering::Relaxed};

struct Problem {
    inputs: usize,
    outputs: usize,
    /// The value of each output at each point, one output after the other.
    values: Vec<u8>,
    /// The variables that each output depends on.
    supports: Vec<u16>,
}

fn read(text: &str) -> Problem {
    let (mut inputs, mut outputs, mut values) = (0, 0, Vec::new());
    for line in text.lines().map(|line| line.split('#').next().unwrap_or("")) {
        let words: Vec<&str> = line.split_whitespace().collect();
        match words.as_slice() {
            [".i", count] => inputs = count.parse().unwrap(),
            [".o", count] => {
                outputs = count.parse().unwrap();
                values = vec![0u8; outputs << inputs];
            }
            [product, row] if !product.starts_with('.') => add(inputs, &mut values, product.as_bytes(), row.as_bytes()),
            _ => {}
        }
    }
    let depends = |output: usize, x: usize| (0..1usize << inputs).any(|p| values[(output << inputs) + p] != values[(output << inputs) + (p ^ 1 << x)]);
    let supports = (0..outputs).map(|output| (0..inputs).filter(|&x| depends(output, x)).map(|x| 1u16 << x).sum()).collect();
    Problem { inputs, outputs, values, supports }
}

/// Sets the points of a product in the outputs that it belongs to.
fn add(inputs: usize, values: &mut [u8], product: &[u8], row: &[u8]) {
    let mask = |byte: u8| (0..inputs).filter(|&i| product[i] == byte).map(|i| 1usize << i).sum::<usize>();
    let (ones, open) = (mask(b'1'), mask(b'-'));
    for output in (0..row.len()).filter(|&output| row[output] == b'1') {
        let mut part = open;
        loop {
            values[(output << inputs) + ones + part] = 1;
            if part == 0 {
                break;
            }
            part = (part - 1) & open;
        }
    }
}

/// The subfunctions over a set of variables.
#[derive(Clone)]
enum Table {
    /// The class of each, by output and assignment of the other variables of its support, and what each class depends on.
    Classes { numbers: Vec<u32>, masks: Vec<u16> },
    /// How many there are, where all differ and depend on the whole set.
    Distinct(u32),
}

/// Space for the numbering of pairs.
#[derive(Default)]
struct Scratch {
    slots: Vec<u32>,
    pairs: Vec<(u32, u32)>,
}

const EMPTY: u32 = u32::MAX;

impl Scratch {
    /// The table with one more variable.
    fn with(&mut self, problem: &Problem, table: &Table, set: u16, variable: usize) -> Table {
        let (numbers, masks) = match table {
            Table::Distinct(count) => return Table::Distinct(count / 2),
            Table::Classes { numbers, masks } => (numbers, masks),
        };
        let pairs = pairs_with(problem, numbers, set, variable);
        let cells = masks.len() * masks.len();
        let mut next = Vec::with_capacity(pairs.len());
        self.pairs.clear();
        self.slots.clear();
        if cells <= 4 * pairs.len() {
            self.slots.resize(cells, EMPTY);
            for pair in pairs {
                next.push(self.number(pair.0 as usize * masks.len() + pair.1 as usize, pair));
            }
        } else {
            let places = (2 * pairs.len()).next_power_of_two();
            self.slots.resize(places, EMPTY);
            for pair in pairs {
                let mixed = (u64::from(pair.0) << 32 | u64::from(pair.1)).wrapping_mul(0x9E37_79B9_7F4A_7C15);
                let mut at = (mixed >> 64 - places.trailing_zeros()) as usize;
                while self.slots[at] != EMPTY && self.pairs[self.slots[at] as usize] != pair {
                    at = (at + 1) & (places - 1);
                }
                next.push(self.number(at, pair));
            }
        }
        let mask_of = |pair: &(u32, u32)| masks[pair.0 as usize] | masks[pair.1 as usize] | u16::from(pair.0 != pair.1) << variable;
        let next_masks: Vec<u16> = self.pairs.iter().map(mask_of).collect();
        let (set, all) = (set | 1 << variable, u16::MAX >> (16 - problem.inputs));
        let whole = problem.supports.iter().all(|&support| support == all);
        if whole && next_masks.len() == next.len() && next_masks.iter().all(|&mask| mask == set) {
            return Table::Distinct(next.len() as u32);
        }
        Table::Classes { numbers: next, masks: next_masks }
    }

    /// The number of the pair whose slot that is.
    fn number(&mut self, at: usize, pair: (u32, u32)) -> u32 {
        if self.slots[at] == EMPTY {
            self.slots[at] = self.pairs.len() as u32;
            self.pairs.push(pair);
        }
        self.slots[at]
    }
}

/// The classes of the two halves of each subfunction over the set with the variable; those of an output that doesn't depend on it are equal.
fn pairs_with(problem: &Problem, numbers: &[u32], set: u16, variable: usize) -> Vec<(u32, u32)> {
    let (mut pairs, mut start) = (Vec::with_capacity(numbers.len()), 0);
    for support in &problem.supports {
        let free = support & !set;
        let count = 1 << free.count_ones();
        let part = &numbers[start..start + count];
        if free >> variable & 1 == 1 {
            let half = 1 << (free & (1 << variable) - 1).count_ones();
            for both in part.chunks_exact(2 * half) {
                pairs.extend(both[..half].iter().copied().zip(both[half..].iter().copied()));
            }
        } else {
            pairs.extend(part.iter().map(|&number| (number, number)));
        }
        start += count;
    }
    pairs
}

struct Search<'a> {
    problem: &'a Problem,
    /// The width of each variable of each set over the set without it.
    widths: &'a [AtomicU32],
}

impl Search<'_> {
    /// Keeps the widths into the set, and goes on to each set with a variable above `from`.
    fn walk(&self, scratch: &mut Scratch, table: &Table, set: u16, from: usize) {
        self.keep(table, set);
        for variable in from..self.problem.inputs {
            let next = scratch.with(self.problem, table, set, variable);
            self.walk(scratch, &next, set | 1 << variable, variable + 1);
        }
    }

    fn keep(&self, table: &Table, set: u16) {
        let mut counts = [0u32; 16];
        match table {
            Table::Distinct(count) => counts = [*count; 16],
            Table::Classes { masks, .. } => {
                for mask in masks {
                    for (variable, count) in counts.iter_mut().enumerate() {
                        *count += u32::from(mask >> variable & 1);
                    }
                }
            }
        }
        for variable in 0..16 {
            self.widths[usize::from(set) * 16 + variable].store(counts[variable], Relaxed);
        }
    }

    /// The sets whose variables below `cut` are those of the part.
    fn part(&self, scratch: &mut Scratch, first: &Table, part: u16, cut: usize) {
        let (mut table, mut set) = (first.clone(), 0u16);
        for variable in (0..cut).filter(|&variable| part >> variable & 1 == 1) {
            table = scratch.with(self.problem, &table, set, variable);
            set |= 1 << variable;
        }
        self.walk(scratch, &table, set, cut);
    }
}

/// The cost of a set that is left out.
const LEFT_OUT: u32 = u32::MAX;

/// The search below a bound.
struct Bounded<'a> {
    search: Search<'a>,
    costs: &'a [AtomicU32],
    bound: u32,
    /// The variables that some output depends on.
    essential: u16,
    cut: usize,
}

/// A set on the way to the one that is looked at, the variable that it was made with, and its table if that was needed.
struct Step {
    set: u16,
    variable: usize,
    table: Option<Table>,
}

impl Bounded<'_> {
    fn cost(&self, set: u16) -> u32 {
        self.costs[usize::from(set)].load(Relaxed)
    }

    /// The sets that have the path's last set and any of the variables from `cut` to `above`, those with smaller numbers first.
    fn walk(&self, scratch: &mut Scratch, path: &mut Vec<Step>, above: usize) {
        let set = path[path.len() - 1].set;
        if above == self.cut {
            return self.look(scratch, path, set);
        }
        let variable = above - 1;
        self.walk(scratch, path, variable);
        path.push(Step { set: set | 1 << variable, variable, table: None });
        self.walk(scratch, path, variable);
        path.pop();
    }

    /// Keeps the widths into a set and its cost, if that can be within the bound.
    fn look(&self, scratch: &mut Scratch, path: &mut [Step], set: u16) {
        let affordable = (0..self.search.problem.inputs).filter(|&x| set >> x & 1 == 1 && self.cost(set ^ 1 << x) != LEFT_OUT).map(|x| 1u16 << x).sum::<u16>();
        if affordable == 0 {
            return;
        }
        self.search.keep(self.table(scratch, path), set);
        let through = |x: usize| self.cost(set ^ 1 << x) + self.search.widths[usize::from(set) * 16 + x].load(Relaxed);
        let cost = (0..16).filter(|&x| affordable >> x & 1 == 1).map(through).min().unwrap();
        if cost + (self.essential & !set).count_ones() <= self.bound {
            self.costs[usize::from(set)].store(cost, Relaxed);
        }
    }

    /// The table of the path's last set.
    fn table<'p>(&self, scratch: &mut Scratch, path: &'p mut [Step]) -> &'p Table {
        let made = path.iter().rposition(|step| step.table.is_some()).unwrap();
        for at in made + 1..path.len() {
            let (before, variable) = (&path[at - 1], path[at].variable);
            path[at].table = Some(scratch.with(self.search.problem, before.table.as_ref().unwrap(), before.set, variable));
        }
        path[path.len() - 1].table.as_ref().unwrap()
    }

    /// The sets whose variables below `cut` are those of the part; parts with fewer of them are done.
    fn part(&self, scratch: &mut Scratch, first: &Table, part: u16) {
        let mut path = vec![Step { set: 0, variable: 0, table: Some(first.clone()) }];
        for variable in (0..self.cut).filter(|&variable| part >> variable & 1 == 1) {
            let set = path[path.len() - 1].set | 1 << variable;
            path.push(Step { set, variable, table: None });
        }
        self.walk(scratch, &mut path, self.search.problem.inputs);
    }
}

/// Does some numbered parts on so many threads.
fn on_threads(workers: usize, parts: &[u16], work: impl Fn(&mut Scratch, u16) + Sync) {
    let next = AtomicUsize::new(0);
    std::thread::scope(|scope| {
        for _ in 0..workers {
            scope.spawn(|| {
                let mut scratch = Scratch::default();
                while let Some(&part) = parts.get(next.fetch_add(1, Relaxed)) {
                    work(&mut scratch, part);
                }
            });
        }
    });
}

/// The table of the empty set: a value for each point of each output's support.
fn first_table(problem: &Problem) -> Table {
    let first = problem.values[0];
    let mut numbers = Vec::new();
    for (output, &support) in problem.supports.iter().enumerate() {
        let inside = |point: &usize| *point & !usize::from(support) == 0;
        numbers.extend((0..1usize << problem.inputs).filter(inside).map(|point| u32::from(problem.values[(output << problem.inputs) + point] != first)));
    }
    let classes = if numbers.contains(&1) { 2 } else { 1 };
    Table::Classes { numbers, masks: vec![0; classes] }
}

fn main() {
    let mut words: Vec<String> = std::env::args().skip(1).collect();
    let bound: Option<u32> = (words.first().map(String::as_str) == Some("--bound")).then(|| words.drain(..2).last().unwrap().parse().unwrap());
    let (workers, file) = match words.as_slice() {
        [file] => (4, file),
        [workers, file] => (workers.parse().unwrap(), file),
        _ => panic!("usage: baseline [--bound NODES] [WORKERS] FILE"),
    };
    let problem = read(&std::fs::read_to_string(file).unwrap());
    let (inputs, table) = (problem.inputs, first_table(&problem));
    assert!(problem.outputs > 0 && inputs <= 16);
    let widths: Vec<AtomicU32> = (0..16usize << inputs).map(|_| AtomicU32::new(0)).collect();
    let (search, cut) = (Search { problem: &problem, widths: &widths }, inputs.min(6));
    let parts: Vec<u16> = (0..1 << cut).collect();
    let width = |set: usize, variable: usize| widths[set * 16 + variable].load(Relaxed);
    let inside = |set: usize| (0..inputs).filter(move |variable| set >> variable & 1 == 1);
    let mut costs = vec![0u32; 1 << inputs];
    if let Some(bound) = bound {
        let found: Vec<AtomicU32> = (0..1usize << inputs).map(|set| AtomicU32::new(if set == 0 { 0 } else { LEFT_OUT })).collect();
        let essential = problem.supports.iter().fold(0, |all, support| all | support);
        let bounded = Bounded { search, costs: &found, bound, essential, cut };
        for size in 0..=cut as u32 {
            let parts: Vec<u16> = parts.iter().copied().filter(|part| part.count_ones() == size).collect();
            on_threads(workers, &parts, |scratch, part| bounded.part(scratch, &table, part));
        }
        costs = found.iter().map(|cost| cost.load(Relaxed)).collect();
    } else {
        on_threads(workers, &parts, |scratch, part| search.part(scratch, &table, part, cut));
        for set in 1..1usize << inputs {
            costs[set] = inside(set).map(|x| costs[set ^ 1 << x] + width(set, x)).min().unwrap();
        }
    }
    let (mut set, mut order, mut levels) = ((1usize << inputs) - 1, Vec::new(), Vec::new());
    assert!(costs[set] != LEFT_OUT, "no order has a size within the bound");
    while set != 0 {
        let top = inside(set).find(|&x| costs[set ^ 1 << x] != LEFT_OUT && costs[set ^ 1 << x] + width(set, x) == costs[set]).unwrap();
        order.push(top.to_string());
        levels.push(width(set, top).to_string());
        set ^= 1 << top;
    }
    println!("order: {}\nlevels: {}\nnodes: {}", order.join(" "), levels.join(" "), costs[(1 << inputs) - 1]);
}
