//! Diagrams of the best orders, and what all orders have, beside a count under each order.

mod random;

use std::collections::{BTreeMap, HashSet};

use minorder::{
    diagram, exact, exact_above, exact_diagram, exact_diagram_many, exact_many, orders, sizes,
    widths, Error, FoundOrder, Pair, Sizes, Tables,
};

use random::Random;

fn mux() -> Tables {
    Tables::from_words(3, 1, vec![0xca]).unwrap()
}

fn pair(above: u8, below: u8) -> Pair {
    Pair { above, below }
}

/// The orders that keep the pairs.
fn kept(inputs: u8, pairs: &[Pair]) -> Vec<Vec<u8>> {
    let mut kept = vec![vec![]];
    for variable in 0..inputs {
        let each = |order: &Vec<u8>| -> Vec<Vec<u8>> {
            (0..=order.len()).map(|at| [&order[..at], &[variable], &order[at..]].concat()).collect()
        };
        kept = kept.iter().flat_map(each).collect();
    }
    let place = |order: &[u8], variable| order.iter().position(|&it| it == variable);
    let is_kept = |order: &Vec<u8>, it: &Pair| place(order, it.above) < place(order, it.below);
    kept.retain(|order| pairs.iter().all(|it| is_kept(order, it)));
    kept
}

/// The nodes on the level of a variable above those of `below`, a mask, for up to 5 inputs: the
/// functions that are left if the variables above are fixed, and that depend on the variable.
fn nodes(tables: &Tables, variable: usize, below: usize) -> u32 {
    let points = 0..1 << tables.inputs();
    let own = below | 1 << variable;
    let mut left = HashSet::new();
    for output in 0..tables.outputs() {
        for fixed in points.clone().filter(|point| point & own == 0) {
            let value = |point: usize| tables.value(point & own | fixed, output);
            if points.clone().any(|point| value(point) != value(point ^ 1 << variable)) {
                left.insert(points.clone().map(value).collect::<Vec<bool>>());
            }
        }
    }
    u32::try_from(left.len()).unwrap()
}

fn size(tables: &Tables, order: &[u8]) -> u32 {
    let mut below = 0;
    let level = |&variable: &u8| {
        let level = nodes(tables, variable.into(), below);
        below |= 1 << variable;
        level
    };
    order.iter().rev().map(level).sum()
}

/// How many of the orders that keep the pairs have each size.
fn counted(tables: &Tables, pairs: &[Pair]) -> BTreeMap<u32, u64> {
    let inputs = u8::try_from(tables.inputs()).unwrap();
    let mut counts = BTreeMap::new();
    for order in kept(inputs, pairs) {
        *counts.entry(size(tables, &order)).or_insert(0) += 1;
    }
    counts
}

fn float(small: u64) -> f64 {
    f64::from(u32::try_from(small).unwrap())
}

/// Functions of 1 to 5 inputs, and pairs that some of their orders keep.
fn problems() -> Vec<(Tables, Vec<Pair>)> {
    let mut random = Random(7);
    let mut problems = vec![(mux(), vec![]), (Tables::variable(4, 1).unwrap(), vec![])];
    for (inputs, outputs) in [(1, 1), (1, 3), (2, 1), (3, 2), (4, 1), (4, 3), (5, 1), (5, 2)] {
        let order = random.order(inputs);
        let mut pairs: Vec<Pair> = order.windows(2).map(|it| pair(it[0], it[1])).collect();
        pairs.extend(pairs.first().copied());
        for count in [0, pairs.len() / 2, pairs.len()] {
            problems.push((random.tables(inputs, outputs), pairs[..count].to_vec()));
        }
        problems.push((random.tables(inputs, outputs), pairs.iter().step_by(2).copied().collect()));
    }
    problems
}

#[test]
fn figures_are_those_of_all_orders() {
    for (tables, pairs) in problems() {
        let counts = counted(&tables, &pairs);
        let (fewest, most) = (counts.first_key_value().unwrap(), counts.last_key_value().unwrap());
        let nodes: u64 = counts.iter().map(|(&size, orders)| u64::from(size) * orders).sum();
        let found = orders(&tables, &pairs).unwrap();
        assert_eq!(found.orders(), counts.values().sum::<u64>());
        assert_eq!((&found.fewest_nodes(), &found.optimal_orders()), fewest);
        assert_eq!((&found.most_nodes(), &found.worst_orders()), most);
        assert_eq!(found.total_nodes(), nodes);
        assert_eq!(found.fewest_nodes(), exact_above(&tables, &pairs).unwrap().total);
        let (numerator, denominator) = found.exact_mean();
        assert_eq!(numerator * found.orders(), denominator * nodes);
        assert!((2..=denominator).all(|it| numerator % it != 0 || denominator % it != 0));
        assert!((found.mean() - float(numerator) / float(denominator)).abs() < 1e-9);
    }
}

/// Sees that sizes up to a bound are those of the orders, and the same of what follows from them.
fn see(found: &Sizes, counts: &BTreeMap<u32, u64>, bound: u32) {
    let up_to: Vec<(u32, u64)> = counts.range(..=bound).map(|(&size, &it)| (size, it)).collect();
    assert!(found.iter().eq(up_to.iter().copied()) && found.into_iter().rev().len() == up_to.len());
    let all = counts.values().sum();
    assert_eq!((found.orders(), found.total()), (all, up_to.iter().map(|it| it.1).sum()));
    assert_eq!(found.fewest(), up_to.first().map(|it| it.0));
    assert_eq!(found.most(), up_to.last().map(|it| it.0));
    let most = *counts.keys().next_back().unwrap();
    for size in (0..most + 3).chain([u32::MAX]) {
        let fewer = counts.range(..size).map(|it| it.1).sum();
        let up_to = counts.range(..=size).map(|it| it.1).sum();
        let is_known = |size| bound >= most || size <= bound;
        assert_eq!(found.rank(size), (size == 0 || is_known(size - 1)).then_some(fewer));
        let share = float(up_to) / float(all);
        assert_eq!(found.share(size), is_known(size).then_some(share));
        if counts.contains_key(&size) {
            assert_eq!(found.quantile(share), (size <= bound).then_some(size));
        }
    }
    assert_eq!(found.quantile(0.0), found.fewest());
    assert_eq!([1.1, f64::NAN].map(|share| found.quantile(share)), [None, None]);
}

#[test]
fn sizes_are_those_of_all_orders() {
    for (tables, pairs) in problems() {
        let counts = counted(&tables, &pairs);
        let all = sizes(&tables, &pairs, None).unwrap();
        see(&all, &counts, u32::MAX);
        let most = all.most().unwrap();
        for bound in 0..most {
            see(&sizes(&tables, &pairs, Some(bound)).unwrap(), &counts, bound);
        }
        // a bound that leaves no order out is none
        for bound in [most, most + 1, u32::MAX] {
            assert_eq!(sizes(&tables, &pairs, Some(bound)).unwrap(), all);
        }
    }
}

#[test]
fn widths_are_the_nodes_of_levels() {
    for (tables, _) in problems() {
        let (inputs, found) = (tables.inputs(), widths(&tables).unwrap());
        assert_eq!((found.inputs(), found.rows().len()), (inputs, 1 << inputs));
        for (mask, row) in found.rows().enumerate() {
            let is_member = |variable: usize| mask >> variable & 1 == 1;
            let width = |it| if is_member(it) { nodes(&tables, it, mask ^ 1 << it) } else { 0 };
            assert!(row.iter().copied().eq((0..inputs).map(width)));
            assert_eq!(found.row(mask), row);
            assert!((0..inputs).all(|it| found.width(it, mask) == row[it]));
        }
        for order in kept(u8::try_from(inputs).unwrap(), &[]) {
            assert_eq!(found.cost(&order).unwrap(), size(&tables, &order));
        }
    }
}

#[test]
fn diagrams_of_the_best_orders_are_those_of_these_orders() {
    let mut random = Random(8);
    for (inputs, outputs) in [(1, 1), (2, 16), (3, 2), (5, 16), (6, 1), (9, 2)] {
        let problems: Vec<Tables> = (0..20).map(|_| random.tables(inputs, outputs)).collect();
        let each: Vec<_> = problems.iter().map(|it| exact_diagram(it).unwrap()).collect();
        for (tables, (found, best)) in problems.iter().zip(&each) {
            assert_eq!(*found, exact(tables).unwrap());
            assert_eq!(*best, diagram(tables, &found.order).unwrap());
        }
        assert_eq!(exact_diagram_many(&problems).unwrap(), each);
        let found: Vec<FoundOrder> = each.into_iter().map(|it| it.0).collect();
        assert_eq!(exact_many(&problems).unwrap(), found);
    }
    assert_eq!(exact_diagram_many(&[]), Ok(vec![]));
    assert_eq!(
        exact_diagram_many(&[mux(), random.tables(3, 2)]).unwrap_err(),
        Error::OtherShape(1)
    );
}

#[test]
fn more_problems_have_diagrams_than_one_call_has_room_for() {
    let mut problems = vec![Tables::variable(16, 15).unwrap(); 130];
    problems[129] = Tables::variable(16, 3).unwrap();
    let answers = exact_diagram_many(&problems).unwrap();
    assert_eq!(answers.len(), 130);
    for (tables, (found, best)) in problems.iter().zip(answers) {
        assert_eq!(found.total, 1);
        assert_eq!(best, diagram(tables, &found.order).unwrap());
    }
}

#[test]
fn sixteen_variables_have_all_their_orders() {
    let first = Tables::variable(16, 0).unwrap();
    let all = orders(&first, &[]).unwrap();
    assert_eq!((all.orders(), all.exact_mean()), ((1..=16).product(), (1, 1)));
    let none = sizes(&first, &[pair(1, 0)], Some(0)).unwrap();
    assert_eq!((none.orders(), none.total()), (all.orders() / 2, 0));
    assert_eq!((none.fewest(), none.most(), none.quantile(0.0)), (None, None, None));
    assert_eq!((none.rank(1), none.rank(2), none.share(0)), (Some(0), None, Some(0.0)));
}

#[test]
fn pairs_and_orders_that_do_not_fit_are_named() {
    for circle in [vec![pair(1, 1)], vec![pair(0, 2), pair(2, 1), pair(1, 0)]] {
        assert_eq!(orders(&mux(), &circle), Err(Error::PairCycle));
        assert_eq!(sizes(&mux(), &circle, None), Err(Error::PairCycle));
        assert_eq!(sizes(&mux(), &circle, Some(0)), Err(Error::PairCycle));
    }
    let refused = Error::PairOutOfRange { pair: pair(3, 0), inputs: 3 };
    let outside = [pair(0, 1), pair(3, 0)];
    assert_eq!(orders(&mux(), &outside), Err(refused.clone()));
    assert_eq!(sizes(&mux(), &outside, Some(4)), Err(refused));
    for order in [&[0, 1][..], &[0, 0, 1], &[0, 1, 3], &[0, 1, 2, 3]] {
        let refused = Error::BadOrder { order: order.to_vec(), inputs: 3 };
        assert_eq!(widths(&mux()).unwrap().cost(order), Err(refused));
    }
}

#[test]
#[should_panic(expected = "mask: 8: there are 8")]
fn there_is_no_other_set() {
    let _ = widths(&mux()).unwrap().row(8);
}

#[test]
#[should_panic(expected = "variable: 3: variables are below 3")]
fn there_is_no_other_variable() {
    let _ = widths(&mux()).unwrap().width(3, 7);
}

#[test]
fn what_all_orders_have_is_a_text_and_a_key() {
    let said = orders(&mux(), &[]).unwrap().to_string();
    let lines: Vec<&str> = said.lines().collect();
    assert_eq!(lines[..2], ["orders: 6", "fewest nodes: 3, under 2 orders"]);
    assert_eq!(lines[2..], ["most nodes: 5, under 2 orders", "mean nodes: 4.00"]);
    let text = "3 nodes: 2 orders\n4 nodes: 2 orders\n5 nodes: 2 orders";
    assert_eq!(sizes(&mux(), &[], None).unwrap().to_string(), text);
    assert_eq!(sizes(&mux(), &[], Some(2)).unwrap().to_string(), "");
    let one = Tables::variable(1, 0).unwrap();
    assert_eq!(sizes(&one, &[], None).unwrap().to_string(), "1 node: 1 order");
    let keys = |tables: &Tables| {
        (orders(tables, &[]).unwrap(), sizes(tables, &[], None).unwrap(), widths(tables).unwrap())
    };
    // the negated function has the same figures, sizes and widths
    assert_eq!(HashSet::from([keys(&mux()), keys(&!mux()), keys(&one)]).len(), 2);
}
