//! Tables, answers and diagrams as values of Rust: operators, texts, keys and iterators.

mod random;

use std::collections::{HashMap, HashSet};

use minorder::{
    certify, check, diagram, exact, library_version, read_pla, Diagram, Error, Node, Pla, Tables,
    Version,
};

use random::Random;

const MUX: &str = include_str!("../../../examples/mux2.pla");

/// The functions whose values are those of `operator` on values of two others.
fn by_points(left: &Tables, right: &Tables, operator: impl Fn(bool, bool) -> bool) -> Tables {
    Tables::from_fn(left.inputs(), left.outputs(), |point, output| {
        operator(left.value(point, output), right.value(point, output))
    })
    .unwrap()
}

#[test]
fn operators_work_point_by_point() {
    let mut random = Random(4);
    for (inputs, outputs) in [(1, 1), (3, 2), (5, 16), (6, 1), (9, 3)] {
        let (a, b) = (random.tables(inputs, outputs), random.tables(inputs, outputs));
        let (and, or) = (by_points(&a, &b, |a, b| a && b), by_points(&a, &b, |a, b| a || b));
        let (xor, not) = (by_points(&a, &b, |a, b| a != b), by_points(&a, &b, |a, _| !a));
        assert_eq!(
            [&a & &b, a.clone() & &b, &a & b.clone(), a.clone() & b.clone()],
            [&and; 4].map(Clone::clone)
        );
        assert_eq!(
            [&a | &b, a.clone() | &b, &a | b.clone(), a.clone() | b.clone()],
            [&or; 4].map(Clone::clone)
        );
        assert_eq!(
            [&a ^ &b, a.clone() ^ &b, &a ^ b.clone(), a.clone() ^ b.clone()],
            [&xor; 4].map(Clone::clone)
        );
        assert_eq!([!&a, !a.clone()], [not.clone(), not]);
        assert_eq!(a.combine(&b, |a, b| !(a ^ b)).unwrap(), !xor.clone());
        let mut assigned = a.clone();
        assigned &= &b;
        assert_eq!(assigned, and);
        assigned |= a.clone();
        assert_eq!(assigned, a);
        assigned ^= b;
        assert_eq!(assigned, xor);
    }
}

#[test]
#[should_panic(expected = "tables: inputs and outputs (2, 1) and (3, 1) don't fit together")]
fn operators_want_tables_of_one_shape() {
    let _ = Tables::variable(2, 0).unwrap() | &Tables::variable(3, 0).unwrap();
}

#[test]
fn variables_are_functions() {
    let [a, b, c] = Tables::variables().unwrap();
    assert_eq!([a.words(), b.words(), c.words()], [[0xaa], [0xcc], [0xf0]]);
    assert_eq!(Tables::variable(3, 1).unwrap(), b);
    assert_eq!(Tables::variable(7, 6).unwrap().words(), [0, u64::MAX]);
    assert_eq!(Tables::variables::<17>().unwrap_err(), Error::BadInputs(17));
    assert_eq!(Tables::variables::<0>().unwrap_err(), Error::BadInputs(0));
    let said = Tables::variable(3, 3).unwrap_err().to_string();
    assert_eq!(said, "variable: 3: variables are below 3");
}

#[test]
fn parts_become_one() {
    let mut random = Random(5);
    for inputs in [1, 6, 8] {
        let tables = random.tables(inputs, 16);
        let outputs: Vec<Tables> = (0..16).map(|output| tables.output(output)).collect();
        assert_eq!(Tables::concat(&outputs).unwrap(), tables);
        let halves =
            [Tables::concat(&outputs[..7]).unwrap(), Tables::concat(&outputs[7..]).unwrap()];
        assert_eq!(Tables::concat(&[&halves[0], &halves[1]]).unwrap(), tables);
        assert_eq!(Tables::concat(&[&tables, &halves[0]]), Err(Error::BadOutputs(23)));
    }
    assert_eq!(Tables::concat(&[] as &[Tables]), Err(Error::BadOutputs(0)));
    let parts = [Tables::variable(2, 0).unwrap(), Tables::variable(3, 0).unwrap()];
    let said = Tables::concat(&parts).unwrap_err().to_string();
    assert_eq!(said, "tables: inputs and outputs (2, 1) and (3, 1) don't fit together");
}

#[test]
#[should_panic(expected = "output: 1: there are 1")]
fn there_is_no_other_output() {
    let _ = Tables::variable(2, 0).unwrap().output(1);
}

#[test]
fn values_are_keys() {
    let mux = read_pla(MUX).unwrap().tables;
    // bits beyond the last point don't count
    let same = Tables::from_words(3, 1, vec![!0x35]).unwrap();
    let mut answers = HashMap::from([(mux.clone(), exact(&mux).unwrap())]);
    assert!(answers.insert(same.clone(), exact(&same).unwrap()).is_some());
    let diagrams = HashSet::from([&mux, &same].map(|it| diagram(it, &[2, 0, 1]).unwrap()));
    let orders: HashSet<_> = answers.into_values().collect();
    let verdicts = HashSet::from([check(&mux, certify(&mux, &[]).unwrap()).unwrap()]);
    assert_eq!((diagrams.len(), orders.len(), verdicts.len()), (1, 1, 1));
}

#[test]
fn answers_have_texts() {
    let mux = read_pla(MUX).unwrap().tables;
    assert_eq!(exact(&mux).unwrap().to_string(), "2 0 1: 3 nodes");
    assert_eq!(exact(&Tables::variable(2, 1).unwrap()).unwrap().to_string(), "0 1: 1 node");
    assert_eq!(check(&mux, certify(&mux, &[]).unwrap()).unwrap().to_string(), "valid 3");
}

#[test]
fn files_are_parsed_from_text_and_bytes() {
    let file = read_pla(MUX).unwrap();
    assert_eq!(MUX.parse(), Ok(file.clone()));
    assert_eq!(Pla::try_from(MUX.as_bytes()), Ok(file));
    let said = [".i 0\n".parse::<Pla>(), Pla::try_from(&b".i 0\n"[..])]
        .map(|it| it.unwrap_err().to_string());
    assert_eq!(said, ["line 1: InputCount", "line 1: InputCount"]);
}

#[test]
fn nodes_come_from_both_ends() {
    let made = diagram(&read_pla(MUX).unwrap().tables, &[2, 0, 1]).unwrap();
    assert_eq!(made.iter().len(), 3);
    let mut variables = Vec::new();
    for Node { variable, .. } in &made {
        variables.push(*variable);
    }
    assert_eq!(variables, [1, 0, 2]);
    assert!(made.iter().rev().map(|node| node.variable).eq([2, 0, 1]));
    let Diagram { nodes, .. } = &made;
    assert_eq!(made.iter().next_back(), nodes.last());
}

#[test]
fn the_library_is_of_the_version_of_the_crate() {
    let version = library_version();
    assert_eq!(version.to_string(), env!("CARGO_PKG_VERSION"));
    assert!(version < Version { major: 2, minor: 0, patch: 0 });
}
