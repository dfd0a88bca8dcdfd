//! The calls on worked functions, beside the repository's reports and certificates, and on random
//! ones beside each other.

mod random;

use minorder::{
    certify, check, diagram, exact, exact_above, exact_many, levels, read_pla, sift, Diagram,
    Error, Pair, PlaFault, Reason, Tables,
};

use random::Random;

const MUX: &str = include_str!("../../../examples/mux2.cert");
const HIDDEN_BIT: &str = include_str!("../../../examples/hwb8.cert");

fn mux() -> Tables {
    Tables::from_words(3, 1, vec![0xca]).unwrap()
}

/// The variable whose number is the weight of the point, from 1.
fn hidden_bit() -> Tables {
    let value = |point: usize, _| {
        let weight = point.count_ones();
        weight > 0 && point >> (weight - 1) & 1 == 1
    };
    Tables::from_fn(8, 1, value).unwrap()
}

fn adder() -> Tables {
    Tables::from_fn(8, 5, |point, output| ((point & 15) + (point >> 4)) >> output & 1 == 1).unwrap()
}

#[test]
fn orders_are_those_of_the_reports() {
    let found = exact(&adder()).unwrap();
    assert_eq!(found.order, [3, 7, 2, 6, 1, 5, 0, 4]);
    assert_eq!(found.levels, [2, 4, 3, 6, 3, 6, 3, 2]);
    assert_eq!(found.total, 29);
    let file_order = [0, 1, 2, 3, 4, 5, 6, 7];
    let sifted = sift(&adder(), &file_order).unwrap();
    assert_eq!((sifted.order.as_slice(), sifted.total), ([0, 4, 1, 5, 6, 2, 7, 3].as_slice(), 40));
    assert_eq!(levels(&adder(), &file_order).unwrap().iter().sum::<u32>(), 85);
    assert_eq!(levels(&adder(), &sifted.order).unwrap(), sifted.levels);
}

#[test]
fn certificates_are_those_of_the_program() {
    assert_eq!(certify(&mux(), &[]).unwrap(), MUX);
    assert_eq!(certify(&hidden_bit(), &[]).unwrap(), HIDDEN_BIT);
    let verdict = check(&hidden_bit(), HIDDEN_BIT).unwrap();
    assert!(verdict.is_valid());
    assert_eq!(verdict.to_string(), "valid 44");
}

#[test]
fn certificates_state_their_pairs() {
    let pairs = [Pair { above: 0, below: 2 }];
    let found = exact_above(&mux(), &pairs).unwrap();
    let verdict = check(&mux(), certify(&mux(), &pairs).unwrap()).unwrap();
    assert_eq!((verdict.total, verdict.pairs.as_slice()), (found.total, pairs.as_slice()));
    assert_eq!(verdict.to_string(), "valid 4 pairs 1");
    assert_eq!(exact_above(&mux(), &[]).unwrap(), exact(&mux()).unwrap());
}

#[test]
fn verdicts_are_those_of_ordercheck() {
    assert_eq!(check(&mux(), HIDDEN_BIT).unwrap().reason, Some(Reason::Shape));
    let costing = |cost| {
        assert!(HIDDEN_BIT.contains("\n0001 2\n"));
        let text = HIDDEN_BIT.replace("\n0001 2\n", &format!("\n0001 {cost}\n"));
        check(&hidden_bit(), text).unwrap()
    };
    assert_eq!(costing(3).reason, Some(Reason::Edge { mask: 0, variable: 0 }));
    assert_eq!(costing(3).to_string(), "invalid Edge 0000 0");
    assert_eq!(costing(99).to_string(), "invalid CellTooBig");
    assert_eq!(
        check(&mux(), MUX.replace("order 2 0 1", "order 2 0 0")).unwrap().to_string(),
        "invalid Order"
    );
}

#[test]
fn many_problems_have_the_answers_of_each() {
    let mut random = Random(1);
    for (inputs, outputs) in [(1, 1), (3, 2), (5, 16), (6, 1), (9, 2)] {
        let problems: Vec<Tables> = (0..20).map(|_| random.tables(inputs, outputs)).collect();
        let each: Vec<_> = problems.iter().map(|tables| exact(tables).unwrap()).collect();
        assert_eq!(exact_many(&problems).unwrap(), each);
    }
    assert_eq!(exact_many(&[]), Ok(vec![]));
}

#[test]
fn constructors_make_equal_tables() {
    let mut random = Random(2);
    for (inputs, outputs) in [(1, 1), (5, 3), (6, 2), (7, 16), (16, 1)] {
        let tables = random.tables(inputs, outputs);
        let value = |point, output| tables.value(point, output);
        assert_eq!(Tables::from_fn(inputs, outputs, value).unwrap(), tables);
        let values: Vec<Vec<bool>> = (0..outputs)
            .map(|output| (0..1 << inputs).map(|point| value(point, output)).collect())
            .collect();
        assert_eq!(Tables::from_bools(inputs, &values).unwrap(), tables);
    }
}

#[test]
fn tables_of_a_wrong_length_are_refused() {
    let said = |refused: Result<Tables, Error>| refused.unwrap_err().to_string();
    assert_eq!(
        said(Tables::from_words(7, 2, vec![0; 3])),
        "words: 3: the tables of all outputs take 4"
    );
    assert_eq!(said(Tables::from_words(17, 1, vec![])), "inputs: 17: there are 1 to 16");
    assert_eq!(said(Tables::from_words(0, 1, vec![0])), "inputs: 0: there are 1 to 16");
    assert_eq!(said(Tables::from_fn(1, 17, |_, _| true)), "outputs: 17: there are 1 to 16");
    let values = [vec![false; 8], vec![true; 7]];
    assert_eq!(
        said(Tables::from_bools(3, &values)),
        "values: 7 of output 1: the function has 8 points"
    );
    assert_eq!(
        said(Tables::from_bools(usize::MAX, &values)),
        format!("inputs: {}: there are 1 to 16", usize::MAX)
    );
    assert_eq!(said(Tables::from_bools(3, &[[false; 8]; 0])), "outputs: 0: there are 1 to 16");
}

#[test]
fn arguments_that_do_not_fit_are_named() {
    for order in [&[0, 1][..], &[0, 0, 1], &[1, 2, 3], &[0, 1, 2, 3], &[]] {
        let refused = Error::BadOrder { order: order.to_vec(), inputs: 3 };
        assert_eq!(levels(&mux(), order).unwrap_err(), refused);
        assert_eq!(sift(&mux(), order).unwrap_err(), refused);
    }
    let said = levels(&mux(), &[0, 0, 1]).unwrap_err().to_string();
    assert_eq!(said, "order: [0, 0, 1]: an order has each variable below 3 once");
    let outside = [Pair { above: 0, below: 1 }, Pair { above: 1, below: 3 }];
    let said = exact_above(&mux(), &outside).unwrap_err().to_string();
    assert_eq!(said, "pairs: 1 above 3: variables are below 3");
    assert_eq!(
        certify(&mux(), &outside).unwrap_err(),
        Error::PairOutOfRange { pair: outside[1], inputs: 3 }
    );
    assert_eq!(exact_above(&mux(), &[Pair { above: 1, below: 1 }]), Err(Error::PairCycle));
    assert_eq!(certify(&mux(), &[Pair { above: 1, below: 1 }]), Err(Error::PairCycle));
    assert_eq!(exact_many(&[mux(), mux(), adder()]), Err(Error::OtherShape(2)));
}

/// Sees that a diagram is reduced and ordered, lies level by level from below, and has the
/// functions and the level counts that it is to have.
fn see(tables: &Tables, order: &[u8], made: &Diagram) {
    let place = |variable: u32| order.iter().rposition(|&it| u32::from(it) == variable).unwrap();
    let mut counts = vec![0; order.len()];
    let mut seen = std::collections::HashSet::new();
    for (at, node) in made.nodes.iter().enumerate() {
        let level = place(node.variable);
        counts[level] += 1;
        assert_ne!(node.low, node.high);
        assert!(seen.insert(*node));
        for child in [node.low, node.high].map(|it| it as usize).into_iter().filter(|&it| it > 1) {
            assert!(child - 2 < at);
            assert!(place(made.nodes[child - 2].variable) > level);
        }
        assert!(at == 0 || place(made.nodes[at - 1].variable) >= level);
    }
    assert_eq!(counts, levels(tables, order).unwrap());
    for output in 0..tables.outputs() {
        for point in 0..1 << tables.inputs() {
            assert_eq!(made.value(point, output), tables.value(point, output));
        }
    }
}

#[test]
fn diagrams_have_their_functions_and_level_counts() {
    let mut random = Random(3);
    for (inputs, outputs) in [(1, 1), (2, 16), (4, 3), (7, 1), (10, 16)] {
        for _ in 0..4 {
            let (tables, order) = (random.tables(inputs, outputs), random.order(inputs));
            see(&tables, &order, &diagram(&tables, &order).unwrap());
        }
    }
    let best = exact(&adder()).unwrap().order;
    see(&adder(), &best, &diagram(&adder(), &best).unwrap());
    let constants = Tables::from_fn(2, 2, |_, output| output == 1).unwrap();
    let plain = Diagram { inputs: 2, nodes: vec![], roots: vec![0, 1] };
    assert_eq!(diagram(&constants, &[0, 1]).unwrap(), plain);
}

#[test]
#[should_panic(expected = "point: 8: there are 8")]
fn a_diagram_has_no_value_at_another_point() {
    let _ = diagram(&mux(), &[2, 0, 1]).unwrap().value(8, 0);
}

#[test]
#[should_panic(expected = "output: 1: there are 1")]
fn a_diagram_has_no_value_of_another_output() {
    let _ = diagram(&mux(), &[2, 0, 1]).unwrap().value(7, 1);
}

#[test]
fn files_are_read_with_their_names() {
    let file = read_pla(include_str!("../../../examples/mux2.pla")).unwrap();
    assert_eq!(
        (file.tables, file.inputs.concat(), file.outputs.concat()),
        (mux(), "abs".into(), "f".into())
    );
    // a last name without a line feed behind it
    let named = read_pla(".i 7\n.o 2\n1------ 01\n.ob y z").unwrap();
    assert_eq!((named.inputs[6].as_str(), named.outputs.concat()), ("x6", "yz".into()));
    assert_eq!(named.tables.words(), [0, 0, 0xaaaa_aaaa_aaaa_aaaa, 0xaaaa_aaaa_aaaa_aaaa]);
    let large = read_pla(format!(".i 16\n.o 16\n{0} {0}\n", "1".repeat(16))).unwrap().tables;
    assert!((0..16).all(|output| large.value(0xffff, output) && !large.value(0xfffe, output)));
}

#[test]
fn files_that_are_none_are_refused_with_line_and_fault() {
    let refused = Error::BadPla { line: 3, fault: PlaFault::DontCare };
    assert_eq!(read_pla(".i 2\n.o 1\n11 -\n"), Err(refused));
    for (text, said) in [
        (b"".to_vec(), "line 0: MissingHead"),
        (b".i 17\n".to_vec(), "line 1: InputCount"),
        (b".i 1\n.o 1\n1 11\n".to_vec(), "line 3: LongTerm"),
        (b".i 1\n.o 1\n.ilb \xff\n".to_vec(), "line 3: BadName"),
        (vec![b'#'; (1 << 24) + 1], "TooLong"),
    ] {
        assert_eq!(read_pla(text).unwrap_err().to_string(), said);
    }
}

#[test]
fn a_diagram_under_no_order_is_refused() {
    let refused = Error::BadOrder { order: vec![0, 1, 1], inputs: 3 };
    assert_eq!(diagram(&mux(), &[0, 1, 1]), Err(refused));
}
