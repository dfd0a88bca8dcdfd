//! Verdicts and faults of damaged certificates, beside the program that the variable `ORDERCHECK`
//! names.

mod random;

use std::path::Path;
use std::process::Command;
use std::{env, fs};

use minorder::{certify, check, read_pla, CertificateFault, Error, Pair, Tables};

use random::Random;

/// The words that stand for another one: bounds of the format, the next numbers, and no numbers.
const WORDS: [&str; 20] = [
    "0", "2", "3", "7", "8", "15", "16", "17", "240", "241", "999999", "1000000", "01", "", "x",
    "0000", "0006", "0007", "000A", "00001",
];

/// Sees that the crate and the program say the same of a certificate: the verdict, or the fault.
fn compare(program: &str, file: &str, tables: &Tables, certificate: &[u8]) {
    let path = Path::new(env!("CARGO_TARGET_TMPDIR")).join("damaged.cert");
    fs::write(&path, certificate).unwrap();
    let ended = Command::new(program).arg(file).arg(&path).output().unwrap();
    let line = String::from_utf8([ended.stdout, ended.stderr].concat()).unwrap();
    let judged = match check(tables, certificate) {
        Ok(verdict) => verdict.to_string(),
        Err(refused) => refused.to_string(),
    };
    let text = String::from_utf8_lossy(certificate);
    assert_eq!(judged, line.trim_end().trim_start_matches("ordercheck: "), "{text}");
}

/// A certificate in each format, the second one with pairs.
fn certificates(tables: &Tables) -> [String; 2] {
    let pairs = [Pair { above: 0, below: 1 }, Pair { above: 0, below: 2 }];
    let first = certify(tables, &[]).unwrap().replacen('2', "1", 1).replace("\npairs 0\n", "\n");
    [first, certify(tables, &pairs).unwrap()]
}

fn example(name: &str) -> (String, Tables) {
    let file = format!("{}/../../examples/{name}.pla", env!("CARGO_MANIFEST_DIR"));
    let tables = read_pla(fs::read(&file).unwrap()).unwrap().tables;
    (file, tables)
}

/// A text with one edit of a line or of a byte.
fn damaged(random: &mut Random, text: &str) -> Vec<u8> {
    let mut lines: Vec<&str> = text.split_inclusive('\n').collect();
    let (at, other) = (random.below(lines.len()), random.below(lines.len()));
    match random.below(5) {
        0 => drop(lines.remove(at)),
        1 => lines.insert(at, lines[other]),
        2 => lines.swap(at, other),
        _ => {}
    }
    let mut bytes = lines.concat().into_bytes();
    let place = random.below(bytes.len());
    match random.below(5) {
        0 => drop(bytes.remove(place)),
        1 => bytes.truncate(place),
        2 => bytes[place] = b" 0123456789af+x\n\xff"[random.below(17)],
        _ => {}
    }
    bytes
}

#[test]
fn damaged_certificates_have_the_faults_of_ordercheck() {
    let Ok(program) = env::var("ORDERCHECK") else { return };
    let mut random = Random(6);
    for name in ["mux2", "adder4", "bcd7seg"] {
        let (file, tables) = example(name);
        for text in certificates(&tables) {
            (0..50).for_each(|_| compare(&program, &file, &tables, &damaged(&mut random, &text)));
        }
    }
    let (file, tables) = example("mux2");
    for text in certificates(&tables) {
        for (at, end) in text.match_indices([' ', '\n']) {
            let start = text[..at].rfind([' ', '\n']).map_or(0, |before| before + 1);
            for word in WORDS {
                let edited = [&text[..start], word, end, &text[at + 1..]].concat();
                compare(&program, &file, &tables, edited.as_bytes());
            }
        }
    }
}

#[test]
fn faults_have_a_line_and_a_kind() {
    let and = Tables::from_words(2, 1, vec![8]).unwrap();
    let refused = Error::BadCertificate { line: 1, fault: CertificateFault::MissingLine };
    assert_eq!(check(&and, ""), Err(refused));
    for (text, said) in [
        (b"\xff\n".to_vec(), "certificate line 1: BadLine"),
        (b"bddorder-certificate 1\ninputs 3\n".to_vec(), "certificate line 3: MissingLine"),
        (b"bddorder-certificate 1\ninputs 03\n".to_vec(), "certificate line 2: BadNumber"),
        (vec![b'\n'; (1 << 20) + 1], "certificate: TooLong"),
    ] {
        assert_eq!(check(&and, text).unwrap_err().to_string(), said);
    }
    let text = certify(&and, &[]).unwrap();
    let line = text.lines().count() + 1;
    let refused = Error::BadCertificate { line, fault: CertificateFault::TrailingText };
    assert_eq!(check(&and, text + "\n"), Err(refused));
}
