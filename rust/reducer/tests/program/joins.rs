//! Stages joined.

use super::*;

/// A majority, locked, and a stage with one node that reads it complemented.
fn stages(test: &str) -> PathBuf {
    let folder = folder(test);
    let first = tagged(&[(1, &[3, 1, 2]), (2, &[3, 5, 7]), (4, &[9]), (4, &[4]), (6, &[4]), (5, &[])]);
    fs::write(folder.join("first"), first).unwrap();
    fs::write(folder.join("second"), tagged(&[(1, &[2, 1, 1]), (2, &[2, 4, 0]), (4, &[6]), (5, &[])])).unwrap();
    folder
}

fn joined() -> Vec<u8> {
    tagged(&[(1, &[3, 2, 1]), (2, &[3, 5, 7]), (2, &[9, 4, 0]), (4, &[10]), (6, &[4]), (5, &[])])
}

const JOINED: &str = "inputs 3 nodes 2 outputs 1 complemented 4 locked 1\n";

#[test]
fn joining() {
    let folder = stages("joining");
    gives(&run_in(&folder, &["join", "first", "second"], b""), &joined(), JOINED);
    gives(&run_in(&folder, &["join", "first", "second", "-o", "first"], b""), b"", JOINED);
    assert_eq!(fs::read(folder.join("first")).unwrap(), joined());
    assert!(text(&run(&["join", "--help"], b"").stdout).contains(&format!("\n\n    {JOINED}")));
    // AIGER text among them, from standard input; a chain of three inverters is one.
    let inverter = b"aag 1 1 0 1 0\n2\n3\n";
    fs::write(folder.join("inverter"), inverter).unwrap();
    let said = "inputs 1 nodes 0 outputs 1 complemented 1\n";
    let due = tagged(&[(1, &[1, 0, 1]), (4, &[3]), (5, &[])]);
    gives(&run_in(&folder, &["join", "inverter", "-", "inverter"], inverter), &due, said);
    gives(&run_in(&folder, &["join", "inverter", "-", "inverter", "--to", "aiger"], inverter), inverter, said);
    holds(&folder, &["first", "inverter", "second"]);
}

#[test]
fn joining_refused() {
    let folder = stages("joining_refused");
    fs::write(folder.join("four"), tagged(&[(1, &[1, 0, 4]), (4, &[2]), (4, &[2]), (4, &[2]), (4, &[2]), (5, &[])]))
        .unwrap();
    fs::write(folder.join("three"), tagged(&[(1, &[3, 0, 1]), (4, &[2]), (5, &[])])).unwrap();
    let differ = "panjerov: refused 19: the first graph's outputs and the second's inputs differ in number";
    stops(
        &run_in(&folder, &["join", "four", "three", "-o", "out"], b""),
        1,
        &format!("{differ}; four has 4 outputs, three 3 inputs\n"),
    );
    stops(
        &run_in(&folder, &["join", "first", "second", "second"], b""),
        1,
        &format!("{differ}; second has 1 output, second 2 inputs\n"),
    );
    let refused = "panjerov: standard input: refused 1: the bytes end within a field; it is empty\n";
    stops(&run_in(&folder, &["join", "first", "-"], b""), 1, refused);
    stops(&run_in(&folder, &["join", "-", "first"], b""), 1, refused);
    let usage = |why: &str| format!("panjerov: {why}; `panjerov join --help` tells what join takes\n");
    stops(&run_in(&folder, &["join", "first"], b""), 2, &usage("join wants FIRST and SECOND"));
    let lost = "AIGER cannot hold locks: those of 1 node are lost, and a tagged file would keep them\n";
    assert_eq!(
        said(&run_in(&folder, &["join", "first", "second", "--to", "aiger"], b"")),
        format!("{JOINED}{}{lost}", as_aiger(8, 12, 2, 4))
    );
    let mut large = tagged(&[(1, &[1, 60_000, 1])]);
    (0..60_000).for_each(|_| large.extend(tagged(&[(2, &[2, 2, 2])])));
    large.extend(tagged(&[(4, &[2]), (5, &[])]));
    fs::write(folder.join("large"), large).unwrap();
    let many = "panjerov: refused 3: there are too many inputs, nodes, outputs or graphs of a class; with large there would be 120000 nodes, and 100000 are allowed\n";
    stops(&run_in(&folder, &["join", "large", "large"], b""), 1, many);
    holds(&folder, &["first", "four", "large", "second", "three"]);
}

/// The 8-bit adder joined with a stage of inverters, and back: the same values.
#[test]
fn joining_an_example() {
    let folder = folder("joining_an_example");
    let file = fs::read(format!("{}/../../examples/ripple_adder8.aag", env!("CARGO_MANIFEST_DIR"))).unwrap();
    fs::write(folder.join("adder"), &file).unwrap();
    let inverters = "aag 9 9 0 9 0\n".to_string()
        + &(1..=9).map(|input| format!("{}\n", 2 * input)).collect::<String>()
        + &(1..=9).map(|input| format!("{}\n", 2 * input + 1)).collect::<String>();
    let output = run_in(&folder, &["join", "adder", "-", "-o", "turned"], inverters.as_bytes());
    assert_eq!(output.status.code(), Some(0));
    let before = reducer::Graph::import(&file).unwrap();
    let after = reducer::Graph::load(&fs::read(folder.join("turned")).unwrap()).unwrap();
    let words: Vec<u64> = (1..=17u64).map(|k| k.wrapping_mul(0x9e37_79b9_7f4a_7c15)).collect();
    let turned: Vec<u64> = after.evaluate(&words).unwrap().iter().map(|word| !word).collect();
    assert_eq!(before.evaluate(&words), Ok(turned));
}
