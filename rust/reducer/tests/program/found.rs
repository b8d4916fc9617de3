//! Finding hidden majorities.

use super::*;

/// What finding makes of the export of one majority: 3 5 7 -> 9, as P1 has it.
const FOUND: &str = "before nodes 4 majorities 0 complemented 6\nafter nodes 1 majorities 1 complemented 4\n";

#[test]
fn finding() {
    let folder = folder("finding");
    fs::write(folder.join("in.aag"), MAJORITY).unwrap();
    gives(&run(&["find"], MAJORITY.as_bytes()), &p1(), FOUND);
    gives(&run_in(&folder, &["find", "in.aag", "-o", "out"], b""), b"", FOUND);
    assert_eq!(fs::read(folder.join("out")).unwrap(), p1());
    // Its own place: there is nothing more to find.
    let again = "before nodes 1 majorities 1 complemented 4\nafter nodes 1 majorities 1 complemented 4\n";
    gives(&run_in(&folder, &["find", "out", "-o", "out"], b""), b"", again);
    assert_eq!(fs::read(folder.join("out")).unwrap(), p1());
    let text = "aag 7 3 0 1 4\n2\n4\n6\n14\n8 4 6\n10 3 9\n12 5 7\n14 11 13\n";
    gives(
        &run_in(&folder, &["find", "in.aag", "--to", "aiger"], b""),
        text.as_bytes(),
        &format!("{FOUND}{}", as_aiger(4, 6, 1, 4)),
    );
    holds(&folder, &["in.aag", "out"]);
}

/// Import, find, settle; and what is settled without finding.
#[test]
fn finding_and_settling() {
    let said = format!("{FOUND}{FIGURES}");
    gives(&run(&["settle", "--find", "--to", "tagged"], MAJORITY.as_bytes()), &p1_settled(), &said);
    gives(&run(&["settle", "--find"], MAJORITY.as_bytes()), &p1_settled(), &said);
    let aiger = format!("{said}{}", as_aiger(4, 6, 1, 0));
    gives(&run(&["settle", "--find", "--to", "aiger"], MAJORITY.as_bytes()), MAJORITY.as_bytes(), &aiger);
    let none = "before nodes 1 majorities 1 complemented 4\nafter nodes 1 majorities 1 complemented 4\n";
    gives(&run(&["settle", "--find"], &p1()), &p1_settled(), &format!("{none}{FIGURES}"));
    let unfound = run(&["settle", "--to", "tagged"], MAJORITY.as_bytes());
    assert!(said_line(&unfound).starts_with("inputs 3 nodes 4 outputs 1 before 6 after"), "{}", said_line(&unfound));
}

fn said_line(output: &Output) -> String {
    text(&output.stderr).lines().next().unwrap_or_default().to_string()
}

/// A locked node stays with what it reads, by a lower index; as AIGER text the locks are lost.
#[test]
fn finding_beside_locks() {
    let folder = folder("finding_beside_locks");
    fs::write(folder.join("in"), MAJORITY).unwrap();
    assert_eq!(run_in(&folder, &["lock", "in", "6", "-o", "locked"], b"").status.code(), Some(0));
    let said = "before nodes 4 majorities 0 complemented 6\nafter nodes 2 majorities 1 complemented 4 locked 1\n";
    let due = tagged(&[(1, &[3, 2, 1]), (2, &[0, 4, 6]), (2, &[3, 5, 7]), (4, &[11]), (6, &[4]), (5, &[])]);
    gives(&run_in(&folder, &["find", "locked"], b""), &due, said);
    let lost = "AIGER cannot hold locks: those of 1 node are lost, and a tagged file would keep them\n";
    let output = run_in(&folder, &["find", "locked", "--to", "aiger"], b"");
    assert_eq!(text(&output.stderr), format!("{said}{}{lost}", as_aiger(8, 11, 2, 4)));
}

#[test]
fn finding_refused() {
    let refused = "panjerov: standard input: refused 1: the bytes end within a field; it is empty\n";
    stops(&run(&["find"], b""), 1, refused);
}

/// The examples, each found and then settled: never more nodes, and every output's value under 64 assignments.
#[test]
fn finding_in_the_examples() {
    let folder = folder("finding_in_the_examples");
    for name in ["divider4.aag", "multiplier4.aag", "ripple_adder8.aag", "alu_slice.aag", "voter7.aag", "adder8.mig"] {
        let file = fs::read(format!("{}/../../examples/{name}", env!("CARGO_MANIFEST_DIR"))).unwrap();
        let output = run_in(&folder, &["settle", "--find", "--to", "tagged", "-o", "found"], &file);
        assert_eq!(output.status.code(), Some(0), "{name}");
        let graph = |bytes: &[u8]| match bytes.starts_with(b"aag") {
            true => reducer::Graph::import(bytes).unwrap(),
            false => reducer::Graph::load(bytes).unwrap(),
        };
        let (before, after) = (graph(&file), graph(&fs::read(folder.join("found")).unwrap()));
        assert!(after.size.nodes <= before.size.nodes, "{name}");
        let words: Vec<u64> =
            (1..=u64::from(before.size.inputs)).map(|k| k.wrapping_mul(0x9e37_79b9_7f4a_7c15)).collect();
        assert_eq!(before.evaluate(&words), after.evaluate(&words), "{name}");
    }
}

/// A graph that takes long: a row of XORs of the two before them over one input, and readers that ask whether its top turns with another.
fn slow() -> Vec<u8> {
    let (row, readers) = (30_000u32, 15_000u32);
    let mut fields: Vec<(u8, Vec<u32>)> = vec![(1, vec![4, row + 2 * readers, 1])];
    let literal = |k: u32| if k < 2 { 2 } else { 2 * (k + 3) };
    fields.extend((2..row + 2).map(|k| (3, vec![literal(k - 2), literal(k - 1)])));
    for reader in 0..readers {
        let own = 2 * (4 + row + 2 * reader + 1);
        fields.push((2, vec![2, literal(2 + reader * 7 % (row - 1)), 4]));
        fields.push((2, vec![0, literal(row + 1), own]));
    }
    fields.extend([(4, vec![2 * (4 + row + 2 * readers)]), (5, vec![])]);
    tagged(&fields.iter().map(|(tag, words)| (*tag, &words[..])).collect::<Vec<_>>())
}

/// After a second a line says that it works. Ended then, it has written nothing.
#[test]
fn interrupted() {
    let folder = folder("interrupted");
    fs::write(folder.join("in"), slow()).unwrap();
    let mut child = Command::new(PROGRAM)
        .args(["find", "in", "-o", "in"])
        .current_dir(&folder)
        .stdin(Stdio::null())
        .stderr(Stdio::piped())
        .spawn()
        .unwrap();
    let mut line = String::new();
    BufReader::new(child.stderr.take().unwrap()).read_line(&mut line).unwrap();
    child.kill().unwrap();
    child.wait().unwrap();
    assert_eq!(line, "panjerov: finding majorities in in for 1 s\n");
    assert_eq!(fs::read(folder.join("in")).unwrap(), slow());
    holds(&folder, &["in"]);
}
