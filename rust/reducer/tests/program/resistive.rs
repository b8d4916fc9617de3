//! Trees for resistive memory.

use super::*;

/// Two majorities, the lower read by the upper.
fn plain() -> Vec<u8> {
    tagged(&[(1, &[3, 2, 1]), (2, &[2, 4, 6]), (2, &[8, 2, 4]), (4, &[10]), (5, &[])])
}

fn chosen() -> Vec<u8> {
    tagged(&[(1, &[3, 2, 1]), (2, &[3, 5, 7]), (2, &[9, 2, 4]), (4, &[10]), (5, &[])])
}

const CHOSEN: &str = "before majorities 2 single 0 complemented 0\nafter majorities 2 single 1 complemented 4\n";

#[test]
fn choosing() {
    let folder = folder("choosing");
    fs::write(folder.join("in"), plain()).unwrap();
    gives(&run_in(&folder, &["resistive", "in", "5"], b""), &chosen(), CHOSEN);
    gives(&run(&["resistive", "-", "5"], &plain()), &chosen(), CHOSEN);
    gives(&run_in(&folder, &["resistive", "--all", "in", "-o", "out"], b""), b"", CHOSEN);
    assert_eq!(fs::read(folder.join("out")).unwrap(), chosen());
    // Chosen once more it stays.
    let again = "before majorities 2 single 1 complemented 4\nafter majorities 2 single 1 complemented 4\n";
    gives(&run_in(&folder, &["resistive", "out", "5", "-o", "out"], b""), b"", again);
    assert_eq!(fs::read(folder.join("out")).unwrap(), chosen());
    let output = run_in(&folder, &["resistive", "in", "--all", "--to", "aiger"], b"");
    assert!(text(&output.stdout).starts_with("aag 11 3 0 1 8\n"));
    holds(&folder, &["in", "out"]);
    // What the help shows is what is told.
    let lines: String = CHOSEN.split_inclusive('\n').map(|line| format!("    {line}")).collect();
    assert!(text(&run(&["resistive", "--help"], b"").stdout).contains(&format!("\n\n{lines}")));
}

/// Each tree by itself: those of the other roots stay.
#[test]
fn choosing_one_of_two() {
    let two = |first: [u32; 6], second: [u32; 6]| {
        let trees = [first, second].concat();
        let nodes = trees.chunks(3).map(|words| (2, words));
        let ends: [(u8, &[u32]); 3] = [(4, &[10]), (4, &[14]), (5, &[])];
        tagged(&[(1, &[3, 4, 2][..])].into_iter().chain(nodes).chain(ends).collect::<Vec<_>>())
    };
    let (plain, turned) = ([2, 4, 6, 8, 2, 4], [3, 5, 7, 9, 2, 4]);
    let (upper, upper_turned) = ([2, 4, 6, 12, 2, 4], [3, 5, 7, 13, 2, 4]);
    let said = |single: u32, complemented: u32| {
        format!("before majorities 4 single 0 complemented 0\nafter majorities 4 single {single} complemented {complemented}\n")
    };
    gives(&run(&["resistive", "-", "5"], &two(plain, upper)), &two(turned, upper), &said(1, 4));
    gives(&run(&["resistive", "-", "7"], &two(plain, upper)), &two(plain, upper_turned), &said(1, 4));
    gives(&run(&["resistive", "--all"], &two(plain, upper)), &two(turned, upper_turned), &said(2, 8));
}

#[test]
fn choosing_beside_locks() {
    let locked = tagged(&[(1, &[3, 2, 1]), (2, &[2, 4, 6]), (2, &[8, 2, 4]), (4, &[10]), (6, &[4]), (5, &[])]);
    let said = "before majorities 2 single 0 complemented 0\nafter majorities 2 single 0 complemented 0 locked 1\n";
    gives(&run(&["resistive", "-", "5"], &locked), &locked, said);
    let lost = "AIGER cannot hold locks: those of 1 node are lost, and a tagged file would keep them\n";
    let output = run(&["resistive", "-", "5", "--to", "aiger"], &locked);
    assert_eq!(super::said(&output), format!("{said}{}{lost}", as_aiger(8, 12, 2, 0)));
}

#[test]
fn choosing_refused() {
    let no_root =
        |why: &str| format!("panjerov: standard input: refused 7: there is no such node, root or word; {why}\n");
    stops(&run(&["resistive", "-", "4"], &plain()), 1, &no_root("4 is no root: it is in the tree of root 5"));
    stops(&run(&["resistive", "-", "3"], &plain()), 1, &no_root("3 is no root: nodes are 4 to 5"));
    let missing = "panjerov: ROOT or --all is missing after FILE; `panjerov preview FILE` tells the roots; \
                   `panjerov resistive --help` tells what resistive takes\n";
    stops(&run(&["resistive"], &plain()), 2, missing);
    let both = "panjerov: --all takes every root, and so cannot stand with 5; `panjerov resistive --help` tells what resistive takes\n";
    stops(&run(&["resistive", "-", "5", "--all"], &plain()), 2, both);
}

/// The examples: outputs keep their values, and there are no fewer majorities with just one complemented input, by the program's own `show`.
#[test]
fn choosing_in_the_examples() {
    let folder = folder("choosing_in_the_examples");
    let single = |words: &[&str], file: &[u8]| -> u32 {
        let shown = text(&run_in(&folder, words, file).stdout).to_string();
        let line = shown.lines().find_map(|line| line.strip_prefix("majorities with just one complemented input "));
        line.expect(&shown).parse().unwrap()
    };
    for name in ["divider4.aag", "multiplier4.aag", "ripple_adder8.aag", "alu_slice.aag", "voter7.aag", "adder8.mig"] {
        let file = fs::read(format!("{}/../../examples/{name}", env!("CARGO_MANIFEST_DIR"))).unwrap();
        let output = run_in(&folder, &["resistive", "--all", "--to", "tagged", "-o", "chosen"], &file);
        assert_eq!(output.status.code(), Some(0), "{name}");
        assert!(single(&["show", "chosen"], b"") >= single(&["show"], &file), "{name}");
        let graph = |bytes: &[u8]| match bytes.starts_with(b"aag") {
            true => reducer::Graph::import(bytes).unwrap(),
            false => reducer::Graph::load(bytes).unwrap(),
        };
        let (before, after) = (graph(&file), graph(&fs::read(folder.join("chosen")).unwrap()));
        let words: Vec<u64> =
            (1..=u64::from(before.size.inputs)).map(|k| k.wrapping_mul(0x9e37_79b9_7f4a_7c15)).collect();
        assert_eq!(before.evaluate(&words), after.evaluate(&words), "{name}");
        // Every root by rising index, called one by one.
        let mut called = before.clone();
        for node in before.size.inputs + 1..=before.size.inputs + before.size.nodes {
            let root = called.resistive_call(node);
            assert!(root.is_ok() || root == Err(reducer::Refusal::NoSuchNode), "{name}");
        }
        assert_eq!(called, after, "{name}");
    }
}

/// After a second a line says at which tree it is. Ended then, it has written nothing.
#[test]
fn interrupted_between_roots() {
    let folder = folder("interrupted_between_roots");
    let mut many = tagged(&[(1, &[3, 100_000, 0])]);
    (0..100_000).for_each(|_| many.extend(tagged(&[(3, &[2, 4])])));
    many.extend(tagged(&[(5, &[])]));
    fs::write(folder.join("in"), &many).unwrap();
    let mut child = Command::new(PROGRAM)
        .args(["resistive", "in", "--all", "-o", "in"])
        .current_dir(&folder)
        .stdin(Stdio::null())
        .stderr(Stdio::piped())
        .spawn()
        .unwrap();
    let mut line = String::new();
    BufReader::new(child.stderr.take().unwrap()).read_line(&mut line).unwrap();
    child.kill().unwrap();
    child.wait().unwrap();
    assert!(line.starts_with("panjerov: choosing moves on in, ") && line.ends_with(" of 100000, for 1 s\n"), "{line}");
    assert_eq!(fs::read(folder.join("in")).unwrap(), many);
    holds(&folder, &["in"]);
}
