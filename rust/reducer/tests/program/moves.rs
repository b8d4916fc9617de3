//! Making listed moves.

use super::*;

/// P2 of document 01 after its best moves.
fn p2_turned() -> Vec<u8> {
    tagged(&[(1, &[5, 2, 1]), (2, &[2, 4, 7]), (2, &[12, 8, 11]), (4, &[14]), (5, &[])])
}

const MADE: &str = "inputs 5 nodes 2 outputs 1 before 4 after 2 saving 2 listed 2 moved 1\n";

/// A folder with P2, and a list of moves.
fn with_moves(test: &str, moves: &str) -> PathBuf {
    let folder = folder(test);
    fs::write(folder.join("in"), p2()).unwrap();
    fs::write(folder.join("moves"), moves).unwrap();
    folder
}

#[test]
fn applying() {
    let folder = with_moves("applying", "# the best of a tree\n\n6 1\n7 0\n");
    gives(&run_in(&folder, &["apply", "in", "moves", "-o", "out"], b""), b"", MADE);
    assert_eq!(fs::read(folder.join("out")).unwrap(), p2_turned());
    gives(&run_in(&folder, &["apply", "in", "moves"], b""), &p2_turned(), MADE);
    gives(&run_in(&folder, &["apply", "-", "moves"], &p2()), &p2_turned(), MADE);
    gives(&run_in(&folder, &["apply", "in", "-"], b"6 1\r\n7 0"), &p2_turned(), MADE);
    gives(&run_in(&folder, &["apply", "in", "-"], b"6 1 # drawn again\n7 0# stays\n"), &p2_turned(), MADE);
    // Its own place, and back again.
    gives(&run_in(&folder, &["apply", "in", "moves", "-o", "in"], b""), b"", MADE);
    let back = "inputs 5 nodes 2 outputs 1 before 2 after 4 saving -2 listed 2 moved 1\n";
    gives(&run_in(&folder, &["apply", "in", "moves", "-o", "in"], b""), b"", back);
    assert_eq!(fs::read(folder.join("in")).unwrap(), p2());
    holds(&folder, &["in", "moves", "out"]);
}

/// The worked row of many moves, and a list of none.
#[test]
fn applying_what_loses() {
    let folder = folder("applying_what_loses");
    fs::write(folder.join("in"), p1_settled()).unwrap();
    let figures = "inputs 3 nodes 1 outputs 1 before 0 after 4 saving -4 listed 1 moved 1\n";
    gives(&run_in(&folder, &["apply", "in", "-"], b"4 1\n"), &p1(), figures);
    let figures = "inputs 3 nodes 1 outputs 1 before 0 after 0 saving 0 listed 0 moved 0\n";
    gives(&run_in(&folder, &["apply", "in", "-"], b"# 4 1\n"), &p1_settled(), figures);
    gives(&run_in(&folder, &["apply", "in", "-"], b""), &p1_settled(), figures);
    let figures = "inputs 3 nodes 1 outputs 1 before 0 after 4 saving -4 listed 1 moved 1\n";
    let text = "aag 7 3 0 1 4\n2\n4\n6\n14\n8 4 6\n10 3 9\n12 5 7\n14 11 13\n";
    gives(
        &run_in(&folder, &["apply", "in", "-", "--to", "aiger"], b"4 1\n"),
        text.as_bytes(),
        &format!("{figures}{}", as_aiger(4, 6, 1, 4)),
    );
}

/// What a preview gives with --moves is applied as it is, and ends in what the first line of the preview says.
#[test]
fn applying_previews() {
    let folder = with_moves("applying_previews", "");
    assert_eq!(run_in(&folder, &["preview", "in", "7", "--moves", "-o", "moves"], b"").status.code(), Some(0));
    gives(&run_in(&folder, &["apply", "in", "moves"], b""), &p2_turned(), MADE);
    let example = |name: &str| format!("{}/../../examples/{name}", env!("CARGO_MANIFEST_DIR"));
    for name in ["divider4.aag", "multiplier4.mig", "alu_slice.aag"] {
        let roots = run(&["preview", &example(name)], b"");
        let root = text(&roots.stdout).lines().last().unwrap().split(' ').nth(1).unwrap();
        let told = run(&["preview", &example(name), root, "--moves"], b"");
        let made = run(&["apply", &example(name), "-", "--to", "tagged"], &told.stdout);
        let figure = |line: &str, word: &str| {
            let mut words = line.split_whitespace().skip_while(|&other| other != word);
            words.nth(1).unwrap().parse::<i64>().unwrap()
        };
        let (before, after) = (said(&told), said(&made));
        for word in ["before", "after", "saving"] {
            assert_eq!(figure(&before, word), figure(&after, word), "{name}: {before}{after}");
        }
        assert_eq!(figure(&after, "listed"), text(&told.stdout).lines().count() as i64);
        let shown = run(&["show"], &made.stdout);
        assert!(text(&shown.stdout).contains(&format!("complemented edges {}\n", figure(&after, "after"))));
    }
}

#[test]
fn applying_beside_locks() {
    let folder = folder("applying_beside_locks");
    let locked = run(&["lock", "-", "7"], &p2()).stdout;
    fs::write(folder.join("in"), &locked).unwrap();
    let turned = run(&["lock", "-", "7"], &p2_turned()).stdout;
    let figures = "inputs 5 nodes 2 outputs 1 before 4 after 2 saving 2 listed 2 moved 1 locked 1\n";
    gives(&run_in(&folder, &["apply", "in", "-"], b"6 1\n7 0\n"), &turned, figures);
    let refused =
        "panjerov: standard input, line 2: refused 16: a move other than 0 is at a locked node; node 7 is locked, \
                   and cannot have move 1\n";
    stops(&run_in(&folder, &["apply", "in", "-"], b"6 1\n7 1\n"), 1, refused);
    // Without its locks, as text has none.
    let lost = "AIGER cannot hold locks: those of 1 node are lost, and a tagged file would keep them\n";
    let output = run_in(&folder, &["apply", "in", "-", "--to", "aiger"], b"6 1\n");
    assert_eq!(said(&output), format!("{}{}{lost}", figures.replace("listed 2", "listed 1"), as_aiger(8, 12, 2, 2)));
}

/// Told with the line, and nothing is written.
#[test]
fn lists_refused() {
    let folder = with_moves("lists_refused", "");
    fs::write(folder.join("out"), "old").unwrap();
    let line = "a line is a node's index and its move, such as 7 1, and not";
    let rising = "refused 14: an index of the list is not above the one before";
    let lacks = "refused 15: a node of this kind has no such move";
    for (moves, why) in [
        ("6 1\nx 1\n", format!("line 2: {line} x 1")),
        ("6 1\n7\n", format!("line 2: {line} 7")),
        ("6 1 7 1\n", format!("line 1: {line} 6 1 7 1")),
        ("node 6 majority move 1: x\n", format!("line 1: {line} node 6 majority move 1: x")),
        ("\n#\n8 1\n", "line 3: refused 7: there is no such node, root or word; 8 is no node: nodes are 6 to 7".into()),
        ("7 1\n6 1\n", format!("line 2: {rising}; node 6 comes after node 7, and indices must rise")),
        ("6 1\n# again\n6 1\n", format!("line 3: {rising}; node 6 comes after node 6, and indices must rise")),
        ("6 1\n7 2\n", format!("line 2: {lacks}; node 7 is a majority, whose moves are 0 to 1, and not 2")),
        ("6 256\n", format!("line 1: {lacks}; node 6 is a majority, whose moves are 0 to 1, and not 256")),
    ] {
        fs::write(folder.join("moves"), moves).unwrap();
        let told = format!("panjerov: moves, {why}\n");
        stops(&run_in(&folder, &["apply", "in", "moves", "-o", "out"], b""), 1, &told);
    }
    let missing = run_in(&folder, &["apply", "in", "none", "-o", "out"], b"");
    assert!(said(&missing).starts_with("panjerov: cannot read none: "));
    assert_eq!(missing.status.code(), Some(1));
    let long = "panjerov: standard input has more than 16777216 bytes, which no list of moves needs\n";
    stops(&run_in(&folder, &["apply", "in", "-", "-o", "out"], &vec![b'\n'; (1 << 24) + 1]), 1, long);
    let extra = "panjerov: in: refused 6: there are bytes after the end field; \
                 byte 55, after the end field: 1 byte more, and none is due\n";
    fs::write(folder.join("in"), [p2(), vec![0]].concat()).unwrap();
    stops(&run_in(&folder, &["apply", "in", "-", "-o", "out"], b"6 1"), 1, extra);
    assert_eq!(fs::read(folder.join("out")).unwrap(), b"old");
    holds(&folder, &["in", "moves", "out"]);
}

#[test]
fn apply_not_understood() {
    let missing = "MOVES is missing after FILE: a file with a line for each node, its index and its move";
    for (words, why) in [
        (&["in"][..], missing),
        (&[], missing),
        (&["-", "-"], "only one of FILE and MOVES can be standard input"),
        (&["in", "moves", "more"], "more is one word too many"),
        (&["in", "moves", "--moves"], "there is no option --moves"),
    ] {
        let told = format!("panjerov: {why}; `panjerov apply --help` tells what apply takes\n");
        stops(&run(&[&["apply"], words].concat(), b""), 2, &told);
    }
}

/// A move for as many nodes as there may be, from a text that is longer than a graph's file may be.
#[test]
fn longest_list() {
    let folder = folder("longest_list");
    let mut file = tagged(&[(1, &[4_096, 100_000, 1])]);
    (0..100_000).for_each(|_| file.extend(tagged(&[(2, &[2, 4, 6])])));
    file.extend(tagged(&[(4, &[2 * 104_096]), (5, &[])]));
    fs::write(folder.join("in"), file).unwrap();
    let lines: String = (4_097..=104_096).map(|node| format!("# the node that follows is moved\n{node} 1\n")).collect();
    assert!(lines.len() > 3_000_000);
    let output = run_in(&folder, &["apply", "in", "-", "-o", "out"], lines.as_bytes());
    let figures =
        "inputs 4096 nodes 100000 outputs 1 before 0 after 300001 saving -300001 listed 100000 moved 100000\n";
    gives(&output, b"", figures);
}

/// What the help shows is what is told.
#[test]
fn help_of_apply() {
    let help = run(&["apply", "--help"], b"");
    assert!(text(&help.stdout).contains(&format!("\n\n    {MADE}")));
    assert!(text(&run(&["--help"], b"").stdout).contains("\n    apply      "));
}
