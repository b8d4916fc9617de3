//! Locking and unlocking, and what the other commands do with locks.

use super::pictures::{drawn, p3, run_with, with_dot};
use super::reports::rows;
use super::*;

/// P2 of document 01 with these nodes locked.
fn p2_locked(nodes: &[u32]) -> Vec<u8> {
    let mut fields: Vec<(u8, &[u32])> = vec![(1, &[5, 2, 1]), (2, &[3, 5, 6]), (2, &[13, 8, 11]), (4, &[14])];
    fields.extend(nodes.iter().map(|node| (6, std::slice::from_ref(node))));
    tagged(&[&fields[..], &[(5, &[])]].concat())
}

/// What settling leaves of P2 where node 7 is locked.
fn p2_settled() -> Vec<u8> {
    tagged(&[(1, &[5, 2, 1]), (2, &[2, 4, 7]), (2, &[12, 8, 11]), (4, &[14]), (6, &[7]), (5, &[])])
}

#[test]
fn locking_and_unlocking() {
    let line = |locked: &str| format!("inputs 5 nodes 2 outputs 1 locked {locked}\n");
    gives(&run(&["lock", "-", "7"], &p2()), &p2_locked(&[7]), &line("1 at 7"));
    gives(&run(&["lock", "-", "6"], &p2_locked(&[7])), &p2_locked(&[6, 7]), &line("2 at 6-7"));
    gives(&run(&["lock", "-", "7", "7"], &p2_locked(&[7])), &p2_locked(&[7]), &line("1 at 7"));
    for nodes in [&["6-7"][..], &["7,6"], &["7", "6"], &["7,", "6"], &["all"], &["6", "all"]] {
        gives(&run(&[&["lock", "-"], nodes].concat(), &p2()), &p2_locked(&[6, 7]), &line("2 at 6-7"));
        gives(&run(&[&["unlock", "-"], nodes].concat(), &p2_locked(&[6, 7])), &p2(), &line("0"));
    }
    gives(&run(&["unlock", "-", "6"], &p2_locked(&[6, 7])), &p2_locked(&[7]), &line("1 at 7"));
    gives(&run(&["unlock", "-", "6", "--to", "tagged"], &p2()), &p2(), &line("0"));
    // A text is imported: an OR as its ANDs have it.
    let or = b"aag 3 2 0 1 1\n2\n4\n7\n6 3 5\n";
    let locked = tagged(&[(1, &[2, 1, 1]), (2, &[0, 3, 5]), (4, &[7]), (6, &[3]), (5, &[])]);
    gives(&run(&["lock", "-", "3"], or), &locked, "inputs 2 nodes 1 outputs 1 locked 1 at 3\n");
    let no_nodes = tagged(&[(1, &[1, 0, 1]), (4, &[3]), (5, &[])]);
    gives(&run(&["lock", "-", "all"], &no_nodes), &no_nodes, "inputs 1 nodes 0 outputs 1 locked 0\n");
}

#[test]
fn files_that_are_locked() {
    let folder = folder("files_that_are_locked");
    fs::write(folder.join("in"), p2()).unwrap();
    let line = "inputs 5 nodes 2 outputs 1 locked 1 at 7\n";
    gives(&run_in(&folder, &["lock", "in", "7", "-o", "out"], b""), b"", line);
    assert_eq!(fs::read(folder.join("out")).unwrap(), p2_locked(&[7]));
    gives(&run_in(&folder, &["lock", "in", "7", "-o", "in"], b""), b"", line);
    assert_eq!(fs::read(folder.join("in")).unwrap(), p2_locked(&[7]));
    holds(&folder, &["in", "out"]);
}

/// Refused by what the file has: nothing is written.
#[test]
fn no_such_nodes() {
    let folder = folder("no_such_nodes");
    fs::write(folder.join("in"), p2_locked(&[7])).unwrap();
    fs::write(folder.join("out"), "old").unwrap();
    for command in ["lock", "unlock"] {
        for (nodes, index) in
            [("8", "8"), ("6,8", "8"), ("5-7", "5"), ("6-4294967295", "4294967295"), ("0", "0"), ("all,9", "9")]
        {
            let said = "refused 7: there is no such node, root or word";
            let told = format!("panjerov: in: {said}; {index} is no node: nodes are 6 to 7\n");
            stops(&run_in(&folder, &[command, "in", nodes, "-o", "out"], b""), 1, &told);
        }
    }
    let none =
        "panjerov: standard input: refused 7: there is no such node, root or word; 2 is no node: there are no nodes\n";
    stops(&run(&["lock", "-", "2"], b"aag 1 1 0 1 0\n2\n3\n"), 1, none);
    let long = "panjerov: standard input: refused 6: there are bytes after the end field; \
                byte 55, after the end field: 1 byte more, and none is due\n";
    stops(&run_in(&folder, &["lock", "-", "6", "-o", "out"], &[p2(), vec![0]].concat()), 1, long);
    assert_eq!(fs::read(folder.join("out")).unwrap(), b"old");
    assert_eq!(fs::read(folder.join("in")).unwrap(), p2_locked(&[7]));
    holds(&folder, &["in", "out"]);
}

#[test]
fn words_that_are_not_understood() {
    let folder = folder("words_that_are_not_understood");
    fs::write(folder.join("in"), p2()).unwrap();
    let nodes = "NODES are indices and runs of them, such as 7,9-12, or all";
    let aiger = "AIGER cannot hold locks: lock gives a tagged file";
    let ending = "has the ending of AIGER, which cannot hold locks: lock gives a tagged file, so give it another name";
    for (words, why) in [
        (&["in"][..], format!("NODES is missing after FILE: {nodes}")),
        (&["in", "-o", "out"], format!("NODES is missing after FILE: {nodes}")),
        (&["in", "x"], format!("{nodes}, and not x")),
        (&["in", "7,,6"], format!("{nodes}, and not 7,,6")),
        (&["in", "6", "7;8"], format!("{nodes}, and not 7;8")),
        (&["in", "4294967296"], format!("{nodes}, and not 4294967296")),
        (&["in", "7-6"], "7-6 goes down; a run of nodes goes up, as 6-7".into()),
        (&["in", "7", "--to", "aiger", "-o", "out"], aiger.into()),
        (&["in", "7", "-o", "out.aag"], format!("out.aag {ending}")),
        (&["in", "7", "-o", "no/OUT.AIG"], format!("no/OUT.AIG {ending}")),
    ] {
        let told = format!("panjerov: {why}; `panjerov lock --help` tells what lock takes\n");
        stops(&run_in(&folder, &[&["lock"], words].concat(), b""), 2, &told);
    }
    holds(&folder, &["in"]);
}

/// What the help shows is what is told.
#[test]
fn help_of_lock() {
    let help = run(&["lock", "--help"], b"");
    let line = said(&run(&["lock", "-", "7"], &p2()));
    assert!(text(&help.stdout).contains(&format!("\n\n    {line}")));
    assert!(text(&run(&["--help"], b"").stdout).contains("\n    lock       "));
    let shown = run(&["show"], &p1());
    let lines: String = text(&shown.stdout).split_inclusive('\n').map(|line| format!("    {line}")).collect();
    assert!(text(&run(&["show", "--help"], b"").stdout).contains(&format!("\n\n{lines}")));
}

#[test]
fn settling_with_locks() {
    let figures = "inputs 5 nodes 2 outputs 1 before 4 after 2 rounds 2 own 2 others 0 locked 1\n";
    gives(&run(&["settle"], &p2_locked(&[7])), &p2_settled(), figures);
    let kept = "inputs 5 nodes 2 outputs 1 before 4 after 4 rounds 1 own 0 others 0 locked 1\n";
    gives(&run(&["settle"], &p2_locked(&[6])), &p2_locked(&[6]), kept);
    let all = "inputs 5 nodes 2 outputs 1 before 4 after 4 rounds 1 own 0 others 0 locked 2\n";
    gives(&run(&["settle"], &p2_locked(&[6, 7])), &p2_locked(&[6, 7]), all);
}

#[test]
fn texts_lose_locks() {
    let p1_locked = tagged(&[(1, &[3, 1, 1]), (2, &[2, 4, 6]), (4, &[8]), (6, &[4]), (5, &[])]);
    let lost = "AIGER cannot hold locks: those of 1 node are lost, and a tagged file would keep them\n";
    let lost = &format!("{}{lost}", as_aiger(4, 6, 1, 0));
    gives(&run(&["export"], &p1_locked), MAJORITY.as_bytes(), lost);
    let figures = "inputs 3 nodes 1 outputs 1 before 0 after 0 rounds 1 own 0 others 0 locked 1\n";
    gives(&run(&["settle", "--to", "aiger"], &p1_locked), MAJORITY.as_bytes(), &format!("{figures}{lost}"));
    gives(&run(&["settle", "--to", "tagged"], &p1_locked), &p1_locked, figures);
    gives(&run(&["import"], &p1_locked), &p1_locked, "");
}

#[test]
fn showing_locks() {
    let show = |locked: &[u32]| text(&run(&["show"], &p2_locked(locked)).stdout).lines().last().unwrap().to_string();
    assert_eq!(show(&[]), "locked nodes 0");
    assert_eq!(show(&[7]), "locked nodes 1 at 7");
    assert_eq!(show(&[6, 7]), "locked nodes 2 at 6-7");
    // The longest file that there is: 15 bytes a majority and 7 a lock.
    let mut long = tagged(&[(1, &[4_096, 100_000, 4_096])]);
    (0..100_000).for_each(|_| long.extend(tagged(&[(2, &[2, 4, 6])])));
    (0..4_096).for_each(|_| long.extend(tagged(&[(4, &[2])])));
    (4_097..=104_096).for_each(|node| long.extend(tagged(&[(6, &[node])])));
    long.extend(tagged(&[(5, &[])]));
    assert_eq!(long.len(), 18 + 22 * 100_000 + 7 * 4_096);
    let due = "format tagged\ninputs 4096 nodes 100000 outputs 4096\nmajorities 100000 xors 0\ncomplemented edges 0\n\
               majorities with just one complemented input 0\ndepth 0\nlocked nodes 100000 at 4097-104096\n";
    gives(&run(&["show"], &long), due.as_bytes(), "");
    let extra = "panjerov: standard input: refused 6: there are bytes after the end field; \
                 byte 2228690, after the end field: 1 byte more, and none is due\n";
    stops(&run(&["show"], &[&long[..], &[0]].concat()), 1, extra);
}

#[test]
fn previewing_locks() {
    let due = "root 7 before 4 after 2 saving 2 own 2 others 0\ntree nodes 2 majorities 2 xors 0 locked 1\n\
               node 6 majority move 1: words 1, 2 and 3 and every reader turn\n\
               node 7 majority move 0: nothing turns, for it is locked\n";
    gives(&run(&["preview", "-", "7"], &p2_locked(&[7])), due.as_bytes(), "");
    let due = "root 7 before 4 after 4 saving 0 own 0 others 0\ntree nodes 2 majorities 2 xors 0 locked 1\n\
               node 6 majority move 0: nothing turns, for it is locked\nnode 7 majority move 0: nothing turns\n";
    gives(&run(&["preview", "-", "7"], &p2_locked(&[6])), due.as_bytes(), "");
    let line = "root 7 before 4 after 2 saving 2 own 2 others 0\nlocked in the tree: 7\n";
    gives(&run(&["preview", "-", "7", "--moves"], &p2_locked(&[7])), b"6 1\n7 0\n", line);
    let due = b"roots 1\nroot 7 nodes 2 majorities 2 xors 0 locked 2 saving 0\n";
    gives(&run(&["preview"], &p2_locked(&[6, 7])), due, "");
}

#[test]
fn files_refused_by_13() {
    let refused = "panjerov: standard input: refused 13: a lock byte is above 1, or a lock of a file is at no node or not above the \
                   one before";
    for (locked, why) in [
        (&[5][..], "byte 52, a lock: it has index 5, and nodes are 6 to 7"),
        (&[6, 8], "byte 59, a lock: it has index 8, and nodes are 6 to 7"),
        (&[7, 6], "byte 59, a lock: it has index 6 after 7, and indices must rise"),
        (&[6, 6], "byte 59, a lock: it has index 6 after 6, and indices must rise"),
    ] {
        stops(&run(&["show"], &p2_locked(locked)), 1, &format!("{refused}; {why}\n"));
    }
}

/// A locked node says so, and has a thick border; above the picture stands how many there are.
#[test]
fn locks_in_pictures() {
    let due = r##"    label="standard input\n5 inputs, 2 nodes, 1 output\n4 complemented edges, each with a dot\n1 locked node, with a thick border";
    {
        rank=source;
        i1 [label="input 1"];
        i2 [label="input 2"];
        i3 [label="input 3"];
        i4 [label="input 4"];
        i5 [label="input 5"];
    }
    n6 [label="{majority 6|{<w1> 3|<w2> 5|<w3> 6}}", shape=record, fillcolor="#dcebf7"];
    i1 -> n6:w1:s [arrowhead=dot];
    i2 -> n6:w2:s [arrowhead=dot];
    i3 -> n6:w3:s;
    n7 [label="{majority 7 locked|{<w1> 13|<w2> 8|<w3> 11}}", shape=record, fillcolor="#dcebf7", penwidth=3];
    n6 -> n7:w1:s [arrowhead=dot];
    i4 -> n7:w2:s;
    i5 -> n7:w3:s [arrowhead=dot];
    {
        rank=sink;
        o1 [label="{output 1|<w1> 14}", shape=record];
    }
    n7 -> o1:w1:s;
}
"##;
    assert_eq!(drawn(&run(&["picture"], &p2_locked(&[7]))), due);
    let xor = tagged(&[(1, &[2, 1, 1]), (3, &[2, 4]), (4, &[6]), (6, &[3]), (5, &[])]);
    let output = run(&["picture"], &xor);
    let due = "n3 [label=\"{XOR 3 locked|{<w1> 2|<w2> 4}}\", shape=Mrecord, fillcolor=\"#fbdf9d\", penwidth=3];";
    assert!(text(&output.stdout).contains(due));
    // Node 4, which the tree of node 6 reads, is locked, and so is node 5 within it.
    let locked = run(&["lock", "-", "4,5"], &two_trees()).stdout;
    let output = run(&["picture", "--root", "6"], &locked);
    let dot = text(&output.stdout);
    assert!(dot.contains("n4 [label=\"majority 4 locked\", style=dashed, penwidth=3];"));
    assert!(dot.contains("n5 [label=\"{XOR 5 locked|"));
    assert!(dot.contains("each with a dot\\n2 locked nodes of the whole graph's 2, each with a thick border\";"));
    let output = run(&["picture", "--output", "1"], &locked);
    assert!(text(&output.stdout).contains("\\n1 locked node of the whole graph's 2, with a thick border\";"));
    // Without locks nothing is said of them.
    assert!(!text(&run(&["picture"], &p3()).stdout).contains("lock"));
}

#[test]
fn locks_compared() {
    let folder = folder("locks_compared");
    fs::write(folder.join("free"), p2()).unwrap();
    fs::write(folder.join("upper"), p2_locked(&[7])).unwrap();
    fs::write(folder.join("lower"), p2_locked(&[6])).unwrap();
    fs::write(folder.join("settled"), p2_settled()).unwrap();
    let said_of = |before: &str, after: &str| {
        let output = run_in(&folder, &["picture", "--compare", before, after], b"");
        assert_eq!(output.status.code(), Some(0));
        said(&output)
    };
    assert_eq!(said_of("upper", "settled"), "");
    assert_eq!(said_of("free", "settled"), "locks differ: only settled locks 7\n");
    assert_eq!(said_of("upper", "free"), "locks differ: only upper locks 7\n");
    assert_eq!(said_of("upper", "lower"), "locks differ: only upper locks 7; only lower locks 6\n");
    // Node 6 turned, though it is locked in the first.
    let turned = "locked in lower, and turned all the same: 6\n";
    assert_eq!(
        said_of("lower", "settled"),
        format!("locks differ: only lower locks 6; only settled locks 7\n{turned}")
    );
    let output = run_in(&folder, &["picture", "--compare", "upper", "lower"], b"");
    let dot = text(&output.stdout);
    assert!(dot.contains("before_n7 [label=\"{majority 7 locked|") && dot.contains("after_n7 [label=\"{majority 7|"));
    assert!(dot.contains("before_n6 [label=\"{majority 6|") && dot.contains("after_n6 [label=\"{majority 6 locked|"));
    assert_eq!(dot.matches("penwidth=3]").count(), 2);
}

#[test]
fn locks_in_a_report() {
    let script = "echo '<svg>'; cat; echo '</svg>'";
    let folder = with_dot("locks_in_a_report", Some(script));
    fs::write(folder.join("in"), p2_locked(&[7])).unwrap();
    let figures = "inputs 5 nodes 2 outputs 1 before 4 after 2 rounds 2 own 2 others 0 locked 1\n";
    gives(&run_with(&folder, &["report", "in", "-o", "out"]), b"", figures);
    let page = fs::read_to_string(folder.join("out")).unwrap();
    assert_eq!(rows(&page)[6], ["of these locked", "1", "1", ""]);
    assert!(page.contains("with the same wiring and function. One node is locked and did not turn.</p>\n"));
    assert!(page.contains("<h2>Nodes that turned: 1 of 2</h2>\n"));
    assert!(page.contains("<h2>Locked nodes: 1 of 2</h2>\n<p>7</p>\n"));
    assert!(
        page.contains("before_n7 [label=\"{majority 7 locked|")
            && page.contains("after_n7 [label=\"{majority 7 locked|")
    );
    assert!(page.contains("</svg>locked node, which may not turn\n"));
    // Both locked: nothing turns.
    fs::write(folder.join("in"), p2_locked(&[6, 7])).unwrap();
    assert_eq!(run_with(&folder, &["report", "in", "-o", "out"]).status.code(), Some(0));
    let page = fs::read_to_string(folder.join("out")).unwrap();
    assert!(page.contains("lowers the 4 complemented edges. 2 nodes are locked and did not turn.</p>\n"));
    assert!(page.contains("<h2>Locked nodes: 2 of 2</h2>\n<p>6 to 7</p>\n"));
    // Without locks there is no such section.
    fs::write(folder.join("in"), p2()).unwrap();
    assert_eq!(run_with(&folder, &["report", "in", "-o", "out"]).status.code(), Some(0));
    assert!(!fs::read_to_string(folder.join("out")).unwrap().contains("<h2>Locked nodes"));
}
