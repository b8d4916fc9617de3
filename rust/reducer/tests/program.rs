//! The program `panjerov`, run as a user runs it.

use std::fs::{self, Permissions};
use std::io::{BufRead, BufReader, Write};
use std::os::unix::fs::{symlink, PermissionsExt};
use std::path::{Path, PathBuf};
use std::process::{Command, Output, Stdio};
use std::time::{Duration, Instant};

#[path = "program/assignments.rs"]
mod assignments;
#[path = "program/classes.rs"]
mod classes;
#[path = "program/equal.rs"]
mod equal;
#[path = "program/found.rs"]
mod found;
#[path = "program/habits.rs"]
mod habits;
#[path = "program/joins.rs"]
mod joins;
#[path = "program/json.rs"]
mod json;
#[path = "program/locks.rs"]
mod locks;
#[path = "program/moves.rs"]
mod moves;
#[path = "program/names.rs"]
mod names;
#[path = "program/pictures.rs"]
mod pictures;
#[path = "program/reports.rs"]
mod reports;
#[path = "program/resistive.rs"]
mod resistive;
#[path = "program/sheets.rs"]
mod sheets;

const PROGRAM: &str = env!("CARGO_BIN_EXE_panjerov");
const MAJORITY: &str = "aag 7 3 0 1 4\n2\n4\n6\n15\n8 5 7\n10 2 9\n12 4 6\n14 11 13\n";

/// An empty folder of a test's own.
fn folder(test: &str) -> PathBuf {
    let folder = Path::new(env!("CARGO_TARGET_TMPDIR")).join(test);
    let _ = fs::remove_dir_all(&folder);
    fs::create_dir_all(&folder).unwrap();
    folder
}

/// A tagged file, field by field: tag and words.
fn tagged(fields: &[(u8, &[u32])]) -> Vec<u8> {
    let field = |&(tag, words): &(u8, &[u32])| {
        let payload: Vec<u8> = words.iter().flat_map(|word| word.to_be_bytes()).collect();
        [&[tag, 0, payload.len() as u8], &payload[..]].concat()
    };
    fields.iter().flat_map(field).collect()
}

fn p1() -> Vec<u8> {
    tagged(&[(1, &[3, 1, 1]), (2, &[3, 5, 7]), (4, &[9]), (5, &[])])
}

fn p1_settled() -> Vec<u8> {
    tagged(&[(1, &[3, 1, 1]), (2, &[2, 4, 6]), (4, &[8]), (5, &[])])
}

fn run_in(folder: &Path, words: &[&str], input: &[u8]) -> Output {
    let mut child = Command::new(PROGRAM)
        .args(words)
        .current_dir(folder)
        .stdin(Stdio::piped())
        .stdout(Stdio::piped())
        .stderr(Stdio::piped())
        .spawn()
        .unwrap();
    // It need not read what it is handed.
    let _ = child.stdin.take().unwrap().write_all(input);
    child.wait_with_output().unwrap()
}

fn run(words: &[&str], input: &[u8]) -> Output {
    run_in(Path::new("."), words, input)
}

fn text(bytes: &[u8]) -> &str {
    std::str::from_utf8(bytes).unwrap()
}

/// What was said on standard error, but for lines of progress, which a machine at other work may bring about.
fn said(output: &Output) -> String {
    let progress = |line: &&str| line.starts_with("panjerov: ") && line.contains(" for ") && line.ends_with(" s\n");
    text(&output.stderr).split_inclusive('\n').filter(|line| !progress(line)).collect()
}

/// Accepted, with this on standard output and this on standard error.
fn gives(output: &Output, given: &[u8], due: &str) {
    assert_eq!(said(output), due);
    assert_eq!(output.stdout.escape_ascii().to_string(), given.escape_ascii().to_string());
    assert_eq!(output.status.code(), Some(0));
}

/// Ended with this status, nothing on standard output, and this on standard error.
fn stops(output: &Output, status: i32, due: &str) {
    assert_eq!(said(output), due);
    assert_eq!(output.stdout, b"");
    assert_eq!(output.status.code(), Some(status));
}

/// That the folder has just these files: nothing was left beside them.
fn holds(folder: &Path, names: &[&str]) {
    let mut found: Vec<String> =
        fs::read_dir(folder).unwrap().map(|entry| entry.unwrap().file_name().into_string().unwrap()).collect();
    found.sort();
    assert_eq!(found, names);
}

/// The line that is said where a graph becomes AIGER. A majority is four ANDs with five complemented edges, and one more where its first
/// word is complemented. In the text a node is the complement of its last AND, so that literals of nodes turn.
fn as_aiger(ands: usize, edges: usize, nodes: usize, complemented: usize) -> String {
    let ending = |many: usize| if many == 1 { "" } else { "s" };
    format!(
        "as AIGER it has {ands} ANDs and {edges} complemented edges; the graph has {nodes} node{} and {complemented} complemented edge{}\n",
        ending(nodes),
        ending(complemented)
    )
}

const FIGURES: &str = "inputs 3 nodes 1 outputs 1 before 4 after 0 rounds 2 own 3 others 1\n";

#[test]
fn settling() {
    gives(&run(&["settle"], &p1()), &p1_settled(), FIGURES);
    gives(&run(&["settle", "-"], &p1()), &p1_settled(), FIGURES);
    gives(&run(&["settle", "--to", "tagged"], &p1()), &p1_settled(), FIGURES);
    gives(
        &run(&["settle", "--to", "aiger"], &p1()),
        MAJORITY.as_bytes(),
        &format!("{FIGURES}{}", as_aiger(4, 6, 1, 0)),
    );
    // An OR, as its ANDs have it, becomes the majority of the constant one and both inputs.
    let or = b"aag 3 2 0 1 1\n2\n4\n7\n6 3 5\n";
    let said = "inputs 2 nodes 1 outputs 1 before 3 after 1 rounds 2 own 1 others 1\n";
    let settled = tagged(&[(1, &[2, 1, 1]), (2, &[1, 2, 4]), (4, &[6]), (5, &[])]);
    gives(&run(&["settle", "--to", "tagged"], or), &settled, said);
    // Three outputs that read a node complemented: its words get worse by one, and the outputs better by three.
    let outputs = |literal| tagged(&[(4, &[literal]), (4, &[literal]), (4, &[literal]), (5, &[])]);
    let lost = [tagged(&[(1, &[3, 1, 3]), (2, &[2, 4, 7])]), outputs(9)].concat();
    let turned = [tagged(&[(1, &[3, 1, 3]), (2, &[3, 5, 6])]), outputs(8)].concat();
    let figures = "inputs 3 nodes 1 outputs 3 before 4 after 2 rounds 2 own -1 others 3\n";
    gives(&run(&["settle"], &lost), &turned, figures);
    let as_text = "aag 6 2 0 1 4\n2\n4\n13\n6 3 5\n8 1 7\n10 2 4\n12 9 11\n";
    gives(&run(&["settle", "--to", "aiger"], or), as_text.as_bytes(), &format!("{said}{}", as_aiger(4, 7, 1, 1)));
    // Tagged, unless another form is asked for.
    gives(&run(&["settle"], or), &settled, said);
}

#[test]
fn importing_and_exporting() {
    let nodes: [&[u32]; 4] = [&[0, 5, 7], &[0, 2, 9], &[0, 4, 6], &[0, 11, 13]];
    let imported =
        tagged(&[(1, &[3, 4, 1]), (2, nodes[0]), (2, nodes[1]), (2, nodes[2]), (2, nodes[3]), (4, &[15]), (5, &[])]);
    gives(&run(&["import"], MAJORITY.as_bytes()), &imported, "");
    gives(&run(&["import"], format!("{MAJORITY}c\nmade by hand\n").as_bytes()), &imported, "");
    gives(&run(&["import"], &p1()), &p1(), "");
    gives(&run(&["export"], &p1_settled()), MAJORITY.as_bytes(), &as_aiger(4, 6, 1, 0));
    let xor = tagged(&[(1, &[2, 1, 1]), (3, &[2, 4]), (4, &[6]), (5, &[])]);
    gives(&run(&["export"], &xor), b"aag 5 2 0 1 3\n2\n4\n11\n6 2 5\n8 3 4\n10 7 9\n", &as_aiger(3, 5, 1, 0));
    gives(&run(&["export"], b"aag 1 1 0 1 0\n2\n3\n"), b"aag 1 1 0 1 0\n2\n3\n", "");
}

#[test]
fn showing() {
    let due = "format tagged\ninputs 3 nodes 1 outputs 1\nmajorities 1 xors 0\ncomplemented edges 4\n\
               majorities with just one complemented input 0\ndepth 1\nlocked nodes 0\n";
    gives(&run(&["show"], &p1()), due.as_bytes(), "");
    let due = "format aiger\ninputs 3 nodes 4 outputs 1\nmajorities 4 xors 0\ncomplemented edges 6\n\
               majorities with just one complemented input 1\ndepth 3\nlocked nodes 0\n";
    gives(&run(&["show"], MAJORITY.as_bytes()), due.as_bytes(), "");
    let mixed = tagged(&[(1, &[2, 2, 2]), (3, &[2, 5]), (2, &[1, 6, 4]), (4, &[8]), (4, &[1]), (5, &[])]);
    let due = "format tagged\ninputs 2 nodes 2 outputs 2\nmajorities 1 xors 1\ncomplemented edges 3\n\
               majorities with just one complemented input 1\ndepth 2\nlocked nodes 0\n";
    gives(&run(&["show"], &mixed), due.as_bytes(), "");
}

fn p2() -> Vec<u8> {
    tagged(&[(1, &[5, 2, 1]), (2, &[3, 5, 6]), (2, &[13, 8, 11]), (4, &[14]), (5, &[])])
}

const P2_FIGURES: &str = "root 7 before 4 after 2 saving 2 own 2 others 0\n";
const P2_TREE: &str = "tree nodes 2 majorities 2 xors 0\n\
                       node 6 majority move 1: words 1, 2 and 3 and every reader turn\n\
                       node 7 majority move 0: nothing turns\n";

/// Node 4 is a root that node 6 reads; node 5 is of node 6's tree.
fn two_trees() -> Vec<u8> {
    tagged(&[(1, &[3, 3, 2]), (2, &[3, 5, 7]), (3, &[3, 5]), (2, &[10, 8, 4]), (4, &[9]), (4, &[12]), (5, &[])])
}

#[test]
fn previewing() {
    gives(&run(&["preview", "-", "7"], &p2()), format!("{P2_FIGURES}{P2_TREE}").as_bytes(), "");
    let due = "root 4 before 6 after 3 saving 3 own 3 others 0\ntree nodes 1 majorities 1 xors 0\n\
               node 4 majority move 1: words 1, 2 and 3 and every reader turn\n";
    gives(&run(&["preview", "-", "4"], &two_trees()), due.as_bytes(), "");
    let due = "root 6 before 6 after 4 saving 2 own 2 others 0\ntree nodes 2 majorities 1 xors 1\n\
               node 5 xor move 1: words 1 and 2 turn\nnode 6 majority move 0: nothing turns\n";
    gives(&run(&["preview", "-", "6"], &two_trees()), due.as_bytes(), "");
    let xors =
        tagged(&[(1, &[2, 4, 1]), (3, &[3, 4]), (3, &[7, 5]), (3, &[8, 5]), (3, &[10, 5]), (4, &[13]), (5, &[])]);
    let due = "root 6 before 6 after 0 saving 6 own 5 others 1\ntree nodes 4 majorities 0 xors 4\n\
               node 3 xor move 2: word 1 and every reader turn\nnode 4 xor move 3: word 2 and every reader turn\n\
               node 5 xor move 1: words 1 and 2 turn\nnode 6 xor move 3: word 2 and every reader turn\n";
    gives(&run(&["preview", "-", "6"], &xors), due.as_bytes(), "");
    let or = b"aag 3 2 0 1 1\n2\n4\n7\n6 3 5\nc\nan OR\n";
    let due = "root 3 before 3 after 1 saving 2 own 1 others 1\ntree nodes 1 majorities 1 xors 0\n\
               node 3 majority move 1: words 1, 2 and 3 and every reader turn\n";
    gives(&run(&["preview", "-", "3"], or), due.as_bytes(), "");
}

#[test]
fn previewing_moves_alone() {
    let folder = folder("previewing_moves_alone");
    fs::write(folder.join("in"), p2()).unwrap();
    gives(&run_in(&folder, &["preview", "in", "7", "--moves"], b""), b"6 1\n7 0\n", P2_FIGURES);
    gives(&run_in(&folder, &["preview", "--moves", "in", "-o", "moves", "7"], b""), b"", P2_FIGURES);
    assert_eq!(fs::read(folder.join("moves")).unwrap(), b"6 1\n7 0\n");
    gives(&run_in(&folder, &["preview", "in", "7", "-o", "told"], b""), b"", "");
    assert_eq!(fs::read(folder.join("told")).unwrap(), format!("{P2_FIGURES}{P2_TREE}").as_bytes());
    assert_eq!(fs::read(folder.join("in")).unwrap(), p2());
    let due = "root 6 before 6 after 4 saving 2 own 2 others 0\n";
    gives(&run(&["preview", "-", "6", "--moves"], &two_trees()), b"5 1\n6 0\n", due);
    holds(&folder, &["in", "moves", "told"]);
}

#[test]
fn previewing_without_a_root() {
    gives(&run(&["preview"], &p2()), b"roots 1\nroot 7 nodes 2 majorities 2 xors 0 saving 2\n", "");
    let due = "roots 2\nroot 4 nodes 1 majorities 1 xors 0 saving 3\nroot 6 nodes 2 majorities 1 xors 1 saving 2\n";
    gives(&run(&["preview", "-"], &two_trees()), due.as_bytes(), "");
    gives(&run(&["preview", "--sort", "index"], &two_trees()), due.as_bytes(), "");
    gives(&run(&["preview"], b"aag 1 1 0 1 0\n2\n3\n"), b"roots 0\n", "");
    // Root 5 saves most; 4 and 6 save alike, and stay in their order.
    let three =
        [(1, &[3, 3, 3][..]), (2, &[3, 5, 6]), (2, &[3, 5, 7]), (2, &[2, 5, 7]), (4, &[8]), (4, &[11]), (4, &[12])];
    let three = tagged(&[&three[..], &[(5, &[])]].concat());
    let line = |root, saving| format!("root {root} nodes 1 majorities 1 xors 0 saving {saving}\n");
    let [four, five, six] = [line(4, 0), line(5, 4), line(6, 0)];
    gives(&run(&["preview"], &three), format!("roots 3\n{four}{five}{six}").as_bytes(), "");
    gives(&run(&["preview", "--sort", "saving"], &three), format!("roots 3\n{five}{four}{six}").as_bytes(), "");
}

#[test]
fn previews_refused() {
    let refused = |input: &[u8], root: &str, why: &str| {
        let no_such = "panjerov: standard input: refused 7: there is no such node, root or word";
        for words in [&["preview", "-", root][..], &["preview", "-", root, "--moves"]] {
            stops(&run(words, input), 1, &format!("{no_such}; {root} is no root: {why}\n"));
        }
    };
    refused(&two_trees(), "5", "it is in the tree of root 6");
    refused(&p2(), "6", "it is in the tree of root 7");
    for not in ["0", "3", "7", "4294967295"] {
        refused(&two_trees(), not, "nodes are 4 to 6");
    }
    refused(b"aag 1 1 0 1 0\n2\n3\n", "2", "there are no nodes");
    let long = "panjerov: standard input: refused 6: there are bytes after the end field; \
                byte 40, after the end field: 1 byte more, and none is due\n";
    stops(&run(&["preview", "-", "4"], &[p1(), vec![0]].concat()), 1, long);
    for not in ["x", "4294967296", "+7", "7.0", ""] {
        let said = format!("ROOT is the index of a node, a number below 2 to the 32nd, and not {not}");
        let told = format!("panjerov: {said}; `panjerov preview --help` tells what preview takes\n");
        stops(&run(&["preview", "-", not], &p2()), 2, &told);
    }
    let told = "panjerov: --moves wants FILE and ROOT; `panjerov preview --help` tells what preview takes\n";
    stops(&run(&["preview", "-", "--moves"], &p2()), 2, told);
}

/// What the help shows is what is told.
#[test]
fn help_of_settle() {
    let help = run(&["settle", "--help"], b"");
    assert!(text(&help.stdout).contains(&format!("\n\n    {FIGURES}")));
}

#[test]
fn help_of_preview() {
    let help = run(&["preview", "--help"], b"");
    for shown in [format!("{P2_FIGURES}{P2_TREE}"), text(&run(&["preview"], &p2()).stdout).into()] {
        let lines: String = shown.split_inclusive('\n').map(|line| format!("    {line}")).collect();
        assert!(text(&help.stdout).contains(&format!("\n\n{lines}")), "{lines}");
    }
    assert!(text(&run(&["--help"], b"").stdout).contains("\n    preview  "));
}

/// The moves that are told, made one by one, are the library's tree call.
#[test]
fn previewed_moves_are_the_tree_call_s() {
    let given = include_bytes!("../../../examples/multiplier4.aag");
    let graph = reducer::Graph::import(given).unwrap();
    let listed = run(&["preview"], given);
    let roots = text(&listed.stdout).lines().skip(1).map(|line| line.split(' ').nth(1).unwrap());
    let mut several = 0;
    for root in roots {
        let output = run(&["preview", "-", root, "--moves"], given);
        let (mut nodes, mut outputs) = (graph.node_literals().unwrap(), graph.output_literals().unwrap());
        let index = |word: &u32| word / 2;
        for line in text(&output.stdout).lines() {
            let (node, number) = line.split_once(' ').unwrap();
            let node: u32 = node.parse().unwrap();
            // An AIGER text gives majorities alone.
            let turn = u32::from(number.parse::<u32>().unwrap() == 1);
            let own = 3 * (node - graph.size.inputs - 1) as usize;
            nodes[own..own + 3].iter_mut().for_each(|word| *word ^= turn);
            let readers = nodes.iter_mut().chain(&mut outputs);
            readers.filter(|word| index(word) == node).for_each(|word| *word ^= turn);
        }
        let mut called = graph.clone();
        let saved = called.tree_call(root.parse().unwrap()).unwrap();
        assert_eq!(reducer::Graph::new(graph.size.inputs, nodes, outputs), called);
        let told = format!(" saving {} own {} others {}\n", saved.total(), saved.own, saved.others);
        assert!(said(&output).ends_with(&told), "{told}");
        several += u32::from(saved.total() > 0);
    }
    assert!(several >= 10, "{several}");
}

#[test]
fn files_of_names() {
    let folder = folder("files_of_names");
    fs::write(folder.join("in"), p1()).unwrap();
    gives(&run_in(&folder, &["settle", "in", "-o", "out"], b""), b"", FIGURES);
    assert_eq!(fs::read(folder.join("out")).unwrap(), p1_settled());
    gives(&run_in(&folder, &["settle", "in", "-o", "-"], b""), &p1_settled(), FIGURES);
    gives(&run_in(&folder, &["export", "-o", "text", "out"], b""), b"", &as_aiger(4, 6, 1, 0));
    assert_eq!(fs::read(folder.join("text")).unwrap(), MAJORITY.as_bytes());
    // What it reads is what it writes.
    gives(&run_in(&folder, &["settle", "in", "-o", "in"], b""), b"", FIGURES);
    assert_eq!(fs::read(folder.join("in")).unwrap(), p1_settled());
    holds(&folder, &["in", "out", "text"]);
}

#[test]
fn what_is_replaced() {
    let folder = folder("what_is_replaced");
    let target = folder.join("there");
    fs::write(&target, "old, and longer than what takes its place: it must be gone to the last byte").unwrap();
    fs::set_permissions(&target, Permissions::from_mode(0o640)).unwrap();
    symlink("there", folder.join("link")).unwrap();
    gives(&run_in(&folder, &["import", "-o", "link"], &p1()), b"", "");
    assert_eq!(fs::read(&target).unwrap(), p1());
    assert_eq!(fs::metadata(&target).unwrap().permissions().mode() & 0o7777, 0o640);
    assert!(fs::symlink_metadata(folder.join("link")).unwrap().is_symlink());
    symlink("new", folder.join("to_new")).unwrap();
    gives(&run_in(&folder, &["import", "-o", "to_new"], &p1()), b"", "");
    assert_eq!(fs::read(folder.join("new")).unwrap(), p1());
    gives(&run_in(&folder, &["import", "-o", "/dev/null"], &p1()), b"", "");
    assert!(!fs::metadata("/dev/null").unwrap().is_file());
    holds(&folder, &["link", "new", "there", "to_new"]);
}

#[test]
fn nothing_half_written() {
    let folder = folder("nothing_half_written");
    fs::write(folder.join("old"), "old").unwrap();
    let stopped = run_in(&folder, &["settle", "-o", "old"], b"aag 1 1 0 0 0\n4\n");
    assert_eq!(stopped.status.code(), Some(1));
    let gone = "panjerov: cannot write no/folder: No such file or directory (os error 2)\n";
    stops(&run_in(&folder, &["export", "-o", "no/folder"], &p1()), 1, gone);
    let is_folder = "panjerov: cannot write .: Is a directory (os error 21)\n";
    stops(&run_in(&folder, &["export", "-o", "."], &p1()), 1, is_folder);
    let full = "panjerov: cannot write /dev/full: No space left on device (os error 28)\n";
    stops(&run_in(&folder, &["export", "-o", "/dev/full"], &p1()), 1, full);
    // A file that may have 512 bytes, where more are to be written.
    let many = format!("aag 200 0 0 0 200\n{}", (1..=200).map(|at| format!("{} 0 1\n", 2 * at)).collect::<String>());
    fs::write(folder.join("many"), many).unwrap();
    let limited = "trap '' XFSZ; ulimit -f 1; exec \"$0\" import many -o old";
    let output = Command::new("sh").args(["-c", limited, PROGRAM]).current_dir(&folder).output().unwrap();
    stops(&output, 1, "panjerov: cannot write old: File too large (os error 27)\n");
    assert_eq!(fs::read(folder.join("old")).unwrap(), b"old");
    holds(&folder, &["many", "old"]);
}

#[test]
fn standard_output_that_is_full() {
    for words in ["settle", "show", "preview", "picture", "report", "--help"] {
        let full = fs::OpenOptions::new().write(true).open("/dev/full").unwrap();
        let folder = folder(&format!("full_{words}"));
        fs::write(folder.join("in"), p1()).unwrap();
        let mut command = Command::new(PROGRAM);
        command.arg(words).stdin(fs::File::open(folder.join("in")).unwrap()).stdout(full);
        let output = command.env("PATH", &folder).output().unwrap();
        assert_eq!(output.status.code(), Some(1), "{words}");
        let due = "panjerov: cannot write standard output: No space left on device (os error 28)\n";
        assert_eq!(said(&output), due);
    }
}

#[test]
fn refused_texts() {
    let numbering = "refused 12: M is not I + A, or inputs or gate numbers do not rise by 2 from literal 2";
    let bad_text = "refused 10: the header has no \"aag\", or a line lacks its decimal numbers";
    let bad_literal = "refused 5: a literal names an index that is not allowed there";
    let over = "refused 3: there are too many inputs, nodes, outputs or graphs of a class";
    let good = "aag 3 2 0 1 1\n2\n4\n6\n6 5 2\n";
    let latches = "it says 1 latch; make each an input and an output first, by \
                   yosys -p \"read_aiger OLD.aag; write_aiger OLD.aig\" and berkeley-abc -c \"read_aiger OLD.aig; comb; write_aiger NEW.aig\"";
    let header = "line 1, the header";
    for (from, to, place, why, refusal) in [
        ("aag 3", "aag3", header, "\"aag\" and five numbers are due, and \"aag3 2 0 1 1\" stands there", bad_text),
        ("3 2 0", "3 2 1", header, latches, "refused 11: there are latches"),
        ("aag 3", "aag 2", header, "M is 2, and I + A is 3", numbering),
        ("3 2 0 1", "3 2 0 5000", header, "it says 5000 outputs, and 4096 are the most", over),
        ("\n4\n", "\n04\n", "line 3, input 2 of 2", "one number is due, and \"04\" stands there", bad_text),
        ("\n2\n4\n", "\n3\n4\n", "line 2, input 1 of 2", "literal 3 stands there, and 2 is due", numbering),
        (
            "\n4\n6\n",
            "\n4\n8\n",
            "line 4, output 1 of 1",
            "it is literal 8, which names index 4, and 3 is the highest allowed there",
            bad_literal,
        ),
        (
            "6 5 2",
            "6 6 2",
            "line 5, gate 1 of 1",
            "literal 6 leads back to the gate itself: there is a circle",
            bad_literal,
        ),
        ("6 5 2", "8 5 2", "line 5, gate 1 of 1", "literal 8 stands there, and 6 is due", numbering),
        ("6 5 2", "6 5", "line 5, gate 1 of 1", "three numbers are due, and \"6 5\" stands there", bad_text),
    ] {
        assert!(good.contains(from));
        let output = run(&["import"], good.replacen(from, to, 1).as_bytes());
        stops(&output, 1, &format!("panjerov: standard input: {refusal}; {place}: {why}\n"));
    }
    let cut = run(&["show"], &good.as_bytes()[..good.len() - 3]);
    let said = "line 5, gate 1 of 1: three numbers are due, and \"6 5\" stands there, where the text ends";
    stops(&cut, 1, &format!("panjerov: standard input: {bad_text}; {said}\n"));
}

#[test]
fn refused_files() {
    let folder = folder("refused_files");
    fs::write(folder.join("long"), [p1(), vec![0]].concat()).unwrap();
    let said = "panjerov: long: refused 6: there are bytes after the end field; \
                byte 40, after the end field: 1 byte more, and none is due\n";
    stops(&run_in(&folder, &["settle", "long"], b""), 1, said);
    let empty = "panjerov: standard input: refused 1: the bytes end within a field; it is empty\n";
    stops(&run(&["export"], b""), 1, empty);
    let other = "panjerov: standard input: refused 2: a field has not the tag or the length that is due; \
                 neither a tagged file nor AIGER begins so\n";
    stops(&run(&["show"], b"\x02 adder\n"), 1, other);
    let missing = "panjerov: cannot read missing: No such file or directory (os error 2)\n";
    stops(&run_in(&folder, &["show", "missing"], b""), 1, missing);
}

#[test]
fn usage() {
    for words in [&[][..], &["grind"], &["settle", "a", "b"], &["show", "-o"], &["import", "--to", "aiger"]] {
        let output = run(words, &p1());
        assert_eq!(output.status.code(), Some(2), "{words:?}");
        assert_eq!(output.stdout, b"");
        assert!(text(&output.stderr).starts_with("panjerov: ") && text(&output.stderr).contains("--help"), "{words:?}");
    }
    for words in [
        &["--help"][..],
        &["-h"],
        &["settle", "--help"],
        &["find", "--help"],
        &["resistive", "--help"],
        &["import", "-h"],
        &["export", "--help"],
        &["show", "--help"],
        &["lock", "--help"],
        &["unlock", "a", "-h"],
        &["preview", "a", "7", "--help"],
        &["apply", "--help"],
        &["picture", "--svg", "--help"],
        &["report", "--help"],
        &["class", "--help"],
        &["sheets", "--help"],
        &["compare", "--help"],
        &["assign", "--help"],
        &["join", "--help"],
        &["help"],
        &["help", "picture"],
    ] {
        let output = run(words, b"");
        let command = words.iter().find(|word| !["help", "--help", "-h"].contains(word)).unwrap_or(&"COMMAND");
        let begin = &format!("usage: panjerov {command} ");
        assert!(text(&output.stdout).starts_with(begin), "{words:?}");
        assert!(text(&output.stdout).lines().all(|line| line.chars().count() <= 80), "{words:?}");
        assert_eq!((text(&output.stderr), output.status.code()), ("", Some(0)));
    }
}

#[test]
fn a_line_after_a_second() {
    let start = Instant::now();
    let mut child = Command::new(PROGRAM)
        .arg("show")
        .stdin(Stdio::piped())
        .stdout(Stdio::piped())
        .stderr(Stdio::piped())
        .spawn()
        .unwrap();
    let mut said = String::new();
    BufReader::new(child.stderr.take().unwrap()).read_line(&mut said).unwrap();
    assert_eq!(said, "panjerov: reading standard input for 1 s\n");
    assert!(start.elapsed() >= Duration::from_secs(1));
    child.stdin.take().unwrap().write_all(&p1()).unwrap();
    let output = child.wait_with_output().unwrap();
    assert!(text(&output.stdout).starts_with("format tagged\n"));
    assert_eq!(output.status.code(), Some(0));
}

/// The longest texts: all is read that is looked at, and no more.
#[test]
fn long_input() {
    let mut long = "aag 104096 4096 0 4096 100000\n".to_string();
    (1..=4_096).for_each(|input| long += &format!("{}\n", 2 * input));
    (1..=4_096).for_each(|_| long += "208193\n");
    (4_097..=104_096).for_each(|gate| long += &format!("{} {} {}\n", 2 * gate, 2 * gate - 1, 2 * gate - 2));
    let due = "format aiger\ninputs 4096 nodes 100000 outputs 4096\nmajorities 100000 xors 0\n\
               complemented edges 104096\nmajorities with just one complemented input 100000\ndepth 100000\nlocked nodes 0\n";
    gives(&run(&["show"], long.as_bytes()), due.as_bytes(), "");
    let comment = format!("c\n{}", "a comment that is long enough\n".repeat(800_000));
    gives(&run(&["show"], (long.clone() + &comment).as_bytes()), due.as_bytes(), "");
    // More of it than is read: the last name is not a part of one.
    let named = format!("{long}{}", "i0 a name that is long enough\n".repeat(600_000));
    let output = run(&["show"], named.as_bytes());
    assert!(said(&output).ends_with(" further names\n"));
    assert!(text(&output.stdout).ends_with("\nlocked nodes 0\ninput 1 a name that is long enough\n"));
    let other = "panjerov: standard input: refused 2: a field has not the tag or the length that is due; \
                 neither a tagged file nor AIGER begins so\n";
    stops(&run(&["show"], &vec![0; (1 << 24) + 1]), 1, other);
    let last = long.replacen("\n208192 208191 208190\n", "\n208192 208191 4294967295\n", 1);
    let said = "panjerov: standard input: refused 5: a literal names an index that is not allowed there; line 108193, gate 100000 of \
                100000: its word 2 is literal 4294967295, which names index 2147483647, and 104095 is the highest allowed there\n";
    stops(&run(&["show"], last.as_bytes()), 1, said);
}
