//! Sheets of moves, and two graphs compared.

use super::*;

/// Ended with a status, with this on standard output and this on standard error.
fn ends(output: &Output, status: i32, given: &str, due: &str) {
    assert_eq!((text(&output.stdout), &said(output)[..]), (given, due));
    assert_eq!(output.status.code(), Some(status));
}

fn p2_settled() -> Vec<u8> {
    tagged(&[(1, &[5, 2, 1]), (2, &[2, 4, 7]), (2, &[12, 8, 11]), (4, &[14]), (5, &[])])
}

#[test]
fn a_short_form() {
    let folder = folder("a_short_form");
    fs::write(folder.join("p2"), p2()).unwrap();
    fs::write(folder.join("sheet"), "# monday\n7 1\n\n6 1\n7 1\n").unwrap();
    let line = "lines 3 before 4 after 2 saving 2 listed 1 moved 1\n";
    ends(&run_in(&folder, &["sheets", "p2", "sheet"], b""), 0, "6 1\n", line);
    assert!(text(&run(&["sheets", "--help"], b"").stdout).contains(&format!("\n\n    {line}")));
    ends(
        &run_in(&folder, &["sheets", "p2", "-", "-o", "short"], b"6 1\n6 1\n"),
        0,
        "",
        &line.replace(
            "lines 3 before 4 after 2 saving 2 listed 1 moved 1",
            "lines 2 before 4 after 4 saving 0 listed 0 moved 0",
        ),
    );
    assert_eq!(fs::read(folder.join("short")).unwrap(), b"");
    // The short form is what `apply` takes, and ends where the sheet does.
    ends(&run_in(&folder, &["sheets", "p2", "sheet", "-o", "short"], b""), 0, "", line);
    let applied = run_in(&folder, &["apply", "p2", "short"], b"");
    assert_eq!(applied.stdout, p2_settled());
    holds(&folder, &["p2", "sheet", "short"]);
}

#[test]
fn two_sheets() {
    let folder = folder("two_sheets");
    let xor = tagged(&[(1, &[2, 2, 1]), (3, &[2, 4]), (2, &[6, 2, 4]), (4, &[8]), (5, &[])]);
    fs::write(folder.join("xor"), xor).unwrap();
    fs::write(folder.join("monday"), "3 1\n4 1\n3 2\n").unwrap();
    fs::write(folder.join("tuesday"), "4 1\n3 3\n4 1\n4 1\n").unwrap();
    ends(&run_in(&folder, &["sheets", "xor", "monday", "tuesday"], b""), 0, "same\n", "");
    ends(
        &run_in(&folder, &["sheets", "xor", "monday", "-"], b"3 2\n4 1"),
        1,
        "node 3 xor: 1 and 2 make 3 in monday, 2 makes 2 in standard input\n",
        "",
    );
    ends(
        &run_in(&folder, &["sheets", "xor", "-", "monday"], b"3 3\n"),
        1,
        "node 4 majority: no moves make 0 in standard input, 1 makes 1 in monday\n",
        "",
    );
    // The example of the help.
    fs::write(folder.join("p2"), p2()).unwrap();
    fs::write(folder.join("monday"), "6 1\n").unwrap();
    fs::write(folder.join("tuesday"), "6 1\n6 1\n").unwrap();
    let line = "node 6 majority: 1 makes 1 in monday, 1 and 1 make 0 in tuesday\n";
    ends(&run_in(&folder, &["sheets", "p2", "monday", "tuesday"], b""), 1, line, "");
    assert!(text(&run(&["sheets", "--help"], b"").stdout).contains(&format!("\n\n    {line}")));
}

#[test]
fn sheets_refused() {
    let folder = folder("sheets_refused");
    let locked = tagged(&[(1, &[5, 2, 1]), (2, &[3, 5, 6]), (2, &[13, 8, 11]), (4, &[14]), (6, &[7]), (5, &[])]);
    fs::write(folder.join("p2"), locked).unwrap();
    for (sheet, why) in [
        ("6 1\n8 1\n", "line 2: refused 7: there is no such node, root or word; 8 is no node: nodes are 6 to 7"),
        ("6 2\n8 1\n", "line 1: refused 15: a node of this kind has no such move; node 6 is a majority, whose moves are 0 to 1, and not 2"),
        ("7 0\n6 1\n7 1\n7 1\n", "line 3: refused 16: a move other than 0 is at a locked node; node 7 is locked, and cannot have move 1"),
        ("6 1\n6\n", "line 2: a line is a node's index and its move, such as 7 1, and not 6"),
    ] {
        stops(&run_in(&folder, &["sheets", "p2", "-"], sheet.as_bytes()), 2, &format!("panjerov: standard input, {why}\n"));
    }
    stops(
        &run_in(&folder, &["sheets", "none", "p2"], b""),
        2,
        "panjerov: cannot read none: No such file or directory (os error 2)\n",
    );
    let usage = "panjerov: SHEET is missing after FILE: a file with lines of a node's index and its move; `panjerov sheets --help` tells what sheets takes\n";
    stops(&run_in(&folder, &["sheets", "p2"], b""), 2, usage);
    holds(&folder, &["p2"]);
}

#[test]
fn comparing() {
    let folder = folder("comparing");
    fs::write(folder.join("p2"), p2()).unwrap();
    let p3 = tagged(&[(1, &[5, 2, 1]), (2, &[3, 5, 6]), (2, &[12, 9, 10]), (4, &[15]), (5, &[])]);
    fs::write(folder.join("p3"), &p3).unwrap();
    fs::write(folder.join("settled"), p2_settled()).unwrap();
    let line = "before 4 after 2 saving 2 moved 2 left 0\n";
    ends(&run_in(&folder, &["compare", "p3", "settled"], b""), 0, "6 1\n7 1\n", line);
    assert!(text(&run(&["compare", "--help"], b"").stdout).contains(&format!("\n\n    {line}")));
    ends(
        &run_in(&folder, &["compare", "settled", "p3", "-o", "moves"], b""),
        0,
        "",
        "before 2 after 4 saving -2 moved 2 left 2\n",
    );
    ends(&run_in(&folder, &["compare", "p2", "p2"], b""), 0, "", "before 4 after 4 saving 0 moved 0 left 2\n");
    // The list that `apply` takes leads back.
    assert_eq!(run_in(&folder, &["apply", "settled", "moves"], b"").stdout, p3);
    // Locks: what differs, and what moved all the same.
    let locked = tagged(&[(1, &[5, 2, 1]), (2, &[3, 5, 6]), (2, &[12, 9, 10]), (4, &[15]), (6, &[7]), (5, &[])]);
    let said = format!(
        "{line}locks differ: only standard input locks 7\nlocked in standard input, and turned all the same: 7\n"
    );
    ends(&run_in(&folder, &["compare", "-", "settled"], &locked), 0, "6 1\n7 1\n", &said);
}

/// What no moves explain.
#[test]
fn comparing_what_differs() {
    let folder = folder("comparing_what_differs");
    fs::write(folder.join("p2"), p2()).unwrap();
    let nodes = |second: &[u32], output: u32| {
        tagged(&[(1, &[5, 2, 1]), (2, &[3, 5, 6]), (2, second), (4, &[output]), (5, &[])])
    };
    let help = text(&run(&["compare", "--help"], b"").stdout).to_string();
    for (after, why) in [
        (nodes(&[13, 10, 11], 14), "other wiring: word 2 of node 7 names index 4 before and 5 after"),
        (nodes(&[13, 8, 11], 15), "no moves: output 1 is plain before and complemented after"),
        (nodes(&[13, 8, 11], 12), "other wiring: output 1 names index 7 before and 6 after"),
        (nodes(&[12, 8, 11], 14), "no moves: word 2 of node 7 is plain before and plain after"),
        (p1(), "other wiring: 5 inputs, 2 nodes, 1 output before and 3 inputs, 1 node, 1 output after"),
    ] {
        ends(&run_in(&folder, &["compare", "p2", "-"], &after), 1, &format!("{why}\n"), "");
        if why.contains("word 2 of node 7 names") || why.contains("output 1 is plain before and c") {
            assert!(help.contains(&format!("\n    {why}\n")), "{why}");
        }
    }
    let usage = |why: &str| format!("panjerov: {why}; `panjerov compare --help` tells what compare takes\n");
    stops(&run_in(&folder, &["compare", "p2"], b""), 2, &usage("compare wants BEFORE and AFTER"));
    stops(
        &run_in(&folder, &["compare", "-", "-"], b""),
        2,
        &usage("only one of BEFORE and AFTER can be standard input"),
    );
    let refused = "panjerov: standard input: refused 1: the bytes end within a field; it is empty\n";
    stops(&run_in(&folder, &["compare", "p2", "-"], b""), 2, refused);
    stops(&run_in(&folder, &["compare", "-", "p2"], b""), 2, refused);
}
