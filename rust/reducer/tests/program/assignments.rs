//! Assignments for a wanted output.

use super::*;

/// Ended with a status, with this on standard output and this on standard error.
fn ends(output: &Output, status: i32, given: &str, due: &str) {
    assert_eq!((text(&output.stdout), &said(output)[..]), (given, due));
    assert_eq!(output.status.code(), Some(status));
}

/// The example of the help: a majority.
#[test]
fn assigning() {
    let majority = "assignment 3\ninputs 1=1 2=1 3=0\noutputs 1=1\n";
    ends(&run(&["assign", "-", "1"], &p1_settled()), 0, majority, "");
    ends(&run(&["assign", "-", "1=1"], &p1()), 0, majority, "");
    ends(&run(&["assign", "-", "1"], MAJORITY.as_bytes()), 0, majority, "");
    let help = text(&run(&["assign", "--help"], b"").stdout).to_string();
    let lines: String = majority.split_inclusive('\n').map(|line| format!("    {line}")).collect();
    assert!(help.contains(&format!("\n\n{lines}")) && help.contains("\n\n    found 4 of 8\n"));
    ends(&run(&["assign", "-", "0"], &p1()), 0, "assignment 0\ninputs 1=0 2=0 3=0\noutputs 1=0\n", "");
    ends(&run(&["assign", "-", "x"], &p1()), 0, "assignment 0\ninputs 1=0 2=0 3=0\noutputs 1=0\n", "");
}

#[test]
fn assigning_all() {
    ends(&run(&["assign", "-", "1", "--all"], &p1()), 0, "3 110\n5 101\n6 011\n7 111\n", "found 4 of 8\n");
    let folder = folder("assigning_all");
    fs::write(folder.join("in"), p1()).unwrap();
    ends(&run_in(&folder, &["assign", "in", "--all", "0", "-o", "out"], b""), 0, "", "found 4 of 8\n");
    assert_eq!(fs::read(folder.join("out")).unwrap(), b"0 000\n1 100\n2 010\n4 001\n");
    // More than 64 of them, over words of 64.
    let seven = tagged(&[(1, &[7, 0, 2]), (4, &[2]), (4, &[15]), (5, &[])]);
    let output = run(&["assign", "-", "10", "--all"], &seven);
    let due: String = (64..128)
        .filter(|n| n % 2 == 1)
        .map(|n: u32| format!("{n} {}\n", (0..7).map(|k| (n >> k & 1).to_string()).collect::<String>()))
        .collect();
    ends(&output, 0, &due, "found 32 of 128\n");
}

#[test]
fn no_assignment() {
    let both = tagged(&[(1, &[1, 0, 2]), (4, &[2]), (4, &[3]), (5, &[])]);
    ends(&run(&["assign", "-", "11"], &both), 1, "none\n", "");
    ends(&run(&["assign", "-", "2=1,1=1", "--all"], &both), 1, "none\n", "");
    ends(&run(&["assign", "-", "1=1", "2=0"], &both), 0, "assignment 1\ninputs 1=1\noutputs 1=1 2=0\n", "");
}

#[test]
fn assigning_refused() {
    let refused = |words: &[&str], file: &[u8], why: &str| {
        let told = format!("panjerov: standard input: {why}\n");
        stops(&run(&[&["assign", "-"], words].concat(), file), 2, &told);
    };
    refused(&["11"], &p1(), "PATTERN wants 2 outputs, and there are 1");
    refused(&["2=1"], &p1(), "there is no output 2: outputs are 1 to 1");
    refused(&["sum=1"], &p1(), "outputs are wanted by name or number, such as 3=1, and no output has the name sum");
    let many = tagged(&[(1, &[17, 0, 1]), (4, &[2]), (5, &[])]);
    refused(&["1"], &many, "refused 17: there are more than 16 inputs: 17 are here, and a search is made up to 16");
    refused(&["1"], b"", "refused 1: the bytes end within a field; it is empty");
    let usage = "panjerov: PATTERN is missing after FILE: 0, 1 or x for each output, or parts such as 3=1; \
                 `panjerov assign --help` tells what assign takes\n";
    stops(&run(&["assign", "a"], b""), 2, usage);
}

/// The 4-bit multiplier: every product that it has, and no other. Settling changes no answer.
#[test]
fn factors() {
    let folder = folder("factors");
    let file = fs::read(format!("{}/../../examples/multiplier4.mig", env!("CARGO_MANIFEST_DIR"))).unwrap();
    fs::write(folder.join("in"), file).unwrap();
    assert_eq!(run_in(&folder, &["settle", "in", "-o", "settled"], b"").status.code(), Some(0));
    for product in [0u32, 1, 15, 30, 49, 77, 143, 225, 226, 255] {
        let pattern: String = (0..8).map(|bit| if product >> bit & 1 == 1 { '1' } else { '0' }).collect();
        let [plain, settled] = ["in", "settled"].map(|name| run_in(&folder, &["assign", name, &pattern], b""));
        assert_eq!((&plain.stdout, plain.status), (&settled.stdout, settled.status));
        let least = (0..256u32).find(|n| (n % 16) * (n / 16) == product);
        let told = text(&plain.stdout).lines().next().unwrap().to_string();
        assert_eq!(told, least.map_or("none".into(), |n| format!("assignment {n}")), "{product}");
    }
}
