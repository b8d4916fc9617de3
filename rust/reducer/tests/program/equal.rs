//! Graphs of any wiring that have the same outputs, or not.

use super::*;

/// Ended with a status, with this on standard output and this on standard error.
fn ends(output: &Output, status: i32, given: &str, due: &str) {
    assert_eq!((text(&output.stdout), &said(output)[..]), (given, due));
    assert_eq!(output.status.code(), Some(status));
}

/// A graph without nodes: inputs, and the literals of its outputs.
fn wires(inputs: u32, outputs: &[u32]) -> Vec<u8> {
    let mut fields: Vec<(u8, Vec<u32>)> = vec![(1, vec![inputs, 0, outputs.len() as u32])];
    fields.extend(outputs.iter().map(|&output| (4, vec![output])));
    fields.push((5, vec![]));
    tagged(&fields.iter().map(|(tag, words)| (*tag, &words[..])).collect::<Vec<_>>())
}

fn with(test: &str, files: &[(&str, Vec<u8>)]) -> PathBuf {
    let folder = folder(test);
    files.iter().for_each(|(name, bytes)| fs::write(folder.join(name), bytes).unwrap());
    folder
}

/// A majority is the four ANDs that are made of it, and not another majority; the least assignment tells them apart.
#[test]
fn all_assignments() {
    let other = tagged(&[(1, &[3, 1, 1]), (2, &[2, 4, 7]), (4, &[8]), (5, &[])]);
    let folder = with("all_assignments", &[("p1", p1()), ("text", MAJORITY.into()), ("other", other)]);
    let equal = "equal: every assignment was tried, 8 in all\n";
    ends(&run_in(&folder, &["equal", "p1", "text"], b""), 0, equal, "");
    ends(&run_in(&folder, &["equal", "-", "text"], &p1_settled()), 0, equal, "");
    // 2 of 3 against 2 of the first, the second and the third's complement: apart first at 1, where input 1 alone is 1.
    let different = "different\ninputs 1=1 2=0 3=0\noutput 1: 0 in p1 and 1 in other\n";
    ends(&run_in(&folder, &["equal", "p1", "other"], b""), 1, different, "");
    let help = text(&run(&["equal", "--help"], b"").stdout).to_string();
    assert!(help.contains(&format!("    {equal}")) && help.contains("    no difference in 65536 assignments\n"));
}

/// No input and one; over words of 64; and the last assignment alone.
#[test]
fn few_and_many_inputs() {
    let and = |last: u32| {
        let mut fields: Vec<(u8, Vec<u32>)> = vec![(1, vec![8, 7, 1])];
        fields.push((2, vec![0, 2, 4]));
        fields.extend((0..6).map(|k| (2, vec![0, 18 + 2 * k, 6 + 2 * k])));
        fields.extend([(4, vec![last]), (5, vec![])]);
        tagged(&fields.iter().map(|(tag, words)| (*tag, &words[..])).collect::<Vec<_>>())
    };
    let files = [("zero", wires(0, &[0])), ("one", wires(0, &[1])), ("all", and(30)), ("none", wires(8, &[0]))];
    let folder = with("few_and_many_inputs", &files);
    ends(&run_in(&folder, &["equal", "zero", "zero"], b""), 0, "equal: every assignment was tried, 1 in all\n", "");
    let different = "different\ninputs\noutput 1: 0 in zero and 1 in one\n";
    ends(&run_in(&folder, &["equal", "zero", "one"], b""), 1, different, "");
    let ones = "different\ninputs 1=1 2=1 3=1 4=1 5=1 6=1 7=1 8=1\noutput 1: 1 in all and 0 in none\n";
    ends(&run_in(&folder, &["equal", "all", "none"], b""), 1, ones, "");
}

/// Above 16 inputs it says how many were tried, and no more.
#[test]
fn random_assignments() {
    let [first, second] = [wires(17, &[2, 34]), wires(17, &[2, 35])];
    let folder = with("random_assignments", &[("first", first), ("second", second)]);
    ends(&run_in(&folder, &["equal", "first", "first"], b""), 0, "no difference in 65536 assignments\n", "");
    let output = run_in(&folder, &["equal", "first", "second"], b"");
    let told: Vec<&str> = text(&output.stdout).lines().collect();
    assert_eq!((output.status.code(), told[0], told.len()), (Some(1), "different", 3));
    let last = told[1].ends_with("17=1");
    let [one, other] = [u8::from(last), u8::from(!last)];
    assert_eq!(told[2], format!("output 2: {one} in first and {other} in second"));
    assert_eq!(output.stdout, run_in(&folder, &["equal", "first", "second"], b"").stdout);
}

#[test]
fn other_sizes_and_bad_files() {
    let folder = with("other_sizes", &[("p1", p1()), ("p2", p2()), ("bad", b"no graph".to_vec())]);
    let sizes = "different: 3 inputs and 1 output in p1, 5 inputs and 1 output in p2\n";
    ends(&run_in(&folder, &["equal", "p1", "p2"], b""), 1, sizes, "");
    assert_eq!(run_in(&folder, &["equal", "p1", "bad"], b"").status.code(), Some(2));
    assert_eq!(run_in(&folder, &["equal", "p1", "none"], b"").status.code(), Some(2));
    let wants = "panjerov: equal wants FIRST and SECOND; `panjerov equal --help` tells what equal takes\n";
    stops(&run(&["equal", "p1"], b""), 2, wants);
}

/// Names are told where there are some; where those of both differ, a line says that they do not count.
#[test]
fn names_beside_numbers() {
    let named = |symbols: &str, gate: &str| format!("aag 3 2 0 1 1\n2\n4\n{gate}\n6 4 2\n{symbols}").into_bytes();
    let first = named("i0 a\ni1 b\no0 both\n", "6");
    let second = named("i0 b\ni1 a\no0 both\n", "7");
    let folder = with("names_beside_numbers", &[("first", first), ("second", second)]);
    let different = "different\ninputs a=0 b=0\noutput 1 both: 0 in first and 1 in second\n";
    let line = "inputs and outputs are taken in order, not by name: input 1 is a in first and b in second\n";
    ends(&run_in(&folder, &["equal", "first", "second"], b""), 1, different, line);
}

/// A stand-in for abc that prints this.
fn with_abc(folder: &Path, printed: &str, words: &[&str]) -> Output {
    let program = folder.join("berkeley-abc");
    fs::write(&program, format!("#!/bin/sh\ntest -s first.aig && test -s second.aig && echo '{printed}'\n")).unwrap();
    fs::set_permissions(&program, Permissions::from_mode(0o755)).unwrap();
    let path = format!("{}:{}", folder.display(), std::env::var("PATH").unwrap());
    Command::new(PROGRAM).args(words).current_dir(folder).env("PATH", path).output().unwrap()
}

#[test]
fn what_abc_says() {
    let [first, second] = [wires(20, &[0]), wires(20, &[0])];
    let folder = with("what_abc_says", &[("first", first), ("second", second), ("odd", wires(20, &[1]))]);
    let words = &["equal", "--abc", "first", "second"];
    let alike = "no difference in 65536 assignments\nabc: ";
    ends(&with_abc(&folder, "Networks are equivalent.", words), 0, &format!("{alike}equal\n"), "");
    ends(&with_abc(&folder, "Networks are UNDECIDED.", words), 0, &format!("{alike}undecided\n"), "");
    let json = "{\"equal\": null, \"assignments\": 65536, \"all\": false, \"abc\": \"equal\"}\n";
    let output = with_abc(&folder, "Networks are equivalent.", &["equal", "--abc", "first", "second", "--json"]);
    ends(&output, 0, json, "");
    let wrong = with_abc(&folder, "Networks are NOT EQUIVALENT.\nInput pattern:  pi3=1", words);
    stops(&wrong, 2, "panjerov: abc tells an assignment under which no output differs\n");
    let output = with_abc(&folder, "Networks are NOT EQUIVALENT.", &["equal", "--abc", "first", "odd"]);
    assert_eq!(output.status.code(), Some(1));
    assert!(text(&output.stdout).ends_with("output 1: 0 in first and 1 in odd\nabc: different\n"));
}
