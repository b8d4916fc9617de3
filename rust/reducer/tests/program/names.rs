//! Names of inputs and outputs, and the forms in which graphs are given.

use super::*;

/// The majority with names, the last one being that of no input.
const SYMBOLS: &str = "i0 x[0]\ni2 cin\no0 sum[2]\n";

fn named() -> String {
    format!("{MAJORITY}{SYMBOLS}c\nmade by hand\n")
}

/// A folder with the majority as AIGER text and imported.
fn imported(test: &str) -> PathBuf {
    let folder = folder(test);
    fs::write(folder.join("in.aag"), named()).unwrap();
    gives(&run_in(&folder, &["import", "in.aag", "-o", "graph"], b""), b"", "");
    holds(&folder, &["graph", "graph.names", "in.aag"]);
    folder
}

/// What stands in the file of names, without the line that says whose they are.
fn beside(folder: &Path, name: &str) -> String {
    let text = fs::read_to_string(folder.join(format!("{name}.names"))).unwrap();
    let (head, rest) = text.split_once('\n').unwrap();
    assert_eq!(head, "panjerov names 1");
    rest.split_once('\n').unwrap().1.into()
}

#[test]
fn kept_beside_the_file() {
    let folder = imported("kept_beside_the_file");
    assert_eq!(beside(&folder, "graph"), SYMBOLS);
    // The tagged file is what it is without names.
    assert_eq!(fs::read(folder.join("graph")).unwrap(), run(&["import"], MAJORITY.as_bytes()).stdout);
    fs::write(folder.join("moves"), "").unwrap();
    for words in [
        &["settle", "graph"][..],
        &["settle", "--find", "in.aag"],
        &["find", "graph"],
        &["resistive", "graph", "--all"],
        &["lock", "graph", "4"],
        &["unlock", "graph", "all"],
        &["apply", "graph", "moves"],
        &["import", "graph"],
    ] {
        assert_eq!(run_in(&folder, &[words, &["-o", "out"]].concat(), b"").status.code(), Some(0), "{words:?}");
        assert_eq!(beside(&folder, "out"), SYMBOLS, "{words:?}");
        let output = run_in(&folder, &["export", "out"], b"");
        assert!(text(&output.stdout).ends_with(&format!("\n{SYMBOLS}")), "{words:?}");
        fs::remove_file(folder.join("out.names")).unwrap();
    }
    let bare = run_in(&folder, &["export", "graph", "--no-symbols"], b"");
    assert!(!text(&bare.stdout).contains("sum"));
    let lost = "names are lost: a tagged file has them in a file beside it, which -o FILE makes\n";
    assert_eq!(said(&run_in(&folder, &["import", "in.aag"], b"")), lost);
    assert_eq!(said(&run_in(&folder, &["import", "in.aag", "--no-symbols"], b"")), "");
}

#[test]
fn of_joined_stages() {
    let folder = imported("of_joined_stages");
    let inverter = "aag 1 1 0 1 0\n2\n3\ni0 in\no0 out\n";
    fs::write(folder.join("inverter.aag"), inverter).unwrap();
    assert_eq!(run_in(&folder, &["join", "graph", "inverter.aag", "-o", "out"], b"").status.code(), Some(0));
    assert_eq!(beside(&folder, "out"), "i0 x[0]\ni2 cin\no0 out\n");
}

/// Names of another graph, or of nothing in it, are told and left out.
#[test]
fn never_of_another_graph() {
    let folder = imported("never_of_another_graph");
    // The same wiring, another function.
    let other = MAJORITY.replace("\n15\n", "\n14\n");
    fs::write(folder.join("graph"), run(&["import"], other.as_bytes()).stdout).unwrap();
    let output = run_in(&folder, &["show", "graph"], b"");
    assert_eq!(said(&output), "graph.names: its names are those of another graph, and are left out\n");
    assert!(!text(&output.stdout).contains("sum"));
    // A graph without names in the place of one with them takes those away.
    assert_eq!(run_in(&folder, &["import", "-o", "graph"], MAJORITY.as_bytes()).status.code(), Some(0));
    holds(&folder, &["graph", "in.aag"]);
    // What is no file of names stays, and is told.
    fs::write(folder.join("graph.names"), "Ann and Bob\n").unwrap();
    assert_eq!(run_in(&folder, &["import", "-o", "graph"], MAJORITY.as_bytes()).status.code(), Some(0));
    assert_eq!(fs::read(folder.join("graph.names")).unwrap(), b"Ann and Bob\n");
    let output = run_in(&folder, &["show", "graph"], b"");
    assert_eq!(said(&output), "graph.names: it does not begin as a file of names does, and is left out\n");
    let misfit = format!("{MAJORITY}i3 y\ni0 x\nl0 q\n");
    let output = run(&["show"], misfit.as_bytes());
    let due = "standard input: the name i3 y is left out: there are 3 inputs\n\
               standard input: the name l0 q is left out: only inputs and outputs have names here\n";
    assert_eq!(said(&output), due);
    assert!(text(&output.stdout).ends_with("\nlocked nodes 0\ninput 1 x\n"));
}

#[test]
fn shown() {
    let folder = imported("shown");
    for file in ["graph", "in.aag"] {
        let output = run_in(&folder, &["show", file], b"");
        assert!(text(&output.stdout).ends_with("\nlocked nodes 0\ninput 1 x[0]\ninput 3 cin\noutput 1 sum[2]\n"));
    }
    let output = run_in(&folder, &["preview", "graph", "7"], b"");
    assert!(text(&output.stdout).ends_with("\nreads input 1 x[0]\nreads input 3 cin\ndrives output 1 sum[2]\n"));
    let output = run_in(&folder, &["preview", "graph", "7", "--moves"], b"");
    assert_eq!(text(&output.stdout).lines().count(), 4);
    let output = run_in(&folder, &["picture", "graph"], b"");
    for label in ["i1 [label=\"input 1 x[0]\"];", "i2 [label=\"input 2\"];", "o1 [label=\"{output 1 sum[2]|<w1> 15}\""]
    {
        assert!(text(&output.stdout).contains(label), "{label}");
    }
    let output = run_in(&folder, &["report", "graph"], b"");
    assert!(text(&output.stdout)
        .contains("<tr><td>input<td>3<td class=\"text\">cin\n<tr><td>output<td>1<td class=\"text\">sum[2]\n"));
    let output = run_in(&folder, &["assign", "graph", "sum[2]=1"], b"");
    assert!(text(&output.stdout).starts_with("assignment 3\n"));
    // What parts cells of a picture does not do so in a name.
    let odd = format!("{MAJORITY}o0 a{{b|c}}<d>\"e\\f\n");
    let label = r#"o1 [label="{output 1 a&#123;b&#124;c&#125;&lt;d&gt;\"e\\f|<w1> 15}""#;
    assert!(text(&run(&["picture"], odd.as_bytes()).stdout).contains(label));
}

/// A class passes over the names beside its files, and keeps them.
#[test]
fn in_a_class() {
    let folder = imported("in_a_class");
    let output = run_in(&folder, &["class", ".", "-o", "out"], b"");
    let rows: Vec<&str> = text(&output.stdout).lines().map(|line| line.split(' ').next().unwrap()).collect();
    assert_eq!(rows, ["file", "graph", "in.aag", "all", "latest", "fell"]);
    assert_eq!(beside(&folder.join("out"), "graph"), SYMBOLS);
    assert!(fs::read_to_string(folder.join("out/in.aag")).unwrap().ends_with(SYMBOLS));
    assert!(said(&output).starts_with("in.aag: as AIGER it has 16 ANDs and "), "{}", said(&output));
    fs::write(folder.join("in.aag"), named().replace('\n', "\r\n")).unwrap();
    let output = run_in(&folder, &["class", "in.aag"], b"");
    assert_eq!(said(&output), "in.aag: its lines end in carriage returns, which are passed over\n");
}

#[test]
fn form_by_the_ending() {
    let folder = imported("form_by_the_ending");
    let settled = run_in(&folder, &["settle", "graph", "--find"], b"").stdout;
    assert_eq!(settled, p1_settled());
    for (name, begin) in [
        ("out.mig", &settled[..]),
        ("out", &settled),
        ("out.names.MIG", &settled),
        ("out.aag", MAJORITY.as_bytes()),
        ("out.aig", b"aig 7 3 0 1 4\n15\n"),
        ("out.v", b"module out (\n"),
        ("out.dot", b"digraph panjerov {\n"),
    ] {
        let output = run_in(&folder, &["settle", "--find", "in.aag", "-o", name], b"");
        assert_eq!(output.status.code(), Some(0), "{name}");
        assert!(fs::read(folder.join(name)).unwrap().starts_with(begin), "{name}");
        let aiger = said(&output).ends_with(&as_aiger(4, 6, 1, 0));
        assert_eq!(aiger, name.contains(".a"), "{name}");
    }
    if Command::new("dot").arg("-V").output().is_ok() {
        for (name, begin) in [("out.svg", &b"<?xml"[..]), ("out.png", b"\x89PNG")] {
            assert_eq!(run_in(&folder, &["settle", "in.aag", "-o", name], b"").status.code(), Some(0), "{name}");
            assert_eq!(run_in(&folder, &["picture", "in.aag", "-o", "drawn.svg"], b"").status.code(), Some(0));
            assert!(fs::read(folder.join(name)).unwrap().starts_with(begin), "{name}");
            assert!(fs::read(folder.join("drawn.svg")).unwrap().starts_with(b"<?xml"));
        }
    }
    // What the ending says gives way to what is asked for.
    assert_eq!(run_in(&folder, &["export", "in.aag", "--to", "tagged", "-o", "x.aag"], b"").status.code(), Some(0));
    assert_eq!(fs::read(folder.join("x.aag")).unwrap(), fs::read(folder.join("graph")).unwrap());
    // Each that is a graph again is the same one.
    for name in ["out.aag", "out.aig"] {
        let again = run_in(&folder, &["find", name, "--to", "tagged"], b"").stdout;
        assert_eq!(again, p1(), "{name}");
    }
}

#[test]
fn binary_files() {
    let folder = folder("binary_files");
    // The half adder of the format's description.
    let adder = b"aig 5 2 0 2 3\n10\n6\n\x02\x02\x03\x02\x01\x02i0 x\ni1 y\no0 s\no1 c\nc\nhalf adder\n";
    fs::write(folder.join("adder.aig"), adder).unwrap();
    let due = "format aig\ninputs 2 nodes 3 outputs 2\nmajorities 3 xors 0\ncomplemented edges 4\n\
               majorities with just one complemented input 0\ndepth 2\nlocked nodes 0\n\
               input 1 x\ninput 2 y\noutput 1 s\noutput 2 c\n";
    gives(&run_in(&folder, &["show", "adder.aig"], b""), due.as_bytes(), "");
    let imported =
        tagged(&[(1, &[2, 3, 2]), (2, &[0, 4, 2]), (2, &[0, 5, 3]), (2, &[0, 9, 7]), (4, &[10]), (4, &[6]), (5, &[])]);
    gives(&run_in(&folder, &["import", "adder.aig", "-o", "graph"], b""), b"", "");
    assert_eq!(fs::read(folder.join("graph")).unwrap(), imported);
    let cut = run_in(&folder, &["import", "-", "-o", "out"], &adder[..23]);
    let why = "refused 10: the header has no \"aag\", or a line lacks its decimal numbers; byte 23, gate 3 of 3: the file ends within it";
    stops(&cut, 1, &format!("panjerov: standard input: {why}\n"));
    holds(&folder, &["adder.aig", "graph", "graph.names"]);
}

/// More ANDs than a graph may have nodes, which others read all the same.
#[test]
fn many_ands() {
    let folder = folder("many_ands");
    let mut large = tagged(&[(1, &[3, 30_000, 1])]);
    (0..30_000).for_each(|_| large.extend(tagged(&[(2, &[2, 4, 6])])));
    large.extend(tagged(&[(4, &[8]), (5, &[])]));
    fs::write(folder.join("large"), large).unwrap();
    // Five a majority, and the output.
    let said = as_aiger(120_000, 150_001, 30_000, 0);
    gives(&run_in(&folder, &["export", "large", "-o", "out.aag"], b""), b"", &said);
    gives(&run_in(&folder, &["export", "large", "-o", "out.aig"], b""), b"", &said);
    let starts = |name: &str, due: &[u8]| assert!(fs::read(folder.join(name)).unwrap().starts_with(due), "{name}");
    starts("out.aag", b"aag 120003 3 0 1 120000\n2\n4\n6\n15\n8 5 7\n");
    starts("out.aig", b"aig 120003 3 0 1 120000\n15\n\x01\x02");
    let over = "panjerov: out.aig: refused 3: there are too many inputs, nodes, outputs or graphs of a class; \
                line 1, the header: it says 120000 gates, and 100000 are the most\n";
    stops(&run_in(&folder, &["show", "out.aig"], b""), 1, over);
}

/// What was put right is told, with the file.
#[test]
fn layouts_told() {
    let text = "aag 3 2 0 1 1 0 0\r\n4\r\n2\r\n6\r\n6 4 3";
    let due = tagged(&[(1, &[2, 1, 1]), (2, &[0, 2, 5]), (4, &[6]), (5, &[])]);
    let said = "standard input: its lines end in carriage returns, which are passed over\n\
                standard input: no newline ends its last line, which is taken all the same\n\
                standard input: its header is one of AIGER 1.9, whose further counts are all 0\n\
                standard input: its numbers have gaps or another order: inputs are numbered in its order, then gates anew\n";
    gives(&run(&["import"], text.as_bytes()), &due, said);
}

/// What is said of reading a second graph is said too.
#[test]
fn of_two_graphs() {
    let folder = imported("of_two_graphs");
    let output = run_in(&folder, &["compare", "graph", "-"], named().replace('\n', "\r\n").as_bytes());
    let due = "standard input: its lines end in carriage returns, which are passed over\nbefore 6 after 6 saving 0 moved 0 left ";
    assert!(said(&output).starts_with(due), "{}", said(&output));
    let output = run_in(&folder, &["picture", "--compare", "graph", "in.aag"], b"");
    assert_eq!(text(&output.stdout).matches("output 1 sum[2]|").count(), 2);
}

/// Damaged files that are refused change nothing; of what is accepted, the file that is given is whole.
#[test]
fn damaged_files() {
    let folder = folder("damaged_files");
    let adder = b"aig 5 2 0 2 3\n10\n6\n\x02\x02\x03\x02\x01\x02";
    let changed = |at: usize, byte: u8| [&adder[..at], &[byte], &adder[at + 1..]].concat();
    let files = (0..adder.len()).flat_map(|at| [adder[..at].to_vec(), changed(at, 0xff), changed(at, b'1')]);
    let mut refused = 0;
    for file in files {
        fs::write(folder.join("in"), &file).unwrap();
        fs::write(folder.join("out"), "old").unwrap();
        let output = run_in(&folder, &["settle", "in", "-o", "out"], b"");
        let given = fs::read(folder.join("out")).unwrap();
        match output.status.code() {
            Some(0) => assert!(reducer::Graph::load(&given).is_ok(), "{}", file.escape_ascii()),
            status => {
                assert_eq!((status, &given[..], &output.stdout[..]), (Some(1), &b"old"[..], &b""[..]));
                assert!(said(&output).starts_with("panjerov: in: refused "), "{}", said(&output));
                refused += 1;
            }
        }
        assert_eq!(fs::read(folder.join("in")).unwrap(), file);
        holds(&folder, &["in", "out"]);
    }
    assert!((60..75).contains(&refused), "{refused}");
}

/// What is no graph says what makes one of it.
#[test]
fn other_files() {
    let wrong = "panjerov: standard input: refused 2: a field has not the tag or the length that is due";
    let yosys = "it looks like Verilog, of which yosys makes AIGER: \
                 yosys -p \"read_verilog FILE.v; synth -auto-top -flatten; aigmap; opt_clean; write_aiger -symbols NEW.aig\"";
    stops(&run(&["show"], b"// an adder\nmodule adder (a);\n"), 1, &format!("{wrong}; {yosys}\n"));
    let abc = "it looks like BLIF, of which berkeley-abc makes AIGER: \
               berkeley-abc -c \"read_blif FILE.blif; strash; write_aiger -s NEW.aig\"";
    stops(&run(&["show"], b"# made by hand\n.model adder\n"), 1, &format!("{wrong}; {abc}\n"));
    let packed = "it is compressed: unpack it by gunzip first";
    stops(&run(&["show"], b"\x1f\x8b\x08\x00"), 1, &format!("{wrong}; {packed}\n"));
}
