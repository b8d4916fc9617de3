//! What pictures say: boxes, edges, dots and colours.

use super::*;
use reducer::Graph;

/// P3 of document 01.
pub fn p3() -> Vec<u8> {
    tagged(&[(1, &[5, 2, 1]), (2, &[3, 5, 6]), (2, &[12, 9, 10]), (4, &[15]), (5, &[])])
}

/// What stands in a DOT text below its defaults, from bottom to top.
pub fn drawn(output: &Output) -> String {
    let lines: Vec<&str> = text(&output.stdout).lines().collect();
    let begin = [
        "digraph panjerov {",
        "    graph [rankdir=BT, ",
        "    graph [",
        "    node [shape=box, ",
        "    node [",
        "    edge [",
    ];
    assert!(begin.iter().zip(&lines).all(|(begin, line)| line.starts_with(begin)), "{lines:?}");
    assert!(lines[5].contains("arrowhead=none"));
    lines[begin.len()..].iter().flat_map(|line| [line, "\n"]).collect()
}

/// Accepted, with these lines above the picture, this picture, and this on standard error.
fn draws(output: &Output, above: &[&str], due: &str, line: &str) {
    assert_eq!(said(output), line);
    let label = [&["standard input"], above].concat().join("\\n");
    assert_eq!(drawn(output), format!("    label=\"{label}\";\n{due}"));
    assert_eq!(output.status.code(), Some(0));
}

#[test]
fn worked_graphs() {
    let due = r##"    {
        rank=source;
        i1 [label="input 1"];
        i2 [label="input 2"];
        i3 [label="input 3"];
    }
    n4 [label="{majority 4|{<w1> 3|<w2> 5|<w3> 7}}", shape=record, fillcolor="#dcebf7"];
    i1 -> n4:w1:s [arrowhead=dot];
    i2 -> n4:w2:s [arrowhead=dot];
    i3 -> n4:w3:s [arrowhead=dot];
    {
        rank=sink;
        o1 [label="{output 1|<w1> 9}", shape=record];
    }
    n4 -> o1:w1:s [arrowhead=dot];
}
"##;
    let above = ["3 inputs, 1 node, 1 output", "4 complemented edges, each with a dot"];
    draws(&run(&["picture"], &p1()), &above, due, "");
    let due = r##"    {
        rank=source;
        i1 [label="input 1"];
        i2 [label="input 2"];
        i3 [label="input 3"];
        i4 [label="input 4"];
        i5 [label="input 5"];
    }
    n6 [label="{majority 6|{<w1> 3|<w2> 5|<w3> 6}}", shape=record, fillcolor="#dcebf7"];
    i1 -> n6:w1:s [arrowhead=dot];
    i2 -> n6:w2:s [arrowhead=dot];
    i3 -> n6:w3:s;
    n7 [label="{majority 7|{<w1> 12|<w2> 9|<w3> 10}}", shape=record, fillcolor="#dcebf7"];
    n6 -> n7:w1:s;
    i4 -> n7:w2:s [arrowhead=dot];
    i5 -> n7:w3:s;
    {
        rank=sink;
        o1 [label="{output 1|<w1> 15}", shape=record];
    }
    n7 -> o1:w1:s [arrowhead=dot];
}
"##;
    let above = ["5 inputs, 2 nodes, 1 output", "4 complemented edges, each with a dot"];
    draws(&run(&["picture"], &p3()), &above, due, "");
}

/// An XOR, the constant at each of its three readers, a node that is named twice and an input that nothing reads.
#[test]
fn xors_and_constants() {
    let graph =
        tagged(&[(1, &[3, 3, 2]), (3, &[2, 5]), (2, &[1, 8, 0]), (3, &[10, 11]), (4, &[12]), (4, &[1]), (5, &[])]);
    let due = r##"    {
        rank=source;
        i1 [label="input 1"];
        i2 [label="input 2"];
        i3 [label="input 3"];
    }
    n4 [label="{XOR 4|{<w1> 2|<w2> 5}}", shape=Mrecord, fillcolor="#fbdf9d"];
    i1 -> n4:w1:s;
    i2 -> n4:w2:s [arrowhead=dot];
    n5 [label="{majority 5|{<w1> 1|<w2> 8|<w3> 0}}", shape=record, fillcolor="#dcebf7"];
    n5_c1 [label="0", shape=circle, width=0.2, fixedsize=true, fontsize=9];
    n5_c1 -> n5:w1:s [weight=2, arrowhead=dot];
    n4 -> n5:w2:s;
    n5_c3 [label="0", shape=circle, width=0.2, fixedsize=true, fontsize=9];
    n5_c3 -> n5:w3:s [weight=2];
    n6 [label="{XOR 6|{<w1> 10|<w2> 11}}", shape=Mrecord, fillcolor="#fbdf9d"];
    n5 -> n6:w1:s;
    n5 -> n6:w2:s [arrowhead=dot];
    {
        rank=sink;
        o1 [label="{output 1|<w1> 12}", shape=record];
        o2 [label="{output 2|<w1> 1}", shape=record];
    }
    n6 -> o1:w1:s;
    o2_c1 [label="0", shape=circle, width=0.2, fixedsize=true, fontsize=9];
    o2_c1 -> o2:w1:s [weight=2, arrowhead=dot];
}
"##;
    let above = ["3 inputs, 3 nodes, 2 outputs", "4 complemented edges, each with a dot"];
    draws(&run(&["picture"], &graph), &above, due, "");
    let one = run(&["picture"], b"aag 1 1 0 1 0\n2\n3\n");
    assert!(text(&one.stdout).contains("\\n1 complemented edge, with a dot\";"));
    let above = ["0 inputs, 0 nodes, 0 outputs", "0 complemented edges, each with a dot"];
    draws(&run(&["picture"], &tagged(&[(1, &[0, 0, 0]), (5, &[])])), &above, "}\n", "");
}

/// Each edge of a DOT text: where it comes from, which box and word it ends at, and its looks.
pub fn edges_of(dot: &str) -> Vec<(&str, &str, &str)> {
    let parts = |line| {
        let (from, rest) = str::split_once(line, " -> ")?;
        let (to, looks) = rest.split_once(":s")?;
        Some((from.trim_start(), to, looks))
    };
    dot.lines().filter_map(parts).collect()
}

/// The edges that a graph has, as its tables say, with whether they have a dot; of the constant none is told.
pub fn edges_due(graph: &Graph, before: &str) -> Vec<(String, String, bool)> {
    let inputs = graph.size.inputs;
    let due = |literal: u32, to: String| {
        let kind = if literal / 2 <= inputs { "i" } else { "n" };
        (format!("{before}{kind}{}", literal / 2), format!("{before}{to}"), literal % 2 == 1)
    };
    let (nodes, outputs) = (graph.node_literals().unwrap(), graph.output_literals().unwrap());
    let nodes = nodes.into_iter().enumerate().filter(|&(_, word)| word != reducer::MARK);
    let nodes = nodes.map(|(at, word)| due(word, format!("n{}:w{}", inputs + 1 + at as u32 / 3, 1 + at % 3)));
    let outputs = outputs.into_iter().enumerate().map(|(at, word)| due(word, format!("o{}:w1", at + 1)));
    let named = |edge: &(String, String, bool)| edge.0 != format!("{before}i0");
    nodes.chain(outputs).filter(named).collect()
}

#[test]
fn an_adder_of_8_bits() {
    let given = include_bytes!("../../../../examples/adder8.mig");
    let graph = Graph::load(given).unwrap();
    let output = run(&["picture"], given);
    let dot = text(&output.stdout);
    let told =
        edges_of(dot).into_iter().map(|(from, to, looks)| (from.into(), to.into(), looks.contains("arrowhead=dot")));
    assert_eq!(told.collect::<Vec<(String, String, bool)>>(), edges_due(&graph, ""));
    // 24 nodes of three words and 9 outputs; two complemented edges a full adder.
    assert_eq!((edges_of(dot).len(), dot.matches("arrowhead=dot").count()), (81, 16));
    assert_eq!((dot.matches("[label=\"input ").count(), dot.matches("[label=\"{majority ").count()), (17, 24));
    assert!(dot.contains("\\n17 inputs, 24 nodes, 9 outputs\\n16 complemented edges, each with a dot\""));
}

#[test]
fn a_part() {
    let due = r##"    {
        rank=source;
        i1 [label="input 1"];
        i2 [label="input 2"];
    }
    n4 [label="majority 4", style=dashed];
    n5 [label="{XOR 5|{<w1> 3|<w2> 5}}", shape=Mrecord, fillcolor="#fbdf9d"];
    i1 -> n5:w1:s [arrowhead=dot];
    i2 -> n5:w2:s [arrowhead=dot];
    n6 [label="{majority 6|{<w1> 10|<w2> 8|<w3> 4}}", shape=record, fillcolor="#dcebf7"];
    n5 -> n6:w1:s;
    n4 -> n6:w2:s;
    i2 -> n6:w3:s;
}
"##;
    let line = "drawn: the tree of root 6, 2 nodes; a dashed box is a node whose words are not drawn\n";
    let above = ["the tree of root 6, 2 nodes", "2 complemented edges of the whole graph's 6, each with a dot"];
    draws(&run(&["picture", "-", "--root", "6"], &two_trees()), &above, due, line);
    let due = r##"    {
        rank=source;
        i1 [label="input 1"];
        i2 [label="input 2"];
        i3 [label="input 3"];
    }
    n4 [label="{majority 4|{<w1> 3|<w2> 5|<w3> 7}}", shape=record, fillcolor="#dcebf7"];
    i1 -> n4:w1:s [arrowhead=dot];
    i2 -> n4:w2:s [arrowhead=dot];
    i3 -> n4:w3:s [arrowhead=dot];
    {
        rank=sink;
        o1 [label="{output 1|<w1> 9}", shape=record];
    }
    n4 -> o1:w1:s [arrowhead=dot];
}
"##;
    let line = "drawn: output 1 and 1 node that it rests on\n";
    let above =
        ["output 1 and 1 node that it rests on", "4 complemented edges of the whole graph's 6, each with a dot"];
    draws(&run(&["picture", "--output", "1"], &two_trees()), &above, due, line);
    let refused = |words: &[&str], why: &str| {
        stops(&run(&[&["picture"], words].concat(), &two_trees()), 1, &format!("panjerov: standard input: {why}\n"));
    };
    let no_such = "refused 7: there is no such node, root or word";
    refused(&["--root", "5"], &format!("{no_such}; 5 is no root: it is in the tree of root 6"));
    refused(&["--root", "9"], &format!("{no_such}; 9 is no root: nodes are 4 to 6"));
    refused(&["--output", "3"], "there is no output 3: outputs are 1 to 2");
    refused(&["--output", "0"], "there is no output 0: outputs are 1 to 2");
    let told = "panjerov: --output wants which output is drawn (-o names a file), a number below 2 to the 32nd, and not a.svg; \
                `panjerov picture --help` tells what picture takes\n";
    stops(&run(&["picture", "--output", "a.svg"], &p1()), 2, told);
}

/// A chain of this many ANDs, each with an input of its own.
pub fn chain(gates: u32, inputs: u32) -> String {
    let mut text = format!("aag {} {inputs} 0 1 {gates}\n", inputs + gates);
    (1..=inputs).for_each(|input| text += &format!("{}\n", 2 * input));
    text += &format!("{}\n", 2 * (inputs + gates) + 1);
    (0..gates).for_each(|at| {
        let gate = inputs + 1 + at;
        let below = if at == 0 { 2 } else { 2 * gate - 1 };
        text += &format!("{} {below} {}\n", 2 * gate, 2 * (1 + at % inputs));
    });
    text
}

/// Deep graphs have no rows of inputs and outputs: edges along all of it would be neither quick to draw nor good to read.
#[test]
fn deep_graphs() {
    let shallow = run(&["picture"], chain(60, 61).as_bytes());
    assert!(text(&shallow.stdout).contains("rank=source") && text(&shallow.stdout).contains("rank=sink"));
    assert!(!text(&shallow.stdout).contains("since the graph is deep"));
    let deep = run(&["picture"], chain(200, 201).as_bytes());
    assert!(!text(&deep.stdout).contains("rank="));
    assert!(text(&deep.stdout)
        .contains("each with a dot\\ninputs and outputs stand near their nodes, since the graph is deep\""));
}

#[test]
fn graphs_at_the_limits() {
    let start = Instant::now();
    let most = chain(100_000, 4_096);
    let told = "panjerov: standard input: 4096 inputs, 100000 nodes, 1 output are too many for one picture, which takes 300 \
                nodes, and 600 inputs, nodes and outputs together; --output K draws what output K rests on, K from 1 to 1; \
                --root R draws a tree, and `panjerov preview` tells the roots\n";
    stops(&run(&["picture"], most.as_bytes()), 1, told);
    let part = run(&["picture", "--output", "1"], most.as_bytes());
    let line = "drawn: output 1 and the 300 nearest of 100000 nodes that it rests on; a dashed box is a node whose words are not \
                drawn\n";
    assert_eq!(said(&part), line);
    let dot = text(&part.stdout);
    // The uppermost 300, with the one below them in a dashed box.
    assert_eq!(dot.matches("[label=\"{majority ").count(), 300);
    assert!(
        dot.contains("    n103797 [label=\"{majority 103797|")
            && dot.contains("    n103796 [label=\"majority 103796\", style=dashed];")
    );
    // One a node that reads another, and the output's.
    assert!(dot.contains("\\n301 complemented edges of the whole graph's 100000, each with a dot"));
    assert!(start.elapsed() < Duration::from_secs(5));
}

/// A name may have what DOT would read otherwise.
#[test]
fn names_in_pictures() {
    let folder = folder("names_in_pictures");
    let name = "a\"b\\n&lt;\n\u{e9}";
    fs::write(folder.join(name), p1()).unwrap();
    let output = run_in(&folder, &["picture", &format!("./{name}"), "-o", "dot"], b"");
    gives(&output, b"", "");
    let dot = fs::read_to_string(folder.join("dot")).unwrap();
    assert!(dot.contains("    label=\"a\\\"b\\\\n&amp;lt; \u{e9}\\n3 inputs, "), "{dot}");
}

/// A folder with a program `dot` that is this script, or with none.
pub fn with_dot(test: &str, script: Option<&str>) -> PathBuf {
    let folder = folder(test);
    fs::create_dir(folder.join("bin")).unwrap();
    if let Some(script) = script {
        fs::write(folder.join("bin/dot"), format!("#!/bin/sh\n{script}\n")).unwrap();
        fs::set_permissions(folder.join("bin/dot"), Permissions::from_mode(0o755)).unwrap();
    }
    fs::write(folder.join("in"), p1()).unwrap();
    fs::write(folder.join("out"), "old").unwrap();
    folder
}

/// The program with no other program `dot` than the folder's.
pub fn run_with(folder: &Path, words: &[&str]) -> Output {
    let path = format!("{}:/usr/bin:/bin", folder.join("bin").display());
    let path = if folder.join("bin/dot").exists() { path } else { folder.join("bin").display().to_string() };
    Command::new(PROGRAM).args(words).current_dir(folder).env("PATH", path).stdin(Stdio::null()).output().unwrap()
}

#[test]
fn through_graphviz() {
    let folder = with_dot("through_graphviz", Some("echo \"$@\"; cat"));
    let dot = run_with(&folder, &["picture", "in"]).stdout;
    for (option, words) in [("--svg", "-Tsvg\n"), ("--png", "-Tpng -Gsize=50,50\n")] {
        let due = [words.as_bytes(), &dot].concat();
        gives(&run_with(&folder, &["picture", "in", option]), &due, "");
        gives(&run_with(&folder, &["picture", option, "in", "-o", "out"]), b"", "");
        assert_eq!(fs::read(folder.join("out")).unwrap(), due);
    }
    holds(&folder, &["bin", "in", "out"]);
}

#[test]
fn without_graphviz() {
    let missing =
        "panjerov: Graphviz is not there: no program dot was found; it comes with the package graphviz; without \
                   --svg or --png a picture is given as DOT text\n";
    let failed = "panjerov: Graphviz made no picture (exit status: 3): no such format\n";
    let empty = "panjerov: Graphviz made no picture (exit status: 0): \n";
    for (at, (script, due)) in [
        (None, missing),
        (Some("echo half of it; echo no such format >&2; exit 3"), failed),
        (Some("exec cat >/dev/null"), empty),
    ]
    .into_iter()
    .enumerate()
    {
        let folder = with_dot(&format!("without_graphviz_{at}"), script);
        stops(&run_with(&folder, &["picture", "in", "--svg"]), 1, due);
        stops(&run_with(&folder, &["picture", "in", "--png", "-o", "out"]), 1, due);
        assert_eq!(fs::read(folder.join("out")).unwrap(), b"old");
        holds(&folder, &["bin", "in", "out"]);
        assert_eq!(run_with(&folder, &["picture", "in"]).status.code(), Some(0));
    }
}

/// It is stopped where it does not end, whether it reads or not, and where another program keeps its output open.
#[test]
fn a_graphviz_that_hangs() {
    let slow =
        "panjerov: Graphviz had not finished after 4 seconds and was stopped; --output K or --root R draws a part\n";
    let scripts = ["exec sleep 20", "cat >/dev/null; exec sleep 20", "sleep 20 & exit 0"];
    let waiting = scripts.map(|script| {
        std::thread::spawn(move || {
            let folder = with_dot(&format!("a_graphviz_that_hangs_{}", script.len()), Some(script));
            let start = Instant::now();
            stops(&run_with(&folder, &["picture", "in", "--svg", "-o", "out"]), 1, slow);
            assert!(start.elapsed() < Duration::from_secs(15));
            assert_eq!(fs::read(folder.join("out")).unwrap(), b"old");
            holds(&folder, &["bin", "in", "out"]);
        })
    });
    waiting.into_iter().for_each(|thread| thread.join().unwrap());
}

/// Whether Graphviz is there; where it is not, what it would draw is passed over.
pub fn has_graphviz() -> bool {
    let there = Command::new("dot").arg("-V").output().is_ok();
    if !there {
        eprintln!("passed over: Graphviz is not there");
    }
    there
}

/// What stands between two texts.
fn between<'a>(text: &'a str, from: &str, to: &str) -> &'a str {
    text.split_once(from).and_then(|(_, rest)| rest.split_once(to)).unwrap().0
}

/// A box or an edge of an SVG that Graphviz wrote.
pub struct Group<'a> {
    pub class: &'a str,
    /// A box's name in the DOT text; an edge's two, without ports, and an arrow between.
    pub name: String,
    pub body: &'a str,
}

pub fn groups_of(svg: &str) -> Vec<Group<'_>> {
    let group = |piece| {
        let body = str::split_once(piece, "</g>").map_or(piece, |(body, _)| body);
        let title = between(body, "<title>", "</title>").replace("&#45;", "-").replace("&gt;", ">");
        let ends: Vec<&str> = title.split("->").map(|end| end.split(':').next().unwrap()).collect();
        Group { class: between(body, "class=\"", "\""), name: ends.join("->"), body }
    };
    svg.split("<g id=\"").skip(1).map(group).collect()
}

/// How far down the first text of a box stands.
fn height(groups: &[Group], name: &str) -> f64 {
    let found = groups.iter().find(|group| group.class == "node" && group.name == name).unwrap();
    between(between(found.body, "<text ", ">"), " y=\"", "\"").parse().unwrap()
}

#[test]
fn an_svg_of_graphviz() {
    if !has_graphviz() {
        return;
    }
    let output = run(&["picture", "--svg"], &p3());
    assert_eq!((said(&output).as_str(), output.status.code()), ("", Some(0)));
    let groups = groups_of(text(&output.stdout));
    let edges = groups.iter().filter(|group| group.class == "edge");
    let mut edges: Vec<(&str, bool)> = edges.map(|edge| (&edge.name[..], edge.body.contains("<ellipse"))).collect();
    edges.sort();
    let due = [
        ("i1->n6", true),
        ("i2->n6", true),
        ("i3->n6", false),
        ("i4->n7", true),
        ("i5->n7", false),
        ("n6->n7", false),
        ("n7->o1", true),
    ];
    assert_eq!(edges, due);
    let inputs = [1, 2, 3, 4, 5].map(|input| height(&groups, &format!("i{input}")));
    assert!(inputs.iter().all(|at| *at == inputs[0]), "{inputs:?}");
    let heights = [inputs[0], height(&groups, "n6"), height(&groups, "n7"), height(&groups, "o1")];
    assert!(heights.windows(2).all(|two| two[0] > two[1] + 10.0), "{heights:?}");
    let png = run(&["picture", "--png"], &p3());
    assert_eq!((png.status.code(), png.stdout.get(..8)), (Some(0), Some(&b"\x89PNG\r\n\x1a\n"[..])));
}

const P3_COMPARED: &str = r##"    label="6 turned edges, thick and orange";
    packmode=array_u2;
    subgraph cluster_before {
        color=gray; labelloc=b;
        label="before: p3\n5 inputs, 2 nodes, 1 output\n4 complemented edges, each with a dot";
        {
            rank=source;
            before_i1 [label="input 1"];
            before_i2 [label="input 2"];
            before_i3 [label="input 3"];
            before_i4 [label="input 4"];
            before_i5 [label="input 5"];
        }
        before_n6 [label="{majority 6|{<w1> 3|<w2> 5|<w3> 6}}", shape=record, fillcolor="#dcebf7"];
        before_i1 -> before_n6:w1:s [arrowhead=dot, color="#d55e00", penwidth=2.5];
        before_i2 -> before_n6:w2:s [arrowhead=dot, color="#d55e00", penwidth=2.5];
        before_i3 -> before_n6:w3:s [color="#d55e00", penwidth=2.5];
        before_n7 [label="{majority 7|{<w1> 12|<w2> 9|<w3> 10}}", shape=record, fillcolor="#dcebf7"];
        before_n6 -> before_n7:w1:s;
        before_i4 -> before_n7:w2:s [arrowhead=dot, color="#d55e00", penwidth=2.5];
        before_i5 -> before_n7:w3:s [color="#d55e00", penwidth=2.5];
        {
            rank=sink;
            before_o1 [label="{output 1|<w1> 15}", shape=record];
        }
        before_n7 -> before_o1:w1:s [arrowhead=dot, color="#d55e00", penwidth=2.5];
    }
    subgraph cluster_after {
        color=gray; labelloc=b;
        label="after: settled\n5 inputs, 2 nodes, 1 output\n2 complemented edges, each with a dot";
        {
            rank=source;
            after_i1 [label="input 1"];
            after_i2 [label="input 2"];
            after_i3 [label="input 3"];
            after_i4 [label="input 4"];
            after_i5 [label="input 5"];
        }
        after_n6 [label="{majority 6|{<w1> 2|<w2> 4|<w3> 7}}", shape=record, fillcolor="#dcebf7"];
        after_i1 -> after_n6:w1:s [color="#d55e00", penwidth=2.5];
        after_i2 -> after_n6:w2:s [color="#d55e00", penwidth=2.5];
        after_i3 -> after_n6:w3:s [arrowhead=dot, color="#d55e00", penwidth=2.5];
        after_n7 [label="{majority 7|{<w1> 12|<w2> 8|<w3> 11}}", shape=record, fillcolor="#dcebf7"];
        after_n6 -> after_n7:w1:s;
        after_i4 -> after_n7:w2:s [color="#d55e00", penwidth=2.5];
        after_i5 -> after_n7:w3:s [arrowhead=dot, color="#d55e00", penwidth=2.5];
        {
            rank=sink;
            after_o1 [label="{output 1|<w1> 14}", shape=record];
        }
        after_n7 -> after_o1:w1:s [color="#d55e00", penwidth=2.5];
    }
}
"##;

/// P3 and what document 01 says that its pair call leaves: 2 4 7; 12 8 11 -> 14.
#[test]
fn p3_compared() {
    let folder = folder("p3_compared");
    let after = tagged(&[(1, &[5, 2, 1]), (2, &[2, 4, 7]), (2, &[12, 8, 11]), (4, &[14]), (5, &[])]);
    fs::write(folder.join("p3"), p3()).unwrap();
    fs::write(folder.join("settled"), after).unwrap();
    let output = run_in(&folder, &["picture", "--compare", "p3", "settled"], b"");
    assert_eq!(drawn(&output), P3_COMPARED);
    assert_eq!((said(&output).as_str(), output.status.code()), ("", Some(0)));
    let output = run_in(&folder, &["picture", "--compare", "p3", "settled", "--root", "7", "-o", "part"], b"");
    gives(&output, b"", "drawn: the tree of root 7, 2 nodes\n");
    let part = fs::read_to_string(folder.join("part")).unwrap();
    // Without the output, whose edge turned too.
    assert!(part.contains("    label=\"5 turned edges, thick and orange\";") && !part.contains("_o1"));
    assert!(part.contains("the tree of root 7, 2 nodes\\n3 complemented edges of the whole graph's 4, each with a dot"));
    assert!(part.contains("the tree of root 7, 2 nodes\\n2 complemented edges of the whole graph's 2, each with a dot"));
}

#[test]
fn p1_compared() {
    let folder = folder("p1_compared");
    fs::write(folder.join("settled"), p1_settled()).unwrap();
    let output = run_in(&folder, &["picture", "--compare", "-", "settled"], &p1());
    let turned = "color=\"#d55e00\", penwidth=2.5";
    let dotted = format!(" [arrowhead=dot, {turned}];");
    let plain = format!(" [{turned}];");
    let due = [
        ("before_i1", "before_n4:w1", &dotted[..]),
        ("before_i2", "before_n4:w2", &dotted),
        ("before_i3", "before_n4:w3", &dotted),
        ("before_n4", "before_o1:w1", &dotted),
        ("after_i1", "after_n4:w1", &plain),
        ("after_i2", "after_n4:w2", &plain),
        ("after_i3", "after_n4:w3", &plain),
        ("after_n4", "after_o1:w1", &plain),
    ];
    assert_eq!(edges_of(text(&output.stdout)), due);
    // A graph beside itself: nothing turned.
    fs::write(folder.join("p1"), p1()).unwrap();
    let output = run_in(&folder, &["picture", "--compare", "p1", "p1"], b"");
    assert!(text(&output.stdout).contains("    label=\"0 turned edges, thick and orange\";"));
    assert!(!text(&output.stdout).contains("#d55e00"));
}

/// A circuit of yosys as it came and as it was settled: each edge has the dot and the colour that the tables ask for.
fn compared_circuit(test: &str, given: &[u8]) {
    let folder = folder(test);
    fs::write(folder.join("text"), given).unwrap();
    let settled = run_in(&folder, &["settle", "text", "--to", "tagged", "-o", "settled"], b"");
    assert_eq!(settled.status.code(), Some(0));
    let output = run_in(&folder, &["picture", "--compare", "text", "settled"], b"");
    let dot = text(&output.stdout);
    let (before, after) = dot.split_at(dot.find("subgraph cluster_after").unwrap());
    let told = |side| -> Vec<(String, String, bool)> {
        let edges = edges_of(side).into_iter().filter(|(from, ..)| !from.contains("_c"));
        edges.map(|(from, to, looks)| (from.into(), to.into(), looks.contains("arrowhead=dot"))).collect()
    };
    let (graph, moved) =
        (Graph::import(given).unwrap(), Graph::load(&fs::read(folder.join("settled")).unwrap()).unwrap());
    assert_eq!(told(before), edges_due(&graph, "before_"));
    assert_eq!(told(after), edges_due(&moved, "after_"));
    // All words, the constant's among them.
    let words = |graph: &Graph| [graph.node_literals().unwrap(), graph.output_literals().unwrap()].concat();
    let turned: Vec<bool> = words(&graph).iter().zip(words(&moved)).map(|(x, y)| *x != y).collect();
    let coloured = |side| -> Vec<bool> { edges_of(side).iter().map(|edge| edge.2.contains("#d55e00")).collect() };
    assert_eq!((coloured(before), coloured(after)), (turned.clone(), turned.clone()));
    let dots = |side: &str| side.matches("arrowhead=dot").count() as u32;
    assert_eq!(dots(before), graph.complemented_edges().unwrap());
    assert_eq!(dots(after), moved.complemented_edges().unwrap());
    assert!(dots(after) < dots(before));
    let many = turned.iter().filter(|&&turned| turned).count();
    assert!(dot.contains(&format!("    label=\"{many} turned edges, thick and orange\";")));
}

#[test]
fn an_adder_and_a_multiplier_compared() {
    compared_circuit("an_adder_compared", include_bytes!("../../../../examples/ripple_adder8.aag"));
    compared_circuit("a_multiplier_compared", include_bytes!("../../../../examples/multiplier4.aag"));
}

#[test]
fn what_cannot_be_compared() {
    let folder = folder("what_cannot_be_compared");
    let or = "aag 3 2 0 1 1\n2\n4\n7\n6 3 5\n";
    fs::write(folder.join("or"), or).unwrap();
    fs::write(folder.join("p1"), p1()).unwrap();
    fs::write(folder.join("out"), "old").unwrap();
    let refused = |words: &[&str], input: &[u8], why: &str| {
        let output = run_in(&folder, &[&["picture", "--compare", "-o", "out"], words].concat(), input);
        stops(&output, 1, &format!("panjerov: {why}\n"));
        assert_eq!(fs::read(folder.join("out")).unwrap(), b"old");
    };
    let xor = tagged(&[(1, &[3, 1, 1]), (3, &[3, 5]), (4, &[9]), (5, &[])]);
    refused(
        &["p1", "-"],
        &xor,
        "p1 and standard input have not the same wiring: node 4 is a majority before and an XOR after",
    );
    // Settled and given as text again, an AND is four.
    let exported = run_in(&folder, &["settle", "or", "--to", "aiger"], b"").stdout;
    refused(
        &["or", "-"],
        &exported,
        "or and standard input have not the same wiring: 2 inputs, 1 node, 1 output before and 2 inputs, 4 nodes, 1 output \
         after; as AIGER a settled graph has other nodes, so compare with the tagged file that `panjerov settle` gives",
    );
    refused(&["p1", "missing"], b"", "cannot read missing: No such file or directory (os error 2)");
    refused(&["p1", "-"], b"", "standard input: refused 1: the bytes end within a field; it is empty");
    let usage = "--compare wants BEFORE and AFTER; `panjerov picture --help` tells what picture takes";
    stops(&run(&["picture", "--compare", "p1"], b""), 2, &format!("panjerov: {usage}\n"));
    // The same wiring, and another function: it is drawn, and a line says so.
    let other = tagged(&[(1, &[3, 1, 1]), (2, &[3, 5, 7]), (4, &[8]), (5, &[])]);
    let output = run_in(&folder, &["picture", "--compare", "p1", "-"], &other);
    assert_eq!(
        said(&output),
        "no moves lead from p1 to standard input, as output 1 shows: their functions may differ\n"
    );
    assert_eq!((output.status.code(), text(&output.stdout).matches("#d55e00").count()), (Some(0), 2));
}

/// Both sides have their boxes at the same places, before on the left.
#[test]
fn two_sides_of_graphviz() {
    if !has_graphviz() {
        return;
    }
    let folder = folder("two_sides_of_graphviz");
    fs::write(folder.join("p3"), p3()).unwrap();
    gives(
        &run_in(&folder, &["settle", "p3", "-o", "settled"], b""),
        b"",
        "inputs 5 nodes 2 outputs 1 before 4 after 2 rounds 2 own 1 others 1\n",
    );
    let output = run_in(&folder, &["picture", "--compare", "p3", "settled", "--svg"], b"");
    assert_eq!((said(&output).as_str(), output.status.code()), ("", Some(0)));
    let groups = groups_of(text(&output.stdout));
    let place = |name: String| {
        let found = groups.iter().find(|group| group.class == "node" && group.name == name).unwrap();
        let place = |axis: &str| between(between(found.body, "<text ", ">"), axis, "\"").parse::<f64>().unwrap();
        (place(" x=\""), place(" y=\""))
    };
    let shifts: Vec<f64> = ["i1", "i2", "i3", "i4", "i5", "n6", "n7", "o1"]
        .iter()
        .map(|name| {
            let (before, after) = (place(format!("before_{name}")), place(format!("after_{name}")));
            assert!((before.1 - after.1).abs() < 1.0, "{name}");
            after.0 - before.0
        })
        .collect();
    assert!(shifts[0] > 100.0 && shifts.iter().all(|shift| (shift - shifts[0]).abs() < 1.0), "{shifts:?}");
    let edges = groups.iter().filter(|group| group.class == "edge");
    let told = |dot: bool, turned: bool| {
        let has = |body: &str| (body.contains("<ellipse"), body.contains("stroke=\"#d55e00\"")) == (dot, turned);
        edges.clone().filter(|edge| has(edge.body)).count()
    };
    assert_eq!((told(true, true), told(false, true), told(false, false), told(true, false)), (6, 6, 2, 0));
}
