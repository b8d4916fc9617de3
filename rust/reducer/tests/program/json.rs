//! Figures as JSON, for every command.

use std::collections::BTreeSet;

use super::pictures::has_graphviz;
use super::*;

const SETTLED: &str =
    "{\"inputs\": 3, \"nodes\": 1, \"outputs\": 1, \"before\": 4, \"after\": 0, \"rounds\": 2, \"own\": 3, \
                       \"others\": 1, \"locked\": 0}\n";
const FOUND: &str = "{\"before\": {\"nodes\": 4, \"majorities\": 0, \"complemented\": 6}, \
                     \"after\": {\"nodes\": 1, \"majorities\": 1, \"complemented\": 4, \"locked\": 0}}";

const CHOSEN: &str = "{\"before\": {\"majorities\": 2, \"single\": 0, \"complemented\": 0}, \
                      \"after\": {\"majorities\": 2, \"single\": 1, \"complemented\": 4, \"locked\": 0}}\n";
const SHOWN: &str =
    "{\"format\": \"tagged\", \"inputs\": 3, \"nodes\": 1, \"outputs\": 1, \"majorities\": 1, \"xors\": 0, \
                     \"complemented\": 4, \"single\": 0, \"depth\": 1, \"locked\": 0, \"locked_nodes\": [], \
                     \"input_names\": [null, null, null], \"output_names\": [null]}\n";
const NAMED: &str = "\"input_names\": [\"x\", null, null], \"output_names\": [\"y[0]\"]}\n";
const MADE: &str =
    "{\"inputs\": 5, \"nodes\": 2, \"outputs\": 1, \"before\": 4, \"after\": 2, \"saving\": 2, \"listed\": 2, \
                    \"moved\": 1, \"locked\": 0}\n";

/// A folder with P1, P2, the export of a majority, lists of moves and stages.
fn files(test: &str) -> PathBuf {
    let folder = folder(test);
    let plain = tagged(&[(1, &[3, 2, 1]), (2, &[2, 4, 6]), (2, &[8, 2, 4]), (4, &[10]), (5, &[])]);
    let turned = tagged(&[(1, &[5, 2, 1]), (2, &[2, 4, 7]), (2, &[12, 8, 11]), (4, &[14]), (5, &[])]);
    let [wire, straight] = [3, 2].map(|output| tagged(&[(1, &[1, 0, 1]), (4, &[output]), (5, &[])]));
    for (name, bytes) in [
        ("p1", p1()),
        ("p2", p2()),
        ("turned", turned),
        ("plain", plain),
        ("wire", wire),
        ("straight", straight),
        ("text", MAJORITY.into()),
        ("moves", b"6 1\n7 0\n".to_vec()),
        ("thrice", b"6 1\n6 1\n6 1\n".to_vec()),
        ("twice", b"6 1\n6 1\n".to_vec()),
    ] {
        fs::write(folder.join(name), bytes).unwrap();
    }
    folder
}

/// The keys of a text of JSON.
fn keys(json: &str) -> BTreeSet<&str> {
    let ends = json.match_indices("\": ").map(|(at, _)| &json[..at]);
    ends.map(|before| &before[before.rfind('"').unwrap() + 1..]).collect()
}

/// The keys that docs/JSON.md has below a command's heading, in backticks in the first column.
fn documented(command: &str) -> BTreeSet<String> {
    let text = include_str!("../../../../docs/JSON.md");
    let section = text.split("\n## ").find(|part| part.lines().next() == Some(command));
    let section = section.unwrap_or_else(|| panic!("docs/JSON.md has no {command}"));
    let cells = section.lines().filter_map(|line| line.strip_prefix("| `")?.split(" | ").next());
    cells.flat_map(|cell| cell.split('`').step_by(2)).map(String::from).collect()
}

/// Words, the exit status, and the object.
type Case = (&'static [&'static str], i32, String);

fn counted(inputs: u32, nodes: u32, complemented: u32) -> String {
    format!("{{\"inputs\": {inputs}, \"nodes\": {nodes}, \"outputs\": 1, \"complemented\": {complemented}, \"locked\": 0}}\n")
}

fn told() -> Vec<(&'static str, Vec<Case>)> {
    vec![
        ("settle", settled()),
        ("find", vec![(&["text"], 0, format!("{FOUND}\n"))]),
        ("resistive", vec![(&["plain", "5"], 0, CHOSEN.into())]),
        ("import", vec![(&["text"], 0, counted(3, 4, 6))]),
        ("export", vec![(&["p1"], 0, counted(3, 1, 4))]),
        ("lock", vec![(&["p2", "6-7"], 0, locked(2, "6, 7"))]),
        ("unlock", vec![(&["p2", "6"], 0, locked(0, ""))]),
        ("show", vec![(&["p1"], 0, SHOWN.into())]),
        ("preview", previewed()),
        ("apply", vec![(&["p2", "moves"], 0, MADE.into())]),
        ("sheets", sheets()),
        ("compare", compared()),
        ("equal", equal()),
        ("join", vec![(&["p2", "wire"], 0, counted(5, 2, 5))]),
        ("assign", assigned()),
        ("picture", drawn()),
        ("report", vec![(&["p1"], 0, SETTLED.into())]),
    ]
}

fn settled() -> Vec<Case> {
    let found = format!("{{\"found\": {FOUND}, {}", &SETTLED[1..]);
    vec![(&["p1"], 0, SETTLED.into()), (&["text", "--find"], 0, found)]
}

fn locked(many: u32, which: &str) -> String {
    format!("{{\"inputs\": 5, \"nodes\": 2, \"outputs\": 1, \"locked\": {many}, \"locked_nodes\": [{which}]}}\n")
}

fn drawn() -> Vec<Case> {
    let whole = "{\"inputs\": 3, \"nodes\": 1, \"beyond\": 0, \"outputs\": 1, \"whole\": true}\n";
    let part = "{\"inputs\": 5, \"nodes\": 2, \"beyond\": 0, \"outputs\": 0, \"whole\": false}\n";
    vec![(&["p1"], 0, whole.into()), (&["--compare", "p2", "turned", "--root=7"], 0, part.into())]
}

fn previewed() -> Vec<Case> {
    let root = "{\"root\": 7, \"before\": 4, \"after\": 2, \"saving\": 2, \"own\": 2, \"others\": 0, \
                \"tree\": {\"nodes\": 2, \"majorities\": 2, \"xors\": 0, \"locked\": 0}, \
                \"moves\": [{\"node\": 6, \"kind\": \"majority\", \"move\": 1, \"locked\": false}, \
                {\"node\": 7, \"kind\": \"majority\", \"move\": 0, \"locked\": false}]}\n";
    let roots =
        "{\"before\": 4, \"roots\": [{\"root\": 7, \"nodes\": 2, \"majorities\": 2, \"xors\": 0, \"locked\": 0, \
                 \"saving\": 2, \"own\": 2, \"others\": 0}]}\n";
    vec![(&["p2"], 0, roots.into()), (&["p2", "7"], 0, root.into()), (&["p2", "7", "--moves"], 0, root.into())]
}

fn sheets() -> Vec<Case> {
    let short = "{\"lines\": 3, \"before\": 4, \"after\": 2, \"saving\": 2, \"listed\": 1, \"moved\": 1, \
                 \"moves\": [{\"node\": 6, \"move\": 1}]}\n";
    let differ =
        "{\"same\": false, \"node\": 6, \"why\": \"node 6 majority: 1 and 1 make 0 in twice, 1 makes 1 in moves\"}\n";
    vec![
        (&["p2", "thrice"], 0, short.into()),
        (&["p2", "thrice", "moves"], 0, "{\"same\": true}\n".into()),
        (&["p2", "twice", "moves"], 1, differ.into()),
    ]
}

fn compared() -> Vec<Case> {
    let moves = "{\"before\": 4, \"after\": 2, \"saving\": 2, \"moved\": 1, \"left\": 0, \"moves\": [{\"node\": 6, \"move\": 1}]}\n";
    let why = "other wiring: 5 inputs, 2 nodes, 1 output before and 3 inputs, 1 node, 1 output after";
    vec![(&["p2", "turned"], 0, moves.into()), (&["p2", "p1"], 1, format!("{{\"moves\": null, \"why\": \"{why}\"}}\n"))]
}

fn equal() -> Vec<Case> {
    let alike = "{\"equal\": true, \"assignments\": 32, \"all\": true}\n";
    let apart = "{\"equal\": false, \"inputs\": [0], \"first\": [1], \"second\": [0], \"differ\": [1]}\n";
    let why = "different: 5 inputs and 1 output in p2, 3 inputs and 1 output in p1";
    vec![
        (&["p2", "turned"], 0, alike.into()),
        (&["wire", "straight"], 1, apart.into()),
        (&["p2", "p1"], 1, format!("{{\"equal\": false, \"why\": \"{why}\"}}\n")),
    ]
}

fn assigned() -> Vec<Case> {
    vec![
        (&["text", "1"], 0, "{\"assignment\": 3, \"inputs\": [1, 1, 0], \"outputs\": [1]}\n".into()),
        (&["text", "1", "--all"], 0, "{\"found\": 4, \"of\": 8, \"assignments\": [3, 5, 6, 7]}\n".into()),
        (&["wire", "1=0"], 0, "{\"assignment\": 1, \"inputs\": [1], \"outputs\": [0]}\n".into()),
    ]
}

/// The object alone goes to standard output, and nothing is said or written beside it; docs/JSON.md has just its keys.
#[test]
fn figures_of_every_command() {
    let folder = files("figures_of_every_command");
    let names: Vec<String> =
        fs::read_dir(&folder).unwrap().map(|entry| entry.unwrap().file_name().into_string().unwrap()).collect();
    for (command, cases) in told() {
        let mut all = BTreeSet::new();
        for (words, status, due) in &cases {
            let output = run_in(&folder, &[&[command], *words, &["--json"]].concat(), b"");
            assert_eq!((text(&output.stdout), output.status.code()), (&due[..], Some(*status)), "{command} {words:?}");
            // Without Graphviz a report says that it has no pictures.
            let bare = command == "report" && !has_graphviz();
            let more = command == "picture" && words.len() > 1 || command == "export" || bare;
            assert!(more || said(&output).is_empty(), "{}", said(&output));
            all.extend(keys(due));
        }
        assert_eq!(documented(command), all.iter().map(|key| key.to_string()).collect(), "{command}");
    }
    let class = run_in(&folder, &["class", "p1", "wire", "moves", "--json"], b"");
    let due: BTreeSet<String> = keys(text(&class.stdout)).iter().map(|key| key.to_string()).collect();
    assert_eq!(documented("class"), due);
    let mut names: Vec<&str> = names.iter().map(|name| &name[..]).collect();
    names.sort();
    holds(&folder, &names);
}

/// What docs/JSON.md shows is what is told.
#[test]
fn figures_that_are_shown() {
    let root = Path::new(env!("CARGO_MANIFEST_DIR")).join("../..");
    let output = run_in(&root, &["settle", "examples/divider4.aag", "--json"], b"");
    let shown = format!("    ./panjerov settle examples/divider4.aag --json\n    {}", text(&output.stdout));
    assert!(include_str!("../../../../docs/JSON.md").contains(&shown), "{shown}");
}

/// What is given otherwise goes to the file of -o, and further lines to standard error.
#[test]
fn figures_beside_a_file() {
    let folder = files("figures_beside_a_file");
    gives(&run_in(&folder, &["settle", "p1", "--json", "-o", "out"], b""), SETTLED.as_bytes(), "");
    assert_eq!(fs::read(folder.join("out")).unwrap(), p1_settled());
    gives(&run_in(&folder, &["compare", "p2", "turned", "--json", "-o", "out"], b""), compared()[0].2.as_bytes(), "");
    assert_eq!(fs::read(folder.join("out")).unwrap(), b"6 1\n");
    gives(
        &run_in(&folder, &["preview", "p2", "7", "--moves", "--json", "-oout"], b""),
        previewed()[1].2.as_bytes(),
        "",
    );
    assert_eq!(fs::read(folder.join("out")).unwrap(), b"6 1\n7 0\n");
    assert_eq!(run_in(&folder, &["lock", "p1", "4", "-o", "locked"], b"").status.code(), Some(0));
    let lost = "as AIGER it has 4 ANDs and 6 complemented edges; the graph has 1 node and 4 complemented edges\n\
                AIGER cannot hold locks: those of 1 node are lost, and a tagged file would keep them\n";
    let due = counted(3, 1, 4).replace("\"locked\": 0", "\"locked\": 1");
    gives(&run_in(&folder, &["export", "locked", "--json", "-o", "out"], b""), due.as_bytes(), lost);
    gives(&run_in(&folder, &["export", "locked", "--json", "-q"], b""), due.as_bytes(), "");
    let none = "{\"assignment\": null}\n";
    let output = run_in(&folder, &["assign", "first", "1", "--json"], b"");
    assert_eq!(output.status.code(), Some(2));
    fs::write(folder.join("zero"), tagged(&[(1, &[1, 0, 1]), (4, &[0]), (5, &[])])).unwrap();
    let output = run_in(&folder, &["assign", "zero", "1", "--json"], b"");
    assert_eq!((text(&output.stdout), said(&output), output.status.code()), (none, String::new(), Some(1)));
    let named = run_in(&folder, &["show", "--json"], format!("{MAJORITY}i0 x\no0 y[0]\n").as_bytes());
    assert!(text(&named.stdout).ends_with(NAMED), "{}", text(&named.stdout));
    // A refusal is told as ever.
    let refused = "panjerov: standard input: refused 1: the bytes end within a field; it is empty\n";
    stops(&run(&["settle", "--json"], b""), 1, refused);
    let standard = "panjerov: with --json standard output has the figures, and so -o wants a file; `panjerov settle --help` tells \
                    what settle takes\n";
    stops(&run(&["settle", "--json", "-o", "-"], &p1()), 2, standard);
}
