//! Habits of a command line: the version, silence, values joined to their options, near words, terminals and closed pipes.

use super::*;

#[test]
fn the_version() {
    let due = format!("panjerov {}\n", env!("CARGO_PKG_VERSION"));
    gives(&run(&["--version"], b""), due.as_bytes(), "");
    gives(&run(&["-V"], b""), due.as_bytes(), "");
}

/// Every text of the help, as its files have it.
#[test]
fn texts_of_the_help() {
    let folder = Path::new(env!("CARGO_MANIFEST_DIR")).join("src/bin/panjerov/help");
    let read = |name: &str| fs::read_to_string(folder.join(name)).unwrap();
    let mut texts = 0;
    for entry in fs::read_dir(&folder).unwrap() {
        let name = entry.unwrap().file_name().into_string().unwrap();
        let Some(command) = name.strip_suffix(".txt") else { continue };
        let line = |line: &str| match line.strip_prefix('@') {
            Some(part) => read(&format!("{part}.part")),
            None => format!("{line}\n"),
        };
        let due: String = read(&name).lines().map(line).collect();
        let words = if command == "program" { vec!["help"] } else { vec!["help", command] };
        gives(&run(&words, b""), due.as_bytes(), "");
        assert!(due.lines().all(|line| line.chars().count() <= 80), "{name}");
        texts += 1;
    }
    assert_eq!(texts, 19);
}

#[test]
fn nothing_said() {
    let folder = folder("nothing_said");
    fs::write(folder.join("in"), p2()).unwrap();
    fs::write(folder.join("moves"), "6 1\n").unwrap();
    gives(&run(&["settle", "--quiet"], &p1()), &p1_settled(), "");
    gives(&run(&["find", "-q"], MAJORITY.as_bytes()), &p1(), "");
    fs::write(folder.join("returns"), MAJORITY.replace('\n', "\r\n")).unwrap();
    let words: [&[&str]; 11] = [
        &["show", "returns"],
        &["class", "returns"],
        &["resistive", "in", "--all"],
        &["lock", "in", "7", "--to", "tagged"],
        &["unlock", "in", "all"],
        &["apply", "in", "moves", "--to", "aiger"],
        &["sheets", "in", "moves"],
        &["compare", "in", "in"],
        &["join", "in", "in2"],
        &["preview", "in", "7", "--moves"],
        &["picture", "in", "--root", "7"],
    ];
    fs::write(folder.join("in2"), tagged(&[(1, &[1, 0, 1]), (4, &[2]), (5, &[])])).unwrap();
    for words in words {
        let [loud, quiet] = [words.to_vec(), [words, &["--quiet"]].concat()].map(|words| run_in(&folder, &words, b""));
        assert_ne!(said(&loud), "", "{words:?}");
        gives(&quiet, &loud.stdout, "");
    }
    // What goes wrong is said.
    let refused = "panjerov: standard input: refused 1: the bytes end within a field; it is empty\n";
    stops(&run(&["settle", "--quiet"], b""), 1, refused);
}

/// Work that takes long is quiet too.
#[test]
fn no_progress() {
    let script = "(sleep 1.5; cat in) | \"$0\" show --quiet";
    let folder = folder("no_progress");
    fs::write(folder.join("in"), p1()).unwrap();
    let output = Command::new("sh").args(["-c", script, PROGRAM]).current_dir(&folder).output().unwrap();
    assert_eq!((text(&output.stderr), output.status.code()), ("", Some(0)));
    assert!(text(&output.stdout).starts_with("format tagged\n"));
}

#[test]
fn values_joined_to_options() {
    let folder = folder("values_joined_to_options");
    fs::write(folder.join("in"), p1()).unwrap();
    gives(&run_in(&folder, &["settle", "in", "-oout"], b""), b"", FIGURES);
    assert_eq!(fs::read(folder.join("out")).unwrap(), p1_settled());
    let grown = "as AIGER it has 4 ANDs and 6 complemented edges; the graph has 1 node and 0 complemented edges\n";
    gives(&run_in(&folder, &["settle", "in", "--to=aiger", "-otext"], b""), b"", &format!("{FIGURES}{grown}"));
    assert_eq!(fs::read(folder.join("text")).unwrap(), MAJORITY.as_bytes());
    holds(&folder, &["in", "out", "text"]);
}

#[test]
fn a_near_word() {
    let told = |why: &str| format!("panjerov: there is no {why}\n");
    stops(&run(&["setlle"], b""), 2, &told("command setlle (did you mean settle?); `panjerov --help` tells them"));
    stops(&run(&["mangle"], b""), 2, &told("command mangle; `panjerov --help` tells them"));
    let option = "option --sgv (did you mean --svg?); `panjerov picture --help` tells what picture takes";
    stops(&run(&["picture", "--sgv"], b""), 2, &told(option));
}

/// On a terminal, which python makes; what it shows, with its ends of lines as a file has them, and the exit status.
fn on_terminal(folder: &Path, words: &[&str]) -> (Vec<u8>, i32) {
    let spawn = "import os, pty, sys\nsys.exit(os.waitstatus_to_exitcode(pty.spawn(sys.argv[1:])))";
    let words = [&["-c", spawn, PROGRAM], words].concat();
    let output = Command::new("python3").args(words).current_dir(folder).stdin(Stdio::null()).output().unwrap();
    let shown = output.stdout.escape_ascii().to_string().replace("\\r\\n", "\\n");
    (shown.into_bytes(), output.status.code().unwrap())
}

#[test]
fn on_a_terminal() {
    let folder = folder("on_a_terminal");
    fs::write(folder.join("in"), p1()).unwrap();
    let shown = |words: &[&str]| {
        let (shown, status) = on_terminal(&folder, words);
        (String::from_utf8(shown).unwrap(), status)
    };
    let refused = "panjerov: what is given is no text, and standard output is a terminal: -o FILE writes it to a file, and -o - to the \
                   terminal all the same\\n";
    for words in [&["settle", "in"][..], &["import", "in"], &["lock", "in", "4"]] {
        assert_eq!(shown(words), (refused.into(), 1), "{words:?}");
    }
    let (file, status) = shown(&["import", "in", "-o", "-"]);
    // A terminal puts a carriage return before an end of line, which no byte of this file is.
    assert_eq!((file, status), (p1().escape_ascii().to_string(), 0));
    let (text, status) = shown(&["export", "in"]);
    assert!(status == 0 && text.starts_with("aag 7 3 0 1 4\\n2\\n4\\n6\\n"), "{text}");
    let (figures, status) = shown(&["settle", "in", "--json", "-o", "out"]);
    assert!(status == 0 && figures.starts_with("{\\\"inputs\\\": 3, "), "{figures}");
    assert_eq!(fs::read(folder.join("out")).unwrap(), p1_settled());
}

/// Who reads a line and goes away is told nothing.
#[test]
fn a_closed_pipe() {
    let folder = folder("a_closed_pipe");
    let mut file = tagged(&[(1, &[2, 9_000, 0])]);
    (0..9_000).for_each(|_| file.extend(tagged(&[(2, &[0, 2, 4])])));
    file.extend(tagged(&[(5, &[])]));
    fs::write(folder.join("in"), file).unwrap();
    for words in ["preview in", "export in -q", "import in", "preview in --json", "class in --json", "help settle"] {
        let script = format!("(\"$0\" {words}; echo \"status $?\" >&2) | true");
        let output = Command::new("sh").args(["-c", &script, PROGRAM]).current_dir(&folder).output().unwrap();
        assert_eq!(said(&output), "status 0\n", "{words}");
    }
    let script = "(\"$0\" preview in; echo \"status $?\" >&2) | head -n 1";
    let output = Command::new("sh").args(["-c", script, PROGRAM]).current_dir(&folder).output().unwrap();
    assert_eq!((text(&output.stdout), said(&output)), ("roots 9000\n", "status 0\n".into()));
}

/// The savings of all trees of the largest graphs, with a node that all others read and with many small trees.
#[test]
fn savings_of_large_graphs() {
    let folder = folder("savings_of_large_graphs");
    for (name, words) in [("star", [4u32, 2 * 4_097, 3]), ("small", [2, 4, 6])] {
        let mut file = tagged(&[(1, &[4_096, 100_000, 1]), (2, &[2, 4, 6])]);
        (1..100_000).for_each(|_| file.extend(tagged(&[(2, &words)])));
        file.extend(tagged(&[(4, &[2 * 104_096]), (5, &[])]));
        fs::write(folder.join(name), file).unwrap();
        let start = Instant::now();
        let output = run_in(&folder, &["preview", name, "--sort", "saving"], b"");
        let lines: Vec<&str> = text(&output.stdout).lines().collect();
        assert_eq!((lines[0], lines.len()), ("roots 100000", 100_001), "{name}");
        assert!(start.elapsed() < Duration::from_secs(20), "{name}: {:?}", start.elapsed());
    }
}
