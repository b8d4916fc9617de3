//! A class of graphs.

use super::*;

const SHEET: &str = "file      before  after  fall  rounds  cells  after\n\
                     p1             4      0     4       2     57      5\n\
                     p2             4      2     2       2     62     36\n\
                     broken    refused 1: the bytes end within a field; byte 15, node 1 of 1: 5 bytes left, and the field has 15\n\
                     all 2          8      2     6       4    119     41\n\
                     latest 2       8      2     6       4    119     41\n\
                     fell by 6 of 8, 75.0 %; refused 1\n";

/// A folder with two graphs and a broken file.
fn three(test: &str) -> PathBuf {
    let folder = folder(test);
    fs::write(folder.join("p1"), p1()).unwrap();
    fs::write(folder.join("p2"), p2()).unwrap();
    fs::write(folder.join("broken"), &p1()[..20]).unwrap();
    folder
}

/// Ended with a status, with this on standard output and nothing said.
fn told(output: &Output, status: i32, due: &str) {
    assert_eq!((text(&output.stdout), said(output)), (due, String::new()));
    assert_eq!(output.status.code(), Some(status));
}

#[test]
fn a_sheet() {
    let folder = three("a_sheet");
    told(&run_in(&folder, &["class", "p1", "p2", "broken"], b""), 1, SHEET);
    let help = run(&["class", "--help"], b"");
    // The help leaves the place out, which makes a long line.
    let short = SHEET.replace("; byte 15, node 1 of 1: 5 bytes left, and the field has 15", "");
    let lines: String = short.split_inclusive('\n').map(|line| format!("    {line}")).collect();
    assert!(text(&help.stdout).contains(&format!("\n\n{lines}\n")), "{}", text(&help.stdout));
    let two = "file            before  after  fall  rounds  cells  after\n\
               p1                   4      0     4       2     57      5\n\
               standard input       4      2     2       2     62     36\n\
               all 2                8      2     6       4    119     41\n\
               latest 2             8      2     6       4    119     41\n\
               fell by 6 of 8, 75.0 %; refused 0\n";
    told(&run_in(&folder, &["class", "p1", "-"], &p2()), 0, two);
    holds(&folder, &["broken", "p1", "p2"]);
}

#[test]
fn a_sheet_for_programs() {
    let folder = three("a_sheet_for_programs");
    fs::write(folder.join("a, \"b\""), "aag 1 1 1 1 0\n").unwrap();
    let due = "row,file,graphs,before,after,fall,rounds,cells_before,cells_after,reason\n\
               file,p1,1,4,0,4,2,57,5,\n\
               refused,\"a, \"\"b\"\"\",0,,,,,,,\"refused 11: there are latches; line 1, the header: it says 1 latch; make each an input and an output first, by yosys -p \"\"read_aiger OLD.aag; write_aiger OLD.aig\"\" and berkeley-abc -c \"\"read_aiger OLD.aig; comb; write_aiger NEW.aig\"\"\"\n\
               all,,1,4,0,4,2,57,5,\n\
               latest,,1,4,0,4,2,57,5,\n";
    told(&run_in(&folder, &["class", "p1", "a, \"b\"", "--csv"], b""), 1, due);
    let due = "{\n  \"files\": [\n    \
               {\"file\": \"p1\", \"before\": 4, \"after\": 0, \"fall\": 4, \"rounds\": 2, \"cells_before\": 57, \"cells_after\": 5},\n    \
               {\"file\": \"a, \\\"b\\\"\", \"refused\": \"refused 11: there are latches; line 1, the header: it says 1 latch; make each an input and an output first, by yosys -p \\\"read_aiger OLD.aag; write_aiger OLD.aig\\\" and berkeley-abc -c \\\"read_aiger OLD.aig; comb; write_aiger NEW.aig\\\"\"}\n  ],\n  \
               \"all\": {\"graphs\": 1, \"before\": 4, \"after\": 0, \"fall\": 4, \"rounds\": 2, \"cells_before\": 57, \"cells_after\": 5},\n  \
               \"latest\": {\"graphs\": 1, \"before\": 4, \"after\": 0, \"fall\": 4, \"rounds\": 2, \"cells_before\": 57, \"cells_after\": 5},\n  \
               \"refused\": 1\n}\n";
    told(&run_in(&folder, &["class", "p1", "a, \"b\"", "--json"], b""), 1, due);
}

/// Folders, by name and with the folders in them, without hidden files; names as long as they must be.
#[test]
fn folders_of_files() {
    let folder = folder("folders_of_files");
    for (name, file) in [("ann/graph", p1()), ("bob/graph", p2()), ("bob/.old", vec![]), (".git/graph", vec![])] {
        fs::create_dir_all(folder.join("in").join(name).parent().unwrap()).unwrap();
        fs::write(folder.join("in").join(name), file).unwrap();
    }
    let due = "file       before  after  fall  rounds  cells  after\n\
               ann/graph       4      0     4       2     57      5\n\
               bob/graph       4      2     2       2     62     36\n\
               all 2           8      2     6       4    119     41\n\
               latest 2        8      2     6       4    119     41\n\
               fell by 6 of 8, 75.0 %; refused 0\n";
    told(&run_in(&folder, &["class", "in"], b""), 0, due);
    told(&run_in(&folder, &["class", "in", "-o", "out"], b""), 0, due);
    assert_eq!(fs::read(folder.join("out/ann/graph")).unwrap(), p1_settled());
    assert_eq!(fs::read(folder.join("in/ann/graph")).unwrap(), p1());
    holds(&folder, &["in", "out"]);
    holds(&folder.join("out/bob"), &["graph"]);
    // The folder that is written to is none of the files, and a link to a folder is not followed.
    symlink(".", folder.join("in/again")).unwrap();
    told(&run_in(&folder, &["class", "in", "-o", "in/out"], b""), 0, due);
    told(&run_in(&folder, &["class", "in", "-o", "in/out"], b""), 0, due);
    holds(&folder.join("in/out"), &["ann", "bob"]);
    let empty = "file      before  after  fall  rounds  cells  after\n\
                 all 0          0      0     0       0      0      0\n\
                 latest 0       0      0     0       0      0      0\n\
                 fell by 0 of 0, 0.0 %; refused 0\n";
    fs::create_dir(folder.join("none")).unwrap();
    told(&run_in(&folder, &["class", "none"], b""), 0, empty);
}

#[test]
fn what_is_written() {
    let folder = three("what_is_written");
    fs::write(folder.join("in.aag"), MAJORITY).unwrap();
    let output = run_in(&folder, &["class", "p1", "broken", "in.aag", "-o", "out", "--csv"], b"");
    assert_eq!(output.status.code(), Some(1));
    holds(&folder.join("out"), &["in.aag", "p1"]);
    assert_eq!(fs::read(folder.join("out/p1")).unwrap(), p1_settled());
    // As `settle` gives it.
    assert_eq!(
        fs::read(folder.join("out/in.aag")).unwrap(),
        run(&["settle", "--to", "aiger"], MAJORITY.as_bytes()).stdout
    );
    // Nothing is put over a file that was handed in, or twice to a place.
    let over = "panjerov: ./p1 would be replaced: -o wants another folder\n";
    stops(&run_in(&folder, &["class", "p1", "p2", "-o", "."], b""), 1, over);
    fs::write(folder.join("out/p1.html"), p1()).unwrap();
    let twice = "panjerov: p1 and p1.html would be written to the same place in new\n";
    stops(&run_in(&folder, &["class", "p1", "out/p1.html", "-o", "new"], b""), 1, twice);
    stops(
        &run_in(&folder, &["class", "p1", "-o", "p2"], b""),
        1,
        "panjerov: cannot make the folder p2: File exists (os error 17)\n",
    );
    assert_eq!((fs::read(folder.join("p1")).unwrap(), fs::read(folder.join("p2")).unwrap()), (p1(), p2()));
    holds(&folder, &["broken", "in.aag", "out", "p1", "p2"]);
}

#[test]
fn a_page() {
    let folder = three("a_page");
    fs::rename(folder.join("p2"), folder.join("<p 2>")).unwrap();
    let output = run_in(&folder, &["class", "p1", "<p 2>", "broken", "--html"], b"");
    let page = text(&output.stdout);
    assert_eq!((output.status.code(), said(&output)), (Some(1), String::new()));
    assert!(!page.contains("href=") && !page.contains("src=") && !page.contains("<script"), "{page}");
    assert!(page
        .contains("<tr><th>&lt;p 2&gt;<td>4<td>2<td>\u{2212}2 (\u{2212}50.0 %)<td>2<td>62<td>36<td class=\"bars\">"));
    assert!(page
        .contains("<div class=\"was\" style=\"width: 100.0%\"></div><div class=\"is\" style=\"width: 50.0%\"></div>"));
    assert!(
        page.contains("<tr class=\"refused\"><th>broken<td colspan=\"7\">refused 1: the bytes end within a field; byte 15, node 1 of 1: 5 bytes left, and the field has 15\n")
    );
    assert!(page.contains("Settling took 2 graphs from 8 complemented edges to 2, 75.0 % fewer. Refused: 1.</p>"));
    // With a folder: the page there, and a report of each file that it leads to.
    let output = run_in(&folder, &["class", "p1", "<p 2>", "--html", "-o", "out"], b"");
    assert!(text(&output.stdout).starts_with("file ") && output.status.code() == Some(0));
    holds(&folder.join("out"), &["<p 2>", "<p 2>.html", "index.html", "p1", "p1.html"]);
    let page = fs::read_to_string(folder.join("out/index.html")).unwrap();
    assert!(page.contains("<tr><th><a href=\"./p1.html\">p1</a><td>"));
    assert!(page.contains("<tr><th><a href=\"./%3Cp%202%3E.html\">&lt;p 2&gt;</a><td>"));
    assert!(fs::read_to_string(folder.join("out/<p 2>.html")).unwrap().contains("<h1>&lt;p 2&gt;</h1>\n"));
}

/// A thousand graphs, and two more.
#[test]
fn more_than_a_thousand() {
    let folder = folder("more_than_a_thousand");
    fs::write(folder.join("p1"), p1()).unwrap();
    let words: Vec<&str> = ["class"].into_iter().chain(["p1"; 1_002]).collect();
    let output = run_in(&folder, &words, b"");
    let lines: Vec<&str> = text(&output.stdout).lines().collect();
    assert_eq!(output.status.code(), Some(1));
    assert_eq!(lines.len(), 1_006);
    assert!(lines[1_000].ends_with("  4      0     4       2     57      5"), "{}", lines[1_000]);
    let full = "p1         refused 3: a class has 1000 graphs, and this is one more";
    assert_eq!((lines[1_001], lines[1_002]), (full, full));
    assert_eq!(lines[1_003], "all 1000     4000      0  4000    2000  57000   5000");
    assert_eq!(lines[1_004], "latest 16      64      0    64      32    912     80");
    assert_eq!(lines[1_005], "fell by 4000 of 4000, 100.0 %; refused 2");
}

#[test]
fn classes_refused() {
    let told = |why: &str| format!("panjerov: {why}; `panjerov class --help` tells what class takes\n");
    stops(&run(&["class"], b""), 2, &told("FILE is missing: files of graphs, or folders of them"));
    stops(&run(&["class", "a", "--csv", "--html"], b""), 2, &told("the form of the sheet is given twice"));
    let folder = folder("classes_refused");
    let output = run_in(&folder, &["class", "nothing"], b"");
    assert_eq!(output.status.code(), Some(1));
    assert!(text(&output.stdout).contains("\nnothing   cannot read nothing: No such file or directory (os error 2)\n"));
}
