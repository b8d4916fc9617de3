//! What the page of a report says.

use super::pictures::*;
use super::*;

/// The cells of each row of a table, the tables one after the other.
pub fn rows(page: &str) -> Vec<Vec<String>> {
    let tables = page.split("<table ").skip(1).map(|table| table.split("</table>").next().unwrap());
    let row = |row: &str| {
        let cells = row.replace("<td class=\"text\">", "<td>").replace("<th>", "<td>");
        cells.split("<td>").skip(1).map(|cell| cell.trim_end().replace('\u{2212}', "-")).collect()
    };
    tables.flat_map(|table| table.split("<tr").skip(1)).map(row).collect()
}

/// That a page asks for nothing but itself. Names of what SVG is look like addresses.
fn needs_nothing(page: &str) {
    let names = ["\"http://www.w3.org/2000/svg\"", "\"http://www.w3.org/1999/xlink\""];
    let own = names.iter().fold(page.to_string(), |page, name| page.replace(name, ""));
    for asked in
        ["http", "src=", "href=", "url(", "@import", "<script", "<link", "<iframe", "<object", "<!ENTITY", "<?xml"]
    {
        assert!(!own.contains(asked), "{asked}");
    }
    assert!(page.starts_with("<!DOCTYPE html>\n<html lang=\"en\">\n<head>\n<meta charset=\"utf-8\">\n"));
    assert!(page.ends_with("</body>\n</html>\n"));
}

const P3_FIGURES: &str = "inputs 5 nodes 2 outputs 1 before 4 after 2 rounds 2 own 1 others 1\n";
const NO_GRAPHVIZ: &str =
    "no pictures: Graphviz is not there: no program dot was found; it comes with the package graphviz";

/// P3's rows. An inverter has 13 cells and a majority 5: 4 * 13 + 2 * 5 before, 2 * 13 + 2 * 5 after.
fn p3_rows() -> Vec<Vec<String>> {
    let rows: [&[&str]; 20] = [
        &["", "before", "after", "change"],
        &["inputs", "5", "5", ""],
        &["outputs", "1", "1", ""],
        &["nodes", "2", "2", ""],
        &["of these majorities", "2", "2", ""],
        &["of these XORs", "0", "0", ""],
        &["of these locked", "0", "0", ""],
        &["depth", "2", "2", ""],
        &["complemented edges", "4", "2", "-2 (-50 %)"],
        &["among the words of the nodes that a call named", "", "", "-1"],
        &["among all other edges", "", "", "-1"],
        &["majorities with just one complemented input", "1", "2", "+1"],
        &["cells of inverters, 13 each", "52", "26", "-26 (-50 %)"],
        &["cells of majorities, 5 each", "10", "10", ""],
        &["cells of XORs, 12 each", "0", "0", ""],
        &["all cells", "62", "36", "-26 (-42 %)"],
        &["rounds", "", "2", ""],
        &["node", "kind", "move", "what the move turns", "words before", "words after"],
        &["6", "majority", "1", "words 1, 2 and 3 and every reader turn", "3 5 6", "2 4 7"],
        &["7", "majority", "1", "words 1, 2 and 3 and every reader turn", "12 9 10", "12 8 11"],
    ];
    rows.iter().map(|row| row.iter().map(|cell| cell.to_string()).collect()).collect()
}

#[test]
fn a_report_without_pictures() {
    let folder = with_dot("a_report_without_pictures", None);
    fs::write(folder.join("<p3> & \"so\""), p3()).unwrap();
    let output = run_with(&folder, &["report", "<p3> & \"so\"", "-o", "out"]);
    gives(&output, b"", &format!("{P3_FIGURES}{NO_GRAPHVIZ}\n"));
    let page = fs::read_to_string(folder.join("out")).unwrap();
    assert_eq!(rows(&page), p3_rows());
    needs_nothing(&page);
    assert!(page.contains("<title>&lt;p3&gt; &amp; &quot;so&quot;: complemented edges</title>\n"));
    assert!(page.contains("<h1>&lt;p3&gt; &amp; &quot;so&quot;</h1>\n"));
    let summary =
        "Settling made 2 rounds and took the graph from 4 complemented edges to 2: 26 cells fewer, with the same \
                   wiring and function.";
    assert!(page.contains(&format!("<p class=\"summary\">{summary}</p>\n")));
    assert!(page.contains(&format!("<p class=\"none\">There are {NO_GRAPHVIZ}.</p>\n")) && !page.contains("<figure>"));
    assert!(page.contains("<h2>Nodes that turned: 2 of 2</h2>\n"));
    // What Graphviz says is text, and no part of the page.
    let folder = with_dot("a_report_without_pictures_2", Some("echo 'no <b> here' >&2; exit 3"));
    let output = run_with(&folder, &["report", "in", "-o", "out"]);
    gives(&output, b"", &format!("{FIGURES}no pictures: Graphviz made no picture (exit status: 3): no <b> here\n"));
    let page = fs::read_to_string(folder.join("out")).unwrap();
    assert!(page.contains("There are no pictures: Graphviz made no picture (exit status: 3): no &lt;b&gt; here.</p>\n"));
    holds(&folder, &["bin", "in", "out"]);
}

/// The pictures stand in the page, without the head of an SVG file and with no name twice.
#[test]
fn a_report_with_pictures() {
    let script = "cat >/dev/null; echo '<?xml version=\"1.0\"?><!DOCTYPE svg><svg><g id=\"node1\"/></svg>'";
    let folder = with_dot("a_report_with_pictures", Some(script));
    gives(&run_with(&folder, &["report", "in", "-o", "out"]), b"", FIGURES);
    let page = fs::read_to_string(folder.join("out")).unwrap();
    needs_nothing(&page);
    let figure = |which| format!("<figure>\n<svg><g id=\"{which}_node1\"/></svg>\n</figure>\n");
    assert!(page.contains(&format!("<div class=\"pictures\">\n{}{}</div>\n", figure("before"), figure("after"))));
    assert!(page.contains("</svg>complemented edge\n") && page.contains("</svg>edge that turned\n"));
}

#[test]
fn a_report_of_graphviz() {
    if !has_graphviz() {
        return;
    }
    let output = run(&["report"], &p3());
    assert_eq!((said(&output).as_str(), output.status.code()), (P3_FIGURES, Some(0)));
    let page = text(&output.stdout);
    needs_nothing(page);
    assert_eq!(rows(page), p3_rows());
    let figures: Vec<&str> =
        page.split("<figure>").skip(1).map(|figure| figure.split("</figure>").next().unwrap()).collect();
    for (figure, which, dotted) in [
        (figures[0], "before", ["i1->n6", "i2->n6", "i4->n7", "n7->o1"].as_slice()),
        (figures[1], "after", &["i3->n6", "i5->n7"]),
    ] {
        let groups = groups_of(figure);
        let edges = groups.iter().filter(|group| group.class == "edge");
        let named = |part: &str| {
            let with = edges.clone().filter(|edge| edge.body.contains(part));
            let mut names: Vec<String> = with.map(|edge| edge.name.replace(&format!("{which}_"), "")).collect();
            names.sort();
            names
        };
        assert_eq!(named("<ellipse"), dotted, "{which}");
        let turned = ["i1->n6", "i2->n6", "i3->n6", "i4->n7", "i5->n7", "n7->o1"];
        assert_eq!(named("stroke=\"#d55e00\""), turned, "{which}");
        assert_eq!(edges.clone().count(), 7);
    }
    let names: Vec<&str> = page.split(" id=\"").skip(1).map(|rest| rest.split('"').next().unwrap()).collect();
    let mut once = names.clone();
    once.sort();
    once.dedup();
    assert_eq!(once.len(), names.len());
}

/// XORs of every move: worked out by hand, as the test of previews has them.
#[test]
fn moves_in_a_report() {
    let xors =
        tagged(&[(1, &[2, 4, 1]), (3, &[3, 4]), (3, &[7, 5]), (3, &[8, 5]), (3, &[10, 5]), (4, &[13]), (5, &[])]);
    let output = run(&["report"], &xors);
    let told = rows(text(&output.stdout));
    let cells = |row: &[&str]| row.iter().map(|cell| cell.to_string()).collect::<Vec<String>>();
    assert_eq!(told[15], cells(&["all cells", "126", "48", "-78 (-62 %)"]));
    assert_eq!(
        told[18..],
        [
            cells(&["3", "XOR", "2", "word 1 and every reader turn", "3 4", "2 4"]),
            cells(&["4", "XOR", "3", "word 2 and every reader turn", "7 5", "6 4"]),
            cells(&["5", "XOR", "1", "words 1 and 2 turn", "8 5", "8 4"]),
            cells(&["6", "XOR", "3", "word 2 and every reader turn", "10 5", "10 4"]),
        ]
    );
    // P8: no move lowers the number.
    let p8 = tagged(&[(1, &[2, 1, 1]), (2, &[2, 2, 5]), (4, &[6]), (5, &[])]);
    let output = run(&["report"], &p8);
    let page = text(&output.stdout);
    assert!(page.contains(">Settling made 1 round and found no move that lowers the 1 complemented edge.</p>\n"));
    assert!(page.contains("<h2>Nodes that turned: 0 of 1</h2>\n<p>None.</p>\n"));
    assert_eq!(rows(page)[8], cells(&["complemented edges", "1", "1", "0"]));
}

#[test]
fn a_report_of_a_part() {
    let folder = with_dot("a_report_of_a_part", Some("echo '<svg>'; cat; echo '</svg>'"));
    fs::write(folder.join("two"), two_trees()).unwrap();
    let output = run_with(&folder, &["report", "two", "--output", "1", "-o", "out"]);
    let line = "drawn: output 1 and 1 node that it rests on\n";
    gives(&output, b"", &format!("inputs 3 nodes 3 outputs 2 before 6 after 1 rounds 2 own 5 others 0\n{line}"));
    let page = fs::read_to_string(folder.join("out")).unwrap();
    assert!(page.contains(
        "label=\"before\\noutput 1 and 1 node that it rests on\\n4 complemented edges of the whole graph's 6,"
    ));
    fs::write(folder.join("out"), "old").unwrap();
    for (words, why) in [
        (["--output", "3"], "there is no output 3: outputs are 1 to 2"),
        (["--root", "5"], "refused 7: there is no such node, root or word; 5 is no root: it is in the tree of root 6"),
    ] {
        let output = run_with(&folder, &[&["report", "two", "-o", "out"], &words[..]].concat());
        stops(&output, 1, &format!("panjerov: two: {why}\n"));
    }
    let long = "panjerov: standard input: refused 6: there are bytes after the end field; \
                byte 40, after the end field: 1 byte more, and none is due\n";
    stops(&run_in(&folder, &["report", "-o", "out"], &[p1(), vec![0]].concat()), 1, long);
    assert_eq!(fs::read(folder.join("out")).unwrap(), b"old");
    holds(&folder, &["bin", "in", "out", "two"]);
}

/// A graph at the limits: no pictures, and every node that turned. Each third node reads both its inputs complemented; it turns,
/// and then its constant is the one complemented edge.
#[test]
fn a_report_at_the_limits() {
    let mut given = "aag 104096 4096 0 0 100000\n".to_string();
    (1..=4_096).for_each(|input| given += &format!("{}\n", 2 * input));
    (0..100_000).for_each(|at| {
        let complemented = u32::from(at % 3 == 0);
        let [x, y] = [at, at + 1].map(|input| 2 * (1 + input % 4_096) + complemented);
        given += &format!("{} {x} {y}\n", 2 * (4_097 + at));
    });
    let start = Instant::now();
    let output = run(&["report"], given.as_bytes());
    assert!(start.elapsed() < Duration::from_secs(5));
    let figures = "inputs 4096 nodes 100000 outputs 0 before 66668 after 33334 rounds 2 own 33334 others 0\n";
    let none = "no pictures: 4096 inputs, 100000 nodes, 0 outputs are too many for one picture, which takes 300 nodes, and 600 \
                inputs, nodes and outputs together; --root R draws a tree, and `panjerov preview` tells the roots";
    assert_eq!(said(&output), format!("{figures}{none}\n"));
    let page = text(&output.stdout);
    needs_nothing(page);
    assert!(page.contains(&format!("<p class=\"none\">There are {none}.</p>\n")));
    assert_eq!(rows(page)[15][1..], ["1,366,684", "933,342", "-433,342 (-32 %)"]);
    let nodes: Vec<String> = (4_097..=104_096).step_by(3).map(|node| node.to_string()).collect();
    let head = "<strong>majority, move 1: words 1, 2 and 3 and every reader turn; nodes: 33,334</strong>";
    assert!(page.contains("<h2>Nodes that turned: 33,334 of 100,000</h2>\n"));
    assert!(page.contains(&format!("<p>{head}<br>{}</p>\n", nodes.join(", "))));
}
