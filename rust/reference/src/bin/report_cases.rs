//! Runs the report program on files and holds what it prints to stored texts and to this package's own report:
//!
//!     cargo run --release --manifest-path rust/reference/Cargo.toml --bin report_cases
//!
//! The small files stand in crates/settle_report/cases.txt. The large ones are made here: as many nodes, outputs and locks as the
//! program has room for, and what stands at and past the 65,536 bytes that it takes as the whole file.

use std::fs;
use std::io::Write;
use std::path::PathBuf;
use std::process::{exit, Command, Stdio};
use std::thread;

use reference::file::file_of;
use reference::generate::{graph, locked_one_in, small, with_locks, SHAPES};
use reference::graph::{Graph, MARK};
use reference::random::Random;
use reference::report::{report, MOST_BYTES, MOST_NODES, MOST_OUTPUTS};
use reference::vectors::samples::of;

struct Case {
    name: String,
    input: Vec<u8>,
    /// How many bytes are handed over at a time.
    at_once: usize,
    text: String,
}

/// A case whose text is this package's report.
fn case(name: &str, input: Vec<u8>) -> Case {
    Case {
        name: name.to_string(),
        text: report(&input),
        at_once: input.len().max(1),
        input,
    }
}

fn bytes_of(hex: &str) -> Vec<u8> {
    (0..hex.len() / 2)
        .map(|at| u8::from_str_radix(&hex[2 * at..2 * at + 2], 16).expect("hexadecimal"))
        .collect()
}

/// Blocks of a name, a file in hexadecimal and its report, parted by empty lines.
fn stored(text: &str) -> Vec<Case> {
    text.split("\n\n")
        .skip(1)
        .map(|block| {
            let mut parts = block.trim_end().splitn(3, '\n');
            let mut part = || {
                parts
                    .next()
                    .expect("a name, a file and its report")
                    .to_string()
            };
            let (name, input, text) = (part(), bytes_of(&part()), part() + "\n");
            assert_eq!(report(&input), text, "the reference at {name}");
            Case {
                text,
                ..case(&name, input)
            }
        })
        .collect()
}

/// Majorities and outputs as many as the program's tables hold, every node free.
fn largest(random: &mut Random) -> Graph {
    let mut g = graph(
        random,
        SHAPES[0],
        40,
        MOST_NODES as u32,
        MOST_OUTPUTS as u32,
    );
    for word in g.node_table.iter_mut().filter(|word| **word == MARK) {
        *word = 5;
    }
    g
}

/// The same file with the first so many nodes locked: each is a field of 7 bytes.
fn locked(g: &Graph, many: usize) -> Vec<u8> {
    let mut g = g.clone();
    g.locks[..many].fill(1);
    file_of(&g)
}

/// Locks up to the last byte that the program takes, and past it: 58,690 bytes and 7 * 978 are 65,536, and 979 locks are cut.
fn many_locks(g: &Graph) -> Vec<Case> {
    let whole = locked(g, 978);
    assert_eq!(whole.len(), MOST_BYTES);
    let mut equal = whole.clone();
    let last = MOST_BYTES - 4;
    equal[last] -= 1;
    let mut none = whole.clone();
    none[last - 3..=last].copy_from_slice(&(g.inputs + g.nodes + 1).to_be_bytes());
    vec![
        case("978 nodes of 2,000 locked, in 65,536 bytes", whole.clone()),
        case(
            "978 nodes locked, less the last byte",
            whole[..MOST_BYTES - 1].to_vec(),
        ),
        case(
            "978 nodes locked, and more bytes",
            followed(&whole, MOST_BYTES + 9),
        ),
        case("the last lock equal to the one before", equal),
        case("the last lock at no node", none),
        case("979 nodes locked", locked(g, 979)),
        case("all of 2,000 nodes locked", locked(g, MOST_NODES)),
    ]
}

fn followed(file: &[u8], length: usize) -> Vec<u8> {
    let mut longer = file.to_vec();
    longer.resize(length, 0);
    longer
}

fn large(random: &mut Random) -> Vec<Case> {
    let g = largest(random);
    let largest = file_of(&g);
    assert_eq!(largest.len(), 58_690);
    let p1 = file_of(&of(3, &[[3, 5, 7]], &[9]));
    // 15 + 15 * 4,366 + 7 * 4 + 3 bytes: the whole of the buffer, and more nodes than the tables hold.
    let whole = file_of(&of(1, &vec![[2, 2, 3]; 4_366], &[2, 2, 2, 2]));
    assert_eq!(whole.len(), MOST_BYTES);
    let too_many = of(1, &vec![[2, 2, 3]; MOST_NODES + 1], &[2]);
    let mut damaged = largest.clone();
    damaged[58_690 - 10] = 6;
    let few = locked_one_in(random, g.clone(), 5);
    let mut all = many_locks(&g);
    all.extend([
        case("the largest file with some nodes locked", file_of(&few)),
        case("the largest file", largest.clone()),
        case(
            "the largest file less its last byte",
            largest[..58_689].to_vec(),
        ),
        case(
            "the largest file and one byte more",
            followed(&largest, 58_691),
        ),
        case("the largest file with a lock for its last output", damaged),
        case("2,001 nodes", file_of(&too_many)),
        case("a valid file of 65,536 bytes", whole.clone()),
        case(
            "a valid file of 65,536 bytes, less one",
            whole[..MOST_BYTES - 1].to_vec(),
        ),
        case(
            "a valid file of 65,536 bytes, and more",
            followed(&whole, 100_000),
        ),
    ]);
    for length in [MOST_BYTES - 1, MOST_BYTES, MOST_BYTES + 1, 1_000_000] {
        all.push(case(
            &format!("P1 and zeros to {length} bytes"),
            followed(&p1, length),
        ));
        all.push(case(
            &format!("the largest file and zeros to {length} bytes"),
            followed(&largest, length),
        ));
    }
    for at_once in [1_000, 4_096, 40_000] {
        all.push(Case {
            at_once,
            ..case(
                &format!("the largest file, {at_once} bytes at once"),
                largest.clone(),
            )
        });
    }
    all
}

fn generated(random: &mut Random) -> Vec<Case> {
    let mut graphs: Vec<Graph> = (0..60).map(|_| small(random, 9, 12, 6)).collect();
    graphs.extend(SHAPES.map(|shape| graph(random, shape, 40, 1_500, 300)));
    let mut all = Vec::new();
    for (at, g) in graphs.into_iter().enumerate() {
        let index = random.below(g.inputs + g.nodes + 2);
        let file = file_of(&with_locks(random, g));
        let cut = random.below(file.len() as u32) as usize;
        all.push(case(&format!("generated file {at}"), file.clone()));
        all.push(case(
            &format!("generated file {at}, cut"),
            file[..cut].to_vec(),
        ));
        all.push(case(
            &format!("generated file {at}, a lock more"),
            with_lock(file, index),
        ));
    }
    all
}

/// The file with one field 06 more before its end.
fn with_lock(mut file: Vec<u8>, index: u32) -> Vec<u8> {
    let end = file.len() - 3;
    file.splice(end..end, [&[6, 0, 4], &index.to_be_bytes()[..]].concat());
    file
}

/// What the program prints; it may stop reading before all is handed over.
fn printed(program: &PathBuf, case: &Case) -> String {
    let mut child = Command::new(program)
        .stdin(Stdio::piped())
        .stdout(Stdio::piped())
        .spawn()
        .expect("crates/settle_report/out/settle_report, which `tools/build settle-report` builds");
    let mut pipe = child.stdin.take().expect("a pipe");
    let output = thread::scope(|scope| {
        scope.spawn(move || {
            for part in case.input.chunks(case.at_once) {
                if pipe.write_all(part).is_err() {
                    return;
                }
            }
        });
        child.wait_with_output().expect("the program's output")
    });
    assert!(output.status.success(), "the status at {}", case.name);
    String::from_utf8(output.stdout).expect("text")
}

fn main() {
    let root = PathBuf::from(env!("CARGO_MANIFEST_DIR")).join("../..");
    let program = root.join("crates/settle_report/out/settle_report");
    let text = fs::read_to_string(root.join("crates/settle_report/cases.txt")).expect("the cases");
    let mut random = Random::new(65_536);
    let mut cases = stored(&text);
    cases.extend(large(&mut random));
    cases.extend(generated(&mut random));
    let differing: Vec<&Case> = cases
        .iter()
        .filter(|case| printed(&program, case) != case.text)
        .collect();
    for case in &differing {
        println!("report_cases: another text: {}", case.name);
    }
    println!(
        "report_cases: {} files, {} differ",
        cases.len(),
        differing.len()
    );
    exit(!differing.is_empty() as i32);
}
