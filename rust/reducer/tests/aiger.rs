//! AIGER as tools write it.

use reducer::{aiger, read, Format, Graph, Names};

/// A half adder, as the description of the format has it: numbers with gaps, the first gate above those that it reads.
const HALF_ADDER: &str = "aag 7 2 0 2 3\n2\n4\n6\n12\n6 13 15\n12 2 4\n14 3 5\n";
/// The same in the binary format.
const BINARY: &[u8] = b"aig 5 2 0 2 3\n10\n6\n\x02\x02\x03\x02\x01\x02";
const NUMBERS: &str = "its numbers have gaps or another order: inputs are numbered in its order, then gates anew";

fn plain(bytes: &[u8]) -> (String, Vec<String>) {
    let plain = aiger::plain(bytes).unwrap();
    assert!(Graph::import(&plain.text).is_ok());
    (String::from_utf8(plain.text).unwrap(), plain.told)
}

fn refused(bytes: &[u8]) -> String {
    let place = aiger::plain(bytes).unwrap_err();
    format!("{} {place}", place.refusal.number())
}

/// What a column of a case stands for.
fn unescaped(column: &str) -> Vec<u8> {
    let mut signs = column.bytes();
    let mut bytes = Vec::new();
    while let Some(sign) = signs.next() {
        bytes.push(match (sign, (sign == b'\\').then(|| signs.next().unwrap())) {
            (_, Some(b'n')) => b'\n',
            (_, Some(b'r')) => b'\r',
            (_, Some(b't')) => b'\t',
            (_, Some(b'x')) => {
                let digits = String::from_utf8(signs.by_ref().take(2).collect()).unwrap();
                u8::from_str_radix(&digits, 16).unwrap()
            }
            (_, Some(other)) => other,
            (sign, None) => sign,
        });
    }
    bytes
}

/// What is made of a file, as the cases have it.
fn columns(file: &[u8]) -> Vec<Vec<u8>> {
    match aiger::plain(file) {
        Ok(plain) => {
            assert!(Graph::import(&plain.text).is_ok());
            let told = plain.told.into_iter().map(String::into_bytes);
            [plain.text, plain.names.symbols().into_bytes()].into_iter().chain(told).collect()
        }
        Err(place) => vec![format!("{} {place}", place.refusal.number()).into_bytes()],
    }
}

/// Numbers, layouts, refusals and names, as the cases have them that the Python module's tests read too.
#[test]
fn files() {
    let cases = include_str!("files.txt").lines().filter(|line| !line.starts_with('#'));
    let mut many = 0;
    for line in cases {
        let mut due = line.split('\t').map(unescaped);
        let file = due.next().unwrap();
        assert_eq!(columns(&file), due.collect::<Vec<_>>(), "{line}");
        many += 1;
    }
    assert!(many >= 50, "{many}");
}

/// The Python module, which the cases are held to as well, tells the carriage return of this one.
#[test]
fn a_header_alone() {
    assert_eq!(columns(b"aig 5 2 0 2 3\r\n"), [b"10 line 2, output 1 of 2: the text ends before it"]);
}

#[test]
fn binary_files() {
    let text = "aag 5 2 0 2 3\n2\n4\n10\n6\n6 4 2\n8 5 3\n10 9 7\n";
    assert_eq!(plain(BINARY), (text.into(), vec![]));
    assert_eq!(aiger::binary(text.as_bytes()).unwrap(), BINARY);
    // Words in the other order are the same AND.
    assert_eq!(aiger::binary(text.replace("6 4 2", "6 2 4").as_bytes()).unwrap(), BINARY);
    // Far below: 2 * 65 - 1 is 129, two bytes with the lowest seven bits first.
    let far = b"aig 65 64 0 1 1\n130\n\x81\x01\x00";
    assert!(plain(far).0.ends_with("\n130\n130 1 1\n"));
    assert_eq!(aiger::binary(plain(far).0.as_bytes()).unwrap(), far);
    let read = read(BINARY).unwrap();
    assert_eq!((read.format, read.graph.size.nodes), (Format::BinaryAiger, 3));
    assert_eq!(read.graph, Graph::new(2, vec![0, 4, 2, 0, 5, 3, 0, 9, 7], vec![10, 6]));
}

/// Every example goes there and back.
#[test]
fn binary_and_back() {
    for entry in std::fs::read_dir(concat!(env!("CARGO_MANIFEST_DIR"), "/../../examples")).unwrap() {
        let path = entry.unwrap().path();
        if path.extension().is_none_or(|ending| ending != "aag") {
            continue;
        }
        let text = std::fs::read(&path).unwrap();
        let symbols = aiger::plain(&text).unwrap().names.symbols();
        let binary = [aiger::binary(&text).unwrap(), symbols.clone().into_bytes()].concat();
        let (there, back) = (read(&text).unwrap(), read(&binary).unwrap());
        assert!(!symbols.is_empty() && there.told.is_empty() && back.told.is_empty());
        assert_eq!(there.names, back.names);
        let words: Vec<u64> =
            (1..=u64::from(there.graph.size.inputs)).map(|k| k.wrapping_mul(0x9e37_79b9_7f4a_7c15)).collect();
        assert_eq!(there.graph.evaluate(&words), back.graph.evaluate(&words));
        assert_eq!(there.graph.size, back.graph.size);
    }
}

#[test]
fn numbers_in_another_order() {
    let text = "aag 5 2 0 2 3\n2\n4\n10\n6\n6 2 4\n8 3 5\n10 7 9\n";
    assert_eq!(plain(HALF_ADDER.as_bytes()), (text.into(), vec![NUMBERS.into()]));
    // Inputs keep the order of the file.
    let inputs = "aag 3 2 0 1 1\n4\n2\n6\n6 4 3\n";
    assert_eq!(plain(inputs.as_bytes()), ("aag 3 2 0 1 1\n2\n4\n6\n6 2 5\n".into(), vec![NUMBERS.into()]));
    // A gate below its inputs, and numbers as high as there are.
    let low = "aag 2147483647 1 0 2 1\n4294967294\n2\n4294967295\n2 4294967294 1\n";
    assert_eq!(plain(low.as_bytes()), ("aag 2 1 0 2 1\n2\n4\n3\n4 2 1\n".into(), vec![NUMBERS.into()]));
    // A long chain, the last gate first.
    let gates: String = (1..=100_000).rev().map(|at| format!("{} {} {}\n", 2 * at + 2, 2 * at, 1)).collect();
    let chain = format!("aag 100001 1 0 1 100000\n2\n200002\n{gates}");
    assert!(plain(chain.as_bytes()).0.ends_with("\n200000 199998 1\n200002 200000 1\n"));
}

#[test]
fn layouts() {
    let text = "aag 3 2 0 1 1\n2\n4\n6\n6 5 2\n";
    let put_right = |bytes: &str, told: &[&str]| {
        assert_eq!(plain(bytes.as_bytes()), (text.into(), told.iter().map(|line| line.to_string()).collect()));
    };
    put_right(text, &[]);
    let [returns, unended, counts] = [
        "its lines end in carriage returns, which are passed over",
        "no newline ends its last line, which is taken all the same",
        "its header is one of AIGER 1.9, whose further counts are all 0",
    ];
    put_right(&text.replace('\n', "\r\n"), &[returns]);
    put_right(text.trim_end(), &[unended]);
    put_right(&text.replace("0 1 1\n", "0 1 1 0\n"), &[counts]);
    put_right(&text.replace("0 1 1\n", "0 1 1 0 0 0 0\n"), &[counts]);
    let all = text.replace("0 1 1\n", "0 1 1 0 0\n").replace("aag 3", "aag 9").replace('\n', "\r\n");
    put_right(all.trim_end(), &[returns, unended, counts, NUMBERS]);
    assert_eq!(aiger::plain(b"aig 1 1 0 1 0 0 0\n3\n").unwrap().told, [counts]);
}

#[test]
fn refusals() {
    let latches = "11 line 1, the header: it says 2 latches; make each an input and an output first, by";
    let (yosys, abc) = (
        "yosys -p \"read_aiger OLD.aag; write_aiger OLD.aig\"",
        "berkeley-abc -c \"read_aiger OLD.aig; comb; write_aiger NEW.aig\"",
    );
    assert_eq!(refused(b"aag 5 1 2 0 2\n"), format!("{latches} {yosys} and {abc}"));
    assert_eq!(refused(b"aig 5 1 2 0 2\n"), format!("{latches} {abc}"));
    let counts =
        "the counts after the fifth are of bad states, constraints, justice and fairness, of which none can be read";
    assert_eq!(refused(b"aag 1 1 0 0 0 1\n2\n2\n"), format!("10 line 1, the header: {counts}"));
    let twice = "12 line 4, gate 2 of 2: literal 4 stands there, and an input or gate before has it already";
    assert_eq!(refused(b"aag 3 1 0 0 2\n2\n4 2 2\n4 3 3\n"), twice);
    let circle = "5 line 4, gate 2 of 2: literal 4 leads back to the gate itself: there is a circle";
    assert_eq!(refused(b"aag 3 1 0 0 2\n2\n4 6 2\n6 4 2\n"), circle);
    assert_eq!(
        refused(b"aag 2 1 0 0 1\n2\n4 4 2\n"),
        "5 line 3, gate 1 of 1: literal 4 leads back to the gate itself: there is a circle"
    );
    let nothing = "literal 6 names index 3, which is neither an input's nor a gate's";
    assert_eq!(refused(b"aag 3 1 0 1 1\n2\n4\n4 2 6\n"), format!("5 line 4, gate 1 of 1: {nothing}"));
    assert_eq!(refused(b"aag 3 1 0 1 1\n2\n6\n4 2 2\n"), format!("5 line 3, output 1 of 1: {nothing}"));
    assert_eq!(
        refused(b"aag 3 2 0 0 1\n2\n4\n7 2 4\n"),
        "12 line 4, gate 1 of 1: literal 7 stands there, and 6 is due"
    );
    assert_eq!(
        refused(b"aag 3 2 0 0 1\n2\n0\n6 2 4\n"),
        "12 line 3, input 2 of 2: literal 0 stands there, and 4 is due"
    );
    assert_eq!(refused(b"aig 5 2 0 0 2\n\x02\x02\x02\x02"), "12 line 1, the header: M is 5, and I + A is 4");
    assert_eq!(refused(b"aig 4 2 0 1 2\n2\n\x02\x02\x02"), "10 byte 18, gate 2 of 2: the file ends within it");
    assert_eq!(
        refused(b"aig 3 2 0 0 1\n\xff\xff\xff\xff\xff\x01"),
        "10 byte 14, gate 1 of 1: it has a number of more than 32 bits"
    );
    let below = |first, second| {
        format!("5 byte 14, gate 1 of 1: its words lie {first} and then {second} below its literal 6, which is too far or not below")
    };
    assert_eq!(refused(b"aig 3 2 0 0 1\n\x00\x02"), below(0, 2));
    assert_eq!(refused(b"aig 3 2 0 0 1\n\x07\x00"), below(7, 0));
    assert_eq!(refused(b"aig 3 2 0 0 1\n\x02\x05"), below(2, 5));
    let text = "its lines do not end in newlines alone, as after a transfer as text; a binary file must come as it is";
    assert_eq!(refused(b"aig 3 2 0 0 1\r\n\x02\x02"), format!("10 line 1, the header: {text}"));
}

fn names(symbols: &str) -> (String, Vec<String>) {
    let (names, told) = Names::of_symbols(symbols.as_bytes(), 2, 1);
    (names.symbols(), told)
}

#[test]
fn symbols() {
    let all = "i0 x[0]\ni1 a name\no0 sum[2]\n";
    assert_eq!(names(all), (all.into(), vec![]));
    assert_eq!(names(&format!("{all}c\ni0 y\n")), (all.into(), vec![]));
    assert_eq!(names(&all.replace('\n', "\r\n")), (all.into(), vec![]));
    assert_eq!(names("o0 s"), ("o0 s\n".into(), vec![]));
    // ABC's comment begins without a newline; one of another kind is a constraint's name.
    assert_eq!(names("i1 b\ncn\u{0}\u{0}adder"), ("i1 b\n".into(), vec![]));
    let out = |symbol: &str, why: &str| vec![format!("the name {symbol} is left out: {why}")];
    assert_eq!(names("i2 z\ni0 x\n"), ("i0 x\n".into(), out("i2 z", "there are 2 inputs")));
    assert_eq!(names("o1 z\n").1, out("o1 z", "there is 1 output"));
    assert_eq!(names("o99999999999999999999999 z\n").1, out("o99999999999999999999999 z", "there is 1 output"));
    assert_eq!(names("i0 x\ni0 y\n"), ("i0 x\n".into(), out("i0 y", "input 1 is x already")));
    assert_eq!(names("l0 q\nc0 r\n").1.len(), 2);
    assert_eq!(names("i0 \n").1, out("i0 ", "it is empty"));
    assert_eq!(names("i0 a\tb\n").1, out("i0 a\\tb", "it has control characters"));
    let many = names(&"i7 x\n".repeat(9)).1;
    assert_eq!((many.len(), many[3].as_str()), (4, "so are 6 further names"));
}

#[test]
fn names_beside_a_file() {
    let graph = Graph::new(2, vec![2, 4, 0], vec![6]);
    let (file, names) = (graph.write().unwrap(), Names::of_symbols(b"i1 b\no0 and\n", 2, 1).0);
    let beside = names.beside(&file);
    assert!(beside.starts_with("panjerov names 1\nfile ") && beside.ends_with("\ni1 b\no0 and\n"));
    assert_eq!(Names::of_beside(beside.as_bytes(), &file, graph.size), (names.clone(), vec![]));
    // Those of another graph, even of the same wiring, are never taken.
    let other = Graph::new(2, vec![3, 5, 0], vec![7]);
    let (none, told) = Names::of_beside(beside.as_bytes(), &other.write().unwrap(), other.size);
    assert!(none.is_empty());
    assert_eq!(told, ["its names are those of another graph, and are left out"]);
    let (none, told) = Names::of_beside(b"i0 a\n", &file, graph.size);
    assert!(none.is_empty());
    assert_eq!(told, ["it does not begin as a file of names does, and is left out"]);
}
