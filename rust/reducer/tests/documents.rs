//! What the documents for users say of files and refusals is so.

use reducer::{Graph, Names, Refusal, ReplayRefusal};

fn document(name: &str) -> String {
    std::fs::read_to_string(format!("{}/../../docs/{name}", env!("CARGO_MANIFEST_DIR"))).unwrap()
}

/// The lines of the document's blocks, block by block.
fn blocks(text: &str) -> Vec<Vec<&str>> {
    text.split("```").skip(1).step_by(2).map(|block| block.lines().skip(1).collect()).collect()
}

#[test]
fn the_format() {
    let text = document("FORMAT.md");
    let blocks = blocks(&text);
    // Bytes stand before the words, which are parted from them by five spaces or more.
    let bytes: Vec<u8> = blocks[0]
        .iter()
        .flat_map(|line| line.split("     ").next().unwrap().split_whitespace())
        .map(|byte| u8::from_str_radix(byte, 16).unwrap())
        .collect();
    let p1 = Graph::new(3, vec![3, 5, 7], vec![9]);
    assert_eq!(bytes, p1.write().unwrap());
    assert_eq!(bytes.len(), 40);
    let mut locked = p1.clone();
    locked.lock(4).unwrap();
    let with_lock = [&bytes[..37], &[6, 0, 4, 0, 0, 0, 4], &bytes[37..]].concat();
    assert_eq!(locked.write().unwrap(), with_lock);
    assert!(text.contains("`06 00 04  00 00 00 04`"));
    let names = Names::of_symbols(b"i0 x[0]\no0 sum[2]\n", 3, 1).0;
    assert_eq!(names.beside(&bytes).lines().collect::<Vec<_>>(), blocks[1]);
}

/// The sum of FNV-1a over no bytes is its offset, as its description has it, and over "a" this.
#[test]
fn sums_of_names() {
    let sum = |file: &[u8]| Names::default().beside(file).lines().nth(1).map(String::from);
    assert_eq!(sum(b""), Some("file cbf29ce484222325".into()));
    assert_eq!(sum(b"a"), Some("file af63dc4c8601ec8c".into()));
}

#[test]
fn every_number() {
    let text = document("REFUSALS.md");
    let rows: Vec<Vec<&str>> =
        text.lines().filter(|line| line.starts_with("| ")).skip(1).map(|line| line.split(" | ").collect()).collect();
    assert_eq!(rows.len(), 20);
    for (number, row) in (0..).zip(&rows) {
        assert_eq!(row[0], format!("| {number}"));
        let why = Refusal::from_number(number).map(|refusal| refusal.to_string());
        assert_eq!(why, (number != 0).then(|| format!("refused {number}: {}", row[1])));
    }
    assert_eq!(Refusal::from_number(20), None);
}

#[test]
fn refusals_of_replays() {
    let told = |refusal: ReplayRefusal| -> String {
        let error: Box<dyn std::error::Error> = refusal.into();
        error.to_string()
    };
    assert_eq!(
        told(ReplayRefusal::LeftOver),
        "refused 101: words of the list are left over: they are not three a call"
    );
    assert_eq!(told(ReplayRefusal::UnknownKind), "refused 102: a call of the list has a kind that is none");
    let outside = "refused 105: a many call's part, or a majority call's triple, reaches past the end of the list";
    assert_eq!(told(ReplayRefusal::PartOutside), outside);
    let inner = ReplayRefusal::Refused(Refusal::ShortSlice);
    assert_eq!(told(inner), Refusal::ShortSlice.to_string());
    assert!(std::error::Error::source(&inner).is_some());
}
