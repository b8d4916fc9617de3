//! Where files and texts are refused: beside the proved readers, whose number is told.

use std::error::Error;

use reducer::{aiger, place, Graph, Refusal, Refused, ReplayRefusal};

const TEXT: &[u8] = b"aag 4 2 0 2 2\n2\n4\n6\n9\n6 4 3\n8 7 2\nc\nafter it\n";

/// P2 of document 01 with these indices locked: fields 06 begin at byte 52, 7 bytes apart.
fn locked(indices: &[u32]) -> Vec<u8> {
    let mut file = Graph::new(5, vec![3, 5, 6, 13, 8, 11], vec![14]).write().unwrap();
    let fields: Vec<u8> = indices.iter().flat_map(|index| [&[6, 0, 4], &index.to_be_bytes()[..]].concat()).collect();
    file.splice(52..52, fields);
    file
}

fn text_agrees(text: &[u8]) {
    let told = place::of_text(text).map(|place| place.refusal);
    assert_eq!(told, Graph::import(text).err(), "{:?}", text.escape_ascii());
}

fn file_agrees(file: &[u8]) {
    let told = place::of_file(file).map(|place| place.refusal);
    assert_eq!(told, Graph::load(file).err(), "{file:?}");
}

/// With each place cut off, changed to each byte, and each byte put in there.
fn damaged(whole: &[u8], agrees: impl Fn(&[u8])) {
    for at in 0..whole.len() {
        let (before, after) = whole.split_at(at);
        agrees(before);
        agrees(&[before, &after[1..]].concat());
        for byte in 0..=255 {
            agrees(&[before, &[byte], after].concat());
            agrees(&[before, &[byte], &after[1..]].concat());
        }
    }
}

#[test]
fn both_readers_of_texts_agree() {
    damaged(TEXT, text_agrees);
    let words =
        ["", "0", "00", "10", "4096", "4097", "100000", "100001", "4294967295", "4294967296", "99999999999999999999"];
    let lines: Vec<&[u8]> = TEXT.split_inclusive(|&byte| byte == b'\n').collect();
    for (at, line) in lines.iter().enumerate() {
        let parts: Vec<&[u8]> = line.split(|&byte| byte == b' ').collect();
        for (place, word) in (0..parts.len()).flat_map(|place| words.map(|word| (place, word))) {
            let mut parts = parts.clone();
            let ended = format!("{word}\n");
            parts[place] = if place + 1 == parts.len() { ended.as_bytes() } else { word.as_bytes() };
            text_agrees(&[lines[..at].concat(), parts.join(&b' '), lines[at + 1..].concat()].concat());
        }
    }
}

#[test]
fn both_readers_of_files_agree() {
    damaged(&locked(&[6, 7]), file_agrees);
    damaged(&Graph::new(2, vec![2, 4, reducer::MARK, 6, 3, 0], vec![8, 7]).write().unwrap(), file_agrees);
    for indices in [&[5][..], &[6, 8], &[u32::MAX], &[7, 6], &[6, 7, 7], &[7]] {
        file_agrees(&locked(indices));
    }
}

fn told(bytes: &[u8]) -> String {
    place::of(bytes).map_or("none".into(), |place| format!("{} {place}", place.refusal.number()))
}

/// The bytes of a case: a text with its escapes, or hexadecimal.
fn bytes_of(written: &str) -> Vec<u8> {
    if written.starts_with("aag") {
        let signs = [("\\n", "\n"), ("\\r", "\r"), ("\\t", "\t"), ("\\\\", "\\")];
        return signs.iter().fold(written.to_string(), |text, (escape, sign)| text.replace(escape, sign)).into_bytes();
    }
    let byte = |at: usize| u8::from_str_radix(&written[at..at + 2], 16).unwrap();
    (0..written.len()).step_by(2).map(byte).collect()
}

/// What stands there and what is due, as the cases have it that the Python module's tests read too.
#[test]
fn sentences() {
    let cases = include_str!("places.txt").lines().filter(|line| !line.starts_with('#'));
    let mut many = 0;
    for (written, due) in cases.map(|line| line.split_once('\t').unwrap()) {
        assert_eq!(told(&bytes_of(written)), due, "{written}");
        many += 1;
    }
    assert!(many >= 30, "{many}");
}

/// What `read` refuses says number, cause and place.
#[test]
fn refusals_with_their_place() {
    let refused = reducer::read(b"aag 1 1 0 1 0\n2\n4\n").unwrap_err();
    assert_eq!(refused.refusal, Refusal::BadLiteral);
    assert_eq!(refused.place.as_ref().and_then(|place| place.line), Some(3));
    let due = "refused 5: a literal names an index that is not allowed there; \
               line 3, output 1 of 1: it is literal 4, which names index 2, and 1 is the highest allowed there";
    assert_eq!(refused.to_string(), due);
    let boxed: Box<dyn Error> = refused.into();
    assert_eq!(boxed.source().map(ToString::to_string), Some(Refusal::BadLiteral.to_string()));
    assert_eq!(reducer::read(&[2]).unwrap_err().place.unwrap().byte, Some(0));
}

/// What each says, and what lies behind it, for who has errors of any kind.
fn chain(error: impl Error + Send + Sync + 'static) -> Vec<String> {
    let boxed: Box<dyn Error + Send + Sync> = error.into();
    let rest = std::iter::successors(boxed.source(), |&error| error.source());
    [boxed.to_string()].into_iter().chain(rest.map(ToString::to_string)).collect()
}

#[test]
fn every_refusal_is_an_error() {
    let latches = "refused 11: there are latches".to_string();
    assert_eq!(chain(Refusal::HasLatches), [latches.clone()]);
    assert_eq!(chain(ReplayRefusal::Refused(Refusal::HasLatches)), [latches.clone(), latches.clone()]);
    assert_eq!(chain(ReplayRefusal::LeftOver).len(), 1);
    assert_eq!(chain(Refused::from(Refusal::HasLatches)), [latches.clone(), latches.clone()]);
    let place = aiger::plain(b"aag 1 0 1 0 0\n").unwrap_err();
    assert_eq!(chain(place.clone()), [place.to_string(), latches.clone()]);
    assert_eq!(chain(Refused::from(place.clone())), [format!("{latches}; {place}"), latches]);
}
