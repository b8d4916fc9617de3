use crate::file::{file_of, load, write};
use crate::graph::{Graph, MARK};
use crate::report::report;
use crate::vectors::samples::of;

fn p2() -> Graph {
    of(5, &[[3, 5, 6], [13, 8, 11]], &[14])
}

/// P2's head, nodes and output, and the end.
const FRONT: [u8; 52] = [
    1, 0, 12, 0, 0, 0, 5, 0, 0, 0, 2, 0, 0, 0, 1, 2, 0, 12, 0, 0, 0, 3, 0, 0, 0, 5, 0, 0, 0, 6, 2,
    0, 12, 0, 0, 0, 13, 0, 0, 0, 8, 0, 0, 0, 11, 4, 0, 4, 0, 0, 0, 14,
];
const END: [u8; 3] = [5, 0, 0];

fn lock(index: u32) -> Vec<u8> {
    [&[6, 0, 4][..], &index.to_be_bytes()].concat()
}

fn file_with(fields: &[Vec<u8>]) -> Vec<u8> {
    [&FRONT[..], &fields.concat(), &END].concat()
}

/// The number that refuses a file, or 0 with the first two of four lock bytes, which held 7 before. A refused file has left all.
fn loaded(file: &[u8]) -> (u32, [u8; 2]) {
    let (mut words, mut outputs, mut locks) = ([77; 6], [77; 1], [7; 4]);
    let answer = load(file, &mut words, &mut outputs, &mut locks);
    assert_eq!(locks[2..], [7, 7]);
    match answer {
        Ok(numbers) => {
            assert_eq!(numbers, (5, 2, 1));
            assert_eq!((words, outputs), ([3, 5, 6, 13, 8, 11], [14]));
            (0, [locks[0], locks[1]])
        }
        Err(number) => {
            assert_eq!((words, outputs), ([77; 6], [77; 1]));
            (number, [locks[0], locks[1]])
        }
    }
}

#[test]
fn files_with_locks() {
    for (named, locks) in [
        (&[][..], [0, 0]),
        (&[6], [1, 0]),
        (&[7], [0, 1]),
        (&[6, 7], [1, 1]),
    ] {
        let fields: Vec<Vec<u8>> = named.iter().map(|&index| lock(index)).collect();
        assert_eq!(loaded(&file_with(&fields)), (0, locks));
        assert_eq!(file_of(&p2().locked_at(named)), file_with(&fields));
    }
    // A lock byte past the nodes says nothing.
    let mut tailed = p2();
    tailed.locks.extend([1, 200]);
    assert_eq!(file_of(&tailed), file_with(&[]));
    // As many as there may be: 15 bytes a majority and 7 a lock, 7 an output, 18 for the rest.
    let all = of(5, &[[3, 5, 6], [13, 8, 11]], &[14]).locked_at(&[6, 7]);
    assert_eq!(file_of(&all).len(), 18 + 22 * 2 + 7);
    assert_eq!(write(&all, &mut [3; 68]), Err(9));
    assert_eq!(write(&all, &mut [3; 69]), Ok(69));
}

#[test]
fn locks_refused_by_13() {
    let kept = |number| (number, [7, 7]);
    for named in [
        &[0][..],
        &[5],
        &[8],
        &[MARK],
        &[6, 6],
        &[7, 7],
        &[7, 6],
        &[6, 7, 7],
        &[6, 7, 8],
        &[5, 6],
        &[8, 6],
    ] {
        let fields: Vec<Vec<u8>> = named.iter().map(|&index| lock(index)).collect();
        assert_eq!(loaded(&file_with(&fields)), kept(13), "{named:?}");
    }
    // The first fault from front to back: what follows a wrong lock is not looked at.
    assert_eq!(
        loaded(&[&FRONT[..], &lock(8), &[9, 9, 9]].concat()),
        kept(13)
    );
    assert_eq!(loaded(&[&FRONT[..], &lock(8)].concat()), kept(13));
    assert_eq!(
        loaded(&[&FRONT[..], &lock(7), &lock(6), &[5, 0, 0, 0]].concat()),
        kept(13)
    );
    assert_eq!(
        loaded(&[&FRONT[..], &[6, 0, 3], &lock(8)].concat()),
        kept(2)
    );
    let mut output = file_with(&[lock(8)]);
    output[51] = 16;
    assert_eq!(loaded(&output), kept(5));
}

#[test]
fn fields_06_refused_otherwise() {
    let kept = |number| (number, [7, 7]);
    // Another tag, or a length that is not 4.
    for field in [
        &[7, 0, 4, 0, 0, 0, 6][..],
        &[4, 0, 4, 0, 0, 0, 14],
        &[3, 0, 4, 0, 0, 0, 6],
        &[0, 0, 4, 0, 0, 0, 6],
        &[6, 0, 3, 0, 0, 6],
        &[6, 0, 5, 0, 0, 0, 0, 6],
        &[6, 0, 0],
        &[6, 1, 4, 0, 0, 0, 6],
        &[6, 4, 0, 0, 0, 0, 6],
    ] {
        assert_eq!(loaded(&file_with(&[field.to_vec()])), kept(2), "{field:?}");
    }
    // Cut within a head or a payload, and without an end.
    let both = file_with(&[lock(6), lock(7)]);
    for cut in 0..both.len() {
        assert_eq!(loaded(&both[..cut]), kept(1), "cut to {cut} bytes");
    }
    // Before the nodes, between them, before the output.
    for at in [15, 30, 45] {
        let mut file = file_with(&[]);
        file.splice(at..at, lock(6));
        assert_eq!(loaded(&file), kept(2), "at {at}");
    }
    // After the end.
    assert_eq!(loaded(&[file_with(&[]), lock(6)].concat()), kept(6));
    assert_eq!(
        loaded(&[file_with(&[lock(6)]), lock(7), END.to_vec()].concat()),
        kept(6)
    );
    // An end of another length.
    assert_eq!(
        loaded(&[&FRONT[..], &lock(6), &[5, 0, 4, 0, 0, 0, 7]].concat()),
        kept(2)
    );
}

/// Between two outputs a 04 is still due.
#[test]
fn a_lock_among_outputs() {
    let g = of(3, &[[3, 5, 6]], &[9, 8]).locked_at(&[4]);
    let right = file_of(&g);
    let mut wrong = right.clone();
    // The second output and the lock, 7 bytes each, change places.
    wrong[37..51].rotate_left(7);
    let mut lent = ([77; 3], [77; 2], [77; 1]);
    assert_eq!(load(&wrong, &mut lent.0, &mut lent.1, &mut lent.2), Err(2));
    assert_eq!(lent, ([77; 3], [77; 2], [77; 1]));
    assert_eq!(
        load(&right, &mut lent.0, &mut lent.1, &mut lent.2),
        Ok((3, 1, 2))
    );
    assert_eq!(lent, ([3, 5, 6], [9, 8], [1]));
}

#[test]
fn lock_bytes_of_the_head() {
    let file = file_with(&[lock(8)]);
    let lent = |file: &[u8], bytes: usize| {
        let mut locks = vec![7; bytes];
        let answer = load(file, &mut [0; 6], &mut [0; 1], &mut locks);
        assert!(locks.iter().all(|&byte| byte == 7));
        answer
    };
    // 4 at the head comes before all that follows it, and after 3.
    assert_eq!(lent(&file, 1), Err(4));
    assert_eq!(lent(&file, 0), Err(4));
    assert_eq!(lent(&file[..15], 1), Err(4));
    assert_eq!(lent(&file, 2), Err(13));
    let mut over = file.clone();
    over[5..7].copy_from_slice(&4_097u16.to_be_bytes());
    assert_eq!(lent(&over, 1), Err(3));
}

#[test]
fn reports_with_locks() {
    let p2_text = "inputs 5 nodes 2 outputs 1\nbefore 4 after 2 rounds 2\nnode 6 maj 2 4 7\n\
                   node 7 maj 12 8 11\nout 14\n";
    let kept = "inputs 5 nodes 2 outputs 1\nbefore 4 after 4 rounds 1\nnode 6 maj 3 5 6\n\
                node 7 maj 13 8 11\nout 14\n";
    assert_eq!(report(&file_with(&[])), p2_text);
    assert_eq!(report(&file_with(&[lock(7)])), p2_text);
    assert_eq!(report(&file_with(&[lock(6)])), kept);
    assert_eq!(report(&file_with(&[lock(6), lock(7)])), kept);
    assert_eq!(report(&file_with(&[lock(7), lock(6)])), "refused 13\n");
}
