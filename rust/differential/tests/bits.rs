//! The plain implementation's words of bits, held to places one by one.

use differential::plain::bits::{bit, bits_of, literals, ones, strays, words_for, Gather};
use reference::packed::{bit_at, pack_table, set_bit};
use reference::random::Random;

/// Some bits that are set, in just enough words for so many places.
fn random_bits(random: &mut Random, places: usize) -> Vec<u64> {
    let mut bits = vec![0; words_for(places)];
    (0..places).filter(|_| random.one_in(2)).for_each(|place| set_bit(&mut bits, place));
    bits
}

#[test]
fn three_bits_by_a_shift() {
    let mut random = Random::new(1);
    for nodes in (0..140).chain([1_000]) {
        let bits = random_bits(&mut random, 3 * nodes);
        for v in 0..nodes {
            let due = (0..3).map(|k| u32::from(bit_at(&bits, 3 * v + k)) << k).sum::<u32>();
            assert_eq!(bits_of(&bits, v), due, "node {v} of {nodes}");
            assert_eq!(bit(&bits, 3 * v + 1), due >> 1 & 1);
        }
        assert_eq!(ones(&bits), (0..3 * nodes).filter(|&place| bit_at(&bits, place)).count() as u32);
    }
}

/// Over words that had every bit set: the last one is 0 past the last bit, and those behind it stay.
#[test]
fn gathered_words_are_whole() {
    let mut random = Random::new(2);
    for places in 0..400 {
        let due = random_bits(&mut random, places);
        let mut got = vec![u64::MAX; due.len() + 1];
        let mut gathered = Gather::new(&mut got);
        (0..places).for_each(|place| gathered.one(bit(&due, place)));
        gathered.end();
        assert_eq!((&got[..due.len()], got[due.len()]), (&due[..], u64::MAX), "{places} places");
    }
    for nodes in 0..200 {
        let due = random_bits(&mut random, 3 * nodes);
        let mut got = vec![u64::MAX; due.len() + 1];
        let mut gathered = Gather::new(&mut got);
        (0..nodes).for_each(|v| gathered.three(bits_of(&due, v)));
        gathered.end();
        assert_eq!((&got[..due.len()], got[due.len()]), (&due[..], u64::MAX), "{nodes} nodes");
    }
}

#[test]
fn strays_are_past_the_last_place() {
    for places in 1..200 {
        let words = words_for(places);
        assert!(!strays(&vec![0; words + 1], places));
        for place in 0..64 * (words + 1) {
            let mut bits = vec![0; words + 1];
            set_bit(&mut bits, place);
            assert_eq!(strays(&bits, places), place >= places && place < 64 * words, "{place} of {places}");
        }
    }
    assert!(!strays(&[], 0) && !strays(&[u64::MAX], 0));
}

#[test]
fn literals_come_back() {
    let mut random = Random::new(3);
    for _ in 0..1_000 {
        let three = [0; 3].map(|_| random.below(300_000));
        let (indices, bits) = pack_table(&three);
        assert_eq!(literals(&indices, bits_of(&bits, 0)), three);
    }
}
