//! Binary AIGER files that are damaged.

/// Numbers that a seed gives, by splitmix64.
pub struct Random(pub u64);

impl Random {
    fn next(&mut self) -> u64 {
        self.0 = self.0.wrapping_add(0x9e37_79b9_7f4a_7c15);
        let mut z = self.0;
        z = (z ^ z >> 30).wrapping_mul(0xbf58_476d_1ce4_e5b9);
        z = (z ^ z >> 27).wrapping_mul(0x94d0_49bb_1331_11eb);
        z ^ z >> 31
    }

    fn below(&mut self, end: usize) -> usize {
        (self.next() % end.max(1) as u64) as usize
    }
}

/// A binary file of random gates, with symbols and a comment.
fn whole(random: &mut Random) -> Vec<u8> {
    // Of many inputs some, so that differences take two bytes; they are most of the work.
    let most = if random.below(8) == 0 { 200 } else { 12 };
    let (inputs, outputs, gates) = (random.below(most), random.below(5), random.below(40));
    let mut bytes = format!("aig {} {inputs} 0 {outputs} {gates}\n", inputs + gates).into_bytes();
    for _ in 0..outputs {
        bytes.extend(format!("{}\n", random.below(2 * (inputs + gates) + 2)).into_bytes());
    }
    for at in 1..=gates {
        let own = 2 * (inputs + at);
        let first = 1 + random.below(own);
        for delta in [first, random.below(own - first + 1)] {
            let mut left = delta;
            while left >= 128 {
                bytes.push(left as u8 | 128);
                left >>= 7;
            }
            bytes.push(left as u8);
        }
    }
    bytes.extend(b"i0 x\no0 sum[0]\nc\nmade by hand\n");
    bytes
}

const NUMBERS: [&str; 9] = ["0", "1", "7", "4096", "4097", "100001", "4294967295", "4294967296", "-1"];

/// One fault: a part cut off, a byte turned, put in or taken out, a run doubled, or a number of the header changed.
fn damage(bytes: &mut Vec<u8>, random: &mut Random) {
    let at = random.below(bytes.len());
    match random.below(7) {
        0 => bytes.truncate(at),
        1 if !bytes.is_empty() => bytes[at] ^= 1 << random.below(8),
        2 => bytes.insert(at, random.next() as u8),
        3 if !bytes.is_empty() => drop(bytes.remove(at)),
        4 => {
            let run = bytes[at..bytes.len().min(at + 1 + random.below(9))].to_vec();
            bytes.splice(at..at, run);
        }
        5 if !bytes.is_empty() => bytes[at] = [0, 10, 13, 32, 127, 128, 255][random.below(7)],
        _ => {
            let end = bytes.iter().position(|&byte| byte == b'\n').unwrap_or(bytes.len());
            let line = String::from_utf8_lossy(&bytes[..end]).into_owned();
            let mut words: Vec<&str> = line.split(' ').collect();
            let which = random.below(words.len());
            words[which] = NUMBERS[random.below(NUMBERS.len())];
            bytes.splice(..end, words.join(" ").into_bytes());
        }
    }
}

/// A damaged file that still begins as a binary one does.
pub fn damaged(random: &mut Random) -> Vec<u8> {
    let mut file = whole(random);
    (0..1 + random.below(3)).for_each(|_| damage(&mut file, random));
    if !file.starts_with(b"aig ") {
        file.splice(..0, *b"aig ");
    }
    file
}
