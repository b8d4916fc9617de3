//! Words of complement bits.

pub const fn words_for(places: usize) -> usize {
    places.div_ceil(64)
}

/// The bit of a place.
pub fn bit(bits: &[u64], place: usize) -> u32 {
    (bits[place / 64] >> (place % 64)) as u32 & 1
}

/// The three bits of a node, the first lowest: by one shift, or two where they lie in two words.
pub fn bits_of(bits: &[u64], v: usize) -> u32 {
    let (word, start) = (3 * v / 64, 3 * v % 64);
    let low = bits[word] >> start;
    let all = if start > 61 { low | bits[word + 1] << (64 - start) } else { low };
    all as u32 & 7
}

/// The bits of twelve places, the first lowest; what stands above them is not theirs.
pub fn twelve(bits: &[u64], place: usize) -> u32 {
    let (word, start) = (place / 64, place % 64);
    let low = bits[word] >> start;
    let all = if start > 52 { low | bits[word + 1] << (64 - start) } else { low };
    all as u32
}

/// The literals of a node's three indices and bits, the mark's being none.
pub fn literals(indices: &[u32], bits: u32) -> [u32; 3] {
    [0, 1, 2].map(|k| indices[k] << 1 | (bits >> k & 1))
}

/// Whether a bit is set past the last of so many places, in its word.
pub fn strays(bits: &[u64], places: usize) -> bool {
    let used = places % 64;
    used != 0 && bits[places / 64] >> used != 0
}

pub fn ones(bits: &[u64]) -> u32 {
    bits.iter().map(|word| word.count_ones()).sum()
}

/// Words of bits that are gathered from the first place on, each stored whole when it is full.
pub struct Gather<'a> {
    pub bits: &'a mut [u64],
    /// The word that is being gathered, its bits so far and how many they are.
    at: usize,
    held: u64,
    many: u32,
}

impl<'a> Gather<'a> {
    pub fn new(bits: &'a mut [u64]) -> Gather<'a> {
        Gather { bits, at: 0, held: 0, many: 0 }
    }

    /// The bits of so many places at once, where nothing is gathered yet and none is set past them.
    pub fn all(&mut self, bits: &[u64], places: usize) {
        let full = places / 64;
        self.bits[..full].copy_from_slice(&bits[..full]);
        self.at = full;
        self.many = (places % 64) as u32;
        self.held = if self.many == 0 { 0 } else { bits[full] };
    }

    fn store(&mut self) {
        self.bits[self.at] = self.held;
        self.at += 1;
        self.many %= 64;
    }

    pub fn one(&mut self, bit: u32) {
        self.held |= u64::from(bit) << self.many;
        self.many += 1;
        if self.many == 64 {
            self.store();
            self.held = 0;
        }
    }

    /// Three bits, the first lowest.
    pub fn three(&mut self, bits: u32) {
        self.held |= u64::from(bits) << self.many;
        self.many += 3;
        if self.many >= 64 {
            self.store();
            self.held = u64::from(bits) >> (3 - self.many);
        }
    }

    /// The last word, 0 past the last bit.
    pub fn end(mut self) {
        if self.many > 0 {
            self.store();
        }
    }
}
