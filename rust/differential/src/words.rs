//! Every place of both tables with indices around what is allowed, with a bit and without, and every bit place that none may have.

use crate::cases::Case;
use crate::lengths::check_bad;
use crate::lists::differ;
use crate::raw;
use reference::entries;
use reference::packed::{set_bit, words_for, Packed};

/// Which table.
#[derive(Clone, Copy, Debug)]
enum Table {
    Nodes,
    Outputs,
}

impl Table {
    fn slices(self, p: &mut Packed) -> (&mut [u32], &mut [u64]) {
        match self {
            Table::Nodes => (&mut p.node_table, &mut p.node_bits),
            Table::Outputs => (&mut p.output_table, &mut p.output_bits),
        }
    }

    /// How many places it has.
    fn places(self, p: &Packed) -> usize {
        match self {
            Table::Nodes => 3 * p.nodes as usize,
            Table::Outputs => p.outputs as usize,
        }
    }

    /// The first index that is not allowed at a place.
    fn end(self, p: &Packed, place: usize) -> u32 {
        match self {
            Table::Nodes => p.inputs + 1 + place as u32 / 3,
            Table::Outputs => p.inputs + p.nodes + 1,
        }
    }
}

/// Indices whose literals would be near the mark or be none of 32 bits, and the mark.
const LARGE: [u32; 6] = [0x7fff_fffe, 0x7fff_ffff, 0x8000_0000, 0x8000_0001, 0xffff_fffe, 0xffff_ffff];

/// The graph with this index and bit at a place.
fn with_word(p: &Packed, table: Table, place: usize, index: u32, bit: bool) -> Packed {
    let mut next = p.clone();
    let (indices, bits) = table.slices(&mut next);
    indices[place] = index;
    bits[place / 64] &= !(1 << (place % 64));
    if bit {
        set_bit(bits, place);
    }
    next
}

/// Each place set to the last index allowed, the first not allowed, and large ones.
pub fn check_indices(case: &Case) -> Result<u64, String> {
    let (mut done, p) = (0, case.lent());
    for table in [Table::Nodes, Table::Outputs] {
        for place in 0..table.places(&p) {
            let end = table.end(&p, place);
            for index in LARGE.into_iter().chain([end - 1, end]) {
                for bit in [false, true] {
                    let mut bad = with_word(&p, table, place, index, bit);
                    let what = format!("with index {index} and bit {bit} at place {place} of the {table:?}");
                    done += check_bad(case, &bad, &what)?;
                    // 5 comes before 13, wherever both are.
                    if let Some(byte) = bad.locks[..p.nodes as usize].last_mut() {
                        *byte = 2;
                        differ(&format!("the count {what}"), &raw::count(&bad)?, &entries::count(&bad))?;
                        done += 1;
                    }
                }
            }
        }
    }
    Ok(done)
}

/// Each bit past the last literal in its word set, and each of the words behind it, which are not looked at.
pub fn check_strays(case: &Case) -> Result<u64, String> {
    let (mut done, p) = (0, case.lent());
    for table in [Table::Nodes, Table::Outputs] {
        let first = table.places(&p);
        let end = 64 * table.slices(&mut p.clone()).1.len();
        for place in first..end {
            let mut bad = p.clone();
            set_bit(table.slices(&mut bad).1, place);
            let what = format!("with bit {place} of the {table:?} set");
            let stray = place < 64 * words_for(first);
            differ(&what, &raw::count(&bad)?.err(), &stray.then_some(5))?;
            done += 1;
            // All entries at each end, and at some between.
            if place == first || place + 1 == 64 * words_for(first) || (place as u64 + case.seed).is_multiple_of(16) {
                done += check_bad(case, &bad, &what)?;
            }
        }
    }
    Ok(done)
}
