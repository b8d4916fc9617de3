//! First least moves, from a few numbers.

use reducer::Saving;

/// What a move turns, by kind (majority, XOR) and number: words 1 to 3, and every reader.
const FLAGS: [[[u32; 4]; 4]; 2] = [
    [[0, 0, 0, 0], [1, 1, 1, 1], [0, 0, 0, 0], [0, 0, 0, 0]],
    [[0, 0, 0, 0], [1, 1, 0, 0], [1, 0, 0, 1], [0, 1, 0, 1]],
];

pub fn flags(xor: bool, number: u32) -> &'static [u32; 4] {
    &FLAGS[xor as usize][number as usize]
}

/// Which moves a node has: its kind's, or where it is locked move 0 alone.
#[derive(Clone, Copy)]
pub struct Kind {
    pub xor: bool,
    pub locked: bool,
}

/// What each word of a node costs as it stands and turned.
pub type Costs = [[u32; 2]; 3];

/// What a node's moves are decided by.
#[derive(Clone, Copy)]
pub struct Numbers {
    pub kind: Kind,
    pub costs: Costs,
    pub readers: u32,
    /// How many readers are complemented.
    pub odd: u32,
}

/// A first least move, and what it leaves.
#[derive(Clone, Copy)]
pub struct Least {
    pub number: u32,
    pub cost: u32,
}

/// What a move leaves of a node's words and readers; these cost `readers[0]` left and `readers[1]` turned.
fn cost_of(turned: &[u32; 4], costs: &Costs, readers: [u32; 2]) -> u32 {
    let own: u32 = (0..3).map(|k| costs[k][turned[k] as usize]).sum();
    own + readers[turned[3] as usize]
}

/// The first least of these moves. It is put in where it is called, so that the compiler knows the moves there.
#[inline(always)]
fn least_among(moves: &[[u32; 4]], costs: &Costs, readers: [u32; 2]) -> Least {
    let mut least = Least { number: 0, cost: cost_of(&moves[0], costs, readers) };
    for number in 1..moves.len() {
        let cost = cost_of(&moves[number], costs, readers);
        if cost < least.cost {
            least = Least { number: number as u32, cost };
        }
    }
    least
}

/// The first least of the moves that a node has.
pub fn least_of(kind: Kind, costs: &Costs, readers: [u32; 2]) -> Least {
    if kind.locked {
        least_among(&FLAGS[0][..1], costs, readers)
    } else if kind.xor {
        least_among(&FLAGS[1], costs, readers)
    } else {
        least_among(&FLAGS[0][..2], costs, readers)
    }
}

impl Numbers {
    /// What the readers cost left and turned.
    fn shown(&self) -> [u32; 2] {
        [self.odd, self.readers - self.odd]
    }

    pub fn cost(&self, number: u32) -> u32 {
        cost_of(flags(self.kind.xor, number), &self.costs, self.shown())
    }

    pub fn best(&self) -> Least {
        least_of(self.kind, &self.costs, self.shown())
    }

    /// How many readers are complemented, before a move and after it.
    pub fn odd_around(&self, number: u32) -> [u32; 2] {
        [self.odd, self.shown()[flags(self.kind.xor, number)[3] as usize]]
    }
}

/// What is saved in all, in its two parts: of the edges outside only readers of the nodes named change, and `odd` of them are
/// complemented before and after.
pub fn parted(saved: impl Into<i64>, odd: [u32; 2]) -> Saving {
    let others = i64::from(odd[0]) - i64::from(odd[1]);
    Saving { own: saved.into() - others, others }
}

/// The first least moves of a pair, what they save, and how many readers outside are complemented before and after them.
pub struct PairMoves {
    pub named: u32,
    pub node: u32,
    pub saved: u32,
    pub odd: [u32; 2],
}

/// For a named node, a node, and which of the node's words name the other.
///
/// Whatever the named node does, the node sees its readers left or turned: two answers are all that there are to weigh.
pub fn best_pair(named: &Numbers, node: &Numbers, which: [bool; 3]) -> PairMoves {
    // The node's words among the named node's readers are counted with the node.
    let mut others = *named;
    let mut turned = node.costs;
    for k in 0..3 {
        if which[k] {
            others.readers -= 1;
            others.odd -= node.costs[k][0];
            turned[k].swap(0, 1);
        }
    }
    let answers = [node.best(), least_of(node.kind, &turned, node.shown())];
    let [left, turned] = others.shown();
    let first = least_of(named.kind, &named.costs, [left + answers[0].cost, turned + answers[1].cost]);
    let second = answers[flags(named.kind.xor, first.number)[3] as usize].number;
    let (above, below) = (node.odd_around(second), others.odd_around(first.number));
    let odd = [above[0] + below[0], above[1] + below[1]];
    PairMoves { named: first.number, node: second, saved: others.cost(0) + node.cost(0) - first.cost, odd }
}
