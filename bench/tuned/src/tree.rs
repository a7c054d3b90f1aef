//! The least of 256 keys.

/// The key in a place that has none. It is above every other.
pub const NONE: u64 = u64::MAX;

const PLACES: usize = 256;

/// A tree of fixed shape. Its leaves are the keys, and node n is the lesser of nodes 2n and 2n + 1, so node 1 is the least of all.
pub struct Tournament {
    nodes: [u64; 2 * PLACES],
}

impl Tournament {
    pub fn new() -> Self {
        Tournament { nodes: [NONE; 2 * PLACES] }
    }

    pub fn least(&self) -> u64 {
        self.nodes[1]
    }

    pub fn set(&mut self, place: u8, key: u64) {
        let mut node = PLACES + usize::from(place);
        let mut least = key;
        for _ in 0..PLACES.ilog2() {
            self.nodes[node] = least;
            least = least.min(self.nodes[node ^ 1]);
            node /= 2;
        }
        self.nodes[1] = least;
    }
}
