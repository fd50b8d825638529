//! What several tests share: a small source of numbers, and memory that both the library and the plain reading take.
#![allow(dead_code)]

use crate::plain::{Block, Memory};
use nickelhush::{lent, Slot};

/// splitmix64: the same numbers for the same seed, everywhere.
pub struct Rng(pub u64);

impl Rng {
    pub fn next(&mut self) -> u64 {
        self.0 = self.0.wrapping_add(0x9E37_79B9_7F4A_7C15);
        let z = (self.0 ^ (self.0 >> 30)).wrapping_mul(0xBF58_476D_1CE4_E5B9);
        let z = (z ^ (z >> 27)).wrapping_mul(0x94D0_49BB_1331_11EB);
        z ^ (z >> 31)
    }
    /// A number below n.
    pub fn below(&mut self, n: usize) -> usize {
        ((self.next() >> 32) * n as u64 >> 32) as usize
    }
    pub fn one_in(&mut self, n: usize) -> bool {
        self.below(n) == 0
    }
    pub fn of<T: Copy>(&mut self, xs: &[T]) -> T {
        xs[self.below(xs.len())]
    }
}

fn slot(b: &Block) -> Slot {
    let words = |h: &[u8; 32]| std::array::from_fn(|i| u64::from_le_bytes(h[8 * i..8 * i + 8].try_into().unwrap()));
    Slot { used: b.used, digest: words(&b.digest), round: b.round, parent: words(&b.parent), parent_round: b.parent_round }
}

fn block(s: &Slot) -> Block {
    let bytes = |w: &[u64; 4]| {
        let mut h = [0; 32];
        w.iter().enumerate().for_each(|(i, w)| h[8 * i..8 * i + 8].copy_from_slice(&w.to_le_bytes()));
        h
    };
    Block { used: s.used, digest: bytes(&s.digest), round: s.round, parent: bytes(&s.parent), parent_round: s.parent_round }
}

/// One event through the library, over a memory that is written to in place.
pub fn library_step(m: &mut Memory, record: &[u8]) -> (u16, usize) {
    let mut table: Vec<Slot> = m.table.iter().map(slot).collect();
    let result = lent::step(
        &mut lent::Lent {
            seat: &mut m.seat,
            core: &mut m.core,
            stakes: &mut m.stakes,
            votes: &mut m.votes,
            timeouts: &mut m.timeouts,
            table: &mut table,
            out: &mut m.out,
        },
        record,
    );
    for (b, s) in m.table.iter_mut().zip(&table) {
        *b = block(s);
    }
    result
}
