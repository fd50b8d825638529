//! Hostile single steps: random and mutated replica memory, tables, rooms and records, through the library and through a
//! plain reading of document 01. Answer, memory, table and every output byte must be equal, those past the count too.
//!
//! NICKELHUSH_STEPS and NICKELHUSH_SEED say how many, and which.

mod common;
mod plain;

use common::{library_step, Rng};
use plain::{Block, Hash, Memory, TOP, ZERO};
use std::{collections::BTreeMap, env};

const LENGTHS: [usize; 5] = [2, 9, 64, 256, 1088];

/// The numbers that a step is made of: few hashes and near rounds, so that things meet.
struct Hands {
    rng: Rng,
    hashes: Vec<Hash>,
    base: u64,
}

impl Hands {
    fn new(seed: u64) -> Hands {
        let mut hashes = vec![ZERO];
        for i in 1..10u8 {
            let mut h = ZERO;
            // some differ in one byte only, in each of the four words
            h[(i as usize * 7) % 32] = i;
            hashes.push(h);
        }
        Hands { rng: Rng(seed), hashes, base: 3 }
    }

    fn hash(&mut self) -> Hash {
        let i = self.rng.below(self.hashes.len());
        self.hashes[i]
    }

    fn round(&mut self) -> u64 {
        match self.rng.below(24) {
            0 => 0,
            1 => self.rng.of(&[TOP - 1, TOP, TOP + 1]),
            2 => self.rng.of(&[u64::MAX, u64::MAX - 1, 1 << 63]),
            3 => self.rng.next(),
            _ => self.base.wrapping_add(self.rng.below(7) as u64).wrapping_sub(3),
        }
    }

    fn low_round(&mut self) -> u64 {
        let r = self.round();
        if r > TOP && !self.rng.one_in(8) { self.base.min(TOP) } else { r }
    }

    fn word(&mut self, count: usize) -> u64 {
        let all = if count >= 64 { u64::MAX } else { (1 << count) - 1 };
        match self.rng.below(6) {
            0 => 0,
            1 => self.rng.next(),
            2 => all,
            3 => all & !(1 << self.rng.below(64)),
            4 => 1 << self.rng.below(64),
            _ => self.rng.next() & self.rng.next() & all,
        }
    }

    fn memory(&mut self) -> Memory {
        self.base = match self.rng.below(12) {
            0 => TOP,
            1 => u64::MAX - 3,
            2 => self.rng.next(),
            _ => 1 + self.rng.below(9) as u64,
        };
        let count = self.rng.of(&[1, 1, 2, 3, 4, 4, 4, 4, 5, 7, 10, 63, 64, 64]);
        let mut m = Memory {
            seat: vec![count as u16, self.rng.below(count) as u16],
            core: vec![0; 9],
            stakes: vec![0; 64],
            votes: vec![0; 256],
            timeouts: vec![0; 1088],
            table: self.table(),
            out: vec![],
        };
        let stake = self.rng.of(&[0, 1, 1, 1, 1, 2, 3, 1000, 33_000_000]);
        for s in m.stakes.iter_mut() {
            *s = if self.rng.one_in(6) { self.rng.below(5) as u32 } else { stake };
        }
        if self.rng.one_in(40) {
            // totals at the limit, and one above it
            m.stakes = vec![0; 64];
            m.stakes[self.rng.below(count)] = (1 << 31) - 1;
            m.stakes[self.rng.below(count)] |= self.rng.of(&[0, 1 << 31]);
        }
        let total: u64 = m.stakes[..count].iter().map(|s| *s as u64).sum();
        m.core[0] = if self.rng.one_in(12) { self.round() } else { self.base };
        m.core[1] = if self.rng.one_in(4) { self.round() } else { m.core[0].saturating_sub(1) };
        m.core[2] = if self.rng.one_in(3) { self.round() } else { m.core[0].saturating_sub(self.rng.below(9) as u64) };
        let high = self.hash();
        for i in 0..4 {
            m.core[3 + i] = u64::from_le_bytes(high[8 * i..8 * i + 8].try_into().unwrap());
        }
        m.core[7] = self.round();
        m.core[8] = self.word(count);
        let full = self.rng.one_in(6);
        for t in m.votes.chunks_mut(8) {
            if full || self.rng.one_in(4) {
                let h = self.hash();
                t[0] = if full { 1 } else { self.rng.of(&[1, 1, 1, 1, 2, u64::MAX, 0]) };
                t[1] = self.round();
                t[2] = self.weight(total);
                t[3] = self.word(count);
                for i in 0..4 {
                    t[4 + i] = u64::from_le_bytes(h[8 * i..8 * i + 8].try_into().unwrap());
                }
            }
        }
        let full = self.rng.one_in(6);
        for t in m.timeouts.chunks_mut(68) {
            if full || self.rng.one_in(4) {
                t[0] = if full { 1 } else { self.rng.of(&[1, 1, 1, 1, 2, u64::MAX, 0]) };
                t[1] = self.round();
                t[2] = self.weight(total);
                t[3] = self.word(count);
                for high in t[4..].iter_mut() {
                    *high = self.rng.next() >> self.rng.below(64);
                }
            }
        }
        if self.rng.one_in(20) {
            self.garble(&mut m);
        }
        m
    }

    /// Weights are within the total, but for one in many: one such tally makes the record count as not started.
    fn weight(&mut self, total: u64) -> u64 {
        match self.rng.below(600) {
            0 => total + 1,
            1 => self.rng.next(),
            n if n < 200 => total,
            _ => self.rng.next() % (total + 1),
        }
    }

    fn table(&mut self) -> Vec<Block> {
        let n = match self.rng.below(400) {
            0 => 0,
            1 => self.rng.of(&[1023, 1024, 1025]),
            n if n < 20 => 9 + self.rng.below(40),
            _ => 1 + self.rng.below(8),
        };
        let chain = self.rng.one_in(2);
        let mut t: Vec<Block> = (0..n)
            .map(|i| {
                if chain && !self.rng.one_in(8) {
                    // each block on the one before it, a round above
                    let at = |i: usize| self.hashes[i % self.hashes.len()];
                    let round = self.base.wrapping_sub(n as u64).wrapping_add(i as u64);
                    Block { used: true, digest: at(i + 1), round, parent: at(i), parent_round: round.wrapping_sub(1) }
                } else {
                    let (digest, parent) = (self.hash(), self.hash());
                    Block { used: !self.rng.one_in(4), digest, round: self.round(), parent, parent_round: self.round() }
                }
            })
            .collect();
        if n > 1 && self.rng.one_in(3) {
            let (i, j) = (self.rng.below(n), self.rng.below(n));
            t.swap(i, j);
        }
        t
    }

    /// Some numbers become any others.
    fn garble(&mut self, m: &mut Memory) {
        for _ in 0..1 + self.rng.below(4) {
            let x = self.rng.next() >> self.rng.below(64);
            match self.rng.below(6) {
                0 => m.seat[self.rng.below(2)] = self.rng.of(&[0, 1, 63, 64, 65, u16::MAX, x as u16]),
                1 => m.core[self.rng.below(9)] = x,
                2 => m.stakes[self.rng.below(64)] = self.rng.of(&[x as u32, 0, u32::MAX]),
                3 => m.votes[self.rng.below(256)] = x,
                4 => m.timeouts[self.rng.below(1088)] = x,
                _ if !m.table.is_empty() => {
                    let i = self.rng.below(m.table.len());
                    m.table[i].round = x;
                    m.table[i].used ^= self.rng.one_in(2);
                }
                _ => {}
            }
        }
    }

    /// Room for the output: often exact, one short, one more, none. The bytes are not zero, so that a stray write shows.
    fn lend_out(&mut self, m: &mut Memory) {
        let need = 44 * m.table.len() + 2048;
        let n = match self.rng.below(40) {
            0 => need - 1,
            1 => 0,
            2 => 1,
            3 => self.rng.below(need),
            4 => need + 1,
            5 => need + self.rng.below(3000),
            _ => need,
        };
        let first = self.rng.next() as u8;
        m.out = (0..n).map(|i| first.wrapping_add((i as u8).wrapping_mul(31)) | 1).collect();
    }

    /// One of the slices gets another length: none, 1, one short, one more.
    fn lend_other_lengths(&mut self, m: &mut Memory) {
        let part = self.rng.below(5);
        let exact = LENGTHS[part];
        let n = self.rng.of(&[0, 1, exact - 1, exact + 1, exact + 7]);
        match part {
            0 => m.seat.resize(n, 1),
            1 => m.core.resize(n, 1),
            2 => m.stakes.resize(n, 1),
            3 => m.votes.resize(n, 0),
            _ => m.timeouts.resize(n, 0),
        }
    }

    // ---- records

    fn verdict(&mut self) -> u8 {
        if self.rng.one_in(40) { self.rng.of(&[0, 2, 255]) } else { 1 }
    }

    /// Places: mostly a good list, else with a repeat, a stranger, too few, none, or far too many.
    fn places(&mut self, count: usize) -> Vec<u16> {
        let count = count.clamp(1, 64);
        let mut p: Vec<u16> = (0..count as u16).collect();
        for _ in 0..self.rng.below(4) {
            let (i, j) = (self.rng.below(count), self.rng.below(count));
            p.swap(i, j);
        }
        match self.rng.below(24) {
            0 => p.truncate(self.rng.below(count + 1)),
            1 => p.push(p[0]),
            2 => p.push(self.rng.of(&[count as u16, 63, 64, 65, u16::MAX])),
            3 => p = vec![9, 9],
            4 => p = (0..65 + self.rng.below(40) as u16).collect(),
            5 => p = vec![],
            6 => p = vec![self.rng.below(70) as u16; 64],
            _ => p.truncate(count - self.rng.below(count / 3 + 1)),
        }
        p
    }

    /// Below a block's round, and on a block of the table, more often than not.
    fn qc(&mut self, count: usize, above: u64, table: &[Block], out: &mut Vec<u8>) {
        let (mut hash, mut round) = (self.hash(), self.low_round());
        if !self.rng.one_in(3) {
            round = above.saturating_sub(1);
        }
        if !table.is_empty() && !self.rng.one_in(3) {
            hash = self.rng.of(table).digest;
        }
        if self.rng.one_in(6) {
            (hash, round) = (ZERO, 0);
        }
        if self.rng.one_in(20) {
            round = 0;
        }
        let places = self.places(count);
        out.extend(hash);
        out.extend(round.to_le_bytes());
        out.push(self.verdict());
        out.extend((places.len() as u16).to_le_bytes());
        places.iter().for_each(|p| out.extend(p.to_le_bytes()));
    }

    fn tc(&mut self, count: usize, above: u64, out: &mut Vec<u8>) {
        let places = self.places(count);
        let round = if self.rng.one_in(3) { self.low_round() } else { above.saturating_sub(1) };
        out.extend(round.to_le_bytes());
        out.push(self.verdict());
        out.extend((places.len() as u16).to_le_bytes());
        let (same, high) = (self.rng.one_in(2), self.low_round());
        for p in places {
            out.extend(p.to_le_bytes());
            out.extend(if same { high } else { self.low_round() }.to_le_bytes());
        }
    }

    fn block(&mut self, count: usize, table: &[Block], out: &mut Vec<u8>) {
        let round = if self.rng.one_in(2) { self.low_round() } else { self.base.min(TOP) };
        let leader = if self.rng.one_in(16) { self.rng.below(70) as u16 } else { (round % count.max(1) as u64) as u16 };
        out.extend(self.hash());
        out.extend(leader.to_le_bytes());
        out.extend(round.to_le_bytes());
        out.push(self.verdict());
        self.qc(count, round, table, out);
        let flag = self.rng.of(&[0, 0, 1]);
        out.push(if self.rng.one_in(60) { 2 } else { flag });
        if flag == 1 {
            self.tc(count, round, out);
        }
    }

    fn record(&mut self, m: &Memory) -> Vec<u8> {
        let count = m.seat.first().map_or(4, |c| *c as usize).clamp(1, 64);
        let kind = self.rng.of(&[1u16, 2, 2, 2, 2, 3, 3, 3, 4, 4, 4, 5, 6, 6, 6, 6, 7]);
        let mut r = kind.to_le_bytes().to_vec();
        match kind {
            1 => {
                let n = match self.rng.below(12) {
                    0 => 0,
                    1 => self.rng.of(&[64, 65, 113, 114]),
                    _ => 1 + self.rng.below(12),
                };
                r.extend((n as u16).to_le_bytes());
                let own = if n == 0 || self.rng.one_in(6) { n } else { self.rng.below(n) };
                r.extend((own as u16).to_le_bytes());
                let stake = self.rng.of(&[0u32, 1, 1, 1, 5, 40_000_000, u32::MAX / 8]);
                for i in 0..n {
                    let mut key = ZERO;
                    key[self.rng.of(&[0, 0, 0, 0, 0, 0, 0, 31])] = i as u8;
                    key[30] = self.rng.of(&[0, 0, 0, 1]);
                    r.extend(key);
                    r.extend(stake.to_le_bytes());
                }
            }
            2 => {
                self.block(count, &m.table, &mut r);
                r.push(self.rng.of(&[1, 1, 1, 1, 1, 1, 1, 1, 1, 1, 1, 1, 0, 2, 3]));
            }
            3 => {
                r.extend(self.hash());
                r.extend(self.low_round().to_le_bytes());
                r.extend((if self.rng.one_in(20) { 64 } else { self.rng.below(count) as u16 }).to_le_bytes());
                r.push(self.verdict());
            }
            4 => {
                r.extend(self.low_round().to_le_bytes());
                r.extend((if self.rng.one_in(20) { 64 } else { self.rng.below(count) as u16 }).to_le_bytes());
                r.push(self.verdict());
                self.qc(count, self.base.saturating_add(1), &m.table, &mut r);
            }
            5 => self.tc(count, self.base.saturating_add(1), &mut r),
            6 => self.block(count, &m.table, &mut r),
            _ => {}
        }
        self.mutate(&mut r);
        r
    }

    fn mutate(&mut self, r: &mut Vec<u8>) {
        match self.rng.below(60) {
            0 => r.truncate(self.rng.below(r.len() + 1)),
            1 => r.push(0),
            2 => r.extend([0; 3]),
            3 => drop(r.pop()),
            4 => {
                let i = self.rng.below(r.len());
                r[i] ^= 1 << self.rng.below(8);
            }
            5 => r.resize(self.rng.of(&[0, 1, 2, 4095, 4096, 4097, 5000]), 0),
            6 => r[1] = 1,
            7 => {
                let i = self.rng.below(r.len());
                r[i] = self.rng.next() as u8;
            }
            _ => {}
        }
    }
}

/// Where the two differ, for whoever has to find out why.
fn differ(seed: u64, step: u64, record: &[u8], before: &Memory, ours: (&Memory, (u16, usize)), theirs: (&Memory, (u16, usize))) -> ! {
    println!("seed {seed}, step {step}: record {record:?}");
    println!("seat {:?} core {:?} table {:?} room {}", before.seat, before.core, before.table, before.out.len());
    println!("the library: {:?}, the plain reading: {:?}", ours.1, theirs.1);
    println!("core {:?} or {:?}", ours.0.core, theirs.0.core);
    panic!("the library and the plain reading differ");
}

#[test]
fn single_steps() {
    let number = |name: &str, other: u64| env::var(name).ok().map_or(other, |v| v.parse().expect(name));
    let (steps, seed) = (number("NICKELHUSH_STEPS", 1_000_000), number("NICKELHUSH_SEED", 1));
    let mut hands = Hands::new(seed);
    let mut seen: BTreeMap<(u16, u16), u64> = BTreeMap::new();
    let mut outs: BTreeMap<u16, u64> = BTreeMap::new();
    // memories that runs have left, to be stepped on
    let mut pool: Vec<Memory> = (0..64).map(|_| hands.memory()).collect();
    for step in 0..steps {
        let place = hands.rng.below(pool.len());
        let mut before = if hands.rng.one_in(2) { pool[place].clone() } else { hands.memory() };
        if before.core.len() == 9 {
            hands.base = before.core[0].max(1);
            if hands.rng.one_in(12) && before.seat.len() == 2 && before.stakes.len() == 64 && before.votes.len() == 256 && before.timeouts.len() == 1088 {
                hands.garble(&mut before);
            }
        }
        hands.lend_out(&mut before);
        if hands.rng.one_in(25) {
            hands.lend_other_lengths(&mut before);
        }
        let record = hands.record(&before);
        let (mut ours, mut theirs) = (before.clone(), before.clone());
        let (a, b) = (library_step(&mut ours, &record), theirs.step(&record));
        if a != b || ours != theirs || ours.out[a.1..] != before.out[a.1..] {
            differ(seed, step, &record, &before, (&ours, a), (&theirs, b));
        }
        let kind = if a.0 == 16 { 0 } else { u16::from_le_bytes([record[0], record[1]]) };
        *seen.entry((kind, a.0)).or_default() += 1;
        let mut rest = &ours.out[..a.1];
        while let [l0, l1, k0, k1, ..] = *rest {
            *outs.entry(u16::from_le_bytes([k0, k1])).or_default() += 1;
            rest = &rest[2 + u16::from_le_bytes([l0, l1]) as usize..];
        }
        // what is left is stepped on, where it is a replica's
        if a.0 != 33 && ours.table.len() < 100 && ours.seat.len() == 2 && ours.core.len() == 9 {
            pool[place] = ours;
        } else if hands.rng.one_in(4) {
            pool[place] = hands.memory();
        }
    }
    let mut answers: BTreeMap<u16, u64> = BTreeMap::new();
    seen.iter().for_each(|((_, a), n)| *answers.entry(*a).or_default() += n);
    println!("{steps} steps, seed {seed}, no difference");
    println!("answers: {answers:?}");
    println!("by kind and answer: {seen:?}");
    println!("outputs: {outs:x?}");
    if steps >= 1_000_000 {
        for a in [0, 1, 2, 3].into_iter().chain(16..=34) {
            assert!(answers.get(&a).is_some_and(|n| *n >= 20), "answer {a} is too rare");
        }
        assert!((0x0101..=0x0109).all(|k| outs.get(&k).is_some_and(|n| *n >= 100)), "an output is too rare");
    }
}

/// Every slice at length 0, 1, one short, exact and one more, with every kind of record, on a replica that is started and on
/// one that is not; tables and rooms at their limits too.
#[test]
fn every_length() {
    let mut hands = Hands::new(2);
    let mut start = vec![1, 0, 4, 0, 2, 0];
    for member in 0..4 {
        start.extend([[0; 31].as_slice(), &[member], &[1, 0, 0, 0]].concat());
    }
    let around = |n: usize| [0, 1, n - 1, n, n + 1];
    let mut steps = 0;
    for slots in [0, 1, 2, 1023, 1024, 1025] {
        let mut fresh = Memory {
            seat: vec![0; 2],
            core: vec![0; 9],
            stakes: vec![0; 64],
            votes: vec![0; 256],
            timeouts: vec![0; 1088],
            table: vec![Block::default(); slots],
            out: vec![],
        };
        for started in [false, true] {
            if started {
                fresh.table.resize(slots.clamp(1, 1024), Block::default());
                fresh.out = vec![0; 44 * 1024 + 2048];
                assert_eq!(fresh.step(&start).0, 0);
                fresh.table.resize(slots, Block::default());
            }
            hands.base = 1;
            let mut records: Vec<Vec<u8>> = vec![start.clone(), vec![7, 0], vec![], vec![7], vec![9, 0]];
            while records.len() < 16 {
                records.push(hands.record(&fresh));
            }
            for room in around(44 * slots + 2048) {
                for part in 0..5 {
                    for n in around(LENGTHS[part]) {
                        let mut before = fresh.clone();
                        before.out = (0..room).map(|i| i as u8 | 1).collect();
                        match part {
                            0 => before.seat.resize(n, 1),
                            1 => before.core.resize(n, 1),
                            2 => before.stakes.resize(n, 1),
                            3 => before.votes.resize(n, 0),
                            _ => before.timeouts.resize(n, 0),
                        }
                        for record in &records {
                            let (mut ours, mut theirs) = (before.clone(), before.clone());
                            let (a, b) = (library_step(&mut ours, record), theirs.step(record));
                            if a != b || ours != theirs {
                                differ(2, steps, record, &before, (&ours, a), (&theirs, b));
                            }
                            steps += 1;
                        }
                    }
                }
            }
        }
    }
    println!("{steps} steps at the limits of every length, no difference");
}
