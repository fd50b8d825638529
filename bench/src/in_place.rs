//! Document 01's replica in plain Rust, written in place: the state is changed where it lies, outputs are written where
//! they go, nothing is allocated for an event. It answers what the library answers, over the same room, and does the same
//! checks: also that what it holds counts as started, on every event.
//!
//! `MASK` says how a repeated signer is found: by the scan over the earlier ones that document 01 asks the port for, or
//! by a word of bits, which is quicker.

type Hash = [u64; 4];

const ZERO: Hash = [0; 4];
const TOP: u64 = 1 << 62;
const TOTAL_MAX: u64 = (1 << 31) - 1;

#[derive(Clone, Copy, Default)]
struct Block {
    used: bool,
    digest: Hash,
    round: u64,
    parent: Hash,
    parent_round: u64,
}

#[derive(Clone, Copy, Default)]
struct Qc {
    hash: Hash,
    round: u64,
    signers: u64,
}

#[derive(Clone, Copy, Default)]
struct Votes {
    used: bool,
    round: u64,
    weight: u64,
    names: u64,
    hash: Hash,
}

#[derive(Clone, Copy)]
struct Timeouts {
    used: bool,
    round: u64,
    weight: u64,
    names: u64,
    highs: [u64; 64],
}

const NO_TIMEOUTS: Timeouts = Timeouts { used: false, round: 0, weight: 0, names: 0, highs: [0; 64] };

pub struct Replica<const MASK: bool> {
    count: u16,
    own: u16,
    stakes: [u32; 64],
    round: u64,
    last_voted: u64,
    last_committed: u64,
    high: Qc,
    votes: [Votes; 32],
    timeouts: [Timeouts; 16],
    table: Vec<Block>,
    out: Vec<u8>,
    at: usize,
}

fn u16_at(r: &[u8], at: usize) -> u16 {
    u16::from_le_bytes(r[at..at + 2].try_into().unwrap())
}

fn u64_at(r: &[u8], at: usize) -> u64 {
    u64::from_le_bytes(r[at..at + 8].try_into().unwrap())
}

fn hash_at(r: &[u8], at: usize) -> Hash {
    std::array::from_fn(|i| u64_at(r, at + 8 * i))
}

// ---- the form of a record: where its parts end

fn qc_end(r: &[u8], at: usize) -> Option<usize> {
    if r.len() < at + 43 || r[at + 40] > 1 {
        return None;
    }
    let end = at + 43 + 2 * u16_at(r, at + 41) as usize;
    (end <= r.len()).then_some(end)
}

fn tc_end(r: &[u8], at: usize) -> Option<usize> {
    if r.len() < at + 11 || r[at + 8] > 1 {
        return None;
    }
    let end = at + 11 + 10 * u16_at(r, at + 9) as usize;
    (end <= r.len()).then_some(end)
}

const BLOCK_QC: usize = 45;

/// Where a block's TC starts, if it has one, and where the block ends.
fn block_end(r: &[u8]) -> Option<(Option<usize>, usize)> {
    if r.len() < BLOCK_QC || r[44] > 1 {
        return None;
    }
    let flag = qc_end(r, BLOCK_QC)?;
    match r.get(flag)? {
        0 => Some((None, flag + 1)),
        1 => Some((Some(flag + 1), tc_end(r, flag + 1)?)),
        _ => None,
    }
}

enum Event {
    Start,
    Propose { tc: Option<usize>, payload: u8 },
    Vote,
    Timeout,
    Tc,
    Loopback { tc: Option<usize> },
    Tick,
}

fn form(r: &[u8]) -> Option<Event> {
    if r.len() < 2 || r.len() > 4096 {
        return None;
    }
    match u16_at(r, 0) {
        1 => (r.len() >= 6 && r.len() == 6 + 36 * u16_at(r, 2) as usize).then_some(Event::Start),
        2 => {
            let (tc, end) = block_end(r)?;
            (r.len() == end + 1 && r[end] <= 2).then(|| Event::Propose { tc, payload: r[end] })
        }
        3 => (r.len() == 45 && r[44] <= 1).then_some(Event::Vote),
        4 => (r.len() > 13 && r[12] <= 1 && qc_end(r, 13)? == r.len()).then_some(Event::Timeout),
        5 => (tc_end(r, 2)? == r.len()).then_some(Event::Tc),
        6 => {
            let (tc, end) = block_end(r)?;
            (r.len() == end).then_some(Event::Loopback { tc })
        }
        7 => (r.len() == 2).then_some(Event::Tick),
        _ => None,
    }
}

fn tc_limit(r: &[u8], at: usize) -> (bool, bool) {
    let n = u16_at(r, at + 9) as usize;
    (n > 64, u64_at(r, at) > TOP || (0..n).any(|i| u64_at(r, at + 13 + 10 * i) > TOP))
}

/// 32, 20, 19, or 0.
fn limit(r: &[u8], e: &Event) -> u16 {
    let (long, high) = match e {
        Event::Start | Event::Tick => (false, false),
        Event::Propose { tc, .. } | Event::Loopback { tc } => {
            if let (Event::Loopback { .. }, Some(at)) = (e, tc) {
                if u16_at(r, at + 9) == 0 {
                    return 32;
                }
            }
            let (long, high) = tc.map_or((false, false), |at| tc_limit(r, at));
            (long || u16_at(r, BLOCK_QC + 41) > 64, high || u64_at(r, 36) > TOP || u64_at(r, BLOCK_QC + 32) > TOP)
        }
        Event::Vote => (false, u64_at(r, 34) > TOP),
        Event::Timeout => (u16_at(r, 13 + 41) > 64, u64_at(r, 2) > TOP || u64_at(r, 13 + 32) > TOP),
        Event::Tc => tc_limit(r, 2),
    };
    if long {
        20
    } else if high {
        19
    } else {
        0
    }
}

impl<const MASK: bool> Replica<MASK> {
    pub fn new(slots: usize) -> Self {
        Replica {
            count: 0,
            own: 0,
            stakes: [0; 64],
            round: 0,
            last_voted: 0,
            last_committed: 0,
            high: Qc::default(),
            votes: [Votes::default(); 32],
            timeouts: [NO_TIMEOUTS; 16],
            table: vec![Block::default(); slots],
            out: vec![0; 44 * slots + 2048],
            at: 0,
        }
    }

    /// It counts as not started from here on.
    pub fn stop(&mut self) {
        self.count = 0;
    }

    pub fn step(&mut self, r: &[u8]) -> (u16, &[u8]) {
        self.at = 0;
        let answer = self.answer(r);
        (answer, &self.out[..self.at])
    }

    fn answer(&mut self, r: &[u8]) -> u16 {
        let Some(event) = form(r) else { return 16 };
        let started = self.started();
        let slots = self.table.len();
        let room = slots >= 1 && slots <= 1024 && self.out.len() >= 44 * slots + 2048;
        if let Event::Start = event {
            return match (started, room) {
                (Some(_), _) => 34,
                (None, false) => 18,
                (None, true) => self.start(r),
            };
        }
        let Some(total) = started else { return 33 };
        if !room {
            return 18;
        }
        match limit(r, &event) {
            0 => self.handle(r, event, 2 * total / 3 + 1),
            n => n,
        }
    }

    fn started(&self) -> Option<u64> {
        if self.count > 64 || self.own >= self.count {
            return None;
        }
        let total: u64 = self.stakes[..self.count as usize].iter().map(|s| *s as u64).sum();
        let heavy = self.votes.iter().any(|t| t.used && t.weight > total) || self.timeouts.iter().any(|t| t.used && t.weight > total);
        (total <= TOTAL_MAX && !heavy).then_some(total)
    }

    fn start(&mut self, r: &[u8]) -> u16 {
        let (count, own) = (u16_at(r, 2), u16_at(r, 4));
        if count == 0 || count > 64 || own >= count {
            return 17;
        }
        let member = |i: usize| &r[6 + 36 * i..42 + 36 * i];
        let stake = |i: usize| u32::from_le_bytes(member(i)[32..].try_into().unwrap());
        let n = count as usize;
        if (0..n).map(|i| stake(i) as u64).sum::<u64>() > TOTAL_MAX || (1..n).any(|i| member(i - 1)[..32] >= member(i)[..32]) {
            return 17;
        }
        (self.count, self.own) = (count, own);
        for i in 0..64 {
            self.stakes[i] = if i < n { stake(i) } else { 0 };
        }
        (self.round, self.last_voted, self.last_committed) = (1, 0, 0);
        self.high = Qc::default();
        self.votes.fill(Votes::default());
        self.timeouts.fill(NO_TIMEOUTS);
        self.table.fill(Block::default());
        self.record(2, 0x0109);
        self.make(None);
        0
    }

    // ---- outputs

    fn put(&mut self, bytes: &[u8]) {
        self.out[self.at..self.at + bytes.len()].copy_from_slice(bytes);
        self.at += bytes.len();
    }

    fn record(&mut self, length: usize, kind: u16) {
        self.put(&(length as u16).to_le_bytes());
        self.put(&kind.to_le_bytes());
    }

    fn put_u64(&mut self, n: u64) {
        self.put(&n.to_le_bytes());
    }

    fn put_hash(&mut self, h: Hash) {
        h.iter().for_each(|w| self.put_u64(*w));
    }

    fn put_high(&mut self) {
        self.put_hash(self.high.hash);
        self.put_u64(self.high.round);
        self.put_u64(self.high.signers);
    }

    fn put_tc(&mut self, round: u64, names: u64, highs: &[u64; 64]) {
        self.put_u64(round);
        self.put(&(names.count_ones() as u16).to_le_bytes());
        let mut left = names;
        while left != 0 {
            let p = left.trailing_zeros() as usize;
            self.put(&(p as u16).to_le_bytes());
            self.put_u64(highs[p]);
            left &= left - 1;
        }
    }

    fn make(&mut self, tc: Option<(u64, u64, &[u64; 64])>) {
        if self.round % self.count as u64 != self.own as u64 {
            return;
        }
        let body = tc.map_or(0, |(_, names, _)| 10 + 10 * names.count_ones() as usize);
        self.record(59 + body, 0x0104);
        self.put_u64(self.round);
        self.put_high();
        self.put(&[tc.is_some() as u8]);
        if let Some((round, names, highs)) = tc {
            self.put_tc(round, names, highs);
        }
    }

    // ---- certificates

    fn stake(&self, place: u16) -> u64 {
        if place < self.count { self.stakes[place as usize] as u64 } else { 0 }
    }

    /// The signers of the list of n at `at`, or 24, 22, `no_quorum`, 23.
    fn check(&self, r: &[u8], at: usize, stride: usize, n: usize, need: u64, verdict: bool, no_quorum: u16) -> Result<u64, u16> {
        let (mut word, mut weight) = (0u64, 0);
        for i in 0..n {
            let p = u16_at(r, at + stride * i);
            let again = if MASK {
                p < 64 && word >> p & 1 == 1
            } else {
                (0..i).any(|j| u16_at(r, at + stride * j) == p)
            };
            if again {
                return Err(24);
            }
            if self.stake(p) == 0 {
                return Err(22);
            }
            word |= 1 << p;
            weight += self.stake(p);
        }
        if weight < need {
            Err(no_quorum)
        } else if !verdict {
            Err(23)
        } else {
            Ok(word)
        }
    }

    fn check_qc(&self, r: &[u8], at: usize, need: u64) -> Result<Qc, u16> {
        let (hash, round) = (hash_at(r, at), u64_at(r, at + 32));
        if hash == ZERO && round == 0 {
            return Ok(Qc::default());
        }
        let signers = self.check(r, at + 43, 2, u16_at(r, at + 41) as usize, need, r[at + 40] == 1, 25)?;
        Ok(Qc { hash, round, signers })
    }

    fn check_tc(&self, r: &[u8], at: usize, need: u64) -> Result<u64, u16> {
        self.check(r, at + 11, 10, u16_at(r, at + 9) as usize, need, r[at + 8] == 1, 26)
    }

    fn check_author(&self, author: u16, verdict: u8) -> Result<(), u16> {
        if self.stake(author) == 0 {
            Err(22)
        } else if verdict == 0 {
            Err(23)
        } else {
            Ok(())
        }
    }

    // ---- rounds

    fn advance(&mut self, r: u64) {
        if r < self.round {
            return;
        }
        self.record(2, 0x0109);
        self.round = r + 1;
        for t in self.votes.iter_mut() {
            if t.used && t.round <= r {
                *t = Votes::default();
            }
        }
        for t in self.timeouts.iter_mut() {
            if t.used && t.round <= r {
                *t = NO_TIMEOUTS;
            }
        }
    }

    fn take(&mut self, q: Qc) {
        self.advance(q.round);
        if q.round > self.high.round {
            self.high = q;
        }
    }

    // ---- votes and timeouts

    fn count_vote(&mut self, hash: Hash, round: u64, author: u16, need: u64) -> u16 {
        let stake = self.stake(author);
        let found = self.votes.iter().position(|t| t.used && t.round == round && t.hash == hash);
        let Some(i) = found.or_else(|| self.votes.iter().position(|t| !t.used)) else { return 29 };
        let t = &mut self.votes[i];
        if found.is_none() {
            *t = Votes { used: true, round, weight: 0, names: 0, hash };
        }
        if t.names >> author & 1 == 1 {
            return 24;
        }
        t.names |= 1 << author;
        t.weight += stake;
        if t.weight >= need {
            t.weight = 0;
            let signers = t.names;
            self.take(Qc { hash, round, signers });
            self.make(None);
        }
        0
    }

    fn count_timeout(&mut self, round: u64, author: u16, high: u64, need: u64) -> u16 {
        let stake = self.stake(author);
        let found = self.timeouts.iter().position(|t| t.used && t.round == round);
        let Some(i) = found.or_else(|| self.timeouts.iter().position(|t| !t.used)) else { return 29 };
        let t = &mut self.timeouts[i];
        if found.is_none() {
            *t = Timeouts { used: true, round, ..NO_TIMEOUTS };
        }
        if t.names >> author & 1 == 1 {
            return 24;
        }
        t.names |= 1 << author;
        t.weight += stake;
        t.highs[author as usize] = high;
        if t.weight >= need {
            t.weight = 0;
            let (names, highs) = (t.names, t.highs);
            self.advance(round);
            self.record(12 + 10 * names.count_ones() as usize, 0x0103);
            self.put_tc(round, names, &highs);
            self.make(Some((round, names, &highs)));
        }
        0
    }

    // ---- blocks

    fn find(&self, hash: Hash) -> Option<usize> {
        self.table.iter().position(|b| b.used && b.digest == hash)
    }

    fn parent(&self, b: &Block) -> Option<Block> {
        if b.parent == ZERO && b.parent_round == 0 {
            return Some(Block::default());
        }
        self.find(b.parent).map(|i| self.table[i])
    }

    fn process(&mut self, r: &[u8], tc: Option<usize>, need: u64) -> u16 {
        let b = Block {
            used: true,
            digest: hash_at(r, 2),
            round: u64_at(r, 36),
            parent: hash_at(r, BLOCK_QC),
            parent_round: u64_at(r, BLOCK_QC + 32),
        };
        let Some(b1) = self.parent(&b) else {
            self.record(68, 0x0106);
            self.put_hash(b.parent);
            self.put_hash(b.digest);
            self.put(&r[34..36]);
            return 2;
        };
        let Some(b0) = self.parent(&b1) else { return 30 };
        let Some(i) = self.find(b.digest).or_else(|| self.table.iter().position(|s| !s.used)) else { return 28 };
        self.table[i] = b;
        self.record(98, 0x0107);
        self.put_hash(b0.digest);
        self.put_hash(b1.digest);
        self.put_hash(b.digest);
        if b0.round.checked_add(1) == Some(b1.round) {
            self.record(10, 0x0108);
            self.put_u64(b0.round);
            match self.commit(b0) {
                0 => {}
                n => return n,
            }
        }
        if b.round != self.round || b.round <= self.last_voted {
            return 0;
        }
        let by_tc = |at: usize| {
            let n = u16_at(r, at + 9) as usize;
            u64_at(r, at) + 1 == b.round && (0..n).all(|i| u64_at(r, at + 13 + 10 * i) <= b.parent_round)
        };
        if b.parent_round + 1 != b.round && !tc.is_some_and(by_tc) {
            return 0;
        }
        self.last_voted = b.round;
        let to = ((b.round + 1) % self.count as u64) as u16;
        self.record(44, 0x0101);
        self.put(&to.to_le_bytes());
        self.put_hash(b.digest);
        self.put_u64(b.round);
        if to != self.own {
            return 0;
        }
        if self.stake(to) == 0 {
            return 22;
        }
        self.count_vote(b.digest, b.round, to, need)
    }

    /// Two walks: one to see that it can be done, one to write, oldest first, from the last place back.
    fn commit(&mut self, b0: Block) -> u16 {
        if b0.round <= self.last_committed {
            return 0;
        }
        let (mut n, mut child) = (1, b0);
        while child.round - 1 > self.last_committed {
            let Some(up) = self.parent(&child) else { return 30 };
            if up.round >= child.round {
                return 31;
            }
            if up.round <= self.last_committed {
                break;
            }
            n += 1;
            child = up;
        }
        self.last_committed = b0.round;
        let (from, mut b) = (self.at, b0);
        for i in (0..n).rev() {
            self.at = from + 44 * i;
            self.record(42, 0x0105);
            self.put_hash(b.digest);
            self.put_u64(b.round);
            if i > 0 {
                b = self.parent(&b).expect("walked before");
            }
        }
        self.at = from + 44 * n;
        0
    }

    fn handle(&mut self, r: &[u8], event: Event, need: u64) -> u16 {
        self.handled(r, event, need).unwrap_or_else(|early| early)
    }

    fn handled(&mut self, r: &[u8], event: Event, need: u64) -> Result<u16, u16> {
        Ok(match event {
            Event::Start => 34,
            Event::Vote => {
                let (round, author) = (u64_at(r, 34), u16_at(r, 42));
                if round < self.round {
                    return Err(1);
                }
                self.check_author(author, r[44])?;
                self.count_vote(hash_at(r, 2), round, author, need)
            }
            Event::Timeout => {
                let (round, author) = (u64_at(r, 2), u16_at(r, 10));
                if round < self.round {
                    return Err(1);
                }
                self.check_author(author, r[12])?;
                let qc = self.check_qc(r, 13, need)?;
                let high = u64_at(r, 13 + 32);
                self.take(qc);
                self.count_timeout(round, author, high, need)
            }
            Event::Tc => {
                let names = self.check_tc(r, 2, need)?;
                let round = u64_at(r, 2);
                if round < self.round {
                    return Err(1);
                }
                self.advance(round);
                if self.round % self.count as u64 == self.own as u64 {
                    let mut highs = [0; 64];
                    for i in 0..u16_at(r, 11) as usize {
                        highs[u16_at(r, 13 + 10 * i) as usize] = u64_at(r, 15 + 10 * i);
                    }
                    self.make(Some((round, names, &highs)));
                }
                0
            }
            Event::Tick => {
                if self.round > TOP {
                    return Err(19);
                }
                self.last_voted = self.last_voted.max(self.round);
                self.record(2, 0x0109);
                self.record(58, 0x0102);
                self.put_u64(self.round);
                self.put_high();
                if self.stake(self.own) == 0 {
                    return Ok(22);
                }
                self.count_timeout(self.round, self.own, self.high.round, need)
            }
            Event::Propose { tc, payload } => {
                let (author, round) = (u16_at(r, 34), u64_at(r, 36));
                if round % self.count as u64 != author as u64 {
                    return Err(21);
                }
                self.check_author(author, r[44])?;
                let qc = self.check_qc(r, BLOCK_QC, need)?;
                if let Some(at) = tc {
                    self.check_tc(r, at, need)?;
                }
                self.take(qc);
                if let Some(at) = tc {
                    self.advance(u64_at(r, at));
                }
                match payload {
                    0 => 3,
                    1 => self.process(r, tc, need),
                    _ => 27,
                }
            }
            Event::Loopback { tc } => self.process(r, tc, need),
        })
    }
}
