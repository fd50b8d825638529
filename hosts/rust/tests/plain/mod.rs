//! Document 01, read plainly: one event over the memory that a host lends. It shares no code with the replica, and is
//! written to be compared with the document, not to be fast.

#[derive(Clone, Copy, PartialEq, Eq, Debug, Default)]
pub struct Block {
    pub used: bool,
    pub digest: Hash,
    pub round: u64,
    pub parent: Hash,
    pub parent_round: u64,
}

pub type Hash = [u8; 32];

pub const ZERO: Hash = [0; 32];
pub const TOP: u64 = 1 << 62;
pub const TOTAL_MAX: u64 = (1 << 31) - 1;

/// All that is lent but the record, as lists of any length.
#[derive(Clone, PartialEq, Eq, Debug, Default)]
pub struct Memory {
    pub seat: Vec<u16>,
    pub core: Vec<u64>,
    pub stakes: Vec<u32>,
    pub votes: Vec<u64>,
    pub timeouts: Vec<u64>,
    pub table: Vec<Block>,
    pub out: Vec<u8>,
}

#[derive(Clone, Copy)]
struct Cert {
    hash: Hash,
    round: u64,
    signers: u64,
}

#[derive(Clone, Copy)]
struct Tally<const N: usize> {
    used: u64,
    round: u64,
    weight: u64,
    names: u64,
    /// The hash's words of a vote tally, the high rounds of a timeout tally.
    rest: [u64; N],
}

#[derive(Clone)]
struct Replica {
    count: u16,
    own: u16,
    stakes: Vec<u32>,
    round: u64,
    last_voted: u64,
    last_committed: u64,
    high: Cert,
    votes: Vec<Tally<4>>,
    timeouts: Vec<Tally<64>>,
    table: Vec<Block>,
    out: Vec<u8>,
}

struct Qc {
    hash: Hash,
    round: u64,
    verdict: bool,
    places: Vec<u16>,
}

struct Tc {
    round: u64,
    verdict: bool,
    votes: Vec<(u16, u64)>,
}

struct Proposed {
    digest: Hash,
    author: u16,
    round: u64,
    verdict: bool,
    qc: Qc,
    tc: Option<Tc>,
}

enum Event {
    Start { own: u16, members: Vec<(Hash, u32)> },
    Propose(Proposed, u8),
    Vote { hash: Hash, round: u64, author: u16, verdict: bool },
    Timeout { round: u64, author: u16, verdict: bool, qc: Qc },
    Tc(Tc),
    Loopback(Proposed),
    Tick,
}

// ---- the trace form

struct Reader<'a>(&'a [u8]);

impl Reader<'_> {
    fn bytes<const N: usize>(&mut self) -> Option<[u8; N]> {
        let (front, rest) = (self.0.get(..N)?, self.0.get(N..)?);
        self.0 = rest;
        front.try_into().ok()
    }
    fn u16(&mut self) -> Option<u16> {
        self.bytes().map(u16::from_le_bytes)
    }
    fn u32(&mut self) -> Option<u32> {
        self.bytes().map(u32::from_le_bytes)
    }
    fn u64(&mut self) -> Option<u64> {
        self.bytes().map(u64::from_le_bytes)
    }
    fn upto(&mut self, most: u8) -> Option<u8> {
        self.bytes::<1>().map(|b| b[0]).filter(|b| *b <= most)
    }
    fn bit(&mut self) -> Option<bool> {
        self.upto(1).map(|b| b == 1)
    }
    fn qc(&mut self) -> Option<Qc> {
        let (hash, round, verdict, n) = (self.bytes()?, self.u64()?, self.bit()?, self.u16()?);
        let places = (0..n).map(|_| self.u16()).collect::<Option<_>>()?;
        Some(Qc { hash, round, verdict, places })
    }
    fn tc(&mut self) -> Option<Tc> {
        let (round, verdict, n) = (self.u64()?, self.bit()?, self.u16()?);
        let votes = (0..n).map(|_| Some((self.u16()?, self.u64()?))).collect::<Option<_>>()?;
        Some(Tc { round, verdict, votes })
    }
    fn block(&mut self) -> Option<Proposed> {
        let (digest, author, round, verdict) = (self.bytes()?, self.u16()?, self.u64()?, self.bit()?);
        let qc = self.qc()?;
        let tc = if self.bit()? { Some(self.tc()?) } else { None };
        Some(Proposed { digest, author, round, verdict, qc, tc })
    }
}

fn parse(record: &[u8]) -> Option<Event> {
    if record.len() < 2 || record.len() > 4096 {
        return None;
    }
    let mut r = Reader(record);
    let event = match r.u16()? {
        1 => {
            let (n, own) = (r.u16()?, r.u16()?);
            let members = (0..n).map(|_| Some((r.bytes()?, r.u32()?))).collect::<Option<_>>()?;
            Event::Start { own, members }
        }
        2 => Event::Propose(r.block()?, r.upto(2)?),
        3 => Event::Vote { hash: r.bytes()?, round: r.u64()?, author: r.u16()?, verdict: r.bit()? },
        4 => Event::Timeout { round: r.u64()?, author: r.u16()?, verdict: r.bit()?, qc: r.qc()? },
        5 => Event::Tc(r.tc()?),
        6 => Event::Loopback(r.block()?),
        7 => Event::Tick,
        _ => return None,
    };
    r.0.is_empty().then_some(event)
}

/// 32, 20, 19, by the record alone.
fn limits(event: &Event) -> Result<(), u16> {
    let (mut qcs, mut tcs, mut rounds) = (vec![], vec![], vec![]);
    match event {
        Event::Propose(b, _) | Event::Loopback(b) => {
            rounds.push(b.round);
            qcs.push(&b.qc);
            tcs.extend(b.tc.as_ref());
        }
        Event::Vote { round, .. } => rounds.push(*round),
        Event::Timeout { round, qc, .. } => {
            rounds.push(*round);
            qcs.push(qc);
        }
        Event::Tc(t) => tcs.push(t),
        Event::Start { .. } | Event::Tick => {}
    }
    rounds.extend(qcs.iter().map(|q| q.round));
    rounds.extend(tcs.iter().map(|t| t.round));
    rounds.extend(tcs.iter().flat_map(|t| t.votes.iter().map(|v| v.1)));
    if matches!(event, Event::Loopback(_)) && tcs.iter().any(|t| t.votes.is_empty()) {
        return Err(32);
    }
    if qcs.iter().any(|q| q.places.len() > 64) || tcs.iter().any(|t| t.votes.len() > 64) {
        return Err(20);
    }
    if rounds.iter().any(|r| *r > TOP) {
        return Err(19);
    }
    Ok(())
}

// ---- the memory that is lent, and back

fn words(h: &Hash) -> [u64; 4] {
    std::array::from_fn(|i| u64::from_le_bytes(h[8 * i..8 * i + 8].try_into().unwrap()))
}

fn bytes(w: &[u64]) -> Hash {
    let mut h = ZERO;
    for i in 0..4 {
        h[8 * i..8 * i + 8].copy_from_slice(&w[i].to_le_bytes());
    }
    h
}

fn tallies<const N: usize>(v: &[u64]) -> Vec<Tally<N>> {
    v.chunks(N + 4)
        .map(|t| Tally { used: t[0], round: t[1], weight: t[2], names: t[3], rest: t[4..].try_into().unwrap() })
        .collect()
}

fn numbers<const N: usize>(ts: &[Tally<N>]) -> Vec<u64> {
    ts.iter().flat_map(|t| [t.used, t.round, t.weight, t.names].into_iter().chain(t.rest)).collect()
}

impl Memory {
    fn sized(&self) -> bool {
        (self.seat.len(), self.core.len(), self.stakes.len(), self.votes.len(), self.timeouts.len()) == (2, 9, 64, 256, 1088)
    }

    fn replica(&self) -> Replica {
        Replica {
            count: self.seat[0],
            own: self.seat[1],
            stakes: self.stakes.clone(),
            round: self.core[0],
            last_voted: self.core[1],
            last_committed: self.core[2],
            high: Cert { hash: bytes(&self.core[3..7]), round: self.core[7], signers: self.core[8] },
            votes: tallies(&self.votes),
            timeouts: tallies(&self.timeouts),
            table: self.table.clone(),
            out: vec![],
        }
    }

    fn started(&self) -> Option<Replica> {
        let r = self.sized().then(|| self.replica())?;
        let (n, own) = (r.count as usize, r.own);
        if n < 1 || n > 64 || own as usize >= n || r.total() > TOTAL_MAX {
            return None;
        }
        let light = |used: u64, weight: u64| used == 0 || weight <= r.total();
        (r.votes.iter().all(|t| light(t.used, t.weight)) && r.timeouts.iter().all(|t| light(t.used, t.weight))).then_some(r)
    }

    fn keep(&mut self, r: &Replica) {
        self.seat = vec![r.count, r.own];
        let h = words(&r.high.hash);
        self.core = vec![r.round, r.last_voted, r.last_committed, h[0], h[1], h[2], h[3], r.high.round, r.high.signers];
        self.stakes = r.stakes.clone();
        self.votes = numbers(&r.votes);
        self.timeouts = numbers(&r.timeouts);
        self.table = r.table.clone();
        self.out[..r.out.len()].copy_from_slice(&r.out);
    }

    fn room(&self) -> bool {
        let slots = self.table.len();
        slots >= 1 && slots <= 1024 && self.out.len() >= 44 * slots + 2048
    }

    /// One event: the answer, and how many bytes were written.
    pub fn step(&mut self, record: &[u8]) -> (u16, usize) {
        let Some(event) = parse(record) else { return (16, 0) };
        let started = self.started();
        if let Event::Start { own, members } = &event {
            return if started.is_some() {
                (34, 0)
            } else if !self.room() || !self.sized() {
                (18, 0)
            } else {
                match Replica::start(*own, members, self.table.len()) {
                    None => (17, 0),
                    Some(r) => {
                        self.keep(&r);
                        (0, r.out.len())
                    }
                }
            };
        }
        let Some(before) = started else { return (33, 0) };
        if !self.room() {
            return (18, 0);
        }
        if let Err(number) = limits(&event) {
            return (number, 0);
        }
        let mut r = before;
        match r.handle(event) {
            // early: no state changes, no output is written
            Err(Early(number)) => (number, 0),
            Ok(number) => {
                self.keep(&r);
                (number, r.out.len())
            }
        }
    }
}

/// An answer before anything changed.
struct Early(u16);

// ---- events

/// One of an event's later steps: an answer other than 0 ends the event, and what was done stays.
type Late = Result<(), u16>;

fn number(late: Late) -> u16 {
    late.err().unwrap_or(0)
}

impl Replica {
    fn start(own: u16, members: &[(Hash, u32)], slots: usize) -> Option<Replica> {
        let total: u64 = members.iter().map(|m| m.1 as u64).sum();
        let rising = members.windows(2).all(|w| w[0].0 < w[1].0);
        if members.is_empty() || members.len() > 64 || own as usize >= members.len() || total > TOTAL_MAX || !rising {
            return None;
        }
        let mut stakes: Vec<u32> = members.iter().map(|m| m.1).collect();
        stakes.resize(64, 0);
        let mut r = Replica {
            count: members.len() as u16,
            own,
            stakes,
            round: 1,
            last_voted: 0,
            last_committed: 0,
            high: Cert { hash: ZERO, round: 0, signers: 0 },
            votes: vec![Tally { used: 0, round: 0, weight: 0, names: 0, rest: [0; 4] }; 32],
            timeouts: vec![Tally { used: 0, round: 0, weight: 0, names: 0, rest: [0; 64] }; 16],
            table: vec![Block::default(); slots],
            out: vec![],
        };
        r.write(0x0109, &[]);
        r.make_if_leading(None);
        Some(r)
    }

    // the committee

    fn total(&self) -> u64 {
        self.stakes.iter().take(self.count as usize).map(|s| *s as u64).sum()
    }

    fn stake(&self, place: u16) -> u64 {
        if place < self.count { self.stakes[place as usize] as u64 } else { 0 }
    }

    fn quorum(&self) -> u64 {
        2 * self.total() / 3 + 1
    }

    fn leader(&self, round: u128) -> u16 {
        (round % self.count as u128) as u16
    }

    // outputs

    fn write(&mut self, kind: u16, body: &[u8]) {
        self.out.extend(((body.len() + 2) as u16).to_le_bytes());
        self.out.extend(kind.to_le_bytes());
        self.out.extend(body);
    }

    fn high_bytes(&self) -> Vec<u8> {
        let mut b = self.high.hash.to_vec();
        b.extend(self.high.round.to_le_bytes());
        b.extend(self.high.signers.to_le_bytes());
        b
    }

    fn make_if_leading(&mut self, tc: Option<&[u8]>) {
        if self.leader(self.round as u128) == self.own {
            let mut b = self.round.to_le_bytes().to_vec();
            b.extend(self.high_bytes());
            b.push(tc.is_some() as u8);
            b.extend(tc.unwrap_or(&[]));
            self.write(0x0104, &b);
        }
    }

    // certificates

    fn check(&self, places: &[u16], verdict: bool, no_quorum: u16) -> Result<(), Early> {
        let mut weight = 0;
        for (i, p) in places.iter().enumerate() {
            if places[..i].contains(p) {
                return Err(Early(24));
            }
            if self.stake(*p) == 0 {
                return Err(Early(22));
            }
            weight += self.stake(*p);
        }
        if weight < self.quorum() {
            return Err(Early(no_quorum));
        }
        if verdict { Ok(()) } else { Err(Early(23)) }
    }

    fn check_inner(&self, q: &Qc) -> Result<(), Early> {
        if q.hash == ZERO && q.round == 0 { Ok(()) } else { self.check(&q.places, q.verdict, 25) }
    }

    fn check_tc(&self, t: &Tc) -> Result<(), Early> {
        self.check(&t.votes.iter().map(|v| v.0).collect::<Vec<_>>(), t.verdict, 26)
    }

    fn check_author(&self, author: u16, verdict: bool) -> Result<(), Early> {
        if self.stake(author) == 0 {
            return Err(Early(22));
        }
        if verdict { Ok(()) } else { Err(Early(23)) }
    }

    // rounds

    fn advance(&mut self, r: u64) {
        if r < self.round {
            return;
        }
        self.write(0x0109, &[]);
        let next = r + 1;
        self.round = next;
        for t in self.votes.iter_mut().filter(|t| t.used != 0 && t.round < next) {
            *t = Tally { used: 0, round: 0, weight: 0, names: 0, rest: [0; 4] };
        }
        for t in self.timeouts.iter_mut().filter(|t| t.used != 0 && t.round < next) {
            *t = Tally { used: 0, round: 0, weight: 0, names: 0, rest: [0; 64] };
        }
    }

    fn take(&mut self, q: Cert) {
        self.advance(q.round);
        if q.round > self.high.round {
            self.high = q;
        }
    }

    fn take_inner(&mut self, q: &Qc) {
        // a genesis-equal QC is not checked: its round is 0, and it never replaces the high QC
        let signers = if q.round == 0 { 0 } else { q.places.iter().fold(0, |w, p| w | 1u64 << p) };
        self.take(Cert { hash: q.hash, round: q.round, signers });
    }

    // votes and timeouts

    fn count_vote(&mut self, hash: &Hash, round: u64, author: u16) -> Late {
        let (stake, need) = (self.stake(author), self.quorum());
        let of = |t: &Tally<4>| t.used != 0 && t.round == round && t.rest == words(hash);
        let place = match self.votes.iter().position(of) {
            Some(i) => i,
            None => {
                let i = self.votes.iter().position(|t| t.used == 0).ok_or(29u16)?;
                self.votes[i] = Tally { used: 1, round, weight: 0, names: 0, rest: words(hash) };
                i
            }
        };
        let t = &mut self.votes[place];
        if t.names >> author & 1 == 1 {
            return Err(24);
        }
        t.names |= 1 << author;
        t.weight += stake;
        if t.weight >= need {
            t.weight = 0;
            let signers = t.names;
            self.take(Cert { hash: *hash, round, signers });
            self.make_if_leading(None);
        }
        Ok(())
    }

    fn count_timeout(&mut self, round: u64, author: u16, high: u64) -> Late {
        let (stake, need) = (self.stake(author), self.quorum());
        let place = match self.timeouts.iter().position(|t| t.used != 0 && t.round == round) {
            Some(i) => i,
            None => {
                let i = self.timeouts.iter().position(|t| t.used == 0).ok_or(29u16)?;
                self.timeouts[i] = Tally { used: 1, round, weight: 0, names: 0, rest: [0; 64] };
                i
            }
        };
        let t = &mut self.timeouts[place];
        if t.names >> author & 1 == 1 {
            return Err(24);
        }
        t.names |= 1 << author;
        t.rest[author as usize] = high;
        t.weight += stake;
        if t.weight >= need {
            t.weight = 0;
            let t = *t;
            let votes = (0..64).filter(|p| t.names >> p & 1 == 1).map(|p| (p as u16, t.rest[p])).collect();
            let tc = tc_bytes(round, votes);
            self.advance(round);
            self.write(0x0103, &tc);
            self.make_if_leading(Some(&tc));
        }
        Ok(())
    }

    // the table

    fn find(&self, hash: &Hash) -> Option<Block> {
        self.table.iter().find(|b| b.used && b.digest == *hash).copied()
    }

    fn parent(&self, b: &Block) -> Option<Block> {
        if b.parent == ZERO && b.parent_round == 0 { Some(Block::default()) } else { self.find(&b.parent) }
    }

    fn process(&mut self, b: &Proposed) -> Late {
        let block = Block { used: true, digest: b.digest, round: b.round, parent: b.qc.hash, parent_round: b.qc.round };
        let Some(b1) = self.parent(&block) else {
            let mut body = block.parent.to_vec();
            body.extend(block.digest);
            body.extend(b.author.to_le_bytes());
            self.write(0x0106, &body);
            return Err(2);
        };
        let b0 = self.parent(&b1).ok_or(30u16)?;
        let same = self.table.iter().position(|s| s.used && s.digest == b.digest);
        let place = same.or_else(|| self.table.iter().position(|s| !s.used)).ok_or(28u16)?;
        self.table[place] = block;
        self.write(0x0107, &[b0.digest, b1.digest, block.digest].concat());
        if b0.round as u128 + 1 == b1.round as u128 {
            self.write(0x0108, &b0.round.to_le_bytes());
            self.commit(b0)?;
        }
        self.vote(b)
    }

    fn commit(&mut self, b0: Block) -> Late {
        if b0.round <= self.last_committed {
            return Ok(());
        }
        let mut chain = vec![b0];
        let mut child = b0;
        while child.round as u128 > self.last_committed as u128 + 1 {
            let up = self.parent(&child).ok_or(30u16)?;
            if up.round >= child.round {
                return Err(31);
            }
            if up.round <= self.last_committed {
                break;
            }
            chain.push(up);
            assert!(chain.len() <= self.table.len(), "more COMMITs than slots");
            child = up;
        }
        self.last_committed = b0.round;
        for b in chain.iter().rev() {
            let mut body = b.digest.to_vec();
            body.extend(b.round.to_le_bytes());
            self.write(0x0105, &body);
        }
        Ok(())
    }

    fn vote(&mut self, b: &Proposed) -> Late {
        let follows = |r: u64| r as u128 + 1 == b.round as u128;
        let by_tc = |t: &Tc| follows(t.round) && t.votes.iter().all(|v| b.qc.round >= v.1);
        let good = follows(b.qc.round) || b.tc.as_ref().is_some_and(by_tc);
        if b.round != self.round || b.round <= self.last_voted || !good {
            return Ok(());
        }
        self.last_voted = b.round;
        let to = self.leader(b.round as u128 + 1);
        let mut body = to.to_le_bytes().to_vec();
        body.extend(b.digest);
        body.extend(b.round.to_le_bytes());
        self.write(0x0101, &body);
        if to == self.own {
            // own vote, verdict yes; its round is the current one, so it is not stale
            if self.stake(self.own) == 0 {
                return Err(22);
            }
            self.count_vote(&b.digest, b.round, self.own)?;
        }
        Ok(())
    }

    fn handle(&mut self, event: Event) -> Result<u16, Early> {
        match event {
            Event::Start { .. } => Err(Early(34)),
            Event::Vote { hash, round, author, verdict } => {
                if round < self.round {
                    return Err(Early(1));
                }
                self.check_author(author, verdict)?;
                // 24 and 29 are early for VOTE
                self.count_vote(&hash, round, author).map_err(Early)?;
                Ok(0)
            }
            Event::Timeout { round, author, verdict, qc } => {
                if round < self.round {
                    return Err(Early(1));
                }
                self.check_author(author, verdict)?;
                self.check_inner(&qc)?;
                self.take_inner(&qc);
                Ok(number(self.count_timeout(round, author, qc.round)))
            }
            Event::Tc(t) => {
                self.check_tc(&t)?;
                if t.round < self.round {
                    return Err(Early(1));
                }
                self.advance(t.round);
                let tc = tc_bytes(t.round, t.votes);
                self.make_if_leading(Some(&tc));
                Ok(0)
            }
            Event::Tick => {
                if self.round > TOP {
                    return Err(Early(19));
                }
                self.last_voted = self.last_voted.max(self.round);
                self.write(0x0109, &[]);
                let mut body = self.round.to_le_bytes().to_vec();
                body.extend(self.high_bytes());
                self.write(0x0102, &body);
                if self.stake(self.own) == 0 {
                    return Ok(22);
                }
                Ok(number(self.count_timeout(self.round, self.own, self.high.round)))
            }
            Event::Propose(b, payload) => {
                if self.leader(b.round as u128) != b.author {
                    return Err(Early(21));
                }
                self.check_author(b.author, b.verdict)?;
                self.check_inner(&b.qc)?;
                if let Some(t) = &b.tc {
                    self.check_tc(t)?;
                }
                self.take_inner(&b.qc);
                if let Some(t) = &b.tc {
                    self.advance(t.round);
                }
                match payload {
                    0 => Ok(3),
                    1 => Ok(number(self.process(&b))),
                    _ => Ok(27),
                }
            }
            Event::Loopback(b) => Ok(number(self.process(&b))),
        }
    }
}

fn tc_bytes(round: u64, mut votes: Vec<(u16, u64)>) -> Vec<u8> {
    votes.sort();
    let mut b = round.to_le_bytes().to_vec();
    b.extend((votes.len() as u16).to_le_bytes());
    for (place, high) in votes {
        b.extend(place.to_le_bytes());
        b.extend(high.to_le_bytes());
    }
    b
}

// ---- whole traces

/// What the program of document 01 writes for a trace.
#[allow(dead_code)]
pub fn play(trace: &[u8], slots: usize) -> Vec<u8> {
    let mut m = Memory {
        seat: vec![0; 2],
        core: vec![0; 9],
        stakes: vec![0; 64],
        votes: vec![0; 256],
        timeouts: vec![0; 1088],
        table: vec![Block::default(); slots],
        out: vec![0; 44 * slots + 2048],
    };
    let (mut rest, mut all) = (trace, vec![]);
    let answer = |all: &mut Vec<u8>, n: u16| all.extend([4, 0, 0x0A, 0x01, n as u8, (n >> 8) as u8]);
    while !rest.is_empty() {
        let n = rest.get(..2).map(|b| u16::from_le_bytes([b[0], b[1]]) as usize);
        let whole = n.filter(|n| *n <= 4096).and_then(|n| Some((rest.get(2..2 + n)?, &rest[2 + n..])));
        let Some((record, after)) = whole else {
            answer(&mut all, 16);
            break;
        };
        let (number, written) = m.step(record);
        all.extend(&m.out[..written]);
        answer(&mut all, number);
        rest = after;
    }
    all
}
