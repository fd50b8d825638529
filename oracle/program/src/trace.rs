//! Document 01's trace form, and its refusals that lie before the replica
//! (16, 17, 19, 20, 32, 33, 34): the Rust has no counterpart of them, so the
//! program answers them itself and the Rust does not see the record.

use consensus::oracle_driver::{BlockIn, Event, QcIn, Setup, TcIn};

pub const TOP: u64 = 1 << 62;

pub enum Taken<'a> {
    /// A whole record, without its length, and the rest.
    Record(&'a [u8], &'a [u8]),
    /// Length above 4,096, or cut by the end.
    Broken,
    End,
}

pub fn take(trace: &[u8]) -> Taken<'_> {
    if trace.is_empty() {
        return Taken::End;
    }
    if trace.len() < 2 {
        return Taken::Broken;
    }
    let len = u16::from_le_bytes([trace[0], trace[1]]) as usize;
    if len > 4096 || trace.len() < 2 + len {
        return Taken::Broken;
    }
    Taken::Record(&trace[2..2 + len], &trace[2 + len..])
}

pub enum Input {
    Start(Setup),
    Event(Event),
}

struct Reader<'a>(&'a [u8]);

impl<'a> Reader<'a> {
    fn bytes(&mut self, n: usize) -> Option<&'a [u8]> {
        if self.0.len() < n {
            return None;
        }
        let (a, b) = self.0.split_at(n);
        self.0 = b;
        Some(a)
    }

    fn u8(&mut self) -> Option<u8> {
        self.bytes(1).map(|x| x[0])
    }

    fn u16(&mut self) -> Option<u16> {
        self.bytes(2).map(|x| u16::from_le_bytes([x[0], x[1]]))
    }

    fn u32(&mut self) -> Option<u32> {
        let mut out = [0; 4];
        out.copy_from_slice(self.bytes(4)?);
        Some(u32::from_le_bytes(out))
    }

    fn u64(&mut self) -> Option<u64> {
        let mut out = [0; 8];
        out.copy_from_slice(self.bytes(8)?);
        Some(u64::from_le_bytes(out))
    }

    fn key(&mut self) -> Option<[u8; 32]> {
        let mut out = [0; 32];
        out.copy_from_slice(self.bytes(32)?);
        Some(out)
    }

    fn verdict(&mut self) -> Option<bool> {
        match self.u8()? {
            0 => Some(false),
            1 => Some(true),
            _ => None,
        }
    }

    fn qc(&mut self) -> Option<QcIn> {
        let (hash, round, verdict) = (self.key()?, self.u64()?, self.verdict()?);
        let count = self.u16()?;
        let places = (0..count).map(|_| self.u16()).collect::<Option<_>>()?;
        Some(QcIn {
            hash,
            round,
            verdict,
            places,
        })
    }

    fn tc(&mut self) -> Option<TcIn> {
        let (round, verdict) = (self.u64()?, self.verdict()?);
        let count = self.u16()?;
        let votes = (0..count)
            .map(|_| Some((self.u16()?, self.u64()?)))
            .collect::<Option<_>>()?;
        Some(TcIn {
            round,
            verdict,
            votes,
        })
    }

    fn block(&mut self) -> Option<BlockIn> {
        Some(BlockIn {
            digest: self.key()?,
            author: self.u16()?,
            round: self.u64()?,
            verdict: self.verdict()?,
            qc: self.qc()?,
            tc: if self.verdict()? { Some(self.tc()?) } else { None },
        })
    }
}

/// Not in document 01, and only with --raw: the store loses the block with this digest.
pub const FORGET: u16 = 0x00F1;

/// None is number 16.
pub fn parse(record: &[u8], raw: bool) -> Option<Input> {
    let mut r = Reader(record);
    let input = match r.u16()? {
        1 => {
            let (count, own) = (r.u16()?, r.u16()?);
            let members = (0..count)
                .map(|_| Some((r.key()?, r.u32()?)))
                .collect::<Option<_>>()?;
            Input::Start(Setup { own, members })
        }
        2 => {
            let block = r.block()?;
            let payload = r.u8()?;
            if payload > 2 {
                return None;
            }
            Input::Event(Event::Propose(block, payload))
        }
        3 => Input::Event(Event::Vote {
            hash: r.key()?,
            round: r.u64()?,
            author: r.u16()?,
            verdict: r.verdict()?,
        }),
        4 => Input::Event(Event::Timeout {
            round: r.u64()?,
            author: r.u16()?,
            verdict: r.verdict()?,
            qc: r.qc()?,
        }),
        5 => Input::Event(Event::Tc(r.tc()?)),
        6 => Input::Event(Event::Loopback(r.block()?)),
        7 => Input::Event(Event::Tick),
        FORGET if raw => Input::Event(Event::Forget(r.key()?)),
        _ => return None,
    };
    if r.0.is_empty() {
        Some(input)
    } else {
        None
    }
}

pub fn bad_setup(setup: &Setup) -> bool {
    let n = setup.members.len();
    let total: u64 = setup.members.iter().map(|(_, s)| u64::from(*s)).sum();
    n == 0
        || n > 64
        || usize::from(setup.own) >= n
        || total > 0x7FFF_FFFF
        || setup.members.windows(2).any(|w| w[0].0 >= w[1].0)
}

/// 32, 20 and 19, in this order. `current` is the replica's round.
pub fn refused(event: &Event, current: u64) -> Option<u16> {
    let mut qcs = Vec::new();
    let mut tcs = Vec::new();
    let mut rounds = Vec::new();
    match event {
        Event::Propose(b, _) | Event::Loopback(b) => {
            rounds.push(b.round);
            qcs.push(&b.qc);
            tcs.extend(b.tc.as_ref());
        }
        Event::Vote { round, .. } => rounds.push(*round),
        Event::Timeout { round, qc, .. } => {
            rounds.push(*round);
            qcs.push(qc);
        }
        Event::Tc(tc) => tcs.push(tc),
        Event::Tick => rounds.push(current),
        Event::Forget(_) => (),
    }
    if matches!(event, Event::Loopback(_)) && tcs.iter().any(|tc| tc.votes.is_empty()) {
        return Some(32);
    }
    if qcs.iter().any(|x| x.places.len() > 64) || tcs.iter().any(|x| x.votes.len() > 64) {
        return Some(20);
    }
    rounds.extend(qcs.iter().map(|x| x.round));
    for tc in &tcs {
        rounds.push(tc.round);
        rounds.extend(tc.votes.iter().map(|(_, r)| *r));
    }
    if rounds.iter().any(|r| *r > TOP) {
        return Some(19);
    }
    None
}
