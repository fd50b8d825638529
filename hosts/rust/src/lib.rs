//! The proved replica from Rust. [`Replica`] owns the memory; [`lent`] has the library's functions over slices.
//!
//! The replica only decides: it opens no socket, has no clock, makes and checks no signature, keeps nothing on disk.
//! `docs/RUN.md` says what a host does with each output and what it must never do.

pub mod lent;

pub use lent::Slot;

/// The numbers of a record's kind, for events and for outputs.
pub mod kind {
    pub const START: u16 = 1;
    pub const PROPOSE: u16 = 2;
    pub const VOTE: u16 = 3;
    pub const TIMEOUT: u16 = 4;
    pub const TC: u16 = 5;
    pub const LOOPBACK: u16 = 6;
    pub const TICK: u16 = 7;

    pub const OUT_VOTE: u16 = 0x0101;
    pub const OUT_TIMEOUT: u16 = 0x0102;
    pub const OUT_TC: u16 = 0x0103;
    pub const OUT_MAKE: u16 = 0x0104;
    pub const OUT_COMMIT: u16 = 0x0105;
    pub const OUT_SYNC: u16 = 0x0106;
    pub const OUT_CLEAN_PROPOSER: u16 = 0x0107;
    pub const OUT_CLEAN_MEMPOOL: u16 = 0x0108;
    pub const OUT_TIMER_RESET: u16 = 0x0109;
    pub const OUT_ANSWER: u16 = 0x010A;
}

macro_rules! answers {
    ($($(#[$doc:meta])* $name:ident = $number:literal,)*) => {
        /// What an event is answered with, by the numbers of document 01.
        #[derive(Clone, Copy, PartialEq, Eq, Debug)]
        #[repr(u16)]
        pub enum Answer {
            $($(#[$doc])* $name = $number,)*
        }

        impl Answer {
            pub const ALL: &'static [Answer] = &[$(Answer::$name,)*];

            pub fn of(number: u16) -> Option<Answer> {
                match number {
                    $($number => Some(Answer::$name),)*
                    _ => None,
                }
            }
        }
    };
}

answers! {
    Done = 0,
    /// The round is over; nothing changed.
    Stale = 1,
    /// Keep this block; hand it in as LOOPBACK once its parent is stored.
    WaitParent = 2,
    /// Keep this block; hand it in as LOOPBACK once its payload is here.
    WaitPayload = 3,
    BadRecord = 16,
    BadSetup = 17,
    /// The table does not have 1 to 1,024 slots, or the output is too small for it.
    NoRoom = 18,
    /// A round above 2^62.
    RoundTooHigh = 19,
    /// A signer list above 64.
    ListTooLong = 20,
    WrongLeader = 21,
    UnknownAuthority = 22,
    BadSignature = 23,
    Reuse = 24,
    QcQuorum = 25,
    TcQuorum = 26,
    PayloadInvalid = 27,
    /// A new digest, and no empty slot.
    TableFull = 28,
    /// A new tally, and all are held.
    TalliesFull = 29,
    ParentAbsent = 30,
    /// A walked parent's round is not below its child's.
    RoundNotBelow = 31,
    EmptyTc = 32,
    NotStarted = 33,
    StartedAgain = 34,
}

impl Answer {
    pub fn number(self) -> u16 {
        self as u16
    }

    /// 0 to 3 are not refusals.
    pub fn is_refusal(self) -> bool {
        self.number() >= 16
    }
}

/// One controller's replica, with all the memory that it needs. Dropping it loses the last vote: see `docs/RUN.md`.
pub struct Replica {
    seat: Box<[u16]>,
    core: Box<[u64]>,
    stakes: Box<[u32]>,
    votes: Box<[u64]>,
    timeouts: Box<[u64]>,
    table: Box<[Slot]>,
    out: Box<[u8]>,
}

impl Replica {
    /// A replica that is not started, with a table of so many blocks. None unless that is 1 to 1,024.
    pub fn new(slots: usize) -> Option<Replica> {
        let room = lent::room(slots);
        (room > 0).then(|| Replica {
            seat: vec![0; lent::size(0)].into(),
            core: vec![0; lent::size(1)].into(),
            stakes: vec![0; lent::size(2)].into(),
            votes: vec![0; lent::size(3)].into(),
            timeouts: vec![0; lent::size(4)].into(),
            table: vec![Slot::default(); slots].into(),
            out: vec![0; room].into(),
        })
    }

    /// One event: the record's kind and body, without its length. The bytes are the records that it wrote, without an
    /// ANSWER; [`Records`] takes them apart.
    #[inline]
    pub fn step(&mut self, record: &[u8]) -> (Answer, &[u8]) {
        let mut memory = lent::Lent {
            seat: &mut self.seat,
            core: &mut self.core,
            stakes: &mut self.stakes,
            votes: &mut self.votes,
            timeouts: &mut self.timeouts,
            table: &mut self.table,
            out: &mut self.out,
        };
        let (number, written) = lent::step(&mut memory, record);
        (Answer::of(number).expect("an answer of document 01"), &self.out[..written])
    }

    pub fn round(&self) -> u64 {
        lent::round(&self.core)
    }

    pub fn last_voted(&self) -> u64 {
        lent::last_voted(&self.core)
    }

    pub fn last_committed(&self) -> u64 {
        lent::last_committed(&self.core)
    }
}

/// A record: its kind, and its body.
#[derive(Clone, Copy, PartialEq, Eq, Debug)]
pub struct Record<'a> {
    pub kind: u16,
    pub body: &'a [u8],
}

/// The records of a trace or of an event's output, front to back. It ends at the end of the bytes, and at a record that
/// is cut or too long; [`Records::rest`] tells the two apart. A length too small for a kind is passed over.
#[derive(Clone, Copy)]
pub struct Records<'a>(&'a [u8]);

impl<'a> Records<'a> {
    pub fn new(bytes: &'a [u8]) -> Records<'a> {
        Records(bytes)
    }

    pub fn rest(&self) -> &'a [u8] {
        self.0
    }

    /// The next record as `Replica::step` takes it: what is after its length, also where that is too small for a kind.
    pub fn next_bytes(&mut self) -> Option<&'a [u8]> {
        let taken = lent::record(self.0);
        if taken < 2 {
            return None;
        }
        let (front, rest) = self.0.split_at(taken);
        self.0 = rest;
        Some(&front[2..])
    }
}

impl<'a> Iterator for Records<'a> {
    type Item = Record<'a>;

    fn next(&mut self) -> Option<Record<'a>> {
        loop {
            if let Some((kind, body)) = self.next_bytes()?.split_first_chunk::<2>() {
                return Some(Record { kind: u16::from_le_bytes(*kind), body });
            }
        }
    }
}
