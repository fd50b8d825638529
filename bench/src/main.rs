//! The library beside plain Rust, by ratio: for each run of events the best of many, the two in turns.
//!
//!     bench [REPEATS [WORD]]     only the runs whose names begin with WORD
//!
//! Inside the time is the public operation alone, on memory that is there. What is cleared inside it is what the event
//! itself clears: START the whole table (1,024 slots here), the stakes and the tallies; an advance the tallies below it.
//! New memory and the events that lead up to a run are outside.

mod in_place;

use nickelhush::{lent, Slot};
use std::hint::black_box;

const MEMBERS: u16 = 64;
const QUORUM: u16 = 43;

/// Either side, behind one face.
trait Side {
    fn new(slots: usize) -> Self;
    fn step(&mut self, record: &[u8]) -> (u16, &[u8]);
    fn stop(&mut self);
}

impl<const MASK: bool> Side for in_place::Replica<MASK> {
    fn new(slots: usize) -> Self {
        in_place::Replica::new(slots)
    }
    fn step(&mut self, record: &[u8]) -> (u16, &[u8]) {
        in_place::Replica::step(self, record)
    }
    fn stop(&mut self) {
        in_place::Replica::stop(self)
    }
}

/// The memory as a host in C lends it.
struct Library {
    seat: [u16; 2],
    core: [u64; 9],
    stakes: [u32; 64],
    votes: [u64; 256],
    timeouts: [u64; 1088],
    table: Vec<Slot>,
    out: Vec<u8>,
}

impl Side for Library {
    fn new(slots: usize) -> Self {
        Library {
            seat: [0; 2],
            core: [0; 9],
            stakes: [0; 64],
            votes: [0; 256],
            timeouts: [0; 1088],
            table: vec![Slot::default(); slots],
            out: vec![0; lent::room(slots)],
        }
    }
    fn step(&mut self, record: &[u8]) -> (u16, &[u8]) {
        let mut m = lent::Lent {
            seat: &mut self.seat,
            core: &mut self.core,
            stakes: &mut self.stakes,
            votes: &mut self.votes,
            timeouts: &mut self.timeouts,
            table: &mut self.table,
            out: &mut self.out,
        };
        let (answer, written) = lent::step(&mut m, record);
        (answer, &self.out[..written])
    }
    fn stop(&mut self) {
        self.seat[0] = 0;
    }
}

/// Some events outside the time, and those inside it.
struct Run {
    name: &'static str,
    slots: usize,
    before: Vec<Vec<u8>>,
    timed: Vec<Vec<u8>>,
    /// The replica counts as not started before each timed event.
    stops: bool,
}

// ---- records

/// The byte of a key that says whose it is: keys mostly differ in their first byte, at worst in their last.
const FIRST: usize = 0;
const LAST: usize = 31;

fn start(members: u16, own: u16) -> Vec<u8> {
    start_with(members, own, FIRST)
}

fn start_with(members: u16, own: u16, differs: usize) -> Vec<u8> {
    let mut r = [&1u16.to_le_bytes()[..], &members.to_le_bytes(), &own.to_le_bytes()].concat();
    for i in 0..members {
        let mut key = [7u8; 32];
        key[differs] = i as u8;
        r.extend(key);
        r.extend(1u32.to_le_bytes());
    }
    r
}

fn digest(round: u64) -> [u8; 32] {
    let mut h = [7u8; 32];
    h[..8].copy_from_slice(&round.to_le_bytes());
    h
}

fn vote(round: u64, author: u16) -> Vec<u8> {
    [&3u16.to_le_bytes()[..], &digest(round), &round.to_le_bytes(), &author.to_le_bytes(), &[1]].concat()
}

/// The QC of the block of a round; genesis of round 0.
fn qc(round: u64) -> Vec<u8> {
    if round == 0 {
        return [&[0u8; 40][..], &[0, 0, 0]].concat();
    }
    let mut r = [&digest(round)[..], &round.to_le_bytes(), &[1], &QUORUM.to_le_bytes()].concat();
    (0..QUORUM).for_each(|p| r.extend(p.to_le_bytes()));
    r
}

fn tc(round: u64, high: u64) -> Vec<u8> {
    let mut r = [&round.to_le_bytes()[..], &[1], &QUORUM.to_le_bytes()].concat();
    (0..QUORUM).for_each(|p| r.extend([&p.to_le_bytes()[..], &high.to_le_bytes()].concat()));
    r
}

fn block(kind: u16, round: u64, parent: u64) -> Vec<u8> {
    let author = (round % MEMBERS as u64) as u16;
    let head = [&kind.to_le_bytes()[..], &digest(round), &author.to_le_bytes(), &round.to_le_bytes(), &[1]].concat();
    [&head[..], &qc(parent), &[0], if kind == 2 { &[1][..] } else { &[] }].concat()
}

fn timeout(round: u64, author: u16, high: u64) -> Vec<u8> {
    [&4u16.to_le_bytes()[..], &round.to_le_bytes(), &author.to_le_bytes(), &[1], &qc(high)].concat()
}

fn runs() -> Vec<Run> {
    let begin = vec![start(MEMBERS, 0)];
    let by_round = |n: usize, f: &dyn Fn(u64, u16) -> Vec<u8>| (0..n).map(|i| f(1 + i as u64 / QUORUM as u64, (i % QUORUM as usize) as u16)).collect();
    let chain = |kind, n: u64| (1..=n).map(|r| block(kind, r, r - 1)).collect::<Vec<_>>();
    // rounds 1, 3, 5, .. deliver nothing; the two neighbours at the end deliver all of it
    let odd = |n: u64| (0..n).map(|i| block(6, 2 * i + 1, (2 * i).saturating_sub(1))).collect::<Vec<_>>();
    let run = |name, slots, before: &Vec<Vec<u8>>, timed| Run { name, slots, before: before.clone(), timed, stops: false };
    let starts = |name, differs| Run { name, slots: 1024, before: vec![], timed: vec![start_with(MEMBERS, 0, differs); 200], stops: true };
    vec![
        run("VOTE, 100,000 over 64 members", 256, &begin, by_round(100_000, &vote)),
        run("PROPOSE, a chain of 1,024 at 1,024 slots", 1024, &begin, chain(2, 1024)),
        run("LOOPBACK, a chain of 1,024 at 1,024 slots", 1024, &begin, chain(6, 1024)),
        run(
            "LOOPBACK, one that delivers 1,001 blocks",
            1024,
            &[begin.clone(), odd(1001), vec![block(6, 2002, 2001)]].concat(),
            vec![block(6, 2003, 2002)],
        ),
        run("TIMEOUT, genesis QC", 256, &begin, by_round(20_000, &|r, p| timeout(r, p, 0))),
        run("TIMEOUT, QC of 43 signers", 256, &begin, by_round(20_000, &|r, p| timeout(r + 1, p, 1))),
        run("TC of 43 entries", 256, &begin, (1..=20_000).map(|r| [&5u16.to_le_bytes()[..], &tc(r, 0)].concat()).collect()),
        run("TICK, one member: TC and MAKE", 256, &vec![start(1, 0)], vec![vec![7, 0]; 20_000]),
        run("TICK, 64 members: REUSE", 256, &begin, vec![vec![7, 0]; 20_000]),
        starts("START, 64 members, 1,024 slots cleared", FIRST),
        starts("START, keys that differ in their last byte", LAST),
        run("VOTE, STALE", 256, &[begin.clone(), vec![[&5u16.to_le_bytes()[..], &tc(9, 0)].concat()]].concat(), vec![vote(1, 0); 20_000]),
        run("a bad record", 256, &begin, vec![[&vote(1, 0)[..44], &[2]].concat(); 20_000]),
    ]
}

// ---- timing

fn prepared<S: Side>(run: &Run) -> S {
    let mut side = S::new(run.slots);
    for r in &run.before {
        assert!(side.step(r).0 <= 3, "{}", run.name);
    }
    side
}

/// Nanoseconds that this thread has run: what other programs take is not in it.
fn now() -> f64 {
    #[repr(C)]
    struct Timespec(i64, i64);
    extern "C" {
        fn clock_gettime(clock: i32, time: *mut Timespec) -> i32;
    }
    const THREAD_CPUTIME: i32 = 3;
    let mut t = Timespec(0, 0);
    // SAFETY: `t` is what the call writes.
    assert_eq!(unsafe { clock_gettime(THREAD_CPUTIME, &mut t) }, 0);
    t.0 as f64 * 1e9 + t.1 as f64
}

/// Nanoseconds for an event.
fn time<S: Side>(run: &Run) -> f64 {
    let mut side = prepared::<S>(run);
    let from = now();
    for r in &run.timed {
        if run.stops {
            side.stop();
        }
        let (answer, out) = side.step(r);
        black_box((answer, out.len()));
    }
    (now() - from) / run.timed.len() as f64
}

/// Every answer and every output byte of the run.
fn written<S: Side>(run: &Run) -> (Vec<u16>, Vec<u8>) {
    let (mut side, mut answers, mut all) = (prepared::<S>(run), vec![], vec![]);
    for r in &run.timed {
        if run.stops {
            side.stop();
        }
        let (answer, out) = side.step(r);
        answers.push(answer);
        all.extend(out);
    }
    (answers, all)
}

fn main() {
    let repeats: usize = std::env::args().nth(1).map_or(31, |n| n.parse().expect("REPEATS"));
    let word = std::env::args().nth(2).unwrap_or_default();
    println!("best of {repeats}, ns an event; the ratio is library / plain Rust, below 1 the library is ahead");
    println!("{:<44} {:>8} {:>8} {:>8} {:>7} {:>7}", "events", "library", "plain", "by word", "ratio", "by word");
    for run in runs().into_iter().filter(|r| r.name.starts_with(&word)) {
        let ours = written::<Library>(&run);
        assert!(ours == written::<in_place::Replica<false>>(&run) && ours == written::<in_place::Replica<true>>(&run), "{}", run.name);
        let mut best = [f64::MAX; 3];
        for _ in 0..repeats {
            best[0] = best[0].min(time::<Library>(&run));
            best[1] = best[1].min(time::<in_place::Replica<false>>(&run));
            best[2] = best[2].min(time::<in_place::Replica<true>>(&run));
        }
        let [l, p, m] = best;
        println!("{:<44} {l:>8.1} {p:>8.1} {m:>8.1} {:>7.2} {:>7.2}", run.name, l / p, l / m);
    }
}
