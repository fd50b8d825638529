//! The header, the library and this wrapper have the same numbers; and the functions beside `step` at every length that
//! matters.

use nickelhush::{kind, lent, Answer, Records, Replica, Slot};
use std::mem::{align_of, offset_of, size_of};

const HEADER: &str = include_str!("../../../include/nickelhush.h");

/// The number of a `#define NAME n`, or of a `NAME = n` in an enum.
fn number(name: &str) -> usize {
    let words: Vec<&str> = HEADER.split_whitespace().collect();
    let at = |from: &[&str]| words.windows(from.len() + 1).find(|w| w[..from.len()] == *from).map(|w| w[from.len()]);
    let text = at(&["#define", name]).or_else(|| at(&[name, "="])).unwrap_or_else(|| panic!("{name} is not in the header"));
    let text = text.trim_end_matches(',');
    text.strip_prefix("0x").map_or_else(|| text.parse(), |t| usize::from_str_radix(t, 16)).unwrap()
}

#[test]
fn sizes() {
    let parts = ["SEAT_LENGTH", "CORE_LENGTH", "STAKES_LENGTH", "VOTES_LENGTH", "TIMEOUTS_LENGTH", "SLOTS_MOST", "RECORD_MOST"];
    for (i, part) in parts.iter().enumerate() {
        assert_eq!(lent::size(i as u32), number(&format!("NICKELHUSH_{part}")), "{part}");
    }
    for part in [7, 8, 100, u32::MAX] {
        assert_eq!(lent::size(part), 0);
    }
    assert!(HEADER.contains("#define NICKELHUSH_ROOM(slots) (44 * (slots) + 2048)"));
    for slots in 0..3000 {
        assert_eq!(lent::room(slots), if (1..=1024).contains(&slots) { 44 * slots + 2048 } else { 0 });
        assert_eq!(Replica::new(slots).is_some(), (1..=1024).contains(&slots));
    }
    assert_eq!(lent::room(usize::MAX), 0);
    assert_eq!(lent::room(usize::MAX / 44 + 1), 0);
}

#[test]
fn a_slot_is_laid_out_as_in_c() {
    assert_eq!((size_of::<Slot>(), align_of::<Slot>()), (88, 8));
    let offsets = [offset_of!(Slot, used), offset_of!(Slot, digest), offset_of!(Slot, round), offset_of!(Slot, parent)];
    assert_eq!((offsets, offset_of!(Slot, parent_round)), ([0, 8, 40, 48], 80));
}

#[test]
fn answers_and_kinds() {
    let names = "DONE STALE WAIT_PARENT WAIT_PAYLOAD BAD_RECORD BAD_SETUP NO_ROOM ROUND_TOO_HIGH LIST_TOO_LONG WRONG_LEADER \
        UNKNOWN_AUTHORITY BAD_SIGNATURE REUSE QC_QUORUM TC_QUORUM PAYLOAD_INVALID TABLE_FULL TALLIES_FULL PARENT_ABSENT \
        ROUND_NOT_BELOW EMPTY_TC NOT_STARTED STARTED_AGAIN";
    let numbers: Vec<usize> = names.split_whitespace().map(|n| number(&format!("NICKELHUSH_{n}"))).collect();
    assert_eq!(numbers, Answer::ALL.iter().map(|a| a.number() as usize).collect::<Vec<_>>());
    let kinds = [
        ("START", kind::START),
        ("PROPOSE", kind::PROPOSE),
        ("VOTE", kind::VOTE),
        ("TIMEOUT", kind::TIMEOUT),
        ("TC", kind::TC),
        ("LOOPBACK", kind::LOOPBACK),
        ("TICK", kind::TICK),
        ("OUT_VOTE", kind::OUT_VOTE),
        ("OUT_TIMEOUT", kind::OUT_TIMEOUT),
        ("OUT_TC", kind::OUT_TC),
        ("OUT_MAKE", kind::OUT_MAKE),
        ("OUT_COMMIT", kind::OUT_COMMIT),
        ("OUT_SYNC", kind::OUT_SYNC),
        ("OUT_CLEAN_PROPOSER", kind::OUT_CLEAN_PROPOSER),
        ("OUT_CLEAN_MEMPOOL", kind::OUT_CLEAN_MEMPOOL),
        ("OUT_TIMER_RESET", kind::OUT_TIMER_RESET),
        ("OUT_ANSWER", kind::OUT_ANSWER),
    ];
    for (name, k) in kinds {
        assert_eq!(number(&format!("NICKELHUSH_{name}")), k as usize, "{name}");
    }
}

/// 01's bench reading: START with own place 1, whole, but for the ANSWER.
#[test]
fn start() {
    let mut record = vec![1, 0, 4, 0, 1, 0];
    for member in 0..4 {
        record.extend([[0; 31].as_slice(), &[member], &[1, 0, 0, 0]].concat());
    }
    let mut replica = Replica::new(256).unwrap();
    assert_eq!(replica.step(&[7, 0]), (Answer::NotStarted, &[][..]));
    let (answer, out) = replica.step(&record);
    let expect = [&[2, 0, 9, 1, 0x3B, 0, 4, 1, 1][..], &[0; 56]].concat();
    assert_eq!((answer, out), (Answer::Done, &expect[..]));
    let kinds: Vec<u16> = Records::new(out).map(|r| r.kind).collect();
    assert_eq!(kinds, [kind::OUT_TIMER_RESET, kind::OUT_MAKE]);
    assert_eq!((replica.round(), replica.last_voted(), replica.last_committed()), (1, 0, 0));
    assert_eq!(replica.step(&record).0, Answer::StartedAgain);
    assert_eq!(replica.step(&[7, 0]).0, Answer::Done);
    assert_eq!((replica.round(), replica.last_voted()), (1, 1));
}

#[test]
fn reading_back_at_every_length() {
    let core: Vec<u64> = (10..30).collect();
    for n in 0..core.len() {
        let at = |i: usize| if i < n { core[i] } else { 0 };
        let c = &core[..n];
        assert_eq!((lent::round(c), lent::last_voted(c), lent::last_committed(c)), (at(0), at(1), at(2)));
    }
}

#[test]
fn clearing_at_every_length() {
    let lengths = |n: usize| [0, 1, n - 1, n, n + 1];
    for i in 0..5 {
        let (a, b, c, d, e) = (lengths(2)[i], lengths(9)[i], lengths(64)[i], lengths(256)[i], lengths(1088)[i]);
        let (mut seat, mut core, mut stakes) = (vec![7u16; a], vec![7u64; b], vec![7u32; c]);
        let (mut votes, mut timeouts) = (vec![7u64; d], vec![7u64; e]);
        let mut table = [Slot { used: true, round: 7, ..Slot::default() }];
        let mut out = [7u8; 3];
        lent::clear(&mut lent::Lent {
            seat: &mut seat,
            core: &mut core,
            stakes: &mut stakes,
            votes: &mut votes,
            timeouts: &mut timeouts,
            table: &mut table,
            out: &mut out,
        });
        assert!(seat.iter().all(|n| *n == 0) && core.iter().all(|n| *n == 0) && stakes.iter().all(|n| *n == 0));
        assert!(votes.iter().all(|n| *n == 0) && timeouts.iter().all(|n| *n == 0));
        assert_eq!((table[0].round, out), (7, [7; 3]));
    }
}

/// The record at the front, for every length field and many numbers of bytes behind it.
#[test]
fn records_off_a_trace() {
    let mut bytes = vec![0u8; 4200];
    for n in 0..=u16::MAX as usize {
        bytes[..2].copy_from_slice(&(n as u16).to_le_bytes());
        for have in [0, 1, 2, 3, n.min(4190) + 1, n.min(4190) + 2, n.min(4190) + 3, 4100, 4200] {
            let expect = match have {
                0 => 0,
                1 => 1,
                _ if n > 4096 || have < n + 2 => 1,
                _ => n + 2,
            };
            assert_eq!(lent::record(&bytes[..have]), expect, "length {n}, {have} bytes");
        }
    }
}
