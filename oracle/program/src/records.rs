//! Document 01's output records in bytes, and the bringing of the Rust's
//! outputs to document 01's form.

use consensus::oracle_driver::{digest_text, Out, QcOut, Seen, TcOut};

/// Not in document 01: the Rust panicked; the body is the text.
const PANIC: u16 = 0x01FF;

fn word(signers: &[u16]) -> u64 {
    signers.iter().fold(0, |w, p| w | 1u64.checked_shl(u32::from(*p)).unwrap_or(0))
}

fn qc_bytes(qc: &QcOut) -> Vec<u8> {
    let mut out = qc.hash.to_vec();
    out.extend_from_slice(&qc.round.to_le_bytes());
    out.extend_from_slice(&word(&qc.signers).to_le_bytes());
    out
}

fn sorted(tc: &TcOut) -> Vec<(u16, u64)> {
    let mut votes = tc.votes.clone();
    votes.sort();
    votes
}

fn tc_bytes(tc: &TcOut) -> Vec<u8> {
    let votes = sorted(tc);
    let mut out = tc.round.to_le_bytes().to_vec();
    out.extend_from_slice(&(votes.len() as u16).to_le_bytes());
    for (p, r) in votes {
        out.extend_from_slice(&p.to_le_bytes());
        out.extend_from_slice(&r.to_le_bytes());
    }
    out
}

/// Genesis has no payload; it can only stand at the front.
fn three(digests: &[[u8; 32]]) -> Vec<[u8; 32]> {
    let mut out = vec![[0; 32]; 3usize.saturating_sub(digests.len())];
    out.extend_from_slice(digests);
    out
}

fn record(kind: u16, body: &[u8]) -> Vec<u8> {
    let mut out = ((body.len() + 2) as u16).to_le_bytes().to_vec();
    out.extend_from_slice(&kind.to_le_bytes());
    out.extend_from_slice(body);
    out
}

pub fn answer_bytes(number: u16, who: Option<u16>) -> Vec<u8> {
    let mut body = number.to_le_bytes().to_vec();
    if let Some(place) = who {
        body.extend_from_slice(&place.to_le_bytes());
    }
    record(0x010A, &body)
}

pub fn panic_bytes(text: &str) -> Vec<u8> {
    record(PANIC, text.as_bytes())
}

pub fn bytes(out: &Out) -> Vec<u8> {
    match out {
        Out::Vote { to, hash, round, .. } => {
            let mut body = to.to_le_bytes().to_vec();
            body.extend_from_slice(hash);
            body.extend_from_slice(&round.to_le_bytes());
            record(0x0101, &body)
        }
        Out::Timeout { round, qc, .. } => {
            let mut body = round.to_le_bytes().to_vec();
            body.extend(qc_bytes(qc));
            record(0x0102, &body)
        }
        Out::Tc { tc, .. } => record(0x0103, &tc_bytes(tc)),
        Out::Make { round, qc, tc } => {
            let mut body = round.to_le_bytes().to_vec();
            body.extend(qc_bytes(qc));
            body.push(tc.is_some() as u8);
            if let Some(tc) = tc {
                body.extend(tc_bytes(tc));
            }
            record(0x0104, &body)
        }
        Out::Commit { digest, round } => {
            let mut body = digest.to_vec();
            body.extend_from_slice(&round.to_le_bytes());
            record(0x0105, &body)
        }
        Out::Sync {
            parent,
            block,
            author,
        } => {
            let mut body = parent.to_vec();
            body.extend_from_slice(block);
            body.extend_from_slice(&author.to_le_bytes());
            record(0x0106, &body)
        }
        Out::CleanProposer(digests) => record(0x0107, &three(digests).concat()),
        Out::CleanMempool(round) => record(0x0108, &round.to_le_bytes()),
        Out::TimerReset => record(0x0109, &[]),
        Out::Read(_) | Out::Note(_) => Vec::new(),
    }
}

fn short(digest: &[u8; 32]) -> String {
    if *digest == [0; 32] {
        return String::from("0");
    }
    digest_text(digest)
}

/// An order that a record does not keep, where it is not the rising one.
fn order(what: &str, places: Vec<u16>) -> Option<String> {
    let rising = places.windows(2).all(|w| w[0] < w[1]);
    if rising {
        None
    } else {
        Some(format!("{} in the order {:?}", what, places))
    }
}

/// What an output's record does not say.
pub fn notes(out: &Out) -> Vec<String> {
    let places = |tc: &TcOut| tc.votes.iter().map(|x| x.0).collect::<Vec<_>>();
    let found = match out {
        Out::Timeout { qc, to, .. } => vec![
            Some(format!("TIMEOUT to {:?}", to)),
            order("QC signers", qc.signers.clone()),
        ],
        Out::Make { qc, tc, .. } => vec![
            order("QC signers", qc.signers.clone()),
            tc.as_ref().and_then(|x| order("TC entries", places(x))),
        ],
        Out::Tc { tc, to } => vec![Some(format!("TC to {:?}", to)), order("TC entries", places(tc))],
        Out::Read(Some(round)) => vec![Some(format!("read a block of round {}", round))],
        Out::Read(None) => vec![Some(String::from("read: absent"))],
        Out::Note(note) => vec![Some(note.clone())],
        _ => Vec::new(),
    };
    found.into_iter().flatten().collect()
}

/// How an event ended.
pub enum End {
    /// The number, and the place at fault for 22 and 24.
    Answer(u16, Option<u16>),
    /// The answer that document 01 gives where the Rust panicked, walked on or walked without end;
    /// from here on the two states differ.
    Parted(u16, String),
    Panic(String),
}

/// The Rust's outputs as they are; a vote that was not sent, and a SYNC without a request, become notes.
pub fn as_rust(seen: Seen) -> (Vec<Out>, End) {
    let asked = |x: &Out| matches!(x, Out::Note(text) if text.starts_with("sync request"));
    let silent = !seen.outs.iter().any(asked) && seen.panic.is_none();
    let mut outs = Vec::new();
    for out in seen.outs {
        match out {
            Out::Vote {
                hash,
                round,
                sent: false,
                ..
            } => outs.push(Out::Note(format!("own vote, not sent: hash {} round {}", short(&hash), round))),
            Out::Sync { .. } if silent => {
                outs.push(out);
                outs.push(Out::Note(String::from("no request to the network")));
            }
            _ => outs.push(out),
        }
    }
    let end = match seen.panic {
        Some(text) => End::Panic(text),
        None => End::Answer(seen.answer, seen.who),
    };
    (outs, end)
}

/// The first step of the walk to a round not below its child's.
fn climbs(rounds: &[u64]) -> bool {
    rounds.windows(2).any(|w| w[0] <= w[1])
}

/// The Rust's outputs with the differences that document 01 intends taken out.
pub fn as_01(seen: Seen, last_committed: &mut u64) -> (Vec<Out>, End) {
    let mut outs = seen.outs;
    if let Some(text) = seen.panic {
        if text.starts_with("Empty TC") {
            return (Vec::new(), End::Parted(32, text));
        }
        if text.starts_with("Failed to send request to synchronizer") {
            // Its task died of a LOOPBACK block with an absent parent and an unknown author.
            return (outs, End::Parted(2, text));
        }
        let b0 = text.starts_with("We should have all ancestors of delivered blocks");
        let walk = text.starts_with("We should have all the ancestors by now")
            || text.starts_with("oracle: read limit");
        if !b0 && !walk {
            return (outs, End::Panic(text));
        }
        if !text.starts_with("oracle:") {
            // The Rust asks for the absent block before it panics.
            if let Some(at) = outs.iter().rposition(|x| matches!(x, Out::Sync { .. })) {
                outs.remove(at);
            }
        }
        let mut rounds = Vec::new();
        for out in &outs {
            match out {
                Out::CleanMempool(round) => rounds = vec![*round],
                Out::Read(Some(round)) if !rounds.is_empty() => rounds.push(*round),
                _ => (),
            }
        }
        let number = if walk && climbs(&rounds) { 31 } else { 30 };
        return (outs, End::Parted(number, text));
    }
    let commits: Vec<_> = outs
        .iter()
        .filter_map(|x| match x {
            Out::Commit { digest, round } => Some((*digest, *round)),
            _ => None,
        })
        .collect();
    if let Some((b0, ancestors)) = commits.split_last() {
        let first = outs
            .iter()
            .position(|x| matches!(x, Out::Commit { .. }))
            .unwrap_or(0);
        let rounds: Vec<_> = std::iter::once(b0).chain(ancestors).map(|x| x.1).collect();
        if climbs(&rounds) {
            outs.truncate(first);
            let text = format!("the walk went over rounds {:?}", rounds);
            return (outs, End::Parted(31, text));
        }
        let rest = outs.split_off(first + commits.len());
        outs.truncate(first);
        let below = *last_committed;
        for (digest, round) in ancestors.iter().rev().chain(std::iter::once(b0)) {
            if *round > below {
                outs.push(Out::Commit {
                    digest: *digest,
                    round: *round,
                });
            }
        }
        outs.extend(rest);
        *last_committed = b0.1;
    }
    (outs, End::Answer(seen.answer, seen.who))
}
