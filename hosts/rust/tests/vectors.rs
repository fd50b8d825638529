//! Every vector through the library: the bytes that document 01's program writes, from `Replica` over 256 slots.

mod plain;

use nickelhush::{Records, Replica};
use std::{env, fs, path::PathBuf};

/// NICKELHUSH_VECTORS, or the vectors and scenarios that the gate replays.
fn folders() -> Vec<PathBuf> {
    let data = PathBuf::from(env!("CARGO_MANIFEST_DIR")).join("../../crates/scenarios/data");
    let stored = || vec![data.join("vectors"), data.join("scenarios")];
    env::var_os("NICKELHUSH_VECTORS").map(|folder| vec![PathBuf::from(folder)]).unwrap_or_else(stored)
}

fn answer(all: &mut Vec<u8>, number: u16) {
    all.extend([4, 0, 0x0A, 0x01]);
    all.extend(number.to_le_bytes());
}

fn play(trace: &[u8]) -> Vec<u8> {
    let mut replica = Replica::new(256).unwrap();
    let (mut records, mut all) = (Records::new(trace), vec![]);
    while let Some(record) = records.next_bytes() {
        let (number, out) = replica.step(record);
        all.extend(out);
        answer(&mut all, number.number());
    }
    if !records.rest().is_empty() {
        answer(&mut all, 16);
    }
    all
}

#[test]
fn every_vector() {
    let mut count = 0;
    for path in folders().iter().flat_map(|folder| fs::read_dir(folder).unwrap()).map(|entry| entry.unwrap().path()) {
        if path.extension().is_some_and(|e| e == "trace") {
            let (trace, expect) = (fs::read(&path).unwrap(), fs::read(path.with_extension("expect")).unwrap());
            assert!(play(&trace) == expect, "{}", path.display());
            assert!(plain::play(&trace, 256) == expect, "{}: the plain reading", path.display());
            count += 1;
        }
    }
    println!("{count} vectors equal");
    assert!(count >= 32);
}
