//! Sample logs, what the check program prints for each, and the parts that one of them is written
//! from.

use crate::log::{printed_check, LONGEST};
use crate::parts::{contents, Parts};
use crate::random::Random;
use std::path::Path;

/// The 40-byte log of document 01.
pub fn smallest() -> Vec<u8> {
    let mut log = vec![0, 0, 1, 0];
    log.extend([0; 32]);
    log.extend([0, 0, 0, 0]);
    log
}

/// The longest log that is accepted: salted, 24 registers, 1,024 events, right claims.
pub fn longest() -> Vec<u8> {
    let log = Parts::random(&mut Random::new(8), true, 24, 1024).claimed().bytes();
    assert_eq!(log.len(), LONGEST);
    log
}

/// Name and contents of each sample log.
pub fn all() -> Vec<(&'static str, Vec<u8>)> {
    let mut random = Random::new(5);
    let open = Parts::random(&mut random, true, 3, 5);
    let agrees = Parts::random(&mut random, false, 4, 9).claimed();

    let mut differs = Parts::random(&mut random, true, 6, 20).claimed();
    differs.claims[5][0] ^= 0x80;
    differs.claims[3][31] ^= 1;
    differs.claims[4] = random.array();

    let cut = agrees.bytes()[..agrees.bytes().len() - 7].to_vec();
    let leftover = [agrees.bytes(), vec![0]].concat();

    // Inside the digest of event 3, the last but one.
    let cut_event = open.bytes()[..260].to_vec();

    let mut register = open.clone();
    register.events[2].register = 3;

    vec![
        ("empty.log", Vec::new()),
        ("smallest.log", smallest()),
        ("noclaim.log", open.bytes()),
        ("agrees.log", agrees.bytes()),
        ("differs.log", differs.bytes()),
        ("cut.log", cut),
        ("cut_event.log", cut_event),
        ("leftover.log", leftover),
        ("salt_count.log", open.miscounted(0, 31)),
        ("count.log", open.miscounted(1, 25)),
        ("event_count.log", open.miscounted(2, 1025)),
        ("claim_count.log", agrees.miscounted(3, 3)),
        ("register.log", register.bytes()),
        ("longest.log", longest()),
        ("too_long.log", [longest(), vec![0]].concat()),
    ]
}

/// One of them.
pub fn named(name: &str) -> Vec<u8> {
    let found = all().into_iter().find(|(other, _)| *other == name);
    found.expect("a sample's name").1
}

/// Name and contents of the files that agrees.log is written from.
pub fn lent_files() -> [(&'static str, Vec<u8>); 2] {
    let [_, registers, events, _] = contents(&named("agrees.log"));
    [("agrees.registers", registers), ("agrees.events", events)]
}

/// Name and contents of the file beside each log: what is printed for it.
pub fn texts() -> Vec<(String, String)> {
    all().iter().map(|(name, log)| (name.replace(".log", ".txt"), printed_check(log))).collect()
}

pub fn write(folder: &Path) -> std::io::Result<()> {
    std::fs::create_dir_all(folder)?;
    for (name, bytes) in all().into_iter().chain(lent_files()) {
        std::fs::write(folder.join(name), bytes)?;
    }
    for (name, text) in texts() {
        std::fs::write(folder.join(name), text)?;
    }
    Ok(())
}
