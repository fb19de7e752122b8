//! Cases of states set by hand: spoiled, near the limit, with large counters, reached by no start.

use crate::cases::{Writer, FAMILIES};
use crate::digest::{add, begin, State, LIMIT};
use crate::hash::Family;

pub fn write(w: &mut Writer) {
    for family in FAMILIES {
        spoiled_states(w, family);
        limit(w, family);
        counters(w, family);
    }
    for turn in 0..140 {
        unreached(w, FAMILIES[turn % 2]);
    }
    for turn in 0..30 {
        resumed(w, FAMILIES[turn % 2]);
    }
}

/// A consistent state with random chain and held bytes.
pub fn consistent(w: &mut Writer, family: Family, covered: u64) -> State {
    let block = family.block_bytes();
    let rest = (covered % block as u64) as usize;
    let mut state = State { family, m: w.m_of(family), covered, ..State::zero() };
    state.compressed = covered / block as u64;
    for word in &mut state.chain[..family.chain_words()] {
        *word = w.random.next() as u32;
    }
    if w.coin() {
        let salt = w.random.bytes(family.salt_bytes());
        state.salt[..salt.len()].copy_from_slice(&salt);
    }
    for byte in &mut state.held[..rest] {
        *byte = w.random.next() as u8;
    }
    assert!(state.consistent());
    state
}

/// The state with each rule of consistency broken alone.
pub fn spoils(state: &State) -> Vec<State> {
    let family = state.family;
    let block = family.block_bytes();
    let rest = (state.covered % block as u64) as usize;
    let mut list = Vec::new();
    let mut push = |change: &dyn Fn(&mut State)| {
        let mut spoiled = state.clone();
        change(&mut spoiled);
        assert!(!spoiled.consistent());
        list.push(spoiled);
    };
    let other = if family == Family::Small { [257, 263, 264, 512] } else { [1, 8, 255, 256] };
    for m in [0, 513, 520, 1024, 65_535].into_iter().chain(other) {
        push(&|s| s.m = m);
    }
    // Past the limit, all else fitting.
    push(&|s| {
        s.covered = LIMIT + 1;
        s.compressed = s.covered / block as u64;
        s.held = [0; 128];
    });
    push(&|s| {
        s.covered = u64::MAX;
        s.compressed = s.covered / block as u64;
    });
    push(&|s| s.compressed = s.compressed.wrapping_add(1));
    push(&|s| s.compressed = s.compressed.wrapping_sub(1));
    push(&|s| s.compressed ^= 1 << 63);
    push(&|s| s.compressed ^= 1 << 32);
    push(&|s| s.held[rest] = 1);
    push(&|s| s.held[block - 1] = 0x80);
    push(&|s| s.held[127] = 0xff);
    if family == Family::Small {
        push(&|s| s.held[64] = 2);
        push(&|s| s.salt[32] = 1);
        push(&|s| s.salt[63] = 0x80);
        push(&|s| s.chain[8] = 1);
        push(&|s| s.chain[15] = 1 << 31);
    }
    list
}

fn spoiled_states(w: &mut Writer, family: Family) {
    w.comment("spoiled states");
    let m = w.m_of(family);
    let salt = w.salt_of(family, true);
    let fresh = begin(m, &salt).1;
    let data = w.random.bytes(family.block_bytes() + 21);
    let started = add(&fresh, &data).1;
    let covered = 1_000_000 + w.random.below(1_000_000) as u64;
    let unreached = consistent(w, family, covered);
    for base in [fresh, started, unreached] {
        for spoiled in spoils(&base) {
            w.state(&spoiled);
            w.add_some(3);
            w.add(&[]);
            w.finish(66);
        }
    }
    w.comment("not consistent comes before the limit and before a short buffer");
    let mut last = consistent(w, family, LIMIT);
    last.compressed -= 1;
    w.state(&last);
    w.add_some(1);
    w.finish(0);
    w.comment("the other family's name on a state");
    let mut state = consistent(w, family, 0);
    state.family = if family == Family::Small { Family::Large } else { Family::Small };
    w.state(&state);
    w.add_some(1);
    w.finish(64);
}

fn limit(w: &mut Writer, family: Family) {
    w.comment("near the limit of bytes covered");
    for back in [0, 1, 2, 9, 10, 53, 63, 64, 65, 127, 128, 129, 200] {
        let state = consistent(w, family, LIMIT - back as u64);
        w.state(&state);
        w.finish(64);
        w.add_some(back + 1);
        w.add_some(back + 300);
        w.add_some(back);
        w.finish(64);
        w.add_some(1);
        w.add(&[]);
        w.finish(1);
    }
    w.comment("up to one byte below the limit, then to it, then past it");
    let state = consistent(w, family, LIMIT - 40);
    w.state(&state);
    w.add_some(39);
    w.finish(64);
    w.add_some(1);
    w.finish(64);
    w.add_some(1);
    w.finish(64);
}

fn counters(w: &mut Writer, family: Family) {
    w.comment("counters of more than one word");
    let block = family.block_bytes() as u64;
    let bases: [u64; 8] =
        [1 << 29, 1 << 30, 3 << 29, 1 << 32, 5 << 29, 1 << 45, 1 << 60, (1 << 61) - 4096];
    for base in bases {
        for back in [0, 1, 11, block - 1, block, block + 1] {
            let state = consistent(w, family, base - back);
            w.state(&state);
            w.finish(64);
            let beyond = w.random.one_of(&[0, 1, 53, 54, 63, 64, 109, 110, 127, 128, 200]);
            w.add_some(back as usize + beyond);
            w.finish(64);
        }
    }
}

/// Carries on from a consistent state that no start leads to.
fn unreached(w: &mut Writer, family: Family) {
    w.comment("from a state that no start leads to");
    let covered = (w.random.next() >> (3 + w.random.below(61))).min(LIMIT - 1000);
    let state = consistent(w, family, covered);
    w.state(&state);
    let size = w.random.below(260);
    w.add_some(size);
    let exact = state.m as usize / 8;
    w.finish(exact);
    if w.coin() {
        w.finish(exact - 1);
        let size = w.random.below(70);
        w.add_some(size);
        w.finish(exact + 3);
    }
}

/// A run handed over by hand in the middle.
fn resumed(w: &mut Writer, family: Family) {
    w.comment("handed over in the middle");
    let m = w.m_of(family);
    let salted = w.coin();
    let salt = w.salt_of(family, salted);
    let (first, second) = (w.random.below(300), w.random.below(200));
    let message = w.random.bytes(first + second);
    let state = add(&begin(m, &salt).1, &message[..first]).1;
    w.state(&state);
    w.add(&message[first..]);
    w.finish(m as usize / 8);
    w.oneshot(m, &salt, &message, m as usize / 8);
}
