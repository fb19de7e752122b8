//! Cases of begin, add, finish and one-shot from an accepted or a refused start.

use crate::cases::{Writer, FAMILIES};
use crate::hash::Family;

/// Digest lengths that are refused with 1, and among them, for comparison, some that are allowed
/// but have a broken byte.
const ODD_M: [u16; 18] =
    [0, 1, 4, 7, 9, 12, 255, 257, 260, 263, 265, 511, 513, 516, 520, 1024, 65_528, 65_535];

pub fn write(w: &mut Writer) {
    every_digest_length(w);
    every_message_length(w);
    growing(w);
    refused_starts(w);
    buffers(w);
    for turn in 0..110 {
        cuts(w, FAMILIES[turn % 2]);
    }
    long_messages(w);
}

fn every_digest_length(w: &mut Writer) {
    w.comment("every digest length");
    for m in (8..=512).step_by(8) {
        let family = Family::of(m);
        let limit = family.one_block_bits() / 8;
        let block = family.block_bytes();
        let far = block + 1 + w.random.below(150);
        for (turn, size) in [0, 1, limit, limit + 1, block, far].into_iter().enumerate() {
            let salted = (turn + m as usize / 8) % 2 == 0;
            let salt = w.salt_of(family, salted);
            let data = w.random.bytes(size);
            w.oneshot(m, &salt, &data, m as usize / 8 + turn % 3);
        }
        let salted = w.coin();
        let salt = w.salt_of(family, salted);
        w.begin(m, &salt);
        w.finish(m as usize / 8);
        let size = w.random.below(2 * block);
        w.add_some(size);
        w.finish(m as usize / 8 + 1);
    }
}

fn every_message_length(w: &mut Writer) {
    w.comment("every message length from 0 to 260");
    for size in 0..=260 {
        for family in FAMILIES {
            for salted in [false, true] {
                let m = match (family, salted) {
                    (Family::Small, false) => 256,
                    (Family::Large, false) => 512,
                    _ => w.m_of(family),
                };
                let salt = w.salt_of(family, salted);
                let data = w.random.bytes(size);
                w.oneshot(m, &salt, &data, m as usize / 8);
            }
        }
    }
}

fn growing(w: &mut Writer) {
    for (m, salted) in [(256, false), (160, true), (512, false), (264, true)] {
        w.comment("one digest, one byte more each time, finished each time");
        let salt = w.salt_of(Family::of(m), salted);
        w.begin(m, &salt);
        w.finish(m as usize / 8);
        for size in 1..=260 {
            w.add_some(1);
            w.finish(m as usize / 8);
            if size % 50 == 0 {
                w.add(&[]);
                w.finish(m as usize / 8 - 1);
            }
        }
    }
    w.comment("the all-zero salt in full and the empty one");
    for family in FAMILIES {
        let m = w.m_of(family);
        let zeros = vec![0; family.salt_bytes()];
        for salt in [&zeros[..], &[]] {
            w.begin(m, salt);
            w.add(b"the same bytes");
            w.finish(64);
            w.oneshot(m, salt, b"the same bytes", 64);
        }
    }
}

fn refused_starts(w: &mut Writer) {
    w.comment("digest lengths that are not allowed, and allowed ones of a broken byte");
    for m in ODD_M {
        for salt_size in [0, 32, 64, 31] {
            let salt = w.random.bytes(salt_size);
            w.oneshot(m, &salt, b"abc", 66);
        }
        w.oneshot(m, &[1; 5], b"abc", 0);
        w.begin(256, &[]);
        w.begin(m, &[]);
        w.add(b"abc");
        w.finish(66);
        w.begin(m, &[3; 64]);
        w.begin(m, &[3; 33]);
    }
    w.comment("salts of a wrong size");
    for m in [8, 160, 256, 264, 384, 512] {
        for salt_size in [1, 31, 32, 33, 63, 64, 65, 128] {
            let salt = w.random.bytes(salt_size);
            w.oneshot(m, &salt, b"abc", 64);
            w.oneshot(m, &salt, b"abc", 0);
            w.begin(m, &salt);
        }
        w.begin(m, &[]);
        w.add(b"abc");
        w.begin(m, &[9; 48]);
        w.add(&[]);
        w.finish(64);
    }
    w.oneshot(512, &[5; 40_000], &[], 64);
}

fn buffers(w: &mut Writer) {
    w.comment("short and long buffers");
    for m in [8, 16, 224, 256, 264, 504, 512] {
        let exact = m as usize / 8;
        let family = Family::of(m);
        let salt = w.salt_of(family, true);
        for size in [0, exact - 1, exact, exact + 1, exact + 40, 200] {
            w.oneshot(m, &salt, b"message", size);
            w.oneshot(m, &[], &[], size);
        }
        w.begin(m, &salt);
        for size in [0, exact - 1, exact, exact + 1, exact + 40] {
            w.finish(size);
        }
        w.add_some(200);
        w.finish(exact - 1);
        w.finish(exact);
    }
}

/// One run in random cuts, then the same bytes at once.
fn cuts(w: &mut Writer, family: Family) {
    let m = w.m_of(family);
    let exact = m as usize / 8;
    let block = family.block_bytes();
    let salted = w.coin();
    let salt = w.salt_of(family, salted);
    w.comment("cuts");
    w.begin(m, &salt);
    let mut joined = Vec::new();
    for _ in 0..3 + w.random.below(5) {
        match w.random.below(12) {
            0 => w.add(&[]),
            1 => w.finish(exact),
            2 => {
                let short = w.random.below(exact);
                w.finish(short);
            }
            3 => {
                w.finish(exact + 1);
                w.oneshot(m, &salt, &joined, exact);
            }
            4 => {
                w.oneshot(513, &salt, b"in between", 64);
                w.line("begin 256");
                w.check(&[0, 0, 0, 0], 3);
            }
            kind => {
                let up_to_full = block - joined.len() % block;
                let size = match kind {
                    5 => up_to_full,
                    6 => up_to_full - 1,
                    7 => up_to_full + 1,
                    8 => up_to_full + block,
                    9 => 1 + w.random.below(5),
                    _ => w.random.below(3 * block),
                };
                let data = w.random.bytes(size);
                w.add(&data);
                joined.extend(data);
            }
        }
    }
    w.finish(exact);
    w.oneshot(m, &salt, &joined, exact);
}

fn long_messages(w: &mut Writer) {
    w.comment("long messages");
    for (m, size) in [(256, 40_000), (512, 10_000), (160, 4_097), (384, 4_096), (8, 3_000)] {
        let family = Family::of(m);
        let salt = w.salt_of(family, m != 256);
        w.begin(m, &salt);
        w.add_some(size);
        w.finish(m as usize / 8 + 2);
    }
}
