//! Cases of bits: messages that end in the middle of a byte, digests of a broken byte, refusal 11.
//! Finish and one-shot are lent all ones, so that a bit cleared and a byte left alone both show.

use crate::cases::{Writer, FAMILIES};
use crate::cases_state::consistent;
use crate::digest::{add, begin, digest_bytes, LastBits, State, LIMIT};
use crate::hash::Family;
use crate::random::Random;
use crate::saved::form;

/// Last bits that are refused: an unused bit that is not zero, bits where none is used, too many.
const NOT_ALLOWED: [LastBits; 3] = [
    LastBits { byte: 0xa1, count: 3 },
    LastBits { byte: 0x80, count: 0 },
    LastBits { byte: 0xa0, count: 8 },
];

/// Last bits that are not refused.
const ALLOWED: LastBits = LastBits { byte: 0xa0, count: 3 };

/// Digest lengths that are refused with 1.
const REFUSED_M: [u16; 10] = [0, 513, 514, 519, 520, 521, 768, 1024, 33_000, 65_535];

pub fn write(w: &mut Writer) {
    // Numbers of their own, so that cases put behind these do not depend on them.
    let others = std::mem::replace(&mut w.random, Random::new(0x5afe_0005));
    every_digest_length(w);
    for family in FAMILIES {
        for salted in [false, true] {
            rests(w, family, salted, 0);
            rests(w, family, salted, 2);
            few_bits(w, family, salted);
        }
        limit(w, family);
        counters(w, family);
        finish_orders(w, family);
        oneshot_orders(w, family);
        odd_states(w, family);
        odd_forms(w, family);
    }
    every_last_byte(w);
    last_bytes_finished(w);
    counts_over(w);
    buffers(w);
    w.comment("finishes with other last bits between the adds, then the same message at once");
    for turn in 0..16 {
        finishes_between(w, FAMILIES[turn % 2]);
    }
    saved_forms(w);
    border(w);
    refused_starts(w);
    unreadable(w);
    w.random = others;
}

/// A buffer of so many bytes.
fn ones(size: usize) -> Vec<u8> {
    vec![0xff; size]
}

/// The first bits of a byte, at most 7 of them.
fn first_bits(byte: u8, count: u8) -> LastBits {
    LastBits { byte: byte & !(0xff >> count), count }
}

/// So many random bits, at most 7.
fn some_bits(w: &mut Writer, count: usize) -> LastBits {
    first_bits(w.random.next() as u8, count as u8)
}

/// A digest length of the family that is no multiple of 8.
fn broken_m(w: &mut Writer, family: Family) -> u16 {
    let first = if family == Family::Small { 0 } else { 256 };
    first + 8 * w.random.below(32) as u16 + 1 + w.random.below(7) as u16
}

fn every_digest_length(w: &mut Writer) {
    w.comment("every digest length: whole bytes at once, last bits at once and by parts");
    for m in 1..=512 {
        let salt = w.salt_of(Family::of(m), m % 3 == 0);
        let size = w.random.below(140);
        let data = w.random.bytes(size);
        let last = some_bits(w, 1 + m as usize % 7);
        let buffer = ones(digest_bytes(m) + m as usize % 2);
        w.oneshot_bits(m, &salt, &data, LastBits::NONE, &buffer);
        w.oneshot_bits(m, &salt, &data, last, &buffer);
        w.begin(m, &salt);
        w.add(&data);
        w.finish_bits(last, &buffer);
    }
}

/// Rests around the most bits that one padded block is enough for: one run, finished at each of
/// them, and the same messages at once.
fn rests(w: &mut Writer, family: Family, salted: bool, blocks: usize) {
    w.comment("every rest around the last one that is padded in one block");
    let rests = if family == Family::Small { 424..=440 } else { 872..=888 };
    let m = broken_m(w, family);
    let salt = w.salt_of(family, salted);
    let mut data = Vec::new();
    w.begin(m, &salt);
    for rest in rests {
        let more = blocks * family.block_bytes() + rest / 8 - data.len();
        if more > 0 {
            let more = w.random.bytes(more);
            w.add(&more);
            data.extend(more);
        }
        let last = some_bits(w, rest % 8);
        w.finish_bits(last, &ones(digest_bytes(m)));
        w.oneshot_bits(m, &salt, &data, last, &ones(digest_bytes(m)));
    }
}

/// 0 to 7 bits alone and behind a whole block.
fn few_bits(w: &mut Writer, family: Family, salted: bool) {
    w.comment("few bits, alone and behind a whole block");
    let m = broken_m(w, family);
    let salt = w.salt_of(family, salted);
    let block = w.random.bytes(family.block_bytes());
    w.begin(m, &salt);
    for data in [&[], &block[..]] {
        w.add(data);
        for count in 0..=7 {
            let last = some_bits(w, count);
            w.finish_bits(last, &ones(digest_bytes(m)));
            w.oneshot_bits(m, &salt, data, last, &ones(digest_bytes(m)));
        }
    }
}

/// Last bits behind up to 2^61 - 1 bytes, so up to 2^64 - 1 bits.
fn limit(w: &mut Writer, family: Family) {
    w.comment("last bits near the limit of bytes covered and at it");
    for back in [127, 64, 63, 18, 17, 10, 9, 1, 0] {
        let m = broken_m(w, family);
        let state = State { m, ..consistent(w, family, LIMIT - back) };
        w.state(&state);
        for count in 0..=7 {
            let last = some_bits(w, count);
            w.finish_bits(last, &ones(digest_bytes(m)));
        }
    }
    w.comment("refused past the limit, the last bits all ones");
    w.add_some(1);
    w.finish_bits(first_bits(0xff, 7), &ones(64));
    w.add(&[]);
    w.finish_bits(first_bits(0, 7), &ones(64));
}

/// Last bits below and past 2^32 bits, and far past it.
fn counters(w: &mut Writer, family: Family) {
    w.comment("counters of more than one word with last bits");
    for covered in [(1 << 29) - 1, 1 << 29, (1 << 29) + 54, (1 << 45) - 1, 1 << 60] {
        let m = broken_m(w, family);
        let state = State { m, ..consistent(w, family, covered) };
        w.state(&state);
        for count in [0, 1, 4, 7] {
            let last = some_bits(w, count);
            w.finish_bits(last, &ones(digest_bytes(m)));
        }
    }
}

/// Each set of the faults that finish refuses with 4, 11 and 5.
fn finish_orders(w: &mut Writer, family: Family) {
    w.comment("the order of finish: not consistent, last bits not allowed, a short buffer");
    let m = broken_m(w, family);
    let right = State { m, ..consistent(w, family, 1000) };
    let states = [
        State { m: 0, ..right.clone() },
        State { m: 513, ..right.clone() },
        State { compressed: right.compressed + 1, ..right.clone() },
        right,
    ];
    for state in states {
        w.state(&state);
        for last in [ALLOWED].into_iter().chain(NOT_ALLOWED) {
            w.finish_bits(last, &ones(64));
            w.finish_bits(last, &ones(digest_bytes(m) - 1));
        }
    }
}

/// Each set of the faults that one-shot refuses with 1, 2, 11 and 5.
fn oneshot_orders(w: &mut Writer, family: Family) {
    w.comment("the order of one-shot: digest length, salt, last bits not allowed, a short buffer");
    let right = broken_m(w, family);
    let salt = w.salt_of(family, true);
    for m in [0, 513, right] {
        for salt in [&salt[1..], &salt] {
            for last in [ALLOWED].into_iter().chain(NOT_ALLOWED) {
                w.oneshot_bits(m, salt, b"order", last, &ones(64));
                w.oneshot_bits(m, salt, b"order", last, &ones(digest_bytes(right) - 1));
            }
        }
    }
}

/// Digest lengths of a broken byte, and some that a state of the family cannot have.
fn odd_m(family: Family) -> [u16; 11] {
    match family {
        Family::Small => [1, 7, 9, 12, 255, 0, 257, 263, 511, 513, 65_535],
        Family::Large => [257, 260, 263, 265, 511, 0, 1, 7, 255, 513, 65_535],
    }
}

fn odd_states(w: &mut Writer, family: Family) {
    w.comment("states of odd digest lengths, consistent or not");
    let state = consistent(w, family, 200);
    for m in odd_m(family) {
        w.state(&State { m, ..state.clone() });
        w.finish_bits(ALLOWED, &ones(65));
        w.add_some(2);
        w.finish_bits(NOT_ALLOWED[0], &ones(65));
        w.save(form(&state).len() + 2);
    }
}

fn odd_forms(w: &mut Writer, family: Family) {
    w.comment("forms of odd digest lengths, of the family or not");
    let state = consistent(w, family, 300);
    for m in odd_m(family).into_iter().chain((3..=520).step_by(23)) {
        w.load(&form(&State { m, ..state.clone() }));
    }
    w.load(&form(&State { m: odd_m(family)[0], ..state }));
    w.finish_bits(ALLOWED, &ones(65));
}

/// The family that last bits are given to at once. Those that are allowed fall to both, whatever
/// their count, since half of them have an odd number of ones.
fn family_of(last: LastBits) -> Family {
    FAMILIES[(last.byte.count_ones() as usize + last.count as usize) % 2]
}

fn every_last_byte(w: &mut Writer) {
    w.comment("all last bytes with counts from 0 to 9");
    for count in 0..=9 {
        for byte in 0..=255 {
            let last = LastBits { byte, count };
            let m = match family_of(last) {
                Family::Small => 1 + byte as u16 % 24,
                Family::Large => 257 + byte as u16 % 24,
            };
            let data = w.random.bytes(count as usize % 3);
            w.oneshot_bits(m, &[], &data, last, &ones(digest_bytes(m)));
        }
    }
}

/// Every second of the last bytes that are allowed and some that are not, with the family that they
/// are not given to at once.
fn last_bytes_finished(w: &mut Writer) {
    w.comment("last bytes of all kinds by finish");
    for family in FAMILIES {
        let m = broken_m(w, family);
        w.begin(m, &[]);
        w.add_some(3);
        for count in 0..=9 {
            for byte in 0..=255 {
                let last = LastBits { byte, count };
                let wanted = if last.allowed() { byte % 3 != 1 } else { byte % 32 == 3 * count };
                if wanted && family_of(last) != family {
                    w.finish_bits(last, &ones(digest_bytes(m)));
                }
            }
        }
    }
}

fn counts_over(w: &mut Writer) {
    w.comment("more than 7 last bits");
    for (family, m) in FAMILIES.into_iter().zip([8, 264]) {
        w.begin(m, &[]);
        w.add(b"whole");
        for count in [8, 9, 16, 128, 255] {
            for byte in [0x00, 0xff] {
                w.finish_bits(LastBits { byte, count }, &ones(64));
            }
        }
        for count in [8, 9, 10, 15, 16, 24, 31, 32, 64, 127, 128, 129, 135, 254, 255] {
            let byte = w.random.one_of(&[0x00, 0x80, 0xff]);
            let last = LastBits { byte, count };
            let salt = w.salt_of(family, count % 2 == 0);
            w.oneshot_bits(m, &salt, b"whole", last, &ones(64));
        }
    }
}

fn buffers(w: &mut Writer) {
    w.comment("buffers short, exact and longer for digests of a broken byte");
    for m in [1, 7, 9, 12, 15, 255, 257, 260, 263, 265, 505, 511] {
        let exact = digest_bytes(m);
        let salt = w.salt_of(Family::of(m), m % 2 == 0);
        w.begin(m, &salt);
        w.add(b"message");
        for size in [exact - 1, exact, exact + 1, exact + 40] {
            w.oneshot_bits(m, &salt, b"message", LastBits::NONE, &ones(size));
            w.oneshot_bits(m, &salt, b"message", ALLOWED, &ones(size));
            w.finish_bits(ALLOWED, &ones(size));
        }
    }
}

/// One run in random cuts, finished with other last bits after each add, then the same message at
/// once, with its last bits and without.
fn finishes_between(w: &mut Writer, family: Family) {
    let m = broken_m(w, family);
    let buffer = ones(digest_bytes(m));
    let salted = w.coin();
    let salt = w.salt_of(family, salted);
    let mut joined = Vec::new();
    w.begin(m, &salt);
    for _ in 0..4 {
        let size = w.random.one_of(&[0, 1, 10, 53, 54, 63, 64, 65, 109, 127, 128, 150]);
        let data = w.random.bytes(size);
        w.add(&data);
        joined.extend(data);
        for _ in 0..2 {
            let count = w.random.below(8);
            let last = some_bits(w, count);
            w.finish_bits(last, &buffer);
        }
        if w.coin() {
            let last = w.random.one_of(&NOT_ALLOWED);
            w.finish_bits(last, &buffer);
        }
    }
    let count = 1 + w.random.below(7);
    let last = some_bits(w, count);
    for last in [last, LastBits::NONE] {
        w.finish_bits(last, &buffer);
        w.oneshot_bits(m, &salt, &joined, last, &buffer);
    }
}

/// Runs of broken digest lengths handed over by saved forms.
fn saved_forms(w: &mut Writer) {
    w.comment("saved, finished with last bits, read back, gone on with, then at once");
    for m in [1, 7, 9, 12, 255, 257, 260, 263, 265, 511] {
        for (size, salted) in [(53, true), (130, false)] {
            let salt = w.salt_of(Family::of(m), salted);
            let buffer = ones(digest_bytes(m));
            let (first, second) = (w.random.bytes(size), w.random.bytes(size % 60));
            let whole = form(&add(&begin(m, &salt).1, &first).1);
            w.begin(m, &salt);
            w.add(&first);
            w.save(whole.len());
            w.finish_bits(ALLOWED, &buffer);
            w.save(whole.len() + 1);
            w.load(&whole);
            w.add(&second);
            let count = 1 + w.random.below(7);
            let last = some_bits(w, count);
            w.finish_bits(last, &buffer);
            w.oneshot_bits(m, &salt, &[first, second].concat(), last, &buffer);
        }
    }
}

/// Digest lengths on both sides of the border between the families, with the salts of both and in
/// states of both.
fn border(w: &mut Writer) {
    w.comment("the border between the families");
    for m in [255, 256, 257, 258, 263, 264] {
        for salt_size in [0, 32, 64] {
            let salt = w.random.bytes(salt_size);
            w.oneshot_bits(m, &salt, b"border", ALLOWED, &ones(34));
            w.begin(m, &salt);
            w.finish_bits(ALLOWED, &ones(34));
        }
        for family in FAMILIES {
            let state = State { m, ..consistent(w, family, 100) };
            w.state(&state);
            w.add_some(1);
            w.finish_bits(ALLOWED, &ones(34));
            w.load(&form(&state));
        }
    }
}

fn refused_starts(w: &mut Writer) {
    w.comment("digest lengths that are not allowed, with last bits");
    for m in REFUSED_M {
        w.oneshot_bits(m, &[], b"start", ALLOWED, &ones(66));
        w.oneshot_bits(m, &[7; 64], b"start", NOT_ALLOWED[0], &ones(66));
        w.begin(m, &[]);
        w.begin(m, &[7; 64]);
    }
    w.finish_bits(ALLOWED, &ones(66));
}

/// Words in the place of BYTE that are not one.
const NO_BYTE: [&str; 12] = ["", "0", "a", "000", "a0a", "0000", "-", "--", "A0", "aF", "0g", "+0"];

/// Words in the place of BITS that are no number up to 255.
const NO_COUNT: [&str; 12] =
    ["", "256", "257", "263", "65536", "18446744073709551616", "-", "-1", "+3", "3.", "x", "a"];

/// Lines of a word too few or too many, with spaces or bytes that are not allowed.
const NO_LINES: [&str; 22] = [
    "finish a0 3",
    "finish a0 ff",
    "finish 3 ff",
    "finish ff",
    "finish a0 3 ff ff",
    "finish a0 3 ff -",
    "finish 3 a0 ff",
    "finish a0 3 f",
    "finish a0 3 FF",
    "finish a03 ff",
    "finish a0  3 ff",
    "finish a0 3 ff ",
    "finish a0 3 ff\r",
    "finish a0\t3 ff",
    "Finish a0 3 ff",
    "oneshot 8 - 41 ff",
    "oneshot 8 - 41 a0 3",
    "oneshot 8 - 41 3 ff",
    "oneshot 8 - 41 3 a0 ff",
    "oneshot 8 - a0 3 ff",
    "oneshot 8 - 41 a0 3 ff ff",
    "oneshot 65536 - 41 a0 3 ff",
];

fn unreadable(w: &mut Writer) {
    w.comment("lines of last bits that are not readable; the state stays");
    w.begin(9, &[]);
    w.add(b"before");
    for byte in NO_BYTE {
        w.line(&format!("finish {byte} 3 ffff"));
        w.line(&format!("oneshot 9 - 41 {byte} 3 ffff"));
    }
    for count in NO_COUNT {
        w.line(&format!("finish a0 {count} ffff"));
        w.line(&format!("oneshot 9 - 41 a0 {count} ffff"));
    }
    for line in NO_LINES {
        w.line(line);
    }
    w.comment("the same words in readable lines, and the widest count");
    w.finish_bits(ALLOWED, &ones(2));
    w.oneshot_bits(9, &[], b"A", ALLOWED, &ones(2));
    w.finish_bits(LastBits { byte: 0xff, count: 255 }, &ones(2));
    w.add(b"after");
    w.finish_bits(ALLOWED, &ones(2));
}
