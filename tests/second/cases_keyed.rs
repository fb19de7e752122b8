//! Cases of keyed digests from an accepted or a refused start: keys, messages, cuts, buffers, tags.

use crate::cases::{Writer, FAMILIES};
use crate::digest::{one_shot, LastBits};
use crate::hash::Family;
use crate::hmac::{masked, IPAD};
use crate::keyed::{start, tag_at_once};
use crate::random::Random;
use crate::{cases_keyed_lines, cases_keyed_state};

/// Digest lengths that are refused: of a broken byte, 0, over 512.
const REFUSED_M: [u16; 25] = [
    0, 1, 4, 7, 9, 12, 63, 100, 255, 257, 260, 263, 265, 508, 511, 513, 516, 519, 520, 521, 768,
    1024, 33_000, 65_528, 65_535,
];

/// Bytes of a key: none, around both blocks, in between and far more.
const KEY_SIZES: [usize; 24] = [
    0, 1, 2, 31, 32, 33, 48, 62, 63, 64, 65, 66, 96, 126, 127, 128, 129, 130, 191, 192, 193, 256,
    257, 1000,
];

/// Sizes at the borders of both blocks.
const BORDERS: [usize; 6] = [63, 64, 65, 127, 128, 129];

pub fn write(w: &mut Writer) {
    // Numbers of their own, so that cases put behind these do not depend on them.
    let others = std::mem::replace(&mut w.random, Random::new(0x5afe_0008));
    opening(w);
    every_digest_length(w);
    refused_starts(w);
    key_lengths(w);
    for family in FAMILIES {
        zeros_behind(w, family);
        hashed_keys(w, family);
        message_lengths(w, family);
    }
    long_messages(w);
    w.comment("keyed: cuts, then the same bytes at once");
    for turn in 0..40 {
        cuts(w, FAMILIES[turn % 2]);
    }
    buffers(w);
    tags(w);
    every_byte_off(w);
    cases_keyed_state::write(w);
    cases_keyed_lines::write(w);
    w.random = others;
}

/// The bytes with one bit changed.
pub fn off(bytes: &[u8], place: usize, bit: u8) -> Vec<u8> {
    let mut changed = bytes.to_vec();
    changed[place] ^= bit;
    changed
}

/// The tag with a random bit changed.
pub fn wrong(w: &mut Writer, tag: &[u8]) -> Vec<u8> {
    let (place, bit) = (w.random.below(tag.len()), w.random.below(8));
    off(tag, place, 1 << bit)
}

fn opening(w: &mut Writer) {
    w.comment("keyed: the first keyed state is all zero and not consistent");
    w.keyadd(&[]);
    w.keyadd(b"A");
    w.keyfinish(0);
    w.keyfinish(64);
    w.keycheck(&[]);
    w.keycheck(&[0; 32]);
}

/// A start, the message at once, its tag and a check of it.
fn whole(w: &mut Writer, m: u16, key: &[u8], message: &[u8], more: usize) {
    w.keybegin(m, key);
    w.keyadd(message);
    w.keyfinish(m as usize / 8 + more);
    w.keycheck(&tag_at_once(m, key, message));
}

fn every_digest_length(w: &mut Writer) {
    w.comment("keyed: every digest length");
    for m in (8..=512).step_by(8) {
        let block = Family::of(m).block_bytes();
        let size = w.random.one_of(&[0, 1, 16, 32, block - 1, block, block + 1, block + 40]);
        let key = w.random.bytes(size);
        w.keybegin(m, &key);
        w.keyfinish(m as usize / 8);
        let size = w.random.below(2 * block);
        let message = w.random.bytes(size);
        let tag = tag_at_once(m, &key, &message);
        w.keyadd(&message);
        w.keyfinish(tag.len() + m as usize / 8 % 3);
        w.keycheck(&tag);
        let wrong = wrong(w, &tag);
        w.keycheck(&wrong);
    }
}

fn refused_starts(w: &mut Writer) {
    w.comment("keyed: digest lengths that are not allowed leave the all-zero keyed state");
    for (turn, m) in REFUSED_M.into_iter().enumerate() {
        let key = w.random.bytes([3, 0, 64, 300][turn % 4]);
        w.keybegin([256, 512][turn % 2], &key);
        w.keybegin(m, &key);
        w.keyadd(b"abc");
        w.keyfinish(66);
        w.keycheck(&vec![0; m as usize / 8 % 65]);
    }
    w.keybegin(256, b"allowed");
    w.keyfinish(32);
}

fn key_lengths(w: &mut Writer) {
    w.comment("keyed: keys of many lengths");
    for size in KEY_SIZES {
        let mut lengths = FAMILIES.map(|family| w.m_of(family)).to_vec();
        if BORDERS.contains(&size) {
            lengths.extend([8, 256, 264, 512]);
        }
        for m in lengths {
            let (key, more) = (w.random.bytes(size), w.random.below(100));
            let message = w.random.bytes(more);
            whole(w, m, &key, &message, 0);
        }
    }
    w.comment("keyed: long keys, the longest byte string among them");
    for size in [4096, 10_000, 39_999, 40_000] {
        for family in FAMILIES {
            let (m, key) = (w.m_of(family), w.random.bytes(size));
            whole(w, m, &key, b"long key", 1);
        }
    }
}

/// Keys that differ in zeros behind them are the same up to the block. One byte more is hashed.
fn zeros_behind(w: &mut Writer, family: Family) {
    w.comment("keyed: zeros behind a key change nothing up to the block");
    let block = family.block_bytes();
    for size in [0, 1, 20, block - 1] {
        let (m, key) = (w.m_of(family), w.random.bytes(size));
        let tag = tag_at_once(m, &key, b"zeros");
        for longer in [size, size + 1, block, block + 1] {
            let mut padded = key.clone();
            padded.resize(longer, 0);
            w.keybegin(m, &padded);
            w.keyadd(b"zeros");
            w.keyfinish(tag.len());
            w.keycheck(&tag);
        }
    }
}

/// A key longer than the block and its digest as the key are the same; one of the block's size is
/// taken as it is.
fn hashed_keys(w: &mut Writer, family: Family) {
    w.comment("keyed: a long key and its digest, a key as long as the block and its digest");
    let block = family.block_bytes();
    for size in [block, block + 1, 3 * block] {
        let (m, key) = (w.m_of(family), w.random.bytes(size));
        let mut digest = vec![0; m as usize / 8];
        one_shot(m, &[], &key, LastBits::NONE, &mut digest);
        let tag = tag_at_once(m, &key, b"hashed");
        for key in [&key, &digest] {
            w.keybegin(m, key);
            w.keyadd(b"hashed");
            w.keyfinish(tag.len());
            w.keycheck(&tag);
        }
    }
}

/// Sizes around whole blocks and around the longest rests that one padded block is enough for.
fn border_sizes(family: Family) -> Vec<usize> {
    let (block, rest) = (family.block_bytes(), family.one_block_bits() / 8);
    let mut sizes = vec![0, 1, 2];
    for blocks in 0..2 {
        let start = blocks * block;
        sizes.extend(start + rest - 2..=start + rest + 3);
        sizes.extend(start + block - 2..=start + block + 2);
    }
    sizes
}

/// One run, finished at each size, then some of the messages at once.
fn message_lengths(w: &mut Writer, family: Family) {
    w.comment("keyed: messages around the ends of blocks, finished each time");
    for size in [20, 200] {
        let (m, key) = (w.m_of(family), w.random.bytes(size));
        let mut message = Vec::new();
        w.keybegin(m, &key);
        for size in border_sizes(family) {
            let more = w.random.bytes(size - message.len());
            w.keyadd(&more);
            w.keyfinish(m as usize / 8);
            message.extend(more);
        }
        w.keycheck(&tag_at_once(m, &key, &message));
    }
    w.comment("keyed: the same lengths at once");
    for size in border_sizes(family).into_iter().step_by(2) {
        let (m, key, message) = (w.m_of(family), w.random.bytes(24), w.random.bytes(size));
        whole(w, m, &key, &message, 2);
    }
}

fn long_messages(w: &mut Writer) {
    w.comment("keyed: long messages");
    for (m, size) in [(256, 40_000), (512, 10_000), (160, 4_096), (384, 4_097)] {
        let (key, message) = (w.random.bytes(32), w.random.bytes(size));
        whole(w, m, &key, &message, 0);
    }
}

/// Bytes of an add: few, many, or up to about where a block is full.
fn add_size(w: &mut Writer, block: usize, so_far: usize) -> usize {
    let up_to_full = block - so_far % block;
    match w.random.below(6) {
        0 => up_to_full - 1,
        1 => up_to_full,
        2 => up_to_full + 1,
        3 => up_to_full + block,
        4 => 1 + w.random.below(5),
        _ => w.random.below(3 * block),
    }
}

/// One run in random cuts, with other calls between, then the same bytes at once.
fn cuts(w: &mut Writer, family: Family) {
    let m = w.m_of(family);
    let exact = m as usize / 8;
    let size = w.random.one_of(&[0, 5, 32, 64, 100, 128, 150]);
    let key = w.random.bytes(size);
    let mut joined = Vec::new();
    w.keybegin(m, &key);
    for _ in 0..4 + w.random.below(5) {
        match w.random.below(12) {
            0 => w.keyadd(&[]),
            1 => w.keyfinish(exact),
            2 => {
                let short = w.random.below(exact);
                w.keyfinish(short);
            }
            3 => w.keycheck(&tag_at_once(m, &key, &joined)),
            4 => {
                let wrong = wrong(w, &tag_at_once(m, &key, &joined));
                w.keycheck(&wrong);
                w.keycheck(&wrong[1..]);
            }
            5 => {
                w.line("keyadd 4");
                w.begin(513, &[]);
                w.add(b"the digest's own");
            }
            _ => {
                let size = add_size(w, family.block_bytes(), joined.len());
                let data = w.random.bytes(size);
                w.keyadd(&data);
                joined.extend(data);
            }
        }
    }
    w.keyfinish(exact);
    whole(w, m, &key, &joined, 0);
}

fn buffers(w: &mut Writer) {
    w.comment("keyed: short and long buffers");
    for m in [8, 16, 224, 256, 264, 504, 512] {
        let exact = m as usize / 8;
        let key = w.random.bytes(exact);
        w.keybegin(m, &key);
        w.keyadd(b"message");
        for size in [0, exact - 1, exact, exact + 1, exact + 40, 200] {
            w.keyfinish(size);
        }
        w.keyadd_some(200);
        w.keyfinish(exact - 1);
        w.keyfinish(exact);
    }
}

/// Tags that are not the right one: of another length, of another digest length, key or message,
/// and digests on the way to it.
fn other_tags(m: u16, key: &[u8], message: &[u8]) -> Vec<Vec<u8>> {
    let tag = tag_at_once(m, key, message);
    let (size, next) = (tag.len(), if m == 512 { 504 } else { m + 8 });
    let next = tag_at_once(next, key, message);
    let digest_of = |data: &[u8]| {
        let mut digest = vec![0; size];
        one_shot(m, &[], data, LastBits::NONE, &mut digest);
        digest
    };
    let block = Family::of(m).block_bytes();
    let inner_pad = masked(&start(m, key).1.key[..block], IPAD);
    let mut wide = tag.clone();
    wide.resize(64, 0);
    vec![
        Vec::new(),
        tag[..1].to_vec(),
        tag[..size - 1].to_vec(),
        tag[1..].to_vec(),
        [&tag[..], &[0]].concat(),
        [&[0], &tag[..]].concat(),
        [&tag[..], &tag[..1]].concat(),
        wide,
        tag.repeat(2),
        [&tag[..], &[0; 1000]].concat(),
        vec![0; size],
        vec![0xff; size],
        masked(&tag, 0xff),
        tag.iter().rev().copied().collect(),
        next[..size.min(next.len())].to_vec(),
        next,
        tag_at_once(m, &off(key, 0, 1), message),
        tag_at_once(m, key, &off(message, 0, 0x80)),
        tag_at_once(m, key, &message[1..]),
        digest_of(message),
        digest_of(&[key, message].concat()),
        digest_of(&[&inner_pad, message].concat()),
    ]
}

fn tags(w: &mut Writer) {
    w.comment("keyed: tags right, off by a bit, of other lengths, of other things");
    for m in [8, 16, 160, 256, 264, 384, 512] {
        let (key, message) = (w.random.bytes(40), w.random.bytes(70));
        let tag = tag_at_once(m, &key, &message);
        w.keybegin(m, &key);
        w.keyadd(&message);
        w.keycheck(&tag);
        for place in [0, tag.len() / 2, tag.len() - 1] {
            for bit in [0x01, 0x10, 0x80] {
                w.keycheck(&off(&tag, place, bit));
            }
        }
        for other in other_tags(m, &key, &message) {
            w.keycheck(&other);
        }
        w.keycheck(&tag);
        w.keyfinish(tag.len());
    }
    w.comment("keyed: the longest byte string as a tag");
    w.keycheck(&[0x5a; 40_000]);
}

fn every_byte_off(w: &mut Writer) {
    w.comment("keyed: one bit off in each byte of a tag");
    for m in [256, 512] {
        let (key, message) = (w.random.bytes(30), w.random.bytes(10));
        let tag = tag_at_once(m, &key, &message);
        w.keybegin(m, &key);
        w.keyadd(&message);
        for place in 0..tag.len() {
            w.keycheck(&off(&tag, place, 1 << (place % 8)));
        }
        w.keycheck(&tag);
    }
}
