//! Comparison of keyed digests with tags written out, of the running calls with HMAC over one-shot,
//! and of consistency, refusals and case lines with tables.

use crate::digest::{self, begin, one_shot, LastBits, State, LIMIT};
use crate::hash::Family;
use crate::hmac::{masked, IPAD, OPAD};
use crate::keyed::{add, check, finish, start, tag_at_once, Keyed};
use crate::lines::{answer_all, hex};
use crate::lines_keyed::keyed_text;
use crate::selftest::Tally;
use Family::{Large, Small};

const TEXT: &str = "what do ya want for nothing?";

/// Tags of `TEXT`: digest length, bytes of the key (`numbers`), tag. Another implementation of HMAC
/// made them, over the digests that `sum` writes.
const TAGS: [(u16, usize, &str); 10] = [
    (256, 0, "d8d1d49d0dc9483c221683a6015e6e1af507dbb99d85e128b9fdef3ea43a0ce4"),
    (256, 20, "5ef03aa0a6f0349d1132c2d0afe73d45edba3a37d5b5906a48df9474abae5cf9"),
    (160, 64, "b153eb8e632ab6cf526cc3519a7fd27952d9a0bf"),
    (256, 65, "8007182b1a92ed43f5fc1a23e78c980cf20bfffe2abc38fc2c8f4050a52b22a4"),
    (8, 200, "9d"),
    (
        512,
        0,
        "8adff08419c28be5b571227c2e1706d393bf5abc0fd7b53ac5d36074d009f8ea\
         703a2a99b6bd46ece2899126125fd241599d61a3a0004de4da7212ffdec5d234",
    ),
    (264, 20, "cb969b1f78b6e2300b049750843d1c3e3e82a00d64fbf8da1033d1c9250af60119"),
    (
        512,
        128,
        "ad2e75add6960af06c795f527f757bf1db1cf393a9a59adfb41b1338dfd622f7\
         d13a6c585d560ddf8a16d95f48671caceee0ba4c369578d8bba6607af9de46eb",
    ),
    (
        384,
        129,
        "ed90185e4b8bf2213299d2b9ad1ef7f3a32ca8c551b800e33a7a5d769233ce26\
         59172401fcdad359d9132235064cfaa6",
    ),
    (
        512,
        1000,
        "ce086787b7d24b3919cdafb17f1126f6cb6f4486fbd3f21a86fe78048473db21\
         014d888c013a2320bc0212f6c2ef6ce4e513ff257f0ab8f6c5523b6463ae503d",
    ),
];

/// Starts: digest length, bytes of the key, number.
const STARTS: [(u16, usize, u8); 21] = [
    (8, 0, 0),
    (256, 65_535, 0),
    (264, 65_535, 0),
    (512, 1, 0),
    (0, 0, 1),
    (1, 20, 1),
    (7, 20, 1),
    (9, 20, 1),
    (255, 20, 1),
    (257, 20, 1),
    (263, 20, 1),
    (511, 20, 1),
    (513, 20, 1),
    (520, 20, 1),
    (65_528, 20, 1),
    (65_535, 20, 1),
    (256, 65_536, 12),
    (512, 65_536, 12),
    (8, 100_000, 12),
    (0, 65_536, 1),
    (257, 100_000, 1),
];

/// A change to a keyed state, and whether what comes out is consistent.
type Change = (&'static str, bool, fn(&mut Keyed));

/// Changes to a keyed state after a block and 9 bytes, in either family.
const CHANGES: [Change; 22] = [
    ("nothing", true, |_| ()),
    ("another chain", true, |k| k.inner.chain[0] ^= 1),
    ("another first key byte", true, |k| k.key[0] ^= 1),
    ("another last key byte", true, |k| k.key[block(k) - 1] ^= 0x80),
    ("eight bits fewer", true, |k| k.inner.m -= 8),
    ("just a block", true, |k| covering(k, block(k) as u64)),
    ("as much as the limit", true, |k| covering(k, LIMIT)),
    ("one byte past the limit", false, |k| covering(k, LIMIT + 1)),
    ("one byte less than a block", false, |k| covering(k, block(k) as u64 - 1)),
    ("one byte covered", false, |k| covering(k, 1)),
    ("nothing covered", false, |k| covering(k, 0)),
    ("the salt's first byte", false, |k| k.inner.salt[0] = 1),
    ("the salt's last byte", false, |k| k.inner.salt[k.inner.family.salt_bytes() - 1] = 0x80),
    ("byte 63 of the salt", false, |k| k.inner.salt[63] = 1),
    ("one bit fewer", false, |k| k.inner.m -= 1),
    ("four bits fewer", false, |k| k.inner.m -= 4),
    ("m of 0", false, |k| k.inner.m = 0),
    ("m of 520", false, |k| k.inner.m = 520),
    ("the other family", false, |k| {
        k.inner.family = if k.inner.family == Small { Large } else { Small }
    }),
    ("one block more", false, |k| k.inner.compressed += 1),
    ("a held byte too many", false, |k| k.inner.held[9] = 1),
    ("the last held byte", false, |k| k.inner.held[127] = 1),
];

/// Changes past the small family's chain and key; a state of the large family stays consistent.
const FAR_CHANGES: [(&str, fn(&mut Keyed)); 4] = [
    ("chain word 8", |k| k.inner.chain[8] = 1),
    ("chain word 15", |k| k.inner.chain[15] = 1),
    ("key byte 64", |k| k.key[64] = 1),
    ("key byte 127", |k| k.key[127] = 0x80),
];

/// Lines that are not readable.
const LINES: [&str; 16] = [
    "keybegin 256",
    "keybegin - 256",
    "keybegin 65536 -",
    "keybegin 256 A0",
    "keybegin 256 - -",
    "keybegin 256 000",
    "keyadd",
    "keyadd 41 41",
    "keyfinish",
    "keyfinish 00 0 ff",
    "keycheck",
    "keycheck ff ff",
    "keycheck  ff",
    "Keyadd 41",
    "keystate",
    "key",
];

fn block(keyed: &Keyed) -> usize {
    keyed.inner.family.block_bytes()
}

/// The inner state covers so much, its blocks and its held bytes being in keeping.
fn covering(keyed: &mut Keyed, covered: u64) {
    keyed.inner.covered = covered;
    keyed.inner.compressed = covered / block(keyed) as u64;
    keyed.inner.held = [0; 128];
}

/// So many bytes, counted up; the largest is 250, so that they do not repeat with any block.
fn numbers(size: usize) -> Vec<u8> {
    (0..size).map(|i| (i % 251) as u8).collect()
}

pub fn keyed_values(tally: &mut Tally) {
    written_out(tally);
    every_digest_length(tally);
    every_message_length(tally);
    padded_keys(tally);
    start_values(tally);
    for m in [256, 512] {
        consistency_values(tally, m);
        limit_values(tally, m);
        buffer_values(tally, m);
        unreached_values(tally, m);
        check_values(tally, m);
    }
    every_tag_of_a_byte(tally);
    line_values(tally);
}

/// The keyed state after a start and adds of these bytes in pieces of a size.
fn after(m: u16, key: &[u8], message: &[u8], piece: usize) -> Keyed {
    let mut keyed = start(m, key).1;
    for data in message.chunks(piece) {
        keyed = add(&keyed, data).1;
    }
    keyed
}

/// Whether finish writes this tag and no byte past it, reports so many bytes and refuses a buffer
/// one byte short, and the check says yes to the tag.
fn tags_as(keyed: &Keyed, tag: &[u8], covered: u64) -> bool {
    let size = tag.len();
    let mut buffer = vec![0xaa; size + 5];
    let report = finish(keyed, &mut buffer);
    let mut short = vec![0xaa; size - 1];
    let refusal = finish(keyed, &mut short);
    report == (0, covered)
        && buffer[..size] == *tag
        && buffer[size..] == [0xaa; 5]
        && refusal == (5, 0)
        && short.iter().all(|&byte| byte == 0xaa)
        && check(keyed, tag) == (0, true)
}

fn written_out(tally: &mut Tally) {
    for (m, size, tag) in TAGS {
        let (key, text) = (numbers(size), TEXT.as_bytes());
        let label = format!("tag of {m} bits, key of {size} bytes");
        tally.value(&format!("{label}, at once"), hex(&tag_at_once(m, &key, text)) == tag);
        let mut made = vec![0; m as usize / 8];
        let report = finish(&after(m, &key, text, 11), &mut made);
        tally.value(&format!("{label}, by parts"), report == (0, 28) && hex(&made) == tag);
    }
}

/// Whether the calls, with the message in pieces, give the tag over one-shot.
fn both_ways(m: u16, key: &[u8], message: &[u8], piece: usize) -> bool {
    let tag = tag_at_once(m, key, message);
    tags_as(&after(m, key, message, piece), &tag, message.len() as u64)
}

fn every_digest_length(tally: &mut Tally) {
    let message: Vec<u8> = (0..300u32).map(|i| (i * 41 + i * i / 3) as u8).collect();
    for m in (8..=512).step_by(8) {
        let block = Family::of(m).block_bytes();
        let keys = [0, 1, 20, block - 1, block, block + 1, 300];
        let right = keys.iter().all(|&size| {
            let sizes =
                [0, 1, block - 11, block - 10, block, block + 1, 2 * block + m as usize % 7];
            let key = numbers(size);
            sizes.iter().all(|&size| both_ways(m, &key, &message[..size], 1 + size / 3))
        });
        tally.value(&format!("tags of {m} bits both ways"), right);
    }
}

fn every_message_length(tally: &mut Tally) {
    let message: Vec<u8> = (0..300u32).map(|i| (i * 29 + 3) as u8).collect();
    for (m, key) in [(256, 32), (200, 70), (512, 64), (264, 140)] {
        let key = numbers(key);
        let right = (0..=260).all(|size| both_ways(m, &key, &message[..size], 1 + size % 90));
        tally.value(&format!("tags of {m} bits, every length"), right);
    }
}

/// What start makes: the padded key, and the state of a digest that was given its block xor ipad.
fn padded_keys(tally: &mut Tally) {
    for m in [8, 256, 264, 512] {
        let block = Family::of(m).block_bytes();
        for size in [0, 1, block - 1, block, block + 1, 1000, 65_535] {
            let key = numbers(size);
            let mut padded = [0; 128];
            if size > block {
                one_shot(m, &[], &key, LastBits::NONE, &mut padded);
            } else {
                padded[..size].copy_from_slice(&key);
            }
            let inner = digest::add(&begin(m, &[]).1, &masked(&padded[..block], IPAD)).1;
            let right = start(m, &key) == (0, Keyed { inner, key: padded });
            tally.value(&format!("start of {m} bits, key of {size} bytes"), right);
        }
    }
}

fn start_values(tally: &mut Tally) {
    for (m, size, number) in STARTS {
        let (given, keyed) = start(m, &numbers(size));
        let right = match number {
            0 => keyed.consistent() && keyed.inner.m == m,
            _ => keyed == Keyed::zero() && !keyed.consistent(),
        };
        tally.value(&format!("start of {m} bits with {size} bytes"), given == number && right);
    }
}

/// Whether all three calls refuse with 4, hand back the state and write nothing; 4 comes before a
/// short buffer.
fn refused_with_4(keyed: &Keyed) -> bool {
    let mut buffer = [0xaa; 70];
    [&[][..], b"abc"].iter().all(|data| add(keyed, data) == (4, keyed.clone()))
        && finish(keyed, &mut buffer) == (4, 0)
        && finish(keyed, &mut buffer[..0]) == (4, 0)
        && buffer == [0xaa; 70]
        && [0, 1, 31, 32, 64].iter().all(|&size| check(keyed, &vec![0; size]) == (4, false))
}

fn consistency_values(tally: &mut Tally, m: u16) {
    let base = after(m, b"key", b"nine more", 9);
    let far = FAR_CHANGES.map(|(label, change)| (label, Family::of(m) == Large, change));
    for (label, consistent, change) in CHANGES.into_iter().chain(far) {
        let mut keyed = base.clone();
        change(&mut keyed);
        let right = keyed.consistent() == consistent && refused_with_4(&keyed) != consistent;
        tally.value(&format!("keyed state of {m} bits: {label}"), right);
    }
}

/// One block and the message together reach the limit, and one byte more is refused.
fn limit_values(tally: &mut Tally, m: u16) {
    let mut keyed = start(m, b"limit").1;
    covering(&mut keyed, LIMIT - 7);
    let right = add(&keyed, &[1; 8]) == (3, keyed.clone());
    tally.value(&format!("limit at {m} bits: one byte past it"), right);
    let (number, full) = add(&keyed, &[1; 7]);
    let block = block(&keyed) as u64;
    let report = finish(&full, &mut [0; 64]);
    let right = number == 0 && full.inner.covered == LIMIT && report == (0, LIMIT - block);
    tally.value(&format!("limit at {m} bits: reached"), right && full.consistent());
    let right = add(&full, &[]) == (0, full.clone()) && add(&full, &[1]) == (3, full.clone());
    tally.value(&format!("limit at {m} bits: past it"), right);
    full_but_not_consistent(tally, full);
}

fn full_but_not_consistent(tally: &mut Tally, full: Keyed) {
    let m = full.inner.m;
    let spoiled = Keyed { inner: State { m: m - 1, ..full.inner }, key: full.key };
    let right = add(&spoiled, &[1]) == (4, spoiled.clone()) && refused_with_4(&spoiled);
    tally.value(&format!("limit at {m} bits: 4 before 3"), right);
}

fn buffer_values(tally: &mut Tally, m: u16) {
    let keyed = after(m, b"buffers", b"message", 7);
    let tag = tag_at_once(m, b"buffers", b"message");
    let right = (0..150).all(|size| {
        let mut buffer = vec![0xaa; size];
        let report = finish(&keyed, &mut buffer);
        let mut wanted = vec![0xaa; size];
        if size >= tag.len() {
            wanted[..tag.len()].copy_from_slice(&tag);
        }
        buffer == wanted && report == if size < tag.len() { (5, 0) } else { (0, 7) }
    });
    tally.value(&format!("buffers for {m} bits"), right);
}

/// A consistent keyed state that no start leads to: the steps by the digest's own calls.
fn unreached_values(tally: &mut Tally, m: u16) {
    let mut keyed = after(m, b"start", &numbers(200), 200);
    keyed.inner.chain[3] ^= 0x1234_5678;
    let block = block(&keyed);
    keyed.key[..block].copy_from_slice(&numbers(block));
    let more = add(&keyed, b"more").1;
    let right = more.inner == digest::add(&keyed.inner, b"more").1 && more.key == keyed.key;
    tally.value(&format!("add of {m} bits, no start"), right);
    let (mut inner, mut tag) = (vec![0; m as usize / 8], vec![0; m as usize / 8]);
    digest::finish(&more.inner, LastBits::NONE, &mut inner);
    let outer = [masked(&numbers(block), OPAD), inner].concat();
    one_shot(m, &[], &outer, LastBits::NONE, &mut tag);
    tally.value(&format!("tag of {m} bits, no start"), tags_as(&more, &tag, 204));
}

/// The right tag cut, lengthened, and with each bit changed.
fn check_values(tally: &mut Tally, m: u16) {
    let keyed = after(m, b"checks", b"message", 7);
    let tag = tag_at_once(m, b"checks", b"message");
    let longest = [&tag[..], &[0; 100]].concat();
    let right =
        (0..longest.len()).all(|size| check(&keyed, &longest[..size]) == (0, size == tag.len()));
    tally.value(&format!("tags of other lengths at {m} bits"), right);
    let right = (0..m as usize).all(|bit| {
        let mut other = tag.clone();
        other[bit / 8] ^= 1 << (bit % 8);
        check(&keyed, &other) == (0, false)
    });
    tally.value(&format!("tags one bit off at {m} bits"), right);
}

fn every_tag_of_a_byte(tally: &mut Tally) {
    let keyed = start(8, &numbers(200)).1;
    let keyed = add(&keyed, TEXT.as_bytes()).1;
    let said_yes: Vec<u8> = (0..=255).filter(|&byte| check(&keyed, &[byte]).1).collect();
    tally.value("all tags of one byte", said_yes == [0x9d]);
}

/// A run of lines and its answers; the digest's own state in between; lines not readable.
fn line_values(tally: &mut Tally) {
    let zero = keyed_text(&Keyed::zero());
    let words: Vec<usize> = zero.split(' ').map(str::len).collect();
    tally.value("words of a keyed state", words == [1, 1, 128, 128, 1, 1, 256, 256]);
    let begun = start(8, &numbers(200)).1;
    let added = add(&begun, TEXT.as_bytes()).1;
    let (key, text) = (hex(&numbers(200)), hex(TEXT.as_bytes()));
    let (begun, added) = (keyed_text(&begun), keyed_text(&added));
    let lines = [
        ("keyfinish aa".to_string(), format!("keyfinish 4 0 {zero} aa")),
        ("keycheck -".to_string(), format!("keycheck 4 no {zero}")),
        (format!("keybegin 8 {key}"), format!("keybegin 0 {begun}")),
        ("begin 0 -".to_string(), format!("begin 1 {}", &zero[..zero.len() - 257])),
        (format!("keyadd {text}"), format!("keyadd 0 {added}")),
        ("keyadd 0".to_string(), "unreadable".to_string()),
        ("keyfinish aabb".to_string(), format!("keyfinish 0 28 {added} 9dbb")),
        ("keyfinish -".to_string(), format!("keyfinish 5 0 {added} -")),
        ("keycheck 9d".to_string(), format!("keycheck 0 yes {added}")),
        ("keycheck 9c".to_string(), format!("keycheck 0 no {added}")),
        ("keycheck -".to_string(), format!("keycheck 0 no {added}")),
        ("keybegin 513 00".to_string(), format!("keybegin 1 {zero}")),
        ("keyadd 00".to_string(), format!("keyadd 4 {zero}")),
        (format!("keystate {added}"), format!("keystate {added}")),
        (format!("keystate {added} -"), "unreadable".to_string()),
        (format!("keystate {}", &added[..added.len() - 2]), "unreadable".to_string()),
        (format!("keystate {added}00"), "unreadable".to_string()),
        ("keyfinish ff".to_string(), format!("keyfinish 0 28 {added} 9d")),
    ];
    let text: String = lines.iter().map(|(line, _)| format!("{line}\n")).collect();
    let answers = answer_all(text.as_bytes());
    for ((line, wanted), answer) in lines.iter().zip(answers.lines()) {
        tally.value(&line[..line.len().min(40)], answer == wanted);
    }
    let right = LINES.iter().all(|line| answer_all(line.as_bytes()) == "unreadable\n");
    tally.value("keyed lines not readable", right && answers.lines().count() == lines.len());
}
