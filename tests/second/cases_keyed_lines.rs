//! Cases of keyed digests beside the digest's own calls, and of their lines that are not readable.

use crate::cases::{Writer, FAMILIES};
use crate::digest::{add, begin, one_shot, LastBits};
use crate::hash::Family;
use crate::hmac::{masked, IPAD, OPAD};
use crate::keyed::{start, Keyed};
use crate::lines::hex;
use crate::lines_keyed::keyed_text;
use crate::saved::form;
use crate::write::Lent;

pub fn write(w: &mut Writer) {
    for turn in 0..10 {
        by_the_digests_calls(w, FAMILIES[turn % 2]);
    }
    for family in FAMILIES {
        side_by_side(w, family);
    }
    unreadable(w);
    widest(w);
}

/// A tag by keyed calls, then the same steps by the digest's own: the inner state, its digest, the
/// outer digest.
fn by_the_digests_calls(w: &mut Writer, family: Family) {
    w.comment("keyed: a tag, then its steps by the digest's calls");
    let (m, sizes) = (w.m_of(family), (w.random.below(200), w.random.below(300)));
    let (key, message) = (w.random.bytes(sizes.0), w.random.bytes(sizes.1));
    let exact = m as usize / 8;
    w.keybegin(m, &key);
    w.keyadd(&message);
    w.keyfinish(exact);
    let padded = &start(m, &key).1.key[..family.block_bytes()];
    let mut inner = vec![0; exact];
    let pad = masked(padded, IPAD);
    one_shot(m, &[], &[&pad, &message[..]].concat(), LastBits::NONE, &mut inner);
    w.begin(m, &[]);
    w.add(&pad);
    w.add(&message);
    w.finish(exact);
    w.oneshot(m, &[], &[masked(padded, OPAD), inner].concat(), exact);
}

/// Each call of the digest and each keyed one, in turns: neither touches the other's state.
fn side_by_side(w: &mut Writer, family: Family) {
    w.comment("keyed: both current states side by side");
    let (m, key) = (w.m_of(family), w.random.bytes(50));
    let other = w.m_of(family);
    let salt = w.salt_of(family, true);
    let saved = form(&add(&begin(other, &salt).1, b"saved").1);
    let set = add(&begin(other, &[]).1, b"set").1;
    w.begin(other, &salt);
    w.keybegin(m, &key);
    w.add(b"the digest's");
    w.keyadd(b"the keyed one's");
    w.finish(64);
    w.keyfinish(64);
    w.load(&saved);
    w.keyadd(&[]);
    w.save(300);
    w.keycheck(&[0; 32]);
    w.state(&set);
    w.keyfinish(64);
    w.keystate(&Keyed { inner: set.clone(), key: [7; 128] });
    w.finish(64);
    w.keyadd(b"not consistent");
    w.add(b"consistent");
    w.keybegin(m, &key);
    w.begin(513, &[]);
    w.keyadd(b"a refused begin leaves it");
    w.keyfinish(64);
    w.begin(other, &salt);
    w.keybegin(513, &key);
    w.add(b"a refused keybegin leaves it");
    w.finish(64);
    w.keybegin(m, &key);
    w.load(&saved[1..]);
    w.keyadd(b"a refused form leaves it");
    w.oneshot(other, &salt, b"at once", 64);
    w.check(&[0, 0, 0, 0], 3);
    let lent = Lent { salt: vec![], registers: vec![0; 32], events: vec![], claims: false };
    w.write(&lent, 40);
    w.round(&[1; 16], &[2; 16]);
    w.line("nothing of the kind");
    w.keyfinish(64);
    w.finish(64);
}

/// Words in the place of M that are no number up to 65,535.
const NO_M: [&str; 8] = ["", "65536", "18446744073709551616", "-8", "+8", "8.", "0x8", "-"];

/// Words that are no byte string.
const NO_STRING: [&str; 8] = ["", "0", "000", "--", "-0", "0A", "0g", "0x00"];

/// Lines of a word too few or too many, with spaces or bytes that are not allowed.
const NO_LINES: [&str; 26] = [
    "key",
    "keybegin",
    "keybegin 256",
    "keybegin 256 - -",
    "keybegin - 256",
    "keybegin  256 -",
    " keybegin 256 -",
    "keybegin 256 - ",
    "keybegin 256 -\r",
    "keybegin\t256 -",
    "Keybegin 256 -",
    "keyBegin 256 -",
    "key begin 256 -",
    "keystart 256 -",
    "keyadd",
    "keyadd 41 41",
    "keyadd 41 ",
    "KEYADD 41",
    "keyfinish",
    "keyfinish 00 0 ff",
    "keyfinish ff ff",
    "keyfinish ff\r",
    "keycheck",
    "keycheck ff ff",
    "keycheck yes ff",
    "keytag ff",
];

fn unreadable(w: &mut Writer) {
    w.comment("keyed: lines that are not readable; the keyed state stays");
    w.keybegin(256, b"key");
    w.keyadd(b"before");
    for m in NO_M {
        w.line(&format!("keybegin {m} 00"));
    }
    for string in NO_STRING {
        w.line(&format!("keybegin 256 {string}"));
        for call in ["keyadd", "keyfinish", "keycheck"] {
            w.line(&format!("{call} {string}"));
        }
    }
    for line in NO_LINES {
        w.line(line);
    }
    let longer = "00".repeat(40_001);
    w.line(&format!("keybegin 256 {longer}"));
    w.line(&format!("keyadd {longer}"));
    states_not_readable(w);
    w.keyadd(b"after");
    w.keyfinish(32);
}

fn states_not_readable(w: &mut Writer) {
    let right = keyed_text(&start(256, b"another key").1);
    let words: Vec<&str> = right.split(' ').collect();
    let key = words[7];
    let (shorter, longer) = (&key[2..], format!("{key}00"));
    let wrong_keys = ["", "-", "0", shorter, &key[1..], &longer, &key[..128], &key.to_uppercase()];
    for wrong in wrong_keys {
        w.line(&format!("keystate {} {wrong}", words[..7].join(" ")));
    }
    // The other seven words, one at a time: a number too large, a part of the wrong length.
    let halves = [words[2], words[3], words[6]].map(|word| &word[..word.len() / 2]);
    let most = "18446744073709551616";
    let wrongs = [(0, "2"), (1, "65536"), (2, "-"), (2, halves[0]), (3, halves[1]), (4, most)];
    for (place, wrong) in wrongs.into_iter().chain([(5, most), (6, halves[2]), (6, "-")]) {
        let mut changed = words.clone();
        changed[place] = wrong;
        w.line(&format!("keystate {}", changed.join(" ")));
    }
    w.line("keystate");
    w.line(&format!("keystate {}", words[..7].join(" ")));
    w.line(&format!("keystate {}", words[1..].join(" ")));
    w.line(&format!("keystate {right} {key}"));
    w.line(&format!("keystate {right} "));
    w.line(&format!("keystate  {right}"));
    w.line(&format!("state {right}"));
    w.line(&format!("Keystate {right}"));
}

fn widest(w: &mut Writer) {
    w.comment("keyed: the widest numbers are readable; then a state that is consistent");
    let (zeros, ones, most) = ("0".repeat(128), "f".repeat(256), u64::MAX);
    w.line(&format!("keystate 1 65535 {zeros} {zeros} {most} {most} {ones} {ones}"));
    w.keyadd(&[]);
    w.keyfinish(64);
    w.keycheck(&[]);
    w.line("keybegin 65535 -");
    w.keystate(&start(512, b"last").1);
    w.line(&format!("keycheck {}", hex(&[1; 64])));
    w.keyfinish(64);
}
