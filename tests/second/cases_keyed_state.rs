//! Cases of keyed states set by hand: spoiled, of less than a block, near the limit, with large
//! counters, reached by no start.

use crate::cases::{Writer, FAMILIES};
use crate::cases_keyed::{off, wrong};
use crate::cases_state;
use crate::digest::{begin, State, LIMIT};
use crate::hash::Family;
use crate::keyed::{add, finish, start, tag_at_once, Keyed};

pub fn write(w: &mut Writer) {
    for family in FAMILIES {
        spoiled_states(w, family);
        other_family(w, family);
        less_than_a_block(w, family);
        key_bytes(w, family);
        limit(w, family);
        up_to_the_limit(w, family);
        orders(w, family);
        counters(w, family);
    }
    for turn in 0..36 {
        unreached(w, FAMILIES[turn % 2]);
    }
    for turn in 0..10 {
        resumed(w, FAMILIES[turn % 2]);
    }
}

/// An unsalted state with random chain and held bytes, consistent as a digest's, and a random key.
fn random_keyed(w: &mut Writer, family: Family, covered: u64) -> Keyed {
    let inner = State { salt: [0; 64], ..cases_state::consistent(w, family, covered) };
    let mut key = [0; 128];
    let bytes = w.random.bytes(family.block_bytes());
    key[..bytes.len()].copy_from_slice(&bytes);
    Keyed { inner, key }
}

/// The same, covering a block or more.
fn consistent(w: &mut Writer, family: Family, covered: u64) -> Keyed {
    let keyed = random_keyed(w, family, covered);
    assert!(keyed.consistent());
    keyed
}

/// The tag of a consistent keyed state.
fn tag_of(keyed: &Keyed) -> Vec<u8> {
    let mut tag = vec![0; keyed.inner.m as usize / 8];
    assert_eq!(finish(keyed, &mut tag).0, 0);
    tag
}

/// The keyed state with each rule of its own broken alone: the inner state stays consistent.
fn own_spoils(keyed: &Keyed) -> Vec<Keyed> {
    let family = keyed.inner.family;
    let mut list = Vec::new();
    let mut push = |change: &dyn Fn(&mut Keyed)| {
        let mut spoiled = keyed.clone();
        change(&mut spoiled);
        assert!(spoiled.inner.consistent() && !spoiled.consistent());
        list.push(spoiled);
    };
    push(&|k| k.inner.salt[0] = 1);
    push(&|k| k.inner.salt[family.salt_bytes() - 1] = 0x80);
    let odd = if family == Family::Small { [1, 7, 255] } else { [257, 263, 511] };
    for m in odd.into_iter().chain([keyed.inner.m - 4]) {
        push(&|k| k.inner.m = m);
    }
    for covered in [0, family.block_bytes() as u64 - 1] {
        push(&|k| {
            k.inner.covered = covered;
            k.inner.compressed = 0;
            k.inner.held = [0; 128];
        });
    }
    if family == Family::Small {
        push(&|k| k.key[64] = 1);
        push(&|k| k.key[127] = 0x80);
    }
    list
}

/// Each call on a spoiled keyed state, the check with the tag that it had before.
fn calls(w: &mut Writer, spoiled: &Keyed, tag: &[u8]) {
    w.keystate(spoiled);
    w.keyadd_some(3);
    w.keyfinish(66);
    w.keycheck(tag);
}

fn spoiled_states(w: &mut Writer, family: Family) {
    w.comment("keyed: spoiled states, of the inner state and of the keyed one alone");
    let (m, key, data) = (w.m_of(family), w.random.bytes(20), w.random.bytes(150));
    let fresh = start(m, &key).1;
    let started = add(&fresh, &data).1;
    let unreached = consistent(w, family, 1_000_021);
    for base in [&fresh, &unreached] {
        let tag = tag_of(base);
        for inner in cases_state::spoils(&base.inner) {
            calls(w, &Keyed { inner, key: base.key }, &tag);
        }
    }
    for base in [fresh, started, unreached] {
        let tag = tag_of(&base);
        for spoiled in own_spoils(&base) {
            calls(w, &spoiled, &tag);
            w.keyadd(&[]);
        }
        w.keystate(&base);
        w.keycheck(&tag);
    }
}

fn other_family(w: &mut Writer, family: Family) {
    w.comment("keyed: the other family's name on a state");
    let keyed = consistent(w, family, 300);
    let tag = tag_of(&keyed);
    let other = if family == Family::Small { Family::Large } else { Family::Small };
    calls(w, &Keyed { inner: State { family: other, ..keyed.inner }, key: keyed.key }, &tag);
}

/// Inner states that are consistent, covering less than a block, just a block and more.
fn less_than_a_block(w: &mut Writer, family: Family) {
    w.comment("keyed: less than a block covered, a block, more");
    let block = family.block_bytes();
    for covered in [0, 1, block / 2, block - 1, block, block + 1] {
        let keyed = random_keyed(w, family, covered as u64);
        w.keystate(&keyed);
        w.keyfinish(64);
        w.keyadd_some(1);
        w.keyadd_some(block);
        w.keyfinish(64);
        w.keycheck(&vec![0; keyed.inner.m as usize / 8]);
    }
    w.comment("keyed: a start of the digest, the key block not added");
    let (m, key) = (w.m_of(family), w.random.bytes(block));
    let keyed = Keyed { inner: begin(m, &[]).1, ..start(m, &key).1 };
    calls(w, &keyed, &tag_at_once(m, &key, &[]));
}

/// Every byte of the key's block counts for the tag, and none for the inner state.
fn key_bytes(w: &mut Writer, family: Family) {
    w.comment("keyed: one byte of the padded key changed, the inner state as it was");
    let block = family.block_bytes();
    let keyed = consistent(w, family, 777);
    let tag = tag_of(&keyed);
    for place in [0, 1, block / 2 - 1, block / 2, block - 2, block - 1] {
        let mut other = keyed.clone();
        other.key[place] ^= 0x41;
        w.keystate(&other);
        w.keyfinish(tag.len());
        w.keycheck(&tag);
    }
    w.comment("keyed: a padded key of zeros, of ones, of the two pads");
    for byte in [0x00, 0xff, 0x36, 0x5c] {
        let mut other = keyed.clone();
        other.key[..block].fill(byte);
        w.keystate(&other);
        w.keyfinish(tag.len());
        w.keyadd_some(9);
        w.keyfinish(tag.len());
    }
}

fn limit(w: &mut Writer, family: Family) {
    w.comment("keyed: near the limit of one block and the message together");
    for back in [0, 1, 10, 63, 64, 65, 127, 128, 129] {
        let keyed = consistent(w, family, LIMIT - back as u64);
        let exact = keyed.inner.m as usize / 8;
        let last = w.random.bytes(back);
        w.keystate(&keyed);
        w.keyfinish(exact);
        w.keyadd_some(back + 1);
        w.keyadd_some(back + 300);
        w.keyadd(&last);
        w.keyfinish(exact + 1);
        let tag = tag_of(&add(&keyed, &last).1);
        w.keycheck(&tag);
        w.keyadd_some(1);
        w.keyadd(&[]);
        w.keycheck(&off(&tag, 0, 1));
        w.keyfinish(exact - 1);
    }
}

/// Adds up to the limit with refused ones between, then the same bytes at once.
fn up_to_the_limit(w: &mut Writer, family: Family) {
    w.comment("keyed: up to the limit with refused adds between, then the same at once");
    let keyed = consistent(w, family, LIMIT - 400);
    let exact = keyed.inner.m as usize / 8;
    let data = w.random.bytes(400);
    w.keystate(&keyed);
    for (piece, left) in [(&data[..100], 400), (&data[100..137], 300), (&data[137..], 263)] {
        w.keyadd_some(left + 1);
        w.keyadd(piece);
        w.keyfinish(exact);
        w.keyadd_some(1000);
    }
    w.keystate(&keyed);
    w.keyadd(&data);
    w.keyfinish(exact);
    w.keyadd_some(1);
}

/// Keyed states at the limit that are not consistent, with an add past it and a short buffer.
fn orders(w: &mut Writer, family: Family) {
    w.comment("keyed: not consistent comes before the limit and before a short buffer");
    let keyed = consistent(w, family, LIMIT);
    let mut spoiled: Vec<Keyed> =
        own_spoils(&keyed).into_iter().filter(|k| k.inner.covered == LIMIT).collect();
    let compressed = keyed.inner.compressed - 1;
    spoiled.push(Keyed { inner: State { compressed, ..keyed.inner.clone() }, key: keyed.key });
    spoiled.push(Keyed { inner: State { m: 0, ..keyed.inner.clone() }, key: keyed.key });
    for keyed in spoiled {
        w.keystate(&keyed);
        w.keyadd_some(1);
        w.keyfinish(0);
        w.keycheck(&[]);
    }
    w.comment("keyed: the same state as it was");
    w.keystate(&keyed);
    w.keyadd_some(1);
    w.keyfinish(0);
    w.keycheck(&[]);
    w.keycheck(&tag_of(&keyed));
}

fn counters(w: &mut Writer, family: Family) {
    w.comment("keyed: counters of more than one word");
    for base in [1 << 29, 3 << 29, 1 << 32, 1 << 45, (1 << 61) - 4096] {
        for back in [0, family.block_bytes() as u64 + 9] {
            let keyed = consistent(w, family, base - back);
            w.keystate(&keyed);
            w.keyfinish(64);
            w.keyadd_some(back as usize + 55);
            w.keyfinish(64);
        }
    }
}

/// Carries on from a consistent keyed state that no start leads to.
fn unreached(w: &mut Writer, family: Family) {
    w.comment("keyed: from a state that no start leads to");
    let most = LIMIT - 1000;
    let covered = (w.random.next() >> (3 + w.random.below(61))).clamp(128, most);
    let keyed = consistent(w, family, covered);
    let exact = keyed.inner.m as usize / 8;
    w.keystate(&keyed);
    w.keyfinish(exact);
    let size = w.random.below(260);
    let data = w.random.bytes(size);
    w.keyadd(&data);
    w.keyfinish(exact + 3);
    let tag = tag_of(&add(&keyed, &data).1);
    w.keycheck(&tag);
    let wrong = wrong(w, &tag);
    w.keycheck(&wrong);
}

/// A run handed over by hand in the middle, then the same bytes at once.
fn resumed(w: &mut Writer, family: Family) {
    w.comment("keyed: handed over in the middle, then at once");
    let (m, key_size) = (w.m_of(family), w.random.below(200));
    let key = w.random.bytes(key_size);
    let (first, second) = (w.random.below(300), w.random.below(200));
    let message = w.random.bytes(first + second);
    w.keystate(&add(&start(m, &key).1, &message[..first]).1);
    w.keyadd(&message[first..]);
    w.keyfinish(m as usize / 8);
    w.keybegin(m, &key);
    w.keyadd(&message);
    w.keyfinish(m as usize / 8);
}
