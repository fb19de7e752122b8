//! Keyed digests (document 02, request Eight): start, add, finish and the tag check over the running
//! digest, with their refusals; and the tag at once.

use crate::digest::{self, begin, digest_bytes, m_allowed, one_shot, LastBits, State};
use crate::hash::Family;
use crate::hmac::{self, masked, IPAD, OPAD};

/// Most bytes of a key.
pub const LONGEST_KEY: usize = 65_535;

#[derive(Clone, PartialEq, Eq, Debug)]
pub struct Keyed {
    /// It covers the key block, then the message.
    pub inner: State,
    /// The padded key, then zeros.
    pub key: [u8; 128],
}

impl Keyed {
    pub fn zero() -> Keyed {
        Keyed { inner: State::zero(), key: [0; 128] }
    }

    fn block_bytes(&self) -> usize {
        self.inner.family.block_bytes()
    }

    pub fn consistent(&self) -> bool {
        self.inner.consistent()
            && self.inner.salt == [0; 64]
            && self.inner.m % 8 == 0
            && self.inner.covered >= self.block_bytes() as u64
            && self.key[self.block_bytes()..].iter().all(|&b| b == 0)
    }
}

/// The unsalted digest of two pieces joined, to the front of the buffer.
fn write_hash(m: u16, first: &[u8], second: &[u8], out: &mut [u8]) {
    let state = digest::add(&begin(m, &[]).1, first).1;
    digest::finish(&digest::add(&state, second).1, LastBits::NONE, out);
}

pub fn start(m: u16, key: &[u8]) -> (u8, Keyed) {
    if !m_allowed(m) || m % 8 != 0 {
        return (1, Keyed::zero());
    }
    if key.len() > LONGEST_KEY {
        return (12, Keyed::zero());
    }
    let block = Family::of(m).block_bytes();
    let mut padded = [0; 128];
    if key.len() > block {
        write_hash(m, key, &[], &mut padded);
    } else {
        padded[..key.len()].copy_from_slice(key);
    }
    let (_, inner) = digest::add(&begin(m, &[]).1, &masked(&padded[..block], IPAD));
    (0, Keyed { inner, key: padded })
}

/// The limit is that of the inner state, so the key block counts.
pub fn add(given: &Keyed, data: &[u8]) -> (u8, Keyed) {
    if !given.consistent() {
        return (4, given.clone());
    }
    let (number, inner) = digest::add(&given.inner, data);
    (number, Keyed { inner, key: given.key })
}

/// Writes the tag: a refusal number or 0, and the message's bytes, those of the key block left out.
pub fn finish(keyed: &Keyed, out: &mut [u8]) -> (u8, u64) {
    if !keyed.consistent() {
        return (4, 0);
    }
    let (m, block) = (keyed.inner.m, keyed.block_bytes());
    if out.len() < digest_bytes(m) {
        return (5, 0);
    }
    let mut inner = vec![0; digest_bytes(m)];
    digest::finish(&keyed.inner, LastBits::NONE, &mut inner);
    write_hash(m, &masked(&keyed.key[..block], OPAD), &inner, out);
    (0, keyed.inner.covered - block as u64)
}

/// A refusal number or 0, and whether the tag is the right one.
pub fn check(keyed: &Keyed, tag: &[u8]) -> (u8, bool) {
    let mut right = [0; 64];
    match finish(keyed, &mut right) {
        (0, _) => (0, right[..digest_bytes(keyed.inner.m)] == *tag),
        (number, _) => (number, false),
    }
}

/// The tag by HMAC over one-shot, not by way of the calls above. The digest length and the key are
/// allowed ones.
pub fn tag_at_once(m: u16, key: &[u8], text: &[u8]) -> Vec<u8> {
    hmac::tag(Family::of(m).block_bytes(), key, text, |message| {
        let mut digest = vec![0; digest_bytes(m)];
        one_shot(m, &[], message, LastBits::NONE, &mut digest);
        digest
    })
}
