//! Comparison of HMAC with the tags that RFC 4231 prints for it over SHA-256. That hash stands here
//! for this alone; its constants are worked out from the primes as FIPS 180-4 has them.

use crate::hmac::tag;
use crate::lines::hex;
use crate::selftest::Tally;

/// Digests of SHA-256: that of the empty message and that of FIPS 180-2's first example.
const DIGESTS: [(&str, &str); 2] = [
    ("", "e3b0c44298fc1c149afbf4c8996fb92427ae41e4649b934ca495991b7852b855"),
    ("abc", "ba7816bf8f01cfea414140de5dae2223b00361a396177a9cb410ff61f20015ad"),
];

const LARGE_KEY: &str = "Test Using Larger Than Block-Size Key - Hash Key First";

const LARGE_BOTH: &str = "This is a test using a larger than block-size key and a larger than \
    block-size data. The key needs to be hashed before being used by the HMAC algorithm.";

fn added(a: u32, b: u32) -> u32 {
    a.wrapping_add(b)
}

fn primes(count: usize) -> Vec<u128> {
    let prime = |number: &u128| (2..*number).all(|divisor| number % divisor != 0);
    (2..).filter(prime).take(count).collect()
}

/// The first 32 bits behind the point of a prime's square or cube root.
fn root_bits(prime: u128, power: u32) -> u32 {
    let value = prime << (32 * power);
    let mut root = 0u128;
    for bit in (0..40).rev() {
        let larger = root | 1 << bit;
        if larger.pow(power) <= value {
            root = larger;
        }
    }
    root as u32
}

fn sha256(message: &[u8]) -> Vec<u8> {
    let primes = primes(64);
    let mut chain = std::array::from_fn(|i| root_bits(primes[i], 2));
    let constants: Vec<u32> = primes.iter().map(|&prime| root_bits(prime, 3)).collect();
    let mut padded = message.to_vec();
    padded.push(0x80);
    while padded.len() % 64 != 56 {
        padded.push(0);
    }
    padded.extend((8 * message.len() as u64).to_be_bytes());
    for block in padded.chunks(64) {
        chain = sha256_compressed(chain, &expanded(block), &constants);
    }
    chain.iter().flat_map(|word| word.to_be_bytes()).collect()
}

/// The block's 16 words and 48 more.
fn expanded(block: &[u8]) -> Vec<u32> {
    let word = |c: &[u8]| u32::from_be_bytes([c[0], c[1], c[2], c[3]]);
    let mut words: Vec<u32> = block.chunks(4).map(word).collect();
    for i in 16..64 {
        let (a, b) = (words[i - 15], words[i - 2]);
        let first = a.rotate_right(7) ^ a.rotate_right(18) ^ (a >> 3);
        let second = b.rotate_right(17) ^ b.rotate_right(19) ^ (b >> 10);
        words.push([words[i - 16], first, words[i - 7], second].into_iter().fold(0, added));
    }
    words
}

fn sha256_compressed(chain: [u32; 8], words: &[u32], constants: &[u32]) -> [u32; 8] {
    let [mut a, mut b, mut c, mut d, mut e, mut f, mut g, mut h] = chain;
    for (&word, &constant) in words.iter().zip(constants) {
        let turned = e.rotate_right(6) ^ e.rotate_right(11) ^ e.rotate_right(25);
        let chosen = (e & f) ^ (!e & g);
        let first = [h, turned, chosen, constant, word].into_iter().fold(0, added);
        let turned = a.rotate_right(2) ^ a.rotate_right(13) ^ a.rotate_right(22);
        let majority = (a & b) ^ (a & c) ^ (b & c);
        (h, g, f, e) = (g, f, e, added(d, first));
        (d, c, b, a) = (c, b, a, [first, turned, majority].into_iter().fold(0, added));
    }
    let after = [a, b, c, d, e, f, g, h];
    std::array::from_fn(|i| added(chain[i], after[i]))
}

pub fn hmac_values(tally: &mut Tally) {
    for (message, digest) in DIGESTS {
        let right = hex(&sha256(message.as_bytes())) == digest;
        tally.value(&format!("SHA-256 of \"{message}\""), right);
    }
    for (number, key, text, right) in rfc_4231() {
        let made = hex(&tag(64, &key, text, sha256));
        tally.value(&format!("RFC 4231, case {number}"), made == right);
    }
}

/// Number, key, text and tag of its cases. Case 5, whose tag is cut, is left out.
fn rfc_4231() -> [(usize, Vec<u8>, &'static [u8], &'static str); 6] {
    [
        (
            1,
            vec![0x0b; 20],
            b"Hi There",
            "b0344c61d8db38535ca8afceaf0bf12b881dc200c9833da726e9376c2e32cff7",
        ),
        (
            2,
            b"Jefe".to_vec(),
            b"what do ya want for nothing?",
            "5bdcc146bf60754e6a042426089575c75a003f089d2739839dec58b964ec3843",
        ),
        (
            3,
            vec![0xaa; 20],
            &[0xdd; 50],
            "773ea91e36800e46854db8ebd09181a72959098b3ef8c122d9635514ced565fe",
        ),
        (
            4,
            (0x01..=0x19).collect(),
            &[0xcd; 50],
            "82558a389a443c0ea4cc819899f2083a85f0faa3e578f8077a2e3ff46729665b",
        ),
        (
            6,
            vec![0xaa; 131],
            LARGE_KEY.as_bytes(),
            "60e431591ee0b67f0d8a26aacbf5b77f8e0bc6213728c5140546040f0ee37f54",
        ),
        (
            7,
            vec![0xaa; 131],
            LARGE_BOTH.as_bytes(),
            "9b09ffa71b942fcb27635fbcd5b0e944bfdc63644f0713938a7f51535c3a35e2",
        ),
    ]
}
