//! Cases of the AES round: each line is answered by the form by bytes and by the one over tables.

use crate::cases::Writer;
use crate::random::Random;
use crate::selftest_round::EXAMPLES;

const ZERO: [u8; 16] = [0; 16];

/// The byte whose S-box value is zero, so that it adds nothing to its column.
pub const NO_SHARE: u8 = 0x52;

pub fn write(w: &mut Writer) {
    // Numbers of their own, so that cases put behind these do not depend on them.
    let others = std::mem::replace(&mut w.random, Random::new(0x5afe_0007));
    w.comment("rounds: the state that stands before them stays");
    w.begin(256, &[]);
    w.add(b"before");
    examples(w);
    zeros_and_ones(w);
    single_bytes(w);
    every_entry(w);
    single_bits(w);
    random_rounds(w);
    unreadable(w);
    w.comment("the state after the rounds");
    w.finish(32);
    w.random = others;
}

fn examples(w: &mut Writer) {
    w.comment("the rounds of FIPS 197's examples");
    for (_, starts, keys) in EXAMPLES {
        for (start, key) in starts.iter().zip(keys) {
            w.round(&start.to_be_bytes(), &key.to_be_bytes());
        }
    }
}

fn zeros_and_ones(w: &mut Writer) {
    w.comment("rounds of all zeros and all ones");
    for state in [0x00, 0xff] {
        for subkey in [0x00, 0xff] {
            w.round(&[state; 16], &[subkey; 16]);
        }
    }
}

/// The byte at each place, all others being of one kind.
fn single_bytes(w: &mut Writer) {
    for (others, bytes) in [(0x00, [0x01, 0x53, 0xff]), (NO_SHARE, [0x00, 0x80, 0xff])] {
        w.comment(&format!("rounds of a single byte among bytes {others:02x}"));
        for place in 0..16 {
            for byte in bytes {
                let mut state = [others; 16];
                state[place] = byte;
                w.round(&state, &ZERO);
            }
        }
    }
}

/// 64 states of 16 different bytes each, in which every row meets each of the 256 bytes once: four
/// in a state, one in each column. A round looks up each byte in the table of its row, so that all
/// 1,024 entries are reached.
pub fn entry_states() -> Vec<[u8; 16]> {
    let byte = |turn: usize, column: usize, row: usize| 4 * ((turn + 16 * row) % 64) + column;
    let state = |turn| std::array::from_fn(|place| byte(turn, place / 4, place % 4) as u8);
    (0..64).map(state).collect()
}

fn every_entry(w: &mut Writer) {
    w.comment("rounds that reach every entry of the tables");
    for state in entry_states() {
        w.round(&state, &ZERO);
    }
}

fn single_bits(w: &mut Writer) {
    w.comment("rounds with each subkey of one bit");
    for bit in 0..128 {
        let state = w.random.array();
        w.round(&state, &(1u128 << bit).to_be_bytes());
    }
}

fn random_rounds(w: &mut Writer) {
    w.comment("rounds of random states and subkeys");
    for _ in 0..100 {
        let (state, subkey) = (w.random.array(), w.random.array());
        w.round(&state, &subkey);
    }
}

/// A word that is readable in both places.
const RIGHT: &str = "00112233445566778899aabbccddeeff";

/// Words that are readable in neither.
const WRONG: [&str; 8] = [
    "",
    "-",
    "00112233445566778899aabbccddee",
    "00112233445566778899aabbccddeef",
    "00112233445566778899aabbccddeeff0",
    "00112233445566778899aabbccddeeff00",
    "00112233445566778899aabbccddeeFF",
    "00112233445566778899aabbccddeefg",
];

fn unreadable(w: &mut Writer) {
    w.comment("lines of rounds that are not readable, then one that is");
    w.line("round");
    w.line(&format!("round {RIGHT}"));
    w.line(&format!("round {RIGHT}{RIGHT}"));
    w.line(&format!("round {RIGHT} {RIGHT} {RIGHT}"));
    w.line(&format!("Round {RIGHT} {RIGHT}"));
    w.line(&format!("round {RIGHT} {RIGHT}\r"));
    for wrong in WRONG {
        w.line(&format!("round {wrong} {RIGHT}"));
        w.line(&format!("round {RIGHT} {wrong}"));
    }
    w.line(&format!("round {RIGHT} {RIGHT}"));
}
