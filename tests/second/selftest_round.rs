//! Comparison of both forms of the AES round with FIPS 197's examples and with each other, and of
//! the tables with known entries.

use crate::cases_round::{entry_states, NO_SHARE};
use crate::hash::aes_round_of_bytes;
use crate::lines::answer_all;
use crate::random::Random;
use crate::selftest::Tally;
use crate::tables::Tables;

/// An example of FIPS 197: its name, the states at the start of rounds 1 to 10, the round keys 1 to
/// 9. The result of a round is the start of the next one.
type Example = (&'static str, [u128; 10], [u128; 9]);

/// AES-128 in the edition of 2001: appendix B (key 2b7e1516 28aed2a6 abf71588 09cf4f3c, input
/// 3243f6a8 885a308d 313198a2 e0370734) and appendix C.1 (key 00010203 to 0c0d0e0f, input 00112233
/// to ccddeeff).
pub const EXAMPLES: [Example; 2] = [
    (
        "B",
        [
            0x193de3be_a0f4e22b_9ac68d2a_e9f84808,
            0xa49c7ff2_689f352b_6b5bea43_026a5049,
            0xaa8f5f03_61dde3ef_82d24ad2_6832469a,
            0x486c4eee_671d9d0d_4de3b138_d65f58e7,
            0xe0927fe8_c86363c0_d9b13550_85b8be01,
            0xf1006f55_c1924cef_7cc88b32_5db5d50c,
            0x260e2e17_3d41b77d_e86472a9_fdd28b25,
            0x5a4142b1_1949dc1f_a3e01965_7a8c040c,
            0xea835cf0_0445332d_655d98ad_8596b0c5,
            0xeb40f21e_592e3884_8ba113e7_1bc342d2,
        ],
        [
            0xa0fafe17_88542cb1_23a33939_2a6c7605,
            0xf2c295f2_7a96b943_5935807a_7359f67f,
            0x3d80477d_4716fe3e_1e237e44_6d7a883b,
            0xef44a541_a8525b7f_b671253b_db0bad00,
            0xd4d1c6f8_7c839d87_caf2b8bc_11f915bc,
            0x6d88a37a_110b3efd_dbf98641_ca0093fd,
            0x4e54f70e_5f5fc9f3_84a64fb2_4ea6dc4f,
            0xead27321_b58dbad2_312bf560_7f8d292f,
            0xac7766f3_19fadc21_28d12941_575c006e,
        ],
    ),
    (
        "C.1",
        [
            0x00102030_40506070_8090a0b0_c0d0e0f0,
            0x89d810e8_855ace68_2d1843d8_cb128fe4,
            0x4915598f_55e5d7a0_daca94fa_1f0a63f7,
            0xfa636a28_25b339c9_40668a31_57244d17,
            0x24724023_6966b3fa_6ed27532_88425b6c,
            0xc81677bc_9b7ac93b_25027992_b0261996,
            0xc62fe109_f75eedc3_cc79395d_84f9cf5d,
            0xd1876c0f_79c4300a_b45594ad_d66ff41f,
            0xfde3bad2_05e5d0d7_3547964e_f1fe37f1,
            0xbd6e7c3d_f2b5779e_0b61216e_8b10b689,
        ],
        [
            0xd6aa74fd_d2af72fa_daa678f1_d6ab76fe,
            0xb692cf0b_643dbdf1_be9bc500_6830b3fe,
            0xb6ff744e_d2c2c9bf_6c590cbf_0469bf41,
            0x47f7f7bc_95353e03_f96c32bc_fd058dfd,
            0x3caaa3e8_a99f9deb_50f3af57_adf622aa,
            0x5e390f7d_f7a69296_a7553dc1_0aa31f6b,
            0x14f9701a_e35fe28c_440adf4d_4ea9c026,
            0x47438735_a41c65b9_e016baf4_aebf7ad2,
            0x549932d1_f0855768_1093ed9c_be2c974e,
        ],
    ),
];

/// Known entries: row, byte, word.
const ENTRIES: [(usize, u8, u32); 15] = [
    (0, 0x00, 0xc66363a5),
    (0, 0x01, 0xf87c7c84),
    (0, 0x52, 0x00000000),
    (0, 0x53, 0xc1eded2c),
    (0, 0x80, 0x81cdcd4c),
    (0, 0xff, 0x2c16163a),
    (1, 0x00, 0xa5c66363),
    (1, 0x53, 0x2cc1eded),
    (1, 0xff, 0x3a2c1616),
    (2, 0x00, 0x63a5c663),
    (2, 0x53, 0xed2cc1ed),
    (2, 0xff, 0x163a2c16),
    (3, 0x00, 0x6363a5c6),
    (3, 0x53, 0xeded2cc1),
    (3, 0xff, 0x16163a2c),
];

/// Lines of a case file and their answers, written out.
const LINES: [(&str, &str); 8] = [
    (
        "round 193de3bea0f4e22b9ac68d2ae9f84808 a0fafe1788542cb123a339392a6c7605",
        "round a49c7ff2689f352b6b5bea43026a5049 a49c7ff2689f352b6b5bea43026a5049\n",
    ),
    (
        "round 00000000000000000000000000000000 00000000000000000000000000000000",
        "round 63636363636363636363636363636363 63636363636363636363636363636363\n",
    ),
    ("round 00000000000000000000000000000000", "unreadable\n"),
    ("round 000000000000000000000000000000 00000000000000000000000000000000", "unreadable\n"),
    ("round 00000000000000000000000000000000 0000000000000000000000000000000000", "unreadable\n"),
    ("round 0000000000000000000000000000000A 00000000000000000000000000000000", "unreadable\n"),
    ("round 00000000000000000000000000000000 0000000000000000000000000000000g", "unreadable\n"),
    ("round 00000000000000000000000000000000 -", "unreadable\n"),
];

pub fn round_values(tally: &mut Tally) {
    let tables = Tables::computed();
    example_values(tally, &tables);
    entry_values(tally, &tables);
    turned_values(tally, &tables);
    alone_values(tally, &tables);
    both_forms(tally, &tables);
    case_values(tally);
    line_values(tally);
}

fn example_values(tally: &mut Tally, tables: &Tables) {
    for (name, starts, keys) in EXAMPLES {
        for (index, key) in keys.iter().enumerate() {
            let (start, key) = (starts[index].to_be_bytes(), key.to_be_bytes());
            let result = starts[index + 1].to_be_bytes();
            let label = format!("FIPS 197 {name}, round {}", index + 1);
            let right = aes_round_of_bytes(&start, &key) == result;
            tally.value(&format!("{label}, by bytes"), right);
            let right = tables.round(&start, &key) == result;
            tally.value(&format!("{label}, over tables"), right);
        }
    }
}

fn entry_values(tally: &mut Tally, tables: &Tables) {
    for (row, byte, word) in ENTRIES {
        tally.value(&format!("row {row}'s entry for {byte:02x}"), tables.entry(row, byte) == word);
    }
}

/// The matrix of MixColumns is turned by one place from line to line, and so are the entries.
fn turned_values(tally: &mut Tally, tables: &Tables) {
    for row in 1..4 {
        let turned = |byte| tables.entry(0, byte).rotate_right(8 * row as u32);
        let right = (0..=255).all(|byte| tables.entry(row, byte) == turned(byte));
        tally.value(&format!("row {row}'s entries turned"), right);
    }
}

/// Each entry with the form by bytes: a byte in the first column, all others adding nothing, comes
/// out alone, in the column that its row moves to.
fn alone_values(tally: &mut Tally, tables: &Tables) {
    for row in 0..4 {
        let right = (0..=255).all(|byte| {
            let mut state = [NO_SHARE; 16];
            state[row] = byte;
            let mut result = [0; 16];
            let column = 4 * ((4 - row) % 4);
            result[column..column + 4].copy_from_slice(&tables.entry(row, byte).to_be_bytes());
            aes_round_of_bytes(&state, &[0; 16]) == result
        });
        tally.value(&format!("row {row}'s entries by bytes"), right);
    }
}

fn both_forms(tally: &mut Tally, tables: &Tables) {
    let mut random = Random::new(59);
    let right = (0..5000).all(|_| {
        let (state, subkey) = (random.array(), random.array());
        aes_round_of_bytes(&state, &subkey) == tables.round(&state, &subkey)
    });
    tally.value("both forms of the round", right);
}

/// The states that are to reach every entry do so.
fn case_values(tally: &mut Tally) {
    let states = entry_states();
    let right = (0..4).all(|row| {
        let bytes = states.iter().flat_map(|state| state[row..].iter().step_by(4));
        let mut met: Vec<u8> = bytes.copied().collect();
        met.sort();
        met.into_iter().eq(0..=255)
    });
    tally.value("every entry reached by the cases", right);
}

fn line_values(tally: &mut Tally) {
    for (line, answer) in LINES {
        tally.value(line, answer_all(line.as_bytes()) == answer);
    }
}
