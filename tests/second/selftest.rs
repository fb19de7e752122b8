//! Comparison with every printed value.

use crate::bits::{message, whole_list};
use crate::digest::{
    add, begin, closing_blocks, finish, one_shot, write_digest, LastBits, State, LIMIT,
};
use crate::hash::{compress, field_product, master_value, starting_chain, Family, SBOX};
use crate::lines::hex;
use crate::log::printed_check;
use crate::printed::{salt_byte, Message, What, TABLE};
use crate::samples::smallest;
use crate::saved::{load, save};
use crate::selftest_bits::bit_values;
use crate::selftest_hmac::hmac_values;
use crate::selftest_keyed::keyed_values;
use crate::selftest_mac::mac_values;
use crate::selftest_places::place_values;
use crate::selftest_records::record_values;
use crate::selftest_round::round_values;
use crate::selftest_write::write_values;
use crate::stage;
use crate::sum;

/// Counters that document 01 lists (marked P there): family, bytes, counters.
const COUNTERS: [(Family, usize, &[u128]); 12] = [
    (Family::Small, 0, &[0]),
    (Family::Small, 53, &[424]),
    (Family::Small, 54, &[432, 0]),
    (Family::Small, 63, &[504, 0]),
    (Family::Small, 64, &[512, 0]),
    (Family::Small, 117, &[512, 936]),
    (Family::Small, 118, &[512, 944, 0]),
    (Family::Large, 109, &[872]),
    (Family::Large, 110, &[880, 0]),
    (Family::Large, 127, &[1016, 0]),
    (Family::Large, 128, &[1024, 0]),
    (Family::Large, 237, &[1024, 1896]),
];

/// What the 40-byte log prints.
const SMALLEST_PRINT: &str = "accepted 1 0 0 noclaim\n\
    0 0 0000000000000000000000000000000000000000000000000000000000000000\n";

/// First word of the unsalted 256-bit million-A digest with counter 0 on the padding-only block.
const MILLION_A_BY_RULE: u32 = 0x0738_AC34;

/// Words that `sum` cannot read.
const SUM_UNREADABLE: [&[&str]; 9] = [
    &[""],
    &["+8"],
    &["100h"],
    &["65536"],
    &["256", "0"],
    &["256", "0g"],
    &["256", "-"],
    &["256", "0 00"],
    &["256", "", ""],
];

/// The form of a small state, written out: parameters, salt, chain, covered, held bytes.
const SMALL_FORM: [&str; 5] = [
    "0200 0000 0800",
    "0800 000102030405060708090a0b0c0d0e0f101112131415161718191a1b1c1d1e1f",
    "0800 202122232425262728292a2b2c2d2e2f303132333435363738393a3b3c3d3e3f",
    "0100 8306050403020100",
    "0300 c0c1c2",
];

/// Changes to that form that are refused: places and the bytes put there, bytes kept (zeros past
/// its end), the number.
const FORM_REFUSALS: [(&[(usize, u8)], usize, u8); 14] = [
    (&[], 0, 9),
    (&[], 88, 9),
    (&[], 90, 9),
    (&[(0, 3)], 89, 10),
    (&[(2, 2)], 89, 10),
    (&[(3, 1)], 6, 10),
    (&[(2, 2)], 5, 9),
    (&[(6, 7)], 8, 10),
    (&[(41, 1)], 89, 10),
    (&[(74, 2)], 97, 10),
    (&[(84, 4)], 90, 10),
    (&[(4, 8), (5, 1)], 89, 4),
    (&[(83, 0x20)], 89, 4),
    (&[(4, 0)], 90, 9),
];

/// The form that `stage` writes for the empty input, written out: parameters, salt, chain, covered,
/// no held bytes. The chain is IV_256 of source 003, each word's bytes lowest first.
const EMPTY_STAGE: [&str; 5] = [
    "0200 0000 0001",
    "0800 0000000000000000000000000000000000000000000000000000000000000000",
    "0800 51f5ec3e9b8110bf5985dce6d53fe2f373ec1a4331f7e379055f3298f1312aa9",
    "0100 0000000000000000",
    "0000",
];

/// Bytes of an input of `stage` and of the form it gives. The last input is the whole image.
const STAGE_SIZES: [(usize, usize); 6] =
    [(1, 87), (63, 149), (64, 86), (65, 87), (128, 86), (10_037, 139)];

pub struct Tally {
    met: usize,
    missed: Vec<String>,
}

impl Tally {
    pub fn value(&mut self, label: &str, right: bool) {
        if right {
            self.met += 1;
        } else {
            self.missed.push(label.to_string());
        }
    }
}

/// Runs all comparisons; the text to print and whether all values were met.
pub fn run() -> (String, bool) {
    let mut tally = Tally { met: 0, missed: Vec::new() };
    field_values(&mut tally);
    for entry in &TABLE {
        let made = match entry.what {
            What::Master(family) => master_value(family, &[0; 64])[..family.chain_words()].to_vec(),
            What::Start(m) => {
                let family = Family::of(m);
                starting_chain(family, m, &[0; 64])[..family.chain_words()].to_vec()
            }
            What::Digest { m, salted, message } => appendix_digest(m, salted, message),
        };
        tally.value(&entry.label(), made == entry.numbers());
    }
    for (family, size, counters) in COUNTERS {
        let m = if family == Family::Small { 256 } else { 512 };
        let list = whole_list(family, m, &message(&vec![7; size], LastBits::NONE));
        let made: Vec<u128> = list.iter().map(|(counter, _)| *counter).collect();
        tally.value(&format!("counters of {family:?} {size}"), made == counters);
    }
    tally.value("the 40-byte log", printed_check(&smallest()) == SMALLEST_PRINT);
    tally.value("million-A by the rule", million_a_by_rule(256, &[])[0] == MILLION_A_BY_RULE);
    tally.value("cuts against whole messages", cuts_agree());
    sum_values(&mut tally);
    saved_values(&mut tally);
    stage_values(&mut tally);
    write_values(&mut tally);
    record_values(&mut tally);
    bit_values(&mut tally);
    place_values(&mut tally);
    round_values(&mut tally);
    hmac_values(&mut tally);
    keyed_values(&mut tally);
    mac_values(&mut tally);
    let mut text: String =
        tally.missed.iter().map(|label| format!("selftest: not met: {label}\n")).collect();
    text += &format!("selftest: {} values met\n", tally.met);
    (text, tally.missed.is_empty())
}

fn words_of(bytes: &[u8]) -> Vec<u32> {
    bytes.chunks(4).map(|c| u32::from_le_bytes([c[0], c[1], c[2], c[3]])).collect()
}

/// A digest as the appendix makes it: salted ones with the salt in the start-up calls too, and
/// small-family million-A ones with the message length as counter of the padding-only block.
fn appendix_digest(m: u16, salted: bool, message: Message) -> Vec<u32> {
    let family = Family::of(m);
    let mut salt = [0; 64];
    if salted {
        salt[..family.salt_bytes()].fill(salt_byte(m));
    }
    let chain = starting_chain(family, m, &salt);
    let start = State { family, m, salt, chain, ..State::zero() };
    let (number, state) = add(&start, &message.bytes());
    assert_eq!(number, 0);
    let mut out = vec![0; m as usize / 8];
    if family == Family::Small && message == Message::MillionA {
        let list = closing_blocks(family, m, state.covered, &state.held, LastBits::NONE);
        assert_eq!((list.len(), list[0].0), (1, 0));
        let last = compress(family, &state.chain, &list[0].1, 8_000_000, &salt);
        write_digest(&last, m, &mut out);
    } else {
        assert_eq!(finish(&state, LastBits::NONE, &mut out).number, 0);
    }
    words_of(&out)
}

/// A million-A digest of the small family by document 01's rule: start-up calls with the zero salt,
/// counter 0 on the padding-only block.
fn million_a_by_rule(m: u16, salt: &[u8]) -> Vec<u32> {
    let mut out = vec![0; m as usize / 8];
    let report = one_shot(m, salt, &Message::MillionA.bytes(), LastBits::NONE, &mut out);
    assert_eq!(report.number, 0);
    words_of(&out)
}

/// Those four digests, a line each, labelled like the printed ones.
pub fn ruled_text() -> String {
    let mut text = String::new();
    for m in [224, 256] {
        for (label, salt) in [("unsalted", vec![]), ("salted", vec![salt_byte(m); 32])] {
            let words: Vec<String> =
                million_a_by_rule(m, &salt).iter().map(|w| format!("{w:08X}")).collect();
            text += &format!("{m} {label} million-a by the rule {}\n", words.join(" "));
        }
    }
    text
}

/// The field product, the S-box of 53, and the S-box as affine map of the field inverse.
fn field_values(tally: &mut Tally) {
    tally.value("65 times 8A", field_product(0x65, 0x8a) == 0x9f);
    tally.value("S-box of 53", SBOX[0x53] == 0xed);
    let right = (0..=255u8).all(|x| {
        let inverse = (0..=255u8).find(|&y| field_product(x, y) == 1).unwrap_or(0);
        let mut y = 0x63;
        for turn in 0..5 {
            y ^= inverse.rotate_left(turn);
        }
        SBOX[x as usize] == y
    });
    tally.value("S-box table", right);
}

/// Digests by begin, adds and finish against one-shot, which is made from the list of the whole
/// message: every length 0 to 260, several cuts, both families.
fn cuts_agree() -> bool {
    let message: Vec<u8> = (0..260u32).map(|i| (i * 37 + 11) as u8).collect();
    [(248, 32), (512, 64)].iter().all(|&(m, salt_size)| {
        let salt: Vec<u8> = message[100..100 + salt_size].to_vec();
        (0..=message.len()).all(|size| {
            let mut whole = [0; 64];
            let whole_report = one_shot(m, &salt, &message[..size], LastBits::NONE, &mut whole);
            [1, 17, 64, 100].iter().all(|&cut| {
                let mut state = begin(m, &salt).1;
                for piece in message[..size].chunks(cut) {
                    state = add(&state, piece).1;
                }
                let mut out = [0; 64];
                finish(&state, LastBits::NONE, &mut out) == whole_report && out == whole
            })
        })
    })
}

/// The line of `sum`; none where the words cannot be read.
fn sum_line(words: &[&str], input: &[u8]) -> Option<String> {
    sum::asked(words).ok().map(|(m, salt)| sum::text(m, &salt, input))
}

/// The `sum` mode: its first printed word, two refusals, its words, its turns.
fn sum_values(tally: &mut Tally) {
    let empty = sum_line(&[], b"").unwrap_or_default();
    let right = empty.starts_with("4ae7a5f7") && empty.ends_with(" 0 1\n");
    tally.value("sum of the empty input", right);
    tally.value("sum at 513 bits", sum_line(&["513"], b"A").as_deref() == Some("refused 1\n"));
    let short = sum_line(&["256", &"00".repeat(31)], b"A");
    tally.value("sum with a salt of 31 bytes", short.as_deref() == Some("refused 2\n"));
    tally.value("words of sum", SUM_UNREADABLE.iter().all(|words| sum::asked(words).is_err()));
    tally.value("turns of sum against whole messages", sum_turns_agree());
}

/// Lengths at the ends of turns against one-shot, both families, salted in either case of letters
/// and not.
fn sum_turns_agree() -> bool {
    let message: Vec<u8> = (0..3 * sum::TURN).map(|i| (i * i / 7 + 171) as u8).collect();
    [(256, 0), (200, 32), (512, 0), (264, 64)].iter().all(|&(m, salt_size)| {
        let salt = &message[..salt_size];
        let lower: String = salt.iter().map(|b| format!("{b:02x}")).collect();
        [1, 999, 1000, 1001, 2000, 2431, 3000].iter().all(|&size| {
            let mut whole = vec![0; m as usize / 8];
            let r = one_shot(m, salt, &message[..size], LastBits::NONE, &mut whole);
            let line = format!("{} {} {}\n", hex(&whole), r.covered, r.compressed);
            [lower.clone(), lower.to_uppercase()].iter().all(|word| {
                sum_line(&[&m.to_string(), word], &message[..size]).as_ref() == Some(&line)
            })
        })
    })
}

/// The state whose form is `SMALL_FORM`.
fn small_state() -> State {
    let mut state = State { m: 8, covered: 0x0001_0203_0405_0683, ..State::zero() };
    state.compressed = state.covered / 64;
    for (index, byte) in state.salt[..32].iter_mut().enumerate() {
        *byte = index as u8;
    }
    for (index, word) in state.chain[..8].iter_mut().enumerate() {
        *word = 0x2322_2120 + 0x0404_0404 * index as u32;
    }
    state.held[..3].copy_from_slice(&[0xc0, 0xc1, 0xc2]);
    state
}

/// The form, in hex, of an unsalted start whose chain is the printed one.
fn start_form(m: u16, chain: &[u32]) -> String {
    let family = if chain.len() == 8 { "0000" } else { "0100" };
    let count = format!("{:02x}00", chain.len());
    let salt = "0".repeat(8 * chain.len());
    let words: String = chain.iter().map(|w| format!("{:08x}", w.swap_bytes())).collect();
    let covered = "0".repeat(16);
    let m = m.swap_bytes();
    format!("0200{family}{m:04x}{count}{salt}{count}{words}0100{covered}0000")
}

/// Whether save writes this form, given in hex, and no byte past it, and load reads the same state.
fn form_is(state: &State, form: &str) -> bool {
    let mut buffer = [0xaa; 300];
    let (number, size) = save(state, &mut buffer);
    let (front, back) = buffer.split_at(size);
    number == 0
        && hex(front) == form
        && back.iter().all(|&byte| byte == 0xaa)
        && load(front) == (0, state.clone())
}

/// What load answers to the changed form of `FORM_REFUSALS`.
fn load_changed(changes: &[(usize, u8)], size: usize) -> (u8, State) {
    let mut form = [0; 97];
    save(&small_state(), &mut form);
    for &(place, byte) in changes {
        form[place] = byte;
    }
    load(&form[..size])
}

/// Runs saved at every length 0 to 260, read back and gone on with, against one-shot.
fn handed_over_agree(m: u16, salt_size: usize) -> bool {
    let message: Vec<u8> = (0..400u32).map(|i| (i * 59 + 7) as u8).collect();
    let salt = &message[200..200 + salt_size];
    (0..=260).all(|size| {
        let mut buffer = [0; 300];
        let state = add(&begin(m, salt).1, &message[..size]).1;
        let form_size = save(&state, &mut buffer).1;
        let read = load(&buffer[..form_size]).1;
        [0, 1, 60, 130].iter().all(|more| {
            let (mut out, mut whole) = ([0; 64], [0; 64]);
            let last = LastBits::NONE;
            let report = finish(&add(&read, &message[size..size + more]).1, last, &mut out);
            let whole_report = one_shot(m, salt, &message[..size + more], last, &mut whole);
            report.number == 0 && report == whole_report && out == whole
        })
    })
}

/// Saved forms: by hand, of the printed starts, the refusals of reader and writer, runs handed over.
fn saved_values(tally: &mut Tally) {
    tally.value("the form by hand", form_is(&small_state(), &SMALL_FORM.concat().replace(' ', "")));
    for entry in &TABLE {
        if let What::Start(m) = entry.what {
            let form = start_form(m, &entry.numbers());
            tally.value(&format!("form of {}", entry.label()), form_is(&begin(m, &[]).1, &form));
        }
    }
    for (changes, size, number) in FORM_REFUSALS {
        let label = format!("form with {changes:x?}, {size} bytes");
        tally.value(&label, load_changed(changes, size) == (number, State::zero()));
    }
    let mut short = [0xaa; 88];
    let right = save(&small_state(), &mut short) == (5, 0) && short == [0xaa; 88];
    tally.value("form into a short buffer", right);
    // Short for this one too: 4 comes first.
    let right = save(&State::zero(), &mut short[..85]) == (4, 0) && short == [0xaa; 88];
    tally.value("form of the all-zero state", right);
    for (m, salt_size) in [(256, 0), (160, 32), (512, 0), (264, 64)] {
        tally.value(&format!("handed over at {m} bits"), handed_over_agree(m, salt_size));
    }
}

/// Whether the form, read back, gone on with and finished, gives the digest of both parts joined.
fn stage_goes_on(form: &[u8], input: &[u8], more: &[u8]) -> bool {
    let (number, read) = load(form);
    let (mut out, mut whole) = ([0; 32], [0; 32]);
    let last = LastBits::NONE;
    let report = finish(&add(&read, more).1, last, &mut out);
    let whole_report = one_shot(256, &[], &[input, more].concat(), last, &mut whole);
    number == 0 && report.number == 0 && report == whole_report && out == whole
}

/// The `stage` mode: the form of the empty input, lengths, forms gone on with, refusals. The inputs
/// are the front of the image.
fn stage_values(tally: &mut Tally) {
    let empty = EMPTY_STAGE.concat().replace(' ', "");
    let printed = TABLE.iter().find(|entry| matches!(entry.what, What::Start(256)));
    let right = printed.map(|entry| start_form(256, &entry.numbers())) == Some(empty.clone());
    tally.value("stage of the empty input", right && hex(&stage::output(&[])) == empty);

    let image = stage::image();
    tally.value("bytes of the image", image.len() == 10_037);
    let second_half: Vec<u8> = (0..1000u32).map(|i| (i * i / 11 + 91) as u8).collect();
    for (size, form_size) in STAGE_SIZES {
        let input = &image[..size.min(image.len())];
        let form = stage::output(input);
        tally.value(&format!("form length of stage, {size} bytes"), form.len() == form_size);
        let right = stage_goes_on(&form, input, &[]);
        tally.value(&format!("stage finished, {size} bytes"), right);
        let right = stage_goes_on(&form, input, &second_half);
        tally.value(&format!("stage gone on with, {size} bytes"), right);
    }
    // By begin, by add, by save.
    let full = State { covered: LIMIT, compressed: LIMIT / 64, ..begin(256, &[]).1 };
    let right = stage::output_from(begin(513, &[]), b"A") == b"refused 1\n"
        && stage::output_from((0, full), b"A") == b"refused 3\n"
        && stage::output_from((0, State::zero()), &[]) == b"refused 4\n";
    tally.value("refusals of stage", right);
}
