//! Comparison of messages and digests of a broken byte with blocks, counters and counts worked out
//! by hand, of one-shot with finish, and of the refusals with tables.

use crate::bits::{message, whole_list};
use crate::digest::{
    add, begin, closing_blocks, digest_bytes, finish, one_shot, LastBits, Report, State, LIMIT,
};
use crate::hash::{compress, starting_chain, Family};
use crate::lines::{answer_all, hex, state_text};
use crate::printed::{Message, What, TABLE};
use crate::saved::{load, save};
use crate::selftest::Tally;
use crate::sum;
use Family::{Large, Small};

/// A list of (counter, block) by hand; `written` reads the blocks.
type Written<'a> = &'a [(u128, &'a str)];

/// Messages and their whole lists: m, whole bytes, last byte, last bits, counters and blocks.
#[rustfmt::skip]
const MESSAGES: [(u16, &str, u8, u8, Written); 34] = [
    (256, "", 0x00, 0, &[(0, "80 00*53 00*8 0001")]),
    (256, "", 0x00, 1, &[(1, "40 00*53 01 00*7 0001")]),
    (256, "", 0x80, 1, &[(1, "c0 00*53 01 00*7 0001")]),
    (256, "", 0x40, 2, &[(2, "60 00*53 02 00*7 0001")]),
    (256, "", 0xb0, 5, &[(5, "b4 00*53 05 00*7 0001")]),
    (256, "", 0xfe, 7, &[(7, "ff 00*53 07 00*7 0001")]),
    (255, "", 0x00, 7, &[(7, "01 00*53 07 00*7 ff00")]),
    (1, "41", 0xa0, 3, &[(11, "41 b0 00*52 0b 00*7 0100")]),
    (8, "41", 0x00, 0, &[(8, "41 80 00*52 08 00*7 0800")]),
    (256, "aa*53", 0x00, 0, &[(424, "aa*53 80 a801 00*6 0001")]),
    (256, "aa*53", 0xfc, 6, &[(430, "aa*53 fe ae01 00*6 0001")]),
    (256, "aa*53", 0xfe, 7, &[(431, "aa*53 ff af01 00*6 0001")]),
    (12, "aa*53", 0x00, 7, &[(431, "aa*53 01 af01 00*6 0c00")]),
    (256, "aa*54", 0x00, 0, &[(432, "aa*54 80 00*9"), (0, "00*54 b001 00*6 0001")]),
    (256, "aa*54", 0x80, 1, &[(433, "aa*54 c0 00*9"), (0, "00*54 b101 00*6 0001")]),
    (256, "aa*54", 0xaa, 7, &[(439, "aa*54 ab 00*9"), (0, "00*54 b701 00*6 0001")]),
    (9, "aa*63", 0x54, 7, &[(511, "aa*63 55"), (0, "00*54 ff01 00*6 0900")]),
    (256, "aa*64", 0x00, 0, &[(512, "aa*64"), (0, "80 00*53 0002 00*6 0001")]),
    (256, "aa*64", 0x80, 1, &[(512, "aa*64"), (513, "c0 00*53 0102 00*6 0001")]),
    (256, "aa*64", 0x00, 3, &[(512, "aa*64"), (515, "10 00*53 0302 00*6 0001")]),
    (256, "aa*117", 0xfe, 7, &[(512, "aa*64"), (943, "aa*53 ff af03 00*6 0001")]),
    (256, "aa*118", 0x00, 0,
        &[(512, "aa*64"), (944, "aa*54 80 00*9"), (0, "00*54 b003 00*6 0001")]),
    (512, "", 0x00, 0, &[(0, "80 00*109 00*16 0002")]),
    (257, "", 0x80, 1, &[(1, "c0 00*109 01 00*15 0101")]),
    (263, "", 0xb0, 5, &[(5, "b4 00*109 05 00*15 0701")]),
    (512, "bb*109", 0x00, 0, &[(872, "bb*109 80 6803 00*14 0002")]),
    (512, "bb*109", 0xfe, 7, &[(879, "bb*109 ff 6f03 00*14 0002")]),
    (512, "bb*110", 0x00, 0, &[(880, "bb*110 80 00*17"), (0, "00*110 7003 00*14 0002")]),
    (511, "bb*110", 0x00, 7, &[(887, "bb*110 01 00*17"), (0, "00*110 7703 00*14 ff01")]),
    (512, "bb*127", 0xaa, 7, &[(1023, "bb*127 ab"), (0, "00*110 ff03 00*14 0002")]),
    (512, "bb*128", 0x00, 0, &[(1024, "bb*128"), (0, "80 00*109 0004 00*14 0002")]),
    (512, "bb*128", 0xa0, 3, &[(1024, "bb*128"), (1027, "b0 00*109 0304 00*14 0002")]),
    (512, "bb*237", 0xfe, 7, &[(1024, "bb*128"), (1903, "bb*109 ff 6f07 00*14 0002")]),
    (512, "bb*238", 0x00, 0,
        &[(1024, "bb*128"), (1904, "bb*110 80 00*17"), (0, "00*110 7007 00*14 0002")]),
];

/// Messages too long to be made: m, bytes covered, the byte that fills the held ones, last byte,
/// last bits, the last counters and blocks.
#[rustfmt::skip]
const LONG: [(u16, u64, u8, u8, u8, Written); 8] = [
    (256, LIMIT, 0xaa, 0xfe, 7, &[(u64::MAX as u128, "aa*63 ff"), (0, "00*54 ff*8 0001")]),
    (255, LIMIT, 0xaa, 0x00, 0,
        &[(u64::MAX as u128 - 7, "aa*63 80"), (0, "00*54 f8 ff*7 ff00")]),
    (512, LIMIT, 0xbb, 0xfe, 7,
        &[(u64::MAX as u128, "bb*127 ff"), (0, "00*110 ff*8 00*8 0002")]),
    (257, LIMIT, 0xbb, 0x20, 3,
        &[(u64::MAX as u128 - 4, "bb*127 30"), (0, "00*110 fb ff*7 00*8 0101")]),
    (256, LIMIT - 10, 0xaa, 0x00, 7, &[(u64::MAX as u128 - 80, "aa*53 01 af ff*7 0001")]),
    (256, (1 << 29) - 1, 0xaa, 0x02, 7,
        &[((1 << 32) - 1, "aa*63 03"), (0, "00*54 ff*4 00*4 0001")]),
    (256, 1 << 29, 0xaa, 0x80, 1, &[((1 << 32) + 1, "c0 00*53 01 00*3 01 00*3 0001")]),
    (256, 1 << 29, 0xaa, 0x00, 0, &[(0, "80 00*53 00*4 01 00*3 0001")]),
];

/// What stays of a digest's last byte, by the bits of m past the last whole byte.
const MASKS: [u8; 8] = [0xff, 0x80, 0xc0, 0xe0, 0xf0, 0xf8, 0xfc, 0xfe];

/// Digest lengths, the number of begin and one-shot, the family where that is 0.
const STARTS: [(u16, u8, Family); 9] = [
    (0, 1, Small),
    (1, 0, Small),
    (255, 0, Small),
    (256, 0, Small),
    (257, 0, Large),
    (263, 0, Large),
    (512, 0, Large),
    (513, 1, Small),
    (65_535, 1, Small),
];

/// Calls of finish at 12 bits: blocks compressed too many, last byte, last bits, bytes of the
/// buffer, the number.
const FINISH_ORDER: [(u64, u8, u8, usize, u8); 8] = [
    (1, 0xa1, 3, 1, 4),
    (1, 0xa1, 3, 2, 4),
    (1, 0xa0, 3, 1, 4),
    (1, 0xa0, 3, 2, 4),
    (0, 0xa1, 3, 1, 11),
    (0, 0xa1, 3, 2, 11),
    (0, 0xa0, 3, 1, 5),
    (0, 0xa0, 3, 2, 0),
];

/// Calls of one-shot: m, bytes of the salt, last byte, last bits, bytes of the buffer, the number.
const ONE_SHOT_ORDER: [(u16, usize, u8, u8, usize, u8); 9] = [
    (513, 31, 0xa1, 3, 1, 1),
    (0, 32, 0xa0, 3, 0, 1),
    (12, 31, 0xa1, 3, 1, 2),
    (12, 31, 0xa0, 3, 2, 2),
    (257, 32, 0xa0, 8, 33, 2),
    (12, 32, 0xa0, 8, 1, 11),
    (257, 64, 0xa1, 3, 33, 11),
    (257, 64, 0xa0, 3, 32, 5),
    (257, 64, 0xa0, 3, 33, 0),
];

/// The example of a case file in tests/README.md.
const EXAMPLE: &str = "# one byte, then the digest of 8 bits; the second buffer is too short; \
    then the same byte and the bits 101\n\
    begin 8 -\nadd 41\nfinish 00 0 ffff\nfinish 00 0 -\nfinish a0 3 ffff\n\
    oneshot 513 - 41 a0 3 00\n";

/// Lines that are not readable.
const LINES: [&str; 14] = [
    "finish a0 3",
    "finish ffff",
    "finish a 3 ffff",
    "finish a0a 3 ffff",
    "finish a0a0 3 ffff",
    "finish A0 3 ffff",
    "finish - 3 ffff",
    "finish a0 256 ffff",
    "finish a0  ffff",
    "finish a0 x ffff",
    "finish a0 3 ffff ff",
    "oneshot 8 - 41 ffff",
    "oneshot 8 - 41 a0 256 ffff",
    "oneshot 8 - 41 a0 3 ffff ff",
];

pub fn bit_values(tally: &mut Tally) {
    message_values(tally);
    long_values(tally);
    broken_digests(tally);
    both_ways(tally);
    printed_at_once(tally);
    start_values(tally);
    allowed_values(tally);
    order_values(tally);
    form_values(tally);
    line_values(tally);
    sum_values(tally);
}

/// Bytes written out: words of hex, or a byte, a star and how many of it.
fn written(text: &str) -> Vec<u8> {
    let word = |word: &str| {
        let (hex, times) = word.split_once('*').unwrap_or((word, "1"));
        sum::hex_bytes(hex).expect("hex").repeat(times.parse().expect("a number"))
    };
    text.split(' ').flat_map(word).collect()
}

fn written_list(list: Written) -> Vec<(u128, Vec<u8>)> {
    list.iter().map(|(counter, block)| (*counter, written(block))).collect()
}

/// The digest that a list leads to from a chain without salt, masked by the table, and two bytes of
/// a longer buffer behind it.
fn digest_of(m: u16, mut chain: [u32; 16], list: &[(u128, Vec<u8>)]) -> Vec<u8> {
    for (counter, block) in list {
        chain = compress(Family::of(m), &chain, block, *counter, &[0; 64]);
    }
    let bytes: Vec<u8> = chain.iter().flat_map(|word| word.to_le_bytes()).collect();
    let mut digest = bytes[..digest_bytes(m)].to_vec();
    *digest.last_mut().expect("a byte") &= MASKS[m as usize % 8];
    [digest, vec![0xff; 2]].concat()
}

/// Report and buffer of a call that is lent two bytes more than the digest has.
fn lent(m: u16, call: impl Fn(&mut [u8]) -> Report) -> (Report, Vec<u8>) {
    let mut buffer = vec![0xff; digest_bytes(m) + 2];
    (call(&mut buffer), buffer)
}

fn at_once(m: u16, salt: &[u8], data: &[u8], last: LastBits) -> (Report, Vec<u8>) {
    lent(m, |out| one_shot(m, salt, data, last, out))
}

fn finished(state: &State, last: LastBits) -> (Report, Vec<u8>) {
    lent(state.m, |out| finish(state, last, out))
}

/// The state after the data.
fn after(m: u16, salt: &[u8], data: &[u8]) -> State {
    add(&begin(m, salt).1, data).1
}

/// The last blocks of a state, by bytes.
fn closing(state: &State, last: LastBits) -> Vec<(u128, Vec<u8>)> {
    closing_blocks(state.family, state.m, state.covered, &state.held, last)
}

/// Messages with blocks by hand: the list by bits and one-shot; the last blocks by bytes and finish.
fn message_values(tally: &mut Tally) {
    for (m, data, byte, count, list) in MESSAGES {
        let data = written(data);
        let (last, list) = (LastBits { byte, count }, written_list(list));
        let family = Family::of(m);
        let (covered, compressed) = (data.len() as u64, list.len() as u64);
        let report = Report { number: 0, covered, bits: count, compressed };
        let made = (report, digest_of(m, starting_chain(family, m, &[0; 64]), &list));
        let label = format!("{m} bits of {} bytes and {count} bits {byte:02x}", data.len());

        let right = whole_list(family, m, &message(&data, last)) == list;
        let right = right && at_once(m, &[], &data, last) == made;
        tally.value(&format!("{label}, at once"), right);

        let state = after(m, &[], &data);
        let right = list.ends_with(&closing(&state, last)) && finished(&state, last) == made;
        tally.value(&format!("{label}, by parts"), right);
    }
}

/// Lengths of many bytes: the last blocks, and finish from the chain of the state.
fn long_values(tally: &mut Tally) {
    for (m, covered, held, byte, count, list) in LONG {
        let (last, list) = (LastBits { byte, count }, written_list(list));
        let family = Family::of(m);
        let block = family.block_bytes() as u64;
        let mut state = State { covered, compressed: covered / block, ..begin(m, &[]).1 };
        state.held[..(covered % block) as usize].fill(held);
        let compressed = state.compressed + list.len() as u64;
        let report = Report { number: 0, covered, bits: count, compressed };
        let right = closing(&state, last) == list
            && finished(&state, last) == (report, digest_of(m, state.chain, &list));
        tally.value(&format!("{m} bits of {covered} bytes and {count} bits"), right);
    }
}

/// Every digest length, those with the same last bits at a time: the 5 bits 10110 in their one
/// block by hand.
fn broken_digests(tally: &mut Tally) {
    let last = LastBits { byte: 0xb0, count: 5 };
    for odd in 1..=8 {
        let right = (odd..=512).step_by(8).all(|m| {
            let family = Family::of(m);
            let front = if family == Small { "b4 00*53 05 00*7" } else { "b4 00*109 05 00*15" };
            let list = [(5, [written(front), m.to_le_bytes().to_vec()].concat())];
            let digest = digest_of(m, starting_chain(family, m, &[0; 64]), &list);
            let report = Report { number: 0, covered: 0, bits: 5, compressed: 1 };
            let made = (report, digest);
            at_once(m, &[], &[], last) == made && finished(&begin(m, &[]).1, last) == made
        });
        tally.value(&format!("digests of {} bits past whole bytes", odd % 8), right);
    }
}

/// One-shot, by the list of bits, and begin, add and finish, by bytes: every length from 0 to 260
/// bytes with so many last bits, in both families, salted and not, of other digest lengths.
fn both_ways(tally: &mut Tally) {
    let text: Vec<u8> = (0..400u32).map(|i| (i * 73 + i * i / 5) as u8).collect();
    for count in 0..8 {
        let right = (0..=260).all(|size| {
            [(0, 0), (0, 32), (256, 0), (256, 64)].iter().all(|&(first, salt_size)| {
                let m = first + 1 + (size * 31 + count as usize * 7) as u16 % 256;
                let salt = &text[300..300 + salt_size];
                let byte = text[size] & !(0xff >> count);
                let last = LastBits { byte, count };
                let state = after(m, salt, &text[..size / 2]);
                let state = add(&state, &text[size / 2..size]).1;
                let whole = at_once(m, salt, &text[..size], last);
                whole.0.number == 0 && finished(&state, last) == whole
            })
        });
        tally.value(&format!("both ways with {count} last bits"), right);
    }
}

/// Printed digests of whole bytes by way of the list of bits. The salted ones and the small
/// family's million-A ones were printed by other rules.
fn printed_at_once(tally: &mut Tally) {
    for entry in &TABLE {
        if let What::Digest { m, salted: false, message } = entry.what {
            if message == Message::MillionA && Family::of(m) == Small {
                continue;
            }
            let (report, buffer) = at_once(m, &[], &message.bytes(), LastBits::NONE);
            let words = entry.numbers();
            let bytes = words.iter().flat_map(|word| word.to_le_bytes());
            let right = report.bits == 0 && bytes.chain([0xff; 2]).eq(buffer);
            tally.value(&format!("{} at once", entry.label()), right);
        }
    }
}

/// The number of a refusal that writes nothing and reports nothing, else of an accepted call.
fn number_of(room: usize, call: impl Fn(&mut [u8]) -> Report) -> Option<u8> {
    let mut buffer = vec![0xff; room];
    let report = call(&mut buffer);
    let refused = Report { number: report.number, covered: 0, bits: 0, compressed: 0 };
    let clean = report == refused && buffer == vec![0xff; room];
    (report.number == 0 || clean).then_some(report.number)
}

/// Digest lengths that are allowed, their families, and states of the other family.
fn start_values(tally: &mut Tally) {
    for (m, number, family) in STARTS {
        let (given, state) = begin(m, &[]);
        let last = LastBits { byte: 0x60, count: 3 };
        let right = given == number
            && state.family == family
            && state.consistent() == (number == 0)
            && number_of(64, |out| one_shot(m, &[], &[], last, out)) == Some(number);
        let other = State { family: if family == Small { Large } else { Small }, ..state };
        let right = right && number_of(64, |out| finish(&other, last, out)) == Some(4);
        tally.value(&format!("start at {m} bits"), right);
    }
}

/// Whether, with so many last bits, just the bytes are accepted that these bits alone make up.
fn last_bytes_are(count: u8) -> bool {
    let state = begin(12, &[]).1;
    let made: Vec<u32> = match count {
        0..=7 => (0..1 << count).map(|bits| bits << (8 - count)).collect(),
        _ => Vec::new(),
    };
    (0..=255).all(|byte| {
        let last = LastBits { byte, count };
        let number = Some(if made.contains(&(byte as u32)) { 0 } else { 11 });
        number_of(2, |out| finish(&state, last, out)) == number
            && number_of(2, |out| one_shot(12, &[], &[], last, out)) == number
    })
}

fn allowed_values(tally: &mut Tally) {
    for count in 0..=9 {
        tally.value(&format!("last bytes with {count} bits"), last_bytes_are(count));
    }
    tally.value("last bytes with 10 to 255 bits", (10..=255).all(last_bytes_are));
}

/// The order of the refusals of finish and one-shot.
fn order_values(tally: &mut Tally) {
    for (index, (more, byte, count, room, number)) in FINISH_ORDER.into_iter().enumerate() {
        let state = after(12, &[], &[0xaa; 70]);
        let state = State { compressed: state.compressed + more, ..state };
        let right = number_of(room, |out| finish(&state, LastBits { byte, count }, out));
        tally.value(&format!("call {index} of finish"), right == Some(number));
    }
    for (index, (m, salt, byte, count, room, number)) in ONE_SHOT_ORDER.into_iter().enumerate() {
        let last = LastBits { byte, count };
        let right = number_of(room, |out| one_shot(m, &vec![3; salt], b"order", last, out));
        tally.value(&format!("call {index} of one-shot"), right == Some(number));
    }
}

/// Saved forms of broken digest lengths: the parameters by hand, and the run gone on with.
fn form_values(tally: &mut Tally) {
    let text = [0x5a; 200];
    let last = LastBits { byte: 0xc8, count: 5 };
    let parameters = [
        (1, "020000000100"),
        (255, "02000000ff00"),
        (257, "020001000101"),
        (263, "020001000701"),
        (511, "02000100ff01"),
    ];
    for (m, front) in parameters {
        let mut form = [0; 300];
        let state = after(m, &[], &text[..150]);
        let (number, size) = save(&state, &mut form);
        let (read_number, read) = load(&form[..size]);
        let right = (number, read_number) == (0, 0) && hex(&form[..6]) == front && read == state;
        let gone_on = add(&read, &text[150..]).1;
        let right = right && finished(&gone_on, last) == at_once(m, &[], &text, last);
        tally.value(&format!("form at {m} bits"), right);
    }
}

/// The example of a case file, and lines that are not readable.
fn line_values(tally: &mut Tally) {
    let state = state_text(&after(8, &[], b"A"));
    let digest = |byte, count| hex(&at_once(8, &[], b"A", LastBits { byte, count }).1[..1]);
    let expected = [
        format!("begin 0 {}", state_text(&begin(8, &[]).1)),
        format!("add 0 {state}"),
        format!("finish 0 1 0 1 {state} {}ff", digest(0, 0)),
        format!("finish 5 0 0 0 {state} -"),
        format!("finish 0 1 3 1 {state} {}ff", digest(0xa0, 3)),
        "oneshot 1 0 0 0 00".to_string(),
    ];
    let answers = answer_all(EXAMPLE.as_bytes());
    tally.value("the example of a case file", answers.lines().eq(expected));
    let right = LINES.iter().all(|line| answer_all(line.as_bytes()) == "unreadable\n");
    tally.value("lines of last bits that are not readable", right);
}

/// The `sum` mode at broken digest lengths.
fn sum_values(tally: &mut Tally) {
    for (m, digits) in [(1, 2), (255, 64), (257, 66), (511, 128)] {
        let digest = at_once(m, &[], b"sum", LastBits::NONE).1;
        let line = format!("{} 3 1\n", &hex(&digest)[..digits]);
        tally.value(&format!("sum at {m} bits"), sum::text(m, &[], b"sum") == line);
    }
    tally.value("sum at 0 bits", sum::text(0, &[], b"sum") == "refused 1\n");
}
