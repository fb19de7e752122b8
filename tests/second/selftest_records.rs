//! Comparison of the check's records with values by one-shot and numbers by hand, with printed texts
//! written out, with the samples and with the logger's claims.

use crate::digest::{one_shot, LastBits};
use crate::lines::{answer_all, hex};
use crate::log::{check, printed_check, Answer, Verdict};
use crate::parts::{contents, Event, Parts};
use crate::random::Random;
use crate::samples;
use crate::selftest::Tally;
use crate::write::{log_of, Lent};

/// What is printed for `printed_log`, written out. The two digests are lines of `sum` over the 64
/// bytes of old value and component, which goes by begin, add and finish.
const PRINTED: &str = "accepted 3 3 6 noclaim\n\
    0 1 3652778b03e288f0b814c72ea4a0a9f25e866830e9ccbff32886667a8e6bc14d\n\
    1 0 1111111111111111111111111111111111111111111111111111111111111111\n\
    2 2 4cc0efba0ef98626865458b4153e1ac06bca4a4be2efc0f5dee00fd7063ba012\n";

/// The samples: the first line printed, and the extensions of each register, counted in the file.
const SAMPLES: [(&str, &str, &[usize]); 15] = [
    ("empty.log", "refused 6 at 0", &[]),
    ("smallest.log", "accepted 1 0 0 noclaim", &[0]),
    ("noclaim.log", "accepted 3 5 10 noclaim", &[0, 3, 2]),
    ("agrees.log", "accepted 4 9 18 agrees", &[3, 0, 2, 4]),
    ("differs.log", "accepted 6 20 40 differs 3", &[2, 2, 1, 8, 3, 4]),
    ("cut.log", "refused 6 at 581", &[]),
    ("cut_event.log", "refused 6 at 260", &[]),
    ("leftover.log", "refused 6 at 588", &[]),
    ("salt_count.log", "refused 7 at 0", &[]),
    ("count.log", "refused 7 at 34", &[]),
    ("event_count.log", "refused 7 at 132", &[]),
    ("claim_count.log", "refused 7 at 458", &[]),
    ("register.log", "refused 8 at 206", &[]),
    ("longest.log", "accepted 24 1024 2048 agrees", &LONGEST_EXTENSIONS),
    ("too_long.log", "refused 6 at 38440", &[]),
];

const LONGEST_EXTENSIONS: [usize; 24] = [
    47, 52, 57, 41, 38, 43, 49, 43, 36, 36, 45, 50, 46, 28, 42, 32, 49, 33, 46, 43, 45, 42, 43, 38,
];

/// Extensions of one register and the last 2 bytes of its record.
const NUMBERS: [(usize, [u8; 2]); 9] = [
    (0, [0, 0]),
    (1, [1, 0]),
    (255, [255, 0]),
    (256, [0, 1]),
    (257, [1, 1]),
    (512, [0, 2]),
    (767, [255, 2]),
    (1023, [255, 3]),
    (1024, [0, 4]),
];

/// Bytes of a buffer for so many registers, and the number that the check answers.
const BUFFERS: [(&str, fn(usize) -> usize, u8); 9] = [
    ("0", |_| 0, 5),
    ("32R - 1", |registers| 32 * registers - 1, 5),
    ("32R", |registers| 32 * registers, 5),
    ("33R", |registers| 33 * registers, 5),
    ("34R - 1", |registers| 34 * registers - 1, 5),
    ("34R", |registers| 34 * registers, 0),
    ("34R + 1", |registers| 34 * registers + 1, 0),
    ("35R", |registers| 35 * registers, 0),
    ("34R + 5000", |registers| 34 * registers + 5000, 0),
];

pub fn record_values(tally: &mut Tally) {
    records_by_hand(tally);
    printed_values(tally);
    sample_values(tally);
    number_values(tally);
    buffer_values(tally);
    order_values(tally);
    line_values(tally);
    verdict_values(tally);
    place_values(tally);
}

/// The values of records joined, and the numbers of extensions.
pub fn columns(records: &[u8]) -> (Vec<u8>, Vec<usize>) {
    let values = records.chunks(34).flat_map(|record| record[..32].to_vec()).collect();
    let number = |record: &[u8]| record[32] as usize + 256 * record[33] as usize;
    (values, records.chunks(34).map(number).collect())
}

/// How many of the events name each register: one tally filled in a single pass, while the check
/// goes through the events once for each register.
pub fn tallied(events: &[u8], registers: usize) -> Vec<usize> {
    let mut extensions = vec![0; registers];
    for event in events.chunks(36) {
        extensions[event[0] as usize + 256 * event[1] as usize] += 1;
    }
    extensions
}

/// The check's answer and the buffer afterwards; before, it is all AA hex.
fn checked(log: &[u8], room: usize) -> (Answer, Vec<u8>) {
    let mut buffer = vec![0xaa; room];
    let answer = check(log, &mut buffer);
    (answer, buffer)
}

/// The number of a refusal that writes nothing and answers zero for the rest; else none.
fn refusal(log: &[u8], room: usize) -> Option<u8> {
    let (answer, buffer) = checked(log, room);
    let verdict = Verdict::NoClaim;
    let refused = Answer { registers: 0, events: 0, blocks: 0, verdict, ..answer };
    (answer == refused && buffer == vec![0xaa; room]).then_some(answer.number)
}

/// The value that the components, each 32 equal bytes, extend a value of 32 equal bytes to.
fn value_after(salt: &[u8], start: u8, components: &[u8]) -> Vec<u8> {
    components.iter().fold(vec![start; 32], |old, &component| {
        let mut value = vec![0; 32];
        let message = [old, vec![component; 32]].concat();
        one_shot(256, salt, &message, LastBits::NONE, &mut value);
        value
    })
}

fn event(register: usize, component: u8) -> Event {
    Event { register: register as u16, label: 0x0102, digest: [component; 32] }
}

/// The byte that a register starts as: 00, 11, 22 and so on, another one for each.
fn start_byte(register: usize) -> u8 {
    (0x11 * register % 256) as u8
}

/// A log of such registers and of these events: each a register and the byte of a component.
fn parts_of(salt: &[u8], registers: usize, events: &[(usize, u8)]) -> Parts {
    let start = (0..registers).map(|register| [start_byte(register); 32]).collect();
    let events = events.iter().map(|&(register, component)| event(register, component)).collect();
    Parts { salt: salt.to_vec(), start, events, claims: Vec::new() }
}

/// Four events of registers 2, 0, 2, 2: one, none and three extensions.
fn records_by_hand(tally: &mut Tally) {
    for salt in [&[][..], &[0x99; 32]] {
        let parts = parts_of(salt, 3, &[(2, 0x44), (0, 0x55), (2, 0x66), (2, 0x77)]);
        let records = [
            &value_after(salt, 0x00, &[0x55])[..],
            &[1, 0],
            &[0x11; 32],
            &[0, 0],
            &value_after(salt, 0x22, &[0x44, 0x66, 0x77]),
            &[3, 0],
            &[0xaa; 9],
        ];
        let (answer, buffer) = checked(&parts.bytes(), 3 * 34 + 9);
        let right = (answer.number, answer.registers, answer.events, answer.blocks) == (0, 3, 4, 8);
        let label = format!("records by hand, salt of {} bytes", salt.len());
        tally.value(&label, right && buffer == records.concat());
    }
}

/// The log that `PRINTED` is printed for: one event of register 0, two of register 2.
fn printed_log() -> Vec<u8> {
    let pieces: [&[u8]; 13] = [
        &[0, 0],
        &[3, 0],
        &[0; 32],
        &[0x11; 32],
        &[0x22; 32],
        &[3, 0],
        &[2, 0, 0, 0],
        &[0x44; 32],
        &[0, 0, 2, 0],
        &[0x33; 32],
        &[2, 0, 1, 0],
        &[0x55; 32],
        &[0, 0],
    ];
    pieces.concat()
}

/// Printed texts: one written out, numbers of four digits, registers of two.
fn printed_values(tally: &mut Tally) {
    tally.value("a printed log of three events", printed_check(&printed_log()) == PRINTED);
    let parts = parts_of(&[], 24, &[(10, 1); 1024]);
    let mut text = "accepted 24 1024 2048 noclaim\n".to_string();
    for register in 0..24 {
        let number = if register == 10 { 1024 } else { 0 };
        let value = value_after(&[], start_byte(register), &vec![1; number]);
        text += &format!("{register} {number} {}\n", hex(&value));
    }
    tally.value("a printed log of 1,024 events", printed_check(&parts.bytes()) == text);
}

/// A printed register: number, extensions, value.
type Line = (usize, usize, String);

/// The first line printed for a log, and the words of the others; none where they are not three.
fn printed_lines(log: &[u8]) -> Option<(String, Vec<Line>)> {
    let text = printed_check(log);
    let mut lines = text.strip_suffix('\n')?.split('\n');
    let first = lines.next()?.to_string();
    let registers = lines.map(|line| {
        let words: Vec<&str> = line.split(' ').collect();
        let [register, extensions, value] = words[..] else {
            return None;
        };
        Some((register.parse().ok()?, extensions.parse().ok()?, value.to_string()))
    });
    Some((first, registers.collect::<Option<_>>()?))
}

/// The samples: the lines printed, the sum of the extensions, the records.
fn sample_values(tally: &mut Tally) {
    for (name, first, extensions) in SAMPLES {
        let log = samples::named(name);
        let (line, registers) = printed_lines(&log).unwrap_or_default();
        let numbers = registers.iter().map(|(register, number, _)| (*register, *number));
        let right = line == first && numbers.eq(extensions.iter().copied().enumerate());
        tally.value(&format!("extensions printed for {name}"), right);
        if first.starts_with("accepted") {
            let sum: usize = registers.iter().map(|(_, number, _)| number).sum();
            let right = 36 * sum == contents(&log)[2].len();
            tally.value(&format!("sum of the extensions of {name}"), right);
            let values: String = registers.iter().map(|(_, _, value)| value.as_str()).collect();
            tally.value(&format!("records of {name}"), records_are(&log, extensions, &values));
        }
    }
}

/// Whether the records of a log hold these numbers, and these values in hex, which are the claims
/// that the logger writes from the same parts.
fn records_are(log: &[u8], extensions: &[usize], values: &str) -> bool {
    let [salt, registers, events, _] = contents(log);
    let claimed = log_of(&Lent { salt, registers, events, claims: true });
    let claims = claimed.map(|log| contents(&log)[3].clone()).unwrap_or_default();
    let (_, records) = checked(log, 34 * extensions.len());
    hex(&claims) == values && columns(&records) == (claims, extensions.to_vec())
}

/// Numbers of one and two bytes, of the only register and of one of 24.
fn number_values(tally: &mut Tally) {
    for (number, bytes) in NUMBERS {
        let components: Vec<u8> = (0..number).map(|turn| (turn % 251) as u8).collect();
        let right = [(1, 0), (24, 0), (24, 12), (24, 23)].iter().all(|&(registers, register)| {
            let event = |&component: &u8| (register, component);
            let events: Vec<(usize, u8)> = components.iter().map(event).collect();
            let (answer, records) =
                checked(&parts_of(&[], registers, &events).bytes(), 34 * registers);
            (answer.number, answer.events) == (0, number)
                && records == one_extended(registers, register, &components, bytes)
        });
        tally.value(&format!("{number} extensions of one register"), right);
    }
}

/// The records where one register was extended by these components and the others never.
fn one_extended(registers: usize, register: usize, components: &[u8], number: [u8; 2]) -> Vec<u8> {
    let record = |other: usize| {
        let start = start_byte(other);
        if other == register {
            [value_after(&[], start, components), number.to_vec()].concat()
        } else {
            [vec![start; 32], vec![0, 0]].concat()
        }
    };
    (0..registers).flat_map(record).collect()
}

/// Buffers of all sizes for every number of registers: what is written past the records, and that a
/// refusal writes nothing.
fn buffer_values(tally: &mut Tally) {
    for (label, room, number) in BUFFERS {
        let right = (1..=24).all(|registers| {
            let log = parts_of(&[], registers, &[(registers - 1, 7), (0, 8)]).bytes();
            let room = room(registers);
            if number != 0 {
                return refusal(&log, room) == Some(number);
            }
            let (answer, buffer) = checked(&log, room);
            let (_, exact) = checked(&log, 34 * registers);
            let untouched = vec![0xaa; room - 34 * registers];
            (answer.number, answer.registers) == (0, registers)
                && buffer == [exact, untouched].concat()
        });
        tally.value(&format!("buffers of {label} bytes"), right);
    }
}

/// The log's own refusals before 5, with buffers that are short and with one that is not.
fn order_values(tally: &mut Tally) {
    let parts = parts_of(&[0x99; 32], 2, &[(0, 1), (1, 2)]).claimed();
    let log = parts.bytes();
    let mut outside = parts.clone();
    outside.events[1].register = 2;
    let mut count = log.clone();
    count[34] = 25;
    let logs = [
        ("a cut log", log[..log.len() - 1].to_vec(), 6, 6),
        ("leftovers", [&log[..], &[0]].concat(), 6, 6),
        ("a count not allowed", count, 7, 7),
        ("a register not there", outside.bytes(), 8, 8),
        ("nothing else", log, 5, 0),
    ];
    for (label, log, short, enough) in logs {
        let right = [0, 64, 66, 67].iter().all(|&room| refusal(&log, room) == Some(short));
        let right = right && checked(&log, 68).0.number == enough;
        tally.value(&format!("short buffers and {label}"), right);
    }
}

/// Lines of a case file and their answers, written out.
fn line_values(tally: &mut Tally) {
    let zeros = |count: usize| "00".repeat(count);
    let log = format!("00000100{}00000000", zeros(32));
    let line = |room: usize| answer_all(format!("check {log} {}\n", "ff".repeat(room)).as_bytes());
    let right = line(36) == format!("check 0 0 1 0 0 noclaim {}ffff\n", zeros(34));
    tally.value("a check line with room", right);
    let right = line(33) == format!("check 5 0 0 0 0 noclaim {}\n", "ff".repeat(33));
    tally.value("a check line without room", right);
}

/// The verdict of a log that is accepted with room for its records alone.
fn verdict(parts: &Parts) -> Option<Verdict> {
    let (answer, _) = checked(&parts.bytes(), 34 * parts.start.len());
    (answer.number == 0).then_some(answer.verdict)
}

/// Values decide, not numbers; and claims stand 32 bytes apart.
fn verdict_values(tally: &mut Tally) {
    let long = parts_of(&[], 2, &[(0, 5), (1, 6), (0, 7)]).claimed();
    let start = vec![value_after(&[], 0, &[5]).try_into().expect("32 bytes"), long.start[1]];
    let short = Parts { start, events: long.events[1..].to_vec(), ..long.clone() };
    let numbers = [&long, &short].map(|parts| columns(&parts.records()).1);
    let right = numbers == [vec![2, 1], vec![1, 1]]
        && [&long, &short].iter().all(|parts| verdict(parts) == Some(Verdict::Agrees));
    tally.value("the same claims after one extension less", right);

    let mut other = long.clone();
    other.events[1].digest[31] ^= 1;
    let right = columns(&other.records()).1 == [2, 1];
    let right = right && verdict(&other) == Some(Verdict::Differs(1));
    tally.value("other values, the same numbers", right);

    let records = [&long.claims[0][..], &[2, 0], &long.claims[1], &[1, 0]].concat();
    let claims = [0, 32].map(|place| records[place..place + 32].try_into().expect("32 bytes"));
    let shifted = Parts { claims: claims.to_vec(), ..long };
    tally.value("claims at a stride of 34", verdict(&shifted) == Some(Verdict::Differs(1)));
}

/// The same digests for a register among other events: the same record, for every register.
fn place_values(tally: &mut Tally) {
    let mut random = Random::new(29);
    let right = (0..24).all(|register| {
        let parts = Parts::random(&mut random, true, 24, 60);
        let own = |event: &Event| event.register as usize == register;
        let mut first = parts.clone();
        first.events.sort_by_key(|event| !own(event));
        let mut alone = parts.clone();
        alone.events.retain(own);
        let record = |parts: &Parts| parts.records()[34 * register..34 * register + 34].to_vec();
        record(&parts) == record(&first) && record(&parts) == record(&alone)
    });
    tally.value("the same digests at other places", right);
}
