//! Cases of the places of refusals: cuts, counts, registers, leftovers. Where number and place are
//! asserted, they are worked out from the log's parts and not by its reader.

use crate::cases::Writer;
use crate::log::{check, RECORD_BYTES};
use crate::parts::{counted, Event, Parts, EVENT_BYTES, VALUE_BYTES};
use crate::random::Random;
use crate::samples::{longest, smallest};

/// Logs by salted or not, registers, events, claimed or not.
type Shape = (bool, usize, usize, bool);

const CUT_SHAPES: [Shape; 8] = [
    (false, 1, 0, false),
    (false, 1, 0, true),
    (true, 1, 1, true),
    (false, 2, 2, false),
    (true, 2, 3, true),
    (false, 3, 0, true),
    (true, 4, 0, false),
    (true, 1, 4, false),
];

const COUNT_SHAPES: [Shape; 4] =
    [(false, 1, 1, false), (true, 2, 2, true), (true, 3, 0, true), (false, 4, 1, false)];

const LEFTOVER_SHAPES: [Shape; 5] = [
    (false, 1, 0, false),
    (false, 1, 0, true),
    (true, 2, 1, false),
    (true, 2, 1, true),
    (false, 3, 2, true),
];

/// Counts not allowed in the first three sections: the smallest, the largest, the right ones with
/// another high byte or with their bytes swapped.
const NOT_ALLOWED: [&[usize]; 3] = [
    &[1, 2, 16, 31, 33, 63, 64, 255, 256, 288, 8192, 8224, 32_768, 65_280, 65_535],
    &[0, 25, 26, 32, 128, 255, 256, 257, 258, 280, 6144, 32_769, 65_280, 65_535],
    &[1025, 1026, 1279, 1280, 2048, 2049, 32_768, 65_280, 65_535],
];

pub fn write(w: &mut Writer) {
    // Numbers of their own, so that cases put behind these do not depend on them.
    let others = std::mem::replace(&mut w.random, Random::new(0x5afe_0006));
    w.comment("places: the state that stands before them stays");
    w.begin(256, &[]);
    w.add(b"before");
    shortest(w);
    cuts(w);
    cuts_among_forty(w);
    counts(w);
    count_bytes(w);
    cut_counts(w);
    claim_counts(w);
    other_counts(w);
    registers(w);
    registers_among_forty(w);
    cut_events(w);
    look_alikes(w);
    leftovers(w);
    faults_together(w);
    buffers(w);
    accepted_logs(w);
    long_logs(w);
    changed(w);
    w.comment("the state after the places");
    w.finish(32);
    w.random = others;
}

fn parts_of(w: &mut Writer, (salted, registers, events, claimed): Shape) -> Parts {
    let parts = Parts::random(&mut w.random, salted, registers, events);
    if claimed {
        parts.claimed()
    } else {
        parts
    }
}

/// Bytes of the records of a log.
fn room(parts: &Parts) -> usize {
    RECORD_BYTES * parts.start.len()
}

/// Where the count of each section stands.
fn count_places(parts: &Parts) -> [usize; 4] {
    let mut end = 0;
    parts.sections().map(|section| {
        let place = end;
        end += section.len();
        place
    })
}

/// Where the register of an event stands.
fn register_place(parts: &Parts, event: usize) -> usize {
    count_places(parts)[2] + 2 + EVENT_BYTES * event
}

/// The same parts with another register in one of the events.
fn renamed(parts: &Parts, event: usize, register: usize) -> Parts {
    let mut parts = parts.clone();
    parts.events[event].register = register as u16;
    parts
}

/// A check with a lent buffer of so many bytes whose number and place are known.
fn checked(w: &mut Writer, log: &[u8], size: usize, right: (u8, Option<usize>)) {
    let answer = check(log, &mut vec![0; size]);
    assert_eq!((answer.number, answer.place), right);
    w.check(log, size);
}

/// A refusal of the log's own.
fn refused(w: &mut Writer, log: &[u8], size: usize, number: u8, place: usize) {
    checked(w, log, size, (number, Some(place)));
}

/// The log cut to so many bytes.
fn cut(w: &mut Writer, log: &[u8], bytes: usize, size: usize) {
    refused(w, &log[..bytes], size, 6, bytes);
}

fn accepted(w: &mut Writer, parts: &Parts) {
    checked(w, &parts.bytes(), room(parts), (0, None));
}

fn shortest(w: &mut Writer) {
    w.comment("the empty log: cut at 0");
    for size in [0, 1, 33, 34, 816] {
        refused(w, &[], size, 6, 0);
    }
    w.comment("every log of one byte: cut at 1");
    for byte in 0..=255 {
        refused(w, &[byte], byte as usize % 2 * RECORD_BYTES, 6, 1);
    }
    w.comment("logs of two bytes: a salt's count with nothing behind it");
    for count in [0, 32] {
        refused(w, &counted(count), RECORD_BYTES, 6, 2);
    }
    for &count in NOT_ALLOWED[0] {
        refused(w, &counted(count), RECORD_BYTES, 7, 0);
    }
    w.comment("logs of three and four bytes: the count of the registers begun and whole");
    for byte in [0, 1, 24, 25, 255] {
        refused(w, &[0, 0, byte], RECORD_BYTES, 6, 3);
        refused(w, &[32, 0, byte], RECORD_BYTES, 6, 3);
        refused(w, &[31, 0, byte], RECORD_BYTES, 7, 0);
        let (number, place) = if [1, 24].contains(&byte) { (6, 4) } else { (7, 2) };
        refused(w, &[0, 0, byte, 0], RECORD_BYTES, number, place);
        refused(w, &[0, 0, byte, 1], RECORD_BYTES, 7, 2);
        refused(w, &[32, 0, byte, 1], RECORD_BYTES, 6, 4);
    }
    w.comment("nothing but zeros, nothing but ones");
    for bytes in [1, 2, 3, 4, 5, 40, 76] {
        let (number, place) = if bytes < 4 { (6, bytes) } else { (7, 2) };
        refused(w, &vec![0; bytes], RECORD_BYTES, number, place);
        let (number, place) = if bytes < 2 { (6, bytes) } else { (7, 0) };
        refused(w, &vec![0xff; bytes], RECORD_BYTES, number, place);
    }
}

fn cuts(w: &mut Writer) {
    for shape in CUT_SHAPES {
        w.comment("a log cut at every place: its size");
        let parts = parts_of(w, shape);
        let log = parts.bytes();
        for bytes in 0..log.len() {
            cut(w, &log, bytes, room(&parts));
        }
        accepted(w, &parts);
    }
}

fn cuts_among_forty(w: &mut Writer) {
    w.comment("a log of 40 events cut before each of them and inside it");
    let parts = parts_of(w, (false, 1, 40, false));
    let log = parts.bytes();
    for event in 0..40 {
        let start = register_place(&parts, event);
        cut(w, &log, start, room(&parts));
        cut(w, &log, start + 1 + 11 * event % 35, room(&parts));
    }
    cut(w, &log, log.len() - 2, room(&parts));
    accepted(w, &parts);
}

/// Counts not allowed in a section of a log of so many registers.
fn not_allowed(section: usize, registers: usize) -> Vec<usize> {
    if section < 3 {
        return NOT_ALLOWED[section].to_vec();
    }
    let near = [1, registers - 1, registers + 1, 23, 24, 25, 32 * registers, 255, 256];
    let high = [256 + registers, 256 * registers, 32_768 + registers, 65_280, 65_535];
    let mut counts = [&near[..], &high].concat();
    counts.sort();
    counts.dedup();
    counts.retain(|&count| count != 0 && count != registers);
    counts
}

fn counts(w: &mut Writer) {
    for shape in COUNT_SHAPES {
        w.comment("every count spoiled: its offset");
        let parts = parts_of(w, shape);
        for (section, place) in count_places(&parts).into_iter().enumerate() {
            for count in not_allowed(section, parts.start.len()) {
                refused(w, &parts.miscounted(section, count), room(&parts), 7, place);
            }
        }
    }
}

fn count_bytes(w: &mut Writer) {
    w.comment("the 40-byte log: every low byte of a count that is not allowed");
    let log = smallest();
    let with = |place: usize, byte: u8| {
        let mut log = log.clone();
        log[place] = byte;
        log
    };
    for byte in 0..=255 {
        if byte != 0 && byte != 32 {
            refused(w, &with(0, byte), RECORD_BYTES, 7, 0);
        }
        if byte == 0 || byte > 24 {
            refused(w, &with(2, byte), RECORD_BYTES, 7, 2);
        }
        if byte > 1 {
            refused(w, &with(38, byte), RECORD_BYTES, 7, 38);
        }
    }
    w.comment("the same with high bytes, the low byte being right");
    for byte in [1, 2, 3, 4, 5, 8, 16, 24, 32, 64, 127, 128, 129, 255] {
        for place in [0, 2, 36, 38] {
            // Up to 4 a high byte makes a number of events that is allowed.
            if place != 36 || byte > 4 {
                refused(w, &with(place + 1, byte), RECORD_BYTES, 7, place);
            }
        }
    }
}

fn cut_counts(w: &mut Writer) {
    w.comment("a cut before a count, in its first byte and behind it, the count being wrong");
    let parts = parts_of(w, (true, 2, 1, true));
    for (section, place) in count_places(&parts).into_iter().enumerate() {
        for count in not_allowed(section, 2) {
            let log = parts.miscounted(section, count);
            cut(w, &log, place + 1, room(&parts));
            refused(w, &log[..place + 2], room(&parts), 7, place);
        }
        let log = parts.miscounted(section, 65_535);
        cut(w, &log, place, room(&parts));
        refused(w, &log[..place + 3], room(&parts), 7, place);
    }
}

fn claim_counts(w: &mut Writer) {
    for registers in [1, 2, 3, 4] {
        w.comment("claims of another number than the registers', there and not there");
        let parts = parts_of(w, (false, registers, 0, false));
        let place = count_places(&parts)[3];
        let front = &parts.bytes()[..place];
        for count in (1..=registers + 2).chain([24, 25]).filter(|&count| count != registers) {
            let open = [front, &counted(count)].concat();
            refused(w, &open, room(&parts), 7, place);
            let claims = w.random.bytes(VALUE_BYTES * count.min(6));
            refused(w, &[open, claims].concat(), room(&parts), 7, place);
        }
        w.comment("as many claims as registers, but not all there");
        let open = [front, &counted(registers)].concat();
        refused(w, &open, room(&parts), 6, place + 2);
        let claims = w.random.bytes(VALUE_BYTES * registers - 1);
        let log = [open, claims].concat();
        refused(w, &log, room(&parts), 6, log.len());
    }
    w.comment("24 registers");
    let parts = parts_of(w, (true, 24, 0, false));
    for count in [1, 12, 23, 25, 256 + 24] {
        refused(w, &parts.miscounted(3, count), room(&parts), 7, 34 + 770 + 2);
    }
    refused(w, &parts.miscounted(3, 24), room(&parts), 6, 34 + 770 + 2 + 2);
}

/// Parts whose bytes are known, so that a section read at another place is too. No pair of bytes
/// that they are filled with is a count that is allowed.
fn plain(salted: bool, registers: usize, named: &[u16], claimed: bool) -> Parts {
    let salt = if salted { vec![0x51; 32] } else { vec![] };
    let event = |&register| Event { register, label: 0x7171, digest: [0x72; VALUE_BYTES] };
    let events = named.iter().map(event).collect();
    let claims = vec![[0x81; VALUE_BYTES]; if claimed { registers } else { 0 }];
    Parts { salt, start: vec![[0x61; VALUE_BYTES]; registers], events, claims }
}

fn other_counts(w: &mut Writer) {
    let salted = plain(true, 2, &[1, 0], true);
    let [_, start, events, claims] = count_places(&salted);
    let room = room(&salted);
    w.comment("counts that are allowed but not the log's own: what follows is read elsewhere");
    refused(w, &salted.miscounted(0, 0), room, 7, 2);
    refused(w, &plain(false, 2, &[1, 0], true).miscounted(0, 32), room, 7, 34);
    w.comment("fewer and more registers: the count of the events is read among other bytes");
    refused(w, &salted.miscounted(1, 1), room, 7, start + 34);
    refused(w, &salted.miscounted(1, 3), room, 7, start + 98);
    refused(w, &salted.miscounted(1, 6), room, 7, start + 194);
    let size = salted.bytes().len();
    refused(w, &salted.miscounted(1, 7), room, 6, size);
    refused(w, &salted.miscounted(1, 24), room, 6, size);
    w.comment("fewer events: the register of one, 1 or 0, is read as the count of the claims");
    refused(w, &salted.miscounted(2, 0), room, 7, events + 2);
    refused(w, &salted.miscounted(2, 1), room, 6, events + 2 + 36 + 2);
    let open = plain(false, 2, &[0, 0, 1], false);
    refused(w, &open.miscounted(2, 0), room, 6, 2 + 66 + 2 + 2);
    refused(w, &open.miscounted(2, 2), room, 7, 2 + 66 + 2 + 72);
    w.comment("more events: the count of the claims is read as the start of one, there or cut");
    refused(w, &salted.miscounted(2, 3), room, 8, claims);
    refused(w, &salted.miscounted(2, 1024), room, 8, claims);
    let size = open.bytes().len();
    refused(w, &open.miscounted(2, 4), room, 6, size);
    refused(w, &open.miscounted(2, 1024), room, 6, size);
    w.comment("claims that are not announced are left over; announced ones are missing");
    refused(w, &salted.miscounted(3, 0), room, 6, claims + 2);
    refused(w, &open.miscounted(3, 2), room, 6, size);
}

fn registers(w: &mut Writer) {
    for registers in 1..=4 {
        w.comment("registers that are not there in each event: the offset of the register's field");
        let parts = parts_of(w, (registers % 2 == 0, registers, registers, registers > 2));
        for event in 0..registers {
            let place = register_place(&parts, event);
            for register in [registers, registers + 1, 24, 255, 256, 257, 32_768, 65_535] {
                let log = renamed(&parts, event, register).bytes();
                refused(w, &log, room(&parts), 8, place);
            }
        }
    }
    w.comment("24 registers");
    let parts = parts_of(w, (true, 24, 2, false));
    for (event, register) in [(0, 24), (1, 25), (1, 256 + 23)] {
        let log = renamed(&parts, event, register).bytes();
        refused(w, &log, room(&parts), 8, 34 + 770 + 2 + 36 * event);
    }
}

fn registers_among_forty(w: &mut Writer) {
    w.comment("40 events: the register of each spoiled");
    let parts = parts_of(w, (false, 2, 40, false));
    accepted(w, &parts);
    for event in 0..40 {
        for register in [2, 3, 255, 256, 65_535] {
            let log = renamed(&parts, event, register).bytes();
            refused(w, &log, room(&parts), 8, 70 + 36 * event);
        }
    }
    w.comment("two of them spoiled: the first is named");
    for first in 0..39 {
        let second = first + 1 + w.random.below(39 - first);
        let log = renamed(&renamed(&parts, second, 65_535), first, 2).bytes();
        refused(w, &log, room(&parts), 8, 70 + 36 * first);
    }
    w.comment("all of them spoiled, then all but the first");
    let mut all = parts.clone();
    for event in &mut all.events {
        event.register = 2;
    }
    refused(w, &all.bytes(), room(&parts), 8, 70);
    refused(w, &renamed(&all, 0, 1).bytes(), room(&parts), 8, 106);
}

fn cut_events(w: &mut Writer) {
    w.comment("an event whose register is not there, cut at every place and behind it");
    let parts = parts_of(w, (true, 2, 3, true));
    for event in 0..3 {
        let log = renamed(&parts, event, [2, 256, 65_535][event]).bytes();
        let place = register_place(&parts, event);
        for bytes in place..place + EVENT_BYTES {
            cut(w, &log, bytes, room(&parts));
        }
        for more in [0, 1, 2, 35] {
            refused(w, &log[..place + EVENT_BYTES + more], room(&parts), 8, place);
        }
    }
}

fn look_alikes(w: &mut Writer) {
    w.comment("labels that look like registers that are not there: no place");
    let parts = parts_of(w, (false, 2, 3, false));
    for label in [2, 3, 24, 255, 256, 65_535] {
        let mut labelled = parts.clone();
        for event in &mut labelled.events {
            event.label = label;
        }
        accepted(w, &labelled);
        // The label is right for a register, the register is not.
        labelled.events[1].register = label;
        labelled.events[1].label = 1;
        refused(w, &labelled.bytes(), room(&parts), 8, 70 + 36);
    }
    w.comment("salts, registers and digests that look like counts and registers not allowed");
    let filled = |byte: u8| {
        let digest = [byte; VALUE_BYTES];
        let events = (0..3).map(|register| Event { register, label: 0xffff, digest }).collect();
        Parts { salt: vec![byte; 32], start: vec![digest; 3], events, claims: vec![digest; 3] }
    };
    for byte in [0, 3, 31, 255] {
        let parts = filled(byte);
        accepted(w, &parts);
        refused(w, &renamed(&parts, 2, 3).bytes(), room(&parts), 8, 34 + 98 + 2 + 72);
        refused(w, &parts.miscounted(3, 2), room(&parts), 7, 34 + 98 + 2 + 108);
    }
}

/// Bytes that would be a further section or several.
fn further(parts: &Parts) -> Vec<Vec<u8>> {
    let [salt, start, events, claims] = parts.sections();
    let log = parts.bytes();
    vec![salt, start, events, claims, log, smallest(), counted(65_535)]
}

fn leftovers(w: &mut Writer) {
    for shape in LEFTOVER_SHAPES {
        w.comment("leftovers: the first extra byte");
        let parts = parts_of(w, shape);
        let log = parts.bytes();
        let mut extra: Vec<Vec<u8>> = [1, 2, 40].map(|bytes| w.random.bytes(bytes)).into();
        extra.extend([1, 2, 40].map(|bytes| vec![0; bytes]));
        extra.extend([1, 2, 40].map(|bytes| vec![0xff; bytes]));
        extra.extend(further(&parts));
        for more in extra {
            refused(w, &[&log[..], &more].concat(), room(&parts), 6, log.len());
        }
        accepted(w, &parts);
    }
    w.comment("leftovers of 1 to 41 bytes");
    for bytes in 1..=41 {
        let more = w.random.bytes(bytes);
        refused(w, &[smallest(), more].concat(), RECORD_BYTES, 6, 40);
    }
}

/// The faults of a salted log of 2 registers, 2 events and claims, in reading order.
const FAULTS: [(u8, usize); 6] = [(7, 0), (7, 34), (7, 100), (8, 102), (8, 138), (7, 174)];

/// Bytes of that log.
const WHOLE: usize = 240;

/// The log with the faults whose bits are set, cut or lengthened to so many bytes.
fn with_faults(parts: &Parts, faults: usize, bytes: usize) -> Vec<u8> {
    let mut log = parts.bytes();
    for (fault, &(_, place)) in FAULTS.iter().enumerate() {
        if faults >> fault & 1 == 1 {
            log[place + 1] = 0xf0;
        }
    }
    log.resize(bytes, 0);
    log
}

fn faults_together(w: &mut Writer) {
    w.comment("every set of faults, the log whole, cut or with leftovers: the first is named");
    let parts = parts_of(w, (true, 2, 2, true));
    for faults in 0..1usize << FAULTS.len() {
        for bytes in [WHOLE, WHOLE - 1, WHOLE + 1] {
            let first = FAULTS.get(faults.trailing_zeros() as usize);
            let right = match first {
                Some(&(number, place)) => (number, Some(place)),
                None if bytes == WHOLE => (0, None),
                None => (6, Some(bytes.min(WHOLE))),
            };
            checked(w, &with_faults(&parts, faults, bytes), room(&parts), right);
        }
    }
}

fn buffers(w: &mut Writer) {
    w.comment("short buffers beside each refusal: the log's own keeps its number and its place");
    let parts = parts_of(w, (true, 2, 2, true));
    for size in [0, 1, 34, 64, 67] {
        for (fault, (number, place)) in FAULTS.into_iter().enumerate() {
            let log = with_faults(&parts, 1 << fault, WHOLE);
            refused(w, &log, size, number, place);
        }
        for bytes in [0, 1, 33, 35, 100, 140, 175, WHOLE - 1] {
            cut(w, &parts.bytes(), bytes, size);
        }
        for more in [1, 2, 40] {
            refused(w, &with_faults(&parts, 0, WHOLE + more), size, 6, WHOLE);
        }
    }
    w.comment("short buffers alone: no place");
    for registers in 1..=6 {
        let parts = parts_of(w, (false, registers, 1, registers % 2 == 0));
        for size in [0, 1, VALUE_BYTES * registers, room(&parts) - 1] {
            checked(w, &parts.bytes(), size, (5, None));
        }
        accepted(w, &parts);
    }
}

fn accepted_logs(w: &mut Writer) {
    w.comment("accepted logs with each verdict: no place");
    for turn in 0..24 {
        let shape = (turn % 2 == 0, 1 + turn % 4, w.random.below(4), turn % 3 > 0);
        let mut parts = parts_of(w, shape);
        if turn % 3 == 2 {
            let register = w.random.below(parts.claims.len());
            parts.claims[register][turn] ^= 1;
        }
        accepted(w, &parts);
    }
}

fn long_logs(w: &mut Writer) {
    w.comment("the longest log, one byte less, one byte more");
    let (log, room) = (longest(), 24 * RECORD_BYTES);
    checked(w, &log, room, (0, None));
    cut(w, &log, 38_439, room);
    refused(w, &[&log[..], &[0]].concat(), room, 6, 38_440);
    w.comment("the longest log, the count of its claims spoiled, then its last register too");
    let mut spoiled = log.clone();
    spoiled[37_671] = 1;
    refused(w, &spoiled, room, 7, 37_670);
    spoiled[37_634] = 24;
    refused(w, &spoiled, room, 8, 37_634);
    w.comment("40,000 bytes: the longest log in front, the 40-byte log in front");
    for front in [log, smallest()] {
        let mut longer = front.clone();
        longer.resize(40_000, 0);
        refused(w, &longer, room, 6, front.len());
    }
}

fn changed(w: &mut Writer) {
    w.comment("every bit of the counts and of the registers changed");
    let parts = parts_of(w, (true, 3, 2, true));
    let log = parts.bytes();
    let fields = [count_places(&parts).to_vec(), vec![134, 170]].concat();
    for field in fields {
        for bit in 0..16 {
            let mut changed = log.clone();
            changed[field + bit / 8] ^= 1 << (bit % 8);
            w.check(&changed, room(&parts));
        }
    }
    w.comment("a byte changed and the log cut or lengthened behind it");
    for _ in 0..120 {
        let place = w.random.below(log.len());
        let byte = w.random.one_of(&[0, 1, 2, 3, 24, 32, 255]);
        let bytes = w.random.one_of(&[place + 1, place + 2, place + 36, log.len(), log.len() + 2]);
        let mut changed = log.clone();
        changed[place] = byte;
        changed.resize(bytes, 0);
        w.check(&changed, room(&parts));
    }
}
