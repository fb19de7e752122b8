//! Cases of the logger: logs written and then checked, its refusals and their order.

use crate::cases::Writer;
use crate::lines::{hex, write_text, LINE_MOST};
use crate::log::RECORD_BYTES;
use crate::parts::{contents, Parts, VALUE_BYTES};
use crate::random::Random;
use crate::samples;
use crate::write::{log_of, write_log, Lent};

const WISHES: [bool; 2] = [false, true];

/// Room for a salted log of 2 registers and 3 events, claims included, and more.
const ROOM: usize = 280;

pub fn write(w: &mut Writer) {
    // Numbers of their own, so that cases put behind these do not depend on them.
    let others = std::mem::replace(&mut w.random, Random::new(0x5afe_0003));
    w.comment("the logger: the state that stands before it stays");
    w.begin(256, &[]);
    w.add(b"before");
    smallest(w);
    salts(w);
    register_counts(w);
    register_sizes(w);
    event_sizes(w);
    event_registers(w);
    w.finish(32);
    starts(w);
    labels(w);
    event_orders(w);
    buffers(w);
    orders(w);
    w.finish(33);
    written_again(w);
    random_ones(w);
    long_logs(w);
    unreadable(w);
    line_limit(w);
    w.comment("the state after the logger");
    w.add(b"after");
    w.save(ROOM);
    w.finish(32);
    w.random = others;
}

/// Random parts of a log, salted or not.
fn some_parts(w: &mut Writer, registers: usize, events: usize) -> Parts {
    let salted = w.coin();
    Parts::random(&mut w.random, salted, registers, events)
}

fn some(w: &mut Writer, registers: usize, events: usize, claims: bool) -> Lent {
    Lent::of(&some_parts(w, registers, events), claims)
}

/// Bytes of the records that the check stores for the log written.
fn record_room(lent: &Lent) -> usize {
    RECORD_BYTES * (lent.registers.len() / VALUE_BYTES)
}

/// A log written into a buffer that has so many bytes more than it, then checked: mostly with room
/// for its records alone, else with more; now and then once more with one byte less.
fn written(w: &mut Writer, lent: &Lent, more: usize) {
    let exact = record_room(lent);
    let room = w.random.one_of(&[exact, exact, exact, exact, exact + 1, exact + 40]);
    let log = written_and_checked(w, lent, more, room);
    if w.random.below(7) == 0 {
        w.check(&log, exact - 1);
    }
}

/// The log that was written and checked.
fn written_and_checked(w: &mut Writer, lent: &Lent, more: usize, check_room: usize) -> Vec<u8> {
    let log = log_of(lent).expect("parts of a log");
    w.write(lent, log.len() + more);
    w.check(&log, check_room);
    log
}

/// A call that is refused with this number.
fn refused(w: &mut Writer, lent: &Lent, buffer_size: usize, number: u8) {
    assert_eq!(write_log(lent, &mut vec![0; buffer_size]), (number, 0));
    w.write(lent, buffer_size);
}

fn smallest(w: &mut Writer) {
    w.comment("the log of 40 bytes, and the same with a claim");
    for claims in WISHES {
        let lent = Lent { salt: vec![], registers: vec![0; 32], events: vec![], claims };
        let exact = if claims { 72 } else { 40 };
        refused(w, &lent, 0, 5);
        refused(w, &lent, exact - 1, 5);
        for more in [0, 1, 30] {
            written(w, &lent, more);
        }
    }
    w.comment("nothing at all");
    for claims in WISHES {
        let lent = Lent { salt: vec![], registers: vec![], events: vec![], claims };
        refused(w, &lent, 0, 7);
        refused(w, &lent, 8, 7);
    }
}

fn salts(w: &mut Writer) {
    w.comment("salts of every kind");
    let parts = Parts::random(&mut w.random, false, 2, 2);
    for size in [0, 32] {
        for claims in WISHES {
            let lent = Lent { salt: w.random.bytes(size), ..Lent::of(&parts, claims) };
            written(w, &lent, 0);
        }
    }
    for (turn, size) in [1, 2, 16, 31, 33, 63, 64, 65, 256, 288].into_iter().enumerate() {
        let lent = Lent { salt: w.random.bytes(size), ..Lent::of(&parts, turn % 2 == 0) };
        refused(w, &lent, ROOM, 2);
    }
    w.comment("the all-zero salt in full: the claims of no salt in a longer log");
    let lent = Lent { salt: vec![0; 32], ..Lent::of(&parts, true) };
    written(w, &lent, 0);
}

fn register_counts(w: &mut Writer) {
    w.comment("every number of registers");
    for registers in 1..=24 {
        let lent = some(w, registers, registers % 4, registers % 8 == 0);
        written(w, &lent, registers % 3);
    }
    w.comment("1 register and 3, with claims");
    for registers in [1, 3] {
        let lent = some(w, registers, 2, true);
        written(w, &lent, 0);
    }
}

fn register_sizes(w: &mut Writer) {
    w.comment("no registers, broken ones, too many");
    let right = some(w, 1, 1, false);
    for size in [0, 1, 2, 16, 31, 33, 63, 65, 95, 97, 767, 769, 799, 800, 801, 832] {
        let lent = Lent { registers: w.random.bytes(size), ..right.clone() };
        refused(w, &lent, 110, 7);
    }
    for size in [0, 31, 33, 800] {
        let registers = w.random.bytes(size);
        let lent = Lent { registers, events: vec![], claims: true, ..right.clone() };
        refused(w, &lent, 2 * size + 40, 7);
    }
    w.comment("257 registers, whose count has a low byte of 1");
    let lent = Lent { registers: w.random.bytes(257 * VALUE_BYTES), ..right };
    refused(w, &lent, 200, 7);
}

fn event_sizes(w: &mut Writer) {
    w.comment("no events, one, two; with 24 registers too");
    for events in [0, 1, 2] {
        for claims in WISHES {
            let lent = some(w, 2, events, claims);
            written(w, &lent, 0);
        }
    }
    let lent = some(w, 24, 0, false);
    written(w, &lent, 0);
    w.comment("broken events");
    for size in [1, 2, 3, 4, 32, 35, 37, 40, 71, 73, 107, 109] {
        let mut lent = some(w, 2, 4, size % 2 == 0);
        lent.events.truncate(size);
        refused(w, &lent, ROOM, 7);
    }
}

/// Parts whose event at this place names this register.
fn named(w: &mut Writer, registers: usize, place: usize, register: usize) -> Parts {
    let mut parts = some_parts(w, registers, 3);
    parts.events[place].register = register as u16;
    parts
}

fn event_registers(w: &mut Writer) {
    for registers in [1, 2, 24] {
        w.comment("the last register, and registers that are not there, in each place");
        for place in 0..3 {
            let claims = (place + registers) % 2 == 0;
            if registers < 24 || place == 2 {
                let last = named(w, registers, place, registers - 1);
                written(w, &Lent::of(&last, claims), 0);
            }
            let outside = [registers, 256, 65_535];
            // 24 registers make long lines: one of these each place, and no room for the log.
            let (outside, room) = match registers {
                24 => (&outside[place..=place], 70),
                _ => (&outside[..], ROOM),
            };
            for &register in outside {
                let wrong = named(w, registers, place, register);
                refused(w, &Lent::of(&wrong, claims), room, 8);
            }
        }
    }
    w.comment("other registers that are not there");
    for register in [3, 23, 24, 25, 255, 257, 0x0200, 0x0100 + 24, 0x8000, 0xff00, 0xff01] {
        let wrong = named(w, 2, register % 3, register);
        refused(w, &Lent::of(&wrong, register % 2 == 0), ROOM, 8);
    }
    w.comment("24 registers and one that is not there, with room for the whole log");
    let wrong = named(w, 24, 2, 24);
    refused(w, &Lent::of(&wrong, true), 1700, 8);
    w.comment("a register that is there under a label that looks like one that is not, and back");
    let mut parts = some_parts(w, 3, 3);
    for event in &mut parts.events {
        event.label = 3;
    }
    written(w, &Lent::of(&parts, true), 0);
    parts.events[1].register = 3;
    parts.events[1].label = 1;
    refused(w, &Lent::of(&parts, true), ROOM, 8);
}

fn starts(w: &mut Writer) {
    w.comment("equal starting registers, and all-zero and all-one ones");
    let mut parts = some_parts(w, 4, 6);
    parts.start = vec![parts.start[0]; 4];
    written(w, &Lent::of(&parts, true), 0);
    parts.start = vec![[0; 32], [0xff; 32], [0; 32], [0xff; 32]];
    written(w, &Lent::of(&parts, true), 1);
    written(w, &Lent::of(&parts, false), 0);
    w.comment("many events of one register, the others never extended");
    for register in [0, 1, 2] {
        let mut parts = some_parts(w, 3, 7);
        for event in &mut parts.events {
            event.register = register;
        }
        written(w, &Lent::of(&parts, true), 0);
    }
    w.comment("one event seven times, and digests of zeros and of ones");
    let mut parts = some_parts(w, 2, 1);
    parts.events = vec![parts.events[0].clone(); 7];
    written(w, &Lent::of(&parts, true), 0);
    parts.events[2].digest = [0; 32];
    parts.events[4].digest = [0xff; 32];
    written(w, &Lent::of(&parts, true), 0);
}

fn labels(w: &mut Writer) {
    w.comment("labels of all kinds: the claims are the same");
    let parts = some_parts(w, 2, 3);
    for label in [0, 1, 2, 24, 255, 256, 0x0102, 0x8000, 65_535] {
        let mut labelled = parts.clone();
        for event in &mut labelled.events {
            event.label = label;
        }
        written(w, &Lent::of(&labelled, label % 3 != 2), 0);
    }
}

fn event_orders(w: &mut Writer) {
    w.comment("events of other registers moved, then all reversed, then the last two left out");
    let mut parts = some_parts(w, 2, 6);
    written(w, &Lent::of(&parts, true), 0);
    parts.events.sort_by_key(|event| event.register);
    written(w, &Lent::of(&parts, true), 0);
    parts.events.reverse();
    written(w, &Lent::of(&parts, true), 0);
    parts.events.truncate(4);
    written(w, &Lent::of(&parts, true), 0);
}

fn buffers(w: &mut Writer) {
    for claims in WISHES {
        w.comment("buffers too short, exact and longer");
        let lent = Lent::of(&Parts::random(&mut w.random, true, 2, 2), claims);
        let exact = log_of(&lent).expect("parts of a log").len();
        // Also where a section starts or ends.
        for size in [0, 1, 2, 33, 34, 36, 98, 100, 110, 172, 173, exact - 2, exact - 1] {
            refused(w, &lent, size, 5);
        }
        for more in [0, 1, 2, 32, 64, 200] {
            written(w, &lent, more);
        }
    }
    w.comment("one short, exact and one longer, of other sizes");
    for (registers, events) in [(1, 0), (1, 3), (5, 1)] {
        for claims in WISHES {
            let lent = some(w, registers, events, claims);
            let exact = log_of(&lent).expect("parts of a log").len();
            refused(w, &lent, exact - 1, 5);
            written(w, &lent, 0);
            written(w, &lent, 1);
        }
    }
    w.comment("one short and exact with 24 registers");
    let lent = some(w, 24, 1, true);
    let exact = log_of(&lent).expect("parts of a log").len();
    refused(w, &lent, exact - 1, 5);
    written(w, &lent, 0);
}

/// Faults of a call and the number that each is refused with.
#[derive(Clone, Copy, PartialEq)]
enum Fault {
    Salt,
    Registers,
    Events,
    Outside,
    Buffer,
}

const FAULTS: [(Fault, u8); 5] = [
    (Fault::Salt, 2),
    (Fault::Registers, 7),
    (Fault::Events, 7),
    (Fault::Outside, 8),
    (Fault::Buffer, 5),
];

/// Puts a fault into the parts; a buffer too short is no part of them.
fn spoil(w: &mut Writer, lent: &mut Lent, fault: Fault) {
    match fault {
        Fault::Salt => {
            let size = w.random.one_of(&[1, 31, 33, 64]);
            lent.salt = w.random.bytes(size);
        }
        Fault::Registers => {
            let size = w.random.one_of(&[0, 0, 31, 33, 63, 65, 800]);
            lent.registers = w.random.bytes(size);
        }
        Fault::Events => {
            let size = w.random.one_of(&[37, 40, 71, 73, 107]);
            lent.events.resize(size, 0);
        }
        // The first event, so that it is there where the others are broken; not even one of 25.
        Fault::Outside => {
            let register = w.random.one_of(&[[25, 0], [0, 1], [255, 255]]);
            lent.events[..2].copy_from_slice(&register);
        }
        Fault::Buffer => (),
    }
}

fn orders(w: &mut Writer) {
    w.comment("the order of the refusals: every set of faults, the first one's number is given");
    for turn in 0..2 * 32 {
        let faults: Vec<(Fault, u8)> =
            (0..5).filter(|place| turn >> place & 1 == 1).map(|place| FAULTS[place]).collect();
        let right = some(w, 2, 2, turn < 32);
        let exact = log_of(&right).expect("parts of a log").len();
        let mut lent = right;
        for &(fault, _) in &faults {
            spoil(w, &mut lent, fault);
        }
        let short = faults.iter().any(|&(fault, _)| fault == Fault::Buffer);
        match faults.first() {
            None => written(w, &lent, 3),
            // One byte short where nothing else is wrong, else too short for any log.
            Some(&(_, number)) if short => {
                let size = if faults.len() == 1 { exact - 1 } else { w.random.one_of(&[0, 30]) };
                refused(w, &lent, size, number);
            }
            Some(&(_, number)) => refused(w, &lent, exact + 1, number),
        }
    }
    w.comment("with room for a log without claims, and claims asked for");
    let lent = some(w, 2, 1, false);
    let exact = log_of(&lent).expect("parts of a log").len();
    refused(w, &Lent { claims: true, ..lent.clone() }, exact, 5);
    written(w, &lent, 0);
}

/// A log checked, then written again from its sections and checked again.
fn again(w: &mut Writer, log: &[u8], more: usize) {
    let [salt, registers, events, claims] = contents(log);
    let lent = Lent { salt, registers, events, claims: !claims.is_empty() };
    assert_eq!(log_of(&lent).as_deref(), Ok(log));
    w.check(log, record_room(&lent));
    written(w, &lent, more);
}

fn written_again(w: &mut Writer) {
    w.comment("logs checked, then written again from their sections: the same bytes come out");
    for name in ["smallest.log", "noclaim.log", "agrees.log"] {
        again(w, &samples::named(name), 0);
    }
    for turn in 0..20 {
        let (registers, events) = (1 + w.random.below(3), w.random.below(5));
        let parts = some_parts(w, registers, events);
        let log = if turn % 2 == 0 { parts.bytes() } else { parts.claimed().bytes() };
        again(w, &log, turn % 3);
    }
}

fn random_ones(w: &mut Writer) {
    w.comment("logs of random sizes");
    for turn in 0..35 {
        let registers = if turn % 10 == 0 { 4 + w.random.below(6) } else { 1 + w.random.below(3) };
        let events = w.random.below(if turn % 10 == 1 { 15 } else { 5 });
        let claims = w.coin();
        let lent = some(w, registers, events, claims);
        let more = w.random.one_of(&[0, 0, 1, 7, 32]);
        written(w, &lent, more);
    }
}

fn long_logs(w: &mut Writer) {
    w.comment("the longest log: salted, 24 registers, 1,024 events, claims");
    let lent = Lent::of(&Parts::random(&mut w.random, true, 24, 1024), true);
    written_and_checked(w, &lent, 0, record_room(&lent));
    w.comment("1,024 events of one register, no salt, no claims, the longest buffer");
    let lent = Lent::of(&Parts::random(&mut w.random, false, 1, 1024), false);
    let log_bytes = log_of(&lent).expect("parts of a log").len();
    written_and_checked(w, &lent, 40_000 - log_bytes, record_room(&lent));
    w.comment("one byte more than 1,024 events, and 1,025; the buffer is short too");
    let mut longer = lent;
    longer.events.push(0);
    refused(w, &longer, 40, 7);
    let lent = Lent::of(&Parts::random(&mut w.random, false, 1, 1025), false);
    refused(w, &lent, 40, 7);
}

fn unreadable(w: &mut Writer) {
    w.comment("lines of the logger that are not readable; the state stays");
    let lent = Lent::of(&Parts::random(&mut w.random, true, 1, 1), true);
    let (salt, start, event) = (hex(&lent.salt), hex(&lent.registers), hex(&lent.events));
    let room = "0000";
    let lines = [
        "write".to_string(),
        "write ".to_string(),
        "write - - - 0".to_string(),
        "write - - - -".to_string(),
        format!("write {salt} {start} {event} {room}"),
        format!("write {salt} {start} {event} 1"),
        format!("write {start} {event} 1 {room}"),
        format!("write {salt} {start} {event} 1 {room} -"),
        format!("write {salt} {start} {event} 1 1 {room}"),
        format!("write {salt} {start} {event} - 1 {room}"),
        format!("write {salt} {start} {event} 2 {room}"),
        format!("write {salt} {start} {event} 10 {room}"),
        format!("write {salt} {start} {event} 256 {room}"),
        format!("write {salt} {start} {event} 65536 {room}"),
        format!("write {salt} {start} {event} 4294967297 {room}"),
        format!("write {salt} {start} {event} 18446744073709551616 {room}"),
        format!("write {salt} {start} {event} 18446744073709551617 {room}"),
        format!("write {salt} {start} {event}  {room}"),
        format!("write {salt} {start} {event} - {room}"),
        format!("write {salt} {start} {event} x {room}"),
        format!("write {salt} {start} {event} -1 {room}"),
        format!("write {salt} {start} {event} +1 {room}"),
        format!("write {salt} {start} {event} 1x {room}"),
        format!("write {salt} {start} {event} 0x1 {room}"),
        format!("write {salt} {start} {event} yes {room}"),
        format!("write {salt} {start} {event} 1\t{room}"),
        format!("write {} {start} {event} 1 {room}", salt.to_uppercase()),
        format!("write {salt} {} {event} 1 {room}", start.to_uppercase()),
        format!("write {salt} {start} {} 1 {room}", event.to_uppercase()),
        format!("write {salt} {start} {event} 1 {room}AA"),
        format!("write {} {start} {event} 1 {room}", &salt[1..]),
        format!("write {salt} {start}0 {event} 1 {room}"),
        format!("write {salt} {start} {} 1 {room}", &event[1..]),
        format!("write {salt} {start} {event} 1 {room}0"),
        format!("write {salt} {start}g0 {event} 1 {room}"),
        format!("write  {start} {event} 1 {room}"),
        format!("write {salt}  {event} 1 {room}"),
        format!("write {salt} {start}  1 {room}"),
        format!("write {salt} {start} {event} 1 "),
        format!("write -- {start} {event} 1 {room}"),
        format!(" write {salt} {start} {event} 1 {room}"),
        format!("write {salt} {start} {event} 1 {room} "),
        format!("write {salt} {start} {event} 1 {room}\r"),
        format!("write\t{salt} {start} {event} 1 {room}"),
        format!("Write {salt} {start} {event} 1 {room}"),
        format!("writes {salt} {start} {event} 1 {room}"),
        format!("log {salt} {start} {event} 1 {room}"),
    ];
    for line in lines {
        w.line(&line);
    }
    w.comment("the same words in a readable line");
    written(w, &lent, 0);
    w.finish(32);
}

/// Lines of the most bytes and of one more. No accepted call needs so many, so the registers are
/// too many: the one is refused, the other not readable.
fn line_limit(w: &mut Writer) {
    w.comment("the longest line, and one byte more");
    for (most, salt_size) in [(LINE_MOST, 0), (LINE_MOST + 1, 32)] {
        let mut lent = Lent::of(&Parts::random(&mut w.random, false, 1, 1024), false);
        lent.salt = w.random.bytes(salt_size);
        lent.registers = w.random.bytes(40_000);
        // The empty salt is one byte of the line, others an even number.
        let rest = most - (write_text(&lent, &[]).len() - 1);
        assert_eq!(rest % 2, 0);
        refused(w, &lent, rest / 2, 7);
    }
}
