//! Cases of the boot log check.

use crate::cases::Writer;
use crate::log::RECORD_BYTES;
use crate::parts::{counted, Event, Parts};
use crate::samples::{longest, smallest};

pub fn write(w: &mut Writer) {
    w.comment("logs: the smallest, and nothing at all");
    for size in [0, 32, 33, 34, 42] {
        w.check(&smallest(), size);
    }
    w.check(&[], 0);
    w.check(&[], 42);
    accepted(w);
    verdicts(w);
    influence(w);
    counts(w);
    cuts(w);
    orders(w);
    long_logs(w);
    scrambled(w);
}

/// Bytes of the records of so many registers.
fn room(registers: usize) -> usize {
    RECORD_BYTES * registers
}

fn random_parts(w: &mut Writer, registers: usize, events: usize) -> Parts {
    let salted = w.coin();
    Parts::random(&mut w.random, salted, registers, events)
}

fn accepted(w: &mut Writer) {
    w.comment("logs of random sizes with each verdict");
    for turn in 0..70 {
        let registers = if turn % 10 == 0 { 24 } else { 1 + w.random.below(8) };
        let events = w.random.below(16);
        let mut parts = random_parts(w, registers, events);
        match turn % 3 {
            0 => (),
            1 => parts = parts.claimed(),
            _ => {
                parts = parts.claimed();
                let (register, byte) = (w.random.below(registers), w.random.below(32));
                parts.claims[register][byte] ^= 1 << w.random.below(8);
            }
        }
        let extra = w.random.one_of(&[0, 0, 1, 5, 34, 40]);
        w.check(&parts.bytes(), room(registers) + extra);
    }
    w.comment("every number of registers");
    for registers in 1..=24 {
        let parts = random_parts(w, registers, 2);
        w.check(&parts.bytes(), room(registers));
    }
    w.comment("one register, many events");
    for events in [1, 2, 3, 40] {
        let parts = random_parts(w, 1, events);
        w.check(&parts.bytes(), room(1));
        w.check(&parts.claimed().bytes(), room(1) + 1);
    }
}

fn verdicts(w: &mut Writer) {
    w.comment("claims that differ in one register, in several, in the first and last byte");
    let parts = random_parts(w, 5, 6).claimed();
    for register in 0..5 {
        for byte in [0, 15, 31] {
            let mut wrong = parts.clone();
            wrong.claims[register][byte] ^= 0x40;
            w.check(&wrong.bytes(), room(5));
        }
        let mut wrong = parts.clone();
        for claim in &mut wrong.claims[register..] {
            claim[7] ^= 1;
        }
        w.check(&wrong.bytes(), room(5));
    }
    w.comment("claims that are the right ones in another order, or the starting values");
    let mut wrong = parts.clone();
    wrong.claims.swap(2, 4);
    w.check(&wrong.bytes(), room(5));
    wrong.claims = parts.start.clone();
    w.check(&wrong.bytes(), room(5));
    w.comment("no events, with claims");
    let still = random_parts(w, 3, 0).claimed();
    w.check(&still.bytes(), room(3));
    let mut wrong = still.clone();
    wrong.claims[2][31] ^= 1;
    w.check(&wrong.bytes(), room(3) + 4);
}

fn influence(w: &mut Writer) {
    w.comment("labels changed, events of other registers moved, the same event twice");
    let parts = Parts::random(&mut w.random, true, 3, 8).claimed();
    w.check(&parts.bytes(), room(3));
    let mut labels = parts.clone();
    for event in &mut labels.events {
        event.label ^= 0xffff;
    }
    w.check(&labels.bytes(), room(3));
    let mut sorted = parts.clone();
    sorted.events.sort_by_key(|event| event.register);
    w.check(&sorted.bytes(), room(3));
    let mut reversed = parts.clone();
    reversed.events.reverse();
    w.check(&reversed.bytes(), room(3));
    let mut twice = parts.clone();
    twice.events.push(twice.events[7].clone());
    w.check(&twice.bytes(), room(3));
    let mut early = parts.clone();
    early.events.truncate(6);
    w.check(&early.bytes(), room(3));
    w.comment("without the salt, with the all-zero salt, with another salt");
    for salt in [vec![], vec![0; 32], w.random.bytes(32)] {
        let salted = Parts { salt, ..parts.clone() };
        w.check(&salted.bytes(), room(3));
    }
}

/// A log whose four sections are given as counts and contents.
fn by_hand(salt: (usize, usize), start: (usize, usize), rest: &[u8]) -> Vec<u8> {
    let mut log = counted(salt.0);
    log.extend(vec![0x5a; salt.1]);
    log.extend(counted(start.0));
    log.extend(vec![0xa5; start.1]);
    log.extend_from_slice(rest);
    log
}

fn counts(w: &mut Writer) {
    w.comment("counts that are not allowed");
    for count in [1, 2, 16, 31, 33, 64, 256, 8192, 65_535] {
        w.check(&by_hand((count, count.min(64)), (1, 32), &[0; 4]), room(1));
        w.check(&counted(count), room(1));
    }
    for count in [0, 25, 26, 256, 257, 6144, 65_535] {
        w.check(&by_hand((0, 0), (count, 32 * count.min(25)), &[0; 4]), room(1));
        w.check(&by_hand((32, 32), (count, 0), &[]), 0);
    }
    for count in [1025, 1026, 2048, 65_535] {
        let mut rest = counted(count);
        w.check(&by_hand((0, 0), (1, 32), &rest), room(1));
        rest.extend([0; 72]);
        w.check(&by_hand((32, 32), (1, 32), &rest), room(1));
    }
    for registers in [1, 2, 3, 24] {
        let parts = random_parts(w, registers, 1);
        let open = parts.bytes();
        let front = &open[..open.len() - 2];
        for count in [registers - 1, registers + 1, 25, 256, 256 * registers, 65_535] {
            if count == 0 || count == registers {
                continue;
            }
            w.check(&[front, &counted(count)].concat(), room(registers));
            let claims = vec![1; 32 * count.min(26)];
            w.check(&[front, &counted(count), &claims].concat(), room(registers));
        }
    }
    w.comment("registers of events that are not there");
    for registers in [1, 2, 24] {
        for register in [registers, registers + 1, 25, 255, 256, 65_535] {
            let mut parts = random_parts(w, registers, 3).claimed();
            let place = w.random.below(3);
            parts.events[place].register = register as u16;
            w.check(&parts.bytes(), room(registers));
        }
        let mut parts = random_parts(w, registers, 1);
        parts.events[0].register = registers as u16 - 1;
        w.check(&parts.bytes(), room(registers));
    }
}

fn cuts(w: &mut Writer) {
    w.comment("a log cut at every place");
    for salted in [true, false] {
        let log = Parts::random(&mut w.random, salted, 2, 2).claimed().bytes();
        for size in 0..=log.len() {
            w.check(&log[..size], room(2));
        }
        w.comment("leftovers");
        for size in [1, 2, 31, 32, 34, 100] {
            let more = w.random.bytes(size);
            w.check(&[&log[..], &more].concat(), room(2));
        }
        w.check(&[&log[..], &[0]].concat(), room(2));
        w.check(&[&log[..], &log[..]].concat(), room(2));
    }
}

fn orders(w: &mut Writer) {
    w.comment("the buffer comes last");
    for registers in [1, 3, 24] {
        let parts = random_parts(w, registers, 2).claimed();
        let log = parts.bytes();
        let exact = room(registers);
        for size in [0, 1, exact - RECORD_BYTES, exact - 1, exact, exact + 1, exact + 68] {
            w.check(&log, size);
        }
        let open = Parts { claims: Vec::new(), ..parts.clone() }.bytes();
        w.check(&open, exact - 1);
        w.check(&[&log[..], &[7]].concat(), exact - 1);
        w.check(&log[..log.len() - 1], exact - 1);
        let mut wrong = parts.clone();
        wrong.events[1].register = 24;
        w.check(&wrong.bytes(), exact - 1);
        let mut count = parts.sections();
        count[3][..2].copy_from_slice(&counted(registers + 1));
        w.check(&count.concat(), exact - 1);
    }
    w.comment("an event is read whole before its register is looked at, and before later events");
    let mut parts = random_parts(w, 2, 3);
    parts.events[1].register = 2;
    let [salt, start, events, claims] = parts.sections();
    let front = [salt, start].concat();
    for size in [2, 3, 4, 37, 38, 39, 40, 42, 73, 74, 75, 109, 110] {
        w.check(&[&front[..], &events[..size]].concat(), room(2));
    }
    w.check(&[&front[..], &events[..], &claims[..], &[1, 2]].concat(), room(2));
    w.check(&[&front[..], &events[..], &counted(25)].concat(), room(2));
    w.comment("a count not allowed comes before contents that are missing");
    w.check(&[31, 0], 0);
    w.check(&[32, 0], 0);
    w.check(&[0, 0, 25, 0], 0);
    w.check(&[0, 0, 24, 0], 0);
    w.check(&[0, 0, 0], 0);
    w.check(&[33], 0);
}

fn long_logs(w: &mut Writer) {
    w.comment("the longest log, and one byte more");
    let log = longest();
    w.check(&log, room(24));
    w.check(&[&log[..], &[0]].concat(), room(24));
    w.comment("24 registers, 1,024 events, no salt, the last claim wrong");
    let mut parts = Parts::random(&mut w.random, false, 24, 1024).claimed();
    parts.claims[23][31] ^= 1;
    w.check(&parts.bytes(), room(25));
    w.comment("1,025 events");
    let digest = w.random.array();
    parts.events.push(Event { register: 0, label: 0, digest });
    w.check(&parts.bytes(), room(24));
}

/// Logs with one byte changed.
fn scrambled(w: &mut Writer) {
    w.comment("one byte changed");
    let log = random_parts(w, 3, 3).claimed().bytes();
    for _ in 0..150 {
        let mut changed = log.clone();
        let place = w.random.below(log.len());
        changed[place] ^= 1 << w.random.below(8);
        w.check(&changed, room(3));
    }
}
