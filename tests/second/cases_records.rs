//! Cases of the check's records: values and extensions, and buffers in terms of 34 bytes a register.

use crate::cases::Writer;
use crate::lines::hex;
use crate::log::{check, Verdict, RECORD_BYTES};
use crate::parts::{counted, Event, Parts, VALUE_BYTES};
use crate::random::Random;
use crate::write::{log_of, Lent};

pub fn write(w: &mut Writer) {
    // Numbers of their own, so that cases put behind these do not depend on them.
    let others = std::mem::replace(&mut w.random, Random::new(0x5afe_0004));
    w.comment("records: the state that stands before them stays");
    w.begin(256, &[]);
    w.add(b"before");
    never_extended(w);
    one_extended(w);
    two_byte_numbers(w);
    uneven(w);
    labels_and_repeats(w);
    buffers(w);
    orders(w);
    strides(w);
    numbers_in_claims(w);
    same_values(w);
    same_digests(w);
    written_logs(w);
    w.comment("the state after the records");
    w.finish(32);
    w.random = others;
}

/// Bytes of the records of so many registers.
fn room(registers: usize) -> usize {
    RECORD_BYTES * registers
}

/// A check with a lent buffer without zeros, so that a zero stored and a byte left alone both show.
/// Its number and verdict are known beforehand.
fn checked(w: &mut Writer, log: &[u8], size: usize, right: (u8, Verdict)) {
    let answer = check(log, &mut vec![0; size]);
    assert_eq!((answer.number, answer.verdict), right);
    let buffer: Vec<u8> = (0..size).map(|_| 1 + w.random.below(255) as u8).collect();
    w.line(&format!("check {} {}", hex(log), hex(&buffer)));
}

/// A log accepted with so many bytes more than its records.
fn accepted(w: &mut Writer, parts: &Parts, more: usize, verdict: Verdict) {
    checked(w, &parts.bytes(), room(parts.start.len()) + more, (0, verdict));
}

/// The same without claims, then with the right ones.
fn open_and_claimed(w: &mut Writer, parts: &Parts) {
    accepted(w, parts, 3, Verdict::NoClaim);
    accepted(w, &parts.claimed(), 0, Verdict::Agrees);
}

fn refused(w: &mut Writer, log: &[u8], size: usize, number: u8) {
    checked(w, log, size, (number, Verdict::NoClaim));
}

fn event(w: &mut Writer, register: usize) -> Event {
    let label = w.random.below(65_536) as u16;
    Event { register: register as u16, label, digest: w.random.array() }
}

/// Parts whose registers are extended so often, their events mixed.
fn extended(w: &mut Writer, extensions: &[usize]) -> Parts {
    let salted = w.coin();
    let mut parts = Parts::random(&mut w.random, salted, extensions.len(), 0);
    for (register, &number) in extensions.iter().enumerate() {
        for _ in 0..number {
            let place = w.random.below(parts.events.len() + 1);
            let event = event(w, register);
            parts.events.insert(place, event);
        }
    }
    parts
}

/// Numbers of extensions: one for this register, another one for the others.
fn but_one(registers: usize, register: usize, number: usize, others: usize) -> Vec<usize> {
    let mut extensions = vec![others; registers];
    extensions[register] = number;
    extensions
}

fn never_extended(w: &mut Writer) {
    w.comment("no events: every number is 0");
    for registers in [1, 2, 3, 5, 12, 24] {
        let parts = extended(w, &vec![0; registers]);
        open_and_claimed(w, &parts);
        let mut wrong = parts.claimed();
        wrong.claims[registers - 1][31] ^= 1;
        accepted(w, &wrong, 1, Verdict::Differs(registers - 1));
    }
    w.comment("no events, registers of zeros and of ones");
    for byte in [0, 0xff] {
        let start = vec![[byte; VALUE_BYTES]; 3];
        let parts = Parts { salt: vec![], start, events: vec![], claims: vec![] };
        open_and_claimed(w, &parts);
    }
    w.comment("every choice of registers that are never extended, among four");
    for choice in 0..16 {
        let extensions: Vec<usize> =
            (0..4).map(|register| (choice >> register & 1) * (1 + w.random.below(3))).collect();
        let parts = extended(w, &extensions);
        accepted(w, &parts, choice % 3, Verdict::NoClaim);
    }
    w.comment("one of 24 registers extended, then all but one");
    for register in [0, 11, 23] {
        let parts = extended(w, &but_one(24, register, 1, 0));
        accepted(w, &parts.claimed(), 0, Verdict::Agrees);
        let parts = extended(w, &but_one(24, register, 0, 1));
        accepted(w, &parts, 0, Verdict::NoClaim);
    }
}

fn one_extended(w: &mut Writer) {
    w.comment("one register extended 1,024 times: the only one, and one of 24");
    let parts = extended(w, &[1024]);
    accepted(w, &parts.claimed(), 0, Verdict::Agrees);
    for (register, more) in [(0, 0), (12, 1), (23, 2)] {
        let parts = extended(w, &but_one(24, register, 1024, 0));
        accepted(w, &parts, more, Verdict::NoClaim);
    }
}

fn two_byte_numbers(w: &mut Writer) {
    w.comment("numbers about 256: of the only register, and beside others");
    for number in [255, 256, 257] {
        let parts = extended(w, &[number]);
        accepted(w, &parts, 2, Verdict::NoClaim);
        let parts = extended(w, &[1, number, 0]);
        accepted(w, &parts.claimed(), 0, Verdict::Agrees);
    }
    w.comment("two registers with numbers of two bytes");
    for extensions in [[511, 513], [768, 256]] {
        let parts = extended(w, &extensions);
        accepted(w, &parts, 0, Verdict::NoClaim);
    }
}

fn uneven(w: &mut Writer) {
    w.comment("24 registers extended unevenly: rising numbers, the events mixed and sorted");
    let rising: Vec<usize> = (0..24).collect();
    let mut parts = extended(w, &rising);
    accepted(w, &parts, 0, Verdict::NoClaim);
    parts.events.sort_by_key(|event| event.register);
    accepted(w, &parts, 0, Verdict::NoClaim);
    w.comment("falling numbers with claims, of which the last is then wrong");
    let falling: Vec<usize> = (0..24).rev().collect();
    let mut parts = extended(w, &falling).claimed();
    accepted(w, &parts, 0, Verdict::Agrees);
    parts.claims[23][0] ^= 0x80;
    accepted(w, &parts, RECORD_BYTES, Verdict::Differs(23));
    w.comment("numbers that double: 1 to 256 in every other register");
    let doubling: Vec<usize> =
        (0..24).map(|r| if r % 2 == 1 && r < 18 { 1 << (r / 2) } else { 0 }).collect();
    let parts = extended(w, &doubling);
    accepted(w, &parts, 0, Verdict::NoClaim);
    w.comment("other uneven numbers");
    for registers in [24, 24, 17, 9, 6] {
        let extensions: Vec<usize> =
            (0..registers).map(|_| w.random.one_of(&[0, 0, 1, 2, 3, 7, 20])).collect();
        let parts = extended(w, &extensions);
        accepted(w, &parts.claimed(), 0, Verdict::Agrees);
    }
}

fn labels_and_repeats(w: &mut Writer) {
    w.comment("labels that are numbers of other registers: they do not count");
    let mut parts = extended(w, &[3, 1, 0, 2]);
    for event in &mut parts.events {
        event.label = (event.register + 1) % 4;
    }
    open_and_claimed(w, &parts);
    for label in [0, 2, 3] {
        for event in &mut parts.events {
            event.label = label;
        }
        accepted(w, &parts, 0, Verdict::NoClaim);
    }
    w.comment("one event again and again: it counts each time");
    for times in [2, 3, 10] {
        let mut parts = extended(w, &[0, 1, 0]);
        parts.events = vec![parts.events[0].clone(); times];
        open_and_claimed(w, &parts);
    }
    w.comment("the same digest for every register");
    let mut parts = extended(w, &[2, 1, 3]);
    for event in &mut parts.events {
        event.digest = [0x77; VALUE_BYTES];
    }
    open_and_claimed(w, &parts);
}

/// A log with some verdict, checked with a buffer of so many bytes.
fn into_buffer(w: &mut Writer, registers: usize, turn: usize, size: usize) {
    let salted = w.coin();
    let mut parts = Parts::random(&mut w.random, salted, registers, 1 + turn % 4);
    if turn % 3 != 0 {
        parts = parts.claimed();
    }
    let verdict = match turn % 3 {
        0 => Verdict::NoClaim,
        1 => Verdict::Agrees,
        _ => {
            let register = w.random.below(registers);
            parts.claims[register][30] ^= 4;
            Verdict::Differs(register)
        }
    };
    let right = if size < room(registers) { (5, Verdict::NoClaim) } else { (0, verdict) };
    checked(w, &parts.bytes(), size, right);
}

fn buffers(w: &mut Writer) {
    for registers in [1, 2, 24] {
        w.comment("buffers from the empty one to a much longer one");
        let (values, exact) = (VALUE_BYTES * registers, room(registers));
        let short = [0, 1, 2, 31, 32, 33, exact - RECORD_BYTES, values, values + 1, values + 2];
        let near = [33 * registers - 1, 33 * registers, exact - 2, exact - 1, exact, exact + 1];
        let long = [exact + 2, exact + 33, exact + 34, 2 * exact, exact + 1500];
        let mut sizes = [&short[..], &near, &long].concat();
        sizes.sort();
        sizes.dedup();
        for (turn, size) in sizes.into_iter().enumerate() {
            into_buffer(w, registers, turn, size);
        }
    }
    w.comment("buffers of plain values, of half the numbers, one short, exact, one longer");
    for registers in [3, 7, 16, 17, 23] {
        let exact = room(registers);
        let sizes = [VALUE_BYTES * registers, 33 * registers, exact - 1, exact, exact + 1];
        for (turn, size) in sizes.into_iter().enumerate() {
            into_buffer(w, registers, registers + turn, size);
        }
    }
    w.comment("one byte short with every number of registers");
    for registers in 1..=24 {
        into_buffer(w, registers, 0, room(registers) - 1);
    }
    w.comment("the longest buffer");
    into_buffer(w, 2, 1, 40_000);
}

/// Logs that are refused with room for their records, and the number of each.
fn faulty(parts: &Parts) -> Vec<(Vec<u8>, u8)> {
    let (log, registers) = (parts.bytes(), parts.start.len());
    let mut logs = Vec::new();
    let mut start = 0;
    for section in parts.sections() {
        for size in [0, 1, 2, section.len() / 2, section.len() - 1] {
            logs.push((log[..start + size].to_vec(), 6));
        }
        start += section.len();
    }
    for more in [1, 2 * registers, 34] {
        logs.push(([&log[..], &vec![0; more]].concat(), 6));
    }
    for (place, count) in [(0, 31), (1, 0), (1, 25), (2, 1025), (3, registers + 1)] {
        let mut sections = parts.sections();
        sections[place][..2].copy_from_slice(&counted(count));
        logs.push((sections.concat(), 7));
    }
    for (place, register) in [(0, registers), (1, 256), (2, 65_535)] {
        let mut outside = parts.clone();
        outside.events[place].register = register as u16;
        logs.push((outside.bytes(), 8));
    }
    logs
}

fn orders(w: &mut Writer) {
    for registers in [1, 2, 24] {
        w.comment("a buffer too short and 6, 7 or 8: the log's own refusal comes first");
        let parts = Parts::random(&mut w.random, true, registers, 3).claimed();
        let exact = room(registers);
        let sizes = [0, VALUE_BYTES * registers, exact - 1, exact];
        for (turn, (log, number)) in faulty(&parts).into_iter().enumerate() {
            // 24 registers make long lines: one of the sizes for each log.
            let sizes = if registers < 24 { &sizes[..] } else { &sizes[turn % 3..=turn % 3] };
            for &size in sizes {
                refused(w, &log, size, number);
            }
        }
        w.comment("the same log without a fault, with each of the sizes");
        for size in sizes {
            let right = if size < exact { (5, Verdict::NoClaim) } else { (0, Verdict::Agrees) };
            checked(w, &parts.bytes(), size, right);
        }
    }
}

fn strides(w: &mut Writer) {
    w.comment("claims that are the front of the records: only that of register 0 agrees");
    for registers in [2, 3, 16, 24] {
        let mut parts = Parts::random(&mut w.random, false, registers, 5);
        let front = &parts.records()[..VALUE_BYTES * registers];
        parts.claims =
            front.chunks(VALUE_BYTES).map(|claim| claim.try_into().expect("32 bytes")).collect();
        accepted(w, &parts, 0, Verdict::Differs(1));
        accepted(w, &parts, RECORD_BYTES, Verdict::Differs(1));
    }
    w.comment("whole records in the place of claims: leftovers, or a count not allowed");
    for registers in [1, 2, 16] {
        let parts = Parts::random(&mut w.random, false, registers, 3);
        let [salt, start, events, _] = parts.sections();
        let front = [salt, start, events].concat();
        for (count, number) in [(registers, 6), (registers + 1, 7)] {
            let log = [&front[..], &counted(count), &parts.records()].concat();
            refused(w, &log, room(registers), number);
        }
    }
}

fn numbers_in_claims(w: &mut Writer) {
    w.comment("claims that start with the number of extensions, or end in it");
    let parts = extended(w, &[0, 3, 7]).claimed();
    for (register, record) in parts.records().chunks(RECORD_BYTES).enumerate() {
        for place in [0, 30] {
            let mut wrong = parts.clone();
            wrong.claims[register][place..place + 2].copy_from_slice(&record[VALUE_BYTES..]);
            accepted(w, &wrong, 0, Verdict::Differs(register));
        }
    }
    w.comment("right claims in another order, the numbers being the same");
    let mut parts = extended(w, &[2, 2, 2]).claimed();
    parts.claims.rotate_left(1);
    accepted(w, &parts, 0, Verdict::Differs(0));
}

fn same_values(w: &mut Writer) {
    w.comment("the same values and claims after fewer and fewer extensions: values decide");
    let parts = extended(w, &[4, 2, 0, 1]).claimed();
    for left_out in 0..=parts.events.len() {
        let (front, back) = parts.events.split_at(left_out);
        let front = Parts { events: front.to_vec(), ..parts.clone() };
        // Each register starts where the events left out lead it.
        let start = front.claimed().claims;
        let mut later = Parts { start, events: back.to_vec(), ..parts.clone() };
        accepted(w, &later, 0, Verdict::Agrees);
        later.claims[left_out % 4][31] ^= 0x10;
        accepted(w, &later, 0, Verdict::Differs(left_out % 4));
    }
    w.comment("the same numbers and claims with other values: values decide");
    for place in 0..parts.events.len() {
        let mut other = parts.clone();
        other.events[place].digest[5] ^= 1;
        let register = other.events[place].register as usize;
        accepted(w, &other, 0, Verdict::Differs(register));
    }
}

/// The log with the right claims but for one register, whose claim is given.
fn claiming(parts: &Parts, register: usize, claim: [u8; VALUE_BYTES]) -> Parts {
    let mut parts = parts.claimed();
    parts.claims[register] = claim;
    parts
}

fn same_digests(w: &mut Writer) {
    w.comment("the same digests for register 1 at other places: the same record of it");
    let parts = extended(w, &[2, 4, 3]).claimed();
    let claim = parts.claims[1];
    let (own, others): (Vec<Event>, Vec<Event>) =
        parts.events.iter().cloned().partition(|event| event.register == 1);
    let spread: Vec<Event> =
        own.iter().zip(&others).flat_map(|(one, other)| [one.clone(), other.clone()]).collect();
    let orders = [
        parts.events.clone(),
        [&own[..], &others].concat(),
        [&others[..], &own].concat(),
        [&others[..2], &own, &others[2..]].concat(),
        spread,
        own.clone(),
    ];
    for events in orders {
        let moved = claiming(&Parts { events, ..parts.clone() }, 1, claim);
        accepted(w, &moved, 0, Verdict::Agrees);
    }
    w.comment("the same start and digests for another register, of 1, of 3 and of 24");
    for (registers, register) in [(1, 0), (3, 2), (24, 0), (24, 23)] {
        let mut other = extended(w, &but_one(registers, register, 0, 1));
        other.salt = parts.salt.clone();
        other.start[register] = parts.start[1];
        for (turn, event) in own.iter().enumerate() {
            // Rising places, so that their order stays.
            let place = other.events.len().min(2 * turn);
            other.events.insert(place, Event { register: register as u16, ..event.clone() });
        }
        accepted(w, &claiming(&other, register, claim), 0, Verdict::Agrees);
    }
}

fn written_logs(w: &mut Writer) {
    w.comment("logs written with plain values as claims, then checked with little room and enough");
    for extensions in [&[0][..], &[3], &[2, 0, 1], &[0, 0, 5, 1]] {
        let lent = Lent::of(&extended(w, extensions), true);
        let log = log_of(&lent).expect("parts of a log");
        w.write(&lent, log.len());
        let exact = room(extensions.len());
        refused(w, &log, lent.registers.len(), 5);
        refused(w, &log, exact - 1, 5);
        checked(w, &log, exact, (0, Verdict::Agrees));
    }
}
