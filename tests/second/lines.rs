//! The line format of case files: writing states, reading lines, answering them.

use crate::digest::{add, begin, finish, one_shot, LastBits, Report, State};
use crate::hash::{aes_round_of_bytes, Family};
use crate::keyed::Keyed;
use crate::lines_keyed;
use crate::log::check;
use crate::saved::{load, save};
use crate::tables::Tables;
use crate::write::{write_log, Lent};

/// Most bytes of a line, its end not counted: 1,024 events and a buffer for the longest log fit in.
pub const LINE_MOST: usize = 196_608;
/// Most bytes that a byte string stands for.
const STRING_MOST: usize = 40_000;

pub fn hex(bytes: &[u8]) -> String {
    if bytes.is_empty() {
        return "-".to_string();
    }
    bytes.iter().map(|b| format!("{b:02x}")).collect()
}

/// FAMILY M SALT CHAIN COVERED COMPRESSED HELD
pub fn state_text(s: &State) -> String {
    let family = if s.family == Family::Small { 0 } else { 1 };
    let chain: String = s.chain.iter().map(|w| format!("{w:08x}")).collect();
    let (salt, held) = (hex(&s.salt), hex(&s.held));
    format!("{family} {} {salt} {chain} {} {} {held}", s.m, s.covered, s.compressed)
}

/// BYTE BITS
pub fn last_text(last: LastBits) -> String {
    format!("{:02x} {}", last.byte, last.count)
}

/// NUM COVERED BITS COMPRESSED
fn report_text(r: &Report) -> String {
    format!("{} {} {} {}", r.number, r.covered, r.bits, r.compressed)
}

/// The line that has a log written.
pub fn write_text(lent: &Lent, buffer: &[u8]) -> String {
    let (salt, registers, events) = (hex(&lent.salt), hex(&lent.registers), hex(&lent.events));
    let claims = if lent.claims { 1 } else { 0 };
    format!("write {salt} {registers} {events} {claims} {}", hex(buffer))
}

/// The answers to a whole case file.
pub fn answer_all(input: &[u8]) -> String {
    let (mut state, mut keyed) = (State::zero(), Keyed::zero());
    let mut out = String::new();
    let body = input.strip_suffix(b"\n").unwrap_or(input);
    if input.is_empty() {
        return out;
    }
    for line in body.split(|&b| b == b'\n') {
        if line.first() == Some(&b'#') {
            continue;
        }
        match answer(line, &mut state, &mut keyed) {
            Some(text) => out += &text,
            None => out += "unreadable",
        }
        out.push('\n');
    }
    out
}

/// The answer to one line, or none if the line is not readable; then both states are as before.
fn answer(line: &[u8], state: &mut State, keyed: &mut Keyed) -> Option<String> {
    if line.len() > LINE_MOST {
        return None;
    }
    let text = std::str::from_utf8(line).ok()?;
    let words: Vec<&str> = text.split(' ').collect();
    match words[..] {
        ["begin", m, salt] => {
            let made = begin(number16(m)?, &bytes(salt)?);
            Some(handed_back("begin", made, state))
        }
        ["state", ref parts @ ..] => {
            *state = state_of(parts)?;
            Some(format!("state {}", state_text(state)))
        }
        ["add", data] => {
            let made = add(state, &bytes(data)?);
            Some(handed_back("add", made, state))
        }
        ["load", form] => Some(handed_back("load", load(&bytes(form)?), state)),
        ["finish", byte, bits, buffer] => {
            let (last, mut buffer) = (last_bits(byte, bits)?, bytes(buffer)?);
            let report = report_text(&finish(state, last, &mut buffer));
            Some(format!("finish {report} {} {}", state_text(state), hex(&buffer)))
        }
        ["save", buffer] => {
            let mut buffer = bytes(buffer)?;
            let (number, size) = save(state, &mut buffer);
            Some(format!("save {number} {size} {}", hex(&buffer)))
        }
        ["oneshot", ref parts @ ..] => answer_one_shot(parts),
        ["check", log, buffer] => answer_check(&bytes(log)?, bytes(buffer)?),
        ["write", ref parts @ ..] => answer_write(parts),
        ["round", columns, subkey] => Some(answer_round(&exact(columns)?, &exact(subkey)?)),
        _ => lines_keyed::answer(&words, keyed),
    }
}

/// The answer of a call whose state becomes the current one.
fn handed_back(call: &str, (number, made): (u8, State), state: &mut State) -> String {
    *state = made;
    format!("{call} {number} {}", state_text(state))
}

fn answer_one_shot(words: &[&str]) -> Option<String> {
    let [m, salt, data, byte, bits, buffer] = *words else {
        return None;
    };
    let (m, salt, data) = (number16(m)?, bytes(salt)?, bytes(data)?);
    let (last, mut buffer) = (last_bits(byte, bits)?, bytes(buffer)?);
    let report = report_text(&one_shot(m, &salt, &data, last, &mut buffer));
    Some(format!("oneshot {report} {}", hex(&buffer)))
}

fn answer_check(log: &[u8], mut buffer: Vec<u8>) -> Option<String> {
    let a = check(log, &mut buffer);
    let counts = format!("{} {} {} {}", a.registers, a.events, a.blocks, a.verdict);
    Some(format!("check {} {} {counts} {}", a.number, a.offset(), hex(&buffer)))
}

fn answer_write(words: &[&str]) -> Option<String> {
    let [salt, registers, events, claims, buffer] = *words else {
        return None;
    };
    let (salt, registers, events) = (bytes(salt)?, bytes(registers)?, bytes(events)?);
    let (claims, mut buffer) = (wish(claims)?, bytes(buffer)?);
    let (number, length) = write_log(&Lent { salt, registers, events, claims }, &mut buffer);
    Some(format!("write {number} {length} {}", hex(&buffer)))
}

/// The round by bytes and, computed apart, over the tables.
fn answer_round(columns: &[u8; 16], subkey: &[u8; 16]) -> String {
    let by_bytes = aes_round_of_bytes(columns, subkey);
    let over_tables = Tables::computed().round(columns, subkey);
    format!("round {} {}", hex(&by_bytes), hex(&over_tables))
}

/// The last bits that two words stand for, allowed or not.
fn last_bits(byte: &str, bits: &str) -> Option<LastBits> {
    let [byte] = exact(byte)?;
    Some(LastBits { byte, count: u8::try_from(number64(bits)?).ok()? })
}

/// Whether claims are asked for: the numbers 0 and 1.
fn wish(word: &str) -> Option<bool> {
    match number64(word)? {
        0 => Some(false),
        1 => Some(true),
        _ => None,
    }
}

/// The state that its seven words stand for.
pub fn state_of(words: &[&str]) -> Option<State> {
    let [family, m, salt, chain, covered, compressed, held] = *words else {
        return None;
    };
    let family = match number64(family)? {
        0 => Family::Small,
        1 => Family::Large,
        _ => return None,
    };
    let chain_bytes: [u8; 64] = exact(chain)?;
    let mut chain = [0; 16];
    for (word, four) in chain.iter_mut().zip(chain_bytes.chunks(4)) {
        *word = u32::from_be_bytes([four[0], four[1], four[2], four[3]]);
    }
    let (m, salt, held) = (number16(m)?, exact(salt)?, exact(held)?);
    let (covered, compressed) = (number64(covered)?, number64(compressed)?);
    Some(State { family, m, salt, chain, covered, compressed, held })
}

/// Decimal digits only, at most 2^64 - 1.
fn number64(word: &str) -> Option<u64> {
    if word.is_empty() || !word.bytes().all(|b| b.is_ascii_digit()) {
        return None;
    }
    word.parse().ok()
}

/// The same, at most 65,535.
pub fn number16(word: &str) -> Option<u16> {
    u16::try_from(number64(word)?).ok()
}

fn digit(b: u8) -> Option<u8> {
    match b {
        b'0'..=b'9' => Some(b - b'0'),
        b'a'..=b'f' => Some(b - b'a' + 10),
        _ => None,
    }
}

/// A byte string: `-`, or lower-case hex of at most 40,000 bytes.
pub fn bytes(word: &str) -> Option<Vec<u8>> {
    if word == "-" {
        return Some(Vec::new());
    }
    if word.is_empty() || word.len() % 2 == 1 || word.len() > 2 * STRING_MOST {
        return None;
    }
    word.as_bytes().chunks(2).map(|two| Some(16 * digit(two[0])? + digit(two[1])?)).collect()
}

/// A byte string of exactly N bytes.
pub fn exact<const N: usize>(word: &str) -> Option<[u8; N]> {
    bytes(word)?.try_into().ok()
}
