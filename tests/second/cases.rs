//! The case file: its writer and the order of its parts.

use crate::digest::{LastBits, State};
use crate::hash::Family;
use crate::keyed::Keyed;
use crate::lines::{hex, last_text, state_text, write_text};
use crate::lines_keyed::keyed_text;
use crate::random::Random;
use crate::write::Lent;
use crate::{
    cases_bits, cases_keyed, cases_log, cases_message, cases_places, cases_records, cases_round,
    cases_saved, cases_state, cases_write,
};

pub const FAMILIES: [Family; 2] = [Family::Small, Family::Large];

/// Collects the lines of a case file.
pub struct Writer {
    pub text: String,
    pub random: Random,
}

impl Writer {
    pub fn line(&mut self, line: &str) {
        self.text += line;
        self.text.push('\n');
    }

    pub fn comment(&mut self, comment: &str) {
        self.line(&format!("# {comment}"));
    }

    pub fn begin(&mut self, m: u16, salt: &[u8]) {
        self.line(&format!("begin {m} {}", hex(salt)));
    }

    pub fn state(&mut self, state: &State) {
        self.line(&format!("state {}", state_text(state)));
    }

    pub fn add(&mut self, data: &[u8]) {
        self.line(&format!("add {}", hex(data)));
    }

    /// An add of random bytes.
    pub fn add_some(&mut self, count: usize) {
        let data = self.random.bytes(count);
        self.add(&data);
    }

    /// A finish of whole bytes with a lent buffer of random bytes.
    pub fn finish(&mut self, buffer_size: usize) {
        let buffer = self.random.bytes(buffer_size);
        self.finish_bits(LastBits::NONE, &buffer);
    }

    pub fn finish_bits(&mut self, last: LastBits, buffer: &[u8]) {
        self.line(&format!("finish {} {}", last_text(last), hex(buffer)));
    }

    /// A one-shot of whole bytes with a lent buffer of random bytes.
    pub fn oneshot(&mut self, m: u16, salt: &[u8], data: &[u8], buffer_size: usize) {
        let buffer = self.random.bytes(buffer_size);
        self.oneshot_bits(m, salt, data, LastBits::NONE, &buffer);
    }

    pub fn oneshot_bits(
        &mut self,
        m: u16,
        salt: &[u8],
        data: &[u8],
        last: LastBits,
        buffer: &[u8],
    ) {
        let words = [hex(salt), hex(data), last_text(last), hex(buffer)].join(" ");
        self.line(&format!("oneshot {m} {words}"));
    }

    /// A check with a lent buffer of random bytes.
    pub fn check(&mut self, log: &[u8], buffer_size: usize) {
        let buffer = self.random.bytes(buffer_size);
        self.line(&format!("check {} {}", hex(log), hex(&buffer)));
    }

    /// A save into a lent buffer of random bytes.
    pub fn save(&mut self, buffer_size: usize) {
        let buffer = self.random.bytes(buffer_size);
        self.line(&format!("save {}", hex(&buffer)));
    }

    pub fn load(&mut self, form: &[u8]) {
        self.line(&format!("load {}", hex(form)));
    }

    /// A log written into a lent buffer of random bytes.
    pub fn write(&mut self, lent: &Lent, buffer_size: usize) {
        let buffer = self.random.bytes(buffer_size);
        self.line(&write_text(lent, &buffer));
    }

    pub fn round(&mut self, columns: &[u8; 16], subkey: &[u8; 16]) {
        self.line(&format!("round {} {}", hex(columns), hex(subkey)));
    }

    pub fn keybegin(&mut self, m: u16, key: &[u8]) {
        self.line(&format!("keybegin {m} {}", hex(key)));
    }

    pub fn keystate(&mut self, keyed: &Keyed) {
        self.line(&format!("keystate {}", keyed_text(keyed)));
    }

    pub fn keyadd(&mut self, data: &[u8]) {
        self.line(&format!("keyadd {}", hex(data)));
    }

    /// A keyadd of random bytes.
    pub fn keyadd_some(&mut self, count: usize) {
        let data = self.random.bytes(count);
        self.keyadd(&data);
    }

    /// A keyfinish with a lent buffer without zeros, so that a zero of the tag and a byte left alone
    /// both show.
    pub fn keyfinish(&mut self, buffer_size: usize) {
        let buffer: Vec<u8> = (0..buffer_size).map(|_| 1 + self.random.below(255) as u8).collect();
        self.line(&format!("keyfinish {}", hex(&buffer)));
    }

    pub fn keycheck(&mut self, tag: &[u8]) {
        self.line(&format!("keycheck {}", hex(tag)));
    }

    /// A digest length of the family in whole bytes.
    pub fn m_of(&mut self, family: Family) -> u16 {
        let step = 8 * (1 + self.random.below(32) as u16);
        match family {
            Family::Small => step,
            Family::Large => 256 + step,
        }
    }

    /// An empty salt or a random one of the family's size.
    pub fn salt_of(&mut self, family: Family, salted: bool) -> Vec<u8> {
        self.random.bytes(if salted { family.salt_bytes() } else { 0 })
    }

    pub fn coin(&mut self) -> bool {
        self.random.below(2) == 1
    }
}

pub fn text() -> String {
    let mut w = Writer { text: String::new(), random: Random::new(0x5eed_0003) };
    opening(&mut w);
    cases_message::write(&mut w);
    cases_state::write(&mut w);
    cases_log::write(&mut w);
    cases_saved::write(&mut w);
    unreadable(&mut w);
    cases_write::write(&mut w);
    cases_records::write(&mut w);
    cases_bits::write(&mut w);
    cases_places::write(&mut w);
    cases_round::write(&mut w);
    cases_keyed::write(&mut w);
    w.text
}

fn opening(w: &mut Writer) {
    w.comment("the first state is all zero and not consistent");
    w.add(&[]);
    w.add(b"A");
    w.finish(0);
    w.finish(64);
}

fn unreadable(w: &mut Writer) {
    w.comment("lines that are not readable; the state stays");
    w.begin(256, &[]);
    w.add(b"before");
    let zeros = |count: usize| "0".repeat(count);
    let (salt, chain, held) = (zeros(128), zeros(128), zeros(256));
    let lines = [
        "".to_string(),
        " ".to_string(),
        "start 256 -".to_string(),
        "Begin 256 -".to_string(),
        "begin".to_string(),
        "begin 256".to_string(),
        "begin 256 - -".to_string(),
        "begin  256 -".to_string(),
        " begin 256 -".to_string(),
        "begin 256 - ".to_string(),
        "begin 65536 -".to_string(),
        "begin 99999999999999999999999 -".to_string(),
        "begin -8 -".to_string(),
        "begin +8 -".to_string(),
        "begin 0x8 -".to_string(),
        "begin 8. -".to_string(),
        "begin 256 --".to_string(),
        "begin 256 0".to_string(),
        "begin 256 0g".to_string(),
        "add".to_string(),
        "add -0".to_string(),
        "add 414".to_string(),
        "add 4A".to_string(),
        "add 41 41".to_string(),
        "add\t41".to_string(),
        "add 41\r".to_string(),
        "add é".to_string(),
        " # add 41".to_string(),
        "finish".to_string(),
        "finish 00 0 zz".to_string(),
        "finish 00 0 00 00".to_string(),
        "oneshot 256 - - 00 0".to_string(),
        "oneshot 256 - - 00 0 - -".to_string(),
        "oneshot 70000 - - 00 0 00".to_string(),
        "oneshot 8 - 0 00 0 00".to_string(),
        "check -".to_string(),
        "check - - -".to_string(),
        "check 0 -".to_string(),
        format!("state 2 8 {salt} {chain} 0 0 {held}"),
        format!("state 0 65536 {salt} {chain} 0 0 {held}"),
        format!("state 0 8 {} {chain} 0 0 {held}", zeros(126)),
        format!("state 0 8 {} {chain} 0 0 {held}", zeros(64)),
        format!("state 0 8 - {chain} 0 0 {held}"),
        format!("state 0 8 {salt} {} 0 0 {held}", zeros(64)),
        format!("state 0 8 {salt} {} 0 0 {held}", zeros(130)),
        format!("state 0 8 {salt} {chain} 18446744073709551616 0 {held}"),
        format!("state 0 8 {salt} {chain} 0 18446744073709551616 {held}"),
        format!("state 0 8 {salt} {chain} 0 0 {}", zeros(128)),
        format!("state 0 8 {salt} {chain} 0 0 {}", zeros(255)),
        format!("state 0 8 {salt} {chain} 0 0 {held} 0"),
        format!("state 0 8 {salt} {chain} 0 0"),
        format!("add {}", zeros(80_002)),
    ];
    for line in lines {
        w.line(&line);
    }
    w.comment("");
    w.line("#add 41");
    w.line("#");
    w.add(b"after");
    w.finish(32);
    w.comment("the widest numbers are readable");
    let most = u64::MAX;
    w.line(&format!("state 1 65535 {salt} {chain} {most} {most} {held}"));
    w.finish(64);
}
