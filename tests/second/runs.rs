//! The files of registers and events and the runs of the `write` mode that the `parts` mode writes.

use crate::lines::hex;
use crate::parts::{contents, Parts, EVENT_BYTES, VALUE_BYTES};
use crate::random::Random;
use crate::samples;
use crate::write::Lent;
use std::path::Path;

/// The sample logs whose registers and events are among the files.
const SAMPLES: [&str; 3] = ["agrees", "noclaim", "longest"];

/// Names of files of registers, and their bytes.
const REGISTER_FILES: [(&str, usize); 6] = [
    ("none.registers", 0),
    ("one.registers", VALUE_BYTES),
    ("twentyfive.registers", 25 * VALUE_BYTES),
    ("short.registers", VALUE_BYTES - 1),
    ("over.registers", VALUE_BYTES + 1),
    ("longest_over.registers", 24 * VALUE_BYTES + 1),
];

/// Names of files of events of register 0, and their bytes.
const EVENT_FILES: [(&str, usize); 6] = [
    ("none.events", 0),
    ("one.events", EVENT_BYTES),
    ("many.events", 1025 * EVENT_BYTES),
    ("short.events", EVENT_BYTES - 1),
    ("over.events", EVENT_BYTES + 1),
    ("longest_over.events", 1024 * EVENT_BYTES + 1),
];

/// Names of files of three events, the place of the one whose register is not 0, and that register.
/// The last event of the last one is broken.
const OUTSIDE_FILES: [(&str, usize, u16); 4] = [
    ("outside.events", 2, 4),
    ("high.events", 1, 256),
    ("last.events", 0, 65_535),
    ("outside_short.events", 0, 65_535),
];

/// One run: the words after `write`, the number of the refusal or 0, and the sample log that comes
/// out, where one does.
pub struct Run {
    pub words: String,
    pub number: u8,
    pub sample: Option<&'static str>,
}

/// Events of register 0.
fn events(random: &mut Random, count: usize) -> Parts {
    Parts::random(random, false, 1, count)
}

/// Name and contents of each file.
pub fn files() -> Vec<(String, Vec<u8>)> {
    let mut random = Random::new(17);
    let mut files = Vec::new();
    for name in SAMPLES {
        let [_, registers, events, _] = contents(&samples::named(&format!("{name}.log")));
        files.push((format!("{name}.registers"), registers));
        files.push((format!("{name}.events"), events));
    }
    files.push(("zero.registers".to_string(), vec![0; VALUE_BYTES]));
    for (name, size) in REGISTER_FILES {
        files.push((name.to_string(), random.bytes(size)));
    }
    for (name, size) in EVENT_FILES {
        let parts = events(&mut random, size.div_ceil(EVENT_BYTES));
        files.push((name.to_string(), Lent::of(&parts, false).events[..size].to_vec()));
    }
    for (name, place, register) in OUTSIDE_FILES {
        let mut parts = events(&mut random, 3);
        parts.events[place].register = register;
        let mut bytes = Lent::of(&parts, false).events;
        if name == "outside_short.events" {
            bytes.pop();
        }
        files.push((name.to_string(), bytes));
    }
    files
}

/// A sample log's own salt in hex.
fn salt_of(name: &str) -> String {
    hex(&contents(&samples::named(name))[0])
}

/// Runs that write a sample log, or would but for the salt or the wish for claims.
fn sample_runs() -> Vec<Run> {
    let open = salt_of("noclaim.log");
    let upper = open.to_uppercase();
    let longest = salt_of("longest.log");
    let same = |words: String, sample| Run { words, number: 0, sample: Some(sample) };
    let other = |words: String| Run { words, number: 0, sample: None };
    vec![
        same("agrees.registers agrees.events --claims".to_string(), "agrees.log"),
        same("--claims agrees.registers agrees.events".to_string(), "agrees.log"),
        same("agrees.registers --claims agrees.events".to_string(), "agrees.log"),
        other("agrees.registers agrees.events".to_string()),
        other(format!("agrees.registers agrees.events --claims --salt {open}")),
        same(format!("noclaim.registers noclaim.events --salt {open}"), "noclaim.log"),
        same(format!("--salt {open} noclaim.registers noclaim.events"), "noclaim.log"),
        same(format!("noclaim.registers --salt {upper} noclaim.events"), "noclaim.log"),
        other(format!("noclaim.registers noclaim.events --salt {upper} --claims")),
        other(format!("--claims --salt {open} noclaim.registers noclaim.events")),
        other(format!("--salt {open} noclaim.registers --claims noclaim.events")),
        other(format!("noclaim.registers --claims --salt {open} noclaim.events")),
        other("noclaim.registers noclaim.events".to_string()),
        other("noclaim.registers noclaim.events --claims".to_string()),
        other(format!("noclaim.registers noclaim.events --claims --salt {}", "00".repeat(32))),
        same(format!("longest.registers longest.events --salt {longest} --claims"), "longest.log"),
        other(format!("longest.registers longest.events --salt {longest}")),
        other("longest.registers longest.events --claims".to_string()),
        same("zero.registers none.events".to_string(), "smallest.log"),
    ]
}

/// Runs at the edges of the counts, and refusals in their order.
fn edge_runs() -> Vec<Run> {
    let (short, over) = ("5a".repeat(31), "A5".repeat(33));
    let runs = [
        ("zero.registers none.events --claims".to_string(), 0),
        ("one.registers one.events --claims".to_string(), 0),
        ("longest.registers none.events --claims".to_string(), 0),
        ("longest.registers outside.events".to_string(), 0),
        (format!("agrees.registers agrees.events --salt {short}"), 2),
        (format!("--salt {over} agrees.registers agrees.events"), 2),
        ("none.registers none.events".to_string(), 7),
        ("twentyfive.registers one.events".to_string(), 7),
        ("short.registers one.events".to_string(), 7),
        ("over.registers none.events".to_string(), 7),
        ("longest_over.registers none.events --claims".to_string(), 7),
        ("agrees.registers many.events".to_string(), 7),
        ("agrees.registers short.events --claims".to_string(), 7),
        ("agrees.registers over.events".to_string(), 7),
        ("agrees.registers longest_over.events".to_string(), 7),
        ("agrees.registers outside.events".to_string(), 8),
        ("--claims longest.registers high.events".to_string(), 8),
        ("longest.registers last.events".to_string(), 8),
        (format!("none.registers agrees.events --claims --salt {over}"), 2),
        (format!("--salt {short} one.registers outside.events"), 2),
        ("twentyfive.registers last.events".to_string(), 7),
        ("one.registers outside_short.events".to_string(), 7),
    ];
    runs.map(|(words, number)| Run { words, number, sample: None }).into()
}

pub fn all() -> Vec<Run> {
    let mut runs = sample_runs();
    runs.extend(edge_runs());
    runs
}

pub fn write(folder: &Path) -> std::io::Result<()> {
    std::fs::create_dir_all(folder)?;
    for (name, bytes) in files() {
        std::fs::write(folder.join(name), bytes)?;
    }
    let lines: String = all().iter().map(|run| format!("{}\n", run.words)).collect();
    std::fs::write(folder.join("runs"), lines)
}
