//! The stack that a function of a built program takes on the way through another one, from the disassembly.
//!
//! Usage: objdump -d --no-show-raw-insn PROGRAM | stack FUNCTION THROUGH MOST
//!
//! A frame is the return address, what is pushed and what is taken off the stack pointer; below it comes the deepest
//! chain of calls that goes through THROUGH, a call into the C library counting 8 bytes. Prints the bytes and the chain.
//! Fails where they are more than MOST, or where no chain goes there: then the compiler has put it into its caller.

use std::collections::{BTreeMap, BTreeSet};
use std::io::Read;
use std::process::exit;

#[derive(Default)]
struct Function {
    frame: u64,
    calls: BTreeSet<String>,
}

/// The name on a line that starts a function, as `0000000000001ea0 <NAME>:`.
fn started(line: &str) -> Option<&str> {
    let (address, rest) = line.split_once(" <")?;
    let hex = !address.is_empty() && address.bytes().all(|b| b.is_ascii_hexdigit());
    if hex { rest.strip_suffix(">:") } else { None }
}

/// The bytes that an instruction takes off the stack pointer: `sub $0xd8,%rsp`, or `add` of a negative number.
fn taken(instruction: &str) -> u64 {
    let words: Vec<&str> = instruction.split_whitespace().collect();
    let number = |text: &str| u64::from_str_radix(text.strip_prefix("$0x")?.strip_suffix(",%rsp")?, 16).ok();
    match words[..] {
        ["push", _] => 8,
        ["sub", bytes] => number(bytes).unwrap_or(0),
        ["add", bytes] => number(bytes).map_or(0, |n| if n >> 63 == 1 { n.wrapping_neg() } else { 0 }),
        _ => 0,
    }
}

/// The function that an instruction goes to, as `call 2070 <NAME>`; a place inside one, as `<NAME+0x1c>`, is left out.
fn called(instruction: &str) -> Option<String> {
    let mut words = instruction.splitn(3, char::is_whitespace).filter(|word| !word.is_empty());
    let goes = matches!(words.next()?, "call" | "callq" | "jmp" | "jmpq");
    let (_, name) = instruction.split_once('<')?;
    let name = name.strip_suffix('>')?;
    (goes && !name.contains("+0x")).then(|| name.to_string())
}

fn functions(text: &str) -> BTreeMap<String, Function> {
    let mut all = BTreeMap::new();
    let mut name = String::new();
    for line in text.lines() {
        if let Some(next) = started(line) {
            name = next.to_string();
            all.insert(name.clone(), Function { frame: 8, calls: BTreeSet::new() });
        } else if let Some(function) = all.get_mut(&name) {
            let instruction = line.rsplit('\t').next().unwrap_or("").trim();
            function.frame += taken(instruction);
            function.calls.extend(called(instruction).filter(|other| *other != name));
        }
    }
    all
}

/// The deepest chain from a function down that goes through another one, and its names. None may come back to itself: it
/// would have no depth.
fn deepest(all: &BTreeMap<String, Function>, name: &str, through: &str, above: &[&str]) -> Option<(u64, String)> {
    let path: Vec<&str> = above.iter().copied().chain([name]).collect();
    let Some(function) = all.get(name).filter(|_| !name.ends_with("@plt")) else {
        return path.contains(&through).then(|| (8, name.to_string()));
    };
    if above.contains(&name) {
        println!("stack: {name} calls itself");
        exit(1);
    }
    match function.calls.iter().filter_map(|other| deepest(all, other, through, &path)).max() {
        Some((below, chain)) => Some((function.frame + below, format!("{name} > {chain}"))),
        None => path.contains(&through).then(|| (function.frame, name.to_string())),
    }
}

fn main() {
    let words: Vec<String> = std::env::args().collect();
    let most: u64 = words[3].parse().expect("a number of bytes");
    let mut text = String::new();
    std::io::stdin().read_to_string(&mut text).expect("a disassembly");
    let Some((bytes, chain)) = deepest(&functions(&text), &words[1], &words[2], &[]) else {
        println!("stack: no way from {} through {}", words[1], words[2]);
        exit(1);
    };
    println!("stack: {bytes} bytes, {chain}");
    if bytes > most {
        println!("stack: more than {most}");
        exit(1);
    }
}
