//! Comparison of the places of refusals with offsets worked out by hand, with texts written out,
//! and with rules over fronts of a log, which are put in another way than its reader.

use crate::lines::answer_all;
use crate::log::{check, printed, printed_check, Answer, Verdict};
use crate::parts::{contents, Parts};
use crate::random::Random;
use crate::samples::{self, longest, smallest};
use crate::selftest::Tally;

/// Changes to a log that is accepted: places and the bytes put there, bytes kept (zeros past its
/// end), the number, the offset.
type Fault = (&'static [(usize, u8)], usize, u8, usize);

/// Document 01's log: 40 bytes, counts at 0, 2, 36 and 38, all zero but for the 1 at 2.
const SMALLEST_FAULTS: [Fault; 28] = [
    (&[], 0, 6, 0),
    (&[], 1, 6, 1),
    (&[], 2, 6, 2),
    (&[], 3, 6, 3),
    (&[], 4, 6, 4),
    (&[], 35, 6, 35),
    (&[], 36, 6, 36),
    (&[], 37, 6, 37),
    (&[], 38, 6, 38),
    (&[], 39, 6, 39),
    (&[], 41, 6, 40),
    (&[], 42, 6, 40),
    (&[], 80, 6, 40),
    (&[(0, 1)], 40, 7, 0),
    (&[(1, 255)], 40, 7, 0),
    (&[(0, 32)], 40, 7, 34),
    (&[(2, 0)], 40, 7, 2),
    (&[(3, 1)], 40, 7, 2),
    (&[(2, 2)], 40, 6, 40),
    (&[(36, 1), (37, 4)], 40, 7, 36),
    (&[(37, 5)], 40, 7, 36),
    (&[(36, 1)], 40, 6, 40),
    (&[(36, 1), (38, 1)], 73, 6, 73),
    (&[(36, 1), (38, 1)], 74, 8, 38),
    (&[(36, 1)], 74, 6, 74),
    (&[(38, 2)], 40, 7, 38),
    (&[(39, 1)], 40, 7, 38),
    (&[(38, 1)], 71, 6, 71),
];

/// The log of `open_log`: 148 bytes, counts at 0, 2, 36 and 146, events at 38, 74 and 110.
const OPEN_FAULTS: [Fault; 28] = [
    (&[], 38, 6, 38),
    (&[], 73, 6, 73),
    (&[], 74, 6, 74),
    (&[], 75, 6, 75),
    (&[], 109, 6, 109),
    (&[], 146, 6, 146),
    (&[], 147, 6, 147),
    (&[], 149, 6, 148),
    (&[], 188, 6, 148),
    (&[(0, 32)], 148, 7, 34),
    (&[(2, 2)], 148, 7, 68),
    (&[(2, 24)], 148, 6, 148),
    (&[(36, 0)], 148, 6, 40),
    (&[(36, 2)], 148, 6, 112),
    (&[(36, 4)], 148, 6, 148),
    (&[(36, 4)], 182, 6, 182),
    (&[(37, 4)], 148, 7, 36),
    (&[(38, 1)], 148, 8, 38),
    (&[(74, 1)], 148, 8, 74),
    (&[(110, 1)], 148, 8, 110),
    (&[(39, 1)], 148, 8, 38),
    (&[(75, 255)], 148, 8, 74),
    (&[(74, 1), (110, 1)], 148, 8, 74),
    (&[(110, 1)], 145, 6, 145),
    (&[(110, 1)], 146, 8, 110),
    (&[(146, 1)], 148, 6, 148),
    (&[(146, 2)], 148, 7, 146),
    (&[(146, 24)], 147, 6, 147),
];

/// The log of `full_log`: 240 bytes, counts at 0, 34, 100 and 174, events at 102 and 138.
const FULL_FAULTS: [Fault; 47] = [
    (&[], 33, 6, 33),
    (&[], 34, 6, 34),
    (&[], 35, 6, 35),
    (&[], 36, 6, 36),
    (&[], 99, 6, 99),
    (&[], 101, 6, 101),
    (&[], 137, 6, 137),
    (&[], 175, 6, 175),
    (&[], 176, 6, 176),
    (&[], 239, 6, 239),
    (&[], 241, 6, 240),
    (&[], 280, 6, 240),
    (&[(0, 31)], 240, 7, 0),
    (&[(0, 33)], 240, 7, 0),
    (&[(1, 1)], 240, 7, 0),
    (&[(0, 31)], 2, 7, 0),
    (&[(0, 31)], 1, 6, 1),
    (&[(0, 0)], 240, 7, 2),
    (&[(34, 0)], 240, 7, 34),
    (&[(34, 25)], 240, 7, 34),
    (&[(35, 1)], 240, 7, 34),
    (&[(34, 25)], 36, 7, 34),
    (&[(34, 25)], 35, 6, 35),
    (&[(34, 1)], 240, 7, 68),
    (&[(34, 3)], 240, 7, 132),
    (&[(101, 4)], 240, 7, 100),
    (&[(100, 255), (101, 255)], 102, 7, 100),
    (&[(100, 255), (101, 255)], 101, 6, 101),
    (&[(100, 0)], 240, 7, 102),
    (&[(100, 1)], 240, 6, 140),
    (&[(100, 3)], 240, 8, 174),
    (&[(102, 2)], 240, 8, 102),
    (&[(103, 1)], 240, 8, 102),
    (&[(102, 2)], 103, 6, 103),
    (&[(102, 2)], 137, 6, 137),
    (&[(102, 2)], 138, 8, 102),
    (&[(138, 255), (139, 255)], 240, 8, 138),
    (&[(102, 2), (138, 2)], 240, 8, 102),
    (&[(174, 1)], 240, 7, 174),
    (&[(174, 3)], 240, 7, 174),
    (&[(174, 24)], 240, 7, 174),
    (&[(175, 1)], 240, 7, 174),
    (&[(174, 1)], 176, 7, 174),
    (&[(174, 1)], 175, 6, 175),
    (&[(174, 0)], 240, 6, 176),
    (&[(138, 2), (174, 3)], 241, 8, 138),
    (&[(0, 31), (34, 25), (102, 2)], 50, 7, 0),
];

/// The samples that are refused, the good one that each was made from, the offset.
const SAMPLES: [(&str, &str, usize); 10] = [
    ("empty", "smallest", 0),
    ("cut", "agrees", 581),
    ("cut_event", "noclaim", 260),
    ("leftover", "agrees", 588),
    ("salt_count", "noclaim", 0),
    ("count", "noclaim", 34),
    ("event_count", "noclaim", 132),
    ("claim_count", "agrees", 458),
    ("register", "noclaim", 206),
    ("too_long", "longest", 38_440),
];

/// Lines of a case file and their answers, written out.
const LINES: [(&str, &str); 6] = [
    ("check - -", "check 6 0 0 0 0 noclaim -\n"),
    ("check - ff", "check 6 0 0 0 0 noclaim ff\n"),
    ("check 20 ff", "check 6 1 0 0 0 noclaim ff\n"),
    ("check 2100 ffff", "check 7 0 0 0 0 noclaim ffff\n"),
    ("check 000018 -", "check 6 3 0 0 0 noclaim -\n"),
    ("check 00001900 -", "check 7 2 0 0 0 noclaim -\n"),
];

pub fn place_values(tally: &mut Tally) {
    fault_values(tally);
    text_values(tally);
    no_place_values(tally);
    cut_values(tally);
    leftover_values(tally);
    front_values(tally);
    behind_values(tally);
    sample_values(tally);
    line_values(tally);
}

/// One register, three events of it, no salt, no claims.
fn open_log() -> Vec<u8> {
    let event = [&[0, 0, 0x34, 0x12], &[0x71; 32][..]].concat();
    [&[0, 0, 1, 0], &[0x61; 32][..], &[3, 0], &event, &event, &event, &[0, 0]].concat()
}

/// A salt, two registers, an event of each, two claims.
fn full_log() -> Vec<u8> {
    let pieces: [&[u8]; 12] = [
        &[32, 0],
        &[0x51; 32],
        &[2, 0],
        &[0x61; 32],
        &[0x62; 32],
        &[2, 0, 1, 0, 0x34, 0x12],
        &[0x71; 32],
        &[0, 0, 0xff, 0xff],
        &[0x72; 32],
        &[2, 0],
        &[0x81; 32],
        &[0x82; 32],
    ];
    pieces.concat()
}

/// Name of a log, the log, its faults.
fn written_out() -> [(&'static str, Vec<u8>, &'static [Fault]); 3] {
    [
        ("the 40-byte log", smallest(), &SMALLEST_FAULTS),
        ("the open log", open_log(), &OPEN_FAULTS),
        ("the full log", full_log(), &FULL_FAULTS),
    ]
}

fn changed(log: &[u8], changes: &[(usize, u8)], bytes: usize) -> Vec<u8> {
    let mut log = log.to_vec();
    log.resize(bytes.max(log.len()), 0);
    for &(place, byte) in changes {
        log[place] = byte;
    }
    log.truncate(bytes);
    log
}

/// The log with each of the faults.
fn faulty(log: &[u8], faults: &[Fault]) -> Vec<Vec<u8>> {
    faults.iter().map(|(changes, bytes, ..)| changed(log, changes, *bytes)).collect()
}

/// The number and the place that the check answers with room for all records.
fn place_of(log: &[u8]) -> (u8, Option<usize>) {
    let answer = check(log, &mut [0; 816]);
    (answer.number, answer.place)
}

/// Whether the log is refused so with buffers short and long, nothing being written and the rest of
/// the answer being zero.
fn refused_at(log: &[u8], number: u8, offset: usize) -> bool {
    let (place, verdict) = (Some(offset), Verdict::NoClaim);
    let right = Answer { number, place, registers: 0, events: 0, blocks: 0, verdict };
    [0, 1, 33, 34, 67, 68, 816].iter().all(|&room| {
        let mut buffer = vec![0xaa; room];
        let answer = check(log, &mut buffer);
        answer == right && answer.offset() == offset && buffer == vec![0xaa; room]
    })
}

/// Each refusal at each section, the offsets by hand; and the logs as they are.
fn fault_values(tally: &mut Tally) {
    for (name, log, faults) in written_out() {
        tally.value(&format!("{name}, accepted"), place_of(&log) == (0, None));
        for &(changes, bytes, number, offset) in faults {
            let right = refused_at(&changed(&log, changes, bytes), number, offset);
            tally.value(&format!("{name} with {changes:?}, {bytes} bytes"), right);
        }
    }
}

/// Printed texts, written out.
fn text_values(tally: &mut Tally) {
    let full = |changes: &[(usize, u8)], bytes| changed(&full_log(), changes, bytes);
    let texts = [
        (vec![], "refused 6 at 0\n"),
        (vec![0], "refused 6 at 1\n"),
        (vec![255, 255], "refused 7 at 0\n"),
        (changed(&smallest(), &[], 39), "refused 6 at 39\n"),
        (changed(&smallest(), &[], 41), "refused 6 at 40\n"),
        (changed(&smallest(), &[], 80), "refused 6 at 40\n"),
        (full(&[(0, 31)], 240), "refused 7 at 0\n"),
        (full(&[(34, 25)], 240), "refused 7 at 34\n"),
        (full(&[(101, 255)], 240), "refused 7 at 100\n"),
        (full(&[(102, 2)], 240), "refused 8 at 102\n"),
        (full(&[(139, 1)], 240), "refused 8 at 138\n"),
        (full(&[(174, 3)], 240), "refused 7 at 174\n"),
        (full(&[], 200), "refused 6 at 200\n"),
        (full(&[], 250), "refused 6 at 240\n"),
        (changed(&longest(), &[], 38_439), "refused 6 at 38439\n"),
        (changed(&longest(), &[], 38_441), "refused 6 at 38440\n"),
        (changed(&longest(), &[], 40_000), "refused 6 at 38440\n"),
        (changed(&longest(), &[(34, 25)], 38_440), "refused 7 at 34\n"),
        (changed(&longest(), &[(37_634, 24)], 38_440), "refused 8 at 37634\n"),
        (changed(&longest(), &[(37_670, 23)], 38_440), "refused 7 at 37670\n"),
    ];
    for (log, text) in texts {
        let label = format!("printed for {} bytes: {}", log.len(), text.trim_end());
        tally.value(&label, printed_check(&log) == text);
    }
}

/// Answers without a place: refusal 5 and accepted logs. Their offset is 0, as that of a place 0.
fn no_place_values(tally: &mut Tally) {
    for (name, log, _) in written_out() {
        let records = 34 * if log.len() == 240 { 2 } else { 1 };
        let mut short = vec![0xaa; records - 1];
        let answer = check(&log, &mut short);
        let right = (answer.number, answer.place, answer.offset()) == (5, None, 0);
        tally.value(&format!("{name}, short buffer"), right && short == vec![0xaa; records - 1]);
        tally.value(&format!("{name}, refused 5"), printed(&answer, &short) == "refused 5\n");
        let answer = check(&log, &mut vec![0; records]);
        let right = (answer.number, answer.place, answer.offset()) == (0, None, 0);
        tally.value(&format!("{name}, exact buffer"), right);
    }
    let empty = check(&[], &mut []);
    let right = (empty.number, empty.place, empty.offset()) == (6, Some(0), 0);
    tally.value("the empty log has a place", right);
    let without = printed(&Answer { place: None, ..empty }, &[]);
    let right = printed(&empty, &[]) == "refused 6 at 0\n" && without == "refused 6\n";
    tally.value("place 0 is not no place", right);
}

/// Random logs: salted and not, some registers, no events to many, with and without claims.
fn random_logs() -> Vec<Vec<u8>> {
    let mut random = Random::new(41);
    let sizes = [(1, 0), (1, 3), (2, 1), (3, 2), (4, 0), (2, 5)];
    let mut logs = Vec::new();
    for (registers, events) in sizes {
        for salted in [false, true] {
            let parts = Parts::random(&mut random, salted, registers, events);
            logs.extend([parts.bytes(), parts.claimed().bytes()]);
        }
    }
    logs
}

/// A cut log's offset is its size, at every place.
fn cut_values(tally: &mut Tally) {
    let cut = |log: &[u8], bytes: usize| place_of(&log[..bytes]) == (6, Some(bytes));
    for (name, log, _) in written_out() {
        tally.value(&format!("{name} cut"), (0..log.len()).all(|bytes| cut(&log, bytes)));
    }
    let right = random_logs().iter().all(|log| (0..log.len()).all(|bytes| cut(log, bytes)));
    tally.value("random logs cut", right);
    let mut random = Random::new(43);
    let forty = Parts::random(&mut random, true, 2, 40).claimed().bytes();
    tally.value("a log of 40 events cut", (0..forty.len()).all(|bytes| cut(&forty, bytes)));
    let log = longest();
    let right = (0..log.len()).step_by(1999).chain([38_438, 38_439]).all(|bytes| cut(&log, bytes));
    tally.value("the longest log cut", right);
}

/// Leftovers start where a log that is accepted ends, whatever they are.
fn leftover_values(tally: &mut Tally) {
    let mut random = Random::new(47);
    let mut logs = random_logs();
    logs.extend(written_out().map(|(_, log, _)| log));
    for bytes in [1, 2, 40, 1000] {
        let right = logs.iter().all(|log| {
            let extra = [vec![0; bytes], vec![0xff; bytes], random.bytes(bytes)];
            let refused = |more: &Vec<u8>| refused_at(&[&log[..], more].concat(), 6, log.len());
            place_of(log) == (0, None) && extra.iter().all(refused)
        });
        tally.value(&format!("leftovers of {bytes} bytes"), right);
    }
    let right = logs.iter().all(|log| {
        let twice = [&log[..], log].concat();
        refused_at(&twice, 6, log.len())
    });
    tally.value("a log and the same again", right);
}

/// Where the counts and the registers of events stand in an accepted log.
fn field_places(log: &[u8]) -> Vec<usize> {
    let [salt, registers, events, _] = contents(log).map(|section| section.len());
    let (start, event_count) = (2 + salt, 4 + salt + registers);
    let claims = event_count + 2 + events;
    let event_places = (event_count + 2..claims).step_by(36);
    [0, start, event_count, claims].into_iter().chain(event_places).collect()
}

/// Logs with one or two bytes spoiled, mostly of counts and registers, some cut or lengthened.
fn spoiled_logs() -> Vec<Vec<u8>> {
    let mut random = Random::new(53);
    let mut logs = Vec::new();
    for log in random_logs() {
        let fields = field_places(&log);
        for turn in 0..12 {
            let mut spoiled = log.clone();
            for _ in 0..1 + turn % 2 {
                let field = random.one_of(&fields) + random.below(2);
                let anywhere = random.below(log.len());
                let place = random.one_of(&[field, field, anywhere]);
                spoiled[place] = random.one_of(&[0, 1, 2, 3, 4, 31, 32, 255]);
            }
            let bytes = random.one_of(&[log.len(), log.len(), log.len() - 5, log.len() + 5]);
            spoiled.resize(bytes, 0);
            logs.push(spoiled);
        }
    }
    logs
}

/// How many of the logs are accepted, cut, lengthened, refused with 7 and with 8.
fn kinds(logs: &[Vec<u8>]) -> [usize; 5] {
    let mut kinds = [0; 5];
    for log in logs {
        let kind = match place_of(log) {
            (0, _) => 0,
            (6, Some(offset)) if offset == log.len() => 1,
            (6, _) => 2,
            (7, _) => 3,
            _ => 4,
        };
        kinds[kind] += 1;
    }
    kinds
}

/// Whether the fronts of a log tell its place: each too short to show the fault is cut at its own
/// size, but for the one that is accepted where leftovers begin; all others are answered alike.
fn fronts_tell(log: &[u8]) -> bool {
    let answer = place_of(log);
    let (shown, whole) = match answer {
        (7, Some(offset)) => (offset + 2, None),
        (8, Some(offset)) => (offset + 36, None),
        (6, Some(offset)) if offset < log.len() => (offset + 1, Some(offset)),
        _ => (log.len(), None),
    };
    (0..=log.len()).all(|bytes| {
        let right = if Some(bytes) == whole {
            (0, None)
        } else if bytes < shown {
            (6, Some(bytes))
        } else {
            answer
        };
        place_of(&log[..bytes]) == right
    })
}

/// Where a log is refused with 7 or 8: the number, the offset, and the log up to the end of the
/// field there; none of it where the field is not in the log.
fn spoiled_field(log: &[u8]) -> Option<(u8, usize, Option<&[u8]>)> {
    match place_of(log) {
        (number @ (7 | 8), Some(offset)) => Some((number, offset, log.get(..offset + 2))),
        _ => None,
    }
}

/// Whether the field at the place is to blame: with another number in it the log is accepted, or
/// the place is a later one.
fn mended(log: &[u8]) -> bool {
    let Some((_, offset, up_to_field)) = spoiled_field(log) else {
        return true;
    };
    let later = |number: u8| {
        let other = changed(log, &[(offset, number), (offset + 1, 0)], log.len());
        place_of(&other).1.map_or(true, |place| place > offset)
    };
    up_to_field.is_some() && (later(0) || later(1))
}

fn front_values(tally: &mut Tally) {
    for (name, log, faults) in written_out() {
        let logs = faulty(&log, faults);
        tally.value(&format!("fronts of {name}"), logs.iter().all(|log| fronts_tell(log)));
        tally.value(&format!("{name} mended"), logs.iter().all(|log| mended(log)));
    }
    let logs = spoiled_logs();
    tally.value("spoiled logs of every kind", kinds(&logs).iter().all(|&number| number >= 20));
    tally.value("fronts of spoiled logs", logs.iter().all(|log| fronts_tell(log)));
    tally.value("spoiled logs mended", logs.iter().all(|log| mended(log)));
}

/// Whether bytes behind a count that is not allowed, and behind an event whose register is not
/// there, have no influence, nor that event's label and digest.
fn behind_is_nothing(log: &[u8]) -> bool {
    let Some((number, offset, up_to_field)) = spoiled_field(log) else {
        return true;
    };
    let event_rest = if number == 8 { 34 } else { 0 };
    let unchanged = |front: &[u8], byte: u8, behind: usize| {
        let other = [front, &vec![byte; event_rest + behind]].concat();
        place_of(&other) == (number, Some(offset))
    };
    up_to_field.is_some_and(|front| {
        let bytes = [0x00, 0x01, 0x19, 0xff];
        bytes.iter().all(|&byte| [0, 1, 2, 36, 300].iter().all(|&n| unchanged(front, byte, n)))
    })
}

fn behind_values(tally: &mut Tally) {
    for (name, log, faults) in written_out() {
        let right = faulty(&log, faults).iter().all(|log| behind_is_nothing(log));
        tally.value(&format!("bytes behind the faults of {name}"), right);
    }
    let right = spoiled_logs().iter().all(|log| behind_is_nothing(log));
    tally.value("bytes behind the faults of spoiled logs", right);
}

/// The samples that are refused: their offset is the length of what they share with the good log,
/// and the text beside each names it. Every log has a text beside it.
fn sample_values(tally: &mut Tally) {
    let (logs, texts) = (samples::all(), samples::texts());
    let log_of = |name: &str| {
        let found = logs.iter().find(|(other, _)| *other == format!("{name}.log"));
        found.map(|(_, log)| &log[..]).unwrap_or_default()
    };
    let text_of = |name: &str| {
        let found = texts.iter().find(|(other, _)| *other == format!("{name}.txt"));
        found.map(|(_, text)| &text[..]).unwrap_or_default()
    };
    for (name, good, offset) in SAMPLES {
        let pairs = log_of(name).iter().zip(log_of(good));
        let shared = pairs.take_while(|(byte, right)| byte == right).count();
        let right = shared == offset && text_of(name).ends_with(&format!(" at {offset}\n"));
        tally.value(&format!("place in {name}.log"), right);
    }
    tally.value("text beside empty.log", text_of("empty") == "refused 6 at 0\n");
    let right = text_of("smallest") == format!("accepted 1 0 0 noclaim\n0 0 {}\n", "0".repeat(64));
    tally.value("text beside smallest.log", right);
    let beside = |(name, log): &(&str, Vec<u8>)| {
        name.strip_suffix(".log").map(text_of) == Some(&printed_check(log))
    };
    tally.value("texts beside all", logs.len() == texts.len() && logs.iter().all(beside));
}

fn line_values(tally: &mut Tally) {
    for (line, answer) in LINES {
        tally.value(line, answer_all(line.as_bytes()) == answer);
    }
    // Document 01's log with an event of register 1, which is not there; then with a byte more.
    let zeros = |count: usize| "00".repeat(count);
    let event = format!("check 00000100{}01000100{} ff", zeros(32), zeros(34));
    let right = answer_all(event.as_bytes()) == "check 8 38 0 0 0 noclaim ff\n";
    tally.value("a check line with an event's place", right);
    let longer = format!("check 00000100{}00000000ff ff", zeros(32));
    let right = answer_all(longer.as_bytes()) == "check 6 40 0 0 0 noclaim ff\n";
    tally.value("a check line with a leftover's place", right);
}
