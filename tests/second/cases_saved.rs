//! Cases of saved forms: writing them, reading them, going on from what was read.

use crate::cases::{Writer, FAMILIES};
use crate::cases_state::{consistent, spoils};
use crate::digest::{add, begin, State, LIMIT};
use crate::hash::Family;
use crate::lines::hex;
use crate::parts::counted;
use crate::random::Random;
use crate::saved::form;

/// Bytes of one entry of each section.
const ENTRY_BYTES: [usize; 5] = [2, 4, 4, 8, 1];

/// The sections whose bytes are not free: parameters, covered.
const RULED: [usize; 2] = [0, 3];

/// Room for the longest form and more.
const ROOM: usize = 300;

pub fn write(w: &mut Writer) {
    // Numbers of their own, so that the cases after these are the same with and without them.
    let others = std::mem::replace(&mut w.random, Random::new(0x5afe_0001));
    for (m, salted) in [(256, false), (160, true), (512, false), (264, true)] {
        every_length(w, m, salted);
    }
    w.comment("handed over by saved forms, then the same bytes at once");
    for turn in 0..18 {
        handed_over(w, FAMILIES[turn % 2]);
    }
    w.comment("saved of states that no start leads to");
    for turn in 0..26 {
        unreached(w, FAMILIES[turn % 2]);
    }
    for family in FAMILIES {
        buffers(w, family);
        spoiled_states(w, family);
        cuts(w, family);
        counts(w, family);
        other_sections(w, family);
        families(w, family);
        digest_lengths(w, family);
        limit(w, family);
        leftovers(w, family);
        changed_bits(w, family);
        after_refusals(w, family);
    }
    longest_string(w);
    unreadable(w);
    w.random = others;
}

fn other(family: Family) -> Family {
    match family {
        Family::Small => Family::Large,
        Family::Large => Family::Small,
    }
}

/// A state that a start leads to, after two blocks and `rest` bytes.
fn started(w: &mut Writer, family: Family, rest: usize) -> State {
    let m = w.m_of(family);
    let salted = w.coin();
    let salt = w.salt_of(family, salted);
    let data = w.random.bytes(2 * family.block_bytes() + rest);
    add(&begin(m, &salt).1, &data).1
}

/// The five sections of the state's form, each with its count in front.
fn sections(state: &State) -> [Vec<u8>; 5] {
    let mut rest = form(state);
    ENTRY_BYTES.map(|size| {
        let back = rest.split_off(2 + size * count_of(&rest));
        std::mem::replace(&mut rest, back)
    })
}

/// The count that a section starts with.
fn count_of(section: &[u8]) -> usize {
    section[0] as usize + 256 * section[1] as usize
}

/// The form with another count in one section, the contents as they were.
fn miscounted(sections: &[Vec<u8>; 5], place: usize, count: usize) -> Vec<u8> {
    let mut spoiled = sections.clone();
    spoiled[place][..2].copy_from_slice(&counted(count));
    spoiled.concat()
}

/// The form with another count in one section, and as many entries there.
fn recounted(sections: &[Vec<u8>; 5], place: usize, count: usize) -> Vec<u8> {
    let mut spoiled = sections.clone();
    spoiled[place][..2].copy_from_slice(&counted(count));
    spoiled[place].resize(2 + count * ENTRY_BYTES[place], 0x5a);
    spoiled.concat()
}

fn longer(form: &[u8], more: usize) -> Vec<u8> {
    [form, &vec![0; more]].concat()
}

/// One digest, saved and read back after each byte.
fn every_length(w: &mut Writer, m: u16, salted: bool) {
    w.comment("every length saved and read back, then one byte more and finished");
    let salt = w.salt_of(Family::of(m), salted);
    let mut state = begin(m, &salt).1;
    w.begin(m, &salt);
    for size in 0..=260 {
        let whole = form(&state);
        w.save(whole.len() + [0, 1, 0, 9][size % 4]);
        w.load(&whole);
        let more = w.random.bytes(1);
        w.add(&more);
        w.finish(m as usize / 8);
        state = add(&state, &more).1;
    }
}

/// A run handed over twice, then the same bytes at once.
fn handed_over(w: &mut Writer, family: Family) {
    let m = w.m_of(family);
    let exact = m as usize / 8;
    let salted = w.coin();
    let salt = w.salt_of(family, salted);
    let mut state = begin(m, &salt).1;
    let mut joined = Vec::new();
    w.begin(m, &salt);
    for _ in 0..2 {
        let size = w.random.below(200);
        let data = w.random.bytes(size);
        w.add(&data);
        state = add(&state, &data).1;
        joined.extend(data);
        let whole = form(&state);
        w.save(whole.len());
        between_stages(w, &whole);
        w.load(&whole);
    }
    let size = w.random.below(200);
    let data = w.random.bytes(size);
    w.add(&data);
    joined.extend(data);
    w.finish(exact);
    w.oneshot(m, &salt, &joined, exact);
}

/// Something that the form just written does not depend on, and the next reading neither.
fn between_stages(w: &mut Writer, form: &[u8]) {
    match w.random.below(5) {
        0 => w.add_some(30),
        1 => w.begin(384, &[]),
        2 => w.load(&form[..form.len() - 1]),
        3 => w.save(form.len() - 1),
        _ => w.finish(64),
    }
}

/// A consistent state that no start leads to, saved, read back and gone on with.
fn unreached(w: &mut Writer, family: Family) {
    let covered = (w.random.next() >> (3 + w.random.below(61))).min(LIMIT - 1000);
    let state = consistent(w, family, covered);
    let whole = form(&state);
    w.state(&state);
    w.save(whole.len());
    w.load(&whole);
    let size = w.random.below(200);
    w.add_some(size);
    w.finish(state.m as usize / 8);
}

fn buffers(w: &mut Writer, family: Family) {
    w.comment("saved into buffers too short, exact and longer");
    let block = family.block_bytes();
    let salted = w.salt_of(family, true);
    let fresh = begin(w.m_of(family), &salted).1;
    let states =
        [fresh, started(w, family, 3), started(w, family, block - 1), consistent(w, family, LIMIT)];
    for state in states {
        let exact = form(&state).len();
        w.state(&state);
        for size in [0, 1, exact / 2, exact - 1, exact, exact + 1, exact + 40] {
            w.save(size);
        }
        w.add(&[]);
        w.finish(64);
    }
}

fn spoiled_states(w: &mut Writer, family: Family) {
    w.comment("saved of spoiled states: not consistent comes before a short buffer");
    let state = started(w, family, 21);
    for spoiled in spoils(&state) {
        w.state(&spoiled);
        w.save(ROOM);
        w.save(0);
    }
    w.comment("saved of a state with the other family's name");
    w.state(&State { family: other(family), ..state });
    w.save(ROOM);
    w.save(0);
}

fn cuts(w: &mut Writer, family: Family) {
    w.comment("a form cut at every place");
    let whole = form(&started(w, family, 5));
    for size in 0..=whole.len() {
        w.load(&whole[..size]);
    }
    w.add_some(1);
    w.comment("no held bytes, cut in the last count and before it");
    let whole = form(&started(w, family, 0));
    for back in 0..4 {
        w.load(&whole[..whole.len() - back]);
    }
    w.comment("a block all but full, its held bytes cut");
    let block = family.block_bytes();
    let whole = form(&started(w, family, block - 1));
    for back in [block - 1, block - 2, block / 2, 1, 0] {
        w.load(&whole[..whole.len() - back]);
    }
}

fn counts(w: &mut Writer, family: Family) {
    w.comment("counts that do not fit, in each section");
    let right = sections(&started(w, family, 3));
    for place in 0..5 {
        let count = count_of(&right[place]);
        for wrong in [count + 1, count - 1, count + 256, count + 0xff00, 256 * count, 0, 65_535] {
            w.load(&miscounted(&right, place, wrong));
        }
        for wrong in [count + 1, count - 1] {
            w.load(&recounted(&right, place, wrong));
            // The count comes before contents that are missing.
            w.load(&[right[..place].concat(), counted(wrong)].concat());
        }
        // Half a count that does not fit is a cut.
        w.load(&[right[..place].concat(), vec![0xee]].concat());
    }
    w.comment("held counts that do not fit the bytes covered");
    let block = family.block_bytes();
    for rest in [0, 1, block / 2, block - 1] {
        let right = sections(&started(w, family, rest));
        for wrong in [0, 1, rest + 1, block - 1, block, 2 * block + rest] {
            if wrong != rest {
                w.load(&recounted(&right, 4, wrong));
            }
        }
    }
}

fn other_sections(w: &mut Writer, family: Family) {
    w.comment("sections of the other family");
    let own = sections(&started(w, family, 3));
    let others = sections(&started(w, other(family), 3));
    for places in [&[0][..], &[1], &[2], &[1, 2], &[0, 1], &[0, 1, 2]] {
        let mut mixed = own.clone();
        for &place in places {
            mixed[place] = others[place].clone();
        }
        w.load(&mixed.concat());
    }
    w.comment("the other family's number alone");
    let mut named = own.clone();
    named[0][2] ^= 1;
    w.load(&named.concat());
    w.load(&named[0]);
}

fn families(w: &mut Writer, family: Family) {
    w.comment("families over 1, looked at after their section and before the salt");
    let right = sections(&started(w, family, 3));
    for number in [2, 255, 256, 65_535] {
        let mut wrong = right.clone();
        wrong[0][2..4].copy_from_slice(&counted(number));
        let whole = wrong.concat();
        w.load(&whole);
        for size in [4, 5, 6, 7, 8, whole.len() - 1] {
            w.load(&whole[..size]);
        }
        w.load(&longer(&whole, 1));
        w.load(&miscounted(&wrong, 0, 3));
        w.load(&miscounted(&wrong, 1, 9));
        wrong[0][4..6].copy_from_slice(&counted(0));
        w.load(&wrong.concat());
        w.load(&wrong[0]);
    }
}

fn digest_lengths(w: &mut Writer, family: Family) {
    w.comment("digest lengths of the other family, not allowed or broken, looked at last");
    let state = started(w, family, 3);
    let others = if family == Family::Small { [264, 384, 512] } else { [8, 160, 256] };
    let odd = [0, 1, 4, 7, 9, 12, 255, 257, 260, 263, 511, 513, 520, 1024, 65_535];
    for m in others.into_iter().chain(odd) {
        w.load(&form(&State { m, ..state.clone() }));
    }
    for m in [others[0], others[2], 0, 513, 520] {
        let wrong = State { m, ..state.clone() };
        let whole = form(&wrong);
        w.load(&whole[..6]);
        w.load(&whole[..whole.len() - 1]);
        w.load(&longer(&whole, 1));
        w.load(&miscounted(&sections(&wrong), 1, 9));
        w.load(&recounted(&sections(&wrong), 4, 4));
    }
    w.comment("the first and last digest lengths of the family");
    for m in if family == Family::Small { [1, 256] } else { [257, 512] } {
        w.load(&form(&State { m, ..state.clone() }));
        w.finish(64);
    }
}

/// Bytes covered at the limit and past it, the held count right and wrong.
fn limit(w: &mut Writer, family: Family) {
    w.comment("bytes covered near the limit and past it");
    let block = family.block_bytes() as u64;
    for covered in [LIMIT - 1, LIMIT, LIMIT + 1, LIMIT + 4, u64::MAX] {
        let rest = covered % block;
        let state = State { covered, ..consistent(w, family, rest) };
        let (whole, right) = (form(&state), sections(&state));
        w.load(&whole);
        w.add_some(1);
        w.add_some(2);
        w.save(whole.len() + 1);
        w.finish(64);
        for wrong in [rest + 1, rest.wrapping_sub(1) % block] {
            w.load(&miscounted(&right, 4, wrong as usize));
            w.load(&recounted(&right, 4, wrong as usize));
        }
        w.load(&longer(&whole, 1));
        w.load(&whole[..whole.len() - 1]);
    }
}

fn leftovers(w: &mut Writer, family: Family) {
    w.comment("left-over bytes, also of a state that is not consistent");
    for rest in [0, 4] {
        let state = started(w, family, rest);
        let whole = form(&state);
        for size in [1, 2, 40] {
            let more = w.random.bytes(size);
            w.load(&[&whole[..], &more].concat());
            w.load(&longer(&whole, size));
            let spoiled = State { m: w.m_of(other(family)), ..state.clone() };
            w.load(&longer(&form(&spoiled), size));
            let covered = LIMIT + 1 + rest as u64;
            w.load(&longer(&form(&State { covered, ..state.clone() }), size));
        }
        w.load(&[&whole[..], &whole[..]].concat());
    }
}

/// The bits to change in one byte of a section: in the counts and the ruled sections all of the
/// small family's and one of the large one's, elsewhere one of every second byte.
fn chosen_bits(w: &mut Writer, family: Family, place: usize, index: usize) -> Vec<usize> {
    if index < 2 || RULED.contains(&place) {
        match family {
            Family::Small => (0..8).collect(),
            Family::Large => vec![w.random.below(8)],
        }
    } else if index % 2 == 0 {
        vec![w.random.below(8)]
    } else {
        Vec::new()
    }
}

fn changed_bits(w: &mut Writer, family: Family) {
    w.comment("one bit changed");
    let right = sections(&started(w, family, 3));
    for place in 0..5 {
        for index in 0..right[place].len() {
            for bit in chosen_bits(w, family, place, index) {
                let mut changed = right.clone();
                changed[place][index] ^= 1 << bit;
                w.load(&changed.concat());
            }
            // Now and then a digest of what was read.
            if index % 8 == 4 {
                w.finish(64);
            }
        }
    }
}

fn after_refusals(w: &mut Writer, family: Family) {
    w.comment("a refused form leaves the all-zero state");
    let state = started(w, family, 7);
    let right = form(&state);
    let not_allowed = form(&State { m: 0, ..state.clone() });
    let refused = [
        right[..right.len() - 1].to_vec(),
        longer(&right, 1),
        miscounted(&sections(&state), 2, 7),
        not_allowed,
    ];
    for form in refused {
        w.load(&right);
        w.load(&form);
        w.add(&[]);
        w.add_some(3);
        w.finish(66);
        w.save(ROOM);
        w.save(0);
    }
    w.load(&right);
    w.add_some(2);
    w.finish(64);
}

fn longest_string(w: &mut Writer) {
    w.comment("a form at the front of the longest byte string");
    let whole = form(&started(w, Family::Small, 1));
    w.load(&longer(&whole, 40_000 - whole.len()));
}

fn unreadable(w: &mut Writer) {
    w.comment("lines of saved forms that are not readable; the state stays");
    w.begin(256, &[]);
    w.add(b"before");
    let state = add(&begin(256, &[]).1, b"before").1;
    let (whole, room) = (hex(&form(&state)), "00".repeat(ROOM));
    let lines = [
        "save".to_string(),
        "save ".to_string(),
        format!("save {room} {room}"),
        format!("save  {room}"),
        format!("save {room} "),
        format!(" save {room}"),
        format!("save {room}0"),
        format!("save {room}AA"),
        format!("save {room}0g"),
        "save --".to_string(),
        format!("Save {room}"),
        format!("saved {room}"),
        "load".to_string(),
        "load ".to_string(),
        format!("load {whole} -"),
        format!("load {whole} {whole}"),
        format!("load  {whole}"),
        format!("load {whole}\r"),
        format!("load\t{whole}"),
        format!("load {}", &whole[1..]),
        format!("load {}", whole.to_uppercase()),
        format!("load 0x{whole}"),
        "load -0".to_string(),
        format!("LOAD {whole}"),
    ];
    for line in lines {
        w.line(&line);
    }
    w.add(b"after");
    w.save(ROOM);
    w.finish(32);
}
