//! Cases that run once: at the limits of 16,777,216 bytes and 4,096 entries, sizes beyond 32 bits, and the samples.

use crate::archive;
use crate::fence;
use crate::generate::{self, Rng};
use crate::reference::{Call, Chunk, Edit, Entry, File, Record, State, Tag, ADRIFT, LIMIT, MOST_ENTRIES, PLAIN};
use crate::samples::samples;
use crate::scaling;
use crate::texts;
use crate::{check_call_and_52, check_file, check_file_under, check_run, Tally};
use std::ops::Range;

const FIRST: usize = 0xE0;
const CASES: [fn(&mut Tally, &mut Rng); 17] = [
    samples,
    at_limit,
    over_limit,
    add_to_limit,
    replace_to_limit,
    link_to_limit,
    undo_to_limit,
    most_entries,
    too_many_entries,
    beyond_32_bits,
    run_at_length_limit,
    run_at_entry_limit,
    scaling::largest,
    texts::sequences,
    texts::longest,
    texts::shared_at_length,
    texts::largest,
];
pub const FAMILIES: Range<usize> = FIRST..FIRST + CASES.len();

pub fn run(tally: &mut Tally, rng: &mut Rng, family: usize) {
    match family.checked_sub(FIRST).and_then(|i| CASES.get(i)) {
        Some(case) => case(tally, rng),
        None => tally.fail("no call", &format!("there is no family {family:#x}")),
    }
}

// ---- Files and calls -----------------------------------------------------------------------------------------------

/// A good file of this even length: Data 1 fills it up, Data 2 and the frontispiece's picture Pict 3 are small.
fn filled(rng: &mut Rng, length: usize) -> File {
    let mut file = File { chunks: Vec::new(), entries: Vec::new() };
    let contents: [(&Tag, u32, &Tag, &[u8]); 3] =
        [(b"Data", 1, b"BINA", b""), (b"Data", 2, b"TEXT", b"eel"), (b"Pict", 3, b"JPEG", b"picture")];
    for (chunk, (usage, number, tag, data)) in contents.into_iter().enumerate() {
        file.chunks.push(Chunk { tag: *tag, data: data.to_vec() });
        file.entries.push(Entry { usage: *usage, number, chunk });
    }
    file.chunks.push(Chunk { tag: *b"Fspc", data: vec![0, 0, 0, 3] });
    file.chunks[0].data = rng.bytes(length - file.length());
    if rng.chance(50) {
        file.chunks.swap(0, 1);
        file.entries.swap(0, 1);
        file.entries[0].chunk = 0;
        file.entries[1].chunk = 1;
    }
    file
}

/// Pictures 0, 1, 2 .. with few chunks, which most of them share, the numbers in any order.
fn many_entries(rng: &mut Rng, count: usize, chunks: usize) -> File {
    let chunk = |rng: &mut Rng| Chunk { tag: *b"JPEG", data: rng.bytes(3) };
    let chunks: Vec<Chunk> = (0..chunks).map(|_| chunk(rng)).collect();
    let entry = |rng: &mut Rng, i| Entry { usage: *b"Pict", number: i as u32, chunk: rng.below(chunks.len()) };
    let mut entries: Vec<Entry> = (0..count).map(|i| entry(rng, i)).collect();
    entries.sort_by_key(|entry| entry.chunk);
    File { chunks, entries }
}

pub fn add(usage: &Tag, number: u32, tag: &Tag, data: Vec<u8>) -> Call {
    Call::Edit(Edit::Add { usage: *usage, number, tag: *tag, data })
}

pub fn replace(usage: &Tag, number: u32, tag: &Tag, data: Vec<u8>) -> Call {
    Call::Edit(Edit::Replace { usage: *usage, number, tag: *tag, data })
}

pub fn remove(usage: &Tag, number: u32) -> Call {
    Call::Edit(Edit::Remove { usage: *usage, number })
}

pub fn link(usage: &Tag, number: u32, new_usage: &Tag, new_number: u32) -> Call {
    Call::Edit(Edit::Link { usage: *usage, number, new_usage: *new_usage, new_number })
}

/// A call that must be answered with this number, which 01 or 02 names for the case; 52 under an unknown profile too. Gives the buffers
/// afterwards.
pub fn expect(tally: &mut Tally, rng: &mut Rng, call: &Call, state: &State, number: u64) -> State {
    let (answer, after) = check_call_and_52(tally, rng, call, state);
    if answer.refusal != number {
        tally.fail(call.name(), &format!("must give {number}, gave {answer:?}"));
    }
    after
}

/// The reading calls on a file, under an unknown profile too.
pub fn check_file_and_52(tally: &mut Tally, rng: &mut Rng, file: &[u8]) {
    check_file(tally, rng, file);
    let unknown = rng.unknown_profile();
    check_file_under(tally, rng, file, unknown);
}

// ---- 16,777,216 bytes ----------------------------------------------------------------------------------------------

fn at_limit(tally: &mut Tally, rng: &mut Rng) {
    let file = filled(rng, LIMIT).write();
    check_file_and_52(tally, rng, &file);
    let state = generate::lend(rng, file, Vec::new(), 100, LIMIT);
    expect(tally, rng, &add(b"Data", 9, b"TEXT", vec![]), &state, 101);
    expect(tally, rng, &add(b"Data", 9, b"RIdx", vec![]), &state, 101);
    expect(tally, rng, &replace(b"Data", 2, b"TEXT", vec![7; 5]), &state, 101);
    expect(tally, rng, &replace(b"Data", 2, b"RIdx", vec![7; 5]), &state, 101);
    expect(tally, rng, &replace(b"Data", 2, b"BINA", vec![7; 4]), &state, 0);
    // 30 comes before 101: with the right head these are 101.
    let wrong_head = b"FORM\0\0\0\x05AIFF".to_vec();
    expect(tally, rng, &add(b"Snd ", 9, b"FORM", wrong_head.clone()), &state, 30);
    expect(tally, rng, &replace(b"Data", 2, b"FORM", [wrong_head, vec![0; 4]].concat()), &state, 30);
    expect(tally, rng, &remove(b"Pict", 3), &state, 119);
    expect(tally, rng, &link(b"Pict", 3, b"Pict", 4), &state, 101);
    expect(tally, rng, &link(b"Pict", 3, b"Dat?", 4), &state, 101);
    expect(tally, rng, &link(b"Pict", 5, b"Pict", 4), &state, 22);
    for call in [remove(b"Data", 1), remove(b"Data", 2), replace(b"Data", 1, b"BINA", vec![])] {
        let after = expect(tally, rng, &call, &state, 0);
        expect(tally, rng, &Call::Undo, &after, 0);
    }
    let tight = State { file: state.file[..LIMIT].to_vec(), journal: Vec::new(), ..state };
    expect(tally, rng, &add(b"Data", 9, b"TEXT", vec![]), &tight, 101);
    expect(tally, rng, &link(b"Data", 1, b"Data", 9), &tight, 101);
}

/// Every call on a file that the reader refuses; it has the resource (usage, 2).
fn expect_all(tally: &mut Tally, rng: &mut Rng, usage: &Tag, kind: &Tag, state: &State, number: u64) {
    let add = add(b"Data", 9, b"TEXT", vec![]);
    for call in [add, replace(usage, 2, kind, vec![]), remove(usage, 2), link(usage, 2, usage, 9999), Call::Undo] {
        expect(tally, rng, &call, state, number);
    }
}

/// One byte over with whatever contents, and two over with a file that is good but for its length.
fn over_limit(tally: &mut Tally, rng: &mut Rng) {
    let good = filled(rng, LIMIT + 2).write();
    for file in [good[..LIMIT + 1].to_vec(), good, vec![0; LIMIT + 1]] {
        check_file_and_52(tally, rng, &file);
        tally.count("built", 1);
        let state = generate::lend(rng, file, vec![1; 29], 50, 50);
        expect_all(tally, rng, b"Data", b"TEXT", &state, 1);
    }
}

fn add_to_limit(tally: &mut Tally, rng: &mut Rng) {
    let data_size = 2 * rng.between(3, 400);
    let file = filled(rng, LIMIT - 20 - data_size).write();
    let roomy = generate::lend(rng, file, vec![9; 5], data_size + 60, 29);
    let sized = |more: usize| State { file: roomy.file[..LIMIT - 1 + more].to_vec(), ..roomy.clone() };
    let call = |size: usize, rng: &mut Rng| add(b"Snd ", 4, b"OGGV", rng.bytes(size));
    for (size, state, number) in [
        (data_size, sized(1), 0),
        (data_size - 1, sized(1), 0),
        (data_size, sized(0), 24),
        (data_size + 1, roomy.clone(), 101),
        (data_size + 2, sized(0), 101),
    ] {
        let sound = call(size, rng);
        expect(tally, rng, &sound, &state, number);
        // A whole AIFF file takes the same room as data of eight bytes less.
        let whole = generate::with_head(&[&b"AIFF"[..], &rng.bytes(size - 1)[3..]].concat());
        expect(tally, rng, &add(b"Snd ", 4, b"FORM", whole), &state, number);
    }
}

fn replace_to_limit(tally: &mut Tally, rng: &mut Rng) {
    let data_size = 2 * rng.between(3, 400);
    // Data 2 has three bytes and one of padding.
    let file = filled(rng, LIMIT + 4 - data_size).write();
    let roomy = generate::lend(rng, file, vec![9; 5], data_size + 60, 32);
    let tight = State { file: roomy.file[..LIMIT - 1].to_vec(), ..roomy.clone() };
    for (size, state, number) in [
        (data_size, &roomy, 0),
        (data_size - 1, &roomy, 0),
        (data_size, &tight, 24),
        (data_size + 1, &roomy, 101),
        (data_size + 2, &tight, 101),
    ] {
        let call = replace(b"Data", 2, b"BINA", rng.bytes(size));
        expect(tally, rng, &call, state, number);
    }
}

/// A link of the first chunk and of the last one, up to the limit: no room by a byte, and 101 by two.
fn link_to_limit(tally: &mut Tally, rng: &mut Rng) {
    for (length, room, number) in [(LIMIT - 12, LIMIT, 0), (LIMIT - 12, LIMIT - 1, 24), (LIMIT - 10, LIMIT + 60, 101), (LIMIT - 10, LIMIT, 101)] {
        let file = filled(rng, length).write();
        let state = generate::lend(rng, file, vec![9; 5], room - length, 29);
        for number_of in [1, 2] {
            let after = expect(tally, rng, &link(b"Data", number_of, b"Data", 9), &state, number);
            if number == 0 {
                expect(tally, rng, &Call::Undo, &after, 0);
            }
        }
        let short = State { journal: state.journal[..33].to_vec(), ..state };
        expect(tally, rng, &link(b"Pict", 3, b"Pict", 9), &short, if number == 0 { 25 } else { number });
    }
}

/// Records of a removal and a replacement whose undo gives the longest file, or a longer one, which is never accepted.
fn undo_to_limit(tally: &mut Tally, rng: &mut Rng) {
    let list = filled(rng, LIMIT - 1000);
    let file = list.write();
    let (last, start) = (list.entries.len() as u32, file.len() as u32 + 12);
    let small = list.entries.iter().position(|entry| (&entry.usage, entry.number) == (b"Data", 2)).unwrap();
    let data_start = list.starts()[list.entries[small].chunk] as u32;
    for (size, number) in [(980, 0), (979, 0), (981, 21), (982, 21)] {
        let removed =
            Record { kind: 3, usage: *b"Snd ", number: 4, place: last, start, tag: *b"MOD ", data: rng.bytes(size) };
        let state = generate::lend(rng, file.clone(), removed.write(), 1100, 3);
        expect(tally, rng, &Call::Undo, &state, number);
        let data = rng.bytes(size + 24);
        let place = small as u32;
        let replaced = Record { kind: 2, usage: *b"Data", number: 2, place, start: data_start, tag: *b"TEXT", data };
        let state = generate::lend(rng, file.clone(), replaced.write(), 1100, 3);
        expect(tally, rng, &Call::Undo, &state, number);
    }
}

// ---- 4,096 entries -------------------------------------------------------------------------------------------------

fn most_entries(tally: &mut Tally, rng: &mut Rng) {
    for chunks in [1, 60, MOST_ENTRIES] {
        let list = many_entries(rng, MOST_ENTRIES, chunks);
        let file = list.write();
        check_file_and_52(tally, rng, &file);
        let state = generate::lend(rng, file.clone(), Vec::new(), 100, 100);
        expect(tally, rng, &add(b"Data", 9, b"TEXT", vec![]), &state, 111);
        expect(tally, rng, &add(b"Data", 9, b"RIdx", vec![]), &state, 109);
        expect(tally, rng, &add(b"Dat?", 9, b"TEXT", vec![]), &state, 111);
        expect(tally, rng, &add(b"Snd ", 9, b"FORM", b"FORM\0\0\0\x05AIFF".to_vec()), &state, 30);
        expect(tally, rng, &link(b"Pict", 7, b"Pict", 9999), &state, 111);
        expect(tally, rng, &link(b"Pict", 7, b"Pic?", 8), &state, 111);
        let last = MOST_ENTRIES as u32 - 1;
        let after = expect(tally, rng, &remove(b"Pict", last), &state, 0);
        expect(tally, rng, &Call::Undo, &after, 0);
        let after = expect(tally, rng, &link(b"Pict", 7, b"Pict", last), &after, 0);
        expect(tally, rng, &Call::Undo, &after, 0);
        let after = expect(tally, rng, &remove(b"Pict", 0), &state, 0);
        expect(tally, rng, &add(b"Data", 9, b"TEXT", vec![]), &after, 0);
        let start = list.starts()[0] as u32 + 12;
        for (kind, tag) in [(3, *b"TEXT"), (4, [0; 4])] {
            let usage = if kind == 3 { *b"Data" } else { *b"Pict" };
            let record = Record { kind, usage, number: 9999, place: 7, start, tag, data: Vec::new() };
            let state = generate::lend(rng, file.clone(), record.write(), 100, 3);
            expect(tally, rng, &Call::Undo, &state, 21);
        }
    }
}

fn too_many_entries(tally: &mut Tally, rng: &mut Rng) {
    let file = many_entries(rng, MOST_ENTRIES + 1, 50).write();
    check_file_and_52(tally, rng, &file);
    let state = generate::lend(rng, file, vec![1; 29], 100, 100);
    expect_all(tally, rng, b"Pict", b"JPEG", &state, 11);
}

// ---- Sizes beyond 32 bits ------------------------------------------------------------------------------------------

/// Lent arrays of more than 4 GiB. They are too large to be copied, so only answers and the first bytes are compared.
fn beyond_32_bits(tally: &mut Tally, _: &mut Rng) {
    for (what, found, expected) in archive::on_huge_arrays(fence::huge_zeros((1 << 32) + 24)) {
        if found != expected {
            tally.fail(what, &format!("expected {expected}\nfound    {found}"));
        }
    }
}

// ---- Runs ----------------------------------------------------------------------------------------------------------

/// Both limits under both profiles.
fn run_at_length_limit(tally: &mut Tally, rng: &mut Rng) {
    for profile in [PLAIN, ADRIFT] {
        rng.profile = profile;
        run_to_length_limit(tally, rng);
    }
}

fn run_at_entry_limit(tally: &mut Tally, rng: &mut Rng) {
    for profile in [PLAIN, ADRIFT] {
        rng.profile = profile;
        run_to_entry_limit(tally, rng);
    }
}

/// The first call goes past the limit.
fn run_to_length_limit(tally: &mut Tally, rng: &mut Rng) {
    let file = filled(rng, LIMIT - 60).write();
    let state = generate::lend(rng, file, Vec::new(), 100, 400);
    check_run(tally, rng, state, 40, |rng, _, step| match rng.below(9) {
        _ if step == 0 => add(b"Data", 4, b"TEXT", vec![1; 60]),
        0..=2 => {
            let size = rng.below(30);
            add(b"Data", rng.between(4, 6) as u32, b"TEXT", rng.bytes(size))
        }
        3..=4 => {
            let size = rng.below(70);
            replace(b"Data", rng.between(2, 6) as u32, b"BINA", rng.bytes(size))
        }
        5 => remove(b"Data", rng.between(2, 6) as u32),
        6 => link(b"Data", rng.between(1, 6) as u32, b"Data", rng.between(4, 6) as u32),
        _ => Call::Undo,
    });
}

/// The third call is one entry too many.
fn run_to_entry_limit(tally: &mut Tally, rng: &mut Rng) {
    let file = many_entries(rng, MOST_ENTRIES - 2, 3).write();
    let state = generate::lend(rng, file, Vec::new(), 200, 400);
    check_run(tally, rng, state, 60, |rng, _, step| match rng.below(9) {
        _ if step < 3 => add(b"Snd ", step as u32, b"MOD ", vec![1]),
        0..=3 => add(b"Snd ", rng.below(9) as u32, b"MOD ", vec![1]),
        4 => link(b"Pict", rng.below(MOST_ENTRIES) as u32, b"Pict", 10_000 + rng.below(4) as u32),
        5 => remove(b"Pict", rng.below(MOST_ENTRIES) as u32),
        _ => Call::Undo,
    });
}
