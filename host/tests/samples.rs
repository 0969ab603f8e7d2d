//! The sample files of the scope paper and of the requests, with the numbers that they name. They test the reference as much as the library.

use crate::generate::{self, Rng};
use crate::large::{add, check_file_and_52, expect, link, remove, replace};
use crate::reference::{self, Call, Chunk, Entry, File, Record, Refusal, State, Tag, ADRIFT, PLAIN};
use crate::{check_expected, check_file, check_file_under, forms, sounds, Tally};

pub fn samples(tally: &mut Tally, rng: &mut Rng) {
    for profile in [PLAIN, ADRIFT] {
        rng.profile = profile;
        plain_samples(tally, rng);
    }
    profile_samples(tally, rng);
    sounds::samples(tally, rng);
    forms::samples(tally, rng);
    for profile in [PLAIN, ADRIFT] {
        rng.profile = profile;
        whole_samples(tally, rng);
        link_samples(tally, rng);
    }
}

fn plain_samples(tally: &mut Tally, rng: &mut Rng) {
    let blank = generate::lend(rng, reference::blank_file(), Vec::new(), 100, 200);
    let a = expect(tally, rng, &add(b"Data", 7, b"TEXT", b"eel".to_vec()), &blank, 0);
    let rectangle = vec![0, 0, 1, 64, 0, 0, 0, 0];
    let b = expect(tally, rng, &add(b"Pict", 1, b"Rect", rectangle), &a, 0);
    let b_without = expect(tally, rng, &remove(b"Data", 7), &b, 0);
    let b_emptied = expect(tally, rng, &replace(b"Data", 7, b"BINA", vec![]), &b, 0);
    numbers(tally, &a, &[(4, 40), (16, 16), (32, 36)], 48);
    numbers(tally, &b, &[(4, 68), (16, 28), (32, 48), (44, 60)], 76);
    numbers(tally, &b_without, &[(4, 44), (16, 16), (32, 36)], 52);
    numbers(tally, &b_emptied, &[(4, 64), (32, 48), (44, 56)], 72);
    if b.used - a.used != 29 || reference::number_at(&b.journal, b.used - 4) != 25 {
        tally.fail("add", "the record has 29 bytes and the trailer 25");
    }
    for (after, before) in [(&b, &a), (&b_without, &b), (&b_emptied, &b)] {
        let undone = expect(tally, rng, &Call::Undo, after, 0);
        if file_of(&undone) != file_of(before) {
            tally.fail("undo", "does not give the file before");
        }
    }
    refused(tally, rng, file_of(&a), file_of(&b));
}

fn file_of(state: &State) -> &[u8] {
    &state.file[..state.length]
}

/// The file's length and some of the numbers in it.
fn numbers(tally: &Tally, state: &State, expected: &[(usize, u32)], length: usize) {
    let right = expected.iter().all(|&(at, number)| reference::number_at(&state.file, at) == number);
    if state.length != length || !right {
        tally.fail("sample", &format!("{length} bytes with {expected:?} expected"));
    }
}

fn refused(tally: &mut Tally, rng: &mut Rng, a: &[u8], b: &[u8]) {
    let with = |at: usize, bytes: &[u8]| {
        let mut file = a.to_vec();
        file[at..at + bytes.len()].copy_from_slice(bytes);
        file
    };
    let frontispiece = |file: &[u8]| {
        let mut file = [file, b"Fspc\0\0\0\x04\0\0\0\x01"].concat();
        file[7] += 12;
        file
    };
    let samples = [
        (a[..11].to_vec(), 2, 0),
        (b"FORM\0\0\0\x04IFRS".to_vec(), 8, 12),
        (with(47, &[1]), 7, 47),
        (with(7, &[39])[..47].to_vec(), 29, 47),
        (with(7, &[38])[..46].to_vec(), 28, 40),
        (with(7, &[35])[..43].to_vec(), 6, 36),
        (with(40, &[0, 0, 0, 5]), 28, 40),
        (with(40, &u32::MAX.to_be_bytes()), 28, 40),
        (with(35, &[37]), 13, 32),
        (with(35, &[12]), 13, 32),
        (with(20, &1_073_741_825u32.to_be_bytes()), 10, 16),
        (frontispiece(a), 19, 48 + 8),
        (frontispiece(b), 19, 76 + 8),
        ([&b[..24], &b[36..48], &b[24..36], &b[48..]].concat(), 27, 44),
    ];
    for (file, number, place) in samples {
        check_expected(tally, rng, &file, Some(Refusal { number, place }));
        check_file_and_52(tally, rng, &file);
    }
}

/// A file of one resource.
fn file_with(usage: &Tag, number: u32, tag: &Tag, data: &[u8]) -> File {
    let (chunks, entries) = (vec![Chunk { tag: *tag, data: data.to_vec() }], vec![Entry { usage: *usage, number, chunk: 0 }]);
    File { chunks, entries }
}

/// What the file gives under the plain profile, the ADRIFT profile and an unknown one.
fn under_profiles(tally: &mut Tally, rng: &mut Rng, file: &[u8], plain: Option<(u64, u64)>, adrift: Option<(u64, u64)>) {
    for (profile, stated) in [(PLAIN, plain), (ADRIFT, adrift), (2, Some((52, 0))), (u32::MAX, Some((52, 0)))] {
        let judged = reference::read(file, profile).err();
        if judged != stated.map(|(number, place)| Refusal { number, place }) {
            tally.fail(&format!("a sample under profile {profile}"), &format!("stated {stated:?}, reference {judged:?}"));
        }
        if profile <= ADRIFT {
            rng.profile = profile;
            check_file(tally, rng, file);
        } else {
            check_file_under(tally, rng, file, profile);
        }
    }
}

/// The samples of the request for profiles.
fn profile_samples(tally: &mut Tally, rng: &mut Rng) {
    let gif = file_with(b"Pict", 1, b"GIF ", b"eel");
    let mut front = gif.clone();
    front.chunks.push(Chunk { tag: *b"Fspc", data: vec![0, 0, 0, 1] });
    under_profiles(tally, rng, &gif.write(), Some((14, 24)), None);
    under_profiles(tally, rng, &front.write(), Some((14, 24)), None);
    under_profiles(tally, rng, &file_with(b"Snd ", 1, b"GIF ", b"eel").write(), Some((14, 24)), Some((14, 24)));
    under_profiles(tally, rng, &reference::blank_file()[..11], Some((2, 0)), Some((2, 0)));
    let record = |tag: &Tag| {
        Record { kind: 2, usage: *b"Snd ", number: 1, place: 0, start: 36, tag: *tag, data: b"RIFF".to_vec() }.write()
    };
    // A sound that was replaced by a 'WAV ', and a 'WAV ' that was replaced, each undone under both profiles.
    for (now, before, plain) in [(b"WAV ", b"OGGV", 14), (b"OGGV", b"WAV ", 21)] {
        for (profile, number) in [(PLAIN, plain), (ADRIFT, 0)] {
            rng.profile = profile;
            let state = generate::lend(rng, file_with(b"Snd ", 1, now, b"RIFF").write(), record(before), 20, 3);
            expect(tally, rng, &Call::Undo, &state, number);
        }
    }
    // Lengths that exceed their buffers, and before them an unknown profile.
    rng.profile = PLAIN;
    let mut state = generate::lend(rng, gif.write(), Vec::new(), 5, 5);
    (state.length, state.used) = (state.file.len() + 1, state.journal.len() + 1);
    for call in [add(b"Pict", 2, b"GIF ", vec![]), replace(b"Pict", 1, b"GIF ", vec![]), remove(b"Pict", 1), Call::Undo] {
        expect(tally, rng, &call, &state, 20);
    }
}

/// The samples of the request for whole 'FORM' chunks.
fn whole_samples(tally: &mut Tally, rng: &mut Rng) {
    let aiff = b"FORM\0\0\0\x05AIFF!".to_vec();
    let blank = generate::lend(rng, reference::blank_file(), Vec::new(), 200, 300);
    let a = expect(tally, rng, &add(b"Snd ", 3, b"FORM", aiff.clone()), &blank, 0);
    numbers(tally, &a, &[(4, 42), (32, 36), (40, 5)], 50);
    let found = reference::lookup_answer(file_of(&a), &reference::read(file_of(&a), rng.profile), b"Snd ", 3);
    if found != Ok([u32::from_be_bytes(*b"FORM") as u64, 36, 13]) || a.file[36..49] != aiff[..] {
        tally.fail("lookup", &format!("the same 13 bytes must come out, found {found:?}"));
    }
    check_file_and_52(tally, rng, file_of(&a));
    // A replacement's record keeps what the chunk held, and its undo gives that back.
    let b = expect(tally, rng, &replace(b"Snd ", 3, b"FORM", b"FORM\0\0\0\x04AIFF".to_vec()), &a, 0);
    if b.used - a.used != 34 || file_of(&expect(tally, rng, &Call::Undo, &b, 0)) != file_of(&a) {
        tally.fail("replace", "the record has 29 bytes and the old five");
    }
    let shared = File { chunks: vec![Chunk { tag: *b"FORM", data: b"AIFF".to_vec() }], entries: vec![
        Entry { usage: *b"Snd ", number: 1, chunk: 0 }, Entry { usage: *b"Snd ", number: 2, chunk: 0 },
    ] };
    let shared = generate::lend(rng, shared.write(), Vec::new(), 100, 100);
    let padded = [&aiff[..], &[0]].concat();
    for (call, state, number) in [
        (add(b"Snd ", 4, b"FORM", aiff[..7].to_vec()), &a, 30),
        (add(b"Snd ", 4, b"FORM", b"FORM\0\0\0\0".to_vec()), &a, 114),
        (add(b"Pict", 4, b"FORM", padded.clone()), &a, 30),
        (add(b"Pict", 4, b"FORM", aiff.clone()), &a, 114),
        (add(b"Pic?", 4, b"FORM", padded.clone()), &a, 30),
        (add(b"Pic?", 4, b"FORM", aiff.clone()), &a, 112),
        (add(b"Snd ", 4, b"FORM", padded.clone()), &a, 30),
        (add(b"Snd ", 4, b"FORM", aiff[8..].to_vec()), &a, 30),
        (replace(b"Snd ", 9, b"FORM", padded.clone()), &a, 22),
        (replace(b"Snd ", 1, b"FORM", padded.clone()), &shared, 23),
        (replace(b"Snd ", 3, b"FORM", padded), &a, 30),
    ] {
        expect(tally, rng, &call, state, number);
    }
}

/// The samples of the request for links: sample B, and one of three pictures that share chunks.
fn link_samples(tally: &mut Tally, rng: &mut Rng) {
    let mut b = file_with(b"Data", 7, b"TEXT", b"eel");
    b.chunks.push(Chunk { tag: *b"Rect", data: vec![0, 0, 1, 64, 0, 0, 0, 0] });
    b.entries.push(Entry { usage: *b"Pict", number: 1, chunk: 1 });
    let b = generate::lend(rng, b.write(), Vec::new(), 100, 200);
    let linked = expect(tally, rng, &link(b"Pict", 1, b"Pict", 2), &b, 0);
    numbers(tally, &linked, &[(4, 80), (16, 40), (20, 3), (32, 60), (44, 72), (52, 2), (56, 72)], 88);
    let record = Record { kind: 5, usage: *b"Pict", number: 2, place: 2, start: 72, tag: [0; 4], data: Vec::new() };
    if linked.used != 29 || linked.journal[..29] != record.write() {
        tally.fail("link", "the record has 29 bytes, with place 2 and start 72");
    }
    if file_of(&expect(tally, rng, &Call::Undo, &linked, 0)) != file_of(&b) {
        tally.fail("undo", "does not give sample B");
    }
    for call in [replace(b"Pict", 1, b"Rect", vec![0; 8]), replace(b"Pict", 2, b"Rect", vec![0; 8])] {
        expect(tally, rng, &call, &linked, 23);
    }
    // Without the original the chunk stays, and each undo gives the file before.
    let left = expect(tally, rng, &remove(b"Pict", 1), &linked, 0);
    if left.journal[29] != 4 || file_of(&expect(tally, rng, &Call::Undo, &left, 0)) != file_of(&linked) {
        tally.fail("remove", "of the original leaves the chunk");
    }
    for (call, number) in [
        (link(b"Pict", 1, b"Pict", 1), 116),
        (link(b"Pict", 1, b"Data", 7), 114),
        (link(b"Data", 7, b"Pict", 1), 114),
        (link(b"Data", 7, b"Data", 7), 116),
        (link(b"Data", 8, b"Data", 9), 22),
        (link(b"Data", 7, b"data", 9), 112),
    ] {
        expect(tally, rng, &call, &b, number);
    }
    let story = generate::lend(rng, file_with(b"Exec", 0, b"GLUL", b"code").write(), Vec::new(), 60, 60);
    expect(tally, rng, &link(b"Exec", 0, b"Exec", 1), &story, 115);
    expect(tally, rng, &link(b"Exec", 0, b"Exec", 0), &story, 116);
    link_records(tally, rng, &b, &linked, &record);
    link_places(tally, rng);
}

/// Records of kind 5 that do not fit, and kinds that there are not.
fn link_records(tally: &mut Tally, rng: &mut Rng, b: &State, linked: &State, right: &Record) {
    let with = |change: fn(&mut Record)| {
        let mut record = right.clone();
        change(&mut record);
        record
    };
    let wrong: [fn(&mut Record); 10] = [
        |record| record.data = vec![0],
        |record| record.tag = *b"Rect",
        |record| record.start = 60,
        |record| record.place = 3,
        |record| record.place = 1,
        |record| record.number = 1,
        |record| record.usage = *b"Data",
        |record| record.kind = 0,
        |record| record.kind = 6,
        |record| record.kind = 7,
    ];
    for change in wrong {
        let state = generate::lend(rng, file_of(linked).to_vec(), with(change).write(), 20, 5);
        expect(tally, rng, &Call::Undo, &state, 21);
    }
    // It fits the other name too, where place and pair are that one's; not in a file where the chunk is not shared.
    let first = Record { number: 1, place: 1, ..right.clone() };
    let state = generate::lend(rng, file_of(linked).to_vec(), first.write(), 20, 5);
    expect(tally, rng, &Call::Undo, &state, 0);
    let alone = Record { number: 1, place: 1, start: 60, ..right.clone() };
    let state = generate::lend(rng, file_of(b).to_vec(), alone.write(), 20, 5);
    expect(tally, rng, &Call::Undo, &state, 21);
}

/// Behind the run of equal starts; 116 at the later of the two entries; a record that would take the frontispiece's picture away.
fn link_places(tally: &mut Tally, rng: &mut Rng) {
    let picture = |number, chunk| Entry { usage: *b"Pict", number, chunk };
    let chunks = ["one", "two", "three"].map(|text| Chunk { tag: *b"JPEG", data: text.into() }).to_vec();
    let file = File { chunks: chunks.clone(), entries: vec![picture(1, 0), picture(2, 1), picture(3, 1), picture(4, 2)] };
    let state = generate::lend(rng, file.write(), Vec::new(), 60, 60);
    for (original, place) in [(1, 1), (2, 3), (3, 3), (4, 4)] {
        let after = expect(tally, rng, &link(b"Pict", original, b"Pict", 9), &state, 0);
        numbers(tally, &after, &[(28 + 12 * place, 9)], file.length() + 12);
        expect(tally, rng, &Call::Undo, &after, 0);
    }
    for (original, name, place) in [(1, 4, 4), (1, 1, 1), (4, 1, 4), (2, 3, 3), (3, 2, 3), (2, 4, 4), (4, 4, 4)] {
        let (answer, _) = reference::call(&link(b"Pict", original, b"Pict", name), &state);
        if (answer.refusal, answer.place) != (116, 24 + 12 * place) {
            tally.fail("link", &format!("of {original} as {name} must be 116 at entry {place}, is {answer:?}"));
        }
        expect(tally, rng, &link(b"Pict", original, b"Pict", name), &state, 116);
    }
    let mut front = File { chunks, entries: file.entries };
    front.chunks.push(Chunk { tag: *b"Fspc", data: vec![0, 0, 0, 2] });
    let start = front.starts()[1] as u32;
    for (number, place, refusal) in [(2, 1, 21), (3, 2, 0)] {
        let record = Record { kind: 5, usage: *b"Pict", number, place, start, tag: [0; 4], data: Vec::new() };
        let state = generate::lend(rng, front.write(), record.write(), 20, 5);
        expect(tally, rng, &Call::Undo, &state, refusal);
    }
}
