//! Spoken descriptions (02, P7), on files with an 'RDes' chunk and on every file that the other families make; writing them, and UTF-8 byte by byte.

use crate::archive::{self, Lent};
use crate::generate::{self, Description, Rng};
use crate::reference::texts::{chunk_of, good_length, in_index, text, text_of, write};
use crate::reference::{self, Refusal, Tag};
use crate::{hex, number_of, on_file, Read, Tally};
use std::time::Instant;

fn describe(call: &str, read: &Read, arguments: &str) -> String {
    format!("blorb_{call} {arguments} size={} profile={}\n  file={}", read.file.len(), read.profile, hex(read.file))
}

// ---- Reading -------------------------------------------------------------------------------------------------------

fn by_entry(tally: &mut Tally, lent: &mut Lent, read: &Read, i: usize) -> Option<[u64; 4]> {
    let [expected, known] = [&read.view, &read.known].map(|view| text(read.file, view, i));
    tally.count_under(["text", "text 52"], &expected, &known);
    let found = archive::text(lent, read.profile, i);
    if found != Ok(expected) {
        tally.fail(&describe("text", read, &format!("i={i}")), &format!("expected {expected:?}\nfound    {found:?}"));
    }
    expected.ok()
}

fn by_pair(tally: &mut Tally, lent: &mut Lent, read: &Read, usage: &Tag, number: u32) -> Option<[u64; 4]> {
    let [expected, known] = [&read.view, &read.known].map(|view| text_of(read.file, view, usage, number));
    tally.count_under(["text_of", "text_of 52"], &expected, &known);
    if let (22, Ok(view)) = (number_of(&expected), &read.view) {
        let listed = (0..).map_while(|i| text(read.file, &read.view, i).ok());
        let pair = [u32::from_be_bytes(*usage) as u64, number as u64];
        let has_text = listed.take(200).any(|found| found[..2] == pair);
        tally.count("text_of 22", 2 * in_index(view, usage, number) as u64 + has_text as u64);
    }
    let found = archive::text_of(lent, read.profile, usage, number);
    if found != Ok(expected) {
        let call = describe("text_of", read, &format!("usage=\"{}\" number={number}", usage.escape_ascii()));
        tally.fail(&call, &format!("expected {expected:?}\nfound    {found:?}"));
    }
    expected.ok()
}

/// Any file that the other families make: mostly one without an 'RDes'.
pub fn check(tally: &mut Tally, rng: &mut Rng, lent: &mut Lent, read: &Read) {
    by_entry(tally, lent, read, 0);
    let (usage, number) = generate::target(rng, read.file);
    by_pair(tally, lent, read, &usage, number);
}

/// The family: files with an 'RDes', under the case's profile and now and then under another one; one in eight is damaged. And a list that is written.
pub fn files(tally: &mut Tally, rng: &mut Rng) {
    let built = generate::with_descriptions(rng);
    let damaged = rng.chance(12);
    let file = if damaged { generate::damaged_descriptions(rng, &built.file) } else { built.file.clone() };
    if !damaged {
        check_built(tally, rng, &built);
    }
    on_file(tally, rng, "text", &file, |tally, rng, lent, read| check_texts(tally, rng, lent, read, &built.texts));
    writing(tally, rng, &file);
    if rng.below(40) == 0 {
        sharing(tally, rng);
    }
}

fn check_texts(tally: &mut Tally, rng: &mut Rng, lent: &mut Lent, read: &Read, texts: &[Description]) {
    let count = texts.len();
    let wraps = [usize::MAX, 1 << 32, (1 << 32) + rng.below(count + 1), usize::MAX / 12];
    let few = [0, 1, rng.below(count + 1), count, count + 1, rng.pick(&wraps)];
    for &i in if count > 1_000 { &few[2..4] } else { &few[..] } {
        by_entry(tally, lent, read, i);
    }
    for k in 0..if count > 1_000 { 1 } else { 3 } {
        let (usage, number) = match rng.below(3) {
            0 => generate::target(rng, read.file),
            _ if count == 0 => (*b"Pict", k),
            _ => {
                let text = &texts[rng.below(count)];
                (text.usage, text.number)
            }
        };
        by_pair(tally, lent, read, &usage, number);
    }
}

/// The refusal that follows from how the file was built, against the reference; and which of two faults came first.
fn check_built(tally: &mut Tally, rng: &mut Rng, built: &generate::BuiltDescriptions) {
    if built.faults == [0] {
        return;
    }
    let view = reference::read(&built.file, rng.profile);
    let answer = text(&built.file, &view, 0);
    let refusal = answer.err().filter(|refusal| refusal.number != 22);
    // Changed lengths can fill the chunk again, with other texts.
    let refilled = built.faults.contains(&37) && !matches!(refusal, Some(Refusal { number: 37, .. }));
    if refusal != built.refusal && !refilled {
        tally.fail(&format!("file={}", hex(&built.file)), &format!("built {:?}\nreference {answer:?}", built.refusal));
    }
    if let ([first, second], false) = (&built.faults[..], refilled) {
        tally.count(["text 37", "text 38", "text 39"][*first as usize - 37], *second);
    }
}

// ---- Writing -------------------------------------------------------------------------------------------------------

fn in_memory(rows: &[u32]) -> Vec<u8> {
    rows.iter().flat_map(|number| number.to_ne_bytes()).collect()
}

/// One call; gives the chunk's length.
fn check_write(tally: &mut Tally, rng: &mut Rng, rows: &[u32], texts: &[u8], buffer: &[u8]) -> Option<usize> {
    let (expected, after) = write(rows, texts, buffer);
    tally.count_call("texts_write", number_of(&expected));
    let mut lent_rows = Lent::new(&in_memory(rows), rng.pick(&[0, 4, 8]));
    let (mut lent_texts, mut lent_buffer) = (Lent::new(texts, rng.below(16)), Lent::new(buffer, rng.below(16)));
    let found = archive::texts_write(&mut lent_rows, rows.len(), &mut lent_texts, &mut lent_buffer);
    let call = || format!("blorb_texts_write rows={rows:?}\n  texts={}\n  buffer={}", hex(texts), hex(buffer));
    if found != Ok(expected) {
        tally.fail(&call(), &format!("expected {expected:?}\nfound    {found:?}"));
    }
    let complaints = [
        lent_rows.complaint("rows", &in_memory(rows)),
        lent_texts.complaint("texts", texts),
        lent_buffer.complaint("buffer", &after),
    ];
    for complaint in complaints.into_iter().flatten() {
        tally.fail(&call(), &complaint);
    }
    expected.ok().map(|[length]| length as usize)
}

/// The texts side by side, overlapping or apart, and a row for each.
fn laid_out(rng: &mut Rng, list: &[Description]) -> (Vec<u32>, Vec<u8>) {
    let (mut rows, mut bytes) = (Vec::new(), Vec::new());
    for Description { usage, number, text } in list {
        if rng.chance(20) {
            let gap = rng.below(9);
            bytes.extend(rng.bytes(gap));
        }
        let place = match bytes.windows(text.len().max(1)).position(|window| window == &text[..]) {
            Some(place) if rng.chance(30) => place,
            _ => {
                bytes.extend(text);
                bytes.len() - text.len()
            }
        };
        rows.extend([u32::from_be_bytes(*usage), *number, place as u32, text.len() as u32]);
    }
    (rows, bytes)
}

/// A list for this file, with and without faults, in buffers with room, with just enough and with too little. What was written is read back.
fn writing(tally: &mut Tally, rng: &mut Rng, file: &[u8]) {
    let indexed = generate::pairs_in(file);
    let list = generate::list(rng, &indexed);
    let (mut rows, mut texts) = laid_out(rng, &list);
    let fault = rng.below(8);
    if fault < 4 && !list.is_empty() {
        spoil(rng, &mut rows, &mut texts, fault);
    }
    if rng.chance(20) {
        rows.extend((0..rng.between(1, 3)).map(|_| rng.next() as u32));
    }
    let needed = chunk_of(&list.iter().map(|text| (0, 0, &text.text[..])).collect::<Vec<_>>()).len();
    let size = match rng.below(5) {
        0 => needed,
        1 => needed.saturating_sub(rng.between(1, 3)),
        2 => rng.below(needed),
        _ => needed + rng.between(1, 40),
    };
    let buffer = rng.bytes(size);
    if let (Some(length), true) = (check_write(tally, rng, &rows, &texts, &buffer), fault >= 4) {
        let (_, after) = write(&rows, &texts, &buffer);
        read_back(tally, rng, &after[..length], &list);
    }
}

/// A list whose texts share the bytes of a slice that is longer than what the library remembers of it at once.
fn sharing(tally: &mut Tally, rng: &mut Rng) {
    let (rows, texts) = generate::sharing(rng);
    let needed = 13 + rows.chunks(4).map(|row| 12 + row[3] as usize).sum::<usize>();
    let size = if rng.chance(70) { needed } else { rng.below(needed) };
    let buffer = rng.bytes(size);
    check_write(tally, rng, &rows, &texts, &buffer);
    tally.count("texts shared", number_of(&write(&rows, &texts, &buffer).0));
}

/// A pair repeated, a text that is no UTF-8, or one that runs past its slice, in one or two rows.
fn spoil(rng: &mut Rng, rows: &mut [u32], texts: &mut Vec<u8>, fault: usize) {
    let count = rows.len() / 4;
    for _ in 0..rng.between(1, 2) {
        let (row, other) = (4 * rng.below(count), 4 * rng.below(count));
        match (fault + rng.below(2)) % 4 {
            0 => (rows[row], rows[row + 1]) = (rows[other], rows[other + 1]),
            1 => {
                let (text, _) = generate::bad_text(rng);
                (rows[row + 2], rows[row + 3]) = (texts.len() as u32, text.len() as u32);
                texts.extend(text);
            }
            2 => rows[row + 2] = texts.len() as u32 + rng.pick(&[1, 7, u32::MAX / 2]),
            _ => {
                let end = texts.len() as u32;
                let (place, length) = rng.pick(&[(end, 1), (end + 1, 0), (u32::MAX, u32::MAX), (u32::MAX, 1), (1, u32::MAX), (0, end + 1), (end, 0)]);
                (rows[row + 2], rows[row + 3]) = (place, length);
            }
        }
    }
}

/// The chunk as the one 'RDes' of a file whose index has all of the list's pairs that it can have: the same pairs and texts in the same order.
fn read_back(tally: &mut Tally, rng: &mut Rng, chunk: &[u8], list: &[Description]) {
    if list.len() > 300 {
        return;
    }
    let mut chunks = vec![reference::Chunk { tag: *b"RDes", data: reference_data(chunk) }];
    let mut entries: Vec<reference::Entry> = Vec::new();
    for (k, (usage, tag)) in [(b"Pict", b"JPEG"), (b"Snd ", b"OGGV"), (b"Data", b"TEXT"), (b"Exec", b"ZCOD")].into_iter().enumerate() {
        chunks.push(reference::Chunk { tag: *tag, data: vec![1; 3] });
        let own = list.iter().filter(|text| &text.usage == usage && (usage != b"Exec" || text.number == 0));
        entries.extend(own.map(|text| reference::Entry { usage: *usage, number: text.number, chunk: k + 1 }));
    }
    let file = reference::File { chunks, entries }.write();
    let view = reference::read(&file, rng.profile);
    let read = Read { file: &file, profile: rng.profile, view, known: reference::read(&file, rng.profile) };
    let mut lent = Lent::new(&file, rng.below(16));
    for (i, Description { usage, number, text }) in list.iter().enumerate() {
        let found = by_entry(tally, &mut lent, &read, i);
        let pair = [u32::from_be_bytes(*usage) as u64, *number as u64];
        let bytes = |found: [u64; 4]| found[..2] == pair && &file[found[2] as usize..(found[2] + found[3]) as usize] == &text[..];
        let indexed = read.view.as_ref().is_ok_and(|view| in_index(view, usage, *number));
        let again = by_pair(tally, &mut lent, &read, usage, *number);
        if !found.is_some_and(bytes) || again != found.filter(|_| indexed) {
            tally.fail(&describe("text", &read, &format!("i={i}")), "what was written does not read back");
        }
        tally.count("text read back", indexed as u64);
    }
    by_entry(tally, &mut lent, &read, list.len());
}

/// The data of a whole chunk.
fn reference_data(chunk: &[u8]) -> Vec<u8> {
    let length = reference::number_at(chunk, 4) as usize;
    chunk[8..8 + length].to_vec()
}

// ---- Once ----------------------------------------------------------------------------------------------------------

/// A file whose only chunk is an 'RDes' with one text of these bytes.
fn with_text(bytes: &[u8]) -> Vec<u8> {
    let chunk = chunk_of(&[(u32::from_be_bytes(*b"Pict"), 1, bytes)]);
    reference::File { chunks: vec![reference::Chunk { tag: *b"RDes", data: reference_data(&chunk) }], entries: Vec::new() }.write()
}

/// Bytes about each end of each range in the RFC's table.
const NEAR: [u8; 34] = [
    0x00, 0x01, 0x7E, 0x7F, 0x80, 0x81, 0x8E, 0x8F, 0x90, 0x91, 0x9E, 0x9F, 0xA0, 0xA1, 0xBE, 0xBF, 0xC0, 0xC1, 0xC2, 0xDE, 0xDF, 0xE0, 0xE1, 0xEC, 0xED,
    0xEE, 0xEF, 0xF0, 0xF1, 0xF3, 0xF4, 0xF5, 0xF8, 0xFF,
];

/// Every sequence of one, two and three bytes, and of four those of bytes about each end and two million others, as a text of a file: by the table, and by
/// Rust's own decoder, the library's 39 has its place behind the longest good beginning.
pub fn sequences(tally: &mut Tally, rng: &mut Rng) {
    let mut tried = 0;
    for length in 1..=4 {
        let mut lent = Lent::new(&with_text(&vec![0; length]), 0);
        let start = lent.bytes().len() - length - length % 2;
        let mut judge = |bytes: &[u8]| {
            lent.set(start, bytes);
            let good = good_length(bytes);
            let decoded = std::str::from_utf8(bytes).map_or_else(|error| error.valid_up_to(), str::len);
            let expected = match good == length {
                true => Ok([u32::from_be_bytes(*b"Pict") as u64, 1, start as u64, length as u64]),
                false => Err(Refusal { number: 39, place: (start + good) as u64 }),
            };
            let found = archive::text(&mut lent, rng.profile, 0);
            if found != Ok(expected) || decoded != good {
                tally.fail(&format!("blorb_text of {bytes:02x?}"), &format!("expected {expected:?}\nfound    {found:?}\ndecoded up to {decoded}"));
            }
            tried += 1;
        };
        match length {
            4 => {
                for i in 0..NEAR.len().pow(4) {
                    judge(&[0, 1, 2, 3].map(|k| NEAR[i / NEAR.len().pow(k) % NEAR.len()]));
                }
                let mut other = Rng::new(1);
                for _ in 0..2_000_000 {
                    judge(&(other.next() as u32 | 0xC000_0000).to_be_bytes());
                }
            }
            _ => (0..1u32 << (8 * length)).for_each(|i| judge(&i.to_be_bytes()[4 - length..])),
        }
    }
    println!("compare: {tried} sequences of one to four bytes as texts");
}

/// Chunks about the longest that may be written, of rows that share their texts: all bytes of the chunk count, header and padding too.
pub fn longest(tally: &mut Tally, rng: &mut Rng) {
    let texts = vec![b'e'; 1 << 20];
    let buffer = vec![7; reference::LIMIT + 3];
    for (last, refusal) in [(0, 0), (1, 0), (2, 40), (3, 40), (1 << 19, 40)] {
        let mut rows: Vec<u32> = (0..16).flat_map(|i| [5, i, i, texts.len() as u32 - i]).collect();
        let so_far: usize = 12 + rows.chunks(4).map(|row| 12 + row[3] as usize).sum::<usize>();
        // The last row but one is cut so that a last one of no bytes fills the chunk up to one byte below the limit.
        rows[63] -= (so_far + 12 + 1 - reference::LIMIT) as u32;
        rows.extend([5, 16, 0, last]);
        let length = check_write(tally, rng, &rows, &texts, &buffer);
        if length != (refusal == 0).then_some(reference::LIMIT) {
            tally.fail("blorb_texts_write", &format!("a chunk about the limit, last text of {last}: must give {refusal}, gave {length:?}"));
        }
        let small = check_write(tally, rng, &rows, &texts, &buffer[..reference::LIMIT - 1]);
        if small.is_some() {
            tally.fail("blorb_texts_write", "a buffer of one byte too few");
        }
    }
}

/// 100,000 texts over one slice of 16,777,216 bytes, each of nearly all of it: judged to the last, and within a minute, of which a list that is judged row
/// by row takes a quarter of an hour. All of them good, or the last one cut within a character or past the slice.
pub fn shared_at_length(tally: &mut Tally, _: &mut Rng) {
    for character in ["e", "魚"] {
        let count = reference::LIMIT / character.len();
        let (texts, size) = (character.repeat(count), (character.len() * count) as u32);
        let row = |i: u32| [5, i, i * character.len() as u32, size - 2 * i * character.len() as u32];
        let good: Vec<u32> = (0..100_000).flat_map(row).collect();
        let cut = [&good[..], &[5, 100_000, 0, size - 1]].concat();
        let beyond = [&good[..], &[5, 100_000, 1, size]].concat();
        let cases = [(good, 40, 0), (cut, if character.len() == 1 { 40 } else { 39 }, 100_000), (beyond, 39, 100_000)];
        for (rows, number, row) in cases {
            let expected = Err(Refusal { number, place: if number == 40 { 0 } else { row } });
            tally.count_call("texts_write", number);
            let mut lent_rows = Lent::new(&in_memory(&rows), 0);
            let (mut lent_texts, mut lent_buffer) = (Lent::new(texts.as_bytes(), 0), Lent::new(&[7; 64], 0));
            let begun = Instant::now();
            let found = archive::texts_write(&mut lent_rows, rows.len(), &mut lent_texts, &mut lent_buffer);
            let seconds = begun.elapsed().as_secs();
            if found != Ok(expected) || seconds >= 60 {
                let told = format!("expected {expected:?}\nfound    {found:?} after {seconds} s");
                tally.fail("blorb_texts_write of 100,000 rows over one text", &told);
            }
        }
    }
}

/// 'RDes' chunks of as many texts as a file can have, all of no bytes, in order and with a repeat at the last one; and of a quarter as many falling and in
/// no order, for which the time grows with the square. Each is read under an unknown profile too, and written from its rows.
pub fn largest(tally: &mut Tally, rng: &mut Rng) {
    const TEXTS: usize = (reference::LIMIT - 24 - 8 - 4) / 12;
    const FEWER: usize = TEXTS / 4;
    let numbers: [(usize, fn(usize) -> u32, u64); 4] = [
        (TEXTS, |i| i as u32, 0),
        (TEXTS, |i| if i == TEXTS - 1 { 7 } else { i as u32 + 7 }, 38),
        (FEWER, |i| (FEWER - i) as u32, 0),
        (FEWER, |i| (i as u32).wrapping_mul(2_654_435_761), 0),
    ];
    for (count, number, refusal) in numbers {
        let rows: Vec<u32> = (0..count).flat_map(|i| [u32::from_be_bytes(*b"Pict"), number(i), 0, 0]).collect();
        let texts: Vec<(u32, u32, &[u8])> = rows.chunks(4).map(|row| (row[0], row[1], &[][..])).collect();
        let chunk = chunk_of(&texts);
        let file = reference::File { chunks: vec![reference::Chunk { tag: *b"RDes", data: reference_data(&chunk) }], entries: Vec::new() }.write();
        let read = Read { file: &file, profile: rng.profile, view: reference::read(&file, rng.profile), known: reference::read(&file, rng.profile) };
        let mut lent = Lent::new(&file, 0);
        let found = by_entry(tally, &mut lent, &read, count - 1);
        let unknown = rng.unknown_profile();
        by_entry(tally, &mut lent, &Read { profile: unknown, view: reference::read(&file, unknown), ..read }, count - 1);
        let length = check_write(tally, rng, &rows, &[], &vec![7; chunk.len() + 1]);
        if found.is_some() != (refusal == 0) || length != (refusal == 0).then_some(chunk.len()) {
            tally.fail("blorb_text or blorb_texts_write", &format!("the largest 'RDes' must give {refusal}, gave {found:?} and {length:?}"));
        }
    }
}

/// The rows of the table that are this module's own, with the numbers that must be seen in them.
pub fn rows() -> Vec<(&'static str, Vec<u64>)> {
    vec![
        ("texts_write", vec![0, 38, 39, 40]),
        ("texts shared", vec![0, 38, 39, 40]),
        // 22 by pair: the sum of 1 for a text and 2 for an entry of the index.
        ("text_of 22", vec![0, 1, 2]),
        ("text 37", vec![36, 38, 39]),
        ("text 38", vec![36, 39]),
        ("text 39", vec![36, 38]),
        ("text read back", vec![0, 1]),
    ]
}
