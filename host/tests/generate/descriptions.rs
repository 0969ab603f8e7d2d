//! Files with 'RDes' chunks (02, P7): good ones, and ones with faults put in on purpose, whose refusal follows from the construction.

use super::{pairs_in, unknown_usage, valid, Rng};
use crate::reference::{Refusal, Tag, USAGES};

/// A text before it is bytes: its pair and its bytes.
#[derive(Clone)]
pub struct Description {
    pub usage: Tag,
    pub number: u32,
    pub text: Vec<u8>,
}

/// A file, its refusal of 36 to 39 that follows from how it was built, all of these that were put in, and the texts that its first 'RDes' was made of.
pub struct Built {
    pub file: Vec<u8>,
    pub refusal: Option<Refusal>,
    pub faults: Vec<u64>,
    pub texts: Vec<Description>,
}

// ---- Texts ---------------------------------------------------------------------------------------------------------

/// The first and the last character of each row of the RFC's table.
const EDGES: [char; 18] = [
    '\u{0}', '\u{7F}', '\u{80}', '\u{7FF}', '\u{800}', '\u{FFF}', '\u{1000}', '\u{CFFF}', '\u{D000}', '\u{D7FF}', '\u{E000}', '\u{FFFF}', '\u{10000}',
    '\u{3FFFF}', '\u{40000}', '\u{FFFFF}', '\u{100000}', '\u{10FFFF}',
];

fn character(rng: &mut Rng) -> char {
    match rng.below(8) {
        0..=3 => char::from(rng.between(0x20, 0x7E) as u8),
        4 => char::from_u32(rng.between(0x80, 0x7FF) as u32).unwrap(),
        5 => char::from_u32(rng.between(0x800, 0xD7FF) as u32).unwrap(),
        6 => rng.pick(&EDGES),
        _ => char::from_u32(rng.between(0x1_0000, 0x10_FFFF) as u32).unwrap(),
    }
}

pub fn good_text(rng: &mut Rng) -> Vec<u8> {
    let length = match rng.below(20) {
        0..=3 => 0,
        4..=16 => rng.between(1, 12),
        17..=18 => rng.between(13, 80),
        _ => rng.between(81, 700),
    };
    let plain = rng.chance(30);
    let text: String = (0..length).map(|_| if plain { 'e' } else { character(rng) }).collect();
    text.into_bytes()
}

/// Bytes that no character begins with or is: each row of the RFC's table left by one byte, overlong forms, surrogates, above 10FFFF.
const BROKEN: [&[u8]; 30] = [
    b"\x80", b"\xBF", b"\xC0\x80", b"\xC1\xBF", b"\xC2\x7F", b"\xC2\xC0", b"\xDF\xC0", b"\xE0\x9F\xBF", b"\xE0\x80\x80", b"\xE0\xA0\x7F", b"\xE1\x7F\x80",
    b"\xE1\x80\xC0", b"\xEC\xC0\x80", b"\xED\xA0\x80", b"\xED\xBF\xBF", b"\xEE\x80\x7F", b"\xEF\xC0\x80", b"\xF0\x8F\xBF\xBF", b"\xF0\x80\x80\x80",
    b"\xF0\x90\x7F\x80", b"\xF1\x80\x80\x7F", b"\xF3\xC0\x80\x80", b"\xF4\x90\x80\x80", b"\xF4\x8F\xBF\xC0", b"\xF5\x80\x80\x80", b"\xF8\x88\x80\x80\x80",
    b"\xFC\x84\x80\x80\x80\x80", b"\xFE", b"\xFF", b"\xE2\x28\xA1",
];

/// A text that is no UTF-8, and how many bytes its longest good beginning has: broken within, or ending within a character.
pub fn bad_text(rng: &mut Rng) -> (Vec<u8>, usize) {
    let mut text = good_text(rng);
    let good = text.len();
    if rng.chance(40) {
        let last = loop {
            let last = character(rng);
            if last.len_utf8() > 1 {
                break last;
            }
        };
        let mut bytes = [0; 4];
        let whole = last.encode_utf8(&mut bytes).len();
        text.extend(&bytes[..rng.between(1, whole - 1)]);
    } else {
        text.extend(rng.pick(&BROKEN));
        text.extend(good_text(rng));
    }
    (text, good)
}

/// A slice of 5,000 to 100,000 bytes of characters of one kind or of all, and where a byte in it was broken.
pub fn long_slice(rng: &mut Rng) -> (Vec<u8>, Vec<usize>) {
    let size = rng.pick(&[5_000, 20_000, 40_000, 100_000]) + rng.below(300);
    let kinds: [fn(&mut Rng) -> char; 5] = [|_| 'e', |_| 'é', |_| '魚', |_| '\u{1F41F}', character];
    let kind = rng.pick(&kinds);
    let mut text = String::new();
    for _ in 0..rng.below(4) {
        text.push(character(rng));
    }
    while text.len() < size {
        text.push(kind(rng));
    }
    let mut bytes = text.into_bytes();
    let broken: Vec<usize> = (0..rng.pick(&[0, 0, 1, 2, 5])).map(|_| rng.below(size)).collect();
    for &at in &broken {
        bytes[at] = rng.pick(&[0x80, 0xBF, 0xC1, 0xE2, 0xF4, 0xFF, b'e']);
    }
    (bytes, broken)
}

/// The first offset from `at` on that can begin a character, or the slice's end.
fn start_from(bytes: &[u8], at: usize) -> usize {
    (at..bytes.len()).find(|&i| !(0x80..=0xBF).contains(&bytes[i])).unwrap_or(bytes.len())
}

/// An end of a text: anywhere, near a border of the parts that the library remembers, near a broken byte or an end of the slice; mostly between characters.
fn end_of_text(rng: &mut Rng, bytes: &[u8], broken: &[usize]) -> usize {
    let part = bytes.len() / 57_344 + 256;
    let near = match rng.below(6) {
        0 => rng.below(9),
        1 => bytes.len() - rng.below(9),
        2 | 3 => part * rng.below(bytes.len() / part + 1) + rng.below(9),
        4 if !broken.is_empty() => rng.pick(broken) + rng.below(9),
        _ => rng.below(bytes.len()) + 4,
    };
    let at = near.saturating_sub(4).min(bytes.len());
    if rng.chance(96) { start_from(bytes, at) } else { at }
}

/// Rows over such a slice that overlap, hold each other or are the same; most of them good, however much of the slice is broken.
pub fn sharing(rng: &mut Rng) -> (Vec<u32>, Vec<u8>) {
    let (bytes, broken) = long_slice(rng);
    let mut rows = Vec::new();
    for i in 0..rng.between(2, 40) as u32 {
        let (a, b) = (end_of_text(rng, &bytes, &broken), end_of_text(rng, &bytes, &broken));
        let (from, mut to) = (a.min(b), a.max(b));
        if rng.chance(97) {
            to = from + std::str::from_utf8(&bytes[from..to]).map_or_else(|error| error.valid_up_to(), str::len);
        }
        rows.extend([u32::from_be_bytes(*b"Pict"), if rng.chance(1) { 0 } else { i }, from as u32, (to - from) as u32]);
    }
    (rows, bytes)
}

// ---- Lists ---------------------------------------------------------------------------------------------------------

/// A pair: mostly one of the index, else any.
fn pair(rng: &mut Rng, indexed: &[(Tag, u32)]) -> (Tag, u32) {
    match rng.below(8) {
        0 => (unknown_usage(rng), rng.below(9) as u32),
        1 | 2 => (*rng.pick(&USAGES), rng.below(90) as u32),
        3 => ((rng.next() as u32).to_be_bytes(), rng.next() as u32),
        _ if !indexed.is_empty() => rng.pick(indexed),
        _ => (*b"Pict", rng.below(90) as u32),
    }
}

/// Texts of different pairs; now and then so many that the search for a repeated pair goes block by block.
pub fn list(rng: &mut Rng, indexed: &[(Tag, u32)]) -> Vec<Description> {
    let count = match rng.below(400) {
        0 => rng.between(1_500, 6_000),
        1..=30 => 0,
        31..=370 => rng.between(1, 6),
        _ => rng.between(7, 60),
    };
    let (many, mut seen, mut texts) = (count > 1_000, std::collections::HashSet::new(), Vec::new());
    for i in 0..count {
        let (usage, number) = if many { (*b"Pict", (i as u32).wrapping_mul(2_654_435_761)) } else { pair(rng, indexed) };
        if seen.insert((usage, number)) {
            texts.push(Description { usage, number, text: if many { vec![b'e'; i % 3] } else { good_text(rng) } });
        }
    }
    if rng.chance(30) {
        texts.sort_by_key(|text| (text.usage, text.number));
    }
    texts
}

/// The data of an 'RDes' of these texts, and where in it each entry begins.
pub fn data_of(texts: &[Description]) -> (Vec<u8>, Vec<usize>) {
    let (mut data, mut places) = ((texts.len() as u32).to_be_bytes().to_vec(), Vec::new());
    for Description { usage, number, text } in texts {
        places.push(data.len());
        data.extend(usage);
        data.extend(number.to_be_bytes());
        data.extend((text.len() as u32).to_be_bytes());
        data.extend(text);
    }
    (data, places)
}

// ---- Faults --------------------------------------------------------------------------------------------------------

/// Puts a repeated pair in behind its first, if there is a text. Gives the row of the later one.
fn repeat(rng: &mut Rng, texts: &mut Vec<Description>) -> Option<usize> {
    let first = (!texts.is_empty()).then(|| rng.below(texts.len()))?;
    let later = rng.between(first + 1, texts.len());
    let again = Description { text: good_text(rng), ..texts[first].clone() };
    texts.insert(later, again);
    Some(later)
}

/// The count too large or too small, a text's length changed, bytes missing or too many; under four bytes. The entries no longer fill it.
fn unfilled(rng: &mut Rng, data: &mut Vec<u8>, places: &[usize]) {
    let right = u32::from_be_bytes(data[..4].try_into().unwrap());
    let by = |rng: &mut Rng, old: u32| match rng.below(5) {
        0 => old.wrapping_add(rng.between(1, 300) as u32),
        1 => old.wrapping_sub(1),
        2 => u32::MAX - rng.below(14) as u32,
        3 => old ^ 1 << rng.between(8, 31),
        _ => old + 1,
    };
    match rng.below(6) {
        0 => data.truncate(rng.below(4)),
        1 if data.len() > 4 => data.truncate(rng.between(4, data.len() - 1)),
        2 => data.extend(vec![0; rng.between(1, 11)]),
        3 if !places.is_empty() => {
            let at = rng.pick(places) + 8;
            let old = u32::from_be_bytes(data[at..at + 4].try_into().unwrap());
            let wrong = by(rng, old);
            data[at..at + 4].copy_from_slice(&wrong.to_be_bytes());
        }
        _ => {
            let wrong = by(rng, right);
            data[..4].copy_from_slice(&wrong.to_be_bytes());
        }
    }
}

/// A good file with an 'RDes': without a fault, with one or with two of 36 to 39. A fault that turned out to be none is left to the reference.
pub fn with_descriptions(rng: &mut Rng) -> Built {
    let count = rng.below(7);
    let mut draft = valid(rng, count);
    let indexed = pairs_in(&draft.render().bytes);
    let mut texts = list(rng, &indexed);
    let faults: Vec<u64> = match rng.below(24) {
        0..=9 => vec![],
        10 => vec![36],
        11..=12 => vec![37],
        13 => vec![37, 36],
        14..=15 => vec![38],
        16 => vec![38, 36],
        17..=18 => vec![39],
        19 => vec![39, 36],
        20 => vec![37, 38],
        21 => vec![37, 39],
        22 => vec![38, 39],
        _ => vec![39, 38],
    };
    let later = if faults.contains(&38) { repeat(rng, &mut texts) } else { None };
    let missing = faults.contains(&38) && later.is_none();
    let bad = match (&faults[..], later) {
        _ if !faults.contains(&39) || texts.is_empty() => None,
        // The same entry, or a later one: 38 comes first. An earlier one: 39 does.
        ([38, 39], Some(later)) => Some(rng.between(later, texts.len() - 1)),
        ([39, 38], Some(later)) => Some(rng.below(later)),
        _ => Some(rng.below(texts.len())),
    };
    let mut good = 0;
    if let Some(bad) = bad {
        (texts[bad].text, good) = bad_text(rng);
    }
    let missing = missing || (faults.contains(&39) && bad.is_none());
    let (mut data, places) = data_of(&texts);
    if faults.contains(&37) {
        unfilled(rng, &mut data, &places);
    }
    let behind = rng.between(0, draft.chunks.len());
    let first = draft.insert_chunk(behind, *b"RDes", data);
    let second = faults.contains(&36).then(|| {
        let data = if rng.chance(50) { data_of(&texts).0 } else { rng.bytes(7) };
        let at = rng.between(behind + 1, draft.chunks.len());
        draft.insert_chunk(at, *b"RDes", data)
    });
    let layout = draft.render();
    let start = layout.start_of(first).unwrap();
    let entry = |row: usize| start + 8 + places[row];
    let place = match faults.first() {
        Some(36) => layout.start_of(second.unwrap()).unwrap(),
        Some(38) => later.map_or(0, entry),
        Some(39) => bad.map_or(0, |row| entry(row) + 12 + good),
        _ => start,
    };
    let refusal = faults.first().map(|&number| Refusal { number, place: place as u64 });
    // Where a fault needed a text and there was none, nothing follows from the construction.
    let faults = if missing { vec![0] } else { faults };
    Built { file: layout.bytes, refusal, faults, texts }
}

/// The same file with some of its bytes damaged, those of the 'RDes' more often than others.
pub fn damaged(rng: &mut Rng, file: &[u8]) -> Vec<u8> {
    let mut bytes = file.to_vec();
    let start = bytes.windows(4).position(|four| four == b"RDes").unwrap_or(0);
    for _ in 0..rng.pick(&[1, 1, 2, 3]) {
        let at = if rng.chance(85) { rng.between(start, bytes.len() - 1) } else { rng.below(bytes.len()) };
        let (flipped, any) = (bytes[at] ^ 1 << rng.below(8), rng.next() as u8);
        bytes[at] = rng.pick(&[0, 1, 255, 0x80, flipped, any]);
    }
    bytes
}
