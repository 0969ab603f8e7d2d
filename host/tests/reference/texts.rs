//! Spoken descriptions (02, P7): what the paper says of 'RDes', and UTF-8 by the table of RFC 3629, section 4.

use super::{number_at, refuse, tag_at, Refusal, Span, Tag, View, LIMIT};
use std::collections::HashSet;
use std::ops::RangeInclusive;

// ---- UTF-8 ---------------------------------------------------------------------------------------------------------

type Bytes = RangeInclusive<u8>;
const TAIL: Bytes = 0x80..=0xBF;

/// UTF8-1, UTF8-2, the four forms of UTF8-3 and the three of UTF8-4, as the RFC lists them.
const FORMS: [&[Bytes]; 9] = [
    &[0x00..=0x7F],
    &[0xC2..=0xDF, TAIL],
    &[0xE0..=0xE0, 0xA0..=0xBF, TAIL],
    &[0xE1..=0xEC, TAIL, TAIL],
    &[0xED..=0xED, 0x80..=0x9F, TAIL],
    &[0xEE..=0xEF, TAIL, TAIL],
    &[0xF0..=0xF0, 0x90..=0xBF, TAIL, TAIL],
    &[0xF1..=0xF3, TAIL, TAIL, TAIL],
    &[0xF4..=0xF4, 0x80..=0x8F, TAIL, TAIL],
];

fn begins_with(text: &[u8], form: &[Bytes]) -> bool {
    text.len() >= form.len() && form.iter().zip(text).all(|(range, byte)| range.contains(byte))
}

/// How many bytes the text's longest beginning of whole characters has.
pub fn good_length(text: &[u8]) -> usize {
    let mut good = 0;
    while let Some(form) = FORMS.iter().find(|form| begins_with(&text[good..], form)) {
        good += form.len();
    }
    good
}

// ---- Reading -------------------------------------------------------------------------------------------------------

/// A text of an 'RDes': its pair, where its entry begins in the file, and where its bytes do.
#[derive(Clone, Copy, Debug)]
struct Text {
    usage: Tag,
    number: u32,
    entry: usize,
    start: usize,
    length: usize,
}

/// "A count, then entries of usage, number, text length, text"; none where they don't fill the chunk exactly.
fn texts_in(file: &[u8], span: &Span) -> Option<Vec<Text>> {
    let (begin, end) = (span.start + 8, span.start + 8 + span.length);
    let mut texts = Vec::new();
    if span.length < 4 {
        return None;
    }
    let (count, mut at) = (number_at(file, begin), begin + 4);
    for _ in 0..count {
        if end - at < 12 {
            return None;
        }
        let length = number_at(file, at + 8) as usize;
        if end - at - 12 < length {
            return None;
        }
        texts.push(Text { usage: tag_at(file, at), number: number_at(file, at + 4), entry: at, start: at + 12, length });
        at += 12 + length;
    }
    (at == end).then_some(texts)
}

/// The texts of an accepted file. Refusals by chunk position: 37 before its entries, then entry by entry 38 before 39; then 36.
fn judged(file: &[u8], view: &View) -> Result<Vec<Text>, Refusal> {
    let mut chunks = view.spans.iter().filter(|span| &tag_at(file, span.start) == b"RDes");
    let Some(first) = chunks.next() else { return Ok(Vec::new()) };
    let Some(texts) = texts_in(file, first) else { return refuse(37, first.start) };
    let mut pairs = HashSet::new();
    for text in &texts {
        if !pairs.insert((text.usage, text.number)) {
            return refuse(38, text.entry);
        }
        let good = good_length(&file[text.start..text.start + text.length]);
        if good < text.length {
            return refuse(39, text.start + good);
        }
    }
    match chunks.next() {
        Some(second) => refuse(36, second.start),
        None => Ok(texts),
    }
}

fn told(text: Option<&Text>) -> Result<[u64; 4], Refusal> {
    match text {
        Some(text) => Ok([u32::from_be_bytes(text.usage) as u64, text.number as u64, text.start as u64, text.length as u64]),
        None => refuse(22, 0),
    }
}

/// By entry from 0.
pub fn text(file: &[u8], view: &Result<View, Refusal>, i: usize) -> Result<[u64; 4], Refusal> {
    let view = view.as_ref().map_err(|&refusal| refusal)?;
    told(judged(file, view)?.get(i))
}

/// By pair: 22 for one without a text, and for one that the index has not.
pub fn text_of(file: &[u8], view: &Result<View, Refusal>, usage: &Tag, number: u32) -> Result<[u64; 4], Refusal> {
    let view = view.as_ref().map_err(|&refusal| refusal)?;
    let texts = judged(file, view)?;
    let text = texts.iter().find(|text| (&text.usage, text.number) == (usage, number));
    told(text.filter(|_| in_index(view, usage, number)))
}

pub fn in_index(view: &View, usage: &Tag, number: u32) -> bool {
    view.entries.iter().any(|entry| (&entry.usage, entry.number) == (usage, number))
}

// ---- Writing -------------------------------------------------------------------------------------------------------

/// The whole chunk of these texts, header and padding included.
pub fn chunk_of(texts: &[(u32, u32, &[u8])]) -> Vec<u8> {
    let mut data = (texts.len() as u32).to_be_bytes().to_vec();
    for (usage, number, text) in texts {
        data.extend([*usage, *number, text.len() as u32].into_iter().flat_map(u32::to_be_bytes));
        data.extend(*text);
    }
    let padding = data.len() % 2;
    [&b"RDes"[..], &(data.len() as u32).to_be_bytes(), &data, &[0][..padding]].concat()
}

/// The answer of writing, and the buffer afterwards: 38 or 39 by rows, then 40. Only whole rows count.
pub fn write(rows: &[u32], texts: &[u8], buffer: &[u8]) -> (Result<[u64; 1], Refusal>, Vec<u8>) {
    let mut pairs = HashSet::new();
    let mut listed = Vec::new();
    for (i, row) in rows.chunks_exact(4).enumerate() {
        if !pairs.insert((row[0], row[1])) {
            return (refuse(38, i), buffer.to_vec());
        }
        let (place, length) = (row[2] as usize, row[3] as usize);
        match texts.get(place..place + length) {
            Some(text) if good_length(text) == length => listed.push((row[0], row[1], text)),
            _ => return (refuse(39, i), buffer.to_vec()),
        }
    }
    let size: usize = 8 + 4 + listed.iter().map(|(_, _, text)| 12 + text.len()).sum::<usize>();
    if size + size % 2 > buffer.len().min(LIMIT) {
        return (refuse(40, 0), buffer.to_vec());
    }
    let chunk = chunk_of(&listed);
    (Ok([chunk.len() as u64]), [&chunk, &buffer[chunk.len()..]].concat())
}
