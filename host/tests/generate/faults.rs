//! Files with faults built in on purpose, and the refusal that follows from how each was built.

use super::{a_picture, data, unknown_usage, unsuited, Draft, DraftEntry, Layout, Rng, Start, Stated};
use crate::reference::{Refusal, Tag};

/// The file's refusals in the order in which they are looked for, but 1, which is built elsewhere since it takes a file of 16 MB.
pub const ORDER: [u64; 21] = [2, 3, 4, 5, 6, 28, 29, 7, 8, 9, 10, 11, 12, 13, 14, 15, 16, 27, 17, 18, 19];

/// A refusal's place in that order.
fn turn(number: u64) -> usize {
    ORDER.iter().position(|&other| other == number).unwrap()
}

/// The refusal looked for next, but for the last.
pub fn next_in_order(number: u64) -> Option<u64> {
    ORDER.get(turn(number) + 1).copied()
}

/// A fault that was put into a draft, and so the refusal it must give unless an earlier reason decides.
#[derive(Clone, Copy, Debug)]
enum Mark {
    /// Numbers whose place is fixed.
    Fixed {
        number: u64,
        place: usize,
    },
    /// 6: a chunk's header cut, or some bytes behind the last chunk.
    Header(usize),
    Tail,
    /// 28, 29 and 7 of a chunk.
    Length(usize),
    Unpadded(usize),
    Padding(usize),
    SecondIndex,
    Entry {
        number: u64,
        i: usize,
        offset: usize,
    },
    /// A chunk whose type does not suit the entries that have it.
    Unsuited(usize),
    /// 27: entries out of the order of their chunks.
    Unordered,
    SecondOptional(Tag),
    /// All optional chunks of this type have the fault, so the first decides.
    Optional {
        number: u64,
        tag: Tag,
        offset: usize,
    },
}

/// What decides between faults: the stage of checking, the position within it, the number's turn.
type Order = (u64, usize, usize);

impl Mark {
    fn resolve(self, draft: &Draft, layout: &Layout) -> Option<(Order, Refusal)> {
        let at = |rank: u64, position: usize, number: u64, place: usize| {
            Some(((rank, position, turn(number)), Refusal { number, place: place as u64 }))
        };
        match self {
            Mark::Fixed { number, place } => at(number, 0, number, place),
            Mark::Header(id) => layout.start_of(id).and_then(|start| at(6, start, 6, start)),
            Mark::Length(id) => layout.start_of(id).and_then(|start| at(6, start, 28, start + 4)),
            Mark::Unpadded(id) => layout.start_of(id).and_then(|start| at(6, start, 29, layout.bytes.len())),
            Mark::Tail => {
                let start = layout.bytes.len() - draft.tail.len();
                at(6, start, 6, start)
            }
            Mark::Padding(id) => {
                let chunk = draft.chunks.iter().find(|chunk| chunk.id == id)?;
                let start = layout.start_of(id)?;
                at(6, start, 7, start + 8 + chunk.data.len())
            }
            Mark::SecondIndex => {
                let second = draft.chunks.iter().find(|chunk| &chunk.tag == b"RIdx")?;
                at(9, 0, 9, layout.start_of(second.id)?)
            }
            Mark::Entry { number, i, offset } => at(12, i, number, 24 + 12 * i + offset),
            Mark::Unsuited(id) => {
                let i = draft.entries.iter().position(|entry| entry.start == Start::Chunk(id))?;
                at(12, i, 14, 24 + 12 * i)
            }
            Mark::Unordered => {
                let start = |i: usize| match draft.entries[i].start {
                    Start::Chunk(id) => layout.start_of(id),
                    Start::Raw(_) => None,
                };
                let lower = |i: &usize| matches!((start(i - 1), start(*i)), (Some(before), Some(here)) if here < before);
                let i = (1..draft.entries.len()).find(lower)?;
                at(12, i, 27, 24 + 12 * i + 8)
            }
            Mark::SecondOptional(tag) => {
                let second = draft.chunks.iter().filter(|chunk| chunk.tag == tag).nth(1)?;
                let start = layout.start_of(second.id)?;
                at(17, start, 17, start)
            }
            Mark::Optional { number, tag, offset } => {
                let first = draft.chunks.iter().find(|chunk| chunk.tag == tag)?;
                let start = layout.start_of(first.id)?;
                at(17, start, number, start + offset)
            }
        }
    }
}

/// A file with faults, the refusal that follows from how it was built, and how many of the faults it has.
pub struct Built {
    pub file: Vec<u8>,
    pub refusal: Option<Refusal>,
    pub faults: usize,
}

/// The later checks' faults go in first, so that what they rely on is not changed by an earlier check's fault unless that one
/// decides anyway.
pub fn faulty(rng: &mut Rng, mut draft: Draft, numbers: &[u64]) -> Built {
    let mut numbers = numbers.to_vec();
    numbers.sort_by_key(|&number| turn(number));
    let mut marks = Vec::new();
    for number in numbers.into_iter().rev() {
        marks.extend(inject(rng, &mut draft, number));
    }
    let layout = draft.render();
    let resolved: Vec<_> = marks.iter().filter_map(|mark| mark.resolve(&draft, &layout)).collect();
    let refusal = resolved.iter().min_by_key(|(order, _)| *order).map(|(_, refusal)| *refusal);
    Built { file: layout.bytes, refusal, faults: resolved.len() }
}

fn inject(rng: &mut Rng, draft: &mut Draft, number: u64) -> Option<Mark> {
    match number {
        2..=5 => Some(inject_head(rng, draft, number)),
        6 => inject_cut_header(rng, draft),
        28 => inject_length(rng, draft),
        29 => inject_unpadded(rng, draft),
        7 => Some(inject_padding(rng, draft)),
        8..=11 => Some(inject_index(rng, draft, number)),
        12 | 13 | 15 => inject_entry(rng, draft, number),
        14 => inject_unsuited(rng, draft),
        16 => inject_repeated(rng, draft),
        27 => inject_unordered(rng, draft),
        17 => Some(inject_second(rng, draft)),
        18 => Some(inject_optional_length(rng, draft)),
        _ => Some(inject_frontispiece(rng, draft)),
    }
}

fn inject_head(rng: &mut Rng, draft: &mut Draft, number: u64) -> Mark {
    let place = [0, 0, 8, 4][number as usize - 2];
    match number {
        2 => draft.keep = Some(rng.below(12)),
        3 => draft.form = rng.pick(&[*b"form", *b"FORN", *b"RIFF", [0; 4], *b"IFRS"]),
        4 => draft.kind = rng.pick(&[*b"ifrs", *b"IFRT", *b"IFZS", [0; 4], *b"FORM"]),
        _ => {
            let right = draft.render().bytes.len() as u32 - 8;
            let wrong = [right - 1, right + 1, right + 8, 0, u32::MAX, right ^ (1 << 31), right ^ (1 << 24)];
            draft.form_length = Some(rng.pick(&wrong));
        }
    }
    Mark::Fixed { number, place }
}

/// Whether the last chunk is one of the draft's and nothing was done to the file's end yet.
fn end_is_free(draft: &Draft) -> bool {
    !draft.bare && draft.index_at < draft.chunks.len() && draft.tail.is_empty() && draft.cut == 0
}

/// Bytes of the last chunk, padding included.
fn last_size(draft: &Draft) -> usize {
    draft.chunks.last().map_or(0, |last| 8 + last.data.len() + last.data.len() % 2)
}

/// 6: one to seven bytes behind the last chunk, or no more left of it.
fn inject_cut_header(rng: &mut Rng, draft: &mut Draft) -> Option<Mark> {
    if !draft.tail.is_empty() || draft.cut > 0 {
        return None;
    }
    let length = rng.between(1, 7);
    if end_is_free(draft) && rng.chance(50) {
        draft.cut = last_size(draft) - length;
        return Some(Mark::Header(draft.chunks.last()?.id));
    }
    draft.tail = if rng.chance(50) { vec![0; length] } else { rng.bytes(length) };
    Some(Mark::Tail)
}

/// 28: a length that is too large by one to three or by far, or the last chunk's data cut.
fn inject_length(rng: &mut Rng, draft: &mut Draft) -> Option<Mark> {
    if draft.bare {
        return None;
    }
    if draft.chunks.is_empty() {
        draft.insert_chunk(0, *b"AUTH", b"Emily".to_vec());
    }
    let last = draft.chunks.last()?;
    if end_is_free(draft) && !last.data.is_empty() && rng.chance(40) {
        let cut = if rng.chance(40) { 1 } else { rng.between(1, last.data.len()) };
        let id = last.id;
        draft.cut = last.data.len() % 2 + cut;
        return Some(Mark::Length(id));
    }
    let i = rng.below(draft.chunks.len());
    let huge = rng.pick(&[u32::MAX, u32::MAX - 7, u32::MAX - 8, 1 << 31, u32::MAX - 19, 1 << 24]);
    let past = Stated::PastEnd(rng.between(1, 3));
    draft.chunks[i].stated = Some(if rng.chance(50) { Stated::Fixed(huge) } else { past });
    Some(Mark::Length(draft.chunks[i].id))
}

/// 29: the last chunk of odd length without its padding, or a chunk whose length is all that an odd file has behind its header.
fn inject_unpadded(rng: &mut Rng, draft: &mut Draft) -> Option<Mark> {
    if draft.bare || !draft.tail.is_empty() || draft.cut > 0 {
        return None;
    }
    if !draft.chunks.is_empty() && rng.chance(40) {
        let i = rng.below(draft.chunks.len());
        draft.chunks[i].stated = Some(Stated::PastEnd(0));
        draft.tail = rng.bytes(1);
        return Some(Mark::Unpadded(draft.chunks[i].id));
    }
    if !end_is_free(draft) || last_size(draft) == 8 + draft.chunks.last()?.data.len() {
        draft.insert_chunk(draft.chunks.len(), *b"ANNO", b"odd".to_vec());
    }
    draft.cut = 1;
    Some(Mark::Unpadded(draft.chunks.last()?.id))
}

fn inject_padding(rng: &mut Rng, draft: &mut Draft) -> Mark {
    let odd: Vec<usize> = (0..draft.chunks.len()).filter(|&i| draft.chunks[i].data.len() % 2 == 1).collect();
    let i = if odd.is_empty() { rng.between(0, draft.chunks.len()) } else { rng.pick(&odd) };
    if odd.is_empty() {
        draft.insert_chunk(i, *b"ANNO", b"odd".to_vec());
    }
    draft.chunks[i].padding = rng.between(1, 255) as u8;
    Mark::Padding(draft.chunks[i].id)
}

/// Refusals 8 to 11.
fn inject_index(rng: &mut Rng, draft: &mut Draft, number: u64) -> Mark {
    let place = [12, 0, 16, 20][number as usize - 8];
    let count = draft.entries.len();
    let movable = !draft.chunks.is_empty() && draft.chunks.iter().all(|chunk| &chunk.tag != b"RIdx");
    match number {
        8 if rng.chance(20) => draft.bare = true,
        8 if rng.chance(50) && movable => draft.index_at = rng.between(1, draft.chunks.len()),
        8 => draft.index_tag = rng.pick(&[*b"ridx", *b"RIdy", *b"RelN", [0; 4]]),
        9 => {
            for _ in 0..rng.pick(&[1, 1, 2]) {
                let content = data(rng);
                draft.insert_anywhere(rng, *b"RIdx", content);
            }
            return Mark::SecondIndex;
        }
        10 if rng.chance(50) => {
            let count = count as u32;
            let wraps = [1 << 30, 1 << 31, 3 << 30].map(|turn: u32| count.wrapping_add(turn));
            let near = [count + 1, count.wrapping_sub(1), u32::MAX];
            draft.count = Some(if rng.chance(50) { rng.pick(&wraps) } else { rng.pick(&near) });
        }
        10 => {
            let right = 4 + 12 * count;
            draft.index_size = Some(if rng.chance(30) { rng.below(4) } else { right + rng.between(1, 25) });
        }
        _ => {
            let filler = DraftEntry { usage: *b"Pict", number: 1, start: Start::Raw(12) };
            let entries = rng.between(4097, 4099);
            draft.entries.resize(entries, draft.entries.first().copied().unwrap_or(filler));
        }
    }
    Mark::Fixed { number, place }
}

/// A start where no chunk other than the index begins.
fn wrong_start(rng: &mut Rng, draft: &Draft) -> u32 {
    let layout = draft.render();
    let starts: Vec<usize> = layout.starts.iter().skip(1).map(|(_, start)| *start).collect();
    let mut wrong = vec![0, 8, 12, 13, 20, 24, layout.bytes.len(), layout.bytes.len() + 1, 1 << 24, u32::MAX as usize];
    wrong.extend(starts.iter().flat_map(|start| [start - 1, start + 1, start + 2, start + 4, start + 7]));
    wrong.retain(|start| !starts.contains(start));
    rng.pick(&wrong) as u32
}

/// Refusals 12, 13 and 15.
fn inject_entry(rng: &mut Rng, draft: &mut Draft, number: u64) -> Option<Mark> {
    let right_usage = |i: &usize| number != 15 || &draft.entries[*i].usage == b"Exec";
    let mut candidates: Vec<usize> = (0..draft.entries.len()).filter(right_usage).collect();
    if candidates.is_empty() && number == 15 {
        let id = draft.insert_chunk(draft.chunks.len(), *b"GLUL", b"code".to_vec());
        draft.entries.push(DraftEntry { usage: *b"Exec", number: 0, start: Start::Chunk(id) });
        candidates.push(draft.entries.len() - 1);
    }
    if candidates.is_empty() {
        return None;
    }
    let i = rng.pick(&candidates);
    let offset = match number {
        12 => {
            draft.entries[i].usage = unknown_usage(rng);
            0
        }
        13 => {
            draft.entries[i].start = Start::Raw(wrong_start(rng, draft));
            8
        }
        _ => {
            draft.entries[i].number = rng.pick(&[1, 2, 1 << 24, u32::MAX]);
            4
        }
    };
    Some(Mark::Entry { number, i, offset })
}

fn inject_unsuited(rng: &mut Rng, draft: &mut Draft) -> Option<Mark> {
    let known: Vec<DraftEntry> =
        draft.entries.iter().filter(|entry| draft.tag_of(entry.start).is_some()).copied().collect();
    let entry = (!known.is_empty()).then(|| rng.pick(&known))?;
    let (tag, content) = unsuited(rng, &entry.usage);
    let chunk = draft.chunks.iter_mut().find(|chunk| entry.start == Start::Chunk(chunk.id))?;
    if &chunk.tag == b"RIdx" {
        return None;
    }
    chunk.tag = tag;
    chunk.data = content;
    Some(Mark::Unsuited(chunk.id))
}

/// An entry again at the index's end, with the same chunk.
fn inject_repeated(rng: &mut Rng, draft: &mut Draft) -> Option<Mark> {
    let earlier = (!draft.entries.is_empty()).then(|| rng.pick(&draft.entries))?;
    draft.entries.push(earlier);
    Some(Mark::Entry { number: 16, i: draft.entries.len() - 1, offset: 0 })
}

/// Two entries with different chunks change places, all of them or their starts only where the usage is the same.
fn inject_unordered(rng: &mut Rng, draft: &mut Draft) -> Option<Mark> {
    let pairs = draft.entries.len().pow(2);
    let different = |&(i, j): &(usize, usize)| draft.entries[i].start != draft.entries[j].start;
    let tries: Vec<(usize, usize)> = (0..8.min(pairs))
        .map(|_| (rng.below(draft.entries.len()), rng.below(draft.entries.len())))
        .filter(different)
        .collect();
    let &(i, j) = tries.first()?;
    let (one, other) = (draft.entries[i], draft.entries[j]);
    if one.usage == other.usage && rng.chance(50) {
        draft.entries[i].start = other.start;
        draft.entries[j].start = one.start;
    } else {
        draft.entries.swap(i, j);
    }
    Some(Mark::Unordered)
}

/// The optional chunk with this tag, made now if there is none; a frontispiece only where a picture can be named.
fn optional_chunk(rng: &mut Rng, draft: &mut Draft) -> usize {
    let present: Vec<usize> =
        draft.chunks.iter().filter(|c| [b"RelN", b"Fspc"].contains(&&c.tag)).map(|c| c.id).collect();
    if !present.is_empty() {
        return rng.pick(&present);
    }
    match a_picture(draft, rng, false) {
        Some(picture) if rng.chance(70) => draft.insert_anywhere(rng, *b"Fspc", picture.to_be_bytes().to_vec()),
        _ => draft.insert_anywhere(rng, *b"RelN", vec![0, 1]),
    }
}

/// The first such chunk again at any place, or another one behind it, whose own faults then do not count.
fn inject_second(rng: &mut Rng, draft: &mut Draft) -> Mark {
    let id = optional_chunk(rng, draft);
    let tag = draft.chunks.iter().find(|chunk| chunk.id == id).unwrap().tag;
    let first = draft.chunks.iter().position(|chunk| chunk.tag == tag).unwrap();
    if rng.chance(50) {
        let content = draft.chunks[first].data.clone();
        draft.insert_anywhere(rng, tag, content);
    } else {
        let (at, content) = (rng.between(first + 1, draft.chunks.len()), data(rng));
        draft.insert_chunk(at, tag, content);
    }
    Mark::SecondOptional(tag)
}

fn inject_optional_length(rng: &mut Rng, draft: &mut Draft) -> Mark {
    let id = optional_chunk(rng, draft);
    let chunk = draft.chunks.iter_mut().find(|chunk| chunk.id == id).unwrap();
    let wrong = if &chunk.tag == b"RelN" { [0, 1, 3, 4, 6] } else { [0, 2, 3, 5, 8] };
    chunk.data.resize(rng.pick(&wrong), 0);
    Mark::Optional { number: 18, tag: chunk.tag, offset: 4 }
}

fn inject_frontispiece(rng: &mut Rng, draft: &mut Draft) -> Mark {
    let missing = (0..).find(|&number| !draft.has_pair(b"Pict", number)).unwrap();
    let number = match a_picture(draft, rng, true) {
        Some(rectangle) if rng.chance(60) => rectangle,
        _ => missing,
    };
    let content = number.to_be_bytes().to_vec();
    match draft.chunks.iter_mut().find(|chunk| &chunk.tag == b"Fspc") {
        Some(chunk) => chunk.data = content,
        None => {
            draft.insert_anywhere(rng, *b"Fspc", content);
        }
    }
    Mark::Optional { number: 19, tag: *b"Fspc", offset: 8 }
}
