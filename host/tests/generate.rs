//! Generated inputs: files of all shapes, damaged files, calls, and the buffers lent to them.

mod descriptions;
mod faults;
mod journals;
mod resolutions;

use crate::reference::{self, Answer, Call, Edit, State, Tag, ADRIFT, PLAIN, USAGES};
pub use descriptions::{bad_text, damaged as damaged_descriptions, list, sharing, with_descriptions, Built as BuiltDescriptions, Description};
pub use faults::{faulty, next_in_order, ORDER};
pub use journals::undo_state;
pub use resolutions::{damaged as damaged_resolution, with_resolution, Built as BuiltResolution, Resolution, LARGE_SIDE, REASONS};

// ---- Random numbers ------------------------------------------------------------------------------------------------

/// SplitMix64: every seed gives another sequence.
pub struct Rng {
    state: u64,
    /// How many of 1,000 data are large.
    large: usize,
    /// The profile that the case's files are made for and its calls are mostly made under.
    pub profile: u32,
}

impl Rng {
    pub fn new(seed: u64) -> Rng {
        Rng { state: seed, large: 8, profile: PLAIN }
    }

    /// The numbers of a case. One case of 60 has large data often and mostly buffers with room for it.
    pub fn of_case(case: u64) -> Rng {
        let mut rng = Rng::new(case);
        if rng.below(60) == 0 {
            rng.large = 200;
        }
        rng.profile = rng.pick(&[PLAIN, ADRIFT]);
        rng
    }

    /// Another profile than this known one: the other known one, or an unknown one.
    pub fn other_profile(&mut self, profile: u32) -> u32 {
        match self.chance(50) {
            true => PLAIN + ADRIFT - profile,
            false => self.unknown_profile(),
        }
    }

    pub fn unknown_profile(&mut self) -> u32 {
        let any = self.next() as u32 | 1 << self.between(1, 31);
        self.pick(&[2, 3, 255, 256, 65_536, 1 << 24, 1 << 31, u32::MAX, any])
    }

    fn often_large(&self) -> bool {
        self.large > 100
    }

    pub fn next(&mut self) -> u64 {
        self.state = self.state.wrapping_add(0x9E37_79B9_7F4A_7C15);
        let mut z = self.state;
        z = (z ^ (z >> 30)).wrapping_mul(0xBF58_476D_1CE4_E5B9);
        z = (z ^ (z >> 27)).wrapping_mul(0x94D0_49BB_1331_11EB);
        z ^ (z >> 31)
    }

    pub fn below(&mut self, bound: usize) -> usize {
        (self.next() % bound as u64) as usize
    }

    /// Both ends included.
    pub fn between(&mut self, low: usize, high: usize) -> usize {
        low + self.below(high - low + 1)
    }

    pub fn chance(&mut self, percent: usize) -> bool {
        self.below(100) < percent
    }

    pub fn pick<T: Clone>(&mut self, list: &[T]) -> T {
        list[self.below(list.len())].clone()
    }

    pub fn bytes(&mut self, count: usize) -> Vec<u8> {
        let mut bytes = Vec::with_capacity(count + 7);
        while bytes.len() < count {
            bytes.extend(self.next().to_le_bytes());
        }
        bytes.truncate(count);
        bytes
    }

    fn tag(&mut self) -> Tag {
        (self.next() as u32).to_be_bytes()
    }

    fn shuffle<T>(&mut self, list: &mut [T]) {
        for i in (1..list.len()).rev() {
            list.swap(i, self.below(i + 1));
        }
    }
}

// ---- Contents ------------------------------------------------------------------------------------------------------

/// The most bytes that the library moves or copies at once.
pub const PART: usize = 2_048;

/// Sizes about whole parts, up to 24 of them, for the data alone and with its chunk's header, about 1,024, and any up to 70,000.
fn large_size(rng: &mut Rng) -> usize {
    match rng.below(10) {
        0 => rng.between(1_020, 1_028),
        1..=3 => PART * rng.between(1, 24) - 20 + rng.below(41),
        4..=6 => PART * rng.between(1, 24) - 10 + rng.below(5),
        _ => rng.between(3_001, 70_000),
    }
}

fn data(rng: &mut Rng) -> Vec<u8> {
    let length = match rng.below(100) {
        0..=14 => 0,
        15..=54 => rng.between(1, 8),
        55..=89 => rng.between(9, 40),
        90..=98 => rng.between(41, 300),
        _ => rng.between(301, 3000),
    };
    let length = if rng.below(1000) < rng.large { large_size(rng) } else { length };
    rng.bytes(length)
}

const PICT: [&Tag; 3] = [b"JPEG", b"PNG ", b"Rect"];
const SND: [&Tag; 4] = [b"OGGV", b"MOD ", b"SONG", b"FORM"];
const DATA: [&Tag; 2] = [b"TEXT", b"BINA"];
const EXEC: [&Tag; 12] =
    [b"ZCOD", b"GLUL", b"TAD2", b"TAD3", b"HUGO", b"ALAN", b"ADRI", b"LEVE", b"AGT ", b"MAGS", b"ADVS", b"EXEC"];

const ADRIFT_PICT: [&Tag; 4] = [b"JPEG", b"PNG ", b"Rect", b"GIF "];
const ADRIFT_SND: [&Tag; 7] = [b"OGGV", b"MOD ", b"SONG", b"FORM", b"WAV ", b"MIDI", b"MP3 "];

fn tags_of(profile: u32, usage: &Tag) -> &'static [&'static Tag] {
    match usage {
        b"Pict" if profile == ADRIFT => &ADRIFT_PICT,
        b"Snd " if profile == ADRIFT => &ADRIFT_SND,
        b"Pict" => &PICT,
        b"Snd " => &SND,
        b"Data" => &DATA,
        _ => &EXEC,
    }
}

/// A type and data that suit the usage.
fn suited(rng: &mut Rng, usage: &Tag) -> (Tag, Vec<u8>) {
    let tag = *rng.pick(tags_of(rng.profile, usage));
    let mut content = data(rng);
    if &tag == b"Rect" {
        content.resize(8, 0);
    }
    if &tag == b"FORM" {
        content.splice(0..0, *b"AIFF");
    }
    (tag, content)
}

/// A type and data that do not suit the usage, and are no index and no optional chunk.
fn unsuited(rng: &mut Rng, usage: &Tag) -> (Tag, Vec<u8>) {
    let content = data(rng);
    match rng.below(6) {
        0 if usage == b"Pict" => {
            let length = rng.pick(&[0, 4, 7, 9, 10, 16]);
            (*b"Rect", rng.bytes(length))
        }
        0 | 1 if usage == b"Snd " => {
            let forms: [&[u8]; 6] = [b"", b"AIF", b"AIFC", b"AIF\0more", b"WAVEdata", b"aiff"];
            (*b"FORM", rng.pick(&forms).to_vec())
        }
        2 => {
            let others: Vec<&Tag> = USAGES.into_iter().filter(|&other| other != usage).collect();
            let other = rng.pick(&others);
            suited(rng, other)
        }
        3 => {
            let near: [&Tag; 14] = [
                b"jpeg", b"PNG\0", b"rect", b"MOD\0", b"OGGW", b"TEXU", b"BIN ", b"TAD4", b"AGT\0", b"\0\0\0\0", b"gif ", b"WAV\0",
                b"MIDi", b"MP3\0",
            ];
            (*rng.pick(&near), content)
        }
        // A type of the ADRIFT profile: under its own usage only where the profile is plain.
        4 => {
            let of_pict: [&Tag; 1] = [b"GIF "];
            let of_snd: [&Tag; 3] = [b"WAV ", b"MIDI", b"MP3 "];
            let own = rng.profile == PLAIN;
            let tag = match usage {
                b"Pict" if own => rng.pick(&of_pict),
                b"Snd " if own => rng.pick(&of_snd),
                b"Snd " => rng.pick(&of_pict),
                _ => rng.pick(&of_snd),
            };
            (*tag, content)
        }
        _ => ([b'~', rng.next() as u8, rng.next() as u8, rng.next() as u8], content),
    }
}

fn unknown_usage(rng: &mut Rng) -> Tag {
    let near: [&Tag; 8] = [b"pict", b"Snd\0", b"Dat ", b"EXEC", b"Pics", b"\0\0\0\0", b"RIdx", b"Fspc"];
    match rng.below(3) {
        0 => [b'~', rng.next() as u8, rng.next() as u8, rng.next() as u8],
        _ => *rng.pick(&near),
    }
}

fn number(rng: &mut Rng, spread: usize) -> u32 {
    match rng.below(20) {
        0 => rng.pick(&[u32::MAX, 1 << 31, u32::MAX - 1, 256, 65_536]),
        1 => rng.next() as u32,
        _ => rng.below(spread) as u32,
    }
}

// ---- Drafts: files before they are bytes ---------------------------------------------------------------------------

/// What a chunk's header says instead of the true length.
#[derive(Clone, Copy)]
enum Stated {
    Fixed(u32),
    /// So many bytes more than the file has behind the header.
    PastEnd(usize),
}

#[derive(Clone)]
struct DraftChunk {
    id: usize,
    tag: Tag,
    data: Vec<u8>,
    stated: Option<Stated>,
    padding: u8,
}

#[derive(Clone, Copy, PartialEq)]
enum Start {
    Chunk(usize),
    Raw(u32),
}

#[derive(Clone, Copy)]
struct DraftEntry {
    usage: Tag,
    number: u32,
    start: Start,
}

const INDEX: usize = 0;

/// A file that may have faults. Chunks are known by their id, the index has id 0.
#[derive(Clone)]
pub struct Draft {
    form: Tag,
    form_length: Option<u32>,
    kind: Tag,
    index_tag: Tag,
    /// The index's position among the chunks.
    index_at: usize,
    /// The index's data, cut or filled up to this size.
    index_size: Option<usize>,
    count: Option<u32>,
    entries: Vec<DraftEntry>,
    chunks: Vec<DraftChunk>,
    next_id: usize,
    /// No chunk at all.
    bare: bool,
    /// Bytes behind the last chunk, and bytes taken off the end. The FORM length follows them.
    tail: Vec<u8>,
    cut: usize,
    /// Only these first bytes, whatever the FORM length says.
    keep: Option<usize>,
}

/// The draft's bytes and where its chunks came to begin, in file order.
pub struct Layout {
    pub bytes: Vec<u8>,
    pub starts: Vec<(usize, usize)>,
}

impl Layout {
    fn start_of(&self, id: usize) -> Option<usize> {
        self.starts.iter().find(|(other, _)| *other == id).map(|(_, start)| *start)
    }
}

impl Draft {
    fn empty() -> Draft {
        Draft {
            form: *b"FORM",
            form_length: None,
            kind: *b"IFRS",
            index_tag: *b"RIdx",
            index_at: 0,
            index_size: None,
            count: None,
            entries: Vec::new(),
            chunks: Vec::new(),
            next_id: INDEX + 1,
            bare: false,
            tail: Vec::new(),
            cut: 0,
            keep: None,
        }
    }

    fn insert_chunk(&mut self, at: usize, tag: Tag, data: Vec<u8>) -> usize {
        let id = self.next_id;
        self.next_id += 1;
        self.chunks.insert(at, DraftChunk { id, tag, data, stated: None, padding: 0 });
        id
    }

    /// A chunk that no entry has, at a random place.
    fn insert_anywhere(&mut self, rng: &mut Rng, tag: Tag, data: Vec<u8>) -> usize {
        let at = rng.between(0, self.chunks.len());
        self.insert_chunk(at, tag, data)
    }

    fn has_pair(&self, usage: &Tag, number: u32) -> bool {
        self.entries.iter().any(|entry| &entry.usage == usage && entry.number == number)
    }

    /// Puts the entries in the order of their chunks. Those of one chunk keep theirs.
    fn order_entries(&mut self) {
        let chunks = &self.chunks;
        self.entries.sort_by_key(|entry| chunks.iter().position(|chunk| entry.start == Start::Chunk(chunk.id)));
    }

    fn tag_of(&self, start: Start) -> Option<Tag> {
        self.chunks.iter().find(|chunk| start == Start::Chunk(chunk.id)).map(|chunk| chunk.tag)
    }

    fn index_chunk(&self, starts: &[(usize, usize)]) -> DraftChunk {
        let mut data = self.count.unwrap_or(self.entries.len() as u32).to_be_bytes().to_vec();
        let places: std::collections::HashMap<usize, usize> = starts.iter().copied().collect();
        for entry in &self.entries {
            let start = match entry.start {
                Start::Chunk(id) => places.get(&id).map_or(0, |&start| start as u32),
                Start::Raw(raw) => raw,
            };
            data.extend(entry.usage);
            data.extend(entry.number.to_be_bytes());
            data.extend(start.to_be_bytes());
        }
        if let Some(size) = self.index_size {
            data.resize(size, 0);
        }
        DraftChunk { id: INDEX, tag: self.index_tag, data, stated: None, padding: 0 }
    }

    /// All chunks in file order with their starts. Starts within the index do not change its size, so two rounds do.
    fn in_order(&self) -> (Vec<DraftChunk>, Vec<(usize, usize)>) {
        let mut starts = Vec::new();
        let mut chunks = Vec::new();
        for _ in 0..2 {
            chunks = self.chunks.clone();
            chunks.insert(self.index_at.min(chunks.len()), self.index_chunk(&starts));
            let mut at = 12;
            starts.clear();
            for chunk in &chunks {
                starts.push((chunk.id, at));
                at += 8 + chunk.data.len() + chunk.data.len() % 2;
            }
        }
        (chunks, starts)
    }

    pub fn render(&self) -> Layout {
        let (chunks, starts) = if self.bare { Default::default() } else { self.in_order() };
        let sizes: usize = chunks.iter().map(|chunk| 8 + chunk.data.len() + chunk.data.len() % 2).sum();
        let total = (12 + sizes + self.tail.len()).saturating_sub(self.cut);
        let mut bytes = Vec::with_capacity(12 + sizes + self.tail.len());
        bytes.extend(self.form);
        bytes.extend(self.form_length.unwrap_or((total as u32).wrapping_sub(8)).to_be_bytes());
        bytes.extend(self.kind);
        for chunk in &chunks {
            let length = match chunk.stated {
                None => chunk.data.len() as u32,
                Some(Stated::Fixed(length)) => length,
                Some(Stated::PastEnd(more)) => (total.saturating_sub(bytes.len() + 8) + more) as u32,
            };
            bytes.extend(chunk.tag);
            bytes.extend(length.to_be_bytes());
            bytes.extend(&chunk.data);
            bytes.extend((chunk.data.len() % 2 == 1).then_some(chunk.padding));
        }
        bytes.extend(&self.tail);
        bytes.truncate(total.min(self.keep.unwrap_or(total)));
        Layout { bytes, starts }
    }
}

/// How many entries: mostly few, now and then hundreds.
pub fn entry_count(rng: &mut Rng) -> usize {
    match rng.below(1000) {
        0..=49 => 0,
        50..=549 => rng.between(1, 5),
        550..=849 => rng.between(6, 15),
        850..=995 => rng.between(16, 40),
        _ => rng.between(100, 300),
    }
}

/// A good file with so many entries (fewer where a pair could not be found).
pub fn valid(rng: &mut Rng, count: usize) -> Draft {
    let mut draft = Draft::empty();
    let sharing = rng.pick(&[0, 0, 10, 40]);
    for _ in 0..count {
        add_entry(&mut draft, rng, count, sharing);
    }
    for _ in 0..rng.pick(&[0, 0, 1, 2, 5]) {
        let tags: [&Tag; 12] = [
            b"AUTH", b"(c) ", b"ANNO", b"IFmd", b"FORM", b"TEXT", b"JPEG", b"Rect", b"IFRS", b"Pict", b"ZCOD", b"Loop",
        ];
        let tag = if rng.chance(20) { [rng.next() as u8, 0xFF, 0, 1] } else { *rng.pick(&tags) };
        let content = data(rng);
        draft.insert_anywhere(rng, tag, content);
    }
    if rng.chance(60) {
        rng.shuffle(&mut draft.chunks);
        rng.shuffle(&mut draft.entries);
    }
    draft.order_entries();
    if rng.chance(30) {
        let content = rng.bytes(2);
        draft.insert_anywhere(rng, *b"RelN", content);
    }
    if let (true, Some(picture)) = (rng.chance(40), a_picture(&draft, rng, false)) {
        draft.insert_anywhere(rng, *b"Fspc", picture.to_be_bytes().to_vec());
    }
    if rng.often_large() && rng.chance(40) {
        fill_parts(&mut draft, rng);
    }
    draft
}

/// A last chunk with which all chunks, or those behind the first, take whole parts, or up to two bytes more or less: an edit
/// moves just these.
fn fill_parts(draft: &mut Draft, rng: &mut Rng) {
    let moved = draft.chunks.iter().skip(rng.below(2));
    let size: usize = moved.map(|chunk| 8 + chunk.data.len() + chunk.data.len() % 2).sum();
    let left = PART - (size + 8) % PART;
    let length = left.saturating_sub(2) + rng.below(5);
    let content = rng.bytes(length);
    draft.insert_chunk(draft.chunks.len(), *b"ANNO", content);
}

fn add_entry(draft: &mut Draft, rng: &mut Rng, count: usize, sharing: usize) {
    let usage = match rng.below(20) {
        0..=8 => *b"Pict",
        9..=13 => *b"Snd ",
        14..=18 => *b"Data",
        _ => *b"Exec",
    };
    let number = if &usage == b"Exec" { 0 } else { number(rng, 2 * count + 3) };
    if draft.has_pair(&usage, number) {
        return;
    }
    let same: Vec<Start> = draft.entries.iter().filter(|entry| entry.usage == usage).map(|entry| entry.start).collect();
    let start = if !same.is_empty() && rng.chance(sharing) {
        rng.pick(&same)
    } else {
        let (tag, content) = suited(rng, &usage);
        Start::Chunk(draft.insert_chunk(draft.chunks.len(), tag, content))
    };
    draft.entries.push(DraftEntry { usage, number, start });
}

/// The number of a picture that is a 'Rect', or of one that is not.
fn a_picture(draft: &Draft, rng: &mut Rng, rectangle: bool) -> Option<u32> {
    let fits = |entry: &&DraftEntry| {
        &entry.usage == b"Pict" && draft.tag_of(entry.start).is_some_and(|tag| (&tag == b"Rect") == rectangle)
    };
    let numbers: Vec<u32> = draft.entries.iter().filter(fits).map(|entry| entry.number).collect();
    (!numbers.is_empty()).then(|| rng.pick(&numbers))
}

// ---- Damaged files and random bytes --------------------------------------------------------------------------------

/// Offsets whose bytes mean something: heads, lengths, the index.
fn structural(layout: &Layout) -> Vec<usize> {
    let index_end = layout.starts.get(1).map_or(24, |(_, start)| *start);
    let mut places: Vec<usize> = (0..index_end).collect();
    places.extend(layout.starts.iter().flat_map(|(_, start)| *start..*start + 8));
    places.retain(|&place| place < layout.bytes.len());
    places
}

fn set_number(bytes: &mut [u8], at: usize, value: u32) {
    if at + 4 <= bytes.len() {
        bytes[at..at + 4].copy_from_slice(&value.to_be_bytes());
    }
}

/// A value near the old one, or an extreme one.
fn other_value(rng: &mut Rng, old: u32) -> u32 {
    match rng.below(8) {
        0 => old.wrapping_add(1),
        1 => old.wrapping_sub(1),
        2 => old.wrapping_add(12),
        3 => old.wrapping_sub(12),
        4 => old ^ (1 << rng.below(32)),
        5 => rng.pick(&[0, 1, 12, 24, u32::MAX, u32::MAX - 7, 1 << 31, 1 << 24]),
        6 => rng.below(64) as u32,
        _ => rng.next() as u32,
    }
}

fn mutate_once(rng: &mut Rng, layout: &Layout, bytes: &mut Vec<u8>) {
    let places = structural(layout);
    match rng.below(8) {
        0 if !bytes.is_empty() => {
            let at = rng.below(bytes.len());
            bytes[at] ^= 1 << rng.below(8);
        }
        1 | 2 if !places.is_empty() => {
            let at = rng.pick(&places);
            if at < bytes.len() {
                bytes[at] = rng.pick(&[0, 1, 255, bytes[at].wrapping_add(1), bytes[at].wrapping_sub(1)]);
            }
        }
        3 => bytes.truncate(rng.between(0, bytes.len())),
        4 => {
            let more = rng.between(1, 20);
            bytes.extend(rng.bytes(more));
        }
        5 => swap_chunks(rng, layout, bytes),
        _ if !layout.starts.is_empty() => {
            let at = rng.pick(&layout.starts).1 + 4;
            if at + 4 <= bytes.len() {
                let value = other_value(rng, reference::number_at(bytes, at));
                set_number(bytes, at, value);
            }
        }
        _ => {}
    }
}

/// Two whole chunks change places; the starts in the index stay.
fn swap_chunks(rng: &mut Rng, layout: &Layout, bytes: &mut Vec<u8>) {
    if layout.starts.len() < 2 || bytes.len() < layout.bytes.len() {
        return;
    }
    let i = rng.below(layout.starts.len() - 1);
    let from = layout.starts[i].1;
    let middle = layout.starts[i + 1].1;
    let to = layout.starts.get(i + 2).map_or(layout.bytes.len(), |(_, start)| *start);
    bytes[from..to].rotate_left(middle - from);
}

/// A few damages. The FORM length is mostly made right again, so that later checks are reached.
pub fn mutated(rng: &mut Rng, layout: &Layout) -> Vec<u8> {
    let mut bytes = layout.bytes.clone();
    for _ in 0..rng.pick(&[1, 1, 1, 2, 3]) {
        mutate_once(rng, layout, &mut bytes);
    }
    if rng.chance(80) && bytes.len() >= 8 {
        let length = bytes.len() as u32 - 8;
        set_number(&mut bytes, 4, length);
    }
    bytes
}

pub fn random_bytes(rng: &mut Rng) -> Vec<u8> {
    let length = if rng.chance(30) { rng.between(0, 15) } else { rng.between(12, 120) };
    let mut bytes = rng.bytes(length);
    if rng.chance(80) && length >= 12 {
        bytes[..4].copy_from_slice(b"FORM");
        bytes[8..12].copy_from_slice(b"IFRS");
        set_number(&mut bytes, 4, length as u32 - 8);
    }
    if rng.chance(60) && length >= 24 {
        bytes[12..16].copy_from_slice(b"RIdx");
        let entries = rng.below(4) as u32;
        set_number(&mut bytes, 16, 4 + 12 * entries);
        set_number(&mut bytes, 20, entries);
    }
    bytes
}

// ---- Calls ---------------------------------------------------------------------------------------------------------

/// Usages and numbers as the index's bytes have them, whether or not the file is good.
pub fn pairs_in(file: &[u8]) -> Vec<(Tag, u32)> {
    if file.len() < 24 {
        return Vec::new();
    }
    let count = (reference::number_at(file, 20) as usize).min((file.len() - 24) / 12);
    (0..count).map(|i| (reference::tag_at(file, 24 + 12 * i), reference::number_at(file, 28 + 12 * i))).collect()
}

/// The picture that a frontispiece names.
fn frontispiece_in(file: &[u8]) -> Option<(Tag, u32)> {
    let at = file.windows(8).position(|bytes| bytes == b"Fspc\0\0\0\x04")?;
    (at + 12 <= file.len()).then(|| (*b"Pict", reference::number_at(file, at + 8)))
}

/// A usage and number to look up, replace or remove: mostly one that is there.
pub fn target(rng: &mut Rng, file: &[u8]) -> (Tag, u32) {
    let pairs = pairs_in(file);
    match rng.below(20) {
        0 => (unknown_usage(rng), number(rng, 20)),
        1 => (*rng.pick(&USAGES), number(rng, 40)),
        2..=4 => frontispiece_in(file).unwrap_or((*b"Pict", 0)),
        5 if !pairs.is_empty() => {
            let (usage, number) = rng.pick(&pairs);
            (usage, number.wrapping_add(1))
        }
        _ if !pairs.is_empty() => rng.pick(&pairs),
        _ => (*b"Data", 0),
    }
}

/// Type and data of a chunk: mostly right ones.
fn chunk_content(rng: &mut Rng, usage: &Tag) -> (Tag, Vec<u8>) {
    match rng.below(100) {
        0..=83 => suited(rng, usage),
        84..=92 => unsuited(rng, usage),
        93..=95 => (*b"RIdx", data(rng)),
        96 => (*b"RelN", rng.bytes(2)),
        97 => (*b"Fspc", rng.bytes(4)),
        98 => (*b"FORM", [&b"AIFF"[..], &data(rng)].concat()),
        _ => (rng.tag(), data(rng)),
    }
}

/// Type and data for an edit: of type 'FORM' a whole file, three times in four with the right head.
fn edit_content(rng: &mut Rng, usage: &Tag) -> (Tag, Vec<u8>) {
    let (tag, content) = chunk_content(rng, usage);
    match &tag {
        b"FORM" if rng.chance(25) => (tag, with_wrong_head(rng, content)),
        b"FORM" => (tag, with_head(&content)),
        _ => (tag, content),
    }
}

/// The whole file of a 'FORM' chunk with this data.
pub fn with_head(content: &[u8]) -> Vec<u8> {
    [b"FORM", &(content.len() as u32).to_be_bytes(), content].concat()
}

/// The head missing, cut, or wrong in its type or length; or with the padding byte or any other byte behind the file.
fn with_wrong_head(rng: &mut Rng, content: Vec<u8>) -> Vec<u8> {
    let mut whole = with_head(&content);
    let right = content.len() as u32;
    match rng.below(8) {
        0 => whole.truncate(rng.below(8)),
        1 => return content,
        2 => whole[..4].copy_from_slice(&rng.pick(&[*b"form", *b"FORN", *b"LIST", *b"RIFF", *b"AIFF", [0; 4]])),
        3 => whole[rng.below(4)] ^= 1 << rng.below(8),
        4 => whole.push(if rng.chance(70) { 0 } else { rng.next() as u8 }),
        5 => {
            let wrong = [right + 8, right.wrapping_sub(8), right + right % 2 + 1, right ^ 1 << 24, right ^ 1 << 31, u32::MAX];
            set_number(&mut whole, 4, rng.pick(&wrong));
        }
        6 => set_number(&mut whole, 4, right.swap_bytes()),
        _ => {
            let wrong = other_value(rng, right);
            set_number(&mut whole, 4, wrong);
        }
    }
    whole
}

/// The same call with the right head, for an add or replacement that 30 refuses.
pub fn mended(call: &Call) -> Call {
    let mut call = call.clone();
    if let Call::Edit(Edit::Add { data, .. } | Edit::Replace { data, .. }) = &mut call {
        let content = data.get(8..).unwrap_or_default().to_vec();
        *data = with_head(&content);
    }
    call
}

fn add_call(rng: &mut Rng, file: &[u8]) -> Edit {
    let usages = if rng.chance(25) { 4 } else { 3 };
    let usage = if rng.chance(6) { unknown_usage(rng) } else { *rng.pick(&USAGES[..usages]) };
    let (usage, number) = match rng.below(10) {
        0 => target(rng, file),
        _ if &usage == b"Exec" => (usage, if rng.chance(75) { 0 } else { number(rng, 4) }),
        _ => (usage, number(rng, 60)),
    };
    let (tag, data) = edit_content(rng, &usage);
    Edit::Add { usage, number, tag, data }
}

fn replace_call(rng: &mut Rng, file: &[u8]) -> Edit {
    let (usage, number) = target(rng, file);
    let rectangle = frontispiece_in(file) == Some((usage, number)) && rng.chance(50);
    let (tag, data) = if rectangle { (*b"Rect", rng.bytes(8)) } else { edit_content(rng, &usage) };
    Edit::Replace { usage, number, tag, data }
}

/// A link to mostly one that is there, under mostly a new name of the same usage.
pub fn link_call(rng: &mut Rng, file: &[u8]) -> Edit {
    let (usage, number) = target(rng, file);
    let (new_usage, new_number) = match rng.below(20) {
        0 => (unknown_usage(rng), self::number(rng, 20)),
        1..=2 => (*rng.pick(&USAGES), self::number(rng, 60)),
        3..=5 => target(rng, file),
        6 => (usage, number),
        _ if &usage == b"Exec" && rng.chance(50) => (usage, 0),
        _ => (usage, self::number(rng, 60)),
    };
    Edit::Link { usage, number, new_usage, new_number }
}

/// An edit to be tried on this file, by how many of 100 are adds, replacements and links; the others are removals.
pub fn edit_call(rng: &mut Rng, file: &[u8], [adds, replaces, links]: [usize; 3]) -> Edit {
    let choice = rng.below(100);
    if choice < adds {
        return add_call(rng, file);
    }
    if choice < adds + replaces {
        return replace_call(rng, file);
    }
    if choice < adds + replaces + links {
        return link_call(rng, file);
    }
    let (usage, number) = target(rng, file);
    Edit::Remove { usage, number }
}

// ---- Lent buffers --------------------------------------------------------------------------------------------------

/// Buffers with this file and these records, and random bytes behind them.
pub fn lend(rng: &mut Rng, file: Vec<u8>, records: Vec<u8>, file_more: usize, journal_more: usize) -> State {
    let (length, used) = (file.len(), records.len());
    let (mut file, mut journal) = (file, records);
    file.extend(rng.bytes(file_more));
    journal.extend(rng.bytes(journal_more));
    State { profile: rng.profile, file, length, journal, used }
}

/// The usual room; where large data comes often, mostly room for some of it too.
pub fn room(rng: &mut Rng, usual: usize) -> usize {
    if !rng.often_large() {
        return usual;
    }
    match rng.below(4) {
        0 => usual,
        1 => large_size(rng) + usual % 40,
        _ => rng.between(8 * PART, 64 * PART),
    }
}

/// Buffers just large enough for the call (with the right head, if that is wrong), or up to two bytes short of it; else as they were.
pub fn tighten(rng: &mut Rng, call: &Call, state: State) -> State {
    let (answer, after) = match reference::call(call, &state) {
        (Answer { refusal: 30, .. }, _) => reference::call(&mended(call), &state),
        answered => answered,
    };
    if answer.refusal != 0 {
        return state;
    }
    let mut tight = state;
    if rng.chance(70) {
        let size = after.length.max(tight.length).saturating_sub(rng.pick(&[0, 0, 1, 2]));
        tight.file.truncate(size.max(tight.length));
    }
    if rng.chance(70) {
        let size = after.used.max(tight.used).saturating_sub(rng.pick(&[0, 0, 1, 2]));
        tight.journal.truncate(size.max(tight.used));
    }
    tight
}

/// Lengths that exceed their buffers, one or both.
pub fn exceed(rng: &mut Rng, state: &mut State) {
    let beyond = |rng: &mut Rng, size: usize| match rng.below(4) {
        0 => usize::MAX,
        1 => size + (1 << 32),
        2 => size + rng.between(1, 30),
        _ => size + 1,
    };
    let which = rng.below(3);
    if which != 0 {
        state.length = beyond(rng, state.file.len());
    }
    if which != 1 {
        state.used = beyond(rng, state.journal.len());
    }
}
