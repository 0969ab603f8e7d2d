//! A second, independent account of what the calls of blorb.h give, to compare the library with.
//!
//! A file is read into a list of chunks and a list of entries. An edit changes the lists, writes them out as a new file and
//! judges that file like any other. Nothing here aims at speed.

pub mod forms;
pub mod sounds;

pub mod scaling;
pub mod texts;

use std::collections::{HashMap, HashSet};

pub const LIMIT: usize = 16_777_216;
pub const MOST_ENTRIES: usize = 4_096;
pub const USAGES: [&Tag; 4] = [b"Pict", b"Snd ", b"Data", b"Exec"];
/// The profiles that there are.
pub const PLAIN: u32 = 0;
pub const ADRIFT: u32 = 1;

pub type Tag = [u8; 4];

#[derive(Clone, Copy, PartialEq, Eq, Debug)]
pub struct Refusal {
    pub number: u64,
    pub place: u64,
}

fn refuse<T>(number: u64, place: usize) -> Result<T, Refusal> {
    Err(Refusal { number, place: place as u64 })
}

pub fn tag_at(bytes: &[u8], at: usize) -> Tag {
    bytes[at..at + 4].try_into().unwrap()
}

pub fn number_at(bytes: &[u8], at: usize) -> u32 {
    u32::from_be_bytes(tag_at(bytes, at))
}

// ---- Reading -------------------------------------------------------------------------------------------------------

/// Where a chunk begins and how many data bytes it has.
#[derive(Clone, Copy, Debug)]
pub struct Span {
    pub start: usize,
    pub length: usize,
}

impl Span {
    fn data(self, file: &[u8]) -> &[u8] {
        &file[self.start + 8..self.start + 8 + self.length]
    }
}

/// An entry of the index. `chunk` counts the chunks behind the index from 0.
#[derive(Clone, Copy, Debug)]
pub struct Entry {
    pub usage: Tag,
    pub number: u32,
    pub chunk: usize,
}

/// What the reader finds in an accepted file: the chunks behind the index, and the entries.
pub struct View {
    pub spans: Vec<Span>,
    pub entries: Vec<Entry>,
}

/// 52 for an unknown profile, which comes before all others.
fn check_profile(profile: u32) -> Result<(), Refusal> {
    match profile {
        PLAIN | ADRIFT => Ok(()),
        _ => refuse(52, 0),
    }
}

/// Accepts the file, or refuses it with the first reason of the table, in its order.
pub fn read(file: &[u8], profile: u32) -> Result<View, Refusal> {
    check_profile(profile)?;
    if file.len() > LIMIT {
        return refuse(1, 0);
    }
    if file.len() < 12 {
        return refuse(2, 0);
    }
    if &tag_at(file, 0) != b"FORM" {
        return refuse(3, 0);
    }
    if &tag_at(file, 8) != b"IFRS" {
        return refuse(4, 8);
    }
    if number_at(file, 4) as usize != file.len() - 8 {
        return refuse(5, 4);
    }
    let mut spans = walk(file)?;
    let count = index_count(file, &spans)?;
    spans.remove(0);
    let entries = read_entries(file, profile, &spans, count)?;
    let view = View { spans, entries };
    check_optional(file, &view)?;
    Ok(view)
}

/// All chunks from offset 12 to the end. Refusals 6, 28, 29 and 7.
fn walk(file: &[u8]) -> Result<Vec<Span>, Refusal> {
    let mut spans = Vec::new();
    let mut start = 12;
    while start < file.len() {
        let left = file.len() - start;
        if left < 8 {
            return refuse(6, start);
        }
        let length = number_at(file, start + 4) as usize;
        if length > left - 8 {
            return refuse(28, start + 4);
        }
        let end = start + 8 + length;
        if length % 2 == 1 {
            match file.get(end) {
                None => return refuse(29, file.len()),
                Some(0) => {}
                Some(_) => return refuse(7, end),
            }
        }
        spans.push(Span { start, length });
        start = end + length % 2;
    }
    Ok(spans)
}

/// The index's count. Refusals 8 to 11.
fn index_count(file: &[u8], spans: &[Span]) -> Result<usize, Refusal> {
    let Some(index) = spans.first() else {
        return refuse(8, 12);
    };
    if &tag_at(file, index.start) != b"RIdx" {
        return refuse(8, 12);
    }
    if let Some(second) = spans[1..].iter().find(|span| &tag_at(file, span.start) == b"RIdx") {
        return refuse(9, second.start);
    }
    if index.length < 4 {
        return refuse(10, 16);
    }
    let count = number_at(file, 20) as usize;
    if index.length != 4 + 12 * count {
        return refuse(10, 16);
    }
    if count > MOST_ENTRIES {
        return refuse(11, 20);
    }
    Ok(count)
}

/// The entries in their order, which is that of their chunks. Refusals 12 to 16 and 27.
fn read_entries(file: &[u8], profile: u32, spans: &[Span], count: usize) -> Result<Vec<Entry>, Refusal> {
    let chunk_at: HashMap<usize, usize> = spans.iter().enumerate().map(|(i, span)| (span.start, i)).collect();
    let mut pairs = HashSet::new();
    let mut entries: Vec<Entry> = Vec::new();
    for i in 0..count {
        let at = 24 + 12 * i;
        let (usage, number) = (tag_at(file, at), number_at(file, at + 4));
        if !USAGES.contains(&&usage) {
            return refuse(12, at);
        }
        let Some(&chunk) = chunk_at.get(&(number_at(file, at + 8) as usize)) else {
            return refuse(13, at + 8);
        };
        if !suits(profile, &usage, &tag_at(file, spans[chunk].start), spans[chunk].data(file)) {
            return refuse(14, at);
        }
        if &usage == b"Exec" && number != 0 {
            return refuse(15, at + 4);
        }
        if !pairs.insert((usage, number)) {
            return refuse(16, at);
        }
        if entries.last().is_some_and(|before| spans[chunk].start < spans[before.chunk].start) {
            return refuse(27, at + 8);
        }
        entries.push(Entry { usage, number, chunk });
    }
    Ok(entries)
}

/// The types that the ADRIFT profile has besides, for each usage.
fn suits_adrift(usage: &Tag, tag: &Tag) -> bool {
    match usage {
        b"Pict" => tag == b"GIF ",
        b"Snd " => [b"WAV ", b"MIDI", b"MP3 "].contains(&tag),
        _ => false,
    }
}

/// Rule 5: may a chunk of this type and with this data stand for this usage?
pub fn suits(profile: u32, usage: &Tag, tag: &Tag, data: &[u8]) -> bool {
    if profile == ADRIFT && suits_adrift(usage, tag) {
        return true;
    }
    match usage {
        b"Pict" => tag == b"JPEG" || tag == &[80, 78, 71, 32] || (tag == b"Rect" && data.len() == 8),
        b"Snd " => {
            [b"OGGV", b"MOD ", b"SONG"].contains(&tag) || (tag == b"FORM" && data.len() >= 4 && &data[..4] == b"AIFF")
        }
        b"Data" => [b"TEXT", b"BINA"].contains(&tag),
        b"Exec" => {
            [b"ZCOD", b"GLUL", b"TAD2", b"TAD3", b"HUGO", b"ALAN", b"ADRI", b"LEVE", b"AGT ", b"MAGS", b"ADVS", b"EXEC"]
                .contains(&tag)
        }
        _ => false,
    }
}

/// Rule 7 by file position. Refusals 17 to 19.
fn check_optional(file: &[u8], view: &View) -> Result<(), Refusal> {
    let mut seen = HashSet::new();
    for span in &view.spans {
        let tag = tag_at(file, span.start);
        let right_length = match &tag {
            b"RelN" => 2,
            b"Fspc" => 4,
            _ => continue,
        };
        if !seen.insert(tag) {
            return refuse(17, span.start);
        }
        if span.length != right_length {
            return refuse(18, span.start + 4);
        }
        if &tag == b"Fspc" {
            let number = number_at(file, span.start + 8);
            let picture = view.entries.iter().find(|entry| &entry.usage == b"Pict" && entry.number == number);
            match picture {
                Some(entry) if &tag_at(file, view.spans[entry.chunk].start) != b"Rect" => {}
                _ => return refuse(19, span.start + 8),
            }
        }
    }
    Ok(())
}

/// The answers of the three reading calls, with the numbers that they hand back where they are not refused.
pub fn read_answer(file: &[u8], view: &Result<View, Refusal>) -> Result<[u64; 2], Refusal> {
    let view = view.as_ref().map_err(|&refusal| refusal)?;
    Ok([file.len() as u64, view.entries.len() as u64])
}

pub fn entry_answer(view: &Result<View, Refusal>, i: usize) -> Result<[u64; 3], Refusal> {
    let view = view.as_ref().map_err(|&refusal| refusal)?;
    let Some(entry) = view.entries.get(i) else {
        return refuse(22, 0);
    };
    let usage = u32::from_be_bytes(entry.usage);
    Ok([usage as u64, entry.number as u64, view.spans[entry.chunk].start as u64])
}

pub fn lookup_answer(file: &[u8], view: &Result<View, Refusal>, usage: &Tag, number: u32) -> Result<[u64; 3], Refusal> {
    let view = view.as_ref().map_err(|&refusal| refusal)?;
    let Some(entry) = view.entries.iter().find(|entry| &entry.usage == usage && entry.number == number) else {
        return refuse(22, 0);
    };
    let span = view.spans[entry.chunk];
    let tag = tag_at(file, span.start);
    let [start, length] = match &tag {
        b"FORM" => [span.start, 8 + span.length],
        _ => [span.start + 8, span.length],
    };
    Ok([u32::from_be_bytes(tag) as u64, start as u64, length as u64])
}

// ---- A file as lists -----------------------------------------------------------------------------------------------

#[derive(Clone)]
pub struct Chunk {
    pub tag: Tag,
    pub data: Vec<u8>,
}

impl Chunk {
    fn size(&self) -> usize {
        8 + self.data.len() + self.data.len() % 2
    }
}

/// The chunks behind the index and the entries of the index.
#[derive(Clone)]
pub struct File {
    pub chunks: Vec<Chunk>,
    pub entries: Vec<Entry>,
}

impl File {
    pub fn open(file: &[u8], profile: u32) -> Result<File, Refusal> {
        let view = read(file, profile)?;
        let chunk = |span: &Span| Chunk { tag: tag_at(file, span.start), data: span.data(file).to_vec() };
        Ok(File { chunks: view.spans.iter().map(chunk).collect(), entries: view.entries })
    }

    /// Where each chunk begins, and at last the file's end.
    pub fn starts(&self) -> Vec<usize> {
        let mut starts = vec![24 + 12 * self.entries.len()];
        for chunk in &self.chunks {
            starts.push(starts.last().unwrap() + chunk.size());
        }
        starts
    }

    pub fn length(&self) -> usize {
        *self.starts().last().unwrap()
    }

    pub fn write(&self) -> Vec<u8> {
        let starts = self.starts();
        let number = |value: usize| u32::try_from(value).unwrap().to_be_bytes();
        let mut bytes = Vec::with_capacity(self.length());
        bytes.extend(b"FORM");
        bytes.extend(number(self.length() - 8));
        bytes.extend(b"IFRSRIdx");
        bytes.extend(number(4 + 12 * self.entries.len()));
        bytes.extend(number(self.entries.len()));
        for entry in &self.entries {
            bytes.extend(entry.usage);
            bytes.extend(entry.number.to_be_bytes());
            bytes.extend(number(starts[entry.chunk]));
        }
        for chunk in &self.chunks {
            bytes.extend(chunk.tag);
            bytes.extend(number(chunk.data.len()));
            bytes.extend(&chunk.data);
            if chunk.data.len() % 2 == 1 {
                bytes.push(0);
            }
        }
        bytes
    }

    fn find(&self, usage: &Tag, number: u32) -> Option<usize> {
        self.entries.iter().position(|entry| &entry.usage == usage && entry.number == number)
    }

    fn shared(&self, chunk: usize) -> bool {
        self.entries.iter().filter(|entry| entry.chunk == chunk).count() > 1
    }

    /// Takes a chunk away that no entry has any more.
    fn take_chunk(&mut self, chunk: usize) {
        self.chunks.remove(chunk);
        for entry in &mut self.entries {
            if entry.chunk > chunk {
                entry.chunk -= 1;
            }
        }
    }

    /// Puts a chunk in before the one that has this position now.
    fn put_chunk(&mut self, position: usize, chunk: Chunk) {
        self.chunks.insert(position, chunk);
        for entry in &mut self.entries {
            if entry.chunk >= position {
                entry.chunk += 1;
            }
        }
    }
}

// ---- Records of the journal ----------------------------------------------------------------------------------------

#[derive(Clone, Debug)]
pub struct Record {
    pub kind: u8,
    pub usage: Tag,
    pub number: u32,
    pub place: u32,
    pub start: u32,
    pub tag: Tag,
    pub data: Vec<u8>,
}

impl Record {
    pub fn write(&self) -> Vec<u8> {
        let m = self.data.len() as u32;
        let mut bytes = vec![self.kind];
        bytes.extend(self.usage);
        bytes.extend(self.number.to_be_bytes());
        bytes.extend(self.place.to_be_bytes());
        bytes.extend(self.start.to_be_bytes());
        bytes.extend(self.tag);
        bytes.extend(m.to_be_bytes());
        bytes.extend(&self.data);
        bytes.extend((25 + m).to_be_bytes());
        bytes
    }

    fn size(&self) -> usize {
        29 + self.data.len()
    }

    /// The last record of these bytes, if it is well formed.
    pub fn last(journal: &[u8]) -> Option<Record> {
        let used = journal.len();
        if used < 29 {
            return None;
        }
        let trailer = number_at(journal, used - 4) as usize;
        if trailer < 25 || trailer > used - 4 {
            return None;
        }
        let bytes = &journal[used - 4 - trailer..used - 4];
        let record = Record {
            kind: bytes[0],
            usage: tag_at(bytes, 1),
            number: number_at(bytes, 5),
            place: number_at(bytes, 9),
            start: number_at(bytes, 13),
            tag: tag_at(bytes, 17),
            data: bytes[25..].to_vec(),
        };
        if number_at(bytes, 21) as usize != record.data.len() {
            return None;
        }
        let empty = record.tag == [0; 4] && record.data.is_empty();
        let well_formed = match record.kind {
            1 => empty && record.start == 0,
            2 | 3 => true,
            4 | 5 => empty,
            _ => false,
        };
        well_formed.then_some(record)
    }
}

// ---- Edits ---------------------------------------------------------------------------------------------------------

#[derive(Clone, Debug)]
pub enum Edit {
    Add { usage: Tag, number: u32, tag: Tag, data: Vec<u8> },
    Replace { usage: Tag, number: u32, tag: Tag, data: Vec<u8> },
    Remove { usage: Tag, number: u32 },
    /// A new entry on the chunk of the one with this usage and number.
    Link { usage: Tag, number: u32, new_usage: Tag, new_number: u32 },
}

#[derive(Clone, Debug)]
pub enum Call {
    Edit(Edit),
    Undo,
}

impl Call {
    pub fn name(&self) -> &'static str {
        match self {
            Call::Edit(Edit::Add { .. }) => "add",
            Call::Edit(Edit::Replace { .. }) => "replace",
            Call::Edit(Edit::Remove { .. }) => "remove",
            Call::Edit(Edit::Link { .. }) => "link",
            Call::Undo => "undo",
        }
    }
}

/// The data as a chunk of this type holds it. Of type 'FORM' a whole file is given: 30 where it has under 8 bytes, or its head is not 'FORM'
/// and its size less 8.
pub fn held<'a>(tag: &Tag, given: &'a [u8]) -> Result<&'a [u8], Refusal> {
    if tag != b"FORM" {
        return Ok(given);
    }
    if given.len() < 8 || &tag_at(given, 0) != b"FORM" || number_at(given, 4) as usize != given.len() - 8 {
        return refuse(30, 0);
    }
    Ok(&given[8..])
}

/// The edit carried out, without asking whether the result is a good file. `check_target` accepts it.
fn carry_out(edit: &Edit, present: &File) -> (File, Record) {
    let held = |tag, data| held(tag, data).expect("a whole file");
    match edit {
        Edit::Add { usage, number, tag, data } => add(present, *usage, *number, *tag, held(tag, data)),
        Edit::Replace { usage, number, tag, data } => replace(present, *usage, *number, *tag, held(tag, data)),
        Edit::Remove { usage, number } => remove(present, *usage, *number),
        Edit::Link { usage, number, new_usage, new_number } => link(present, *usage, *number, *new_usage, *new_number),
    }
}

fn add(present: &File, usage: Tag, number: u32, tag: Tag, data: &[u8]) -> (File, Record) {
    let mut file = present.clone();
    file.entries.push(Entry { usage, number, chunk: file.chunks.len() });
    file.chunks.push(Chunk { tag, data: data.to_vec() });
    let place = present.entries.len() as u32;
    (file, Record { kind: 1, usage, number, place, start: 0, tag: [0; 4], data: Vec::new() })
}

fn replace(present: &File, usage: Tag, number: u32, tag: Tag, data: &[u8]) -> (File, Record) {
    let place = present.find(&usage, number).unwrap();
    let chunk = present.entries[place].chunk;
    let mut file = present.clone();
    let old = std::mem::replace(&mut file.chunks[chunk], Chunk { tag, data: data.to_vec() });
    let start = present.starts()[chunk] as u32;
    (file, Record { kind: 2, usage, number, place: place as u32, start, tag: old.tag, data: old.data })
}

fn remove(present: &File, usage: Tag, number: u32) -> (File, Record) {
    let place = present.find(&usage, number).unwrap();
    let chunk = present.entries[place].chunk;
    let start = present.starts()[chunk] as u32;
    let mut file = present.clone();
    file.entries.remove(place);
    let mut record = Record { kind: 4, usage, number, place: place as u32, start, tag: [0; 4], data: Vec::new() };
    if !present.shared(chunk) {
        file.take_chunk(chunk);
        record.kind = 3;
        record.tag = present.chunks[chunk].tag;
        record.data = present.chunks[chunk].data.clone();
    }
    (file, record)
}

/// The entry goes behind the last one whose start isn't greater than the chunk's. Its own start is told in the new file.
fn link(present: &File, usage: Tag, number: u32, new_usage: Tag, new_number: u32) -> (File, Record) {
    let chunk = present.entries[present.find(&usage, number).unwrap()].chunk;
    let starts = present.starts();
    let last = present.entries.iter().rposition(|entry| starts[entry.chunk] <= starts[chunk]).unwrap();
    let mut file = present.clone();
    file.entries.insert(last + 1, Entry { usage: new_usage, number: new_number, chunk });
    let (place, start) = (last as u32 + 1, file.starts()[chunk] as u32);
    (file, Record { kind: 5, usage: new_usage, number: new_number, place, start, tag: [0; 4], data: Vec::new() })
}

/// 22, 23 and 30, where they apply.
fn check_target(edit: &Edit, present: &File) -> Result<(), Refusal> {
    if let Edit::Replace { usage, number, .. } | Edit::Remove { usage, number } | Edit::Link { usage, number, .. } = edit {
        let Some(place) = present.find(usage, *number) else {
            return refuse(22, 0);
        };
        if matches!(edit, Edit::Replace { .. }) && present.shared(present.entries[place].chunk) {
            return refuse(23, 0);
        }
    }
    match edit {
        Edit::Add { tag, data, .. } | Edit::Replace { tag, data, .. } => held(tag, data).map(|_| ()),
        Edit::Remove { .. } | Edit::Link { .. } => Ok(()),
    }
}

/// The buffers' lengths, how much of the journal is in use, and the profile that the resulting file is judged under.
#[derive(Clone, Copy)]
pub struct Room {
    pub profile: u32,
    pub file: usize,
    pub journal: usize,
    pub used: usize,
}

/// An edit of an accepted file: 22, 23, 30, 100 + k, 24, 25, or the resulting file and the record.
fn decide(edit: &Edit, present: &File, room: Room) -> Result<(File, Record), Refusal> {
    check_target(edit, present)?;
    let (result, record) = carry_out(edit, present);
    if result.length() > LIMIT {
        return refuse(101, 0);
    }
    if let Err(Refusal { number, place }) = read(&result.write(), room.profile) {
        return Err(Refusal { number: 100 + number, place });
    }
    if result.length() > room.file {
        return refuse(24, 0);
    }
    if record.size() > room.journal - room.used {
        return refuse(25, 0);
    }
    Ok((result, record))
}

/// The file that undoing this record gives, if the record fits.
fn take_back(record: &Record, present: &File, profile: u32) -> Option<File> {
    let result = match record.kind {
        1 => take_back_add(record, present)?,
        2 => take_back_replace(record, present)?,
        3 | 4 => take_back_remove(record, present)?,
        _ => take_back_link(record, present)?,
    };
    (result.length() <= LIMIT && read(&result.write(), profile).is_ok()).then_some(result)
}

fn take_back_add(record: &Record, present: &File) -> Option<File> {
    let last = present.entries.last()?;
    let place = present.entries.len() - 1;
    let fits = record.place as usize == place
        && record.usage == last.usage
        && record.number == last.number
        && last.chunk + 1 == present.chunks.len()
        && !present.shared(last.chunk);
    fits.then(|| {
        let mut file = present.clone();
        file.entries.pop();
        file.chunks.pop();
        file
    })
}

fn take_back_replace(record: &Record, present: &File) -> Option<File> {
    let entry = present.entries.get(record.place as usize)?;
    let fits = record.usage == entry.usage
        && record.number == entry.number
        && record.start as usize == present.starts()[entry.chunk]
        && !present.shared(entry.chunk);
    fits.then(|| {
        let mut file = present.clone();
        file.chunks[entry.chunk] = Chunk { tag: record.tag, data: record.data.clone() };
        file
    })
}

/// Kinds 3 and 4. Position `chunks.len()` is the file's end, where only kind 3 fits.
fn take_back_remove(record: &Record, present: &File) -> Option<File> {
    let place = record.place as usize;
    let start = (record.start as usize).checked_sub(12)?;
    let position = present.starts().iter().position(|&at| at == start)?;
    if place > present.entries.len() || (record.kind == 4 && position == present.chunks.len()) {
        return None;
    }
    let mut file = present.clone();
    if record.kind == 3 {
        file.put_chunk(position, Chunk { tag: record.tag, data: record.data.clone() });
    }
    file.entries.insert(place, Entry { usage: record.usage, number: record.number, chunk: position });
    Some(file)
}

fn take_back_link(record: &Record, present: &File) -> Option<File> {
    let place = record.place as usize;
    let entry = present.entries.get(place)?;
    let fits = record.usage == entry.usage
        && record.number == entry.number
        && record.start as usize == present.starts()[entry.chunk]
        && present.shared(entry.chunk);
    fits.then(|| {
        let mut file = present.clone();
        file.entries.remove(place);
        file
    })
}

// ---- Single calls on lent buffers ----------------------------------------------------------------------------------

/// Both whole buffers, and the lengths and the profile given with them.
#[derive(Clone)]
pub struct State {
    pub profile: u32,
    pub file: Vec<u8>,
    pub length: usize,
    pub journal: Vec<u8>,
    pub used: usize,
}

#[derive(Clone, Copy, PartialEq, Eq, Debug)]
pub struct Answer {
    pub refusal: u64,
    pub place: u64,
    pub length: u64,
    pub used: u64,
}

impl Answer {
    pub fn done(length: usize, used: usize) -> Answer {
        Answer { refusal: 0, place: 0, length: length as u64, used: used as u64 }
    }

    pub fn refused(refusal: Refusal, length: usize, used: usize) -> Answer {
        Answer { refusal: refusal.number, place: refusal.place, ..Answer::done(length, used) }
    }
}

/// The answer of one call and what the buffers hold afterwards.
pub fn call(call: &Call, state: &State) -> (Answer, State) {
    match attempt(call, state) {
        Ok((file, record, used)) => {
            let mut after = state.clone();
            put_file(&mut after, &file);
            let end = state.used + record.len();
            after.journal[state.used..end].copy_from_slice(&record);
            after.used = used;
            (Answer::done(after.length, after.used), after)
        }
        Err(refusal) => (Answer::refused(refusal, state.length, state.used), state.clone()),
    }
}

/// The new file, the bytes to be written at `used`, and the new `used`.
fn attempt(call: &Call, state: &State) -> Result<(Vec<u8>, Vec<u8>, usize), Refusal> {
    check_profile(state.profile)?;
    if state.length > state.file.len() || state.used > state.journal.len() {
        return refuse(20, 0);
    }
    let present = File::open(&state.file[..state.length], state.profile)?;
    let room = Room { profile: state.profile, file: state.file.len(), journal: state.journal.len(), used: state.used };
    match call {
        Call::Edit(edit) => {
            let (result, record) = decide(edit, &present, room)?;
            Ok((result.write(), record.write(), state.used + record.size()))
        }
        Call::Undo => {
            let (result, used) = undo(&present, state.profile, &state.journal[..state.used])?;
            if result.length() > state.file.len() {
                return refuse(24, 0);
            }
            Ok((result.write(), Vec::new(), used))
        }
    }
}

/// 26, 21, or the file before the last record's edit and the journal's length without it.
fn undo(present: &File, profile: u32, journal: &[u8]) -> Result<(File, usize), Refusal> {
    if journal.is_empty() {
        return refuse(26, 0);
    }
    let Some(record) = Record::last(journal) else {
        return refuse(21, 0);
    };
    let Some(result) = take_back(&record, present, profile) else {
        return refuse(21, 0);
    };
    Ok((result, journal.len() - record.size()))
}

/// The file in the buffer's first bytes; what a longer file leaves behind becomes zero.
fn put_file(state: &mut State, file: &[u8]) {
    state.file[..file.len()].copy_from_slice(file);
    if file.len() < state.length {
        state.file[file.len()..state.length].fill(0);
    }
    state.length = file.len();
}

/// The blank file's bytes.
pub fn blank_file() -> Vec<u8> {
    File { chunks: Vec::new(), entries: Vec::new() }.write()
}

/// The answer of blank and what the buffer holds afterwards.
pub fn blank(buffer: &[u8]) -> (Answer, Vec<u8>) {
    if buffer.len() < 24 {
        return (Answer::refused(Refusal { number: 24, place: 0 }, 0, 0), buffer.to_vec());
    }
    let mut after = buffer.to_vec();
    after[..24].copy_from_slice(&blank_file());
    (Answer::done(24, 0), after)
}

// ---- Whole runs ----------------------------------------------------------------------------------------------------

/// The ledger: told the starting file, the profile of the whole run, both buffers' lengths and the calls, no answer and no journal byte.
pub struct Ledger {
    profile: u32,
    start: File,
    list: Vec<Edit>,
    file_room: usize,
    journal_room: usize,
    /// The starting file with the list applied, and the list's records.
    file: File,
    records: Vec<u8>,
}

impl Ledger {
    pub fn new(start: &[u8], profile: u32, file_room: usize, journal_room: usize) -> Ledger {
        let start = File::open(start, profile).expect("a run starts from an accepted file");
        let file = start.clone();
        Ledger { profile, start, list: Vec::new(), file_room, journal_room, file, records: Vec::new() }
    }

    pub fn file(&self) -> Vec<u8> {
        self.file.write()
    }

    pub fn records(&self) -> &[u8] {
        &self.records
    }

    pub fn call(&mut self, call: &Call) -> Answer {
        match self.attempt(call) {
            Ok(()) => Answer::done(self.file.length(), self.records.len()),
            Err(refusal) => Answer::refused(refusal, self.file.length(), self.records.len()),
        }
    }

    fn attempt(&mut self, call: &Call) -> Result<(), Refusal> {
        match call {
            Call::Edit(edit) => {
                let room = Room { profile: self.profile, file: self.file_room, journal: self.journal_room, used: self.records.len() };
                let (file, record) = decide(edit, &self.file, room)?;
                self.list.push(edit.clone());
                self.file = file;
                self.records.extend(record.write());
            }
            Call::Undo => {
                if self.list.pop().is_none() {
                    return refuse(26, 0);
                }
                self.apply_list();
            }
        }
        Ok(())
    }

    /// The file and the records anew from the starting file.
    fn apply_list(&mut self) {
        self.file = self.start.clone();
        self.records.clear();
        for edit in &self.list {
            let (file, record) = carry_out(edit, &self.file);
            self.file = file;
            self.records.extend(record.write());
        }
    }
}

// ---- The finding table ---------------------------------------------------------------------------------------------

/// A row: usage (its four bytes as a number), number, start.
pub type Row = [u32; 3];

/// The rows of an accepted file's table: they rise by usage, then number.
pub fn table_rows(view: &Result<View, Refusal>) -> Result<Vec<Row>, Refusal> {
    let view = view.as_ref().map_err(|&refusal| refusal)?;
    let row = |entry: &Entry| [u32::from_be_bytes(entry.usage), entry.number, view.spans[entry.chunk].start as u32];
    let mut rows: Vec<Row> = view.entries.iter().map(row).collect();
    rows.sort();
    Ok(rows)
}

/// The answer of building in this slice, and the slice afterwards. Refusal 34 after the reader's own.
pub fn table_build(rows: &Result<Vec<Row>, Refusal>, table: &[u32]) -> (Result<[u64; 1], Refusal>, Vec<u32>) {
    let mut after = table.to_vec();
    let rows = match rows {
        Ok(rows) => rows,
        Err(refusal) => return (Err(*refusal), after),
    };
    if table.len() < 3 * rows.len() {
        return (refuse(34, 0), after);
    }
    let numbers = rows.iter().flatten();
    after.iter_mut().zip(numbers).for_each(|(place, number)| *place = *number);
    (Ok([rows.len() as u64]), after)
}

/// The two forms of a table: row after row, or three columns, each as long as there are whole rows.
#[derive(Clone, Copy, PartialEq, Debug)]
pub enum Form {
    Rows,
    Columns,
}

/// The whole rows of a slice in this form.
pub fn whole_rows(form: Form, table: &[u32]) -> Vec<Row> {
    let count = table.len() / 3;
    match form {
        Form::Rows => table.chunks_exact(3).map(|row| [row[0], row[1], row[2]]).collect(),
        Form::Columns => (0..count).map(|i| [table[i], table[count + i], table[2 * count + i]]).collect(),
    }
}

/// The numbers of these rows in this form.
pub fn in_form(form: Form, rows: &[Row]) -> Vec<u32> {
    match form {
        Form::Rows => rows.concat(),
        Form::Columns => (0..3).flat_map(|column| rows.iter().map(move |row| row[column])).collect(),
    }
}

/// The answer of checking this slice. Refusal 35 after the reader's own: the first differing row, or the smaller whole-row count.
pub fn table_check(form: Form, rows: &Result<Vec<Row>, Refusal>, table: &[u32]) -> Result<[u64; 0], Refusal> {
    let rows = rows.as_ref().map_err(|&refusal| refusal)?;
    if in_form(form, rows) == table {
        return Ok([]);
    }
    let given = whole_rows(form, table);
    let both = given.len().min(rows.len());
    refuse(35, (0..both).find(|&i| given[i] != rows[i]).unwrap_or(both))
}

/// The start, or 22, and the number of rows looked at.
pub fn table_search(form: Form, table: &[u32], usage: &Tag, number: u32) -> (Result<u64, Refusal>, u64) {
    let rows = whole_rows(form, table);
    let sought = (u32::from_be_bytes(*usage), number);
    let (mut low, mut high, mut probes) = (0, rows.len(), 0);
    while low < high {
        let middle = (low + high) / 2;
        probes += 1;
        let [usage, number, start] = rows[middle];
        match (usage, number).cmp(&sought) {
            std::cmp::Ordering::Equal => return (Ok(start as u64), probes),
            std::cmp::Ordering::Less => low = middle + 1,
            std::cmp::Ordering::Greater => high = middle,
        }
    }
    (refuse(22, 0), probes)
}

/// The answer of turning a table of this form into the other in a second slice, and that slice afterwards. Refusal 34 if it is too short.
pub fn table_turn(form: Form, table: &[u32], second: &[u32]) -> (Result<[u64; 1], Refusal>, Vec<u32>) {
    let other = match form {
        Form::Rows => Form::Columns,
        Form::Columns => Form::Rows,
    };
    let numbers = in_form(other, &whole_rows(form, table));
    if second.len() < numbers.len() {
        return (refuse(34, 0), second.to_vec());
    }
    (Ok([numbers.len() as u64 / 3]), [&numbers, &second[numbers.len()..]].concat())
}
