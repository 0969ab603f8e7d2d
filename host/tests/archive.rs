//! The library's calls through its C interface, on buffers that lie inside larger guarded arrays.

use crate::fence::{self, Fenced};
use crate::reference::scaling::Asking;
use crate::reference::{blank_file, Answer, Call, Edit, Form, Refusal, State, Tag, PLAIN};
use std::ptr;

/// The structures of blorb.h that come back by value.
mod raw {
    #[repr(C)]
    pub struct Read {
        pub refusal: u64,
        pub place: u64,
        pub length: u64,
        pub count: u64,
    }

    #[repr(C)]
    pub struct Entry {
        pub refusal: u64,
        pub place: u64,
        pub usage: u32,
        pub number: u32,
        pub start: u64,
    }

    #[repr(C)]
    pub struct Lookup {
        pub refusal: u64,
        pub place: u64,
        pub tag: u32,
        pub start: u64,
        pub length: u64,
    }

    #[repr(C)]
    pub struct Edit {
        pub refusal: u64,
        pub place: u64,
        pub length: u64,
        pub used: u64,
    }

    #[repr(C)]
    pub struct Build {
        pub refusal: u64,
        pub place: u64,
        pub rows: u64,
    }

    #[repr(C)]
    pub struct Check {
        pub refusal: u64,
        pub place: u64,
    }

    #[repr(C)]
    pub struct Search {
        pub refusal: u64,
        pub place: u64,
        pub start: u64,
        pub probes: u64,
    }

    #[repr(C)]
    pub struct Aiff {
        pub refusal: u64,
        pub place: u64,
        pub channels: u32,
        pub frames: u32,
        pub sample_size: u32,
        pub rate: u32,
        pub seconds: u32,
    }

    #[repr(C)]
    pub struct Pick {
        pub refusal: u64,
        pub place: u64,
        pub start: u64,
        pub length: u64,
    }

    #[repr(C)]
    pub struct Scaled {
        pub refusal: u64,
        pub place: u64,
        pub width: u64,
        pub height: u64,
    }

    #[repr(C)]
    pub struct Text {
        pub refusal: u64,
        pub place: u64,
        pub usage: u32,
        pub number: u32,
        pub start: u64,
        pub length: u64,
    }

    #[repr(C)]
    pub struct Write {
        pub refusal: u64,
        pub place: u64,
        pub length: u64,
    }

    #[rustfmt::skip]
    extern "C" {
        pub fn blorb_version() -> u32;
        pub fn blorb_table_build(file: *const u8, size: usize, profile: u32, table: *mut u32, numbers: usize) -> Build;
        pub fn blorb_table_check(file: *const u8, size: usize, profile: u32, table: *const u32, numbers: usize) -> Check;
        pub fn blorb_table_search(table: *const u32, numbers: usize, usage: *const u8, number: u32) -> Search;
        pub fn blorb_table_to_columns(table: *const u32, numbers: usize, columns: *mut u32, room: usize) -> Build;
        pub fn blorb_table_to_rows(columns: *const u32, numbers: usize, table: *mut u32, room: usize) -> Build;
        pub fn blorb_columns_check(file: *const u8, size: usize, profile: u32, columns: *const u32, numbers: usize) -> Check;
        pub fn blorb_columns_search(columns: *const u32, numbers: usize, usage: *const u8, number: u32) -> Search;
        pub fn blorb_read(file: *const u8, size: usize, profile: u32) -> Read;
        pub fn blorb_entry(file: *const u8, size: usize, profile: u32, i: usize) -> Entry;
        pub fn blorb_lookup(file: *const u8, size: usize, profile: u32, usage: *const u8, number: u32) -> Lookup;
        pub fn blorb_forms_list(file: *const u8, size: usize, rows: *mut u32, numbers: usize) -> Build;
        pub fn blorb_forms_pick(file: *const u8, size: usize, i: usize) -> Pick;
        pub fn blorb_aiff_length(bytes: *const u8, size: usize) -> Aiff;
        pub fn blorb_scaled(file: *const u8, size: usize, profile: u32, window_width: u64, window_height: u64, picture: u32,
            width: u64, height: u64) -> Scaled;
        pub fn blorb_text(file: *const u8, size: usize, profile: u32, i: usize) -> Text;
        pub fn blorb_text_of(file: *const u8, size: usize, profile: u32, usage: *const u8, number: u32) -> Text;
        pub fn blorb_texts_write(rows: *const u32, numbers: usize, texts: *const u8, texts_size: usize, buffer: *mut u8, size: usize) -> Write;
        pub fn blorb_blank(file: *mut u8, size: usize) -> Edit;
        pub fn blorb_add(file: *mut u8, size: usize, length: usize, journal: *mut u8, journal_size: usize, used: usize,
            profile: u32, usage: *const u8, number: u32, tag: *const u8, data: *const u8, data_size: usize) -> Edit;
        pub fn blorb_replace(file: *mut u8, size: usize, length: usize, journal: *mut u8, journal_size: usize, used: usize,
            profile: u32, usage: *const u8, number: u32, tag: *const u8, data: *const u8, data_size: usize) -> Edit;
        pub fn blorb_remove(file: *mut u8, size: usize, length: usize, journal: *mut u8, journal_size: usize, used: usize,
            profile: u32, usage: *const u8, number: u32) -> Edit;
        pub fn blorb_link(file: *mut u8, size: usize, length: usize, journal: *mut u8, journal_size: usize, used: usize,
            profile: u32, usage: *const u8, number: u32, new_usage: *const u8, new_number: u32) -> Edit;
        pub fn blorb_undo(file: *mut u8, size: usize, length: usize, journal: *const u8, journal_size: usize,
            used: usize, profile: u32) -> Edit;
    }
}

const GUARD: usize = 64;

enum Memory {
    Heap(Vec<u8>),
    Fenced(Fenced),
}

/// A copy of some bytes with guard bytes before and behind, or guard bytes on one side and a fence on the other.
pub struct Lent {
    memory: Memory,
    shift: usize,
    from: usize,
    size: usize,
    /// How many guard bytes there are.
    before: usize,
    behind: usize,
}

/// The guard bytes differ from place to place, so that moving them is seen too.
fn guard_byte(i: usize) -> u8 {
    (i as u8).wrapping_mul(37) ^ 0xA5
}

impl Lent {
    /// `shift` decides where the copy begins: so many bytes into the heap, up to the fence behind, or from the one before.
    pub fn new(bytes: &[u8], shift: usize) -> Lent {
        let size = bytes.len();
        let fits = size + GUARD <= fence::ROOM;
        let (memory, from, before, behind) = match shift % 3 {
            1 if fits => (Memory::Fenced(Fenced::take()), fence::ROOM - size, GUARD, 0),
            2 if fits => (Memory::Fenced(Fenced::take()), 0, 0, GUARD),
            _ => (Memory::Heap(vec![0; shift + size + 2 * GUARD]), GUARD + shift, GUARD, GUARD),
        };
        let mut lent = Lent { memory, shift, from, size, before, behind };
        let array = lent.array_mut();
        array[from..from + size].copy_from_slice(bytes);
        (0..before).for_each(|i| array[from - before + i] = guard_byte(i));
        (0..behind).for_each(|i| array[from + size + i] = guard_byte(i));
        lent
    }

    fn array(&self) -> &[u8] {
        match &self.memory {
            Memory::Heap(array) => array,
            Memory::Fenced(fenced) => fenced.bytes(),
        }
    }

    fn array_mut(&mut self) -> &mut [u8] {
        match &mut self.memory {
            Memory::Heap(array) => array,
            Memory::Fenced(fenced) => fenced.bytes_mut(),
        }
    }

    /// Where nothing is lent, half of the pointers are null.
    fn pointer(&mut self) -> *mut u8 {
        if self.size == 0 && self.shift % 2 == 0 {
            return ptr::null_mut();
        }
        let from = self.from;
        self.array_mut()[from..].as_mut_ptr()
    }

    pub fn bytes(&self) -> &[u8] {
        &self.array()[self.from..self.from + self.size]
    }

    /// Other bytes at a place in it.
    pub fn set(&mut self, at: usize, bytes: &[u8]) {
        let from = self.from + at;
        self.array_mut()[from..from + bytes.len()].copy_from_slice(bytes);
    }

    fn guards_whole(&self) -> bool {
        let end = self.from + self.size;
        let before = &self.array()[self.from - self.before..self.from];
        let behind = &self.array()[end..end + self.behind];
        let whole = |guard: &[u8]| guard.iter().enumerate().all(|(i, &byte)| byte == guard_byte(i));
        whole(before) && whole(behind)
    }

    /// A complaint where a guard byte was written, or where the bytes are not those expected.
    pub fn complaint(&self, what: &str, expected: &[u8]) -> Option<String> {
        if !self.guards_whole() {
            return Some(format!("a byte outside the {what} was written"));
        }
        first_difference(what, expected, self.bytes())
    }
}

pub fn first_difference(what: &str, expected: &[u8], found: &[u8]) -> Option<String> {
    if expected == found {
        return None;
    }
    match expected.iter().zip(found).position(|(a, b)| a != b) {
        Some(i) => Some(format!("{what} byte {i}: expected {}, found {}", expected[i], found[i])),
        None => Some(format!("{what}: expected {} bytes, found {}", expected.len(), found.len())),
    }
}

/// The reading calls' answers in the reference's form. A refused call must hand back zeros besides number and place.
type Reading<const N: usize> = Result<Result<[u64; N], Refusal>, String>;

fn reading<const N: usize>(refusal: u64, place: u64, values: [u64; N]) -> Reading<N> {
    match refusal {
        0 if place != 0 => Err(format!("place {place} without a refusal")),
        0 => Ok(Ok(values)),
        _ if values != [0; N] => Err(format!("refused with {refusal} at {place}, yet handed back {values:?}")),
        number => Ok(Err(Refusal { number, place })),
    }
}

/// The archive's version.
pub fn version() -> u32 {
    unsafe { raw::blorb_version() }
}

pub fn read(file: &mut Lent, profile: u32) -> Reading<2> {
    let answer = unsafe { raw::blorb_read(file.pointer(), file.size, profile) };
    reading(answer.refusal, answer.place, [answer.length, answer.count])
}

pub fn entry(file: &mut Lent, profile: u32, i: usize) -> Reading<3> {
    let answer = unsafe { raw::blorb_entry(file.pointer(), file.size, profile, i) };
    reading(answer.refusal, answer.place, [answer.usage as u64, answer.number as u64, answer.start])
}

pub fn lookup(file: &mut Lent, profile: u32, usage: &Tag, number: u32) -> Reading<3> {
    let mut lent_usage = Lent::new(usage, file.shift + 1);
    let answer = unsafe { raw::blorb_lookup(file.pointer(), file.size, profile, lent_usage.pointer(), number) };
    if let Some(complaint) = lent_usage.complaint("usage", usage) {
        return Err(complaint);
    }
    reading(answer.refusal, answer.place, [answer.tag as u64, answer.start, answer.length])
}

pub fn aiff_length(bytes: &mut Lent) -> Reading<5> {
    let answer = unsafe { raw::blorb_aiff_length(bytes.pointer(), bytes.size) };
    let values = [answer.channels, answer.frames, answer.sample_size, answer.rate, answer.seconds];
    reading(answer.refusal, answer.place, values.map(u64::from))
}

/// A table's slice as it is lent: numbers of four bytes each.
fn numbers(table: &mut Lent) -> *mut u32 {
    let pointer = table.pointer() as *mut u32;
    assert!(pointer as usize % 4 == 0, "a slice of numbers lies at a multiple of four");
    pointer
}

pub fn table_build(file: &mut Lent, profile: u32, table: &mut Lent, count: usize) -> Reading<1> {
    let answer = unsafe { raw::blorb_table_build(file.pointer(), file.size, profile, numbers(table), count) };
    reading(answer.refusal, answer.place, [answer.rows])
}

pub fn table_check(form: Form, file: &mut Lent, profile: u32, table: &mut Lent, count: usize) -> Reading<0> {
    let call = match form {
        Form::Rows => raw::blorb_table_check,
        Form::Columns => raw::blorb_columns_check,
    };
    let answer = unsafe { call(file.pointer(), file.size, profile, numbers(table), count) };
    reading(answer.refusal, answer.place, [])
}

/// The start or the refusal, and the probes in both cases.
pub fn table_search(form: Form, table: &mut Lent, count: usize, usage: &Tag, number: u32) -> Result<(Result<u64, Refusal>, u64), String> {
    let call = match form {
        Form::Rows => raw::blorb_table_search,
        Form::Columns => raw::blorb_columns_search,
    };
    let mut lent_usage = Lent::new(usage, table.shift + 1);
    let answer = unsafe { call(numbers(table), count, lent_usage.pointer(), number) };
    if let Some(complaint) = lent_usage.complaint("usage", usage) {
        return Err(complaint);
    }
    let found = reading(answer.refusal, answer.place, [answer.start])?;
    Ok((found.map(|[start]| start), answer.probes))
}

/// A table of this form turned into the other.
pub fn table_turn(form: Form, table: &mut Lent, count: usize, second: &mut Lent, room: usize) -> Reading<1> {
    let call = match form {
        Form::Rows => raw::blorb_table_to_columns,
        Form::Columns => raw::blorb_table_to_rows,
    };
    let answer = unsafe { call(numbers(table), count, numbers(second), room) };
    reading(answer.refusal, answer.place, [answer.rows])
}

pub fn forms_list(file: &mut Lent, rows: &mut Lent, count: usize) -> Reading<1> {
    let answer = unsafe { raw::blorb_forms_list(file.pointer(), file.size, numbers(rows), count) };
    reading(answer.refusal, answer.place, [answer.rows])
}

pub fn forms_pick(file: &mut Lent, i: usize) -> Reading<2> {
    let answer = unsafe { raw::blorb_forms_pick(file.pointer(), file.size, i) };
    reading(answer.refusal, answer.place, [answer.start, answer.length])
}

pub fn scaled(file: &mut Lent, profile: u32, asking: &Asking) -> Reading<2> {
    let Asking { window: [across, down], picture, size: [width, height] } = *asking;
    let answer = unsafe { raw::blorb_scaled(file.pointer(), file.size, profile, across, down, picture, width, height) };
    reading(answer.refusal, answer.place, [answer.width, answer.height])
}

fn told(answer: raw::Text) -> Reading<4> {
    reading(answer.refusal, answer.place, [answer.usage as u64, answer.number as u64, answer.start, answer.length])
}

pub fn text(file: &mut Lent, profile: u32, i: usize) -> Reading<4> {
    told(unsafe { raw::blorb_text(file.pointer(), file.size, profile, i) })
}

pub fn text_of(file: &mut Lent, profile: u32, usage: &Tag, number: u32) -> Reading<4> {
    let mut lent_usage = Lent::new(usage, file.shift + 1);
    let answer = unsafe { raw::blorb_text_of(file.pointer(), file.size, profile, lent_usage.pointer(), number) };
    if let Some(complaint) = lent_usage.complaint("usage", usage) {
        return Err(complaint);
    }
    told(answer)
}

pub fn texts_write(rows: &mut Lent, count: usize, texts: &mut Lent, buffer: &mut Lent) -> Reading<1> {
    let (t, texts_size) = (texts.pointer(), texts.size);
    let answer = unsafe { raw::blorb_texts_write(numbers(rows), count, t, texts_size, buffer.pointer(), buffer.size) };
    reading(answer.refusal, answer.place, [answer.length])
}

fn edited(answer: raw::Edit) -> Answer {
    Answer { refusal: answer.refusal, place: answer.place, length: answer.length, used: answer.used }
}

pub fn blank(file: &mut Lent) -> Answer {
    edited(unsafe { raw::blorb_blank(file.pointer(), file.size) })
}

/// The two buffers of an editing call.
pub struct Buffers {
    pub file: Lent,
    pub journal: Lent,
}

impl Buffers {
    pub fn new(state: &State, shift: usize) -> Buffers {
        Buffers { file: Lent::new(&state.file, shift), journal: Lent::new(&state.journal, shift + 5) }
    }

    /// One call with these lengths, and a complaint where anything else than `after` is in the buffers afterwards.
    pub fn call(&mut self, call: &Call, state: &State, after: &State) -> (Answer, Option<String>) {
        let (answer, complaint) = match call {
            Call::Edit(edit) => call_edit(edit, state, &mut self.file, &mut self.journal),
            Call::Undo => (call_undo(state, &mut self.file, &mut self.journal), None),
        };
        let complaint = complaint
            .or_else(|| self.file.complaint("file buffer", &after.file))
            .or_else(|| self.journal.complaint("journal", &after.journal));
        (answer, complaint)
    }
}

fn call_undo(state: &State, file: &mut Lent, journal: &mut Lent) -> Answer {
    edited(unsafe {
        raw::blorb_undo(file.pointer(), file.size, state.length, journal.pointer(), journal.size, state.used, state.profile)
    })
}

fn call_edit(edit: &Edit, state: &State, file: &mut Lent, journal: &mut Lent) -> (Answer, Option<String>) {
    let (usage, number, tag, data): (_, _, &Tag, &[u8]) = match edit {
        Edit::Add { usage, number, tag, data } | Edit::Replace { usage, number, tag, data } => {
            (usage, *number, tag, data)
        }
        Edit::Remove { usage, number } => (usage, *number, &[0; 4], &[]),
        Edit::Link { usage, number, new_usage, .. } => (usage, *number, new_usage, &[]),
    };
    let mut lent_usage = Lent::new(usage, file.shift + 1);
    let mut lent_tag = Lent::new(tag, file.shift + 2);
    let mut lent_data = Lent::new(data, file.shift / 2);
    let (u, t, d, n) = (lent_usage.pointer(), lent_tag.pointer(), lent_data.pointer(), data.len());
    let (f, size, length) = (file.pointer(), file.size, state.length);
    let (j, journal_size, used, p) = (journal.pointer(), journal.size, state.used, state.profile);
    let answer = unsafe {
        match edit {
            Edit::Add { .. } => raw::blorb_add(f, size, length, j, journal_size, used, p, u, number, t, d, n),
            Edit::Replace { .. } => raw::blorb_replace(f, size, length, j, journal_size, used, p, u, number, t, d, n),
            Edit::Remove { .. } => raw::blorb_remove(f, size, length, j, journal_size, used, p, u, number),
            Edit::Link { new_number, .. } => raw::blorb_link(f, size, length, j, journal_size, used, p, u, number, t, *new_number),
        }
    };
    let complaint = lent_usage
        .complaint("usage", usage)
        .or_else(|| lent_tag.complaint("type or new usage", tag))
        .or_else(|| lent_data.complaint("data", data));
    (edited(answer), complaint)
}

/// Calls that are lent more than 4 GiB: what was called, and what was found and expected: answers, and a file's first bytes.
pub fn on_huge_arrays(zeros: &mut [u8]) -> Vec<(&'static str, String, String)> {
    let (p, unknown) = (PLAIN, u32::MAX);
    let numbers = |answer: raw::Edit| [answer.refusal, answer.place, answer.length, answer.used];
    let (mut small, mut journal) = ([0; 100], [0; 100]);
    let (f, j, z, huge) = (small.as_mut_ptr(), journal.as_mut_ptr(), zeros.as_mut_ptr(), zeros.len());
    let (usage, tag, eel, none) = (b"Data".as_ptr(), b"TEXT".as_ptr(), b"eel".as_ptr(), ptr::null());
    let mut found = Vec::new();
    let mut check = |what, found_numbers: [u64; 4], expected: [u64; 4]| {
        found.push((what, format!("{found_numbers:?}"), format!("{expected:?}")));
    };
    unsafe {
        let read = raw::blorb_read(z, huge, p);
        check("read of a huge file", [read.refusal, read.place, read.length, read.count], [1, 0, 0, 0]);
        let read = raw::blorb_read(z, huge, unknown);
        check("read of a huge file, unknown profile", [read.refusal, read.place, read.length, read.count], [52, 0, 0, 0]);
        let scaled = raw::blorb_scaled(z, huge, p, 640, 480, 1, 2, 2);
        check("scaled in a huge file", [scaled.refusal, scaled.place, scaled.width, scaled.height], [1, 0, 0, 0]);
        let text = raw::blorb_text(z, huge, p, 0);
        check("text in a huge file", [text.refusal, text.place, text.start, text.length], [1, 0, 0, 0]);
        // The text's place and length are beyond 4 GiB together, and within its slice; then the slice is one byte too short.
        let row = [1, 1, 0xffff_fffe, 20];
        let write = raw::blorb_texts_write(row.as_ptr(), 4, z, huge, f, 100);
        check("a text beyond 4 GiB", [write.refusal, write.place, write.length, 0], [0, 0, 44, 0]);
        let write = raw::blorb_texts_write(row.as_ptr(), 4, z, 0x1_0000_0011, f, 100);
        check("a text past a slice beyond 4 GiB", [write.refusal, write.place, write.length, 0], [39, 0, 0, 0]);
        let remove = raw::blorb_remove(z, huge, huge, j, 100, 0, p, usage, 7);
        check("remove from a huge file", numbers(remove), [1, 0, huge as u64, 0]);
        let remove = raw::blorb_remove(z, huge, huge, j, 100, 0, unknown, usage, 7);
        check("remove from a huge file, unknown profile", numbers(remove), [52, 0, huge as u64, 0]);
        let listed = raw::blorb_forms_list(z, huge, ptr::null_mut(), 0);
        check("list of a huge group file", [listed.refusal, listed.place, listed.rows, 0], [1, 0, 0, 0]);
        let picked = raw::blorb_forms_pick(z, huge, huge);
        check("pick from a huge group file", [picked.refusal, picked.place, picked.start, picked.length], [1, 0, 0, 0]);
        // A sound whose length agrees with the size less 8 only where 32 bits are looked at.
        zeros[..4].copy_from_slice(b"FORM");
        zeros[4..8].copy_from_slice(&((huge - 8) as u32).to_be_bytes());
        zeros[8..12].copy_from_slice(b"AIFF");
        let sound = raw::blorb_aiff_length(z, huge);
        check("length of a huge sound", [sound.refusal, sound.place, sound.rate as u64, sound.seconds as u64], [49, 0, 0, 0]);
        // The longest that there can be: 4,294,967,302 bytes, a 'COMM' of 18 and samples up to the end.
        zeros[4..8].copy_from_slice(&0xFFFF_FFFE_u32.to_be_bytes());
        zeros[12..38].copy_from_slice(b"COMM\0\0\0\x12\0\x01\0\0\x3E\x80\0\x08\x40\x0B\xFA\0\0\0\0\0\0\0");
        zeros[38..46].copy_from_slice(b"SSND\xFF\xFF\xFF\xD8");
        let sound = raw::blorb_aiff_length(z, (1 << 32) + 6);
        check("length of the longest sound", [sound.refusal, sound.place, sound.rate as u64, sound.seconds as u64], [0, 0, 8_000, 2]);
        zeros[..46].fill(0);
        raw::blorb_blank(f, 100);
        let add = raw::blorb_add(f, 100, 24, j, 100, 0, p, usage, 7, tag, z, huge);
        check("add of huge data", numbers(add), [101, 0, 24, 0]);
        // A length of 16 agrees with the size less 8 only where 32 bits are looked at.
        zeros[..8].copy_from_slice(b"FORM\0\0\0\x10");
        let add = raw::blorb_add(f, 100, 24, j, 100, 0, p, b"Snd ".as_ptr(), 7, b"FORM".as_ptr(), z, huge);
        check("add of a huge FORM", numbers(add), [30, 0, 24, 0]);
        zeros[..8].fill(0);
        let add = raw::blorb_add(f, 100, 24, j, 100, 0, p, usage, 7, tag, eel, 3);
        check("add of small data", numbers(add), [0, 0, 48, 29]);
        let replace = raw::blorb_replace(f, 100, 48, j, 100, 29, p, usage, 7, tag, z, huge);
        check("replace by huge data", numbers(replace), [101, 0, 48, 29]);
        let link = raw::blorb_link(z, huge, huge, j, 100, 0, p, usage, 7, usage, 8);
        check("link in a huge file", numbers(link), [1, 0, huge as u64, 0]);
        let link = raw::blorb_link(f, 100, 48, z, huge, huge - 28, p, usage, 7, usage, 8);
        check("link with a huge journal, no room", numbers(link), [25, 0, 48, huge as u64 - 28]);
        let add = raw::blorb_add(f, 100, 48, z, huge, huge - 28, p, usage, 8, tag, none, 0);
        check("add with a huge journal, no room", numbers(add), [25, 0, 48, huge as u64 - 28]);
        check("blank in a huge buffer", numbers(raw::blorb_blank(z, huge)), [0, 0, 24, 0]);
        let add = raw::blorb_add(z, huge, 24, j, 100, 29, p, usage, 7, tag, eel, 3);
        check("add in a huge buffer", numbers(add), [0, 0, 48, 58]);
    }
    found.push(("file in a huge buffer", format!("{:?}", &zeros[..100]), format!("{small:?}")));
    let undo = unsafe { raw::blorb_undo(zeros.as_mut_ptr(), huge, 48, journal.as_ptr(), 100, 58, p) };
    found.push(("undo in a huge buffer", format!("{:?}", numbers(undo)), format!("{:?}", [0, 0, 24, 29])));
    small[..48].fill(0);
    small[..24].copy_from_slice(&blank_file());
    found.push(("file undone in a huge buffer", format!("{:?}", &zeros[..100]), format!("{small:?}")));
    found
}
