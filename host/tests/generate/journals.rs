//! Journals for undo: from edits, written by hand, damaged, and random bytes.

use super::{
    chunk_content, data, edit_call, entry_count, lend, number, other_value, room, set_number, suited, tags_of, tighten,
    unknown_usage, unsuited, valid, Rng,
};
use crate::reference::{self, Call, File, Record, State, Tag, USAGES};

/// Buffers for an undo of a good file, with a journal that fits, fits not in one way, or is damaged.
pub fn undo_state(rng: &mut Rng) -> State {
    let count = entry_count(rng).min(40);
    let file = valid(rng, count).render().bytes;
    let mut state = match rng.below(10) {
        0..=3 => edited_state(rng, file),
        4..=7 => {
            let mut records = if rng.chance(50) { Vec::new() } else { data(rng) };
            records.extend(made_record(rng, &file).write());
            let more = room(rng, 4000);
            lend(rng, file, records, more, 10)
        }
        8 => {
            let (length, more) = (rng.between(0, 28), rng.below(60));
            let records = rng.bytes(length);
            lend(rng, file, records, 40, more)
        }
        _ => {
            let length = rng.between(29, 90);
            let mut records = rng.bytes(length);
            records[0] = rng.between(0, 7) as u8;
            set_number(&mut records, 21, length as u32 - 29);
            set_number(&mut records, length - 4, length as u32 - 4);
            lend(rng, file, records, 40, 10)
        }
    };
    if rng.chance(35) {
        damage_record(rng, &mut state);
    }
    if rng.chance(30) {
        let more = rng.pick(&[0, 0, 2, 10, 12, 20, 40]);
        state.file.truncate(state.length + more);
    }
    if rng.chance(60) {
        tighten(rng, &Call::Undo, state)
    } else {
        state
    }
}

/// What a few edits leave behind.
fn edited_state(rng: &mut Rng, file: Vec<u8>) -> State {
    let (file_more, journal_more) = (room(rng, 16_000), room(rng, 16_000));
    let mut state = lend(rng, file, Vec::new(), file_more, journal_more);
    for _ in 0..rng.between(1, 4) {
        let call = Call::Edit(edit_call(rng, &state.file[..state.length], [27, 26, 24]));
        state = reference::call(&call, &state).1;
    }
    state.file.truncate(state.length + rng.pick(&[0, 1, 20, 200, 4000, 100_000]));
    state.journal.truncate(state.used + rng.below(40));
    state
}

/// A record written for this file. About half of them fit; the others miss in one way.
fn made_record(rng: &mut Rng, file: &[u8]) -> Record {
    let file = File::open(file, rng.profile).expect("a good file");
    let mut record = match rng.below(5) {
        0 => record_of_add(&file),
        1 => record_of_replace(rng, &file),
        2 => record_of_link(rng, &file),
        kind => record_of_remove(rng, &file, kind as u8),
    };
    if rng.chance(50) {
        miss(rng, &file, &mut record);
    }
    record
}

fn record_of_add(file: &File) -> Record {
    let (usage, number) = file.entries.last().map_or((*b"Pict", 1), |entry| (entry.usage, entry.number));
    let place = file.entries.len().saturating_sub(1) as u32;
    Record { kind: 1, usage, number, place, start: 0, tag: [0; 4], data: Vec::new() }
}

fn record_of_replace(rng: &mut Rng, file: &File) -> Record {
    if file.entries.is_empty() {
        let (tag, data) = suited(rng, b"Pict");
        return Record { kind: 2, usage: *b"Pict", number: 1, place: 0, start: 24, tag, data };
    }
    let place = rng.below(file.entries.len());
    let entry = file.entries[place];
    let (tag, data) = suited(rng, &entry.usage);
    let start = file.starts()[entry.chunk] as u32;
    Record { kind: 2, usage: entry.usage, number: entry.number, place: place as u32, start, tag, data }
}

/// Mostly of an entry that shares its chunk, where there is one.
fn record_of_link(rng: &mut Rng, file: &File) -> Record {
    let sharing = |place: &usize| file.entries.iter().filter(|entry| entry.chunk == file.entries[*place].chunk).count() > 1;
    let shared: Vec<usize> = (0..file.entries.len()).filter(sharing).collect();
    let place = if !shared.is_empty() && rng.chance(90) { rng.pick(&shared) } else { rng.below(file.entries.len() + 1) };
    let (usage, number, start) = match file.entries.get(place) {
        Some(entry) => (entry.usage, entry.number, file.starts()[entry.chunk]),
        None => (*b"Pict", 1, 36),
    };
    Record { kind: 5, usage, number, place: place as u32, start: start as u32, tag: [0; 4], data: Vec::new() }
}

fn record_of_remove(rng: &mut Rng, file: &File, kind: u8) -> Record {
    let starts = file.starts();
    if kind == 4 && !file.chunks.is_empty() {
        let chunk = rng.below(file.chunks.len());
        let (place, start) = (place_for(rng, file, kind, chunk), starts[chunk] as u32 + 12);
        let usage = usage_for(rng, file, chunk);
        return Record { kind, usage, number: number(rng, 100), place, start, tag: [0; 4], data: Vec::new() };
    }
    let position = rng.below(starts.len());
    let (place, start) = (place_for(rng, file, kind, position), starts[position] as u32 + 12);
    let usage = *rng.pick(&USAGES[..3]);
    let (tag, data) = if kind == 3 { suited(rng, &usage) } else { ([0; 4], Vec::new()) };
    Record { kind, usage, number: number(rng, 100), place, start, tag, data }
}

/// The place of an entry that goes in for the chunk at this position, or one place off it, or any: most keep the chunks' order.
fn place_for(rng: &mut Rng, file: &File, kind: u8, position: usize) -> u32 {
    let before = file.entries.iter().filter(|entry| entry.chunk < position).count();
    let on = file.entries.iter().filter(|entry| entry.chunk == position).count();
    let place = before + if kind == 4 { rng.between(0, on) } else { 0 };
    let place = match rng.below(24) {
        0 => rng.between(0, file.entries.len()),
        1 => place + 1,
        2 => place.saturating_sub(1),
        _ => place,
    };
    place as u32
}

/// A usage that the chunk suits, where there is one.
fn usage_for(rng: &mut Rng, file: &File, chunk: usize) -> Tag {
    let tag = &file.chunks[chunk].tag;
    let fitting = USAGES.into_iter().find(|usage| tags_of(rng.profile, usage).contains(&tag));
    *fitting.unwrap_or(rng.pick(&USAGES))
}

/// One field that no longer fits the file, or makes the file after it a bad one.
fn miss(rng: &mut Rng, file: &File, record: &mut Record) {
    let existing = if file.entries.is_empty() { None } else { Some(rng.pick(&file.entries)) };
    match rng.below(12) {
        0 => record.kind = rng.pick(&[0, 1, 2, 3, 4, 5, 6, 7, 255]),
        1 => record.usage = if rng.chance(50) { unknown_usage(rng) } else { *rng.pick(&USAGES) },
        2 => record.number = other_value(rng, record.number),
        3 => record.place = if rng.chance(40) { file.entries.len() as u32 + 1 } else { other_value(rng, record.place) },
        4 => record.start = rng.pick(&[0, 11, 12, 24, 36, record.start.wrapping_sub(12), file.length() as u32 + 12]),
        5 => record.start = other_value(rng, record.start),
        6 => (record.tag, record.data) = unsuited(rng, &record.usage),
        7 => (record.tag, record.data) = chunk_content(rng, &record.usage),
        8 => (record.usage, record.number) = existing.map_or((*b"Exec", 1), |entry| (entry.usage, entry.number)),
        9 => record.data = if record.data.is_empty() { vec![0; rng.between(1, 4)] } else { Vec::new() },
        10 => record.tag = if record.tag == [0; 4] { *b"TEXT" } else { [0; 4] },
        _ => (record.usage, record.tag) = (*b"Exec", *b"GLUL"),
    }
}

/// One field of the last record changed, or the record cut or lengthened.
fn damage_record(rng: &mut Rng, state: &mut State) {
    let used = state.used;
    if used < 29 {
        return;
    }
    let trailer = reference::number_at(&state.journal, used - 4) as usize;
    let start = (used - 4).saturating_sub(trailer);
    match rng.below(12) {
        0 => state.journal[start] = rng.pick(&[0, 1, 2, 3, 4, 5, 6, 7, 255]),
        field @ 1..=6 => change_number(rng, &mut state.journal, start + 4 * field - 3),
        7 => change_number(rng, &mut state.journal, used - 4),
        8 => state.journal[start + rng.below(used - start)] ^= 1 << rng.below(8),
        9 => state.used -= rng.between(1, used.min(30)),
        10 => state.used = rng.between(used, state.journal.len()),
        _ => state.journal[used - 4..used].copy_from_slice(&(used as u32 - 4).to_be_bytes()),
    }
}

fn change_number(rng: &mut Rng, bytes: &mut [u8], at: usize) {
    let value = other_value(rng, reference::number_at(bytes, at));
    set_number(bytes, at, value);
}
