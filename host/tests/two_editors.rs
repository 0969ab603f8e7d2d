//! Two editors (02, P13), on the states of generated runs: two edits in either order, and the length of the file after each call.
//!
//! What is asked of the two orders is asked of the library: each of the four calls was compared with the reference.

use crate::generate::{self, Rng};
use crate::reference::{self, Answer, Call, Edit, State, Tag};
use crate::{check_call, describe, Tally};

/// So many of 100 calls of a run come after two edits in either order.
const TRIED: usize = 4;

// ---- The length after a run ----------------------------------------------------------------------------------------

/// What each edit not taken back added to the file's length and took from it, by itself.
pub struct Lengths {
    start: usize,
    changes: Vec<(usize, usize)>,
}

impl Lengths {
    pub fn new(start: &State) -> Lengths {
        Lengths { start: start.length, changes: Vec::new() }
    }

    /// After every call of a run: the starting length plus the changes is the file's.
    pub fn check(&mut self, tally: &mut Tally, call: &Call, before: &State, answer: Answer) -> Option<String> {
        match call {
            Call::Edit(edit) if answer.refusal == 0 => {
                self.changes.push(own_change(edit, before));
                tally.count("length after", kind(edit, before));
            }
            Call::Undo if answer.refusal == 0 => {
                self.changes.pop().expect("an edit in force");
                tally.count("length after", 0);
            }
            _ => {}
        }
        let grown: usize = self.changes.iter().map(|change| change.0).sum();
        let fallen: usize = self.changes.iter().map(|change| change.1).sum();
        let (length, expected) = (answer.length as usize + fallen, self.start + grown);
        (length != expected).then(|| format!("length and {fallen} taken are {length}, start and {grown} added {expected}"))
    }
}

fn padded(length: usize) -> usize {
    length + length % 2
}

/// The data as the chunk holds it, padded: of a whole file given as 'FORM' its head is not in it.
fn held(tag: &Tag, data: &[u8]) -> usize {
    padded(if tag == b"FORM" { data.len() - 8 } else { data.len() })
}

/// The padded data of the chunk that this resource has in the state's file, and whether another entry has it too.
fn chunk_of(state: &State, usage: &Tag, number: u32) -> (usize, bool) {
    let view = reference::read(&state.file[..state.length], state.profile).unwrap_or_else(|_| panic!("an accepted file"));
    let entry = view.entries.iter().find(|entry| &entry.usage == usage && entry.number == number).expect("an entry");
    let entries = view.entries.iter().filter(|other| other.chunk == entry.chunk).count();
    (padded(view.spans[entry.chunk].length), entries > 1)
}

/// Added and taken: "20 with padded data for an add, 12 for a link, the difference of padded data for a replacement, less 12 for a removal and less 8
/// with padded data besides if the chunk went".
fn own_change(edit: &Edit, before: &State) -> (usize, usize) {
    match edit {
        Edit::Add { tag, data, .. } => (20 + held(tag, data), 0),
        Edit::Link { .. } => (12, 0),
        Edit::Replace { usage, number, tag, data } => (held(tag, data), chunk_of(before, usage, *number).0),
        Edit::Remove { usage, number } => match chunk_of(before, usage, *number) {
            (_, true) => (0, 12),
            (old, false) => (0, 12 + 8 + old),
        },
    }
}

/// The kind of the edit's record, by which it is counted: 3 where the chunk went, 4 where it stayed.
fn kind(edit: &Edit, before: &State) -> u64 {
    match edit {
        Edit::Add { .. } => 1,
        Edit::Replace { .. } => 2,
        Edit::Remove { usage, number } => 3 + chunk_of(before, usage, *number).1 as u64,
        Edit::Link { .. } => 5,
    }
}

// ---- Two edits in either order -------------------------------------------------------------------------------------

/// The resources that an edit names.
fn named(edit: &Edit) -> Vec<(Tag, u32)> {
    match edit {
        Edit::Add { usage, number, .. } | Edit::Replace { usage, number, .. } | Edit::Remove { usage, number } => {
            vec![(*usage, *number)]
        }
        Edit::Link { usage, number, new_usage, new_number } => vec![(*usage, *number), (*new_usage, *new_number)],
    }
}

/// Now and then, from this state: a replacement and another edit, mostly a replacement too, in either order.
pub fn check(tally: &mut Tally, rng: &mut Rng, state: &State) {
    if !rng.chance(TRIED) {
        return;
    }
    let file = &state.file[..state.length];
    let first = generate::edit_call(rng, file, [0, 100, 0]);
    let second = match rng.below(2) {
        0 => generate::edit_call(rng, file, [0, 100, 0]),
        _ => generate::edit_call(rng, file, [20, 0, 30]),
    };
    let apart = named(&second).iter().all(|name| !named(&first).contains(name));
    let replacements = matches!(second, Edit::Replace { .. });
    let (a, b) = (Call::Edit(first), Call::Edit(second.clone()));
    let one = two_calls(tally, rng, &a, &b, state);
    let other = two_calls(tally, rng, &b, &a, state);
    let (Some((_, one)), Some((later, other))) = (one, other) else {
        return;
    };
    let row = if apart { "either order" } else { "later wins" };
    tally.count(row, kind(&second, state));
    let complaint = match (apart, replacements) {
        (true, _) => same_file(&one, &other),
        (false, true) => same_file(&one, &later),
        (false, false) => Some("one resource, and neither order refused".to_string()),
    };
    if let Some(complaint) = complaint {
        let calls = format!("{}\n{}", describe(&a, state), describe(&b, state));
        tally.fail(&calls, &complaint);
    }
}

/// The states after the first call and after the second, if both succeed.
fn two_calls(tally: &mut Tally, rng: &mut Rng, first: &Call, second: &Call, state: &State) -> Option<(State, State)> {
    let (answer, between) = check_call(tally, rng, first, state);
    if answer.refusal != 0 {
        return None;
    }
    let (answer, after) = check_call(tally, rng, second, &between);
    (answer.refusal == 0).then_some((between, after))
}

/// The same length and the same first bytes. The journals and the bytes behind may differ.
fn same_file(one: &State, other: &State) -> Option<String> {
    if one.length != other.length {
        return Some(format!("one order gives {} bytes, the other {}", one.length, other.length));
    }
    crate::archive::first_difference("file of the other order", &one.file[..one.length], &other.file[..other.length])
}
