//! The artists' group files (02, P9), from the paper. A chunk is judged by all of its own faults, and what it holds only where it has none; of all
//! faults that were found the one at the lowest place decides, and at one place the lowest number.

use super::{number_at, refuse, tag_at, Refusal, Tag, LIMIT};

/// Form type, start, length field and depth of a FORM.
pub type FormRow = [u32; 4];

const DEEPEST: u32 = 16;

#[derive(Clone, Copy, PartialEq, Eq)]
pub enum Kind {
    Form,
    List,
    Cat,
    Prop,
    Plain,
}

pub fn kind_of(tag: &Tag) -> Kind {
    match tag {
        b"FORM" => Kind::Form,
        b"LIST" => Kind::List,
        b"CAT " => Kind::Cat,
        b"PROP" => Kind::Prop,
        _ => Kind::Plain,
    }
}

/// What the reader finds: the FORMs, and all faults with the places that they have.
#[derive(Default)]
pub struct Found {
    pub rows: Vec<FormRow>,
    faults: Vec<Refusal>,
}

impl Found {
    fn fault(&mut self, number: u64, place: usize) {
        self.faults.push(Refusal { number, place: place as u64 });
    }

    /// The fault that decides.
    fn first(&self) -> Option<Refusal> {
        self.faults.iter().copied().min_by_key(|fault| (fault.place, fault.number))
    }
}

/// Whether a chunk of this kind may stand in what holds it, `None` for the file itself; `begins` where only 'PROP's stand before it there.
fn may_stand(holder: Option<Kind>, begins: bool, kind: Kind) -> bool {
    match holder {
        None => matches!(kind, Kind::Form | Kind::List | Kind::Cat),
        Some(Kind::Form) => kind != Kind::Prop,
        Some(Kind::List) => kind == Kind::Prop && begins || matches!(kind, Kind::Form | Kind::List | Kind::Cat),
        Some(Kind::Cat) => matches!(kind, Kind::Form | Kind::List | Kind::Cat),
        Some(Kind::Prop) => kind == Kind::Plain,
        Some(Kind::Plain) => false,
    }
}

/// The chunk at `at`, in what holds it up to `end`. Gives where the next one begins, or nothing where it has a fault.
fn chunk(file: &[u8], found: &mut Found, holder: Option<Kind>, begins: bool, depth: u32, at: usize, end: usize) -> Option<usize> {
    let faults = found.faults.len();
    if end - at < 8 {
        found.fault(41, at);
        return None;
    }
    let (tag, length) = (tag_at(file, at), number_at(file, at + 4) as usize);
    let (kind, close) = (kind_of(&tag), at + 8 + length);
    if close > end || kind != Kind::Plain && length < 4 {
        found.fault(41, at);
    }
    if depth > DEEPEST && matches!(kind, Kind::Form | Kind::List | Kind::Cat) {
        found.fault(42, at);
    }
    if !may_stand(holder, begins, kind) {
        found.fault(43, at);
    }
    if length % 2 == 1 && (close >= end || file[close] != 0) {
        found.fault(44, at);
    }
    if found.faults.len() > faults {
        return None;
    }
    if kind == Kind::Form {
        found.rows.push([number_at(file, at + 8), at as u32, length as u32, depth]);
    }
    if kind != Kind::Plain {
        members(file, found, kind, depth + 1, at + 12, close);
    }
    Some(close + length % 2)
}

/// The chunks that fill what holds them, up to the first faulty one.
fn members(file: &[u8], found: &mut Found, holder: Kind, depth: u32, mut at: usize, end: usize) {
    let mut begins = true;
    while at < end {
        let kind = if end - at < 8 { Kind::Plain } else { kind_of(&tag_at(file, at)) };
        let Some(next) = chunk(file, found, Some(holder), begins, depth, at, end) else { return };
        begins = begins && kind == Kind::Prop;
        at = next;
    }
}

/// All that is found in the file.
fn find(file: &[u8]) -> Found {
    let mut found = Found::default();
    if file.len() > LIMIT {
        found.fault(1, 0);
    } else if let Some(behind) = chunk(file, &mut found, None, true, 1, 0, file.len()) {
        if behind < file.len() {
            found.fault(43, behind);
        }
    }
    found
}

/// The rows of the file's FORMs, or the fault that decides; and the other faults at that place.
pub fn read(file: &[u8]) -> (Result<Vec<FormRow>, Refusal>, Vec<u64>) {
    let found = find(file);
    let Some(first) = found.first() else { return (Ok(found.rows), Vec::new()) };
    let others = found.faults.iter().filter(|fault| fault.place == first.place && fault.number != first.number);
    let others = others.map(|fault| fault.number).collect();
    (Err(first), others)
}

/// The list in a slice: how many rows, and the slice afterwards.
pub fn list(rows: &Result<Vec<FormRow>, Refusal>, slice: &[u32]) -> (Result<[u64; 1], Refusal>, Vec<u32>) {
    let answer = match rows {
        Err(refusal) => Err(*refusal),
        Ok(rows) if 4 * rows.len() > slice.len() => refuse(45, 0),
        Ok(rows) => Ok([rows.len() as u64]),
    };
    let mut after = slice.to_vec();
    if let (Ok(_), Ok(rows)) = (answer, rows) {
        after[..4 * rows.len()].copy_from_slice(&rows.concat());
    }
    (answer, after)
}

/// Start and length of the FORM with this row number, header in and padding out.
pub fn pick(rows: &Result<Vec<FormRow>, Refusal>, i: usize) -> Result<[u64; 2], Refusal> {
    match rows {
        Err(refusal) => Err(*refusal),
        Ok(rows) => match rows.get(i) {
            None => refuse(22, 0),
            Some([_, start, length, _]) => Ok([*start as u64, *length as u64 + 8]),
        },
    }
}
