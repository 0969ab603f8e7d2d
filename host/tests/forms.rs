//! Group files: trees of groups, FORMs, 'PROP's and chunks, with faults whose number and place follow from the construction, and damaged ones.

use crate::archive::{self, Lent};
use crate::generate::Rng;
use crate::reference::forms::{self, kind_of, FormRow, Kind};
use crate::reference::{Refusal, Tag};
use crate::tables::{in_memory, lend, slice_for};
use crate::{hex, number_of, Tally};

type Rows = Result<Vec<FormRow>, Refusal>;

// ---- Comparison ----------------------------------------------------------------------------------------------------

/// Both calls on this file against the reference. Gives the rows or the refusal.
pub fn check(tally: &mut Tally, rng: &mut Rng, file: &[u8]) -> Rows {
    let (rows, others) = forms::read(file);
    if let Err(first) = &rows {
        others.iter().for_each(|other| tally.count("forms behind", 10 * (first.number - 40) + other - 40));
    }
    let mut lent = Lent::new(file, rng.below(16));
    list(tally, rng, &mut lent, file, &rows);
    picks(tally, rng, &mut lent, file, &rows);
    if let Some(complaint) = lent.complaint("file", file) {
        tally.fail(&format!("blorb_forms_list or _pick file={}", hex(file)), &complaint);
    }
    rows
}

fn list(tally: &mut Tally, rng: &mut Rng, lent: &mut Lent, file: &[u8], rows: &Rows) {
    let before = slice_for(rng, 4 * rows.as_ref().map_or(3, Vec::len));
    let (expected, after) = forms::list(rows, &before);
    let mut slice = lend(rng, &before);
    let found = archive::forms_list(lent, &mut slice, before.len());
    tally.count_call("forms_list", number_of(&expected));
    let call = || format!("blorb_forms_list size={} numbers={} file={}", file.len(), before.len(), hex(file));
    if found != Ok(expected) {
        tally.fail(&call(), &format!("expected {expected:?}\nfound    {found:?}"));
    }
    if let Some(complaint) = slice.complaint("slice of rows", &in_memory(&after)) {
        tally.fail(&call(), &complaint);
    }
}

/// Each FORM of a file with no more than so many is picked; of a file with more some.
const ALL_PICKED: usize = 400;

fn picks(tally: &mut Tally, rng: &mut Rng, lent: &mut Lent, file: &[u8], rows: &Rows) {
    let count = rows.as_ref().map_or(0, Vec::len);
    let wraps = [usize::MAX, 1 << 32, (1 << 32) + rng.below(count + 1), usize::MAX / 4 + 1];
    let mut numbers = vec![0, count, rng.below(count + 2), rng.pick(&wraps)];
    match count <= ALL_PICKED {
        true => numbers.extend(1..count),
        false => numbers.extend((0..4).map(|_| rng.below(count)).chain([count - 1])),
    }
    for i in numbers {
        let expected = forms::pick(rows, i);
        let found = archive::forms_pick(lent, i);
        tally.count_call("forms_pick", number_of(&expected));
        if found != Ok(expected) {
            let call = format!("blorb_forms_pick size={} i={i} file={}", file.len(), hex(file));
            tally.fail(&call, &format!("expected {expected:?}\nfound    {found:?}"));
        }
    }
}

/// A FORM that was picked is a group file too: its list is that of the FORMs in it, from its own start and depth on.
fn check_picked(tally: &mut Tally, rng: &mut Rng, file: &[u8], rows: &[FormRow]) {
    let [_, start, length, depth] = rows[rng.below(rows.len())];
    let inside = |row: &&FormRow| (start..start + 8 + length).contains(&row[1]);
    let stated: Vec<FormRow> = rows.iter().filter(inside).map(|&[tag, at, size, level]| [tag, at - start, size, level + 1 - depth]).collect();
    let picked = &file[start as usize..][..length as usize + 8];
    let found = check(tally, rng, picked);
    if found.as_ref() != Ok(&stated) {
        tally.fail(&format!("the FORM at {start} of file={}", hex(file)), &format!("stated {stated:?}\nfound  {found:?}"));
    }
}

/// A case: a tree with one or two faults or none, then the same damaged.
pub fn group_files(tally: &mut Tally, rng: &mut Rng) {
    let built = built(rng);
    let found = check(tally, rng, &built.file);
    if found.as_ref().err() != built.fault.as_ref() {
        tally.fail(&format!("a group file={}", hex(&built.file)), &format!("built to give {:?}, reference {found:?}", built.fault));
    }
    tally.count("forms built", number_of(&found));
    if let Ok(rows) = &found {
        tally.count("forms deepest", rows.iter().map(|row| row[3]).max().unwrap_or(0) as u64);
        if !rows.is_empty() && rng.chance(30) {
            check_picked(tally, rng, &built.file, rows);
        }
    }
    let damaged = damaged(rng, &built.file);
    let answer = check(tally, rng, &damaged);
    tally.count("forms damaged", number_of(&answer));
}

// ---- Trees ---------------------------------------------------------------------------------------------------------

#[derive(Clone)]
enum Held {
    Data(Vec<u8>),
    /// A type, the members, and bytes behind the last member that are no chunk.
    Members(Tag, Vec<Node>, Vec<u8>),
}

#[derive(Clone)]
struct Node {
    tag: Tag,
    held: Held,
}

/// Where a chunk came to stand, and what holds it.
#[derive(Clone, Copy)]
struct Spot {
    start: usize,
    length: usize,
    depth: usize,
    holder: Option<Kind>,
    holder_start: usize,
    /// Only 'PROP's stand before it in its holder.
    begins: bool,
    last: bool,
    /// Where its holder ends.
    end: usize,
    /// How many bytes that are no chunk stand behind its last member.
    stray: usize,
}

fn plain(rng: &mut Rng) -> Node {
    let tag = match rng.below(8) {
        0 => rng.pick(&[b"form", b"LIS1", b"CAT1", b"    ", b"PRO ", b"CAT\0", b"\0\0\0\0"]),
        _ => rng.pick(&[b"BODY", b"CMAP", b"BMHD", b"ANNO"]),
    };
    let length = match rng.below(30) {
        0 => rng.between(0, 3_000),
        1..=4 => 0,
        _ => rng.between(1, 12),
    };
    Node { tag: *tag, held: Held::Data(rng.bytes(length)) }
}

fn type_of(rng: &mut Rng) -> Tag {
    let any = (rng.next() as u32).to_be_bytes();
    rng.pick(&[*b"ILBM", *b"8SVX", *b"FORM", *b"LIST", *b"    ", *b"AIFF", any])
}

/// A FORM or group at this depth, with one way down of so many levels below it, and FORMs and groups besides where there is room for them.
fn container(rng: &mut Rng, tag: &Tag, depth: usize, below: usize) -> Node {
    let mut members = Vec::new();
    if tag == b"LIST" {
        members.extend((0..rng.below(3)).map(|_| prop(rng)));
    }
    let head = members.len();
    let many = if depth < 3 { 4 } else { 3 };
    for _ in 0..rng.below(many) {
        let inner = rng.pick(&[b"FORM", b"FORM", b"LIST", b"CAT "]);
        match tag == b"FORM" && (depth >= 16 || rng.chance(60)) {
            true => members.push(plain(rng)),
            false if depth < 16 && rng.chance(60) => members.push(container(rng, inner, depth + 1, 0)),
            false => {}
        }
    }
    if below > 0 {
        let inner = rng.pick(&[b"FORM", b"LIST", b"CAT "]);
        let at = rng.between(head, members.len());
        let member = container(rng, inner, depth + 1, below - 1);
        members.insert(at, member);
    }
    Node { tag: *tag, held: Held::Members(type_of(rng), members, Vec::new()) }
}

fn prop(rng: &mut Rng) -> Node {
    let members = (0..rng.below(3)).map(|_| plain(rng)).collect();
    Node { tag: *b"PROP", held: Held::Members(type_of(rng), members, Vec::new()) }
}

impl Node {
    fn length(&self) -> usize {
        match &self.held {
            Held::Data(data) => data.len(),
            Held::Members(_, members, stray) => 4 + members.iter().map(Node::size).sum::<usize>() + stray.len(),
        }
    }

    fn size(&self) -> usize {
        let length = self.length();
        8 + length + length % 2
    }

    /// Its bytes, with header and padding, and the spots of all chunks in it, itself first.
    fn write(&self, spot: Spot, file: &mut Vec<u8>, spots: &mut Vec<Spot>) {
        let (start, length) = (file.len(), self.length());
        let close = start + 8 + length;
        let stray = match &self.held {
            Held::Members(_, _, stray) => stray.len(),
            Held::Data(_) => 0,
        };
        spots.push(Spot { start, length, stray, ..spot });
        file.extend(self.tag);
        file.extend((length as u32).to_be_bytes());
        match &self.held {
            Held::Data(data) => file.extend(data),
            Held::Members(tag, members, stray) => {
                file.extend(tag);
                for (i, member) in members.iter().enumerate() {
                    let begins = members[..i].iter().all(|before| &before.tag == b"PROP");
                    let last = i + 1 == members.len() && stray.is_empty();
                    let holder = Some(kind_of(&self.tag));
                    member.write(Spot { depth: spot.depth + 1, holder, holder_start: start, begins, last, end: close, ..spot }, file, spots);
                }
                file.extend(stray);
            }
        }
        file.extend(vec![0; length % 2]);
    }

    /// Puts bytes that are no chunk behind the last member of one of the containers in it, or of itself.
    fn put_stray(&mut self, rng: &mut Rng, bytes: Vec<u8>) {
        let Held::Members(_, members, stray) = &mut self.held else { return };
        let mut inner: Vec<&mut Node> = members.iter_mut().filter(|member| matches!(member.held, Held::Members(..))).collect();
        match inner.is_empty() || rng.chance(35) {
            true => *stray = bytes,
            false => {
                let i = rng.below(inner.len());
                inner[i].put_stray(rng, bytes);
            }
        }
    }
}

// ---- Faults --------------------------------------------------------------------------------------------------------

struct Built {
    file: Vec<u8>,
    fault: Option<Refusal>,
}

fn written(top: &Node) -> (Vec<u8>, Vec<Spot>) {
    let (mut file, mut spots) = (Vec::new(), Vec::new());
    let spot = Spot { start: 0, length: 0, depth: 1, holder: None, holder_start: 0, begins: true, last: true, end: top.size(), stray: 0 };
    top.write(spot, &mut file, &mut spots);
    (file, spots)
}

/// The first of two faults: at the lower place, and at one place the lower number.
fn first(one: Option<Refusal>, other: Option<Refusal>) -> Option<Refusal> {
    one.into_iter().chain(other).min_by_key(|fault| (fault.place, fault.number))
}

fn fault(number: u64, place: usize) -> Option<Refusal> {
    Some(Refusal { number, place: place as u64 })
}

/// A file of a tree: some good, the others with one fault or more.
fn built(rng: &mut Rng) -> Built {
    let tag = rng.pick(&[b"FORM", b"LIST", b"CAT "]);
    let below = rng.pick(&[0, 0, 1, 2, 3, 5, 14, 15, 15]);
    let top = container(rng, tag, 1, below);
    match rng.below(10) {
        0..=3 => Built { file: written(&top).0, fault: None },
        4 => too_deep(rng, tag),
        5 | 6 => with_stray(rng, top),
        more => spoiled(rng, &top, None, more - 6),
    }
}

/// A FORM or group at depth 17, and perhaps further down.
fn too_deep(rng: &mut Rng, tag: &Tag) -> Built {
    let below = rng.pick(&[16, 16, 17, 20, 40]);
    let top = container(rng, tag, 1, below);
    let (mut file, spots) = written(&top);
    let nests = |spot: &&Spot| matches!(&file[spot.start..spot.start + 4], b"FORM" | b"LIST" | b"CAT ");
    let Spot { start, length, end, .. } = *spots.iter().find(|spot| spot.depth == 17 && nests(spot)).expect("a FORM or group at depth 17");
    match rng.below(6) {
        // Too small or too large besides, which comes first; or of an odd length without its padding, which comes behind.
        0 => {
            put(&mut file, start + 4, rng.pick(&[0, 1, 2, 3, end - start - 7]));
            Built { file, fault: fault(41, start) }
        }
        1 => {
            put(&mut file, start + 4, length - 1);
            file[start + 7 + length] = 1;
            Built { file, fault: fault(if length == 4 { 41 } else { 42 }, start) }
        }
        _ => {
            let more = rng.below(2);
            spoiled(rng, &top, fault(42, start), more)
        }
    }
}

/// Bytes behind the last member of a container, too few for a header: 41 there. Where they make the container odd, its padding comes before them: 44 at
/// its start if that is not zero or, of the top, missing.
fn with_stray(rng: &mut Rng, mut top: Node) -> Built {
    let count = rng.between(1, 7);
    let bytes = match rng.chance(50) {
        true => vec![0; count],
        false => rng.bytes(count),
    };
    top.put_stray(rng, bytes);
    let (mut file, spots) = written(&top);
    let holder = *spots.iter().find(|spot| spot.stray > 0).expect("stray bytes");
    let close = holder.start + 8 + holder.length;
    if holder.length % 2 == 1 && rng.chance(50) {
        match holder.start == 0 && rng.chance(50) {
            true => file.truncate(close),
            false => file[close] = rng.between(1, 255) as u8,
        }
        return Built { file, fault: fault(44, holder.start) };
    }
    let more = rng.below(2);
    spoiled(rng, &top, fault(41, close - holder.stray), more)
}

/// The tree's file with so many faults put in besides the one that it has; from the back, so that each is the first when it is put in.
fn spoiled(rng: &mut Rng, top: &Node, had: Option<Refusal>, count: usize) -> Built {
    let (mut file, mut spots) = written(top);
    let mut decides = had;
    if rng.chance(10) {
        decides = first(decides, fault(43, file.len()));
        let behind = rng.between(1, 12);
        let bytes = if rng.chance(50) { vec![0; behind] } else { rng.bytes(behind) };
        file.extend(bytes);
        spots[0].end = file.len();
    }
    let mut chosen: Vec<Spot> = (0..count).map(|_| rng.pick(&spots)).collect();
    chosen.sort_by_key(|spot| std::cmp::Reverse(spot.start));
    chosen.dedup_by_key(|spot| spot.start);
    for spot in chosen {
        if had.map(|fault| fault.place) != Some(spot.start as u64) {
            decides = first(decides, spoil(rng, &mut file, &spot));
        }
    }
    Built { file, fault: decides }
}

fn put(file: &mut [u8], at: usize, number: usize) {
    file[at..at + 4].copy_from_slice(&(number as u32).to_be_bytes());
}

/// A fault of the chunk at this spot, where the one that was chosen can be put in; the other reasons that hold there too come behind it in the order.
fn spoil(rng: &mut Rng, file: &mut [u8], spot: &Spot) -> Option<Refusal> {
    let Spot { start, length, end, .. } = *spot;
    let (left, close) = (end - start - 8, start + 8 + length);
    let is_plain = kind_of(&file[start..start + 4].try_into().unwrap()) == Kind::Plain;
    match rng.below(8) {
        0 => {
            put(file, start + 4, rng.pick(&[left + 1, left + 2, left + 3, left + 13, 1 << 31, 0xFFFF_FFF8, 0xFFFF_FFFF]));
            fault(41, start)
        }
        1 => {
            if is_plain {
                file[start..start + 4].copy_from_slice(rng.pick(&[b"FORM", b"LIST", b"CAT ", b"PROP"]));
            }
            put(file, start + 4, rng.below(4.min(left + 1)));
            fault(41, start)
        }
        2..=4 => {
            let tag = rng.pick(&[b"FORM", b"LIST", b"CAT ", b"PROP", b"BODY", b"form"]);
            let number = refused_as(spot, kind_of(tag))?;
            file[start..start + 4].copy_from_slice(tag);
            // Its padding may be wrong as well: that comes behind.
            if length % 2 == 1 && rng.chance(50) {
                file[close] = 1;
            }
            fault(number, start)
        }
        5 | 6 if length % 2 == 1 => {
            file[close] = rng.between(1, 255) as u8;
            fault(44, start)
        }
        // Its holder ends a byte earlier: the padding byte, though zero, stands outside.
        7 if length % 2 == 1 && spot.last && spot.holder.is_some() => {
            put(file, spot.holder_start + 4, close - spot.holder_start - 8);
            fault(44, start)
        }
        _ => None,
    }
}

/// The number that a chunk at this spot is refused with if it is of that kind, and none if it may be.
fn refused_as(spot: &Spot, kind: Kind) -> Option<u64> {
    let nests = matches!(kind, Kind::Form | Kind::List | Kind::Cat);
    if kind != Kind::Plain && spot.length < 4 {
        return None;
    }
    let allowed = match (spot.holder, kind) {
        (Some(Kind::Prop), _) => !nests && kind != Kind::Prop,
        (_, Kind::Plain) => spot.holder == Some(Kind::Form),
        (holder, Kind::Prop) => holder == Some(Kind::List) && spot.begins,
        _ => true,
    };
    match (nests && spot.depth > 16, allowed) {
        (true, _) => Some(42),
        (false, false) => Some(43),
        _ => None,
    }
}

/// Bits flipped, another type or length in some place, a part cut out, doubled or cut off.
fn damaged(rng: &mut Rng, file: &[u8]) -> Vec<u8> {
    let mut bytes = file.to_vec();
    for _ in 0..rng.between(1, 3) {
        let size = bytes.len();
        if size < 12 {
            break;
        }
        let at = 2 * rng.below((size - 4) / 2);
        match rng.below(8) {
            0 => bytes[rng.below(size)] ^= 1 << rng.below(8),
            1 => bytes[at..at + 4].copy_from_slice(rng.pick(&[b"FORM", b"LIST", b"CAT ", b"PROP", b"BODY"])),
            2 => put(&mut bytes, at, rng.below(40)),
            3 => {
                let number = u32::from_be_bytes(bytes[at..at + 4].try_into().unwrap());
                put(&mut bytes, at, number.wrapping_add(rng.pick(&[1, 2, 8, u32::MAX, u32::MAX - 1])) as usize);
            }
            4 => bytes.truncate(rng.below(size)),
            5 => {
                let part = bytes[at..rng.between(at, size)].to_vec();
                bytes.splice(at..at, part);
            }
            6 => {
                bytes.drain(at..rng.between(at, size));
            }
            _ => bytes[rng.below(size)] = 0,
        }
        // Often the top agrees with the file again, and what is inside decides.
        if rng.chance(60) && bytes.len() >= 8 {
            let size = bytes.len() - 8;
            put(&mut bytes, 4, size);
        }
    }
    bytes
}

// ---- Samples -------------------------------------------------------------------------------------------------------

fn chunk(tag: &Tag, data: &[u8]) -> Vec<u8> {
    let padding: &[u8] = if data.len() % 2 == 1 { &[0] } else { &[] };
    [tag, &(data.len() as u32).to_be_bytes()[..], data, padding].concat()
}

/// A FORM, group or 'PROP' of these parts.
fn holder(tag: &Tag, of: &Tag, parts: &[&[u8]]) -> Vec<u8> {
    chunk(tag, &[&of[..], &parts.concat()].concat())
}

/// So many of these, each in the one before, with nothing in the last.
fn nested(tag: &Tag, levels: usize) -> Vec<u8> {
    (0..levels).flat_map(|i| [&tag[..], &(12 * (levels - i) as u32 - 8).to_be_bytes(), b"ILBM"].concat()).collect()
}

const ILBM: u32 = u32::from_be_bytes(*b"ILBM");

/// Worked ones: the rows or the refusal of each follow from the request by hand.
pub fn samples(tally: &mut Tally, rng: &mut Rng) {
    let form = |parts: &[&[u8]]| holder(b"FORM", b"ILBM", parts);
    let (body, odd) = (chunk(b"BODY", b"eels"), chunk(b"BODY", b"eel"));
    let prop = holder(b"PROP", b"ILBM", &[&odd]);
    let list = holder(b"LIST", b"ILBM", &[&prop, &prop, &form(&[&body]), &holder(b"CAT ", b"    ", &[&form(&[]), &form(&[&form(&[])])])]);
    // 12, two PROPs of 24, a FORM of 24, a CAT with FORMs of 12 and 24.
    stated(tally, rng, &list, Ok(vec![[ILBM, 60, 16, 2], [ILBM, 96, 4, 3], [ILBM, 108, 16, 3], [ILBM, 120, 4, 4]]));
    stated(tally, rng, &form(&[]), Ok(vec![[ILBM, 0, 4, 1]]));
    stated(tally, rng, &holder(b"CAT ", b"    ", &[]), Ok(Vec::new()));
    // PROPs: at depth 17 in a LIST at 16; in a FORM; in a CAT; behind a FORM; with a FORM in it; as the top.
    let deep = |tag: &Tag, inner: &[u8]| (0..15).fold(holder(tag, b"ILBM", &[inner]), |inside, _| holder(b"LIST", b"ILBM", &[&inside]));
    stated(tally, rng, &deep(b"LIST", &prop), Ok(Vec::new()));
    stated(tally, rng, &deep(b"LIST", &holder(b"PROP", b"ILBM", &[&form(&[])])), Err((42, 204)));
    stated(tally, rng, &deep(b"CAT ", &prop), Err((43, 192)));
    stated(tally, rng, &deep(b"FORM", &odd), Ok(vec![[ILBM, 180, 16, 16]]));
    stated(tally, rng, &form(&[&prop]), Err((43, 12)));
    stated(tally, rng, &holder(b"CAT ", b"ILBM", &[&prop]), Err((43, 12)));
    stated(tally, rng, &holder(b"LIST", b"ILBM", &[&form(&[]), &prop]), Err((43, 24)));
    stated(tally, rng, &holder(b"LIST", b"ILBM", &[&holder(b"PROP", b"ILBM", &[&form(&[])])]), Err((43, 24)));
    stated(tally, rng, &prop, Err((43, 0)));
    stated(tally, rng, &body, Err((43, 0)));
    stated(tally, rng, &holder(b"LIST", b"ILBM", &[&body]), Err((43, 12)));
    // Levels.
    for (levels, fault) in [(1, None), (16, None), (17, Some((42, 192))), (1_000, Some((42, 192))), (1_398_101, Some((42, 192)))] {
        let rows = |levels| (0..levels).map(|i| [ILBM, 12 * i, 12 * (levels - i) - 8, i + 1]).collect();
        stated(tally, rng, &nested(b"FORM", levels), fault.map_or_else(|| Ok(rows(levels as u32)), Err));
        stated(tally, rng, &nested(b"CAT ", levels), fault.map_or(Ok(Vec::new()), Err));
    }
    faulty_samples(tally, rng);
    large_files(tally, rng);
}

fn faulty_samples(tally: &mut Tally, rng: &mut Rng) {
    let samples: [(&[u8], u64, u64); 16] = [
        (b"", 41, 0),
        (b"FORM\0\0\0", 41, 0),
        (b"FORM\0\0\0\x03ILB\0", 41, 0),
        (b"BODY\0\0\0\x05eels", 41, 0),
        // The padding of the outer chunk comes before faults inside it (A97), also where it is missing (A102).
        (b"FORM\0\0\0\x05ILBM!\x01", 44, 0),
        (b"FORM\0\0\0\x05ILBM!", 44, 0),
        (b"FORM\0\0\0\x05ILBM!\0", 41, 12),
        (b"FORM\0\0\0\x05ILBM!\0\0", 41, 12),
        // A member's padding outside its holder is missing, though the byte there is zero (A103).
        (b"FORM\0\0\0\x0fILBMBODY\0\0\0\x03eel\0", 44, 12),
        (b"FORM\0\0\0\x10ILBMBODY\0\0\0\x03eel\x01", 44, 12),
        // At one place 41 before 43 (A99), 43 before 44.
        (b"FORM\0\0\0\x10ILBMPROP\0\0\0\x03eel\x01", 41, 12),
        (b"LIST\0\0\0\x10ILBMBODY\0\0\0\x05eel\x01", 41, 12),
        (b"LIST\0\0\0\x10ILBMBODY\0\0\0\x03eel\x01", 43, 12),
        // Bytes behind the top.
        (b"FORM\0\0\0\x04ILBM\0", 43, 12),
        (b"CAT \0\0\0\x04ILBMFORM\0\0\0\x04ILBM", 43, 12),
        (b"FORM\xff\xff\xff\xffILBM", 41, 0),
    ];
    for (file, number, place) in samples {
        stated(tally, rng, file, Err((number, place)));
    }
}

/// At the limit and over it, and with as many headers as there can be.
fn large_files(tally: &mut Tally, rng: &mut Rng) {
    let whole = |size: usize| holder(b"FORM", b"ILBM", &[&chunk(b"BODY", &vec![7; size - 20])]);
    stated(tally, rng, &whole(16_777_216), Ok(vec![[ILBM, 0, 16_777_208, 1]]));
    stated(tally, rng, &whole(16_777_218), Err((1, 0)));
    stated(tally, rng, &nested(b"FORM", 2_000_000), Err((1, 0)));
    stated(tally, rng, &vec![0; 16_777_217], Err((1, 0)));
    // Two million headers one behind the other, each of which says that all that follows is in it: the type of the first is the next one's name.
    let mut headers: Vec<u8> = (0..2_000_000u32).flat_map(|i| [*b"FORM", (8 * (2_000_000 - i) - 8).to_be_bytes()].concat()).collect();
    stated(tally, rng, &headers, Err((41, 12)));
    headers[..4].copy_from_slice(b"CAT ");
    stated(tally, rng, &headers, Err((41, 12)));
    let empty = chunk(b"BODY", &[]).repeat(2_000_000);
    stated(tally, rng, &holder(b"FORM", b"ILBM", &[&empty]), Ok(vec![[ILBM, 0, 16_000_004, 1]]));
    let many = holder(b"LIST", b"ILBM", &[&holder(b"FORM", b"ILBM", &[]).repeat(1_398_000)]);
    stated(tally, rng, &many, Ok((0..1_398_000).map(|i| [ILBM, 12 + 12 * i, 4, 2]).collect()));
}

fn stated(tally: &mut Tally, rng: &mut Rng, file: &[u8], stated: Result<Vec<FormRow>, (u64, u64)>) {
    let found = check(tally, rng, file).map_err(|refusal| (refusal.number, refusal.place));
    if found != stated {
        tally.fail(&format!("a sample group file={}", hex(file)), &format!("stated {stated:.200?}, reference {found:.200?}"));
    }
}
