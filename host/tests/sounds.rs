//! Sound lengths: AIFF files that are good, that have a fault of each kind or several at once, and damaged ones.

use crate::archive::{self, Lent};
use crate::generate::{self, Rng};
use crate::large::add;
use crate::reference::sounds::{length, Sound};
use crate::reference::{self, Refusal, Tag};
use crate::{hex, number_of, Tally};

/// The exponent with which the significand is the value itself.
const ONES: u32 = 16_383 + 63;

// ---- Comparison ----------------------------------------------------------------------------------------------------

/// The call on these bytes against the reference. Gives the answer of both.
fn check(tally: &mut Tally, rng: &mut Rng, bytes: &[u8]) -> Result<Sound, Refusal> {
    let expected = length(bytes);
    let mut lent = Lent::new(bytes, rng.below(16));
    let found = archive::aiff_length(&mut lent);
    tally.count_call("aiff_length", number_of(&expected));
    let call = || format!("blorb_aiff_length size={} bytes={}", bytes.len(), hex(bytes));
    if found != Ok(expected) {
        tally.fail(&call(), &format!("expected {expected:?}\nfound    {found:?}"));
    }
    if let Some(complaint) = lent.complaint("sound", bytes) {
        tally.fail(&call(), &complaint);
    }
    expected
}

/// A case: a sound with some faults of each kind, whose number follows from how it was made; then the same damaged; and as a resource.
pub fn sounds(tally: &mut Tally, rng: &mut Rng) {
    let faults = [20, 35, 35].map(|percent| rng.chance(percent));
    let sound = made(rng, faults);
    let built = [49, 50, 51].into_iter().zip(faults).find(|(_, fault)| *fault).map_or(0, |(number, _)| number);
    let answer = check(tally, rng, &sound);
    if number_of(&answer) != built {
        tally.fail(&format!("a sound bytes={}", hex(&sound)), &format!("built to give {built}, reference {answer:?}"));
    }
    tally.count("aiff faults", faults.iter().rev().fold(0, |bits, fault| 2 * bits + *fault as u64));
    for _ in 0..2 {
        let damaged = damaged(rng, &sound);
        let answer = check(tally, rng, &damaged);
        tally.count("aiff damaged", number_of(&answer));
    }
    if rng.chance(10) {
        as_resource(tally, rng, &sound, answer);
    }
}

/// The sound added to a blank file and looked up there: what a lookup gives is what the call is given.
fn as_resource(tally: &mut Tally, rng: &mut Rng, sound: &[u8], answer: Result<Sound, Refusal>) {
    let blank = generate::lend(rng, reference::blank_file(), Vec::new(), sound.len() + 40, 29);
    let (added, after) = reference::call(&add(b"Snd ", 3, b"FORM", sound.to_vec()), &blank);
    tally.count("aiff resource", added.refusal);
    if added.refusal != 0 {
        return;
    }
    let mut lent = Lent::new(&after.file[..after.length], rng.below(16));
    let Ok(Ok([_, start, size])) = archive::lookup(&mut lent, rng.profile, b"Snd ", 3) else {
        tally.fail(&format!("blorb_lookup of a sound bytes={}", hex(sound)), "it is not found");
    };
    let found = check(tally, rng, &after.file[start as usize..(start + size) as usize]);
    if found != answer {
        tally.fail(&format!("a sound as a resource bytes={}", hex(sound)), &format!("by itself {answer:?}\nas a resource {found:?}"));
    }
}

// ---- Sounds --------------------------------------------------------------------------------------------------------

fn chunk(tag: &Tag, data: &[u8]) -> Vec<u8> {
    let padding: &[u8] = if data.len() % 2 == 1 { &[0] } else { &[] };
    [tag, &(data.len() as u32).to_be_bytes()[..], data, padding].concat()
}

fn form(tag: &Tag, chunks: &[u8]) -> Vec<u8> {
    [b"FORM", &(chunks.len() as u32 + 4).to_be_bytes()[..], tag, chunks].concat()
}

/// A 'COMM' chunk's data; the rate as its first two bytes and the other eight.
fn common(channels: u16, frames: u32, sample_size: u16, (head, significand): (u16, u64)) -> Vec<u8> {
    let (head, tail) = (head.to_be_bytes(), significand.to_be_bytes());
    [&channels.to_be_bytes()[..], &frames.to_be_bytes(), &sample_size.to_be_bytes(), &head, &tail].concat()
}

/// A sound that has these faults and no others: of the form (49), of 'COMM' (50), of the rate (51).
fn made(rng: &mut Rng, [of_form, of_common, of_rate]: [bool; 3]) -> Vec<u8> {
    let mut data = some_common(rng, of_rate);
    let mut chunks: Vec<Vec<u8>> = (0..rng.below(4)).map(|_| other_chunk(rng)).collect();
    let mut commons = 1;
    if of_common {
        match rng.below(4) {
            0 => commons = 0,
            1 => commons = rng.between(2, 4),
            2 => data.resize(rng.pick(&[0, 1, 2, 16, 17, 19, 20, 22, 36]), 0),
            // A second one that is not like the first: longer, shorter or with another rate.
            _ => {
                let other = some_common(rng, !of_rate);
                chunks.push(chunk(b"COMM", &other[..rng.pick(&[0, 17, 18, 18])]));
            }
        }
    }
    for _ in 0..commons {
        let at = rng.below(chunks.len() + 1);
        chunks.insert(at, chunk(b"COMM", &data));
    }
    let sound = form(b"AIFF", &chunks.concat());
    match of_form {
        true => ill_formed(rng, sound, &chunks),
        false => sound,
    }
}

/// Any chunk but 'COMM', names that are nearly so among them.
fn other_chunk(rng: &mut Rng) -> Vec<u8> {
    let any = (rng.next() as u32 | 1 << 31).to_be_bytes();
    let tag = rng.pick(&[b"SSND", b"MARK", b"NAME", b"comm", b"COMn", b"FORM", b"AIFF", b"FVER", &any]);
    let length = match rng.below(20) {
        0 => rng.between(0, 5_000),
        _ => rng.below(24),
    };
    let data = rng.bytes(length);
    chunk(tag, &data)
}

/// The sound with a fault of the form; `chunks` are those in it, where a length or padding can be wrong.
fn ill_formed(rng: &mut Rng, mut sound: Vec<u8>, chunks: &[Vec<u8>]) -> Vec<u8> {
    let size = (sound.len() - 8) as u32;
    let mut starts = vec![12];
    chunks.iter().for_each(|chunk| starts.push(starts[starts.len() - 1] + chunk.len()));
    let last = starts.len() - 1;
    let odd = (0..last).find(|&i| reference::number_at(&sound, starts[i] + 4) % 2 == 1);
    match (rng.below(11), odd) {
        (0, _) => sound[rng.pick(&[0, 1, 2, 3])] ^= 0x20,
        (1, _) => sound[8..12].copy_from_slice(rng.pick(&[b"AIFC", b"aiff", b"AIF ", b"IFRS"])),
        (2, _) => put(&mut sound, 4, rng.pick(&[size + 1, size - 1, size + 8, size.wrapping_sub(8), 0, u32::MAX, size << 8, size | 1 << 31])),
        (3, _) => sound.truncate(rng.below(sound.len())),
        // Stray bytes behind it: counted and not. Counted ones make no whole header.
        (4, _) => sound.extend(vec![0; rng.between(1, 9)]),
        (5, _) => {
            let stray = rng.between(1, 7);
            sound.extend(vec![0; stray]);
            put(&mut sound, 4, size + stray as u32);
        }
        (6 | 7, _) if last > 0 => {
            let at = starts[rng.below(last)] + 4;
            let left = (sound.len() - at - 4) as u32;
            put(&mut sound, at, rng.pick(&[left + 1, left + 2, u32::MAX, u32::MAX - 7, 1 << 31]));
        }
        (_, Some(i)) => {
            let at = starts[i] + 8 + reference::number_at(&sound, starts[i] + 4) as usize;
            match i + 1 == last && rng.chance(50) {
                // The last chunk's padding, missing; the FORM length is right.
                true => {
                    sound.pop();
                    put(&mut sound, 4, size - 1);
                }
                false => sound[at] = rng.between(1, 255) as u8,
            }
        }
        _ => sound[8] = b'a',
    }
    sound
}

fn put(bytes: &mut [u8], at: usize, number: u32) {
    bytes[at..at + 4].copy_from_slice(&number.to_be_bytes());
}

/// Figures with their limits among them; the rate is one that is told, or not.
fn some_common(rng: &mut Rng, of_rate: bool) -> Vec<u8> {
    let any = rng.next();
    let channels = rng.pick(&[1, 2, 0, u16::MAX, any as u16]);
    let frames = rng.pick(&[0, 1, 7_999, 8_000, 44_100, u32::MAX, (any >> 8) as u32, (any >> 28) as u32]);
    let rate = match of_rate {
        true => wrong_rate(rng),
        false => right_rate(rng),
    };
    common(channels, frames, rng.pick(&[8, 16, 24, 32, 0, u16::MAX]), rate)
}

fn whole_rate(rng: &mut Rng) -> u64 {
    let any = rng.between(1, u32::MAX as usize) as u64;
    let small = rng.between(1, 200_000) as u64;
    let power = 1 << rng.below(32);
    rng.pick(&[1, 2, 3, 8_000, 11_025, 22_050, 44_100, 48_000, 96_000, 192_000, u32::MAX as u64 - 1, u32::MAX as u64, any, small, power])
}

/// A whole rate: with its significand shifted all the way up as files have it, or by any other amount that loses no bit.
fn right_rate(rng: &mut Rng) -> (u16, u64) {
    let rate = whole_rate(rng);
    match rng.below(4) {
        0 => {
            let by = rng.below(rate.leading_zeros() as usize + 1) as u32;
            ((ONES - by) as u16, rate << by)
        }
        1 => {
            let by = rng.below(rate.trailing_zeros() as usize + 1) as u32;
            ((ONES + by) as u16, rate >> by)
        }
        _ => normal(rate),
    }
}

fn normal(rate: u64) -> (u16, u64) {
    ((ONES - rate.leading_zeros()) as u16, rate << rate.leading_zeros())
}

/// Zero, minus zero, negative, a fraction, 4,294,967,296 or more, or an exponent far off.
fn wrong_rate(rng: &mut Rng) -> (u16, u64) {
    let (head, significand) = right_rate(rng);
    let (_, full) = normal(whole_rate(rng));
    match rng.below(8) {
        0 => (rng.pick(&[0, 16_383, ONES as u16, 0x7FFF, head]), 0),
        1 => (0x8000, 0),
        2 => (head | 0x8000, significand),
        // A bit below the point: 22,254.545 among them.
        3 => {
            let (head, significand) = normal(rng.between(1, u32::MAX as usize) as u64);
            let bits = ONES - head as u32;
            (head, significand | 1 << rng.below(bits as usize))
        }
        4 => (0x400D, 0xADDD_1745_D174_5D17),
        5 => normal((1 << 32) + (rng.next() >> rng.between(0, 63)) / 2),
        6 => (rng.between(16_383 + 32, 0x7FFF) as u16, full),
        _ => (rng.between(0, 16_382) as u16, full),
    }
}

/// Bits flipped, a field random, a part cut out, doubled or cut off.
fn damaged(rng: &mut Rng, sound: &[u8]) -> Vec<u8> {
    let mut bytes = sound.to_vec();
    for _ in 0..rng.between(1, 2) {
        let size = bytes.len();
        if size == 0 {
            break;
        }
        // The figures stand in the chunk; a random place rarely meets them.
        let common = bytes.windows(4).position(|tag| tag == b"COMM").unwrap_or(0);
        let near = |rng: &mut Rng| (common + rng.below(26)).min(size - 1);
        match rng.below(8) {
            0 => bytes[rng.below(size)] ^= 1 << rng.below(8),
            1 | 2 => {
                let at = near(rng);
                bytes[at] ^= 1 << rng.below(8);
            }
            3 => {
                let at = near(rng);
                bytes[at] = rng.pick(&[0, 1, 0x3F, 0x40, 0x7F, 0x80, 0xFF]);
            }
            4 => bytes.truncate(rng.below(size)),
            5 => {
                let (from, to) = (rng.below(size), rng.below(size));
                let part = bytes[from.min(to)..from.max(to)].to_vec();
                bytes.splice(to..to, part);
            }
            6 => {
                let (from, to) = (rng.below(size), rng.below(size));
                bytes.drain(from.min(to)..from.max(to));
            }
            _ => {
                let length = rng.below(60);
                bytes = rng.bytes(length);
            }
        }
        if rng.chance(60) && bytes.len() >= 8 {
            let size = (bytes.len() - 8) as u32;
            put(&mut bytes, 4, size);
        }
    }
    bytes
}

// ---- Samples -------------------------------------------------------------------------------------------------------

/// The worked ones of the request, with the figures that it or arithmetic by hand gives.
pub fn samples(tally: &mut Tally, rng: &mut Rng) {
    let sound = |data: &[u8]| form(b"AIFF", &[chunk(b"COMM", data), chunk(b"SSND", &[0; 9])].concat());
    let with = |rate| common(2, 441_000, 16, rate);
    let accepted = [
        (with((0x400E, 0xAC44_0000_0000_0000)), [2, 441_000, 16, 44_100, 10]),
        (with((0x400B, 0xFA00_0000_0000_0000)), [2, 441_000, 16, 8_000, 55]),
        (with((16_383 + 63, 44_100)), [2, 441_000, 16, 44_100, 10]),
        (with((16_383 + 63, 1)), [2, 441_000, 16, 1, 441_000]),
        (common(1, u32::MAX, 8, (0x3FFF, 1 << 63)), [1, u32::MAX as u64, 8, 1, u32::MAX as u64]),
        (common(0, u32::MAX, 0, (0x401E, 0xFFFF_FFFF_0000_0000)), [0, u32::MAX as u64, 0, u32::MAX as u64, 1]),
        (common(1, 44_099, 16, (0x400E, 0xAC44_0000_0000_0000)), [1, 44_099, 16, 44_100, 0]),
    ];
    for (data, figures) in accepted {
        stated(tally, rng, &sound(&data), Ok(figures));
    }
    // 22,254.54.., 0, minus zero, -1, 4,294,967,296, a half, and the largest exponent.
    for rate in [(0x400D, 0xADDD_1745_D174_5D17), (0, 0), (0x8000, 0), (0xBFFF, 1 << 63), (0x401F, 1 << 63), (0x3FFE, 1 << 63), (0x7FFF, 1 << 63)] {
        stated(tally, rng, &sound(&with(rate)), Err(51));
    }
    let good = with((0x400E, 0xAC44_0000_0000_0000));
    let one = chunk(b"COMM", &good);
    let mut padded = sound(&good);
    padded.push(0);
    for (bytes, number) in [
        (form(b"AIFF", &[]), 50),
        (form(b"AIFF", &[&one[..], &one].concat()), 50),
        (form(b"AIFF", &[&one[..], &chunk(b"COMM", &good[..17])].concat()), 50),
        (form(b"AIFF", &chunk(b"COMM", &good[..17])), 50),
        (form(b"AIFF", &chunk(b"COMM", &[&good[..], &[0]].concat())), 50),
        (form(b"AIFC", &one), 49),
        (padded, 49),
        (Vec::new(), 49),
        (sound(&good)[..11].to_vec(), 49),
    ] {
        stated(tally, rng, &bytes, Err(number));
    }
    large_sounds(tally, rng, &one);
}

/// Of 16,777,216 bytes and more, and with two million chunks.
fn large_sounds(tally: &mut Tally, rng: &mut Rng, common: &[u8]) {
    let figures = [2, 441_000, 16, 44_100, 10];
    for size in [16_777_216, 16_777_218, 40_000_000] {
        let samples = vec![0x55; size - 12 - common.len() - 8];
        stated(tally, rng, &form(b"AIFF", &[common, &chunk(b"SSND", &samples)].concat()), Ok(figures));
    }
    let empty = chunk(b"NAME", &[]).repeat(2_000_000);
    stated(tally, rng, &form(b"AIFF", &[&empty, common].concat()), Ok(figures));
    stated(tally, rng, &form(b"AIFF", &[&empty, common, &empty, common].concat()), Err(50));
}

fn stated(tally: &mut Tally, rng: &mut Rng, bytes: &[u8], stated: Result<Sound, u64>) {
    let answer = check(tally, rng, bytes).map_err(|refusal| refusal.number);
    if answer != stated {
        tally.fail(&format!("a sample sound bytes={}", hex(bytes)), &format!("stated {stated:?}, reference {answer:?}"));
    }
}
