//! Files with 'Reso' chunks (02, P4): good ones, and ones with faults put in on purpose, whose refusal follows from the construction.

use super::{valid, Draft, Rng};
use crate::reference::Refusal;

/// The largest number that a 'Reso' may have besides picture numbers.
const MOST: u32 = 65_535;

/// A 'Reso' before it is bytes: six numbers of windows, and rows of seven numbers.
#[derive(Clone)]
pub struct Resolution {
    pub windows: [u32; 6],
    pub rows: Vec<[u32; 7]>,
}

/// Why a 'Reso' is refused with 33, in the order in which 02 names the reasons; the last one is the caller's side.
pub const REASONS: [u64; 7] = [1, 2, 3, 4, 5, 6, 7];
const LARGE_NUMBER: u64 = 1;
const NO_WINDOW: u64 = 2;
const NO_DENOMINATOR: u64 = 3;
const LIMIT_UNDER_ZERO: u64 = 4;
const LEAST_OVER_GREATEST: u64 = 5;
pub const REPEATED: u64 = 6;
pub const LARGE_SIDE: u64 = 7;

/// A file, its refusal of 31 to 33 that follows from how it was built, all of 31 to 33 that were put in, the reason of its 33, and numbers of pictures
/// that its first 'Reso' lists.
pub struct Built {
    pub file: Vec<u8>,
    pub refusal: Option<Refusal>,
    pub faults: Vec<u64>,
    pub reason: Option<u64>,
    pub pictures: Vec<u32>,
    pub windows: [u32; 6],
}

impl Resolution {
    pub fn bytes(&self) -> Vec<u8> {
        let numbers = self.windows.iter().chain(self.rows.iter().flatten());
        numbers.flat_map(|number| number.to_be_bytes()).collect()
    }
}

/// A number from 1 up: small, one of the extremes, or any.
fn side(rng: &mut Rng) -> u32 {
    match rng.below(10) {
        0..=4 => rng.between(1, 12) as u32,
        5 => rng.pick(&[MOST, MOST - 1, MOST - 2, 32_768, 256]),
        6 => rng.pick(&[320, 200, 640, 480, 800, 600]),
        _ => rng.between(1, MOST as usize) as u32,
    }
}

/// A limit: a fraction that is not zero, or none, with any denominator.
fn limit(rng: &mut Rng) -> [u32; 2] {
    match rng.below(10) {
        0..=2 => [0, 0],
        3 => [0, rng.below(MOST as usize + 1) as u32],
        _ => [side(rng), side(rng)],
    }
}

fn is_over(least: [u32; 2], greatest: [u32; 2]) -> bool {
    least[0] > 0 && greatest[0] > 0 && least[0] as u64 * greatest[1] as u64 > greatest[0] as u64 * least[1] as u64
}

fn row(rng: &mut Rng, picture: u32) -> [u32; 7] {
    let standard = [if rng.chance(4) { 0 } else { side(rng) }, side(rng)];
    let (mut least, mut greatest) = (limit(rng), limit(rng));
    if rng.chance(15) && least[0] > 0 {
        // The same ratio, perhaps not in its lowest terms.
        let times = rng.between(1, (MOST / least[0].max(least[1])).max(1) as usize) as u32;
        greatest = [least[0] * times, least[1] * times];
    }
    if is_over(least, greatest) {
        (least, greatest) = (greatest, least);
    }
    [picture, standard[0], standard[1], least[0], least[1], greatest[0], greatest[1]]
}

/// Different picture numbers: rising, falling, or in any order; some beyond 65,535.
fn pictures(rng: &mut Rng, count: usize) -> Vec<u32> {
    let first = rng.pick(&[0, 1, 65_530, u32::MAX - count as u32 * 3]);
    let step = rng.between(1, 3) as u32;
    let mut numbers: Vec<u32> = (0..count as u32).map(|i| first + step * i).collect();
    match rng.below(4) {
        0 => numbers.reverse(),
        1 | 2 => rng.shuffle(&mut numbers),
        _ => {}
    }
    numbers
}

/// A good one; now and then with so many rows that the search for a repeated picture goes block by block.
pub fn resolution(rng: &mut Rng) -> Resolution {
    let count = match rng.below(400) {
        0 => rng.between(1_500, 6_000),
        1..=40 => 0,
        41..=380 => rng.between(1, 6),
        _ => rng.between(7, 60),
    };
    let mut windows = [0; 6];
    windows[..2].fill_with(|| side(rng));
    windows[2..].fill_with(|| if rng.chance(40) { 0 } else { side(rng) });
    let rows = pictures(rng, count).into_iter().map(|picture| row(rng, picture)).collect();
    Resolution { windows, rows }
}

fn large_number(rng: &mut Rng) -> u32 {
    match rng.below(3) {
        0 => MOST + 1,
        1 => rng.pick(&[1 << 31, u32::MAX, MOST + 2, 1 << 24, 131_072]),
        _ => MOST + 1 + (rng.next() as u32 >> 1).min(u32::MAX - MOST - 1),
    }
}

/// A least ratio over the greatest, mostly by as little as can be.
fn crossed(rng: &mut Rng) -> [u32; 4] {
    let n = rng.between(2, MOST as usize - 1) as u32;
    match rng.below(4) {
        0 => [n + 1, n, n, n - 1].map(|number| number.min(MOST)),
        1 => [n, n - 1, n + 1, n],
        2 => [MOST, 1, MOST - 1, 1],
        _ => [n, 1, 1, n],
    }
}

/// Puts one reason for 33 in. Gives it, or another one where this needs a row and there is none.
fn spoil(rng: &mut Rng, reso: &mut Resolution, reason: u64) -> u64 {
    let count = reso.rows.len();
    if count == 0 && reason > NO_WINDOW {
        return spoil(rng, reso, NO_WINDOW);
    }
    match reason {
        LARGE_NUMBER if count == 0 || rng.chance(30) => reso.windows[rng.below(6)] = large_number(rng),
        NO_WINDOW => reso.windows[rng.below(2)] = 0,
        REPEATED => {
            let at = rng.below(count);
            let again = row(rng, reso.rows[at][0]);
            let at = rng.between(0, count);
            reso.rows.insert(at, again);
        }
        _ => {
            let at = rng.below(count);
            let row = &mut reso.rows[at];
            match reason {
                LARGE_NUMBER => row[rng.between(1, 6)] = large_number(rng),
                NO_DENOMINATOR => row[2] = 0,
                LIMIT_UNDER_ZERO => {
                    let limit = rng.pick(&[3, 5]);
                    (row[limit], row[limit + 1]) = (side(rng), 0);
                }
                _ => {
                    let mut numbers = crossed(rng);
                    if !is_over([numbers[0], numbers[1]], [numbers[2], numbers[3]]) {
                        numbers = [2, 1, 1, 1];
                    }
                    row[3..].copy_from_slice(&numbers);
                }
            }
        }
    }
    reason
}

/// Data of a length that no 'Reso' has, mostly by a little.
fn cut(rng: &mut Rng, mut data: Vec<u8>) -> Vec<u8> {
    let right = data.len();
    let size = match rng.below(4) {
        0 => rng.below(24),
        1 => right + rng.between(1, 27),
        2 if right > 24 => right - rng.between(1, 27),
        _ => right + rng.pick(&[4, 8, 12, 24]),
    };
    data.resize(size, 7);
    data
}

/// A good file with a 'Reso': without a fault, with one or with two of 31 to 33.
pub fn with_resolution(rng: &mut Rng) -> Built {
    let count = rng.below(7);
    let mut draft = valid(rng, count);
    let mut reso = resolution(rng);
    let faults: Vec<u64> = match rng.below(20) {
        0..=8 => vec![],
        9..=10 => vec![31],
        11 => vec![31, 32],
        12 => vec![31, 33],
        13..=14 => vec![32],
        15 => vec![32, 33],
        _ => vec![33],
    };
    let reason = rng.pick(&[LARGE_NUMBER, LARGE_NUMBER, NO_WINDOW, NO_DENOMINATOR, LIMIT_UNDER_ZERO, LEAST_OVER_GREATEST, REPEATED, REPEATED]);
    let reason = faults.contains(&33).then(|| spoil(rng, &mut reso, reason));
    let mut data = reso.bytes();
    if faults.contains(&32) {
        data = cut(rng, data);
    }
    let first = draft.insert_anywhere(rng, *b"Reso", data);
    let second = faults.contains(&31).then(|| second_chunk(rng, &mut draft));
    let layout = draft.render();
    let place = match (faults.first(), second) {
        (Some(31), Some(second)) => layout.start_of(first).max(layout.start_of(second)),
        (Some(32), _) => layout.start_of(first),
        _ => Some(0),
    };
    let refusal = faults.first().map(|&number| Refusal { number, place: place.unwrap() as u64 });
    let pictures = reso.rows.iter().map(|row| row[0]).collect();
    Built { file: layout.bytes, refusal, faults, reason, pictures, windows: reso.windows }
}

/// A second 'Reso', good, empty or any; now and then a third one too, which does not come before it.
fn second_chunk(rng: &mut Rng, draft: &mut Draft) -> usize {
    let data = match rng.below(3) {
        0 => vec![],
        1 => rng.bytes(24),
        _ => resolution(rng).bytes(),
    };
    if rng.chance(20) {
        draft.insert_chunk(draft.chunks.len(), *b"Reso", vec![]);
    }
    let at = rng.between(0, draft.chunks.len() - usize::from(draft.chunks.last().is_some_and(|chunk| &chunk.tag == b"Reso")));
    draft.insert_chunk(at, *b"Reso", data)
}

/// The same file with some of its bytes damaged, those of the 'Reso' more often than others.
pub fn damaged(rng: &mut Rng, file: &[u8]) -> Vec<u8> {
    let mut bytes = file.to_vec();
    let start = bytes.windows(4).position(|four| four == b"Reso").unwrap_or(0);
    for _ in 0..rng.pick(&[1, 1, 2, 3]) {
        let at = if rng.chance(85) { rng.between(start, bytes.len() - 1) } else { rng.below(bytes.len()) };
        let (flipped, any) = (bytes[at] ^ 1 << rng.below(8), rng.next() as u8);
        bytes[at] = rng.pick(&[0, 1, 255, flipped, any]);
    }
    bytes
}
