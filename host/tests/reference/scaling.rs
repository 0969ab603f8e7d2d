//! Scaled pictures (02, P4): what the paper says of 'Reso', with fractions of numbers of 128 bits.

use super::{number_at, refuse, tag_at, Refusal, View};
use std::collections::HashSet;

/// The largest number that may stand in a 'Reso', but for picture numbers, and that may be given.
pub const MOST: u64 = 65_535;

/// What the caller gives besides the file.
#[derive(Clone, Copy, Debug)]
pub struct Asking {
    pub window: [u64; 2],
    pub picture: u32,
    pub size: [u64; 2],
}

impl Asking {
    /// The same with sides that are not too large.
    pub fn cut(&self) -> Asking {
        Asking { window: self.window.map(|side| side.min(MOST)), size: self.size.map(|side| side.min(MOST)), ..*self }
    }
}

#[derive(Clone, Copy)]
struct Fraction {
    numerator: u128,
    denominator: u128,
}

impl Fraction {
    fn new(numerator: u32, denominator: u32) -> Fraction {
        Fraction { numerator: numerator as u128, denominator: denominator as u128 }
    }

    fn is_below(self, other: Fraction) -> bool {
        self.numerator * other.denominator < other.numerator * self.denominator
    }

    fn times(self, other: Fraction) -> Fraction {
        Fraction { numerator: self.numerator * other.numerator, denominator: self.denominator * other.denominator }
    }

    /// A side multiplied exactly and rounded down.
    fn of(self, side: u64) -> u64 {
        u64::try_from(side as u128 * self.numerator / self.denominator).expect("a side of 64 bits")
    }

    /// "A limit with numerator zero is none."
    fn is_limit(self) -> bool {
        self.numerator != 0
    }
}

/// "Picture number and three fractions, standard, least and greatest ratio."
struct Row {
    picture: u32,
    standard: Fraction,
    least: Fraction,
    greatest: Fraction,
}

/// The numbers of 32 bits that stand in these bytes.
fn numbers_of(data: &[u8]) -> Vec<u32> {
    (0..data.len() / 4).map(|i| number_at(data, 4 * i)).collect()
}

/// 33, but for the caller's sides: the reasons in the paper's order.
fn is_bad(windows: &[u32], rows: &[Row], ratios: &[u32]) -> bool {
    let mut seen = HashSet::new();
    let large = windows.iter().chain(ratios).any(|&number| number as u64 > MOST);
    large
        || windows[0] == 0
        || windows[1] == 0
        || rows.iter().any(|row| row.standard.denominator == 0)
        || rows.iter().flat_map(|row| [row.least, row.greatest]).any(|limit| limit.is_limit() && limit.denominator == 0)
        || rows.iter().any(|row| row.least.is_limit() && row.greatest.is_limit() && row.greatest.is_below(row.least))
        || rows.iter().any(|row| !seen.insert(row.picture))
}

/// The standard window's sides and the row of the picture asked for, if there is a 'Reso' and in it such a row.
fn found(file: &[u8], view: &View, asking: &Asking) -> Result<Option<([u32; 2], Row)>, Refusal> {
    let mut chunks = view.spans.iter().filter(|span| &tag_at(file, span.start) == b"Reso");
    let first = chunks.next();
    if let Some(second) = chunks.next() {
        return refuse(31, second.start);
    }
    let mut sought = None;
    if let Some(span) = first {
        if span.length < 24 || (span.length - 24) % 28 != 0 {
            return refuse(32, span.start);
        }
        let numbers = numbers_of(&file[span.start + 8..span.start + 8 + span.length]);
        let (windows, rows) = numbers.split_at(6);
        let ratios: Vec<u32> = rows.chunks(7).flat_map(|row| row[1..].to_vec()).collect();
        let row = |row: &[u32]| Row {
            picture: row[0],
            standard: Fraction::new(row[1], row[2]),
            least: Fraction::new(row[3], row[4]),
            greatest: Fraction::new(row[5], row[6]),
        };
        let rows: Vec<Row> = rows.chunks(7).map(row).collect();
        if is_bad(windows, &rows, &ratios) {
            return refuse(33, 0);
        }
        let row = rows.into_iter().find(|row| row.picture == asking.picture);
        sought = row.map(|row| ([windows[0], windows[1]], row));
    }
    if asking.window.iter().chain(&asking.size).any(|&side| side > MOST) {
        return refuse(33, 0);
    }
    Ok(sought)
}

/// "The factor is the smaller of window over standard window in width and height. Times the standard ratio, it is raised to the least and
/// lowered to the greatest ratio." And how it came: 0 as it is, 1 raised, 2 lowered, 3 both.
fn ratio(window: [u64; 2], standard: [u32; 2], row: &Row) -> (Fraction, u64) {
    let [across, down] = [0, 1].map(|i| Fraction::new(window[i] as u32, standard[i]));
    let factor = if down.is_below(across) { down } else { across };
    let mut ratio = factor.times(row.standard);
    let mut changed = 0;
    if row.least.is_limit() && ratio.is_below(row.least) {
        ratio = row.least;
        changed += 1;
    }
    if row.greatest.is_limit() && row.greatest.is_below(ratio) {
        ratio = row.greatest;
        changed += 2;
    }
    (ratio, changed)
}

/// The answer of a call, and how it came: that of `ratio`, or 9 where the picture keeps its size.
pub fn scaled(file: &[u8], view: &Result<View, Refusal>, asking: &Asking) -> Result<([u64; 2], u64), Refusal> {
    let view = view.as_ref().map_err(|&refusal| refusal)?;
    let Some((standard, row)) = found(file, view, asking)? else {
        return Ok((asking.size, 9));
    };
    let (ratio, how) = ratio(asking.window, standard, &row);
    let sides = asking.size.map(|side| ratio.of(side));
    // "Where a listed picture has both limits, its sides lie between those that the two limits alone would give."
    if row.least.is_limit() && row.greatest.is_limit() {
        for (side, scaled) in asking.size.into_iter().zip(sides) {
            assert!(row.least.of(side) <= scaled && scaled <= row.greatest.of(side), "a side lies between those of the limits");
        }
    }
    Ok((sides, how))
}
