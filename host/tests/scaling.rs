//! Scaled pictures (02, P4), on files with a 'Reso' chunk and on every file that the other families make.

use crate::archive::{self, Lent};
use crate::generate::{self, Rng, LARGE_SIDE, REASONS};
use crate::reference::scaling::{scaled, Asking, MOST};
use crate::reference::{self, Refusal};
use crate::{hex, on_file, Read, Tally};

fn describe(read: &Read, asking: &Asking) -> String {
    format!("blorb_scaled {asking:?} size={} profile={}\n  file={}", read.file.len(), read.profile, hex(read.file))
}

/// One call; gives the sides.
fn check_call(tally: &mut Tally, lent: &mut Lent, read: &Read, asking: &Asking) -> Option<[u64; 2]> {
    let [expected, known] = [&read.view, &read.known].map(|view| scaled(read.file, view, asking));
    tally.count_under(["scaled", "scaled 52"], &expected, &known);
    match expected {
        Ok((_, how)) => tally.count("scaled how", how),
        Err(Refusal { number: 33, .. }) if scaled(read.file, &read.view, &asking.cut()).is_ok() => tally.count("scaled 33", LARGE_SIDE),
        _ => {}
    }
    let expected = expected.map(|(sides, _)| sides);
    let found = archive::scaled(lent, read.profile, asking);
    if found != Ok(expected) {
        tally.fail(&describe(read, asking), &format!("expected {expected:?}\nfound    {found:?}"));
    }
    expected.ok()
}

/// "A larger window never gives a smaller side": the same picture in a larger window, of the library.
fn check_larger(tally: &mut Tally, rng: &mut Rng, lent: &mut Lent, read: &Read, asking: &Asking, sides: [u64; 2]) {
    let window = asking.window.map(|side| rng.between(side as usize, MOST as usize) as u64);
    let larger = Asking { window, ..*asking };
    let Some(larger_sides) = check_call(tally, lent, read, &larger) else { return };
    if larger_sides[0] < sides[0] || larger_sides[1] < sides[1] {
        tally.fail(&describe(read, &larger), &format!("{larger_sides:?} in a larger window, {sides:?} in {:?}", asking.window));
    }
}

/// Any file that the other families make: mostly one without a 'Reso'.
pub fn check(tally: &mut Tally, rng: &mut Rng, lent: &mut Lent, read: &Read) {
    let asking = any_asking(rng, &[], &[640, 480, 0, 0, 0, 0]);
    check_call(tally, lent, read, &asking);
}

/// The family: files with a 'Reso', under the case's profile and now and then under another one; one in eight is damaged.
pub fn files(tally: &mut Tally, rng: &mut Rng) {
    let built = generate::with_resolution(rng);
    let damaged = rng.chance(12);
    let file = if damaged { generate::damaged_resolution(rng, &built.file) } else { built.file.clone() };
    if !damaged {
        check_built(tally, rng, &built);
    }
    on_file(tally, rng, "scaled", &file, |tally, rng, lent, read| {
        for _ in 0..4 {
            let asking = any_asking(rng, &built.pictures, &built.windows);
            if let Some(sides) = check_call(tally, lent, read, &asking) {
                check_larger(tally, rng, lent, read, &asking, sides);
            }
        }
    });
}

/// The refusal that follows from how the file was built, against the reference; which reason 33 had, and what 31 and 32 stood before.
fn check_built(tally: &mut Tally, rng: &mut Rng, built: &generate::BuiltResolution) {
    let asking = Asking { window: [640, 480], picture: rng.next() as u32, size: [10, 10] };
    let answer = scaled(&built.file, &reference::read(&built.file, rng.profile), &asking);
    if answer.map(|_| ()) != built.refusal.map_or(Ok(()), Err) {
        tally.fail(&format!("file={}", hex(&built.file)), &format!("built {:?}\nreference {answer:?}", built.refusal));
    }
    match built.faults[..] {
        [33] => tally.count("scaled 33", built.reason.unwrap()),
        [first, second] => tally.count(if first == 31 { "scaled 31" } else { "scaled 32" }, second),
        _ => {}
    }
}

/// The rows of the table that are this module's own, with the numbers that must be seen in them.
pub fn rows() -> Vec<(&'static str, Vec<u64>)> {
    vec![("scaled how", vec![0, 1, 2, 9]), ("scaled 33", REASONS.to_vec()), ("scaled 31", vec![32, 33]), ("scaled 32", vec![33])]
}

/// A side that may be given: zero, small, about a standard one, or about the largest.
fn given(rng: &mut Rng, standard: u32) -> u64 {
    let standard = (standard as u64).min(MOST);
    match rng.below(20) {
        0 => 0,
        1 => MOST,
        2..=4 => standard,
        5..=6 => (standard * rng.between(2, 9) as u64).min(MOST),
        7..=8 => standard / rng.between(2, 9) as u64,
        9 => (standard + 1).min(MOST),
        10 => standard.saturating_sub(1),
        11..=14 => rng.between(1, 40) as u64,
        _ => rng.below(MOST as usize + 1) as u64,
    }
}

/// Over the limit, by one or by much.
fn too_large(rng: &mut Rng) -> u64 {
    let any = rng.next() | 65_536;
    rng.pick(&[MOST + 1, MOST + 2, 1 << 32, (1 << 32) + 5, 1 << 63, u64::MAX, any])
}

/// A window, a picture that is mostly listed, and its size; one in twelve has a side that is too large.
fn any_asking(rng: &mut Rng, pictures: &[u32], windows: &[u32; 6]) -> Asking {
    let picture = match rng.below(8) {
        0 => rng.next() as u32,
        1 if !pictures.is_empty() => rng.pick(pictures).wrapping_add(1),
        _ if !pictures.is_empty() => rng.pick(pictures),
        _ => rng.below(9) as u32,
    };
    let mut sides = [given(rng, windows[0]), given(rng, windows[1]), given(rng, 320), given(rng, 200)];
    if rng.chance(8) {
        let at = rng.below(4);
        sides[at] = too_large(rng);
    }
    Asking { window: [sides[0], sides[1]], picture, size: [sides[2], sides[3]] }
}

/// 'Reso' chunks of as many rows as a file can have: in order, in no order, and with a repeat at the last row or across half of them; each under an
/// unknown profile too.
pub fn largest(tally: &mut Tally, rng: &mut Rng) {
    const ROWS: usize = (reference::LIMIT - 24 - 8 - 24) / 28;
    let scattered = |i: usize| (i as u32).wrapping_mul(2_654_435_761);
    let numbers: [(fn(usize) -> u32, u64); 4] = [
        (|i| i as u32, 0),
        (|i| (ROWS - i) as u32, 0),
        (|i| if i == ROWS - 1 { 7 } else { i as u32 + 7 }, 33),
        (|i| (i % (ROWS / 2)) as u32, 33),
    ];
    let any: Vec<u32> = (0..ROWS).map(scattered).collect();
    for (pictures, refusal) in numbers.map(|(number, refusal)| ((0..ROWS).map(number).collect(), refusal)).into_iter().chain([(any, 0)]) {
        let pictures: Vec<u32> = pictures;
        let rows = pictures.iter().map(|&picture| [picture, 3, 2, 0, 0, 0, 0]).collect();
        let reso = generate::Resolution { windows: [2, 2, 0, 0, 0, 0], rows };
        let chunks = vec![reference::Chunk { tag: *b"Reso", data: reso.bytes() }];
        let file = reference::File { chunks, entries: Vec::new() }.write();
        let read = Read { file: &file, profile: rng.profile, view: reference::read(&file, rng.profile), known: reference::read(&file, rng.profile) };
        let mut lent = Lent::new(&file, 0);
        let asking = Asking { window: [3, 3], picture: pictures[ROWS - 1], size: [4, 8] };
        let sides = check_call(tally, &mut lent, &read, &asking);
        if sides != (refusal == 0).then_some([9, 18]) {
            tally.fail(&describe(&read, &asking), &format!("must give {refusal}, gave {sides:?}"));
        }
        let unknown = rng.unknown_profile();
        check_call(tally, &mut lent, &Read { profile: unknown, view: reference::read(&file, unknown), ..read }, &asking);
    }
}
