//! Compares the library, through its C interface, with the reference on generated inputs.
//!
//! A case is one number: its low byte is the family, all of it seeds what is generated. So one case can be replayed alone.

mod archive;
mod fence;
mod forms;
mod generate;
mod large;
mod reference;
mod samples;
mod sounds;
mod scaling;
mod tables;
mod texts;
mod two_editors;

use archive::{first_difference, Buffers, Lent};
use generate::{Rng, PART};
use reference::{Answer, Call, Edit, Ledger, Refusal, Span, State, Tag, View, ADRIFT, PLAIN};
use std::collections::BTreeMap;
use std::fmt::Debug;
use std::io::{stderr, IsTerminal};
use std::panic;
use std::process::exit;
use std::sync::atomic::Ordering;
use std::time::{Duration, Instant};

const DEFAULT_SEED: u64 = 20_040_204;
/// Each hundredth of the Blorb files is 4,000 inputs.
const DEFAULT_COUNT: u64 = 4_000 * SHARES as u64;
/// So many inputs are asked to show all that can occur.
const ENOUGH: u64 = DEFAULT_COUNT / 4;
/// The type 'FORM' as a lookup gives it.
const BLORB_FORM: u64 = u32::from_be_bytes(*b"FORM") as u64;
/// So many of 100 files and single calls are tried under another profile too.
pub const AGAIN: usize = 20;

// ---- Reports -------------------------------------------------------------------------------------------------------

/// The case under way, how often each number was seen in each row of the table, and the large moves of each call.
pub struct Tally {
    pub case: u64,
    calls: u64,
    table: BTreeMap<(&'static str, u64), u64>,
    large: BTreeMap<&'static str, [u64; LARGE.len()]>,
}

/// A file is large, and many bytes are moved or copied, where they are more than this: eight parts.
const MANY: usize = 8 * PART;

/// What is counted of each editing call, and how often a default run must show it at least. `print_large` says what it means.
const LARGE: [(&str, u64); 6] =
    [("done", 500), ("many", 250), ("twice", 125), ("whole", 2), ("copied", 25), ("no room", 50)];

impl Tally {
    pub fn count(&mut self, row: &'static str, number: u64) {
        *self.table.entry((row, number)).or_default() += 1;
    }

    pub fn count_call(&mut self, row: &'static str, number: u64) {
        self.calls += 1;
        self.count(row, number);
    }

    pub fn fail(&self, call: &str, complaint: &str) -> ! {
        eprintln!();
        println!("compare: DIFFERENCE in case {:#x}", self.case);
        println!("{call}");
        println!("{complaint}");
        println!("replay: host/tests/compare --case {:#x}", self.case);
        exit(1);
    }
}

pub fn hex(bytes: &[u8]) -> String {
    if bytes.len() > 20_000 {
        return format!("({} bytes, see the case)", bytes.len());
    }
    bytes.iter().map(|byte| format!("{byte:02x}")).collect()
}

fn describe_resource(name: &str, usage: &Tag, number: u32, tag: &Tag, data: &[u8]) -> String {
    let (size, data) = (data.len(), hex(data));
    format!(
        "{name} usage=\"{}\" number={number} type=\"{}\" data_size={size} data={data}",
        usage.escape_ascii(),
        tag.escape_ascii()
    )
}

/// The call with all that it is given.
fn describe(call: &Call, state: &State) -> String {
    let call = match call {
        Call::Edit(Edit::Add { usage, number, tag, data }) => describe_resource("blorb_add", usage, *number, tag, data),
        Call::Edit(Edit::Replace { usage, number, tag, data }) => {
            describe_resource("blorb_replace", usage, *number, tag, data)
        }
        Call::Edit(Edit::Remove { usage, number }) => {
            format!("blorb_remove usage=\"{}\" number={number}", usage.escape_ascii())
        }
        Call::Edit(Edit::Link { usage, number, new_usage, new_number }) => format!(
            "blorb_link usage=\"{}\" number={number} new_usage=\"{}\" new_number={new_number}",
            usage.escape_ascii(),
            new_usage.escape_ascii()
        ),
        Call::Undo => "blorb_undo".to_string(),
    };
    let State { profile, file, length, journal, used } = state;
    let (size, journal_size) = (file.len(), journal.len());
    format!(
        "{call}\n  size={size} length={length} journal_size={journal_size} used={used} profile={profile}\n  file={}\n  journal={}",
        hex(file),
        hex(journal)
    )
}

// ---- Single comparisons --------------------------------------------------------------------------------------------

/// A file as it is read under a profile, and under the known one that it was made for: beside an unknown profile that tells what 52 comes before.
pub struct Read<'a> {
    pub file: &'a [u8],
    pub profile: u32,
    pub view: Result<View, Refusal>,
    pub known: Result<View, Refusal>,
}

pub fn number_of<T>(answer: &Result<T, Refusal>) -> u64 {
    answer.as_ref().map_or_else(|refusal| refusal.number, |_| 0)
}

impl Tally {
    /// Counts a call's answer, and in the row of its name with "52" what it would have been under a known profile.
    pub fn count_under<T, U>(&mut self, [row, behind]: [&'static str; 2], expected: &Result<T, Refusal>, known: &Result<U, Refusal>) {
        self.count_call(row, number_of(expected));
        if number_of(expected) == 52 {
            self.count(behind, number_of(known));
        }
    }
}

/// Compares one reading call's answer and counts it. `known` is that under the known profile.
fn check_reading<T: PartialEq + Debug>(
    tally: &mut Tally,
    rows: [&'static str; 2],
    arguments: &str,
    read: &Read,
    [expected, known]: [Result<T, Refusal>; 2],
    found: Result<Result<T, Refusal>, String>,
) {
    tally.count_under(rows, &expected, &known);
    if found.as_ref() != Ok(&expected) {
        let (row, size, profile) = (rows[0], read.file.len(), read.profile);
        let call = format!("blorb_{row} {arguments} size={size} profile={profile}\n  file={}", hex(read.file));
        tally.fail(&call, &format!("expected {expected:?}\nfound    {found:?}"));
    }
}

/// Asks of a file that is lent, under the case's profile and now and then under another one; the bytes stay as they are.
pub fn on_file(tally: &mut Tally, rng: &mut Rng, call: &str, file: &[u8], mut ask: impl FnMut(&mut Tally, &mut Rng, &mut Lent, &Read)) {
    let mut profiles = vec![rng.profile];
    if rng.chance(AGAIN) {
        profiles.push(rng.other_profile(rng.profile));
    }
    for profile in profiles {
        let read = Read { file, profile, view: reference::read(file, profile), known: reference::read(file, rng.profile) };
        let mut lent = Lent::new(file, rng.below(16));
        ask(tally, rng, &mut lent, &read);
        if let Some(complaint) = lent.complaint("file", file) {
            tally.fail(&format!("blorb_{call} file={}", hex(file)), &complaint);
        }
    }
}

/// The reading calls on one file, under the case's profile and now and then under another one too.
pub fn check_file(tally: &mut Tally, rng: &mut Rng, file: &[u8]) {
    let profile = rng.profile;
    check_file_under(tally, rng, file, profile);
    if rng.chance(AGAIN) {
        let other = rng.other_profile(profile);
        check_file_under(tally, rng, file, other);
    }
    if reference::read(file, ADRIFT).is_ok() {
        tally.count("ADRIFT as plain", number_of(&reference::read(file, PLAIN)));
    }
}

/// All entries and pairs of small files, some of large ones.
pub fn check_file_under(tally: &mut Tally, rng: &mut Rng, file: &[u8], profile: u32) {
    let mut lent = Lent::new(file, rng.below(16));
    let read = Read { file, profile, view: reference::read(file, profile), known: reference::read(file, rng.profile) };
    let found = archive::read(&mut lent, profile);
    let expected = [&read.view, &read.known].map(|view| reference::read_answer(file, view));
    check_reading(tally, ["read", "read 52"], "", &read, expected, found);
    for i in entry_numbers(rng, read.known.as_ref().map_or(0, |view| view.entries.len())) {
        let found = archive::entry(&mut lent, profile, i);
        let expected = [&read.view, &read.known].map(|view| reference::entry_answer(view, i));
        check_reading(tally, ["entry", "entry 52"], &format!("i={i}"), &read, expected, found);
    }
    for (usage, number) in lookup_pairs(rng, file, read.known.is_ok()) {
        let found = archive::lookup(&mut lent, profile, &usage, number);
        let arguments = format!("usage=\"{}\" number={number}", usage.escape_ascii());
        let expected = [&read.view, &read.known].map(|view| reference::lookup_answer(file, view, &usage, number));
        if let Ok([BLORB_FORM, _, length]) = expected[0] {
            tally.count("lookup FORM", length % 2);
        }
        check_reading(tally, ["lookup", "lookup 52"], &arguments, &read, expected, found);
    }
    tables::check(tally, rng, &mut lent, &read);
    if rng.chance(10) {
        let _ = forms::check(tally, rng, file);
    }
    scaling::check(tally, rng, &mut lent, &read);
    texts::check(tally, rng, &mut lent, &read);
    if let Some(complaint) = lent.complaint("file", file) {
        tally.fail(&format!("reading file={}", hex(file)), &complaint);
    }
}

fn entry_numbers(rng: &mut Rng, count: usize) -> Vec<usize> {
    let mut numbers: Vec<usize> = match count {
        0..=300 => (0..count).collect(),
        _ => vec![0, 1, rng.below(count), rng.below(count), count - 1],
    };
    numbers.extend([count, count + 1]);
    let wraps = [usize::MAX, usize::MAX / 12, 1 << 32, (1 << 32) + rng.below(count + 1), (usize::MAX - 24) / 12 + 1];
    numbers.push(rng.pick(&wraps));
    numbers
}

fn lookup_pairs(rng: &mut Rng, file: &[u8], accepted: bool) -> Vec<(Tag, u32)> {
    let all = generate::pairs_in(file);
    let mut pairs = match all.len() {
        0 => Vec::new(),
        1..=300 if accepted => all,
        _ => (0..4).map(|_| rng.pick(&all)).collect(),
    };
    pairs.extend((0..3).map(|_| generate::target(rng, file)));
    pairs
}

/// One editing call on these buffers. Gives what they hold afterwards.
fn check_call_on(tally: &mut Tally, buffers: &mut Buffers, call: &Call, state: &State) -> (Answer, State) {
    let (expected, after) = reference::call(call, state);
    let (found, complaint) = buffers.call(call, state, &after);
    tally.count_call(call.name(), expected.refusal);
    if found != expected {
        let complaint = complaint.map_or(String::new(), |complaint| format!("\n{complaint}"));
        tally.fail(&describe(call, state), &format!("expected {expected:?}\nfound    {found:?}{complaint}"));
    }
    if let Some(complaint) = complaint {
        tally.fail(&describe(call, state), &format!("both answered {expected:?}\n{complaint}"));
    }
    if let (Call::Undo, 0) = (call, expected.refusal) {
        tally.count("undone", state.journal[after.used] as u64);
    }
    count_large(tally, call, expected.refusal, state, &after);
    check_whole(tally, call, expected.refusal, state, &after);
    check_link(tally, call, expected, state, &after);
    (expected, after)
}

/// A link: both names then give the same; and which of the two entries 116 is about.
fn check_link(tally: &mut Tally, call: &Call, answer: Answer, state: &State, after: &State) {
    let Call::Edit(Edit::Link { usage, number, new_usage, new_number }) = call else { return };
    let file = &after.file[..after.length.min(after.file.len())];
    if answer.refusal == 0 {
        let mut lent = Lent::new(file, 0);
        let [one, other] = [(usage, number), (new_usage, new_number)].map(|(u, n)| archive::lookup(&mut lent, state.profile, u, *n));
        if one != other || !matches!(one, Ok(Ok(_))) {
            tally.fail(&describe(call, state), &format!("two names, two answers: {one:?} and {other:?}"));
        }
    }
    if let (116, Ok(view)) = (answer.refusal, reference::read(file, state.profile)) {
        let chunk_of = |usage, number| view.entries.iter().find(|entry| (&entry.usage, &entry.number) == (usage, number)).map(|entry| entry.chunk);
        tally.count("link 116", (chunk_of(new_usage, new_number) > chunk_of(usage, number)) as u64);
    }
}

/// An add or replacement of type 'FORM': what a call with a wrong head was answered (but for reasons of the file), and that what was put in
/// reads back.
fn check_whole(tally: &mut Tally, call: &Call, refusal: u64, state: &State, after: &State) {
    let Call::Edit(Edit::Add { usage, number, tag, data } | Edit::Replace { usage, number, tag, data }) = call else { return };
    if tag != b"FORM" {
        return;
    }
    let row = if call.name() == "add" { "add wrong head" } else { "replace wrong head" };
    if reference::held(tag, data).is_err() && refusal >= 20 && !(27..=29).contains(&refusal) {
        tally.count(row, refusal);
    }
    if refusal == 0 {
        let file = &after.file[..after.length];
        let found = archive::lookup(&mut Lent::new(file, 0), state.profile, usage, *number);
        if !matches!(found, Ok(Ok([_, start, length])) if &file[start as usize..][..length as usize] == &data[..]) {
            tally.fail(&describe(call, state), &format!("what was put in does not read back: {found:?}"));
        }
    }
}

fn data_size(call: &Call) -> usize {
    match call {
        Call::Edit(Edit::Add { data, .. } | Edit::Replace { data, .. }) => data.len(),
        _ => 0,
    }
}

/// Counts what the call shows of LARGE.
fn count_large(tally: &mut Tally, call: &Call, refusal: u64, state: &State, after: &State) {
    let (large_file, done) = (state.length > MANY, refusal == 0);
    let moved = match large_file && done {
        true => moved(state.profile, &state.file[..state.length], &after.file[..after.length]),
        false => 0,
    };
    let copied = data_size(call).max(state.used.abs_diff(after.used).saturating_sub(29));
    let shows = [
        large_file && done,
        moved > MANY,
        moved > 2 * MANY,
        moved > 0 && moved % PART == 0,
        copied > MANY && done,
        large_file && (refusal == 24 || refusal == 25),
    ];
    let counts = tally.large.entry(call.name()).or_default();
    counts.iter_mut().zip(shows).for_each(|(count, shown)| *count += shown as u64);
}

/// The most bytes that went the same way: of the chunks that are the same from the front, and from the back.
fn moved(profile: u32, before: &[u8], after: &[u8]) -> usize {
    let (old, new) = (chunks(profile, before), chunks(profile, after));
    let front = old.iter().zip(&new).take_while(|(a, b)| a.1 == b.1);
    let kept = front.clone().count();
    let back = old[kept..].iter().rev().zip(new[kept..].iter().rev()).take_while(|(a, b)| a.1 == b.1);
    let front: usize = front.filter(|(a, b)| a.0 != b.0).map(|(a, _)| a.1.len()).sum();
    let back: usize = back.filter(|(a, b)| a.0 != b.0).map(|(a, _)| a.1.len()).sum();
    front.max(back)
}

/// Where each chunk behind the index begins, and its bytes.
fn chunks(profile: u32, file: &[u8]) -> Vec<(usize, &[u8])> {
    let view = reference::read(file, profile).unwrap_or_else(|_| panic!("an accepted file"));
    let size = |span: &Span| 8 + span.length + span.length % 2;
    view.spans.iter().map(|span| (span.start, &file[span.start..span.start + size(span)])).collect()
}

/// One editing call on fresh buffers. One that 30 refuses is made with the right head too: that tells what 30 came before. Now and then
/// the same call is made on others under another profile too.
pub fn check_call(tally: &mut Tally, rng: &mut Rng, call: &Call, state: &State) -> (Answer, State) {
    let mut buffers = Buffers::new(state, rng.below(16));
    let (answer, after) = check_call_on(tally, &mut buffers, call, state);
    if answer.refusal == 30 {
        let mut buffers = Buffers::new(state, rng.below(16));
        let (behind, _) = check_call_on(tally, &mut buffers, &generate::mended(call), state);
        tally.count(if call.name() == "add" { "add 30" } else { "replace 30" }, behind.refusal);
    }
    if rng.chance(AGAIN) {
        let other = rng.other_profile(state.profile);
        check_again(tally, rng, call, state, other, answer);
    }
    (answer, after)
}

/// The rows that count what a call is answered where 52 comes before it, and as plain where it was carried out under the ADRIFT profile.
fn rows_again(call: &Call) -> [&'static str; 2] {
    match call {
        Call::Edit(Edit::Add { .. }) => ["add 52", "add as plain"],
        Call::Edit(Edit::Replace { .. }) => ["replace 52", "replace as plain"],
        Call::Edit(Edit::Remove { .. }) => ["remove 52", "remove as plain"],
        Call::Edit(Edit::Link { .. }) => ["link 52", "link as plain"],
        Call::Undo => ["undo 52", "undo as plain"],
    }
}

/// The same call under another profile, given what it was answered under its own.
fn check_again(tally: &mut Tally, rng: &mut Rng, call: &Call, state: &State, profile: u32, own: Answer) {
    let state = State { profile, ..state.clone() };
    let mut buffers = Buffers::new(&state, rng.below(16));
    let (answer, _) = check_call_on(tally, &mut buffers, call, &state);
    let [unknown, plain] = rows_again(call);
    match answer.refusal {
        52 => tally.count(unknown, own.refusal),
        number if profile > ADRIFT => tally.fail(&describe(call, &state), &format!("an unknown profile, and not 52 but {number}")),
        number if profile == PLAIN && own.refusal == 0 => tally.count(plain, number),
        _ => {}
    }
}

/// A call that is also made under an unknown profile.
pub fn check_call_and_52(tally: &mut Tally, rng: &mut Rng, call: &Call, state: &State) -> (Answer, State) {
    let (answer, after) = check_call(tally, rng, call, state);
    let unknown = rng.unknown_profile();
    check_again(tally, rng, call, state, unknown, answer);
    (answer, after)
}

// ---- Families ------------------------------------------------------------------------------------------------------

type Family = fn(&mut Tally, &mut Rng);

/// The share of the cases that each family has: those of Blorb files make 100; sounds, group files, scaled pictures and spoken descriptions come besides.
const FAMILIES: [(usize, Family); 14] = [
    (20, valid_files),
    (16, single_faults),
    (12, double_faults),
    (13, damaged_files),
    (4, random_files),
    (13, edits_of_valid_files),
    (8, edits_of_bad_files),
    (10, undos),
    (1, blanks),
    (3, runs),
    (14, sounds::sounds),
    (14, forms::group_files),
    (14, scaling::files),
    (14, texts::files),
];
const SHARES: usize = shares(&FAMILIES);

const fn shares(families: &[(usize, Family)]) -> usize {
    match families {
        [] => 0,
        [(share, _), rest @ ..] => *share + shares(rest),
    }
}

fn some_draft(rng: &mut Rng) -> generate::Draft {
    let count = generate::entry_count(rng);
    generate::valid(rng, count)
}

fn valid_files(tally: &mut Tally, rng: &mut Rng) {
    let file = some_draft(rng).render().bytes;
    check_expected(tally, rng, &file, None);
    check_file(tally, rng, &file);
}

/// The refusal that follows from how a file was built, against the reference.
pub fn check_expected(tally: &mut Tally, rng: &Rng, file: &[u8], built: Option<Refusal>) {
    let judged = reference::read(file, rng.profile).err();
    if judged != built {
        tally.fail(&format!("file={}", hex(file)), &format!("built {built:?}\nreference {judged:?}"));
    }
    tally.count("built", built.map_or(0, |refusal| refusal.number));
}

/// 11 takes 49 kB and a long search, so it comes less often.
fn fault(rng: &mut Rng) -> u64 {
    match rng.pick(&generate::ORDER) {
        11 if rng.chance(90) => 10,
        number => number,
    }
}

fn built_file(tally: &mut Tally, rng: &mut Rng, faults: &[u64]) -> Vec<u8> {
    let draft = some_draft(rng);
    let built = generate::faulty(rng, draft, faults);
    check_expected(tally, rng, &built.file, built.refusal);
    if let (&[first, second], 2) = (faults, built.faults) {
        if generate::next_in_order(first) == Some(second) {
            tally.count("pairs", first);
        }
    }
    built.file
}

fn single_faults(tally: &mut Tally, rng: &mut Rng) {
    let number = fault(rng);
    let file = built_file(tally, rng, &[number]);
    check_file(tally, rng, &file);
}

/// Two faults, mostly neighbours in the order of checking, or the same one twice where a file can have it in two places.
fn two_faults(rng: &mut Rng) -> [u64; 2] {
    let first = fault(rng);
    let second = match rng.below(10) {
        0..=4 => generate::next_in_order(first).unwrap_or(2),
        5 | 6 => first,
        _ => fault(rng),
    };
    let twice = matches!(first, 28 | 7 | 9 | 12..=18);
    [first, if second == first && !twice { 2 } else { second }]
}

fn double_faults(tally: &mut Tally, rng: &mut Rng) {
    let numbers = two_faults(rng);
    let file = built_file(tally, rng, &numbers);
    check_file(tally, rng, &file);
}

fn damaged_file(rng: &mut Rng) -> Vec<u8> {
    let layout = some_draft(rng).render();
    generate::mutated(rng, &layout)
}

fn damaged_files(tally: &mut Tally, rng: &mut Rng) {
    let file = damaged_file(rng);
    check_file(tally, rng, &file);
}

fn random_files(tally: &mut Tally, rng: &mut Rng) {
    let file = generate::random_bytes(rng);
    check_file(tally, rng, &file);
}

/// Buffers around this file with random bytes as journal, which no edit looks at. Mostly they have room for large data too.
fn edit_state(rng: &mut Rng, file: Vec<u8>, call: &Call) -> State {
    let (used, mut file_more, mut journal_more) = (rng.below(40), rng.below(400), rng.below(400));
    if data_size(call) > 3000 && rng.chance(75) {
        file_more += data_size(call);
    }
    if file.len() > 3000 && rng.chance(75) {
        journal_more += file.len();
    }
    let records = rng.bytes(used);
    generate::lend(rng, file, records, file_more, journal_more)
}

fn edits_of_valid_files(tally: &mut Tally, rng: &mut Rng) {
    let file = some_draft(rng).render().bytes;
    for _ in 0..5 {
        let call = Call::Edit(generate::edit_call(rng, &file, [30, 30, 20]));
        let mut state = edit_state(rng, file.clone(), &call);
        if rng.chance(50) {
            state = generate::tighten(rng, &call, state);
        }
        if rng.chance(5) {
            generate::exceed(rng, &mut state);
        }
        check_call(tally, rng, &call, &state);
    }
}

fn edits_of_bad_files(tally: &mut Tally, rng: &mut Rng) {
    let file = match rng.below(10) {
        0..=4 => {
            let number = fault(rng);
            built_file(tally, rng, &[number])
        }
        5..=6 => {
            let numbers = two_faults(rng);
            built_file(tally, rng, &numbers)
        }
        7..=8 => damaged_file(rng),
        _ => generate::random_bytes(rng),
    };
    for shares in [Some([100, 0, 0]), Some([0, 100, 0]), Some([0, 0, 100]), Some([0, 0, 0]), None] {
        let call = match shares {
            Some(shares) => Call::Edit(generate::edit_call(rng, &file, shares)),
            None => Call::Undo,
        };
        let mut state = edit_state(rng, file.clone(), &call);
        match rng.below(20) {
            0 => generate::exceed(rng, &mut state),
            1 => state.length = rng.between(0, state.file.len()),
            _ => {}
        }
        check_call(tally, rng, &call, &state);
    }
}

fn undos(tally: &mut Tally, rng: &mut Rng) {
    let mut state = generate::undo_state(rng);
    if rng.chance(5) {
        generate::exceed(rng, &mut state);
    }
    check_call(tally, rng, &Call::Undo, &state);
}

fn blanks(tally: &mut Tally, rng: &mut Rng) {
    let size = rng.between(0, 60);
    let buffer = rng.bytes(size);
    let mut lent = Lent::new(&buffer, rng.below(16));
    let (expected, after) = reference::blank(&buffer);
    let found = archive::blank(&mut lent);
    tally.count_call("blank", expected.refusal);
    let call = format!("blorb_blank size={size} file={}", hex(&buffer));
    if found != expected {
        tally.fail(&call, &format!("expected {expected:?}\nfound    {found:?}"));
    }
    if let Some(complaint) = lent.complaint("file buffer", &after) {
        tally.fail(&call, &complaint);
    }
}

// ---- Whole runs ----------------------------------------------------------------------------------------------------

/// How likely the next call is an undo: always little, always much, or in turns.
fn undo_chance(style: usize, step: usize) -> usize {
    match style {
        0 => 8,
        1 => 35,
        2 => 60,
        _ if step / 40 % 2 == 0 => 5,
        _ => 92,
    }
}

fn start_of_run(rng: &mut Rng) -> State {
    let file = match rng.below(5) {
        0 => reference::blank_file(),
        _ => {
            let count = rng.between(0, 12);
            generate::valid(rng, count).render().bytes
        }
    };
    let file_more = match rng.below(4) {
        0 => rng.below(60),
        1 | 2 => rng.between(60, 500),
        _ => 6000,
    };
    let journal_more = match rng.below(4) {
        0 => rng.below(100),
        1 | 2 => rng.between(100, 800),
        _ => 8000,
    };
    let (file_more, journal_more) = (generate::room(rng, file_more), generate::room(rng, journal_more));
    generate::lend(rng, file, Vec::new(), file_more, journal_more)
}

/// A run in the same two buffers from an accepted file and an empty journal, with the ledger beside it.
pub fn check_run(
    tally: &mut Tally,
    rng: &mut Rng,
    start: State,
    calls: usize,
    next: impl Fn(&mut Rng, &State, usize) -> Call,
) {
    let mut state = start;
    let mut ledger = Ledger::new(&state.file[..state.length], state.profile, state.file.len(), state.journal.len());
    let row = if state.profile == ADRIFT { "ledger ADRIFT" } else { "ledger" };
    let mut lengths = two_editors::Lengths::new(&state);
    let mut buffers = Buffers::new(&state, rng.below(16));
    for step in 0..calls {
        two_editors::check(tally, rng, &state);
        let call = next(rng, &state, step);
        let (answer, after) = check_call_on(tally, &mut buffers, &call, &state);
        tally.count(row, answer.refusal);
        let complaint = against_ledger(&mut ledger, &call, answer, &after);
        if let Some(complaint) = complaint.or_else(|| lengths.check(tally, &call, &state, answer)) {
            tally.fail(&describe(&call, &state), &format!("call {step} of the run: {complaint}"));
        }
        state = after;
    }
}

fn call_of_run(rng: &mut Rng, state: &State, style: usize, step: usize) -> Call {
    let undo = if state.used == 0 { 4 } else { undo_chance(style, step) };
    match rng.chance(undo) {
        true => Call::Undo,
        false => Call::Edit(generate::edit_call(rng, &state.file[..state.length], [36, 22, 20])),
    }
}

/// First calls of a run; the buffers become just large enough for them, or up to two bytes too small.
fn first_calls(rng: &mut Rng, start: &mut State, style: usize) -> Vec<Call> {
    let (mut calls, mut state) = (Vec::new(), start.clone());
    let (mut length, mut used) = (state.length, state.used);
    for step in 0..rng.between(1, 20) {
        let call = call_of_run(rng, &state, style, step);
        state = reference::call(&call, &state).1;
        (length, used) = (length.max(state.length), used.max(state.used));
        calls.push(call);
    }
    if rng.chance(70) {
        start.file.truncate((length - rng.pick(&[0, 0, 1, 2])).max(start.length));
    }
    if rng.chance(40) {
        start.journal.truncate(used.saturating_sub(rng.pick(&[0, 0, 1, 2])));
    }
    calls
}

fn runs(tally: &mut Tally, rng: &mut Rng) {
    let mut start = start_of_run(rng);
    let style = rng.below(4);
    let calls = rng.between(50, 200);
    let first = if rng.chance(15) { first_calls(rng, &mut start, style) } else { Vec::new() };
    check_run(tally, rng, start, calls, |rng, state, step| match first.get(step) {
        Some(call) => call.clone(),
        None => call_of_run(rng, state, style, step),
    });
}

/// The ledger's answer, lengths, file and records against those of the run. Answer and buffers were found to be the library's.
fn against_ledger(ledger: &mut Ledger, call: &Call, answer: Answer, after: &State) -> Option<String> {
    let expected = ledger.call(call);
    if answer != expected {
        return Some(format!("ledger {expected:?}\nfound  {answer:?}"));
    }
    let (length, used) = (answer.length as usize, answer.used as usize);
    first_difference("file of the ledger", &ledger.file(), &after.file[..length])
        .or_else(|| first_difference("records of the ledger", ledger.records(), &after.journal[..used]))
}

// ---- The table -----------------------------------------------------------------------------------------------------

/// Each row with the numbers that must be seen in it; no others may be. 0 is a call carried out or an accepted file.
fn rows() -> Vec<(&'static str, Vec<u64>)> {
    let file: Vec<u64> = (0..=19).chain(27..=29).collect();
    let with = |more: &[u64]| [&file, more].concat();
    let in_runs = vec![0, 22, 23, 24, 25, 26, 30, 101, 109, 111, 112, 114, 115, 116, 119];
    // A call that takes a profile: its numbers, 52 among them, and behind 52 all the others.
    let taking = |rows: [&'static str; 2], more: &[u64]| [(rows[0], with(&[more, &[52]].concat())), (rows[1], with(more))];
    let calls = [
        taking(["read", "read 52"], &[]),
        taking(["entry", "entry 52"], &[22]),
        taking(["lookup", "lookup 52"], &[22]),
        taking(["table_build", "table_build 52"], &[34]),
        taking(["table_check", "table_check 52"], &[35]),
        taking(["columns_check", "columns_check 52"], &[35]),
        taking(["scaled", "scaled 52"], &[31, 32, 33]),
        taking(["text", "text 52"], &[22, 36, 37, 38, 39]),
        taking(["text_of", "text_of 52"], &[22, 36, 37, 38, 39]),
        taking(["add", "add 52"], &[20, 24, 25, 30, 101, 109, 111, 112, 114, 115, 116]),
        taking(["replace", "replace 52"], &[20, 22, 23, 24, 25, 30, 101, 109, 114, 119]),
        taking(["remove", "remove 52"], &[20, 22, 25, 119]),
        taking(["link", "link 52"], &[20, 22, 24, 25, 101, 111, 112, 114, 115, 116]),
        taking(["undo", "undo 52"], &[20, 21, 24, 26]),
    ];
    let others = vec![
        ("table_search", vec![0, 22]),
        ("table_to_columns", vec![0, 34]),
        ("table_to_rows", vec![0, 34]),
        ("columns_search", vec![0, 22]),
        ("blank", vec![0, 24]),
        ("forms_list", vec![0, 1, 41, 42, 43, 44, 45]),
        ("forms_pick", vec![0, 1, 22, 41, 42, 43, 44]),
        ("forms built", vec![0, 41, 42, 43, 44]),
        ("forms damaged", vec![0, 41, 42, 43, 44]),
        // 10 j + k where 40 + j decided and 40 + k held at the same place; and the depth of the deepest FORM, 0 for none.
        ("forms behind", vec![12, 13, 14, 23, 24, 34]),
        ("forms deepest", (0..=16).collect()),
        ("aiff_length", vec![0, 49, 50, 51]),
        // Sounds by their faults: 1 of the form, 2 of 'COMM', 4 of the rate, and sums of these; and what adding them as resources was answered.
        ("aiff faults", (0..8).collect()),
        ("aiff damaged", vec![0, 49, 50, 51]),
        ("aiff resource", vec![0, 30, 114]),
        // Both parities of what a lookup of a 'FORM' gives; then 30 with its neighbours, those before it and those behind it.
        ("lookup FORM", vec![0, 1]),
        ("add wrong head", vec![20, 30, 52]),
        ("replace wrong head", vec![20, 22, 23, 30, 52]),
        ("add 30", vec![0, 24, 25, 101, 111, 112, 114, 116]),
        ("replace 30", vec![0, 24, 25, 101, 114]),
        ("ADRIFT as plain", vec![0, 14]),
        ("add as plain", vec![0, 14, 114]),
        ("replace as plain", vec![0, 14, 114]),
        ("remove as plain", vec![0, 14]),
        ("link as plain", vec![0, 14]),
        ("undo as plain", vec![0, 14, 21]),
        ("built", file.clone()),
        ("pairs", generate::ORDER.into_iter().filter(|&number| generate::next_in_order(number).is_some()).collect()),
        ("ledger", in_runs.clone()),
        ("ledger ADRIFT", in_runs),
        ("undone", vec![1, 2, 3, 4, 5]),
        // 116 of a link: 1 where the later of the two is the old entry.
        ("link 116", vec![0, 1]),
        ("length after", vec![0, 1, 2, 3, 4, 5]),
        ("either order", vec![1, 2, 3, 4, 5]),
        ("later wins", vec![2]),
    ];
    calls.into_iter().flatten().chain(others).chain(scaling::rows()).chain(texts::rows()).collect()
}

/// Prints how often LARGE was seen. False where so many inputs must show it more often.
fn print_large(tally: &Tally, count: u64) -> bool {
    println!("calls on files of over {MANY} bytes (done: carried out, many and twice: over so many and twice as many moved,");
    println!("whole: whole parts of {PART} moved, copied: data of over {MANY}, in any file, no room: refused with 24 or 25):");
    let mut good = true;
    for row in ["add", "replace", "remove", "link", "undo"] {
        let seen = tally.large.get(row).copied().unwrap_or_default();
        let list: Vec<String> = LARGE.iter().zip(seen).map(|((name, _), seen)| format!("{name}:{seen}")).collect();
        println!("  {row:7} {}", list.join(" "));
        for ((name, least), seen) in LARGE.iter().zip(seen) {
            // A link copies no data.
            let least = if (row, *name) == ("link", "copied") { 0 } else { least * count / DEFAULT_COUNT };
            if count >= ENOUGH && seen < least {
                println!("compare: {row} has {name}:{seen}, which must be {least} at least");
                good = false;
            }
        }
    }
    good
}

/// Prints the table. False where a number was seen that cannot be, or (if asked) one that must be was not.
fn print_table(tally: &Tally, complete: bool) -> bool {
    println!("how often each number was seen (built: refusals by construction, pairs: k with the next in order in one file,");
    println!("ledger: answers in runs, undone: kinds of records; 52 and 30: what 52 and 30 came before; as plain: of what was good under");
    println!("ADRIFT; lookup FORM: whole chunks of even and odd length; wrong head: answers to data of type 'FORM' with a wrong head;");
    println!("link 116: 0 where the new entry is the later one, 1 where the old one is; length after: sums of a run's changes behind an edit of");
    println!("this kind, 0 behind an undo; either order, later wins: a replacement and an edit of this kind, all four calls carried out;");
    println!("aiff faults: sums of 1 for the form, 2 for 'COMM', 4 for the rate; aiff damaged: answers to these sounds damaged; aiff resource:");
    println!("answers to adding them; forms built: by construction; forms behind: 10 j + k where 40 + j decided and 40 + k held at the same place;");
    println!("forms deepest: depth of the deepest FORM, 0 for none):");
    println!("scaled how: 0 neither limit, 1 raised, 2 lowered, 9 not listed; scaled 33: by its reasons in 02's order; scaled 31 and 32: what stood behind;");
    println!("text_of 22: the sum of 1 for a text and 2 for an entry of the index; text 37 to 39: what stood behind; text read back: 1 by pair too):");
    let mut good = true;
    for (row, numbers) in rows() {
        let seen: BTreeMap<u64, u64> =
            tally.table.range((row, 0)..=(row, u64::MAX)).map(|((_, number), count)| (*number, *count)).collect();
        let list: Vec<String> = seen.iter().map(|(number, count)| format!("{number}:{count}")).collect();
        println!("  {row:16} {}", list.join(" "));
        for number in numbers.iter().filter(|number| complete && !seen.contains_key(number)) {
            println!("compare: {row} never gave {number}");
            good = false;
        }
        for number in seen.keys().filter(|number| !numbers.contains(number)) {
            println!("compare: {row} gave {number}, which cannot be");
            good = false;
        }
    }
    good
}

// ---- The program ---------------------------------------------------------------------------------------------------

/// The family's number for the i-th case.
fn family_of(i: u64) -> u64 {
    let mut left = i as usize % SHARES;
    for (family, (share, _)) in FAMILIES.iter().enumerate() {
        if left < *share {
            return family as u64;
        }
        left -= share;
    }
    unreachable!("the shares make all")
}

fn run_case(tally: &mut Tally, case: u64) {
    tally.case = case;
    fence::CASE.store(case, Ordering::Relaxed);
    let mut rng = Rng::of_case(case);
    let family = (case & 0xFF) as usize;
    match FAMILIES.get(family) {
        Some((_, run)) => run(tally, &mut rng),
        None => large::run(tally, &mut rng, family),
    }
}

/// How far the run is, on standard error: in one line of a terminal twice a second, elsewhere in a line for each tenth.
struct Progress {
    total: u64,
    begun: Instant,
    next: Duration,
    terminal: bool,
}

impl Progress {
    fn new(total: u64) -> Progress {
        Progress { total, begun: Instant::now(), next: Duration::ZERO, terminal: stderr().is_terminal() }
    }

    fn show(&mut self, inputs: u64, calls: u64) {
        let (total, passed) = (self.total, self.begun.elapsed());
        let text = || format!("compare: {inputs} of {total} inputs, {calls} calls, {} s", passed.as_secs());
        if !self.terminal {
            if inputs * 10 / total > (inputs - 1) * 10 / total {
                eprintln!("{}", text());
            }
        } else if inputs == total {
            eprint!("\r\x1b[K");
        } else if passed >= self.next {
            eprint!("\r{}\x1b[K", text());
            self.next = passed + Duration::from_millis(500);
        }
    }
}

struct Options {
    seed: u64,
    count: u64,
    case: Option<u64>,
}

fn parse_number(text: &str) -> Option<u64> {
    match text.strip_prefix("0x") {
        Some(digits) => u64::from_str_radix(digits, 16).ok(),
        None => text.parse().ok(),
    }
}

fn options() -> Option<Options> {
    let mut options = Options { seed: DEFAULT_SEED, count: DEFAULT_COUNT, case: None };
    let mut arguments = std::env::args().skip(1);
    while let Some(name) = arguments.next() {
        let value = parse_number(&arguments.next()?)?;
        match name.as_str() {
            "--seed" => options.seed = value,
            "--count" => options.count = value,
            "--case" => options.case = Some(value),
            _ => return None,
        }
    }
    Some(options)
}

fn main() {
    let Some(options) = options() else {
        println!("usage: compare [--seed N] [--count M] [--case C]");
        exit(2);
    };
    fence::report_faults();
    panic::set_hook(Box::new(|panic| {
        println!("compare: DIFFERENCE, case {:#x} ended with {panic}", fence::CASE.load(Ordering::Relaxed));
        exit(1);
    }));
    let mut tally = Tally { case: 0, calls: 0, table: BTreeMap::new(), large: BTreeMap::new() };
    if let Some(case) = options.case {
        run_case(&mut tally, case);
        println!("compare: case {case:#x} shows no difference");
        return;
    }
    println!("compare: archive of version {}, seed {} count {}", archive::version(), options.seed, options.count);
    let mut rng = Rng::new(options.seed);
    let mut progress = Progress::new(options.count);
    for i in 0..options.count {
        run_case(&mut tally, rng.next() & !0xFF | family_of(i));
        progress.show(i + 1, tally.calls);
    }
    for family in large::FAMILIES {
        run_case(&mut tally, rng.next() & !0xFF | family as u64);
    }
    println!("compare: {} inputs, {} calls", options.count + large::FAMILIES.len() as u64, tally.calls);
    let table = print_table(&tally, options.count >= ENOUGH);
    let large = print_large(&tally, options.count);
    if !(table && large) {
        exit(1);
    }
    println!("compare: ok");
}
