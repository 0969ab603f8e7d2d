//! Finding tables: building, and in both forms (rows and columns) checking, searching and turning, on every file that the other families
//! make, with slices that are right, stale, cut, longer, changed or out of order.

use crate::archive::{self, Lent};
use crate::generate::{self, Rng};
use crate::reference::{self, Form, Refusal, Row};
use crate::{hex, Read, Tally};

/// The slice's numbers as bytes in the machine's order, as it is lent.
pub fn lend(rng: &mut Rng, table: &[u32]) -> Lent {
    Lent::new(&in_memory(table), rng.pick(&[0, 4, 8]))
}

pub fn in_memory(table: &[u32]) -> Vec<u8> {
    table.iter().flat_map(|number| number.to_ne_bytes()).collect()
}

fn describe(call: &str, read: &Read, table: &[u32]) -> String {
    format!("blorb_{call} size={} profile={} file={}\n  table={table:?}", read.file.len(), read.profile, hex(read.file))
}

/// The rows of a file's table, under the profile that is asked and under the known one that the file was made for.
type Rows = [Result<Vec<Row>, Refusal>; 2];

/// Every call on this file.
pub fn check(tally: &mut Tally, rng: &mut Rng, lent_file: &mut Lent, read: &Read) {
    let rows = [reference::table_rows(&read.view), reference::table_rows(&read.known)];
    let right: Vec<u32> = rows[1].as_ref().map_or(Vec::new(), |rows| rows.concat());
    build(tally, rng, lent_file, read, &rows, right.len());
    for form in [Form::Rows, Form::Columns] {
        let right = rearranged(form, &right);
        let other = match rng.below(3) {
            0 => changed(rng, &right),
            _ => rearranged(form, &changed(rng, &reference::in_form(Form::Rows, &reference::whole_rows(form, &right)))),
        };
        for table in [right, other] {
            check_slice(tally, rng, lent_file, read, &rows, form, &table);
            searches(tally, rng, read.file, form, &table);
            turn(tally, rng, form, &table);
        }
    }
}

/// The whole rows of a slice in this form; a partial row stays behind them.
fn rearranged(form: Form, table: &[u32]) -> Vec<u32> {
    let rows = reference::whole_rows(Form::Rows, table);
    [&reference::in_form(form, &rows), &table[3 * rows.len()..]].concat()
}

/// A slice with just enough room for so many numbers, up to three too few, room to spare, or any size up to a little more. It holds any numbers.
pub fn slice_for(rng: &mut Rng, size: usize) -> Vec<u32> {
    let size = match rng.below(4) {
        0 => size,
        1 => size.saturating_sub(rng.between(1, 3)),
        2 => size + rng.between(1, 40),
        _ => rng.below(size + 4),
    };
    (0..size).map(|_| rng.next() as u32).collect()
}

fn build(tally: &mut Tally, rng: &mut Rng, lent_file: &mut Lent, read: &Read, rows: &Rows, size: usize) {
    let before = slice_for(rng, size);
    let (expected, after) = reference::table_build(&rows[0], &before);
    let mut table = lend(rng, &before);
    let found = archive::table_build(lent_file, read.profile, &mut table, before.len());
    tally.count_under(["table_build", "table_build 52"], &expected, &reference::table_build(&rows[1], &before).0);
    if found != Ok(expected) {
        tally.fail(&describe("table_build", read, &before), &format!("expected {expected:?}\nfound    {found:?}"));
    }
    if let Some(complaint) = table.complaint("table", &in_memory(&after)) {
        tally.fail(&describe("table_build", read, &before), &complaint);
    }
}

fn check_slice(tally: &mut Tally, rng: &mut Rng, lent_file: &mut Lent, read: &Read, rows: &Rows, form: Form, table: &[u32]) {
    let names = if form == Form::Rows { ["table_check", "table_check 52"] } else { ["columns_check", "columns_check 52"] };
    let expected = reference::table_check(form, &rows[0], table);
    let mut lent = lend(rng, table);
    let found = archive::table_check(form, lent_file, read.profile, &mut lent, table.len());
    tally.count_under(names, &expected, &reference::table_check(form, &rows[1], table));
    if found != Ok(expected) {
        tally.fail(&describe(names[0], read, table), &format!("expected {expected:?}\nfound    {found:?}"));
    }
    if let Some(complaint) = lent.complaint("table", &in_memory(table)) {
        tally.fail(&describe(names[0], read, table), &complaint);
    }
}

/// Turned into the other form in a second slice; what is written there is turned back by a further call.
fn turn(tally: &mut Tally, rng: &mut Rng, form: Form, table: &[u32]) {
    let second = slice_for(rng, table.len() / 3 * 3);
    let Some(rows) = turn_into(tally, rng, form, table, &second) else { return };
    let other = if form == Form::Rows { Form::Columns } else { Form::Rows };
    let written = reference::table_turn(form, table, &second).1;
    let back = slice_for(rng, 3 * rows);
    turn_into(tally, rng, other, &written[..3 * rows], &back);
}

fn turn_into(tally: &mut Tally, rng: &mut Rng, form: Form, table: &[u32], second: &[u32]) -> Option<usize> {
    let call = if form == Form::Rows { "table_to_columns" } else { "table_to_rows" };
    let (expected, after) = reference::table_turn(form, table, second);
    let (mut lent, mut target) = (lend(rng, table), lend(rng, second));
    let found = archive::table_turn(form, &mut lent, table.len(), &mut target, second.len());
    tally.count_call(call, expected.map_or_else(|refusal| refusal.number, |_| 0));
    let describe = || format!("blorb_{call} table={table:?}\n  second={second:?}");
    if found != Ok(expected) {
        tally.fail(&describe(), &format!("expected {expected:?}\nfound    {found:?}"));
    }
    for complaint in [lent.complaint("table", &in_memory(table)), target.complaint("second slice", &in_memory(&after))].into_iter().flatten() {
        tally.fail(&describe(), &complaint);
    }
    expected.ok().map(|[rows]| rows as usize)
}

/// A table that is not the right one, mostly by a little.
fn changed(rng: &mut Rng, right: &[u32]) -> Vec<u32> {
    let (mut table, rows) = (right.to_vec(), right.len() / 3);
    match rng.below(9) {
        0 if rows > 0 => table.truncate(rng.below(table.len())),
        1 if rows > 0 => {
            let at = rng.below(table.len());
            table[at] ^= 1 << rng.below(32);
        }
        2 if rows > 0 => {
            let at = rng.below(table.len());
            table[at] = rng.next() as u32;
        }
        3 if rows > 1 => {
            let (i, j) = (rng.below(rows), rng.below(rows));
            (0..3).for_each(|k| table.swap(3 * i + k, 3 * j + k));
        }
        4 if rows > 0 => {
            let at = 3 * rng.below(rows);
            table.drain(at..at + 3);
        }
        5 if rows > 0 => {
            let at = 3 * rng.below(rows);
            let row = [table[at], table[at + 1], table[at + 2]];
            table.splice(at..at, row);
        }
        6 if rows > 0 => moved(rng, &mut table),
        7 => table = (0..rng.below(60)).map(|_| rng.next() as u32 >> rng.pick(&[0, 30])).collect(),
        _ => table.extend((0..rng.between(1, 4)).map(|_| rng.next() as u32)),
    }
    table
}

/// All starts from some row on by the same amount: the table of last year.
fn moved(rng: &mut Rng, table: &mut [u32]) {
    let (from, by) = (3 * rng.below(table.len() / 3), rng.pick(&[2, 8, 12, 20]));
    table[from..].iter_mut().skip(2).step_by(3).for_each(|start| *start = start.wrapping_add(by));
}

fn searches(tally: &mut Tally, rng: &mut Rng, file: &[u8], form: Form, table: &[u32]) {
    let call = if form == Form::Rows { "table_search" } else { "columns_search" };
    let mut lent = lend(rng, table);
    let rows = reference::whole_rows(form, table);
    for _ in 0..3 {
        let (usage, number) = match rng.below(3) {
            0 => generate::target(rng, file),
            _ if !rows.is_empty() => {
                let [usage, number, _] = rows[rng.below(rows.len())];
                (usage.to_be_bytes(), number.wrapping_add(rng.pick(&[0, 0, 0, 1, u32::MAX])))
            }
            _ => ((rng.next() as u32).to_be_bytes(), rng.next() as u32),
        };
        let expected = reference::table_search(form, table, &usage, number);
        let found = archive::table_search(form, &mut lent, table.len(), &usage, number);
        tally.count_call(call, expected.0.map_or_else(|refusal| refusal.number, |_| 0));
        if found != Ok(expected) {
            let call = format!("blorb_{call} usage=\"{}\" number={number}\n  table={table:?}", usage.escape_ascii());
            tally.fail(&call, &format!("expected {expected:?}\nfound    {found:?}"));
        }
    }
    if let Some(complaint) = lent.complaint("table", &in_memory(table)) {
        tally.fail(&format!("blorb_{call} table={table:?}"), &complaint);
    }
}
