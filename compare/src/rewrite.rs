//! How far each file was rewritten, by what `rewrite` prints for it and the lines of its session:
//! up to the first record that is faulty or answered 1, and byte for byte what the file has there.

use crate::bands;
use crate::counts::{Counts, Rules, Seen};
use crate::records::{fault, fields, walk, Record, BANDS, FACTOR, LOOKED_AT, QUOTE, START};

/// How a file came out, what cut it, and how it meets the bound of what `rewrite` takes of it. Of K6:
/// the rows of starts that came out, and what cut a file at one.
pub const RULES: &Rules = &[
    ("file", &["out whole", "cut at a fault", "cut at a field"]),
    ("fault", &["unknown kind", "wrong length", "cut record", "cut header"]),
    ("field", &["start", "order", "delete", "auction", "quote", "no multiple"]),
    ("out", &["nothing of some", "one record", "more records"]),
    ("quote out", &["bid below ask", "not below: 13"]),
    ("in", &["up to the bound", "cut between records", "cut in a record", "cut by one byte"]),
    ("kind 6 out", &["1 row", "2 to 7 rows", "8 rows"]),
    ("kind 6, field", &["count 0", "count above 8", "the table", "the reference", "another"]),
    ("kind 6, fault", &["its length", "cut"]),
];

/// Counts how far a file came out. Where the output is not those records, nothing else is counted.
pub fn count(counts: &mut Counts, seen: &Seen) {
    let file = seen.file.get(..LOOKED_AT).unwrap_or(seen.file);
    let (records, rest) = walk(file);
    let lines = String::from_utf8_lossy(&(seen.session)(file)).into_owned();
    let (written, stop) = stopped(&lines).unwrap_or((records.len(), "end"));
    let length = records.iter().take(written).map(Record::length).sum();
    if file.get(..length) != Some(seen.printed) {
        return counts.add("output", "not the file up to a fault or a field");
    }
    match stop {
        // Without a fault or an answer 1 it has to be the whole file.
        "end" if seen.printed != file => counts.add("output", "not the whole of a good file"),
        "end" => counts.add("file", "out whole"),
        "fault" => {
            counts.add("file", "cut at a fault");
            counts.add("fault", fault(rest).unwrap_or("none"));
            if let Some(how) = bands::length_or_cut(rest) {
                counts.add("kind 6, fault", how);
            }
        }
        word => {
            counts.add("file", "cut at a field");
            counts.add("field", word);
            if records.get(written).is_some_and(no_multiple) {
                counts.add("field", "no multiple");
            }
            if let Some(start) = records.get(written).filter(|record| record.kind == BANDS) {
                counts.add("kind 6, field", by_kind_6(start));
            }
        }
    }
    match written {
        0 if file.is_empty() => {}
        0 => counts.add("out", "nothing of some"),
        1 => counts.add("out", "one record"),
        _ => counts.add("out", "more records"),
    }
    for quote in records.iter().take(written).filter(|record| record.kind == QUOTE) {
        let below = quote.values[2] < quote.values[4];
        counts.add("quote out", if below { "bid below ask" } else { "not below: 13" });
    }
    for start in records.iter().take(written).filter(|record| record.kind == BANDS) {
        let rows = match start.rows.len() {
            1 => "1 row",
            2..=7 => "2 to 7 rows",
            8 => "8 rows",
            _ => "of a bad count",
        };
        counts.add("kind 6 out", rows);
    }
    let bound = match seen.file.get(..LOOKED_AT + 1).map(walk) {
        None => "up to the bound",
        Some(_) if rest.is_empty() => "cut between records",
        Some((_, [])) => "cut by one byte",
        Some(_) => "cut in a record",
    };
    counts.add("in", bound);
}

/// How many records stand before the first that is faulty or answered 1, and that one's word.
fn stopped(lines: &str) -> Option<(usize, &str)> {
    lines.lines().find_map(|line| match line.split(' ').collect::<Vec<_>>()[..] {
        ["trade", ..] => None,
        [place, word, "1", ..] => Some((place.parse::<usize>().ok()?.checked_sub(1)?, word)),
        _ => None,
    })
}

/// What is bad in a start by kind 6.
fn by_kind_6(start: &Record) -> &'static str {
    match bands::wrong(start) {
        Some("count 0") => "count 0",
        Some("count 9" | "count above 9") => "count above 8",
        Some("a field") => "another",
        Some(wrong) if wrong.starts_with("reference") => "the reference",
        Some(_) => "the table",
        None => "nothing",
    }
}

/// A start in which nothing else is bad than that the reference price is no multiple of the step.
fn no_multiple(record: &Record) -> bool {
    let ([step, reference, factor, ..], kind) = (record.values, record.kind);
    let good = |(value, field): (&u64, &(usize, u64))| (1..=field.1).contains(value);
    let others = factor >= FACTOR.0 && record.values.iter().zip(fields(kind)).all(good);
    kind == START && others && reference % step > 0
}
