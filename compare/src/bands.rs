//! K6: price steps by band, read here once more: the row of a price, what is wrong with a start by
//! kind 6, and how one ends the walk.

use crate::records::*;

/// The row in which a price falls: the last one that doesn't begin above it.
pub fn row(rows: &[Row], price: u64) -> usize {
    rows.iter().rposition(|[low, _]| *low <= price).unwrap_or(0)
}

/// Whether a price is a multiple of a row's step, if there is such a row.
pub fn fits(rows: &[Row], row: usize, price: u64) -> bool {
    rows.get(row).is_some_and(|[_, step]| price.is_multiple_of(*step))
}

/// Whether a limit is no multiple of its row's step; an unlimited one has no row.
pub fn off_step(rows: &[Row], limit: u64) -> bool {
    limit != UNLIMITED && !fits(rows, row(rows, limit), limit)
}

/// What a start is answered 1 for, of kind 6: the first that is wrong, the count before its rows.
pub fn wrong(start: &Record) -> Option<&'static str> {
    let (rows, [count, reference, factor, ..]) = (&start.rows, start.values);
    let outside = |value: u64, most: u64| value == 0 || value > most;
    let pairs = || rows.windows(2).map(|pair| (pair[0][0], pair[1][0]));
    let others = start.values.iter().zip(fields(BANDS)).skip(1);
    let found = [
        ("count 0", count == 0),
        ("count 9", count == TABLE_MAX + 1),
        ("count above 9", count > TABLE_MAX),
        ("not from 1", rows.first().is_some_and(|[low, _]| *low != 1)),
        ("low too high", rows.iter().any(|[low, _]| *low > PRICE_MAX)),
        ("equal lows", pairs().any(|(one, next)| one == next)),
        ("falling lows", pairs().any(|(one, next)| one > next)),
        ("step 0", rows.iter().any(|[_, step]| *step == 0)),
        ("step too high", rows.iter().any(|[_, step]| *step > STEP_MAX)),
        ("a field", others.into_iter().any(|(value, (_, most))| outside(*value, *most))),
        ("a field", factor < FACTOR.0),
    ];
    let found = found.into_iter().find(|(_, wrong)| *wrong).map(|(name, _)| name);
    found.or_else(|| off_reference(rows, reference))
}

/// The reference price of a good table, off its row's step.
fn off_reference(rows: &[Row], reference: u64) -> Option<&'static str> {
    match off_step(rows, reference) {
        true if fits(rows, 0, reference) => Some("reference on the first's step"),
        true => Some("reference off the step"),
        false => None,
    }
}

/// How a start by kind 6 ends the walk, if what stands there is one.
pub fn fault_by(rest: &[u8]) -> Option<&'static str> {
    if rest.get(2..4) != Some(&(BANDS as u16).to_le_bytes()) {
        return None;
    }
    let said = number(&rest[..2]) as usize;
    Some(match count_of(rest) {
        _ if said < COUNTED => "no room for a count",
        None => "cut in its count",
        Some(count) if said == length(BANDS, count) => cut_where(rest, count),
        Some(count) => of_what_length(said, count),
    })
}

fn cut_where(rest: &[u8], count: usize) -> &'static str {
    let behind_rows = COUNTED + length(BANDS, count) - length(BANDS, 0);
    match (1..=TABLE_MAX).contains(&(count as u64)) {
        false => "cut, and a bad count",
        true if rest.len() < behind_rows => "cut in its rows",
        true => "cut behind its rows",
    }
}

/// One that doesn't fit the count, but where a sum wraps at the two bytes of a length.
fn of_what_length(said: usize, count: usize) -> &'static str {
    match said {
        _ if said == length(BANDS, count) % 65_536 => "by a sum that wraps",
        _ if said == length(BANDS, count + 1) => "of a row more",
        _ if said == length(BANDS, count.saturating_sub(1)) => "of a row less",
        _ => "of no rows",
    }
}

/// The same in short: by its length, or since it is cut.
pub fn length_or_cut(rest: &[u8]) -> Option<&'static str> {
    fault_by(rest).map(|how| if how.starts_with("cut") { "cut" } else { "its length" })
}
