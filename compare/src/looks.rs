//! How often each answer of the calls that change nothing came up, by a file and the lines that
//! `looks` prints for it.

use crate::bands;
use crate::counts::{Counts, Rules, Seen};
use crate::records::{fault, walk, AUCTION, BANDS, LOOKED_AT};
use std::collections::BTreeSet;

/// Phases, answers, outcomes, how long a queue or a front is, and how a file ends. Of K6: the kind of
/// the start, and one that ends the walk.
pub const RULES: &Rules = &[
    ("phase", &["fresh", "pre-opening", "day", "closed"]),
    ("theoretical", &["0", "1", "2", "4"]),
    ("opening, outcome", &["1", "2", "3", "4", "1 where 4 was"]),
    ("closing, outcome", &["1", "2"]),
    ("ranked", &["0", "1", "2"]),
    ("queue", &["empty", "of 1 to 99", "of 100 to 511", "of 512", "not in number order"]),
    ("queue", &["with a quote side"]),
    ("short", &["1", "2", "12"]),
    ("front", &["whole", "cut short", "empty", "of no list", "refused"]),
    ("front, 2^64 - 1", &["whole", "cut short", "of no list", "refused"]),
    ("long", &["0 511", "1 0"]),
    ("walk, up to", &["the end", "unknown kind", "wrong length", "cut record", "cut header"]),
    ("faulty auction", &["wrong length", "cut record"]),
    ("file", &["below the bound", "up to it", "cut between records", "cut in a record"]),
    ("started by", &["kind 1", "kind 6"]),
    ("kind 6, fault", &["its length", "cut"]),
];

/// What lines tell to those behind them.
#[derive(Default)]
struct Told<'a> {
    /// The last theoretical answer to an opening, with its outcome, price and quantity.
    opening: [&'a str; 4],
    /// How many buys and how many sells rest: the closing's queues.
    resting: [usize; 2],
    /// The numbers of quote sides, by the session's lines.
    sides: BTreeSet<String>,
}

/// Counts what came up in a file, by the lines printed for it.
pub fn count(counts: &mut Counts, seen: &Seen) {
    let (lines, mut told) = (String::from_utf8_lossy(seen.printed), Told::default());
    let file = seen.file.get(..LOOKED_AT).unwrap_or(seen.file);
    let (records, _) = walk(file);
    for line in String::from_utf8_lossy(&(seen.session)(file)).lines() {
        match line.split(' ').collect::<Vec<_>>()[..] {
            [_, "quote", "0", bid, ask] => told.sides.extend([bid.to_string(), ask.to_string()]),
            [place, "start", "0"] => {
                let start = place.parse::<usize>().ok().and_then(|place| records.get(place - 1));
                let bands = start.is_some_and(|start| start.kind == BANDS);
                counts.add("started by", if bands { "kind 6" } else { "kind 1" });
            }
            _ => {}
        }
    }
    for line in lines.lines() {
        let words: Vec<&str> = line.split(' ').collect();
        match words[..] {
            ["look", _] => {}
            ["theoretical", auction, answer, outcome, price, quantity, _] => {
                counts.add("theoretical", answer);
                match auction {
                    "1" => told.opening([answer, outcome, price, quantity], counts),
                    "2" => told.closing(answer, outcome, counts),
                    _ => {}
                }
            }
            ["ranked", side, auction, answer, _, ref numbers @ ..] => {
                counts.add("ranked", answer);
                if answer == "0" {
                    told.queue(side, auction, numbers, counts);
                }
            }
            ["short", _, answer, _] => counts.add("short", answer),
            ["front", side, total, answer, length, _] => {
                let large = total == u64::MAX.to_string();
                let rule = if answer == "0" { told.front(side, length) } else { "refused" };
                counts.add(if large { "front, 2^64 - 1" } else { "front" }, rule);
            }
            ["long", answer, length] => counts.add("long", &format!("{answer} {length}")),
            ["end", _] => ended(seen.file, counts),
            _ => counts.add("line", line),
        }
    }
}

impl<'a> Told<'a> {
    fn opening(&mut self, words: [&'a str; 4], counts: &mut Counts) {
        let [answer, outcome, price, quantity] = words;
        if answer == "0" {
            counts.add("opening, outcome", outcome);
        }
        // The delay was foreseen, and has been given since.
        if outcome == "1" && self.opening == ["0", "4", price, quantity] {
            counts.add("opening, outcome", "1 where 4 was");
        }
        self.opening = words;
    }

    fn closing(&self, answer: &str, outcome: &str, counts: &mut Counts) {
        if answer == "0" {
            counts.add("closing, outcome", outcome);
        }
        // The phase, by the auction that it would allow.
        let phase = match [self.opening[0], answer] {
            ["2", "2"] => "fresh",
            ["0", "4"] => "pre-opening",
            ["4", "0"] => "day",
            ["4", "4"] => "closed",
            _ => "none",
        };
        counts.add("phase", phase);
    }

    fn queue(&mut self, side: &str, auction: &str, numbers: &[&str], counts: &mut Counts) {
        let rule = match numbers.len() {
            0 => "empty",
            1..=99 => "of 1 to 99",
            100..=511 => "of 100 to 511",
            _ => "of 512",
        };
        counts.add("queue", rule);
        if !numbers.is_sorted_by_key(|number| number.parse::<u64>().ok()) {
            counts.add("queue", "not in number order");
        }
        if numbers.iter().any(|number| self.sides.contains(*number)) {
            counts.add("queue", "with a quote side");
        }
        if auction == "2" {
            self.resting[usize::from(side == "2")] = numbers.len();
        }
    }

    fn front(&self, side: &str, length: &str) -> &'static str {
        let list = self.resting[usize::from(side == "2")];
        match length.parse() {
            _ if list == 0 => "of no list",
            Ok(0) => "empty",
            Ok(length) if length < list => "cut short",
            _ => "whole",
        }
    }
}

/// Where the walk ends, and how the file meets the bound of what `looks` takes of it.
fn ended(file: &[u8], counts: &mut Counts) {
    let (_, rest) = walk(file.get(..LOOKED_AT).unwrap_or(file));
    let end = fault(rest).filter(|_| !rest.is_empty()).unwrap_or("the end");
    counts.add("walk, up to", end);
    if let Some(how) = bands::length_or_cut(rest) {
        counts.add("kind 6, fault", how);
    }
    // Such a one has no look of its own.
    if rest.get(2..4) == Some(&[AUCTION as u8, 0]) {
        counts.add("faulty auction", end);
    }
    let bound = match file.len() {
        length if length < LOOKED_AT => "below the bound",
        LOOKED_AT => "up to it",
        _ if rest.is_empty() => "cut between records",
        _ => "cut in a record",
    };
    counts.add("file", bound);
}
