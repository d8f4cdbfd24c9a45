//! How often each rule of the square (K5) came up, by a file and the lines that `clearing` prints for
//! it. What is owed is added up here again from the trades, to be held to the lines behind the end.

use crate::bands;
use crate::counts::{Counts, Followed, Rules, Seen};
use crate::records::*;
use std::collections::{BTreeMap, BTreeSet};

/// How members come by a row; the answers while all rows are taken, to one that has none and to one
/// that has; where 16 was given, though a place or a row might be thought free; what cells hold; and
/// the lines behind the end. Of K6: the kind of the start, and one that ends the walk.
pub const RULES: &Rules = &[
    ("row", &["by an order", "by a quote", "after a refusal", "the last, others refused before"]),
    ("33rd's order", &["1", "4", "5", "6", "7", "8", "16"]),
    ("33rd's quote", &["1", "13", "4", "5", "6", "7", "8", "16"]),
    ("of 32, entered", &["an order", "a quote"]),
    ("16", &["in a full book", "after an only order's deletion"]),
    ("cell", &["of two members", "of one with itself", "by two auctions", "with a quote's side"]),
    ("owes lines", &["none", "1 to 20", "more than 20", "not by member number"]),
    ("total", &["0", "above 0", "0 after a fault", "above 0 after a fault"]),
    ("started by", &["kind 1", "kind 6"]),
    ("kind 6, fault", &["its length", "cut"]),
];

/// A member that was entered, how many numbers it got, and how many of these it deleted.
struct Row {
    member: u64,
    given: usize,
    deleted: usize,
}

#[derive(Default)]
struct Cell {
    quantity: u64,
    /// The auctions that added to it.
    auctions: BTreeSet<usize>,
}

#[derive(Default)]
struct Square {
    rows: Vec<Row>,
    /// By the rows of buyer and seller.
    cells: BTreeMap<[usize; 2], Cell>,
    /// Those whose entries were refused and that have no row.
    refused: BTreeSet<u64>,
    auctions: usize,
    followed: Followed,
}

/// Counts what came up in a file, by the lines printed for it.
pub fn count(counts: &mut Counts, seen: &Seen) {
    let (printed, (records, rest)) = (String::from_utf8_lossy(seen.printed), walk(seen.file));
    let (mut lines, mut records) = (printed.lines(), records.iter());
    let (mut square, mut after) = (Square::default(), "");
    // What comes up in any session is counted with the sessions.
    let mut others = Counts::default();
    for line in lines.by_ref() {
        let words: Vec<&str> = line.split(' ').collect();
        let number = |at: usize| words.get(at).map_or(0, |word| word.parse().unwrap_or(0));
        match words[..] {
            ["end", _] => break,
            ["trade", ..] => {
                square.trade([number(1), number(2)], number(3), counts);
                square.followed.trade([number(1), number(2)], number(3), &mut others);
            }
            [_, "fault", _] => {
                after = " after a fault";
                if let Some(how) = bands::length_or_cut(rest) {
                    counts.add("kind 6, fault", how);
                }
            }
            [_, _, answer, ..] => {
                if let Some(record) = records.next() {
                    square.answered(record, answer, counts);
                    let told = [number(3), number(4)];
                    square.followed.answered(record, answer, told, &mut others);
                }
            }
            _ => counts.add("line", line),
        }
    }
    if !lines.eq(square.lines(after, counts)) {
        counts.add("owes lines", "not the trades added up");
    }
}

impl Square {
    fn row(&self, member: u64) -> Option<usize> {
        self.rows.iter().position(|row| row.member == member)
    }

    /// A record with its answer, before what it changes is followed.
    fn answered(&mut self, record: &Record, answer: &str, counts: &mut Counts) {
        match (record.kind, answer) {
            (ORDER | QUOTE, _) => self.entry(record, answer, counts),
            (DELETE, "0") => {
                if let Some(row) = self.row(record.values[1]) {
                    self.rows[row].deleted += 1;
                }
            }
            (AUCTION, "0") => self.auctions += 1,
            (START, "0") => counts.add("started by", "kind 1"),
            (BANDS, "0") => counts.add("started by", "kind 6"),
            _ => {}
        }
    }

    fn entry(&mut self, record: &Record, answer: &str, counts: &mut Counts) {
        let (member, quoted) = (record.values[0], record.kind == QUOTE);
        let full = self.rows.len() == ROWS;
        match (self.row(member), answer) {
            (None, _) if full => {
                counts.add(if quoted { "33rd's quote" } else { "33rd's order" }, answer);
            }
            (_, "16") => counts.add("16", "with a row for it"),
            (Some(_), "0") if full => {
                counts.add("of 32, entered", if quoted { "a quote" } else { "an order" });
            }
            (None, "0") => self.entered(member, quoted, counts),
            (None, _) => drop(self.refused.insert(member)),
            _ => {}
        }
        if let (Some(row), "0") = (self.row(member), answer) {
            self.rows[row].given += if quoted { 2 } else { 1 };
        }
        if answer == "16" && self.followed.resting.len() as u64 == PLACES {
            counts.add("16", "in a full book");
        }
        if answer == "16" && self.rows.iter().any(|row| (row.given, row.deleted) == (1, 1)) {
            counts.add("16", "after an only order's deletion");
        }
    }

    fn entered(&mut self, member: u64, quoted: bool, counts: &mut Counts) {
        counts.add("row", if quoted { "by a quote" } else { "by an order" });
        if self.refused.remove(&member) {
            counts.add("row", "after a refusal");
        }
        self.rows.push(Row { member, given: 0, deleted: 0 });
        if self.rows.len() == ROWS && !self.refused.is_empty() {
            counts.add("row", "the last, others refused before");
        }
    }

    fn trade(&mut self, numbers: [u64; 2], quantity: u64, counts: &mut Counts) {
        let sides = numbers.map(|number| self.followed.before.get(&number));
        let [Some(buy), Some(sell)] = sides else { return };
        let [Some(buyer), Some(seller)] = [buy, sell].map(|side| self.row(side.member)) else {
            return;
        };
        let apart = if buyer == seller { "of one with itself" } else { "of two members" };
        counts.add("cell", apart);
        if buy.quoted || sell.quoted {
            counts.add("cell", "with a quote's side");
        }
        let cell = self.cells.entry([buyer, seller]).or_default();
        cell.quantity += quantity;
        cell.auctions.insert(self.auctions);
    }

    /// The lines that the trades come to.
    fn lines(&self, after: &str, counts: &mut Counts) -> Vec<String> {
        let member = |row: usize| self.rows[row].member;
        let owes = |([buyer, seller], cell): (&[usize; 2], &Cell)| {
            format!("owes {} {} {}", member(*buyer), member(*seller), cell.quantity)
        };
        let mut lines: Vec<String> = self.cells.iter().map(owes).collect();
        let rule = match lines.len() {
            0 => "none",
            1..=20 => "1 to 20",
            _ => "more than 20",
        };
        counts.add("owes lines", rule);
        if !self.cells.keys().map(|cell| cell.map(member)).is_sorted() {
            counts.add("owes lines", "not by member number");
        }
        for _ in self.cells.values().filter(|cell| cell.auctions.len() > 1) {
            counts.add("cell", "by two auctions");
        }
        let total: u64 = self.cells.values().map(|cell| cell.quantity).sum();
        let rule = if total > 0 { "above 0" } else { "0" };
        counts.add("total", &format!("{rule}{after}"));
        lines.push(format!("total {total}"));
        lines
    }
}
