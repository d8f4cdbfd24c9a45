//! How often each rule came up, by a file and the lines printed for it. Lines do not tell which rule
//! found a price: so the orders that rest are followed, and each auction is weighed here again.

use crate::bands;
use crate::records::*;
use std::cmp::min;
use std::collections::{BTreeMap, BTreeSet};

/// What has to come up, by word.
pub type Rules = [(&'static str, &'static [&'static str])];

/// A file, what the second program prints for it, and a way to its lines of a session.
pub struct Seen<'a> {
    pub file: &'a [u8],
    pub printed: &'a [u8],
    pub session: &'a dyn Fn(&[u8]) -> Vec<u8>,
}

/// Answers by word, outcomes, faults, and the rules of "The price". Refusal 12 cannot come up: the
/// programs lend every auction a list that is long enough.
/// Of K2: the side that a quote is refused for, and by an ask before a later check on the bid; what
/// a quote overwrites, and beside what; free places and sides left where there are just two for it,
/// or fewer; that the old quote stays; what becomes of sides, and who trades with whom.
/// Of K4: the answer by the controls, where the price in force would have given another; and that
/// the start's reference price would have closed at another price.
/// Of K6: starts by kind 6, the rows of those accepted and what others are refused for; limits at an
/// edge and about it, and those that another row's step would answer otherwise; auctions whose price
/// is in another row than the reference price in force; and how such a start ends the walk.
pub const RULES: &Rules = &[
    ("start", &["0", "1", "3"]),
    ("order", &["0", "1", "2", "4", "5", "6", "7", "8", "9", "10"]),
    ("delete", &["0", "1", "2", "11"]),
    ("auction", &["0", "1", "2", "4"]),
    ("quote", &["0", "1", "13", "2", "4", "5", "6", "7", "8", "9", "10"]),
    ("quote, by its", &["bid 5", "bid 6", "bid 7", "bid 8", "ask 5", "ask 6", "ask 7", "ask 8"]),
    ("ask before bid", &["5", "6", "7"]),
    (
        "quote over",
        &["none", "a whole one", "a side deleted", "a side executed", "a part of a side"],
    ),
    ("quote beside", &["plain orders", "another quote"]),
    ("free and left", &["0 2: 0", "1 1: 0", "2 0: 0", "0 0: 10", "0 1: 10", "1 0: 10"]),
    ("old one stays", &["1", "13", "5", "6", "7", "8", "10", "then deleted", "then traded"]),
    ("quote side", &["deleted", "overwritten: 11", "in the opening", "in the closing", "gone"]),
    ("trade of", &["two orders", "two quotes", "both", "both, of one member"]),
    ("order by start", &["0 not 6", "0 not 8", "6 not 0", "8 not 0"]),
    ("quote by start", &["0 not 6", "0 not 8", "6 not 0", "8 not 0"]),
    ("closing", &["not by start"]),
    ("opening, outcome", &["1", "2", "3", "4"]),
    ("closing, outcome", &["1", "2"]),
    ("fault", &["unknown kind", "wrong length", "cut record", "cut header"]),
    ("price by rule", &["1 alone", "2", "3 highest", "3 lowest", "4 all equal", "4 both exceed"]),
    ("start by kind 6", &["0", "1", "3"]),
    ("its rows", &["1", "2", "3 to 7", "8"]),
    ("1 by kind 6", &["count 0", "count 9", "count above 9", "not from 1", "low too high"]),
    ("1 by kind 6", &["equal lows", "falling lows", "step 0", "step too high", "a field"]),
    ("1 by kind 6", &["reference off the step", "reference on the first's step"]),
    ("order at edge", &["0", "5", "below: 0", "below: 5", "above: 0", "above: 5"]),
    ("quote at edge", &["0", "5", "below: 0", "below: 5", "above: 0", "above: 5"]),
    ("order by first", &["0 not 5", "5 not 0"]),
    ("quote by first", &["0 not 5", "5 not 0"]),
    ("order by next", &["below: 5 not 0", "above: 5 not 0"]),
    ("quote by next", &["below: 5 not 0", "above: 5 not 0"]),
    ("quote's sides", &["in one row", "in two rows"]),
    ("price by row", &["the reference's", "another", "another, off the reference's step"]),
    ("price by row", &["in force, not the start's"]),
    ("fault by kind 6", &["no room for a count", "of a row less", "of a row more", "of no rows"]),
    ("fault by kind 6", &["by a sum that wraps", "cut in its count", "cut in its rows"]),
    ("fault by kind 6", &["cut behind its rows", "cut, and a bad count"]),
];

/// An accepted order or quote side, by the fields of its record, with the quantity that is left.
#[derive(Clone, Copy)]
pub struct Resting {
    pub member: u64,
    side: u64,
    validity: u64,
    entered: u64,
    left: u64,
    limit: u64,
    pub quoted: bool,
}

/// The rule that decides among these orders taking part, and the price.
fn deciding(orders: &[&Resting], reference: u64) -> (&'static str, u64) {
    let limits = orders.iter().map(|order| order.limit).filter(|limit| *limit != UNLIMITED);
    let mut prices: Vec<u64> = limits.chain([reference]).collect();
    prices.sort_unstable();
    prices.dedup();
    let open = |side: u64, meets: &dyn Fn(u64) -> bool| -> u64 {
        let counts = |order: &&&Resting| {
            order.side == side && (order.limit == UNLIMITED || meets(order.limit))
        };
        orders.iter().filter(counts).map(|order| order.left).sum()
    };
    // Demand and supply at each candidate, in order of price.
    let weigh = |price| {
        let (demand, supply) =
            (open(BUY, &|limit| limit >= price), open(SELL, &|limit| limit <= price));
        (demand, supply, price)
    };
    let mut kept: Vec<(u64, u64, u64)> = prices.into_iter().map(weigh).collect();
    let highest = kept.iter().map(|at| min(at.0, at.1)).max();
    kept.retain(|at| Some(min(at.0, at.1)) == highest);
    let rule_1 = kept.len() == 1;
    let smallest = kept.iter().map(|at| at.0.abs_diff(at.1)).min();
    kept.retain(|at| Some(at.0.abs_diff(at.1)) == smallest);
    let nearest = kept.iter().map(|at| at.2).min_by_key(|price| price.abs_diff(reference));
    let price = |at: Option<&(u64, u64, u64)>| at.map_or(0, |at| at.2);
    match (kept.iter().any(|at| at.0 > at.1), kept.iter().any(|at| at.0 < at.1)) {
        _ if rule_1 => ("1 alone", price(kept.first())),
        _ if kept.len() == 1 => ("2", price(kept.first())),
        (true, false) => ("3 highest", price(kept.last())),
        (false, true) => ("3 lowest", price(kept.first())),
        (false, false) => ("4 all equal", nearest.unwrap_or(0)),
        (true, true) => ("4 both exceed", nearest.unwrap_or(0)),
    }
}

/// What a session's lines tell of it: the orders that rest, by number, the terms, and the reference
/// price in force.
#[derive(Default)]
pub struct Followed {
    pub resting: BTreeMap<u64, Resting>,
    terms: [u64; 5],
    /// K6: the table of steps; a start by kind 1 means one row.
    rows: Vec<Row>,
    reference: u64,
    /// Of the last auction: whether it was the opening, and what rested before it.
    opening: bool,
    pub before: BTreeMap<u64, Resting>,
    /// By member: how a side of the quote went, and whether another quote was refused since.
    gone: BTreeMap<u64, &'static str>,
    stays: BTreeSet<u64>,
    /// The numbers of overwritten sides, with their members.
    overwritten: BTreeMap<u64, u64>,
}

impl Followed {
    /// A record with its answer and the two numbers behind it.
    pub fn answered(&mut self, record: &Record, answer: &str, told: [u64; 2], counts: &mut Counts) {
        let [first, second, third, fourth, fifth] = record.values;
        match record.kind {
            ORDER => {
                self.by_start("order by start", &[(fourth, fifth)], answer, counts);
                self.by_row("order", &[fifth], answer, counts);
            }
            QUOTE => {
                let sides = [(second, third), (fourth, fifth)];
                self.by_start("quote by start", &sides, answer, counts);
                self.by_row("quote", &[third, fifth], answer, counts);
            }
            BANDS => by_kind_6(record, answer, counts),
            _ => {}
        }
        match (record.kind, answer) {
            (START | BANDS, "0") => {
                (self.terms, self.reference) = (record.values, second);
                self.rows = record.rows.clone();
                if record.kind == START {
                    self.rows = vec![[1, first]];
                }
            }
            (ORDER, "0") => {
                let (member, side, validity, limit) = (first, second, third, fifth);
                let (entered, left, quoted) = (fourth, fourth, false);
                let order = Resting { member, side, validity, entered, left, limit, quoted };
                self.resting.insert(told[0], order);
            }
            (DELETE, "0") => self.deleted(first, counts),
            (DELETE, "11") if self.overwritten.get(&first) == Some(&second) => {
                counts.add("quote side", "overwritten: 11");
            }
            (AUCTION, "0") => self.auction(first == OPENING, told, counts),
            (QUOTE, "0") => self.quoted(record.values, told, counts),
            (QUOTE, _) => self.quote_refused(record.values, answer, counts),
            _ => {}
        }
    }

    fn deleted(&mut self, number: u64, counts: &mut Counts) {
        let Some(side) = self.resting.remove(&number).filter(|order| order.quoted) else { return };
        counts.add("quote side", "deleted");
        self.gone.insert(side.member, "a side deleted");
        if self.stays.contains(&side.member) {
            counts.add("old one stays", "then deleted");
        }
    }

    /// The free places, and what is left of the member's quote.
    fn room(&self, member: u64) -> (usize, Vec<u64>) {
        let left = |(_, order): &(&u64, &Resting)| order.quoted && order.member == member;
        let old = self.resting.iter().filter(left).map(|(number, _)| *number);
        (PLACES as usize - self.resting.len(), old.collect())
    }

    fn quoted(&mut self, values: [u64; 5], numbers: [u64; 2], counts: &mut Counts) {
        let [member, bid_quantity, bid_limit, ask_quantity, ask_limit] = values;
        let (free, old) = self.room(member);
        if free + old.len() == 2 {
            counts.add("free and left", &format!("{free} {}: 0", old.len()));
        }
        let removed: Vec<Resting> = old.iter().flat_map(|n| self.resting.remove(n)).collect();
        let over = match self.gone.remove(&member) {
            _ if old.is_empty() => "none",
            _ if removed.iter().any(|side| side.left < side.entered) => "a part of a side",
            Some(how) => how,
            None => "a whole one",
        };
        counts.add("quote over", over);
        let beside = |meets: fn(&Resting, u64) -> bool| {
            !old.is_empty() && self.resting.values().any(|order| meets(order, member))
        };
        if beside(|order, member| !order.quoted && order.member == member) {
            counts.add("quote beside", "plain orders");
        }
        if beside(|order, _| order.quoted) {
            counts.add("quote beside", "another quote");
        }
        self.stays.remove(&member);
        self.overwritten.extend(old.iter().map(|number| (*number, member)));
        let sides = [(BUY, bid_quantity, bid_limit), (SELL, ask_quantity, ask_limit)];
        for (number, (side, entered, limit)) in numbers.into_iter().zip(sides) {
            let (validity, left, quoted) = (DAY, entered, true);
            let order = Resting { member, side, validity, entered, left, limit, quoted };
            self.resting.insert(number, order);
        }
    }

    fn quote_refused(&mut self, values: [u64; 5], answer: &str, counts: &mut Counts) {
        let [member, bid_quantity, bid_limit, ..] = values;
        let (free, old) = self.room(member);
        if answer == "10" {
            counts.add("free and left", &format!("{free} {}: 10", old.len()));
        }
        if !old.is_empty() {
            counts.add("old one stays", answer);
            self.stays.insert(member);
        }
        if ["5", "6", "7", "8"].contains(&answer) {
            let hits = self.controls(self.terms[1], bid_quantity, bid_limit);
            let side = if hits.contains(&answer) { "bid" } else { "ask" };
            counts.add("quote, by its", &format!("{side} {answer}"));
            // Of 5 to 8 the answer is the first hit: those of the bid come later.
            if side == "ask" && !hits.is_empty() {
                counts.add("ask before bid", answer);
            }
        }
    }

    /// Those of 5 to 8 that a quantity with a limit would meet, by a reference price.
    fn controls(&self, reference: u64, quantity: u64, limit: u64) -> Vec<&'static str> {
        let ([_, _, factor, _, maximum], limited) = (self.terms, limit != UNLIMITED);
        let collar = limit >= reference * factor || limit * factor <= reference;
        let met = [
            ("5", bands::off_step(&self.rows, limit)),
            ("6", limited && collar),
            ("7", limited && quantity * limit >= maximum),
            ("8", quantity * reference >= maximum),
        ];
        met.into_iter().filter(|(_, hit)| *hit).map(|(number, _)| number).collect()
    }

    /// K4: whether the controls would answer otherwise by the price in force.
    fn by_start(&self, word: &str, sides: &[(u64, u64)], answer: &str, counts: &mut Counts) {
        // With any other answer there may have been no start.
        if !["0", "6", "8"].contains(&answer) {
            return;
        }
        let met = |side: &(u64, u64)| self.controls(self.reference, side.0, side.1);
        let other = sides.iter().flat_map(met).min().unwrap_or("0");
        if let ("0", "6" | "8") | ("6" | "8", "0") = (answer, other) {
            counts.add(word, &format!("{answer} not {other}"));
        }
    }

    /// K6: the limits of an order or a quote by their rows, where it was taken or refused by 5.
    fn by_row(&self, word: &str, limits: &[u64], answer: &str, counts: &mut Counts) {
        let off = |limit: &u64| bands::off_step(&self.rows, *limit);
        match (answer, limits.iter().any(off)) {
            ("0", false) | ("5", true) => {}
            ("0", true) => return counts.add(word, "0 off its row's step"),
            ("5", false) => return counts.add(word, "5 on its row's step"),
            // There may have been no start.
            _ => return,
        }
        // The sides that the answer is about; and where there is one row, there is no edge.
        let about = limits.iter().filter(|limit| (answer == "5") == off(limit));
        for limit in about.filter(|limit| **limit != UNLIMITED && self.rows.len() > 1) {
            self.at_an_edge(&format!("{word} at edge"), *limit, answer, counts);
            self.by_another(word, *limit, answer, counts);
        }
        if let ([bid, ask], "0", 2..) = (limits, answer, self.rows.len()) {
            let same = bands::row(&self.rows, *bid) == bands::row(&self.rows, *ask);
            counts.add("quote's sides", if same { "in one row" } else { "in two rows" });
        }
    }

    fn at_an_edge(&self, word: &str, limit: u64, answer: &str, counts: &mut Counts) {
        for [low, _] in &self.rows[1..] {
            match limit.checked_sub(low - 1) {
                Some(0) => counts.add(word, &format!("below: {answer}")),
                Some(1) => counts.add(word, answer),
                Some(2) => counts.add(word, &format!("above: {answer}")),
                _ => {}
            }
        }
    }

    /// What the step of another row would have answered: of the first, and of those beside its own.
    fn by_another(&self, word: &str, limit: u64, answer: &str, counts: &mut Counts) {
        let own = bands::row(&self.rows, limit);
        let fits = |row: usize| bands::fits(&self.rows, row, limit);
        match answer {
            "0" if !fits(0) => counts.add(&format!("{word} by first"), "0 not 5"),
            "5" if own > 0 && fits(0) => counts.add(&format!("{word} by first"), "5 not 0"),
            _ => {}
        }
        if answer == "5" && own > 0 && fits(own - 1) {
            counts.add(&format!("{word} by next"), "below: 5 not 0");
        }
        if answer == "5" && fits(own + 1) {
            counts.add(&format!("{word} by next"), "above: 5 not 0");
        }
    }

    /// K6: the row of an auction's price, and of the reference price in force before it.
    fn price_by_row(&self, price: u64, counts: &mut Counts) {
        let (row, word) = (|price| bands::row(&self.rows, price), "price by row");
        let same = row(price) == row(self.reference);
        if bands::off_step(&self.rows, price) {
            counts.add(word, "off its step");
        }
        if self.rows.len() > 1 {
            counts.add(word, if same { "the reference's" } else { "another" });
        }
        if !same && !bands::fits(&self.rows, row(self.reference), price) {
            counts.add(word, "another, off the reference's step");
        }
        if price == self.reference && row(price) != row(self.terms[1]) {
            counts.add(word, "in force, not the start's");
        }
    }

    /// The trades come in the lines that follow: rests that are deleted are gone before them.
    fn auction(&mut self, opening: bool, [outcome, price]: [u64; 2], counts: &mut Counts) {
        let word = if opening { "opening, outcome" } else { "closing, outcome" };
        counts.add(word, &outcome.to_string());
        if price > 0 {
            let part = |order: &&Resting| !opening || order.validity != AT_THE_CLOSE;
            let orders: Vec<&Resting> = self.resting.values().filter(part).collect();
            let (rule, price) = deciding(&orders, self.reference);
            counts.add("price by rule", rule);
            if price != deciding(&orders, self.terms[1]).1 {
                counts.add("closing", "not by start");
            }
        }
        if outcome == 1 {
            self.price_by_row(price, counts);
            self.reference = price;
        }
        (self.opening, self.before) = (opening, self.resting.clone());
        if outcome <= 2 {
            let last = if opening { AT_THE_OPENING } else { DAY };
            self.resting.retain(|_, order| order.validity > last);
        }
        let sides = self.before.values().filter(|order| order.quoted).count();
        if sides > 0 && !opening && outcome == 2 {
            counts.add("quote side", "gone");
        }
    }

    pub fn trade(&mut self, numbers: [u64; 2], quantity: u64, counts: &mut Counts) {
        if let [Some(buy), Some(sell)] = numbers.map(|number| self.before.get(&number)) {
            let rule = match (buy.quoted, sell.quoted) {
                (true, true) => "two quotes",
                (false, false) => "two orders",
                _ if buy.member == sell.member => "both, of one member",
                _ => "both",
            };
            counts.add("trade of", rule);
            for side in [buy, sell].into_iter().filter(|order| order.quoted) {
                let rule = if self.opening { "in the opening" } else { "in the closing" };
                counts.add("quote side", rule);
                if self.stays.contains(&side.member) {
                    counts.add("old one stays", "then traded");
                }
            }
        }
        for number in numbers {
            self.executed(number, quantity);
        }
    }

    fn executed(&mut self, number: u64, quantity: u64) {
        let Some(order) = self.resting.get_mut(&number) else { return };
        order.left -= min(order.left, quantity);
        let Resting { left, member, quoted, .. } = *order;
        if left == 0 {
            self.resting.remove(&number);
        }
        if left == 0 && quoted {
            self.gone.insert(member, "a side executed");
        }
    }
}

/// K6: a start by kind 6, what it is refused for, and that it is just where something is wrong.
fn by_kind_6(start: &Record, answer: &str, counts: &mut Counts) {
    counts.add("start by kind 6", answer);
    match (answer, bands::wrong(start)) {
        ("1", Some(wrong)) => counts.add("1 by kind 6", wrong),
        ("1", None) => counts.add("1 by kind 6", "nothing wrong"),
        (_, Some(_)) => counts.add("start by kind 6", "not 1"),
        ("0", None) => {
            let rows = start.rows.len();
            let some = rows.to_string();
            counts.add("its rows", if (3..8).contains(&rows) { "3 to 7" } else { &some });
        }
        _ => {}
    }
}

#[derive(Default)]
pub struct Counts(BTreeMap<String, u64>);

impl Counts {
    pub fn add(&mut self, word: &str, rule: &str) {
        *self.0.entry(format!("{word} {rule}")).or_default() += 1;
    }

    pub fn join(&mut self, other: Counts) {
        for (rule, times) in other.0 {
            *self.0.entry(rule).or_default() += times;
        }
    }

    /// Counts what came up in a session file, by the lines printed for it.
    pub fn session(&mut self, seen: &Seen) {
        let (lines, (records, rest)) = (String::from_utf8_lossy(seen.printed), walk(seen.file));
        let (mut records, mut followed) = (records.iter(), Followed::default());
        for line in lines.lines() {
            let words: Vec<&str> = line.split(' ').collect();
            let number = |at: usize| words.get(at).map_or(0, |word| word.parse().unwrap_or(0));
            match words[..] {
                ["end", _] => {}
                ["trade", ..] => followed.trade([number(1), number(2)], number(3), self),
                [_, "fault", _] => {
                    self.add("fault", fault(rest).unwrap_or("none"));
                    if let Some(how) = bands::fault_by(rest) {
                        self.add("fault by kind 6", how);
                    }
                }
                [_, word, answer, ..] => {
                    self.add(word, answer);
                    if let Some(record) = records.next() {
                        followed.answered(record, answer, [number(3), number(4)], self);
                    }
                }
                _ => self.add("line", line),
            }
        }
    }

    /// Prints how often each rule came up. Answers those that never did, and what is none of them.
    pub fn print(&self, rules: &Rules) -> (Vec<String>, Vec<String>) {
        let (mut never, mut others) = (Vec::new(), self.0.clone());
        for (word, rules) in rules {
            print!("{word:>16}:");
            for rule in *rules {
                let times = others.remove(&format!("{word} {rule}")).unwrap_or(0);
                print!(" {rule} × {times}{}", if Some(rule) == rules.last() { "\n" } else { "," });
                if times == 0 {
                    never.push(format!("{word} {rule}"));
                }
            }
        }
        (never, others.into_keys().collect())
    }
}
