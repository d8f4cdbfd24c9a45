//! Reads a session file on standard input and prints what happened, by the rules of 01:
//!
//!     second [--looks | --rewrite | --clearing]
//!
//! With --looks it prints what the calls that change nothing answer meanwhile, see looks.rs; with
//! --rewrite the file's records, written anew, see rewrite.rs; with --clearing what happened in a
//! session that keeps the square, and behind it who owes whom, see clearing.rs.
//! Comments cite the sections of 01, and the requests of 02 by K and number. Every number is a u64:
//! the largest products are near 10^15 and the largest sums are those of 512 quantities and, K5, of
//! the trades of two auctions, so nothing overflows. The entries of a filled front are the
//! exception: they are summed as u128.

use std::cmp::{min, Ordering};
use std::io::{self, Read, Write};
use std::ops::RangeInclusive;

mod clearing;
mod looks;
mod rewrite;
#[cfg(test)]
mod tests;

// "Numbers and their bounds".
const PRICE: RangeInclusive<u64> = 1..=100_000_000;
const QUANTITY: RangeInclusive<u64> = 1..=10_000_000;
const STEP: RangeInclusive<u64> = 1..=1_000_000;
/// K6: how many rows a table of steps has.
const ROWS: RangeInclusive<usize> = 1..=8;
const FACTOR: RangeInclusive<u64> = 2..=999;
const THRESHOLD: RangeInclusive<u64> = 1..=9_999;
const MAXIMUM_VALUE: RangeInclusive<u64> = 1..=1_000_000_000_000_000;
const MEMBER: RangeInclusive<u64> = 1..=65_535;
const ORDER_NUMBER: RangeInclusive<u64> = 1..=1_000_000;
const VALIDITY: RangeInclusive<u64> = 1..=4;
const PLACES: usize = 512;

// The validities that a rule names; 4, till a later day, is named by none.
const AT_THE_OPENING: u64 = 1;
const AT_THE_CLOSE: u64 = 2;
const DAY: u64 = 3;

// "Outcomes".
const TRADES: u64 = 1;
const NO_TRADES: u64 = 2;
const NON_OPENING: u64 = 3;
const DELAYED_OPENING: u64 = 4;

#[derive(Clone, Copy, PartialEq)]
enum Side {
    Buy,
    Sell,
}

#[derive(Clone, Copy, PartialEq)]
enum Limit {
    Unlimited,
    Price(u64),
}

#[derive(Clone, Copy)]
struct Order {
    number: u64,
    member: u64,
    side: Side,
    validity: u64,
    open: u64,
    limit: Limit,
    /// K2: whether it is a side of its member's quote.
    quote_side: bool,
}

#[derive(Clone, Copy, PartialEq)]
enum Phase {
    Fresh,
    PreOpening,
    Day,
    Closed,
}

#[derive(Clone, Copy, PartialEq)]
enum Auction {
    Opening,
    Closing,
}

struct Trade {
    buy: u64,
    sell: u64,
    quantity: u64,
}

/// What an auction answers; the count of trades is the length of the list.
struct Answer {
    outcome: u64,
    price: u64,
    quantity: u64,
    trades: Vec<Trade>,
}

impl Answer {
    /// "Outcomes" 2 and 3 give zeros.
    fn zeros(outcome: u64) -> Answer {
        Answer { outcome, price: 0, quantity: 0, trades: vec![] }
    }
}

/// A number of "Refusals by number".
type Refusal = u64;

/// One check of "Order of checks": with `?` behind each, the first hit answers.
fn refuse(number: Refusal, hit: bool) -> Result<(), Refusal> {
    if hit {
        Err(number)
    } else {
        Ok(())
    }
}

/// The side that a field or an argument names.
fn side_of(side: u64) -> Result<Side, Refusal> {
    match side {
        1 => Ok(Side::Buy),
        2 => Ok(Side::Sell),
        _ => Err(1),
    }
}

/// The auction that a field or an argument names: check 1 of an auction.
fn auction_of(auction: u64) -> Result<Auction, Refusal> {
    match auction {
        1 => Ok(Auction::Opening),
        2 => Ok(Auction::Closing),
        _ => Err(1),
    }
}

/// K6: a row of the table of steps, its lowest price and its step.
type Row = [u64; 2];

/// K6: a start of kind 1 means one row, and the first row begins at 1. Answers the table and the
/// fields behind the step, which both kinds have.
fn one_row([step, others @ ..]: [u64; 5]) -> ([Row; 1], [u64; 4]) {
    ([[1, step]], others)
}

/// K6: whether a price is a multiple of the step of the row in which it falls, the last one that
/// doesn't begin above it.
fn on_step(rows: &[Row], price: u64) -> bool {
    let row = rows.iter().rfind(|[lowest, _]| *lowest <= price);
    row.is_some_and(|[_, step]| price.is_multiple_of(*step))
}

/// K6: a bad table is refused by 1. Each lowest price is a price and each step a step; the first
/// row begins at 1 and lowest prices rise strictly.
fn check_table(rows: &[Row]) -> Result<(), Refusal> {
    refuse(1, !ROWS.contains(&rows.len()))?;
    for [lowest, step] in rows {
        refuse(1, !PRICE.contains(lowest) || !STEP.contains(step))?;
    }
    refuse(1, rows[0][0] != 1)?;
    refuse(1, rows.windows(2).any(|pair| pair[0][0] >= pair[1][0]))
}

/// Check 1 of a start: the fields that are in range, "Numbers and their bounds" and K6.
fn check_start(rows: &[Row], others: [u64; 4]) -> Result<(), Refusal> {
    let [reference, factor, threshold, maximum] = others;
    check_table(rows)?;
    refuse(1, !PRICE.contains(&reference) || !on_step(rows, reference))?;
    refuse(1, !FACTOR.contains(&factor))?;
    refuse(1, !THRESHOLD.contains(&threshold))?;
    refuse(1, !MAXIMUM_VALUE.contains(&maximum))
}

/// Check 1 of an order. Answers the side and the limit that the fields stand for.
fn check_order(fields: [u64; 5]) -> Result<(Side, Limit), Refusal> {
    let [member, side, validity, quantity, limit] = fields;
    refuse(1, !MEMBER.contains(&member))?;
    let side = side_of(side)?;
    refuse(1, !VALIDITY.contains(&validity))?;
    refuse(1, !QUANTITY.contains(&quantity))?;
    // "Session file", kind 2: limit 0 means unlimited.
    refuse(1, limit != 0 && !PRICE.contains(&limit))?;
    let limit = if limit == 0 { Limit::Unlimited } else { Limit::Price(limit) };
    Ok((side, limit))
}

/// Check 1 of a delete.
fn check_delete([number, member]: [u64; 2]) -> Result<(), Refusal> {
    refuse(1, !ORDER_NUMBER.contains(&number))?;
    refuse(1, !MEMBER.contains(&member))
}

/// K2, check 1 of a quote: its limits are prices, 0 is none; a bid not below its ask is in range.
fn check_quote(fields: [u64; 5]) -> Result<(), Refusal> {
    let [member, bid_quantity, bid_limit, ask_quantity, ask_limit] = fields;
    refuse(1, !MEMBER.contains(&member))?;
    refuse(1, !QUANTITY.contains(&bid_quantity) || !PRICE.contains(&bid_limit))?;
    refuse(1, !QUANTITY.contains(&ask_quantity) || !PRICE.contains(&ask_limit))
}

struct Session {
    phase: Phase,
    /// K6: the table of steps.
    rows: Vec<Row>,
    /// K4: the start record's reference price, for controls 6 and 8; no auction changes it.
    start_reference: u64,
    /// The reference price in force, for all else.
    reference: u64,
    factor: u64,
    threshold: u64,
    maximum: u64,
    delay_spent: bool,
    numbers_given: u64,
    book: Vec<Option<Order>>,
    /// K5: who owes whom, in a session that keeps it.
    square: Option<clearing::Square>,
}

impl Session {
    fn fresh() -> Session {
        Session {
            phase: Phase::Fresh,
            rows: vec![],
            start_reference: 0,
            reference: 0,
            factor: 0,
            threshold: 0,
            maximum: 0,
            delay_spent: false,
            numbers_given: 0,
            book: vec![None; PLACES],
            square: None,
        }
    }

    /// "Order of checks", start: 1, 3.
    fn start(&mut self, rows: &[Row], others: [u64; 4]) -> Result<(), Refusal> {
        check_start(rows, others)?;
        refuse(3, self.phase != Phase::Fresh)?;
        // "Phases": start leads to pre-opening.
        self.phase = Phase::PreOpening;
        self.rows = rows.to_vec();
        [self.start_reference, self.factor, self.threshold, self.maximum] = others;
        self.reference = self.start_reference;
        Ok(())
    }

    /// "Order of checks", order: 1, 2, 4, 5, 6, 7, 8, 16 (K5), 9, 10. Answers the number given.
    fn order(&mut self, fields: [u64; 5]) -> Result<u64, Refusal> {
        let (side, limit) = check_order(fields)?;
        let [member, _, validity, quantity, _] = fields;
        refuse(2, self.phase == Phase::Fresh)?;
        // Phase rules: orders are refused when closed; validity 1 only in pre-opening.
        refuse(4, self.phase == Phase::Closed)?;
        refuse(4, validity == AT_THE_OPENING && self.phase != Phase::PreOpening)?;
        // An unlimited order skips 5, 6 and 7.
        if let Limit::Price(limit) = limit {
            refuse(5, self.off_step(limit))?;
            refuse(6, self.at_the_collar(limit))?;
            refuse(7, self.too_large(quantity, limit))?;
        }
        refuse(8, self.too_large(quantity, self.start_reference))?;
        refuse(16, self.shut_out(member))?;
        refuse(9, self.numbers_given == *ORDER_NUMBER.end())?;
        refuse(10, self.book.iter().all(Option::is_some))?;
        let (number, open, quote_side) = (self.numbers_given + 1, quantity, false);
        self.enter(Order { number, member, side, validity, open, limit, quote_side });
        Ok(number)
    }

    /// K2, "Order of checks" of a quote: 1, 13, 2, 4, 5, 6, 7, 8, 16 (K5), 9, 10. Answers the
    /// numbers given to the bid and to the ask.
    fn quote(&mut self, fields: [u64; 5]) -> Result<[u64; 2], Refusal> {
        check_quote(fields)?;
        let [member, bid_quantity, bid_limit, ask_quantity, ask_limit] = fields;
        refuse(13, bid_limit >= ask_limit)?;
        refuse(2, self.phase == Phase::Fresh)?;
        // Phase rules of a day order: refused when closed.
        refuse(4, self.phase == Phase::Closed)?;
        // K2: each check on the bid and then on the ask, before the next check.
        let sides = [(Side::Buy, bid_quantity, bid_limit), (Side::Sell, ask_quantity, ask_limit)];
        for (_, _, limit) in sides {
            refuse(5, self.off_step(limit))?;
        }
        for (_, _, limit) in sides {
            refuse(6, self.at_the_collar(limit))?;
        }
        for (_, quantity, limit) in sides {
            refuse(7, self.too_large(quantity, limit))?;
        }
        for (_, quantity, _) in sides {
            refuse(8, self.too_large(quantity, self.start_reference))?;
        }
        refuse(16, self.shut_out(member))?;
        // K2: 9 when fewer than two numbers are left.
        refuse(9, self.numbers_given + 2 > *ORDER_NUMBER.end())?;
        // K2: 10 when fewer than two places would be free once the old quote's rests are gone.
        let old = |order: Order| order.quote_side && order.member == member;
        let free = self.book.iter().filter(|place| place.is_none_or(old)).count();
        refuse(10, free < 2)?;
        for place in &mut self.book {
            if place.is_some_and(old) {
                *place = None;
            }
        }
        // K2: bid takes the first of two new numbers and places, ask the second; validity is day.
        let numbers = [self.numbers_given + 1, self.numbers_given + 2];
        for (number, (side, open, limit)) in numbers.into_iter().zip(sides) {
            let (validity, limit, quote_side) = (DAY, Limit::Price(limit), true);
            self.enter(Order { number, member, side, validity, open, limit, quote_side });
        }
        Ok(numbers)
    }

    /// Refusal 5 reads the row (K6).
    fn off_step(&self, limit: u64) -> bool {
        !on_step(&self.rows, limit)
    }

    /// Refusal 6, by the start's reference price (K4): at either end "reaches" counts as a hit.
    fn at_the_collar(&self, limit: u64) -> bool {
        limit >= self.start_reference * self.factor || limit * self.factor <= self.start_reference
    }

    /// Refusals 7 and 8, at the limit and at the start's reference price (K4).
    fn too_large(&self, quantity: u64, price: u64) -> bool {
        quantity * price >= self.maximum
    }

    /// Refusal 16 (K5): only in a session that keeps the square.
    fn shut_out(&self, member: u64) -> bool {
        self.square.as_ref().is_some_and(|square| square.shuts_out(member))
    }

    /// "Numbers and their bounds": an accepted order takes the lowest free place.
    fn enter(&mut self, order: Order) {
        let free = self.book.iter_mut().find(|place| place.is_none());
        *free.expect("check 10 found a free place") = Some(order);
        self.numbers_given = order.number;
        if let Some(square) = &mut self.square {
            square.enter(order.member);
        }
    }

    /// "Order of checks", delete: 1, 2, 11. Allowed in every started phase.
    fn delete(&mut self, [number, member]: [u64; 2]) -> Result<(), Refusal> {
        check_delete([number, member])?;
        refuse(2, self.phase == Phase::Fresh)?;
        let wanted = |order: Order| order.number == number && order.member == member;
        let place = self.book.iter_mut().find(|place| place.is_some_and(wanted)).ok_or(11u64)?;
        *place = None;
        Ok(())
    }

    /// "Order of checks", auction: 1, 2, 4. The list is always long enough here, so no 12.
    fn auction(&mut self, [auction]: [u64; 1]) -> Result<Answer, Refusal> {
        let auction = self.allowed(auction)?;
        let answer = self.foresee(auction);
        match answer.outcome {
            // "Outcomes" 3: nothing changes.
            NON_OPENING => {}
            // "Outcomes" 4: only the mark that the delay is spent changes.
            DELAYED_OPENING => self.delay_spent = true,
            _ => self.carry_out(auction, &answer),
        }
        Ok(answer)
    }

    /// "Order of checks", theoretical answer: 1, 2, 4. The auction's answer, with no change.
    fn theoretical(&self, auction: u64) -> Result<Answer, Refusal> {
        let auction = self.allowed(auction)?;
        Ok(self.foresee(auction))
    }

    /// Checks 1, 2 and 4 of an auction, which are those of the theoretical answer too.
    fn allowed(&self, auction: u64) -> Result<Auction, Refusal> {
        let auction = auction_of(auction)?;
        refuse(2, self.phase == Phase::Fresh)?;
        // Phase rules: an opening auction only in pre-opening, a closing auction only in day.
        refuse(4, auction == Auction::Opening && self.phase != Phase::PreOpening)?;
        refuse(4, auction == Auction::Closing && self.phase != Phase::Day)?;
        Ok(auction)
    }

    /// "Outcomes": what an auction answers now, with its trades.
    fn foresee(&self, auction: Auction) -> Answer {
        let orders = self.taking_part(auction);
        let found = find_price(&orders, self.reference);

        if auction == Auction::Opening {
            // "Outcomes": Non Opening comes before Delayed Opening.
            let highest = found.map_or(0, |(_, executable)| executable);
            if unlimited(&orders, Side::Buy) > highest || unlimited(&orders, Side::Sell) > highest {
                return Answer::zeros(NON_OPENING);
            }
            // "Outcomes": Delayed Opening, "or more".
            let delays = |&(price, _): &(u64, u64)| {
                !self.delay_spent
                    && price.abs_diff(self.reference) * 10_000 >= self.threshold * self.reference
            };
            if let Some((price, quantity)) = found.filter(delays) {
                return Answer { outcome: DELAYED_OPENING, price, quantity, trades: vec![] };
            }
        }

        let Some((price, quantity)) = found else { return Answer::zeros(NO_TRADES) };
        Answer { outcome: TRADES, price, quantity, trades: pair(&orders, quantity) }
    }

    /// "Outcomes" 1 and 2: trades, rests that are deleted by validity, and the next phase.
    fn carry_out(&mut self, auction: Auction, answer: &Answer) {
        if answer.outcome == TRADES {
            // K5: before the orders that are filled leave the book.
            if let Some(square) = &mut self.square {
                square.add(&self.book, answer);
            }
            self.take_off(&answer.trades);
            // The price becomes the reference price in force; K4: the start's stays.
            self.reference = answer.price;
        }
        let (deleted, next): (&[u64], Phase) = match auction {
            Auction::Opening => (&[AT_THE_OPENING], Phase::Day),
            Auction::Closing => (&[AT_THE_OPENING, AT_THE_CLOSE, DAY], Phase::Closed),
        };
        self.delete_rests(deleted);
        self.phase = next;
    }

    /// "Order of checks", ranked queue: 1, 2, 12. Given in any started phase; writes the order
    /// numbers to the front of the list and answers how many.
    fn ranked(&self, side: u64, auction: u64, list: &mut [u64]) -> Result<usize, Refusal> {
        let (side, auction) = (side_of(side)?, auction_of(auction)?);
        refuse(2, self.phase == Phase::Fresh)?;
        refuse(12, list.len() < PLACES)?;
        let queue = queue(&self.taking_part(auction), side);
        for (entry, order) in list.iter_mut().zip(&queue) {
            *entry = order.number;
        }
        Ok(queue.len())
    }

    /// "Who takes part": at the opening all but validity 2, at the closing all.
    fn taking_part(&self, auction: Auction) -> Vec<Order> {
        let mut orders: Vec<Order> = self.book.iter().flatten().copied().collect();
        orders.retain(|order| auction == Auction::Closing || order.validity != AT_THE_CLOSE);
        orders
    }

    /// "Outcomes" 1: traded quantities leave the book; the place of a filled order is free.
    fn take_off(&mut self, trades: &[Trade]) {
        for place in &mut self.book {
            let Some(order) = place else { continue };
            for trade in trades {
                if order.number == trade.buy || order.number == trade.sell {
                    order.open -= trade.quantity;
                }
            }
            if order.open == 0 {
                *place = None;
            }
        }
    }

    /// A place freed by a deletion is free at once, "Numbers and their bounds".
    fn delete_rests(&mut self, validities: &[u64]) {
        for place in &mut self.book {
            if place.is_some_and(|order| validities.contains(&order.validity)) {
                *place = None;
            }
        }
    }
}

/// "At what rank": unlimited first, then the better price, then the lower number.
fn rank(one: &Order, other: &Order) -> Ordering {
    let by_limit = match (one.limit, other.limit) {
        (Limit::Unlimited, Limit::Unlimited) => Ordering::Equal,
        (Limit::Unlimited, Limit::Price(_)) => Ordering::Less,
        (Limit::Price(_), Limit::Unlimited) => Ordering::Greater,
        // Higher buys, lower sells; both orders are of one side.
        (Limit::Price(p), Limit::Price(q)) if one.side == Side::Buy => q.cmp(&p),
        (Limit::Price(p), Limit::Price(q)) => p.cmp(&q),
    };
    by_limit.then(one.number.cmp(&other.number))
}

/// The orders of one side, best first.
fn queue(orders: &[Order], side: Side) -> Vec<Order> {
    let mut queue = orders.to_vec();
    queue.retain(|order| order.side == side);
    queue.sort_by(rank);
    queue
}

/// "The price": a candidate with demand and supply at it.
struct Candidate {
    price: u64,
    demand: u64,
    supply: u64,
}

impl Candidate {
    fn weigh(orders: &[Order], price: u64) -> Candidate {
        let (mut demand, mut supply) = (0, 0);
        for order in orders {
            match (order.side, order.limit) {
                (Side::Buy, Limit::Unlimited) => demand += order.open,
                (Side::Buy, Limit::Price(limit)) if limit >= price => demand += order.open,
                (Side::Sell, Limit::Unlimited) => supply += order.open,
                (Side::Sell, Limit::Price(limit)) if limit <= price => supply += order.open,
                _ => {}
            }
        }
        Candidate { price, demand, supply }
    }

    fn executable(&self) -> u64 {
        min(self.demand, self.supply)
    }

    fn difference(&self) -> u64 {
        self.demand.abs_diff(self.supply)
    }
}

/// "The price" 1 to 4: the price and the highest executable quantity, or none if that is 0.
fn find_price(orders: &[Order], reference: u64) -> Option<(u64, u64)> {
    // Candidates are the reference price and the limits of the orders taking part.
    let mut kept = vec![Candidate::weigh(orders, reference)];
    for order in orders {
        if let Limit::Price(limit) = order.limit {
            kept.push(Candidate::weigh(orders, limit));
        }
    }
    // 1. The highest executable quantity.
    let highest = kept.iter().map(Candidate::executable).max()?;
    if highest == 0 {
        return None;
    }
    kept.retain(|at| at.executable() == highest);
    // 2. The smallest difference.
    let smallest = kept.iter().map(Candidate::difference).min()?;
    kept.retain(|at| at.difference() == smallest);
    let prices = kept.iter().map(|at| at.price);
    let price = if kept.iter().all(|at| at.demand > at.supply) {
        // 3. Demand exceeds supply at all of them.
        prices.max()
    } else if kept.iter().all(|at| at.supply > at.demand) {
        // 3. Supply exceeds demand at all of them.
        prices.min()
    } else {
        // 4. Two equally near would have the reference between them, which is then kept too.
        prices.min_by_key(|price| price.abs_diff(reference))
    };
    Some((price?, highest))
}

/// "Outcomes" 3: the unlimited quantity taking part on a side.
fn unlimited(orders: &[Order], side: Side) -> u64 {
    let counted = |order: &&Order| order.side == side && order.limit == Limit::Unlimited;
    orders.iter().filter(counted).map(|order| order.open).sum()
}

/// "Outcomes" 1: the trades pair the two queues from the front, up to the executable quantity.
fn pair(orders: &[Order], executable: u64) -> Vec<Trade> {
    let (mut buys, mut sells) = (queue(orders, Side::Buy), queue(orders, Side::Sell));
    let mut trades = Vec::new();
    let mut left = executable;
    while left > 0 {
        let (Some(buy), Some(sell)) = (buys.first_mut(), sells.first_mut()) else { break };
        // The smaller of the two fronts; `left` never goes below it, as one side fills whole.
        let quantity = min(left, min(buy.open, sell.open));
        trades.push(Trade { buy: buy.number, sell: sell.number, quantity });
        buy.open -= quantity;
        sell.open -= quantity;
        left -= quantity;
        buys.retain(|order| order.open > 0);
        sells.retain(|order| order.open > 0);
    }
    trades
}

/// "Filled front": the longest front part of the side's list with a sum of at most the total.
fn filled_front([buys, sells]: [&[u64]; 2], side: u64, total: u64) -> Result<&[u64], Refusal> {
    refuse(1, buys.len() > PLACES || sells.len() > PLACES)?;
    let list = match side_of(side)? {
        Side::Buy => buys,
        Side::Sell => sells,
    };
    // Sums never wrap: 512 entries of 64 bits are far below 2^128.
    let mut sum = 0;
    let fits = |&&entry: &&u64| {
        sum += u128::from(entry);
        sum <= u128::from(total)
    };
    let length = list.iter().take_while(fits).count();
    Ok(&list[..length])
}

/// "Session file": the little-endian number in these bytes, at most eight.
fn number(bytes: &[u8]) -> u64 {
    bytes.iter().rev().fold(0, |number, &byte| number << 8 | u64::from(byte))
}

/// The fields of the given sizes, from the front of the part; none if it is too short.
fn fields<const N: usize>(mut part: &[u8], sizes: [usize; N]) -> Option<[u64; N]> {
    let mut fields = [0; N];
    for (field, size) in fields.iter_mut().zip(sizes) {
        *field = number(part.get(..size)?);
        part = part.get(size..)?;
    }
    Some(fields)
}

// "Session file": the sizes of each kind's fields.
const START_SIZES: [usize; 5] = [4, 4, 2, 2, 8];
const ORDER_SIZES: [usize; 5] = [2, 1, 1, 4, 4];
const DELETE_SIZES: [usize; 2] = [4, 2];
const AUCTION_SIZES: [usize; 1] = [1];
const QUOTE_SIZES: [usize; 5] = [2, 4, 4, 4, 4];

// K6: the row count, each row, and the other fields of a start in their old order.
const COUNT_SIZES: [usize; 1] = [2];
const ROW_SIZES: [usize; 2] = [4, 4];
const OTHER_SIZES: [usize; 4] = [4, 2, 2, 8];

/// "Session file": a record with its fields, by its kind.
enum Record {
    Start([u64; 5]),
    Order([u64; 5]),
    Delete([u64; 2]),
    Auction([u64; 1]),
    Quote([u64; 5]),
    /// K6: a start with its rows, as many as it counts, and its other fields.
    BandedStart(Vec<Row>, [u64; 4]),
}

/// K6: the length of a start with so many rows, 22 plus 8 per row counted.
fn banded_length(rows: usize) -> usize {
    22 + 8 * rows
}

/// K6: a start of kind 6 by its part. None for a length that doesn't fit the row count, and for one
/// too short to hold it. With any count that its length fits, 0 and above 8 too, it is a record:
/// the call on it answers 1.
fn banded_start(part: &[u8]) -> Option<Record> {
    let [count] = fields(part, COUNT_SIZES)?;
    if 4 + part.len() != banded_length(count as usize) {
        return None;
    }
    let (rows, others) = part.get(2..)?.split_at(8 * count as usize);
    let rows = rows.chunks(8).map(|row| fields(row, ROW_SIZES)).collect::<Option<_>>()?;
    Some(Record::BandedStart(rows, fields(others, OTHER_SIZES)?))
}

/// "Session file": the first record, and the file behind it.
/// None for a record that ends the walk: unknown kind, a length not the kind's, or cut.
fn first_record(file: &[u8]) -> Option<(Record, &[u8])> {
    let (length, kind) = (number(file.get(0..2)?) as usize, number(file.get(2..4)?));
    // Fields are read from the part that starts at the record's fifth byte.
    let part = file.get(4..length)?;
    let record = match (kind, length) {
        (1, 24) => Record::Start(fields(part, START_SIZES)?),
        (2, 16) => Record::Order(fields(part, ORDER_SIZES)?),
        (3, 10) => Record::Delete(fields(part, DELETE_SIZES)?),
        (4, 5) => Record::Auction(fields(part, AUCTION_SIZES)?),
        (5, 22) => Record::Quote(fields(part, QUOTE_SIZES)?),
        (6, _) => banded_start(part)?,
        _ => return None,
    };
    Some((record, file.get(length..)?))
}

/// "Session file": the records one by one, and whether a fault ended the walk.
fn walk(file: &[u8]) -> (Vec<Record>, bool) {
    let (mut records, mut rest) = (Vec::new(), file);
    while let Some((record, behind)) = first_record(rest) {
        records.push(record);
        rest = behind;
    }
    (records, !rest.is_empty())
}

/// "Session file": what a record prints after its place.
fn answer(session: &mut Session, record: &Record) -> String {
    match *record {
        Record::Start(fields) => {
            let (rows, others) = one_row(fields);
            start_line(session.start(&rows, others))
        }
        Record::Order(fields) => match session.order(fields) {
            Ok(number) => format!("order 0 {number}\n"),
            Err(refusal) => format!("order {refusal} 0\n"),
        },
        Record::Delete(fields) => match session.delete(fields) {
            Ok(()) => "delete 0\n".to_string(),
            Err(refusal) => format!("delete {refusal}\n"),
        },
        Record::Auction(fields) => match session.auction(fields) {
            Ok(Answer { outcome, price, quantity, trades }) => {
                let count = trades.len();
                let mut lines = format!("auction 0 {outcome} {price} {quantity} {count}\n");
                for Trade { buy, sell, quantity } in trades {
                    lines += &format!("trade {buy} {sell} {quantity}\n");
                }
                lines
            }
            Err(refusal) => format!("auction {refusal} 0 0 0 0\n"),
        },
        Record::Quote(fields) => match session.quote(fields) {
            Ok([bid, ask]) => format!("quote 0 {bid} {ask}\n"),
            Err(refusal) => format!("quote {refusal} 0 0\n"),
        },
        Record::BandedStart(ref rows, others) => start_line(session.start(rows, others)),
    }
}

/// K6: the line of a start is the same for both kinds.
fn start_line(started: Result<(), Refusal>) -> String {
    match started {
        Ok(()) => "start 0\n".to_string(),
        Err(refusal) => format!("start {refusal}\n"),
    }
}

/// "Session file": the lines of a whole file; a fault ends them and isn't counted.
fn run(file: &[u8]) -> String {
    run_in(&mut Session::fresh(), file)
}

fn run_in(session: &mut Session, file: &[u8]) -> String {
    let (records, fault) = walk(file);
    let (mut lines, answered) = (String::new(), records.len());
    for (place, record) in (1..).zip(&records) {
        lines += &format!("{place} {}", answer(session, record));
    }
    if fault {
        lines += &format!("{} fault 1\n", answered + 1);
    }
    lines + &format!("end {answered}\n")
}

/// With --looks and --rewrite the first so many bytes of the input are taken for the whole file.
const LONGEST: u64 = 65_536;

fn main() -> io::Result<()> {
    let (mut file, word) = (Vec::new(), std::env::args().nth(1));
    let printed = match word.as_deref() {
        None => {
            io::stdin().read_to_end(&mut file)?;
            run(&file).into_bytes()
        }
        Some("--looks") => {
            io::stdin().take(LONGEST).read_to_end(&mut file)?;
            looks::looks(&file).into_bytes()
        }
        Some("--rewrite") => {
            io::stdin().take(LONGEST).read_to_end(&mut file)?;
            rewrite::rewrite(&file)
        }
        Some("--clearing") => {
            io::stdin().read_to_end(&mut file)?;
            clearing::clearing(&file).into_bytes()
        }
        Some(word) => return Err(io::Error::other(format!("no option {word}"))),
    };
    io::stdout().write_all(&printed)
}
