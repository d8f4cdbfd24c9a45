//! What the calls that change nothing answer while a session file runs: a look before each auction
//! record, whatever its byte is, and one where the walk ends. Sides and auctions are asked from 0
//! to 3, so that those out of range are met too. A refusal has zeros behind it. A look's lines:
//!
//!     look PLACE
//!     theoretical AUCTION ANSWER OUTCOME PRICE QUANTITY COUNT
//!     ranked SIDE AUCTION ANSWER COUNT NUMBER..
//!     short SIDE ANSWER COUNT
//!     front SIDE TOTAL ANSWER LENGTH LAST
//!     long ANSWER LENGTH
//!
//! PLACE is the place of the record that follows. Behind the last look: `end` and how many records
//! were answered.

use super::*;

const ARGUMENTS: [u64; 4] = [0, 1, 2, 3];

pub fn looks(file: &[u8]) -> String {
    let (records, _) = walk(file);
    let (mut session, mut lines, answered) = (Session::fresh(), String::new(), records.len());
    for (place, record) in (1..).zip(&records) {
        if let Record::Auction(_) = record {
            lines += &look(&session, place);
        }
        answer(&mut session, record);
    }
    lines + &look(&session, answered + 1) + &format!("end {answered}\n")
}

fn look(session: &Session, place: usize) -> String {
    let mut lines = format!("look {place}\n");
    for auction in ARGUMENTS {
        lines += &theoretical(session, auction);
    }
    for side in ARGUMENTS {
        for auction in ARGUMENTS {
            lines += &ranked(session, side, auction);
        }
    }
    for side in ARGUMENTS {
        lines += &short(session, side);
    }
    let lists = [Side::Buy, Side::Sell].map(|side| open_quantities(session, side));
    for side in ARGUMENTS {
        lines += &fronts(&lists, side);
    }
    lines + &long(512, 512) + &long(513, 0) + &long(0, 513)
}

fn theoretical(session: &Session, auction: u64) -> String {
    match session.theoretical(auction) {
        Ok(Answer { outcome, price, quantity, trades }) => {
            let count = trades.len();
            format!("theoretical {auction} 0 {outcome} {price} {quantity} {count}\n")
        }
        Err(refusal) => format!("theoretical {auction} {refusal} 0 0 0 0\n"),
    }
}

fn ranked(session: &Session, side: u64, auction: u64) -> String {
    let mut list = [0; 512];
    match session.ranked(side, auction, &mut list) {
        Ok(count) => {
            let numbers: String = list[..count].iter().map(|number| format!(" {number}")).collect();
            format!("ranked {side} {auction} 0 {count}{numbers}\n")
        }
        Err(refusal) => format!("ranked {side} {auction} {refusal} 0\n"),
    }
}

/// The opening's ranked queue with a list that is one entry too short.
fn short(session: &Session, side: u64) -> String {
    match session.ranked(side, 1, &mut [0; 511]) {
        Ok(count) => format!("short {side} 0 {count}\n"),
        Err(refusal) => format!("short {side} {refusal} 0\n"),
    }
}

/// The open quantities of all resting orders of a side, in rank order.
fn open_quantities(session: &Session, side: Side) -> Vec<u64> {
    let orders = queue(&session.taking_part(Auction::Closing), side);
    orders.iter().map(|order| order.open).collect()
}

/// Two filled fronts of a side: at the sum of the other side's list, and of entries so large that
/// few of them sum to more than 64 bits hold. A quantity is below 2^24, so it times 2^40 fits.
fn fronts([buys, sells]: &[Vec<u64>; 2], side: u64) -> String {
    let others = if side == 1 { sells } else { buys };
    let total = others.iter().sum();
    let large = [buys, sells].map(|list| list.iter().map(|entry| entry << 40).collect::<Vec<_>>());
    front([buys, sells], side, total) + &front([&large[0], &large[1]], side, u64::MAX)
}

fn front(lists: [&[u64]; 2], side: u64, total: u64) -> String {
    match filled_front(lists, side, total) {
        Ok(part) => {
            let last = part.last().unwrap_or(&0);
            format!("front {side} {total} 0 {} {last}\n", part.len())
        }
        Err(refusal) => format!("front {side} {total} {refusal} 0 0\n"),
    }
}

/// The front of the buys, of as many ones as asked for, at the total 511.
fn long(buys: usize, sells: usize) -> String {
    let ones = [1; 513];
    match filled_front([&ones[..buys], &ones[..sells]], 1, 511) {
        Ok(part) => format!("long 0 {}\n", part.len()),
        Err(refusal) => format!("long {refusal} 0\n"),
    }
}
