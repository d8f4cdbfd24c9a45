//! Session files built in memory; the expected lines are worked out by hand from 01.

use super::clearing::{clearing, keeping_the_square};
use super::looks::looks;
use super::rewrite::{rewrite, write};
use super::*;

const BUY: u8 = 1;
const SELL: u8 = 2;
const OPENING: u8 = 1;
const CLOSING: u8 = 2;
const UNLIMITED: u32 = 0;

fn record(kind: u16, fields: &[&[u8]]) -> Vec<u8> {
    let fields = fields.concat();
    let length = 4 + fields.len() as u16;
    [&length.to_le_bytes()[..], &kind.to_le_bytes(), &fields].concat()
}

fn start_with(step: u32, reference: u32, factor: u16, threshold: u16, maximum: u64) -> Vec<u8> {
    let (a, b, c) = (step.to_le_bytes(), reference.to_le_bytes(), factor.to_le_bytes());
    record(1, &[&a, &b, &c, &threshold.to_le_bytes(), &maximum.to_le_bytes()])
}

/// The parameters of "Session file" and "Sums to check by hand".
fn start() -> Vec<u8> {
    start_with(100, 100_000, 9, 150, 1_000_000_000_000)
}

fn order_of(member: u16, side: u8, validity: u8, quantity: u32, limit: u32) -> Vec<u8> {
    let last = [quantity.to_le_bytes(), limit.to_le_bytes()].concat();
    record(2, &[&member.to_le_bytes(), &[side, validity], &last])
}

/// A day order of member 7.
fn day(side: u8, quantity: u32, limit: u32) -> Vec<u8> {
    order_of(7, side, 3, quantity, limit)
}

fn delete(number: u32, member: u16) -> Vec<u8> {
    record(3, &[&number.to_le_bytes(), &member.to_le_bytes()])
}

fn auction(which: u8) -> Vec<u8> {
    record(4, &[&[which]])
}

/// A quantity and a limit for the bid, and for the ask.
fn quote_of(member: u16, bid: (u32, u32), ask: (u32, u32)) -> Vec<u8> {
    let last = [bid.0, bid.1, ask.0, ask.1].map(u32::to_le_bytes).concat();
    record(5, &[&member.to_le_bytes(), &last])
}

/// A quote of member 7 for 10 on both sides.
fn quote(bid: u32, ask: u32) -> Vec<u8> {
    quote_of(7, (10, bid), (10, ask))
}

/// K6: a row of the table, its lowest price and its step.
type Band = (u32, u32);

/// A start of kind 6 that counts so many rows, with these rows and the bytes of the other fields.
fn banded_counting(count: u16, rows: &[Band], others: &[u8]) -> Vec<u8> {
    let rows: Vec<u8> =
        rows.iter().flat_map(|row| [row.0, row.1]).flat_map(u32::to_le_bytes).collect();
    record(6, &[&count.to_le_bytes(), &rows, others])
}

/// A start of kind 6: its rows, and the fields that a start of kind 1 has behind the step.
fn banded_with(rows: &[Band], reference: u32, last: (u16, u16, u64)) -> Vec<u8> {
    let others = &start_with(1, reference, last.0, last.1, last.2)[8..];
    banded_counting(rows.len() as u16, rows, others)
}

/// The parameters of "Session file" behind the reference price, but for a wide collar.
fn banded(rows: &[Band], reference: u32) -> Vec<u8> {
    banded_with(rows, reference, (999, 150, 1_000_000_000_000))
}

/// Runs the records and compares whole; the expected lines are joined with line ends.
fn check(records: &[Vec<u8>], expected: &[&str]) {
    assert_eq!(run(&records.concat()), expected.join("\n") + "\n");
}

/// Starts, enters the orders, holds an opening, and compares what follows the orders' lines.
fn check_opening(orders: &[Vec<u8>], expected: &[&str]) {
    check_opening_after(start(), orders, expected);
}

fn check_opening_after(start: Vec<u8>, orders: &[Vec<u8>], expected: &[&str]) {
    let mut lines = vec!["1 start 0".to_string()];
    for number in 1..=orders.len() {
        lines.push(format!("{} order 0 {number}", number + 1));
    }
    let place = orders.len() + 2;
    lines.push(format!("{place} {}", expected[0]));
    lines.extend(expected[1..].iter().map(|line| line.to_string()));
    lines.push(format!("end {place}"));
    let lines: Vec<&str> = lines.iter().map(String::as_str).collect();
    check(&[vec![start], orders.to_vec(), vec![auction(OPENING)]].concat(), &lines);
}

/// The session after these records.
fn session(records: &[Vec<u8>]) -> Session {
    let (file, mut session) = (records.concat(), Session::fresh());
    for record in walk(&file).0 {
        answer(&mut session, &record);
    }
    session
}

/// The four numbers of the theoretical answer.
fn theoretical(session: &Session, auction: u8) -> Result<[u64; 4], Refusal> {
    let Answer { outcome, price, quantity, trades } = session.theoretical(auction.into())?;
    Ok([outcome, price, quantity, trades.len() as u64])
}

/// The ranked queue in a list of 512.
fn ranked(session: &Session, side: u8, auction: u8) -> Result<Vec<u64>, Refusal> {
    let mut list = vec![0; 512];
    let count = session.ranked(side.into(), auction.into(), &mut list)?;
    list.truncate(count);
    Ok(list)
}

#[test]
fn worked_example() {
    let bytes: [u8; 24] = [
        0x18, 0x00, 0x01, 0x00, 0x64, 0x00, 0x00, 0x00, 0xA0, 0x86, 0x01, 0x00, 0x09, 0x00, 0x96,
        0x00, 0x00, 0x10, 0xA5, 0xD4, 0xE8, 0x00, 0x00, 0x00,
    ];
    assert_eq!(start(), bytes);
    check(
        &[
            bytes.to_vec(),
            day(BUY, 50, 100_200),
            day(BUY, 50, 100_400),
            day(BUY, 50, 100_200),
            day(SELL, 80, 100_200),
            auction(OPENING),
        ],
        &[
            "1 start 0",
            "2 order 0 1",
            "3 order 0 2",
            "4 order 0 3",
            "5 order 0 4",
            "6 auction 0 1 100200 80 2",
            "trade 2 4 50",
            "trade 1 4 30",
            "end 6",
        ],
    );
}

#[test]
fn record_bytes_of_the_other_kinds() {
    assert_eq!(day(BUY, 50, 100_200), [16, 0, 2, 0, 7, 0, 1, 3, 50, 0, 0, 0, 0x68, 0x87, 1, 0]);
    assert_eq!(delete(258, 7), [10, 0, 3, 0, 2, 1, 0, 0, 7, 0]);
    assert_eq!(auction(CLOSING), [5, 0, 4, 0, 2]);
    assert_eq!(
        quote_of(7, (50, 100_200), (258, 100_400)),
        [22, 0, 5, 0, 7, 0, 50, 0, 0, 0, 0x68, 0x87, 1, 0, 2, 1, 0, 0, 0x30, 0x88, 1, 0]
    );
}

#[test]
fn p1_upper_collar() {
    check(
        &[start(), day(BUY, 1, 899_900), day(BUY, 1, 900_000)],
        &["1 start 0", "2 order 0 1", "3 order 6 0", "end 3"],
    );
}

#[test]
fn p2_lower_collar() {
    check(
        &[start(), day(SELL, 1, 11_200), day(SELL, 1, 11_100)],
        &["1 start 0", "2 order 0 1", "3 order 6 0", "end 3"],
    );
}

/// "Reaches" counts as a hit below too: 10,000 × 10 is the reference.
#[test]
fn lower_collar_reached() {
    check(
        &[
            start_with(100, 100_000, 10, 150, 1_000_000_000_000),
            day(SELL, 1, 10_000),
            day(SELL, 1, 10_100),
        ],
        &["1 start 0", "2 order 6 0", "3 order 0 1", "end 3"],
    );
}

#[test]
fn p3_value_at_limit() {
    check(
        &[start(), day(BUY, 5_000_000, 200_000), day(BUY, 4_999_999, 200_000)],
        &["1 start 0", "2 order 7 0", "3 order 0 1", "end 3"],
    );
}

#[test]
fn p4_value_at_reference() {
    check(
        &[start(), day(BUY, 10_000_000, UNLIMITED), day(BUY, 9_999_999, UNLIMITED)],
        &["1 start 0", "2 order 8 0", "3 order 0 1", "end 3"],
    );
}

#[test]
fn p5_nearest_to_reference() {
    check_opening(
        &[day(BUY, 100, 100_500), day(SELL, 100, 99_500)],
        &["auction 0 1 100000 100 1", "trade 1 2 100"],
    );
}

#[test]
fn p6_pressure_of_one_side() {
    check_opening(
        &[day(BUY, 100, 100_500), day(SELL, 60, 99_500)],
        &["auction 0 1 100500 60 1", "trade 1 2 60"],
    );
    check_opening(
        &[day(BUY, 60, 100_500), day(SELL, 100, 99_500)],
        &["auction 0 1 99500 60 1", "trade 1 2 60"],
    );
}

#[test]
fn p7_only_unlimited() {
    check_opening(
        &[day(BUY, 50, UNLIMITED), day(SELL, 50, UNLIMITED)],
        &["auction 0 1 100000 50 1", "trade 1 2 50"],
    );
}

#[test]
fn p8_non_opening() {
    check_opening(&[day(BUY, 50, UNLIMITED), day(SELL, 30, 100_200)], &["auction 0 3 0 0 0"]);
    check_opening(
        &[day(BUY, 30, UNLIMITED), day(SELL, 30, 100_200)],
        &["auction 0 1 100200 30 1", "trade 1 2 30"],
    );
}

#[test]
fn p9_surplus_on_both_sides() {
    let orders = [
        day(BUY, 100, 100_400),
        day(BUY, 20, 100_200),
        day(SELL, 100, 99_800),
        day(SELL, 20, 100_400),
    ];
    check_opening(&orders, &["auction 0 1 100000 100 1", "trade 1 3 100"]);
    check_opening_after(
        start_with(100, 101_000, 9, 150, 1_000_000_000_000),
        &orders,
        &["auction 0 1 100400 100 1", "trade 1 3 100"],
    );
}

/// "The price" 2: difference 0 at 100,400 only; 20 at 99,800, 100,000 and 100,200.
#[test]
fn smallest_difference() {
    check_opening(
        &[day(BUY, 100, 100_400), day(BUY, 20, 100_200), day(SELL, 100, 99_800)],
        &["auction 0 1 100400 100 1", "trade 1 3 100"],
    );
}

#[test]
fn p10_delayed_opening() {
    check(
        &[
            start(),
            day(BUY, 10, 101_500),
            day(SELL, 10, 101_500),
            auction(OPENING),
            auction(OPENING),
            auction(OPENING),
        ],
        &[
            "1 start 0",
            "2 order 0 1",
            "3 order 0 2",
            "4 auction 0 4 101500 10 0",
            "5 auction 0 1 101500 10 1",
            "trade 1 2 10",
            "6 auction 4 0 0 0 0",
            "end 6",
        ],
    );
    check_opening(
        &[day(BUY, 10, 101_400), day(SELL, 10, 101_400)],
        &["auction 0 1 101400 10 1", "trade 1 2 10"],
    );
}

#[test]
fn empty_book() {
    check_opening(&[], &["auction 0 2 0 0 0"]);
}

#[test]
fn at_the_close() {
    check(
        &[
            start(),
            order_of(7, BUY, 2, 50, UNLIMITED),
            day(SELL, 30, 100_200),
            auction(OPENING),
            auction(CLOSING),
            delete(1, 7),
            delete(2, 7),
        ],
        &[
            "1 start 0",
            "2 order 0 1",
            "3 order 0 2",
            "4 auction 0 2 0 0 0",
            "5 auction 0 1 100200 30 1",
            "trade 1 2 30",
            "6 delete 11",
            "7 delete 11",
            "end 7",
        ],
    );
}

#[test]
fn faults() {
    check(&[], &["end 0"]);
    for cut in 1..24 {
        check(&[start()[..cut].to_vec()], &["1 fault 1", "end 0"]);
    }
    // An unknown kind or a wrong length, whole or with bytes missing; what follows isn't read.
    for bad in [
        record(0, &[]),
        record(9, &[&[1]]),
        record(3, &[]),
        record(4, &[&[1, 1]]),
        record(5, &[&[1; 17]]),
        record(5, &[&[1; 19]]),
        vec![0, 0, 1, 0],
        vec![24, 0, 2, 0],
        vec![255, 255, 9, 0],
    ] {
        check(&[start(), bad.clone()], &["1 start 0", "2 fault 1", "end 1"]);
        check(&[start(), bad, auction(OPENING)], &["1 start 0", "2 fault 1", "end 1"]);
    }
    // A cut record behind a good one.
    for record in [day(BUY, 1, 100_000), quote(99_900, 100_000)] {
        for cut in 1..record.len() {
            let cut = record[..cut].to_vec();
            check(&[start(), cut], &["1 start 0", "2 fault 1", "end 1"]);
        }
    }
    // Before the start too: a field out of range goes on, a fault ends.
    check(&[delete(0, 0), vec![5, 0, 4, 0]], &["1 delete 1", "2 fault 1", "end 1"]);
}

#[test]
fn start_fields_and_repeats() {
    let good = 1_000_000_000_000_000;
    let mut records = vec![
        start_with(0, 100_000, 9, 150, good),
        start_with(1_000_001, 2_000_002, 9, 150, good),
        start_with(100, 0, 9, 150, good),
        start_with(1, 100_000_001, 9, 150, good),
        start_with(100, 100_050, 9, 150, good),
        start_with(100, 100_000, 1, 150, good),
        start_with(100, 100_000, 1_000, 150, good),
        start_with(100, 100_000, 9, 0, good),
        start_with(100, 100_000, 9, 10_000, good),
        start_with(100, 100_000, 9, 150, 0),
        start_with(100, 100_000, 9, 150, good + 1),
    ];
    let mut lines: Vec<String> = (1..=11).map(|place| format!("{place} start 1")).collect();
    records.extend([start_with(1_000_000, 100_000_000, 999, 9_999, good), start()]);
    records.push(start_with(100, 100_050, 9, 150, good));
    lines.extend(["12 start 0", "13 start 3", "14 start 1", "end 14"].map(String::from));
    check(&records, &lines.iter().map(String::as_str).collect::<Vec<_>>());
}

#[test]
fn order_of_checks() {
    check(
        &[
            order_of(0, BUY, 3, 1, 100),
            day(BUY, 1, 100),
            delete(0, 7),
            delete(1, 0),
            delete(1_000_001, 7),
            delete(1_000_000, 7),
            auction(0),
            auction(3),
            auction(OPENING),
            start(),
            auction(CLOSING),
            day(0, 1, 100_000),
            day(3, 1, 100_000),
            order_of(7, BUY, 0, 1, 100_000),
            order_of(7, BUY, 5, 1, 100_000),
            day(BUY, 0, 100_000),
            day(BUY, 10_000_001, 100_000),
            day(BUY, 1, 100_000_001),
            day(BUY, 10_000_000, 900_050),
            day(BUY, 10_000_000, 900_000),
            day(BUY, 10_000_000, 100_000),
            day(BUY, 10_000_000, 99_900),
            order_of(65_535, BUY, 1, 1, 100_000),
            delete(1, 7),
            delete(2, 65_535),
            delete(1, 65_535),
            delete(1, 65_535),
        ],
        &[
            "1 order 1 0",
            "2 order 2 0",
            "3 delete 1",
            "4 delete 1",
            "5 delete 1",
            "6 delete 2",
            "7 auction 1 0 0 0 0",
            "8 auction 1 0 0 0 0",
            "9 auction 2 0 0 0 0",
            "10 start 0",
            "11 auction 4 0 0 0 0",
            "12 order 1 0",
            "13 order 1 0",
            "14 order 1 0",
            "15 order 1 0",
            "16 order 1 0",
            "17 order 1 0",
            "18 order 1 0",
            "19 order 5 0",
            "20 order 6 0",
            "21 order 7 0",
            "22 order 8 0",
            "23 order 0 1",
            "24 delete 11",
            "25 delete 11",
            "26 delete 0",
            "27 delete 11",
            "end 27",
        ],
    );
}

/// K4: the new reference price, 100,200, would let 901,700 pass 6 and refuse 9,980,040 by 8.
#[test]
fn phases_rests_and_new_reference() {
    check(
        &[
            start(),
            order_of(7, BUY, 1, 50, 100_200),
            order_of(7, SELL, 3, 30, 100_200),
            order_of(7, BUY, 4, 5, 99_000),
            order_of(7, BUY, 3, 5, 99_000),
            auction(OPENING),
            delete(1, 7),
            order_of(7, BUY, 1, 1, 100_200),
            day(BUY, 1, 901_700),
            day(BUY, 1, 901_800),
            day(BUY, 9_980_040, UNLIMITED),
            delete(5, 7),
            auction(CLOSING),
            delete(4, 7),
            day(BUY, 1, 100_200),
            auction(OPENING),
            auction(CLOSING),
            delete(3, 7),
        ],
        &[
            "1 start 0",
            "2 order 0 1",
            "3 order 0 2",
            "4 order 0 3",
            "5 order 0 4",
            "6 auction 0 1 100200 30 1",
            "trade 1 2 30",
            "7 delete 11",
            "8 order 4 0",
            "9 order 6 0",
            "10 order 6 0",
            "11 order 0 5",
            "12 delete 0",
            "13 auction 0 2 0 0 0",
            "14 delete 11",
            "15 order 4 0",
            "16 auction 4 0 0 0 0",
            "17 auction 4 0 0 0 0",
            "18 delete 0",
            "end 18",
        ],
    );
}

#[test]
fn errors_that_look_right() {
    // A reused place doesn't jump the queue.
    check(
        &[
            start(),
            day(BUY, 10, 100_000),
            day(BUY, 10, 100_000),
            delete(1, 7),
            day(BUY, 10, 100_000),
            day(SELL, 10, 100_000),
            auction(OPENING),
        ],
        &[
            "1 start 0",
            "2 order 0 1",
            "3 order 0 2",
            "4 delete 0",
            "5 order 0 3",
            "6 order 0 4",
            "7 auction 0 1 100000 10 1",
            "trade 2 4 10",
            "end 7",
        ],
    );
    // Non Opening answers before Delayed Opening, and leaves the delay unspent.
    check(
        &[
            start(),
            day(BUY, 50, UNLIMITED),
            day(SELL, 30, 102_000),
            auction(OPENING),
            day(SELL, 20, 103_000),
            auction(OPENING),
            auction(OPENING),
        ],
        &[
            "1 start 0",
            "2 order 0 1",
            "3 order 0 2",
            "4 auction 0 3 0 0 0",
            "5 order 0 3",
            "6 auction 0 4 103000 50 0",
            "7 auction 0 1 103000 50 2",
            "trade 1 2 30",
            "trade 1 3 20",
            "end 7",
        ],
    );
    // Unlimited with nobody opposite: the highest executable quantity is 0 and is exceeded.
    check_opening(&[day(SELL, 1, UNLIMITED)], &["auction 0 3 0 0 0"]);
}

#[test]
fn rank_of_sells() {
    check_opening(
        &[
            day(SELL, 10, 100_000),
            day(SELL, 10, 99_900),
            day(SELL, 10, UNLIMITED),
            day(SELL, 10, 99_900),
            day(BUY, 35, 100_000),
        ],
        &["auction 0 1 100000 35 4", "trade 5 3 10", "trade 5 2 10", "trade 5 4 10", "trade 5 1 5"],
    );
}

#[test]
fn all_places_taken() {
    let mut file = start();
    for _ in 0..512 {
        file.extend(day(BUY, 1, 100_000));
    }
    for more in [day(BUY, 1, 100_000), delete(5, 7), day(BUY, 1, 100_000), day(SELL, 1, 100_000)] {
        file.extend(more);
    }
    let lines = run(&file);
    assert!(lines.ends_with(
        "513 order 0 512\n514 order 10 0\n515 delete 0\n516 order 0 513\n517 order 10 0\nend 517\n"
    ));
}

#[test]
fn all_numbers_given() {
    let mut file = start();
    for number in 1..=1_000_000 {
        file.extend(day(BUY, 1, 100_000));
        file.extend(delete(number, 7));
    }
    file.extend(day(BUY, 1, 100_000));
    let lines = run(&file);
    assert!(lines.ends_with(
        "\n2000000 order 0 1000000\n2000001 delete 0\n2000002 order 9 0\nend 2000002\n"
    ));
}

#[test]
fn largest_numbers() {
    let mut file = start_with(1_000_000, 100_000_000, 999, 9_999, 1_000_000_000_000_000);
    file.extend(day(BUY, 10_000_000, 100_000_000));
    for _ in 0..256 {
        file.extend(day(BUY, 9_999_999, 100_000_000));
        file.extend(day(SELL, 9_999_999, UNLIMITED));
    }
    file.extend(auction(OPENING));
    let lines = run(&file);
    assert!(lines.contains("\n2 order 7 0\n3 order 0 1\n"));
    assert!(lines.contains("\n515 auction 0 1 100000000 2559999744 256\ntrade 1 2 9999999\n"));
}

#[test]
fn most_trades() {
    let mut file = [start(), day(BUY, 511, 100_000)].concat();
    for _ in 0..511 {
        file.extend(day(SELL, 1, 100_000));
    }
    file.extend(auction(OPENING));
    assert!(run(&file).contains("\n514 auction 0 1 100000 511 511\ntrade 1 2 1\ntrade 1 3 1\n"));
}

/// Any bytes end well, and the trades of every auction are as many and sum to what it says.
#[test]
fn any_bytes() {
    let mut seed: u64 = 1;
    let mut draw = move |below: u64| {
        seed = seed.wrapping_mul(6364136223846793005).wrapping_add(1442695040888963407);
        (seed >> 33) % below
    };
    for _ in 0..2_000 {
        let mut file = if draw(9) == 0 { vec![] } else { start() };
        for _ in 0..draw(60) {
            let limit = [UNLIMITED, 98_000 + 100 * draw(40) as u32][draw(8).min(1) as usize];
            let number = draw(40) as u32;
            file.extend(match draw(14) {
                0 => delete(number, 7),
                1 => auction(draw(4) as u8),
                2 | 3 => quote_of(7 + draw(2) as u16, (number, limit), (1 + number, limit + 200)),
                _ => order_of(7, draw(9) as u8 % 2 + 1, draw(6) as u8, number, limit),
            });
        }
        for _ in 0..draw(3) {
            let at = draw(file.len() as u64 + 1) as usize;
            file.insert(at, draw(256) as u8);
        }
        let lines = run(&file);
        let mut due = (0, 0);
        for line in lines.lines() {
            let words: Vec<&str> = line.split(' ').collect();
            let value = |at: usize| words[at].parse::<u64>().unwrap();
            if words[0] == "trade" {
                due = (due.0 - 1, due.1 - value(3));
                continue;
            }
            assert_eq!(due, (0, 0), "{lines}");
            if words[1] == "auction" && words[3] == "1" {
                due = (value(6), value(5));
            }
        }
        assert!(lines.lines().last().unwrap().starts_with("end "));
    }
}

#[test]
fn theoretical_p5() {
    let mut session = session(&[start(), day(BUY, 100, 100_500), day(SELL, 100, 99_500)]);
    // Asked again it is the same, and the auction then answers it: nothing was changed.
    for _ in 0..2 {
        assert_eq!(theoretical(&session, OPENING), Ok([1, 100_000, 100, 1]));
    }
    let opening = Record::Auction([1]);
    assert_eq!(answer(&mut session, &opening), "auction 0 1 100000 100 1\ntrade 1 2 100\n");
    assert_eq!(theoretical(&session, OPENING), Err(4));
    assert_eq!(theoretical(&session, CLOSING), Ok([2, 0, 0, 0]));
}

#[test]
fn theoretical_p8() {
    let sell = day(SELL, 30, 100_200);
    let non_opening = session(&[start(), day(BUY, 50, UNLIMITED), sell.clone()]);
    assert_eq!(theoretical(&non_opening, OPENING), Ok([3, 0, 0, 0]));
    let opens = session(&[start(), day(BUY, 30, UNLIMITED), sell]);
    assert_eq!(theoretical(&opens, OPENING), Ok([1, 100_200, 30, 1]));
}

#[test]
fn theoretical_p10() {
    let orders = [start(), day(BUY, 10, 101_500), day(SELL, 10, 101_500)];
    let delayed = session(&orders);
    // To foresee the delay doesn't spend it.
    for _ in 0..2 {
        assert_eq!(theoretical(&delayed, OPENING), Ok([4, 101_500, 10, 0]));
    }
    let spent = session(&[orders.concat(), auction(OPENING)]);
    assert_eq!(theoretical(&spent, OPENING), Ok([1, 101_500, 10, 1]));
    let at_once = session(&[start(), day(BUY, 10, 101_400), day(SELL, 10, 101_400)]);
    assert_eq!(theoretical(&at_once, OPENING), Ok([1, 101_400, 10, 1]));
}

/// Checks 1, 2, 4 in each phase: only the auction that the phase would allow.
#[test]
fn theoretical_checks() {
    let mut records = vec![];
    for (next, opening, closing) in [
        (start(), Err(2), Err(2)),
        (auction(OPENING), Ok([2, 0, 0, 0]), Err(4)),
        (auction(CLOSING), Err(4), Ok([2, 0, 0, 0])),
        (vec![], Err(4), Err(4)),
    ] {
        let session = session(&records);
        let answers = [0, OPENING, CLOSING, 3].map(|auction| theoretical(&session, auction));
        assert_eq!(answers, [Err(1), opening, closing, Err(1)]);
        records.push(next);
    }
}

/// Equal limits go by number, though order 4 has the place of order 1; at-the-close orders take
/// part in the closing only.
#[test]
fn ranked_reused_place() {
    let session = session(&[
        start(),
        day(BUY, 10, 100_000),
        day(BUY, 10, 100_000),
        day(BUY, 10, 100_100),
        delete(1, 7),
        day(BUY, 10, 100_000),
        order_of(7, BUY, 2, 10, UNLIMITED),
        day(SELL, 10, 100_100),
        day(SELL, 10, 100_000),
        day(SELL, 10, UNLIMITED),
        day(SELL, 10, 100_000),
    ]);
    assert_eq!(ranked(&session, BUY, OPENING), Ok(vec![3, 2, 4]));
    assert_eq!(ranked(&session, BUY, CLOSING), Ok(vec![5, 3, 2, 4]));
    assert_eq!(ranked(&session, SELL, OPENING), Ok(vec![8, 7, 9, 6]));
    // Further entries stay.
    let mut list = [77; 600];
    assert_eq!(session.ranked(1, 1, &mut list), Ok(3));
    assert_eq!((&list[..3], &list[3..]), (&[3, 2, 4][..], &[77; 597][..]));
}

/// Checks 1, 2, 12: a list of 511 is too short, however few orders there are.
#[test]
fn ranked_checks() {
    let fresh = Session::fresh();
    let closed = session(&[start(), auction(OPENING), auction(CLOSING)]);
    for (side, auction) in [(0, 1), (3, 1), (1, 0), (1, 3), (u64::MAX, 2), (2, u64::MAX)] {
        assert_eq!(fresh.ranked(side, auction, &mut []), Err(1));
        assert_eq!(closed.ranked(side, auction, &mut []), Err(1));
    }
    let mut list = [77; 512];
    assert_eq!(fresh.ranked(2, 2, &mut list[..511]), Err(2));
    assert_eq!(closed.ranked(2, 2, &mut list[..511]), Err(12));
    assert_eq!(closed.ranked(2, 2, &mut list), Ok(0));
    assert_eq!(list, [77; 512]);
}

#[test]
fn filled_front_sums() {
    let (buys, sells): ([u64; 4], [u64; 3]) = ([50, 30, 0, 20], [7, 7, 7]);
    let buy = |total| filled_front([&buys, &sells], 1, total);
    assert_eq!(buy(0), Ok(&buys[..0]));
    assert_eq!(buy(49), Ok(&buys[..0]));
    assert_eq!(buy(50), Ok(&buys[..1]));
    // The longest one: an entry of 0 adds nothing.
    assert_eq!(buy(80), Ok(&buys[..3]));
    assert_eq!(buy(99), Ok(&buys[..3]));
    assert_eq!(buy(100), Ok(&buys[..]));
    assert_eq!(filled_front([&buys, &sells], 2, 20), Ok(&sells[..2]));
    assert_eq!(filled_front([&buys, &[]], 2, 20), Ok(&[][..]));
    for side in [0, 3, 255, u64::MAX] {
        assert_eq!(filled_front([&buys, &sells], side, 20), Err(1));
    }
}

#[test]
fn filled_front_never_wraps() {
    const TOP: u64 = 1 << 63;
    let front = |list, total| filled_front([list, &[]], 1, total).map(<[u64]>::len);
    // A sum that wraps would come back to 0, to 1 or below the total.
    assert_eq!(front(&[TOP, TOP, 1], u64::MAX), Ok(1));
    assert_eq!(front(&[TOP, TOP - 1, 0, 1, 5], u64::MAX), Ok(3));
    assert_eq!(front(&[u64::MAX, 0, 1, 0], u64::MAX), Ok(2));
    assert_eq!(front(&[3, u64::MAX, 1], 10), Ok(1));
    assert_eq!(front(&[u64::MAX; 512], u64::MAX), Ok(1));
    assert_eq!(front(&[u64::MAX; 512], u64::MAX - 1), Ok(0));
}

#[test]
fn filled_front_512_entries() {
    let list = [1; 513];
    let lists = [&list[..512], &list[..512]];
    for (side, total, length) in [(1, 511, 511), (2, 512, 512), (1, u64::MAX, 512)] {
        assert_eq!(filled_front(lists, side, total), Ok(&list[..length]));
    }
    // Refused if either list is longer, whichever side is asked for.
    for side in 0..=3 {
        assert_eq!(filled_front([&list, &[]], side, 511), Err(1));
        assert_eq!(filled_front([&[], &list], side, 511), Err(1));
    }
}

/// What a look before the start prints behind its place.
const FRESH: &str = "\
theoretical 0 1 0 0 0 0
theoretical 1 2 0 0 0 0
theoretical 2 2 0 0 0 0
theoretical 3 1 0 0 0 0
ranked 0 0 1 0
ranked 0 1 1 0
ranked 0 2 1 0
ranked 0 3 1 0
ranked 1 0 1 0
ranked 1 1 2 0
ranked 1 2 2 0
ranked 1 3 1 0
ranked 2 0 1 0
ranked 2 1 2 0
ranked 2 2 2 0
ranked 2 3 1 0
ranked 3 0 1 0
ranked 3 1 1 0
ranked 3 2 1 0
ranked 3 3 1 0
short 0 1 0
short 1 2 0
short 2 2 0
short 3 1 0
front 0 0 1 0 0
front 0 18446744073709551615 1 0 0
front 1 0 0 0 0
front 1 18446744073709551615 0 0 0
front 2 0 0 0 0
front 2 18446744073709551615 0 0 0
front 3 0 1 0 0
front 3 18446744073709551615 1 0 0
long 0 511
long 1 0
long 1 0
";

/// Before each auction record, and where the walk ends: here at the end, and at a fault.
#[test]
fn looks_before_the_start() {
    assert_eq!(looks(&[]), format!("look 1\n{FRESH}end 0\n"));
    let file = [auction(9), delete(0, 0), auction(OPENING), vec![5, 0, 4, 0]].concat();
    assert_eq!(looks(&file), format!("look 1\n{FRESH}look 3\n{FRESH}look 4\n{FRESH}end 3\n"));
}

/// The same by hand for two buys, the second at-the-close, and two sells, in pre-opening. The buys
/// times 2^40 are two numbers of 64 bits whose sum is none.
const BOOK: &str = "\
theoretical 0 1 0 0 0 0
theoretical 1 0 1 99900 9000000 1
theoretical 2 4 0 0 0 0
theoretical 3 1 0 0 0 0
ranked 0 0 1 0
ranked 0 1 1 0
ranked 0 2 1 0
ranked 0 3 1 0
ranked 1 0 1 0
ranked 1 1 0 1 1
ranked 1 2 0 2 2 1
ranked 1 3 1 0
ranked 2 0 1 0
ranked 2 1 0 2 4 3
ranked 2 2 0 2 4 3
ranked 2 3 1 0
ranked 3 0 1 0
ranked 3 1 1 0
ranked 3 2 1 0
ranked 3 3 1 0
short 0 1 0
short 1 12 0
short 2 12 0
short 3 1 0
front 0 18999000 1 0 0
front 0 18446744073709551615 1 0 0
front 1 10500000 0 1 9999000
front 1 18446744073709551615 0 1 10994016766132224000
front 2 18999000 0 2 1000000
front 2 18446744073709551615 0 2 1099511627776000000
front 3 18999000 1 0 0
front 3 18446744073709551615 1 0 0
long 0 511
long 1 0
long 1 0
";

#[test]
fn looks_at_a_book() {
    let records = [
        start(),
        day(BUY, 9_000_000, 100_200),
        order_of(7, BUY, 2, 9_999_000, UNLIMITED),
        day(SELL, 1_000_000, 100_000),
        day(SELL, 9_500_000, 99_900),
        auction(0),
    ];
    // The auction of byte 0 changes nothing.
    assert_eq!(looks(&records.concat()), format!("look 6\n{BOOK}look 7\n{BOOK}end 6\n"));
}

/// The worked start record's bytes, from its fields alone.
#[test]
fn write_the_worked_start() {
    let mut written = Vec::new();
    let record = Record::Start([100, 100_000, 9, 150, 1_000_000_000_000]);
    assert_eq!(write(&record, &mut written), Ok(()));
    let bytes: [u8; 24] = [
        0x18, 0x00, 0x01, 0x00, 0x64, 0x00, 0x00, 0x00, 0xA0, 0x86, 0x01, 0x00, 0x09, 0x00, 0x96,
        0x00, 0x00, 0x10, 0xA5, 0xD4, 0xE8, 0x00, 0x00, 0x00,
    ];
    assert_eq!(written, bytes);
    // Behind what is there; and each whole or not at all.
    assert_eq!(write(&Record::Auction([2]), &mut written), Ok(()));
    assert_eq!(write(&Record::Auction([3]), &mut written), Err(1));
    assert_eq!(write(&Record::Delete([1, 0]), &mut written), Err(1));
    assert_eq!(written, [&bytes[..], &[5, 0, 4, 0, 2]].concat());
}

/// Good records of all six kinds, each field with its ends and with bytes that all differ.
fn good_records() -> Vec<Vec<u8>> {
    vec![
        start(),
        order_of(0x0201, BUY, 3, 0x0076_5432, 0x0432_1076),
        order_of(1, BUY, 1, 1, UNLIMITED),
        order_of(65_535, SELL, 4, 10_000_000, 100_000_000),
        delete(0x000A_0B0C, 0x0D0E),
        delete(1, 65_535),
        delete(1_000_000, 1),
        auction(OPENING),
        auction(CLOSING),
        quote_of(0x0201, (0x0076_5432, 0x0432_1076), (0x0065_4321, 0x0543_2107)),
        quote_of(1, (1, 1), (10_000_000, 100_000_000)),
        // Good though the calls would be refused by 13.
        quote_of(65_535, (10_000_000, 100_000_000), (1, 1)),
        quote_of(65_535, (1, 100), (1, 100)),
        // Good though its call would be refused by 3.
        start_with(1_000_000, 100_000_000, 999, 9_999, 1_000_000_000_000_000),
        start_with(1, 1, 2, 1, 1),
        start_with(0x0001_0203, 0x0001_0203, 0x0102, 0x0304, 0x0001_0203_0405_0607),
        banded(&BANDS, 100_000),
        // One row, which kind 1 could say too; and eight.
        banded_with(&[(1, 1)], 1, (2, 1, 1)),
        banded_with(&[(1, 1_000_000)], 100_000_000, (999, 9_999, 1_000_000_000_000_000)),
        banded(&EIGHT, 100_000_000),
        banded_with(
            &[(1, 0x000A_0B0C), (0x0102_0304, 0x0005_0607)],
            0x0005_0607 * 52,
            (0x0102, 0x0304, 0x0001_0203_0405_0607),
        ),
    ]
}

#[test]
fn rewrite_a_good_file() {
    assert_eq!(rewrite(&[]), []);
    let file = good_records().concat();
    assert_eq!(rewrite(&file), file);
    for record in good_records() {
        assert_eq!(rewrite(&record), record);
    }
}

#[test]
fn rewrite_up_to_a_bad_field() {
    let good = 1_000_000_000_000_000;
    for bad in [
        start_with(0, 100_000, 9, 150, good),
        start_with(1_000_001, 2_000_002, 9, 150, good),
        start_with(100, 0, 9, 150, good),
        start_with(1, 100_000_001, 9, 150, good),
        // The reference price is no multiple of the step.
        start_with(100, 100_050, 9, 150, good),
        start_with(200, 100, 9, 150, good),
        start_with(100, 100_000, 1, 150, good),
        start_with(100, 100_000, 1_000, 150, good),
        start_with(100, 100_000, 9, 0, good),
        start_with(100, 100_000, 9, 10_000, good),
        start_with(100, 100_000, 9, 150, 0),
        start_with(100, 100_000, 9, 150, good + 1),
        order_of(0, BUY, 3, 1, 100),
        order_of(7, 0, 3, 1, 100),
        order_of(7, 3, 3, 1, 100),
        order_of(7, BUY, 0, 1, 100),
        order_of(7, BUY, 5, 1, 100),
        order_of(7, BUY, 3, 0, 100),
        order_of(7, BUY, 3, 10_000_001, 100),
        order_of(7, BUY, 3, 1, 100_000_001),
        delete(0, 7),
        delete(1_000_001, 7),
        delete(7, 0),
        auction(0),
        auction(3),
        quote_of(0, (1, 100), (1, 200)),
        quote_of(7, (0, 100), (1, 200)),
        quote_of(7, (10_000_001, 100), (1, 200)),
        quote_of(7, (1, 0), (1, 200)),
        quote_of(7, (1, 100_000_001), (1, 200)),
        quote_of(7, (1, 100), (0, 200)),
        quote_of(7, (1, 100), (10_000_001, 200)),
        quote_of(7, (1, 100), (1, 0)),
        quote_of(7, (1, 100), (1, 100_000_001)),
        banded(&[], 100_000),
        banded(&[(2, 1)], 100_000),
        banded(&[(1, 0)], 100_000),
        banded(&[(1, 1), (1, 1)], 100_000),
        banded(&[(1, 1), (100_000_001, 1)], 100_000),
        banded(&[(1, 1), (100_000_000, 1_000_001)], 100_000),
        // The reference price is no multiple of the step of its row.
        banded(&[(1, 100), (100_000, 3_000)], 100_000),
        banded(&[(1, 1)], 0),
        banded(&[(1, 1)], 100_000_001),
        banded_with(&[(1, 1)], 100_000, (1, 150, good)),
        banded_with(&[(1, 1)], 100_000, (9, 10_000, good)),
        banded_with(&[(1, 1)], 100_000, (9, 150, good + 1)),
        banded(&rising(9), 100_000),
        banded(&rising(8_189), 100_000),
    ] {
        // It is the third record, and the call on it answers 1.
        let file = [start(), day(BUY, 1, UNLIMITED), bad, auction(OPENING)];
        assert_eq!(rewrite(&file.concat()), file[..2].concat());
        let lines = run(&file.concat());
        assert_eq!(lines.lines().nth(2).and_then(|line| line.split(' ').nth(2)), Some("1"));
        assert_eq!(rewrite(&file[2..].concat()), []);
    }
}

#[test]
fn rewrite_up_to_a_fault() {
    let (before, behind) = (good_records().concat(), auction(OPENING));
    for bad in [
        record(0, &[]),
        record(9, &[&[1]]),
        record(3, &[]),
        record(4, &[&[1, 1]]),
        record(5, &[&[1; 17]]),
        record(5, &[&[1; 19]]),
        record(6, &[&[1, 0]]),
        banded_counting(2, &[(1, 1)], &start()[8..]),
        banded_counting(65_535, &rising(9), &start()[8..]),
        vec![0, 0, 1, 0],
        vec![24, 0, 2, 0],
        vec![255, 255, 9, 0],
    ] {
        assert_eq!(rewrite(&[&before[..], &bad, &behind].concat()), before);
        assert_eq!(rewrite(&bad), []);
    }
    // Cut records: whole or not at all.
    for record in good_records() {
        for cut in 1..record.len() {
            assert_eq!(rewrite(&[&before[..], &record[..cut]].concat()), before);
        }
    }
}

/// What a book holds, place by place: number, quantity left and whether it is a quote side.
fn places(session: &Session) -> Vec<Option<(u64, u64, bool)>> {
    let told = |order: Order| (order.number, order.open, order.quote_side);
    let book: Vec<_> = session.book.iter().map(|place| place.map(told)).collect();
    let taken = book.iter().rposition(Option::is_some).map_or(0, |place| place + 1);
    book[..taken].to_vec()
}

/// K2: the two numbers run on, the two lowest free places are taken, and validity is day.
#[test]
fn quote_entered() {
    let records = [
        start(),
        day(BUY, 1, 99_000),
        day(BUY, 2, 99_000),
        day(BUY, 3, 99_000),
        delete(1, 7),
        delete(2, 7),
        quote_of(8, (40, 99_800), (50, 100_200)),
        day(SELL, 6, 101_000),
    ];
    let lines = run(&records.concat());
    assert!(lines.ends_with("\n7 quote 0 4 5\n8 order 0 6\nend 8\n"));
    let session = session(&records);
    let expected =
        [Some((4, 40, true)), Some((5, 50, true)), Some((3, 3, false)), Some((6, 6, false))];
    assert_eq!(places(&session), expected);
    let sides: Vec<Order> = session.book.iter().flatten().take(2).copied().collect();
    assert!(sides.iter().all(|side| side.member == 8 && side.validity == DAY));
    assert!(sides[0].side == Side::Buy && sides[0].limit == Limit::Price(99_800));
    assert!(sides[1].side == Side::Sell && sides[1].limit == Limit::Price(100_200));
}

/// K2: a member has at most one quote, and its plain orders are never touched; nor is another
/// member's quote.
#[test]
fn quote_overwritten() {
    let records = [
        start(),
        day(BUY, 1, 99_000),
        quote(99_800, 100_200),
        quote_of(8, (30, 99_700), (30, 100_300)),
        day(SELL, 1, 101_000),
        quote(99_900, 100_100),
        delete(2, 7),
        delete(3, 7),
        delete(1, 7),
        delete(6, 7),
        delete(4, 8),
        delete(7, 7),
        delete(8, 7),
    ];
    check(
        &records,
        &[
            "1 start 0",
            "2 order 0 1",
            "3 quote 0 2 3",
            "4 quote 0 4 5",
            "5 order 0 6",
            "6 quote 0 7 8",
            "7 delete 11",
            "8 delete 11",
            "9 delete 0",
            "10 delete 0",
            "11 delete 0",
            "12 delete 0",
            "13 delete 0",
            "end 13",
        ],
    );
    // The old quote's places are the lowest that are free.
    let expected = [
        Some((1, 1, false)),
        Some((7, 10, true)),
        Some((8, 10, true)),
        Some((4, 30, true)),
        Some((5, 30, true)),
        Some((6, 1, false)),
    ];
    assert_eq!(places(&session(&records[..6])), expected);
}

/// K2: 10 exactly when fewer than two places would be free once the old quote is gone.
#[test]
fn quote_in_a_full_book() {
    let (seven, eight) = (quote(99_800, 100_200), quote_of(8, (10, 99_800), (10, 100_200)));
    let mut records = vec![start(), seven.clone()];
    records.extend(vec![day(BUY, 1, 99_000); 509]);
    records.extend([
        // One place is free.
        eight.clone(),
        seven.clone(),
        day(BUY, 1, 99_000),
        // The book is full.
        seven.clone(),
        eight.clone(),
        delete(515, 7),
        // One place is free, and half of the quote is left.
        eight.clone(),
        seven.clone(),
        // Full again; the place of a deleted side goes to a plain order.
        delete(518, 7),
        day(BUY, 1, 99_000),
        seven.clone(),
        delete(517, 7),
        // One place is free, and nothing is left of the quote.
        seven.clone(),
        delete(3, 7),
        seven.clone(),
        eight,
    ]);
    let lines = run(&records.concat());
    let expected = [
        "511 order 0 511",
        "512 quote 10 0 0",
        "513 quote 0 512 513",
        "514 order 0 514",
        "515 quote 0 515 516",
        "516 quote 10 0 0",
        "517 delete 0",
        "518 quote 10 0 0",
        "519 quote 0 517 518",
        "520 delete 0",
        "521 order 0 519",
        "522 quote 10 0 0",
        "523 delete 0",
        "524 quote 10 0 0",
        "525 delete 0",
        "526 quote 0 520 521",
        "527 quote 10 0 0",
        "end 527\n",
    ];
    assert!(lines.ends_with(&expected.join("\n")), "{lines}");
}

/// K2: the order of checks, each on the bid and then on the ask; 13 stands between 1 and 2.
#[test]
fn quote_refused_in_order() {
    let far = 900_000;
    check(
        &[
            quote_of(0, (1, 200), (1, 100)),
            quote(0, 100),
            quote(100, 0),
            quote(100_000_001, 100),
            quote_of(7, (0, 200), (1, 100)),
            quote_of(7, (1, 200), (10_000_001, 100)),
            quote(200, 100),
            quote(100, 100),
            quote(100, 200),
            start(),
            quote(100_050, 100_050),
            quote(100_050, far),
            // 5 on the ask goes before 6, 7 and 8 on the bid.
            quote_of(7, (10_000_000, 11_100), (10_000_000, 100_050)),
            // 6 on the ask goes before 7 on the bid.
            quote_of(7, (10_000_000, 100_000), (1, far)),
            quote_of(7, (10_000_000, 11_100), (1, 100_100)),
            // 7 on the ask goes before 8 on the bid.
            quote_of(7, (10_000_000, 99_900), (10_000_000, 100_000)),
            quote_of(7, (10_000_000, 100_000), (1, 100_100)),
            quote_of(7, (10_000_000, 99_800), (1, 99_900)),
            quote_of(7, (1, 99_800), (10_000_000, 99_900)),
            quote(99_800, 99_900),
            auction(OPENING),
            auction(CLOSING),
            quote_of(7, (10_000_000, 50), (10_000_000, 100_050)),
            quote(200, 100),
            quote(0, 100),
        ],
        &[
            "1 quote 1 0 0",
            "2 quote 1 0 0",
            "3 quote 1 0 0",
            "4 quote 1 0 0",
            "5 quote 1 0 0",
            "6 quote 1 0 0",
            "7 quote 13 0 0",
            "8 quote 13 0 0",
            "9 quote 2 0 0",
            "10 start 0",
            "11 quote 13 0 0",
            "12 quote 5 0 0",
            "13 quote 5 0 0",
            "14 quote 6 0 0",
            "15 quote 6 0 0",
            "16 quote 7 0 0",
            "17 quote 7 0 0",
            "18 quote 8 0 0",
            "19 quote 8 0 0",
            "20 quote 0 1 2",
            "21 auction 0 2 0 0 0",
            "22 auction 0 2 0 0 0",
            "23 quote 4 0 0",
            "24 quote 13 0 0",
            "25 quote 1 0 0",
            "end 25",
        ],
    );
}

/// K2: both sides pass, or neither is entered and the old quote stays; no number is used.
#[test]
fn quote_refused_leaves_the_old() {
    let old = [start(), quote(99_800, 100_200)];
    for (refused, answer) in [
        (quote(0, 100_000), 1),
        (quote(100_000, 100_000), 13),
        (quote(99_850, 100_000), 5),
        (quote(99_800, 100_050), 5),
        (quote(11_100, 100_000), 6),
        (quote(99_800, 900_000), 6),
        (quote_of(7, (5_000_000, 200_000), (1, 200_100)), 7),
        (quote_of(7, (1, 99_800), (5_000_000, 200_000)), 7),
        (quote_of(7, (10_000_000, 99_800), (1, 99_900)), 8),
        (quote_of(7, (1, 99_800), (10_000_000, 99_900)), 8),
    ] {
        let records = [&old[..], &[refused, quote(99_900, 100_100)]].concat();
        let refusal = format!("3 quote {answer} 0 0");
        check(&records, &["1 start 0", "2 quote 0 1 2", &refusal, "4 quote 0 3 4", "end 4"]);
        let stays = [Some((1, 10, true)), Some((2, 10, true))];
        assert_eq!(places(&session(&records[..3])), stays);
    }
}

/// One side deleted by its number: the other stays and is what is left of the quote.
#[test]
fn quote_with_a_side_deleted() {
    check(
        &[
            start(),
            quote(99_800, 100_200),
            delete(1, 8),
            delete(1, 7),
            delete(1, 7),
            // Meets the ask alone.
            day(BUY, 4, 100_200),
            quote(99_700, 100_300),
            delete(2, 7),
            auction(OPENING),
            delete(4, 7),
            quote(99_700, 100_300),
            delete(5, 7),
            delete(6, 7),
            delete(7, 7),
        ],
        &[
            "1 start 0",
            "2 quote 0 1 2",
            "3 delete 11",
            "4 delete 0",
            "5 delete 11",
            "6 order 0 3",
            "7 quote 0 4 5",
            "8 delete 11",
            "9 auction 0 2 0 0 0",
            "10 delete 0",
            "11 quote 0 6 7",
            "12 delete 11",
            "13 delete 0",
            "14 delete 0",
            "end 14",
        ],
    );
}

/// Sides trade as orders do; what is left of a half executed quote is overwritten, rest and all.
#[test]
fn quote_half_executed() {
    let records = [
        start(),
        quote_of(7, (100, 100_000), (100, 100_200)),
        day(SELL, 30, 100_000),
        auction(OPENING),
        quote_of(7, (50, 100_000), (100, 100_100)),
        day(SELL, 200, 100_000),
        auction(CLOSING),
    ];
    check(
        &records,
        &[
            "1 start 0",
            "2 quote 0 1 2",
            "3 order 0 3",
            "4 auction 0 1 100000 30 1",
            "trade 1 3 30",
            "5 quote 0 4 5",
            "6 order 0 6",
            "7 auction 0 1 100000 50 1",
            "trade 4 6 50",
            "end 7",
        ],
    );
    assert_eq!(places(&session(&records[..4])), [Some((1, 70, true)), Some((2, 100, true))]);
    assert_eq!(places(&session(&records[..5])), [Some((4, 50, true)), Some((5, 100, true))]);
}

/// Two members' quotes cross at the opening: rank by price and then by number, whatever they are.
#[test]
fn quotes_cross() {
    check(
        &[
            start(),
            quote_of(7, (10, 100_100), (10, 100_300)),
            quote_of(8, (20, 99_700), (25, 100_100)),
            day(BUY, 20, 100_100),
            day(BUY, 5, 100_200),
            auction(OPENING),
        ],
        &[
            "1 start 0",
            "2 quote 0 1 2",
            "3 quote 0 3 4",
            "4 order 0 5",
            "5 order 0 6",
            "6 auction 0 1 100100 25 3",
            "trade 6 4 5",
            "trade 1 4 10",
            "trade 5 4 10",
            "end 6",
        ],
    );
}

/// Validity is day: a quote stays after the opening and ends at the close.
#[test]
fn quote_until_the_close() {
    let records = [
        start(),
        quote(99_800, 100_200),
        order_of(7, BUY, 4, 1, 99_000),
        auction(OPENING),
        auction(CLOSING),
        delete(1, 7),
        delete(2, 7),
        delete(3, 7),
    ];
    check(
        &records,
        &[
            "1 start 0",
            "2 quote 0 1 2",
            "3 order 0 3",
            "4 auction 0 2 0 0 0",
            "5 auction 0 2 0 0 0",
            "6 delete 11",
            "7 delete 11",
            "8 delete 0",
            "end 8",
        ],
    );
    let before = [Some((1, 10, true)), Some((2, 10, true)), Some((3, 1, false))];
    assert_eq!(places(&session(&records[..4])), before);
}

/// K4: control 6 goes by the start's reference price, as for an order. The new one would refuse
/// the bid of 11,200 and let the ask of 900,000 pass.
#[test]
fn quote_after_a_new_reference() {
    check(
        &[
            start(),
            day(BUY, 10, 101_400),
            day(SELL, 10, 101_400),
            quote(11_200, 899_900),
            auction(OPENING),
            quote(11_200, 900_000),
            quote(11_300, 900_000),
            quote(11_200, 899_900),
        ],
        &[
            "1 start 0",
            "2 order 0 1",
            "3 order 0 2",
            "4 quote 0 3 4",
            "5 auction 0 1 101400 10 1",
            "trade 1 2 10",
            "6 quote 6 0 0",
            "7 quote 6 0 0",
            "8 quote 0 5 6",
            "end 8",
        ],
    );
}

/// With 999,998 numbers given a quote takes the last two; with 999,999 it is refused, and an order
/// takes the last one.
#[test]
fn last_numbers_of_quotes() {
    let mut file = start();
    for _ in 0..499_999 {
        file.extend(quote(99_800, 100_200));
    }
    let (two, one) = (quote(99_800, 100_200), day(BUY, 1, 99_000));
    let lines = run(&[&file[..], &two, &two, &one, &delete(1_000_000, 7), &two].concat());
    assert!(lines.ends_with(
        "\n500001 quote 0 999999 1000000\n500002 quote 9 0 0\n500003 order 9 0\n\
         500004 delete 0\n500005 quote 9 0 0\nend 500005\n"
    ));
    let lines = run(&[&file[..], &one, &two, &one, &two, &one].concat());
    assert!(lines.ends_with(
        "\n500001 order 0 999999\n500002 quote 9 0 0\n500003 order 0 1000000\n\
         500004 quote 9 0 0\n500005 order 9 0\nend 500005\n"
    ));
}

/// The calls that change nothing read quote sides as orders.
#[test]
fn quote_sides_ranked() {
    let session = session(&[
        start(),
        quote(99_800, 100_200),
        day(BUY, 10, 99_800),
        quote_of(8, (10, 99_900), (10, 100_100)),
        quote(99_800, 100_100),
    ]);
    assert_eq!(ranked(&session, BUY, OPENING), Ok(vec![4, 3, 6]));
    assert_eq!(ranked(&session, SELL, CLOSING), Ok(vec![5, 7]));
    assert_eq!(theoretical(&session, OPENING), Ok([2, 0, 0, 0]));
    // A look prints them, too.
    let file = [start(), quote(99_800, 100_200)].concat();
    assert!(looks(&file).contains("\nranked 1 1 0 1 1\n"));
    assert!(looks(&file).contains("\nranked 2 2 0 1 2\n"));
}

#[test]
fn write_a_quote() {
    let (mut written, fields) = (Vec::new(), [7, 50, 100_200, 258, 100_400]);
    assert_eq!(write(&Record::Quote(fields), &mut written), Ok(()));
    assert_eq!(written, quote_of(7, (50, 100_200), (258, 100_400)));
    assert_eq!(write(&Record::Quote([7, 50, 0, 258, 100_400]), &mut written), Err(1));
    assert_eq!(written.len(), 22);
}

/// K4: opens at a price far from the start's reference price of 100,000. The opening is delayed and
/// asked again; then the price is the reference price in force and the book is empty.
fn opened_at(price: u32) -> Vec<Vec<u8>> {
    let (buy, sell) = (day(BUY, 10, price), day(SELL, 10, price));
    vec![start(), buy, sell, auction(OPENING), auction(OPENING)]
}

/// Runs the records after such an opening, and compares the lines behind the opening's.
fn check_opened_at(price: u32, records: &[Vec<u8>], expected: &[&str]) {
    let delayed = format!("4 auction 0 4 {price} 10 0");
    let opened = format!("5 auction 0 1 {price} 10 1");
    let opening = ["1 start 0", "2 order 0 1", "3 order 0 2", &delayed, &opened, "trade 1 2 10"];
    check(&[&opened_at(price)[..], records].concat(), &[&opening[..], expected].concat());
}

/// K4: control 6 passes 11,200 to 899,900 all day. By 500,000 it would pass 55,600 to 4,499,900.
#[test]
fn collar_after_a_rise() {
    check_opened_at(
        500_000,
        &[
            day(BUY, 1, 55_500),
            day(SELL, 1, 11_200),
            day(SELL, 1, 11_100),
            day(BUY, 1, 899_900),
            day(BUY, 1, 900_000),
            order_of(8, SELL, 4, 1, 900_000),
            day(SELL, 1, 4_499_900),
            day(SELL, 1, 4_500_000),
            // 6 goes before 7.
            day(BUY, 10_000_000, 900_000),
        ],
        &[
            "6 order 0 3",
            "7 order 0 4",
            "8 order 6 0",
            "9 order 0 5",
            "10 order 6 0",
            "11 order 6 0",
            "12 order 6 0",
            "13 order 6 0",
            "14 order 6 0",
            "end 14",
        ],
    );
}

/// K4: by 20,000 control 6 would pass 2,300 to 179,900.
#[test]
fn collar_after_a_fall() {
    check_opened_at(
        20_000,
        &[
            day(BUY, 1, 180_000),
            day(SELL, 1, 899_900),
            order_of(8, SELL, 2, 1, 899_900),
            day(SELL, 1, 900_000),
            day(BUY, 1, 11_200),
            day(BUY, 1, 11_100),
            day(SELL, 1, 11_100),
            day(SELL, 1, 2_300),
            day(SELL, 1, 2_200),
        ],
        &[
            "6 order 0 3",
            "7 order 0 4",
            "8 order 0 5",
            "9 order 6 0",
            "10 order 0 6",
            "11 order 6 0",
            "12 order 6 0",
            "13 order 6 0",
            "14 order 6 0",
            "end 14",
        ],
    );
}

/// K4: control 8 refuses 10,000,000 and no less all day. By 500,000 it would refuse 2,000,000.
#[test]
fn value_after_a_rise() {
    check_opened_at(
        500_000,
        &[
            day(BUY, 2_000_000, UNLIMITED),
            day(SELL, 9_999_999, UNLIMITED),
            day(BUY, 10_000_000, UNLIMITED),
            day(BUY, 2_000_000, 499_900),
            day(SELL, 9_999_999, 100_000),
            day(SELL, 10_000_000, 99_900),
            // Control 7 has no reference price in it.
            day(BUY, 4_999_999, 200_000),
            day(BUY, 5_000_000, 200_000),
            day(BUY, 2_000_000, 500_000),
        ],
        &[
            "6 order 0 3",
            "7 order 0 4",
            "8 order 8 0",
            "9 order 0 5",
            "10 order 0 6",
            "11 order 8 0",
            "12 order 0 7",
            "13 order 7 0",
            "14 order 7 0",
            "end 14",
        ],
    );
}

/// K4: by 20,000 control 8 would refuse nothing.
#[test]
fn value_after_a_fall() {
    check_opened_at(
        20_000,
        &[
            day(SELL, 10_000_000, UNLIMITED),
            day(SELL, 9_999_999, UNLIMITED),
            day(BUY, 10_000_000, 99_900),
            day(BUY, 9_999_999, 99_900),
            day(BUY, 10_000_000, 20_000),
            // Control 7 has no reference price in it.
            day(BUY, 10_000_000, 100_000),
            day(BUY, 4_999_999, 200_000),
            day(BUY, 5_000_000, 200_000),
        ],
        &[
            "6 order 8 0",
            "7 order 0 3",
            "8 order 8 0",
            "9 order 0 4",
            "10 order 8 0",
            "11 order 7 0",
            "12 order 0 5",
            "13 order 7 0",
            "end 13",
        ],
    );
}

/// K4: the same for each side of a quote.
#[test]
fn quote_after_a_rise() {
    check_opened_at(
        500_000,
        &[
            // 500,000 would refuse the bid by 6, then both sides.
            quote(11_200, 899_900),
            quote(11_200, 55_500),
            quote(11_100, 100_000),
            // 500,000 would let the ask pass 6, then both sides.
            quote(100_000, 900_000),
            quote(900_000, 4_499_900),
            // 500,000 would refuse the bid by 8, then the ask.
            quote_of(7, (9_999_999, 99_800), (1, 99_900)),
            quote_of(7, (1, 99_800), (9_999_999, 99_900)),
            quote_of(7, (10_000_000, 99_800), (1, 99_900)),
            quote_of(7, (1, 99_800), (10_000_000, 99_900)),
        ],
        &[
            "6 quote 0 3 4",
            "7 quote 0 5 6",
            "8 quote 6 0 0",
            "9 quote 6 0 0",
            "10 quote 6 0 0",
            "11 quote 0 7 8",
            "12 quote 0 9 10",
            "13 quote 8 0 0",
            "14 quote 8 0 0",
            "end 14",
        ],
    );
}

#[test]
fn quote_after_a_fall() {
    check_opened_at(
        20_000,
        &[
            // 20,000 would refuse the ask by 6, then both sides.
            quote(11_200, 899_900),
            quote(180_000, 180_100),
            quote(11_200, 900_000),
            // 20,000 would let the bid pass 6, then both sides.
            quote(11_100, 20_000),
            quote(2_300, 11_100),
            // 20,000 would let the bid pass 8, then the ask.
            quote_of(7, (10_000_000, 99_800), (1, 99_900)),
            quote_of(7, (1, 99_800), (10_000_000, 99_900)),
            quote_of(7, (9_999_999, 99_800), (9_999_999, 99_900)),
        ],
        &[
            "6 quote 0 3 4",
            "7 quote 0 5 6",
            "8 quote 6 0 0",
            "9 quote 6 0 0",
            "10 quote 6 0 0",
            "11 quote 8 0 0",
            "12 quote 8 0 0",
            "13 quote 0 7 8",
            "end 13",
        ],
    );
}

/// K4: a start that is refused, by 3 or by 1, moves neither of the reference prices.
#[test]
fn refused_start_moves_no_reference() {
    let other = start_with(100, 500_000, 2, 1, 1);
    let bad = start_with(100, 500_050, 9, 150, 1_000_000_000_000);
    let orders = [day(BUY, 1, 899_900), day(BUY, 1, 900_000), day(BUY, 9_999_999, UNLIMITED)];
    let refused = [bad.clone(), start(), other.clone(), bad.clone()];
    check(
        &[&refused[..], &orders].concat(),
        &[
            "1 start 1",
            "2 start 0",
            "3 start 3",
            "4 start 1",
            "5 order 0 1",
            "6 order 6 0",
            "7 order 0 2",
            "end 7",
        ],
    );
    let last = [day(SELL, 9_999_999, UNLIMITED), delete(3, 7), auction(CLOSING)];
    check_opened_at(
        20_000,
        &[&[other, bad], &orders[..], &last].concat(),
        &[
            "6 start 3",
            "7 start 1",
            "8 order 0 3",
            "9 order 6 0",
            "10 order 0 4",
            "11 order 0 5",
            "12 delete 0",
            "13 auction 0 1 20000 9999999 1",
            "trade 4 5 9999999",
            "end 13",
        ],
    );
}

/// Opens at the price, enters the orders and holds a closing: its four numbers, foreseen too, and
/// its trade.
fn check_closing(price: u32, orders: &[Vec<u8>], numbers: [u64; 4], trade: &str) {
    let mut session = session(&[&opened_at(price)[..], orders].concat());
    assert_eq!(theoretical(&session, CLOSING), Ok(numbers));
    let [outcome, price, quantity, count] = numbers;
    let lines = format!("auction 0 {outcome} {price} {quantity} {count}\ntrade {trade}\n");
    assert_eq!(answer(&mut session, &Record::Auction([2])), lines);
}

/// K4: the closing's nearest price goes by the reference price in force.
#[test]
fn closing_nearest_to_the_reference_in_force() {
    // The reference price in force is kept, and so would 100,000 be.
    let orders = [day(BUY, 100, 600_000), day(SELL, 100, 15_000)];
    check_closing(500_000, &orders, [1, 500_000, 100, 1], "3 4 100");
    check_closing(20_000, &orders, [1, 20_000, 100, 1], "3 4 100");
    // It isn't kept: one of the limits. 100,000 would be kept, and is nearest to the other limit.
    let orders = [day(BUY, 100, 450_000), day(SELL, 100, 80_000)];
    check_closing(500_000, &orders, [1, 450_000, 100, 1], "3 4 100");
    let orders = [day(BUY, 100, 110_000), day(SELL, 100, 30_000)];
    check_closing(20_000, &orders, [1, 30_000, 100, 1], "3 4 100");
    // The book of P9, surplus on both sides.
    let orders = [
        day(BUY, 100, 100_400),
        day(BUY, 20, 100_200),
        day(SELL, 100, 99_800),
        day(SELL, 20, 100_400),
    ];
    check_closing(500_000, &orders, [1, 100_400, 100, 1], "3 5 100");
    check_closing(20_000, &orders, [1, 99_800, 100, 1], "3 5 100");
}

/// K4: the closing's candidate beside the limits is the reference price in force.
#[test]
fn closing_candidate_is_the_reference_in_force() {
    // The only one.
    let orders = [day(BUY, 50, UNLIMITED), day(SELL, 50, UNLIMITED)];
    check_closing(500_000, &orders, [1, 500_000, 50, 1], "3 4 50");
    check_closing(20_000, &orders, [1, 20_000, 50, 1], "3 4 50");
    // The highest with demand to spare, the lowest with supply to spare.
    let orders = [day(BUY, 100, UNLIMITED), day(SELL, 60, 90_000)];
    check_closing(500_000, &orders, [1, 500_000, 60, 1], "3 4 60");
    let orders = [day(BUY, 60, 600_000), day(SELL, 100, UNLIMITED)];
    check_closing(20_000, &orders, [1, 20_000, 60, 1], "3 4 60");
}

/// K5: runs the records in a session that keeps the square, and compares whole.
fn check_clearing(records: &[Vec<u8>], expected: &[&str]) {
    assert_eq!(clearing(&records.concat()), expected.join("\n") + "\n");
}

/// Runs the records in such a session and compares the last lines.
fn check_clearing_ends(records: &[Vec<u8>], expected: &[&str]) {
    let lines = clearing(&records.concat());
    assert!(lines.ends_with(&(String::from("\n") + &expected.join("\n") + "\n")), "{lines}");
}

/// A day order of 10 that trades with nobody, of the member.
fn rest_of(member: u16) -> Vec<u8> {
    order_of(member, BUY, 3, 10, 99_000)
}

/// A start, and an order of each of so many members, from 1 up: places 2 up, numbers 1 up.
fn entered(members: u16) -> Vec<Vec<u8>> {
    [vec![start()], (1..=members).map(rest_of).collect()].concat()
}

/// The members entered after these records, in order.
fn members(records: &[Vec<u8>]) -> Vec<u64> {
    let mut session = keeping_the_square();
    run_in(&mut session, &records.concat());
    session.square.unwrap().members
}

/// The worked example of 01 is of one member, which buys from itself.
#[test]
fn member_buys_from_itself() {
    check_clearing(
        &[
            start(),
            day(BUY, 50, 100_200),
            day(BUY, 50, 100_400),
            day(BUY, 50, 100_200),
            day(SELL, 80, 100_200),
            auction(OPENING),
        ],
        &[
            "1 start 0",
            "2 order 0 1",
            "3 order 0 2",
            "4 order 0 3",
            "5 order 0 4",
            "6 auction 0 1 100200 80 2",
            "trade 2 4 50",
            "trade 1 4 30",
            "end 6",
            "owes 7 7 80",
            "total 80",
        ],
    );
    // The bid would meet the ask of its member's old quote, but that one is overwritten.
    check_clearing_ends(
        &[start(), quote(99_800, 100_000), quote(100_000, 100_200), auction(OPENING)],
        &["4 auction 0 2 0 0 0", "end 4", "total 0"],
    );
}

/// Rows and columns go by first accepted entry, not by member number, rank or trade.
#[test]
fn owes_by_rows_and_columns() {
    check_clearing(
        &[
            start(),
            // Refused: member 1 isn't entered yet.
            order_of(1, BUY, 3, 10, 100_050),
            order_of(65_535, SELL, 3, 30, 100_000),
            order_of(9, BUY, 3, 20, 100_000),
            quote_of(1, (40, 100_000), (5, 100_300)),
            order_of(9, SELL, 3, 15, UNLIMITED),
            order_of(65_535, BUY, 3, 10, UNLIMITED),
            order_of(2, SELL, 3, 25, 100_000),
            auction(OPENING),
        ],
        &[
            "1 start 0",
            "2 order 5 0",
            "3 order 0 1",
            "4 order 0 2",
            "5 quote 0 3 4",
            "6 order 0 5",
            "7 order 0 6",
            "8 order 0 7",
            "9 auction 0 1 100000 70 5",
            "trade 6 5 10",
            "trade 2 5 5",
            "trade 2 1 15",
            "trade 3 1 15",
            "trade 3 7 25",
            "end 9",
            "owes 65535 9 10",
            "owes 9 65535 15",
            "owes 9 9 5",
            "owes 1 65535 15",
            "owes 1 2 25",
            "total 70",
        ],
    );
}

/// Both auctions add to a cell; those of another outcome, and refused ones, add nothing.
#[test]
fn two_auctions_add_up() {
    check_clearing(
        &[
            start(),
            order_of(5, BUY, 3, 100, UNLIMITED),
            order_of(4, SELL, 3, 30, 101_500),
            auction(OPENING),
            auction(CLOSING),
            order_of(3, SELL, 3, 80, 101_600),
            auction(OPENING),
            auction(OPENING),
            auction(OPENING),
            // 10 are left of the second sell.
            order_of(4, SELL, 3, 50, 101_500),
            order_of(5, BUY, 3, 60, 101_600),
            order_of(3, BUY, 3, 7, 101_500),
            auction(CLOSING),
            auction(CLOSING),
        ],
        &[
            "1 start 0",
            "2 order 0 1",
            "3 order 0 2",
            "4 auction 0 3 0 0 0",
            "5 auction 4 0 0 0 0",
            "6 order 0 3",
            "7 auction 0 4 101600 100 0",
            "8 auction 0 1 101600 100 2",
            "trade 1 2 30",
            "trade 1 3 70",
            "9 auction 4 0 0 0 0",
            "10 order 0 4",
            "11 order 0 5",
            "12 order 0 6",
            "13 auction 0 1 101600 60 2",
            "trade 5 4 50",
            "trade 5 3 10",
            "14 auction 4 0 0 0 0",
            "end 14",
            "owes 5 4 80",
            "owes 5 3 80",
            "total 160",
        ],
    );
}

/// What was traded stays in its cell when the orders are gone or the quote is overwritten.
#[test]
fn trades_outlive_their_orders() {
    check_clearing(
        &[
            start(),
            quote_of(8, (100, 100_000), (100, 100_200)),
            order_of(6, SELL, 3, 30, 100_000),
            auction(OPENING),
            quote_of(8, (20, 100_000), (5, 100_100)),
            order_of(6, SELL, 3, 50, 100_000),
            order_of(6, BUY, 3, 5, 100_200),
            auction(CLOSING),
            delete(4, 8),
        ],
        &[
            "1 start 0",
            "2 quote 0 1 2",
            "3 order 0 3",
            "4 auction 0 1 100000 30 1",
            "trade 1 3 30",
            "5 quote 0 4 5",
            "6 order 0 6",
            "7 order 0 7",
            "8 auction 0 1 100000 25 2",
            "trade 7 6 5",
            "trade 4 6 20",
            "9 delete 11",
            "end 9",
            "owes 8 6 50",
            "owes 6 6 5",
            "total 55",
        ],
    );
}

/// The thirty-third member is refused by 16, by order and by quote, and uses no number.
#[test]
fn thirty_third_member() {
    let more = [
        rest_of(33),
        quote_of(33, (10, 99_800), (10, 100_200)),
        order_of(65_535, SELL, 4, 1, UNLIMITED),
        rest_of(32),
    ];
    check_clearing_ends(
        &[&entered(32)[..], &more].concat(),
        &[
            "33 order 0 32",
            "34 order 16 0",
            "35 quote 16 0 0",
            "36 order 16 0",
            "37 order 0 33",
            "end 37",
            "total 0",
        ],
    );
    // With 31 entered the next one is taken, by order or by quote, and the one after it isn't.
    for (entry, line) in [
        (rest_of(100), "33 order 0 32"),
        (quote_of(100, (10, 99_800), (10, 100_200)), "33 quote 0 32 33"),
    ] {
        check_clearing_ends(
            &[&entered(31)[..], &[entry, rest_of(32)]].concat(),
            &[line, "34 order 16 0", "end 34", "total 0"],
        );
    }
    // 32 members by quotes alone: the two sides enter their member once.
    let quote_of = |member| quote_of(member, (10, 99_800), (10, 100_200));
    let quotes: Vec<Vec<u8>> = (1..=33).map(quote_of).collect();
    check_clearing_ends(
        &[&[start()], &quotes[..], &[quote_of(32)]].concat(),
        &["33 quote 0 63 64", "34 quote 16 0 0", "35 quote 0 65 66", "end 35", "total 0"],
    );
}

/// A session that doesn't keep the square has no 16; else the lines are the same.
#[test]
fn no_16_in_a_plain_session() {
    let more = [rest_of(33), quote_of(34, (10, 99_800), (10, 100_200)), rest_of(1)];
    let file = [&entered(32)[..], &more].concat().concat();
    let lines = run(&file);
    assert!(lines.ends_with("\n34 order 0 33\n35 quote 0 34 35\n36 order 0 36\nend 36\n"));
    // With no more than 32 members nothing but the lines behind the end is added.
    let file = entered(32).concat();
    assert_eq!(clearing(&file), run(&file) + "total 0\n");
}

/// Members that are entered go on when 32 are: orders, quotes, and trades with each other.
#[test]
fn entered_members_go_on() {
    let more = [
        order_of(1, SELL, 3, 20, 100_000),
        quote_of(32, (10, 100_000), (10, 100_200)),
        order_of(33, BUY, 3, 10, 100_000),
        quote_of(32, (15, 100_000), (10, 100_200)),
        order_of(17, BUY, 3, 5, 100_000),
        auction(OPENING),
        order_of(33, BUY, 3, 10, 100_000),
        rest_of(2),
        auction(CLOSING),
    ];
    check_clearing_ends(
        &[&entered(32)[..], &more].concat(),
        &[
            "34 order 0 33",
            "35 quote 0 34 35",
            "36 order 16 0",
            "37 quote 0 36 37",
            "38 order 0 38",
            "39 auction 0 1 100000 20 2",
            "trade 36 33 15",
            "trade 38 33 5",
            "40 order 16 0",
            "41 order 0 39",
            "42 auction 0 2 0 0 0",
            "end 42",
            "owes 17 1 5",
            "owes 32 1 15",
            "total 20",
        ],
    );
}

/// A member whose only order was deleted, or left by its validity, keeps its row.
#[test]
fn deleted_members_stay() {
    let mut records = entered(32);
    records.extend((1..=32).map(|number| delete(number, number as u16)));
    records.extend([
        rest_of(33),
        rest_of(1),
        order_of(2, BUY, 1, 1, 99_000),
        delete(33, 1),
        auction(OPENING),
        rest_of(33),
        rest_of(2),
    ]);
    check_clearing_ends(
        &records,
        &[
            "65 delete 0",
            "66 order 16 0",
            "67 order 0 33",
            "68 order 0 34",
            "69 delete 0",
            "70 auction 0 2 0 0 0",
            "71 order 16 0",
            "72 order 0 35",
            "end 72",
            "total 0",
        ],
    );
    // It keeps its turn too: member 9 comes back behind member 3 and is still the first.
    let records = [
        start(),
        rest_of(9),
        delete(1, 9),
        order_of(3, SELL, 3, 10, 100_000),
        order_of(9, BUY, 3, 4, 100_000),
        order_of(3, BUY, 3, 6, 100_000),
        auction(OPENING),
    ];
    check_clearing_ends(
        &records,
        &["trade 3 2 4", "trade 4 2 6", "end 7", "owes 9 3 4", "owes 3 3 6", "total 10"],
    );
    assert_eq!(members(&records), [9, 3]);
}

/// A refused entry enters nobody, whatever refuses it; nor does another record.
#[test]
fn refused_entries_enter_nobody() {
    let refused = |member| {
        [
            order_of(member, BUY, 3, 0, 100_000),
            order_of(member, BUY, 3, 1, 100_050),
            order_of(member, BUY, 3, 1, 900_000),
            order_of(member, BUY, 3, 5_000_000, 200_000),
            order_of(member, BUY, 3, 10_000_000, UNLIMITED),
            quote_of(member, (1, 99_800), (1, 0)),
            quote_of(member, (1, 99_800), (1, 99_800)),
            quote_of(member, (1, 99_800), (1, 99_850)),
            quote_of(member, (1, 99_800), (1, 900_000)),
            quote_of(member, (1, 99_800), (5_000_000, 200_000)),
            quote_of(member, (1, 99_800), (10_000_000, 99_900)),
            delete(1, member),
            delete(0, member),
        ]
    };
    // Before the start, behind it, and when closed; 4 by validity in day, too.
    let mut records = [vec![rest_of(100), quote_of(101, (1, 1), (1, 2))], entered(1)].concat();
    records.extend((200..300).flat_map(refused));
    records.extend([auction(OPENING), order_of(300, BUY, 1, 1, 99_000), rest_of(2)]);
    assert_eq!(members(&records), [1, 2]);
    records.extend((3..=32).map(rest_of));
    records.extend([rest_of(33), rest_of(100), rest_of(300)]);
    assert_eq!(members(&records), (1..=32).collect::<Vec<_>>());
    let closed = [start(), auction(OPENING), auction(CLOSING), rest_of(7), quote(99_800, 99_900)];
    assert_eq!(members(&closed), []);
    // A full book refuses by 10, and enters nobody; a freed place enters.
    let mut records = vec![start()];
    records.extend(vec![rest_of(7); 512]);
    records.extend([rest_of(8), quote_of(8, (1, 99_800), (1, 99_900)), delete(1, 7)]);
    records.push(quote_of(8, (1, 99_800), (1, 99_900)));
    assert_eq!(members(&records), [7]);
    records.push(rest_of(9));
    assert_eq!(members(&records), [7, 9]);
}

/// K5: 16 stands behind 8. Each entry of a thirty-third member that another number would refuse.
#[test]
fn checks_before_16() {
    let (first, second) = (order_of(33, BUY, 3, 0, 1), quote_of(33, (1, 200), (1, 100)));
    let more = [
        first.clone(),
        order_of(33, BUY, 3, 1, 100_050),
        order_of(33, BUY, 3, 1, 900_000),
        order_of(33, BUY, 3, 5_000_000, 200_000),
        order_of(33, BUY, 3, 10_000_000, 99_900),
        order_of(33, BUY, 3, 10_000_000, UNLIMITED),
        order_of(33, BUY, 3, 9_999_999, UNLIMITED),
        quote_of(33, (1, 0), (1, 100)),
        second.clone(),
        quote_of(33, (1, 99_800), (1, 99_850)),
        quote_of(33, (1, 11_100), (1, 99_900)),
        quote_of(33, (1, 99_800), (5_000_000, 200_000)),
        quote_of(33, (10_000_000, 99_800), (1, 99_900)),
        quote_of(33, (1, 99_800), (10_000_000, 99_900)),
        quote_of(33, (9_999_999, 99_800), (9_999_999, 99_900)),
        auction(OPENING),
        order_of(33, BUY, 1, 1, 99_000),
        order_of(33, BUY, 2, 1, 99_000),
        auction(CLOSING),
        first,
        second,
        rest_of(33),
        quote_of(33, (1, 99_800), (1, 99_900)),
    ];
    check_clearing_ends(
        &[&entered(32)[..], &more].concat(),
        &[
            "34 order 1 0",
            "35 order 5 0",
            "36 order 6 0",
            "37 order 7 0",
            "38 order 8 0",
            "39 order 8 0",
            "40 order 16 0",
            "41 quote 1 0 0",
            "42 quote 13 0 0",
            "43 quote 5 0 0",
            "44 quote 6 0 0",
            "45 quote 7 0 0",
            "46 quote 8 0 0",
            "47 quote 8 0 0",
            "48 quote 16 0 0",
            "49 auction 0 2 0 0 0",
            "50 order 4 0",
            "51 order 16 0",
            "52 auction 0 2 0 0 0",
            "53 order 1 0",
            "54 quote 13 0 0",
            "55 order 4 0",
            "56 quote 4 0 0",
            "end 56",
            "total 0",
        ],
    );
}

/// K5: 16 stands before 10, in a full book and, for a quote, in one with one free place.
#[test]
fn sixteen_before_10() {
    let mut records = entered(32);
    records.extend(vec![rest_of(1); 479]);
    let (order, quote) = (rest_of, |member| quote_of(member, (1, 99_800), (1, 99_900)));
    records.extend([quote(33), quote(32), order(33), order(32), order(33), quote(33)]);
    records.extend([order(32), quote(32)]);
    check_clearing_ends(
        &records,
        &[
            "512 order 0 511",
            "513 quote 16 0 0",
            "514 quote 10 0 0",
            "515 order 16 0",
            "516 order 0 512",
            "517 order 16 0",
            "518 quote 16 0 0",
            "519 order 10 0",
            "520 quote 10 0 0",
            "end 520",
            "total 0",
        ],
    );
}

/// K5: 16 stands before 9, with one number left and with none.
#[test]
fn sixteen_before_9() {
    let mut file = start();
    let (order, quote) = (rest_of, |member| quote_of(member, (1, 99_800), (1, 99_900)));
    for turn in 0..499_999u32 {
        file.extend(quote(1 + (turn % 32) as u16));
    }
    for more in [order(1), quote(33), quote(1), order(33), order(2), order(33), quote(33)] {
        file.extend(more);
    }
    file.extend([order(2), quote(2)].concat());
    assert!(clearing(&file).ends_with(
        "\n500001 order 0 999999\n500002 quote 16 0 0\n500003 quote 9 0 0\n500004 order 16 0\n\
         500005 order 0 1000000\n500006 order 16 0\n500007 quote 16 0 0\n500008 order 9 0\n\
         500009 quote 9 0 0\nend 500009\ntotal 0\n"
    ));
}

/// The lines come also after a fault; what stands behind it isn't read.
#[test]
fn owes_after_a_fault() {
    check_clearing(&[], &["end 0", "total 0"]);
    check_clearing(&[vec![5, 0, 4, 0]], &["1 fault 1", "end 0", "total 0"]);
    check_clearing(
        &[
            start(),
            order_of(8, SELL, 3, 12, 100_000),
            order_of(7, BUY, 3, 10, 100_000),
            auction(OPENING),
            record(9, &[]),
            order_of(7, BUY, 3, 2, 100_000),
            auction(CLOSING),
        ],
        &[
            "1 start 0",
            "2 order 0 1",
            "3 order 0 2",
            "4 auction 0 1 100000 10 1",
            "trade 2 1 10",
            "5 fault 1",
            "end 4",
            "owes 7 8 10",
            "total 10",
        ],
    );
}

/// Orders and no trade: no cell, and a total of 0.
#[test]
fn nothing_traded() {
    check_clearing(
        &[start(), day(BUY, 10, 99_900), order_of(8, SELL, 3, 10, 100_000), auction(OPENING)],
        &["1 start 0", "2 order 0 1", "3 order 0 2", "4 auction 0 2 0 0 0", "end 4", "total 0"],
    );
    // A delayed opening has a quantity, and trades nothing.
    check_clearing_ends(
        &[start(), day(BUY, 10, 101_500), day(SELL, 10, 101_500), auction(OPENING)],
        &["4 auction 0 4 101500 10 0", "end 4", "total 0"],
    );
}

/// All of a full book traded twice, in 256 cells: the largest total.
#[test]
fn largest_square() {
    let mut file = start_with(1_000_000, 100_000_000, 999, 9_999, 1_000_000_000_000_000);
    for which in [OPENING, CLOSING] {
        for turn in 0..256 {
            file.extend(order_of(1 + turn % 32, BUY, 3, 9_999_999, UNLIMITED));
            file.extend(order_of(1 + turn / 8, SELL, 3, 9_999_999, UNLIMITED));
        }
        file.extend(auction(which));
    }
    let lines = clearing(&file);
    // Seller 1 has the turns 0 to 7, and so the buyers 1 to 8; seller 4 has 24 to 31.
    assert!(lines.contains("\nend 1027\nowes 1 1 19999998\nowes 1 5 19999998\nowes 1 9 "));
    assert!(lines.contains("\nowes 2 29 19999998\nowes 3 1 19999998\n"));
    assert!(lines.ends_with("\nowes 32 28 19999998\nowes 32 32 19999998\ntotal 5119999488\n"));
    assert_eq!(lines.lines().filter(|line| line.starts_with("owes ")).count(), 256);
    // The most trades of an auction, 511, of one buyer and of 32 sellers in turn.
    let mut file = [start(), order_of(1, BUY, 3, 511, 100_000)].concat();
    for turn in 0..511 {
        file.extend(order_of(1 + turn % 32, SELL, 3, 1, 100_000));
    }
    file.extend(auction(OPENING));
    let lines = clearing(&file);
    assert!(lines.contains("\nend 514\nowes 1 1 16\nowes 1 2 16\n"));
    assert!(lines.ends_with("\nowes 1 31 16\nowes 1 32 15\ntotal 511\n"));
}

/// K5's law at every moment, for any records: each cell is the sum worked out from the lines of the
/// trades so far, the members and 16 follow from the lines of the entries, and all cells together
/// are the quantities of the auctions of outcome 1.
#[test]
fn square_of_any_records() {
    let mut seed: u64 = 5;
    let mut draw = move |below: u64| {
        seed = seed.wrapping_mul(6364136223846793005).wrapping_add(1442695040888963407);
        (seed >> 33) % below
    };
    let (mut met_16, mut met_cells) = (0, 0);
    for _ in 0..500 {
        let (most, mut file) = ([3, 30, 60][draw(3) as usize], start());
        for _ in 0..draw(200) {
            let limit = [UNLIMITED, 99_000 + 100 * draw(20) as u32][draw(8).min(1) as usize];
            let (number, member) = (1 + draw(100) as u32, 1 + draw(most) as u16);
            file.extend(match draw(60) {
                0 => auction(1 + draw(2) as u8),
                1..6 => delete(number, member),
                6..20 => quote_of(member, (number, limit), (1 + number, limit + 200)),
                _ => order_of(member, draw(2) as u8 + 1, 1 + draw(4) as u8, number, limit),
            });
        }
        let (mut session, mut owner) = (keeping_the_square(), vec![0; 1_000]);
        let (mut entered, mut cells, mut total) = (vec![], vec![[0; 61]; 61], 0);
        for record in walk(&file).0 {
            let lines = answer(&mut session, &record);
            for line in lines.lines() {
                let words: Vec<&str> = line.split(' ').collect();
                let value = |at: usize| words[at].parse::<usize>().unwrap();
                match (&record, words[0]) {
                    (_, "trade") => cells[owner[value(1)]][owner[value(2)]] += value(3) as u64,
                    (Record::Auction(_), _) if value(2) == 1 => total += value(4) as u64,
                    (Record::Order(fields) | Record::Quote(fields), _) => {
                        let room = entered.len() < 32 || entered.contains(&fields[0]);
                        match value(1) {
                            0 => {
                                assert!(room);
                                for at in 2..words.len() {
                                    owner[value(at)] = fields[0] as usize;
                                }
                                if !entered.contains(&fields[0]) {
                                    entered.push(fields[0]);
                                }
                            }
                            16 => {
                                assert!(!room);
                                met_16 += 1;
                            }
                            9 | 10 => assert!(room),
                            _ => {}
                        }
                    }
                    _ => {}
                }
            }
            let square = session.square.as_ref().unwrap();
            assert_eq!((&square.members, square.total), (&entered, total));
            assert_eq!(cells.iter().flatten().sum::<u64>(), total);
            // Only an auction moves a cell.
            if let Record::Auction(_) = record {
                for at in 0..61 * 61 {
                    let (buyer, seller) = (at / 61, at % 61);
                    let quantity = square.cell(buyer as u64, seller as u64);
                    assert_eq!(quantity, cells[buyer][seller]);
                }
            }
        }
        // The lines say the same, cell by cell.
        let mut expected = String::new();
        for &buyer in &entered {
            for &seller in &entered {
                let quantity = cells[buyer as usize][seller as usize];
                if quantity != 0 {
                    expected += &format!("owes {buyer} {seller} {quantity}\n");
                    met_cells += 1;
                }
            }
        }
        let end = format!("end {}\n", walk(&file).0.len());
        assert!(clearing(&file).ends_with(&(end + &expected + &format!("total {total}\n"))));
    }
    assert!(met_16 > 100 && met_cells > 1_000, "{met_16} {met_cells}");
}

/// K6: a table whose edges are unlike each other. Row 1 ends at 999, which is 37 × 27; row 2 begins
/// on its step and ends off it, at 20,049; row 3 begins off its step, and ends off it at 99,999; row
/// 4 does as row 2; and the step of row 5 is the smallest.
const BANDS: [Band; 5] = [(1, 27), (1_000, 100), (20_050, 60), (100_000, 1_000), (500_000, 1)];

/// As many rows as there may be, with the highest lowest price and the highest step. Rows 1, 2, 3,
/// 7 and 8 hold one price each.
const EIGHT: [Band; 8] = [
    (1, 1),
    (2, 2),
    (3, 1),
    (4, 1_000_000),
    (1_000_001, 7),
    (50_000_000, 12),
    (99_999_999, 5),
    (100_000_000, 1_000_000),
];

/// So many rows from 1 up, of step 1.
fn rising(rows: u32) -> Vec<Band> {
    (1..=rows).map(|lowest| (lowest, 1)).collect()
}

/// The bytes, by hand: length 22 and twice 8, kind, count, two rows, and the worked start's rest.
#[test]
fn banded_start_bytes() {
    let bytes: [u8; 38] = [
        0x26, 0x00, 0x06, 0x00, 0x02, 0x00, 0x01, 0x00, 0x00, 0x00, 0x64, 0x00, 0x00, 0x00, 0x04,
        0x03, 0x02, 0x01, 0x0C, 0x0B, 0x0A, 0x00, 0xA0, 0x86, 0x01, 0x00, 0x09, 0x00, 0x96, 0x00,
        0x00, 0x10, 0xA5, 0xD4, 0xE8, 0x00, 0x00, 0x00,
    ];
    let rows = [(1, 100), (0x0102_0304, 0x000A_0B0C)];
    assert_eq!(banded_with(&rows, 100_000, (9, 150, 1_000_000_000_000)), bytes);
    let Some((Record::BandedStart(rows, others), [])) = first_record(&bytes) else { panic!() };
    assert_eq!(rows, [[1, 100], [0x0102_0304, 0x000A_0B0C]]);
    assert_eq!(others, [100_000, 9, 150, 1_000_000_000_000]);
    let mut written = Vec::new();
    assert_eq!(write(&Record::BandedStart(rows, others), &mut written), Ok(()));
    assert_eq!(written, bytes);
}

/// K6: written whole or not at all, also with more rows than a count can say.
#[test]
fn write_a_banded_start() {
    let others = [100_000, 9, 150, 1_000_000_000_000];
    let mut written = auction(OPENING);
    for rows in [vec![], vec![[2, 1]], vec![[1, 0]], vec![[1, 1]; 2], vec![[1, 1]; 70_000]] {
        assert_eq!(write(&Record::BandedStart(rows, others), &mut written), Err(1));
    }
    let nine = (1..=9).map(|lowest| [lowest, 1]).collect();
    assert_eq!(write(&Record::BandedStart(nine, others), &mut written), Err(1));
    let off = Record::BandedStart(vec![[1, 100], [2, 300]], others);
    assert_eq!(write(&off, &mut written), Err(1));
    assert_eq!(written, auction(OPENING));
    // One row: kind 6, where kind 1 says the same.
    let one = Record::BandedStart(vec![[1, 100]], others);
    assert_eq!(write(&one, &mut written), Ok(()));
    let bytes = [&[30, 0, 6, 0, 1, 0, 1, 0, 0, 0][..], &start()[4..]].concat();
    assert_eq!(written, [auction(OPENING), bytes].concat());
}

/// Runs the starts in one session and compares the answers.
fn check_starts(starts: &[(Vec<u8>, u64)]) {
    let lines = (1..).zip(starts).map(|(place, (_, answer))| format!("{place} start {answer}"));
    let lines: Vec<String> = lines.chain([format!("end {}", starts.len())]).collect();
    let records: Vec<Vec<u8>> = starts.iter().map(|(start, _)| start.clone()).collect();
    check(&records, &lines.iter().map(String::as_str).collect::<Vec<_>>());
}

/// K6: 1 for a bad table, and the session stays fresh: the good one behind them all is taken.
#[test]
fn bad_tables() {
    let top = u32::MAX;
    let bad: [&[Band]; 23] = [
        // The first row begins at 2, at 0 or elsewhere.
        &[(2, 1)],
        &[(2, 1), (3, 1)],
        &[(0, 1)],
        &[(0, 1), (1, 1)],
        &[(100_000, 1)],
        &[(100_000_001, 1)],
        &[(top, 1)],
        // Equal and falling lowest prices.
        &[(1, 1), (1, 1)],
        &[(1, 1), (5, 1), (5, 1)],
        &[(1, 1), (5, 1), (4, 1)],
        &[(1, 1), (5, 1), (1, 1)],
        &[(2, 1), (1, 1)],
        &[(1, 1), (3, 1), (2, 1), (4, 1)],
        &[(1, 1), (100_000_000, 1), (2, 1)],
        // A lowest price that is none.
        &[(1, 1), (0, 1)],
        &[(1, 1), (100_000_001, 1)],
        &[(1, 1), (2, 1), (top, 1)],
        &[(1, 1), (100_000_001, 1), (100_000_002, 1)],
        // A step that is none.
        &[(1, 0)],
        &[(1, 1_000_001)],
        &[(1, top)],
        &[(1, 1), (2, 0)],
        &[(1, 1), (2, 1_000_001)],
    ];
    let mut starts: Vec<_> = bad.iter().map(|rows| (banded(rows, 100_000), 1)).collect();
    starts.extend([(banded(&[(1, 1)], 100_000), 0), (banded(&[(1, 1)], 100_000), 3)]);
    check_starts(&starts);
}

/// K6: the same in every row of every table, each row spoilt by itself. The reference price, in the
/// first row or the last, has nothing to do with it.
#[test]
fn bad_row_in_any_place() {
    let mut starts = vec![];
    for count in 1..=8 {
        for at in 0..count as usize {
            for spoilt in [(0, 1), (100_000_001, 1), (u32::MAX, 1)] {
                let mut rows = rising(count);
                rows[at] = spoilt;
                starts.extend([(banded(&rows, 1), 1), (banded(&rows, 100_000_000), 1)]);
            }
            for step in [0, 1_000_001, u32::MAX] {
                let mut rows = rising(count);
                rows[at].1 = step;
                starts.extend([(banded(&rows, 1), 1), (banded(&rows, 100_000_000), 1)]);
            }
            // Equal to the row before, and two rows that have changed places.
            if at > 0 {
                let mut rows = rising(count);
                rows[at].0 = rows[at - 1].0;
                starts.extend([(banded(&rows, 1), 1), (banded(&rows, 100_000_000), 1)]);
                let mut rows = rising(count);
                rows.swap(at - 1, at);
                starts.extend([(banded(&rows, 1), 1), (banded(&rows, 100_000_000), 1)]);
            }
        }
    }
    starts.push((banded(&rising(8), 1), 0));
    check_starts(&starts);
}

/// K6: the ends of each range are in it, and steps needn't rise.
#[test]
fn good_tables() {
    for rows in [
        &[(1, 1)][..],
        &[(1, 1_000_000)],
        &[(1, 1), (2, 1)],
        &[(1, 1), (100_000_000, 1_000_000)],
        &[(1, 1_000_000), (2, 1), (3, 1_000_000)],
        &BANDS,
        &EIGHT,
        &rising(7),
        &rising(8),
    ] {
        check_starts(&[(banded(rows, 100_000_000), 0)]);
    }
}

/// K6: a count that is not 1 to 8 is answered 1, and the walk goes on. The longest such record has
/// 8,189 rows and 65,534 bytes.
#[test]
fn row_counts() {
    assert_eq!(banded(&rising(8_189), 1).len(), 65_534);
    let mut starts = vec![];
    for count in [0, 9, 10, 16, 256, 8_189] {
        starts.push((banded(&rising(count), 100_000), 1));
    }
    check_starts(&starts);
    for count in 1..=8 {
        starts.push((banded(&rising(count), 100_000), 0));
        check_starts(&starts);
        starts.pop();
    }
    // 1 goes before 3.
    starts.insert(0, (start(), 0));
    starts.push((banded(&rising(8), 100_000), 3));
    check_starts(&starts);
}

/// A record that ends the walk, behind a start, whole and with more behind it.
fn check_fault(bad: &[u8]) {
    let (bad, lines) = (bad.to_vec(), ["1 start 0", "2 fault 1", "end 1"]);
    check(&[start(), bad.clone()], &lines);
    check(&[start(), bad.clone(), auction(OPENING)], &lines);
    check(&[start(), bad, banded(&EIGHT, 100_000_000)], &lines);
}

/// K6: a count for which no length has room. With these lengths the sum's low 16 bits would fit.
#[test]
fn row_counts_without_room() {
    for (count, bytes) in [(65_535, 14), (8_192, 22), (8_193, 30), (8_194, 38), (8_190, 6)] {
        let mut part = vec![0; bytes - 4];
        part[..2].copy_from_slice(&u16::to_le_bytes(count));
        let bad = record(6, &[&part]);
        assert_eq!((bad.len(), (22 + 8 * usize::from(count)) % 65_536), (bytes, bytes));
        check_fault(&bad);
    }
    for count in [8_190, 8_191, 32_768, 65_535] {
        check_fault(&banded_counting(count, &[], &start()[8..]));
        check_fault(&banded_counting(count, &rising(8), &start()[8..]));
        check_fault(&banded_counting(count, &rising(8_189), &start()[8..]));
        // The longest record there can be.
        let longest = [count.to_le_bytes().to_vec(), vec![0; 65_529]].concat();
        check_fault(&record(6, &[&longest]));
    }
}

/// K6: any length that doesn't fit the count is a fault, one too short to hold its count too.
#[test]
fn lengths_that_do_not_fit() {
    for part in [&[][..], &[0], &[1], &[0, 0], &[1, 0], &[8, 0], &[255, 255]] {
        check_fault(&record(6, &[part]));
    }
    // Lengths below 4, and 4 and 5 with bytes behind them that would make a good record of it.
    let good = banded(&[(1, 1)], 100_000);
    for length in [0, 1, 2, 3, 4, 5, 6] {
        check_fault(&[&[length][..], &good[1..]].concat());
    }
    for count in 0..=10 {
        let good = banded(&rising(count.into()), 100_000);
        for rows in (0..=10).filter(|rows| *rows != u32::from(count)) {
            check_fault(&banded_counting(count, &rising(rows), &start()[8..]));
        }
        // Bytes more or fewer, where the record stays whole.
        for more in 1..=9 {
            check_fault(&record(6, &[&good[4..], &vec![0; more]]));
        }
        for fewer in 1..=good.len() - 4 {
            check_fault(&record(6, &[&good[4..good.len() - fewer]]));
        }
    }
    // The count's first byte alone would fit: 257 rows are counted, and there is one.
    check_fault(&banded_counting(257, &[(1, 1)], &start()[8..]));
    // The length of the other start, and of a quote: 24 fits no count, 22 fits none but 0.
    check_fault(&record(6, &[&start()[4..]]));
    check_fault(&record(6, &[&quote(99_800, 100_200)[4..]]));
}

/// A table cut anywhere is a fault, also where the whole record would be answered 1.
#[test]
fn cut_tables() {
    for rows in [&[(1, 1)][..], &BANDS, &EIGHT, &rising(9), &[], &[(2, 1)], &[(1, 0)]] {
        let whole = banded(rows, 100_000);
        for cut in 1..whole.len() {
            check(&[whole[..cut].to_vec()], &["1 fault 1", "end 0"]);
            check(&[start(), whole[..cut].to_vec()], &["1 start 0", "2 fault 1", "end 1"]);
            assert_eq!(rewrite(&whole[..cut]), []);
            let lines = clearing(&whole[..cut]);
            assert_eq!(lines, "1 fault 1\nend 0\ntotal 0\n");
            assert_eq!(looks(&whole[..cut]), format!("look 1\n{FRESH}end 0\n"));
        }
    }
    let longest = banded(&rising(8_189), 100_000);
    for cut in [1, 5, 6, 22, 94, 65_518, 65_533] {
        check(&[longest[..cut].to_vec()], &["1 fault 1", "end 0"]);
    }
    check(&[longest], &["1 start 1", "end 1"]);
}

/// K6: the reference price is a multiple of the step of its own row, whatever the others' are.
#[test]
fn reference_in_its_row() {
    check_starts(&[
        // On the first row's step and off its own: 100,000 is 33 × 3,000 and 1,000.
        (banded(&[(1, 100), (50_000, 3_000)], 100_000), 1),
        (banded(&[(1, 100), (100_000, 3_000)], 100_000), 1),
        (banded(&[(1, 1), (99_999, 100_001)], 100_000), 1),
        // On the next row's step and off its own.
        (banded(&[(1, 3_000), (100_001, 100)], 100_000), 1),
        (banded(&[(1, 1), (2, 3_000), (100_001, 1)], 100_000), 1),
        // At the edges of BANDS.
        (banded(&BANDS, 1_026), 1),
        (banded(&BANDS, 20_040), 1),
        (banded(&BANDS, 20_050), 1),
        (banded(&BANDS, 99_999), 1),
        (banded(&BANDS, 100_020), 1),
        (banded(&BANDS, 499_999), 1),
        // No price.
        (banded(&BANDS, 0), 1),
        (banded(&BANDS, 100_000_001), 1),
        (banded(&BANDS, u32::MAX), 1),
    ]);
    for (rows, reference) in [
        (&[(1, 100), (100_001, 3_000)][..], 100_000),
        (&[(1, 3_000), (50_000, 100)], 100_000),
        (&[(1, 3_000), (100_000, 100)], 100_000),
        (&[(1, 1), (2, 3_000), (100_000, 100_000), (100_001, 1)], 100_000),
        (&BANDS, 27),
        (&BANDS, 999),
        (&BANDS, 1_000),
        (&BANDS, 20_000),
        (&BANDS, 20_100),
        (&BANDS, 20_160),
        (&BANDS, 99_960),
        (&BANDS, 100_000),
        (&BANDS, 499_000),
        (&BANDS, 500_000),
        (&BANDS, 500_001),
        (&BANDS, 100_000_000),
    ] {
        check_starts(&[(banded(rows, reference), 0)]);
    }
}

/// K6: the other fields have their old bounds.
#[test]
fn banded_start_fields() {
    let good = 1_000_000_000_000_000;
    let start = |last| banded_with(&BANDS, 100_000, last);
    check_starts(&[
        (start((1, 150, good)), 1),
        (start((1_000, 150, good)), 1),
        (start((9, 0, good)), 1),
        (start((9, 10_000, good)), 1),
        (start((9, 150, 0)), 1),
        (start((9, 150, good + 1)), 1),
        (start((9, 150, u64::MAX)), 1),
        (start((999, 9_999, good)), 0),
        (start((999, 9_999, good)), 3),
        (start((1, 150, good)), 1),
    ]);
    check_starts(&[(start((2, 1, 1)), 0)]);
}

/// Limits at, just below and just above the edges of BANDS, and what 5 and then 6 answer. The
/// reference price is 100,000: 6 passes 101 to 99,899,999.
const LIMITS: [(u32, u64); 45] = [
    (1, 5),
    (27, 6),
    (81, 6),
    (100, 5),
    (108, 0),
    // Row 1 ends.
    (972, 0),
    (998, 5),
    (999, 0),
    (1_000, 0),
    (1_001, 5),
    // On row 1's step, 38 × 27 and 100 × 27, and the second on its own row's too.
    (1_026, 5),
    (2_700, 0),
    (1_100, 0),
    // Row 2 ends; 20,040 is 334 × 60.
    (20_000, 0),
    (20_040, 5),
    (20_048, 5),
    (20_049, 5),
    (20_050, 5),
    (20_051, 5),
    (20_099, 5),
    (20_100, 0),
    (20_101, 5),
    (20_160, 0),
    // On row 2's step alone.
    (20_200, 5),
    // Row 3 ends; 99,960 is 1,666 × 60 and 100,020 is 1,667 × 60.
    (99_900, 0),
    (99_960, 0),
    (99_998, 5),
    (99_999, 5),
    (100_000, 0),
    (100_001, 5),
    (100_020, 5),
    (100_100, 5),
    (101_000, 0),
    // Row 4 ends.
    (498_999, 5),
    (499_000, 0),
    (499_999, 5),
    (500_000, 0),
    (500_001, 0),
    (500_002, 0),
    (501_000, 0),
    (98_765_431, 0),
    (99_899_999, 0),
    (99_900_000, 6),
    (99_999_999, 6),
    (100_000_000, 6),
];

#[test]
fn order_limits_in_their_rows() {
    for (side, validity) in [(BUY, 3), (SELL, 3), (BUY, 1), (SELL, 2), (BUY, 4)] {
        for (limit, answer) in LIMITS {
            let records = [banded(&BANDS, 100_000), order_of(7, side, validity, 1, limit)];
            let line = format!("2 order {answer} {}", u64::from(answer == 0));
            check(&records, &["1 start 0", &line, "end 2"]);
        }
    }
    // One behind the other, in day: a refused one uses no number.
    let mut records = vec![banded(&BANDS, 100_000), auction(OPENING)];
    let (mut lines, mut given) = (vec!["1 start 0".into(), "2 auction 0 2 0 0 0".into()], 0);
    for (place, (limit, answer)) in (3..).zip(LIMITS) {
        records.push(day(BUY, 1, limit));
        given += u64::from(answer == 0);
        let number = if answer == 0 { given } else { 0 };
        lines.push(format!("{place} order {answer} {number}"));
    }
    lines.push(format!("end {}", LIMITS.len() + 2));
    check(&records, &lines.iter().map(String::as_str).collect::<Vec<_>>());
    // Unlimited skips it, though 0 falls in no row.
    check(
        &[banded(&BANDS, 100_000), day(BUY, 1, UNLIMITED)],
        &["1 start 0", "2 order 0 1", "end 2"],
    );
}

/// Each side of a quote, beside one that passes: a bid of 108, an ask of 99,899,999. A bid above
/// that ask, and an ask below that bid, would be 13.
#[test]
fn quote_limits_in_their_rows() {
    for (limit, answer) in LIMITS {
        let line = match answer {
            0 => "2 quote 0 1 2".to_string(),
            _ => format!("2 quote {answer} 0 0"),
        };
        let start = banded(&BANDS, 100_000);
        if limit < 99_899_999 {
            let records = [start.clone(), quote(limit, 99_899_999)];
            check(&records, &["1 start 0", &line, "end 2"]);
        }
        if limit > 108 {
            check(&[start, quote(108, limit)], &["1 start 0", &line, "end 2"]);
        }
    }
}

/// K6: both sides in one row or in two, and the order of checks: each on the bid and then on the
/// ask, 13 and 4 before 5 and 6 behind it.
#[test]
fn quote_sides_in_their_rows() {
    check(
        &[
            quote(1_001, 1_000),
            quote(1_001, 20_050),
            banded(&BANDS, 100_000),
            quote(999, 1_000),
            quote(1_000, 1_026),
            quote(972, 999),
            quote(999, 1_026),
            quote(1_026, 20_100),
            quote(20_050, 20_100),
            quote(20_000, 20_100),
            quote(20_000, 20_040),
            quote(20_040, 20_100),
            quote(99_960, 100_000),
            quote(99_999, 100_000),
            quote(100_000, 100_020),
            quote(499_000, 500_001),
            quote(499_999, 500_001),
            quote(500_001, 500_002),
            // 13 before 5.
            quote(1_001, 1_001),
            quote(20_050, 999),
            // 5 on the ask before 6 on the bid; then 6, and 7 and 8 behind it.
            quote(27, 1_001),
            quote(27, 1_000),
            quote(999, 99_900_000),
            quote_of(7, (1, 999), (2_000_000, 500_000)),
            quote_of(7, (10_000_000, 999), (1, 1_000)),
            // Old quotes were overwritten by the accepted ones alone.
            delete(13, 7),
            delete(14, 7),
            auction(OPENING),
            auction(CLOSING),
            quote(1_001, 20_050),
        ],
        &[
            "1 quote 13 0 0",
            "2 quote 2 0 0",
            "3 start 0",
            "4 quote 0 1 2",
            "5 quote 5 0 0",
            "6 quote 0 3 4",
            "7 quote 5 0 0",
            "8 quote 5 0 0",
            "9 quote 5 0 0",
            "10 quote 0 5 6",
            "11 quote 5 0 0",
            "12 quote 5 0 0",
            "13 quote 0 7 8",
            "14 quote 5 0 0",
            "15 quote 5 0 0",
            "16 quote 0 9 10",
            "17 quote 5 0 0",
            "18 quote 0 11 12",
            "19 quote 13 0 0",
            "20 quote 13 0 0",
            "21 quote 5 0 0",
            "22 quote 6 0 0",
            "23 quote 6 0 0",
            "24 quote 7 0 0",
            "25 quote 8 0 0",
            "26 delete 11",
            "27 delete 11",
            "28 auction 0 2 0 0 0",
            "29 auction 0 2 0 0 0",
            "30 quote 4 0 0",
            "end 30",
        ],
    );
}

/// A table of eight rows, at every edge. 999,999 falls in row 4, where only 1,000,000 is a limit.
#[test]
fn eight_rows() {
    let limits = [
        // Rows 1 to 4 begin at 1 to 4.
        (1, 0),
        (2, 0),
        (3, 0),
        (4, 5),
        (5, 5),
        (999_999, 5),
        (1_000_000, 0),
        // Row 5: 142,858 × 7 is 1,000,006.
        (1_000_001, 5),
        (1_000_005, 5),
        (1_000_006, 0),
        (2_000_000, 5),
        // Row 5 ends: 7,142,857 × 7 is 49,999,999. Row 6: 4,166,667 × 12 is 50,000,004.
        (49_999_999, 0),
        (50_000_000, 5),
        (50_000_004, 0),
        // Row 6 ends: 8,333,333 × 12 is 99,999,996. Row 7 holds one price, which is no limit.
        (99_999_996, 0),
        (99_999_998, 5),
        (99_999_999, 5),
        (100_000_000, 0),
    ];
    let mut accepted = 0;
    for (limit, answer) in limits {
        // 6 passes 1 to 998 by the reference price 1, and all above 100,100 by 100,000,000.
        let reference = if limit < 998 { 1 } else { 100_000_000 };
        let start = banded_with(&EIGHT, reference, (999, 150, 1_000_000_000_000));
        let line = format!("2 order {answer} {}", u64::from(answer == 0));
        check(&[start, day(SELL, 1, limit)], &["1 start 0", &line, "end 2"]);
        accepted += u32::from(answer == 0);
    }
    assert_eq!(accepted, 9);
}

/// K6: a row in which no price is a multiple of its step. 2 to 99 fall in the second row.
#[test]
fn row_without_a_limit() {
    let start = banded_with(&[(1, 1), (2, 100), (100, 30)], 120, (999, 150, 1_000_000_000_000));
    for (limit, answer) in [(1, 0), (2, 5), (60, 5), (90, 5), (99, 5), (100, 5), (120, 0)] {
        let line = format!("2 order {answer} {}", u64::from(answer == 0));
        check(&[start.clone(), day(BUY, 1, limit)], &["1 start 0", &line, "end 2"]);
    }
}

/// K6: an auction's price may lie in any band, and becomes the reference price in force. Here it is
/// off the step of the row of the start's.
#[test]
fn auction_price_in_another_band() {
    check(
        &[
            banded(&BANDS, 100_000),
            // 40 × 10,000 is below 150 × 100,000: no delay.
            day(BUY, 10, 99_960),
            day(SELL, 10, 99_960),
            auction(OPENING),
            // All three candidates are kept, and 99,960 is the reference price in force.
            day(BUY, 20, 500_001),
            day(SELL, 20, 999),
            auction(CLOSING),
        ],
        &[
            "1 start 0",
            "2 order 0 1",
            "3 order 0 2",
            "4 auction 0 1 99960 10 1",
            "trade 1 2 10",
            "5 order 0 3",
            "6 order 0 4",
            "7 auction 0 1 99960 20 1",
            "trade 3 4 20",
            "end 7",
        ],
    );
    // Far away and so delayed; an unlimited pair trades at the same price at the closing.
    for (price, unlimited) in [(999, 7), (1_100, 8), (20_160, 9), (500_001, 10)] {
        let delayed = format!("4 auction 0 4 {price} 10 0");
        let opened = format!("5 auction 0 1 {price} 10 1");
        let closed = format!("8 auction 0 1 {price} {unlimited} 1");
        let trade = format!("trade 3 4 {unlimited}");
        check(
            &[
                banded(&BANDS, 100_000),
                day(BUY, 10, price),
                day(SELL, 10, price),
                auction(OPENING),
                auction(OPENING),
                day(BUY, unlimited, UNLIMITED),
                day(SELL, unlimited, UNLIMITED),
                auction(CLOSING),
            ],
            &[
                "1 start 0",
                "2 order 0 1",
                "3 order 0 2",
                &delayed,
                &opened,
                "trade 1 2 10",
                "6 order 0 3",
                "7 order 0 4",
                &closed,
                &trade,
                "end 8",
            ],
        );
    }
}

/// K6: the price chain over bands. The limits lie in rows 5 and 1, the reference price in row 4.
#[test]
fn price_chain_over_bands() {
    let delayed_at = |price: u32, quantity: u32, buy: u32, sell: u32| {
        let orders = [day(BUY, buy, 500_001), day(SELL, sell, 999)];
        let line = format!("auction 0 4 {price} {quantity} 0");
        check_opening_after(banded(&BANDS, 100_000), &orders, &[&line]);
    };
    // Demand to spare at all: the highest. Supply to spare at all: the lowest.
    delayed_at(500_001, 60, 100, 60);
    delayed_at(999, 60, 60, 100);
    // As much on both sides: the reference price.
    let orders = [day(BUY, 100, 500_001), day(SELL, 100, 999)];
    let lines = ["auction 0 1 100000 100 1", "trade 1 2 100"];
    check_opening_after(banded(&BANDS, 100_000), &orders, &lines);
    // It isn't kept: nearest to 500,001 is 101,000, nearest to 999 is 20,160.
    let orders = [day(BUY, 100, 101_000), day(SELL, 100, 20_160)];
    for (reference, price) in [(500_001, 101_000), (999, 20_160)] {
        let line = format!("auction 0 4 {price} 100 0");
        check_opening_after(banded(&BANDS, reference), &orders, &[&line]);
    }
}

/// K6 and K4: after an opening in another band limits go by their own rows, and 6 and 8 by the
/// start's reference price, 100,000.
#[test]
fn entries_after_an_opening_in_another_band() {
    let mut records = vec![
        banded(&BANDS, 100_000),
        day(BUY, 10, 999),
        day(SELL, 10, 999),
        auction(OPENING),
        auction(OPENING),
    ];
    let opening = [
        "1 start 0",
        "2 order 0 1",
        "3 order 0 2",
        "4 auction 0 4 999 10 0",
        "5 auction 0 1 999 10 1",
        "trade 1 2 10\n",
    ];
    let (mut lines, mut given) = (opening.join("\n"), 2);
    for (place, (limit, answer)) in (6..).zip(LIMITS) {
        records.push(day(SELL, 1, limit));
        given += u64::from(answer == 0);
        let number = if answer == 0 { given } else { 0 };
        lines += &format!("{place} order {answer} {number}\n");
    }
    records.extend([day(SELL, 10_000_000, 1_000), day(SELL, 10_000_000, 1_026)]);
    let place = 6 + LIMITS.len();
    lines += &format!("{place} order 8 0\n{} order 5 0\nend {}\n", place + 1, place + 1);
    assert_eq!(run(&records.concat()), lines);
}

/// K6: a start that is refused, by 3 or by 1, moves no table, whichever of the kinds it is.
#[test]
fn refused_start_moves_no_table() {
    let one = start_with(100, 100_000, 999, 150, 1_000_000_000_000);
    let (many, bad) = (banded(&BANDS, 100_000), banded(&[(1, 1), (2, 1), (2, 1)], 100_000));
    let orders = [day(BUY, 1, 999), day(BUY, 1, 20_160), day(BUY, 1, 20_200), day(BUY, 1, 100_100)];
    let by_one = ["4 order 5 0", "5 order 5 0", "6 order 0 1", "7 order 0 2", "end 7"];
    let by_many = ["4 order 0 1", "5 order 0 2", "6 order 5 0", "7 order 5 0", "end 7"];
    for (first, lines) in [(&one, by_one), (&many, by_many)] {
        // Each is the last start before the orders. The table of step 1 would take all four.
        for (refused, answer) in [
            (&one, "3 start 3"),
            (&many, "3 start 3"),
            (&banded(&[(1, 1)], 100_000), "3 start 3"),
            (&bad, "3 start 1"),
        ] {
            let starts = [bad.clone(), first.clone(), refused.clone()];
            let answers = ["1 start 1", "2 start 0", answer];
            check(&[&starts[..], &orders].concat(), &[&answers[..], &lines].concat());
        }
    }
}

/// The worked example of 01 by its table: 100 below 100,300 and 200 from there, where 100,400 lies.
#[test]
fn worked_example_by_bands() {
    let rows = [(1, 100), (100_300, 200)];
    let records = [
        banded_with(&rows, 100_000, (9, 150, 1_000_000_000_000)),
        day(BUY, 50, 100_200),
        day(BUY, 50, 100_400),
        day(BUY, 50, 100_200),
        day(SELL, 80, 100_200),
        day(BUY, 50, 100_300),
        auction(OPENING),
    ];
    let lines = [
        "1 start 0",
        "2 order 0 1",
        "3 order 0 2",
        "4 order 0 3",
        "5 order 0 4",
        "6 order 5 0",
        "7 auction 0 1 100200 80 2",
        "trade 2 4 50",
        "trade 1 4 30",
        "end 7",
    ];
    check(&records, &lines);
    check_clearing(&records, &[&lines[..], &["owes 7 7 80", "total 80"]].concat());
    assert_eq!(rewrite(&records.concat()), records.concat());
    // A look before the auction foresees it.
    let looked = looks(&records.concat());
    assert!(looked.starts_with("look 7\ntheoretical 0 1 0 0 0 0\ntheoretical 1 0 1 100200 80 2\n"));
    assert!(looked.contains("\nranked 1 1 0 3 2 1 3\n") && looked.ends_with("\nend 7\n"));
}

/// K6: kind 1 means one row. Starts of both kinds, good and bad, print the same lines in all of the
/// sessions; only what is written anew keeps the kind.
#[test]
fn kind_1_means_one_row() {
    let good = 1_000_000_000_000;
    let mut met = vec![];
    for (step, reference, last) in [
        (100, 100_000, (9, 150, good)),
        (1, 100_000, (9, 150, good)),
        (50, 100_000, (2, 1, good)),
        (1_000, 100_000, (999, 9_999, 1_000_000_000_000_000)),
        (1_000_000, 1_000_000, (999, 150, good)),
        (0, 100_000, (9, 150, good)),
        (1_000_001, 2_000_002, (9, 150, good)),
        (u32::MAX, 100_000, (9, 150, good)),
        (100, 100_050, (9, 150, good)),
        (100, 0, (9, 150, good)),
        (1, 100_000_001, (9, 150, good)),
        (100, 100_000, (1, 150, good)),
        (100, 100_000, (9, 10_000, good)),
        (100, 100_000, (9, 150, 0)),
    ] {
        let kind_1 = start_with(step, reference, last.0, last.1, last.2);
        let kind_6 = banded_with(&[(1, step)], reference, last);
        let rest = [
            day(BUY, 30, 100_000),
            day(BUY, 20, 100_050),
            day(SELL, 40, 99_999),
            day(SELL, 10, 100_001),
            quote(99_900, 100_100),
            quote(99_950, 101_000),
            order_of(8, SELL, 2, 5, UNLIMITED),
            start(),
            auction(OPENING),
            auction(OPENING),
            order_of(9, BUY, 3, 60, 1_000_000),
            auction(CLOSING),
        ]
        .concat();
        let (one, other) = ([&kind_1[..], &rest].concat(), [&kind_6[..], &rest].concat());
        assert_eq!(run(&one), run(&other));
        assert_eq!(looks(&one), looks(&other));
        assert_eq!(clearing(&one), clearing(&other));
        let whole = run(&one).starts_with("1 start 0\n");
        let written = if whole { [one.clone(), other.clone()] } else { [vec![], vec![]] };
        assert_eq!([rewrite(&one), rewrite(&other)], written);
        met.push(u8::from(whole));
        // Cut anywhere behind the start, too.
        for cut in 1..rest.len() {
            let end = &rest[..cut];
            let (one, other) = ([&kind_1[..], end].concat(), [&kind_6[..], end].concat());
            assert_eq!(run(&one), run(&other));
        }
    }
    assert_eq!(met, [1, 1, 1, 1, 1, 0, 0, 0, 0, 0, 0, 0, 0, 0]);
}

/// K6's rule for any table: a limit is refused by 5 exactly when it is no multiple of the step of
/// the row that holds it, the one from whose lowest price to the next row's it lies.
#[test]
fn limits_of_any_table() {
    let mut seed: u64 = 6;
    let mut draw = move |below: u64| {
        seed = seed.wrapping_mul(6364136223846793005).wrapping_add(1442695040888963407);
        (seed >> 33) % below
    };
    let (mut met_0, mut met_5) = (0, 0);
    for _ in 0..2_000 {
        let mut rows: Vec<Band> = vec![(1, 1 + draw(12) as u32)];
        for _ in 0..draw(8) {
            let lowest = rows[rows.len() - 1].0 + 1 + draw(300) as u32;
            rows.push((lowest, 1 + draw(12) as u32));
        }
        // Which steps a price has by its row: at most one.
        let steps = |price: u32| -> Vec<u32> {
            let next = rows.iter().skip(1).map(|row| row.0).chain([u32::MAX]);
            let held = rows.iter().zip(next).filter(|(row, next)| (row.0..*next).contains(&price));
            held.map(|(row, _)| row.1).collect()
        };
        let reference = 1 + draw(600) as u32;
        let mut file = banded(&rows, reference);
        let started = reference.is_multiple_of(steps(reference)[0]);
        let mut limits = vec![];
        for _ in 0..draw(40) {
            let near = rows[draw(rows.len() as u64) as usize].0 + draw(30) as u32;
            limits.push((near + 1).saturating_sub(draw(30) as u32).max(1));
        }
        for &limit in &limits {
            file.extend(day(BUY, 1, limit));
        }
        let lines = run(&file);
        let answers = lines.lines().map(|line| line.split(' ').nth(2).unwrap_or("end"));
        let answers: Vec<&str> = answers.collect();
        assert_eq!(answers[0], if started { "0" } else { "1" });
        for (limit, answer) in limits.iter().zip(&answers[1..]) {
            let [step] = steps(*limit)[..] else { panic!("{limit} in {rows:?}") };
            match *answer {
                "2" => assert!(!started),
                "5" => assert!(started && limit % step != 0, "{limit} in {rows:?}"),
                "0" | "6" => assert!(started && limit % step == 0, "{limit} in {rows:?}"),
                other => panic!("{other}"),
            }
            met_0 += u32::from(*answer == "0");
            met_5 += u32::from(*answer == "5");
        }
    }
    assert!(met_0 > 1_000 && met_5 > 1_000, "{met_0} {met_5}");
}

/// Any bytes in and around starts of kind 6 end well. What is written anew is the file up to where
/// it stops, and that much walks without a fault.
#[test]
fn any_bytes_of_tables() {
    let mut seed: u64 = 66;
    let mut draw = move |below: u64| {
        seed = seed.wrapping_mul(6364136223846793005).wrapping_add(1442695040888963407);
        (seed >> 33) % below
    };
    let mut met = [0; 3];
    for _ in 0..20_000 {
        let mut file = vec![];
        for _ in 0..1 + draw(3) {
            let rows: Vec<Band> = (0..draw(11) as u32).map(|row| (1 + row, 1)).collect();
            let count =
                [rows.len() as u64, draw(12), draw(65_536)][draw(20).saturating_sub(17) as usize];
            file.extend(banded_counting(count as u16, &rows, &start()[8..]));
            file.extend([day(BUY, 1, 100_000), quote(99_999, 100_001), auction(OPENING)].concat());
        }
        for _ in 0..draw(3) {
            let at = draw(file.len() as u64) as usize;
            file[at] = draw(256) as u8;
        }
        if draw(3) == 0 {
            file.truncate(draw(file.len() as u64 + 1) as usize);
        }
        let (lines, written) = (run(&file), rewrite(&file));
        assert_eq!(clearing(&file).lines().next(), lines.lines().next());
        assert!(looks(&file).lines().last() == lines.lines().last());
        assert!(file.starts_with(&written));
        assert!(!walk(&written).1 && rewrite(&written) == written);
        for (met, line) in met.iter_mut().zip(["1 start 0\n", "1 start 1\n", "1 fault 1\n"]) {
            *met += u32::from(lines.starts_with(line));
        }
    }
    assert!(met.iter().all(|met| *met > 500), "{met:?}");
}
