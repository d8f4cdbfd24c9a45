//! Session files in the words of 01 "Session file": records packed, and a file taken apart.

// "Numbers and their bounds".
pub const PRICE_MAX: u64 = 100_000_000;
pub const QUANTITY_MAX: u64 = 10_000_000;
pub const STEP_MAX: u64 = 1_000_000;
pub const FACTOR: (u64, u64) = (2, 999);
pub const THRESHOLD_MAX: u64 = 9_999;
pub const VALUE_MAX: u64 = 1_000_000_000_000_000;
pub const NUMBER_MAX: u64 = 1_000_000;
pub const MEMBER_MAX: u64 = 65_535;
pub const PLACES: u64 = 512;
/// Rows of a table of steps (K6).
pub const TABLE_MAX: u64 = 8;
/// Rows of the square (K5), each a member's.
pub const ROWS: usize = 32;
/// What `looks` and `rewrite` take of their input for the whole file.
pub const LOOKED_AT: usize = 65_536;

// Kinds of records, and what stands for a side, a validity, no limit and an auction.
pub const START: usize = 1;
pub const ORDER: usize = 2;
pub const DELETE: usize = 3;
pub const AUCTION: usize = 4;
pub const QUOTE: usize = 5;
/// K6: a start with a table of steps.
pub const BANDS: usize = 6;
/// The highest kind there is.
pub const KINDS: usize = BANDS;
pub const BUY: u64 = 1;
pub const SELL: u64 = 2;
pub const AT_THE_OPENING: u64 = 1;
pub const AT_THE_CLOSE: u64 = 2;
pub const DAY: u64 = 3;
pub const TILL_LATER: u64 = 4;
pub const UNLIMITED: u64 = 0;
pub const OPENING: u64 = 1;
pub const CLOSING: u64 = 2;

/// The fields of a kind, each with its size in bytes and its highest good value.
pub fn fields(kind: usize) -> &'static [(usize, u64)] {
    match kind {
        START => {
            &[(4, STEP_MAX), (4, PRICE_MAX), (2, FACTOR.1), (2, THRESHOLD_MAX), (8, VALUE_MAX)]
        }
        ORDER => &[(2, MEMBER_MAX), (1, SELL), (1, TILL_LATER), (4, QUANTITY_MAX), (4, PRICE_MAX)],
        DELETE => &[(4, NUMBER_MAX), (2, MEMBER_MAX)],
        AUCTION => &[(1, CLOSING)],
        // K2: member, then quantity and limit of the bid and of the ask.
        QUOTE => {
            const LIMITED: [(usize, u64); 2] = [(4, QUANTITY_MAX), (4, PRICE_MAX)];
            &[(2, MEMBER_MAX), LIMITED[0], LIMITED[1], LIMITED[0], LIMITED[1]]
        }
        // K6: the count of rows, which stand behind it, and the other fields of a start.
        BANDS => {
            &[(2, TABLE_MAX), (4, PRICE_MAX), (2, FACTOR.1), (2, THRESHOLD_MAX), (8, VALUE_MAX)]
        }
        _ => &[],
    }
}

/// K6: the lowest price and the step of a row, each of so many bytes.
pub type Row = [u64; 2];
const IN_A_ROW: usize = 4;
/// K6: header and count, behind which the rows stand.
pub const COUNTED: usize = 6;

/// The length of a kind's record; rows are of kind 6 alone.
pub fn length(kind: usize, rows: usize) -> usize {
    let fields = fields(kind).iter().map(|(size, _)| size);
    4 + fields.sum::<usize>() + 2 * IN_A_ROW * rows
}

/// A record of a known kind; where the kind has fewer fields, the values behind them are 0.
#[derive(Clone)]
pub struct Record {
    pub kind: usize,
    pub values: [u64; 5],
    /// Behind the first value, which counts them where the length fits the count.
    pub rows: Vec<Row>,
}

impl Record {
    pub fn new(kind: usize, values: [u64; 5]) -> Record {
        Record { kind, values, rows: Vec::new() }
    }

    pub fn length(&self) -> usize {
        length(self.kind, self.rows.len())
    }

    /// A value that its field has no room for loses its high bytes.
    pub fn pack(&self, file: &mut Vec<u8>) {
        file.extend((self.length() as u16).to_le_bytes());
        file.extend((self.kind as u16).to_le_bytes());
        let mut rows = self.rows.iter();
        for (value, (size, _)) in self.values.iter().zip(fields(self.kind)) {
            file.extend(&value.to_le_bytes()[..*size]);
            for number in rows.by_ref().flatten() {
                file.extend(&number.to_le_bytes()[..IN_A_ROW]);
            }
        }
    }
}

pub fn number(bytes: &[u8]) -> u64 {
    bytes.iter().rev().fold(0, |number, byte| number << 8 | u64::from(*byte))
}

/// The number in the first so many bytes, which are taken off.
fn taken(rest: &mut &[u8], size: usize) -> u64 {
    let (first, behind) = rest.split_at(size);
    *rest = behind;
    number(first)
}

/// The count of a start by kind 6, if the file has it.
pub fn count_of(rest: &[u8]) -> Option<usize> {
    rest.get(4..COUNTED).map(|count| number(count) as usize)
}

/// Whether a length is the kind's. One that holds a count has to fit it (K6): a count that is cut
/// off is not looked at, since such a record is cut in any case.
fn fits(said: usize, kind: usize, rest: &[u8]) -> bool {
    match (kind, count_of(rest)) {
        (BANDS, Some(count)) => said == length(BANDS, count),
        (BANDS, None) => said >= COUNTED,
        _ => said == length(kind, 0),
    }
}

/// Why the walk ends here, if no record follows.
pub fn fault(rest: &[u8]) -> Option<&'static str> {
    if rest.len() < 4 {
        return Some("cut header");
    }
    let (said, kind) = (number(&rest[..2]) as usize, number(&rest[2..4]) as usize);
    if fields(kind).is_empty() {
        Some("unknown kind")
    } else if !fits(said, kind, rest) {
        Some("wrong length")
    } else {
        Some("cut record").filter(|_| rest.len() < said)
    }
}

/// The records up to the file's end or a fault, and the bytes from the fault on.
pub fn walk(file: &[u8]) -> (Vec<Record>, &[u8]) {
    let (mut records, mut rest) = (Vec::new(), file);
    while fault(rest).is_none() {
        let mut record = Record::new(number(&rest[2..4]) as usize, [0; 5]);
        rest = &rest[4..];
        for (field, (size, _)) in fields(record.kind).iter().enumerate() {
            record.values[field] = taken(&mut rest, *size);
            if (record.kind, field) == (BANDS, 0) {
                let row = |_| [0; 2].map(|_: u64| taken(&mut rest, IN_A_ROW));
                record.rows = (0..record.values[0]).map(row).collect();
            }
        }
        records.push(record);
    }
    (records, rest)
}
