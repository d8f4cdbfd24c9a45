//! Makes a file on which the two programs differ as small as a bounded number of tries gets it.

use crate::records::{fields, walk, Record, Row};
use std::time::{Duration, Instant};

const TRIES: u32 = 1_000;
/// For the longest files, and for a program that hangs.
const TIME: Duration = Duration::from_secs(120);

struct Shrink<'a> {
    differs: &'a dyn Fn(&[u8]) -> bool,
    tries: u32,
    begun: Instant,
}

fn packed(records: &[Record], rest: &[u8]) -> Vec<u8> {
    let mut file = Vec::new();
    records.iter().for_each(|record| record.pack(&mut file));
    file.extend(rest);
    file
}

/// The smallest file found for which `differs` still says yes.
pub fn shrink(file: &[u8], differs: &dyn Fn(&[u8]) -> bool) -> Vec<u8> {
    let mut shrink = Shrink { differs, tries: 0, begun: Instant::now() };
    let (mut records, rest) = walk(file);
    shrink.drop_runs(&mut records, |records| packed(records, rest));
    for place in 0..records.len() {
        shrink.drop_rows(&mut records, place, rest);
        for field in 0..fields(records[place].kind).len() {
            shrink.lower(&mut records, place, |record| &mut record.values[field], rest);
        }
        for row in 0..records[place].rows.len() {
            shrink.lower(&mut records, place, |record| &mut record.rows[row][0], rest);
            shrink.lower(&mut records, place, |record| &mut record.rows[row][1], rest);
        }
    }
    let mut bytes = packed(&records, rest);
    shrink.drop_runs(&mut bytes, |bytes| bytes.to_vec());
    bytes
}

impl Shrink<'_> {
    fn spent(&self) -> bool {
        self.tries == TRIES || self.begun.elapsed() > TIME
    }

    fn differs(&mut self, file: &[u8]) -> bool {
        self.tries += 1;
        (self.differs)(file)
    }

    /// Leaves out runs of parts, shorter and shorter; single ones until each is needed.
    fn drop_runs<T: Clone>(&mut self, parts: &mut Vec<T>, file: impl Fn(&[T]) -> Vec<u8>) {
        let mut run = parts.len();
        while run > 0 && !self.spent() {
            let (before, mut from) = (parts.len(), 0);
            while from < parts.len() && !self.spent() {
                let to = parts.len().min(from + run);
                let fewer = [&parts[..from], &parts[to..]].concat();
                if self.differs(&file(&fewer)) {
                    *parts = fewer;
                } else {
                    from = to;
                }
            }
            if run > 1 || parts.len() == before {
                run /= 2;
            }
        }
    }

    /// K6: leaves out rows of a table, with a count of those that are left.
    fn drop_rows(&mut self, records: &mut [Record], place: usize, rest: &[u8]) {
        let mut rows = records[place].rows.clone();
        let with = |record: &mut Record, rows: &[Row]| {
            (record.values[0], record.rows) = (rows.len() as u64, rows.to_vec());
        };
        let fewer = |rows: &[Row]| {
            let mut records = records.to_vec();
            with(&mut records[place], rows);
            packed(&records, rest)
        };
        let before = rows.len();
        self.drop_runs(&mut rows, fewer);
        if rows.len() < before {
            with(&mut records[place], &rows);
        }
    }

    /// Lowers a number of a record to 1 if that will do, else by less and less.
    fn lower(
        &mut self,
        records: &mut [Record],
        place: usize,
        number: impl Fn(&mut Record) -> &mut u64,
        rest: &[u8],
    ) {
        let mut by = number(&mut records[place]).saturating_sub(1);
        while by > 0 && !self.spent() {
            let value = *number(&mut records[place]);
            if value > by {
                *number(&mut records[place]) = value - by;
                if !self.differs(&packed(records, rest)) {
                    *number(&mut records[place]) = value;
                }
            }
            by /= 2;
        }
    }
}
