//! K1: the records of a session file, each written anew from its fields, one behind the other. It
//! stops before a record that ends the walk and before one with a field out of its range. So a good
//! file, one that walks without a fault and has every field in range, comes out as it went in.

use super::*;

pub fn rewrite(file: &[u8]) -> Vec<u8> {
    let (records, _) = walk(file);
    let mut written = Vec::new();
    for record in &records {
        if write(record, &mut written).is_err() {
            break;
        }
    }
    written
}

/// "Refusals" of K1: 1 for a field. The buffer grows as it has to, so no 12.
pub fn write(record: &Record, buffer: &mut Vec<u8>) -> Result<(), Refusal> {
    match *record {
        Record::Start(fields) => {
            let (rows, others) = one_row(fields);
            check_start(&rows, others)?;
            put(1, fields, START_SIZES, buffer);
        }
        Record::Order(fields) => {
            check_order(fields)?;
            put(2, fields, ORDER_SIZES, buffer);
        }
        Record::Delete(fields) => {
            check_delete(fields)?;
            put(3, fields, DELETE_SIZES, buffer);
        }
        Record::Auction([auction]) => {
            auction_of(auction)?;
            put(4, [auction], AUCTION_SIZES, buffer);
        }
        Record::Quote(fields) => {
            check_quote(fields)?;
            put(5, fields, QUOTE_SIZES, buffer);
        }
        Record::BandedStart(ref rows, others) => {
            check_start(rows, others)?;
            put_banded_start(rows, others, buffer);
        }
    }
    Ok(())
}

/// A record whose kind has one length.
fn put<const N: usize>(kind: u64, fields: [u64; N], sizes: [usize; N], buffer: &mut Vec<u8>) {
    put_head(4 + sizes.iter().sum::<usize>(), kind, buffer);
    put_fields(fields, sizes, buffer);
}

/// K6: a start by its table stays kind 6, also with one row, which kind 1 could say too.
fn put_banded_start(rows: &[Row], others: [u64; 4], buffer: &mut Vec<u8>) {
    put_head(banded_length(rows.len()), 6, buffer);
    put_fields([rows.len() as u64], COUNT_SIZES, buffer);
    for &row in rows {
        put_fields(row, ROW_SIZES, buffer);
    }
    put_fields(others, OTHER_SIZES, buffer);
}

/// "Session file": length (2 bytes, whole record), kind (2 bytes), before the fields.
fn put_head(length: usize, kind: u64, buffer: &mut Vec<u8>) {
    put_number(length as u64, 2, buffer);
    put_number(kind, 2, buffer);
}

fn put_fields<const N: usize>(fields: [u64; N], sizes: [usize; N], buffer: &mut Vec<u8>) {
    for (field, size) in fields.into_iter().zip(sizes) {
        put_number(field, size, buffer);
    }
}

/// "Session file": little-endian.
fn put_number(mut number: u64, size: usize, buffer: &mut Vec<u8>) {
    for _ in 0..size {
        buffer.push((number % 256) as u8);
        number /= 256;
    }
}
