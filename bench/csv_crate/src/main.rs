//! Reads the records of standard input with the crate `csv`, and prints how many there are.

use std::io;

fn main() -> Result<(), csv::Error> {
    let mut reader = csv::ReaderBuilder::new()
        .has_headers(false)
        .flexible(true)
        .from_reader(io::stdin().lock());
    let mut row = csv::ByteRecord::new();
    let mut count = 0_u64;
    while reader.read_byte_record(&mut row)? {
        count += 1;
    }
    println!("records {count}");
    Ok(())
}
