//! What `dump`, `verify` and `gen` do, by a plain Rust program over one segment: `plain dump FILE`, `plain verify FILE`,
//! `plain gen N START FILE`.
//!
//! Each record is tested as the broker tests it: its lengths, its magic, the sum of its body and that of the whole record. `verify` makes
//! a table of each queue, reads the file again, and compares each record with the next row of its queue's table. `gen` is in filling.rs.
mod filling;
mod records;

use records::each;
use std::collections::HashMap;
use std::io::{BufWriter, Write};

fn dump(path: &str) {
    let mut out = BufWriter::with_capacity(1 << 16, std::io::stdout().lock());
    each(path, |r| writeln!(out, "{} {} {} {} {}", r.place, r.topic, r.queue, r.offset, r.size()).unwrap());
}

/// Of each queue the place, the size and the store time of each of its records.
type Tables = HashMap<String, HashMap<u32, Vec<(u64, u32, u64)>>>;

fn verify(path: &str) {
    let mut tables = Tables::new();
    each(path, |r| match tables.get_mut(r.topic) {
        Some(queues) => queues.entry(r.queue).or_default().push((r.place, r.size(), r.store)),
        None => {
            tables.entry(r.topic.to_string()).or_default().insert(r.queue, vec![(r.place, r.size(), r.store)]);
        }
    });
    let mut equal = true;
    let (count, end) = each(path, |r| {
        equal &= tables[r.topic][&r.queue].get(r.offset as usize) == Some(&(r.place, r.size(), r.store));
    });
    let rows: usize = tables.values().flat_map(HashMap::values).map(Vec::len).sum();
    println!("records {count} end {end}");
    if equal && rows as u64 == count {
        println!("equal");
    }
}

fn main() {
    let words: Vec<String> = std::env::args().collect();
    match words[1].as_str() {
        "dump" => dump(&words[2]),
        "verify" => verify(&words[2]),
        _ => filling::fill(words[2].parse().expect("N"), words[3].parse().expect("START"), &words[4]),
    }
}
