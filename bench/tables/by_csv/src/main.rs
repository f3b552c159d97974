// The sums of columns qty and price by Rust's crate csv, on several threads by rayon: by_csv FILE THREADS. Then a part begins after
// a line feed, so no cell may hold one.
use rayon::prelude::*;
use std::{env, fs};

/// How many parts there are for each of several threads.
const PARTS: usize = 16;

/// The number of a cell, or the end of the program.
fn number(cell: &[u8]) -> i64 {
    std::str::from_utf8(cell).unwrap().parse().unwrap()
}

/// The sums over some rows.
fn sums(rows: &[u8], places: [usize; 2]) -> [i64; 2] {
    let mut reader = csv::ReaderBuilder::new().has_headers(false).from_reader(rows);
    let (mut row, mut found) = (csv::ByteRecord::new(), [0i64; 2]);
    while reader.read_byte_record(&mut row).unwrap() {
        for (sum, place) in found.iter_mut().zip(places) {
            *sum = sum.wrapping_add(number(&row[place]));
        }
    }
    found
}

fn main() {
    let words: Vec<String> = env::args().collect();
    let bytes = fs::read(&words[1]).unwrap();
    let threads: usize = words[2].parse().unwrap();
    let first = bytes.iter().position(|byte| *byte == b'\n').unwrap() + 1;
    let header: Vec<&[u8]> = bytes[..first - 1].split(|byte| *byte == b',').collect();
    let places = ["qty", "price"].map(|name| header.iter().position(|it| *it == name.as_bytes()).unwrap());
    let rows = &bytes[first..];
    let parts = if threads == 1 { 1 } else { PARTS * threads };
    let mut cuts: Vec<usize> = (1..parts).map(|part| rows.len() * part / parts).collect();
    for cut in &mut cuts {
        *cut += rows[*cut..].iter().position(|byte| *byte == b'\n').unwrap() + 1;
    }
    cuts.insert(0, 0);
    cuts.push(rows.len());
    let pool = rayon::ThreadPoolBuilder::new().num_threads(threads).build().unwrap();
    let all = pool.install(|| {
        let sums = cuts.par_windows(2).map(|cut| sums(&rows[cut[0]..cut[1]], places));
        sums.reduce(|| [0; 2], |a, b| [a[0].wrapping_add(b[0]), a[1].wrapping_add(b[1])])
    });
    println!("q = {}\np = {}", all[0], all[1]);
}
