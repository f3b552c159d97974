// The table of bench/run rows, and its question answered by a loop over arrays in memory, on some threads.
//
//     rows make ROWS               writes the table
//     rows sum ROWS THREADS TIMES  prints the answer, and the least milliseconds of these passes
//     rows one ROWS THREADS TIMES  the same over one column
use std::io::Write;
use std::time::Instant;

struct Rows {
    price: Vec<i64>,
    quantity: Vec<i64>,
    region: Vec<i64>,
}

fn rows(count: usize) -> Rows {
    let (mut state, mut found) = (12345u64, Rows { price: vec![], quantity: vec![], region: vec![] });
    for _ in 0..count {
        state = state.wrapping_mul(6364136223846793005).wrapping_add(1442695040888963407);
        found.price.push((state >> 33) as i64 % 100_000);
        found.quantity.push((state >> 40) as i64 % 100);
        found.region.push((state >> 50) as i64 % 10);
    }
    found
}

fn make(count: usize) {
    let (found, mut out) = (rows(count), std::io::BufWriter::new(std::io::stdout()));
    writeln!(out, "day,price,quantity,region,article").unwrap();
    for at in 0..count {
        writeln!(out, "{},{},{},{},{}", at / 1000, found.price[at], found.quantity[at], found.region[at], at % 9973).unwrap();
    }
}

fn where_region(price: &[i64], quantity: &[i64], region: &[i64]) -> i64 {
    let lanes = price.iter().zip(quantity).zip(region);
    lanes.map(|((p, q), r)| if *r == 3 { p.wrapping_mul(*q) } else { 0 }).fold(0, i64::wrapping_add)
}

fn of_one(price: &[i64]) -> i64 {
    price.iter().map(|p| if *p < 10_000 { p.wrapping_mul(*p) } else { 0 }).fold(0, i64::wrapping_add)
}

fn pass(rows: &Rows, threads: usize, is_one: bool) -> i64 {
    let size = rows.price.len().div_ceil(threads).max(1);
    std::thread::scope(|scope| {
        let parts: Vec<_> = (0..rows.price.len()).step_by(size).map(|from| {
            let part = from..(from + size).min(rows.price.len());
            scope.spawn(move || if is_one { of_one(&rows.price[part]) } else {
                where_region(&rows.price[part.clone()], &rows.quantity[part.clone()], &rows.region[part])
            })
        }).collect();
        parts.into_iter().map(|it| it.join().unwrap()).fold(0, i64::wrapping_add)
    })
}

fn main() {
    let words: Vec<String> = std::env::args().collect();
    let number = |at: usize| words[at].parse::<usize>().unwrap();
    if words[1] == "make" {
        return make(number(2));
    }
    let (rows, mut best, mut answer) = (rows(number(2)), f64::INFINITY, 0);
    for _ in 0..number(4) {
        let begun = Instant::now();
        answer = std::hint::black_box(pass(std::hint::black_box(&rows), number(3), words[1] == "one"));
        best = best.min(begun.elapsed().as_secs_f64() * 1000.0);
    }
    println!("s = {answer}\n{best}");
}
