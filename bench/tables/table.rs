// Aggregates columns of a table of integers: table FILE THREADS sum|twelve. Each cell is parsed and kept; none is checked.
// The answers are printed as streamrun prints them.
use std::{env, fs, thread};

/// The columns of whole lines.
fn columns(lines: &[u8], width: usize) -> Vec<Vec<i64>> {
    let mut columns = vec![Vec::with_capacity(lines.len() / 8 / width); width];
    let (mut column, mut value, mut negative, mut any) = (0, 0i64, false, false);
    for byte in lines {
        match byte {
            b'0'..=b'9' => {
                value = value.wrapping_mul(10).wrapping_add(i64::from(byte - b'0'));
                any = true;
            }
            b'-' => negative = true,
            b',' | b'\n' => {
                if any {
                    columns[column].push(if negative { -value } else { value });
                }
                column = if *byte == b',' { column + 1 } else { 0 };
                (value, negative, any) = (0, false, false);
            }
            _ => {}
        }
    }
    columns
}

/// What is added up of the columns of a part.
#[derive(Clone, Copy)]
struct Totals {
    sums: [i64; 6],
    least: i64,
    greatest: [Option<i64>; 3],
    any_negative: [bool; 2],
}

fn wrapped(numbers: impl Iterator<Item = i64>) -> i64 {
    numbers.fold(0, i64::wrapping_add)
}

/// The sum of the first column, or all of what the twelve jobs ask for.
fn totals(columns: &[Vec<i64>], twelve: bool) -> Totals {
    let first = wrapped(columns[0].iter().copied());
    if !twelve {
        return Totals { sums: [first, 0, 0, 0, 0, 0], least: 0, greatest: [None; 3], any_negative: [false; 2] };
    }
    let [a, b, c, d] = [&columns[0], &columns[1], &columns[2], &columns[3]];
    Totals {
        sums: [
            first,
            a.iter().filter(|x| **x > 0).count() as i64,
            wrapped(b.iter().map(|x| x % 1000)),
            wrapped(b.iter().filter(|x| *x % 2 == 0).map(|x| x / 2)),
            wrapped(c.iter().map(|x| x.wrapping_mul(*x))),
            wrapped(d.iter().map(|x| if *x < 0 { x.wrapping_neg() } else { *x })),
        ],
        least: a.iter().copied().min().unwrap_or(i64::MAX),
        greatest: [a.iter().copied().max(), c.iter().copied().max(), d.iter().copied().filter(|x| *x > 5000).max()],
        any_negative: [b.iter().any(|x| *x < 0), c.iter().any(|x| *x < 0)],
    }
}

fn merged(left: Totals, right: Totals) -> Totals {
    let mut all = left;
    for (sum, more) in all.sums.iter_mut().zip(right.sums) {
        *sum = sum.wrapping_add(more);
    }
    all.least = all.least.min(right.least);
    for (greatest, other) in all.greatest.iter_mut().zip(right.greatest) {
        *greatest = (*greatest).max(other);
    }
    for (any, more) in all.any_negative.iter_mut().zip(right.any_negative) {
        *any |= more;
    }
    all
}

pub fn optional(value: Option<i64>) -> String {
    value.map_or("OptionalLong.empty".to_string(), |value| format!("OptionalLong[{value}]"))
}

fn report(all: Totals, twelve: bool) -> String {
    if !twelve {
        return format!("s = {}\n", all.sums[0]);
    }
    let [sum, positive, rests, halves, squares, magnitudes] = all.sums;
    let [least, greatest] = [Some(all.least), all.greatest[0]].map(optional);
    let [greatest_of_c, greatest_of_d] = [all.greatest[1], all.greatest[2]].map(optional);
    let [any_of_b, all_of_c] = [all.any_negative[0], !all.any_negative[1]];
    format!("j1 = {sum}\nj2 = {positive}\nj3 = {least}\nj4 = {greatest}\n")
        + &format!("j5 = {rests}\nj6 = {halves}\nj7 = {any_of_b}\nj8 = {squares}\n")
        + &format!("j9 = {greatest_of_c}\nj10 = {all_of_c}\nj11 = {greatest_of_d}\nj12 = {magnitudes}\n")
}

/// The report over a file, whose rows are cut into a part for each thread.
pub fn report_of(file: &str, threads: usize, twelve: bool) -> String {
    let bytes = fs::read(file).unwrap();
    let first = bytes.iter().position(|byte| *byte == b'\n').unwrap() + 1;
    let width = bytes[..first].iter().filter(|byte| **byte == b',').count() + 1;
    let rows = &bytes[first..];
    let mut cuts = vec![0];
    for part in 1..threads {
        let from = rows.len() * part / threads;
        cuts.push(from + rows[from..].iter().position(|byte| *byte == b'\n').unwrap() + 1);
    }
    cuts.push(rows.len());
    let parts: Vec<Totals> = thread::scope(|scope| {
        let running: Vec<_> = cuts
            .windows(2)
            .map(|cut| scope.spawn(move || totals(&columns(&rows[cut[0]..cut[1]], width), twelve)))
            .collect();
        running.into_iter().map(|part| part.join().unwrap()).collect()
    });
    report(parts.into_iter().reduce(merged).unwrap(), twelve)
}

fn main() {
    let words: Vec<String> = env::args().collect();
    print!("{}", report_of(&words[1], words[2].parse().unwrap(), words[3] == "twelve"));
}
