//! Numbers sorted, or put into a set: by_rayon NUMBERS QUESTION COUNT THREADS. One thread sorts by `sort_unstable`, several by rayon.
use rayon::prelude::*;
use std::collections::HashSet;

fn number(kind: &str, at: i64) -> i64 {
    let hash = at.wrapping_mul(6364136223846793005);
    match kind {
        "random" => hash ^ (hash as u64 >> 32) as i64,
        "few" => (hash as u64 >> 32) as i64 & 1023,
        "reversed" => -at,
        _ => at + 1,
    }
}

/// How many values differ: a set for each part of the numbers, and one of all sets.
fn distinct(all: &[i64], threads: usize) -> usize {
    let parts = all.par_chunks(all.len().div_ceil(threads).max(1));
    let sets = parts.map(|part| part.iter().copied().collect::<HashSet<i64>>());
    sets.reduce_with(|mut one, other| { one.extend(other); one }).map_or(0, |set| set.len())
}

fn main() {
    let words: Vec<String> = std::env::args().collect();
    let (count, threads): (i64, usize) = (words[3].parse().unwrap(), words[4].parse().unwrap());
    rayon::ThreadPoolBuilder::new().num_threads(threads).build_global().unwrap();
    let mut all: Vec<i64> = (0..count).into_par_iter().map(|at| number(&words[1], at)).collect();
    if words[2] == "distinct" {
        return println!("q = {}", distinct(&all, threads));
    }
    if threads == 1 { all.sort_unstable() } else { all.par_sort_unstable() }
    match words[2].as_str() {
        "limit" => println!("q = {:?}", &all[..10]),
        _ => println!("q = OptionalLong[{}]", all[count as usize / 2]),
    }
}
