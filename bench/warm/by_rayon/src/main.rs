//! by_rayon WORKLOAD MILLISECONDS [TABLE]: runs a workload for so long, and at least three times; prints the least
//! nanoseconds and streamrun's report. Sums and products wrap, since the build is without checks of overflow.
use rayon::prelude::*;
use std::collections::HashSet;
use std::fmt::Write;
use std::hint::black_box;
use std::time::{Duration, Instant};

// A copy of bench/tables/table.rs.
#[allow(dead_code)]
mod table;

const THREADS: usize = 4;
const LEAST_ROUNDS: usize = 3;
/// How many parts an array has, where each part is one step.
const PARTS: usize = 16 * THREADS;

const JOBS: i64 = 256;

/// How streamrun writes an answer.
trait Answer {
    fn text(self) -> String;
}

macro_rules! shown_by_rust {
    ($($kind:ty),*) => {
        $(impl Answer for $kind {
            fn text(self) -> String {
                self.to_string()
            }
        })*
    };
}

shown_by_rust!(i64, usize, bool);

impl Answer for Option<i64> {
    fn text(self) -> String {
        table::optional(self)
    }
}

impl Answer for Vec<i64> {
    fn text(self) -> String {
        let texts = self.par_chunks(self.len().div_ceil(PARTS).max(1)).map(|part| {
            let mut text = String::new();
            part.iter().for_each(|item| write!(text, ", {item}").unwrap());
            text
        });
        format!("[{}]", texts.collect::<Vec<String>>().concat().trim_start_matches(", "))
    }
}

fn range(from: i64, to: i64) -> rayon::range::Iter<i64> {
    (from..to).into_par_iter()
}

/// A range that the compiler can't know, else it makes a formula of its sum.
fn unknown_range(from: i64, to: i64) -> impl ParallelIterator<Item = i64> {
    let zero = black_box(0);
    range(from, to).map(move |x| x ^ zero)
}

/// `x >>> bits` of Java.
fn shifted(x: i64, bits: u32) -> i64 {
    (x as u64 >> bits) as i64
}

fn random(x: i64) -> i64 {
    let hash = x * 6364136223846793005;
    hash ^ shifted(hash, 32)
}

fn sorted(items: impl ParallelIterator<Item = i64>) -> Vec<i64> {
    let mut all: Vec<i64> = items.collect();
    all.par_sort_unstable();
    all
}

fn distinct(items: impl ParallelIterator<Item = i64>) -> HashSet<i64> {
    let sets = items.fold(HashSet::new, |mut set, item| {
        set.insert(item);
        set
    });
    sets.reduce(HashSet::new, |one, other| {
        let (mut larger, smaller) = if one.len() < other.len() { (other, one) } else { (one, other) };
        larger.extend(smaller);
        larger
    })
}

/// The running sums: the sum of each part, then each part again from what lies left of it.
fn prefix_sums(items: impl ParallelIterator<Item = i64>) -> Vec<i64> {
    let mut all: Vec<i64> = items.collect();
    let size = all.len().div_ceil(PARTS).max(1);
    let sums: Vec<i64> = all.par_chunks(size).map(|part| part.iter().sum()).collect();
    let starts = sums.iter().scan(0, |left, sum| Some(std::mem::replace(left, *left + sum)));
    all.par_chunks_mut(size).zip(starts.collect::<Vec<i64>>()).for_each(|(part, start)| {
        part.iter_mut().fold(start, |sum, item| {
            *item += sum;
            *item
        });
    });
    all
}

/// One job after the other, each by its number.
fn jobs<A: Answer>(mut job: impl FnMut(i64) -> A) -> String {
    (0..JOBS).map(|at| format!("j{at} = {}\n", job(at).text())).collect()
}

/// One job after the other, each by the answer before it.
fn chain(job: impl Fn(i64) -> i64) -> String {
    let mut last = 0;
    jobs(|_| {
        last = job(last);
        last
    })
}

fn one(answer: impl Answer) -> String {
    format!("q = {}\n", answer.text())
}

fn report(workload: &str, file: &str) -> String {
    match workload {
        /* WORKLOADS */
        _ => panic!("no workload {workload} over {file}"),
    }
}

fn time(words: &[String]) {
    let file = words.get(3).map_or("", String::as_str);
    let (end, mut rounds) = (Instant::now() + Duration::from_millis(words[2].parse().unwrap()), Vec::new());
    let mut last = None;
    while rounds.len() < LEAST_ROUNDS || Instant::now() < end {
        let begun = Instant::now();
        let report = report(&words[1], file);
        rounds.push(begun.elapsed().as_nanos());
        assert!(last.is_none_or(|it: String| it == report), "two rounds differ");
        last = Some(report);
    }
    print!("{}\n{}", rounds.iter().min().unwrap(), last.unwrap());
}

fn main() {
    let words: Vec<String> = std::env::args().collect();
    rayon::ThreadPoolBuilder::new().num_threads(THREADS).build().unwrap().install(|| time(&words));
}
