//! The time of the library's calls from Rust, as `bench/library/main.c` measures them from C: `cargo bench -- DOMAIN FILE`
use gtd::{Direction, Domain, Question, Records};
use std::env;
use std::error::Error;
use std::fs;
use std::time::Instant;

const ROUNDS: usize = 7;
const CALLS: usize = 1_000_000;
const DAY: i64 = 19_793; // 2024-03-11, a Monday

fn second(at: usize) -> i64 {
    DAY * 86_400 + (at * 61 % 31_536_000) as i64
}

fn direction(at: usize) -> Direction {
    if at % 2 == 1 {
        Direction::Negative
    } else {
        Direction::Positive
    }
}

fn measure<T>(name: &str, number: usize, mut calls: impl FnMut() -> T) {
    let times = (0..ROUNDS).map(|_| {
        let start = Instant::now();
        drop(calls());
        start.elapsed().as_nanos() as f64
    });
    println!("{name} {:.1}", times.fold(f64::INFINITY, f64::min) / number as f64);
}

fn main() -> Result<(), Box<dyn Error>> {
    let words: Vec<String> = env::args().skip(1).filter(|word| word != "--bench").collect();
    let (text, bytes) = (&words[0], fs::read(&words[1])?);
    let (domain, records) = (Domain::new(text)?, Records::new(&bytes)?);
    let elements: Vec<u64> = records.elements().collect();
    let question = |at: usize| Question {
        element: elements[at * 7_919 % elements.len()],
        second: second(at),
        vehicle: (1 + at % 12) as u8,
        direction: direction(at),
    };
    measure("holds", CALLS, || (0..CALLS).filter(|&at| domain.holds(second(at)) == Ok(true)).count());
    measure("holds_many", CALLS, || domain.holds_many(&(0..CALLS).map(second).collect::<Vec<_>>()));
    measure("closed_at", CALLS, || {
        (0..CALLS).map(question).filter(|q| records.closed_at(q.element, q.direction, q.vehicle, q.second) == Ok(true)).count()
    });
    measure("closed_many", CALLS, || records.closed_many(&(0..CALLS).map(question).collect::<Vec<_>>()));
    measure("open", 1, || Records::new(&bytes));
    measure("week", 1, || {
        let both = |&element: &u64| [Direction::Positive, Direction::Negative].map(|direction| (element, direction));
        let spans =
            elements.iter().flat_map(both).flat_map(|(element, direction)| records.spans(element, direction, 11, DAY, DAY + 7));
        spans.flatten().map(|span| span.end - span.start).sum::<i64>()
    });
    Ok(())
}
