//! bench: the port beside the source, in one process and one run. `bench/run` builds it and calls it:
//!
//! bench time FILE: every row, its sides in turn, many short runs; the least and the median of each side
//! bench count: the same batches once each, to be run under callgrind, which writes a file for each
//! bench stack: what a search takes of it
//! bench text COUNT: a set and as many queries, for the query program
//! bench report TIMES DIR FACTS: docs/SPEED.md and docs/speed.svg of what the two found

#[path = "../oracle/port.rs"]
#[allow(dead_code)]
mod port;
#[path = "../oracle/real.rs"]
#[allow(dead_code)]
mod real;
mod measure;
#[cfg(mysofa)]
mod mysofa;
mod plot;
mod report;
mod rows;
mod sets;
mod sides;
mod stack;
mod text;

/// Deep chains: the source inserts, searches and frees its boxes by recursion.
const STACK: usize = 1 << 30;

fn work(words: &[String]) {
    let word = |i: usize| words.get(i).expect("bench time FILE [WORD] | count [WORD] | stack | text COUNT | report TIMES DIR FACTS").as_str();
    match word(0) {
        "time" => measure::time(word(1), words.get(2).map_or("", |w| w)),
        "count" => measure::count(words.get(1).map_or("", |w| w)),
        "stack" => stack::tell(),
        "text" => text::tell(word(1).parse().expect("a count of queries")),
        "report" => report::write(word(1), word(2), word(3)),
        _ => panic!("bench time FILE [WORD] | count [WORD] | stack | text COUNT | report TIMES DIR FACTS"),
    }
}

fn main() {
    let words: Vec<String> = std::env::args().skip(1).collect();
    std::thread::Builder::new().stack_size(STACK).spawn(move || work(&words)).unwrap().join().unwrap();
}
