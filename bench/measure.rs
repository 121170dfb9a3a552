//! Batches timed in turn, or counted once.

use std::ffi::CString;
use std::fs::File;
use std::io::Write;
use std::time::Instant;

use crate::rows;

/// One measurement: `calls` calls are a batch, and each side runs one.
pub struct Row<'a> {
    pub name: String,
    pub calls: usize,
    pub rounds: usize,
    pub sides: Vec<(&'static str, Box<dyn FnMut() + 'a>)>,
}

unsafe extern "C" {
    fn count_from();
    fn count_to(name: *const std::ffi::c_char);
}

/// The least and the median time of a call of each side, in nanoseconds: row, side, least, median.
pub fn time(path: &str, only: &str) {
    let mut file = File::create(path).expect("a file for the times");
    rows::each(true, only.is_empty() || only.starts_with("growth"), only, &mut |row: &mut Row| {
        let mut times: Vec<Vec<f64>> = row.sides.iter().map(|_| Vec::new()).collect();
        for _ in 0..row.rounds {
            for ((_, run), times) in row.sides.iter_mut().zip(&mut times) {
                let from = Instant::now();
                run();
                times.push(from.elapsed().as_secs_f64() * 1e9 / row.calls as f64);
            }
        }
        for ((side, _), times) in row.sides.iter().zip(&mut times) {
            times.sort_by(f64::total_cmp);
            let line = format!("{}\t{side}\t{:.2}\t{:.2}", row.name, times[0], times[times.len() / 2]);
            println!("{line}");
            writeln!(file, "{line}").unwrap();
        }
    });
}

/// Under callgrind each side's batch ends in a dump that is called ROW|SIDE|CALLS.
pub fn count(only: &str) {
    rows::each(false, only.starts_with("growth"), only, &mut |row: &mut Row| {
        for (side, run) in &mut row.sides {
            let name = CString::new(format!("{}|{side}|{}", row.name, row.calls)).unwrap();
            run();
            unsafe { count_from() };
            run();
            unsafe { count_to(name.as_ptr()) };
        }
    });
}
