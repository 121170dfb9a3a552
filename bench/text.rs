//! A set and queries in the text form, for the query program.

use std::io::Write;

use crate::sets;

fn words(values: &[f32]) -> String {
    values.iter().map(|v| format!("{:08x}", v.to_bits())).collect::<Vec<_>>().join(",")
}

/// 64 directions, two receivers, 32 taps, and as many queries.
pub fn tell(queries: usize) {
    let (m, n) = (64, 32);
    let set = sets::sphere(m).taps(n);
    let mut out = std::io::BufWriter::new(std::io::stdout().lock());
    let mut line = |key: &str, value: String| writeln!(out, "{key}={value}").unwrap();
    line("form", "1".into());
    line("kind", "cartesian".into());
    for (key, count) in [("m", m), ("r", 2), ("n", n)] {
        line(key, count.to_string());
    }
    for (key, value) in [("rate", set.rate), ("astep", set.angle_step), ("rstep", set.radius_step)] {
        line(key, words(&[value]));
    }
    line("delays", set.delays.len().to_string());
    set.positions.chunks(3).for_each(|p| line("pos", words(p)));
    set.responses.chunks(n).for_each(|taps| line("ir", words(taps)));
    set.delays.iter().for_each(|d| line("delay", words(&[*d])));
    sets::queries(queries, 9).iter().for_each(|q| line("query", words(q)));
}
