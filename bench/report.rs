//! docs/SPEED.md and docs/speed.svg, of what was timed and counted.

use std::collections::HashMap;
use std::fs;

use crate::plot;

/// By row and side: least and median nanoseconds.
pub type Times = HashMap<(String, String), (f64, f64)>;
type Counts = HashMap<(String, String), f64>;

/// Rows in the order in which they were timed.
pub fn times(path: &str) -> (Vec<String>, Times) {
    let (mut order, mut times) = (Vec::new(), Times::new());
    for line in fs::read_to_string(path).expect("the times").lines() {
        let w: Vec<&str> = line.split('\t').collect();
        if order.last().is_none_or(|last| last != w[0]) {
            order.push(w[0].to_string());
        }
        times.insert((w[0].to_string(), w[1].to_string()), (w[2].parse().unwrap(), w[3].parse().unwrap()));
    }
    (order, times)
}

/// Instructions of one call, from callgrind's dumps: each names its batch ROW|SIDE|CALLS.
fn counts(dir: &str) -> Counts {
    let mut counts = Counts::new();
    for entry in fs::read_dir(dir).into_iter().flatten().flatten() {
        let text = fs::read_to_string(entry.path()).unwrap_or_default();
        let after = |start: &str| text.lines().find_map(|l| l.strip_prefix(start)).map(str::to_string);
        let (Some(name), Some(total)) = (after("desc: Trigger: Client Request: "), after("totals: ")) else { continue };
        let w: Vec<&str> = name.split('|').collect();
        if let [row, side, calls] = w[..] {
            counts.insert((row.to_string(), side.to_string()), total.parse::<f64>().unwrap() / calls.parse::<f64>().unwrap());
        }
    }
    counts
}

fn shown(nanoseconds: f64) -> String {
    match nanoseconds {
        n if n >= 1e6 => format!("{:.1} ms", n / 1e6),
        n if n >= 1e4 => format!("{:.1} µs", n / 1e3),
        n => format!("{n:.1} ns"),
    }
}

fn count(n: Option<&f64>) -> String {
    match n {
        None => "-".to_string(),
        Some(n) if *n >= 1e6 => format!("{:.1} M", n / 1e6),
        Some(n) => format!("{n:.0}"),
    }
}

/// A table of rows against one other side, with a third beside it where it was timed.
fn table(rows: &[&String], other: &str, t: &Times, c: &Counts) -> String {
    let third = if other == "source" { " redirected / port | libmysofa / port |" } else { "" };
    let mut out = format!("| row | port | {other} | {other} / port | of the medians |{third} instructions, port | {other} |\n");
    out += &format!("|---|---|---|---|---|{}---|---|\n", if third.is_empty() { "" } else { "---|---|" });
    for row in rows {
        let key = |side: &str| (row.to_string(), side.to_string());
        let (Some(p), Some(o)) = (t.get(&key("port")), t.get(&key(other))) else { continue };
        let beside = |side: &str| t.get(&key(side)).map_or(" - |".to_string(), |r| format!(" {:.2} |", r.0 / p.0));
        let third = if other == "source" { beside("redirected") + &beside("libmysofa") } else { String::new() };
        let ratio = o.0 / p.0;
        let mark = if ratio >= 1.0 { format!("**{ratio:.2}**") } else { format!("{ratio:.2}") };
        out += &format!(
            "| {row} | {} | {} | {mark} | {:.2} |{third} {} | {} |\n",
            shown(p.0), shown(o.0), o.1 / p.1, count(c.get(&key("port"))), count(c.get(&key(other)))
        );
    }
    out
}

/// What a host lends for a set, in bytes: positions (3m), cartesian (3m), responses (m r n) and delays are f32, links (2m) and neighbours (6m) 16-bit.
fn memory() -> String {
    let mut out = "| M | R | N | lent for work: 28 M | positions, 12 M | responses, 4 M R N | delays, one each ear: 4 M R |\n|---|---|---|---|---|---|---|\n".to_string();
    for (m, r, n) in [(1000, 2, 128), (4000, 2, 512), (16384, 2, 512), (16384, 8, 8192)] {
        out += &format!("| {m} | {r} | {n} | {} | {} | {} | {} |\n", 28 * m, 12 * m, 4u64 * m * r * n, 4 * m * r);
    }
    out
}

/// How the times were taken, in lines of a document.
const HOW: &str = "\
One process, one run, release builds; the sides take turns in short batches, and the time is that of the least batch, so
that a busy machine disturbs it least. Ratios above 1 (in bold): the port is faster. `source` is the Rust unchanged,
`redirected` the Rust with the port's sine, cosine and arctangent. Instructions are callgrind's, of one call. `sphere`:
directions at random; `grid`: every 5 degrees, in shells; `measured`: MIT KEMAR, its own responses. A load takes steps
of 0.5 degrees and 0.01. A round asks 4096 different queries, as a head that turns does; `find again` asks the same 64
in every round, to show whether a processor gains by learning them.
";

pub fn write(timed: &str, counted: &str, facts: &str) {
    let (order, t) = times(timed);
    let c = counts(counted);
    let of = |start: &[&str]| -> Vec<&String> { order.iter().filter(|r| start.iter().any(|s| r.starts_with(s))).collect() };
    let facts = fs::read_to_string(facts).unwrap_or_default();
    let (head, rest) = facts.split_once("\n---\n").unwrap_or((&facts, ""));
    let notes = fs::read_to_string("bench/notes.md").unwrap_or_default();
    let text = format!(
        "# Speed\n\nWritten by `bench/run`; only the last chapter is by hand (bench/notes.md).\n\n{head}\n{}\n## A set\n\n{}\n## Numbers\n\n{}\n\
         ## The blend's inner loop\n\nBoth ears, four points.\n\n{}\n## How cost grows\n\n![load and find against M, filter against N](speed.svg)\n\n{}\n\
         ## Stack\n\n{rest}\n## Memory\n\nNothing is allocated. In bytes, a host lends:\n\n{}\n{notes}",
        HOW,
        table(&of(&["load", "find", "filter", "plain"]), "source", &t, &c),
        table(&of(&["sine", "cosine", "arctangent", "root"]), "C library", &t, &c),
        table(&of(&["blend"]), "C loop", &t, &c),
        table(&of(&["growth"]), "source", &t, &c),
        memory(),
    );
    fs::write("docs/SPEED.md", text).expect("docs/SPEED.md");
    fs::write("docs/speed.svg", plot::svg(&t)).expect("docs/speed.svg");
}
