//! How cost grows: three panels, both scales logarithmic.

use crate::report::Times;

const WIDE: f64 = 340.0;
const HIGH: f64 = 260.0;

/// Points of one line: (M or N, nanoseconds).
fn line(t: &Times, row: &str, side: &str) -> Vec<(f64, f64)> {
    let mut points: Vec<(f64, f64)> = t
        .iter()
        .filter(|((r, s), _)| r.starts_with(row) && s == side)
        .filter_map(|((r, _), time)| Some((r.rsplit('=').next()?.parse::<f64>().ok()?, time.0)))
        .filter(|p| p.0 > 0.0)
        .collect();
    points.sort_by(|a, b| a.0.total_cmp(&b.0));
    points
}

/// Powers of ten, and twice and five times these where they are few.
fn ticks(low: f64, high: f64) -> Vec<f64> {
    let steps: &[f64] = if high / low < 100.0 { &[1.0, 2.0, 5.0] } else { &[1.0] };
    let powers = low.log10().floor() as i32..=high.log10().floor() as i32;
    powers.flat_map(|e| steps.iter().map(move |s| s * 10f64.powi(e))).filter(|v| (low..=high).contains(v)).collect()
}

fn told(n: f64) -> String {
    match n {
        n if n >= 1e9 => format!("{} s", n / 1e9),
        n if n >= 1e6 => format!("{} ms", n / 1e6),
        n if n >= 1e3 => format!("{} µs", n / 1e3),
        n => format!("{n} ns"),
    }
}

/// One panel: lines with a name, a colour and a dash each.
fn panel(left: f64, title: &str, lines: &[(&str, &str, &str, Vec<(f64, f64)>)]) -> String {
    let all: Vec<(f64, f64)> = lines.iter().flat_map(|l| l.3.iter().copied()).collect();
    if all.is_empty() {
        return String::new();
    }
    let least = |f: fn(&(f64, f64)) -> f64| all.iter().map(f).fold(f64::MAX, f64::min);
    let most = |f: fn(&(f64, f64)) -> f64| all.iter().map(f).fold(0.0, f64::max);
    let (x0, x1, y0, y1) = (least(|p| p.0), most(|p| p.0), least(|p| p.1) / 1.3, most(|p| p.1) * 1.3);
    let x = |v: f64| left + 70.0 + (v / x0).ln() / (x1 / x0).ln() * (WIDE - 90.0);
    let y = |v: f64| 40.0 + HIGH - (v / y0).ln() / (y1 / y0).ln() * HIGH;
    let mut s = format!("<text x=\"{}\" y=\"24\" font-weight=\"bold\">{title}</text>\n", left + 70.0);
    for v in ticks(y0, y1) {
        let (a, b, h) = (left + 70.0, left + WIDE - 20.0, y(v));
        s += &format!("<line x1=\"{a}\" x2=\"{b}\" y1=\"{h:.1}\" y2=\"{h:.1}\" stroke=\"#ddd\"/><text x=\"{}\" y=\"{:.1}\" text-anchor=\"end\">{}</text>\n", a - 6.0, h + 4.0, told(v));
    }
    for v in [x0, (x0 * x1).sqrt().log2().round().exp2(), x1] {
        s += &format!("<text x=\"{:.1}\" y=\"{}\" text-anchor=\"middle\">{v:.0}</text>\n", x(v), 58.0 + HIGH);
    }
    for (i, (name, colour, dash, points)) in lines.iter().enumerate() {
        let path: Vec<String> = points.iter().map(|p| format!("{:.1},{:.1}", x(p.0), y(p.1))).collect();
        let (a, h) = (left + 76.0, 78.0 + HIGH + 16.0 * i as f64);
        s += &format!("<polyline points=\"{}\" fill=\"none\" stroke=\"{colour}\" stroke-width=\"2\" stroke-dasharray=\"{dash}\"/>\n", path.join(" "));
        s += &format!("<line x1=\"{a}\" x2=\"{}\" y1=\"{h}\" y2=\"{h}\" stroke=\"{colour}\" stroke-width=\"2\" stroke-dasharray=\"{dash}\"/><text x=\"{}\" y=\"{}\">{name}</text>\n", a + 30.0, a + 38.0, h + 4.0);
    }
    s
}

pub fn svg(t: &Times) -> String {
    let pair = |kind: &str| {
        let of = |set: &str, side: &str| line(t, &format!("growth {kind} {set}"), side);
        vec![
            ("port, sphere", "#1f6fb4", "", of("sphere", "port")),
            ("source, sphere", "#d1651a", "", of("sphere", "source")),
            ("port, chain", "#1f6fb4", "5 4", of("chain", "port")),
            ("source, chain", "#d1651a", "5 4", of("chain", "source")),
        ]
    };
    let filters = vec![("port", "#1f6fb4", "", line(t, "growth filter", "port")), ("source", "#d1651a", "", line(t, "growth filter", "source"))];
    format!(
        "<svg xmlns=\"http://www.w3.org/2000/svg\" width=\"{w}\" height=\"{h}\" font-family=\"sans-serif\" font-size=\"12\">\n<rect width=\"{w}\" height=\"{h}\" fill=\"white\"/>\n{}{}{}</svg>\n",
        panel(0.0, "load against M", &pair("load")),
        panel(WIDE, "find against M", &pair("find")),
        panel(2.0 * WIDE, "filter against N (M = 256)", &filters),
        w = 3.0 * WIDE,
        h = HIGH + 150.0,
    )
}
