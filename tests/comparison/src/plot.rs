//! Small charts of time against terms, side by side, as SVG.

use std::fmt::Write;

/// One chart: for each size the number of terms and the seconds of both solvers.
pub struct Chart {
    pub name: String,
    pub times: Vec<(usize, [f64; 2])>,
}

/// The names and colours of the two solvers.
const SOLVERS: [(&str, &str); 2] = [("proved", "#1f5fa8"), ("rival", "#d9730d")];

const COLUMNS: usize = 4;
/// Width and height of a chart's area, and of the cell around it.
const AREA: [f64; 2] = [170.0, 120.0];
const CELL: [f64; 2] = [228.0, 182.0];
/// The left upper corner of the first chart's area.
const ORIGIN: [f64; 2] = [76.0, 92.0];

/// The axes: terms, and microseconds.
const TERMS: [f64; 2] = [110.0, 600.0];
const TIMES: [f64; 2] = [5.0, 20_000.0];
const TERM_TICKS: [usize; 3] = [128, 256, 512];
const TIME_TICKS: [(f64, &str); 4] = [(10.0, "10 µs"), (100.0, "100 µs"), (1_000.0, "1 ms"), (10_000.0, "10 ms")];

/// Where a value stands between the ends of a logarithmic axis, from 0 to 1.
fn along(value: f64, [low, high]: [f64; 2]) -> f64 {
    (value.clamp(low, high) / low).ln() / (high / low).ln()
}

fn x_of(terms: usize) -> f64 {
    along(terms as f64, TERMS) * AREA[0]
}

fn y_of(microseconds: f64) -> f64 {
    (1.0 - along(microseconds, TIMES)) * AREA[1]
}

/// The charts as one picture.
pub fn svg(title: &str, charts: &[Chart]) -> String {
    let rows = charts.len().div_ceil(COLUMNS);
    let width = ORIGIN[0] + CELL[0] * COLUMNS as f64 - (CELL[0] - AREA[0]) + 24.0;
    let height = ORIGIN[1] + CELL[1] * rows as f64 - (CELL[1] - AREA[1]) + 56.0;
    let mut out = String::new();
    let mut line = |text: String| writeln!(out, "{text}").expect("a line of text");
    line(format!(r#"<svg xmlns="http://www.w3.org/2000/svg" width="{width}" height="{height}" viewBox="0 0 {width} {height}""#));
    line(r##"  font-family="sans-serif" font-size="12" fill="#222222">"##.into());
    line(format!(r##"<rect width="{width}" height="{height}" fill="#ffffff"/>"##));
    line(format!(r#"<text x="{}" y="28" font-size="16" font-weight="bold">{title}</text>"#, ORIGIN[0]));
    for (k, (name, _)) in SOLVERS.iter().enumerate() {
        let x = ORIGIN[0] + 110.0 * k as f64;
        line(curve(k, &[(x, 48.0), (x + 18.0, 48.0), (x + 36.0, 48.0)], &[(x + 18.0, 48.0)]));
        line(format!(r#"<text x="{}" y="52">{name}</text>"#, x + 44.0));
    }
    line(format!(r##"<text x="{}" y="52" fill="#666666">ratio: proved to rival, largest sets</text>"##, ORIGIN[0] + 220.0));
    for (k, chart) in charts.iter().enumerate() {
        let (x, y) = (ORIGIN[0] + CELL[0] * (k % COLUMNS) as f64, ORIGIN[1] + CELL[1] * (k / COLUMNS) as f64);
        line(format!(r#"<g transform="translate({x} {y})">"#));
        line(frame(chart, k % COLUMNS == 0));
        for solver in 0..SOLVERS.len() {
            let points: Vec<(f64, f64)> = chart.times.iter().map(|(terms, times)| (x_of(*terms), y_of(times[solver] * 1e6))).collect();
            line(curve(solver, &points, &points));
        }
        line("</g>".into());
    }
    let middle = ORIGIN[1] + (CELL[1] * (rows - 1) as f64 + AREA[1]) / 2.0;
    line(format!(r#"<text transform="translate(18 {middle}) rotate(-90)" text-anchor="middle">time of one solve</text>"#));
    line(format!(r#"<text x="{}" y="{}" text-anchor="middle">terms of the set</text>"#, width / 2.0, height - 14.0));
    line("</svg>".into());
    out
}

/// A chart's name, lines and ticks; the times are written where it is the first of its row.
fn frame(chart: &Chart, first: bool) -> String {
    let [width, height] = AREA;
    let mut out = String::new();
    let (_, [proved, rival]) = chart.times[chart.times.len() - 1];
    let (name, ratio) = (&chart.name, proved / rival);
    write!(out, r##"<text y="-8" font-weight="bold">{name}</text>"##).expect("text");
    write!(out, r##"<text x="{width}" y="-8" text-anchor="end" fill="#666666">ratio {ratio:.1}</text>"##).expect("text");
    for (time, label) in TIME_TICKS {
        let y = y_of(time);
        write!(out, r##"<path d="M0 {y:.1}H{width}" stroke="#dddddd"/>"##).expect("text");
        if first {
            write!(out, r#"<text x="-7" y="{:.1}" text-anchor="end">{label}</text>"#, y + 4.0).expect("text");
        }
    }
    for terms in TERM_TICKS {
        let x = x_of(terms);
        write!(out, r##"<path d="M{x:.1} 0V{height}" stroke="#dddddd"/>"##).expect("text");
        write!(out, r#"<text x="{x:.1}" y="{}" text-anchor="middle">{terms}</text>"#, height + 16.0).expect("text");
    }
    write!(out, r##"<rect width="{width}" height="{height}" fill="none" stroke="#888888"/>"##).expect("text");
    out
}

/// A solver's line, with a mark at some points: circles and squares.
fn curve(solver: usize, points: &[(f64, f64)], marked: &[(f64, f64)]) -> String {
    let colour = SOLVERS[solver].1;
    let path: Vec<String> = points.iter().map(|(x, y)| format!("{x:.1},{y:.1}")).collect();
    let mut out = format!(r#"<polyline points="{}" fill="none" stroke="{colour}" stroke-width="2"/>"#, path.join(" "));
    for (x, y) in marked {
        out += &match solver {
            0 => format!(r#"<circle cx="{x:.1}" cy="{y:.1}" r="3.5" fill="{colour}"/>"#),
            _ => format!(r#"<rect x="{:.1}" y="{:.1}" width="7" height="7" fill="{colour}"/>"#, x - 3.5, y - 3.5),
        };
    }
    out
}
