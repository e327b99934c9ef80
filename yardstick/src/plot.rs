//! A drawing of the figures: time against n for the plain and the quick search, K = 6, both axes labelled.
#![forbid(unsafe_code)]

use std::fmt::Write;

const WIDTH: f64 = 780.0;
const HEIGHT: f64 = 470.0;
const LEFT: f64 = 80.0;
const RIGHT: f64 = 560.0;
const TOP: f64 = 40.0;
const BOTTOM: f64 = 400.0;
const FONT: &str = r#"font-family="sans-serif" font-size="12""#;
/// The kinds that are drawn, each in its colour.
const KINDS: [(&str, &str); 4] = [
    ("random", "#1b6ca8"),
    ("near misses", "#c0392b"),
    ("XOR, last row flipped", "#1e8449"),
    ("few ones", "#8e44ad"),
];
/// From 100 ns to 1,000 s.
const LEAST: f64 = -7.0;
const MOST: f64 = 3.0;

fn across(n: f64) -> f64 {
    LEFT + (n - 8.0) / 8.0 * (RIGHT - LEFT)
}

fn up(nanoseconds: f64) -> f64 {
    let power = nanoseconds.log10() - 9.0;
    BOTTOM - (power - LEAST) / (MOST - LEAST) * (BOTTOM - TOP)
}

/// The points of a kind: n and the time in the column given, for K = 6.
fn points(lines: &str, kind: &str, column: usize) -> Vec<(f64, f64)> {
    let number = |field: &&str| field.parse::<f64>().ok();
    lines
        .lines()
        .filter_map(|line| line.strip_prefix(kind)?.strip_prefix(",6,"))
        .filter_map(|rest| {
            let fields: Vec<&str> = rest.split(',').collect();
            Some((fields.first().and_then(number)?, fields.get(column).and_then(number)?))
        })
        .filter(|point| point.1 > 0.0)
        .collect()
}

fn curve(out: &mut String, points: &[(f64, f64)], colour: &str, dashes: &str) {
    let path: Vec<String> =
        points.iter().map(|&(n, t)| format!("{:.1},{:.1}", across(n), up(t))).collect();
    let _ = writeln!(
        out,
        r#"<polyline points="{}" fill="none" stroke="{colour}" stroke-width="2"{dashes}/>"#,
        path.join(" ")
    );
    for at in &path {
        let (x, y) = at.split_once(',').unwrap_or(("0", "0"));
        let _ = writeln!(out, r#"<circle cx="{x}" cy="{y}" r="3" fill="{colour}"/>"#);
    }
}

fn axes(out: &mut String) {
    for (power, label) in (-7..=3).zip([
        "100 ns", "1 µs", "10 µs", "100 µs", "1 ms", "10 ms", "100 ms", "1 s", "10 s", "100 s",
        "1,000 s",
    ]) {
        let y = up(10f64.powi(power + 9));
        let _ = writeln!(
            out,
            r##"<line x1="{LEFT}" x2="{RIGHT}" y1="{y:.1}" y2="{y:.1}" stroke="#dddddd"/>"##
        );
        let _ = writeln!(
            out,
            r#"<text x="{}" y="{:.1}" text-anchor="end">{label}</text>"#,
            LEFT - 8.0,
            y + 4.0
        );
    }
    for n in [8, 10, 12, 14, 16] {
        let x = across(f64::from(n));
        let _ = writeln!(
            out,
            r#"<text x="{x:.1}" y="{}" text-anchor="middle">{n}</text>"#,
            BOTTOM + 20.0
        );
    }
    let _ = writeln!(
        out,
        r#"<text x="{}" y="{}" text-anchor="middle">inputs of the gate, n</text>"#,
        (LEFT + RIGHT) / 2.0,
        BOTTOM + 45.0
    );
    let _ = writeln!(
        out,
        r#"<text transform="translate(18 {}) rotate(-90)" text-anchor="middle">time of one find, K = 6</text>"#,
        (TOP + BOTTOM) / 2.0
    );
}

pub fn drawing(lines: &str) -> String {
    let mut out = String::new();
    let _ = writeln!(
        out,
        r#"<svg xmlns="http://www.w3.org/2000/svg" viewBox="0 0 {WIDTH} {HEIGHT}" {FONT}>"#
    );
    let _ = writeln!(out, r#"<rect width="{WIDTH}" height="{HEIGHT}" fill="white"/>"#);
    axes(&mut out);
    for (at, (kind, colour)) in KINDS.iter().enumerate() {
        curve(&mut out, &points(lines, kind, 4), colour, r#" stroke-dasharray="6 4""#);
        curve(&mut out, &points(lines, kind, 2), colour, "");
        let y = TOP + 30.0 + 22.0 * at as f64;
        let _ = writeln!(
            out,
            r#"<rect x="{}" y="{}" width="14" height="4" fill="{colour}"/>"#,
            RIGHT + 15.0,
            y - 6.0
        );
        let _ = writeln!(out, r#"<text x="{}" y="{y}">{kind}</text>"#, RIGHT + 36.0);
    }
    for (at, words) in ["full: ours", "dashed: the plain search in Rust"].iter().enumerate() {
        let y = TOP + 130.0 + 20.0 * at as f64;
        let _ = writeln!(out, r#"<text x="{}" y="{y}">{words}</text>"#, RIGHT + 15.0);
    }
    let _ =
        writeln!(out, r#"<text x="{LEFT}" y="22">Finding that a gate's table has no split</text>"#);
    out.push_str("</svg>\n");
    out
}
