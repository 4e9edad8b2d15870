//! The table's line writes as a bar chart.
use crate::{DESIGNS, WORKS, Wear};

const WIDTH: f64 = 760.0;
const HEIGHT: f64 = 400.0;
const LEFT: f64 = 64.0;
const TOP: f64 = 76.0;
const BOTTOM: f64 = 340.0;
const MOST: f64 = 3.0;
const BAR: f64 = 44.0;
const COLOURS: [&str; 3] = ["#1f6f8b", "#99a8b2", "#d9a441"];
const BOUND: f64 = 20.0 / 7.0;

fn height_of(lines: f64) -> f64 {
    BOTTOM - (BOTTOM - TOP) * lines / MOST
}

fn text(x: f64, y: f64, anchor: &str, class: &str, words: &str) -> String {
    format!("  <text x=\"{x:.1}\" y=\"{y:.1}\" text-anchor=\"{anchor}\" class=\"{class}\">{words}</text>\n")
}

fn rule(y: f64, class: &str) -> String {
    format!("  <line x1=\"{LEFT}\" y1=\"{y:.1}\" x2=\"{:.1}\" y2=\"{y:.1}\" class=\"{class}\"/>\n", WIDTH - 20.0)
}

fn axis() -> String {
    let mut svg = String::new();
    for tick in 0..=MOST as u64 {
        let y = height_of(tick as f64);
        svg += &rule(y, if tick == 0 { "axis" } else { "grid" });
        svg += &text(LEFT - 10.0, y + 4.0, "end", "tick", &tick.to_string());
    }
    svg
}

fn legend() -> String {
    let mut svg = String::new();
    for (at, design) in DESIGNS.iter().enumerate() {
        let x = LEFT + 160.0 * at as f64;
        svg += &format!("  <rect x=\"{x:.1}\" y=\"44\" width=\"12\" height=\"12\" fill=\"{}\"/>\n", COLOURS[at]);
        svg += &text(x + 18.0, 54.0, "start", "tick", design.name());
    }
    svg
}

fn group(at: usize, name: &str, row: &[Wear; 3]) -> String {
    let step = (WIDTH - LEFT - 20.0) / WORKS.len() as f64;
    let start = LEFT + step * at as f64 + (step - 3.0 * BAR) / 2.0;
    let mut svg = text(start + 1.5 * BAR, BOTTOM + 24.0, "middle", "name", name);
    for (bar, wear) in row.iter().enumerate() {
        let (x, lines) = (start + BAR * bar as f64, wear.lines_per_put());
        let y = height_of(lines);
        let (width, height, colour) = (BAR - 4.0, BOTTOM - y, COLOURS[bar]);
        svg += &format!(
            "  <rect x=\"{x:.1}\" y=\"{y:.1}\" width=\"{width}\" height=\"{height:.1}\" fill=\"{colour}\"/>\n"
        );
        svg += &text(x + width / 2.0, y - 5.0, "middle", "value", &format!("{lines:.2}"));
    }
    svg
}

/// The chart as an SVG file.
pub fn picture(table: &[[Wear; 3]; 4]) -> String {
    let mut svg = format!(
        "<svg xmlns=\"http://www.w3.org/2000/svg\" viewBox=\"0 0 {WIDTH} {HEIGHT}\" role=\"img\" \
         aria-label=\"Line writes per put\">\n  <style>\n    text {{ font-family: sans-serif; fill: #222 }}\n    \
         .title {{ font-size: 17px; font-weight: bold }}\n    .name {{ font-size: 14px }}\n    \
         .tick, .value, .note {{ font-size: 12px }}\n    .axis {{ stroke: #222 }}\n    .grid {{ stroke: #ddd }}\n    \
         .bound {{ stroke: #b03a2e; stroke-width: 2; stroke-dasharray: 6 4 }}\n  </style>\n  \
         <rect width=\"{WIDTH}\" height=\"{HEIGHT}\" fill=\"#fff\"/>\n"
    );
    svg += &text(LEFT, 28.0, "start", "title", "Line writes per put, splits included");
    svg += &legend();
    svg += &axis();
    for (at, (keys, row)) in WORKS.iter().zip(table).enumerate() {
        svg += &group(at, keys.name(), row);
    }
    svg += &rule(height_of(BOUND), "bound");
    svg += &text(WIDTH - 20.0, height_of(BOUND) + 16.0, "end", "note", "proved bound for ours: 20/7");
    svg += &text(LEFT, HEIGHT - 14.0, "start", "note", "256 blocks; fewer is better; made by make wear");
    svg + "</svg>\n"
}
