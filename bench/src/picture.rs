//! The ratios as a picture: a bar to each, from the line at 1, on a logarithmic scale; the builds' bars under each other.

use crate::report::{Bar, ratio};
use crate::results::Results;
use std::fmt::Write;

const WIDTH: f64 = 880.0;
/// Where the scale begins and ends.
const LEFT: f64 = 250.0;
const RIGHT: f64 = WIDTH - 60.0;
const TOP: f64 = 104.0;
/// The height of a bar with the space below it, and the space below a line's last bar.
const STEP: f64 = 10.0;
const SPACE: f64 = 5.0;
const GROUP: f64 = 34.0;

/// Colours for a light page, and for a dark one.
const STYLE: &str = "\
text { font: 12px system-ui, -apple-system, 'Segoe UI', 'DejaVu Sans', sans-serif; fill: #1f2328;
  paint-order: stroke; stroke: #ffffff; stroke-width: 4px; stroke-linejoin: round }
.title { font-size: 17px; font-weight: 600 }
.group { font-weight: 600 }
.number { font-size: 9.5px; fill: #59636e }
.faint { fill: #59636e }
.ahead { fill: #2f6fd0 }
.behind { fill: #cf7a1f }
.grid { stroke: #d1d9e0 }
.one { stroke: #1f2328; stroke-width: 1.5 }
.page { fill: #ffffff }
@media (prefers-color-scheme: dark) {
text { fill: #f0f6fc; stroke: #0d1117 }
.faint, .number { fill: #9198a1 }
.ahead { fill: #5b9bf8 }
.behind { fill: #e3963e }
.grid { stroke: #3d444d }
.one { stroke: #f0f6fc }
.page { fill: #0d1117 }
}
";

/// The numbers 1, 2 and 5 times a power of ten.
fn ticks() -> impl Iterator<Item = f64> {
    (-4..6).flat_map(|power| [1.0, 2.0, 5.0].map(|digit| digit * 10f64.powi(power)))
}

/// A scale that has all ratios, and 1.
struct Scale {
    low: f64,
    high: f64,
}

impl Scale {
    fn of(bars: &[Bar]) -> Self {
        let ratios = || bars.iter().flat_map(|bar| bar.ratios.iter().copied());
        let (least, most) = (ratios().fold(0.5, f64::min), ratios().fold(2.0, f64::max));
        // Room for the number beside the shortest bar.
        let low = ticks().filter(|tick| *tick <= 0.7 * least).fold(1e-4, f64::max);
        let high = ticks().filter(|tick| *tick >= most).fold(1e6, f64::min);
        Scale { low, high }
    }

    fn x(&self, ratio: f64) -> f64 {
        LEFT + (RIGHT - LEFT) * (ratio / self.low).ln() / (self.high / self.low).ln()
    }
}

/// A text at a place; `class` and `anchor` are SVG's.
fn text(svg: &mut String, class: &str, anchor: &str, x: f64, y: f64, words: &str) {
    let words = words.replace('&', "&amp;").replace('<', "&lt;");
    writeln!(svg, "<text class=\"{class}\" text-anchor=\"{anchor}\" x=\"{x:.1}\" y=\"{y:.1}\">{words}</text>").unwrap();
}

fn grid(svg: &mut String, scale: &Scale, bottom: f64) {
    for tick in ticks().filter(|tick| (scale.low..=scale.high).contains(tick)) {
        let (x, class) = (scale.x(tick), if tick == 1.0 { "one" } else { "grid" });
        writeln!(svg, "<line class=\"{class}\" x1=\"{x:.1}\" x2=\"{x:.1}\" y1=\"{TOP:.1}\" y2=\"{bottom:.1}\"/>")
            .unwrap();
        text(svg, "faint", "middle", x, TOP - 6.0, &tick.to_string());
        text(svg, "faint", "middle", x, bottom + 16.0, &tick.to_string());
    }
}

/// One build's bar; `number` is the build's place.
fn bar(svg: &mut String, scale: &Scale, y: f64, number: usize, of: f64) {
    let (one, end) = (scale.x(1.0), scale.x(of));
    let (class, anchor, beside) = if of < 1.0 { ("behind", "end", -5.0) } else { ("ahead", "start", 5.0) };
    let (x, width) = (one.min(end), (end - one).abs().max(1.0));
    let opacity = if number == 0 { 1.0 } else { 0.6 };
    let (y_bar, height) = (y - 4.0, 8.0);
    writeln!(
        svg,
        "<rect class=\"{class}\" opacity=\"{opacity}\" x=\"{x:.1}\" y=\"{y_bar:.1}\" width=\"{width:.1}\" height=\"{height}\" rx=\"1.5\"/>"
    )
    .unwrap();
    text(svg, "number", anchor, end + beside, y + 3.5, &ratio(of));
}

/// A label and its bars, the first build's on top.
fn line(svg: &mut String, scale: &Scale, y: f64, line: &Bar) {
    let middle = y + STEP * line.ratios.len() as f64 / 2.0;
    text(svg, "", "end", LEFT - 12.0, middle + 3.0, &line.label);
    for (number, of) in line.ratios.iter().enumerate() {
        bar(svg, scale, y + STEP * (number as f64 + 0.5), number, *of);
    }
}

/// What the picture tells, the builds, and which side of 1 is whose.
fn heading(svg: &mut String, scale: &Scale, all: &[Results]) {
    let build =
        |Results { build, .. }: &Results| format!("{} (logical_nulls at setting {})", build.processor, build.cost);
    let builds: Vec<String> = all.iter().map(build).collect();
    let builds = format!("The Rust built for, from the upper bar on: {}", builds.join(", "));
    text(svg, "title", "start", 20.0, 30.0, "How many times as fast as the Rust the port is");
    text(svg, "faint", "start", 20.0, 50.0, &builds);
    text(svg, "faint", "end", scale.x(1.0) - 10.0, 76.0, "the Rust ahead");
    text(svg, "faint", "start", scale.x(1.0) + 10.0, 76.0, "the port ahead");
}

pub fn svg(bars: &[Bar], all: &[Results]) -> String {
    let scale = Scale::of(bars);
    let mut groups: Vec<&str> = Vec::new();
    bars.iter().for_each(|bar| {
        if !groups.contains(&bar.group.as_str()) {
            groups.push(&bar.group)
        }
    });
    let step = STEP * all.len() as f64 + SPACE;
    let bottom = TOP + GROUP * groups.len() as f64 + step * bars.len() as f64 + 8.0;
    let height = bottom + 30.0;
    let mut svg = format!(
        "<svg xmlns=\"http://www.w3.org/2000/svg\" width=\"{WIDTH}\" height=\"{height}\" viewBox=\"0 0 {WIDTH} {height}\" \
         role=\"img\" aria-label=\"The port's speed beside the Rust's\">\n<style>\n{STYLE}</style>\n"
    );
    writeln!(svg, "<rect class=\"page\" width=\"{WIDTH}\" height=\"{height}\"/>").unwrap();
    heading(&mut svg, &scale, all);
    grid(&mut svg, &scale, bottom);
    let mut y = TOP;
    for group in groups {
        y += GROUP;
        text(&mut svg, "group", "start", 20.0, y - 11.0, group);
        for one in bars.iter().filter(|bar| bar.group == group) {
            line(&mut svg, &scale, y, one);
            y += step;
        }
    }
    svg + "</svg>\n"
}
