//! The plot of the cost per element against the number of elements, both on logarithmic axes.

use std::fmt::Write as _;

use crate::lists::KINDS;
use crate::measure::Who;
use crate::report::Growth;

const WIDTH: f64 = 900.0;
const HEIGHT: f64 = 480.0;
const LEFT: f64 = 70.0;
const RIGHT: f64 = 640.0;
const TOP: f64 = 40.0;
const BOTTOM: f64 = 420.0;

/// The exponents of two at the ends of the horizontal axis.
const DOUBLINGS: f64 = 20.0;

const COLOURS: [&str; 3] = ["#0b6e99", "#c2410c", "#15803d"];

fn dashes(who: Who) -> &'static str {
    match who {
        Who::Original => "7 4",
        Who::Mpfr | Who::MpfrSet => "2 3",
        _ => "none",
    }
}

/// Powers of ten that hold every time between them.
fn decades(points: &[Growth]) -> (i32, i32) {
    let of = |time: f64| time.log10();
    let least = points.iter().map(|point| of(point.time)).fold(f64::INFINITY, f64::min);
    let most = points.iter().map(|point| of(point.time)).fold(f64::NEG_INFINITY, f64::max);
    (least.floor() as i32, most.ceil() as i32)
}

fn across(count: f64) -> f64 {
    LEFT + (RIGHT - LEFT) * count.log2() / DOUBLINGS
}

fn down(time: f64, (low, high): (i32, i32)) -> f64 {
    BOTTOM - (BOTTOM - TOP) * (time.log10() - f64::from(low)) / f64::from(high - low)
}

fn text(svg: &mut String, [x, y]: [f64; 2], anchor: &str, words: &str) {
    let _ = writeln!(svg, r#"<text x="{x:.1}" y="{y:.1}" text-anchor="{anchor}">{words}</text>"#);
}

fn line(svg: &mut String, [x1, y1]: [f64; 2], [x2, y2]: [f64; 2], stroke: &str) {
    let _ = writeln!(svg, r#"<path d="M{x1:.1} {y1:.1}L{x2:.1} {y2:.1}" {stroke}/>"#);
}

fn axes(svg: &mut String, scale: (i32, i32)) {
    const GRID: &str = r##"stroke="#ddd""##;
    for decade in scale.0..=scale.1 {
        for step in 1..10 {
            let time = f64::from(step) * 10f64.powi(decade);
            if step > 1 && decade == scale.1 {
                break;
            }
            let y = down(time, scale);
            let grid = if step == 1 { r##"stroke="#bbb""## } else { r##"stroke="#eee""## };
            line(svg, [LEFT, y], [RIGHT, y], grid);
            if step == 1 {
                text(svg, [LEFT - 8.0, y + 4.0], "end", &format!("{time}"));
            }
        }
    }
    for (exponent, label) in [(0, "1"), (4, "16"), (8, "256"), (12, "4,096"), (16, "65,536"), (20, "1,048,576")] {
        let x = across(f64::from(1 << exponent));
        line(svg, [x, TOP], [x, BOTTOM], GRID);
        text(svg, [x, BOTTOM + 18.0], "middle", label);
    }
    let frame = r##"stroke="#333""##;
    line(svg, [LEFT, BOTTOM], [RIGHT, BOTTOM], frame);
    line(svg, [LEFT, TOP], [LEFT, BOTTOM], frame);
    text(svg, [(LEFT + RIGHT) / 2.0, BOTTOM + 42.0], "middle", "number of elements");
    let (x, y) = (20.0, (TOP + BOTTOM) / 2.0);
    let _ = writeln!(svg, r#"<text x="{x}" y="{y}" text-anchor="middle" transform="rotate(-90 {x} {y})">nanoseconds per element</text>"#);
    text(svg, [LEFT, TOP - 16.0], "start", "The sum of a list in binary64");
}

pub fn svg(points: &[Growth]) -> String {
    let scale = decades(points);
    let mut svg = format!(
        "<svg xmlns=\"http://www.w3.org/2000/svg\" viewBox=\"0 0 {WIDTH} {HEIGHT}\" width=\"{WIDTH}\" height=\"{HEIGHT}\" \
         font-family=\"sans-serif\" font-size=\"13\" fill=\"#222\">\n<rect width=\"{WIDTH}\" height=\"{HEIGHT}\" fill=\"#fff\"/>\n"
    );
    axes(&mut svg, scale);
    let mut legend = TOP + 10.0;
    for who in Who::ALL {
        for (place, (kind, holds)) in KINDS.into_iter().enumerate() {
            let path: Vec<String> = points
                .iter()
                .filter(|point| point.who == who && point.kind == kind)
                .map(|point| format!("{:.1} {:.1}", across(point.count as f64), down(point.time, scale)))
                .collect();
            if path.is_empty() {
                continue;
            }
            let width = if who == Who::Ours { 2.5 } else { 1.5 };
            let stroke = format!(r#"fill="none" stroke="{}" stroke-width="{width}" stroke-dasharray="{}""#, COLOURS[place], dashes(who));
            let _ = writeln!(svg, r#"<path d="M{}" {stroke}/>"#, path.join("L"));
            line(&mut svg, [RIGHT + 16.0, legend - 4.0], [RIGHT + 46.0, legend - 4.0], &stroke);
            text(&mut svg, [RIGHT + 54.0, legend], "start", &format!("{}, {holds}", who.name()));
            legend += 22.0;
        }
    }
    svg.push_str("</svg>\n");
    svg
}
