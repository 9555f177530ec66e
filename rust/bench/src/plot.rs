//! A plot of what an update costs against the picture rows that changed, as SVG.

use std::fmt::Write;

use crate::Point;

const WIDTH: f64 = 640.0;
const HEIGHT: f64 = 360.0;
const MARGIN: f64 = 56.0;

/// Time over rows, a dot for each measured point.
pub fn drawn(points: &[Point]) -> String {
    let most_rows = points.iter().map(|point| f64::from(point.rows)).fold(1.0, f64::max);
    let most_time = points.iter().map(|point| point.time).fold(1.0, f64::max);
    let x = |rows: u16| MARGIN + f64::from(rows) / most_rows * (WIDTH - 2.0 * MARGIN);
    let y = |time: f64| HEIGHT - MARGIN - time / most_time * (HEIGHT - 2.0 * MARGIN);
    let mut svg = String::new();
    let line: Vec<String> = points.iter().map(|point| format!("{:.1},{:.1}", x(point.rows), y(point.time))).collect();
    write!(
        svg,
        r#"<svg xmlns="http://www.w3.org/2000/svg" viewBox="0 0 {WIDTH} {HEIGHT}" font-family="sans-serif" font-size="12">
<rect width="{WIDTH}" height="{HEIGHT}" fill="white"/>
<path d="M{MARGIN} {MARGIN}V{bottom}H{right}" fill="none" stroke="black"/>
<text x="{MARGIN}" y="{above}">microseconds an update</text>
<text x="{right}" y="{below}" text-anchor="end">picture rows changed</text>
<polyline points="{}" fill="none" stroke="steelblue" stroke-width="2"/>
"#,
        line.join(" "),
        bottom = HEIGHT - MARGIN,
        right = WIDTH - MARGIN,
        above = MARGIN - 12.0,
        below = HEIGHT - 12.0,
    )
    .expect("a string takes all");
    let mut named = 0.0;
    for point in points {
        let (x, y) = (x(point.rows), y(point.time));
        writeln!(svg, r#"<circle cx="{x:.1}" cy="{y:.1}" r="3" fill="steelblue"/>"#).expect("a string takes all");
        // Numbers that would run into one another are left to the table.
        if x - named < 25.0 {
            continue;
        }
        named = x;
        writeln!(
            svg,
            r#"<text x="{x:.1}" y="{:.1}" text-anchor="middle">{}</text>"#,
            HEIGHT - MARGIN + 16.0,
            point.rows
        )
        .expect("a string takes all");
        writeln!(svg, r#"<text x="{x:.1}" y="{:.1}" text-anchor="middle">{:.0}</text>"#, y - 10.0, point.time)
            .expect("a string takes all");
    }
    svg.push_str("</svg>\n");
    svg
}
