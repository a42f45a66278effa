//! Small charts as SVG text: bars beside each other, and lines over common
//! axes.

use std::fmt::Write;

/// Values that belong together, each with the number of its series.
pub struct Group {
    pub name: String,
    pub values: Vec<(usize, f64)>,
}

/// The points of one series, from left to right.
pub struct Line {
    pub name: &'static str,
    pub points: Vec<(f64, f64)>,
}

pub struct Panel {
    pub title: &'static str,
    pub across: &'static str,
    pub up: &'static str,
    pub lines: Vec<Line>,
}

/// Of the proved code, the second engine, the C interpreter and watch.
const COLOURS: [&str; 4] = ["#2c6fbb", "#e08a1e", "#5b9a4a", "#8b5fb0"];
const ROW: f64 = 15.0;

/// Groups of horizontal bars that compare the proved code with the others, and
/// an upright line at 1.
pub fn bars(title: &str, series: &[&str], groups: &[Group]) -> String {
    let (left, width) = (190.0, 420.0);
    let largest = groups.iter().flat_map(|group| &group.values);
    let ticks = ticks(largest.fold(1.0, |most, &(_, value)| value.max(most)));
    let scale = width / ticks[ticks.len() - 1];
    let rows: usize = groups.iter().map(|group| group.values.len()).sum();
    let bottom = 62.0 + ROW * rows as f64 + 12.0 * groups.len() as f64;
    let mut svg = start(left + width + 60.0, bottom + 34.0);
    text(&mut svg, "title", 16.0, 24.0, title);
    let colours = &COLOURS[1..];
    legend(&mut svg, 44.0, series, colours);
    for tick in ticks {
        let x = left + tick * scale;
        rule(&mut svg, "grid", (x, 56.0), (x, bottom));
        text(&mut svg, "middle", x, bottom + 16.0, &label(tick));
    }
    let mut y = 66.0;
    for group in groups {
        let middle = y + ROW * group.values.len() as f64 / 2.0 + 4.0;
        text(&mut svg, "end", left - 10.0, middle, &group.name);
        for &(series, value) in &group.values {
            let (long, high, fill) = (value * scale, ROW - 2.0, colours[series]);
            let _ = writeln!(
                svg,
                r#"<rect x="{left}" y="{y:.1}" width="{long:.1}" height="{high}" fill="{fill}"/>"#
            );
            text(&mut svg, "note", left + long + 5.0, y + 11.0, &label(value));
            y += ROW;
        }
        y += 12.0;
    }
    let one = left + scale;
    rule(&mut svg, "axis", (one, 56.0), (one, bottom));
    svg + "</svg>\n"
}

/// Charts of lines, one beside the other.
pub fn panels(panels: &[Panel]) -> String {
    let (wide, high) = (380.0, 300.0);
    let mut svg = start(wide * panels.len() as f64, high);
    for (number, panel) in panels.iter().enumerate() {
        let _ = writeln!(
            svg,
            r#"<g transform="translate({:.0} 0)">"#,
            wide * number as f64
        );
        draw_panel(&mut svg, panel, (58.0, 66.0), (wide - 24.0, high - 46.0));
        svg += "</g>\n";
    }
    svg + "</svg>\n"
}

fn draw_panel(
    svg: &mut String,
    panel: &Panel,
    (left, top): (f64, f64),
    (right, bottom): (f64, f64),
) {
    let points = || panel.lines.iter().flat_map(|line| &line.points);
    let across = ticks(points().fold(0.0, |most, point| point.0.max(most)));
    let up = ticks(points().fold(0.0, |most, point| point.1.max(most)));
    let x = |value: f64| left + (right - left) * value / across[across.len() - 1];
    let y = |value: f64| bottom - (bottom - top) * value / up[up.len() - 1];
    text(svg, "title", 16.0, 24.0, panel.title);
    let names: Vec<&str> = panel.lines.iter().map(|line| line.name).collect();
    legend(svg, 46.0, &names, &COLOURS);
    for &tick in &across {
        rule(svg, "grid", (x(tick), top), (x(tick), bottom));
        text(svg, "middle", x(tick), bottom + 16.0, &label(tick));
    }
    for &tick in &up {
        rule(svg, "grid", (left, y(tick)), (right, y(tick)));
        text(svg, "end", left - 6.0, y(tick) + 4.0, &label(tick));
    }
    text(
        svg,
        "middle",
        (left + right) / 2.0,
        bottom + 34.0,
        panel.across,
    );
    text(svg, "note", 8.0, top - 8.0, panel.up);
    for (line, colour) in panel.lines.iter().zip(COLOURS) {
        let points = line.points.iter().map(|point| (x(point.0), y(point.1)));
        draw_line(svg, colour, &points.collect::<Vec<_>>());
    }
}

fn draw_line(svg: &mut String, colour: &str, points: &[(f64, f64)]) {
    let at: Vec<String> = points
        .iter()
        .map(|(x, y)| format!("{x:.1},{y:.1}"))
        .collect();
    let at = at.join(" ");
    let _ = writeln!(
        svg,
        r#"<polyline points="{at}" fill="none" stroke="{colour}" stroke-width="2"/>"#
    );
    for (x, y) in points {
        let _ = writeln!(
            svg,
            r#"<circle cx="{x:.1}" cy="{y:.1}" r="3" fill="{colour}"/>"#
        );
    }
}

/// From 0 in equal steps of 1, 2 or 5 times a power of ten, at most seven,
/// past a number.
fn ticks(largest: f64) -> Vec<f64> {
    let power = 10f64.powf((largest / 6.0).log10().floor());
    let step = [1.0, 2.0, 5.0, 10.0]
        .map(|times| times * power)
        .into_iter()
        .find(|step| largest <= step * 6.0)
        .unwrap_or(largest);
    let count = (largest / step).ceil() as u32;
    (0..=count).map(|number| f64::from(number) * step).collect()
}

/// Two digits after the point, and none that say nothing.
fn label(value: f64) -> String {
    let text = format!("{value:.2}");
    text.trim_end_matches('0').trim_end_matches('.').to_string()
}

fn start(width: f64, height: f64) -> String {
    format!(
        r##"<svg xmlns="http://www.w3.org/2000/svg" viewBox="0 0 {width} {height}" width="{width}" height="{height}" role="img">
<style>
text {{ font: 12px sans-serif; fill: #1a1a1a }}
.title {{ font-size: 14px; font-weight: bold }}
.middle {{ text-anchor: middle }}
.end {{ text-anchor: end }}
.grid {{ stroke: #ddd }}
.axis {{ stroke: #333; stroke-dasharray: 4 3 }}
</style>
<rect width="{width}" height="{height}" fill="#fff"/>
"##
    )
}

fn text(svg: &mut String, class: &str, x: f64, y: f64, words: &str) {
    let _ = writeln!(
        svg,
        r#"<text class="{class}" x="{x:.1}" y="{y:.1}">{words}</text>"#
    );
}

fn rule(svg: &mut String, class: &str, from: (f64, f64), to: (f64, f64)) {
    let _ = writeln!(
        svg,
        r#"<line class="{class}" x1="{:.1}" y1="{:.1}" x2="{:.1}" y2="{:.1}"/>"#,
        from.0, from.1, to.0, to.1
    );
}

/// The name of each series beside its colour, below the title.
fn legend(svg: &mut String, y: f64, series: &[&str], colours: &[&str]) {
    let mut x = 16.0;
    for (name, colour) in series.iter().zip(colours) {
        let top = y - 10.0;
        let _ = writeln!(
            svg,
            r#"<rect x="{x:.1}" y="{top:.1}" width="12" height="12" fill="{colour}"/>"#
        );
        text(svg, "note", x + 17.0, y, name);
        x += 34.0 + 6.6 * name.len() as f64;
    }
}

#[cfg(test)]
mod tests {
    use super::{label, ticks};

    #[test]
    fn ticks_pass_the_largest() {
        assert_eq!(ticks(4.5), [0.0, 1.0, 2.0, 3.0, 4.0, 5.0]);
        assert_eq!(ticks(71.0), [0.0, 20.0, 40.0, 60.0, 80.0]);
        assert_eq!(ticks(1.0).last(), Some(&1.0));
        assert_eq!(ticks(32.0).last(), Some(&40.0));
    }

    #[test]
    fn labels_are_short() {
        assert_eq!(
            [label(2.0), label(0.25), label(4.504)],
            ["2", "0.25", "4.5"]
        );
    }
}
