//! A picture of the ratios: bars as SVG, in two columns.

use std::fmt::Write;

/// The ratio of one row.
pub struct Bar<'a> {
    pub kind: &'a str,
    pub on: &'a str,
    pub ratio: f64,
}

/// The lines that are drawn: as fast as the ordinary version, and what is allowed.
const EVEN: f64 = 1.0;
const ALLOWED: f64 = 1.3;

const TOP: usize = 72;
const MARGIN: usize = 16;
const COLUMN: usize = 580;
/// The heights of a bar and of a heading.
const BAR: usize = 15;
const HEADING: usize = 26;
/// Where bars begin in a column, how long one of ratio 1 is, and the longest one;
/// one that would be longer is cut there.
const ZERO: usize = 190;
const UNIT: f64 = 200.0;
const LONGEST: f64 = 340.0;

/// The rows of one kind stay together. The first half of them is on the left.
pub fn svg(title: &str, bars: &[Bar]) -> String {
    let kinds: Vec<_> = bars.chunk_by(|a, b| a.kind == b.kind).collect();
    let all: usize = kinds.iter().map(|kind| height(kind)).sum();
    let mut columns = [String::new(), String::new()];
    let mut heights = [0; 2];
    for kind in kinds {
        let column = usize::from(heights[0] + height(kind) / 2 > all / 2);
        columns[column] += &group(kind, heights[column]);
        heights[column] += height(kind);
    }
    let rows = heights[0].max(heights[1]);
    let (width, height) = (2 * (MARGIN + COLUMN), TOP + rows + MARGIN);
    let mut svg = format!(
        r##"<svg xmlns="http://www.w3.org/2000/svg" viewBox="0 0 {width} {height}" width="{width}" height="{height}" font-family="sans-serif" font-size="11" fill="#222222">
<rect width="{width}" height="{height}" fill="#ffffff"/>
<text x="{MARGIN}" y="22" font-size="14" font-weight="bold">{title}</text>
<text x="{MARGIN}" y="40">Below 1.0 the proved library is faster; up to 1.3 is allowed. Bars over {cut:.1} are cut.</text>
"##,
        cut = LONGEST / UNIT,
    );
    for (i, bars) in columns.iter().enumerate() {
        let x = MARGIN + i * COLUMN;
        svg += &format!("<g transform=\"translate({x} {TOP})\">\n{bars}");
        svg += &line(EVEN, heights[i]);
        svg += &line(ALLOWED, heights[i]);
        svg += "</g>\n";
    }
    svg + "</svg>\n"
}

fn height(kind: &[Bar]) -> usize {
    HEADING + BAR * kind.len()
}

/// The heading and the bars of a kind, from a height on.
fn group(kind: &[Bar], y: usize) -> String {
    let heading = y + HEADING - 8;
    let mut text = format!(
        "<text x=\"0\" y=\"{heading}\" font-weight=\"bold\">{}</text>\n",
        kind[0].kind
    );
    for (i, Bar { on, ratio, .. }) in kind.iter().enumerate() {
        let y = y + HEADING + i * BAR;
        // Writing to a String does not fail.
        let _ = write!(
            text,
            r##"<text x="{label}" y="{base}" text-anchor="end">{on}</text>
<rect x="{ZERO}" y="{y}" width="{length:.0}" height="{height}" fill="{color}"/>
<text x="{value}" y="{base}">{ratio:.2}</text>
"##,
            label = ZERO - 6,
            base = y + BAR - 4,
            length = (ratio * UNIT).min(LONGEST),
            height = BAR - 2,
            color = color(*ratio),
            value = ZERO as f64 + LONGEST + 6.0,
        );
    }
    text
}

/// By the ratio as it is shown.
fn color(ratio: f64) -> &'static str {
    match (ratio * 100.0).round() / 100.0 {
        ..=EVEN => "#3a7d44",
        ..=ALLOWED => "#d9a520",
        _ => "#b3402f",
    }
}

/// A line down the column at a ratio.
fn line(ratio: f64, height: usize) -> String {
    let x = ZERO as f64 + ratio * UNIT;
    format!(
        r##"<line x1="{x}" y1="-4" x2="{x}" y2="{height}" stroke="#222222" stroke-dasharray="3 3"/>
<text x="{x}" y="-8" text-anchor="middle">{ratio:.1}</text>
"##
    )
}
