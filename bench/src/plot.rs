//! The plot: a bar for each class of each pair, up from 1 where ours is faster.

use std::fmt::Write;

use crate::groups::{Figures, ICONV, SECOND};
use crate::page::{words, Results};
use crate::targets;
use crate::text::{Class, Size};

const WIDTH: f64 = 1160.0;
const LEFT: f64 = 64.0;
const RIGHT: f64 = 16.0;
const TOP: f64 = 104.0;
const PANEL: f64 = 270.0;
const BETWEEN: f64 = 88.0;
const BAR: f64 = 26.0;

const DARK: &str = "#222222";
const GREY: &str = "#666666";

fn colour(class: Class) -> &'static str {
    match class {
        Class::Ascii => "#0072B2",
        Class::Latin => "#56B4E9",
        Class::Cyrillic => "#009E73",
        Class::Cjk => "#E69F00",
        Class::Emoji => "#D55E00",
        Class::Mixed => "#999999",
    }
}

struct Panel {
    title: &'static str,
    other: &'static str,
}

const PANELS: [Panel; 2] = [
    Panel {
        title: "Between FSS-UTF, UTF-16 and UCS-4, against glibc's iconv",
        other: ICONV,
    },
    Panel {
        title: "To and from UTF-EBCDIC, against the second program's plain Rust loop",
        other: SECOND,
    },
];

/// A ratio's height above the foot of its panel.
struct Axis {
    low: f64,
    high: f64,
}

const TICKS: [f64; 14] = [
    0.01, 0.02, 0.05, 0.1, 0.2, 0.5, 1.0, 2.0, 5.0, 10.0, 20.0, 50.0, 100.0, 200.0,
];

impl Axis {
    /// From tick to tick around all values and 1.
    fn around(values: &[f64]) -> Self {
        let least = values.iter().copied().fold(0.7, f64::min);
        let most = values.iter().copied().fold(10.0, f64::max);
        let below = TICKS.iter().rev().find(|tick| **tick <= least);
        // Room for the label of the highest bar.
        let above = TICKS.iter().find(|tick| **tick > 1.2 * most);
        Axis {
            low: *below.unwrap_or(&TICKS[0]),
            high: *above.unwrap_or(&TICKS[TICKS.len() - 1]),
        }
    }

    fn height(&self, value: f64) -> f64 {
        let share =
            (value.clamp(self.low, self.high) / self.low).ln() / (self.high / self.low).ln();
        PANEL * share
    }
}

fn label(value: f64) -> String {
    match value {
        9.95.. => format!("{value:.0}"),
        0.095.. => format!("{value:.1}"),
        _ => format!("{value:.2}"),
    }
}

fn text(svg: &mut String, x: f64, y: f64, style: &str, words: &str) {
    let _ = writeln!(svg, r#"<text x="{x:.1}" y="{y:.1}" {style}>{words}</text>"#);
}

fn line(svg: &mut String, from: (f64, f64), to: (f64, f64), style: &str) {
    let _ = writeln!(
        svg,
        r#"<line x1="{:.1}" y1="{:.1}" x2="{:.1}" y2="{:.1}" {style}/>"#,
        from.0, from.1, to.0, to.1
    );
}

fn bar(svg: &mut String, x: f64, y: f64, width: f64, height: f64, fill: &str) {
    let _ = writeln!(
        svg,
        r#"<rect x="{x:.1}" y="{y:.1}" width="{width:.1}" height="{height:.1}" fill="{fill}"/>"#
    );
}

pub fn svg(all: &[Figures]) -> String {
    let results = Results(all);
    let height = TOP + 2.0 * PANEL + BETWEEN + 56.0;
    let mut svg = format!(
        "<svg xmlns=\"http://www.w3.org/2000/svg\" viewBox=\"0 0 {WIDTH} {height}\" \
         width=\"{WIDTH}\" height=\"{height}\" font-family=\"DejaVu Sans, Verdana, Arial, sans-serif\">\n\
         <title>Jiskromet's strict conversions against other converters</title>\n"
    );
    bar(&mut svg, 0.0, 0.0, WIDTH, height, "#FFFFFF");
    text(
        &mut svg,
        LEFT,
        30.0,
        &format!("font-size=\"20\" font-weight=\"bold\" fill=\"{DARK}\""),
        "How many times as fast as others Jiskromet converts, texts of 64 KiB",
    );
    legend(&mut svg);
    for (number, panel) in PANELS.iter().enumerate() {
        let top = TOP + number as f64 * (PANEL + BETWEEN);
        draw(&mut svg, &results, panel, top);
    }
    svg.push_str("</svg>\n");
    svg
}

fn legend(svg: &mut String) {
    let style = format!("font-size=\"14\" fill=\"{DARK}\"");
    let mut x = LEFT;
    for class in Class::ALL {
        bar(svg, x, 44.0, 14.0, 14.0, colour(class));
        text(svg, x + 20.0, 56.0, &style, class.name());
        x += 48.0 + 8.0 * class.name().len() as f64;
    }
    line(
        svg,
        (x, 51.0),
        (x + BAR, 51.0),
        &format!("stroke=\"{DARK}\" stroke-width=\"3\""),
    );
    text(svg, x + BAR + 8.0, 56.0, &style, "what is asked");
    text(
        svg,
        x + BAR + 130.0,
        56.0,
        &style,
        "bars above the line at 1: Jiskromet is faster",
    );
}

fn draw(svg: &mut String, results: &Results, panel: &Panel, top: f64) {
    let calls = results.conversions(Size::Long, panel.other);
    let row = |call| {
        results.row(call, Size::Long, false, |figures| {
            figures.ratio(panel.other)
        })
    };
    let values: Vec<f64> = calls.iter().flat_map(|call| row(call)).flatten().collect();
    let axis = Axis::around(&values);
    let foot = top + PANEL;
    let one = foot - axis.height(1.0);

    text(
        svg,
        LEFT,
        top - 14.0,
        &format!("font-size=\"16\" font-weight=\"bold\" fill=\"{DARK}\""),
        panel.title,
    );
    for tick in TICKS
        .iter()
        .filter(|tick| (axis.low..=axis.high).contains(*tick))
    {
        let y = foot - axis.height(*tick);
        line(
            svg,
            (LEFT, y),
            (WIDTH - RIGHT, y),
            "stroke=\"#DDDDDD\" stroke-width=\"1\"",
        );
        let style = format!("font-size=\"13\" text-anchor=\"end\" fill=\"{GREY}\"");
        text(svg, LEFT - 8.0, y + 4.5, &style, &format!("{tick}×"));
    }
    let group = (WIDTH - LEFT - RIGHT) / calls.len().max(1) as f64;
    for (number, call) in calls.iter().enumerate() {
        let start = LEFT + number as f64 * group;
        let first = start + (group - 6.0 * BAR) / 2.0;
        let least = results.row(call, Size::Long, false, |figures| {
            Some(targets::least_of_conversion(figures))
        });
        for (place, ((class, ratio), least)) in
            Class::ALL.into_iter().zip(row(call)).zip(least).enumerate()
        {
            let (Some(ratio), Some(least)) = (ratio, least) else {
                continue;
            };
            let x = first + place as f64 * BAR;
            let end = foot - axis.height(ratio);
            bar(
                svg,
                x + 1.5,
                end.min(one),
                BAR - 3.0,
                (end - one).abs().max(1.0),
                colour(class),
            );
            let style = format!(
                "font-size=\"11.5\" text-anchor=\"middle\" fill=\"{DARK}\" \
                 stroke=\"#FFFFFF\" stroke-width=\"3\" paint-order=\"stroke\""
            );
            let asked = foot - axis.height(least);
            let y = match ratio >= 1.0 {
                // Above the bar, and above a mark that would cross it.
                true if (end - 17.0..end).contains(&asked) => asked - 5.0,
                true => end - 5.0,
                false => end + 14.0,
            };
            line(
                svg,
                (x + 1.5, asked),
                (x + BAR - 1.5, asked),
                &format!("stroke=\"{DARK}\" stroke-width=\"2.5\""),
            );
            text(svg, x + BAR / 2.0, y, &style, &label(ratio));
        }
        let style = format!("font-size=\"14\" text-anchor=\"middle\" fill=\"{DARK}\"");
        text(
            svg,
            start + group / 2.0,
            foot + 24.0,
            &style,
            &words(call).replace(" to ", " → "),
        );
    }
    line(
        svg,
        (LEFT, one),
        (WIDTH - RIGHT, one),
        &format!("stroke=\"{DARK}\" stroke-width=\"1.5\""),
    );
}

#[cfg(test)]
mod tests {
    use super::*;

    #[test]
    fn an_axis_holds_its_values() {
        let axis = Axis::around(&[0.04, 37.0]);
        assert_eq!((axis.low, axis.high), (0.02, 50.0));
        assert!(axis.height(0.04) > 0.0 && axis.height(37.0) < PANEL);
        assert!(axis.height(1.0) < axis.height(2.0));
    }
}
