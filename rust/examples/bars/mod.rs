//! A picture in SVG: a bar for each time, from median to 99th percentile, on a logarithmic axis of milliseconds.
use std::fmt::Write;

/// A bar: its group, its name, and two times in milliseconds.
pub struct Bar {
    pub group: String,
    pub name: String,
    pub median: f64,
    pub most: f64,
}

const LEFT: f64 = 120.0;
const DECADE: f64 = 150.0;
const ROW: f64 = 16.0;

/// Where a time stands: 0.1 milliseconds at the left, 1000 at the right.
fn at(milliseconds: f64) -> f64 {
    LEFT + DECADE * (milliseconds.clamp(0.1, 1000.0) / 0.1).log10()
}

pub fn picture(bars: &[Bar]) -> String {
    let (width, bottom) = (at(1000.0) + 30.0, 14.0 + ROW * (bars.len() as f64 + 4.0));
    let mut text = format!(
        "<svg xmlns=\"http://www.w3.org/2000/svg\" viewBox=\"0 0 {width} {}\" font-family=\"sans-serif\" font-size=\"11\">\n\
         <rect width=\"100%\" height=\"100%\" fill=\"white\"/>\n",
        bottom + 34.0
    );
    let mut line = |words: String| writeln!(text, "{words}").expect("a text takes all that is written");
    for tick in [0.1, 1.0, 10.0, 100.0, 1000.0] {
        let x = at(tick);
        line(format!("<path d=\"M{x} 8V{bottom}\" stroke=\"#ddd\"/>"));
        line(format!("<text x=\"{x}\" y=\"{}\" text-anchor=\"middle\">{tick}</text>", bottom + 14.0));
    }
    let middle = (at(0.1) + at(1000.0)) / 2.0;
    let axis = "milliseconds: a bar goes from the median to the 99th percentile";
    line(format!("<text x=\"{middle}\" y=\"{}\" text-anchor=\"middle\">{axis}</text>", bottom + 28.0));
    let (mut y, mut group) = (14.0, "");
    for bar in bars {
        if bar.group != group {
            y += ROW;
            group = &bar.group;
            line(format!("<text x=\"10\" y=\"{y}\" font-weight=\"bold\">{group}</text>"));
        }
        let (from, to) = (at(bar.median), at(bar.most));
        let color = if bar.name == "flood" { "#bbb" } else { "#06c" };
        line(format!("<text x=\"{}\" y=\"{y}\" text-anchor=\"end\">{}</text>", LEFT - 8.0, bar.name));
        let width = (to - from).max(2.0);
        line(format!("<rect x=\"{from:.1}\" y=\"{}\" width=\"{width:.1}\" height=\"10\" fill=\"{color}\"/>", y - 9.0));
        y += ROW;
    }
    text.push_str("</svg>\n");
    text
}
