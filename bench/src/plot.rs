//! The times as a plot: a row for each primitive, a dot for each case, by how many plain copies of the result it takes.

use crate::cases::Case;
use crate::kernel::MAX_COUNT;
use crate::Times;

const TITLES: [&str; 2] = ["a block of 30 x 10 x 5", "16,384 elements"];
const KEY: &str = "filled: the kernel; open: straightforward Rust; a dot for each case of bench/run";
const LEFT: f64 = 130.0;
const PANEL: f64 = 400.0;
const GAP: f64 = 50.0;
const RIGHT: f64 = 40.0;
const TOP: f64 = 40.0;
const ROW: f64 = 26.0;
const BELOW: f64 = 70.0;
/// The least ratio drawn, as a power of ten.
const LOW: f64 = -0.3;

pub fn svg(timed: &[(Case, Times)]) -> String {
    let mut names: Vec<&str> = timed.iter().map(|(case, _)| case.primitive).collect();
    names.dedup();
    let powers = timed.iter().flat_map(|(_, times)| [power(times.kernel, times), power(times.rust, times)]);
    let scale = Scale { high: powers.fold(1.0, f64::max).ceil(), bottom: TOP + ROW * names.len() as f64 };

    let (width, height) = (LEFT + 2.0 * PANEL + GAP + RIGHT, scale.bottom + BELOW);
    let mut lines = vec![
        format!("<svg xmlns=\"http://www.w3.org/2000/svg\" width=\"{width}\" height=\"{height}\" font-family=\"sans-serif\" font-size=\"12\">"),
        format!("<rect width=\"{width}\" height=\"{height}\" fill=\"white\"/>"),
    ];
    for panel in 0..TITLES.len() {
        lines.extend(scale.panel(panel));
    }
    for (row, name) in names.iter().enumerate() {
        lines.push(text(LEFT - 10.0, TOP + ROW * (row as f64 + 0.6), "end", name));
    }
    for (case, times) in timed {
        let row = names.iter().position(|&name| name == case.primitive).expect("every name is listed");
        let panel = usize::from(case.size == MAX_COUNT);
        let y = TOP + ROW * row as f64;
        lines.push(dot(scale.x(panel, power(times.kernel, times)), y + 9.0, "#1060c0", "#1060c0"));
        lines.push(dot(scale.x(panel, power(times.rust, times)), y + 18.0, "none", "#c05010"));
    }
    lines.push(text(LEFT, height - 10.0, "start", KEY));
    lines.push("</svg>\n".to_string());
    lines.join("\n")
}

/// How many plain copies a time is, as a power of ten.
fn power(time: f64, times: &Times) -> f64 {
    (time / times.copy).log10()
}

/// The highest power of ten, and where the rows end.
struct Scale {
    high: f64,
    bottom: f64,
}

impl Scale {
    /// Where a power of ten stands in a panel.
    fn x(&self, panel: usize, power: f64) -> f64 {
        let share = (power.max(LOW) - LOW) / (self.high - LOW);
        LEFT + panel as f64 * (PANEL + GAP) + share * PANEL
    }

    /// A panel's title, lines and numbers.
    fn panel(&self, panel: usize) -> Vec<String> {
        let (middle, bottom) = (self.x(panel, self.high / 2.0), self.bottom);
        let mut lines = vec![
            text(middle, TOP - 18.0, "middle", TITLES[panel]),
            text(middle, bottom + 36.0, "middle", "times a plain copy of the result"),
        ];
        for power in 0..=self.high as i32 {
            let x = self.x(panel, f64::from(power));
            lines.push(format!("<path d=\"M{x:.1} {TOP}V{bottom}\" stroke=\"#ccc\"/>"));
            lines.push(text(x, bottom + 16.0, "middle", &10_f64.powi(power).to_string()));
        }
        lines
    }
}

fn dot(x: f64, y: f64, fill: &str, stroke: &str) -> String {
    format!("<circle cx=\"{x:.1}\" cy=\"{y:.1}\" r=\"3.5\" fill=\"{fill}\" stroke=\"{stroke}\" fill-opacity=\"0.6\"/>")
}

fn text(x: f64, y: f64, anchor: &str, words: &str) -> String {
    format!("<text x=\"{x:.1}\" y=\"{y:.1}\" text-anchor=\"{anchor}\">{words}</text>")
}
