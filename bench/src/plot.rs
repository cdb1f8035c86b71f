//! The plot: the ratio of each call at each shape, how the cost grows, and SQLite beside the stores, as
//! one SVG. It has a ground of its own, and its colours follow a light or dark page.

use crate::calls::Ratios;
use crate::growth::Curve;
use crate::{named, LARGEST};

const WIDTH: f64 = 900.0;
/// Where the panels begin and end, and where one begins whose rows have names.
const LEFT: f64 = 70.0;
const RIGHT: f64 = 720.0;
const LEFT_OF_NAMED: f64 = 290.0;
/// The height of a panel, that of a row with a name in the panel that has such rows, and where each
/// panel begins.
const PANEL: f64 = 260.0;
const NAMED_ROW: f64 = 26.0;
const TOPS: [f64; 3] = [50.0, 460.0, 820.0];
/// What is under a panel for ticks and a title.
const FOOT: f64 = 56.0;
/// At most so many steps are on an axis.
const STEPS: f64 = 8.0;
/// Where a call may be at most, and where it is as quick as the plain store.
const TARGET: f64 = 1.2;
const EVEN: f64 = 1.0;
const STYLE: &str = "  <style>
    .ground { fill: #ffffff }
    text { font: 12px 'DejaVu Sans', Helvetica, Arial, sans-serif; fill: #1a1a1a }
    .head { font-weight: bold }
    .mid { text-anchor: middle }
    .end { text-anchor: end }
    .axis { fill: none; stroke: #333333 }
    .grid { stroke: #dddddd }
    .level { stroke: #777777 }
    .target { stroke: #b00020; stroke-dasharray: 6 3 }
    .dots { stroke: currentColor; stroke-width: 7; stroke-linecap: round; stroke-opacity: 0.75 }
    .curve { fill: none; stroke: currentColor; stroke-width: 1.6 }
    .plain { stroke-dasharray: 5 3 }
    .c0 { color: #666666 }
    .c1 { color: #0072b2 }
    .c2 { color: #d55e00 }
    .c3 { color: #009e73 }
    .c4 { color: #b0609a }
    @media (prefers-color-scheme: dark) {
      .ground { fill: #16181c }
      text { fill: #e6e6e6 }
      .axis { stroke: #cccccc }
      .grid { stroke: #3a3d44 }
      .level { stroke: #999999 }
      .target { stroke: #ff7a85 }
      .c0 { color: #aaaaaa }
      .c1 { color: #56b4e9 }
      .c2 { color: #f08c3a }
      .c3 { color: #2fc89b }
      .c4 { color: #e5a3c8 }
    }
  </style>
";

/// What SQLite and the stores took for the same: a name and nanoseconds for each.
#[cfg_attr(not(feature = "sqlite"), allow(dead_code))]
pub struct Beside {
    pub name: String,
    pub times: Vec<(&'static str, f64)>,
}

/// The whole plot; without SQLite's figures it has no panel of them.
pub fn page(ratios: &[Ratios], curves: &[Curve], beside: &[Beside]) -> String {
    let mut panels = vec![ratio_panel(ratios, TOPS[0]), growth_panel(curves, TOPS[1])];
    let mut height = TOPS[1] + PANEL + FOOT;
    if !beside.is_empty() {
        panels.push(beside_panel(beside, TOPS[2]));
        height = TOPS[2] + NAMED_ROW * beside.len() as f64 + FOOT;
    }
    format!(
        "<svg xmlns='http://www.w3.org/2000/svg' width='{WIDTH}' height='{height}' viewBox='0 0 {WIDTH} {height}' role='img'>
  <title>The figures of docs/BENCHMARK.md</title>
  <desc>The ratio of each call to the plain page store, how the time of a call grows, and SQLite beside the stores.</desc>
{STYLE}  <rect class='ground' width='{WIDTH}' height='{height}'/>
{}</svg>
",
        panels.concat()
    )
}

fn ratio_panel(ratios: &[Ratios], top: f64) -> String {
    let all = ratios.iter().flat_map(|ratios| ratios.calls.iter().flat_map(|(_, of)| of));
    let ticks = ticks(all.fold(TARGET * 1.1, |most, ratio| most.max(*ratio)));
    let calls = ratios.first().map_or(&[][..], |ratios| &ratios.calls);
    let x = Scale { least: 0.0, most: calls.len() as f64, from: LEFT, to: RIGHT };
    let panel = Panel { x, y: upward(top, &ticks) };
    let mut svg = panel.title_y("times the plain store’s time");
    svg += &panel.title_x(98.0, "for each call from left to right: empty, half, full");
    for (value, label) in &ticks {
        svg += &panel.tick_y(*value, "grid", label);
    }
    for (level, class, label) in
        [(EVEN, "level", "as the plain store"), (TARGET, "target", "target")]
    {
        svg += &panel.tick_y(level, class, "");
        svg += &words(RIGHT + 8.0, panel.y.at(level) + 4.0, "", label);
    }
    for (place, (name, _)) in calls.iter().enumerate() {
        let (x, y) = (tenth(panel.x.at(place as f64 + 0.5) + 4.0), top + PANEL + 12.0);
        svg += &format!(
            "  <text x='{x}' y='{y}' class='end' transform='rotate(-45 {x} {y})'>{name}</text>\n"
        );
        if place > 0 {
            svg += &panel.line_x(place as f64);
        }
    }
    svg += &panel.frame("Each call of the library beside the plain page store, by shape: columns, ranges, tail records, spares");
    let mut keys = Vec::new();
    for (place, ratios) in ratios.iter().enumerate() {
        let class = format!("dots c{}", place + 1);
        let mut dots = Vec::new();
        for (call, (_, fillings)) in ratios.calls.iter().enumerate() {
            for (filling, ratio) in fillings.iter().enumerate() {
                let share = (filling as f64 + 0.5) / fillings.len() as f64;
                dots.push((call as f64 + share, *ratio));
            }
        }
        svg += &panel.dots(&class, &dots);
        keys.push((class, named(&ratios.shape)));
    }
    // Above or below the levels' names, whichever has more room.
    let (target, even) = (panel.y.at(TARGET), panel.y.at(EVEN));
    let raised = target - top > top + PANEL - even;
    svg + &panel.keys(if raised { target - 20.0 } else { panel.foot() }, &keys)
}

fn growth_panel(curves: &[Curve], top: f64) -> String {
    let points = || curves.iter().flat_map(|curve| &curve.points);
    let ticks_x = ticks(points().fold(0f64, |most, (words, _)| most.max(*words)) / 1000.0);
    let ticks_y = ticks(points().fold(0f64, |most, (_, time)| most.max(*time)) / 1000.0);
    let x = Scale { least: 0.0, most: last(&ticks_x), from: LEFT, to: RIGHT };
    let panel = Panel { x, y: upward(top, &ticks_y) };
    let mut svg = panel.title_y("microseconds of a call");
    svg += &panel.title_x(38.0, "words used, in thousands");
    for (value, label) in &ticks_y {
        svg += &panel.tick_y(*value, "grid", label);
    }
    for (value, label) in &ticks_x {
        svg += &panel.tick_x(*value, label);
    }
    let shape = named(&LARGEST);
    svg += &panel.frame(&format!("How the time of a call grows with what is used, shape {shape}"));
    let mut keys = Vec::new();
    let mut calls = Vec::new();
    for curve in curves {
        // One colour for a call, dashed for the plain store: "latest, plain".
        let (call, store) = curve.name.split_once(", ").unwrap_or((&curve.name, ""));
        if !calls.contains(&call) {
            calls.push(call);
        }
        let class = format!("curve c{} {store}", calls.len() - 1).trim_end().to_string();
        let points: Vec<String> = (curve.points.iter())
            .map(|(words, time)| (panel.x.at(words / 1000.0), panel.y.at(time / 1000.0)))
            .map(|(x, y)| format!("{},{}", tenth(x), tenth(y)))
            .collect();
        svg += &format!("  <polyline class='{class}' points='{}'/>\n", points.join(" "));
        keys.push((class, curve.name.clone()));
    }
    svg + &panel.keys(panel.foot(), &keys)
}

/// A row for each thing that is done. The times span powers of ten, so the scale is logarithmic.
fn beside_panel(beside: &[Beside], top: f64) -> String {
    let power = |time: f64| (time / 1000.0).log10();
    let powers = || beside.iter().flat_map(|row| row.times.iter().map(|(_, time)| power(*time)));
    let least = powers().fold(f64::INFINITY, f64::min).floor();
    let most = powers().fold(least + 1.0, f64::max).ceil();
    let x = Scale { least, most, from: LEFT_OF_NAMED, to: RIGHT };
    let rows = beside.len() as f64;
    let y = Scale { least: 0.0, most: rows, from: top, to: top + NAMED_ROW * rows };
    let panel = Panel { x, y };
    let mut svg = panel.title_x(38.0, "microseconds, each line ten times the one before");
    for tick in least as i32..=most as i32 {
        svg += &panel.tick_x(f64::from(tick), &10f64.powi(tick).to_string());
    }
    for (place, row) in beside.iter().enumerate() {
        let y = place as f64;
        svg += &panel.tick_y(y, "grid", "");
        svg += &words(LEFT_OF_NAMED - 8.0, panel.y.at(y + 0.5) + 4.0, "end", &row.name);
    }
    svg += &panel.frame("SQLite, in memory, beside full stores");
    let mut keys = Vec::new();
    let names: Vec<&str> = beside[0].times.iter().map(|(name, _)| *name).collect();
    for (place, name) in names.iter().enumerate() {
        // SQLite orange, the plain store grey, the library blue.
        let class = format!("dots c{}", (place + 2) % 3);
        // One under the other, so that equal times do not hide each other.
        let share = (place as f64 + 1.0) / (names.len() as f64 + 1.0);
        let dots: Vec<(f64, f64)> = (beside.iter().enumerate())
            .map(|(row, beside)| (power(beside.times[place].1), row as f64 + share))
            .collect();
        svg += &panel.dots(&class, &dots);
        keys.push((class, name.to_string()));
    }
    svg + &panel.keys(panel.foot(), &keys)
}

/// One side of a panel: which values it shows, and between which places of the page.
struct Scale {
    least: f64,
    most: f64,
    from: f64,
    to: f64,
}

impl Scale {
    fn at(&self, value: f64) -> f64 {
        self.from + (value - self.least) / (self.most - self.least) * (self.to - self.from)
    }
}

/// The scale of a panel's height, from 0 up to the last tick.
fn upward(top: f64, ticks: &[(f64, String)]) -> Scale {
    Scale { least: 0.0, most: last(ticks), from: top + PANEL, to: top }
}

/// A rectangle of the page with a scale on each side.
struct Panel {
    x: Scale,
    y: Scale,
}

impl Panel {
    fn top(&self) -> f64 {
        self.y.from.min(self.y.to)
    }

    fn bottom(&self) -> f64 {
        self.y.from.max(self.y.to)
    }

    /// The axes and the panel's title, over the lines of the ticks.
    fn frame(&self, title: &str) -> String {
        let (left, top, bottom) = (self.x.from, self.top(), self.bottom());
        let frame = format!("  <path class='axis' d='M{left} {top}V{bottom}H{RIGHT}'/>\n");
        words(20.0, top - 20.0, "head", title) + &frame
    }

    fn title_x(&self, below: f64, title: &str) -> String {
        words((self.x.from + RIGHT) / 2.0, self.bottom() + below, "mid", title)
    }

    fn title_y(&self, title: &str) -> String {
        let (x, y) = (28.0, (self.top() + self.bottom()) / 2.0);
        format!(
            "  <text x='{x}' y='{y}' class='mid' transform='rotate(-90 {x} {y})'>{title}</text>\n"
        )
    }

    fn tick_y(&self, value: f64, class: &str, label: &str) -> String {
        let (left, y) = (self.x.from, tenth(self.y.at(value)));
        let line = format!("  <path class='{class}' d='M{left} {y}H{RIGHT}'/>\n");
        line + &words(left - 8.0, y + 4.0, "end", label)
    }

    fn line_x(&self, value: f64) -> String {
        let (x, top, bottom) = (tenth(self.x.at(value)), self.top(), self.bottom());
        format!("  <path class='grid' d='M{x} {top}V{bottom}'/>\n")
    }

    fn tick_x(&self, value: f64, label: &str) -> String {
        self.line_x(value) + &words(self.x.at(value), self.bottom() + 18.0, "mid", label)
    }

    /// Dots as one path: each is a line of no length with round ends.
    fn dots(&self, class: &str, dots: &[(f64, f64)]) -> String {
        let dot =
            |(x, y): &(f64, f64)| format!("M{} {}h0", tenth(self.x.at(*x)), tenth(self.y.at(*y)));
        let dots: Vec<String> = dots.iter().map(dot).collect();
        let lines: Vec<String> = dots.chunks(6).map(|line| line.join(" ")).collect();
        format!("  <path class='{class}' d='{}'/>\n", lines.join("\n    "))
    }

    /// Where the last key stands at the panel's lower end.
    fn foot(&self) -> f64 {
        self.bottom() - 8.0
    }

    /// What each class of dots or curves stands for, beside the panel, with the last one at `low`.
    fn keys(&self, low: f64, keys: &[(String, String)]) -> String {
        let mut svg = String::new();
        for ((class, label), above) in keys.iter().zip((0..keys.len()).rev()) {
            let (x, y) = (RIGHT + 14.0, low - above as f64 * 18.0);
            let (x, length) = if class.starts_with("dots") { (x + 8.0, 0.0) } else { (x, 16.0) };
            svg += &format!("  <path class='{class}' d='M{x} {y}h{length}'/>\n");
            svg += &words(RIGHT + 38.0, y + 4.0, "", label);
        }
        svg
    }
}

/// Round ticks from 0 to at least `most`: steps of 1, 2 or 5 times a power of ten.
fn ticks(most: f64) -> Vec<(f64, String)> {
    let power = 10f64.powf((most / STEPS).log10().floor());
    let steps = [1.0, 2.0, 5.0].map(|times| times * power);
    let step = steps.into_iter().find(|step| most / step <= STEPS).unwrap_or(10.0 * power);
    let decimals = usize::from(step < 1.0);
    let last = (most / step).ceil() as u32;
    (0..=last)
        .map(|tick| f64::from(tick) * step)
        .map(|value| (value, format!("{value:.decimals$}")))
        .collect()
}

fn last(ticks: &[(f64, String)]) -> f64 {
    ticks.last().map_or(1.0, |(value, _)| *value)
}

fn words(x: f64, y: f64, class: &str, words: &str) -> String {
    if words.is_empty() {
        return String::new();
    }
    let class = if class.is_empty() { String::new() } else { format!(" class='{class}'") };
    format!("  <text x='{}' y='{}'{class}>{words}</text>\n", tenth(x), tenth(y))
}

/// A place of the page, to a tenth.
fn tenth(place: f64) -> f64 {
    (place * 10.0).round() / 10.0
}
