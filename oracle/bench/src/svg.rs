//! A drawing of times against sizes, both in powers of ten, a panel beside the other.

/// One panel: a name, what stands along it, and its lines.
pub struct Panel {
    pub title: String,
    pub along: &'static str,
    pub lines: Vec<Line>,
}

/// A call: its name, and its time in microseconds at each size.
pub struct Line {
    pub name: String,
    pub points: Vec<(f64, f64)>,
}

// A panel's place and size.
const WIDE: f64 = 460.0;
const HIGH: f64 = 460.0;
const LEFT: f64 = 56.0;
const TOP: f64 = 44.0;
const PLOT_WIDE: f64 = 270.0;
const PLOT_HIGH: f64 = 360.0;

const COLOURS: [&str; 8] = ["#0072b2", "#d55e00", "#009e73", "#cc79a7", "#e69f00", "#56b4e9", "#7f3c8d", "#444444"];

/// From a number's logarithm to a place within a stretch.
struct Scale {
    low: f64,
    high: f64,
    from: f64,
    to: f64,
}

impl Scale {
    fn at(&self, value: f64) -> f64 {
        self.from + (value.log10() - self.low) / (self.high - self.low) * (self.to - self.from)
    }
}

fn extent(values: impl Iterator<Item = f64>) -> (f64, f64) {
    let logs = values.map(f64::log10);
    logs.fold((f64::INFINITY, f64::NEG_INFINITY), |(low, high), log| (low.min(log), high.max(log)))
}

/// A time as people say it.
fn time(micros: f64) -> String {
    match micros {
        m if m < 0.5 => format!("{:.0} ns", m * 1e3),
        m if m < 500.0 => format!("{m:.0} µs"),
        m if m < 500_000.0 => format!("{:.0} ms", m / 1e3),
        m => format!("{:.0} s", m / 1e6),
    }
}

/// A size in short: 65,536 is 65k.
fn count(value: f64) -> String {
    match value {
        v if v >= 1e6 => format!("{:.0}M", (v / 1e6).floor()),
        v if v >= 1e3 => format!("{:.0}k", (v / 1e3).floor()),
        v => format!("{v:.0}"),
    }
}

fn text(x: f64, y: f64, anchor: &str, colour: &str, words: &str) -> String {
    format!("<text x=\"{x:.1}\" y=\"{y:.1}\" text-anchor=\"{anchor}\" fill=\"{colour}\">{words}</text>\n")
}

/// Ends of lines moved apart, so that their names can be read.
fn apart(mut ends: Vec<(f64, usize)>, step: f64, low: f64) -> Vec<(f64, usize)> {
    ends.sort_by(|a, b| a.0.total_cmp(&b.0));
    for i in 1..ends.len() {
        ends[i].0 = ends[i].0.max(ends[i - 1].0 + step);
    }
    let over = ends.last().map_or(0.0, |end| (end.0 - low).max(0.0));
    for end in &mut ends {
        end.0 -= over;
    }
    for i in (1..ends.len()).rev() {
        let most = ends[i].0 - step;
        ends[i - 1].0 = ends[i - 1].0.min(most);
    }
    ends
}

/// The grid: a line for each power of ten, and what it is.
fn grid(x: &Scale, y: &Scale, sizes: &[f64]) -> String {
    let (bottom, right) = (TOP + PLOT_HIGH, LEFT + PLOT_WIDE);
    let mut out = String::new();
    for power in y.low as i32..=y.high as i32 {
        let at = y.at(10f64.powi(power));
        out += &format!("<path d=\"M{LEFT} {at:.1}H{right}\" stroke=\"#ddd\"/>\n");
        out += &text(LEFT - 6.0, at + 4.0, "end", "#333", &time(10f64.powi(power)));
    }
    for size in sizes {
        let at = x.at(*size);
        out += &format!("<path d=\"M{at:.1} {TOP}V{bottom}\" stroke=\"#eee\"/>\n");
        out += &text(at, bottom + 16.0, "middle", "#333", &count(*size));
    }
    out
}

fn panel(panel: &Panel, times: (f64, f64)) -> String {
    let all = || panel.lines.iter().flat_map(|line| line.points.iter());
    let (low, high) = extent(all().map(|point| point.0));
    let x = Scale { low, high, from: LEFT, to: LEFT + PLOT_WIDE };
    let y = Scale { low: times.0.floor(), high: times.1.ceil(), from: TOP + PLOT_HIGH, to: TOP };
    let sizes: Vec<f64> = panel.lines.first().map_or(vec![], |line| line.points.iter().map(|point| point.0).collect());
    let mut out = text(LEFT, 24.0, "start", "#000", &format!("<tspan font-weight=\"bold\">{}</tspan>", panel.title));
    out += &grid(&x, &y, &sizes);
    out += &text(LEFT + PLOT_WIDE / 2.0, TOP + PLOT_HIGH + 36.0, "middle", "#333", panel.along);
    // Twice the size, twice the time: a slope to compare with, from the least time of the smallest size on.
    let begin = panel.lines.iter().filter_map(|line| line.points.first()).map(|point| point.1).fold(f64::INFINITY, f64::min);
    let least = 10f64.powf(low);
    let guide = (begin * 10f64.powf(high - low)).min(10f64.powf(y.high));
    out += &format!(
        "<path d=\"M{:.1} {:.1}L{:.1} {:.1}\" stroke=\"#999\" stroke-dasharray=\"4 4\"/>\n",
        x.at(least),
        y.at(begin),
        x.at(least * guide / begin),
        y.at(guide)
    );
    let ends = panel.lines.iter().enumerate().map(|(i, line)| (y.at(line.points[line.points.len() - 1].1), i)).collect();
    for (label, i) in apart(ends, 14.0, TOP + PLOT_HIGH) {
        let (line, colour) = (&panel.lines[i], COLOURS[i % COLOURS.len()]);
        let points: Vec<String> = line.points.iter().map(|(size, time)| format!("{:.1},{:.1}", x.at(*size), y.at(*time))).collect();
        out += &format!("<polyline points=\"{}\" fill=\"none\" stroke=\"{colour}\" stroke-width=\"1.8\"/>\n", points.join(" "));
        for point in &points {
            let (cx, cy) = point.split_once(',').expect("two numbers");
            out += &format!("<circle cx=\"{cx}\" cy=\"{cy}\" r=\"2.4\" fill=\"{colour}\"/>\n");
        }
        let (size, last) = line.points[line.points.len() - 1];
        let from = LEFT + PLOT_WIDE + 14.0;
        out += &format!("<path d=\"M{:.1} {:.1}L{from} {label:.1}\" stroke=\"{colour}\" stroke-width=\"0.6\"/>\n", x.at(size) + 3.0, y.at(last));
        out += &text(from + 3.0, label + 4.0, "start", colour, &line.name);
    }
    out
}

pub fn drawn(panels: &[Panel]) -> String {
    let times = extent(panels.iter().flat_map(|panel| &panel.lines).flat_map(|line| &line.points).map(|point| point.1));
    let wide = WIDE * panels.len() as f64;
    let mut out = format!(
        "<svg xmlns=\"http://www.w3.org/2000/svg\" viewBox=\"0 0 {wide} {HIGH}\" font-family=\"sans-serif\" font-size=\"12\">\n\
         <rect width=\"{wide}\" height=\"{HIGH}\" fill=\"#fff\"/>\n"
    );
    for (i, one) in panels.iter().enumerate() {
        out += &format!("<g transform=\"translate({} 0)\">\n{}</g>\n", WIDE * i as f64, panel(one, times));
    }
    out + "</svg>\n"
}
