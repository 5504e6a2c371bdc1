//! The plot, written as SVG by hand: searches and the parts of an insertion on log-log axes, flushes as bars.
use crate::counts::{self, CHANGES, ORDERS};
use crate::report::grouped;
use crate::results::Results;
use crate::{COUNTS, HITS, INSERTION, MISSES, NODES, OTHERS, OURS, PAPER_FLUSHES, TREE};
use std::fmt::Write;

const WIDTH: f64 = 1200.0;
const HEIGHT: f64 = 900.0;
const PANEL: (f64, f64) = (600.0, 430.0);
/// Around the axes of a panel: left, top, right (for the labels of the lines), bottom.
const MARGIN: (f64, f64, f64, f64) = (70.0, 45.0, 150.0, 55.0);
const LABEL_GAP: f64 = 15.0;
const LABEL_REACH: f64 = 40.0;
/// Distinct also for people who confuse red and green (Okabe and Ito, and two more).
const COLOURS: [&str; 10] = ["#000000", "#5d3a9b", "#0072b2", "#56b4e9", "#994f00", "#d55e00", "#009e73", "#cc79a7", "#b58900", "#8a8a8a"];
/// Of the two kinds of bar: those of the same trees' lines.
const BARS: [&str; 2] = [COLOURS[0], COLOURS[6]];

struct Line {
    label: String,
    points: Vec<(f64, f64)>,
}

/// A logarithmic axis from low to high, on the picture between two places.
struct Axis {
    low: f64,
    high: f64,
    from: f64,
    to: f64,
}

impl Axis {
    fn at(&self, value: f64) -> f64 {
        self.from + (self.to - self.from) * (value / self.low).ln() / (self.high / self.low).ln()
    }

    /// Powers of ten, with 2 and 5 between them if few powers fit.
    fn ticks(&self) -> Vec<f64> {
        let steps: &[f64] = if self.high / self.low > 2e3 { &[1.0] } else { &[1.0, 2.0, 5.0] };
        let powers = (-3..12).map(|p| 10f64.powi(p));
        powers.flat_map(|power| steps.iter().map(move |s| s * power)).filter(|t| *t >= self.low * 0.999 && *t <= self.high * 1.001).collect()
    }
}

fn text(out: &mut String, x: f64, y: f64, anchor: &str, extra: &str, what: &str) {
    if what.is_empty() {
        return;
    }
    let what = what.replace('&', "&amp;").replace('<', "&lt;");
    let _ = writeln!(out, "<text x=\"{x:.1}\" y=\"{y:.1}\" text-anchor=\"{anchor}\"{extra}>{what}</text>");
}

fn stroke(out: &mut String, (x1, y1): (f64, f64), (x2, y2): (f64, f64), style: &str) {
    let _ = writeln!(out, "<line x1=\"{x1:.1}\" y1=\"{y1:.1}\" x2=\"{x2:.1}\" y2=\"{y2:.1}\" {style}/>");
}

/// Nanoseconds in the unit that reads best.
fn time(ns: f64) -> String {
    let (value, unit) = match ns {
        n if n < 1e3 => (n, "ns"),
        n if n < 1e6 => (n / 1e3, "µs"),
        n if n < 1e9 => (n / 1e6, "ms"),
        n => (n / 1e9, "s"),
    };
    format!("{} {unit}", (value * 100.0).round() / 100.0)
}

/// Heights for labels near those wanted, at least a gap apart.
fn apart(wanted: &[f64], bottom: f64) -> Vec<f64> {
    let mut order: Vec<usize> = (0..wanted.len()).collect();
    order.sort_by(|&a, &b| wanted[a].total_cmp(&wanted[b]));
    let mut placed = wanted.to_vec();
    for pair in order.windows(2) {
        placed[pair[1]] = placed[pair[1]].max(placed[pair[0]] + LABEL_GAP);
    }
    let mut limit = bottom;
    for &i in order.iter().rev() {
        placed[i] = placed[i].min(limit);
        limit = placed[i] - LABEL_GAP;
    }
    placed
}

struct Panel {
    left: f64,
    top: f64,
}

impl Panel {
    fn bounds(&self) -> (f64, f64, f64, f64) {
        let (l, t, r, b) = MARGIN;
        (self.left + l, self.top + t, self.left + PANEL.0 - r, self.top + PANEL.1 - b)
    }

    fn frame(&self, out: &mut String, title: &str, below: &str) {
        let (x0, y0, x1, y1) = self.bounds();
        text(out, x0, y0 - 18.0, "start", " font-weight=\"bold\" font-size=\"15\"", title);
        text(out, (x0 + x1) / 2.0, y1 + 40.0, "middle", "", below);
        stroke(out, (x0, y1), (x1, y1), "stroke=\"#444\"");
        stroke(out, (x0, y0), (x0, y1), "stroke=\"#444\"");
    }

    fn lines(&self, out: &mut String, title: &str, below: &str, xticks: &[f64], lines: &[Line]) {
        let (x0, y0, x1, y1) = self.bounds();
        let all = || lines.iter().flat_map(|l| &l.points);
        let ends = |of: &dyn Fn(&(f64, f64)) -> f64| all().map(of).fold((f64::MAX, f64::MIN), |(a, b), v| (a.min(v), b.max(v)));
        let (xs, ys) = (ends(&|p| p.0), ends(&|p| p.1));
        let xaxis = Axis { low: xs.0 / 1.15, high: xs.1 * 1.05, from: x0, to: x1 };
        let yaxis = Axis { low: ys.0 / 1.4, high: ys.1 * 1.4, from: y1, to: y0 };
        self.frame(out, title, below);
        for tick in yaxis.ticks() {
            let y = yaxis.at(tick);
            stroke(out, (x0, y), (x1, y), "stroke=\"#ddd\"");
            text(out, x0 - 6.0, y + 4.0, "end", "", &time(tick));
        }
        for &tick in xticks {
            stroke(out, (xaxis.at(tick), y1), (xaxis.at(tick), y1 + 5.0), "stroke=\"#444\"");
            text(out, xaxis.at(tick), y1 + 19.0, "middle", "", &grouped(tick as usize));
        }
        let drawn: Vec<Vec<(f64, f64)>> = lines.iter().map(|l| l.points.iter().map(|p| (xaxis.at(p.0), yaxis.at(p.1))).collect()).collect();
        self.curves(out, lines, &drawn);
    }

    /// Each line with its points, and its name beside its last point.
    fn curves(&self, out: &mut String, lines: &[Line], drawn: &[Vec<(f64, f64)>]) {
        let (_, _, x1, y1) = self.bounds();
        let last: Vec<(f64, f64)> = drawn.iter().map(|points| points[points.len() - 1]).collect();
        let heights = apart(&last.iter().map(|p| p.1).collect::<Vec<f64>>(), y1);
        for (i, points) in drawn.iter().enumerate() {
            let colour = COLOURS[i % COLOURS.len()];
            let path: Vec<String> = points.iter().map(|(x, y)| format!("{x:.1},{y:.1}")).collect();
            let width = if i == 0 { 3.0 } else { 1.8 };
            let _ = writeln!(out, "<polyline points=\"{}\" fill=\"none\" stroke=\"{colour}\" stroke-width=\"{width}\"/>", path.join(" "));
            for (x, y) in points {
                let _ = writeln!(out, "<circle cx=\"{x:.1}\" cy=\"{y:.1}\" r=\"3\" fill=\"{colour}\"/>");
            }
            let fill = format!(" fill=\"{colour}\"");
            if last[i].0 + LABEL_REACH < x1 {
                // A line that ends early is named where it ends.
                text(out, last[i].0 + 7.0, last[i].1 - 7.0, "start", &fill, &lines[i].label);
                continue;
            }
            stroke(out, (last[i].0 + 5.0, last[i].1), (x1 + 12.0, heights[i]), &format!("stroke=\"{colour}\" stroke-width=\"0.7\""));
            text(out, x1 + 15.0, heights[i] + 4.0, "start", &fill, &lines[i].label);
        }
    }

    /// Pairs of bars from 0, each with its value above it; half of the groups are insertions, half deletions.
    fn bars(&self, out: &mut String, title: &str, groups: &[(&str, [f64; 2])], names: [&str; 2], paper: f64) {
        let (x0, y0, x1, y1) = self.bounds();
        let most = groups.iter().flat_map(|g| g.1).fold(paper, f64::max) * 1.15;
        let height = |v: f64| y1 - (y1 - y0) * v / most;
        self.frame(out, title, "");
        for tick in 0..=most as usize {
            stroke(out, (x0, height(tick as f64)), (x1, height(tick as f64)), "stroke=\"#ddd\"");
            text(out, x0 - 6.0, height(tick as f64) + 4.0, "end", "", &tick.to_string());
        }
        let step = (x1 - x0) / groups.len() as f64;
        for (i, (label, values)) in groups.iter().enumerate() {
            let middle = x0 + step * (i as f64 + 0.5);
            for (j, &value) in values.iter().enumerate() {
                let left = middle - 24.0 + 24.0 * j as f64;
                let (top, colour) = (height(value), BARS[j]);
                let _ = writeln!(out, "<rect x=\"{left:.1}\" y=\"{top:.1}\" width=\"22\" height=\"{:.1}\" fill=\"{colour}\"/>", y1 - top);
                text(out, left + 11.0, top - 4.0, "middle", " font-size=\"10\"", &format!("{value:.1}"));
            }
            text(out, middle, y1 + 19.0, "middle", "", label);
        }
        for (i, change) in CHANGES.iter().enumerate() {
            text(out, x0 + (x1 - x0) * (0.25 + 0.5 * i as f64), y1 + 38.0, "middle", "", &format!("{change}, by order of keys"));
        }
        self.bar_names(out, names, (paper, height(paper)));
    }

    /// The names of the two kinds of bar, and the paper's figure as a dashed line.
    fn bar_names(&self, out: &mut String, names: [&str; 2], (paper, y): (f64, f64)) {
        let (x0, y0, x1, _) = self.bounds();
        stroke(out, (x0, y), (x1, y), "stroke=\"#0072b2\" stroke-dasharray=\"6 4\"");
        text(out, x1 + 8.0, y + 4.0, "start", " fill=\"#0072b2\"", &format!("paper: {paper}, 512 B,"));
        text(out, x1 + 8.0, y + 19.0, "start", " fill=\"#0072b2\"", "random insertion");
        for (j, name) in names.iter().enumerate() {
            text(out, x1 + 8.0, y0 + 14.0 + 16.0 * j as f64, "start", &format!(" fill=\"{}\"", BARS[j]), name);
        }
    }
}

fn curve(results: &Results, label: &str, part: &str, what: &str) -> Option<Line> {
    let sizes = results.sizes(part, what);
    let points: Vec<(f64, f64)> = sizes.iter().filter_map(|&n| results.median(part, what, n).map(|y| (n as f64, y))).collect();
    (!points.is_empty()).then(|| Line { label: label.to_string(), points })
}

fn search_panel(results: &Results, out: &mut String, panel: Panel, part: &str) {
    let lines: Vec<Line> = std::iter::once(OURS).chain(OTHERS).filter_map(|name| curve(results, name, part, name)).collect();
    let ticks: Vec<f64> = results.sizes(part, OURS).iter().map(|&n| n as f64).collect();
    panel.lines(out, &format!("{}{}, time per query", part[..1].to_uppercase(), &part[1..]), "keys", &ticks, &lines);
}

fn insertion_panel(results: &Results, out: &mut String, panel: Panel) {
    let figures = [
        ("check", INSERTION, "check"),
        ("plan", INSERTION, "plan"),
        ("stores, flushed", INSERTION, "stores, flushed"),
        ("stores, plain", INSERTION, "stores"),
        ("one read pass", NODES, "read pass"),
    ];
    let lines: Vec<Line> = figures.iter().filter_map(|(label, part, what)| curve(results, label, part, what)).collect();
    let ticks: Vec<f64> = results.sizes(NODES, "read pass").iter().map(|&n| n as f64).collect();
    panel.lines(out, "An insertion: time of its parts, beside a read pass", "nodes of 256 bytes", &ticks, &lines);
}

fn flush_panel(results: &Results, out: &mut String, panel: Panel, counted: usize) {
    let mean = |who: &str, order: &str, change: &str| results.median(COUNTS, &counts::name(who, order, change, "flushes"), counted).unwrap_or(0.0);
    let both = CHANGES.iter().flat_map(|change| ORDERS.iter().map(move |order| (*order, *change)));
    let groups: Vec<(&str, [f64; 2])> = both.map(|(order, change)| (order, [mean(OURS, order, change), mean(TREE, order, change)])).collect();
    let title = format!("Flushes per insertion and per deletion, {} keys", grouped(counted));
    panel.bars(out, &title, &groups, ["ours, 256 B nodes", "C tree, 512 B nodes"], PAPER_FLUSHES);
}

pub fn svg(results: &Results, machine: &str, counted: usize) -> String {
    let mut out = format!("<svg xmlns=\"http://www.w3.org/2000/svg\" viewBox=\"0 0 {WIDTH} {HEIGHT}\" width=\"{WIDTH}\" height=\"{HEIGHT}\" font-family=\"sans-serif\" font-size=\"12\">\n<rect width=\"100%\" height=\"100%\" fill=\"white\"/>\n");
    search_panel(results, &mut out, Panel { left: 0.0, top: 0.0 }, HITS);
    search_panel(results, &mut out, Panel { left: PANEL.0, top: 0.0 }, MISSES);
    insertion_panel(results, &mut out, Panel { left: 0.0, top: PANEL.1 });
    flush_panel(results, &mut out, Panel { left: PANEL.0, top: PANEL.1 }, counted);
    text(&mut out, 20.0, HEIGHT - 14.0, "start", " font-size=\"11\" fill=\"#555\"", machine);
    out.push_str("</svg>\n");
    out
}
