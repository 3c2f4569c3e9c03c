//! The picture of the series, as SVG: a panel for each, with a curve for either program.

use super::curves::Point;
use std::fmt::Write;

/// Two panels beside each other and two below them, each with room for its heading and the names of its axes.
const PANEL: [f64; 2] = [460.0, 330.0];
const TOP: f64 = 64.0;
/// The corner of the plot in its panel, and its sizes.
const CORNER: [f64; 2] = [70.0, 40.0];
const PLOT: [f64; 2] = [360.0, 225.0];

/// What is drawn for each program: name, colour, mark.
const CURVES: [(&str, &str, Mark); 2] =
    [("proved program", "#1f5fa8", Mark::Circle), ("fast version", "#c2571a", Mark::Square)];

#[derive(Clone, Copy)]
enum Mark {
    Circle,
    Square,
}

#[derive(Clone, Copy, PartialEq)]
enum Scale {
    Linear,
    Logarithmic,
}

/// The panel of a series: its heading, what stands below it, and how both axes are divided.
struct Panel {
    series: &'static str,
    heading: &'static str,
    below: &'static str,
    scale: Scale,
}

const PANELS: [Panel; 4] = [
    Panel {
        series: "sheets",
        heading: "against the number of sheets",
        below: "mixed sheets in the batch",
        scale: Scale::Logarithmic,
    },
    Panel {
        series: "m",
        heading: "against the number of unknowns",
        below: "m (D = 2, degree 4; 1,000 sheets)",
        scale: Scale::Linear,
    },
    Panel {
        series: "D",
        heading: "against the number of blocks below the highest",
        below: "D (m = 3, degree 4; 1,000 sheets)",
        scale: Scale::Linear,
    },
    Panel {
        series: "degree",
        heading: "against the degree",
        below: "degree (m = 3, D = 2; 1,000 sheets)",
        scale: Scale::Linear,
    },
];

/// The whole picture.
pub fn drawn(points: &[Point]) -> String {
    let [width, height] = [2.0 * PANEL[0], TOP + 2.0 * PANEL[1]];
    let mut svg = format!(
        "<svg xmlns=\"http://www.w3.org/2000/svg\" viewBox=\"0 0 {width} {height}\" width=\"{width}\" height=\"{height}\" \
         font-family=\"Helvetica, Arial, sans-serif\" font-size=\"13\" fill=\"#222\">\n"
    );
    put(&mut svg, &format!("<rect width=\"{width}\" height=\"{height}\" fill=\"#fff\"/>"));
    text(&mut svg, [width / 2.0, 24.0], "middle", "17", "Time of a batch, process beside process");
    legend(&mut svg, width / 2.0);
    for (k, panel) in PANELS.iter().enumerate() {
        let corner = [(k % 2) as f64 * PANEL[0] + CORNER[0], TOP + (k / 2) as f64 * PANEL[1] + CORNER[1]];
        let series: Vec<&Point> = points.iter().filter(|point| point.series == panel.series).collect();
        Plot::new(corner, panel.scale, &series).draw(&mut svg, panel, &series);
    }
    svg + "</svg>\n"
}

// ---- axes ----

/// The part of the numbers that an axis shows, and the numbers that are written beside it.
struct Axis {
    scale: Scale,
    low: f64,
    high: f64,
    ticks: Vec<f64>,
}

impl Axis {
    /// An axis with the numbers that were measured at.
    fn of_places(scale: Scale, places: Vec<f64>) -> Axis {
        let (low, high) = (places[0], places[places.len() - 1]);
        let margin = if scale == Scale::Linear { (high - low) / 20.0 } else { 0.0 };
        Axis { scale, low: low - margin, high: high + margin, ticks: places }
    }

    /// An axis for times: from 0 in round steps, or from one round number to another.
    fn of_times(scale: Scale, least: f64, most: f64) -> Axis {
        let ticks: Vec<f64> = match scale {
            Scale::Linear => {
                let step = round_numbers().find(|step| step * 6.0 >= most).expect("a step");
                (0..=(most / step).ceil() as usize).map(|k| k as f64 * step).collect()
            }
            Scale::Logarithmic => {
                let first = round_numbers().take_while(|&number| number <= least).last().expect("a lower end");
                let last = round_numbers().find(|&number| number >= most).expect("an upper end");
                round_numbers().filter(|number| (first..=last).contains(number)).collect()
            }
        };
        Axis { scale, low: ticks[0], high: ticks[ticks.len() - 1], ticks }
    }

    /// How far along the axis a number lies, from 0 to 1.
    fn along(&self, number: f64) -> f64 {
        match self.scale {
            Scale::Linear => (number - self.low) / (self.high - self.low),
            Scale::Logarithmic => (number / self.low).ln() / (self.high / self.low).ln(),
        }
    }
}

/// 1, 2 and 5 times the powers of ten from 0.01 to 100,000.
fn round_numbers() -> impl Iterator<Item = f64> {
    (-2..6).flat_map(|power| [1.0, 2.0, 5.0].map(|digit| digit * 10f64.powi(power)))
}

/// A number without zeros at its end, thousands apart.
fn label(number: f64) -> String {
    if number >= 1000.0 {
        return format!("{},{:03}", number as u64 / 1000, number as u64 % 1000);
    }
    format!("{}", (number * 1000.0).round() / 1000.0)
}

// ---- a panel ----

/// Where the upper left corner of a panel's curves is, and the axes.
struct Plot {
    corner: [f64; 2],
    across: Axis,
    up: Axis,
}

impl Plot {
    fn new(corner: [f64; 2], scale: Scale, points: &[&Point]) -> Plot {
        let times = || points.iter().flat_map(|point| point.times);
        let across = Axis::of_places(scale, points.iter().map(|point| point.at as f64).collect());
        let up = Axis::of_times(scale, times().fold(f64::INFINITY, f64::min), times().fold(0.0, f64::max));
        Plot { corner, across, up }
    }

    fn draw(&self, svg: &mut String, panel: &Panel, points: &[&Point]) {
        let [middle, bottom] = [self.corner[0] + PLOT[0] / 2.0, self.corner[1] + PLOT[1]];
        text(svg, [middle, self.corner[1] - 12.0], "middle", "14", panel.heading);
        self.times(svg);
        self.places(svg);
        segment(svg, [self.corner[0], bottom], [self.corner[0] + PLOT[0], bottom], "#222");
        segment(svg, self.corner, [self.corner[0], bottom], "#222");
        text(svg, [middle, bottom + 40.0], "middle", "13", panel.below);
        upright(svg, [self.corner[0] - 46.0, self.corner[1] + PLOT[1] / 2.0], "milliseconds");
        self.curves(svg, points);
    }

    /// Where a point stands in the picture.
    fn place(&self, at: f64, time: f64) -> [f64; 2] {
        let [x, y] = [self.across.along(at), 1.0 - self.up.along(time)];
        [self.corner[0] + x * PLOT[0], self.corner[1] + y * PLOT[1]]
    }

    /// The numbers of the axis on the left, each with a line across.
    fn times(&self, svg: &mut String) {
        for &time in &self.up.ticks {
            let [x, y] = [self.corner[0], self.place(self.across.low, time)[1]];
            segment(svg, [x, y], [x + PLOT[0], y], "#ddd");
            text(svg, [x - 8.0, y + 4.0], "end", "12", &label(time));
        }
    }

    /// The numbers of the axis below.
    fn places(&self, svg: &mut String) {
        for &at in &self.across.ticks {
            let [x, y] = self.place(at, self.up.low);
            segment(svg, [x, y], [x, y + 5.0], "#222");
            text(svg, [x, y + 19.0], "middle", "12", &label(at));
        }
    }

    fn curves(&self, svg: &mut String, points: &[&Point]) {
        for (k, (_, colour, mark)) in CURVES.iter().enumerate() {
            let places: Vec<[f64; 2]> =
                points.iter().map(|point| self.place(point.at as f64, point.times[k])).collect();
            curve(svg, &places, colour);
            places.iter().for_each(|&at| draw_mark(svg, *mark, at, colour));
        }
    }
}

// ---- parts ----

fn legend(svg: &mut String, middle: f64) {
    for (k, (name, colour, mark)) in CURVES.iter().enumerate() {
        let left = middle - 150.0 + 170.0 * k as f64;
        curve(svg, &[[left, 48.0], [left + 30.0, 48.0]], colour);
        draw_mark(svg, *mark, [left + 15.0, 48.0], colour);
        text(svg, [left + 38.0, 52.0], "start", "13", name);
    }
}

fn put(svg: &mut String, element: &str) {
    writeln!(svg, "{element}").expect("a string takes it");
}

fn text(svg: &mut String, [x, y]: [f64; 2], anchor: &str, size: &str, words: &str) {
    put(svg, &format!("<text x=\"{x:.1}\" y=\"{y:.1}\" text-anchor=\"{anchor}\" font-size=\"{size}\">{words}</text>"));
}

/// Words from below to above.
fn upright(svg: &mut String, [x, y]: [f64; 2], words: &str) {
    let turned = format!("transform=\"rotate(-90 {x:.1} {y:.1})\"");
    put(svg, &format!("<text x=\"{x:.1}\" y=\"{y:.1}\" text-anchor=\"middle\" {turned}>{words}</text>"));
}

fn segment(svg: &mut String, [x, y]: [f64; 2], [u, v]: [f64; 2], colour: &str) {
    put(svg, &format!("<line x1=\"{x:.1}\" y1=\"{y:.1}\" x2=\"{u:.1}\" y2=\"{v:.1}\" stroke=\"{colour}\"/>"));
}

fn curve(svg: &mut String, places: &[[f64; 2]], colour: &str) {
    let points: Vec<String> = places.iter().map(|[x, y]| format!("{x:.1},{y:.1}")).collect();
    let line = format!("fill=\"none\" stroke=\"{colour}\" stroke-width=\"2\"");
    put(svg, &format!("<polyline points=\"{}\" {line}/>", points.join(" ")));
}

fn draw_mark(svg: &mut String, mark: Mark, [x, y]: [f64; 2], colour: &str) {
    let shape = match mark {
        Mark::Circle => format!("<circle cx=\"{x:.1}\" cy=\"{y:.1}\" r=\"4\""),
        Mark::Square => format!("<rect x=\"{:.1}\" y=\"{:.1}\" width=\"7\" height=\"7\"", x - 3.5, y - 3.5),
    };
    put(svg, &format!("{shape} fill=\"{colour}\"/>"));
}

#[cfg(test)]
mod tests {
    use super::*;

    /// In every panel and in the legend a line and its marks for either program.
    #[test]
    fn two_curves_a_panel() {
        let point = |series: &str, at| Point { series: series.into(), at, bytes: 1, times: [at as f64, 0.75] };
        let points: Vec<Point> = PANELS.iter().flat_map(|panel| [1, 2, 4].map(|at| point(panel.series, at))).collect();
        let svg = drawn(&points);
        let count = |what: &str| svg.matches(what).count();
        assert_eq!([count("<polyline"), count("<circle"), count("width=\"7\"")], [10, 13, 13]);
        assert!(!svg.contains("NaN") && !svg.contains("inf"));
    }

    #[test]
    fn round_ends() {
        let axis = Axis::of_times(Scale::Logarithmic, 0.7, 3.0);
        assert_eq!(axis.ticks, [0.5, 1.0, 2.0, 5.0]);
        assert_eq!(Axis::of_times(Scale::Linear, 0.7, 23.0).ticks, [0.0, 5.0, 10.0, 15.0, 20.0, 25.0]);
        assert_eq!([label(1000.0), label(0.5)], ["1,000", "0.5"]);
    }
}
