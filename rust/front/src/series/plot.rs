//! Partial sums over an interval, as a picture in SVG.

use super::floats::Float;
use super::fractions::Fraction;
use std::fmt::Write;

/// Points of a curve, less one.
pub const STEPS: i64 = 120;
const WIDTH: f64 = 760.0;
const HEIGHT: f64 = 460.0;
/// The frame: left, top, right, bottom.
const FRAME: [f64; 4] = [80.0, 50.0, 720.0, 400.0];
const COLOURS: [&str; 6] = ["#1f5fa8", "#c2451e", "#2b8a4b", "#7d3fa0", "#a87b00", "#3a3a3a"];
/// Strokes of the first six curves, of the next six, and of all others.
const DASHES: [&str; 3] = ["none", "8 4", "2 3"];
/// Characters of a curve's name that have room.
const NAME: usize = 72;
/// The largest size that is drawn, and the smallest.
const LARGE: f64 = 1e300;
const SMALL: f64 = 1e-300;
/// The narrowest interval that is drawn, and the lowest curve, as a part of the numbers that it goes through.
const NARROW: f64 = 1e-9;
/// Bits of a sum to begin with, and the most.
const BITS: (i64, i64) = (128, 8_192);
/// Bits of the largest value of a curve that have to be right.
const RIGHT: i64 = 56;

/// What belongs to one picture.
pub struct Picture {
    pub title: String,
    pub horizontal: String,
    pub vertical: String,
    /// A name for each curve, and its points from left to right.
    pub curves: Vec<(String, Vec<(f64, f64)>)>,
}

/// The place number `step` of an interval.
fn place((from, to): &(Fraction, Fraction), step: i64) -> Fraction {
    let whole = to.plus(&from.clone().negated());
    from.plus(&whole.times(&Fraction::from(step)).over(&Fraction::from(STEPS)))
}

/// The sum of value × x^index, and how far it may be wrong.
struct Sum {
    value: Float,
    error: Float,
}

impl Sum {
    /// Horner's way with so many bits. Each step is wrong by 4 units in the last place of the sum of all sizes at most.
    fn new(first: i64, values: &[Float], x: &Fraction, bits: i64) -> Sum {
        if x.is_zero() {
            let value = usize::try_from(-first).ok().and_then(|at| values.get(at)).cloned().unwrap_or_default();
            return Sum { value, error: Float::default() };
        }
        let at = Float::of(x, bits);
        let size = at.clone().size();
        let (mut value, mut sizes) = (Float::default(), Float::default());
        for a in values.iter().rev() {
            value = value.times(&at, bits).plus(a, bits);
            sizes = sizes.times(&size, 64).plus(&a.clone().size(), 64);
        }
        let base = if first < 0 { Float::of(&Fraction::from(1).over(x), bits) } else { at };
        let power = base.power(first.unsigned_abs(), bits);
        let steps = values.len() as i64 + first.abs() + 32;
        let units = Float::of(&Fraction::from(8 * steps), 64).lowered(bits);
        let error = sizes.times(&power.clone().size(), 64).times(&units, 64);
        Sum { value: value.times(&power, bits), error }
    }
}

/// The points of the sum of value × x^index over an interval, from the exact values: as many bits are taken as the
/// curve needs. Or why it cannot be drawn.
pub fn points(
    first: i64,
    values: &[Fraction],
    interval: &(Fraction, Fraction),
) -> Result<Vec<(f64, f64)>, &'static str> {
    let xs: Vec<Fraction> = (0..=STEPS).map(|step| place(interval, step)).collect();
    let across: Vec<f64> = xs.iter().map(|x| Float::of(x, 64).rounded()).collect();
    let (left, right) = (across[0], across[STEPS as usize]);
    let size = left.abs().max(right.abs());
    if size > LARGE || right - left < SMALL || right - left < size * NARROW {
        return Err("this interval cannot be drawn: --over a shorter or a wider one, nearer to 0");
    }
    let has_negative = values.iter().zip(first..0).any(|(value, _)| !value.is_zero());
    if has_negative && xs.iter().any(Fraction::is_zero) {
        return Err("the series has negative powers: --over an interval without 0");
    }
    let sums = sums(first, values, &xs);
    let largest = sums.iter().map(|value| value.rounded().abs()).fold(0.0, f64::max);
    if largest > LARGE {
        return Err("the sum is too large to be drawn: --over a shorter interval");
    }
    if largest < SMALL && sums.iter().any(|value| !value.is_zero()) {
        return Err("the sum is too small to be drawn: --over a longer interval");
    }
    Ok(across.into_iter().zip(sums.iter().map(Float::rounded)).collect())
}

/// The sums at some places, right in the first bits of the largest of them.
fn sums(first: i64, values: &[Fraction], xs: &[Fraction]) -> Vec<Float> {
    let mut bits = BITS.0;
    loop {
        let floats: Vec<Float> = values.iter().map(|value| Float::of(value, bits)).collect();
        let sums: Vec<Sum> = xs.iter().map(|x| Sum::new(first, &floats, x, bits)).collect();
        let tops = sums.iter().filter(|sum| !sum.value.is_zero()).map(|sum| sum.value.top());
        let largest = tops.max().unwrap_or(i64::MIN);
        let is_right = |sum: &Sum| sum.error.is_zero() || sum.error.top() < largest.saturating_sub(RIGHT);
        if bits >= BITS.1 || sums.iter().all(is_right) {
            // What is below its error with so many bits is 0.
            let is_sure = |sum: &Sum| sum.error.is_zero() || sum.value.top() > sum.error.top();
            return sums.into_iter().map(|sum| if is_sure(&sum) { sum.value } else { Float::default() }).collect();
        }
        bits *= 4;
    }
}

/// Round numbers between two, about six of them.
fn ticks(low: f64, high: f64) -> Vec<f64> {
    let rough = (high - low) / 6.0;
    let power = 10f64.powf(rough.log10().floor());
    let step = [1.0, 2.0, 5.0, 10.0].iter().map(|by| by * power).find(|step| *step >= rough).unwrap_or(rough);
    let first = (low / step).ceil() as i64;
    let last = (high / step).floor() as i64;
    (first..=last).map(|at| at as f64 * step).collect()
}

/// Ticks as text, with so many digits that no two of them are the same.
fn labels(ticks: &[f64]) -> Vec<String> {
    let all = |label: &dyn Fn(f64) -> String| ticks.iter().map(|&value| label(value)).collect::<Vec<String>>();
    let ways = (2..17).map(|digits| all(&move |value| format!("{value:.digits$e}")));
    let mut ways = std::iter::once(all(&tick)).chain(ways);
    ways.find(|labels| labels.windows(2).all(|pair| pair[0] != pair[1])).unwrap_or_else(|| all(&tick))
}

/// A tick as text: no more decimals than it needs.
fn tick(value: f64) -> String {
    if value != 0.0 && (value.abs() >= 1e6 || value.abs() < 1e-4) {
        return format!("{value:.1e}");
    }
    let text = format!("{value:.6}");
    let text = text.trim_end_matches('0').trim_end_matches('.');
    if text == "-0" { "0" } else { text }.into()
}

/// A name, cut where it has no room.
fn short(name: &str) -> String {
    if name.chars().count() <= NAME {
        return name.into();
    }
    name.chars().take(NAME - 3).chain(" ..".chars()).collect()
}

/// Text within XML: what is no character of XML, or a control character, is replaced.
fn escaped(text: &str) -> String {
    let is_none = |c: char| c.is_control() || matches!(c, '\u{fffe}' | '\u{ffff}');
    let text: String = text.chars().map(|c| if is_none(c) { '\u{fffd}' } else { c }).collect();
    text.replace('&', "&amp;").replace('<', "&lt;").replace('>', "&gt;")
}

/// The ends of a scale that shows all these, and 0 where it is not far from them, a little wider than they are.
fn ends(values: impl Iterator<Item = f64>) -> (f64, f64) {
    let (low, high) = values.fold((f64::INFINITY, f64::NEG_INFINITY), |(low, high), v| (low.min(v), high.max(v)));
    let (low, high) = match (low < 0.5 * high, high > 0.5 * low) {
        (true, _) if low > 0.0 => (0.0, high),
        (_, true) if high < 0.0 => (low, 0.0),
        _ => (low, high),
    };
    if !low.is_finite() || !high.is_finite() {
        return (0.0, 1.0);
    }
    let (whole, size) = (high - low, low.abs().max(high.abs()));
    if whole <= size * NARROW {
        let room = if size > 1.0 { size / 2.0 } else { 1.0 };
        return (low - room, high + room);
    }
    (low - whole * 0.05, high + whole * 0.05)
}

impl Picture {
    /// Where a point stands in the picture.
    pub fn places(&self) -> impl Fn(f64, f64) -> (f64, f64) {
        let all = || self.curves.iter().flat_map(|(_, points)| points.iter());
        let (low, high) = ends(all().map(|point| point.1));
        let left = all().map(|point| point.0).fold(f64::INFINITY, f64::min);
        let right = all().map(|point| point.0).fold(f64::NEG_INFINITY, f64::max);
        let [x0, y0, x1, y1] = FRAME;
        move |x, y| (x0 + (x - left) / (right - left) * (x1 - x0), y1 - (y - low) / (high - low) * (y1 - y0))
    }

    fn axes(&self, svg: &mut String) {
        let ([x0, y0, x1, y1], at) = (FRAME, self.places());
        let all = || self.curves.iter().flat_map(|(_, points)| points.iter());
        let (low, high) = ends(all().map(|point| point.1));
        let left = all().map(|point| point.0).fold(f64::INFINITY, f64::min);
        let right = all().map(|point| point.0).fold(f64::NEG_INFINITY, f64::max);
        let across = ticks(left, right);
        for (&x, label) in across.iter().zip(labels(&across)) {
            let h = at(x, low).0;
            let _ = writeln!(svg, "<line x1=\"{h:.2}\" y1=\"{y0}\" x2=\"{h:.2}\" y2=\"{y1}\" stroke=\"#e3e3e3\"/>");
            let below = y1 + 18.0;
            let _ = writeln!(svg, "<text x=\"{h:.2}\" y=\"{below}\" text-anchor=\"middle\">{label}</text>");
        }
        let up = ticks(low, high);
        for (&y, label) in up.iter().zip(labels(&up)) {
            let v = at(left, y).1;
            let colour = if y == 0.0 { "#777777" } else { "#e3e3e3" };
            let _ = writeln!(svg, "<line x1=\"{x0}\" y1=\"{v:.2}\" x2=\"{x1}\" y2=\"{v:.2}\" stroke=\"{colour}\"/>");
            let (beside, v) = (x0 - 8.0, v + 4.0);
            let _ = writeln!(svg, "<text x=\"{beside}\" y=\"{v:.2}\" text-anchor=\"end\">{label}</text>");
        }
        let (width, height) = (x1 - x0, y1 - y0);
        let _ = writeln!(
            svg,
            "<rect x=\"{x0}\" y=\"{y0}\" width=\"{width}\" height=\"{height}\" fill=\"none\" stroke=\"#444444\"/>"
        );
        let (middle, below) = ((x0 + x1) / 2.0, y1 + 40.0);
        let _ = writeln!(
            svg,
            "<text x=\"{middle}\" y=\"{below}\" text-anchor=\"middle\" font-style=\"italic\">{}</text>",
            escaped(&self.horizontal)
        );
        let across = (y0 + y1) / 2.0;
        let _ = writeln!(
            svg,
            "<text x=\"24\" y=\"{across}\" text-anchor=\"middle\" font-style=\"italic\" transform=\"rotate(-90 24 {across})\">{}</text>",
            escaped(&self.vertical)
        );
    }

    /// The picture as a file.
    pub fn svg(&self) -> String {
        let height = HEIGHT + 20.0 * self.curves.len() as f64;
        let mut svg = format!(
            "<?xml version=\"1.0\" encoding=\"UTF-8\"?>\n\
             <svg xmlns=\"http://www.w3.org/2000/svg\" width=\"{WIDTH}\" height=\"{height}\" viewBox=\"0 0 {WIDTH} {height}\" \
             font-family=\"sans-serif\" font-size=\"13\">\n<rect width=\"{WIDTH}\" height=\"{height}\" fill=\"white\"/>\n\
             <text x=\"{}\" y=\"30\" text-anchor=\"middle\" font-size=\"16\">{}</text>\n",
            (FRAME[0] + FRAME[2]) / 2.0,
            escaped(&self.title)
        );
        self.axes(&mut svg);
        let at = self.places();
        for (number, (name, points)) in self.curves.iter().enumerate() {
            let (colour, dashes) = (COLOURS[number % COLOURS.len()], DASHES[(number / COLOURS.len()).min(2)]);
            let drawn = format!("stroke=\"{colour}\" stroke-width=\"2\" stroke-dasharray=\"{dashes}\"");
            let pair = |&(x, y): &(f64, f64)| {
                let (h, v) = at(x, y);
                format!("{h:.2},{v:.2}")
            };
            let points: Vec<String> = points.iter().map(pair).collect();
            let _ = writeln!(svg, "<polyline points=\"{}\" fill=\"none\" {drawn}/>", points.join(" "));
            let [x0, .., y1] = FRAME;
            let (line, x) = (y1 + 60.0 + 20.0 * number as f64, x0 + 40.0);
            let _ = writeln!(svg, "<line x1=\"{x0}\" y1=\"{line}\" x2=\"{}\" y2=\"{line}\" {drawn}/>", x0 + 30.0);
            let _ = writeln!(svg, "<text x=\"{x}\" y=\"{}\">{}</text>", line + 4.0, escaped(&short(name)));
        }
        svg + "</svg>\n"
    }
}
