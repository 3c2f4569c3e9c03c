//! What a batch costs against the number of its sheets, and against m, D and the degree, one of them varied and the others as they are.

use super::kinds::{batch_of, numbers_above, sizes, text, KINDS, SHEETS};
use super::process::{measured, milliseconds, Program};
use crate::random::Random;
use outside::system::System;

/// Passes over one batch.
const PASSES: usize = 25;

/// One measured batch of a series.
#[derive(Clone, Debug, PartialEq)]
pub struct Point {
    pub series: String,
    /// What is varied.
    pub at: usize,
    pub bytes: usize,
    /// Milliseconds of the proved program and of the fast version.
    pub times: [f64; 2],
}

/// The sizes of a system of the series.
#[derive(Clone, Copy)]
struct Grid {
    m: usize,
    d: usize,
    degree: usize,
}

/// Where the sizes stand that are not varied.
const MIDDLE: Grid = Grid { m: 3, d: 2, degree: 4 };

type Series = (&'static str, &'static [usize], fn(usize) -> Vec<u8>);

const SERIES: [Series; 4] = [
    ("sheets", &[1, 2, 5, 10, 20, 50, 100, 200, 500, 1_000], first_sheets),
    ("m", &[1, 2, 3, 4], |m| of_grid(Grid { m, ..MIDDLE })),
    ("D", &[0, 1, 2, 3, 4], |d| of_grid(Grid { d, ..MIDDLE })),
    ("degree", &[0, 1, 2, 4, 8, 15], |degree| of_grid(Grid { degree, ..MIDDLE })),
];

/// The first sheets of the mixed kind.
fn first_sheets(count: usize) -> Vec<u8> {
    let mixed = KINDS.iter().find(|kind| kind.name == "mixed").expect("one of the kinds");
    batch_of(&mixed.first(count))
}

/// A batch of full systems with as many equations as unknowns, small coefficients and numbers in the highest block.
fn of_grid(Grid { m, d, degree }: Grid) -> Vec<u8> {
    let mut random = Random::new(12);
    let sizes = sizes(m, d);
    let mut sheet = || {
        let rows = (0..m).map(|_| numbers_above(&mut random, sizes, degree, 9)).collect();
        text(System { sizes, rows, relations: Vec::new() })
    };
    let sheets: Vec<Vec<u8>> = (0..SHEETS).map(|_| sheet()).collect();
    batch_of(&sheets)
}

/// All series, measured.
pub fn points(library: &Program) -> Vec<Point> {
    let all = SERIES.iter().flat_map(|&(series, places, batch)| places.iter().map(move |&at| (series, at, batch)));
    all.map(|(series, at, batch)| point(library, series, at, &batch(at))).collect()
}

fn point(library: &Program, series: &str, at: usize, input: &[u8]) -> Point {
    let measured = measured(Some(library), input, PASSES);
    let shortest = [measured.shortest_library().expect("both programs"), measured.shortest_fast()];
    Point { series: series.into(), at, bytes: input.len(), times: shortest.map(milliseconds) }
}

// ---- the file of the measured numbers ----

const HEADING: &str = "series,at,bytes,library_ms,fast_ms,ratio";

pub fn written(points: &[Point]) -> String {
    let lines = points.iter().map(|point| {
        let Point { series, at, bytes, times: [library, fast] } = point;
        format!("{series},{at},{bytes},{library:.3},{fast:.3},{:.2}\n", library / fast)
    });
    format!("{HEADING}\n{}", lines.collect::<String>())
}

/// The points of such a file; `None` where a line is not right.
pub fn read(text: &str) -> Option<Vec<Point>> {
    let lines = text.strip_prefix(HEADING)?.strip_prefix('\n')?.lines();
    lines.map(read_line).collect()
}

fn read_line(line: &str) -> Option<Point> {
    let [series, at, bytes, library, fast, _ratio] = line.split(',').collect::<Vec<_>>().try_into().ok()?;
    let times = [library.parse().ok()?, fast.parse().ok()?];
    Some(Point { series: series.into(), at: at.parse().ok()?, bytes: bytes.parse().ok()?, times })
}

#[cfg(test)]
mod tests {
    use super::*;

    #[test]
    fn read_as_written() {
        let point = |at| Point { series: "m".into(), at, bytes: 10 * at, times: [0.5, 0.25] };
        let points = [1, 2, 1_000].map(point);
        assert_eq!(read(&written(&points)).as_deref(), Some(&points[..]));
        assert_eq!(read("m,1,10"), None);
    }
}
