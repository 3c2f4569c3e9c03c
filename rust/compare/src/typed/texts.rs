//! Texts to be read: well-formed ones, near misses, and damaged ones.

use crate::random::Random;

/// Names of unknowns; some contain a variable or each other, some are functions or numbers.
#[rustfmt::skip]
const NAMES: &[&str] = &[
    "x", "y", "z", "w", "u", "v", "a", "b", "F", "M", "x1", "x2", "y1", "y2", "xi", "nu", "xy", "ab", "flux",
    "pop", "e", "Y",
];
/// What a person may write and mean something else by.
#[rustfmt::skip]
const MISSES: &[&str] = &[
    "y(0)", "y'(0)", "y''(x)", "y(x)", "y (x)", "y(x+1)", "(y)(x)", "sin(x)", "exp(x)", "e^x", "e", "pi",
    "Cos(n)", "1e-3", "2e3", "2E5", "3e", "0x1", "0xy", "0.25", "1/4", "1 000", "1_000", "1,000", "xy", "nx(n)",
    "x2", "n2", "xx", "n(3)", "x(0)", "n (n)", "x(1)", "x(n+65)", "x(n-64)", "x(n+5)", "x(2n)", "x((n))",
    "x(n+1-1)", "x(y)", "x(n)^2", "x(n)(n+1)", "(n+1)(n-1)", "(x+1)(x-1)", "2^64", "(-2)^63", "2^100", "2^36",
    "n^15", "n^16", "n^64", "n^65", "(n+1)^8", "(n + 1)^64", "x^2", "x^3", "268435455", "268435456", "1048576",
    "1048577", "999999999999", "1000000000000", "y'''", "x'", "(x*y)'", "y(x)'", "0*y(n)", "0 y'", "=", "0",
    "= 0", "0 = 0", "3 = 3", "0 = n", "x(n) = x(n)", "y' = y'", "at n = 0:", "at n = -3: x(0) = 1", "at",
    "none", "n", "x", "unknowns x", "derivatives", "order", "''", "**", "^", "^2", "^-1", "-", "+", "--", ";",
    ";;", "\n", "\r", "\r\n", "# all", "\u{a0}", "\t", "\u{feff}", "\u{2212}", "é", "\0", "(", ")", "()", ",",
    ":", "_", "Y", "unknowns x, y; l = 1; t = 0; order y, x\n", "unknowns y; derivatives 2; powers 2\n",
    "unknowns x; l = 2\n", "unknowns x; order none\n", "unknowns x; t = -1;", "unknowns sin, xy\n",
];

/// Writes a text; each piece may have blanks around it.
struct Maker<'a> {
    random: &'a mut Random,
    is_differential: bool,
    names: Vec<&'static str>,
}

impl Maker<'_> {
    fn blank(&mut self) -> &'static str {
        self.random.pick(&["", "", "", " ", " ", "  ", "\t"])
    }

    fn variable(&self) -> &'static str {
        if self.is_differential {
            "x"
        } else {
            "n"
        }
    }

    fn number(&mut self) -> String {
        let size = self.random.pick(&[3, 10, 10, 10, 100, 30_000]);
        self.random.below(size).to_string()
    }

    /// A polynomial in the variable that can be a factor.
    fn polynomial(&mut self, depth: usize) -> String {
        let depth = depth + usize::from(self.is_differential && self.random.one_in(2));
        match self.random.below(if depth > 1 { 3 } else { 7 }) {
            0 | 1 => self.number(),
            2 => self.variable().into(),
            3 => {
                let power = self.random.pick(if self.is_differential { &[0, 1, 1, 2] } else { &[0, 1, 2, 2, 3] });
                format!("{}{}^{}{power}", self.variable(), self.blank(), self.blank())
            }
            4 => {
                let power = self.random.pick(&[0, 1, 2, 2]);
                format!("({})^{power}", self.polynomials(depth + 1))
            }
            _ => format!("({}{}{})", self.blank(), self.polynomials(depth + 1), self.blank()),
        }
    }

    /// A sum of products of polynomials.
    fn polynomials(&mut self, depth: usize) -> String {
        let mut text = self.random.pick(&["", "", "", "-", "+"]).to_string();
        for part in 0..1 + self.random.below(3) {
            if part > 0 {
                text += &format!("{}{}{}", self.blank(), self.random.pick(&["+", "-"]), self.blank());
            }
            let mut product = self.polynomial(depth);
            if self.random.one_in(4) {
                let factor = self.polynomial(depth);
                product = self.joined(&product, &factor);
            }
            text += &product;
        }
        text
    }

    /// Two factors beside each other: with a star where that is the rule, and seldom without where it is.
    fn joined(&mut self, left: &str, right: &str) -> String {
        let begins_word = right.starts_with(|c: char| c.is_ascii_alphanumeric());
        let needs_star = right.starts_with(|c: char| c.is_ascii_digit() || self.is_differential && c == '(');
        let needs_blank = begins_word && left.ends_with(|c: char| c.is_ascii_alphabetic());
        let is_careless = self.random.one_in(60);
        let between = match (needs_star, needs_blank) {
            (true, _) if !is_careless => self.random.pick(&["*", " * "]),
            (_, true) if !is_careless => self.random.pick(&["*", " ", " * "]),
            _ => self.random.pick(&["*", " ", " * ", ""]),
        };
        format!("{left}{between}{right}")
    }

    fn unknown(&mut self, n0: Option<i64>) -> String {
        let name = self.random.pick(&self.names.clone());
        if self.is_differential {
            let primes = self.random.pick(&["", "'", "'", "''"]);
            let at = self.random.pick(&["", "", "", "(x)", "( x )"]);
            return format!("{name}{primes}{at}");
        }
        let block = self.random.between(-1, 2) as i64;
        let index = match (n0, block) {
            (Some(n0), _) if self.random.one_in(2) => (n0 + block).to_string(),
            (_, 0) => "n".into(),
            (_, _) if self.random.one_in(6) => format!("{block} + n"),
            (_, _) => format!("n{}{block:+}", self.blank()),
        };
        format!("{name}{}({index})", self.random.pick(&["", "", "", " "]))
    }

    fn term(&mut self, n0: Option<i64>) -> String {
        let unknown = match self.random.below(12) {
            0 => format!("({} - {})", self.unknown(n0), self.unknown(n0)),
            _ => self.unknown(n0),
        };
        match self.random.below(6) {
            0 | 1 => unknown,
            2 => {
                let factor = self.polynomial(0);
                self.joined(&unknown, &factor)
            }
            _ => {
                let factor = self.polynomial(0);
                self.joined(&factor, &unknown)
            }
        }
    }

    fn side(&mut self, n0: Option<i64>) -> String {
        let mut text = self.random.pick(&["", "", "", "-", "+ "]).to_string();
        for part in 0..1 + self.random.below(3) {
            if part > 0 {
                text += self.random.pick(&[" + ", " - ", "+", "-"]);
            }
            text += &self.term(n0);
        }
        text
    }

    fn statement(&mut self) -> String {
        let n0 = (!self.is_differential && self.random.one_in(5)).then(|| self.random.between(-9, 9) as i64);
        let at = n0.map_or(String::new(), |n0| format!("at n = {n0}: "));
        let right = match self.random.below(5) {
            0 | 1 => "0".into(),
            2 if !self.is_differential => self.polynomials(1),
            _ => self.side(n0),
        };
        format!("{at}{}{}={}{right}", self.side(n0), self.blank(), self.blank())
    }

    fn heading(&mut self) -> String {
        let mut text = format!("unknowns {}", self.names.join(", "));
        let parts: &[[&str; 2]] = match self.is_differential {
            true => &[["; derivatives 2", "; derivatives  1"], ["; powers 2", "; powers 2 ; powers 2"]],
            false => &[["; l = 2", ";l=3"], ["; t = -1", "; t = -3; t = -2"], ["; order none", "; order y , x"]],
        };
        for [usual, other] in parts {
            if self.random.one_in(2) {
                text += if self.random.one_in(8) { other } else { usual };
            }
        }
        text + "\n"
    }

    fn text(&mut self) -> String {
        let mut text = String::new();
        if self.random.one_in(3) {
            text += &self.heading();
        }
        for _ in 0..self.random.pick(&[1, 1, 2, 2, 3, 5]) {
            text += &self.statement();
            text += self.random.pick(&["; ", "\n", "\r\n", " # a remark (\n", ";\n"]);
        }
        text
    }
}

/// A text without intent to err; that its names have two readings, or its numbers are too large, may be.
pub fn whole(random: &mut Random) -> String {
    let is_differential = random.one_in(2);
    let mut names = Vec::new();
    let most = 1 + random.below(3);
    while names.len() < most {
        let plain = if is_differential { &NAMES[1..6] } else { &NAMES[..6] };
        let name = if random.one_in(4) { random.pick(NAMES) } else { random.pick(plain) };
        if !names.contains(&name) {
            names.push(name);
        }
    }
    Maker { random, is_differential, names }.text()
}

/// A text with one or two of the pieces that are often meant otherwise, inside it or as an equation at its end.
fn near_miss(random: &mut Random) -> String {
    let mut text = whole(random);
    for _ in 0..1 + random.below(2) {
        let miss = random.pick(MISSES);
        if random.one_in(3) {
            text += &format!("{miss}{}\n", random.pick(&["", " = 0", " = e'", "*y' = y", "*x(n) = 0"]));
            continue;
        }
        let places: Vec<usize> = text.char_indices().map(|(at, _)| at).filter(|_| random.one_in(3)).collect();
        let at = if places.is_empty() { 0 } else { random.pick(&places) };
        text.insert_str(at, miss);
    }
    text
}

/// A text with letters lost, doubled, exchanged or put in.
fn damaged(random: &mut Random) -> String {
    let mut letters: Vec<char> = whole(random).chars().collect();
    let others: Vec<char> = "xyn0129()+-*^=;:,' \n#eE._&/".chars().collect();
    for _ in 0..1 + random.below(3) {
        let at = random.below(letters.len().max(1));
        match random.below(5) {
            0 | 1 if at < letters.len() => {
                letters.remove(at);
            }
            2 if at + 1 < letters.len() => letters.swap(at, at + 1),
            3 if at < letters.len() => letters[at] = random.pick(&others),
            _ => letters.insert(at, random.pick(&others)),
        }
    }
    letters.into_iter().collect()
}

/// Pieces one after the other.
fn pieces(random: &mut Random) -> String {
    (0..1 + random.below(6)).map(|_| random.pick(MISSES)).collect()
}

/// Some text: of nine three are whole, three near misses, two damaged, and one is pieces alone.
pub fn some(random: &mut Random) -> String {
    match random.below(9) {
        0..=2 => whole(random),
        3..=5 => near_miss(random),
        6 | 7 => damaged(random),
        _ => pieces(random),
    }
}
