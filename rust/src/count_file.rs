//! The count file (docs/SCOPE.md, S10), read into what a build is asked for. This reader is plain Rust; the proved one is crates/count_file.

use crate::{Request, INSIDE};

/// A count file's values.
#[derive(Clone, Debug, PartialEq)]
pub struct CountFile {
    pub sides: [usize; 3],
    pub method: usize,
    pub rounds: usize,
    /// The threshold: INSIDE where the file has no line for it.
    pub inside: f64,
    pub origin: [f64; 3],
    pub step: [f64; 3],
    pub samples: Vec<f64>,
}

impl CountFile {
    pub fn request(&self) -> Request<'_> {
        Request {
            sides: self.sides,
            method: self.method,
            rounds: self.rounds,
            inside: self.inside,
            origin: self.origin,
            step: self.step,
            samples: &self.samples,
        }
    }
}

/// The value of the next line, which has this key.
fn value<'a>(rest: &mut &'a str, key: &str) -> Option<&'a str> {
    let (line, after) = rest.split_once('\n')?;
    *rest = after;
    line.strip_prefix(key)?.strip_prefix('=')
}

fn decimal(rest: &mut &str, key: &str) -> Option<usize> {
    let text = value(rest, key)?;
    let form = (1..=9).contains(&text.len()) && text.bytes().all(|b| b.is_ascii_digit()) && (text.len() == 1 || !text.starts_with('0'));
    if form { text.parse().ok() } else { None }
}

fn float(rest: &mut &str, key: &str) -> Option<f64> {
    let text = value(rest, key)?;
    let form = text.len() == 16 && text.bytes().all(|b| matches!(b, b'0'..=b'9' | b'a'..=b'f'));
    if form { u64::from_str_radix(text, 16).ok().map(f64::from_bits) } else { None }
}

/// The file's values, or None where it is not of the form or has over 216 sites (status 8 of docs/SCOPE.md, S10.4).
pub fn read(bytes: &[u8]) -> Option<CountFile> {
    let mut text = std::str::from_utf8(bytes).ok()?;
    let rest = &mut text;
    let sides = [decimal(rest, "nu")?, decimal(rest, "nv")?, decimal(rest, "nw")?];
    let method = decimal(rest, "method")?;
    let rounds = decimal(rest, "rounds")?;
    // The one line that may be left out.
    let inside = if rest.starts_with("inside=") { float(rest, "inside")? } else { INSIDE };
    let origin = [float(rest, "origin0")?, float(rest, "origin1")?, float(rest, "origin2")?];
    let step = [float(rest, "step0")?, float(rest, "step1")?, float(rest, "step2")?];
    let sites: u128 = sides.iter().map(|&n| n as u128).product();
    if !(1..=216).contains(&sites) {
        return None;
    }
    let mut samples = Vec::new();
    for _ in 0..sites {
        samples.push(float(rest, "s")?);
    }
    rest.is_empty().then_some(CountFile { sides, method, rounds, inside, origin, step, samples })
}
