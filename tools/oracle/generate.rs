// Count files made from a seed: fields of every kind, others near the threshold alone, others with thresholds of their own, frames at the limits, refusals,
// malformed files; and their coverage. All ours.

use crate::countfile::{file_text, on_border, read, run, MOST_SITES};
use crate::isosurface::{Input, SampleLattice};
use crate::threshold::BASE;

/// splitmix64.
pub struct Rng(pub u64);

impl Rng {
    pub fn next(&mut self) -> u64 {
        self.0 = self.0.wrapping_add(0x9e3779b97f4a7c15);
        let mut z = self.0;
        z = (z ^ z >> 30).wrapping_mul(0xbf58476d1ce4e5b9);
        z = (z ^ z >> 27).wrapping_mul(0x94d049bb133111eb);
        z ^ z >> 31
    }

    /// A whole number below n.
    pub fn below(&mut self, n: usize) -> usize {
        (self.next() % n as u64) as usize
    }

    pub fn one_in(&mut self, n: usize) -> bool {
        self.below(n) == 0
    }

    pub fn pick<T: Copy>(&mut self, from: &[T]) -> T {
        from[self.below(from.len())]
    }

    /// A float from lo to hi.
    pub fn float(&mut self, lo: f64, hi: f64) -> f64 {
        lo + (hi - lo) * ((self.next() >> 11) as f64 / (1u64 << 53) as f64)
    }
}

/// The threshold of a file that gives none (docs/SCOPE.md, S3.1), negated: outside. The next f64 below it is inside.
/// Below, `edge` is any threshold, negated.
pub const EDGE: f64 = -BASE;

/// The least f64 above 0.
const LEAST: f64 = 5e-324;

const SIGN: u64 = 1 << 63;

/// The f64 that is `steps` further from zero. Past zero, it goes on at the other sign.
pub fn after(x: f64, steps: i64) -> f64 {
    let (sign, size) = (x.to_bits() & SIGN, (x.to_bits() & !SIGN) as i64 + steps);
    let sign = if size < 0 { sign ^ SIGN } else { sign };
    f64::from_bits(sign | size.unsigned_abs())
}

/// The values that a small program can pick too, by FORMAT.md's rule; None is missing.
pub fn end_value(state: &mut u64, edge: f64) -> Option<f64> {
    let next = f64::from_bits(edge.to_bits().wrapping_add(1));
    *state = state.wrapping_mul(6364136223846793005).wrapping_add(1442695040888963407);
    let values = [
        1.0, -1.0, 3.0, -3.0, 0.5, -0.5, 1.0, -1.0, 3.0, -3.0, 0.5, -0.5, 2.0, -2.0, 1.0, -1.0,
        3.0, -3.0, 0.5, -0.5, 0.0, -0.0, edge, next, LEAST, 1e308, -1e308, 1.0, f64::NAN, f64::INFINITY, f64::NEG_INFINITY,
    ];
    values.get((*state >> 59) as usize).copied()
}

/// Values at which something changes.
pub fn special(rng: &mut Rng) -> f64 {
    special_at(rng, EDGE)
}

pub fn special_at(rng: &mut Rng, edge: f64) -> f64 {
    match rng.below(24) {
        0 => edge,
        1 => after(edge, 1),
        2 => after(edge, -1),
        3 => after(edge, rng.below(9) as i64 - 4),
        4 => 0.0,
        5 => -0.0,
        6 => f64::from_bits(1 + rng.next() % 0x000f_ffff_ffff_ffff),
        7 => -f64::from_bits(1 + rng.next() % 0x000f_ffff_ffff_ffff),
        8 => LEAST,
        9 => 1e308,
        10 => -1e308,
        11 => f64::MAX,
        12 => -f64::MAX,
        13 => f64::INFINITY,
        14 => f64::NEG_INFINITY,
        15 => f64::NAN,
        16 => f64::from_bits(0xfff8_0000_0000_0001 + rng.next() % 0x7_ffff_ffff_ffff),
        17 => f64::from_bits(0x7ff0_0000_0000_0001 + rng.next() % 0x7_ffff_ffff_ffff),
        18 => -f64::MIN_POSITIVE,
        19 => -edge,
        20 => 2.0 * edge,
        21 => 1.0,
        22 => -1.0,
        _ => f64::from_bits(rng.next()),
    }
}

/// A special value that is finite.
fn finite_special(rng: &mut Rng, edge: f64) -> f64 {
    loop {
        let x = special_at(rng, edge);
        if x.is_finite() {
            return x;
        }
    }
}

fn magnitude(rng: &mut Rng) -> f64 {
    rng.pick(&[0.5, 1.0, 3.0])
}

fn signed(rng: &mut Rng, inside_in: usize) -> f64 {
    let size = magnitude(rng);
    if rng.one_in(inside_in) { -size } else { size }
}

/// All sides with at most 216 sites.
pub fn all_sizes() -> Vec<[usize; 3]> {
    let most = MOST_SITES as usize;
    let mut sizes = Vec::new();
    for nu in 1..=most {
        for nv in 1..=most / nu {
            for nw in 1..=most / (nu * nv) {
                sizes.push([nu, nv, nw]);
            }
        }
    }
    sizes
}

/// Sides that have cells, at most 216 sites.
fn common_size(rng: &mut Rng) -> [usize; 3] {
    loop {
        let sides = [0; 3].map(|_| if rng.one_in(8) { 1 + rng.below(12) } else { 2 + rng.below(5) });
        if sides.iter().product::<usize>() <= MOST_SITES as usize {
            return sides;
        }
    }
}

pub fn positions(sides: [usize; 3]) -> Vec<[f64; 3]> {
    let lattice = SampleLattice { origin: [0.0; 3], step: [1.0; 3], sides };
    lattice.keys().into_iter().map(|k| lattice.ijk_to_world(k)).collect()
}

pub fn distance(p: [f64; 3], q: [f64; 3]) -> f64 {
    ((p[0] - q[0]).powi(2) + (p[1] - q[1]).powi(2) + (p[2] - q[2]).powi(2)).sqrt()
}

/// A point somewhere in the box.
fn within(rng: &mut Rng, at: &[[f64; 3]]) -> [f64; 3] {
    let (p, q, t) = (rng.pick(at), rng.pick(at), rng.float(0.0, 1.0));
    [0, 1, 2].map(|i| p[i] + t * (q[i] - p[i]))
}

fn turned(rng: &mut Rng) -> [f64; 3] {
    let n = [0; 3].map(|_| rng.float(-1.0, 1.0));
    let length = distance(n, [0.0; 3]).max(1e-3);
    n.map(|x| x / length)
}

/// Samples of a box. Kinds 0 to 5 are smooth, 6 to 12 noise.
pub fn field(rng: &mut Rng, sides: [usize; 3]) -> Vec<f64> {
    field_at(rng, sides, EDGE)
}

pub fn field_at(rng: &mut Rng, sides: [usize; 3], edge: f64) -> Vec<f64> {
    let sites: usize = sides.iter().product();
    let at = positions(sides);
    let dot = |n: [f64; 3], p: [f64; 3]| n[0] * p[0] + n[1] * p[1] + n[2] * p[2];
    match rng.below(16) {
        0 => {
            let (c, r, sign) = (within(rng, &at), rng.float(0.3, 4.0), rng.pick(&[1.0, -1.0]));
            at.iter().map(|&p| sign * (distance(p, c) - r)).collect()
        }
        1 => {
            let (c, a, b, n) = (within(rng, &at), turned(rng), turned(rng), turned(rng));
            let bend = rng.float(0.1, 1.5);
            at.iter()
                .map(|&p| {
                    let q = [0, 1, 2].map(|i| p[i] - c[i]);
                    bend * (dot(a, q).powi(2) - dot(b, q).powi(2)) + dot(n, q)
                })
                .collect()
        }
        2 => {
            let (c, n, thick) = (within(rng, &at), turned(rng), rng.float(0.05, 0.9));
            at.iter().map(|&p| dot(n, [0, 1, 2].map(|i| p[i] - c[i])).abs() - thick).collect()
        }
        3 => {
            let blobs: Vec<([f64; 3], f64)> = (0..2 + rng.below(3)).map(|_| (within(rng, &at), rng.float(0.4, 2.0))).collect();
            at.iter().map(|&p| blobs.iter().map(|&(c, r)| distance(p, c) - r).fold(f64::MAX, f64::min)).collect()
        }
        4 => {
            let blobs: Vec<([f64; 3], f64)> = (0..2 + rng.below(3)).map(|_| (within(rng, &at), rng.float(0.5, 2.0))).collect();
            let level = rng.float(0.2, 0.9);
            at.iter().map(|&p| level - blobs.iter().map(|&(c, r)| (-(distance(p, c) / r).powi(2)).exp()).sum::<f64>()).collect()
        }
        5 => {
            let (n, d) = (turned(rng).map(|x| (x * 2.0).round()), rng.below(5) as f64 - 2.0);
            at.iter().map(|&p| dot(n, p) + d).collect()
        }
        6..=8 => {
            // Noise with the border on one side: what demand 3 is about.
            let (outer, inside_in) = (rng.pick(&[1.0, -1.0]), 1 + rng.below(4));
            let plain = rng.one_in(3);
            (0..sites)
                .map(|site| match on_border(sides, site) {
                    true => outer * if plain { 3.0 } else { magnitude(rng) },
                    false => outer * signed(rng, inside_in),
                })
                .collect()
        }
        9 => {
            let inside_in = 1 + rng.below(5);
            (0..sites).map(|_| signed(rng, inside_in)).collect()
        }
        10 => (0..sites).map(|_| rng.float(-1.0, 1.0)).collect(),
        11 => {
            // One value, but at a few sites.
            let rest = signed(rng, 2);
            let mut all = vec![rest; sites];
            for _ in 0..1 + rng.below(5) {
                all[rng.below(sites)] = signed(rng, 2);
            }
            all
        }
        12 => (0..sites).map(|_| if rng.one_in(6) { finite_special(rng, edge) } else { signed(rng, 2) }).collect(),
        13 => (0..sites).map(|_| if rng.one_in(8) { special_at(rng, edge) } else { signed(rng, 2) }).collect(),
        14 => (0..sites).map(|_| special_at(rng, edge)).collect(),
        _ => (0..sites).map(|_| rng.pick(&[edge, after(edge, 1), after(edge, -1), 0.0, -0.0, -edge, -1.0, 1.0])).collect(),
    }
}

/// Whether hardly any f64 lies between a threshold and zero.
fn next_to_nothing(edge: f64) -> bool {
    -edge < 1e-280
}

/// A value of any size below 1e-30, of either sign.
fn tiny(rng: &mut Rng) -> f64 {
    let size = f64::from_bits(rng.next() % 1e-30f64.to_bits());
    if rng.one_in(2) { -size } else { size }
}

/// A value near the threshold, negative: up to four steps of a float from it, or up to half as much again.
fn close(rng: &mut Rng, edge: f64) -> f64 {
    if rng.one_in(2) {
        return after(edge, rng.below(9) as i64 - 4);
    }
    if next_to_nothing(edge) { tiny(rng) } else { edge * rng.float(0.5, 1.5) }
}

/// The usual field, moved to the threshold and shrunk.
fn moved(rng: &mut Rng, sides: [usize; 3], edge: f64, size: f64) -> Vec<f64> {
    field_at(rng, sides, edge).into_iter().map(|x| if x.is_finite() && x.abs() < 1e6 { edge + x * size } else { x }).collect()
}

/// Samples near the threshold: edges with both ends negative, marked at either end, often several of them at one site.
pub fn near_field(rng: &mut Rng, sides: [usize; 3], edge: f64) -> Vec<f64> {
    let sites: usize = sides.iter().product();
    match rng.below(6) {
        0 => (0..sites).map(|_| after(edge, rng.below(9) as i64 - 4)).collect(),
        1 => (0..sites).map(|_| close(rng, edge)).collect(),
        2 | 3 => {
            // A usual field, shrunk to about the threshold: smooth surfaces, and so clusters, of such edges.
            let mut size = rng.pick(&[1e-10, 1e-11, 1e-13, 1e-15, 2e-25]) * (edge / EDGE);
            if next_to_nothing(edge) {
                size = rng.pick(&[1e-20, 1e-30, 1e-31, 1e-40, 1e-300, 1e-310, LEAST]);
            }
            moved(rng, sides, edge, size)
        }
        4 => {
            // The border on one side, negative and outside or inside.
            let outer = rng.pick(&[edge * 0.5, edge, after(edge, 1), edge * 2.0]);
            (0..sites).map(|site| if on_border(sides, site) { outer } else { close(rng, edge) }).collect()
        }
        _ => {
            let some = 2 + rng.below(4);
            field_at(rng, sides, edge).into_iter().map(|x| if rng.one_in(some) { close(rng, edge) } else { x }).collect()
        }
    }
}

/// A value that is inside or not, often close to the threshold or between it and zero.
fn on_side(rng: &mut Rng, edge: f64, inside: bool) -> f64 {
    let x = match rng.below(6) {
        0 => after(edge, rng.below(9) as i64 - 4),
        1 => close(rng, edge),
        2 | 3 if inside => edge * rng.float(1.0, 3.0),
        2 | 3 => edge * rng.float(0.0, 1.0),
        _ if inside => edge - magnitude(rng),
        _ => edge + magnitude(rng),
    };
    if (x < edge) == inside {
        return x;
    }
    if inside { after(edge, 1) } else { edge }
}

/// Samples of a box with this threshold: usual ones, usual ones moved to the threshold, some near it, and noise on both sides of it with and without a
/// border on one side.
pub fn threshold_field(rng: &mut Rng, sides: [usize; 3], edge: f64) -> Vec<f64> {
    let sites: usize = sides.iter().product();
    match rng.below(8) {
        0 => field_at(rng, sides, edge),
        1..=3 => moved(rng, sides, edge, 1.0),
        4 | 5 => near_field(rng, sides, edge),
        6 => {
            let (outer, other_in) = (rng.one_in(2), 1 + rng.below(4));
            (0..sites)
                .map(|site| {
                    let other = !on_border(sides, site) && rng.one_in(other_in);
                    on_side(rng, edge, outer != other)
                })
                .collect()
        }
        _ => {
            let inside_in = 1 + rng.below(5);
            (0..sites)
                .map(|_| {
                    let inside = rng.one_in(inside_in);
                    on_side(rng, edge, inside)
                })
                .collect()
        }
    }
}

const ORIGIN_LIMITS: [f64; 2] = [-1e9, 1e9];
const STEP_LIMITS: [f64; 2] = [0.001, 1e6];

/// An origin and a step that are accepted.
pub fn frame(rng: &mut Rng) -> ([f64; 3], [f64; 3]) {
    match rng.below(4) {
        0 | 1 => ([0.0; 3], [1.0; 3]),
        2 => ([0; 3].map(|_| rng.float(-1e3, 1e3)), [0; 3].map(|_| rng.float(0.001, 50.0))),
        _ => {
            let (small, large) = (rng.float(-1e9, 1e9), rng.float(0.001, 1e6));
            let origins = [ORIGIN_LIMITS[0], ORIGIN_LIMITS[1], after(ORIGIN_LIMITS[1], -1), after(ORIGIN_LIMITS[0], -1), -0.0, 5e-324, small];
            let steps = [STEP_LIMITS[0], STEP_LIMITS[1], after(STEP_LIMITS[0], 1), after(STEP_LIMITS[1], -1), 1.0, large];
            ([0; 3].map(|_| rng.pick(&origins)), [0; 3].map(|_| rng.pick(&steps)))
        }
    }
}

fn plain(rng: &mut Rng, sides: [usize; 3]) -> Input {
    with_field(rng, sides, field)
}

fn with_field(rng: &mut Rng, sides: [usize; 3], field: impl FnOnce(&mut Rng, [usize; 3]) -> Vec<f64>) -> Input {
    let (origin, step) = frame(rng);
    let method = u32::from(!rng.one_in(6));
    let rounds = if rng.one_in(3) { rng.below(5) as u32 } else { 4 };
    Input { sides, method, rounds, inside: None, origin, step, samples: field(rng, sides) }
}

/// A file that is of the form and refused with 1, 2 or 4.
fn refused(rng: &mut Rng) -> Input {
    let sides = common_size(rng);
    let mut input = plain(rng, sides);
    for _ in 0..1 + rng.below(2) {
        match rng.below(7) {
            0 => input.method = rng.pick(&[2, 3, 9, 10, 255, 256, 999_999_999]),
            1 => input.rounds = rng.pick(&[5, 6, 10, 255, 256, 999_999_999]),
            2 => {
                let long = 33 + rng.below(MOST_SITES as usize - 32);
                let other = 1 + rng.below(MOST_SITES as usize / long);
                let third = 1 + rng.below(MOST_SITES as usize / (long * other));
                let mut sides = [long, other, third];
                sides.rotate_left(rng.below(3));
                input.sides = sides;
                input.samples = (0..sides.iter().product()).map(|_| signed(rng, 2)).collect();
            }
            _ => {
                let axis = rng.below(3);
                if rng.one_in(2) {
                    input.origin[axis] = rng.pick(&[after(1e9, 1), after(-1e9, 1), f64::NAN, f64::INFINITY, f64::NEG_INFINITY, 1e10, -1e300]);
                } else {
                    input.step[axis] = rng.pick(&[after(0.001, -1), after(1e6, 1), f64::NAN, f64::INFINITY, 0.0, -0.0, -1.0, 5e-324, 1e300]);
                }
            }
        }
    }
    input
}

fn joined(lines: &[String]) -> Vec<u8> {
    lines.iter().flat_map(|l| format!("{l}\n").into_bytes()).collect()
}

/// The number of ways in which `malformed` breaks a file.
pub const BREAKS: usize = 26;

/// A file that is not of the form (or, for the last few ways, may still be).
pub fn malformed(rng: &mut Rng, way: usize) -> Vec<u8> {
    let sides = if rng.one_in(4) { [1; 3] } else { [0; 3].map(|_| 1 + rng.below(3)) };
    let mut input = plain(rng, sides);
    let mut lines: Vec<String> = file_text(&input).lines().map(String::from).collect();
    let decimal = rng.below(5);
    let float = 5 + rng.below(lines.len() - 5);
    let any = rng.below(lines.len());
    let set = |lines: &mut Vec<String>, i: usize, value: &str| {
        let key = lines[i].split('=').next().unwrap().to_string();
        lines[i] = format!("{key}={value}");
    };
    match way {
        0 => {
            let mut bytes = joined(&lines);
            bytes.pop();
            return bytes;
        }
        1 => {
            let next = lines.remove((any + 1) % lines.len());
            let any = any.min(lines.len() - 1);
            lines[any] += &next;
        }
        2 => {
            let key = lines[decimal].split('=').next().unwrap().to_string();
            let value = lines[decimal].split('=').nth(1).unwrap().to_string();
            lines[decimal] = format!("{key}={}{value}", rng.pick(&["0", "00", "0000000"]));
        }
        3 => set(&mut lines, float, rng.pick(&["3FF0000000000000", "3ff000000000000A", "BFF0000000000000", "0x3ff00000000000", "3ff000000000000g", "3ff000000000000 "])),
        4 => {
            let other = (any + 1 + rng.below(lines.len() - 1)) % lines.len();
            let (low, high) = (any.min(other), any.max(other));
            if high > 10 && low > 10 {
                lines.swap(10, high);
            } else {
                lines.swap(low, high);
            }
        }
        5 => {
            let mut bytes = joined(&lines);
            bytes.extend_from_slice(rng.pick(&[&b"\n"[..], b" ", b"\0", b"s=", b"end\n", b"\x1a", b"twice=1\n", b"\r\n"]));
            return bytes;
        }
        6 => set(&mut lines, decimal, rng.pick(&["1000000000", "4294967296", "4294967297", "18446744073709551617", "9999999999", "0000000001"])),
        7 => return Vec::new(),
        8 => lines.push("s=3ff0000000000000".into()),
        9 => {
            lines.pop();
        }
        10 => set(&mut lines, rng.below(3), "0"),
        11 => {
            input.sides = rng.pick(&[[6, 6, 7], [217, 1, 1], [1, 217, 1], [1, 1, 217], [31, 7, 1], [2, 109, 1], [8, 7, 4], [33, 1, 7]]);
            input.samples = (0..input.sides.iter().product()).map(|_| signed(rng, 2)).collect();
            return file_text(&input).into_bytes();
        }
        12 => {
            for side in 0..3 {
                set(&mut lines, side, rng.pick(&["999999999", "65536", "4294967", "1", "65536", "2147483"]));
            }
            set(&mut lines, rng.below(3), "999999999");
        }
        13 => return lines.iter().flat_map(|l| format!("{l}\r\n").into_bytes()).collect(),
        14 => {
            let short = rng.one_in(2);
            if short {
                lines[float].pop();
            } else {
                lines[float].push('0');
            }
        }
        15 => set(&mut lines, decimal, rng.pick(&["", "+1", "-1", " 1", "1 ", "a", "1e0", "1.0", "0x1", "-0", "1_0"])),
        16 => set(&mut lines, float, rng.pick(&["", "1.0", "-", "nan"])),
        17 => {
            lines.remove(any);
        }
        18 => {
            let again = lines[any].clone();
            lines.insert(any, again);
            if any > 10 {
                lines.insert(1, String::new());
            }
        }
        19 => lines[any] = lines[any].to_uppercase().replace("=", rng.pick(&["=", " =", "= ", ":", "=="])),
        20 => {
            let first = rng.pick(&[&b"\n"[..], b" ", b"\xef\xbb\xbf", b"\0", b"# a\n"]);
            return [first, &joined(&lines)[..]].concat();
        }
        21 => lines[5 + rng.below(6)] = rng.pick(&["origin3=0000000000000000", "origin=0000000000000000", "step3=3ff0000000000000", "step=3ff0000000000000", "s=3ff0000000000000", "inside=3e112e0be826d695"]).into(),
        22 => {
            let bytes = joined(&lines);
            let keep = rng.below(bytes.len());
            return bytes[..keep].to_vec();
        }
        23 => {
            let mut bytes = joined(&lines);
            let place = rng.below(bytes.len());
            bytes[place] = rng.next() as u8;
            return bytes;
        }
        24 => {
            let mut bytes = joined(&lines);
            let place = rng.below(bytes.len());
            if rng.one_in(2) {
                bytes.remove(place);
            } else {
                bytes.insert(place, rng.pick(b"0159af=\n \0\xff"));
            }
            return bytes;
        }
        _ => return (0..rng.below(400)).map(|_| if rng.one_in(2) { rng.next() as u8 } else { rng.pick(b"nuvws=0123456789abcdef\n") }).collect(),
    }
    joined(&lines)
}

/// A threshold that is taken: one of eight, or any from 0 to 1.
fn taken(rng: &mut Rng) -> f64 {
    match rng.below(10) {
        k @ 0..=7 => NAMED[k],
        _ => f64::from_bits(rng.next() % (1f64.to_bits() + 1)),
    }
}

const NAMED: [f64; 8] = [0.0, -0.0, LEAST, 1e-300, 1e-12, BASE, 0.25, 1.0];

/// A threshold that is taken, negated; -0.0 of both zeros, so that the next f64 further from zero is below it.
fn edge_of(h: f64) -> f64 {
    -h.abs()
}

/// A threshold that is refused with 14.
fn not_taken(rng: &mut Rng) -> f64 {
    let nan = f64::from_bits(0x7ff0_0000_0000_0001 + rng.next() % 0xf_ffff_ffff_ffff | rng.next() & SIGN);
    let below = -f64::from_bits(1 + rng.next() % f64::MAX.to_bits());
    let above = f64::from_bits(1f64.to_bits() + 1 + rng.next() % (f64::MAX.to_bits() - 1f64.to_bits()));
    rng.pick(&[nan, nan, f64::NAN, -LEAST, -BASE, -1.0, below, after(1.0, 1), 2.0, above, f64::INFINITY, f64::NEG_INFINITY])
}

/// The number of ways in which `misplaced` breaks a file.
pub const LINE_BREAKS: usize = 18;

/// A file that is not of the form at the line `inside=` (or, for the last way, may still be).
pub fn misplaced(rng: &mut Rng, way: usize) -> Vec<u8> {
    let sides = if rng.one_in(4) { [1; 3] } else { [0; 3].map(|_| 1 + rng.below(3)) };
    let h = taken(rng);
    let mut input = with_field(rng, sides, |rng, sides| threshold_field(rng, sides, edge_of(h)));
    input.inside = Some(if rng.one_in(3) { not_taken(rng) } else { h });
    let mut lines: Vec<String> = file_text(&input).lines().map(String::from).collect();
    let value = lines[AT][7..].to_string();
    let line = |value: &str| format!("inside={value}");
    match way {
        0 | 1 => {
            // Anywhere else.
            let line = lines.remove(AT);
            let place = (AT + 1 + rng.below(lines.len())) % (lines.len() + 1);
            lines.insert(place, line);
        }
        2 => lines.swap(AT - 1, AT),
        3 => lines.swap(AT, AT + 1),
        4 | 5 => {
            let again = if way == 4 { lines[AT].clone() } else { line(&format!("{:016x}", taken(rng).to_bits())) };
            let place = rng.pick(&[AT + 1, AT + 1, AT + 2, AT + 4, AT + 7, lines.len()]);
            lines.insert(place, again);
        }
        6 => lines[AT] = line(rng.pick(&["3E112E0BE826D695", "3e112e0be826d69A", "3Fd0000000000000", "3FF0000000000000", "7FF8000000000000"])),
        7 => lines[AT] = line(&value[..15]),
        8 => lines[AT] = line(&(value + rng.pick(&["0", "f", "g", " "]))),
        9 => {
            let next = lines.remove(AT + 1);
            lines[AT] += &next;
        }
        10 => lines[AT] = line(rng.pick(&["", "0", "1", "0.25", "1.0e-9", "1e-9", "-", "nan", "0x3e112e0be826d6", "000000000000000g", "`000000000000000", "-000000000000000"])),
        11 => lines[AT] = rng.pick(&["Inside=", "INSIDE=", "insid=", "insides=", "inside0=", "nside=", "outside=", " inside=", "inside =", "inside= ", "inside:", "inside==", "eps=", "="]).to_string() + &value,
        12 => lines[AT] = rng.pick(&["inside", ""]).to_string() + &value,
        13 => lines[AT] = rng.pick(&["", "inside", "inside="]).to_string(),
        14 => {
            lines[AT] += rng.pick(&["\r", " ", "\t", "\0"]);
        }
        15 => {
            // In the place of another line.
            let line = lines.remove(AT);
            let place = rng.below(lines.len());
            lines[place] = line;
        }
        16 => {
            let bytes = joined(&lines[..=AT]);
            let keep = bytes.len() - rng.below(lines[AT].len() + 2);
            return bytes[..keep].to_vec();
        }
        _ => {
            let mut bytes = joined(&lines);
            let place = joined(&lines[..AT]).len() + rng.below(lines[AT].len() + 1);
            match rng.below(3) {
                0 => bytes[place] = rng.next() as u8,
                1 => bytes[place] = rng.pick(b"0189afg=\ni"),
                _ => bytes.insert(place, rng.pick(b"09af=\n \0\xff")),
            }
            return bytes;
        }
    }
    joined(&lines)
}

/// The place of the line `inside=` among the lines, from 0.
const AT: usize = 5;

/// A kept file at this threshold. Its samples are doubled or halved as often as is drawn, so that fractions stay what they are, but none comes to lie
/// between the threshold and zero; of those outside, a few may then be put there.
fn kept_at(rng: &mut Rng, kept: &Input, h: f64) -> Input {
    let least = kept.samples.iter().map(|x| x.abs()).filter(|&x| x > 0.0).fold(1.0, f64::min);
    let times = |x: f64, k: i32| x * 2f64.powi(k / 2) * 2f64.powi(k - k / 2);
    let most = 4 + rng.below(40) as i32;
    let lowest = (-1073..most).find(|&k| times(least, k) > h).unwrap_or(most);
    let k = if rng.one_in(2) { lowest } else { rng.pick(&[lowest + 1, -1000, -110, -40, 0, most]).max(lowest) };
    let between = if rng.one_in(2) { 2 + rng.below(12) } else { usize::MAX };
    let (samples, edge) = (kept.samples.iter().map(|&x| times(x, k)), edge_of(h));
    let samples = samples.map(|x| if x >= edge && rng.one_in(between) { edge * rng.float(0.0, 1.0) } else { x }).collect();
    Input { inside: Some(h), samples, ..kept.clone() }
}

/// The file of this seed and number with a line `inside=`, or now and then without it. Every eighth goes through all sizes in turn.
pub fn threshold_file(seed: u64, index: u64, kept: &[Input]) -> Vec<u8> {
    let mut rng = drawn(seed, index);
    let sides = match index % 8 {
        0 => {
            let sizes = all_sizes();
            sizes[(index / 8 * STRIDE % sizes.len() as u64) as usize]
        }
        _ => common_size(&mut rng),
    };
    let h = taken(&mut rng);
    let built = |rng: &mut Rng, edge: f64| with_field(rng, sides, |rng, sides| threshold_field(rng, sides, edge));
    let edge = edge_of(h);
    let input = match rng.below(60) {
        0..=2 => return misplaced(&mut rng, (index / 8) as usize % LINE_BREAKS),
        // Refused for the threshold alone; for something else too; for something else alone.
        3 | 4 => Input { inside: Some(not_taken(&mut rng)), ..built(&mut rng, edge) },
        5..=7 => Input { inside: Some(not_taken(&mut rng)), ..refused(&mut rng) },
        8 => Input { inside: Some(h), ..refused(&mut rng) },
        // No line.
        9..=11 => built(&mut rng, edge),
        12 | 13 => built(&mut rng, EDGE),
        // Samples that are meant for the threshold of a file without the line.
        14 | 15 => Input { inside: Some(h), ..built(&mut rng, EDGE) },
        16..=27 if !kept.is_empty() => {
            let which = rng.below(kept.len());
            let input = kept_at(&mut rng, &kept[which], h);
            changed(&mut rng, input, |rng| {
                let inside = rng.one_in(2);
                if rng.one_in(5) { special_at(rng, edge) } else { on_side(rng, edge, inside) }
            })
        }
        _ => Input { inside: Some(h), ..built(&mut rng, edge) },
    };
    file_text(&input).into_bytes()
}

/// The kept files of a folder, in the order of their names, those of the form.
pub fn kept(folder: Option<&str>) -> Vec<Input> {
    let Some(folder) = folder else {
        return Vec::new();
    };
    let entries = std::fs::read_dir(folder).unwrap_or_else(|why| panic!("{folder}: {why}"));
    let mut names: Vec<_> = entries.map(|e| e.unwrap().path()).filter(|p| p.extension().is_some_and(|e| e == "count")).collect();
    names.sort();
    names.iter().filter_map(|p| read(&std::fs::read(p).unwrap())).collect()
}

/// From one size to the next; no common divisor with the number of sizes.
const STRIDE: u64 = 1597;

fn drawn(seed: u64, index: u64) -> Rng {
    let mut rng = Rng(seed.wrapping_mul(0x2545f4914f6cdd1d) ^ index.wrapping_mul(0xd1342543de82ef95));
    rng.next();
    rng
}

/// A kept file with a few samples changed, another method, R or frame.
fn changed(rng: &mut Rng, mut input: Input, sample: impl Fn(&mut Rng) -> f64) -> Input {
    for _ in 0..rng.below(4) {
        let site = rng.below(input.samples.len());
        input.samples[site] = sample(rng);
    }
    if rng.one_in(3) {
        (input.origin, input.step) = frame(rng);
    }
    if rng.one_in(4) {
        input.rounds = rng.below(5) as u32;
    }
    if rng.one_in(10) {
        input.method = 0;
    }
    input
}

/// The file of this seed and number with samples near the threshold.
pub fn near_file(seed: u64, index: u64) -> Vec<u8> {
    let mut rng = drawn(seed, index);
    let sides = common_size(&mut rng);
    file_text(&with_field(&mut rng, sides, |rng, sides| near_field(rng, sides, EDGE))).into_bytes()
}

/// The file of this seed and number. Every fourth goes through all sizes in turn.
pub fn file(seed: u64, index: u64, kept: &[Input]) -> Vec<u8> {
    let mut rng = drawn(seed, index);
    if index % 4 == 0 {
        let sizes = all_sizes();
        let sides = sizes[(index / 4 * STRIDE % sizes.len() as u64) as usize];
        return file_text(&plain(&mut rng, sides)).into_bytes();
    }
    match rng.below(20) {
        0 => malformed(&mut rng, (index / 4) as usize % BREAKS),
        1 => file_text(&refused(&mut rng)).into_bytes(),
        2..=5 if !kept.is_empty() => {
            let input = kept[rng.below(kept.len())].clone();
            let input = changed(&mut rng, input, |rng| if rng.one_in(5) { special(rng) } else { signed(rng, 2) });
            file_text(&input).into_bytes()
        }
        _ => {
            let sides = common_size(&mut rng);
            file_text(&plain(&mut rng, sides)).into_bytes()
        }
    }
}

/// How often each thing occurs in the first `count` files.
pub fn coverage(count: u64, file: impl Fn(u64) -> Vec<u8>) {
    let mut status = [0usize; 15];
    let names = ["closed", "multihole", "flathole", "multisurface", "simple"];
    let (mut files_with, mut sites_with) = ([0usize; 5], [0usize; 5]);
    let (mut method0, mut split_files, mut splits, mut rounds) = (0, 0, 0, [0usize; 5]);
    let (mut with_triangles, mut triangles, mut vertices, mut crossed) = (0, 0, 0, 0);
    let (mut over_e, mut not_finite, mut one_sided, mut bytes_in) = (0, 0, 0, 0);
    let mut sizes = std::collections::HashSet::new();
    // For each of the eight thresholds, for all others, and for none given: files, those with triangles, with a split, with a round, and with a border on one side.
    let mut thresholds = [[0usize; 5]; NAMED.len() + 2];
    for index in 0..count {
        let bytes = file(index);
        bytes_in += bytes.len();
        let (s, done) = run(&bytes, false, false);
        status[s as usize] += 1;
        if let Some(input) = read(&bytes) {
            sizes.insert(input.sides);
        }
        let Some((input, answer)) = done else {
            continue;
        };
        method0 += usize::from(input.method == 0);
        for c in 0..5 {
            files_with[c] += usize::from(answer.cases[c] > 0);
            sites_with[c] += answer.cases[c];
        }
        split_files += usize::from(!answer.split.is_empty());
        splits += answer.split.len();
        rounds[answer.owners.len()] += 1;
        with_triangles += usize::from(!answer.triangles.is_empty());
        triangles += answer.triangles.len() / 3;
        vertices += answer.book.len();
        crossed += answer.crossed;
        over_e += usize::from(answer.book.len() > answer.crossed);
        not_finite += usize::from(!input.samples.iter().all(|x| x.is_finite()));
        let closed = answer.crossed > 0 && crate::countfile::one_sided(&input);
        one_sided += usize::from(closed);
        let place = |h: f64| NAMED.iter().position(|x| x.to_bits() == h.to_bits()).unwrap_or(NAMED.len());
        let row = &mut thresholds[input.inside.map_or(NAMED.len() + 1, place)];
        for (n, seen) in row.iter_mut().zip([true, !answer.triangles.is_empty(), !answer.split.is_empty(), !answer.owners.is_empty(), closed]) {
            *n += usize::from(seen);
        }
    }
    println!("files {count} bytes {bytes_in} sizes {} of {}", sizes.len(), all_sizes().len());
    for (s, n) in status.iter().enumerate().filter(|(_, n)| **n > 0) {
        println!("status {s} files {n}");
    }
    println!("method0 files {method0}");
    for c in 0..5 {
        println!("{} files {} sites {}", names[c], files_with[c], sites_with[c]);
    }
    println!("split files {split_files} clusters {splits}");
    for (r, n) in rounds.iter().enumerate() {
        println!("rounds {r} files {n}");
    }
    println!("triangles files {with_triangles} total {triangles}");
    println!("crossed {crossed} vertices {vertices} more-vertices-than-crossed files {over_e}");
    println!("not-finite files {not_finite} one-sided-border files {one_sided}");
    if thresholds[..=NAMED.len()].iter().all(|row| row[0] == 0) {
        return;
    }
    let names = NAMED.iter().map(|h| format!("{:016x}", h.to_bits())).chain(["other".to_string(), "none".to_string()]);
    for (name, [files, triangles, split, rounds, closed]) in names.zip(thresholds) {
        println!("inside {name} files {files} triangles {triangles} split {split} rounds {rounds} one-sided-border {closed}");
    }
}
