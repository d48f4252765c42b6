// The count file (docs/SCOPE.md, S10): read, refuse, answer, print; and the dump of FORMAT.md. All ours.

use crate::isosurface::{build, Answer, Input};
use crate::{ply, threshold};
use std::fmt::Write;

/// The most sites a count file may have.
pub const MOST_SITES: u128 = 216;

struct Lines<'a> {
    rest: &'a [u8],
}

impl<'a> Lines<'a> {
    /// The value of the next line, which must be `key`, a value without LF, and LF.
    fn value(&mut self, key: &str) -> Option<&'a [u8]> {
        let rest = self.rest.strip_prefix(key.as_bytes())?.strip_prefix(b"=")?;
        let end = rest.iter().position(|&b| b == b'\n')?;
        self.rest = &rest[end + 1..];
        Some(&rest[..end])
    }

    fn decimal(&mut self, key: &str) -> Option<u32> {
        let digits = self.value(key)?;
        let form = (1..=9).contains(&digits.len()) && digits.iter().all(u8::is_ascii_digit) && (digits.len() == 1 || digits[0] != b'0');
        form.then(|| digits.iter().fold(0u32, |n, &d| n * 10 + u32::from(d - b'0')))
    }

    fn float(&mut self, key: &str) -> Option<f64> {
        float_of(self.value(key)?)
    }
}

/// A float given by its bits: 16 lower-case hex digits.
pub fn float_of(digits: &[u8]) -> Option<f64> {
    if digits.len() != 16 {
        return None;
    }
    let mut bits = 0u64;
    for &d in digits {
        let digit = match d {
            b'0'..=b'9' => d - b'0',
            b'a'..=b'f' => d - b'a' + 10,
            _ => return None,
        };
        bits = bits << 4 | u64::from(digit);
    }
    Some(f64::from_bits(bits))
}

/// Reads a file of the form; None is status 8.
pub fn read(bytes: &[u8]) -> Option<Input> {
    let mut lines = Lines { rest: bytes };
    let sides = [lines.decimal("nu")?, lines.decimal("nv")?, lines.decimal("nw")?];
    let method = lines.decimal("method")?;
    let rounds = lines.decimal("rounds")?;
    let inside = if lines.rest.starts_with(b"inside=") { Some(lines.float("inside")?) } else { None };
    let mut origin = [0.0; 3];
    let mut step = [0.0; 3];
    for (axis, value) in origin.iter_mut().enumerate() {
        *value = lines.float(&format!("origin{axis}"))?;
    }
    for (axis, value) in step.iter_mut().enumerate() {
        *value = lines.float(&format!("step{axis}"))?;
    }
    let sites: u128 = sides.iter().map(|&n| u128::from(n)).product();
    if sites < 1 || sites > MOST_SITES {
        return None;
    }
    let mut samples = Vec::new();
    for _ in 0..sites {
        samples.push(lines.float("s")?);
    }
    if !lines.rest.is_empty() {
        return None;
    }
    Some(Input { sides: sides.map(|n| n as usize), method, rounds, inside, origin, step, samples })
}

/// The status of a file that is of the form: 0, 1, 2, 4 or 14. The form excludes 3, and our room excludes 5 to 7.
pub fn status_of(input: &Input) -> u32 {
    if input.method > 1 || input.rounds > 4 {
        return 1;
    }
    if input.sides.iter().any(|n| !(1..=32).contains(n)) {
        return 2;
    }
    let origins = input.origin.iter().all(|&x| -1e9 <= x && x <= 1e9);
    let steps = input.step.iter().all(|&x| 0.001 <= x && x <= 1e6);
    if !(origins && steps) {
        return 4;
    }
    let h = input.threshold();
    if !(0.0 <= h && h <= 1.0) {
        return 14;
    }
    0
}

/// What a run of one file gives: the status, and on success input and answer.
pub fn run(bytes: &[u8], unbounded: bool, with_topology: bool) -> (u32, Option<(Input, Answer)>) {
    let Some(input) = read(bytes) else {
        return (8, None);
    };
    let status = status_of(&input);
    if status != 0 {
        return (status, None);
    }
    let rounds = if unbounded { usize::MAX } else { input.rounds as usize };
    let answer = build(&input, rounds, with_topology);
    check(&input, rounds, &answer);
    (0, Some((input, answer)))
}

/// What docs/SCOPE.md, S8 and S15 say of every answer; stops the program where it does not hold.
pub fn check(input: &Input, rounds: usize, answer: &Answer) {
    let cells: usize = input.sides.iter().map(|n| n - 1).product();
    assert!(answer.positions.len() / 3 <= 3 * answer.crossed / 2, "more than X vertices");
    assert!(answer.triangles.len() / 3 <= 12 * cells, "more than twelve triangles a cell");
    assert!(answer.book.len() == answer.positions.len() / 3);
    assert!(answer.book.iter().all(|row| row.made > 0 && (row.now == row.made || row.now == 0)), "book");
    let held: usize = answer.book.iter().map(|row| row.now).sum();
    assert!(held == answer.table.iter().flatten().count());
    let finite = input.samples.iter().all(|x| x.is_finite());
    assert!(held == answer.crossed || !finite, "a crossed edge without a vertex");
    if input.method == 0 {
        assert!(answer.cases == [0; 5] && answer.split.is_empty() && answer.owners.is_empty());
    } else {
        assert!(answer.cases.iter().sum::<usize>() == answer.masks.iter().filter(|&&m| m != 0).count());
    }
    let mut sides: Vec<(usize, usize)> = Vec::new();
    for t in answer.triangles.chunks(3) {
        sides.extend([(t[0], t[1]), (t[1], t[2]), (t[2], t[0])]);
    }
    if answer.owners.len() < rounds {
        let mut pairs: Vec<(usize, usize)> = sides.iter().map(|&(a, b)| (a.min(b), a.max(b))).collect();
        pairs.sort();
        assert!(pairs.windows(3).all(|w| w[0] != w[2]), "a bad pair left, and rounds too");
    }
    if finite && one_sided(input) {
        sides.sort();
        let mut back: Vec<(usize, usize)> = sides.iter().map(|&(a, b)| (b, a)).collect();
        back.sort();
        assert!(sides == back, "not balanced");
    }
}

/// Whether all border samples are on one side of the input's threshold.
pub fn one_sided(input: &Input) -> bool {
    threshold::set(input.threshold());
    let mut seen = [false; 2];
    for (site, &x) in input.samples.iter().enumerate() {
        if on_border(input.sides, site) {
            seen[usize::from(crate::isosurface::inside(x))] = true;
        }
    }
    !(seen[0] && seen[1])
}

pub fn on_border(sides: [usize; 3], site: usize) -> bool {
    let [nu, nv, nw] = sides;
    let at = [site % nu, site / nu % nv, site / (nu * nv)];
    (0..3).any(|axis| at[axis] == 0 || at[axis] + 1 == [nu, nv, nw][axis])
}

/// What the count program prints; with `dump` the lines of FORMAT.md after it.
pub fn answer_text(bytes: &[u8], dump: bool, unbounded: bool) -> String {
    let (status, done) = run(bytes, unbounded, dump);
    let mut out = format!("status={status}\n");
    let Some((input, answer)) = done else {
        return out;
    };
    let names = ["closed", "multihole", "flathole", "multisurface", "simple"];
    let _ = write!(out, "sites={}\ncrossed={}\n", input.samples.len(), answer.crossed);
    let _ = write!(out, "vertices={}\ntriangles={}\n", answer.positions.len() / 3, answer.triangles.len() / 3);
    for (name, count) in names.iter().zip(answer.cases) {
        let _ = writeln!(out, "{name}={count}");
    }
    let _ = write!(out, "split={}\nrounds={}\n", answer.split.len(), answer.owners.len());
    if dump {
        dump_to(&mut out, &answer);
    }
    out
}

/// The PLY file of the mesh, or the line `status=` where the count program would refuse.
pub fn answer_ply(bytes: &[u8], unbounded: bool) -> Vec<u8> {
    match run(bytes, unbounded, false) {
        (_, Some((_, answer))) => ply::file(&answer.positions, &answer.triangles),
        (status, None) => format!("status={status}\n").into_bytes(),
    }
}

fn dump_to(out: &mut String, answer: &Answer) {
    for (site, mask) in answer.masks.iter().enumerate().filter(|(_, &m)| m != 0) {
        let _ = writeln!(out, "mask {site} {mask:04x}");
    }
    for (site, (case, clusters)) in answer.topology.iter().enumerate().filter(|(s, _)| answer.masks[*s] != 0) {
        let _ = writeln!(out, "topology {site} {}", topology_text(*case, clusters));
    }
    for (site, cases) in answer.tets.iter().enumerate().filter(|(_, c)| **c != [0; 6]) {
        let [a, b, c, d, e, f] = cases;
        let _ = writeln!(out, "tets {site} {a} {b} {c} {d} {e} {f}");
    }
    let _ = writeln!(out, "split {}{}", answer.split.len(), listed(&answer.split));
    for (before, sites) in answer.owners.iter().enumerate() {
        let _ = writeln!(out, "owners {}{}", before + 1, listed(sites));
    }
    for (place, vertex) in answer.table.iter().enumerate() {
        if let Some(vertex) = vertex {
            let _ = writeln!(out, "edge {} {} {vertex}", place / 7, place % 7);
        }
    }
    for (vertex, p) in answer.positions.chunks(3).enumerate() {
        let _ = writeln!(out, "position {vertex} {} {} {}", float_text(p[0]), float_text(p[1]), float_text(p[2]));
    }
    for (vertex, row) in answer.book.iter().enumerate() {
        let _ = writeln!(out, "book {vertex} {} {} {} {}", row.site, row.now, row.made, row.round);
    }
    for t in answer.triangles.chunks(3) {
        let _ = writeln!(out, "triangle {} {} {}", t[0], t[1], t[2]);
    }
}

fn listed(numbers: &[usize]) -> String {
    numbers.iter().map(|n| format!(" {n}")).collect()
}

/// `CASE K HEX4...`
pub fn topology_text(case: usize, clusters: &[u16]) -> String {
    let masks: String = clusters.iter().map(|m| format!(" {m:04x}")).collect();
    format!("{case} {}{masks}", clusters.len())
}

/// The bits of a float; every NaN as the same one.
pub fn float_bits(x: f64) -> u64 {
    if x.is_nan() {
        return 0x7ff8000000000000;
    }
    x.to_bits()
}

/// Their 16 hex digits.
pub fn float_text(x: f64) -> String {
    format!("{:016x}", float_bits(x))
}

/// A count file of the form.
pub fn file_text(input: &Input) -> String {
    let mut out = String::with_capacity(220 + 19 * input.samples.len());
    let [nu, nv, nw] = input.sides;
    let _ = write!(out, "nu={nu}\nnv={nv}\nnw={nw}\nmethod={}\nrounds={}\n", input.method, input.rounds);
    if let Some(h) = input.inside {
        let _ = writeln!(out, "inside={:016x}", h.to_bits());
    }
    for (axis, x) in input.origin.iter().enumerate() {
        let _ = writeln!(out, "origin{axis}={:016x}", x.to_bits());
    }
    for (axis, x) in input.step.iter().enumerate() {
        let _ = writeln!(out, "step{axis}={:016x}", x.to_bits());
    }
    for x in &input.samples {
        let _ = writeln!(out, "s={:016x}", x.to_bits());
    }
    out
}
