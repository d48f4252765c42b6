// Larger boxes, of 217 to 32,768 sites, through the linked library and through the oracle's Rust in one process: every entry of every list is compared.
//
// Usage:  tests/run large [--from K] [--seconds S] N [SEED]
//         tests/run large --selftest
//
// Boxes number K to K + N - 1 of the seed (K is 0 and SEED is 1 if not given; with --seconds no box is begun after S seconds). A box is made from the seed and
// its number alone. Every third, from number 0 on, goes through all 30,206 sizes of 217 to 32,768 sites with sides of at most 32 in turn, 32 x 32 x 32 first; the
// others have at most 2,000 sites, but for some that are refused. Samples: the kinds of tools/oracle/generate.rs, and below those that suit larger boxes. Lent
// lists: exactly as long as is asked for, or longer by a drawn length, every entry drawn, among the vertices' many NaNs of any sign and payload. The coordinates
// are words here, lent to the library as doubles, so that nothing but bits is ever compared.
//
// Every second box has the threshold 1.0e-9. The others have one of those in `THRESHOLDS`, and most of them other samples: moved to the threshold, made for it, or
// some of them at it, next to it, and between it and 0. All of this is drawn by a generator of its own, so that a box with the threshold 1.0e-9 is what it would be
// without thresholds.
//
// One box in ten is given something to refuse: settings, sides, a sample list of another length, a frame just out of its range or NaN, lists that are one entry
// short or more, and sometimes two of these at once; every second of these, and a few boxes beside, a threshold that is refused. The status then has to be the
// number of the first test of docs/SCOPE.md, S9.2 that fails, in the order 1, 2, 3, 4, 14, 5, 6, 7 (`status_of` below, written from the table), all counts 0, and
// every entry of every list what it was.
//
// Otherwise the status has to be 0, and the ten counts and every entry of the six lists what the oracle says: masks, edge table (0xFFFFFFFF where there is no
// vertex), positions by their bits, book, triangles, zeros over the edge list; behind the used part what was lent. Clusters split and sites rolled back are
// in this: their numbers are counts, a split is seen in book and table, and a round's sites, as the oracle notes them, are held against the book as well.
// The samples have to be what they were. The oracle's answer is also put to its own checks (countfile.rs).
//
// What was seen is printed at the end. Exit status 0 if all were equal, else 1, and then the smallest box that was not, with the words that make it again.
// --selftest gives wrong answers to the comparison; each has to be found.

#![allow(dead_code)]

#[path = "../tools/oracle/countfile.rs"]
mod countfile;
#[path = "../tools/oracle/generate.rs"]
mod generate;
#[path = "../tools/oracle/isosurface.rs"]
mod isosurface;
#[path = "../tools/oracle/ply.rs"]
mod ply;
#[path = "../tools/oracle/threshold.rs"]
mod threshold;

include!(concat!(env!("ORACLE_MADE"), "/modules.rs"));

use generate::{after, special, Rng, EDGE};
use isosurface::{Answer, Input};
use std::collections::HashSet;
use std::time::Instant;

extern "C" {
    fn spoonthicket_build(
        nu: usize, nv: usize, nw: usize, method: usize, rounds: usize, inside: f64, frame: *const [f64; 6],
        samples: *const f64, samples_len: usize, masks: *mut u16, masks_len: usize, table: *mut u32, table_len: usize,
        vertices: *mut f64, vertices_len: usize, book: *mut u32, book_len: usize, triangles: *mut u32, triangles_len: usize,
        edges: *mut u32, edges_len: usize, counts: *mut [usize; 10],
    ) -> usize;
}

/// An entry of the edge table without a vertex.
const NONE: u32 = 0xFFFF_FFFF;

/// The thresholds of the boxes; every second box has the first, which is that of files that give none.
const THRESHOLDS: [f64; 8] = [threshold::BASE, 0.0, -0.0, 5e-324, 1e-300, 1e-12, 0.25, 1.0];

/// The files whose samples are put into larger boxes.
const KEPT: &str = "tools/oracle/rare";

// ---- a box: what is asked for, and what is lent

/// What a build is asked for, which may be anything.
#[derive(Clone)]
struct Asked {
    sides: [usize; 3],
    method: usize,
    rounds: usize,
    /// The threshold.
    inside: f64,
    origin: [f64; 3],
    step: [f64; 3],
    /// The samples' bits.
    samples: Vec<u64>,
}

/// The six lists; of the vertices the bits.
#[derive(Clone, PartialEq)]
struct Lists {
    masks: Vec<u16>,
    table: Vec<u32>,
    vertices: Vec<u64>,
    book: Vec<u32>,
    triangles: Vec<u32>,
    edges: Vec<u32>,
}

const NAMES: [&str; 6] = ["masks", "table", "vertices", "book", "triangles", "edges"];

impl Lists {
    fn lengths(&self) -> [usize; 6] {
        [self.masks.len(), self.table.len(), self.vertices.len(), self.book.len(), self.triangles.len(), self.edges.len()]
    }

    /// Entry `at` of a list, as a number.
    fn entry(&self, list: usize, at: usize) -> u64 {
        match list {
            0 => self.masks[at].into(),
            1 => self.table[at].into(),
            2 => self.vertices[at],
            3 => self.book[at].into(),
            4 => self.triangles[at].into(),
            _ => self.edges[at].into(),
        }
    }

    /// Changes bits of entry `at` of a list; bits that the entry has not are left out.
    fn change(&mut self, list: usize, at: usize, bits: u64) {
        match list {
            0 => self.masks[at] ^= bits as u16,
            1 => self.table[at] ^= bits as u32,
            2 => self.vertices[at] ^= bits,
            3 => self.book[at] ^= bits as u32,
            4 => self.triangles[at] ^= bits as u32,
            _ => self.edges[at] ^= bits as u32,
        }
    }
}

/// What a build gave.
#[derive(Clone)]
struct Given {
    status: usize,
    counts: [usize; 10],
    lists: Lists,
    /// The bits of the samples that were lent, afterwards.
    samples: Vec<u64>,
}

struct Case {
    asked: Asked,
    lent: Lists,
    /// What stands in the ten counts beforehand.
    counts: [usize; 10],
}

/// What docs/SCOPE.md says that a build gives.
struct Wanted {
    status: usize,
    counts: [usize; 10],
    lists: Lists,
    /// How much of each list is used.
    used: [usize; 6],
}

// ---- the table of refusals

/// The crossed edges (docs/SCOPE.md, S3.3) for which this holds of their two samples, counted over the box: seven owned edges a site.
fn crossed_where(sides: [usize; 3], h: f64, samples: &[u64], holds: impl Fn(f64, f64) -> bool) -> usize {
    let [nu, nv, nw] = sides;
    let samples: Vec<f64> = samples.iter().map(|&x| f64::from_bits(x)).collect();
    let mut n = 0;
    for w in 0..nw {
        for v in 0..nv {
            for u in 0..nu {
                for c in 1..8 {
                    let (x, y, z) = (u + c % 2, v + c / 2 % 2, w + c / 4);
                    if x < nu && y < nv && z < nw {
                        let (a, b) = (samples[u + nu * (v + nv * w)], samples[x + nu * (y + nv * z)]);
                        n += usize::from((a < -h) != (b < -h) && holds(a, b));
                    }
                }
            }
        }
    }
    n
}

fn crossed(sides: [usize; 3], h: f64, samples: &[u64]) -> usize {
    crossed_where(sides, h, samples, |_, _| true)
}

/// How long each list has to be, for sides and a threshold that are accepted and samples that fit the sides.
fn lengths_asked(sides: [usize; 3], h: f64, samples: &[u64]) -> [usize; 6] {
    let sites: usize = sides.iter().product();
    let cells: usize = sides.iter().map(|n| n - 1).product();
    let most = 3 * crossed(sides, h, samples) / 2;
    [sites, 7 * sites, 3 * most, 4 * most, 36 * cells, 108 * cells]
}

/// The status by the table of docs/SCOPE.md, S9.2, its tests in their order.
fn status_of(a: &Asked, lengths: [usize; 6]) -> usize {
    if !(a.method == 0 || a.method == 1) || a.rounds > 4 {
        return 1;
    }
    if a.sides.iter().any(|&n| n < 1 || n > 32) {
        return 2;
    }
    if a.samples.len() != a.sides[0] * a.sides[1] * a.sides[2] {
        return 3;
    }
    let origins = a.origin.iter().all(|x| (-1e9..=1e9).contains(x));
    let steps = a.step.iter().all(|x| (0.001..=1e6).contains(x));
    if !origins || !steps {
        return 4;
    }
    if a.inside.is_nan() || a.inside < 0.0 || a.inside > 1.0 {
        return 14;
    }
    let asked = lengths_asked(a.sides, a.inside, &a.samples);
    (0..6).find(|&list| lengths[list] < asked[list]).map_or(0, |list| [5, 5, 6, 6, 7, 7][list])
}

// ---- the two sides

fn built(case: &Case) -> Given {
    let a = &case.asked;
    let (mut b, mut counts, samples) = (case.lent.clone(), case.counts, a.samples.clone());
    let [x, y, z] = a.origin;
    let [dx, dy, dz] = a.step;
    let [nu, nv, nw] = a.sides;
    // Each list is a Vec with its own length, none overlaps another; a word has the size and the alignment of a double.
    let status = unsafe {
        spoonthicket_build(
            nu, nv, nw, a.method, a.rounds, a.inside, &[x, y, z, dx, dy, dz], samples.as_ptr() as *const f64, samples.len(),
            b.masks.as_mut_ptr(), b.masks.len(), b.table.as_mut_ptr(), b.table.len(), b.vertices.as_mut_ptr() as *mut f64,
            b.vertices.len(), b.book.as_mut_ptr(), b.book.len(), b.triangles.as_mut_ptr(), b.triangles.len(), b.edges.as_mut_ptr(),
            b.edges.len(), &mut counts,
        )
    };
    Given { status, counts, lists: b, samples }
}

/// The oracle's answer over the lent lists, once it has passed the oracle's own checks.
fn done_over(case: &Case) -> (Wanted, Answer) {
    let a = &case.asked;
    let samples = a.samples.iter().map(|&x| f64::from_bits(x)).collect();
    let (method, rounds, inside) = (a.method as u32, a.rounds as u32, Some(a.inside));
    let input = Input { sides: a.sides, method, rounds, inside, origin: a.origin, step: a.step, samples };
    let answer = isosurface::build(&input, a.rounds, false);
    countfile::check(&input, a.rounds, &answer);
    assert!(answer.crossed == crossed(a.sides, a.inside, &a.samples), "crossed edges counted otherwise");
    assert!(answer.positions.iter().all(|x| !x.is_nan()), "a position is NaN");
    let mut rolled = vec![Vec::new(); answer.owners.len()];
    for row in answer.book.iter().filter(|row| row.round > 0) {
        if rolled[row.round - 1].last() != Some(&row.site) {
            rolled[row.round - 1].push(row.site);
        }
    }
    assert!(rolled == answer.owners, "the sites rolled back are not those of the book");

    let mut lists = case.lent.clone();
    let cells: usize = a.sides.iter().map(|n| n - 1).product();
    let (v, t) = (answer.book.len(), answer.triangles.len() / 3);
    let used = [a.samples.len(), 7 * a.samples.len(), 3 * v, 4 * v, 3 * t, 108 * cells];
    lists.masks[..used[0]].copy_from_slice(&answer.masks);
    for (place, vertex) in lists.table[..used[1]].iter_mut().zip(&answer.table) {
        *place = vertex.map_or(NONE, |v| v as u32);
    }
    for (place, x) in lists.vertices[..used[2]].iter_mut().zip(&answer.positions) {
        *place = x.to_bits();
    }
    for (row, r) in lists.book[..used[3]].chunks_mut(4).zip(&answer.book) {
        row.copy_from_slice(&[r.site as u32, r.now as u32, r.made as u32, r.round as u32]);
    }
    for (place, &v) in lists.triangles[..used[4]].iter_mut().zip(&answer.triangles) {
        *place = v as u32;
    }
    lists.edges[..used[5]].fill(0);
    let [closed, multihole, flathole, multisurface, simple] = answer.cases;
    let counts = [answer.crossed, v, t, closed, multihole, flathole, multisurface, simple, answer.split.len(), answer.owners.len()];
    (Wanted { status: 0, counts, lists, used }, answer)
}

/// What has to be given; of a build that is done the oracle's answer too. What the oracle stopped at where it did.
fn wanted(case: &Case) -> Result<(Wanted, Option<Answer>), String> {
    let status = status_of(&case.asked, case.lent.lengths());
    if status != 0 {
        return Ok((Wanted { status, counts: [0; 10], lists: case.lent.clone(), used: [0; 6] }, None));
    }
    let caught = std::panic::catch_unwind(std::panic::AssertUnwindSafe(|| done_over(case)));
    caught.map(|(w, answer)| (w, Some(answer))).map_err(|_| "the oracle stopped".to_string())
}

/// What was given is what was wanted; or the first thing that is not.
fn compare(case: &Case, w: &Wanted, g: &Given) -> Result<(), String> {
    if g.status != w.status {
        return Err(format!("status {}, expected {}", g.status, w.status));
    }
    if let Some(k) = (0..10).find(|&k| g.counts[k] != w.counts[k]) {
        return Err(format!("count {k} is {}, expected {}", g.counts[k], w.counts[k]));
    }
    if g.samples != case.asked.samples {
        return Err("the samples were changed".to_string());
    }
    if g.lists == w.lists {
        return Ok(());
    }
    for list in 0..6 {
        let (given, expected) = (g.lists.lengths()[list], w.lists.lengths()[list]);
        if given != expected {
            return Err(format!("{} has {given} entries, expected {expected}", NAMES[list]));
        }
        if let Some(at) = (0..given).find(|&at| g.lists.entry(list, at) != w.lists.entry(list, at)) {
            let part = if at < w.used[list] { "in" } else { "behind" };
            let (given, expected) = (g.lists.entry(list, at), w.lists.entry(list, at));
            return Err(format!("{} entry {at}, {part} the used part of {}, is {given:x}, expected {expected:x}", NAMES[list], w.used[list]));
        }
    }
    unreachable!()
}

// ---- sizes

/// All sides of 1 to 32 with 217 to 32,768 sites, the largest first.
fn all_sizes() -> Vec<[usize; 3]> {
    let down = || (1..=32).rev();
    let all = down().flat_map(|w| down().flat_map(move |v| down().map(move |u| [u, v, w])));
    all.filter(|s| s.iter().product::<usize>() > 216).collect()
}

/// From one size to the next: about 0.618 of their number, so that any stretch of them has sizes of all kinds, and no common divisor with it.
fn stride(sizes: usize) -> usize {
    fn divisor(a: usize, b: usize) -> usize {
        if b == 0 { a } else { divisor(b, a % b) }
    }
    (sizes * 618 / 1000..).find(|&k| divisor(k, sizes) == 1).unwrap()
}

/// Sides with at most a drawn number of sites, 245 to 2,000.
fn small_size(rng: &mut Rng) -> [usize; 3] {
    let most = 245.0 * (2000.0f64 / 245.0).powf(rng.float(0.0, 1.0));
    loop {
        let sides = [0; 3].map(|_| 1 + rng.below(32));
        if (217..=most as usize).contains(&sides.iter().product::<usize>()) {
            return sides;
        }
    }
}

// ---- samples

/// The middle of the box and half of its longest way, in the lattice's coordinates.
fn middle(at: &[[f64; 3]]) -> ([f64; 3], f64) {
    let (first, last) = (at[0], at[at.len() - 1]);
    ([0, 1, 2].map(|i| (first[i] + last[i]) / 2.0), generate::distance(first, last) / 2.0 + 1.0)
}

/// A field that is smooth over the whole box.
fn smooth(rng: &mut Rng, sides: [usize; 3]) -> Vec<f64> {
    let at = generate::positions(sides);
    let (c, r) = middle(&at);
    match rng.below(3) {
        0 => {
            let (r, sign) = (r * rng.float(0.1, 1.0), rng.pick(&[1.0, -1.0]));
            at.iter().map(|&p| sign * (generate::distance(p, c) - r)).collect()
        }
        1 => {
            // A heap on a floor.
            let (n, high, wide) = (sides[0] * sides[1], rng.float(0.2, 0.9), rng.float(2.0, 20.0));
            (0..at.len())
                .map(|s| {
                    let (x, y) = ((s % sides[0]) as f64 / sides[0] as f64 - 0.5, (s % n / sides[0]) as f64 / sides[1] as f64 - 0.5);
                    (s / n) as f64 / sides[2] as f64 - (0.1 + high * (-(x * x + y * y) * wide).exp())
                })
                .collect()
        }
        _ => {
            // Waves along the three axes: many sheets.
            let (k, d) = ([0; 3].map(|_| rng.float(0.2, 2.0)), rng.float(-0.8, 0.8));
            at.iter().map(|p| (k[0] * p[0]).sin() * (k[1] * p[1]).cos() + (k[1] * p[1]).sin() * (k[2] * p[2]).cos() + d).collect()
        }
    }
}

/// One value all over, and in it the samples of kept files, which need rollback rounds, splits and the like.
fn patched(rng: &mut Rng, sides: [usize; 3], kept: &[Input]) -> Vec<f64> {
    let fitting: Vec<&Input> = kept.iter().filter(|k| (0..3).all(|axis| k.sides[axis] <= sides[axis])).collect();
    if fitting.is_empty() {
        return smooth(rng, sides);
    }
    let around = rng.pick(&fitting).samples[0].clamp(-3.0, 3.0);
    let mut all = vec![if around.is_nan() { 1.0 } else { around }; sides.iter().product()];
    for _ in 0..1 + rng.below(3) {
        let patch = rng.pick(&fitting);
        let from = [0, 1, 2].map(|axis| rng.below(sides[axis] - patch.sides[axis] + 1));
        for (s, &x) in patch.samples.iter().enumerate() {
            let at = [s % patch.sides[0], s / patch.sides[0] % patch.sides[1], s / (patch.sides[0] * patch.sides[1])];
            let [u, v, w] = [0, 1, 2].map(|axis| from[axis] + at[axis]);
            all[u + sides[0] * (v + sides[1] * w)] = x;
        }
    }
    all
}

fn samples(rng: &mut Rng, sides: [usize; 3], kept: &[Input]) -> Vec<f64> {
    match rng.below(16) {
        0..=5 => generate::field(rng, sides),
        6 | 7 => smooth(rng, sides),
        8 => {
            // Smooth with a little noise.
            let size = rng.float(0.0, 0.5);
            smooth(rng, sides).into_iter().map(|x| x + rng.float(-size, size)).collect()
        }
        9 => {
            // So flat that all of it lies near the threshold.
            let size = rng.pick(&[1e-9, 1e-8, 1e-16, 5e-324]);
            smooth(rng, sides).into_iter().map(|x| EDGE + x * size).collect()
        }
        10 => {
            // Smooth, with steps of the last bit about the threshold where it is small, and zeros of both signs.
            let near = rng.float(0.05, 0.5);
            let (inside, outside) = ([after(EDGE, 1), after(EDGE, 2), -1.0], [EDGE, after(EDGE, -1), 0.0, -0.0, 5e-324, -5e-324]);
            let flat = |rng: &mut Rng, x: f64| if x < 0.0 { rng.pick(&inside) } else { rng.pick(&outside) };
            smooth(rng, sides).into_iter().map(|x| if x.abs() < near { flat(rng, x) } else { x }).collect()
        }
        11 => {
            // Smooth, with values that are special here and there: zeros, subnormals, infinities, NaNs.
            let every = rng.pick(&[20, 100, 500]);
            smooth(rng, sides).into_iter().map(|x| if rng.one_in(every) { special(rng) } else { x }).collect()
        }
        12 | 13 => {
            // Noise of any size inside a border on one side.
            let outer = rng.pick(&[1.0, -1.0]);
            let noise = |rng: &mut Rng, s| if countfile::on_border(sides, s) { outer * rng.float(0.1, 2.0) } else { rng.float(-1.0, 1.0) };
            (0..sides.iter().product()).map(|s| noise(rng, s)).collect()
        }
        _ => patched(rng, sides, kept),
    }
}

/// Samples for another threshold than the usual one: as they are, moved to it, made for it, or some of them about it.
fn about(rng: &mut Rng, sides: [usize; 3], h: f64, samples: Vec<f64>) -> Vec<f64> {
    // Of both zeros -0.0, so that the next further from zero is below it.
    let edge = -h.abs();
    match rng.below(6) {
        0 => samples,
        1 | 2 => {
            let small = h.max(1e-310);
            let size = rng.pick(&[1.0, 1.0, 0.01, small, small * 1e-15]);
            samples.into_iter().map(|x| if x.is_finite() { edge + x * size } else { x }).collect()
        }
        3 => generate::threshold_field(rng, sides, edge),
        _ => {
            let every = rng.pick(&[2, 4, 20]);
            let values = [edge, after(edge, 1), after(edge, -1), edge / 2.0, edge * 0.9, edge * 1.1, edge * 2.0, 0.0, -0.0, -edge, 5e-324, -5e-324];
            samples.into_iter().map(|x| if rng.one_in(every) { rng.pick(&values) } else { x }).collect()
        }
    }
}

/// A threshold that is refused.
fn not_taken(rng: &mut Rng) -> f64 {
    let nan = f64::from_bits((rng.next() << 63) | (0x7ff0_0000_0000_0001 + rng.next() % 0xf_ffff_ffff_ffff));
    let next = after(1.0, 1);
    rng.pick(&[nan, nan, nan, f64::NAN, -5e-324, -5e-324, -1e-300, -1e-9, -0.25, -1.0, next, next, 1.5, 2.0, 1e300, f64::INFINITY, f64::NEG_INFINITY])
}

// ---- lists and refusals

/// Bits of a coordinate that is lent: NaNs of any sign and payload, quiet and signalling, and anything else.
fn lent_bits(rng: &mut Rng) -> u64 {
    let x = rng.next();
    if x & 1 == 0 { x } else { x | 0x7ff0_0000_0000_0000 }
}

/// Lists of these lengths, every entry drawn.
fn lists(rng: &mut Rng, lengths: [usize; 6]) -> Lists {
    let words = |rng: &mut Rng, n: usize| {
        let mut all = Vec::with_capacity(n + 1);
        while all.len() < n {
            let x = rng.next();
            all.extend([x as u32, (x >> 32) as u32]);
        }
        all.truncate(n);
        all
    };
    Lists {
        masks: (0..lengths[0]).map(|_| rng.next() as u16).collect(),
        table: words(rng, lengths[1]),
        vertices: (0..lengths[2]).map(|_| lent_bits(rng)).collect(),
        book: words(rng, lengths[3]),
        triangles: words(rng, lengths[4]),
        edges: words(rng, lengths[5]),
    }
}

/// A number that is shorter, mostly by one.
fn shorter(rng: &mut Rng, n: usize) -> usize {
    match rng.below(8) {
        0 => 0,
        1 => rng.below(n.max(1)),
        _ => n.saturating_sub(1),
    }
}

/// Makes a request that is granted one that is not, unless a list has no entry to lose.
fn spoil(rng: &mut Rng, a: &mut Asked, lengths: &mut [usize; 6], asked: [usize; 6]) {
    match rng.below(7) {
        0 if rng.one_in(2) => a.method = rng.pick(&[2, 3, 255, 256, 1 << 32, (1 << 32) + 1, 1 << 63, usize::MAX]),
        0 => a.rounds = rng.pick(&[5, 6, 255, 256, 1 << 32, (1 << 32) + 4, 1 << 63, usize::MAX]),
        1 => {
            a.sides[rng.below(3)] = rng.pick(&[0, 33, 33, 34, 64, 256, 257, 1 << 32, (1 << 32) + 2, 1 << 63, usize::MAX]);
            if rng.one_in(4) {
                a.sides = rng.pick(&[[0; 3], [33; 3], [1 << 32, 1 << 32, 1], [1 << 22, 1 << 21, 1 << 21], [usize::MAX; 3], [usize::MAX, usize::MAX, 7]]);
            }
            // As many samples as the sides make in 64 bits, where these are few: then nothing but the sides is wrong.
            let sites = a.sides.iter().fold(1usize, |n, &side| n.wrapping_mul(side));
            if sites < 70_000 {
                a.samples.resize_with(sites, || rng.float(-1.0, 1.0).to_bits());
            }
        }
        2 => {
            let n = a.samples.len();
            let less = n.saturating_sub(1);
            let other = rng.pick(&[less, less, n + 1, n + 1, 0, 1, n / 2, 2 * n]);
            a.samples.resize_with(other, || rng.float(-1.0, 1.0).to_bits());
        }
        3 => {
            let axis = rng.below(3);
            if rng.one_in(2) {
                a.origin[axis] = rng.pick(&[after(1e9, 1), after(-1e9, 1), f64::NAN, -f64::NAN, f64::INFINITY, f64::NEG_INFINITY, 1e10, -1e300]);
            } else {
                let nan = f64::from_bits(0xfff0_0000_0000_0001);
                a.step[axis] = rng.pick(&[after(0.001, -1), after(1e6, 1), f64::NAN, nan, f64::INFINITY, 0.0, -0.0, -1.0, 5e-324, 1e300]);
            }
        }
        k => {
            let list = 2 * (k - 4) + rng.below(2);
            lengths[list] = shorter(rng, asked[list]);
        }
    }
}

/// The box of this seed and number.
fn make(seed: u64, number: u64, sizes: &[[usize; 3]], kept: &[Input]) -> Case {
    let mut rng = Rng(seed.wrapping_mul(0x2545f4914f6cdd1d) ^ number.wrapping_mul(0xd1342543de82ef95));
    rng.next();
    // What has to do with the threshold.
    let mut beside = Rng(seed.wrapping_mul(0xda942042e4dd58b5) ^ number.wrapping_mul(0x9fb21c651e98df25) ^ 14);
    beside.next();
    let in_turn = (number / 3) as usize % sizes.len() * stride(sizes.len()) % sizes.len();
    let refused = number % 3 != 0 && rng.below(20) < 3;
    let sides = match number % 3 {
        0 => sizes[in_turn],
        _ if refused && rng.one_in(8) => rng.pick(sizes),
        _ => small_size(&mut rng),
    };
    let (origin, step) = generate::frame(&mut rng);
    let method = usize::from(!rng.one_in(6));
    let rounds = if rng.one_in(3) { rng.below(5) } else { 4 };
    let mut samples = samples(&mut rng, sides, kept);
    let mut inside = THRESHOLDS[0];
    if beside.one_in(2) {
        inside = beside.pick(&THRESHOLDS[1..]);
        samples = about(&mut beside, sides, inside, samples);
    }
    let samples = samples.into_iter().map(f64::to_bits).collect();
    let mut asked = Asked { sides, method, rounds, inside, origin, step, samples };

    let exact = lengths_asked(sides, inside, &asked.samples);
    let tight = rng.one_in(4);
    let mut lengths = exact.map(|n| if tight || rng.one_in(2) { n } else { n + rng.pick(&[1, 2, 13, 100, n / 4 + 1]) });
    if refused {
        for _ in 0..1 + usize::from(rng.one_in(3)) {
            spoil(&mut rng, &mut asked, &mut lengths, exact);
        }
    }
    if number % 3 != 0 && beside.one_in(if refused { 2 } else { 40 }) {
        asked.inside = not_taken(&mut beside);
    }
    let counts = [0; 10].map(|_| rng.next() as usize);
    Case { asked, lent: lists(&mut rng, lengths), counts }
}

// ---- what was seen

#[derive(Default)]
struct Tally {
    boxes: usize,
    equal: usize,
    refused: [usize; 15],
    method: [usize; 2],
    /// Boxes of each of THRESHOLDS, and those of them with a crossed edge whose two samples are below 0.
    thresholds: [[usize; 2]; THRESHOLDS.len()],
    split: usize,
    clusters: usize,
    rounds: [usize; 5],
    owners: usize,
    not_finite: usize,
    one_sided: usize,
    sites: usize,
    triangles: usize,
    vertices: usize,
    entries: usize,
    longer: usize,
    sizes: HashSet<[usize; 3]>,
    /// How many boxes have sites from each of these numbers on.
    ranges: [usize; RANGES.len()],
    smallest: Option<(usize, u64, String)>,
}

const RANGES: [usize; 7] = [217, 512, 1024, 2048, 4096, 8192, 16384];

impl Tally {
    fn take(&mut self, number: u64, case: &Case, answer: Option<&Answer>, status: usize, told: Result<(), String>) {
        let a = &case.asked;
        self.boxes += 1;
        if let Err(why) = told {
            if self.smallest.as_ref().is_none_or(|(sites, _, _)| a.samples.len() < *sites) {
                let asked = format!("{:?} sites, method {}, rounds {}, threshold {:016x}", a.sides, a.method, a.rounds, a.inside.to_bits());
                let what = format!("{asked}, lists of {:?}: {why}", case.lent.lengths());
                self.smallest = Some((a.samples.len(), number, what));
            }
            return;
        }
        self.equal += 1;
        self.entries += case.lent.lengths().iter().sum::<usize>();
        let Some(answer) = answer else {
            self.refused[status] += 1;
            return;
        };
        self.method[a.method] += 1;
        let negative = crossed_where(a.sides, a.inside, &a.samples, |x, y| x < 0.0 && y < 0.0) > 0;
        let row = &mut self.thresholds[THRESHOLDS.iter().position(|h| h.to_bits() == a.inside.to_bits()).unwrap()];
        row[0] += 1;
        row[1] += usize::from(negative);
        self.split += usize::from(!answer.split.is_empty());
        self.clusters += answer.split.len();
        self.rounds[answer.owners.len()] += 1;
        self.owners += answer.owners.iter().map(Vec::len).sum::<usize>();
        let floats = || a.samples.iter().map(|&x| f64::from_bits(x));
        let finite = floats().all(|x| x.is_finite());
        self.not_finite += usize::from(!finite);
        let input = Input { sides: a.sides, method: 0, rounds: 0, inside: Some(a.inside), origin: a.origin, step: a.step, samples: floats().collect() };
        self.one_sided += usize::from(finite && answer.crossed > 0 && countfile::one_sided(&input));
        self.sites += a.samples.len();
        self.triangles += answer.triangles.len() / 3;
        self.vertices += answer.book.len();
        self.longer += usize::from(case.lent.lengths() != lengths_asked(a.sides, a.inside, &a.samples));
        self.sizes.insert(a.sides);
        self.ranges[RANGES.iter().filter(|&&from| from <= a.samples.len()).count() - 1] += 1;
    }

    fn print(&self, seed: u64, from: u64, of: usize, seconds: f64) {
        let done: usize = self.method.iter().sum();
        println!("boxes {from} to {} of seed {seed}: {} equal, {} not, in {seconds:.0} s", from + self.boxes as u64 - 1, self.equal, self.boxes - self.equal);
        let refused: Vec<String> = [1, 2, 3, 4, 14, 5, 6, 7].map(|k| format!("{k}: {}", self.refused[k])).into();
        println!("refused {}, by number {}", self.refused.iter().sum::<usize>(), refused.join(", "));
        println!("done {done}: method 0 {}, method 1 {}; {} with lists that are longer than asked for", self.method[0], self.method[1], self.longer);
        let rows = THRESHOLDS.iter().zip(self.thresholds);
        let rows: Vec<String> = rows.map(|(h, [boxes, negative])| format!("{h:e}: {boxes} ({negative})")).collect();
        println!("by threshold, and with an edge crossed between two samples below 0: {}", rows.join(", "));
        println!("with a split {} ({} clusters)", self.split, self.clusters);
        let rounds: Vec<String> = self.rounds.iter().map(usize::to_string).collect();
        println!("with 0, 1, 2, 3, 4 rounds {} ({} sites rolled back)", rounds.join(", "), self.owners);
        println!("with samples that are not finite {}", self.not_finite);
        println!("finite, crossed, with the border on one side {}", self.one_sided);
        let largest = self.sizes.iter().max_by_key(|s| s.iter().product::<usize>()).copied().unwrap_or_default();
        println!("sites in all {}, largest {} x {} x {}, {} of {of} sizes", self.sites, largest[0], largest[1], largest[2], self.sizes.len());
        let ranges: Vec<String> = RANGES.iter().zip(self.ranges).map(|(from, n)| format!("{from}: {n}")).collect();
        println!("by sites, from {}", ranges.join(", "));
        println!("vertices in all {}, triangles in all {}", self.vertices, self.triangles);
        println!("entries compared {}", self.entries);
    }
}

fn run(seed: u64, from: u64, count: u64, seconds: f64) -> bool {
    let (sizes, kept) = (all_sizes(), generate::kept(Some(KEPT)));
    let (begun, mut tally) = (Instant::now(), Tally::default());
    for number in from..from + count {
        if begun.elapsed().as_secs_f64() > seconds {
            break;
        }
        let case = make(seed, number, &sizes, &kept);
        let given = built(&case);
        match wanted(&case) {
            Ok((w, answer)) => tally.take(number, &case, answer.as_ref(), w.status, compare(&case, &w, &given)),
            Err(why) => tally.take(number, &case, None, 0, Err(why)),
        }
        if (number + 1) % 10_000 == 0 {
            eprintln!("{} boxes, {} equal, {:.0} s", tally.boxes, tally.equal, begun.elapsed().as_secs_f64());
        }
    }
    if tally.boxes == 0 {
        println!("no box was made");
        return false;
    }
    tally.print(seed, from, sizes.len(), begun.elapsed().as_secs_f64());
    if let Some((_, number, what)) = &tally.smallest {
        println!("the smallest that was not: {what}\nit is made again by: tests/run large --from {number} 1 {seed}");
    }
    tally.smallest.is_none()
}

// ---- wrong answers

/// What a wrong answer is like, by name; None where this box has no place for it.
type Wrong = (String, fn(&mut Rng, &Wanted, &mut Given, usize) -> Option<()>, usize);

/// A place below n that is drawn.
fn place(rng: &mut Rng, n: usize) -> Option<usize> {
    (n > 0).then(|| rng.below(n))
}

/// An entry of the vertices behind the used part that is a NaN and still is one if these bits are changed.
fn nan_behind(w: &Wanted, g: &Given, bits: u64) -> Option<usize> {
    let nan = |x: u64| f64::from_bits(x).is_nan();
    (w.used[2]..g.lists.vertices.len()).rev().find(|&at| nan(g.lists.vertices[at]) && nan(g.lists.vertices[at] ^ bits))
}

fn wrong_answers() -> Vec<Wrong> {
    let mut all: Vec<Wrong> = Vec::new();
    for list in 0..6 {
        all.push((format!("an entry in the used part of the {}", NAMES[list]), |rng, w, g, list| {
            let at = place(rng, w.used[list])?;
            Some(g.lists.change(list, at, 1 << rng.below(if list == 0 { 16 } else { 32 })))
        }, list));
        all.push((format!("an entry behind the used part of the {} of a build", NAMES[list]), |rng, w, g, list| {
            let at = place(rng, (g.lists.lengths()[list] - w.used[list]) * usize::from(w.status == 0))?;
            Some(g.lists.change(list, w.used[list] + at, 1 << rng.below(if list == 0 { 16 } else { 32 })))
        }, list));
        all.push((format!("the last entry of the {} of a build", NAMES[list]), |_, w, g, list| {
            let last = (g.lists.lengths()[list] * usize::from(w.status == 0)).checked_sub(1)?;
            Some(g.lists.change(list, last, 1))
        }, list));
        all.push((format!("an entry of the {} changed by a refusal", NAMES[list]), |rng, w, g, list| {
            let at = place(rng, g.lists.lengths()[list] * usize::from(w.status != 0))?;
            Some(g.lists.change(list, at, 1 << rng.below(if list == 0 { 16 } else { 32 })))
        }, list));
    }
    for k in 0..10 {
        all.push((format!("count {k} of a build one more"), |_, w, g, k| (w.status == 0).then(|| g.counts[k] += 1), k));
        all.push((format!("count {k} of a build one less"), |_, w, g, k| (w.status == 0 && g.counts[k] > 0).then(|| g.counts[k] -= 1), k));
        all.push((format!("count {k} of a refusal not 0"), |_, w, g, k| (w.status != 0).then(|| g.counts[k] = 1), k));
    }
    for status in (0..9).chain([14]) {
        all.push((format!("status {status} where another is right"), |_, w, g, status| (w.status != status).then(|| g.status = status), status));
    }
    for bit in [0, 31, 50, 51, 63] {
        all.push((format!("bit {bit} of a NaN behind the vertices"), |_, w, g, bit| {
            let at = nan_behind(w, g, 1 << bit)?;
            Some(g.lists.vertices[at] ^= 1 << bit)
        }, bit));
    }
    let more: [(&str, fn(&mut Rng, &Wanted, &mut Given, usize) -> Option<()>); 9] = [
        ("every NaN behind the vertices the same one", |_, w, g, _| {
            nan_behind(w, g, 1)?;
            let nan = |x: &&mut u64| f64::from_bits(**x).is_nan();
            Some(g.lists.vertices[w.used[2]..].iter_mut().filter(nan).for_each(|x| *x = 0x7ff8_0000_0000_0000))
        }),
        ("the sign of a zero among the positions", |_, w, g, _| {
            let at = g.lists.vertices[..w.used[2]].iter().position(|&x| x << 1 == 0)?;
            Some(g.lists.vertices[at] ^= 1 << 63)
        }),
        ("the last bit of a position", |rng, w, g, _| {
            let at = place(rng, w.used[2])?;
            Some(g.lists.vertices[at] ^= 1)
        }),
        ("two triangles in the other order", |_, w, g, _| {
            (w.used[4] >= 6).then(|| g.lists.triangles[..6].rotate_left(3))
        }),
        ("the corners of a triangle turned", |_, w, g, _| {
            (w.used[4] >= 3).then(|| g.lists.triangles[..3].rotate_left(1))
        }),
        ("the sides of a triangle the other way", |_, w, g, _| {
            (w.used[4] >= 3).then(|| g.lists.triangles.swap(1, 2))
        }),
        ("zeros behind the used part of the triangles", |_, w, g, _| {
            let rest = &mut g.lists.triangles[w.used[4]..];
            rest.iter().any(|&x| x != 0).then(|| rest.fill(0))
        }),
        ("a list that is longer", |_, _, g, _| Some(g.lists.book.push(0))),
        ("a sample", |rng, _, g, _| {
            let at = place(rng, g.samples.len())?;
            Some(g.samples[at] ^= 1 << rng.below(64))
        }),
    ];
    all.extend(more.map(|(name, f)| (name.to_string(), f, 0)));
    all
}

fn selftest() -> bool {
    let (sizes, kept, all) = (all_sizes(), generate::kept(Some(KEPT)), wrong_answers());
    let (mut tried, mut found, mut rng) = (vec![0usize; all.len()], 0, Rng(7));
    for number in (0..300u64).filter(|n| n % 3 != 0) {
        let case = make(3, number, &sizes, &kept);
        let given = built(&case);
        let Ok((w, _)) = wanted(&case) else {
            println!("the oracle stopped at box {number} of seed 3");
            return false;
        };
        if let Err(why) = compare(&case, &w, &given) {
            println!("box {number} of seed 3: {why}");
            return false;
        }
        for (k, (name, spoil, word)) in all.iter().enumerate() {
            let mut other = given.clone();
            if spoil(&mut rng, &w, &mut other, *word).is_none() {
                continue;
            }
            tried[k] += 1;
            match compare(&case, &w, &other) {
                Err(_) => found += 1,
                Ok(()) => println!("not found at box {number} of seed 3: {name}"),
            }
        }
    }
    for (k, _) in tried.iter().enumerate().filter(|(_, n)| **n == 0) {
        println!("never tried: {}", all[k].0);
    }
    let sum: usize = tried.iter().sum();
    println!("selftest: {} kinds of wrong answers, {sum} tried, {found} found", all.len());
    found == sum && tried.iter().all(|&n| n > 0)
}

fn main() {
    let usage = || -> ! {
        eprintln!("usage: tests/run large [--from K] [--seconds S] N [SEED]\n       tests/run large --selftest");
        std::process::exit(2)
    };
    let (mut numbers, mut from, mut seconds, mut words) = (Vec::new(), 0, f64::INFINITY, std::env::args().skip(1));
    while let Some(word) = words.next() {
        let mut next = || words.next().and_then(|w| w.parse::<u64>().ok()).unwrap_or_else(|| usage());
        match word.as_str() {
            "--from" => from = next(),
            "--seconds" => seconds = next() as f64,
            "--selftest" if std::env::args().count() == 2 => std::process::exit(i32::from(!selftest())),
            _ => numbers.push(word.parse::<u64>().unwrap_or_else(|_| usage())),
        }
    }
    let (count, seed) = match numbers[..] {
        [count] => (count, 1),
        [count, seed] => (count, seed),
        _ => usage(),
    };
    std::process::exit(i32::from(!run(seed, from, count, seconds)))
}
