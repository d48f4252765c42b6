// Benchmark of the volume: six times what a mesh encloses, in whole units, beside the same loop in plain Rust, on the same meshes, in one run.
//
// Meshes of noise, built by the library itself, in hundredths of a step and from a whole origin in their middle, so that every corner is accepted. Both sides make
// every check: whole threes, the number of triangles, each index below the vertices, the scale, each coordinate of each corner. Neither stores anything.
// Beside them a Rust of another shape, which rounds each vertex once into a list of its own; ours has no list, and rounds a vertex for each triangle that names it.
// Every answer is compared before a line is printed; a difference ends the program with an error.
// A time is the least of its rounds, in microseconds; the two sides take turns.

use std::hint::black_box;
use std::time::Instant;

const ROUNDS: usize = 40;

/// The threshold of include/spoonthicket.h.
const INSIDE: f64 = 1.0e-9;

extern "C" {
    fn spoonthicket_build(
        nu: usize, nv: usize, nw: usize, method: usize, rounds: usize, inside: f64, frame: *const [f64; 6],
        samples: *const f64, samples_len: usize, masks: *mut u16, masks_len: usize, table: *mut u32, table_len: usize,
        vertices: *mut f64, vertices_len: usize, book: *mut u32, book_len: usize, triangles: *mut u32, triangles_len: usize,
        edges: *mut u32, edges_len: usize, counts: *mut [usize; 10],
    ) -> usize;
    fn spoonthicket_volume(
        vertices: *const f64, vertices_len: usize, triangles: *const u32, triangles_len: usize, scale: f64, origin: *const [i64; 3], six: *mut [i64; 1],
    ) -> usize;
}

// ---- the meshes

struct Mesh {
    positions: Vec<f64>,
    triangles: Vec<u32>,
}

// A fixed sequence (xorshift), as in bench/build.rs.
fn noise(n: usize) -> Vec<f64> {
    let mut x = 88172645463325252u64;
    (0..n * n * n)
        .map(|_| {
            x ^= x << 13;
            x ^= x >> 7;
            x ^= x << 17;
            (x >> 11) as f64 / (1u64 << 52) as f64 - 1.0
        })
        .collect()
}

fn built(n: usize) -> Mesh {
    let samples = noise(n);
    let (sites, cells) = (n * n * n, (n - 1) * (n - 1) * (n - 1));
    let most = 3 * 7 * sites / 2;
    let (mut masks, mut table) = (vec![0; sites], vec![0; 7 * sites]);
    let (mut positions, mut book) = (vec![0.0; 3 * most], vec![0; 4 * most]);
    let (mut triangles, mut edges) = (vec![0; 36 * cells], vec![0; 108 * cells]);
    let mut counts = [0; 10];
    let status = unsafe {
        spoonthicket_build(
            n, n, n, 1, 4, INSIDE, &[0.0, 0.0, 0.0, 1.0, 1.0, 1.0], samples.as_ptr(), samples.len(), masks.as_mut_ptr(), masks.len(), table.as_mut_ptr(),
            table.len(), positions.as_mut_ptr(), positions.len(), book.as_mut_ptr(), book.len(), triangles.as_mut_ptr(), triangles.len(), edges.as_mut_ptr(),
            edges.len(), &mut counts,
        )
    };
    assert_eq!(status, 0);
    positions.truncate(3 * counts[1]);
    triangles.truncate(3 * counts[2]);
    Mesh { positions, triangles }
}

// ---- ours

fn ours(mesh: &Mesh, scale: f64, origin: [i64; 3]) -> Result<i64, usize> {
    let (p, t) = (&mesh.positions, &mesh.triangles);
    let mut six = [0];
    match unsafe { spoonthicket_volume(p.as_ptr(), p.len(), t.as_ptr(), t.len(), scale, &origin, &mut six) } {
        0 => Ok(six[0]),
        n => Err(n),
    }
}

// ---- plain Rust

/// Whole numbers below 9.2e18 in size. A difference that wraps is not near 0, since its size is below 2^64 by 2 * 10^16.
#[inline(always)]
fn near(x: f64, scale: f64, origin: i64) -> Option<i64> {
    let whole = (x * scale).round_ties_even();
    if !(whole.abs() < 9.2e18) {
        return None;
    }
    let less = (whole as i64).wrapping_sub(origin);
    (-10_000..=10_000).contains(&less).then_some(less)
}

/// All of them: 2^63 and more may be near to an end of i64 too.
fn any(x: f64, scale: f64, origin: i64) -> Option<i64> {
    let whole = (x * scale).round_ties_even();
    let less = (whole.abs() < 1.0e20).then(|| whole as i128 - i128::from(origin))?;
    i64::try_from(less).ok().filter(|n| (-10_000..=10_000).contains(n))
}

#[inline(always)]
fn sum(positions: &[f64], triangles: &[u32], scale: f64, origin: [i64; 3], coordinate: impl Fn(f64, f64, i64) -> Option<i64>) -> Option<i64> {
    let corner = |v: u32| -> Option<[i64; 3]> {
        let at = &positions[3 * v as usize..][..3];
        Some([coordinate(at[0], scale, origin[0])?, coordinate(at[1], scale, origin[1])?, coordinate(at[2], scale, origin[2])?])
    };
    let mut six = 0;
    for t in triangles.chunks_exact(3) {
        let (a, b, c) = (corner(t[0])?, corner(t[1])?, corner(t[2])?);
        six += a[0] * (b[1] * c[2] - b[2] * c[1]) + b[0] * (c[1] * a[2] - c[2] * a[1]) + c[0] * (a[1] * b[2] - a[2] * b[1]);
    }
    Some(six)
}

fn fit(mesh: &Mesh, scale: f64) -> Result<(), usize> {
    let (p, t) = (&mesh.positions, &mesh.triangles);
    let v = p.len() / 3;
    if p.len() % 3 != 0 || t.len() % 3 != 0 || t.len() / 3 > 357_492 || t.iter().any(|&i| i as usize >= v) {
        return Err(10);
    }
    if !(scale > 0.0 && scale.is_finite()) {
        return Err(12);
    }
    Ok(())
}

/// The loop over the near ones; where it gives up, the one over all of them says why.
#[inline(never)]
fn rust(mesh: &Mesh, scale: f64, origin: [i64; 3]) -> Result<i64, usize> {
    fit(mesh, scale)?;
    let (p, t) = (&mesh.positions, &mesh.triangles);
    sum(p, t, scale, origin, near).or_else(|| sum(p, t, scale, origin, any)).ok_or(13)
}

/// The same with each vertex rounded once, into a list that is made inside the clock. A vertex that is not near has a number that no other has.
#[inline(never)]
fn once(mesh: &Mesh, scale: f64, origin: [i64; 3]) -> Result<i64, usize> {
    const FAR: i64 = i64::MIN;
    fit(mesh, scale)?;
    let (p, t) = (&mesh.positions, &mesh.triangles);
    let rounded: Vec<[i64; 3]> = p.chunks_exact(3).map(|at| std::array::from_fn(|axis| near(at[axis], scale, origin[axis]).unwrap_or(FAR))).collect();
    let mut six = 0;
    for corners in t.chunks_exact(3) {
        let [a, b, c] = [0, 1, 2].map(|k| rounded[corners[k] as usize]);
        if a.contains(&FAR) || b.contains(&FAR) || c.contains(&FAR) {
            return sum(p, t, scale, origin, any).ok_or(13);
        }
        six += a[0] * (b[1] * c[2] - b[2] * c[1]) + b[0] * (c[1] * a[2] - c[2] * a[1]) + c[0] * (a[1] * b[2] - a[2] * b[1]);
    }
    Ok(six)
}

// ---- the clock

type Way = fn(&Mesh, f64, [i64; 3]) -> Result<i64, usize>;

const WAYS: [Way; 3] = [ours, rust, once];

/// The least times of the three, by turns, in microseconds.
fn timed(mesh: &Mesh, scale: f64, origin: [i64; 3], six: i64) -> [f64; 3] {
    let mut least = [f64::INFINITY; 3];
    for _ in 0..ROUNDS {
        for (way, least) in WAYS.iter().zip(&mut least) {
            let start = Instant::now();
            assert_eq!(black_box(way(black_box(mesh), black_box(scale), black_box(origin))), Ok(six));
            *least = least.min(start.elapsed().as_secs_f64());
        }
    }
    least.map(|seconds| 1.0e6 * seconds)
}

/// The three answers, which have to be equal.
fn all(mesh: &Mesh, scale: f64, origin: [i64; 3]) -> Result<i64, usize> {
    let [a, b, c] = WAYS.map(|way| way(mesh, scale, origin));
    assert!(a == b && a == c, "three answers: {a:?}, {b:?}, {c:?}");
    a
}

fn main() {
    // 2^63 is 1 above the largest origin.
    let top = 9223372036854775808.0;
    let ends = Mesh { positions: vec![top, 0.0, 0.0, top, 1.0, 0.0, top, 0.0, 1.0], triangles: vec![0, 1, 2] };
    assert_eq!(all(&ends, 1.0, [i64::MAX, 0, 0]), Ok(1));

    let scale = 100.0;
    let mut before: Option<[f64; 3]> = None;
    let mut rows = Vec::new();
    for n in [16, 24, 32] {
        let mut mesh = built(n);
        // Site (u, v, w) lies at (w - u - v, u - v, -w), so the middle of the box is half of (1 - n, 0, 1 - n).
        let middle = -50 * (n as i64 - 1);
        let origin = [middle, 0, middle];
        let six = all(&mesh, scale, origin).expect("a corner is not accepted");
        for o in [[middle + 1, -2, middle + 3], [i64::MAX, 0, 0], [0, i64::MIN, 0], [middle + 10_000, 0, middle]] {
            let _ = all(&mesh, scale, o);
        }
        for s in [0.0, -1.0, f64::NAN, f64::INFINITY, 1.0e-3, 1.0e9] {
            let _ = all(&mesh, s, origin);
        }
        let times = timed(&mesh, scale, origin, six);
        let [o, r, l] = times;
        let (v, f) = (mesh.positions.len() / 3, mesh.triangles.len() / 3);
        let growth = before.map_or(" |  |".to_string(), |[p, q, _]| format!("{:.1} | {:.1} |", o / p, r / q));
        rows.push(format!("| {n} | {v} | {f} | {o:.0} | {r:.0} | {:.2} | {growth} {l:.0} | {:.2} |", r / o, l / o));
        before = Some(times);
        // One index that is no vertex, at the end of the list.
        *mesh.triangles.last_mut().unwrap() = v as u32;
        assert_eq!(all(&mesh, scale, origin), Err(10));
    }
    println!("| a side | vertices | triangles | ours | Rust | Rust / ours | growth ours | growth Rust | Rust, each once | each once / ours |\n|---|---|---|---|---|---|---|---|---|---|");
    for row in rows {
        println!("{row}");
    }
}
