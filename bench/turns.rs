// Benchmark of two archives of ours in one program, such as one made before a change and one made after: the topology test of every mask and the whole build,
// by turns, on the same samples.
//
// bench/run turns ARCHIVE links the other archive with every name of its own put behind `before_`. Both work in the same lists, one after the other, and
// change places each round, so that neither always comes first. Cases and clusters must be equal; so must masks, table, book, triangles and counts; how many
// positions are not is printed. Times are microseconds: the median of the rounds, and the least.
//
// bench/run turns ARCHIVE fixed is for another archive from before the threshold could be given: its functions are called without one, by `--cfg fixed`. Ours is
// given 1.0e-9, which was the fixed one.

use std::hint::black_box;
use std::time::Instant;

type Build = unsafe extern "C" fn(
    usize, usize, usize, usize, usize, f64, *const [f64; 6], *const f64, usize, *mut u16, usize, *mut u32, usize, *mut f64, usize, *mut u32, usize,
    *mut u32, usize, *mut u32, usize, *mut [usize; 10],
) -> usize;

// An archive in which the test tells no visits is handed the last list as well and takes no notice of it.
type Topology = unsafe extern "C" fn(u16, usize, f64, *const [f64; 14], *mut [u16; 14], *mut [usize; 1]) -> usize;

extern "C" {
    fn spoonthicket_topology(
        mask: u16, method: usize, inside: f64, ends: *const [f64; 14], clusters: *mut [u16; 14], visits: *mut [usize; 1],
    ) -> usize;
    fn spoonthicket_build(
        nu: usize, nv: usize, nw: usize, method: usize, rounds: usize, inside: f64, frame: *const [f64; 6], samples: *const f64,
        samples_len: usize, masks: *mut u16, masks_len: usize, table: *mut u32, table_len: usize, vertices: *mut f64, vertices_len: usize,
        book: *mut u32, book_len: usize, triangles: *mut u32, triangles_len: usize, edges: *mut u32, edges_len: usize, counts: *mut [usize; 10],
    ) -> usize;
}

/// The other archive's two.
#[cfg(not(fixed))]
mod before {
    extern "C" {
        #[link_name = "before_spoonthicket_topology"]
        pub fn topology(
            mask: u16, method: usize, inside: f64, ends: *const [f64; 14], clusters: *mut [u16; 14], visits: *mut [usize; 1],
        ) -> usize;
        #[link_name = "before_spoonthicket_build"]
        pub fn build(
            nu: usize, nv: usize, nw: usize, method: usize, rounds: usize, inside: f64, frame: *const [f64; 6], samples: *const f64,
            samples_len: usize, masks: *mut u16, masks_len: usize, table: *mut u32, table_len: usize, vertices: *mut f64,
            vertices_len: usize, book: *mut u32, book_len: usize, triangles: *mut u32, triangles_len: usize, edges: *mut u32,
            edges_len: usize, counts: *mut [usize; 10],
        ) -> usize;
    }
}

/// The other archive's two, which are not told the threshold. Each call goes one jump further than ours.
#[cfg(fixed)]
mod before {
    extern "C" {
        fn before_spoonthicket_topology(
            mask: u16, method: usize, ends: *const [f64; 14], clusters: *mut [u16; 14], visits: *mut [usize; 1],
        ) -> usize;
        fn before_spoonthicket_build(
            nu: usize, nv: usize, nw: usize, method: usize, rounds: usize, frame: *const [f64; 6], samples: *const f64, samples_len: usize,
            masks: *mut u16, masks_len: usize, table: *mut u32, table_len: usize, vertices: *mut f64, vertices_len: usize, book: *mut u32,
            book_len: usize, triangles: *mut u32, triangles_len: usize, edges: *mut u32, edges_len: usize, counts: *mut [usize; 10],
        ) -> usize;
    }

    pub unsafe extern "C" fn topology(
        mask: u16, method: usize, _: f64, ends: *const [f64; 14], clusters: *mut [u16; 14], visits: *mut [usize; 1],
    ) -> usize {
        before_spoonthicket_topology(mask, method, ends, clusters, visits)
    }

    pub unsafe extern "C" fn build(
        nu: usize, nv: usize, nw: usize, method: usize, rounds: usize, _: f64, frame: *const [f64; 6], samples: *const f64,
        samples_len: usize, masks: *mut u16, masks_len: usize, table: *mut u32, table_len: usize, vertices: *mut f64,
        vertices_len: usize, book: *mut u32, book_len: usize, triangles: *mut u32, triangles_len: usize, edges: *mut u32,
        edges_len: usize, counts: *mut [usize; 10],
    ) -> usize {
        before_spoonthicket_build(
            nu, nv, nw, method, rounds, frame, samples, samples_len, masks, masks_len, table, table_len, vertices, vertices_len, book,
            book_len, triangles, triangles_len, edges, edges_len, counts,
        )
    }
}

/// The threshold of include/spoonthicket.h.
const INSIDE: f64 = 1.0e-9;

include!("shapes.rs");

/// The smooth pile shrunk to the threshold, so that the fraction of many a point is held.
fn waterline(n: usize) -> Vec<f64> {
    smooth(n).into_iter().map(|x| -INSIDE + x * 1.0e-10).collect()
}

struct Lists {
    masks: Vec<u16>,
    table: Vec<u32>,
    vertices: Vec<f64>,
    book: Vec<u32>,
    triangles: Vec<u32>,
    edges: Vec<u32>,
    counts: [usize; 10],
}

impl Lists {
    fn new(n: usize) -> Lists {
        let (sites, cells) = (n * n * n, (n - 1) * (n - 1) * (n - 1));
        let most = 3 * 7 * sites / 2;
        Lists {
            masks: vec![0; sites],
            table: vec![0; 7 * sites],
            vertices: vec![0.0; 3 * most],
            book: vec![0; 4 * most],
            triangles: vec![0; 36 * cells],
            edges: vec![0; 108 * cells],
            counts: [0; 10],
        }
    }

    fn build(&mut self, with: Build, n: usize, s: &[f64]) -> f64 {
        let frame = [0.0, 0.0, 0.0, 1.0, 1.0, 1.0];
        let start = Instant::now();
        let status = unsafe {
            with(
                n, n, n, 1, 4, INSIDE, &frame, s.as_ptr(), s.len(), self.masks.as_mut_ptr(), self.masks.len(), self.table.as_mut_ptr(),
                self.table.len(), self.vertices.as_mut_ptr(), self.vertices.len(), self.book.as_mut_ptr(), self.book.len(),
                self.triangles.as_mut_ptr(), self.triangles.len(), self.edges.as_mut_ptr(), self.edges.len(), &mut self.counts,
            )
        };
        let took = start.elapsed().as_secs_f64() * 1e6;
        assert!(status == 0, "refused");
        took
    }

    /// All that is left but the positions, and the positions by their bits.
    fn left(&self) -> ((Vec<u16>, Vec<u32>, Vec<u32>, Vec<u32>, [usize; 10]), Vec<u64>) {
        let [vertices, triangles] = [self.counts[1], self.counts[2]];
        (
            (self.masks.clone(), self.table.clone(), self.book[..4 * vertices].to_vec(), self.triangles[..3 * triangles].to_vec(), self.counts),
            self.vertices[..3 * vertices].iter().map(|x| x.to_bits()).collect(),
        )
    }
}

/// The median and the least of each side.
fn told(times: [Vec<f64>; 2]) -> [[f64; 2]; 2] {
    times.map(|mut t| {
        t.sort_by(f64::total_cmp);
        [t[t.len() / 2], t[0]]
    })
}

fn more(before: f64, after: f64) -> String {
    format!("{:+.1} %", 100.0 * (after / before - 1.0))
}

/// The topology test of all 16,384 masks, as the library answers it.
fn topology() {
    let ends: [f64; 14] = std::array::from_fn(|e| [1.0, -3.0, 0.5, -0.25, 2.0][e % 5]);
    let two: [Topology; 2] = [before::topology, spoonthicket_topology];
    let (mut clusters, mut visits) = ([0u16; 14], [0usize]);
    for mask in 0..1u16 << 14 {
        let [before, after] = two.map(|f| (unsafe { f(mask, 1, INSIDE, &ends, &mut clusters, &mut visits) }, clusters));
        assert!(before == after, "another topology of {mask:04x}");
    }
    let mut times = [Vec::new(), Vec::new()];
    for round in 0..401 {
        for k in [round % 2, 1 - round % 2] {
            let start = Instant::now();
            for mask in 0..1u16 << 14 {
                black_box(unsafe { two[k](black_box(mask), 1, INSIDE, &ends, &mut clusters, &mut visits) });
                black_box((&clusters, &visits));
            }
            times[k].push(start.elapsed().as_secs_f64() * 1e6);
        }
    }
    let [b, a] = told(times);
    println!("| topology of | before, median | after | more | before, least | after | more |");
    println!("|---|---|---|---|---|---|---|");
    println!("| all 16,384 masks | {:.0} | {:.0} | {} | {:.0} | {:.0} | {} |\n", b[0], a[0], more(b[0], a[0]), b[1], a[1], more(b[1], a[1]));
}

fn main() {
    topology();
    let shapes: [(&str, fn(usize) -> Vec<f64>); 3] = [("smooth pile", smooth), ("noise", noise), ("waterline", waterline)];
    let two: [Build; 2] = [before::build, spoonthicket_build];
    println!("| shape | a side | before, median | after | more | before, least | after | more | coordinates | of them other |");
    println!("|---|---|---|---|---|---|---|---|---|---|");
    for (name, make) in shapes {
        for n in [16usize, 32] {
            let (s, mut l) = (make(n), Lists::new(n));
            let rounds = if n == 16 { 401 } else { 101 };
            let mut times = [Vec::new(), Vec::new()];
            for round in 0..rounds {
                for k in [round % 2, 1 - round % 2] {
                    times[k].push(l.build(two[k], n, black_box(&s)));
                }
            }
            l.build(two[0], n, &s);
            let before = l.left();
            l.build(two[1], n, &s);
            let after = l.left();
            assert!(before.0 == after.0, "{name}, {n} a side: other masks, table, book, triangles or counts");
            let other = before.1.iter().zip(&after.1).filter(|(x, y)| x != y).count();
            let [b, a] = told(times);
            let by: [String; 2] = std::array::from_fn(|k| more(b[k], a[k]));
            println!("| {name} | {n} | {:.0} | {:.0} | {} | {:.0} | {:.0} | {} | {} | {other} |", b[0], a[0], by[0], b[1], a[1], by[1], after.1.len());
        }
    }
}
