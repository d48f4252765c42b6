// Benchmark of the build: marking, topology, march, the whole, and the phases of ours, beside the Rust pipeline of the oracle, on the same samples, in one run.
//
// The Rust is the oracle's (tools/oracle), single thread, without the oracle's notes and checks. Its sample map, its map of marks (all 0) and its list
// of keys are made outside the clock, as our six lists are; what it makes while it runs is inside. Ours is the linked archive. The phases know no threshold but
// 1.0e-9, which the build is given.
// Every answer is compared before a line is printed; a difference ends the program with an error.
// A time is the least of its rounds, in microseconds; the two sides take turns.

#![allow(dead_code)]

#[path = "../tools/oracle/threshold.rs"]
mod threshold;

// Without its notes the Rust has no use for the place where it would take them.
#[allow(unused_variables)]
mod isosurface {
    include!("../tools/oracle/isosurface.rs");
    include!("oracle.rs");
}

include!(concat!(env!("ORACLE_MADE"), "/modules.rs"));

use isosurface::timed;
use std::collections::HashMap;
use std::hint::black_box;
use std::time::Instant;

/// The threshold of include/spoonthicket.h.
const INSIDE: f64 = 1.0e-9;

extern "C" {
    fn spoonthicket_build(
        nu: usize, nv: usize, nw: usize, method: usize, rounds: usize, inside: f64, frame: *const [f64; 6],
        samples: *const f64, samples_len: usize, masks: *mut u16, masks_len: usize, table: *mut u32, table_len: usize,
        vertices: *mut f64, vertices_len: usize, book: *mut u32, book_len: usize, triangles: *mut u32, triangles_len: usize,
        edges: *mut u32, edges_len: usize, counts: *mut [usize; 10],
    ) -> usize;
    fn spoonthicket_topology(
        mask: u16, method: usize, inside: f64, ends: *const [f64; 14], clusters: *mut [u16; 14], visits: *mut [usize; 1],
    ) -> usize;
    fn phase_count(nu: usize, nv: usize, nw: usize, samples: *const f64, samples_len: usize) -> usize;
    fn phase_mark(nu: usize, nv: usize, nw: usize, samples: *const f64, samples_len: usize, masks: *mut u16, masks_len: usize);
    fn phase_draw(
        nu: usize, nv: usize, nw: usize, samples: *const f64, samples_len: usize, masks: *const u16, masks_len: usize, table: *mut u32,
        table_len: usize, positions: *mut f64, positions_len: usize, book: *mut u32, book_len: usize, flags: *const u32, flags_len: usize,
    ) -> usize;
    fn phase_march(
        nu: usize, nv: usize, nw: usize, samples: *const f64, samples_len: usize, table: *const u32, table_len: usize, tris: *mut u32,
        tris_len: usize,
    ) -> usize;
    fn phase_flag(tris: *const u32, tris_len: usize, room: *mut u32, room_len: usize, a: usize, m: usize) -> bool;
    fn phase_clear(room: *mut u32, room_len: usize);
}

// ---- the inputs

include!("shapes.rs");

// ---- ours

struct Lists {
    masks: Vec<u16>,
    table: Vec<u32>,
    vertices: Vec<f64>,
    book: Vec<u32>,
    tris: Vec<u32>,
    edges: Vec<u32>,
    counts: [usize; 10],
}

impl Lists {
    /// Room for any samples, each entry written once.
    fn new(n: usize, crossed: usize) -> Lists {
        let (sites, cells, most) = (n * n * n, (n - 1) * (n - 1) * (n - 1), 3 * crossed / 2);
        Lists {
            masks: vec![9; sites],
            table: vec![9; 7 * sites],
            vertices: vec![9.0; 3 * most],
            book: vec![9; 4 * most],
            tris: vec![9; 36 * cells],
            edges: vec![9; 108 * cells],
            counts: [0; 10],
        }
    }

    fn build(&mut self, n: usize, s: &[f64]) {
        let status = unsafe {
            spoonthicket_build(
                n, n, n, 1, 4, INSIDE, &[0.0, 0.0, 0.0, 1.0, 1.0, 1.0], s.as_ptr(), s.len(), self.masks.as_mut_ptr(), self.masks.len(),
                self.table.as_mut_ptr(), self.table.len(), self.vertices.as_mut_ptr(), self.vertices.len(), self.book.as_mut_ptr(),
                self.book.len(), self.tris.as_mut_ptr(), self.tris.len(), self.edges.as_mut_ptr(), self.edges.len(), &mut self.counts,
            )
        };
        assert!(status == 0);
    }

    fn mark(&mut self, n: usize, s: &[f64]) {
        unsafe { phase_mark(n, n, n, s.as_ptr(), s.len(), self.masks.as_mut_ptr(), self.masks.len()) }
    }

    fn draw(&mut self, n: usize, s: &[f64]) -> usize {
        unsafe {
            phase_draw(
                n, n, n, s.as_ptr(), s.len(), self.masks.as_ptr(), self.masks.len(), self.table.as_mut_ptr(), self.table.len(),
                self.vertices.as_mut_ptr(), self.vertices.len(), self.book.as_mut_ptr(), self.book.len(), self.edges.as_ptr(), 0,
            )
        }
    }

    fn march(&mut self, n: usize, s: &[f64]) -> usize {
        unsafe { phase_march(n, n, n, s.as_ptr(), s.len(), self.table.as_ptr(), self.table.len(), self.tris.as_mut_ptr(), self.tris.len()) }
    }

    fn flag(&mut self, n: usize, triangles: usize, vertices: usize) -> bool {
        let a = 36 * (n - 1) * (n - 1) * (n - 1);
        unsafe { phase_flag(self.tris.as_ptr(), 3 * triangles, self.edges.as_mut_ptr(), self.edges.len(), a, vertices) }
    }

    fn clear(&mut self) {
        unsafe { phase_clear(self.edges.as_mut_ptr(), self.edges.len()) }
    }
}

// ---- the clock

fn micros<T>(f: impl FnOnce() -> T) -> (f64, T) {
    let t = Instant::now();
    let r = black_box(f());
    (t.elapsed().as_secs_f64() * 1.0e6, r)
}

fn least(times: &[f64]) -> f64 {
    times.iter().copied().fold(f64::INFINITY, f64::min)
}

/// The case and the clusters of every mask: ours and the Rust's, with the same values at the ends.
fn topology(rounds: usize) -> (f64, f64) {
    let ends: [f64; 14] = std::array::from_fn(|e| [1.0, -3.0, 0.5, -0.25, 2.0][e % 5]);
    let map: HashMap<[i64; 3], f64> = (0..14).map(|e| (constants::EDGE_DELTAS[e].map(i64::from), ends[e])).collect();
    let (mut a, mut b) = (Vec::new(), Vec::new());
    for _ in 0..rounds {
        let (mut clusters, mut visits) = ([0u16; 14], [0]);
        let (t, total) = micros(|| {
            let mut total = 0;
            for mask in 0..16384u16 {
                total += unsafe { spoonthicket_topology(black_box(mask), 1, INSIDE, &ends, &mut clusters, &mut visits) };
                black_box((&clusters, &visits));
            }
            total
        });
        a.push(t);
        let (t, theirs) = micros(|| {
            let mut total = 0;
            for mask in 0..16384u16 {
                let r = topology::test_topology(black_box(mask), true, [0; 3], &map);
                total += isosurface::case_number(&r.case);
                black_box(&r);
            }
            total
        });
        b.push(t);
        assert!(total == theirs, "cases differ");
    }
    for mask in 0..16384u16 {
        let (mut clusters, mut visits) = ([0u16; 14], [0]);
        let case = unsafe { spoonthicket_topology(mask, 1, INSIDE, &ends, &mut clusters, &mut visits) };
        let (theirs, masks) = isosurface::topology_of(mask, true, [0; 3], &map);
        assert!(case == theirs && clusters.iter().copied().take_while(|m| *m != 0).eq(masks), "topology of {mask:04x} differs");
    }
    (least(&a), least(&b))
}

fn main() {
    let rounds = 15;
    let sizes = [8usize, 16, 24, 32];
    let shapes: [(&str, fn(usize) -> Vec<f64>); 2] = [("smooth pile", smooth), ("noise", noise)];
    let grows = |now: f64, then: f64| if then > 0.0 { format!("{:.1}", now / then) } else { String::new() };

    let (ours, theirs) = topology(rounds);
    println!("topology of all 16,384 masks, microseconds: ours {ours:.0}, Rust {theirs:.0}, Rust / ours {:.2}", theirs / ours);

    let mut shares = Vec::new();
    for (name, make) in shapes {
        println!("\n{name}, microseconds\n");
        println!("| what | a side | ours | Rust | Rust / ours | growth ours | growth Rust |");
        println!("|---|---|---|---|---|---|---|");
        let mut then = [[0.0; 2]; 3];
        let mut rows = vec![Vec::new(); 3];
        for n in sizes {
            let s = make(n);
            let input = isosurface::Input { sides: [n; 3], method: 1, rounds: 4, inside: None, origin: [0.0; 3], step: [1.0; 3], samples: s.clone() };
            let mut times: Vec<[Vec<f64>; 2]> = vec![[Vec::new(), Vec::new()]; 3];
            let mut phases: Vec<Vec<f64>> = vec![Vec::new(); 8];
            let ready = timed::prepare(&input);
            let crossed = unsafe { phase_count(n, n, n, s.as_ptr(), s.len()) };
            let mut l = Lists::new(n, crossed);
            let mut counts = [0; 10];
            let mut triangles = 0;
            for _ in 0..rounds {
                // the whole build
                let (t, _) = micros(|| l.build(n, black_box(&s)));
                times[2][0].push(t);
                counts = l.counts;
                let copy = ready.clone();
                let (t, made) = micros(|| timed::whole(copy, 4));
                times[2][1].push(t);
                let bits = |x: &f64| x.to_bits();
                assert!(made.vertices.iter().map(bits).eq(l.vertices[..3 * counts[1]].iter().map(bits)), "positions differ");
                assert!(made.facets.iter().map(|&v| v as u32).eq(l.tris[..3 * counts[2]].iter().copied()), "triangles differ");
                assert!(made.counts[..] == counts[3..8] && made.crossed == crossed && crossed == counts[0], "counts differ");
                // the march over the finished edge table
                let (t, k) = micros(|| l.march(n, black_box(&s)));
                times[1][0].push(t);
                let (t, facets) = micros(|| timed::march(&ready, &made));
                times[1][1].push(t);
                assert!(k == counts[2] && facets.len() == 3 * k, "marches differ");
                // the marks
                let (t, _) = micros(|| l.mark(n, black_box(&s)));
                times[0][0].push(t);
                let mut copy = ready.clone();
                let (t, e) = micros(|| timed::mark(&mut copy));
                times[0][1].push(t);
                assert!(e == crossed && timed::masks(&copy) == l.masks, "masks differ");
                // our phases, one by one: the candidates and their flags
                let (t, e) = micros(|| unsafe { phase_count(n, n, n, s.as_ptr(), s.len()) });
                assert!(e == crossed);
                phases[0].push(t);
                phases[1].push(*times[0][0].last().unwrap());
                let (t, vertices) = micros(|| l.draw(n, &s));
                phases[2].push(t);
                let (t, k) = micros(|| l.march(n, &s));
                phases[3].push(t);
                triangles = k;
                let (t, _) = micros(|| l.flag(n, k, vertices));
                phases[4].push(t);
                let (t, _) = micros(|| l.clear());
                phases[5].push(t);
                // the floors: a pass over the samples, and zeros over the edge list by the C library
                let (t, _) = micros(|| black_box(&s).iter().filter(|x| **x < -INSIDE).count());
                phases[6].push(t);
                let (t, _) = micros(|| black_box(&mut l.edges).fill(0));
                phases[7].push(t);
            }
            for (k, what) in ["marking", "march", "whole build"].iter().enumerate() {
                let now = [least(&times[k][0]), least(&times[k][1])];
                rows[k].push(format!(
                    "| {what} | {n} | {:.0} | {:.0} | {:.1} | {} | {} |",
                    now[0],
                    now[1],
                    now[1] / now[0],
                    grows(now[0], then[k][0]),
                    grows(now[1], then[k][1])
                ));
                then[k] = now;
            }
            let p: Vec<f64> = phases.iter().map(|t| least(t)).collect();
            let whole = then[2][0];
            let once: f64 = p[..6].iter().sum();
            let share = |x: f64| format!("{:.0} ({:.0}%)", x, 100.0 * x / whole);
            let head = format!("| {name} | {n} | {} | {} | {} | {triangles} | {} | {} | {whole:.0}", counts[0], counts[1], counts[2], counts[8], counts[9]);
            let parts: String = p[..6].iter().chain(&[(whole - once).max(0.0)]).map(|&x| format!(" | {}", share(x))).collect();
            shares.push(format!("{head}{parts} | {:.0} | {:.0} |", p[6], p[7]));
        }
        for line in rows.iter().flatten() {
            println!("{line}");
        }
    }
    println!("\nphases of ours, microseconds and share of the whole build\n");
    println!("| shape | a side | crossed | vertices | triangles | before the split | split | rounds | whole | count E | mark | draw | march | flags | clear | the rest | floor: samples | floor: zeros |");
    println!("|---|---|---|---|---|---|---|---|---|---|---|---|---|---|---|---|---|---|");
    for line in shares {
        println!("{line}");
    }
    println!("\ngrowth of the sites: 8.0, 3.4, 2.4");
}
