// Benchmark of the crates `sort` and `pairs`: the sort and the run walk against Rust's sort_unstable and against counting in a HashMap, on the same records, in one run.
//
// Two tables. "sort": records of three words (lower end, higher end, number) put in order.
// "flags": from a list of triangles to one flag a side, 1 where its pair is a side more than twice.
// Every result is compared before a line is printed; a difference ends the program with an error.
// Each time is the median of ROUNDS runs, in milliseconds. Rooms and lists are made outside the clock, the HashMap inside.

use std::collections::HashMap;
use std::hint::black_box;
use std::time::Instant;

const ROUNDS: usize = 5;
const SIZES: [usize; 2] = [100_000, 1_000_000];

extern "C" {
    fn bench_fill(tris: *const u32, tris_len: usize, room: *mut u32, room_len: usize);
    fn bench_sort(s: *mut u32, s_len: usize);
    fn bench_over_sides(tris: *const u32, tris_len: usize, room: *mut u32, room_len: usize);
}

type Rec = [u32; 3];

// ---- the calls: each asks for what the contract requires

fn room_fits(tris: &[u32], room: &[u32]) {
    assert!(tris.len() % 3 == 0);
    assert!(room.len() >= tris.len() * 3);
    assert!(tris.len() <= 4_294_967_296);
}

fn rattle_fill(tris: &[u32], room: &mut [u32]) {
    room_fits(tris, room);
    assert!(room.len() == tris.len() * 3);
    unsafe { bench_fill(tris.as_ptr(), tris.len(), room.as_mut_ptr(), room.len()) }
}

fn rattle_sort(s: &mut [u32]) {
    unsafe { bench_sort(s.as_mut_ptr(), s.len()) }
}

fn rattle_over_sides(tris: &[u32], room: &mut [u32]) {
    room_fits(tris, room);
    unsafe { bench_over_sides(tris.as_ptr(), tris.len(), room.as_mut_ptr(), room.len()) }
}

// ---- the same in Rust

fn rust_fill(tris: &[u32], recs: &mut [Rec]) {
    let mut k = 0;
    for (t, out) in tris.chunks_exact(3).zip(recs.chunks_exact_mut(3)) {
        for i in 0..3 {
            let (u, v) = (t[i], t[(i + 1) % 3]);
            out[i] = [u.min(v), u.max(v), k];
            k += 1;
        }
    }
}

fn rust_runs(recs: &[Rec], flags: &mut [u32]) {
    let mut i = 0;
    while i < recs.len() {
        let (low, high) = (recs[i][0], recs[i][1]);
        let mut j = i + 1;
        while j < recs.len() && recs[j][0] == low && recs[j][1] == high {
            j += 1;
        }
        let flag = (j - i > 2) as u32;
        for r in &recs[i..j] {
            flags[r[2] as usize] = flag;
        }
        i = j;
    }
}

fn hash_flags(tris: &[u32], flags: &mut [u32]) {
    let pair = |k: usize| {
        let (u, v) = (tris[k], tris[if k % 3 == 2 { k - 2 } else { k + 1 }]);
        (u.min(v), u.max(v))
    };
    let mut counts: HashMap<(u32, u32), u32> = HashMap::new();
    for k in 0..tris.len() {
        *counts.entry(pair(k)).or_insert(0) += 1;
    }
    for k in 0..tris.len() {
        flags[k] = (counts[&pair(k)] > 2) as u32;
    }
}

// ---- the inputs

// A fixed sequence (xorshift), so that every run has the same inputs.
struct Random(u64);

impl Random {
    fn next(&mut self) -> u64 {
        self.0 ^= self.0 << 13;
        self.0 ^= self.0 >> 7;
        self.0 ^= self.0 << 17;
        self.0
    }

    fn below(&mut self, n: u64) -> u32 {
        ((self.next() >> 11) % n) as u32
    }
}

// Any three of few vertices: 1.5 sides for each pair there could be.
fn random(n: usize) -> Vec<u32> {
    let mut r = Random(88172645463325252);
    let few = (2.0 * (n as f64).sqrt()) as u64;
    (0..n * 3).map(|_| r.below(few)).collect()
}

// Any three words: hardly a pair comes twice. Every 16th triangle comes three times in a row.
fn wide(n: usize) -> Vec<u32> {
    let mut r = Random(362436069362436069);
    let mut tris: Vec<u32> = (0..n * 3).map(|_| r.next() as u32).collect();
    for k in (0..n.saturating_sub(2)).step_by(16) {
        for i in 0..3 {
            let v = tris[k * 3 + i];
            tris[k * 3 + 3 + i] = v;
            tris[k * 3 + 6 + i] = v;
        }
    }
    tris
}

// As random, and one vertex in eight is a power of two: a few ends far above the others, at every scale. Hard for a sort that halves the range of the keys.
fn uneven(n: usize) -> Vec<u32> {
    let mut r = Random(5783321234567891);
    let few = (2.0 * (n as f64).sqrt()) as u64;
    (0..n * 3).map(|_| if r.below(8) == 0 { 1 << r.below(32) } else { r.below(few) }).collect()
}

// A flat grid of squares cut in two, row by row: inner pairs have two triangles. Every 1000th triangle is its forerunner once more.
fn grid(n: usize) -> Vec<u32> {
    let wide = ((n / 2) as f64).sqrt().ceil() as usize;
    let mut tris = Vec::with_capacity(n * 3);
    for k in 0..n {
        let k = if k % 1000 == 999 { k - 1 } else { k };
        let (row, col) = (k / 2 / wide, k / 2 % wide);
        let at = |r: usize, c: usize| (r * (wide + 1) + c) as u32;
        if k % 2 == 0 {
            tris.extend([at(row, col), at(row, col + 1), at(row + 1, col)]);
        } else {
            tris.extend([at(row, col + 1), at(row + 1, col + 1), at(row + 1, col)]);
        }
    }
    tris
}

// A strip whose sides come in order. Every 16th triangle is one vertex three times: a pair with three sides.
fn sorted(n: usize) -> Vec<u32> {
    let mut tris = Vec::with_capacity(n * 3);
    for k in 0..n as u32 {
        let v = 2 * k;
        if k % 16 == 15 {
            tris.extend([v, v, v]);
        } else {
            tris.extend([v + 1, v, v + 2]);
        }
    }
    tris
}

// The strip from its end, so that the pairs come downward.
fn reversed(n: usize) -> Vec<u32> {
    let mut tris = Vec::with_capacity(n * 3);
    for k in (0..n as u32).rev() {
        let v = 2 * k;
        if k % 16 == 15 {
            tris.extend([v, v, v]);
        } else {
            tris.extend([v + 1, v + 2, v]);
        }
    }
    tris
}

// One triangle, of one vertex, again and again: one pair.
fn equal(n: usize) -> Vec<u32> {
    vec![7; n * 3]
}

fn records(tris: &[u32]) -> Vec<Rec> {
    let mut recs = vec![[0; 3]; tris.len()];
    rust_fill(tris, &mut recs);
    let mut room = vec![0; tris.len() * 3];
    rattle_fill(tris, &mut room);
    assert!(room.iter().eq(recs.iter().flatten()), "fill differs");
    recs
}

// One pair, its numbers in any order.
fn shuffled(n: usize) -> Vec<Rec> {
    let mut recs: Vec<Rec> = (0..n as u32).map(|k| [7, 7, k]).collect();
    let mut r = Random(521288629521288629);
    for i in (1..n).rev() {
        recs.swap(i, r.below(i as u64 + 1) as usize);
    }
    recs
}

// ---- the clock

fn millis(mut f: impl FnMut()) -> f64 {
    let t = Instant::now();
    f();
    t.elapsed().as_secs_f64() * 1000.0
}

fn median(mut times: Vec<f64>) -> f64 {
    times.sort_by(|a, b| a.partial_cmp(b).unwrap());
    times[times.len() / 2]
}

// Milliseconds of the two sorts.
fn time_sort(recs: &[Rec]) -> [f64; 2] {
    let words: Vec<u32> = recs.iter().flatten().copied().collect();
    let (mut a, mut b) = (Vec::new(), Vec::new());
    for _ in 0..ROUNDS {
        let mut s = words.clone();
        a.push(millis(|| rattle_sort(black_box(&mut s))));
        let mut t = recs.to_vec();
        b.push(millis(|| black_box(&mut t).sort_unstable()));
        assert!(s.iter().eq(t.iter().flatten()), "sort differs");
    }
    [median(a), median(b)]
}

// Milliseconds of the four ways to the flags, and how many sides are flagged. The second way lends a word for each vertex besides, where there are no more vertices than sides.
fn time_flags(tris: &[u32]) -> ([f64; 4], usize) {
    let n = tris.len();
    let ends = tris.iter().max().map_or(0, |v| *v as usize + 1);
    let more = if ends <= n { ends } else { 0 };
    let (mut a, mut d, mut b, mut c) = (Vec::new(), Vec::new(), Vec::new(), Vec::new());
    let mut flagged = 0;
    for _ in 0..ROUNDS {
        let mut room = vec![9; n * 3];
        a.push(millis(|| rattle_over_sides(black_box(tris), black_box(&mut room))));
        let mut wide = vec![9; n * 3 + more];
        d.push(millis(|| rattle_over_sides(black_box(tris), black_box(&mut wide))));
        assert!(wide[..n * 3] == room[..] && wide[n * 3..].iter().all(|w| *w == 0), "flags differ with more room");
        let mut recs = vec![[9; 3]; n];
        let mut by_sort = vec![9; n];
        b.push(millis(|| {
            rust_fill(black_box(tris), &mut recs);
            recs.sort_unstable();
            rust_runs(&recs, black_box(&mut by_sort));
        }));
        let mut by_hash = vec![9; n];
        c.push(millis(|| hash_flags(black_box(tris), black_box(&mut by_hash))));
        assert!(room[..n] == by_sort[..], "flags differ from the sorted ones");
        assert!(room[..n] == by_hash[..], "flags differ from the counted ones");
        assert!(room[n..].iter().all(|w| *w == 0), "the rest of the room is not zero");
        flagged = by_hash.iter().filter(|f| **f == 1).count();
    }
    ([median(a), median(d), median(b), median(c)], flagged)
}

fn main() {
    let lists: [(&str, fn(usize) -> Vec<u32>); 7] = [
        ("random", random),
        ("wide", wide),
        ("uneven", uneven),
        ("grid", grid),
        ("sorted", sorted),
        ("reversed", reversed),
        ("all equal", equal),
    ];
    let grows = |now: f64, then: f64| if then > 0.0 { format!("{:.1}", now / then) } else { String::new() };

    println!("sort, milliseconds (median of {ROUNDS})");
    println!();
    println!("| shape | records | Rattle | sort_unstable | Rattle / sort_unstable | growth Rattle | growth sort_unstable |");
    println!("|---|---|---|---|---|---|---|");
    for shape in 0..=lists.len() {
        let mut then = [0.0; 2];
        for size in SIZES {
            let (name, recs) = if shape < lists.len() {
                let (name, make) = lists[shape];
                let recs = if name == "all equal" { vec![[7; 3]; size.div_ceil(3) * 3] } else { records(&make(size.div_ceil(3))) };
                (name, recs)
            } else {
                ("one pair, numbers shuffled", shuffled(size.div_ceil(3) * 3))
            };
            let t = time_sort(&recs);
            println!(
                "| {name} | {} | {:.1} | {:.1} | {:.2} | {} | {} |",
                recs.len(),
                t[0],
                t[1],
                t[0] / t[1],
                grows(t[0], then[0]),
                grows(t[1], then[1])
            );
            then = t;
        }
    }

    println!();
    println!("flags, milliseconds (median of {ROUNDS})");
    println!();
    println!("| shape | sides | flagged | Rattle | Rattle, more room | sort_unstable | HashMap | Rattle / sort_unstable | more room / sort_unstable | more room / HashMap | growth Rattle | growth more room | growth sort_unstable | growth HashMap |");
    println!("|---|---|---|---|---|---|---|---|---|---|---|---|---|---|");
    for (name, make) in lists {
        let mut then = [0.0; 4];
        for size in SIZES {
            let tris = make(size.div_ceil(3));
            let (t, flagged) = time_flags(&tris);
            println!(
                "| {name} | {} | {flagged} | {:.1} | {:.1} | {:.1} | {:.1} | {:.2} | {:.2} | {:.2} | {} | {} | {} | {} |",
                tris.len(),
                t[0],
                t[1],
                t[2],
                t[3],
                t[0] / t[2],
                t[1] / t[2],
                t[1] / t[3],
                grows(t[0], then[0]),
                grows(t[1], then[1]),
                grows(t[2], then[2]),
                grows(t[3], then[3])
            );
            then = t;
        }
    }

    println!();
    let (small, large) = (SIZES[0] as f64, SIZES[1] as f64);
    println!("growth of n log n: {:.1}", large * large.ln() / (small * small.ln()));
}
