//! Tests of the volume through the linked archive: the check of docs/SCOPE.md, S12.5, every refusal and each limit from both sides, lists beside plain Rust, the meshes of
//! builds at other origins, in other orders, turned and reversed, and the pieces of a cut survey.

use spoonthicket::volume::{six_volume, six_volume_of, Refusal};
use spoonthicket::{build, Mesh, Request, INSIDE};

/// As include/spoonthicket.h has it, to see what is left in `six`.
mod linked {
    extern "C" {
        pub fn spoonthicket_volume(
            vertices: *const f64,
            vertices_len: usize,
            triangles: *const u32,
            triangles_len: usize,
            scale: f64,
            origin: *const [i64; 3],
            six: *mut [i64; 1],
        ) -> usize;
    }
}

/// Status and sum. The sum is written whatever stood there, on a refusal too, and the wrapper says the same.
fn asked(vertices: &[f64], triangles: &[u32], scale: f64, origin: [i64; 3]) -> (usize, i64) {
    let mut told = Vec::new();
    for stain in [0x5A5A_5A5A_5A5A_5A5A, -1, 0] {
        let mut six = [stain];
        let status =
            unsafe { linked::spoonthicket_volume(vertices.as_ptr(), vertices.len(), triangles.as_ptr(), triangles.len(), scale, &origin, &mut six) };
        told.push((status, six[0]));
    }
    assert!(told.iter().all(|one| *one == told[0]), "what stood in the sum: {told:?}");
    let (status, six) = told[0];
    assert!(matches!(status, 0 | 10 | 12 | 13) && (status == 0 || six == 0), "{told:?}");
    let wrapped = if status == 0 { Ok(six) } else { Err(Refusal(status)) };
    assert_eq!(six_volume_of(vertices, triangles, scale, origin), wrapped);
    (status, six)
}

/// The same by plain Rust over i128.
fn plain(vertices: &[f64], triangles: &[u32], scale: f64, origin: [i64; 3]) -> (usize, i64) {
    let n = vertices.len() / 3;
    if vertices.len() % 3 != 0 || triangles.len() % 3 != 0 || triangles.len() / 3 > 357_492 || triangles.iter().any(|&v| v as usize >= n) {
        return (10, 0);
    }
    if !(scale > 0.0 && scale < f64::INFINITY) {
        return (12, 0);
    }
    let on = |v: u32, axis: usize| -> Option<i128> {
        let nearest = (vertices[3 * v as usize + axis] * scale).round_ties_even();
        // From 2^70 on a whole number is far from every i64; NaN is not below it either.
        let whole = (nearest.abs() < 1180591620717411303424.0).then(|| nearest as i128 - i128::from(origin[axis]))?;
        (-10_000..=10_000).contains(&whole).then_some(whole)
    };
    let corner = |v: u32| Some([on(v, 0)?, on(v, 1)?, on(v, 2)?]);
    let mut six = 0i128;
    for t in triangles.chunks_exact(3) {
        let (Some(a), Some(b), Some(c)) = (corner(t[0]), corner(t[1]), corner(t[2])) else {
            return (13, 0);
        };
        six += a[0] * (b[1] * c[2] - b[2] * c[1]) + a[1] * (b[2] * c[0] - b[0] * c[2]) + a[2] * (b[0] * c[1] - b[1] * c[0]);
    }
    (0, six.try_into().unwrap())
}

fn beside_plain(vertices: &[f64], triangles: &[u32], scale: f64, origin: [i64; 3]) -> (usize, i64) {
    let ours = asked(vertices, triangles, scale, origin);
    assert_eq!(ours, plain(vertices, triangles, scale, origin), "{vertices:?} {triangles:?} {scale:?} {origin:?}");
    ours
}

struct Random(u64);

impl Random {
    fn next(&mut self) -> u64 {
        self.0 ^= self.0 << 13;
        self.0 ^= self.0 >> 7;
        self.0 ^= self.0 << 17;
        self.0
    }
    fn below(&mut self, n: usize) -> usize {
        (self.next() >> 20) as usize % n
    }
    fn any<T: Copy>(&mut self, of: &[T]) -> T {
        of[self.below(of.len())]
    }
    fn within(&mut self, least: i64, most: i64) -> i64 {
        least + self.below((most - least) as usize + 1) as i64
    }
}

/// A tetrahedron whose sum is 6: the determinant of (1, 0, 0), (0, 2, 0), (0, 0, 3); the other three triangles have a corner at 0.
const FOUR: [f64; 12] = [0.0, 0.0, 0.0, 1.0, 0.0, 0.0, 0.0, 2.0, 0.0, 0.0, 0.0, 3.0];
const SIDES: [u32; 12] = [0, 2, 1, 0, 1, 3, 0, 3, 2, 1, 2, 3];

/// Rows of a diagonal: a triangle from the origin whose sum is the product.
fn spread(x: f64, y: f64, z: f64) -> [f64; 9] {
    [x, 0.0, 0.0, 0.0, y, 0.0, 0.0, 0.0, z]
}

const ONE: [u32; 3] = [0, 1, 2];
const HERE: [i64; 3] = [0; 3];

#[test]
fn the_check_of_the_scope() {
    let mut s = vec![1.0; 27];
    s[13] = -3.0;
    for (method, rounds) in [(0, 0), (0, 4), (1, 0), (1, 4)] {
        let mesh = build(&Request { sides: [3, 3, 3], method, rounds, inside: INSIDE, origin: [0.0; 3], step: [4.0; 3], samples: &s }).unwrap();
        assert_eq!((mesh.counts.vertices, mesh.counts.triangles), (14, 24));
        for origin in [HERE, [5, -7, 11]] {
            assert_eq!(mesh.six_volume(1.0, origin), Ok(1296));
            assert_eq!(six_volume(&mesh.positions, &mesh.triangles, 1.0, origin), Ok(1296));
            assert_eq!(beside_plain(mesh.positions.as_flattened(), mesh.triangles.as_flattened(), 1.0, origin), (0, 1296));
        }
        assert_eq!(mesh.six_volume(100.0, HERE), Ok(1_296_000_000));
        // Far from everything.
        assert_eq!(mesh.six_volume(1.0, [20_000, 0, 0]), Err(Refusal(13)));
        assert_eq!(mesh.six_volume(0.0, HERE), Err(Refusal(12)));
    }
}

#[test]
fn a_tetrahedron() {
    for origin in [HERE, [1, 2, 3], [-9_000, 9_999, 17]] {
        assert_eq!(beside_plain(&FOUR, &SIDES, 1.0, origin), (0, 6));
        assert_eq!(beside_plain(&FOUR, &SIDES, 2.0, origin), (0, 48));
    }
    let back: Vec<u32> = SIDES.iter().rev().copied().collect();
    assert_eq!(beside_plain(&FOUR, &back, 1.0, [4, 5, 6]), (0, -6));
    // Nothing at all, and vertices without triangles.
    assert_eq!(beside_plain(&[], &[], 1.0, HERE), (0, 0));
    assert_eq!(beside_plain(&FOUR, &[], 1.0, [i64::MIN; 3]), (0, 0));
}

/// 10: lists not in whole threes, an index that is no vertex; it comes before 12 and 13.
#[test]
fn lists_that_do_not_fit() {
    // Whatever else is wrong.
    let unfit = [(1.0, HERE), (0.0, HERE), (f64::NAN, HERE), (1.0, [i64::MAX; 3]), (f64::INFINITY, [i64::MIN; 3])];
    for (scale, origin) in unfit {
        for n in 0..=12 {
            let status = beside_plain(&FOUR[..n], &[], scale, origin).0;
            assert_eq!(status == 10, n % 3 != 0);
        }
        for n in 0..=12 {
            let status = beside_plain(&FOUR, &SIDES[..n], scale, origin).0;
            assert_eq!(status == 10, n % 3 != 0);
        }
        for place in 0..12 {
            for (index, bad) in [(3, false), (4, true), (5, true), (12, true), (0x7fff_ffff, true), (0x8000_0000, true), (0xffff_ffff, true)] {
                let mut list = SIDES;
                list[place] = index;
                assert_eq!(beside_plain(&FOUR, &list, scale, origin).0 == 10, bad);
            }
        }
        assert_eq!(beside_plain(&[], &[0, 0, 0], scale, origin).0, 10);
        assert_eq!(beside_plain(&FOUR[..3], &[0, 0, 0, 0, 1, 0], scale, origin).0, 10);
    }
    assert_eq!(beside_plain(&FOUR[..3], &[0, 0, 0], 1.0, HERE), (0, 0));
}

/// As many triangles as are taken, and one more; with the greatest determinant there is, 4 * 10^12, in both directions.
#[test]
fn how_many_triangles() {
    let far = 10_000.0;
    let wide = [-far, far, far, far, -far, far, far, far, -far];
    let mut list = ONE.repeat(357_492);
    assert_eq!(beside_plain(&wide, &list, 1.0, HERE), (0, 357_492 * 4_000_000_000_000));
    list.reverse();
    assert_eq!(beside_plain(&wide, &list, 1.0, HERE), (0, -357_492 * 4_000_000_000_000));
    list.extend(ONE);
    assert_eq!(list.len(), 3 * 357_493);
    for scale in [1.0, 0.0] {
        assert_eq!(beside_plain(&wide, &list, scale, HERE), (10, 0));
    }
    list.truncate(3 * 357_492);
    assert_eq!(beside_plain(&wide, &list, 0.0, HERE), (12, 0));
    *list.last_mut().unwrap() = 3;
    assert_eq!(beside_plain(&wide, &list, 1.0, HERE), (10, 0));
}

/// 12: not above 0, not finite, NaN of any payload; it comes before 13.
#[test]
fn scales_that_do_not_fit() {
    let out = spread(1.0e300, f64::NAN, 1.0);
    let bad = [0.0, -0.0, -1.0, -f64::MIN_POSITIVE, f64::from_bits(0x8000_0000_0000_0001), f64::INFINITY, f64::NEG_INFINITY, f64::MIN];
    let nan = [0x7ff8_0000_0000_0000, 0xfff8_0000_0000_0001, 0x7ff0_0000_0000_0001, 0xfff7_ffff_ffff_ffff, 0x7ff8_dead_0000_beef, u64::MAX].map(f64::from_bits);
    for scale in bad.into_iter().chain(nan) {
        assert_eq!(beside_plain(&FOUR, &SIDES, scale, HERE), (12, 0));
        assert_eq!(beside_plain(&out, &ONE, scale, [i64::MAX; 3]), (12, 0));
        assert_eq!(beside_plain(&[], &[], scale, HERE), (12, 0));
    }
    // The least there is, the least normal one and the largest are taken.
    for scale in [f64::from_bits(1), f64::MIN_POSITIVE, f64::MAX] {
        assert_eq!(beside_plain(&[0.0; 3], &[0, 0, 0], scale, HERE), (0, 0));
    }
    let least = f64::from_bits(1);
    assert_eq!(beside_plain(&FOUR, &SIDES, least, HERE), (0, 0));
    assert_eq!(beside_plain(&FOUR, &SIDES, f64::MAX, HERE), (13, 0));
    // The largest float times the least scale is below 2^-49, so it is rounded to 0.
    assert_eq!(beside_plain(&[f64::MAX; 9], &ONE, least, HERE), (0, 0));
    // The subnormal 2^-1023 as scale: times 2^1023 it is 1.
    let (small, large) = (f64::from_bits(1 << 51), f64::from_bits(0x7fe << 52));
    assert_eq!(beside_plain(&spread(large, large, large), &ONE, small, HERE), (0, 1));
}

/// 13: each corner of each triangle on each axis, the limits from both sides, what has no whole number; and what no triangle names.
#[test]
fn corners_that_are_too_far() {
    let far = 10_000.0;
    // Just in and just out, by whole numbers and by what is rounded: 10,000.5 is a tie to the even 10,000, the next float is not.
    let up = f64::from_bits(10_000.5f64.to_bits() + 1);
    for (x, inside) in [(far, true), (10_000.5, true), (up, false), (10_001.0, false), (9_999.5, true), (f64::INFINITY, false), (f64::NAN, false), (f64::MAX, false)] {
        for sign in [1.0, -1.0] {
            for place in 0..9 {
                let mut at = spread(7.0, 7.0, 7.0);
                at[place] = sign * x;
                let (status, _) = beside_plain(&at, &ONE, 1.0, HERE);
                assert_eq!(status, if inside { 0 } else { 13 }, "{x} at {place}");
                // Among good triangles, first, in the middle and last; at other vertices.
                for before in [0, 1, 3] {
                    let mut all = FOUR.to_vec();
                    all.extend(at);
                    let mut list = SIDES.to_vec();
                    list.splice(3 * before..3 * before, [4, 5, 6]);
                    assert_eq!(beside_plain(&all, &list, 1.0, HERE).0, status);
                    // Which corner names it does not matter either.
                    list[3 * before..3 * before + 3].rotate_left(1 + before % 2);
                    assert_eq!(beside_plain(&all, &list, 1.0, HERE).0, status);
                    // A vertex that no triangle names is not looked at.
                    assert_eq!(beside_plain(&all, &SIDES, 1.0, HERE), (0, 6));
                }
            }
        }
    }
    // The origin moves the limits.
    for axis in 0..3 {
        for (at, status) in [(10_000, 0), (10_001, 13), (-10_000, 0), (-10_001, 13)] {
            let mut origin = HERE;
            origin[axis] = at;
            assert_eq!(beside_plain(&[0.0; 3], &[0, 0, 0], 1.0, origin).0, status);
        }
        for (at, from, status) in [(3.0, -9_997, 0), (3.0, -9_998, 13), (-3.0, 9_997, 0), (-3.0, 9_998, 13), (15_000.0, 5_000, 0), (15_000.0, 4_999, 13)] {
            let (mut origin, mut place) = (HERE, [0.0; 3]);
            (origin[axis], place[axis]) = (from, at);
            assert_eq!(beside_plain(&place, &[0, 0, 0], 1.0, origin).0, status);
        }
    }
    // The product is infinite, or NaN.
    assert_eq!(beside_plain(&[1.0e300, 0.0, 0.0], &[0, 0, 0], 1.0e300, HERE), (13, 0));
    assert_eq!(beside_plain(&[0.0, f64::NEG_INFINITY, 0.0], &[0, 0, 0], f64::from_bits(1), HERE), (13, 0));
    // Retired vertices that are NaN.
    let mut all = FOUR.to_vec();
    all.extend([f64::NAN; 3]);
    assert_eq!(beside_plain(&all, &SIDES, 1.0, HERE), (0, 6));
    assert_eq!(beside_plain(&[f64::NAN; 9], &[], 1.0, HERE), (0, 0));
}

/// What is rounded, and how: once by the product, then to the nearest whole number, a tie to the even one, and the origin comes off last.
#[test]
fn how_a_coordinate_is_rounded() {
    let next = |x: f64| f64::from_bits(x.to_bits() + 1);
    let last = |x: f64| f64::from_bits(x.to_bits() - 1);
    // The sum of (x, 0, 0), (0, 1, 0), (0, 0, 1) is what x is rounded to.
    let whole = |x: f64, scale: f64| beside_plain(&spread(x, 1.0 / scale, 1.0 / scale), &ONE, scale, HERE);
    for (x, n) in [
        (0.0, 0),
        (-0.0, 0),
        (0.25, 0),
        (last(0.5), 0),
        (0.5, 0),
        (next(0.5), 1),
        (1.0, 1),
        (last(1.5), 1),
        (1.5, 2),
        (2.5, 2),
        (next(2.5), 3),
        (3.5, 4),
        (-0.5, 0),
        (-next(0.5), -1),
        (-1.5, -2),
        (-2.5, -2),
        (9_999.5, 10_000),
        (f64::from_bits(1), 0),
        (f64::MIN_POSITIVE, 0),
    ] {
        assert_eq!(whole(x, 1.0), (0, n), "{x:?}");
        assert_eq!(whole(2.0 * x, 0.5), (0, n), "{x:?}");
    }
    // The product is rounded first: 0.15 times 10 is 1.5, which is 2, though the float 0.15 is below 15 hundredths.
    assert_eq!(whole(0.15, 10.0), (0, 2));
    // The origin comes off last: 2.5 is 2, and 2 - 1 is 1. So the rows are (1, -1, -1) and so on; with 2, which is 1.5 rounded, the sum would be 0.
    assert_eq!(beside_plain(&spread(2.5, 2.5, 2.5), &ONE, 1.0, [1; 3]), (0, -4));
    // From 2^52 on every float is whole.
    let two = |n: i32| 2f64.powi(n);
    for (x, o) in [(two(52) - 0.5, 1i64 << 52), (two(52) + 1.0, (1 << 52) + 1), (two(53) + 2.0, (1 << 53) + 2), (two(62), 1 << 62), (two(63) - 1024.0, i64::MAX - 1023)] {
        assert_eq!(beside_plain(&[x; 3], &[0, 0, 0], 1.0, [o; 3]), (0, 0));
        assert_eq!(beside_plain(&[-x; 3], &[0, 0, 0], 1.0, [-o; 3]), (0, 0));
        let from = |o: i64| beside_plain(&[x; 3], &[0, 0, 0], 1.0, [o; 3]).0;
        assert_eq!((from(o - 10_000), from(o - 10_001), from(-o)), (0, 13, 13));
    }
}

/// The largest and the least origin: 2^63 is 1 above the one, -2^63 - 2048 is 2048 below the other.
#[test]
fn origins_at_the_ends() {
    let two = |n: i32| 2f64.powi(n);
    // All three corners have the first coordinate d = x - o; so the sum is d times the determinant of (1, 0, 0), (1, 1, 0), (1, 0, 1), which is 1.
    let end = |x: f64, o: i64| beside_plain(&[x, 0.0, 0.0, x, 1.0, 0.0, x, 0.0, 1.0], &ONE, 1.0, [o, 0, 0]);
    assert_eq!(end(two(63), i64::MAX), (0, 1));
    assert_eq!(end(two(63) + 2048.0, i64::MAX), (0, 2049));
    assert_eq!(end(two(63) + 8192.0, i64::MAX), (0, 8193));
    assert_eq!(end(two(63) + 10_240.0, i64::MAX), (13, 0));
    assert_eq!(end(two(63) - 1024.0, i64::MAX), (0, -1023));
    assert_eq!(end(-two(63), i64::MIN), (0, 0));
    assert_eq!(end(-two(63) - 2048.0, i64::MIN), (0, -2048));
    assert_eq!(end(-two(63) - 8192.0, i64::MIN), (0, -8192));
    assert_eq!(end(-two(63) - 10_240.0, i64::MIN), (13, 0));
    assert_eq!(end(-two(63) + 1024.0, i64::MIN), (0, 1024));
    for o in [i64::MAX, i64::MIN] {
        for x in [0.0, 1.0, -1.0, two(64), -two(64), two(65), -two(65)] {
            assert_eq!(end(x, o), (13, 0));
        }
        assert_eq!(end(if o > 0 { -two(63) } else { two(63) }, o), (13, 0));
    }
}

/// A NaN of any payload, quiet or signalling, of either sign, refuses where a triangle names it and nowhere else.
#[test]
fn every_nan_is_refused() {
    let mut r = Random(77);
    for _ in 0..400 {
        let nan = f64::from_bits(0x7ff0_0000_0000_0000 | (r.next() << 63) | (1 + r.next() % 0xf_ffff_ffff_ffff));
        assert!(nan.is_nan());
        let mut at = FOUR.to_vec();
        at.extend([1.0, nan, 2.0]);
        assert_eq!(beside_plain(&at, &SIDES, 1.0, HERE), (0, 6));
        let mut list = SIDES;
        list[r.below(12)] = 4;
        assert_eq!(beside_plain(&at, &list, 1.0, HERE), (13, 0));
        assert_eq!(beside_plain(&at, &list, nan, HERE), (12, 0));
    }
}

/// Made-up lists beside plain Rust: corners near ties, near the limits, near 2^52, 2^53 and 2^63; faults of every kind; origins over all of i64.
#[test]
fn lists_beside_plain_rust() {
    let mut r = Random(20260714);
    let mut seen = [0; 14];
    for _ in 0..6000 {
        let origin: [i64; 3] = std::array::from_fn(|_| match r.below(6) {
            0 => r.next() as i64,
            1 => r.any(&[i64::MAX, i64::MIN, i64::MAX - 1, i64::MIN + 1]),
            2 => r.any(&[1, -1]) * ((1 << r.any(&[52, 53, 62])) + r.within(-10, 10)),
            _ => r.within(-9_000, 9_000),
        });
        let scale = match r.below(12) {
            0 => r.any(&[0.0, -0.0, -1.0, f64::NAN, f64::INFINITY, f64::NEG_INFINITY]),
            1 => f64::from_bits(r.next()),
            2..=5 => 1.0,
            n => 10f64.powi(n as i32 - 8),
        };
        let named = 1 + r.below(6);
        let mut vertices: Vec<f64> = (0..3 * named)
            .map(|k| {
                let o = origin[k % 3];
                let off = match r.below(40) {
                    0 => r.any(&[10_001, -10_001, 20_000, 1 << 40]),
                    1..=4 => r.any(&[10_000, -10_000, 9_999, -9_999]),
                    _ => r.within(-9_000, 9_000),
                };
                let near = (i128::from(o) + i128::from(off)) as f64 + r.any(&[0.0, 0.5, -0.5, 0.25, -0.25, 0.4999999]);
                let x = if r.below(60) == 0 { f64::from_bits(r.next()) } else { near / scale };
                if r.below(4) == 0 && x.is_finite() && x != 0.0 { f64::from_bits(x.to_bits() + 1 - 2 * r.below(2) as u64) } else { x }
            })
            .collect();
        let mut triangles: Vec<u32> = (0..3 * r.below(9)).map(|_| r.below(named) as u32).collect();
        // Vertices that no triangle names, and faults of the lists.
        vertices.extend((0..3 * r.below(3)).map(|_| f64::from_bits(r.next() | 0x7ff0 << 48)));
        match r.below(24) {
            0 => vertices.push(0.0),
            1 => triangles.push(0),
            2 if !triangles.is_empty() => {
                let at = r.below(triangles.len());
                triangles[at] = (vertices.len() / 3 + r.below(3)) as u32 - r.below(2) as u32;
            }
            _ => {}
        }
        seen[beside_plain(&vertices, &triangles, scale, origin).0] += 1;
    }
    println!("{} sums; of status 10, 12, 13: {:?}", seen[0], [seen[10], seen[12], seen[13]]);
    assert!([0, 10, 12, 13].iter().all(|&n| seen[n] > 100), "{seen:?}");
}

/// Noise in a box; `closed` puts the border on one side.
fn noise(r: &mut Random, sides: [usize; 3], closed: bool) -> Vec<f64> {
    let [nu, nv, nw] = sides;
    let outer = r.any(&[1.0, -1.0]);
    let mut s = Vec::new();
    for w in 0..nw {
        for v in 0..nv {
            for u in 0..nu {
                let x = r.below(2001) as f64 / 500.0 - 2.0;
                let border = u == 0 || v == 0 || w == 0 || u == nu - 1 || v == nv - 1 || w == nw - 1;
                s.push(if closed && border { outer * (x.abs() + 0.25) } else { x });
            }
        }
    }
    s
}

fn mixed<T: Clone>(r: &mut Random, list: &[T]) -> Vec<T> {
    let mut out = list.to_vec();
    for k in (1..out.len()).rev() {
        out.swap(k, r.below(k + 1));
    }
    out
}

/// A whole origin from which all corners are accepted: in the middle of them, and a little off.
fn middle(r: &mut Random, mesh: &Mesh, scale: f64) -> [i64; 3] {
    let mut origin = HERE;
    for (axis, o) in origin.iter_mut().enumerate() {
        let all = mesh.triangles.iter().flatten().map(|&v| mesh.positions[v as usize][axis] * scale);
        let (low, high) = all.fold((f64::INFINITY, f64::NEG_INFINITY), |(a, b), x| (a.min(x), b.max(x)));
        let room = 9_990.0 - (high - low) / 2.0;
        assert!(room > 0.0, "it does not fit");
        *o = ((high + low) / 2.0) as i64 + r.within(-(room as i64), room as i64);
    }
    origin
}

/// The meshes of builds: never 10; beside plain Rust; in any order, turned and reversed; and where the border is on one side, from any origin.
#[test]
fn meshes_of_builds() {
    let mut r = Random(99);
    let (mut closed_ones, mut refused, mut largest) = (0, 0, 0);
    for round in 0..160 {
        let closed = round % 4 != 3;
        let least = if closed { 3 } else { 1 };
        let sides = if round < 4 { [32; 3] } else { std::array::from_fn(|_| least + r.below(8)) };
        let s = noise(&mut r, sides, closed);
        let request = Request { sides, method: round % 2, rounds: r.below(5), inside: INSIDE, origin: [1.0e6, -2.5, 0.1], step: [0.3, 0.7, 1.1], samples: &s };
        let mesh = build(&request).unwrap();
        largest = largest.max(mesh.triangles.len());
        let flat = mesh.positions.as_flattened();
        // Whatever scale and origin: a build's lists are never answered 10.
        for scale in [1.0, 0.0, f64::NAN, 1.0e9, f64::MIN_POSITIVE] {
            let (status, _) = beside_plain(flat, mesh.triangles.as_flattened(), scale, [r.next() as i64, 0, 0]);
            assert_ne!(status, 10);
            assert!(status != 12 || !(scale > 0.0));
            refused += usize::from(status == 13);
        }
        if mesh.triangles.is_empty() {
            continue;
        }
        let scale = r.any(&[1.0, 10.0, 100.0]);
        let origin = middle(&mut r, &mesh, scale);
        let (status, six) = beside_plain(flat, mesh.triangles.as_flattened(), scale, origin);
        assert_eq!(status, 0);
        assert_eq!(mesh.six_volume(scale, origin), Ok(six));

        let order = mixed(&mut r, &mesh.triangles);
        assert_eq!(six_volume(&mesh.positions, &order, scale, origin), Ok(six));
        let turned: Vec<[u32; 3]> = mesh.triangles.iter().map(|t| std::array::from_fn(|k| t[(k + t[0] as usize) % 3])).collect();
        assert_eq!(six_volume(&mesh.positions, &turned, scale, origin), Ok(six));
        let back: Vec<[u32; 3]> = order.iter().map(|&[a, b, c]| r.any(&[[c, b, a], [b, a, c], [a, c, b]])).collect();
        assert_eq!(six_volume(&mesh.positions, &back, scale, origin), Ok(-six));
        if closed {
            for _ in 0..3 {
                let other = middle(&mut r, &mesh, scale);
                assert_eq!(mesh.six_volume(scale, other), Ok(six), "{origin:?} {other:?}");
            }
            closed_ones += 1;
        }
    }
    assert!(closed_ones > 100 && refused > 0);
    println!("{closed_ones} closed meshes, the largest of all has {largest} triangles");
}

/// A surface that is cut open has no volume: its sum moves with the origin.
#[test]
fn an_open_surface_moves() {
    let s: Vec<f64> = (0..27).map(|k| if k % 3 == 0 { -1.0 } else { 1.0 }).collect();
    let mesh = build(&Request { sides: [3, 3, 3], method: 0, rounds: 0, inside: INSIDE, origin: [0.0; 3], step: [4.0; 3], samples: &s }).unwrap();
    assert_ne!(mesh.six_volume(1.0, HERE), mesh.six_volume(1.0, [5, -7, 11]));
}

/// A survey cut into boxes that share a layer of sites: with method 0, one scale, one whole origin and shared vertices with the same bits, the pieces' sums add
/// up to the whole's, open as they are. Origin and step of the frames are multiples of a power of two, so that nothing is rounded on the way.
#[test]
fn pieces_add_up() {
    let mut r = Random(4321);
    for round in 0..60 {
        let sides: [usize; 3] = if round == 0 { [32, 31, 30] } else { std::array::from_fn(|_| 3 + r.below(9)) };
        let closed = round % 2 == 0;
        let s = noise(&mut r, sides, closed);
        let (step, from) = (r.any(&[0.25, 1.0, 4.0]), [512.0, -64.25, 0.5]);
        let whole = build(&Request { sides, method: 0, rounds: 0, inside: INSIDE, origin: from, step: [step; 3], samples: &s }).unwrap();
        if whole.triangles.is_empty() {
            continue;
        }
        let cuts: [usize; 3] = sides.map(|n| 1 + r.below(n - 2));
        let (scale, mut pieces) = (r.any(&[1.0, 3.0, 10.0]), Vec::new());
        for part in 0..8 {
            let low: [usize; 3] = std::array::from_fn(|axis| if part >> axis & 1 == 0 { 0 } else { cuts[axis] });
            let high: [usize; 3] = std::array::from_fn(|axis| if part >> axis & 1 == 0 { cuts[axis] } else { sides[axis] - 1 });
            let mut samples = Vec::new();
            for w in low[2]..=high[2] {
                for v in low[1]..=high[1] {
                    for u in low[0]..=high[0] {
                        samples.push(s[u + sides[0] * (v + sides[1] * w)]);
                    }
                }
            }
            let [u, v, w] = low.map(|n| n as f64);
            let origin = [from[0] + (w - u - v) * step, from[1] + (u - v) * step, from[2] - w * step];
            let sides = std::array::from_fn(|axis| high[axis] - low[axis] + 1);
            pieces.push(build(&Request { sides, method: 0, rounds: 0, inside: INSIDE, origin, step: [step; 3], samples: &samples }).unwrap());
        }
        assert_eq!(pieces.iter().map(|p| p.triangles.len()).sum::<usize>(), whole.triangles.len());
        for _ in 0..3 {
            let origin = middle(&mut r, &whole, scale);
            let sum: i64 = pieces.iter().map(|p| p.six_volume(scale, origin).unwrap()).sum();
            assert_eq!(whole.six_volume(scale, origin), Ok(sum), "cut at {cuts:?}");
        }
    }
}

#[test]
fn words_of_the_refusals() {
    let all: Vec<&str> = [10, 12, 13].iter().map(|&n| Refusal(n).words()).collect();
    assert!(all.iter().all(|w| !w.is_empty() && *w != Refusal(11).words()));
    assert_ne!(Refusal(10).words(), spoonthicket::ply::Refusal::Read(10).words());
    assert_ne!(Refusal(10).words(), spoonthicket::ply::Refusal::Written(10).words());
    assert_eq!(Refusal(12).to_string(), "refused (12): a scale that is not above 0 and finite");
}
