//! Tests that link the archive: examples to check by (docs/SCOPE.md, S14.1), points on their edges, every refusal with every buffer untouched, buffers exactly full and one short,
//! and what a threshold decides.

use spoonthicket::{build, build_in, sort, topology, visits, Buffers, Counts, Mesh, Refusal, Request, Topology, INSIDE, NONE};

const ORIGIN: [f64; 3] = [0.0; 3];
const STEP: [f64; 3] = [1.0; 3];

/// Thresholds that are taken.
const TAKEN: [f64; 12] = [0.0, -0.0, 5e-324, 1.0e-310, f64::MIN_POSITIVE, 1.0e-300, 1.0e-12, INSIDE, 1.0e-3, 0.25, 1.0 - f64::EPSILON / 2.0, 1.0];

fn asked(sides: [usize; 3], samples: &[f64]) -> Request<'_> {
    Request { sides, method: 1, rounds: 4, inside: INSIDE, origin: ORIGIN, step: STEP, samples }
}

/// The next float below one that is not above 0.
fn below(x: f64) -> f64 {
    assert!(x <= 0.0);
    if x == 0.0 { -5e-324 } else { f64::from_bits(x.to_bits() + 1) }
}

/// The lattice place of a site of 3 x 3 x 3.
fn site(k: usize) -> [f64; 3] {
    let (u, v, w) = ((k % 3) as f64, (k / 3 % 3) as f64, (k / 9) as f64);
    [w - u - v, u - v, -w]
}

/// 27 samples, one value around the centre and one in it.
fn ball(around: f64, centre: f64) -> Vec<f64> {
    let mut s = vec![around; 27];
    s[13] = centre;
    s
}

/// Buffers of these lengths whose every entry is a number that no build writes there by chance.
fn stained(masks: usize, table: usize, vertices: usize, book: usize, triangles: usize, edges: usize) -> Buffers {
    let words = |n: usize, k: usize| (0..n).map(|i| 0xA5A5_0000u32 ^ (i * k) as u32).collect::<Vec<u32>>();
    Buffers {
        masks: (0..masks).map(|i| 0xC3C3 ^ i as u16).collect(),
        table: words(table, 3),
        vertices: (0..vertices).map(|i| -1.0e300 - i as f64).collect(),
        book: words(book, 5),
        triangles: words(triangles, 7),
        edges: words(edges, 11),
    }
}

/// A refusal with this number that leaves every entry as it was; floats are compared by their bits.
fn refuses(number: usize, request: &Request, b: &Buffers) {
    let mut after = b.clone();
    assert_eq!(build_in(request, &mut after), Err(Refusal(number)), "{request:?}");
    assert!(after.vertices.iter().map(|x| x.to_bits()).eq(b.vertices.iter().map(|x| x.to_bits())));
    assert!(after == *b, "a refusal stored something");
}

/// The crossed edges (docs/SCOPE.md, S3.3), counted by hand: seven owned edges a site, along (a, b, c) not all 0.
fn crossed(sides: [usize; 3], inside: f64, s: &[f64]) -> usize {
    let [nu, nv, nw] = sides;
    let mut n = 0;
    for w in 0..nw {
        for v in 0..nv {
            for u in 0..nu {
                for c in 1..8 {
                    let (x, y, z) = (u + c % 2, v + c / 2 % 2, w + c / 4);
                    if x < nu && y < nv && z < nw {
                        n += usize::from((s[u + nu * (v + nv * w)] < -inside) != (s[x + nu * (y + nv * z)] < -inside));
                    }
                }
            }
        }
    }
    n
}

/// Method 0, a box of 3 x 3 x 3: each coordinate lies between the two places of the edge, or within a rounding of the second.
fn stands_between(request: &Request, mesh: &Mesh) {
    for (k, &vertex) in mesh.table.iter().enumerate().filter(|(_, &v)| v != NONE) {
        let (here, c) = (k / 7, [1, 3, 2, 5, 7, 6, 4][k % 7]);
        let there = here + c % 2 + 3 * (c / 2 % 2) + 9 * (c / 4);
        for axis in 0..3 {
            let [p, q] = [here, there].map(|k| request.origin[axis] + site(k)[axis] * request.step[axis]);
            let x = mesh.positions[vertex as usize][axis];
            assert!(p.min(q) - 1.0e-12 <= x && x <= p.max(q) + 1.0e-12, "{here} {there} {axis}: {p} {x} {q}");
        }
    }
}

struct Random(u64);

impl Random {
    fn next(&mut self) -> u64 {
        self.0 ^= self.0 << 13;
        self.0 ^= self.0 >> 7;
        self.0 ^= self.0 << 17;
        self.0
    }
    fn below(&mut self, n: usize) -> usize {
        (self.next() >> 20) as usize % n
    }
    fn sample(&mut self) -> f64 {
        match self.below(12) {
            0 => 0.0,
            1 => -1.0e-9,
            2 => f64::from_bits(0xbe112e0be826d696),
            _ => self.below(2001) as f64 / 500.0 - 2.0,
        }
    }
}

#[test]
fn example() {
    let s = ball(1.0, -1.0);
    let mesh = build(&asked([3, 3, 3], &s)).unwrap();
    let counts = Counts { crossed: 14, vertices: 8, triangles: 12, simple: 8, ..Counts::default() };
    assert_eq!(mesh.counts, counts);
    assert_eq!(mesh.positions.len(), 8);
    assert_eq!(mesh.triangles.len(), 12);
}

#[test]
fn closed_surfaces() {
    for s in [ball(1.0, -3.0), ball(3.0, -1.0)] {
        let mesh = build(&asked([3, 3, 3], &s)).unwrap();
        assert_eq!((mesh.counts.vertices, mesh.counts.triangles), (14, 24));
    }
    let s = ball(3.0, -1.0);
    let mesh = build(&asked([3, 3, 3], &s)).unwrap();
    assert_eq!(mesh.masks[13], 0x3FFF);
    assert_eq!(mesh.counts.closed, 1);
}

/// Both samples of an edge negative, one of them inside: the vertex stands at the site that is outside, and nothing flies off.
#[test]
fn no_spikes() {
    let (edge, hair) = (-1.0e-9, f64::from_bits(0xbe112e0be826d696));
    for centre in [hair, -2.0e-9, -1.0, -1.0e300] {
        for method in [0, 1] {
            let s = ball(edge, centre);
            let mesh = build(&Request { method, ..asked([3, 3, 3], &s) }).unwrap();
            assert_eq!((mesh.counts.crossed, mesh.counts.vertices, mesh.counts.triangles), (14, 14, 24));
            for (at, row) in mesh.positions.iter().zip(&mesh.book) {
                assert_ne!(row[0], 13);
                assert_eq!(*at, site(row[0] as usize));
            }
        }
    }
    // A frame whose rounded places are not whole.
    let mut r = Random(7);
    for _ in 0..200 {
        let s: Vec<f64> = (0..27).map(|_| if r.below(2) == 0 { edge * (r.below(200) as f64 / 100.0) } else { r.sample() }).collect();
        let request = Request { method: 0, origin: [0.1, -7.3, 1000.1], step: [0.7, 0.1, 3.3], ..asked([3, 3, 3], &s) };
        stands_between(&request, &build(&request).unwrap());
    }
}

/// -h is outside and the next float below it inside, in a build and to the topology test; zeros of both signs are outside for every threshold that is taken.
#[test]
fn sides_by_the_threshold() {
    for inside in TAKEN {
        let edge = -inside;
        let crosses = |around: f64, centre: f64| build(&Request { inside, ..asked([3, 3, 3], &ball(around, centre)) }).unwrap().counts.crossed;
        assert!(below(edge) < edge);
        for outside in [edge, edge / 2.0, 0.0, -0.0, 5e-324, inside, 2.0, f64::NAN, f64::INFINITY] {
            assert_eq!(crosses(1.0, outside), 0, "{inside:e}: {outside:e} in the middle");
            assert_eq!(crosses(outside, 1.0), 0, "{inside:e}: {outside:e} around");
            assert_eq!(crosses(-2.0, outside), 14, "{inside:e}: {outside:e} in the middle");
            assert_eq!(crosses(outside, -2.0), 14, "{inside:e}: {outside:e} around");
        }
        for within in [below(edge), below(below(edge)), edge * 2.0 - 5e-324, -1.5, f64::MIN, f64::NEG_INFINITY] {
            assert_eq!(crosses(1.0, within), 14, "{inside:e}: {within:e} in the middle");
            assert_eq!(crosses(within, 1.0), 14, "{inside:e}: {within:e} around");
            assert_eq!(crosses(-2.0, within), 0, "{inside:e}: {within:e} in the middle");
            assert_eq!(crosses(within, edge), 14, "{inside:e}: {within:e} around");
        }
        // A flat hole where C and D are inside and A and B are not, and the crossings are near A.
        let case = |a: f64, c: f64| {
            let mut ends = [f64::NAN; 14];
            (ends[0], ends[1], ends[4], ends[13]) = (a, a, c, c);
            topology(0x2014, 1, inside, &ends).case
        };
        assert_eq!([case(0.0, edge), case(0.0, below(edge)), case(edge, below(edge))], [4, 2, 2], "{inside:e}");
        assert_eq!([case(below(edge), below(below(edge))), case(-0.0, -1.5), case(-0.0, 0.0)], [4, 2, 4], "{inside:e}");
    }
    let s = ball(1.0, -0.25);
    let quarter = Request { inside: 0.25, ..asked([3, 3, 3], &s) };
    assert_eq!(build(&quarter).unwrap().counts, Counts::default());
    let s = ball(1.0, below(-0.25));
    assert_eq!(build(&Request { samples: &s, ..quarter }).unwrap().counts.crossed, 14);
}

/// Threshold 1, samples of -0.9 and -1.1: an edge between them is crossed, and its vertex stands at the site of -0.9.
#[test]
fn the_side_moves_and_not_the_point() {
    for method in [0, 1] {
        for (around, centre) in [(-0.9, -1.1), (-1.1, -0.9)] {
            let s = ball(around, centre);
            let request = Request { method, inside: 1.0, ..asked([3, 3, 3], &s) };
            let mesh = build(&request).unwrap();
            assert_eq!((mesh.counts.crossed, mesh.counts.vertices, mesh.counts.triangles), (14, 14, 24));
            for (at, row) in mesh.positions.iter().zip(&mesh.book) {
                assert_eq!(row[0] == 13, centre == -0.9);
                assert_eq!(*at, site(row[0] as usize));
            }
            let none = build(&Request { inside: INSIDE, ..request }).unwrap();
            assert_eq!(none.counts, Counts::default());
        }
        // Where the samples have other signs the threshold moves nothing, as long as the sides are the same.
        let s = ball(1.0, -1.1);
        let request = Request { method, ..asked([3, 3, 3], &s) };
        let mesh = build(&request).unwrap();
        assert_eq!(mesh.counts.crossed, 14);
        for inside in TAKEN {
            assert!(build(&Request { inside, ..request }).unwrap() == mesh, "{inside:e}");
        }
    }
}

/// Triangles by the owned edges on which their corners stand.
fn by_edges(mesh: &Mesh) -> Vec<[usize; 3]> {
    let mut edge = vec![usize::MAX; mesh.positions.len()];
    for (k, &vertex) in mesh.table.iter().enumerate().filter(|(_, &v)| v != NONE) {
        assert_eq!(edge[vertex as usize], usize::MAX);
        edge[vertex as usize] = k;
    }
    mesh.triangles.iter().map(|t| t.map(|v| edge[v as usize])).collect()
}

/// Method 0: which edges have a vertex, and which triangles stand on them, depends on the sides alone. Values about each threshold beside 1 and -1.
#[test]
fn the_sides_are_all() {
    let mut r = Random(31);
    for round in 0..600 {
        let inside = TAKEN[round % TAKEN.len()];
        let edge = -inside;
        let values = [edge, below(edge), below(below(edge)), edge / 2.0, edge * 2.0, edge * 1.5 - 5e-324, 0.0, -0.0, 5e-324, -1.0, 1.0, -2.0, 2.0, 1.0e308, -1.0e308];
        let s: Vec<f64> = (0..27).map(|_| values[r.below(values.len())]).collect();
        let plain: Vec<f64> = s.iter().map(|&x| if x < -inside { -1.0 } else { 1.0 }).collect();
        let request = Request { method: 0, inside, origin: [0.1, -7.3, 1000.1], step: [0.7, 0.1, 3.3], ..asked([3, 3, 3], &s) };
        let mesh = build(&request).unwrap();
        assert_eq!(mesh.counts.crossed, crossed([3, 3, 3], inside, &s));
        assert_eq!(mesh.counts.vertices, mesh.counts.crossed);
        stands_between(&request, &mesh);
        let other = build(&Request { method: 0, ..asked([3, 3, 3], &plain) }).unwrap();
        assert_eq!(by_edges(&mesh), by_edges(&other), "threshold {inside:e}: {s:?}");
    }
}

/// Threshold 0: subnormals of both signs, zeros, and ends that are less than 1e-30 apart. All positions are finite, and stand on their edges.
#[test]
fn threshold_zero() {
    let mut r = Random(300);
    let mut made = 0;
    for round in 0..600 {
        let size = [5e-324, 1.0e-322, 1.0e-310, f64::MIN_POSITIVE, 1.0e-300, 1.0e-31][round % 6];
        let s: Vec<f64> = (0..27)
            .map(|_| match r.below(8) {
                0 => 0.0,
                1 => -0.0,
                2 => -5e-324,
                3 => 5e-324,
                _ => size * (r.below(2001) as f64 / 1000.0 - 1.0),
            })
            .collect();
        let request = Request { inside: [0.0, -0.0][round / 6 % 2], method: round / 12 % 2, ..asked([3, 3, 3], &s) };
        let mesh = build(&request).unwrap();
        assert_eq!(mesh.counts.crossed, crossed([3, 3, 3], 0.0, &s));
        assert!(mesh.positions.iter().flatten().all(|x| x.is_finite() && x.abs() <= 6.0), "{s:?}");
        if request.method == 0 {
            stands_between(&request, &mesh);
        }
        made += mesh.counts.vertices;
    }
    assert!(made > 1000);
}

#[test]
fn one_site() {
    for x in [1.0, -1.0, f64::NAN, f64::INFINITY, f64::NEG_INFINITY] {
        let mesh = build(&asked([1, 1, 1], &[x])).unwrap();
        assert_eq!(mesh.counts, Counts::default());
        assert_eq!(mesh.table, [NONE; 7]);
    }
}

/// Method 0: no cases are counted, and each crossed edge, its samples being finite, has a vertex of its own.
#[test]
fn without_clusters() {
    let s = ball(1.0, -1.0);
    let mesh = build(&Request { method: 0, ..asked([3, 3, 3], &s) }).unwrap();
    assert_eq!(mesh.counts, Counts { crossed: 14, vertices: 14, triangles: 24, ..Counts::default() });
}

/// Thresholds that are refused: NaNs of both signs, quiet and signalling, the floats next to the limits, and others.
fn refused() -> Vec<f64> {
    let nan = [0x7ff8 << 48, 0xfff8 << 48, (0x7ff0 << 48) + 1, (0xfff0 << 48) + 1, 0x7ff4_dead_beef_0000, u64::MAX >> 1, u64::MAX].map(f64::from_bits);
    assert!(nan.iter().all(|x| x.is_nan()));
    let next = f64::from_bits(1.0f64.to_bits() + 1);
    let others = [-5e-324, -f64::MIN_POSITIVE, -INSIDE, -0.25, -1.0, next, 2.0, f64::MAX, f64::MIN, f64::INFINITY, f64::NEG_INFINITY];
    [&nan[..], &others].concat()
}

#[test]
fn every_refusal_leaves_the_buffers() {
    let s = ball(1.0, -1.0);
    let r = asked([3, 3, 3], &s);
    let b = stained(27, 189, 63, 84, 288, 864);
    assert!(build_in(&r, &mut b.clone()).is_ok());

    for (method, rounds) in [(2, 4), (usize::MAX, 0), (0, 5), (1, usize::MAX), (7, 7)] {
        refuses(1, &Request { method, rounds, ..r }, &b);
    }
    for sides in [[0, 3, 3], [3, 0, 3], [3, 3, 0], [33, 3, 3], [3, 33, 3], [3, 3, 33], [usize::MAX; 3], [0; 3], [1 << 32, 1 << 32, 1]] {
        refuses(2, &Request { sides, ..r }, &b);
    }
    let longer = vec![1.0; 28];
    for samples in [&s[..26], &s[..0], &longer[..]] {
        refuses(3, &Request { samples, ..r }, &b);
    }
    for bad in [1.0000000000000001e9f64 + 1.0, -1.0e9 - 1.0, f64::NAN, f64::INFINITY, f64::NEG_INFINITY] {
        for axis in 0..3 {
            let mut origin = ORIGIN;
            origin[axis] = bad;
            refuses(4, &Request { origin, ..r }, &b);
        }
    }
    for bad in [0.0, -1.0, f64::from_bits(0.001f64.to_bits() - 1), f64::from_bits(1.0e6f64.to_bits() + 1), f64::NAN, f64::INFINITY] {
        for axis in 0..3 {
            let mut step = STEP;
            step[axis] = bad;
            refuses(4, &Request { step, ..r }, &b);
        }
    }
    for axis in 0..3 {
        let (mut origin, mut step) = (ORIGIN, STEP);
        origin[axis] = -1.0e9;
        step[axis] = 0.001;
        assert!(build(&Request { origin, step, ..r }).is_ok());
        origin[axis] = 1.0e9;
        step[axis] = 1.0e6;
        assert!(build(&Request { origin, step, ..r }).is_ok());
    }
    for inside in refused() {
        refuses(14, &Request { inside, ..r }, &b);
    }
    for inside in TAKEN {
        assert!(build_in(&Request { inside, ..r }, &mut b.clone()).is_ok(), "{inside:e}");
    }
    refuses(5, &r, &stained(26, 189, 63, 84, 288, 864));
    refuses(5, &r, &stained(27, 188, 63, 84, 288, 864));
    refuses(6, &r, &stained(27, 189, 62, 84, 288, 864));
    refuses(6, &r, &stained(27, 189, 63, 83, 288, 864));
    refuses(7, &r, &stained(27, 189, 63, 84, 287, 864));
    refuses(7, &r, &stained(27, 189, 63, 84, 288, 863));
    refuses(5, &r, &Buffers::default());
}

/// In the order 1, 2, 3, 4, 14, 5, 6, 7, whatever the later tests would say.
#[test]
fn the_first_test_that_fails() {
    let s = ball(1.0, -1.0);
    let none = Buffers::default();
    let all = Request { sides: [33, 3, 3], method: 2, rounds: 9, inside: 1.5, origin: [f64::NAN; 3], step: [0.0; 3], samples: &s[..3] };
    refuses(1, &all, &none);
    let all = Request { method: 1, rounds: 4, ..all };
    refuses(2, &all, &none);
    let all = Request { sides: [3, 3, 3], ..all };
    refuses(3, &all, &none);
    let all = Request { samples: &s, ..all };
    refuses(4, &all, &none);
    refuses(4, &Request { origin: ORIGIN, ..all }, &none);
    refuses(4, &Request { step: STEP, ..all }, &none);
    let all = Request { origin: ORIGIN, step: STEP, ..all };
    for inside in refused() {
        refuses(1, &Request { inside, rounds: 5, ..all }, &none);
        refuses(2, &Request { inside, sides: [3, 3, 0], ..all }, &none);
        refuses(3, &Request { inside, samples: &s[..26], ..all }, &none);
        refuses(4, &Request { inside, origin: [0.0, 0.0, f64::NAN], ..all }, &none);
        refuses(4, &Request { inside, step: [1.0, 1.0e7, 1.0], ..all }, &none);
        refuses(14, &Request { inside, ..all }, &none);
        refuses(14, &Request { inside, ..all }, &stained(27, 188, 63, 84, 288, 864));
        refuses(14, &Request { inside, ..all }, &stained(27, 189, 0, 0, 0, 0));
        refuses(14, &Request { inside, ..all }, &stained(27, 189, 63, 84, 0, 0));
    }
    let all = Request { inside: INSIDE, ..all };
    refuses(5, &all, &none);
    refuses(6, &all, &stained(27, 189, 0, 0, 0, 0));
    // To the threshold 1 a sample of -1 is outside: no edge is crossed, and no room for vertices is asked for.
    refuses(7, &Request { inside: 1.0, ..all }, &stained(27, 189, 0, 0, 0, 0));
    refuses(7, &all, &stained(27, 189, 63, 84, 0, 0));
}

/// Random boxes, every second one with another threshold: buffers exactly full are enough, one entry short of any is refused, longer ones keep what lies behind
/// the used part.
#[test]
fn exactly_full_and_one_short() {
    let mut r = Random(20260713);
    for round in 0..300 {
        let sides = [1 + r.below(5), 1 + r.below(5), 1 + r.below(5)];
        let s: Vec<f64> = (0..sides.iter().product()).map(|_| r.sample()).collect();
        let inside = if round % 2 == 0 { INSIDE } else { TAKEN[round / 2 % TAKEN.len()] };
        let request = Request { method: r.below(2), rounds: r.below(5), inside, ..asked(sides, &s) };
        let e = crossed(sides, inside, &s);
        let x = 3 * e / 2;
        let sites = s.len();
        let cells: usize = sides.iter().map(|n| n - 1).product();
        let need = [sites, 7 * sites, 3 * x, 4 * x, 36 * cells, 108 * cells];
        let lent = |n: [usize; 6]| stained(n[0], n[1], n[2], n[3], n[4], n[5]);

        let mut full = lent(need);
        let counts = build_in(&request, &mut full).unwrap();
        assert_eq!(counts.crossed, e);
        assert!(counts.vertices <= x && counts.triangles <= 12 * cells);
        assert!(full.edges.iter().all(|&word| word == 0));

        for (list, number) in [(0, 5), (1, 5), (2, 6), (3, 6), (4, 7), (5, 7)] {
            if need[list] > 0 {
                let mut short = need;
                short[list] -= 1;
                refuses(number, &request, &lent(short));
            }
        }

        let more = need.map(|n| n + 13);
        let before = lent(more);
        let mut after = before.clone();
        assert_eq!(build_in(&request, &mut after), Ok(counts));
        let (v, t) = (counts.vertices, counts.triangles);
        assert_eq!(after.masks[..sites], full.masks[..]);
        assert_eq!(after.table[..7 * sites], full.table[..]);
        assert_eq!(after.vertices[..3 * v], full.vertices[..3 * v]);
        assert_eq!(after.book[..4 * v], full.book[..4 * v]);
        assert_eq!(after.triangles[..3 * t], full.triangles[..3 * t]);
        assert_eq!(after.edges[..108 * cells], full.edges[..]);
        assert_eq!(after.masks[sites..], before.masks[sites..]);
        assert_eq!(after.table[7 * sites..], before.table[7 * sites..]);
        assert_eq!(after.vertices[3 * v..], before.vertices[3 * v..]);
        assert_eq!(after.book[4 * v..], before.book[4 * v..]);
        assert_eq!(after.triangles[3 * t..], before.triangles[3 * t..]);
        assert_eq!(after.edges[108 * cells..], before.edges[108 * cells..]);

        let mesh = build(&request).unwrap();
        assert_eq!(mesh.counts, counts);
        assert!(mesh.triangles.iter().flatten().eq(&full.triangles[..3 * t]));
    }
}

/// Whatever NaN stands in the samples, quiet or signalling, of either sign and with any payload: the same answer.
#[test]
fn every_nan_is_one() {
    let quiet = f64::from_bits(0x7ff8000000000000);
    let mut r = Random(77);
    for _ in 0..200 {
        let sides = [2 + r.below(3), 2 + r.below(3), 2 + r.below(3)];
        let plain: Vec<f64> = (0..sides.iter().product()).map(|_| if r.below(6) == 0 { quiet } else { r.sample() }).collect();
        let odd: Vec<f64> = plain
            .iter()
            .map(|x| if x.is_nan() { f64::from_bits(0x7ff0000000000000 | (r.next() << 63) | (1 + r.next() % 0xfffffffffffff)) } else { *x })
            .collect();
        assert!(odd.iter().zip(&plain).all(|(a, b)| a.is_nan() == b.is_nan()));
        let a = build(&asked(sides, &plain)).unwrap();
        assert_eq!(a, build(&asked(sides, &odd)).unwrap());
        assert!(a.positions.iter().flatten().all(|x| x.is_finite()));
    }
}

#[test]
fn the_largest_box() {
    let sides = [32, 32, 32];
    let mut r = Random(5);
    let s: Vec<f64> = (0..32768).map(|_| r.sample()).collect();
    for inside in [INSIDE, 0.0, 0.25, 1.0] {
        let mesh = build(&Request { inside, ..asked(sides, &s) }).unwrap();
        assert_eq!(mesh.counts.crossed, crossed(sides, inside, &s));
        let held: u32 = mesh.book.iter().map(|row| row[1]).sum();
        assert_eq!(held as usize, mesh.counts.crossed);
        assert_eq!(mesh.table.iter().filter(|&&v| v != NONE).count(), mesh.counts.crossed);
    }
}

/// Method 0, two boxes that share a layer: their triangles together are those of the whole box. The frame is such that nothing is rounded.
#[test]
fn pieces_make_the_whole() {
    let mut r = Random(1234567);
    for round in 0..40 {
        let inside = [INSIDE, INSIDE, 0.25, 1.0, 0.0][round % 5];
        let [nu, nv, nw, at] = [9, 6, 5, 1 + r.below(7)];
        let s: Vec<f64> = (0..nu * nv * nw).map(|_| r.sample()).collect();
        let corners = |mesh: &Mesh| -> Vec<[[u64; 3]; 3]> {
            mesh.triangles.iter().map(|t| t.map(|v| mesh.positions[v as usize].map(|x| (x + 0.0).to_bits()))).collect()
        };
        let mut whole = corners(&build(&Request { method: 0, inside, ..asked([nu, nv, nw], &s) }).unwrap());
        let mut pieces = Vec::new();
        for (from, to) in [(0, at), (at, nu - 1)] {
            let part: Vec<f64> = s.chunks(nu).flat_map(|row| &row[from..=to]).copied().collect();
            let u = from as f64;
            let request = Request { method: 0, inside, origin: [-u, u, 0.0], ..asked([to - from + 1, nv, nw], &part) };
            pieces.extend(corners(&build(&request).unwrap()));
        }
        whole.sort();
        pieces.sort();
        assert!(whole == pieces, "cut at {at}");
    }
}

#[test]
fn topology_examples() {
    let told = |case, clusters: &[u16], visits| Topology { case, clusters: clusters.to_vec(), visits };
    let each: Vec<u16> = (0..14).map(|e| 1 << e).collect();
    let far = [f64::NAN; 14];
    assert_eq!(topology(0, 1, INSIDE, &far), told(4, &[], 0));
    assert_eq!(topology(0xC000, 1, INSIDE, &far), told(4, &[], 0));
    assert_eq!(topology(0x3FFF, 1, INSIDE, &far), told(0, &each, 0));
    assert_eq!(topology(0x0003, 1, INSIDE, &far), told(4, &[3], 14));
    assert_eq!(topology(0x0081, 1, INSIDE, &far), told(3, &[1, 0x80], 2));
    assert_eq!(topology(0x2015, 1, INSIDE, &far), told(1, &[1, 4, 0x10, 0x2000], 14));
    let mut ends = far;
    (ends[0], ends[1], ends[4], ends[13]) = (1.0, 1.0, -3.0, -3.0);
    assert_eq!(topology(0x2014, 1, INSIDE, &ends), told(2, &[4, 0x10, 0x2000], 14));
    (ends[0], ends[1]) = (3.0, 3.0);
    assert_eq!(topology(0x2014, 1, INSIDE, &ends), told(4, &[0x2014], 14));
    assert_eq!(topology(0x2014, 0, INSIDE, &ends), told(5, &[4, 0x10, 0x2000], 0));
    assert_eq!(topology(0x3FFF, 0, INSIDE, &ends), told(5, &each, 0));
    assert_eq!(topology(0, 0, INSIDE, &ends), told(4, &[], 0));
}

/// The topology test takes every threshold, those that a build refuses too: inside is below -h, and with a NaN nothing is.
#[test]
fn topology_by_any_threshold() {
    // A flat hole where A and B are on one side, C and D on the other, and the crossings are near A.
    let case = |inside: f64, a: f64, c: f64| {
        let mut ends = [f64::NAN; 14];
        (ends[0], ends[1], ends[4], ends[13]) = (a, a, c, c);
        topology(0x2014, 1, inside, &ends).case
    };
    assert_eq!([case(0.25, -0.2, -0.3), case(INSIDE, -0.2, -0.3), case(0.5, -0.2, -0.3)], [2, 4, 4]);
    assert_eq!([case(0.25, -0.2, -0.25), case(0.25, -0.2, below(-0.25)), case(0.25, -0.25, below(-0.25))], [4, 2, 2]);
    assert_eq!([case(1.5, 1.0, -1.5), case(1.5, 1.0, -3.0), case(3.0, 1.0, -3.0), case(1.0e300, 1.0, -1.0e301)], [4, 2, 4, 2]);
    // -h above 0: 1 is inside and 2 is not.
    assert_eq!([case(-1.5, 1.0, 2.0), case(-1.5, 2.0, 1.0), case(-2.0, 1.0, 2.0), case(-1.0, 1.0, 2.0)], [2, 4, 2, 4]);
    assert_eq!([case(f64::INFINITY, 1.0, f64::MIN), case(f64::NEG_INFINITY, 1.0, f64::MAX)], [4, 4]);
    for inside in refused().into_iter().filter(|x| x.is_nan()) {
        assert_eq!([case(inside, 1.0, -3.0), case(inside, -3.0, 1.0)], [4, 4]);
    }
}

/// Every mask, with bits 14 and 15 and without: the walks take its ones, and the test never more than 14 edges.
#[test]
fn visits_of_every_mask() {
    for mask in 0..=u16::MAX {
        let ones = (mask & 0x3FFF).count_ones() as usize;
        assert_eq!(visits(mask), ones, "mask {mask:04x}");
        for method in [0, 1, 2] {
            for end in [f64::NAN, 1.0] {
                let t = topology(mask, method, INSIDE, &[end; 14]);
                let wanted = match t.case {
                    _ if method != 1 || ones == 0 || ones == 14 => 0,
                    3 => ones,
                    _ => 14,
                };
                assert_eq!(t.visits, wanted, "mask {mask:04x}, method {method}, case {}", t.case);
            }
        }
    }
}

#[test]
fn sort_of_records() {
    let mut r = Random(9);
    for n in (0..60).chain([1000, 1001]) {
        let mut words: Vec<u32> = (0..n).map(|_| r.below(7) as u32 * 0x2492_4924).collect();
        let mut records: Vec<[u32; 3]> = words.chunks_exact(3).map(|c| c.try_into().unwrap()).collect();
        let rest = words[n - n % 3..].to_vec();
        sort(&mut words);
        records.sort();
        assert!(words.iter().eq(records.iter().flatten().chain(&rest)));
    }
}

#[test]
fn words_of_the_refusals() {
    let all: Vec<&str> = (1..=7).chain([14]).map(|n| Refusal(n).words()).collect();
    assert!(all.iter().all(|w| !w.is_empty() && *w != Refusal(8).words()));
    assert_eq!(Refusal(2).to_string(), "refused (2): a side not 1 to 32");
    assert_eq!(Refusal(14).to_string(), "refused (14): a threshold not within 0 to 1, or NaN");
}
