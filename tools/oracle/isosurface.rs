// The oracle's module `isosurface`: the stand-ins of docs/SCOPE.md, S16.4, shims, and the items taken out of the shown isosurface.rs.
//
// topology.rs asks this module for `lerp_alpha` in its flat-hole test; a point's fraction is `point_alpha`. The marking loop asks for neither: it
// divides by itself, in the Rust's own text. Everything written in this file is ours; the
// Rust's own text comes in by the `include!` at the end. Main.rs lists what is ours.

use crate::constants::{self, EDGE_DELTAS, MT_TABLE, OWNED_TET_EDGES, REVERSE_EDGE, TET_EDGE_PAIRS};
use crate::threshold;
use crate::topology::{self, TopologyCase};
use rayon::prelude::*;
use std::collections::{HashMap, HashSet};
use std::sync::atomic::{AtomicU64, AtomicU8, Ordering::Relaxed};

// ---- The stand-ins of docs/SCOPE.md, S16.4 ----

/// Which fraction is used for points and in the flat-hole test: the stand-ins; the free one for points too, as before points were held; the Rust's
/// own `lerp_alpha` for both. Marks are the same under every rule.
#[derive(Clone, Copy, PartialEq)]
pub enum Rule {
    Held,
    Free,
    Shown,
}

static RULE: AtomicU8 = AtomicU8::new(Rule::Held as u8);

/// The rule from here on.
pub fn follow(rule: Rule) {
    RULE.store(rule as u8, Relaxed);
}

fn followed(rule: Rule) -> bool {
    RULE.load(Relaxed) == rule as u8
}

/// The fraction of the flat-hole test is a/(a-b), as the marking loop has it: no clamp, no rule for a small divisor.
pub fn lerp_alpha(a: f64, b: f64) -> f64 {
    if followed(Rule::Shown) {
        return shown::lerp_alpha(a, b);
    }
    a / (a - b)
}

/// How many fractions of points were held so far: below 0, and above 1.
pub static HELD: [AtomicU64; 2] = [AtomicU64::new(0), AtomicU64::new(0)];

/// The fraction of a point is a/(a-b), held: below 0 it is 0, above 1 it is 1, otherwise unchanged.
pub fn point_alpha(a: f64, b: f64) -> f64 {
    let t = lerp_alpha(a, b);
    if !followed(Rule::Held) {
        return t;
    }
    if t < 0.0 {
        HELD[0].fetch_add(1, Relaxed);
        return 0.0;
    }
    if 1.0 < t {
        HELD[1].fetch_add(1, Relaxed);
        return 1.0;
    }
    t
}

/// The frame and the sides, in the place of the Rust's lattice.
#[derive(Clone, Copy)]
pub struct SampleLattice {
    pub origin: [f64; 3],
    pub step: [f64; 3],
    pub sides: [usize; 3],
}

impl SampleLattice {
    /// origin + (ijk as f64) * step on each axis, two roundings.
    pub fn ijk_to_world(&self, ijk: [i64; 3]) -> [f64; 3] {
        let mut at = [0.0f64; 3];
        for axis in 0..3 {
            let scaled = (ijk[axis] as f64) * self.step[axis];
            at[axis] = self.origin[axis] + scaled;
        }
        at
    }

    /// (u,v,w) to (w-u-v, u-v, -w).
    pub fn ijk_of(u: usize, v: usize, w: usize) -> [i64; 3] {
        let (u, v, w) = (u as i64, v as i64, w as i64);
        [w - u - v, u - v, -w]
    }

    /// All sites, in number order.
    pub fn keys(&self) -> Vec<[i64; 3]> {
        let [nu, nv, nw] = self.sides;
        let mut keys = Vec::with_capacity(nu * nv * nw);
        for w in 0..nw {
            for v in 0..nv {
                for u in 0..nu {
                    keys.push(Self::ijk_of(u, v, w));
                }
            }
        }
        keys
    }

    /// The number of the site with this coordinate, if it is in the box.
    pub fn site(&self, ijk: [i64; 3]) -> Option<usize> {
        let w = -ijk[2];
        let twice_u = w - ijk[0] + ijk[1];
        let twice_v = w - ijk[0] - ijk[1];
        if twice_u % 2 != 0 {
            return None;
        }
        let (u, v) = (twice_u / 2, twice_v / 2);
        let [nu, nv, nw] = self.sides.map(|n| n as i64);
        let within = 0 <= u && u < nu && 0 <= v && v < nv && 0 <= w && w < nw;
        within.then(|| (u + nu * (v + nv * w)) as usize)
    }
}

/// The point on a marked edge, from the marked site u towards its neighbour v; absent if a sample is not finite.
fn edge_intersection_point(u: [i64; 3], v: [i64; 3], evaluated: &HashMap<[i64; 3], f64>, lattice: &SampleLattice) -> Option<[f64; 3]> {
    let a = evaluated.get(&u).copied().filter(|x| x.is_finite())?;
    let b = evaluated.get(&v).copied().filter(|x| x.is_finite())?;
    Some(interpolate_points(lattice.ijk_to_world(u), lattice.ijk_to_world(v), point_alpha(a, b)))
}

/// Owners in site order; for each its live cluster vertices by number and their edges ascending;
/// a vertex is appended for each edge. The old one keeps its position and is named by no edge.
fn rollback_cluster_owners(
    bad_owners: HashSet<[i64; 3]>,
    owner_cluster_vertices: &mut HashMap<[i64; 3], Vec<usize>>,
    cluster_vertex_edges: &mut HashMap<usize, Vec<([i64; 3], [i64; 3])>>,
    cluster_vertex_owner: &mut HashMap<usize, [i64; 3]>,
    edge_ref: &mut HashMap<([i64; 3], usize), usize>,
    vertices: &mut Vec<f64>,
    evaluated: &HashMap<[i64; 3], f64>,
    lattice: &SampleLattice,
) -> usize {
    let mut owners: Vec<(usize, [i64; 3])> = bad_owners.into_iter().map(|o| (lattice.site(o).unwrap(), o)).collect();
    owners.sort();
    let mut done = 0;
    for (_, owner) in owners {
        let mut held = owner_cluster_vertices.remove(&owner).unwrap_or_default();
        held.sort();
        done += usize::from(!held.is_empty());
        for old in held {
            cluster_vertex_owner.remove(&old);
            let mut edges = cluster_vertex_edges.remove(&old).unwrap();
            edges.sort_by_key(|&(u, v)| label_towards(u, v));
            for (u, v) in edges {
                let point = edge_intersection_point(u, v, evaluated, lattice).unwrap();
                let new = push_vertex(vertices, point);
                edge_ref_set(edge_ref, u, v, new);
            }
        }
    }
    done
}

/// The label (0 to 13) of the edge from u to v.
fn label_towards(u: [i64; 3], v: [i64; 3]) -> usize {
    (0..14).find(|&e| add_ijk(u, edge_delta(e)) == v).unwrap()
}

// ---- Shims for what can't be had ----

mod rayon {
    pub mod prelude {
        pub trait InOrder<T> {
            fn par_iter(&self) -> std::slice::Iter<'_, T>;
            fn par_chunks(&self, size: usize) -> std::slice::Chunks<'_, T>;
        }
        impl<T> InOrder<T> for [T] {
            fn par_iter(&self) -> std::slice::Iter<'_, T> {
                self.iter()
            }
            fn par_chunks(&self, size: usize) -> std::slice::Chunks<'_, T> {
                self.chunks(size)
            }
        }
    }
}

mod curvature_weighting {
    use super::*;
    /// Never called: the curvature method is left out.
    pub fn curvature_weighted_cluster_point(_: &[([i64; 3], [i64; 3])], _: &HashMap<[i64; 3], f64>, _: &SampleLattice) -> Option<[f64; 3]> {
        unreachable!()
    }
}

enum IsosurfaceStage {
    BuildingFacets,
}

fn emit_progress(_: (), _: f64, _: IsosurfaceStage, _: f64) {}

fn emit_message(_: (), _: String) {}

// ---- What is noted while the Rust runs, and the whole answer ----

/// What the taken text leaves behind.
struct Meshed {
    counts: [usize; 5],
    tet_cases: Vec<[u8; 6]>,
    vertices: Vec<f64>,
    edge_ref: HashMap<([i64; 3], usize), usize>,
    facets: Vec<usize>,
}

/// A row of the vertex book.
#[derive(Clone, Copy, Default)]
pub struct Row {
    pub site: usize,
    pub now: usize,
    pub made: usize,
    pub round: usize,
}

/// Notes taken at the five places where tools/oracle/build puts a line of ours into the text.
struct Seen {
    lattice: SampleLattice,
    masks: Vec<u16>,
    split: Vec<usize>,
    candidates: usize,
    owners: Vec<Vec<usize>>,
    book: Vec<Row>,
    passes: usize,
}

impl Seen {
    fn split(&mut self, split: &HashSet<usize>, candidates: &[VertexCandidate]) {
        self.split = split.iter().copied().collect();
        self.split.sort();
        self.candidates = candidates.len();
    }

    fn owners(&mut self, owners: &HashSet<[i64; 3]>) {
        let mut sites: Vec<usize> = owners.iter().map(|&o| self.lattice.site(o).unwrap()).collect();
        sites.sort();
        self.owners.push(sites);
    }

    /// After the vertex pass and after each round: rows for the new vertices, read off the edge table and the masks.
    fn made(&mut self, vertices: &[f64], edge_ref: &HashMap<([i64; 3], usize), usize>) {
        let old = self.book.len();
        self.book.resize(vertices.len() / 3, Row { site: usize::MAX, now: 0, made: 0, round: self.passes });
        for (&(owner, label), &vertex) in edge_ref {
            if vertex >= old {
                let site = self.marking_site(owner, label);
                let row = &mut self.book[vertex];
                assert!(row.made == 0 || row.site == site, "a vertex with edges of two sites");
                row.site = site;
                row.made += 1;
            }
        }
        self.passes += 1;
    }

    /// The end of an owned edge at which it is marked.
    fn marking_site(&self, owner: [i64; 3], label: usize) -> usize {
        let here = self.lattice.site(owner).unwrap();
        let there = self.lattice.site(add_ijk(owner, edge_delta(label))).unwrap();
        let (at_here, at_there) = (self.masks[here] >> label & 1, self.masks[there] >> REVERSE_EDGE[label] & 1);
        assert!(at_here + at_there == 1, "an edge not marked at one end");
        if at_here == 1 { here } else { there }
    }
}

/// The samples of a box, with all that a build is given.
#[derive(Clone)]
pub struct Input {
    pub sides: [usize; 3],
    pub method: u32,
    pub rounds: u32,
    /// The threshold, where one is given.
    pub inside: Option<f64>,
    pub origin: [f64; 3],
    pub step: [f64; 3],
    pub samples: Vec<f64>,
}

impl Input {
    /// The threshold that is given, or the Rust's.
    pub fn threshold(&self) -> f64 {
        self.inside.unwrap_or(threshold::BASE)
    }
}

/// Everything that a build answers.
pub struct Answer {
    pub crossed: usize,
    pub cases: [usize; 5],
    pub masks: Vec<u16>,
    /// For each site its case number and cluster masks.
    pub topology: Vec<(usize, Vec<u16>)>,
    pub tets: Vec<[u8; 6]>,
    pub candidates: usize,
    pub split: Vec<usize>,
    pub owners: Vec<Vec<usize>>,
    pub table: Vec<Option<usize>>,
    pub positions: Vec<f64>,
    pub book: Vec<Row>,
    pub triangles: Vec<usize>,
}

/// The number of a case (docs/SCOPE.md, S4.3).
pub fn case_number(case: &TopologyCase) -> usize {
    match case {
        TopologyCase::ClosedSurface => 0,
        TopologyCase::MultiHole => 1,
        TopologyCase::FlatHole => 2,
        TopologyCase::MultiSurface => 3,
        TopologyCase::SimpleSurface => 4,
        TopologyCase::DoNotCluster => 5,
    }
}

/// test_topology's answer as a case number and cluster masks; the edges of a cluster must ascend.
pub fn topology_of(mask: u16, cluster: bool, ijk: [i64; 3], values: &HashMap<[i64; 3], f64>) -> (usize, Vec<u16>) {
    let result = topology::test_topology(mask, cluster, ijk, values);
    let clusters = result
        .iter_clusters()
        .map(|c| {
            assert!(c.edges.windows(2).all(|w| w[0] < w[1]), "edges of a cluster do not ascend");
            c.edges.iter().fold(0u16, |m, &e| m | 1 << e)
        })
        .collect();
    (case_number(&result.case), clusters)
}

/// A build that is not refused. `rounds` is R; it need not be at most 4 here. The threshold is the input's from here on.
pub fn build(input: &Input, rounds: usize, with_topology: bool) -> Answer {
    threshold::set(input.threshold());
    let lattice = SampleLattice { origin: input.origin, step: input.step, sides: input.sides };
    let keys = lattice.keys();
    let evaluated: HashMap<[i64; 3], f64> = keys.iter().copied().zip(input.samples.iter().copied()).collect();
    let mut sample_points: HashMap<[i64; 3], SamplePoint> = keys.iter().map(|&k| (k, SamplePoint::default())).collect();
    let crossed = mark_sites(&keys, &evaluated, &mut sample_points);
    let masks: Vec<u16> = keys.iter().map(|k| sample_points[k].intersections).collect();
    assert!(sample_points.len() == keys.len(), "a mark outside the box");
    assert!(masks.iter().map(|m| m.count_ones() as usize).sum::<usize>() == crossed, "an edge marked twice");

    let topology = if with_topology {
        keys.iter().zip(&masks).map(|(&k, &m)| topology_of(m, input.method == 1, k, &evaluated)).collect()
    } else {
        Vec::new()
    };

    let method = if input.method == 1 { ClusterMethod::Average } else { ClusterMethod::None };
    let mut seen = Seen { lattice, masks, split: Vec::new(), candidates: 0, owners: Vec::new(), book: Vec::new(), passes: 0 };
    let meshed = from_candidates(keys, sample_points, evaluated, lattice, method, rounds, &mut seen);

    let mut table = vec![None; 7 * input.samples.len()];
    for (&(owner, label), &vertex) in &meshed.edge_ref {
        table[7 * lattice.site(owner).unwrap() + label] = Some(vertex);
        seen.book[vertex].now += 1;
    }
    Answer {
        crossed,
        cases: meshed.counts,
        masks: seen.masks,
        topology,
        tets: meshed.tet_cases,
        candidates: seen.candidates,
        split: seen.split,
        owners: seen.owners,
        table,
        positions: meshed.vertices,
        book: seen.book,
        triangles: meshed.facets,
    }
}

/// get_edge_owner as the Rust has it.
pub fn owner_of(u: [i64; 3], v: [i64; 3]) -> Option<([i64; 3], [i64; 3], usize)> {
    get_edge_owner(u, v)
}

/// The Rust's inside test of isosurface.rs, with the threshold of now.
pub fn inside(value: f64) -> bool {
    is_inside(value)
}

/// The Rust's mean of points.
pub fn mean(points: &[[f64; 3]]) -> [f64; 3] {
    average_point(points)
}

/// The case of tetrahedron `tet` with these corners, and the triangles marched when every edge has a vertex of its own.
pub fn one_tetrahedron(tet: usize, corners: [Option<f64>; 4]) -> (u8, usize) {
    let here = [0i64; 3];
    let mut evaluated = HashMap::new();
    let ends = [here, edge_delta(OWNED_TET_EDGES[tet][0]), edge_delta(OWNED_TET_EDGES[tet][1]), edge_delta(OWNED_TET_EDGES[tet][2])];
    for (end, corner) in ends.into_iter().zip(corners) {
        if let Some(value) = corner {
            evaluated.insert(end, value);
        }
    }
    let cases = tetrahedron_cases(&[here], &evaluated);
    let mut alone = [[0u8; 6]];
    alone[0][tet] = cases[0][tet];
    let mut names: HashMap<([i64; 3], usize), usize> = HashMap::new();
    let mut triangles = 0;
    march_tets(
        &[here],
        &alone,
        |u, v| {
            let (owner, _, label) = get_edge_owner(u, v)?;
            let next = names.len();
            Some(*names.entry((owner, label)).or_insert(next))
        },
        |_| triangles += 1,
    );
    (cases[0][tet], triangles)
}

// ---- The Rust's own text, taken out by tools/oracle/build ----

include!(concat!(env!("ORACLE_MADE"), "/extracted.rs"));
