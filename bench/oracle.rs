// Joined to the oracle's module `isosurface` for the benchmark: the Rust's parts one by one, with all that they are given made beforehand.

pub mod timed {
    use super::*;

    #[derive(Clone)]
    pub struct Ready {
        lattice: SampleLattice,
        keys: Vec<[i64; 3]>,
        evaluated: HashMap<[i64; 3], f64>,
        marks: HashMap<[i64; 3], SamplePoint>,
    }

    pub struct Made {
        pub crossed: usize,
        pub counts: [usize; 5],
        pub vertices: Vec<f64>,
        pub facets: Vec<usize>,
        edge_ref: HashMap<([i64; 3], usize), usize>,
    }

    pub fn prepare(input: &Input) -> Ready {
        let lattice = SampleLattice { origin: input.origin, step: input.step, sides: input.sides };
        let keys = lattice.keys();
        let evaluated = keys.iter().copied().zip(input.samples.iter().copied()).collect();
        let marks = keys.iter().map(|&k| (k, SamplePoint::default())).collect();
        Ready { lattice, keys, evaluated, marks }
    }

    pub fn mark(r: &mut Ready) -> usize {
        mark_sites(&r.keys, &r.evaluated, &mut r.marks)
    }

    pub fn masks(r: &Ready) -> Vec<u16> {
        r.keys.iter().map(|k| r.marks[k].intersections).collect()
    }

    /// Cases and triangles over the edge table of a finished build.
    pub fn march(r: &Ready, made: &Made) -> Vec<usize> {
        let cases = tetrahedron_cases(&r.keys, &r.evaluated);
        build_facets(&r.keys, &cases, &made.edge_ref)
    }

    /// From the samples to the last round.
    pub fn whole(mut r: Ready, rounds: usize) -> Made {
        let crossed = mark(&mut r);
        let mut seen = Seen { lattice: r.lattice, masks: Vec::new(), split: Vec::new(), candidates: 0, owners: Vec::new(), book: Vec::new(), passes: 0 };
        let m = from_candidates(r.keys, r.marks, r.evaluated, r.lattice, ClusterMethod::Average, rounds, &mut seen);
        Made { crossed, counts: m.counts, vertices: m.vertices, facets: m.facets, edge_ref: m.edge_ref }
    }
}
