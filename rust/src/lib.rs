//! A safe Rust wrapper of Spoonthicket's proved surface build, its PLY files and the volume. What is proved ends at the functions declared in `linked`.

pub mod count_file;
pub mod ply;
pub mod volume;

/// The functions of the archive, as include/spoonthicket.h has them. Nothing checks these lines against the Rattle source.
mod linked {
    extern "C" {
        pub fn spoonthicket_build(
            nu: usize,
            nv: usize,
            nw: usize,
            method: usize,
            rounds: usize,
            inside: f64,
            frame: *const [f64; 6],
            samples: *const f64,
            samples_len: usize,
            masks: *mut u16,
            masks_len: usize,
            table: *mut u32,
            table_len: usize,
            vertices: *mut f64,
            vertices_len: usize,
            book: *mut u32,
            book_len: usize,
            triangles: *mut u32,
            triangles_len: usize,
            edges: *mut u32,
            edges_len: usize,
            counts: *mut [usize; 10],
        ) -> usize;
        pub fn spoonthicket_topology(
            mask: u16,
            method: usize,
            inside: f64,
            ends: *const [f64; 14],
            clusters: *mut [u16; 14],
            visits: *mut [usize; 1],
        ) -> usize;
        pub fn spoonthicket_visits(mask: u16) -> usize;
        pub fn spoonthicket_sort(words: *mut u32, words_len: usize);
        pub fn spoonthicket_ply_length(vertices: usize, faces: usize) -> usize;
        pub fn spoonthicket_ply_write(
            words: *const u64,
            words_len: usize,
            triangles: *const u32,
            triangles_len: usize,
            out: *mut u8,
            out_len: usize,
            written: *mut [usize; 1],
        ) -> usize;
        pub fn spoonthicket_ply_mesh(
            vertices: *const f64,
            vertices_len: usize,
            triangles: *const u32,
            triangles_len: usize,
            out: *mut u8,
            out_len: usize,
            written: *mut [usize; 1],
        ) -> usize;
        pub fn spoonthicket_ply_sizes(file: *const u8, file_len: usize, counts: *mut [usize; 2]) -> usize;
        pub fn spoonthicket_ply_read(
            file: *const u8,
            file_len: usize,
            words: *mut u64,
            words_len: usize,
            triangles: *mut u32,
            triangles_len: usize,
            counts: *mut [usize; 2],
        ) -> usize;
        pub fn spoonthicket_volume(
            vertices: *const f64,
            vertices_len: usize,
            triangles: *const u32,
            triangles_len: usize,
            scale: f64,
            origin: *const [i64; 3],
            six: *mut [i64; 1],
        ) -> usize;
    }
}

/// An entry of the edge table without a vertex.
pub const NONE: u32 = 0xFFFF_FFFF;

/// The threshold that was fixed before it could be given, and that a count file without a line `inside=` means.
pub const INSIDE: f64 = 1.0e-9;

/// What a build is asked for. The samples are those of sites u + nu * (v + nv * w), isovalue taken off.
#[derive(Clone, Copy, Debug)]
pub struct Request<'a> {
    pub sides: [usize; 3],
    /// 0: a vertex for each crossed edge whose two samples are finite. 1: averages by cluster.
    pub method: usize,
    /// At most so many rollback rounds, 0 to 4.
    pub rounds: usize,
    /// The threshold, 0 to 1: a sample is inside where it is below -inside, and outside otherwise, a NaN too. It moves the side and not the point, which
    /// stands where the values would cross 0, held to its edge.
    pub inside: f64,
    pub origin: [f64; 3],
    pub step: [f64; 3],
    pub samples: &'a [f64],
}

/// Why nothing was built: the number of docs/SCOPE.md, S9.2, 1 to 7 or 14. The tests are made in the order 1, 2, 3, 4, 14, 5, 6, 7, and the first that fails
/// gives the number.
#[derive(Clone, Copy, Debug, PartialEq, Eq)]
pub struct Refusal(pub usize);

impl Refusal {
    pub fn words(self) -> &'static str {
        match self.0 {
            1 => "method not 0 or 1, or rounds over 4",
            2 => "a side not 1 to 32",
            3 => "sample list not nu * nv * nw long",
            4 => "an origin not within -1e9 to 1e9, a step not within 0.001 to 1e6, or either NaN",
            5 => "masks shorter than the sites, or edge table shorter than 7 a site",
            6 => "vertices shorter than 3X, or vertex book shorter than 4X",
            7 => "triangles shorter than 36 a cell, or edge list shorter than 108 a cell",
            14 => "a threshold not within 0 to 1, or NaN",
            _ => "no refusal of this library",
        }
    }
}

impl std::fmt::Display for Refusal {
    fn fmt(&self, f: &mut std::fmt::Formatter) -> std::fmt::Result {
        write!(f, "refused ({}): {}", self.0, self.words())
    }
}

impl std::error::Error for Refusal {}

/// The ten counts of a build.
#[derive(Clone, Copy, Debug, Default, PartialEq, Eq)]
pub struct Counts {
    pub crossed: usize,
    pub vertices: usize,
    pub triangles: usize,
    pub closed: usize,
    pub multihole: usize,
    pub flathole: usize,
    pub multisurface: usize,
    pub simple: usize,
    pub split: usize,
    pub rounds: usize,
}

impl Counts {
    fn of(c: [usize; 10]) -> Counts {
        let [crossed, vertices, triangles, closed, multihole, flathole, multisurface, simple, split, rounds] = c;
        Counts { crossed, vertices, triangles, closed, multihole, flathole, multisurface, simple, split, rounds }
    }
}

/// The six lists that a build is lent.
#[derive(Clone, Debug, Default, PartialEq)]
pub struct Buffers {
    pub masks: Vec<u16>,
    pub table: Vec<u32>,
    pub vertices: Vec<f64>,
    pub book: Vec<u32>,
    pub triangles: Vec<u32>,
    pub edges: Vec<u32>,
}

/// Sites, cells, and edges with both ends in the box; all 0 where a side is refused.
fn sizes(sides: [usize; 3]) -> (usize, usize, usize) {
    if sides.iter().any(|n| !(1..=32).contains(n)) {
        return (0, 0, 0);
    }
    let boxes = |gone: [usize; 3]| (0..3).map(|axis| sides[axis] - gone[axis]).product::<usize>();
    let steps = (1..8).map(|c| boxes([c % 2, c / 2 % 2, c / 4]));
    (boxes([0; 3]), boxes([1; 3]), steps.sum())
}

impl Buffers {
    /// Zeros, enough for a box with so many crossed edges; none where a side is refused.
    pub fn with_crossed(sides: [usize; 3], crossed: usize) -> Buffers {
        let (sites, cells, _) = sizes(sides);
        let most = 3 * crossed / 2;
        Buffers {
            masks: vec![0; sites],
            table: vec![0; 7 * sites],
            vertices: vec![0.0; 3 * most],
            book: vec![0; 4 * most],
            triangles: vec![0; 36 * cells],
            edges: vec![0; 108 * cells],
        }
    }

    /// Enough for whatever samples a box of these sides has. The pages that a build does not touch cost nothing.
    pub fn for_sides(sides: [usize; 3]) -> Buffers {
        Buffers::with_crossed(sides, sizes(sides).2)
    }
}

/// A build into buffers of the caller's, of any length. A refusal changes no entry of them.
pub fn build_in(request: &Request, b: &mut Buffers) -> Result<Counts, Refusal> {
    let [nu, nv, nw] = request.sides;
    let [x, y, z] = request.origin;
    let [dx, dy, dz] = request.step;
    let frame = [x, y, z, dx, dy, dz];
    let mut counts = [0; 10];
    // Each list is a slice with its own length, none overlaps another, and the fixed ones have six and ten entries.
    let status = unsafe {
        linked::spoonthicket_build(
            nu,
            nv,
            nw,
            request.method,
            request.rounds,
            request.inside,
            &frame,
            request.samples.as_ptr(),
            request.samples.len(),
            b.masks.as_mut_ptr(),
            b.masks.len(),
            b.table.as_mut_ptr(),
            b.table.len(),
            b.vertices.as_mut_ptr(),
            b.vertices.len(),
            b.book.as_mut_ptr(),
            b.book.len(),
            b.triangles.as_mut_ptr(),
            b.triangles.len(),
            b.edges.as_mut_ptr(),
            b.edges.len(),
            &mut counts,
        )
    };
    match status {
        0 => Ok(Counts::of(counts)),
        n => Err(Refusal(n)),
    }
}

/// What a build made.
#[derive(Clone, Debug, PartialEq)]
pub struct Mesh {
    pub counts: Counts,
    /// A mask of marked edges for each site.
    pub masks: Vec<u16>,
    /// At 7 * site + label the vertex of that owned edge, or NONE.
    pub table: Vec<u32>,
    /// Every vertex ever made, retired ones too: the point on its edge, or the mean of several such points. A point stands between the two
    /// sites of its edge, at one of them where the samples there are on the same side of zero. All coordinates are finite.
    pub positions: Vec<[f64; 3]>,
    /// For each: the site that marked its edges, edges held now (0 once retired), edges held when made, round made.
    pub book: Vec<[u32; 4]>,
    pub triangles: Vec<[u32; 3]>,
}

impl Mesh {
    /// The mesh as a PLY file: every vertex ever made, retired ones too, and the triangles. A mesh that was built is never refused.
    /// Panics where the lists were changed so that an index is no vertex, or a count is over 999,999,999.
    pub fn to_ply(&self) -> Vec<u8> {
        let mut out = vec![0; ply::length(self.positions.len(), self.triangles.len())];
        match ply::write_mesh_in(self.positions.as_flattened(), self.triangles.as_flattened(), &mut out) {
            Ok(length) => assert_eq!(length, out.len()),
            Err(refusal) => panic!("{refusal}"),
        }
        out
    }

    /// Six times the volume that the mesh encloses, in whole units, as `volume::six_volume` has it. A mesh that was built is never answered 10.
    ///
    /// It is a volume where the surface is closed: where all samples are finite and those on the border of the box are on one side. Then it is the
    /// same from every whole origin that is accepted.
    ///
    /// ```
    /// // One site inside: -3 in the middle of 3 x 3 x 3 sites four units apart.
    /// let mut samples = [1.0; 27];
    /// samples[13] = -3.0;
    /// let request = spoonthicket::Request {
    ///     sides: [3, 3, 3],
    ///     method: 0,
    ///     rounds: 0,
    ///     inside: spoonthicket::INSIDE,
    ///     origin: [0.0; 3],
    ///     step: [4.0; 3],
    ///     samples: &samples,
    /// };
    /// let mesh = spoonthicket::build(&request).unwrap();
    /// assert_eq!(mesh.six_volume(1.0, [0, 0, 0]), Ok(1296));
    /// assert_eq!(mesh.six_volume(1.0, [5, -7, 11]), Ok(1296));
    /// // In tenths of a unit: 216 cubic units are 216,000 such cubes.
    /// assert_eq!(mesh.six_volume(10.0, [0, 0, 0]), Ok(1_296_000));
    /// // The mesh reaches 7 units from the origin, and 70,000 is beyond 10,000.
    /// assert_eq!(mesh.six_volume(10_000.0, [0, 0, 0]).unwrap_err().0, 13);
    /// ```
    pub fn six_volume(&self, scale: f64, origin: [i64; 3]) -> Result<i64, volume::Refusal> {
        volume::six_volume(&self.positions, &self.triangles, scale, origin)
    }
}

fn rows<T: Copy, const N: usize>(flat: &[T], count: usize) -> Vec<[T; N]> {
    flat[..N * count].chunks_exact(N).map(|row| row.try_into().unwrap()).collect()
}

/// A build in buffers of its own, large enough: so no refusal 5, 6 or 7.
///
/// ```
/// use spoonthicket::{build, Refusal, Request, INSIDE};
///
/// // One sample a little below 0: a body to a fine scan, nothing to an old one that is good to a quarter.
/// let mut samples = [1.0; 27];
/// samples[13] = -0.1;
/// let request = Request { sides: [3, 3, 3], method: 0, rounds: 0, inside: INSIDE, origin: [0.0; 3], step: [1.0; 3], samples: &samples };
/// assert_eq!(build(&request).unwrap().counts.crossed, 14);
/// assert_eq!(build(&Request { inside: 0.25, ..request }).unwrap().counts.crossed, 0);
/// assert_eq!(build(&Request { inside: 0.0, ..request }).unwrap().counts.crossed, 14);
/// assert_eq!(build(&Request { inside: 1.5, ..request }), Err(Refusal(14)));
/// ```
pub fn build(request: &Request) -> Result<Mesh, Refusal> {
    let mut b = Buffers::for_sides(request.sides);
    let counts = build_in(request, &mut b)?;
    Ok(Mesh {
        counts,
        positions: rows(&b.vertices, counts.vertices),
        book: rows(&b.book, counts.vertices),
        triangles: rows(&b.triangles, counts.triangles),
        masks: b.masks,
        table: b.table,
    })
}

/// What the topology test tells of one mask.
#[derive(Clone, Debug, PartialEq, Eq)]
pub struct Topology {
    /// 0 closed, 1 multihole, 2 flathole, 3 multisurface, 4 simple, 5 not clustered.
    pub case: usize,
    /// The edges of each cluster, as masks, in order.
    pub clusters: Vec<u16>,
    /// How many edges the walks of the test took from their frontiers, together: at most 14.
    pub visits: usize,
}

/// The topology test of one mask. A value that is not finite counts as missing; the others are inside where they are below -inside, which takes every threshold,
/// also one that a build refuses. With a method other than 1 the case is 5, not clustered; without any of the fourteen bits it is 4 for every method.
pub fn topology(mask: u16, method: usize, inside: f64, ends: &[f64; 14]) -> Topology {
    let mut clusters = [0; 14];
    let mut visits = [0];
    let case = unsafe { linked::spoonthicket_topology(mask, method, inside, ends, &mut clusters, &mut visits) };
    Topology { case, clusters: clusters.into_iter().take_while(|&m| m != 0).collect(), visits: visits[0] }
}

/// How many edges the component walks over a mask take: the ones among its fourteen low bits.
pub fn visits(mask: u16) -> usize {
    unsafe { linked::spoonthicket_visits(mask) }
}

/// Sorts records of three words, ascending by all three; words past the last whole record stay.
pub fn sort(words: &mut [u32]) {
    unsafe { linked::spoonthicket_sort(words.as_mut_ptr(), words.len()) }
}
