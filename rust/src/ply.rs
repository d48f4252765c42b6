//! PLY files of our kind: PLY 1.0, binary little endian, three doubles x, y, z a vertex, a list of three ints with a uchar count a face.
//!
//! Coordinates go as 64-bit words, the bits of the doubles: so a NaN keeps its payload through `read` and `write_in`.

use crate::linked;

/// Why a file was not read or not written: 9, 10 or 11. The words depend on which of the two it was.
#[derive(Clone, Copy, Debug, PartialEq, Eq)]
pub enum Refusal {
    /// Reading: 9, 10 or 11.
    Read(usize),
    /// Writing: 10 or 11.
    Written(usize),
}

impl Refusal {
    pub fn number(self) -> usize {
        match self {
            Refusal::Read(n) | Refusal::Written(n) => n,
        }
    }

    pub fn words(self) -> &'static str {
        match self {
            Refusal::Read(9) => "the file does not begin with a header of this kind",
            Refusal::Read(10) => "a body too short or too long, a face of other than three, or an index past the vertices",
            Refusal::Read(11) => "words shorter than 3 a vertex, or triangles than 3 a face",
            Refusal::Written(10) => "a list not in whole threes, a count over 999,999,999, or an index past the vertices",
            Refusal::Written(11) => "room shorter than the file",
            _ => "no refusal of this library",
        }
    }
}

impl std::fmt::Display for Refusal {
    fn fmt(&self, f: &mut std::fmt::Formatter) -> std::fmt::Result {
        write!(f, "refused ({}): {}", self.number(), self.words())
    }
}

impl std::error::Error for Refusal {}

/// A file's coordinates, as words, and its triangles.
#[derive(Clone, Debug, PartialEq, Eq)]
pub struct Ply {
    pub words: Vec<[u64; 3]>,
    pub triangles: Vec<[u32; 3]>,
}

impl Ply {
    /// The coordinates as doubles.
    pub fn positions(&self) -> Vec<[f64; 3]> {
        self.words.iter().map(|row| row.map(f64::from_bits)).collect()
    }

    /// The file again. Panics where the lists were changed so that an index is no vertex, or a count is over 999,999,999.
    pub fn to_bytes(&self) -> Vec<u8> {
        let mut out = vec![0; length(self.words.len(), self.triangles.len())];
        match write_in(self.words.as_flattened(), self.triangles.as_flattened(), &mut out) {
            Ok(length) => assert_eq!(length, out.len()),
            Err(refusal) => panic!("{refusal}"),
        }
        out
    }
}

/// How long the file of so many vertices and faces is; 0 where one count is over 999,999,999.
pub fn length(vertices: usize, faces: usize) -> usize {
    unsafe { linked::spoonthicket_ply_length(vertices, faces) }
}

/// The file of words and indices, written to the front of `out`; its length.
pub fn write_in(words: &[u64], triangles: &[u32], out: &mut [u8]) -> Result<usize, Refusal> {
    let mut written = [0; 1];
    // Each list is a slice with its own length, and `out` overlaps no other.
    let status = unsafe {
        linked::spoonthicket_ply_write(words.as_ptr(), words.len(), triangles.as_ptr(), triangles.len(), out.as_mut_ptr(), out.len(), &mut written)
    };
    answer(status, written[0])
}

/// The same of doubles: their bits are written, every NaN as one.
pub fn write_mesh_in(vertices: &[f64], triangles: &[u32], out: &mut [u8]) -> Result<usize, Refusal> {
    let mut written = [0; 1];
    let status = unsafe {
        linked::spoonthicket_ply_mesh(vertices.as_ptr(), vertices.len(), triangles.as_ptr(), triangles.len(), out.as_mut_ptr(), out.len(), &mut written)
    };
    answer(status, written[0])
}

fn answer(status: usize, written: usize) -> Result<usize, Refusal> {
    match status {
        0 => Ok(written),
        n => Err(Refusal::Written(n)),
    }
}

/// The numbers of vertices and faces of a file.
pub fn sizes(file: &[u8]) -> Result<(usize, usize), Refusal> {
    let mut counts = [0; 2];
    match unsafe { linked::spoonthicket_ply_sizes(file.as_ptr(), file.len(), &mut counts) } {
        0 => Ok((counts[0], counts[1])),
        n => Err(Refusal::Read(n)),
    }
}

/// A file's words and indices, read to the fronts of lists of the caller's; the numbers of vertices and faces. A refusal changes no entry.
pub fn read_in(file: &[u8], words: &mut [u64], triangles: &mut [u32]) -> Result<(usize, usize), Refusal> {
    let mut counts = [0; 2];
    // Each list is a slice with its own length, and none overlaps another.
    let status = unsafe {
        linked::spoonthicket_ply_read(file.as_ptr(), file.len(), words.as_mut_ptr(), words.len(), triangles.as_mut_ptr(), triangles.len(), &mut counts)
    };
    match status {
        0 => Ok((counts[0], counts[1])),
        n => Err(Refusal::Read(n)),
    }
}

/// A file in lists of its own, large enough: so no refusal 11.
pub fn read(file: &[u8]) -> Result<Ply, Refusal> {
    let (vertices, faces) = sizes(file)?;
    let mut words = vec![[0; 3]; vertices];
    let mut triangles = vec![[0; 3]; faces];
    read_in(file, words.as_flattened_mut(), triangles.as_flattened_mut())?;
    Ok(Ply { words, triangles })
}
