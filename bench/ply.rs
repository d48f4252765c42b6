// Benchmark of PLY files: written from words, written from doubles, and read, beside plain Rust, on the same meshes, in one run.
//
// Meshes of noise, built by the library itself, and several of the largest put one after the other. Both sides write into a buffer that is there and read into
// lists that are there, and both make every check of the form: whole threes, counts, each index below the vertices, each face of three, nothing left over.
// Every answer is compared before a line is printed; a difference ends the program with an error.
// A time is the least of its rounds, in microseconds; the two sides take turns.

use std::hint::black_box;
use std::io::Write;
use std::time::Instant;

const ROUNDS: usize = 40;

/// The threshold of include/spoonthicket.h.
const INSIDE: f64 = 1.0e-9;

extern "C" {
    fn spoonthicket_build(
        nu: usize, nv: usize, nw: usize, method: usize, rounds: usize, inside: f64, frame: *const [f64; 6],
        samples: *const f64, samples_len: usize, masks: *mut u16, masks_len: usize, table: *mut u32, table_len: usize,
        vertices: *mut f64, vertices_len: usize, book: *mut u32, book_len: usize, triangles: *mut u32, triangles_len: usize,
        edges: *mut u32, edges_len: usize, counts: *mut [usize; 10],
    ) -> usize;
    fn spoonthicket_ply_length(vertices: usize, faces: usize) -> usize;
    fn spoonthicket_ply_write(
        words: *const u64, words_len: usize, triangles: *const u32, triangles_len: usize, out: *mut u8, out_len: usize, written: *mut [usize; 1],
    ) -> usize;
    fn spoonthicket_ply_mesh(
        vertices: *const f64, vertices_len: usize, triangles: *const u32, triangles_len: usize, out: *mut u8, out_len: usize, written: *mut [usize; 1],
    ) -> usize;
    fn spoonthicket_ply_read(
        file: *const u8, file_len: usize, words: *mut u64, words_len: usize, triangles: *mut u32, triangles_len: usize, counts: *mut [usize; 2],
    ) -> usize;
}

// ---- the meshes

struct Mesh {
    positions: Vec<f64>,
    triangles: Vec<u32>,
}

// A fixed sequence (xorshift), as in bench/build.rs.
fn noise(n: usize) -> Vec<f64> {
    let mut x = 88172645463325252u64;
    (0..n * n * n)
        .map(|_| {
            x ^= x << 13;
            x ^= x >> 7;
            x ^= x << 17;
            (x >> 11) as f64 / (1u64 << 52) as f64 - 1.0
        })
        .collect()
}

fn built(n: usize) -> Mesh {
    let samples = noise(n);
    let (sites, cells) = (n * n * n, (n - 1) * (n - 1) * (n - 1));
    let most = 3 * 7 * sites / 2;
    let (mut masks, mut table) = (vec![0; sites], vec![0; 7 * sites]);
    let (mut positions, mut book) = (vec![0.0; 3 * most], vec![0; 4 * most]);
    let (mut triangles, mut edges) = (vec![0; 36 * cells], vec![0; 108 * cells]);
    let mut counts = [0; 10];
    let status = unsafe {
        spoonthicket_build(
            n, n, n, 1, 4, INSIDE, &[0.0, 0.0, 0.0, 1.0, 1.0, 1.0], samples.as_ptr(), samples.len(), masks.as_mut_ptr(), masks.len(), table.as_mut_ptr(),
            table.len(), positions.as_mut_ptr(), positions.len(), book.as_mut_ptr(), book.len(), triangles.as_mut_ptr(), triangles.len(), edges.as_mut_ptr(),
            edges.len(), &mut counts,
        )
    };
    assert_eq!(status, 0);
    positions.truncate(3 * counts[1]);
    triangles.truncate(3 * counts[2]);
    Mesh { positions, triangles }
}

fn times(mesh: &Mesh, n: usize) -> Mesh {
    let (mut positions, mut triangles) = (Vec::new(), Vec::new());
    for k in 0..n {
        let first = (k * mesh.positions.len() / 3) as u32;
        positions.extend(&mesh.positions);
        triangles.extend(mesh.triangles.iter().map(|v| v + first));
    }
    Mesh { positions, triangles }
}

// ---- ours

fn ours_write(words: &[u64], triangles: &[u32], out: &mut [u8]) -> usize {
    let mut written = [0];
    let status = unsafe { spoonthicket_ply_write(words.as_ptr(), words.len(), triangles.as_ptr(), triangles.len(), out.as_mut_ptr(), out.len(), &mut written) };
    assert_eq!(status, 0);
    written[0]
}

fn ours_mesh(positions: &[f64], triangles: &[u32], out: &mut [u8]) -> usize {
    let mut written = [0];
    let status = unsafe { spoonthicket_ply_mesh(positions.as_ptr(), positions.len(), triangles.as_ptr(), triangles.len(), out.as_mut_ptr(), out.len(), &mut written) };
    assert_eq!(status, 0);
    written[0]
}

fn ours_read(file: &[u8], words: &mut [u64], triangles: &mut [u32]) -> (usize, usize) {
    let mut counts = [0; 2];
    let status = unsafe { spoonthicket_ply_read(file.as_ptr(), file.len(), words.as_mut_ptr(), words.len(), triangles.as_mut_ptr(), triangles.len(), &mut counts) };
    assert_eq!(status, 0);
    (counts[0], counts[1])
}

// ---- plain Rust

const OPENING: &[u8] = b"ply\nformat binary_little_endian 1.0\nelement vertex ";
const MIDDLE: &[u8] = b"property double x\nproperty double y\nproperty double z\nelement face ";
const CLOSING: &[u8] = b"property list uchar int vertex_indices\nend_header\n";

fn rust_begin(coordinates: usize, triangles: &[u32], out: &mut [u8]) -> Option<usize> {
    let (v, f) = (coordinates / 3, triangles.len() / 3);
    if coordinates % 3 != 0 || triangles.len() % 3 != 0 || v > 999_999_999 || f > 999_999_999 || triangles.iter().any(|&i| i as usize >= v) {
        return None;
    }
    let room = out.len();
    let mut rest = &mut *out;
    rest.write_all(OPENING).ok()?;
    writeln!(rest, "{v}").ok()?;
    rest.write_all(MIDDLE).ok()?;
    writeln!(rest, "{f}").ok()?;
    rest.write_all(CLOSING).ok()?;
    let at = room - rest.len();
    (at + 24 * v + 13 * f <= room).then_some(at)
}

fn rust_faces(triangles: &[u32], out: &mut [u8]) {
    for (t, face) in triangles.chunks_exact(3).zip(out.chunks_exact_mut(13)) {
        face[0] = 3;
        for (v, bytes) in t.iter().zip(face[1..].chunks_exact_mut(4)) {
            bytes.copy_from_slice(&v.to_le_bytes());
        }
    }
}

fn rust_write(words: &[u64], triangles: &[u32], out: &mut [u8]) -> Option<usize> {
    let at = rust_begin(words.len(), triangles, out)?;
    let faces = at + 8 * words.len();
    let end = faces + 13 * (triangles.len() / 3);
    for (w, bytes) in words.iter().zip(out[at..faces].chunks_exact_mut(8)) {
        bytes.copy_from_slice(&w.to_le_bytes());
    }
    rust_faces(triangles, &mut out[faces..end]);
    Some(end)
}

fn rust_mesh(positions: &[f64], triangles: &[u32], out: &mut [u8]) -> Option<usize> {
    let at = rust_begin(positions.len(), triangles, out)?;
    let faces = at + 8 * positions.len();
    let end = faces + 13 * (triangles.len() / 3);
    for (x, bytes) in positions.iter().zip(out[at..faces].chunks_exact_mut(8)) {
        let bits = if x.is_nan() { 0x7ff8000000000000 } else { x.to_bits() };
        bytes.copy_from_slice(&bits.to_le_bytes());
    }
    rust_faces(triangles, &mut out[faces..end]);
    Some(end)
}

fn number(rest: &[u8]) -> Option<(usize, &[u8])> {
    let end = rest.iter().take(10).position(|&b| b == b'\n')?;
    let text = &rest[..end];
    if text.is_empty() || !text.iter().all(u8::is_ascii_digit) || text.len() > 1 && text[0] == b'0' {
        return None;
    }
    Some((text.iter().fold(0, |n, b| 10 * n + usize::from(b - b'0')), &rest[end + 1..]))
}

fn rust_read(file: &[u8], words: &mut [u64], triangles: &mut [u32]) -> Option<(usize, usize)> {
    let (v, rest) = number(file.strip_prefix(OPENING)?)?;
    let (f, rest) = number(rest.strip_prefix(MIDDLE)?)?;
    let body = rest.strip_prefix(CLOSING)?;
    if body.len() != 24 * v + 13 * f {
        return None;
    }
    let (coordinates, faces) = body.split_at(24 * v);
    let index = |bytes: &[u8]| u32::from_le_bytes(bytes.try_into().unwrap());
    if faces.chunks_exact(13).any(|face| face[0] != 3 || face[1..].chunks_exact(4).any(|b| index(b) as usize >= v)) {
        return None;
    }
    if words.len() < 3 * v || triangles.len() < 3 * f {
        return None;
    }
    for (bytes, w) in coordinates.chunks_exact(8).zip(&mut *words) {
        *w = u64::from_le_bytes(bytes.try_into().unwrap());
    }
    for (face, t) in faces.chunks_exact(13).zip(triangles.chunks_exact_mut(3)) {
        for (bytes, v) in face[1..].chunks_exact(4).zip(t) {
            *v = index(bytes);
        }
    }
    Some((v, f))
}

// ---- the clock

/// The least times of the two, by turns, in microseconds.
fn timed(mut ours: impl FnMut(), mut rust: impl FnMut()) -> (f64, f64) {
    let mut least = [f64::INFINITY; 2];
    for _ in 0..ROUNDS {
        let start = Instant::now();
        ours();
        least[0] = least[0].min(start.elapsed().as_secs_f64());
        let start = Instant::now();
        rust();
        least[1] = least[1].min(start.elapsed().as_secs_f64());
    }
    (1.0e6 * least[0], 1.0e6 * least[1])
}

fn row(what: &str, bytes: usize, (ours, rust): (f64, f64), before: &mut Option<(f64, f64)>) {
    let growth = before.map_or("| |".to_string(), |(o, r)| format!("{:.1} | {:.1} |", ours / o, rust / r));
    println!("| {what} | {bytes} | {ours:.0} | {rust:.0} | {:.2} | {growth}", rust / ours);
    *before = Some((ours, rust));
}

fn main() {
    let large = built(32);
    let meshes = [built(16), built(24), times(&large, 1), times(&large, 2), times(&large, 4)];
    println!("| what | bytes | ours | Rust | Rust / ours | growth ours | growth Rust |\n|---|---|---|---|---|---|---|");
    let mut before = [None; 3];
    for mesh in &meshes {
        let (v, f) = (mesh.positions.len() / 3, mesh.triangles.len() / 3);
        let words: Vec<u64> = mesh.positions.iter().map(|x| x.to_bits()).collect();
        let n = unsafe { spoonthicket_ply_length(v, f) };
        let (mut a, mut b) = (vec![0; n], vec![1; n]);

        assert_eq!((ours_write(&words, &mesh.triangles, &mut a), rust_write(&words, &mesh.triangles, &mut b)), (n, Some(n)));
        assert!(a == b, "two files of the words");
        let writes = timed(
            || { black_box(ours_write(black_box(&words), black_box(&mesh.triangles), &mut a)); },
            || { black_box(rust_write(black_box(&words), black_box(&mesh.triangles), &mut b)); },
        );
        a.fill(2);
        b.fill(3);
        assert_eq!((ours_mesh(&mesh.positions, &mesh.triangles, &mut a), rust_mesh(&mesh.positions, &mesh.triangles, &mut b)), (n, Some(n)));
        assert!(a == b, "two files of the doubles");
        let doubles = timed(
            || { black_box(ours_mesh(black_box(&mesh.positions), black_box(&mesh.triangles), &mut a)); },
            || { black_box(rust_mesh(black_box(&mesh.positions), black_box(&mesh.triangles), &mut b)); },
        );

        let (mut w, mut t) = (vec![0; 3 * v], vec![0; 3 * f]);
        let (mut x, mut u) = (vec![1; 3 * v], vec![1; 3 * f]);
        assert_eq!((ours_read(&a, &mut w, &mut t), rust_read(&a, &mut x, &mut u)), ((v, f), Some((v, f))));
        assert!(w == words && t == mesh.triangles && x == words && u == mesh.triangles, "what is read");
        let reads = timed(
            || { black_box(ours_read(black_box(&a), &mut w, &mut t)); },
            || { black_box(rust_read(black_box(&a), &mut x, &mut u)); },
        );
        row("words written", n, writes, &mut before[0]);
        row("doubles written", n, doubles, &mut before[1]);
        row("read", n, reads, &mut before[2]);
    }
}
