//! Tests of PLY files through the linked archive: what is written and read beside plain Rust, every refusal with every entry before and after, room exactly
//! full and one short.

use spoonthicket::ply::{length, read, read_in, sizes, write_in, write_mesh_in, Ply, Refusal};
use spoonthicket::{build, Request, INSIDE};

/// The file, by plain Rust.
fn plain(words: &[u64], triangles: &[u32]) -> Vec<u8> {
    let mut out = header(&(words.len() / 3).to_string(), &(triangles.len() / 3).to_string()).into_bytes();
    out.extend(words.iter().flat_map(|w| w.to_le_bytes()));
    for t in triangles.chunks(3) {
        out.push(3);
        out.extend(t.iter().flat_map(|v| v.to_le_bytes()));
    }
    out
}

fn header(vertices: &str, faces: &str) -> String {
    format!(
        "ply\nformat binary_little_endian 1.0\nelement vertex {vertices}\nproperty double x\nproperty double y\nproperty double z\n\
         element face {faces}\nproperty list uchar int vertex_indices\nend_header\n"
    )
}

/// Two lists and room for bytes whose every entry is a number that nobody writes there by chance.
fn stained(words: usize, triangles: usize, bytes: usize) -> (Vec<u64>, Vec<u32>, Vec<u8>) {
    let word = |i: usize| 0xA5A5_A5A5_0000_0000 ^ (i as u64 * 3);
    ((0..words).map(word).collect(), (0..triangles).map(|i| 0xC3C3_0000 ^ (i as u32 * 5)).collect(), (0..bytes).map(|i| 0x5A ^ (i * 7) as u8).collect())
}

fn refuses_to_write(number: usize, words: &[u64], triangles: &[u32], room: usize) {
    let (_, _, before) = stained(0, 0, room);
    let mut out = before.clone();
    assert_eq!(write_in(words, triangles, &mut out), Err(Refusal::Written(number)));
    assert!(out == before, "a refusal stored something");
    let floats: Vec<f64> = words.iter().map(|w| f64::from_bits(*w)).collect();
    assert_eq!(write_mesh_in(&floats, triangles, &mut out), Err(Refusal::Written(number)));
    assert!(out == before, "a refusal stored something");
}

/// The refusal of a file, by both readers, in ample room; every entry of the lists stays.
fn refuses_to_read(number: usize, file: &[u8]) {
    assert_eq!(sizes(file), Err(Refusal::Read(number)));
    let (mut words, mut triangles, _) = stained(999, 999, 0);
    assert_eq!(read_in(file, &mut words, &mut triangles), Err(Refusal::Read(number)));
    assert!(stained(999, 999, 0) == (words, triangles, vec![]), "a refusal stored something");
    assert_eq!(read(file), Err(Refusal::Read(number)));
}

struct Random(u64);

impl Random {
    fn next(&mut self) -> u64 {
        self.0 ^= self.0 << 13;
        self.0 ^= self.0 >> 7;
        self.0 ^= self.0 << 17;
        self.0
    }
    fn below(&mut self, n: usize) -> usize {
        (self.next() >> 20) as usize % n
    }
}

/// Quiet and signalling NaN of either sign with payloads, signed zeros, infinities, the least and the largest subnormal, all ones, and what a clock gives.
const ODD: [u64; 14] = [
    0x7ff8000000000000,
    0xfff8000000000001,
    0x7ff0000000000001,
    0xfff7ffffffffffff,
    0x7ff8dead0000beef,
    0x8000000000000000,
    0,
    0x7ff0000000000000,
    0xfff0000000000000,
    1,
    0x000fffffffffffff,
    0x800fffffffffffff,
    0xffffffffffffffff,
    0x0102030405060708,
];

fn mesh(r: &mut Random, vertices: usize, faces: usize) -> (Vec<u64>, Vec<u32>) {
    let words = (0..3 * vertices).map(|_| if r.below(2) == 0 { ODD[r.below(ODD.len())] } else { r.next() }).collect();
    let triangles = (0..3 * faces).map(|_| if r.below(4) == 0 { vertices as u32 - 1 } else { r.below(vertices) as u32 }).collect();
    (words, triangles)
}

#[test]
fn written_and_read_beside_plain_rust() {
    let mut r = Random(31);
    for round in 0..400 {
        let vertices = round % 20;
        let faces = if vertices == 0 { 0 } else { r.below(12) };
        let (words, triangles) = mesh(&mut r, vertices, faces);
        let wanted = plain(&words, &triangles);
        let n = wanted.len();
        assert_eq!(length(vertices, faces), n);

        // Room exactly full, one byte short, and 13 too long: what lies behind stays.
        for more in [0, 13] {
            let (_, _, before) = stained(0, 0, n + more);
            let mut out = before.clone();
            assert_eq!(write_in(&words, &triangles, &mut out), Ok(n));
            assert!(out[..n] == wanted[..] && out[n..] == before[n..]);
        }
        refuses_to_write(11, &words, &triangles, n - 1);
        refuses_to_write(11, &words, &triangles, 0);

        assert_eq!(sizes(&wanted), Ok((vertices, faces)));
        for more in [0, 5] {
            let (mut w, mut t, _) = stained(words.len() + more, triangles.len() + more, 0);
            assert_eq!(read_in(&wanted, &mut w, &mut t), Ok((vertices, faces)));
            let (w0, t0, _) = stained(words.len() + more, triangles.len() + more, 0);
            assert!(w[..words.len()] == words[..] && t[..triangles.len()] == triangles[..]);
            assert!(w[words.len()..] == w0[words.len()..] && t[triangles.len()..] == t0[triangles.len()..]);
        }
        for (a, b) in [(1, 0), (0, 1), (1, 1)] {
            if a <= words.len() && b <= triangles.len() && (a > 0 && !words.is_empty() || b > 0 && !triangles.is_empty()) {
                let (mut w, mut t, _) = stained(words.len() - a, triangles.len() - b, 0);
                assert_eq!(read_in(&wanted, &mut w, &mut t), Err(Refusal::Read(11)));
                assert!(stained(words.len() - a, triangles.len() - b, 0) == (w, t, vec![]), "a refusal stored something");
            }
        }

        let file = read(&wanted).unwrap();
        assert!(file.words.as_flattened() == words && file.triangles.as_flattened() == triangles);
        assert_eq!(file.to_bytes(), wanted);
        let bits: Vec<u64> = file.positions().as_flattened().iter().map(|x| x.to_bits()).collect();
        assert!(bits.iter().zip(&words).all(|(a, b)| a == b || f64::from_bits(*b).is_nan()));
    }
}

/// Doubles: their bits, and every NaN as one.
#[test]
fn doubles_by_their_bits() {
    let mut r = Random(7);
    for _ in 0..200 {
        let (words, triangles) = mesh(&mut r, 9, 7);
        let floats: Vec<f64> = words.iter().map(|w| f64::from_bits(*w)).collect();
        let bits: Vec<u64> = words.iter().map(|w| if f64::from_bits(*w).is_nan() { 0x7ff8000000000000 } else { *w }).collect();
        let wanted = plain(&bits, &triangles);
        let mut out = vec![0; wanted.len()];
        assert_eq!(write_mesh_in(&floats, &triangles, &mut out), Ok(wanted.len()));
        assert!(out == wanted);
    }
}

#[test]
fn every_refusal_of_a_writer() {
    let (words, triangles) = mesh(&mut Random(3), 4, 3);
    for n in [1, 2, 4, 5, 10, 11] {
        refuses_to_write(10, &words[..n], &[], 999);
    }
    for n in [1, 2, 4, 5, 7, 8] {
        refuses_to_write(10, &words, &triangles[..n], 999);
    }
    for place in 0..9 {
        for index in [4, 5, 0x7fff_ffff, 0x8000_0000, 0xffff_ffff] {
            let mut bad = triangles.clone();
            bad[place] = index;
            refuses_to_write(10, &words, &bad, 999);
            // 10 comes before 11.
            refuses_to_write(10, &words, &bad, 0);
        }
    }
    refuses_to_write(10, &[], &[0, 0, 0], 999);
    assert_eq!(length(999_999_999, 999_999_999), 37_000_000_151);
    for (v, f) in [(1_000_000_000, 0), (0, 1_000_000_000), (usize::MAX, usize::MAX), (1 << 63, 1)] {
        assert_eq!(length(v, f), 0);
    }
}

#[test]
fn every_refusal_of_a_reader() {
    let (words, triangles) = mesh(&mut Random(5), 4, 3);
    let good = plain(&words, &triangles);
    assert_eq!(sizes(&good), Ok((4, 3)));
    let head = header("4", "3");
    let body = &good[head.len()..];
    let with = |head: &str| [head.as_bytes(), body].concat();

    // 9: each byte of the header changed, or cut off there; other lines, numbers and ends.
    for at in 0..head.len() {
        refuses_to_read(9, &good[..at]);
        let mut bad = good.clone();
        bad[at] ^= 0x20;
        let digit = at == head.find("4\n").unwrap() || at == head.find("3\n").unwrap();
        assert!(!digit || !bad[at].is_ascii_digit());
        refuses_to_read(9, &bad);
    }
    for bad in [
        head.replace('\n', "\r\n"),
        head.replace("ply\n", "ply\ncomment made by hand\n"),
        head.replace("ply\n", "ply\nobj_info 1\n"),
        head.replace("double", "float"),
        head.replace("list uchar int", "list uchar uint"),
        head.replace("list uchar int", "list int int"),
        head.replace("vertex_indices", "vertex_index"),
        head.replace("binary_little_endian", "binary_big_endian"),
        head.replace("binary_little_endian", "ascii"),
        head.replace("1.0", "1.1"),
        head.replace("property double x\nproperty double y\n", "property double y\nproperty double x\n"),
        head.replace("property double z\n", "property double z\nproperty uchar red\n"),
        head.replace("vertex 4", "vertex 04"),
        head.replace("face 3", "face 03"),
        head.replace("vertex 4", "vertex +4"),
        head.replace("vertex 4", "vertex "),
        head.replace("vertex 4", "vertex  4"),
        head.replace("vertex 4", "vertex 4 "),
        head.replace("vertex 4", "vertex 0000000004"),
        head.replace("vertex 4", "vertex 1000000000"),
        head.replace("face 3", "face 1000000000"),
        head.replace("vertex 4", "vertex 18446744073709551620"),
        format!(" {head}"),
        format!("\u{feff}{head}"),
        head.trim_end().to_string(),
    ] {
        refuses_to_read(9, &with(&bad));
    }
    refuses_to_read(9, b"");

    // 10: too short and too long, other counts, faces of other than three, indices past the vertices.
    for at in head.len()..good.len() {
        refuses_to_read(10, &good[..at]);
    }
    for more in [1, 13, 24] {
        refuses_to_read(10, &[&good[..], &vec![0; more]].concat());
    }
    for (v, f) in [("3", "3"), ("5", "3"), ("4", "2"), ("4", "4"), ("0", "0"), ("999999999", "3"), ("4", "999999999"), ("999999999", "999999999")] {
        refuses_to_read(10, &with(&header(v, f)));
    }
    let faces = head.len() + 96;
    for face in 0..3 {
        for count in [0, 1, 2, 4, 128, 255] {
            let mut bad = good.clone();
            bad[faces + 13 * face] = count;
            refuses_to_read(10, &bad);
        }
        for corner in 0..3 {
            for index in [4u32, 5, 0x100, 0x7fff_ffff, 0x8000_0000, 0xffff_ffff] {
                let mut bad = good.clone();
                let at = faces + 13 * face + 1 + 4 * corner;
                bad[at..at + 4].copy_from_slice(&index.to_le_bytes());
                refuses_to_read(10, &bad);
                // 10 comes before 11.
                assert_eq!(read_in(&bad, &mut [], &mut []), Err(Refusal::Read(10)));
            }
        }
    }
    // 11 comes last.
    assert_eq!(read_in(&good, &mut [], &mut []), Err(Refusal::Read(11)));
    assert_eq!(read_in(&good[..4], &mut [], &mut []), Err(Refusal::Read(9)));
}

#[test]
fn empty_files() {
    let nothing = plain(&[], &[]);
    assert_eq!(length(0, 0), nothing.len());
    assert_eq!(read(&nothing), Ok(Ply { words: vec![], triangles: vec![] }));
    assert_eq!(read_in(&nothing, &mut [], &mut []), Ok((0, 0)));
    let points = plain(&ODD[..12], &[]);
    let file = read(&points).unwrap();
    assert_eq!((file.words.len(), file.triangles.len()), (4, 0));
    assert_eq!(file.to_bytes(), points);
    assert_eq!(plain(&[], &[]), header("0", "0").into_bytes());
}

/// The meshes of builds, written and read back: the same bits, the same triangles.
#[test]
fn meshes_of_builds() {
    let mut r = Random(99);
    let mut largest = 0;
    for round in 0..120 {
        let sides = if round == 0 { [32, 32, 32] } else { [1 + r.below(7), 1 + r.below(7), 1 + r.below(7)] };
        let s: Vec<f64> = (0..sides.iter().product()).map(|_| r.below(2001) as f64 / 500.0 - 2.0).collect();
        let request = Request { sides, method: r.below(2), rounds: r.below(5), inside: INSIDE, origin: [1.0e6, -2.5, 0.1], step: [0.3, 0.7, 1.1], samples: &s };
        let mesh = build(&request).unwrap();
        let bytes = mesh.to_ply();
        largest = largest.max(bytes.len());
        let words: Vec<u64> = mesh.positions.as_flattened().iter().map(|x| x.to_bits()).collect();
        assert!(bytes == plain(&words, mesh.triangles.as_flattened()));
        let file = read(&bytes).unwrap();
        assert!(file.positions() == mesh.positions && file.triangles == mesh.triangles);
        assert!(file.to_bytes() == bytes);
    }
    println!("the largest file: {largest} bytes");
}

#[test]
fn words_of_the_refusals() {
    assert_ne!(Refusal::Read(10).words(), Refusal::Written(10).words());
    assert_ne!(Refusal::Read(11).words(), Refusal::Written(11).words());
    assert_eq!(Refusal::Read(9).to_string(), "refused (9): the file does not begin with a header of this kind");
    assert_eq!(Refusal::Written(11).number(), 11);
}
