//! Generated and kept count files through the archive and through the oracle (SPOONTHICKET_ORACLE names its program): every answer must
//! be equal, masks, edge table, positions, book and triangles among it; and the topology test of all masks, NaN and infinities at the ends among the values.
//! Both with the threshold of files that give none, and with others.
//! Without the variable nothing is compared, and the tests say so.

use spoonthicket::{build, count_file, topology, visits, INSIDE, NONE};
use std::fmt::Write as _;
use std::io::Write as _;
use std::process::{Command, Stdio};

/// How many generated files, by SPOONTHICKET_FILES; and as many with a threshold.
const FILES: u64 = 4000;

/// The thresholds, beside 1.0e-9, with which every mask and every kept file is tried.
const OTHERS: [f64; 5] = [0.0, 5e-324, 1.0e-12, 0.25, 1.0];

const RARE: &str = concat!(env!("CARGO_MANIFEST_DIR"), "/../tools/oracle/rare");
const THRESHOLDS: &str = concat!(env!("CARGO_MANIFEST_DIR"), "/../tools/oracle/thresholds");

fn run(program: &str, words: &[&str], input: &[u8]) -> Vec<u8> {
    let mut child = Command::new(program).args(words).stdin(Stdio::piped()).stdout(Stdio::piped()).spawn().expect("the oracle does not start");
    let mut pipe = child.stdin.take().unwrap();
    let input = input.to_vec();
    let feed = std::thread::spawn(move || pipe.write_all(&input));
    let out = child.wait_with_output().unwrap();
    feed.join().unwrap().unwrap();
    assert!(out.status.success(), "the oracle stopped");
    out.stdout
}

/// The files of a batch.
fn files(mut rest: &[u8]) -> Vec<&[u8]> {
    let mut all = Vec::new();
    while !rest.is_empty() {
        let end = rest.iter().position(|&b| b == b'\n').unwrap();
        let length: usize = std::str::from_utf8(&rest[5..end]).unwrap().parse().unwrap();
        all.push(&rest[end + 1..][..length]);
        rest = &rest[end + 1 + length..];
    }
    all
}

fn bits(x: f64) -> String {
    if x.is_nan() { "7ff8000000000000".to_string() } else { format!("{:016x}", x.to_bits()) }
}

/// The answer in the words of tools/oracle/FORMAT.md, without the kinds that a build does not keep: topology, tets, split, owners.
fn answer(bytes: &[u8]) -> String {
    let Some(file) = count_file::read(bytes) else {
        return "status=8\n".to_string();
    };
    let mesh = match build(&file.request()) {
        Err(refusal) => return format!("status={}\n", refusal.0),
        Ok(mesh) => mesh,
    };
    let c = mesh.counts;
    let mut out = format!("status=0\nsites={}\ncrossed={}\nvertices={}\ntriangles={}\n", file.samples.len(), c.crossed, c.vertices, c.triangles);
    let _ = write!(out, "closed={}\nmultihole={}\nflathole={}\nmultisurface={}\nsimple={}\n", c.closed, c.multihole, c.flathole, c.multisurface, c.simple);
    let _ = write!(out, "split={}\nrounds={}\n", c.split, c.rounds);
    for (site, mask) in mesh.masks.iter().enumerate().filter(|(_, m)| **m != 0) {
        let _ = writeln!(out, "mask {site} {mask:04x}");
    }
    for (place, vertex) in mesh.table.iter().enumerate().filter(|(_, v)| **v != NONE) {
        let _ = writeln!(out, "edge {} {} {vertex}", place / 7, place % 7);
    }
    for (v, [x, y, z]) in mesh.positions.iter().enumerate() {
        let _ = writeln!(out, "position {v} {} {} {}", bits(*x), bits(*y), bits(*z));
    }
    for (v, [site, held, made, round]) in mesh.book.iter().enumerate() {
        let _ = writeln!(out, "book {v} {site} {held} {made} {round}");
    }
    for [a, b, c] in &mesh.triangles {
        let _ = writeln!(out, "triangle {a} {b} {c}");
    }
    out
}

/// The kept files of a folder.
fn kept(folder: &str) -> Vec<Vec<u8>> {
    std::fs::read_dir(folder).expect(folder).map(|entry| std::fs::read(entry.unwrap().path()).unwrap()).collect()
}

fn put(batch: &mut Vec<u8>, file: &[u8]) {
    let _ = writeln!(batch, "file {}", file.len());
    batch.extend(file);
}

fn how_many() -> String {
    std::env::var("SPOONTHICKET_FILES").map_or(FILES, |n| n.parse().expect("SPOONTHICKET_FILES is no number")).to_string()
}

/// Both answers to each file of a batch, which have to be equal. How many files, how many of them builds, and how many refused with 14.
fn compared(oracle: &str, batch: &[u8]) -> [usize; 3] {
    let told = String::from_utf8(run(oracle, &["--batch", "--dump"], batch)).unwrap();
    let left_out = ["topology ", "tets ", "split ", "owners "];
    let kept: String = told.split_inclusive('\n').filter(|line| !left_out.iter().any(|kind| line.starts_with(kind))).collect();
    let answers: Vec<&str> = kept.split_terminator("end\n").collect();
    let all = files(batch);
    assert_eq!(answers.len(), all.len());
    let (mut done, mut refused) = (0, 0);
    for (number, (file, theirs)) in all.iter().zip(&answers).enumerate() {
        let ours = answer(file);
        assert!(ours == *theirs, "file {number} differs:\n{}\nours:\n{ours}\nthe oracle's:\n{theirs}", String::from_utf8_lossy(file));
        done += usize::from(ours.starts_with("status=0\n"));
        refused += usize::from(ours == "status=14\n");
    }
    [all.len(), done, refused]
}

#[test]
fn equal_to_the_oracle() {
    let Ok(oracle) = std::env::var("SPOONTHICKET_ORACLE") else {
        println!("SPOONTHICKET_ORACLE is not set: NOTHING WAS COMPARED");
        return;
    };
    let mut batch = run(&oracle, &["--generate", "20260713", "0", &how_many(), RARE], b"");
    kept(RARE).iter().for_each(|file| put(&mut batch, file));
    let [all, done, _] = compared(&oracle, &batch);
    println!("{all} files equal, {done} of them builds");
}

/// Files with a line `inside=`: generated ones, the kept ones that have it, and those that have none with each of the other thresholds.
#[test]
fn equal_with_a_threshold() {
    let Ok(oracle) = std::env::var("SPOONTHICKET_ORACLE") else {
        println!("SPOONTHICKET_ORACLE is not set: no comparison of thresholds with the oracle");
        return;
    };
    let mut batch = run(&oracle, &["--thresholds", "20260713", "0", &how_many()], b"");
    kept(THRESHOLDS).iter().for_each(|file| put(&mut batch, file));
    for file in kept(RARE) {
        let text = String::from_utf8(file).unwrap();
        let at = text.find("\norigin0=").unwrap() + 1;
        let with = |inside: f64| format!("{}inside={:016x}\n{}", &text[..at], inside.to_bits(), &text[at..]).into_bytes();
        OTHERS.iter().for_each(|&inside| put(&mut batch, &with(inside)));
        assert_eq!(answer(&with(INSIDE)), answer(text.as_bytes()));
    }
    let [all, done, refused] = compared(&oracle, &batch);
    println!("{all} files with thresholds equal, {done} of them builds, {refused} refused with 14");
}

/// A value at an end, as tools/oracle/FORMAT.md draws it (`--topology-all`), with this threshold. A missing one is handed over as a NaN.
fn drawn(x: &mut u64, inside: f64) -> f64 {
    *x = x.wrapping_mul(6364136223846793005).wrapping_add(1442695040888963407);
    let usual = [1.0, -1.0, 3.0, -3.0, 0.5, -0.5, 1.0, -1.0, 3.0, -3.0, 0.5, -0.5, 2.0, -2.0, 1.0, -1.0, 3.0, -3.0, 0.5, -0.5];
    match (*x >> 59) as usize {
        k @ 0..=19 => usual[k],
        20 => 0.0,
        21 => -0.0,
        22 => -inside,
        23 => f64::from_bits((-inside).to_bits() + 1),
        24 => f64::from_bits(1),
        25 => 1e308,
        26 => -1e308,
        27 => 1.0,
        29 => f64::INFINITY,
        30 => f64::NEG_INFINITY,
        _ => f64::NAN,
    }
}

/// The answers of the topology test to all 16,384 masks, in the words of `--topology-all`.
fn every_answer(seed: u64, inside: f64) -> String {
    let mut x = seed;
    let mut out = String::new();
    for mask in 0..1 << 14 {
        let ends = std::array::from_fn(|_| drawn(&mut x, inside));
        let t = topology(mask, 1, inside, &ends);
        let _ = write!(out, "{mask:04x} {} {}", t.case, t.clusters.len());
        for cluster in t.clusters {
            let _ = write!(out, " {cluster:04x}");
        }
        let _ = writeln!(out, " {}", t.visits);
    }
    out
}

/// The topology test of all 16,384 masks, for SPOONTHICKET_SEEDS seeds (20 if not given), and for a tenth of them with each of the other thresholds; and the
/// edges that the walks over each of 65,536 masks take.
#[test]
fn every_mask() {
    let Ok(oracle) = std::env::var("SPOONTHICKET_ORACLE") else {
        println!("SPOONTHICKET_ORACLE is not set: no comparison of the topology test with the oracle");
        return;
    };
    let seeds: u64 = std::env::var("SPOONTHICKET_SEEDS").map_or(20, |n| n.parse().expect("SPOONTHICKET_SEEDS is no number"));
    for seed in 1..=seeds {
        let theirs = run(&oracle, &["--topology-all", &seed.to_string()], b"");
        assert!(every_answer(seed, INSIDE).as_bytes() == theirs, "seed {seed}: another answer");
    }
    println!("topology: all masks, {seeds} seeds, equal");
    let some = seeds.div_ceil(10);
    for inside in OTHERS {
        for seed in 1..=some {
            let theirs = run(&oracle, &["--topology-all", &seed.to_string(), &format!("{:016x}", inside.to_bits())], b"");
            assert!(every_answer(seed, inside).as_bytes() == theirs, "threshold {inside:e}, seed {seed}: another answer");
        }
    }
    println!("topology: all masks, {} thresholds, {some} seeds each, equal", OTHERS.len());
    let ours: String = (0..=u16::MAX).map(|mask| format!("{mask:04x} {}\n", visits(mask))).collect();
    assert!(ours.as_bytes() == run(&oracle, &["--visits-all"], b""), "other visits of a walk");
    println!("visits: all masks, equal");
}
