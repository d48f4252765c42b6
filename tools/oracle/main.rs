// The oracle: the shown Rust, run with the stand-ins of docs/SCOPE.md, S16.4, to be held beside our own programs.
//
// THE RUST'S, compiled from its own files at build time (tools/oracle/build):
//   constants.rs                  whole and unchanged
//   topology.rs                   whole, but for the constant of its is_inside; once more with its walk counted (`visits`)
//   of isosurface.rs              ClusterMethod, SamplePoint, VertexCandidate, get_edge_points, get_edge_owner,
//                                 edge_ref_get, edge_ref_set, push_vertex, average_point, interpolate_points,
//                                 edge_delta, add_ijk, tetrahedron_cases, march_tets, build_facets, is_inside,
//                                 sorted_vertex_edge, facet_vertex_ids, add_facet_cluster_owners,
//                                 collect_invalid_topology_cluster_owners
//   of build_isosurface           the loop that marks the edges of a cell; and in one piece everything from the
//                                 candidates to the end of the rollback rounds
//
// OURS, all of it:
//   The stand-ins of docs/SCOPE.md, S16.4 (isosurface.rs of this folder): the box of sites and their order (`keys`), the frame
//     (SampleLattice), the fraction of the flat-hole test as a/(a-b), free (lerp_alpha; that of a mark is the marking loop's own), that of a
//     point as the same, held between 0 and 1 (point_alpha), edge_intersection_point, rollback_cluster_owners and its order,
//     and E as the number of times the marking loop marks.
//   Changes made to the taken text: the constant 1.0e-9 in each of the two is_inside (isosurface.rs, topology.rs) is the threshold
//     of the file (threshold.rs); an end outside the box is passed over in the marking loop; `0..4` is `0..rounds`;
//     lines that only note what is there (crossed += 1, seen.split, seen.owners, seen.made).
//   Shims: rayon's par_iter and par_chunks in order; curvature weights never called; progress and messages dropped.
//   The vertex book: read off the Rust's edge table after each pass, and off the masks.
//   The call of test_topology for the dump (the build makes its own calls).
//   The edges that the component walks take (visits.rs), by a walk of our own; the Rust's, counted, must take as many.
//   The count file, its refusals, what is printed, the checks of each answer (countfile.rs), the PLY file (ply.rs),
//     the volume (volume.rs), the generator (generate.rs), the search (search.rs), and the commands below.
//
// The threshold is 1.0e-9 (threshold.rs: BASE) where a file or a command does not give one.

#![allow(dead_code)]

mod countfile;
mod generate;
mod isosurface;
mod ply;
mod search;
mod threshold;
mod visits;
mod volume;

include!(concat!(env!("ORACLE_MADE"), "/modules.rs"));
include!(concat!(env!("ORACLE_MADE"), "/walked.rs"));

use std::collections::HashMap;
use std::io::{Read, Write};

const USAGE: &str = "usage: oracle [--dump | --ply] [--unbounded] [FILE]
       oracle --volume DIGITS X Y Z [FILE]
       oracle --batch [--dump | --ply | --volume DIGITS X Y Z]
       oracle --batch --dump --free | --shown
       oracle --generate SEED FROM COUNT [FOLDER]
       oracle --near SEED FROM COUNT
       oracle --thresholds SEED FROM COUNT [FOLDER]
       oracle --coverage SEED COUNT [FOLDER]
       oracle --coverage --thresholds SEED COUNT [FOLDER]
       oracle --rules SEED COUNT [FOLDER]
       oracle --rules --near SEED COUNT
       oracle --rules --thresholds SEED COUNT [FOLDER]
       oracle --search SEED SECONDS FOLDER [NAME]
       oracle --topology MASK CLUSTER V0 .. V13 [INSIDE]
       oracle --topology-all SEED [INSIDE]
       oracle --visits-all
       oracle --owner I J K I J K
       oracle --tet T A B C D [INSIDE]
       oracle --inside V [INSIDE]
       oracle --alpha A B
       oracle --point-alpha A B
       oracle --mean X Y Z [X Y Z ..]
       oracle --tables
a value is 16 lower-case hex digits, or - for a missing one; so is the threshold INSIDE, 1.0e-9 where it is left out;
DIGITS is 0 to 6, and X Y Z are whole numbers of i64";

fn stop(why: &str) -> ! {
    eprintln!("oracle: {why}");
    std::process::exit(2)
}

fn number<T: std::str::FromStr>(text: &str) -> T {
    text.parse().unwrap_or_else(|_| stop(&format!("not a number: {text}")))
}

fn value(text: &str) -> Option<f64> {
    if text == "-" {
        return None;
    }
    Some(countfile::float_of(text.as_bytes()).unwrap_or_else(|| stop(&format!("not a value: {text}"))))
}

fn given(text: &str) -> f64 {
    value(text).unwrap_or_else(|| stop("a value is missing"))
}

/// The threshold from here on: the one that is given, if one is.
fn threshold_of(given_last: &[&str]) {
    if let Some(text) = given_last.first() {
        threshold::set(given(text));
    }
}

fn asked(words: [&str; 4]) -> volume::Asked {
    volume::Asked::read(words).unwrap_or_else(|| stop(USAGE))
}

fn whole_input(file: Option<&String>) -> Vec<u8> {
    let mut bytes = Vec::new();
    let read = match file {
        Some(name) => std::fs::File::open(name).and_then(|mut f| f.read_to_end(&mut bytes)),
        None => std::io::stdin().lock().read_to_end(&mut bytes),
    };
    if let Err(why) = read {
        stop(&why.to_string());
    }
    bytes
}

/// The values at the fourteen ends of the edges from (0,0,0), as topology.rs wants them.
fn ends(values: &[Option<f64>]) -> HashMap<[i64; 3], f64> {
    let at = |e: usize| constants::EDGE_DELTAS[e].map(i64::from);
    values.iter().enumerate().filter_map(|(e, v)| v.map(|v| (at(e), v))).collect()
}

/// Takes the first file off a batch: a line `file LENGTH` and the bytes.
fn take_file<'a>(rest: &mut &'a [u8]) -> &'a [u8] {
    let head = rest.strip_prefix(b"file ").unwrap_or_else(|| stop("no line `file LENGTH`"));
    let end = head.iter().position(|&b| b == b'\n').unwrap_or_else(|| stop("no line `file LENGTH`"));
    let length: usize = number(&String::from_utf8_lossy(&head[..end]));
    let body = &head[end + 1..];
    if body.len() < length {
        stop("the last file is cut off");
    }
    *rest = &body[length..];
    &body[..length]
}

/// Puts a file of a batch out.
fn put_file(out: &mut impl Write, bytes: &[u8]) {
    let _ = writeln!(out, "file {}", bytes.len());
    let _ = out.write_all(bytes);
}

/// Files number `from` to `from + count - 1` as a batch.
fn put_files(from: u64, count: u64, file: impl Fn(u64) -> Vec<u8>) {
    let mut out = std::io::BufWriter::new(std::io::stdout().lock());
    for index in from..from + count {
        put_file(&mut out, &file(index));
    }
}

/// Answers to many files: a batch in, for each file the answer and a line `end` out.
fn batch(answer: impl Fn(&[u8]) -> String) {
    let bytes = whole_input(None);
    let mut out = std::io::BufWriter::new(std::io::stdout().lock());
    let mut rest = &bytes[..];
    while !rest.is_empty() {
        let _ = out.write_all(answer(take_file(&mut rest)).as_bytes());
        let _ = out.write_all(b"end\n");
    }
}

/// PLY files of many files: a batch in and a batch out, since an answer may hold any bytes.
fn batch_ply() {
    let bytes = whole_input(None);
    let mut out = std::io::BufWriter::new(std::io::stdout().lock());
    let mut rest = &bytes[..];
    while !rest.is_empty() {
        put_file(&mut out, &countfile::answer_ply(take_file(&mut rest), false));
    }
}

fn tables() {
    fn row<T: std::fmt::Display>(name: &str, index: usize, values: impl IntoIterator<Item = T>) {
        let values: String = values.into_iter().map(|v| format!(" {v}")).collect();
        println!("{name} {index}{values}");
    }
    use constants::*;
    for (i, d) in EDGE_DELTAS.iter().enumerate() {
        row("EDGE_DELTAS", i, d);
    }
    for (i, d) in [U, V, W].iter().enumerate() {
        row("UVW", i, d);
    }
    for (i, e) in REVERSE_EDGE.iter().enumerate() {
        row("REVERSE_EDGE", i, [e]);
    }
    for (i, m) in NEIGHBOUR_MASKS.iter().enumerate() {
        row("NEIGHBOUR_MASKS", i, [format!("{m:04x}")]);
    }
    for (i, [a, b]) in FLAT_HOLE_MASKS.iter().enumerate() {
        row("FLAT_HOLE_MASKS", i, [format!("{a:04x}"), format!("{b:04x}")]);
    }
    row("ALL14_MASK", 0, [format!("{ALL14_MASK:04x}")]);
    for (i, t) in OWNED_TET_EDGES.iter().enumerate() {
        row("OWNED_TET_EDGES", i, t);
    }
    for (i, p) in TET_EDGE_PAIRS.iter().enumerate() {
        row("TET_EDGE_PAIRS", i, p);
    }
    for (i, t) in MT_TABLE.iter().enumerate() {
        row("MT_TABLE", i, [t.len()].into_iter().chain(t.iter().flatten().map(|&e| e as usize)));
    }
}

/// `CASE K HEX4... VISITS`
fn topology_line(mask: u16, cluster: bool, values: &[Option<f64>]) -> String {
    let values = ends(values);
    let (case, clusters) = isosurface::topology_of(mask, cluster, [0; 3], &values);
    format!("{} {}", countfile::topology_text(case, &clusters), visits::of_test(mask, cluster, case, &values))
}

/// The edges that the walks over each mask take.
fn visits_all() {
    let mut out = std::io::BufWriter::new(std::io::stdout().lock());
    for mask in 0..=u16::MAX {
        let _ = writeln!(out, "{mask:04x} {}", visits::of_walk(mask));
    }
}

fn topology_all(seed: u64) {
    let mut out = std::io::BufWriter::new(std::io::stdout().lock());
    let mut state = seed;
    for mask in 0..16384u16 {
        let values: Vec<Option<f64>> = (0..14).map(|_| generate::end_value(&mut state, -threshold::now())).collect();
        let _ = writeln!(out, "{mask:04x} {}", topology_line(mask, true, &values));
    }
}

/// What the rule for the fraction changes in the first `count` files: our rules beside the free fraction for points, and beside the Rust's own for
/// points and flat holes.
fn rules(count: u64, file: impl Fn(u64) -> Vec<u8>) {
    let (mut built, mut points, mut moved, mut others, mut shown) = (0, 0, 0, 0, 0);
    for index in 0..count {
        let bytes = file(index);
        let dumps = [isosurface::Rule::Held, isosurface::Rule::Free, isosurface::Rule::Shown].map(|rule| {
            isosurface::follow(rule);
            countfile::answer_text(&bytes, true, false)
        });
        isosurface::follow(isosurface::Rule::Held);
        let apart = |dump: &str| -> (Vec<String>, Vec<String>) { dump.lines().map(String::from).partition(|line| line.starts_with("position ")) };
        let [(held, rest), (free, free_rest), _] = [apart(&dumps[0]), apart(&dumps[1]), apart(&dumps[2])];
        built += usize::from(dumps[0].starts_with("status=0\n"));
        points += held.len();
        moved += usize::from(held != free);
        others += usize::from(rest != free_rest);
        shown += usize::from(dumps[0] != dumps[2]);
    }
    let [below, above] = [0, 1].map(|k: usize| isosurface::HELD[k].load(std::sync::atomic::Ordering::Relaxed));
    println!("files {count} built {built} positions {points}");
    println!("fractions of points held: below 0 {below}, above 1 {above}");
    println!("files with a position that the free fraction puts elsewhere {moved}");
    println!("files in which the free fraction changes anything else {others}");
    println!("files in which the Rust's own lerp_alpha changes anything {shown}");
}

fn main() {
    let args: Vec<String> = std::env::args().skip(1).collect();
    let words: Vec<&str> = args.iter().map(String::as_str).collect();
    match words.as_slice() {
        ["--batch"] => batch(|file| countfile::answer_text(file, false, false)),
        ["--batch", "--dump"] | ["--dump", "--batch"] => batch(|file| countfile::answer_text(file, true, false)),
        ["--batch", "--dump", rule @ ("--free" | "--shown")] => {
            isosurface::follow(if *rule == "--free" { isosurface::Rule::Free } else { isosurface::Rule::Shown });
            batch(|file| countfile::answer_text(file, true, false))
        }
        ["--batch", "--ply"] | ["--ply", "--batch"] => batch_ply(),
        ["--batch", "--volume", digits, x, y, z] | ["--volume", digits, x, y, z, "--batch"] => {
            let asked = asked([digits, x, y, z]);
            batch(|file| volume::answer(file, &asked))
        }
        ["--volume", digits, x, y, z, file @ ..] if file.len() < 2 => {
            let asked = asked([digits, x, y, z]);
            let _ = std::io::stdout().write_all(volume::answer(&whole_input(args.get(5)), &asked).as_bytes());
        }
        ["--generate", seed, from, count, folder @ ..] if folder.len() < 2 => {
            let kept = generate::kept(folder.first().copied());
            put_files(number(from), number(count), |index| generate::file(number(seed), index, &kept))
        }
        ["--near", seed, from, count] => put_files(number(from), number(count), |index| generate::near_file(number(seed), index)),
        ["--thresholds", seed, from, count, folder @ ..] if folder.len() < 2 => {
            let kept = generate::kept(folder.first().copied());
            put_files(number(from), number(count), |index| generate::threshold_file(number(seed), index, &kept))
        }
        ["--rules", "--near", seed, count] => rules(number(count), |index| generate::near_file(number(seed), index)),
        ["--rules", "--thresholds", seed, count, folder @ ..] if folder.len() < 2 => {
            let kept = generate::kept(folder.first().copied());
            rules(number(count), |index| generate::threshold_file(number(seed), index, &kept))
        }
        ["--rules", seed, count, folder @ ..] if folder.len() < 2 => {
            let kept = generate::kept(folder.first().copied());
            rules(number(count), |index| generate::file(number(seed), index, &kept))
        }
        ["--coverage", "--thresholds", seed, count, folder @ ..] if folder.len() < 2 => {
            let kept = generate::kept(folder.first().copied());
            generate::coverage(number(count), |index| generate::threshold_file(number(seed), index, &kept))
        }
        ["--coverage", seed, count, folder @ ..] if folder.len() < 2 => {
            let kept = generate::kept(folder.first().copied());
            generate::coverage(number(count), |index| generate::file(number(seed), index, &kept))
        }
        ["--search", seed, seconds, folder] => search::search(number(seed), number(seconds), folder, ""),
        ["--search", seed, seconds, folder, named] => search::search(number(seed), number(seconds), folder, named),
        ["--topology", mask, cluster, values @ ..] if (14..=15).contains(&values.len()) => {
            let (values, inside) = values.split_at(14);
            threshold_of(inside);
            let mask = u16::from_str_radix(mask, 16).unwrap_or_else(|_| stop("not a mask"));
            let values: Vec<Option<f64>> = values.iter().map(|v| value(v)).collect();
            println!("{}", topology_line(mask, *cluster == "1", &values));
        }
        ["--topology-all", seed, inside @ ..] if inside.len() < 2 => {
            threshold_of(inside);
            topology_all(number(seed))
        }
        ["--visits-all"] => visits_all(),
        ["--owner", a, b, c, d, e, f] => {
            let [a, b, c, d, e, f] = [a, b, c, d, e, f].map(|x| number::<i64>(x));
            match isosurface::owner_of([a, b, c], [d, e, f]) {
                Some((o, p, label)) => println!("{label} {} {} {} {} {} {}", o[0], o[1], o[2], p[0], p[1], p[2]),
                None => println!("none"),
            }
        }
        ["--tet", tet, a, b, c, d, inside @ ..] if inside.len() < 2 => {
            threshold_of(inside);
            let (case, triangles) = isosurface::one_tetrahedron(number(tet), [a, b, c, d].map(|x| value(x)));
            println!("{case} {triangles}");
        }
        ["--inside", v, inside @ ..] if inside.len() < 2 => {
            threshold_of(inside);
            println!("{}", u8::from(isosurface::inside(given(v))))
        }
        ["--alpha", a, b] => println!("{}", countfile::float_text(isosurface::lerp_alpha(given(a), given(b)))),
        ["--point-alpha", a, b] => println!("{}", countfile::float_text(isosurface::point_alpha(given(a), given(b)))),
        ["--mean", values @ ..] if !values.is_empty() && values.len() % 3 == 0 => {
            let points: Vec<[f64; 3]> = values.chunks(3).map(|p| [given(p[0]), given(p[1]), given(p[2])]).collect();
            println!("{}", isosurface::mean(&points).map(countfile::float_text).join(" "));
        }
        ["--tables"] => tables(),
        _ => {
            let (options, files): (Vec<&String>, Vec<&String>) = args.iter().partition(|a| a.starts_with("--"));
            let on = |name: &str| options.iter().any(|o| *o == name);
            let known = options.iter().all(|o| ["--dump", "--ply", "--unbounded"].contains(&o.as_str()));
            if files.len() > 1 || !known || on("--dump") && on("--ply") {
                stop(USAGE);
            }
            let bytes = whole_input(files.first().copied());
            let answer = if on("--ply") {
                countfile::answer_ply(&bytes, on("--unbounded"))
            } else {
                countfile::answer_text(&bytes, on("--dump"), on("--unbounded")).into_bytes()
            };
            let _ = std::io::stdout().write_all(&answer);
        }
    }
}
