// Six times the enclosed volume of a mesh as a whole number, and its text, as FORMAT.md gives them. All ours: no Rust of docs/src has a volume.

use crate::countfile;

/// The most triangles that are taken.
const MOST: usize = 357_492;

/// The furthest that a corner may be from the origin on an axis.
const FURTHEST: i128 = 10_000;

const SCALES: [f64; 7] = [1.0, 1e1, 1e2, 1e3, 1e4, 1e5, 1e6];

/// What is asked: the scale, 10^digits, and the whole origin.
pub struct Asked {
    digits: usize,
    origin: [i64; 3],
}

impl Asked {
    /// The words DIGITS X Y Z, each written as it would be printed; None if they are not of this form.
    pub fn read(words: [&str; 4]) -> Option<Self> {
        let whole = |word: &str| word.parse::<i64>().ok().filter(|n| n.to_string() == word);
        let digits = whole(words[0]).filter(|n| (0..=6).contains(n))?;
        Some(Asked { digits: digits as usize, origin: [whole(words[1])?, whole(words[2])?, whole(words[3])?] })
    }
}

/// The product, rounded once, to the nearest whole number, ties to even, less the origin's; None if it is not accepted.
fn coordinate(x: f64, scale: f64, origin: i64) -> Option<i128> {
    let nearest = (x * scale).round_ties_even();
    if !(nearest.abs() < 1e19) {
        return None; // NaN, infinite, or far from every i64; what is left is a whole number that i128 holds
    }
    let whole = nearest as i128 - i128::from(origin);
    (-FURTHEST..=FURTHEST).contains(&whole).then_some(whole)
}

/// a · (b × c)
fn det(a: [i128; 3], b: [i128; 3], c: [i128; 3]) -> i128 {
    a[0] * (b[1] * c[2] - b[2] * c[1]) + a[1] * (b[2] * c[0] - b[0] * c[2]) + a[2] * (b[0] * c[1] - b[1] * c[0])
}

/// The sum of the triangles' determinants; None is status 13. A count file can't bring about 10 and 12.
fn six(asked: &Asked, positions: &[f64], triangles: &[usize]) -> Option<i128> {
    let vertices = positions.len() / 3;
    assert!(positions.len() == 3 * vertices && triangles.len() % 3 == 0, "lists not in whole threes");
    assert!(triangles.len() / 3 <= MOST && triangles.iter().all(|&v| v < vertices), "too many triangles, or an index past the vertices");
    let on = |v: usize, axis: usize| coordinate(positions[3 * v + axis], SCALES[asked.digits], asked.origin[axis]);
    let corner = |v: usize| Some([on(v, 0)?, on(v, 1)?, on(v, 2)?]);
    triangles.chunks(3).map(|t| Some(det(corner(t[0])?, corner(t[1])?, corner(t[2])?))).sum()
}

/// The five lines of a count file's mesh, or the line `status=` where the count program would refuse or a corner is not accepted.
pub fn answer(bytes: &[u8], asked: &Asked) -> String {
    let (status, done) = countfile::run(bytes, false, false);
    let Some((_, mesh)) = done else {
        return format!("status={status}\n");
    };
    let Some(six) = six(asked, &mesh.positions, &mesh.triangles) else {
        return "status=13\n".to_string();
    };
    let (whole, sixths) = (six.unsigned_abs() / 6, six.unsigned_abs() % 6);
    let places = 3 * asked.digits;
    let shown = format!("{whole:0>width$}", width = places + 1);
    let (before, behind) = shown.split_at(shown.len() - places);
    let (minus, point) = (if six < 0 { "-" } else { "" }, if places > 0 { "." } else { "" });
    let triangles = mesh.triangles.len() / 3;
    format!("status=0\ntriangles={triangles}\nsix={six}\nvolume={minus}{before}{point}{behind}\nsixths={sixths}\n")
}
