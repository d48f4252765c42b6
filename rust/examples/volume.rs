//! The volume of a count file's mesh: `volume DIGITS X Y Z [FILE]`, with the scale 10^DIGITS and the whole origin X Y Z, prints what volume_main prints: `status=0`,
//! `triangles=`, `six=`, `volume=` and `sixths=`, or `status=` with a refusal's number. Without a name it reads standard input.
//! With --batch it reads many lists, three lines each: `P T SCALE X Y Z`, the numbers of entries, the scale by the 16 hex digits of its bits and the origin; a line
//! of P positions by their hex digits; a line of T indices. It prints a line `STATUS SIX` for each.

use spoonthicket::{build, count_file, volume::six_volume_of};
use std::io::{BufRead, Read, Write};

const USAGE: &str = "usage: volume DIGITS X Y Z [FILE]\n       volume --batch";

/// The volume in cubic units of the frame: its size cut to 3 * digits decimals, with the sum's sign, and what is left in sixths of the last place.
fn decimals(six: i64, digits: usize) -> (String, u64) {
    let size = six.unsigned_abs();
    let places = 3 * digits;
    let text = format!("{:0>width$}", size / 6, width = places + 1);
    let (whole, rest) = text.split_at(text.len() - places);
    let (minus, point) = (if six < 0 { "-" } else { "" }, if digits > 0 { "." } else { "" });
    (format!("{minus}{whole}{point}{rest}"), size % 6)
}

fn answer(bytes: &[u8], digits: usize, origin: [i64; 3]) -> String {
    let Some(file) = count_file::read(bytes) else {
        return "status=8\n".to_string();
    };
    let mesh = match build(&file.request()) {
        Ok(mesh) => mesh,
        Err(refusal) => return format!("status={}\n", refusal.0),
    };
    match mesh.six_volume([1.0, 1.0e1, 1.0e2, 1.0e3, 1.0e4, 1.0e5, 1.0e6][digits], origin) {
        Err(refusal) => format!("status={}\n", refusal.0),
        Ok(six) => {
            let (volume, sixths) = decimals(six, digits);
            format!("status=0\ntriangles={}\nsix={six}\nvolume={volume}\nsixths={sixths}\n", mesh.triangles.len())
        }
    }
}

/// A whole number as it is printed: a minus where it is below 0, no plus, no needless zero, no -0.
fn whole(word: &str) -> Option<i64> {
    word.parse().ok().filter(|n: &i64| n.to_string() == word)
}

/// The digits, the origin and the file's name, if one is given.
fn asked(words: &[String]) -> Option<(usize, [i64; 3], Option<&str>)> {
    if !(4..=5).contains(&words.len()) {
        return None;
    }
    let digits = whole(&words[0]).filter(|n| (0..=6).contains(n))?;
    Some((digits as usize, [whole(&words[1])?, whole(&words[2])?, whole(&words[3])?], words.get(4).map(String::as_str)))
}

fn one(words: &[String]) -> std::io::Result<()> {
    let Some((digits, origin, name)) = asked(words) else {
        eprintln!("{USAGE}");
        std::process::exit(2);
    };
    let mut bytes = Vec::new();
    match name {
        Some(name) => std::fs::File::open(name)?.read_to_end(&mut bytes)?,
        None => std::io::stdin().read_to_end(&mut bytes)?,
    };
    std::io::stdout().write_all(answer(&bytes, digits, origin).as_bytes())
}

/// So many words of a line, separated by one space.
fn list<T>(line: &str, count: usize, word: impl Fn(&str) -> Option<T>) -> Option<Vec<T>> {
    let line = line.strip_suffix('\n').unwrap_or(line);
    let all: Vec<T> = line.split(' ').filter(|_| !line.is_empty()).map(word).collect::<Option<_>>()?;
    (all.len() == count).then_some(all)
}

fn hex(word: &str) -> Option<f64> {
    u64::from_str_radix(word, 16).ok().filter(|_| word.len() == 16).map(f64::from_bits)
}

/// The answer to one request of a batch, by its three lines.
fn told(lines: &[String; 3]) -> Option<(usize, i64)> {
    let words: Vec<&str> = lines[0].trim_end().split(' ').collect();
    let [p, t, scale, x, y, z] = words[..] else {
        return None;
    };
    let vertices = list(&lines[1], p.parse().ok()?, hex)?;
    let triangles: Vec<u32> = list(&lines[2], t.parse().ok()?, |word| word.parse().ok())?;
    Some(match six_volume_of(&vertices, &triangles, hex(scale)?, [whole(x)?, whole(y)?, whole(z)?]) {
        Ok(six) => (0, six),
        Err(refusal) => (refusal.0, 0),
    })
}

fn batch() -> std::io::Result<()> {
    let mut input = std::io::stdin().lock();
    let mut out = std::io::BufWriter::new(std::io::stdout().lock());
    loop {
        let mut lines = [String::new(), String::new(), String::new()];
        for line in &mut lines {
            input.read_line(line)?;
        }
        if lines[0].is_empty() {
            return Ok(());
        }
        let (status, six) = told(&lines).ok_or_else(|| std::io::Error::other(format!("no request: {}", lines[0].trim_end())))?;
        writeln!(out, "{status} {six}")?;
    }
}

fn main() {
    let words: Vec<String> = std::env::args().skip(1).collect();
    let done = if words == ["--batch"] { batch() } else { one(&words) };
    if let Err(why) = done {
        eprintln!("volume: {why}");
        std::process::exit(2);
    }
}
