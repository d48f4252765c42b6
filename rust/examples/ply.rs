//! Reads a PLY file (its name as argument, or standard input) and prints `status=`, and where that is 0 the numbers of vertices and faces, the three words of
//! each vertex in hex and the three indices of each face. With --batch it reads many, each after a line `file LENGTH`, and ends each answer by a line `end`.

use std::io::{Read, Write};

fn print(out: &mut impl Write, file: &[u8]) -> std::io::Result<()> {
    match spoonthicket::ply::read(file) {
        Err(refusal) => writeln!(out, "status={}", refusal.number()),
        Ok(ply) => {
            writeln!(out, "status=0\nvertices={}\nfaces={}", ply.words.len(), ply.triangles.len())?;
            for [x, y, z] in &ply.words {
                writeln!(out, "v {x:016x} {y:016x} {z:016x}")?;
            }
            for [a, b, c] in &ply.triangles {
                writeln!(out, "t {a} {b} {c}")?;
            }
            Ok(())
        }
    }
}

/// The length of the next file of a batch, and what follows the line.
fn head(rest: &[u8]) -> Option<(usize, &[u8])> {
    let line = rest.strip_prefix(b"file ")?;
    let end = line.iter().position(|&b| b == b'\n')?;
    let length: usize = std::str::from_utf8(&line[..end]).ok()?.parse().ok()?;
    (length <= line.len() - end - 1).then_some((length, &line[end + 1..]))
}

fn run() -> std::io::Result<()> {
    let mut bytes = Vec::new();
    let name = std::env::args().nth(1);
    let many = name.as_deref() == Some("--batch");
    match name {
        Some(name) if !many => std::fs::File::open(&name)?.read_to_end(&mut bytes)?,
        _ => std::io::stdin().read_to_end(&mut bytes)?,
    };
    let mut out = std::io::BufWriter::new(std::io::stdout().lock());
    if !many {
        return print(&mut out, &bytes);
    }
    let mut rest = &bytes[..];
    while !rest.is_empty() {
        let (length, body) = head(rest).ok_or_else(|| std::io::Error::other("no line `file LENGTH`, or the last file is cut off"))?;
        print(&mut out, &body[..length])?;
        writeln!(out, "end")?;
        rest = &body[length..];
    }
    Ok(())
}

fn main() {
    if let Err(why) = run() {
        eprintln!("ply: {why}");
        std::process::exit(2);
    }
}
