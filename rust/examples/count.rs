//! Reads a count file (its name as argument, or standard input) and prints the counts, then the vertices and the triangles, one a line.

use std::io::Read;

fn main() {
    let mut bytes = Vec::new();
    let read = match std::env::args().nth(1) {
        Some(name) => std::fs::File::open(&name).and_then(|mut f| f.read_to_end(&mut bytes)),
        None => std::io::stdin().read_to_end(&mut bytes),
    };
    if let Err(why) = read {
        eprintln!("count: {why}");
        std::process::exit(2);
    }
    let Some(file) = spoonthicket::count_file::read(&bytes) else {
        println!("status=8");
        return;
    };
    match spoonthicket::build(&file.request()) {
        Err(refusal) => {
            println!("status={}", refusal.0);
            eprintln!("{}", refusal.words());
        }
        Ok(mesh) => {
            let c = mesh.counts;
            println!("status=0\nsites={}\ncrossed={}", file.samples.len(), c.crossed);
            println!("vertices={}\ntriangles={}\nclosed={}", c.vertices, c.triangles, c.closed);
            println!("multihole={}\nflathole={}\nmultisurface={}", c.multihole, c.flathole, c.multisurface);
            println!("simple={}\nsplit={}\nrounds={}", c.simple, c.split, c.rounds);
            for [x, y, z] in &mesh.positions {
                println!("v {x} {y} {z}");
            }
            for [a, b, c] in &mesh.triangles {
                println!("t {a} {b} {c}");
            }
        }
    }
}
