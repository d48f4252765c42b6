//! Tests of the count file's reader: both forms, the line `inside=` in its place alone and right, and what a build makes of it.

use spoonthicket::{build, count_file, Refusal, INSIDE};

/// The bits of 1.0e-9.
const BITS: &str = "3e112e0be826d695";

/// The example of docs/SCOPE.md, S10.6, with these lines behind `rounds=`, and this sample in the middle.
fn file(behind: &str, centre: f64) -> String {
    let mut text = format!("nu=3\nnv=3\nnw=3\nmethod=1\nrounds=4\n{behind}");
    for key in ["origin0", "origin1", "origin2"] {
        text += &format!("{key}=0000000000000000\n");
    }
    for key in ["step0", "step1", "step2"] {
        text += &format!("{key}=3ff0000000000000\n");
    }
    for site in 0..27 {
        let sample: f64 = if site == 13 { centre } else { 1.0 };
        text += &format!("s={:016x}\n", sample.to_bits());
    }
    text
}

fn line(inside: f64) -> String {
    format!("inside={:016x}\n", inside.to_bits())
}

fn inside_of(text: &str) -> Option<f64> {
    count_file::read(text.as_bytes()).map(|f| f.inside)
}

#[test]
fn both_forms() {
    assert_eq!(INSIDE.to_bits(), u64::from_str_radix(BITS, 16).unwrap());
    assert_eq!(inside_of(&file("", -1.0)).map(f64::to_bits), Some(INSIDE.to_bits()));
    for bits in [0, 1, 1 << 63, INSIDE.to_bits(), 0.25f64.to_bits(), 1.0f64.to_bits(), 2.0f64.to_bits(), 0x7ff8 << 48, (0xfff0 << 48) + 1, u64::MAX] {
        let inside = f64::from_bits(bits);
        assert_eq!(inside_of(&file(&line(inside), -1.0)).map(f64::to_bits), Some(bits));
    }
    let (without, with) = (file("", -1.0), file(&format!("inside={BITS}\n"), -1.0));
    assert_eq!(count_file::read(without.as_bytes()), count_file::read(with.as_bytes()));
}

#[test]
fn not_of_the_form() {
    let long = format!("inside={BITS}0\n");
    let twice = format!("inside={BITS}\ninside={BITS}\n");
    let again = format!("rounds=4\ninside={BITS}\n");
    let capital = format!("inside={}\n", BITS.to_uppercase());
    let end = format!("inside={BITS}\r\n");
    let spaces = [format!(" inside={BITS}\n"), format!("inside= {BITS}\n"), format!("inside ={BITS}\n"), format!("inside={BITS} \n"), format!("\ninside={BITS}\n")];
    let short = ["inside=\n", "inside", "inside\n", "inside=3e112e0be826d69\n", "inside=0.25\n", "inside=3e112e0be826d69g\n"].map(String::from);
    let named = ["Inside=0000000000000000\n", "outside=0000000000000000\n", "inside0=0000000000000000\n"].map(String::from);
    for behind in [long, twice, again, capital, end].iter().chain(&spaces).chain(&short).chain(&named) {
        assert_eq!(inside_of(&file(behind, -1.0)), None, "{behind:?}");
    }
    // Behind another line than `rounds=`, or first of all.
    let plain = file("", -1.0);
    for at in plain.match_indices('\n').map(|(at, _)| at + 1).chain([0]) {
        let (before, after) = plain.split_at(at);
        let moved = format!("{before}inside={BITS}\n{after}");
        assert_eq!(inside_of(&moved).is_some(), before.ends_with("rounds=4\n"), "{before:?}");
    }
    // In the place of any line, and in the place of a sample.
    for number in 0..plain.lines().count() {
        let other: String = plain.lines().enumerate().map(|(k, l)| if k == number { format!("inside={BITS}\n") } else { format!("{l}\n") }).collect();
        assert_eq!(inside_of(&other), None, "line {number}");
    }
    // Cut off anywhere.
    let with = file(&format!("inside={BITS}\n"), -1.0);
    for end in 0..with.len() {
        assert_eq!(inside_of(&with[..end]), None, "{end} bytes");
    }
}

/// What a build makes of the line: the side, the refusal and nothing else.
#[test]
fn what_is_built() {
    let built = |text: &str| build(&count_file::read(text.as_bytes()).unwrap().request());
    let plain = built(&file("", -1.0)).unwrap();
    assert_eq!((plain.counts.crossed, plain.counts.vertices, plain.counts.triangles, plain.counts.simple), (14, 8, 12, 8));
    for inside in [0.0, -0.0, 5e-324, 1.0e-12, INSIDE, 0.25] {
        assert!(built(&file(&line(inside), -1.0)).unwrap() == plain, "{inside:e}");
    }
    assert_eq!(built(&file(&line(1.0), -1.0)).unwrap().counts.crossed, 0);
    assert_eq!(built(&file(&line(0.25), -0.25)).unwrap().counts.crossed, 0);
    assert_eq!(built(&file(&line(0.25), f64::from_bits((-0.25f64).to_bits() + 1))).unwrap().counts.crossed, 14);
    for bits in [1 << 63 | 1, 1.0f64.to_bits() + 1, 0x7ff8 << 48, (0x7ff0 << 48) + 1, u64::MAX, f64::INFINITY.to_bits(), f64::NEG_INFINITY.to_bits()] {
        assert_eq!(built(&file(&format!("inside={bits:016x}\n"), -1.0)), Err(Refusal(14)), "{bits:016x}");
    }
    // Another refusal before it, and none behind it: 4 and not 14, 2 and not 14.
    let bad = file("inside=4000000000000000\n", -1.0);
    assert_eq!(built(&bad), Err(Refusal(14)));
    assert_eq!(built(&bad.replace("step1=3ff0000000000000", "step1=0000000000000000")), Err(Refusal(4)));
    assert_eq!(built(&bad.replace("rounds=4", "rounds=5")), Err(Refusal(1)));
    let long = "nu=3\nnv=3\nnw=3\n";
    let samples = "s=3ff0000000000000\n".repeat(6);
    assert_eq!(built(&(bad.replace(long, "nu=33\nnv=1\nnw=1\n") + &samples)), Err(Refusal(2)));
}
