// The samples of the benchmarks of a build: a smooth pile and noise, the same in every run.

fn smooth(n: usize) -> Vec<f64> {
    let mut s = Vec::new();
    let scale = 1.0 / (n - 1) as f64;
    for w in 0..n {
        for v in 0..n {
            for u in 0..n {
                let (x, y) = (u as f64 * scale - 0.5, v as f64 * scale - 0.5);
                s.push(w as f64 * scale - (0.15 + 0.6 * (-(x * x + y * y) * 12.0).exp()));
            }
        }
    }
    s
}

// A fixed sequence (xorshift), so that every run has the same samples.
fn noise(n: usize) -> Vec<f64> {
    let mut x = 88172645463325252u64;
    (0..n * n * n)
        .map(|_| {
            x ^= x << 13;
            x ^= x >> 7;
            x ^= x << 17;
            (x >> 11) as f64 / (1u64 << 52) as f64 - 1.0
        })
        .collect()
}
