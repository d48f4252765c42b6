//! Balls and cones of known size, sampled, built and measured: how far the volume that is found lies from the true one, and what rounding to whole units costs.
//! Prints three tables in Markdown. tools/volume_table runs it.
//!
//! Lengths are in steps of the frame, which are equal on the three axes but in the second table. A site (u, v, w) lies at (w - u - v, u - v, -w), so there is one
//! site to two cubic steps, and the nearest neighbours are the square root of two away. Each body is sampled 64 times, its middle shifted within the cell of a
//! site, in a box of 32 a side whose border is all outside. A ball's sample is the distance from its surface. A cone stands on flat ground as a pile does; its
//! sample is how far the site is above the slope, or below the ground, whichever is larger (examples/README.md).

use spoonthicket::{build, Mesh, Request, INSIDE};
use std::f64::consts::PI;

const SIDE: usize = 32;
const SHIFTS: usize = 64;

#[derive(Clone, Copy)]
enum Body {
    Ball { radius: f64 },
    Cone { radius: f64, height: f64 },
}

impl Body {
    fn volume(self) -> f64 {
        match self {
            Body::Ball { radius } => 4.0 / 3.0 * PI * radius * radius * radius,
            Body::Cone { radius, height } => PI * radius * radius * height / 3.0,
        }
    }

    /// Negative inside. The place is seen from the middle of the ball, or of the cone's axis.
    fn sample(self, [x, y, z]: [f64; 3]) -> f64 {
        match self {
            Body::Ball { radius } => (x * x + y * y + z * z).sqrt() - radius,
            Body::Cone { radius, height } => {
                let above = z + height / 2.0;
                (above - height * (1.0 - x.hypot(y) / radius)).max(-above)
            }
        }
    }
}

/// A body's mesh, and where its middle lies.
struct Measured {
    mesh: Mesh,
    middle: [f64; 3],
}

/// The step in height is `rise`, the other two are 1. The shifts are spread evenly over the cell at the middle of the box.
fn measured(body: Body, method: usize, rise: f64, shift: usize) -> Measured {
    let place = |[u, v, w]: [f64; 3]| [w - u - v, u - v, -w * rise];
    let inner = |part: f64| (SIDE / 2 - 1) as f64 + (0.25 + part * shift as f64).fract();
    let middle = place([inner(0.819_172_5), inner(0.671_043_6), inner(0.549_700_5)]);
    let mut samples = Vec::new();
    for w in 0..SIDE {
        for v in 0..SIDE {
            for u in 0..SIDE {
                let at = place([u as f64, v as f64, w as f64]);
                let sample = body.sample([at[0] - middle[0], at[1] - middle[1], at[2] - middle[2]]);
                assert!(sample > 0.0 || [u, v, w].iter().all(|&n| 0 < n && n < SIDE - 1), "the body does not fit the box");
                samples.push(sample);
            }
        }
    }
    let request = Request { sides: [SIDE; 3], method, rounds: 4, inside: INSIDE, origin: [0.0; 3], step: [1.0, 1.0, rise], samples: &samples };
    Measured { mesh: build(&request).unwrap(), middle }
}

impl Measured {
    /// The volume by the library, in cubic steps, with so many units a step and the whole origin near the body's middle.
    fn volume(&self, units: f64) -> f64 {
        let origin = self.middle.map(|x| (x * units) as i64);
        self.mesh.six_volume(units, origin).unwrap() as f64 / 6.0 / (units * units * units)
    }

    /// The same with 2^30 units a step, in i128.
    fn exact(&self) -> f64 {
        let units = (1u64 << 30) as f64;
        let corner = |v: u32| -> [i128; 3] { std::array::from_fn(|axis| ((self.mesh.positions[v as usize][axis] - self.middle[axis]) * units).round() as i128) };
        let det = |[a, b, c]: [[i128; 3]; 3]| a[0] * (b[1] * c[2] - b[2] * c[1]) + a[1] * (b[2] * c[0] - b[0] * c[2]) + a[2] * (b[0] * c[1] - b[1] * c[0]);
        let six: i128 = self.mesh.triangles.iter().map(|t| det(t.map(corner))).sum();
        six as f64 / 6.0 / (units * units * units)
    }
}

/// For each shift, in percent.
fn errors(error: impl Fn(usize) -> f64) -> Vec<f64> {
    (0..SHIFTS).map(|shift| 100.0 * error(shift)).collect()
}

fn mean(all: &[f64]) -> f64 {
    all.iter().sum::<f64>() / all.len() as f64
}

/// The one that is furthest from 0.
fn worst(all: &[f64]) -> f64 {
    all.iter().fold(0.0, |worst: f64, &x| if x.abs() > worst.abs() { x } else { worst })
}

/// Against the true volume. With 800 units a step 12.1 steps are 9,680, and rounding to them costs less than a tenth of a percent.
fn from_true(body: Body, method: usize, rise: f64) -> String {
    let all = errors(|shift| measured(body, method, rise, shift).volume(800.0) / body.volume() - 1.0);
    format!(" {:.2} ({:.2}) |", mean(&all), worst(&all))
}

/// Against the mesh's own volume.
fn from_exact(body: Body, method: usize, units: f64) -> String {
    let all = errors(|shift| {
        let one = measured(body, method, 1.0, shift);
        one.volume(units) / one.exact() - 1.0
    });
    let sizes: Vec<f64> = all.iter().map(|x| x.abs()).collect();
    format!(" {:.4} ({:.4}) |", mean(&sizes), worst(&all))
}

fn main() {
    println!("The volume found against the true one, in percent: the mean, and in brackets the worst.\n");
    println!("| sites a radius | ball, method 0 | method 1 | cone as high as its radius, method 0 | method 1 | cone half as high, method 0 | method 1 |");
    println!("|---|---|---|---|---|---|---|");
    for radius in (5..=12).map(|n| n as f64 + 0.1) {
        let bodies = [Body::Ball { radius }, Body::Cone { radius, height: radius }, Body::Cone { radius, height: radius / 2.0 }];
        let row: String = bodies.into_iter().flat_map(|body| [0, 1].map(|method| from_true(body, method, 1.0))).collect();
        println!("| {radius} |{row}");
    }

    println!("\nThe same of the cone half as high, of 8.1 sites a radius, with finer steps in height.\n");
    println!("| step in height | method 0 | method 1 |\n|---|---|---|");
    for rise in [1.0, 0.5, 0.25] {
        let row = [0, 1].map(|method| from_true(Body::Cone { radius: 8.1, height: 4.05 }, method, rise)).concat();
        println!("| {rise} |{row}");
    }

    println!("\nThe volume found against that of the same mesh without rounding, in percent, at 8.1 sites a radius: the mean size, and in brackets the worst.\n");
    println!("| units a step | ball, method 0 | method 1 | cone as high as its radius, method 0 | method 1 |\n|---|---|---|---|---|");
    for units in [10.0, 100.0, 1000.0] {
        let bodies = [Body::Ball { radius: 8.1 }, Body::Cone { radius: 8.1, height: 8.1 }];
        let row: String = bodies.into_iter().flat_map(|body| [0, 1].map(|method| from_exact(body, method, units))).collect();
        println!("| {units} |{row}");
    }
}
