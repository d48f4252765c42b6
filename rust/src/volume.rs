//! The volume as a whole number: six times what a triangle list encloses, in whole units, signed and exact.
//!
//! A coordinate is the position times the scale (one product), rounded to the nearest whole number, a tie to the even one, less the origin's number.
//! The sum of a · (b × c) over the triangles always fits (`sum-fits`). It does not depend on their order (`volume-order`) or on the corner that each begins
//! with (`volume-turned`); reversing every triangle negates it (`volume-reversed`); and of a closed surface it is the same from every origin that is accepted
//! (`volume-moved`). Any mesh will do, ours or another maker's.

use crate::linked;

/// Why there is no sum: 10, 12 or 13.
#[derive(Clone, Copy, Debug, PartialEq, Eq)]
pub struct Refusal(pub usize);

impl Refusal {
    pub fn words(self) -> &'static str {
        match self.0 {
            10 => "a list not in whole threes, over 357,492 triangles, or an index past the vertices",
            12 => "a scale that is not above 0 and finite",
            13 => "a triangle's corner that is not within -10,000 to 10,000 on each axis after the origin is taken off",
            _ => "no refusal of this library",
        }
    }
}

impl std::fmt::Display for Refusal {
    fn fmt(&self, f: &mut std::fmt::Formatter) -> std::fmt::Result {
        write!(f, "refused ({}): {}", self.0, self.words())
    }
}

impl std::error::Error for Refusal {}

/// Six times the volume of triangles over vertices. A vertex that no triangle names is not looked at.
///
/// ```
/// // A corner of a cube, cut off by a plane: a sixth of a cubic unit.
/// let positions = [[0.0, 0.0, 0.0], [1.0, 0.0, 0.0], [0.0, 1.0, 0.0], [0.0, 0.0, 1.0]];
/// let triangles = [[0, 2, 1], [0, 1, 3], [0, 3, 2], [1, 2, 3]];
/// assert_eq!(spoonthicket::volume::six_volume(&positions, &triangles, 1.0, [0, 0, 0]), Ok(1));
/// assert_eq!(spoonthicket::volume::six_volume(&positions, &triangles, 1000.0, [-7, 0, 9]), Ok(1_000_000_000));
/// ```
pub fn six_volume(positions: &[[f64; 3]], triangles: &[[u32; 3]], scale: f64, origin: [i64; 3]) -> Result<i64, Refusal> {
    six_volume_of(positions.as_flattened(), triangles.as_flattened(), scale, origin)
}

/// The same over plain lists of any length, as `build_in` leaves them at the front of its buffers; not in whole threes is 10.
pub fn six_volume_of(vertices: &[f64], triangles: &[u32], scale: f64, origin: [i64; 3]) -> Result<i64, Refusal> {
    let mut six = [0; 1];
    // Each list is a slice with its own length, and the fixed ones have three entries and one.
    let status = unsafe {
        linked::spoonthicket_volume(vertices.as_ptr(), vertices.len(), triangles.as_ptr(), triangles.len(), scale, &origin, &mut six)
    };
    match status {
        0 => Ok(six[0]),
        n => Err(Refusal(n)),
    }
}
