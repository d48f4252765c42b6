// The PLY file of a mesh, as FORMAT.md gives it: PLY 1.0, binary little endian. All ours.

use crate::countfile::float_bits;

/// The file of these coordinates and indices: all vertices ever made, then the triangles, both in number order.
pub fn file(positions: &[f64], triangles: &[usize]) -> Vec<u8> {
    let (vertices, faces) = (positions.len() / 3, triangles.len() / 3);
    assert!(positions.len() == 3 * vertices && triangles.len() == 3 * faces, "lists not in whole threes");
    assert!(triangles.iter().all(|&v| v < vertices), "an index past the vertices");
    let mut out = head(vertices, faces).into_bytes();
    for &x in positions {
        out.extend(float_bits(x).to_le_bytes());
    }
    for t in triangles.chunks(3) {
        out.push(3);
        for &v in t {
            out.extend(i32::try_from(v).unwrap().to_le_bytes());
        }
    }
    out
}

fn head(vertices: usize, faces: usize) -> String {
    let lines = [
        "ply".to_string(),
        "format binary_little_endian 1.0".to_string(),
        format!("element vertex {vertices}"),
        "property double x".to_string(),
        "property double y".to_string(),
        "property double z".to_string(),
        format!("element face {faces}"),
        "property list uchar int vertex_indices".to_string(),
        "end_header".to_string(),
    ];
    lines.map(|line| line + "\n").concat()
}
