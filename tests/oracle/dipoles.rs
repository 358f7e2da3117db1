//! Makes crates/test_dipoles/stdin: trees of the Rust with what it keeps of each node for its dipoles, and its winding numbers by them,
//! over all of the oracle's kinds of shape and both strategies. tests/compare puts it into its copy of the oracle and builds it there:
//!
//!     BUILD=only tests/compare
//!     target/compare/target/release/dipoles > crates/test_dipoles/stdin
//!
//! On standard error it writes the line that a replay must end with. A case is its length in bytes, then words, u32 little-endian:
//! how many triangles, nodes and points, three accuracy scales; then 9 coordinates a triangle, 3 a point, an order entry a triangle,
//! 3 links a node, 6 box numbers a node, 16 numbers a node (first order, second order by columns, radius, centre), and at each scale
//! a winding number a point. Every NaN is written as 7fc00000.
//!
//! Where the Rust's walk meets a far term that is not finite, the winding number is that of the walk in nodes.rs, over the Rust's
//! numbers and solid angles. A point is left out where a sum reaches 16.

use shark::{
    cases::{make, Rng, Wish, KINDS},
    request::{Request, Settings, P},
    run::triangle,
    spatial_partitioning::aabb_tree::winding_numbers::{solid_angle, winding_number},
};
use std::io::Write;

#[allow(dead_code)]
#[path = "beside/nodes.rs"]
mod nodes;
use nodes::{Dipoles, Walk};

fn v(p: &P) -> [f32; 3] {
    [p.x, p.y, p.z]
}

fn word(x: f32) -> u32 {
    if x.is_nan() { 0x7fc0_0000 } else { x.to_bits() }
}

#[derive(Default)]
struct Made {
    bytes: Vec<u8>,
    trees: usize,
    nodes: usize,
    windings: usize,
    not_finite: usize,
}

impl Made {
    /// At most eight of the points.
    fn case(&mut self, s: Settings, tris: Vec<[P; 3]>, points: Vec<P>, scales: [f32; 3]) {
        let read = Request::read(&Request { triangles: Some(tris), points: Some(points), ..Request::default() }.write()).unwrap();
        let (tris, points) = (read.triangles.unwrap(), read.points.unwrap());
        let list: Vec<_> = tris.iter().map(triangle).collect();
        let d = Dipoles::new(s, &tris);
        let mut not_finite = 0;
        let mut answer = |p: &P, scale: f32| {
            let mut small = true;
            let mut walk = Walk::new(&d.tree, &d.data, scale, |slice: &[u32]| {
                let mut sum = 0f32;
                for &t in slice {
                    sum += solid_angle(&list[t as usize], p);
                    small &= sum.abs() < 16.0;
                }
                winding_number(slice.iter().map(|&t| &list[t as usize]), p)
            });
            let walked = walk.from_root(v(p));
            let (met, most) = (walk.not_finite > 0, walk.most);
            not_finite += met as usize;
            (small && most < 16.0).then(|| if met { walked } else { d.approximate(p, scale) })
        };
        let mut kept: Vec<(P, [f32; 3])> = Vec::new();
        for p in points {
            if let [Some(x), Some(y), Some(z)] = scales.map(|scale| answer(&p, scale)) {
                kept.push((p, [x, y, z]));
            }
        }
        kept.truncate(8);
        let mut out = vec![tris.len() as u32, d.tree.nodes.len() as u32, kept.len() as u32];
        out.extend(scales.map(f32::to_bits));
        out.extend(tris.iter().flatten().flat_map(v).map(word));
        out.extend(kept.iter().flat_map(|(p, _)| v(p)).map(word));
        out.extend(&d.tree.order);
        d.tree.nodes.iter().for_each(|n| out.extend([if n.leaf { 1 } else { 2 }, n.left as u32, n.right as u32]));
        out.extend(d.tree.nodes.iter().flat_map(|n| n.bbox).map(word));
        out.extend(d.data.iter().flatten().map(|x| word(*x)));
        (0..3).for_each(|i| out.extend(kept.iter().map(|(_, w)| word(w[i]))));
        self.bytes.extend((4 * out.len() as u32).to_le_bytes());
        self.bytes.extend(out.iter().flat_map(|w| w.to_le_bytes()));
        self.trees += 1;
        self.nodes += d.tree.nodes.len();
        self.windings += 3 * kept.len();
        self.not_finite += not_finite;
    }
}

/// One triangle, and the point beside its centre from which its far term is not finite: r to the fifth power is zero.
fn beside(made: &mut Made) {
    let s = Settings { version: 1, strategy: 1, leaf_minimum: 1, depth: 40 };
    let at = |x: f32, y: f32, z: f32| P::new(x, y, z);
    for size in [3.0, 3e-10] {
        let tris = vec![[at(0.0, 0.0, 0.0), at(size, 0.0, 0.0), at(0.0, size, 0.0)]];
        let (third, near) = (size / 3.0, 1e-10);
        let points = vec![at(third, third, near), at(third, third, -near), at(third, third, 1.0), at(1.0, 2.0, 3.0)];
        made.case(s, tris, points, [0.0, 1.0, 2.0]);
    }
}

fn main() {
    let (mut made, mut r) = (Made::default(), Rng::new(31));
    beside(&mut made);
    for kind in KINDS {
        for (round, size) in [1, 2 + r.below(6), 8 + r.below(16), 24 + r.below(17), 12, 40].into_iter().enumerate() {
            let wish = Wish {
                points: Some(14),
                spread: [None, None, Some("near".into()), Some("box".into())][r.below(4)].clone(),
                strategy: Some(1 + (round % 2) as u16),
                leaf: Some([1, 1, 1, 2, 3, 10][r.below(6)]),
                depth: Some([2, 40, 40, 64][r.below(4)]),
                ..Wish::default()
            };
            let asked = make(kind, 700 + round as u64, size, &wish);
            let (tris, mut points) = (asked.triangles.unwrap(), asked.points.unwrap());
            points.insert(0, triangle(&tris[r.below(tris.len())]).center());
            let scales = [[0.0, 2.0, 1000.0], [1.0, 2.0, 5.0], [0.25, 2.0, 3.0], [-0.0, 2.0, 10.0 * r.unit() as f32]][r.below(4)];
            made.case(asked.settings.unwrap(), tris, points, scales);
        }
    }
    std::io::stdout().write_all(&made.bytes).unwrap();
    eprintln!("{} trees, {} nodes, {} winding numbers, 0 words differ", made.trees, made.nodes, made.windings);
    eprintln!("({} of them where the Rust meets a far term that is not finite)", made.not_finite);
}
