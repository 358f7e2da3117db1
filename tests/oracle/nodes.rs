//! The Rust's winding numbers by dipoles with what it keeps of each node, and this engine's walk over that, written plainly:
//! for dipoles.rs and dipoles_compare.rs. The numbers of a node are read by tests/oracle/window.rs.

use shark::{
    request::{Settings, P},
    run::{self, caught, Any, Node, Variant},
    spatial_partitioning::{aabb_tree, aabb_tree_nan_none},
};
use std::f32::consts::PI;

pub struct Dipoles {
    pub tree: run::Tree,
    pub data: Vec<[f32; 16]>,
    /// The Rust stops on a cost that is no number: this is its tree with that one repair.
    pub stopped: bool,
    approximate: Box<dyn Fn(&P, f32) -> f32>,
}

impl Dipoles {
    pub fn new(s: Settings, tris: &[[P; 3]]) -> Self {
        let repaired = caught(|| {
            let w = aabb_tree::winding_numbers::WindingNumbers::from_tree(run::repaired::build_plain(s, tris));
            let tree = Any::build(Variant::Repaired, s, tris).see();
            Dipoles { tree, data: w.seen_data(), stopped: false, approximate: Box::new(move |p, scale| w.approximate(p, scale)) }
        });
        repaired.unwrap_or_else(|_| {
            let w = aabb_tree_nan_none::winding_numbers::WindingNumbers::from_tree(run::nan_none::build_plain(s, tris));
            let tree = Any::build(Variant::NanNone, s, tris).see();
            Dipoles { tree, data: w.seen_data(), stopped: true, approximate: Box::new(move |p, scale| w.approximate(p, scale)) }
        })
    }

    pub fn approximate(&self, p: &P, scale: f32) -> f32 {
        (self.approximate)(p, scale)
    }
}

fn dot(a: [f32; 3], b: [f32; 3]) -> f32 {
    a[0] * b[0] + a[1] * b[1] + a[2] * b[2]
}

/// What a node's numbers give at a point, by the steps of the Rust's `hessians` and `fast_wn`.
pub fn far_term(d: &[f32; 16], q: [f32; 3]) -> f32 {
    let r = [d[13] - q[0], d[14] - q[1], d[15] - q[2]];
    let r2 = dot(r, r);
    let r3 = r2 * r2.sqrt();
    let inverse = 1.0 / (4.0 * PI * r3);
    let r5 = r3 * r2;
    let first = dot([d[0], d[1], d[2]], r.map(|x| x * inverse));
    let mut second = 0.0;
    for j in 0..3 {
        for i in 0..3 {
            let identity = if i == j { 1.0 } else { 0.0 };
            second += d[3 + 3 * j + i] * (identity * inverse - 3.0 * r[i] * r[j] / (4.0 * PI * r5));
        }
    }
    first + second
}

/// This engine's walk: a node is used as far where the point is farther than the radius times the scale and the far term is finite;
/// any other leaf is measured by `leaf`, and any other branch is its left child's number plus its right child's.
pub struct Walk<'a, L: FnMut(&[u32]) -> f32> {
    pub order: &'a [u32],
    pub nodes: &'a [Node],
    pub data: &'a [[f32; 16]],
    pub scale: f32,
    pub leaf: L,
    pub far: u64,
    pub opened: u64,
    pub leaves: u64,
    /// Nodes that the point is far from, opened because the far term is not finite.
    pub not_finite: u64,
    /// The largest of the numbers that were added up along the tree.
    pub most: f32,
}

impl<'a, L: FnMut(&[u32]) -> f32> Walk<'a, L> {
    pub fn new(tree: &'a run::Tree, data: &'a [[f32; 16]], scale: f32, leaf: L) -> Self {
        Walk { order: &tree.order, nodes: &tree.nodes, data, scale, leaf, far: 0, opened: 0, leaves: 0, not_finite: 0, most: 0.0 }
    }

    pub fn from_root(&mut self, q: [f32; 3]) -> f32 {
        self.at(self.nodes.len() - 1, q)
    }

    fn at(&mut self, node: usize, q: [f32; 3]) -> f32 {
        let d = &self.data[node];
        let off = [q[0] - d[13], q[1] - d[14], q[2] - d[15]];
        let mut used = None;
        if dot(off, off).sqrt() > d[12] * self.scale {
            used = Some(far_term(d, q)).filter(|term| term.is_finite());
            self.not_finite += used.is_none() as u64;
        }
        let Node { leaf, left, right, .. } = self.nodes[node];
        let number = match used {
            Some(term) => {
                self.far += 1;
                term
            }
            None if leaf => {
                self.leaves += 1;
                (self.leaf)(&self.order[left..right])
            }
            None => {
                self.opened += 1;
                let from_left = self.at(left, q);
                from_left + self.at(right, q)
            }
        };
        self.most = self.most.max(number.abs());
        number
    }
}
