//! Winding numbers by dipoles, the Rust's and this engine's, turn about in one process on the Rust's own two trees: processor time, the
//! least of 15 turns, 4,000 points a turn in a box half as large again as the drawing. tests/compare builds it. A line for each scale:
//!
//!     clock DRAWING TRIANGLES STRATEGY LEAF SCALE OURS_NS RUST_NS RATIO
//!     made DRAWING TRIANGLES STRATEGY LEAF SUMS_US RUST_US          (the numbers of all nodes; the Rust's with the building of its tree)

use shark::{
    cases::{make, Rng, Wish},
    request::{Settings, P},
    run,
    spatial_partitioning::aabb_tree::winding_numbers::WindingNumbers,
};

#[allow(dead_code)]
#[path = "beside/engine.rs"]
mod engine;
#[allow(dead_code)]
#[path = "beside/scan.rs"]
mod scan;
use engine::Tree;

extern "C" {
    /// C's own: processor time used, in millionths of a second (POSIX).
    fn clock() -> std::ffi::c_long;
}

fn least<T>(so_far: &mut f64, f: impl FnOnce() -> T) -> T {
    let start = unsafe { clock() };
    let made = f();
    *so_far = so_far.min((unsafe { clock() } - start) as f64 * 1e-6);
    made
}

const POINTS: usize = 4000;
const SCALES: [f32; 4] = [1.0, 2.0, 3.0, 5.0];

fn measure(kind: &str, n: usize, strategy: u16, leaf: u16) {
    let tris = make(kind, 5, n, &Wish { points: Some(0), ..Wish::default() }).triangles.unwrap();
    let given: Vec<f32> = tris.iter().flatten().flat_map(|p| [p.x, p.y, p.z]).collect();
    let side = |pick: fn(f32, f32) -> f32, axis: usize| tris.iter().flatten().map(|p| p[axis]).reduce(pick).unwrap();
    let mut r = Rng::new(n as u64);
    let mut at = |axis: usize| {
        let (lo, hi) = (side(f32::min, axis), side(f32::max, axis));
        (lo + hi) / 2.0 + 0.75 * (hi - lo) * r.both() as f32
    };
    let points: Vec<P> = (0..POINTS).map(|_| P::new(at(0), at(1), at(2))).collect();
    let asked: Vec<f32> = points.iter().flat_map(|p| [p.x, p.y, p.z]).collect();
    let s = Settings { version: 1, strategy, leaf_minimum: leaf, depth: 40 };
    let tree = Tree::build(&given, strategy as usize, leaf as usize, 40);
    let (mut sums_us, mut rust_us) = (f64::INFINITY, f64::INFINITY);
    let (mut ours, mut theirs) = ([f64::INFINITY; 4], [f64::INFINITY; 4]);
    for _ in 0..15 {
        let sums = least(&mut sums_us, || tree.sums(&given).unwrap());
        let rust = least(&mut rust_us, || WindingNumbers::from_tree(run::repaired::build_plain(s, &tris)));
        for (k, scale) in SCALES.into_iter().enumerate() {
            let w = least(&mut ours[k], || tree.fast(&given, &sums, &asked, scale).unwrap());
            let v: Vec<f32> = least(&mut theirs[k], || points.iter().map(|p| rust.approximate(p, scale)).collect());
            assert!(w.iter().zip(&v).all(|(x, y)| (x - y).abs() < 1e-3), "they differ");
        }
    }
    let name = format!("{kind} {n} {} {leaf}", if strategy == 1 { "median" } else { "area" });
    println!("made {name} {:.1} {:.1}", sums_us * 1e6, rust_us * 1e6);
    for k in 0..4 {
        let each = 1e9 / POINTS as f64;
        println!("clock {name} {} {:.0} {:.0} {:.2}", SCALES[k], ours[k] * each, theirs[k] * each, ours[k] / theirs[k]);
    }
}

fn main() {
    for n in [1000, 4096, 65536] {
        for kind in ["sphere", "soup"] {
            measure(kind, n, 1, 10);
            measure(kind, n, 2, 3);
        }
    }
}
