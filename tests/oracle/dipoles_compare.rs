//! Winding numbers by dipoles, the oracle and this engine in one process on the same made-up requests. Prints counts and the first
//! that differ, and ends with status 1 where any does. tests/compare builds and runs it.
//!
//!     dipoles_compare [REQUESTS [LARGE]]
//!
//! 200,000 requests of up to 4,096 triangles, then 612 of 4,096 to 65,536.
//!
//! The numbers of each node must be the Rust's, bit for bit. Winding numbers must be the Rust's within n x 2^-20 for n triangles,
//! where the sums of solid angles and those along the tree stay below 16. Where the Rust's walk meets a far term that is not finite,
//! its answer is none; this engine's must be that of its own walk written plainly (nodes.rs), as near. With this engine's own winding
//! numbers of the leaves in it, that walk must give this engine's answer bit for bit, with the numbers of the nodes as they are made
//! and with some of them changed.

use shark::{
    cases::{Rng, Wish, KINDS},
    geometry::primitives::triangle3::Triangle3,
    request::{Settings, P},
    run::{self, triangle},
    spatial_partitioning::aabb_tree::winding_numbers::{solid_angle, winding_number},
};
use std::time::Instant;

#[allow(dead_code)]
#[path = "beside/asked.rs"]
mod asked;
#[allow(dead_code)]
#[path = "beside/engine.rs"]
mod engine;
#[path = "beside/nodes.rs"]
mod nodes;
#[allow(dead_code)]
#[path = "beside/scan.rs"]
mod scan;
use asked::{numbers, v, Asked, Tally};
use engine::Tree;
use nodes::{Dipoles, Walk};

const UNIT: f64 = 1.0 / 1048576.0;

/// Any NaN is as good as another.
fn same(x: f32, y: f32) -> bool {
    x.to_bits() == y.to_bits() || (x.is_nan() && y.is_nan())
}

struct Requests {
    trees: Tally,
    sums: Tally,
    winding: Tally,
    walked: Tally,
    plain: Tally,
    own: Tally,
    lent: Tally,
    sizes: [u64; 3],
    stopped: u64,
    points: u64,
    with_far: u64,
    with_not_finite: u64,
    far: u64,
    opened: u64,
    leaves: u64,
    past_16: u64,
    most: f64,
    most_past_16: f64,
    lent_not_finite: u64,
}

impl Requests {
    fn new() -> Self {
        Requests {
            trees: Tally::new("trees, as the Rust's"),
            sums: Tally::new("nodes, sixteen numbers each, bit for bit; nothing written past them"),
            winding: Tally::new("winding numbers by dipoles, within n x 2^-20 of the Rust's"),
            walked: Tally::new("the same where the Rust meets a far term that is not finite, against the walk written plainly over the Rust's leaves"),
            plain: Tally::new("the walk written plainly over the Rust's leaves, bit for bit the Rust's answer where every far term is finite"),
            own: Tally::new("winding numbers by dipoles, bit for bit the walk written plainly over this engine's leaves"),
            lent: Tally::new("the same with some numbers of the nodes changed"),
            sizes: [0; 3],
            stopped: 0,
            points: 0,
            with_far: 0,
            with_not_finite: 0,
            far: 0,
            opened: 0,
            leaves: 0,
            past_16: 0,
            most: 0.0,
            most_past_16: 0.0,
            lent_not_finite: 0,
        }
    }

    fn run(&mut self, a: &mut Asked, scale: f32, r: &mut Rng) {
        let s = a.settings;
        let n = a.tris.len();
        self.sizes[[4095, 65535].iter().filter(|&&most| n > most).count()] += 1;
        let theirs = Dipoles::new(s, &a.tris);
        self.stopped += theirs.stopped as u64;
        points_on(a, &theirs, r);
        let name = format!("{} scale={scale:?}", a.name);

        let ours = Tree::build(&a.given, s.strategy as usize, s.leaf_minimum as usize, s.depth as usize);
        let links: Vec<u32> = theirs.tree.nodes.iter().flat_map(|n| [if n.leaf { 1 } else { 2 }, n.left as u32, n.right as u32]).collect();
        let alike = ours.nodes == theirs.tree.nodes.len() && ours.order[..n] == theirs.tree.order && ours.links[..3 * ours.nodes] == links;
        self.trees.note(alike, || name.clone());
        if !alike {
            return;
        }
        let sums = ours.sums(&a.given);
        for (k, wanted) in theirs.data.iter().enumerate() {
            let got = sums.as_ref().map(|s| s[k]);
            let right = got.is_some_and(|g| g.iter().zip(wanted).all(|(x, y)| same(*x, *y)));
            self.sums.note(right, || format!("{name}: node {k} of {}: {got:?}, not {wanted:?}", theirs.data.len()));
        }
        let Some(sums) = sums else { return };
        let answers = ours.fast(&a.given, &sums, &a.given_points, scale);
        let triangles: Vec<_> = a.tris.iter().map(triangle).collect();
        for k in 0..a.points.len() {
            self.point(&name, &theirs, &triangles, a, k, scale, answers.as_ref().map(|w| w[k]));
        }
        self.changed(&name, &theirs.tree, &ours, sums, a, scale, r);
    }

    #[allow(clippy::too_many_arguments)]
    fn point(&mut self, name: &str, theirs: &Dipoles, triangles: &[Triangle3<f32>], a: &Asked, k: usize, scale: f32, got: Option<f32>) {
        let (n, p) = (a.tris.len(), &a.points[k]);
        let tell = |want: f32| format!("{name}: point {k} {p:?}: {got:?}, not {want:?}");
        let mut small = true;
        let mut walk = Walk::new(&theirs.tree, &theirs.data, scale, |slice: &[u32]| {
            let mut sum = 0f32;
            for &t in slice {
                sum += solid_angle(&triangles[t as usize], p);
                small &= sum.abs() < 16.0;
            }
            winding_number(slice.iter().map(|&t| &triangles[t as usize]), p)
        });
        let plain = walk.from_root(v(p));
        let (far, opened, leaves, not_finite, most) = (walk.far, walk.opened, walk.leaves, walk.not_finite, walk.most);
        small &= most < 16.0;
        self.points += 1;
        self.far += far;
        self.opened += opened;
        self.leaves += leaves;
        self.with_far += (far > 0) as u64;
        self.with_not_finite += (not_finite > 0) as u64;

        let rust = theirs.approximate(p, scale);
        if not_finite == 0 {
            self.plain.note(same(plain, rust), || format!("{name}: point {k} {p:?}: {plain:?}, not {rust:?}"));
        } else {
            self.plain.note(!rust.is_finite(), || format!("{name}: point {k} {p:?}: the Rust has {rust:?}"));
        }
        let off = got.map_or(f64::INFINITY, |g| if same(g, plain) { 0.0 } else { (g as f64 - plain as f64).abs() });
        let most = if small { &mut self.most } else { &mut self.most_past_16 };
        *most = most.max(off / UNIT / n as f64);
        if small {
            let tally = if not_finite == 0 { &mut self.winding } else { &mut self.walked };
            tally.note(off <= n as f64 * UNIT, || tell(plain));
        } else {
            self.past_16 += 1;
        }
        let own = Walk::new(&theirs.tree, &theirs.data, scale, |slice: &[u32]| own_leaf(a, slice, k)).from_root(v(p));
        self.own.note(got.is_some_and(|g| same(g, own)), || tell(own));
    }

    /// The walk takes the numbers as they are lent: some changed to any bits, to a NaN, an infinity, a zero or the same of another node.
    #[allow(clippy::too_many_arguments)]
    fn changed(&mut self, name: &str, tree: &run::Tree, ours: &Tree, mut sums: Vec<[f32; 16]>, a: &Asked, scale: f32, r: &mut Rng) {
        if a.points.is_empty() {
            return;
        }
        for _ in 0..1 + r.below(1 + sums.len() / 4) {
            let (node, at, other) = (r.below(sums.len()), r.below(16), sums[r.below(sums.len())]);
            sums[node][at] = match r.below(6) {
                0 | 1 => f32::from_bits(r.next() as u32),
                2 => [f32::NAN, f32::INFINITY, f32::NEG_INFINITY][r.below(3)],
                3 => [0.0, -0.0][r.below(2)],
                4 => -sums[node][at],
                _ => other[at],
            };
        }
        let k = r.below(a.points.len());
        let got = ours.fast(&a.given, &sums, &a.given_points[3 * k..3 * k + 3], scale).map(|w| w[0]);
        let mut walk = Walk::new(tree, &sums, scale, |slice: &[u32]| own_leaf(a, slice, k));
        let own = walk.from_root(v(&a.points[k]));
        self.lent_not_finite += (walk.not_finite > 0) as u64;
        self.lent.note(got.is_some_and(|g| same(g, own)), || format!("{name}: point {k} {:?}: {got:?}, not {own:?}", a.points[k]));
    }
}

fn own_leaf(a: &Asked, slice: &[u32], k: usize) -> f32 {
    let list: Vec<f32> = slice.iter().flat_map(|&t| &a.given[9 * t as usize..9 * t as usize + 9]).copied().collect();
    engine::windings(&list, &a.given_points[3 * k..3 * k + 3]).expect("a leaf's winding number")[0]
}

/// Some of the points become the centre of a triangle, the centre of a node's dipole, or a little beside that.
fn points_on(a: &mut Asked, theirs: &Dipoles, r: &mut Rng) {
    for k in 0..a.points.len() {
        let p = match r.below(8) {
            0 => triangle(&a.tris[r.below(a.tris.len())]).center(),
            1 => {
                let d = theirs.data[r.below(theirs.data.len())];
                let beside = [0.0, 1e-12, 1e-10, 1e-9, 1e-7, 1e-3][r.below(6)];
                let mut at = |c: f32| c + beside * r.both() as f32;
                P::new(at(d[13]), at(d[14]), at(d[15]))
            }
            _ => continue,
        };
        if v(&p).iter().all(|c| c.abs() <= 1_048_576.0) {
            let p = P::new(p.x + 0.0, p.y + 0.0, p.z + 0.0);
            a.points[k] = p;
            a.given_points[3 * k..3 * k + 3].copy_from_slice(&numbers([p].iter()));
        }
    }
}

fn scale(r: &mut Rng) -> f32 {
    match r.below(12) {
        0 => 0.0,
        1..=4 => 2.0,
        5 => 1000.0,
        6 => [1.0, 3.0, 5.0][r.below(3)],
        7 => 1000.0 * r.unit() as f32,
        8 => [-0.0, 1e-3, f32::MIN_POSITIVE, 999.99994, 0.5][r.below(5)],
        _ => 10.0 * r.unit() as f32,
    }
}

fn leaf(r: &mut Rng) -> u16 {
    [1, 1, 3, 10, 1 + r.below(64) as u16, 1 << r.below(7)][r.below(6)]
}

/// Mostly 1 to 64 triangles, a sixth up to 512, a fortieth up to 2,048, one in 200 up to 4,096.
fn request(i: u64, r: &mut Rng) -> Asked {
    let (size, points) = match r.below(200) {
        0..=160 => (1 + r.below(64), 1 + r.below(12)),
        161..=193 => (65 + r.below(448), 1 + r.below(12)),
        194..=198 => (513 + r.below(1536), 8),
        _ => ([4096, 4095, 2049 + r.below(2047)][r.below(3)], 8),
    };
    let wish = Wish {
        points: Some(points),
        spread: [None, None, None, Some("near".into()), Some("box".into())][r.below(5)].clone(),
        strategy: Some(1 + r.below(2) as u16),
        leaf: Some(leaf(r)),
        depth: [None, Some(40), Some(64)][r.below(3)],
        ..Wish::default()
    };
    Asked::new(KINDS[i as usize % KINDS.len()], 11_000_000 + i, size, &wish)
}

/// Each kind by each strategy at 4,096, at numbers between and at 65,536 triangles.
fn large_request(i: u64, r: &mut Rng) -> Asked {
    let pairs = 2 * KINDS.len();
    let (pair, round) = (i as usize % pairs, i as usize / pairs);
    let size = [4096, 4097, 4098 + r.below(61437), 4098 + r.below(61437), 65535, 65536][(pair + round) % 6];
    let wish = Wish {
        points: Some(16),
        spread: [None, Some("near".into()), Some("box".into())][r.below(3)].clone(),
        strategy: Some(1 + (pair / KINDS.len()) as u16),
        leaf: Some(leaf(r)),
        depth: [Some(40), Some(64)][r.below(2)],
        ..Wish::default()
    };
    Asked::new(KINDS[pair % KINDS.len()], 15_000_000 + i, size, &wish)
}

fn requests(count: u64, seed: u64, request: fn(u64, &mut Rng) -> Asked) -> u64 {
    let (start, mut all, mut r) = (Instant::now(), Requests::new(), Rng::new(seed));
    for i in 0..count {
        let mut a = request(i, &mut r);
        let scale = scale(&mut r);
        all.run(&mut a, scale, &mut r);
    }
    let n = all.sizes;
    println!("{count} requests over {} kinds of shape, {:.0} s", KINDS.len(), start.elapsed().as_secs_f64());
    println!("  1 to 4,095 triangles {}, to 65,535 {}, 65,536 {}; the Rust stops on a cost that is no number in {}", n[0], n[1], n[2], all.stopped);
    println!("  {} points: {} nodes used as far, {} branches opened, {} leaves measured", all.points, all.far, all.opened, all.leaves);
    println!("  {} points with a node used as far, {} that meet a far term that is not finite", all.with_far, all.with_not_finite);
    println!("  {} points with changed numbers that meet one", all.lent_not_finite);
    println!("  winding numbers at most {:.4} x 2^-20 a triangle off", all.most);
    println!("  {} points not judged, where a sum reaches 16: at most {:.4} x 2^-20 a triangle off", all.past_16, all.most_past_16);
    [&all.trees, &all.sums, &all.winding, &all.walked, &all.plain, &all.own, &all.lent].iter().map(|t| t.print()).sum()
}

/// The smallest inputs where the Rust has no answer, and one where a node has no centre: name, triangle, point, scale.
const SMALLEST: [(&str, [f32; 9], [f32; 3], f32); 4] = [
    ("far term not finite, at scale 0", [0.0, 0.0, 0.0, 3.0, 0.0, 0.0, 0.0, 3.0, 0.0], [1.0, 1.0, 1e-10], 0.0),
    ("far term not finite, at scale 2", [0.0, 0.0, 0.0, 3e-10, 0.0, 0.0, 0.0, 3e-10, 0.0], [1e-10, 1e-10, 7e-10], 2.0),
    ("the same, ten times as large", [0.0, 0.0, 0.0, 3e-9, 0.0, 0.0, 0.0, 3e-9, 0.0], [1e-9, 1e-9, 7e-9], 2.0),
    ("no area, so no centre", [0.0, 0.0, 0.0, 1.0, 0.0, 0.0, 2.0, 0.0, 0.0], [0.0, 0.0, 1.0], 2.0),
];

fn smallest() {
    for (name, given, q, scale) in SMALLEST {
        let s = Settings { version: 1, strategy: 1, leaf_minimum: 1, depth: 40 };
        let (tris, p) = ([[0, 3, 6].map(|i| P::new(given[i], given[i + 1], given[i + 2]))], P::new(q[0], q[1], q[2]));
        let rust = Dipoles::new(s, &tris).approximate(&p, scale);
        let exact = winding_number([triangle(&tris[0])].iter(), &p);
        let tree = Tree::build(&given, 1, 1, 40);
        let ours = tree.sums(&given).and_then(|sums| tree.fast(&given, &sums, &q, scale));
        println!("{name}: {given:?} from {q:?}, scale {scale:?}\n    the Rust {rust:?}, its exact number {exact:?}");
        println!("    here {:?}, exact {:?}", ours.map(|w| w[0]), engine::windings(&given, &q).map(|w| w[0]));
    }
}

fn main() {
    smallest();
    let mut args = std::env::args().skip(1).map(|a| a.parse().expect("a number"));
    let (small, large) = (args.next().unwrap_or(200_000), args.next().unwrap_or(612));
    let differ = requests(small, 21, request) + requests(large, 22, large_request);
    println!("{differ} differ");
    std::process::exit((differ > 0) as i32);
}
