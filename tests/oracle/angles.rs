//! Makes crates/test_angles/stdin: roots by Rust's own `f32::sqrt`, angles by its `f64::atan2`, and
//! the solid angles and winding numbers of the oracle. Put it into the oracle's src/bin/ and run it there:
//!
//!     cargo build --release --offline
//!     target/release/angles > crates/test_angles/stdin 2> crates/test_angles/stdout
//!     target/release/angles 200 > target/windings        (a long list, for tests/angles/run.sh)
//!
//! On standard error it writes what a replay must print: how many there are of each, and that none differs.
//!
//! Words, u32 little-endian: how many roots, angles, solid angles and meshes there are; then
//! a root: a number, its root;
//! an angle: numerator, denominator, the angle's magnitude times 2^30 to the nearest, 1 where it is below zero;
//! a solid angle: nine numbers of a triangle, three of a point, the solid angle;
//! a mesh: how many triangles, how many points, their numbers, and a winding number for each point.
//! Every NaN is written as 7fc00000. A point is left out where a sum of the first solid angles reaches 16.

use shark::{
    cases::{make, Rng, Wish, KINDS},
    request::{Request, P},
    run,
    spatial_partitioning::aabb_tree::winding_numbers::{solid_angle, winding_number},
};
use std::io::Write;

type Triangles = Vec<[P; 3]>;

fn word(x: f32) -> u32 {
    if x.is_nan() { 0x7fc0_0000 } else { x.to_bits() }
}

fn numbers(points: &[P]) -> impl Iterator<Item = u32> + '_ {
    points.iter().flat_map(|p| [word(p.x), word(p.y), word(p.z)])
}

/// Each exponent: its ends, its middle, and random digits.
fn roots(out: &mut Vec<u32>, r: &mut Rng) -> u32 {
    let mut count = 0;
    for field in 0..255u32 {
        let some = [0, 1, 0x7f_ffff, 0x40_0000 + r.next() as u32 % 3, r.next() as u32 & 0x7f_ffff];
        for fraction in some {
            let x = f32::from_bits(field << 23 | fraction);
            out.extend([x.to_bits(), x.sqrt().to_bits()]);
            count += 1;
        }
    }
    count
}

/// All quadrants, either magnitude the larger, at ratios k / 2^16 and at random ones; then the ends of the range.
fn angles(out: &mut Vec<u32>, r: &mut Rng) -> u32 {
    let mut pairs = Vec::new();
    for i in 0..64u32 {
        let t = if i < 32 { (i * 2113 % 65537) as f32 / 65536.0 } else { r.unit() as f32 };
        let by = f32::from_bits(((110 + r.below(30)) as u32) << 23 | r.next() as u32 & 0x7f_ffff);
        for side in 0..8 {
            let (a, b) = if side & 1 == 0 { (t * by, by) } else { (by, t * by) };
            pairs.push((if side & 2 == 0 { a } else { -a }, if side & 4 == 0 { b } else { -b }));
        }
    }
    let ends = [0.0, 1.0, f32::MAX, f32::MIN_POSITIVE, f32::from_bits(1), 0.5];
    for n in ends.iter().flat_map(|x| [*x, -x]) {
        for d in ends.iter().flat_map(|x| [*x, -x]) {
            pairs.push((n, d));
        }
    }
    pairs.retain(|(n, _)| *n != 0.0);
    for (n, d) in &pairs {
        // a denominator of -0 is not below zero
        let angle = (*n as f64).atan2(*d as f64 + 0.0);
        let units = (angle.abs() * 1073741824.0).round() as u32;
        out.extend([n.to_bits(), d.to_bits(), units, (angle < 0.0) as u32]);
    }
    pairs.len() as u32
}

/// A ball of 20 * 4^cuts triangles about the origin, its corners on a sphere, seen from outside the corners turn left.
fn ball(cuts: u32, radius: f64) -> Triangles {
    let g = (1.0 + 5f64.sqrt()) / 2.0;
    let c = [
        [-1.0, g, 0.0], [1.0, g, 0.0], [-1.0, -g, 0.0], [1.0, -g, 0.0], [0.0, -1.0, g], [0.0, 1.0, g],
        [0.0, -1.0, -g], [0.0, 1.0, -g], [g, 0.0, -1.0], [g, 0.0, 1.0], [-g, 0.0, -1.0], [-g, 0.0, 1.0],
    ];
    let faces = [
        [0, 11, 5], [0, 5, 1], [0, 1, 7], [0, 7, 10], [0, 10, 11], [1, 5, 9], [5, 11, 4], [11, 10, 2], [10, 7, 6], [7, 1, 8],
        [3, 9, 4], [3, 4, 2], [3, 2, 6], [3, 6, 8], [3, 8, 9], [4, 9, 5], [2, 4, 11], [6, 2, 10], [8, 6, 7], [9, 8, 1],
    ];
    let out = |v: [f64; 3]| {
        let l = (v[0] * v[0] + v[1] * v[1] + v[2] * v[2]).sqrt();
        v.map(|x| x / l)
    };
    let mut tris: Vec<[[f64; 3]; 3]> = faces.iter().map(|f| f.map(|i| out(c[i]))).collect();
    for _ in 0..cuts {
        tris = tris
            .iter()
            .flat_map(|[a, b, c]| {
                let mid = |p: &[f64; 3], q: &[f64; 3]| out([p[0] + q[0], p[1] + q[1], p[2] + q[2]]);
                let (ab, bc, ca) = (mid(a, b), mid(b, c), mid(c, a));
                [[*a, ab, ca], [ab, *b, bc], [ca, bc, *c], [ab, bc, ca]]
            })
            .collect();
    }
    tris.iter().map(|t| t.map(|v| P::new((radius * v[0]) as f32, (radius * v[1]) as f32, (radius * v[2]) as f32))).collect()
}

/// Inside, at the middle, outside, a million units away; on a corner, on an edge, on a face.
fn about(tris: &Triangles, radius: f32) -> Vec<P> {
    let [a, b, c] = tris[tris.len() / 2];
    let half = P::new((a.x + b.x) / 2.0, (a.y + b.y) / 2.0, (a.z + b.z) / 2.0);
    let face = P::new((half.x + c.x) / 2.0, (half.y + c.y) / 2.0, (half.z + c.z) / 2.0);
    let s = radius;
    let at = |x: f32, y: f32, z: f32| P::new(x, y, z);
    vec![
        at(0.0, 0.0, 0.0), at(0.25 * s, 0.5 * s, -0.25 * s), at(0.75 * s, 0.0, 0.5 * s), at(-0.9 * s, 0.0, 0.0), at(2.0 * s, -s, 0.5 * s),
        at(-1.5 * s, 0.0, 0.0), at(1000000.0, 0.0, 0.0), at(-1048576.0, 1048576.0, 1048576.0), at(0.0, 0.0, -1048576.0), a, b, c, half, face,
    ]
}

struct Mesh {
    tris: Triangles,
    points: Vec<P>,
}

/// What is asked, read back from its bytes, so that each number is itself plus zero.
fn asked(mesh: Mesh) -> Mesh {
    let request = Request { triangles: Some(mesh.tris), points: Some(mesh.points), ..Request::default() };
    let request = Request::read(&request.write()).unwrap();
    Mesh { tris: request.triangles.unwrap(), points: request.points.unwrap() }
}

fn small(tris: &Triangles, p: &P) -> bool {
    let mut sum = 0.0f32;
    tris.iter().all(|t| {
        sum += solid_angle(&run::triangle(t), p);
        !(sum.abs() >= 16.0)
    })
}

fn put_mesh(out: &mut Vec<u32>, mesh: Mesh) -> usize {
    let Mesh { tris, points } = asked(mesh);
    let in_range = |p: &P| [p.x, p.y, p.z].iter().all(|c| c.abs() <= 1048576.0);
    let points: Vec<P> = points.into_iter().filter(|p| in_range(p) && small(&tris, p)).collect();
    let list: Vec<_> = tris.iter().map(run::triangle).collect();
    out.extend([tris.len() as u32, points.len() as u32]);
    tris.iter().for_each(|t| out.extend(numbers(t)));
    out.extend(numbers(&points));
    out.extend(points.iter().map(|p| word(winding_number(list.iter(), p))));
    points.len()
}

/// Balls of four sizes, the smallest subnormal; a sheet with an open edge; then the oracle's own kinds.
fn meshes(seeds: u64) -> Vec<Mesh> {
    let mut all: Vec<Mesh> = [(1, 1.0), (0, 1048576.0), (0, 1e-3), (0, 1e-22), (0, 1e-39)]
        .map(|(cuts, radius)| {
            let tris = ball(cuts, radius);
            let points = about(&tris, radius as f32);
            Mesh { tris, points }
        })
        .into();
    let open: Triangles = ball(0, 3.0).into_iter().skip(6).collect();
    let points = about(&open, 3.0);
    all.push(Mesh { tris: open, points });
    for seed in 1..=seeds {
        for kind in KINDS {
            let r = make(kind, seed, if seeds == 1 { 8 } else { 64 }, &Wish { points: Some(12), ..Wish::default() });
            all.push(Mesh { tris: r.triangles.unwrap(), points: r.points.unwrap() });
        }
    }
    all
}

/// One triangle and one point at a time, over the oracle's kinds.
fn solids(out: &mut Vec<u32>, seeds: u64) -> u32 {
    let mut count = 0;
    for seed in 1..=seeds {
        for kind in KINDS {
            let r = make(kind, 1000 + seed, 6, &Wish { points: Some(6), ..Wish::default() });
            let mesh = asked(Mesh { tris: r.triangles.unwrap(), points: r.points.unwrap() });
            for (k, p) in mesh.points.iter().enumerate() {
                let t = mesh.tris[k % mesh.tris.len()];
                out.extend(numbers(&t));
                out.extend(numbers(&[*p]));
                out.push(word(solid_angle(&run::triangle(&t), p)));
                count += 1;
            }
        }
    }
    count
}

fn main() {
    let seeds: u64 = std::env::args().nth(1).map_or(1, |s| s.parse().unwrap());
    let mut r = Rng::new(7);
    let mut body = Vec::new();
    let (roots, angles, solids) = (roots(&mut body, &mut r), angles(&mut body, &mut r), solids(&mut body, 2 * seeds));
    let all = meshes(seeds);
    let counts = [roots, angles, solids, all.len() as u32];
    let windings: usize = all.into_iter().map(|mesh| put_mesh(&mut body, mesh)).sum();
    let bytes: Vec<u8> = counts.iter().chain(&body).flat_map(|w| w.to_le_bytes()).collect();
    std::io::stdout().write_all(&bytes).unwrap();
    eprintln!("roots {roots} differ 0\nangles {angles} differ 0\nsolid angles {solids} differ 0\nwinding numbers {windings} differ 0");
}
