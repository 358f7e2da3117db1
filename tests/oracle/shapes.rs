//! Makes crates/test_shapes/stdin: what the Rust's own Box3, Plane3 and Triangle3 answer, over all
//! of the oracle's kinds of shape, and the sure query's point by the plain scan in tests/closest/scan.rs;
//! then over triangles of which each part is hit in each way. Put this file, scan.rs and degenerate.rs into
//! the oracle's src/bin/ (the last two in a folder src/bin/scan/) and run it there:
//!
//!     cargo run --release --offline --bin shapes > crates/test_shapes/stdin
//!
//! A case is 68 words, u32 little-endian: triangles T and U and a point p, then the answers in the
//! order of `answers` below, then the sure query's point on T and its squared distance, then the part of
//! T's closest point and that of the sure query's point, both by the plain scan: the Rust tells no part. On
//! standard error it writes how often each part is met. Every NaN is written as 7fc00000.

use shark::{
    cases::{make, Rng, Wish, KINDS},
    geometry::{
        primitives::{box3::Box3, plane3::Plane3, triangle3::Triangle3},
        traits::{ClosestPoint3, HasBBox3},
    },
    request::P,
};
use std::io::Write;

#[path = "scan/degenerate.rs"]
mod degenerate;
#[allow(dead_code)]
#[path = "scan/scan.rs"]
mod scan;
use scan::Part;

const SEEDS: u64 = 30;
const PER_SEED: usize = 4;
/// How many of those that hit a part in one way are stored behind the others, and how many are tried.
const EACH_WAY: u32 = 6;
const TRIES: u64 = 4_000_000;

fn word(x: f32) -> u32 {
    if x.is_nan() { 0x7fc0_0000 } else { x.to_bits() }
}

fn put(out: &mut Vec<u32>, p: &P) {
    out.extend([word(p.x), word(p.y), word(p.z)]);
}

fn put_box(out: &mut Vec<u32>, b: &Box3<f32>) {
    put(out, b.get_min());
    put(out, b.get_max());
}

fn answers(out: &mut Vec<u32>, t: &Triangle3<f32>, u: &Triangle3<f32>, p: &P) {
    let q = t.closest_point(p);
    put(out, &q);
    out.push(word((q - *p).norm_squared()));
    let b = t.bbox();
    put_box(out, &b);
    put_box(out, &(b + &u.bbox()));
    put_box(out, &(b + p));
    put(out, &b.get_center());
    out.extend([word(b.size_x()), word(b.size_y()), word(b.size_z())]);
    out.extend([word(b.area()), word(b.volume())]);
    put(out, &b.offset(p));
    out.push(word(b.squared_distance(p)));
    out.push(b.contains_point(p) as u32);
    put(out, &b.closest_point(p));
    let axes = [P::new(1.0, 0.0, 0.0), P::new(0.0, 1.0, 0.0), P::new(0.0, 0.0, 1.0)];
    for (i, n) in axes.into_iter().enumerate() {
        out.push(Plane3::new(n, p[i]).intersects_box3(&b) as u32);
    }
}

fn v(p: &P) -> [f32; 3] {
    [p.x, p.y, p.z]
}

/// How a part is hit: by a computed point, one that is moved when it is held into the box, by a foot on an edge whose square is zero, or by
/// one whose share is held at 0, is held at 1, or is between.
const WAYS: [&str; 6] = ["computed", "computed and moved", "start", "held at 0", "held at 1", "between"];

fn way(t: &[[f32; 3]; 3], p: [f32; 3]) -> (Part, usize) {
    let (held, part) = scan::held(t, p);
    if scan::is_computed(t, p) {
        return (part, (scan::closest(t, p).0 != held) as usize);
    }
    let feet = scan::feet(t, p);
    let by = match feet[scan::kept(&feet)].share {
        None => 2,
        Some(share) if share <= 0.0 => 3,
        Some(share) if share >= 1.0 => 4,
        Some(_) => 5,
    };
    (part, by)
}

/// The stored cases, and how often each part is met in each way.
struct Made {
    out: Vec<u32>,
    met: [[u32; WAYS.len()]; Part::ALL.len()],
}

impl Made {
    fn case(&mut self, t: [P; 3], u: [P; 3], p: P) {
        let out = &mut self.out;
        t.iter().chain(&u).chain([&p]).for_each(|c| put(out, c));
        let of = |t: &[P; 3]| Triangle3::new(t[0], t[1], t[2]);
        answers(out, &of(&t), &of(&u), &p);
        let list = [v(&t[0]), v(&t[1]), v(&t[2])];
        let (closest, source_part) = scan::closest(&list, v(&p));
        // so that the part is that of the test by which the Rust answered
        assert_eq!(closest.map(word), v(&of(&t).closest_point(&p)).map(word), "the plain reading has another closest point");
        let (held, part) = scan::held(&list, v(&p));
        out.extend(held.map(word));
        out.extend([word(scan::squared(held, v(&p))), source_part as u32, part as u32]);
        let (part, by) = way(&list, v(&p));
        self.met[part as usize][by] += 1;
    }
}

/// Triangles that may have no computed point, and others, with points by their edges: of each part in each way the first.
fn each_way(made: &mut Made) {
    let r = &mut Rng::new(12);
    let mut stored = [[0; WAYS.len()]; Part::ALL.len()];
    for i in 0..TRIES {
        let kind = i as usize % (degenerate::KINDS.len() + 2);
        let few = kind == degenerate::KINDS.len();
        let mut one = || match degenerate::KINDS.get(kind) {
            Some(kind) => degenerate::triangle(kind, r),
            // a few spacings of f32 across, or of any shape
            None => [(); 3].map(|_| [(); 3].map(|_| if few { 1.0 + r.below(9) as f32 * f32::EPSILON } else { (100.0 * r.both()) as f32 })),
        };
        let read = |t: [[f32; 3]; 3]| t.map(|c| c.map(|x| x + 0.0));
        let (t, u) = (read(one()), read(one()));
        let p = degenerate::by_edge(&t.concat(), r).map(|x| x + 0.0);
        let (part, by) = way(&t, p);
        if stored[part as usize][by] < EACH_WAY {
            stored[part as usize][by] += 1;
            let point = |c: [f32; 3]| P::new(c[0], c[1], c[2]);
            made.case(t.map(point), u.map(point), point(p));
        }
    }
    // The foot on ab is kept, with a share of 0; ac has the square zero, so its foot is corner a, as far off and of a lower number.
    let [beside, less] = [26, 76].map(|power| 1.0 / (1u128 << power) as f32);
    let t = [P::new(0.0, 0.0, 0.0), P::new(beside, -beside, 0.0), P::new(less, less, 0.0)];
    made.case(t, t, P::new(1.0, 1.0, 0.0));
}

fn main() {
    let mut made = Made { out: Vec::new(), met: [[0; WAYS.len()]; Part::ALL.len()] };
    for kind in KINDS {
        for seed in 1..=SEEDS {
            let wish = Wish { points: Some(PER_SEED), ..Wish::default() };
            let r = make(kind, seed, 2 * PER_SEED, &wish);
            // Read back from its bytes, so that each number is itself plus zero.
            let r = shark::request::Request::read(&r.write()).unwrap();
            let (tris, points) = (r.triangles.unwrap(), r.points.unwrap());
            for k in 0..PER_SEED {
                made.case(tris[k % tris.len()], tris[(k + PER_SEED) % tris.len()], points[k % points.len()]);
            }
        }
    }
    each_way(&mut made);
    for part in Part::ALL {
        let told: Vec<String> = WAYS.iter().zip(made.met[part as usize]).map(|(way, n)| format!("{way} {n}")).collect();
        eprintln!("{part:?}: {}", told.join(", "));
    }
    let bytes: Vec<u8> = made.out.iter().flat_map(|w| w.to_le_bytes()).collect();
    std::io::stdout().write_all(&bytes).unwrap();
}
