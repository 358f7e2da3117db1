//! Runs the oracle and this engine in one process: on the smallest input of each fault, on the same made-up requests, and the
//! sure query against a plain scan. Prints counts and the first that differ, and ends with status 1 where any does.
//! tests/compare builds and runs it.
//!
//!     compare [REQUESTS [POINTS [LARGE [LARGE_POINTS [LEVEL [WIDER [FEET [PARTS [FEW]]]]]]]]]
//!
//! 200,000 requests of up to 4,096 triangles and 10,000,000 points of as large drawings, then 408 requests of 4,096 to 65,536
//! triangles and 100,000 points of drawings of 4,097 to 65,536, each by both measuring rules; then 5,000,000 points at exactly the
//! distance of their nearest and a float more or less; then 5,000,000 points before and after a wider search and a patch; then
//! 2,000,000 points by the edges of triangles of which many have no computed point; then 2,000,000 points of single triangles and small
//! drawings for the part that was hit; then 1,000,000 points for their nearest few. Of the two before the last every part that can be met
//! must have been met, by a computed point and by a foot, and of the last every number of answers by each rule with a tie across the cut,
//! with fewer and with none, so with fewer than some 10,000 points they may fail; with none they pass.
//!
//! The Rust tells no part. A source answer's is that of the plain reading of the triangle that the Rust answers, whose point must be the
//! Rust's, and whose part that of the return in the Rust's text by which it comes (tagged.sed).
//!
//! This engine is given the numbers as they were made, minus zeros too; the oracle and the scan read each as itself plus zero.

use shark::{
    cases::{Rng, Wish, FAR, KINDS},
    request::{Settings, P},
    run::{caught, triangle, Any, Variant},
    spatial_partitioning::aabb_tree::winding_numbers::{solid_angle, winding_number},
};
use std::{collections::BTreeMap, time::Instant};

#[path = "beside/asked.rs"]
mod asked;
#[path = "beside/degenerate.rs"]
mod degenerate;
#[path = "beside/engine.rs"]
mod engine;
#[path = "beside/few.rs"]
mod few;
#[path = "beside/scan.rs"]
mod scan;
#[path = "beside/tagged.rs"]
mod tagged;
use asked::{v, Asked, Tally};
use engine::Tree;
use scan::{words, Found, Part, Words};
use tagged::Tagged;

const UNIT: f64 = 1.0 / 1048576.0;

const RULES: [u32; 2] = [1, 2];

type Answer = Option<Found>;

/// The Rust's answer, with the part by the plain reading of its triangle.
fn source_of(tree: &Any, list: &[[[f32; 3]; 3]], p: &P, d: f32) -> Answer {
    tree.source(p, d).0.map(|f| {
        let (_, part) = scan::closest(&list[f.triangle as usize], v(p));
        Found { triangle: f.triangle, point: v(&f.point), squared: f.squared, part }
    })
}

fn readings_tally() -> Tally {
    Tally::new("the Rust's closest points and the returns by which they come, against the plain reading that tells their part")
}

/// Whether the plain reading has the point that the Rust answers, and the part of the return by which it comes.
fn is_read(list: &[[[f32; 3]; 3]], p: &P, found: Found) -> bool {
    let t = &list[found.triangle as usize];
    let [a, b, c] = t.map(|c| P::new(c[0], c[1], c[2]));
    let (tagged, number) = Tagged { a, b, c }.closest_point(p);
    let (read, part) = scan::closest(t, v(p));
    let bits = |q: [f32; 3]| q.map(f32::to_bits);
    bits(read) == bits(found.point) && bits(v(&tagged)) == bits(found.point) && number == part as u32
}

const T0: [f32; 9] = [0.0, 0.0, 0.0, 1.0, 0.0, 0.0, 0.0, 1.0, 0.0];
const T1: [f32; 9] = [10.0, 0.0, 0.0, 11.0, 0.0, 0.0, 10.0, 1.0, 0.0];
const WIDE: [f32; 9] = [0.0, 0.0, 0.0, 4.0, 0.0, 0.0, 0.0, 4.0, 0.0];
const BESIDE: [f32; 9] = [6.0, 4.0, 0.0, 7.0, 4.0, 0.0, 6.0, 5.0, 0.0];
const AWAY: [f32; 9] = [100.0, 0.0, 0.0, 101.0, 0.0, 0.0, 100.0, 1.0, 0.0];
const PINCHED: [f32; 9] = [0.0, 0.0, 0.0, 0.0, 0.0, 0.0, 4.0, 0.0, 0.0];
const E: f32 = 1.0 / 1073741824.0;
const NEAR: [f32; 9] = [-1.0, -4.0, 0.0, -E, 0.0, 0.0, -2.0, -4.0, 0.0];

/// The smallest input for each: name, strategy, triangles, point, distance (leaf minimum 1, depth 40).
const FAULTS: [(&str, u16, &[[f32; 9]], [f32; 3], f32); 24] = [
    ("last leaf read past its end", 1, &[T0], [0.0, 0.0, 1.0], 4.0),
    ("neighbouring leaf's first triangle measured", 1, &[WIDE, BESIDE], [4.0, 4.0, 0.0], 1.0),
    ("an answer that a larger distance changes", 1, &[WIDE, BESIDE], [4.0, 4.0, 0.0], 3.0),
    ("pinched, a = b", 1, &[PINCHED], [1.0, 1.0, 0.0], 10.0),
    ("pinched, a = b, asked at corner c", 1, &[[4.0, 0.0, 0.0, 4.0, 0.0, 0.0, 0.0, 0.0, 0.0]], [0.0, 0.0, 0.0], 10.0),
    ("pinched, a = b, with another far off", 1, &[PINCHED, AWAY], [1.0, 1.0, 0.0], 1000.0),
    ("pinched, a = c", 1, &[[0.0, 0.0, 0.0, 4.0, 0.0, 0.0, 0.0, 0.0, 0.0]], [1.0, 1.0, 0.0], 10.0),
    ("pinched, b = c", 1, &[[0.0, 0.0, 0.0, 4.0, 0.0, 0.0, 4.0, 0.0, 0.0]], [1.0, 1.0, 0.0], 10.0),
    ("three corners the same", 1, &[[0.0, 0.0, 0.0, 0.0, 0.0, 0.0, 0.0, 0.0, 0.0]], [1.0, 1.0, 0.0], 10.0),
    ("pinched, a = b, the square of its edge runs under", 1, &[[0.0, 0.0, 0.0, 0.0, 0.0, 0.0, 1e-24, 0.0, 0.0]], [1.0, 1.0, 0.0], 10.0),
    ("corners apart, asked from far off", 1, &[[0.0, 0.0, 0.001, 0.001, 0.0, 0.0, 0.0, 0.0, 0.0]], [-1048576.0, 0.0, -1048576.0], FAR),
    ("tiny", 1, &[[0.0, 0.0, 0.0, 1e-10, 0.0, 0.0, 0.0, 1e-10, 0.0]], [3e-11, 3e-11, 0.0], 1.0),
    ("beyond the limit, in the root", 1, &[T0], [100.0, 0.0, 0.0], 1.0),
    ("beyond the limit, in a box that holds the point", 1, &[WIDE, AWAY], [4.0, 4.0, 0.0], 1.0),
    ("distance 0", 1, &[WIDE, AWAY], [1.0, 1.0, 0.0], 0.0),
    ("equal distances", 1, &[T0, T1], [5.5, 0.0, 0.0], 50.0),
    ("a cost that is no number, corners in a line", 2, &[[0.0, 0.0, 0.0, 1.0, 0.0, 0.0, 2.0, 0.0, 0.0], [10.0, 0.0, 0.0, 11.0, 0.0, 0.0, 12.0, 0.0, 0.0]], [5.0, 0.0, 0.0], 50.0),
    ("a cost that is no number, areas run under", 2, &[[0.0, 0.0, 0.0, 1e-24, 0.0, 0.0, 0.0, 1e-24, 0.0], [5e-24, 0.0, 0.0, 6e-24, 0.0, 0.0, 5e-24, 1e-24, 0.0]], [1.0, 0.0, 0.0], 50.0),
    ("computed point nearer than its box", 1, &[NEAR], [E / 2.0, -E / 2.0, 0.0], E),
    ("computed point nearer than its box, with another far off", 1, &[NEAR, AWAY], [E / 2.0, -E / 2.0, 0.0], E),
    ("computed point outside its box", 1, &[[1.0000004, 1.0000002, 1.0000004, 1.0, 1.0, 1.0, 1.0000005, 1.0000005, 1.0]], [1.0000001, 1.0, 1.0], 1.0),
    ("finite and wrong, corners in a line", 1, &[[0.0, 0.0, 60.0, 0.0, 0.0, 55.0, 0.0, 0.0, 39.0]], [0.0, 0.0, 58.493656], 50.0),
    ("finite and wrong, thin", 1, &[[0.0, 0.0, 0.0, 60.0, 61.0, 0.0, 181.0, 184.0, 0.0]], [95.9, 97.5, 0.5], 1000.0),
    ("a coordinate that is no number", 1, &[[0.0, 0.0, 0.0, f32::NAN, 0.0, 0.0, 0.0, 1.0, 0.0], T1], [0.0, 0.0, 1.0], 4.0),
];

fn told([found, triangle, x, y, z, squared, part]: Words) -> String {
    let [x, y, z, d] = [x, y, z, squared].map(f32::from_bits);
    let part = ["face", "a", "b", "c", "ab", "ac", "bc"].get(part as usize).unwrap_or(&"no part");
    if found == 1 { format!("{triangle} ({x:?}, {y:?}, {z:?}) {d:?} {part}") } else { "nothing".into() }
}

/// What each does on the smallest input of each fault: triangle, point, squared distance and part.
fn faults() {
    for (name, strategy, list, point, d) in FAULTS {
        let s = Settings { version: 1, strategy, leaf_minimum: 1, depth: 40 };
        let tris: Vec<[P; 3]> = list.iter().map(|t| [0, 3, 6].map(|i| P::new(t[i], t[i + 1], t[i + 2]))).collect();
        let p = P::new(point[0], point[1], point[2]);
        let corners: Vec<[[f32; 3]; 3]> = tris.iter().map(|t| [v(&t[0]), v(&t[1]), v(&t[2])]).collect();
        let rust = |variant| caught(|| words(source_of(&Any::build(variant, s, &tris), &corners, &p, d))).map_or_else(|why| format!("stops: {why}"), told);
        let given = list.concat();
        let tree = Tree::build(&given, strategy as usize, 1, 40);
        let ours = |answers: Option<Vec<Words>>| answers.map_or("refused".into(), |a| told(a[0]));
        println!("{name}\n    as published {}\n    leaves repaired {}", rust(Variant::Unrepaired), rust(Variant::Repaired));
        let [sure, or_equal] = RULES.map(|rule| ours(tree.sure(&given, &point, d, rule)));
        println!("    here {} nodes, source {}, sure {sure}, by rule 2 {or_equal}", tree.nodes, ours(tree.source(&given, &point, d)));
    }
}

/// How the source's answer and the sure one by rule 1 differ, if they do.
fn why(source: Answer, sure: Answer, limit: f32, list: &[[[f32; 3]; 3]], p: [f32; 3]) -> &'static str {
    let no_point = |f: Found| !scan::is_computed(&list[f.triangle as usize], p);
    match (source, sure) {
        _ if words(source) == words(sure) => "the same answer",
        (None, None) => "the same answer",
        (Some(a), None) if a.squared >= limit => "source beyond the limit, sure nothing",
        (Some(_), None) => "source within the limit by a point outside its box, sure nothing",
        (None, Some(b)) if no_point(b) => "source nothing, the Rust has no point on the triangle that sure answers",
        (None, Some(_)) => "source nothing, otherwise",
        (Some(a), Some(b)) if a.triangle != b.triangle && a.squared == b.squared => "equal distance, sure the lower number",
        (Some(a), Some(b)) if a.triangle == b.triangle => "same triangle, its point held into its box",
        (Some(_), Some(b)) if no_point(b) => "sure nearer, the Rust has no point on that triangle",
        (Some(a), Some(_)) if a.squared >= limit => "source beyond the limit, sure another within",
        (Some(a), Some(b)) if b.squared < a.squared => "sure nearer, otherwise",
        _ => "source nearer by a point outside its box",
    }
}

fn sure_tally(rule: u32) -> Tally {
    Tally::new(["sure answers by rule 1, against a plain scan", "sure answers by rule 2, against a plain scan"][rule as usize - 1])
}

struct Requests {
    trees: Tally,
    accepted: Tally,
    changed: Tally,
    source: Tally,
    readings: Tally,
    sure: [Tally; 2],
    solid: Tally,
    winding: Tally,
    sums: Tally,
    stopped: u64,
    /// The Rust as published, leaves read to right + 1: queries that stop, and that answer otherwise.
    published: [u64; 2],
    past_16: u64,
    sizes: [u64; 7],
    most_solid: f64,
    most_winding: f64,
    most_past_16: f64,
    whys: BTreeMap<&'static str, u64>,
}

impl Requests {
    fn new() -> Self {
        Requests {
            trees: Tally::new("trees (nodes, depth, order, links, boxes; nothing written past them; working lists zero)"),
            accepted: Tally::new("trees accepted by the check"),
            changed: Tally::new("trees with one entry changed, refused by the check"),
            source: Tally::new("source answers"),
            readings: readings_tally(),
            sure: RULES.map(sure_tally),
            solid: Tally::new("solid angles, within 2 x 2^-20"),
            winding: Tally::new("winding numbers, within n x 2^-20"),
            sums: Tally::new("winding numbers, against the sum of this engine's solid angles, bit for bit"),
            stopped: 0,
            published: [0; 2],
            past_16: 0,
            sizes: [0; 7],
            most_solid: 0.0,
            most_winding: 0.0,
            most_past_16: 0.0,
            whys: BTreeMap::new(),
        }
    }

    fn run(&mut self, a: &Asked, r: &mut Rng) {
        let s = a.settings;
        let n = a.tris.len();
        self.sizes[[64, 512, 2048, 4095, 4096, 65535].iter().filter(|&&most| n > most).count()] += 1;
        // Where the Rust stops on a cost that is no number, its tree with that one repair.
        let theirs = caught(|| Any::build(Variant::Repaired, s, &a.tris)).unwrap_or_else(|_| {
            self.stopped += 1;
            Any::build(Variant::NanNone, s, &a.tris)
        });
        let seen = theirs.see();
        let ours = Tree::build(&a.given, s.strategy as usize, s.leaf_minimum as usize, s.depth as usize);
        let links: Vec<u32> = seen.nodes.iter().flat_map(|n| [if n.leaf { 1 } else { 2 }, n.left as u32, n.right as u32]).collect();
        let boxes: Vec<u32> = seen.nodes.iter().flat_map(|n| n.bbox).map(f32::to_bits).collect();
        let same = ours.nodes == seen.nodes.len()
            && ours.depth == seen.depth
            && ours.depth_read(&a.given) == seen.depth
            && ours.order[..n] == seen.order
            && ours.links[..3 * ours.nodes] == links
            && ours.boxes[..6 * ours.nodes].iter().map(|x| x.to_bits()).eq(boxes)
            && ours.untouched_past(n)
            && ours.tidy;
        self.trees.note(same, || a.name.clone());
        self.accepted.note(ours.accepted(&a.given), || a.name.clone());
        self.changed(a, ours.clone(), r);

        let (list, d) = (a.list(), a.distance);
        let source: Vec<Answer> = a.points.iter().map(|p| source_of(&theirs, &list, p, d)).collect();
        let sure: Vec<[Answer; 2]> = a.points.iter().map(|p| scan::scan_each(&list, v(p), RULES.map(|rule| (d, rule)))).collect();
        if let Ok(published) = caught(|| Any::build(Variant::Unrepaired, s, &a.tris)) {
            for (p, repaired) in a.points.iter().zip(&source) {
                match caught(|| source_of(&published, &list, p, d)) {
                    Err(_) => self.published[0] += 1,
                    Ok(answer) => self.published[1] += (words(answer) != words(*repaired)) as u64,
                }
            }
        }
        Self::answers(&mut self.source, a, ours.source(&a.given, &a.given_points, d), &source);
        for (k, rule) in RULES.into_iter().enumerate() {
            let wanted: Vec<Answer> = sure.iter().map(|by| by[k]).collect();
            Self::answers(&mut self.sure[k], a, ours.sure(&a.given, &a.given_points, d, rule), &wanted);
        }
        for ((p, x), y) in a.points.iter().zip(source).zip(sure) {
            if let Some(found) = x {
                self.readings.note(is_read(&list, p, found), || format!("{}: point {p:?}", a.name));
            }
            *self.whys.entry(why(x, y[0], d * d, &list, v(p))).or_default() += 1;
        }
        self.angles(a);
    }

    /// One entry of each list changed, and changed back: a tree has one listing, so none of them may pass.
    fn changed(&mut self, a: &Asked, mut tree: Tree, r: &mut Rng) {
        let (at, bit) = (r.below(a.tris.len()), 1 << r.below(32));
        tree.order[at] ^= bit;
        self.changed.note(!tree.accepted(&a.given), || format!("{}: order {at}, bit {bit}", a.name));
        tree.order[at] ^= bit;
        let (at, bit) = (r.below(3 * tree.nodes), 1 << r.below(32));
        // a kind becomes the other kind
        let bit = if at % 3 == 0 { 3 } else { bit };
        tree.links[at] ^= bit;
        self.changed.note(!tree.accepted(&a.given), || format!("{}: links {at}, bit {bit}", a.name));
        tree.links[at] ^= bit;
        let (at, bit) = (r.below(6 * tree.nodes), 1 << r.below(32));
        tree.boxes[at] = f32::from_bits(tree.boxes[at].to_bits() ^ bit);
        self.changed.note(!tree.accepted(&a.given), || format!("{}: boxes {at}, bit {bit}", a.name));
    }

    fn answers(tally: &mut Tally, a: &Asked, ours: Option<Vec<Words>>, wanted: &[Answer]) {
        for (k, p) in a.points.iter().enumerate() {
            let (got, want) = (ours.as_ref().map(|o| o[k]), words(wanted[k]));
            tally.note(got == Some(want), || format!("{} distance={:?}: point {k} {p:?}: {got:x?}, not {want:x?}", a.name, a.distance));
        }
    }

    fn angles(&mut self, a: &Asked) {
        let n = a.tris.len();
        let triangles: Vec<_> = a.tris.iter().map(triangle).collect();
        let windings = engine::windings(&a.given, &a.given_points);
        let apart = |x: f32, y: f32| if x.is_nan() && y.is_nan() { 0.0 } else { (x as f64 - y as f64).abs() };
        for (k, p) in a.points.iter().enumerate() {
            let (mut sum, mut own, mut small) = (0f32, 0f32, true);
            for (i, t) in triangles.iter().enumerate() {
                let (theirs, ours) = (solid_angle(t, p), engine::solid(&a.given[9 * i..9 * i + 9], &a.given_points[3 * k..3 * k + 3]));
                sum += theirs;
                own += ours;
                small &= sum.abs() < 16.0;
                let off = apart(theirs, ours);
                self.most_solid = self.most_solid.max(off / UNIT);
                self.solid.note(off <= 2.0 * UNIT, || format!("{}: triangle {i}, point {k} {p:?}: {ours:e}, not {theirs:e}", a.name));
            }
            let (theirs, ours) = (winding_number(triangles.iter(), p), windings.as_ref().map(|w| w[k]));
            let own = own / (4.0 * std::f32::consts::PI);
            self.sums.note(ours.is_some_and(|o| o.to_bits() == own.to_bits()), || format!("{}: point {k} {p:?}: {ours:?}, not {own:e}", a.name));
            let off = ours.map_or(f64::INFINITY, |o| apart(theirs, o));
            let most = if small { &mut self.most_winding } else { &mut self.most_past_16 };
            *most = most.max(off / UNIT / n as f64);
            if !small {
                self.past_16 += 1;
                continue;
            }
            self.winding.note(off <= n as f64 * UNIT, || format!("{}: point {k} {p:?}: {ours:?}, not {theirs:e}", a.name));
        }
    }
}

/// Mostly 1 to 64 triangles, a sixth up to 512, a fortieth up to 2,048, one in 200 up to 4,096.
fn request(i: u64, r: &mut Rng) -> Asked {
    let kind = KINDS[i as usize % KINDS.len()];
    let (size, points) = match r.below(200) {
        0..=160 => (1 + r.below(64), r.below(16)),
        161..=193 => (65 + r.below(448), r.below(12)),
        194..=198 => (513 + r.below(1536), r.below(10)),
        _ => ([4096, 4096, 4095, 2049 + r.below(2047)][r.below(4)], 8),
    };
    let wish = Wish {
        points: Some(points),
        spread: [None, None, None, Some("near".into()), Some("box".into())][r.below(5)].clone(),
        strategy: Some(1 + r.below(2) as u16),
        leaf: [None, None, Some(1 << r.below(13)), Some(1 + r.below(4096) as u16)][r.below(4)],
        depth: [None, None, Some(r.below(65) as u16)][r.below(3)],
        ..Wish::default()
    };
    Asked::new(kind, 1_000_000 + i, size, &wish)
}

/// 204 of them are each kind by each strategy at 4,096, 4,097, two counts between, 65,535 and 65,536 triangles.
fn large_request(i: u64, r: &mut Rng) -> Asked {
    let pairs = 2 * KINDS.len();
    let (pair, round) = (i as usize % pairs, i as usize / pairs);
    let (kind, strategy) = (pair % KINDS.len(), pair / KINDS.len());
    let size = [4096, 4097, 4098 + r.below(61437), 4098 + r.below(61437), 65535, 65536][(pair + round) % 6];
    let wish = Wish {
        points: Some(16),
        strategy: Some(1 + strategy as u16),
        leaf: Some([1, 1, 2, 4, 10, 40, 4096, 4097, 65535][r.below(9)]),
        depth: [None, Some(40), Some(64)][r.below(3)],
        ..Wish::default()
    };
    Asked::new(KINDS[kind], 5_000_000 + i, size, &wish)
}

fn requests(count: u64, request: fn(u64, &mut Rng) -> Asked) -> u64 {
    let (start, mut all, mut r) = (Instant::now(), Requests::new(), Rng::new(2));
    (0..count).for_each(|i| all.run(&request(i, &mut r), &mut Rng::new(i)));
    let n = all.sizes;
    println!("{count} requests over {} kinds of shape, {:.0} s", KINDS.len(), start.elapsed().as_secs_f64());
    println!("  1 to 64 triangles {}, to 512 {}, to 2,048 {}, to 4,095 {}, 4,096 {}, to 65,535 {}, 65,536 {}", n[0], n[1], n[2], n[3], n[4], n[5], n[6]);
    println!("  the Rust stops on a cost that is no number in {} of them: compared with its variant nan-none there", all.stopped);
    println!("  the Rust as published stops at {} points and answers otherwise at {}", all.published[0], all.published[1]);
    println!("  solid angles at most {:.4} x 2^-20 off, winding numbers {:.4} x 2^-20 a triangle", all.most_solid, all.most_winding);
    println!("  {} points not judged, where a partial sum reaches 16: winding numbers at most {:.4} x 2^-20 a triangle off", all.past_16, all.most_past_16);
    println!("  how source answers and sure ones by rule 1 differ:");
    all.whys.iter().for_each(|(why, n)| println!("{n:>12} {why}"));
    [&all.trees, &all.accepted, &all.changed, &all.source, &all.readings, &all.sure[0], &all.sure[1], &all.solid, &all.winding, &all.sums].iter().map(|t| t.print()).sum()
}

/// A tree that no builder made: any order, any cuts, leaves of any size.
struct Growth<'a> {
    list: &'a [[[f32; 3]; 3]],
    tree: Tree,
    /// 0 cuts anywhere, 1 in the middle, 2 takes one triangle off the front, 3 off the back
    cuts: usize,
    /// A node may be a leaf, one in so many.
    leaves: usize,
}

impl Growth<'_> {
    fn grow(&mut self, r: &mut Rng, first: usize, last: usize, depth: usize) -> [f32; 6] {
        let count = last - first;
        let mut around = [f32::INFINITY, f32::INFINITY, f32::INFINITY, f32::NEG_INFINITY, f32::NEG_INFINITY, f32::NEG_INFINITY];
        let mut join = |b: [f32; 6]| (0..3).for_each(|i| (around[i], around[i + 3]) = (around[i].min(b[i]), around[i + 3].max(b[i + 3])));
        let link = if count == 1 || depth == 64 || r.one_in(self.leaves) {
            let corners = self.tree.order[first..last].iter().flat_map(|&t| self.list[t as usize]);
            corners.for_each(|c| join([c[0], c[1], c[2], c[0], c[1], c[2]]));
            [1, first as u32, last as u32]
        } else {
            let cut = first + [1 + r.below(count - 1), count / 2, 1, count - 1][self.cuts];
            join(self.grow(r, first, cut, depth + 1));
            let left = self.tree.nodes - 1;
            join(self.grow(r, cut, last, depth + 1));
            [2, left as u32, self.tree.nodes as u32 - 1]
        };
        self.tree.links.extend(link);
        self.tree.boxes.extend(around);
        self.tree.nodes += 1;
        self.tree.depth = self.tree.depth.max(depth);
        around
    }
}

fn grown(list: &[[[f32; 3]; 3]], r: &mut Rng) -> Tree {
    let mut order: Vec<u32> = (0..list.len() as u32).collect();
    (1..order.len()).for_each(|i| order.swap(i, r.below(i + 1)));
    let tree = Tree { nodes: 0, depth: 0, order, links: Vec::new(), boxes: Vec::new(), tidy: true };
    let mut growth = Growth { list, tree, cuts: r.below(4), leaves: [5, 20, usize::MAX >> 32][r.below(3)] };
    growth.grow(r, 0, list.len(), 1);
    growth.tree
}

/// The search distance whose square is this squared distance exactly, if there is one.
fn square_root_of(squared: f32) -> Option<f32> {
    let near = squared.sqrt();
    [near, near.next_up(), near.next_down()].into_iter().find(|d| d * d == squared && *d <= FAR)
}

fn small_size(r: &mut Rng) -> usize {
    match r.below(100) {
        0..=79 => 1 + r.below(64),
        80..=95 => 65 + r.below(192),
        96..=97 => 257 + r.below(1000),
        98 => 1257 + r.below(2840),
        _ => 4096,
    }
}

fn large_size(r: &mut Rng) -> usize {
    [4097, 4098 + r.below(61437), 4098 + r.below(61437), 65535, 65536][r.below(5)]
}

/// The i-th request from a seed on, its triangles, and a tree over them: built where i is even, else one that no builder made.
fn drawn(i: u64, seed: u64, size: usize, points: usize, r: &mut Rng) -> (Asked, Vec<[[f32; 3]; 3]>, Tree) {
    let wish = Wish { points: Some(points), spread: [None, None, Some("near".into()), Some("box".into())][r.below(4)].clone(), leaf: [Some(1), None][r.below(2)], ..Wish::default() };
    let mut a = Asked::new(KINDS[i as usize % KINDS.len()], seed + i, size, &wish);
    let n = a.tris.len();
    // Triangles told twice or more tie with each other.
    if r.one_in(4) {
        for _ in 0..n / 3 {
            let (to, from) = (r.below(n), r.below(n));
            a.tris[to] = a.tris[from];
            a.given.copy_within(9 * from..9 * from + 9, 9 * to);
        }
    }
    let (list, s) = (a.list(), a.settings);
    let tree = if i % 2 == 0 { Tree::build(&a.given, s.strategy as usize, s.leaf_minimum as usize, s.depth as usize) } else { grown(&list, r) };
    (a, list, tree)
}

fn scans(count: u64, size: fn(&mut Rng) -> usize) -> u64 {
    const EACH: usize = 100;
    let (start, mut r) = (Instant::now(), Rng::new(3));
    let mut sure = RULES.map(sure_tally);
    let mut accepted = Tally::new("trees accepted by the check");
    let (mut median, mut area, mut others, mut deepest, mut large, mut largest) = (0u64, 0u64, 0u64, 0, 0u64, 0u64);
    let (mut found, mut or_equal, mut looked, mut ties, mut at_limit) = (0u64, 0u64, 0u64, 0u64, 0u64);
    let mut i = 0;
    while sure[0].compared < count {
        let size = size(&mut r);
        let (a, list, tree) = drawn(i, 9_000_000, size, EACH, &mut r);
        large += (a.tris.len() >= 4096) as u64;
        largest += (a.tris.len() == 65536) as u64;
        *(if i % 2 == 1 { &mut others } else if a.settings.strategy == 1 { &mut median } else { &mut area }) += 1;
        deepest = deepest.max(tree.depth);
        accepted.note(tree.accepted(&a.given) && tree.depth_read(&a.given) == tree.depth, || a.name.clone());
        // Half of the distances are at, just above or just below where a point's nearest stands.
        let mut d = a.distance;
        if r.one_in(2) {
            let nearest = scan::scan(&list, v(&a.points[0]), FAR, 1).and_then(|b| square_root_of(b.squared));
            if let Some(exact) = nearest {
                at_limit += 1;
                d = [exact, exact.next_up(), if exact > 0.0 { exact.next_down() } else { exact }][r.below(3)].min(FAR);
            }
        } else if r.one_in(3) {
            d = FAR;
        }
        let ours = RULES.map(|rule| tree.sure(&a.given, &a.given_points, d, rule));
        for (k, p) in a.points.iter().enumerate() {
            let answers = scan::scan_each(&list, v(p), RULES.map(|rule| (d, rule)));
            for (by, answer) in answers.into_iter().enumerate() {
                let (got, want) = (ours[by].as_ref().map(|o| o[k]), words(answer));
                sure[by].note(got == Some(want), || format!("{} distance={d:?}, tree {}: point {k} {p:?}: {got:x?}, not {want:x?}", a.name, if i % 2 == 0 { "built" } else { "grown" }));
            }
            or_equal += (answers[0].is_none() && answers[1].is_some()) as u64;
            if let Some(nearest) = answers[0] {
                found += 1;
                if k % 10 == 0 {
                    looked += 1;
                    let rest: Vec<_> = list.iter().enumerate().filter(|(j, _)| *j != nearest.triangle as usize).map(|(_, t)| *t).collect();
                    ties += scan::scan(&rest, v(p), d, 1).is_some_and(|b| b.squared == nearest.squared) as u64;
                }
            }
        }
        i += 1;
    }
    println!("{} points, {i} trees ({median} median, {area} area, {others} that no builder made; {large} of 4,096 triangles or more, {largest} of 65,536; depth up to {deepest}), {:.0} s", sure[0].compared, start.elapsed().as_secs_f64());
    println!("  {found} found by rule 1, {or_equal} more by rule 2; among {looked} of the first looked at, {ties} have another triangle at the same distance; {at_limit} trees with the limit at a point's nearest");
    accepted.print() + sure[0].print() + sure[1].print()
}

/// Mostly up to 32 triangles: each point is asked by itself, six times, and each call checks the tree. With how many points.
fn level_size(r: &mut Rng) -> (usize, usize) {
    match r.below(2000) {
        0..=1699 => (1 + r.below(32), 100),
        1700..=1939 => (33 + r.below(96), 100),
        1940..=1989 => (129 + r.below(872), 20),
        1990..=1998 => ([4096, 4097, 1001 + r.below(4000)][r.below(3)], 8),
        _ => ([65536, 65535, 4098 + r.below(61437)][r.below(3)], 4),
    }
}

/// The distances to ask with about a nearest squared distance: below it, exactly at it where there is one, above it. Of a small one the
/// next distance below or above may have the same square; that of 0 has none below.
fn steps(nearest: f32) -> [Option<f32>; 3] {
    let below = |x: f32| Some(x.next_down()).filter(|_| x > 0.0);
    if let Some(at) = square_root_of(nearest) {
        return [below(at), Some(at), Some(at.next_up())];
    }
    let (mut low, mut high) = (nearest.sqrt(), nearest.sqrt());
    while low * low > nearest {
        low = low.next_down();
    }
    while high * high < nearest {
        high = high.next_up();
    }
    [Some(low), None, Some(high)]
}

/// The corners of a few of the triangles, behind each the middle of the side that begins there.
fn on_triangles(given: &[f32], r: &mut Rng) -> Vec<f32> {
    let mut on = Vec::new();
    for _ in 0..4 {
        let t = &given[9 * r.below(given.len() / 9)..][..9];
        for corner in 0..3 {
            let (from, to) = (&t[3 * corner..][..3], &t[(3 * corner + 3) % 9..][..3]);
            on.extend(from);
            on.extend((0..3).map(|i| (from[i] + to[i]) / 2.0));
        }
    }
    on
}

/// The two rules where they differ: each point is asked with the distance at which its nearest stands exactly, and with the next
/// below and above. Then a distance of 0, on corners and on sides, and numbers that are no rule.
fn levels(count: u64) -> u64 {
    const STEPS: [&str; 3] = ["below", "at", "above"];
    let (start, mut r) = (Instant::now(), Rng::new(8));
    let mut sure = Tally::new("sure answers about the distance of a point's nearest, against a plain scan");
    let mut zero = Tally::new("sure answers at distance 0 on corners and middles of sides, against a plain scan");
    let mut refused = Tally::new("queries by a number that is no rule, refused");
    let (mut points, mut exact, mut surface, mut ties, mut largest, mut i) = (0u64, 0u64, 0u64, 0u64, 0usize, 0u64);
    // By step: how many were found by each rule, how many were not, and at how many points the rules differ.
    let (mut found, mut nothing, mut differ) = ([[0u64; 2]; 3], [[0u64; 2]; 3], [0u64; 3]);
    // Corners and middles of sides: how many there were, and how many were found by each rule.
    let mut on = [[0u64; 3]; 2];
    while points < count {
        let (size, each) = level_size(&mut r);
        let (a, list, tree) = drawn(i, 12_000_000, size, each, &mut r);
        largest = largest.max(a.tris.len());
        let name = |d: f32, rule: u32| format!("{} distance={d:?} rule={rule}, tree {}", a.name, if i % 2 == 0 { "built" } else { "grown" });
        for (k, p) in a.points.iter().enumerate() {
            let given = &a.given_points[3 * k..3 * k + 3];
            let nearest = scan::scan(&list, v(p), FAR, 1).expect("nothing is that far off");
            let asked = steps(nearest.squared);
            points += 1;
            exact += asked[1].is_some() as u64;
            surface += (nearest.squared == 0.0) as u64;
            ties += list[nearest.triangle as usize + 1..].iter().any(|t| scan::scan(&[*t], v(p), FAR, 1).is_some_and(|b| b.squared == nearest.squared)) as u64;
            let distances = asked.map(|d| d.unwrap_or(0.0));
            let wanted: [Answer; 6] = scan::scan_each(&list, v(p), std::array::from_fn(|j| (distances[j / 2], RULES[j % 2])));
            for (step, d) in asked.into_iter().enumerate() {
                let Some(d) = d else { continue };
                for (by, rule) in RULES.into_iter().enumerate() {
                    let (got, want) = (tree.sure(&a.given, given, d, rule).map(|o| o[0]), words(wanted[2 * step + by]));
                    sure.note(got == Some(want), || format!("{}: point {k} {p:?}: {got:x?}, not {want:x?}", name(d, rule)));
                    *(if want[0] == 1 { &mut found[step][by] } else { &mut nothing[step][by] }) += 1;
                }
                differ[step] += (words(wanted[2 * step]) != words(wanted[2 * step + 1])) as u64;
            }
        }
        let touched = on_triangles(&a.given, &mut r);
        for (by, rule) in RULES.into_iter().enumerate() {
            let d = [0.0, -0.0][r.below(2)];
            let ours = tree.sure(&a.given, &touched, d, rule);
            for (k, p) in touched.chunks_exact(3).enumerate() {
                let answer = scan::scan(&list, [p[0] + 0.0, p[1] + 0.0, p[2] + 0.0], d, rule);
                let (got, want) = (ours.as_ref().map(|o| o[k]), words(answer));
                zero.note(got == Some(want), || format!("{}: {p:?}: {got:x?}, not {want:x?}", name(d, rule)));
                on[k % 2][0] += (by == 0) as u64;
                on[k % 2][1 + by] += answer.is_some() as u64;
            }
        }
        let none = [0, 3, 256, 257, 258, 65537, 65538, 0x8000_0001, 0x8000_0002, u32::MAX][r.below(10)];
        refused.note(tree.sure(&a.given, &a.given_points, a.distance, none).is_none(), || name(a.distance, none));
        i += 1;
    }
    println!("{points} points about the distance of their nearest, {i} trees of up to {largest} triangles over {} kinds of shape, half of them by no builder, {:.0} s", KINDS.len(), start.elapsed().as_secs_f64());
    println!("  {exact} have a distance whose rounded square is their nearest's, of {surface} it is 0; {ties} have another triangle at the same distance");
    for (step, name) in STEPS.into_iter().enumerate() {
        let ([a, b], [c, d]) = (found[step], nothing[step]);
        println!("  {name:>5}: by rule 1 {a} found, {c} nothing; by rule 2 {b} found, {d} nothing; the rules differ at {}", differ[step]);
    }
    let [corners, middles] = on;
    println!("  at distance 0: of {} corners {} found by rule 1, {} by rule 2; of {} middles of sides {} and {}", corners[0], corners[1], corners[2], middles[0], middles[1], middles[2]);
    sure.print() + zero.print() + refused.print()
}

/// An answer before and after triangles were appended to n, so that there are m: it stands, or an appended one has taken its place, strictly
/// nearer or where there was nothing.
fn stands_or_nearer(n: usize, m: usize, before: Words, after: Words) -> bool {
    let nearer = || before[0] == 0 || f32::from_bits(after[5]) < f32::from_bits(before[5]);
    after == before || (after[0] == 1 && (n..m).contains(&(after[1] as usize)) && nearer())
}

/// What a wider search and a patch change, each query with a tree of its own: half of the trees built, half by no builder. A distance and a
/// larger one, about where points have their nearest; some of the last triangles as the patch. Of the source query, which promises
/// nothing of the kind, is only counted what changes.
fn wider(count: u64) -> u64 {
    const EACH: usize = 50;
    let (start, mut r) = (Instant::now(), Rng::new(9));
    let mut kept = Tally::new("answers found, again by a larger distance");
    let mut narrowed = Tally::new("answers, read off those by a larger distance");
    let mut revised = Tally::new("answers found by rule 1, again by rule 2");
    let mut patched = Tally::new("answers before and after a patch");
    let mut alone = Tally::new("answers after a patch, from those before and those over the patch alone");
    // Of a larger distance: nothing before and after, found only after. Of a patch: nothing stands, an answer stands, is replaced, comes.
    let (mut wide, mut patch) = ([0u64; 2], [0u64; 4]);
    // How many of those that stand were looked at, and of how many a triangle of the patch is level with the answer.
    let (mut looked, mut level) = (0u64, 0u64);
    // Of the source query: found, of these changed by a larger distance over the same tree; asked, of these neither standing nor nearer by a patch.
    let (mut source, mut points, mut largest, mut i) = ([0u64; 4], 0u64, 0usize, 0u64);
    while points < count {
        let size = if r.one_in(2000) { large_size(&mut r) } else { small_size(&mut r) };
        let (a, list, before) = drawn(i, 15_000_000, size, EACH, &mut r);
        let n = list.len();
        largest = largest.max(n);
        let another = |from: usize, to: usize, r: &mut Rng| {
            if r.one_in(2) { Tree::build(&a.given[9 * from..9 * to], 1 + r.below(2), 1 + r.below(10), r.below(65)) } else { grown(&list[from..to], r) }
        };
        let after = another(0, n, &mut r);
        let old = if r.one_in(10) { n } else { 1 + r.below(n) };
        let unpatched = another(0, old, &mut r);
        // A patch of no triangles is a list that no query takes.
        let patch_alone = (old < n).then(|| another(old, n, &mut r));
        let mut about = || {
            let nearest = scan::scan(&list[..old], v(&a.points[r.below(EACH)]), FAR, 1).map_or(0.0, |b| b.squared.sqrt());
            [a.distance, nearest, nearest, nearest.next_up(), 0.0, FAR][r.below(6)].min(FAR)
        };
        let (one, other) = (about(), about());
        let (d, larger) = (one.min(other), one.max(other));
        let name = |d: f32, rule: u32, k: usize| format!("{} distance={d:?} rule={rule} old={old} point {k}", a.name);
        let mut by_first: Option<Vec<Words>> = None;
        for rule in RULES {
            let (short, long) = (before.sure(&a.given, &a.given_points, d, rule).unwrap(), after.sure(&a.given, &a.given_points, larger, rule).unwrap());
            let front = unpatched.sure(&a.given[..9 * old], &a.given_points, d, rule).unwrap();
            let behind = patch_alone.as_ref().map(|tree| tree.sure(&a.given[9 * old..], &a.given_points, d, rule).unwrap());
            for k in 0..EACH {
                if short[k][0] == 1 {
                    kept.note(long[k] == short[k], || format!("{}, {larger:?}: {:x?}, not {:x?}", name(d, rule, k), long[k], short[k]));
                } else {
                    wide[long[k][0] as usize] += 1;
                }
                let counts = long[k][0] == 1 && scan::counts(f32::from_bits(long[k][5]), d * d, rule);
                let left = if counts { long[k] } else { words(None) };
                narrowed.note(short[k] == left, || format!("{}, {larger:?}: {:x?}, not {left:x?}", name(d, rule, k), short[k]));
                patched.note(stands_or_nearer(old, n, front[k], short[k]), || format!("{}: {:x?} before, {:x?} after", name(d, rule, k), front[k], short[k]));
                let (is, was) = (short[k], front[k]);
                if let Some(mut new) = behind.as_ref().map(|b| b[k]) {
                    let nearer = new[0] == 1 && (was[0] == 0 || f32::from_bits(new[5]) < f32::from_bits(was[5]));
                    new[1] += old as u32;
                    let want = if nearer { new } else { was };
                    alone.note(is == want, || format!("{}: {is:x?}, not {want:x?}", name(d, rule, k)));
                }
                patch[if is == was { is[0] as usize } else { 3 - was[0] as usize }] += 1;
                if k % 10 == 0 && is == was && is[0] == 1 && old < n {
                    looked += 1;
                    level += scan::scan(&list[old..], v(&a.points[k]), FAR, 1).is_some_and(|b| b.squared.to_bits() == is[5]) as u64;
                }
                if let Some(first) = by_first.as_ref().filter(|first| first[k][0] == 1) {
                    revised.note(first[k] == short[k], || format!("{}: {:x?}, not {:x?}", name(d, rule, k), short[k], first[k]));
                }
            }
            by_first = Some(short);
        }
        let (short, long) = (before.source(&a.given, &a.given_points, d).unwrap(), before.source(&a.given, &a.given_points, larger).unwrap());
        let front = unpatched.source(&a.given[..9 * old], &a.given_points, d).unwrap();
        for k in 0..EACH {
            source[0] += (short[k][0] == 1) as u64;
            source[1] += (short[k][0] == 1 && long[k] != short[k]) as u64;
            source[2] += 1;
            source[3] += !stands_or_nearer(old, n, front[k], short[k]) as u64;
        }
        points += EACH as u64;
        i += 1;
    }
    println!("{points} points before and after, {i} drawings of up to {largest} triangles over {} kinds of shape, {:.0} s", KINDS.len(), start.elapsed().as_secs_f64());
    println!("  by a larger distance: {} found before, {} found only then, {} nothing both times", kept.compared, wide[1], wide[0]);
    println!("  by a patch: {} stand, {} are replaced, {} come, {} nothing both times; of {looked} that stand a patch is level with {level}", patch[1], patch[2], patch[3], patch[0]);
    println!("  the source query: of {} found {} change by a larger distance; of {} {} neither stand nor are nearer by a patch", source[0], source[1], source[2], source[3]);
    kept.print() + narrowed.print() + revised.print() + patched.print() + alone.print()
}

/// The oracle's kinds of which triangles may have no computed point, and two ordinary ones.
const THEIR_KINDS: [&str; 10] = ["pinched", "collinear", "axisline", "lattice", "sliver", "tiny", "underflow", "negzero", "soup", "sphere"];

/// What the scan answered before there were feet: corner a stood in.
fn by_corner_a(list: &[[[f32; 3]; 3]], p: [f32; 3], distance: f32, rule: u32) -> Answer {
    let mut best: Answer = None;
    for (k, t) in list.iter().enumerate() {
        let (point, part) = if scan::is_computed(t, p) { scan::held(t, p) } else { (t[0], Part::A) };
        let squared = scan::squared(point, p);
        if scan::counts(squared, distance * distance, rule) && best.map_or(true, |b| squared < b.squared) {
            best = Some(Found { triangle: k as u32, point, squared, part });
        }
    }
    best
}

/// How often each part was answered, by a computed point and by a foot.
#[derive(Default)]
struct Parts {
    met: [[u64; Part::ALL.len()]; 2],
}

impl Parts {
    fn note(&mut self, list: &[[[f32; 3]; 3]], p: [f32; 3], answer: Answer) {
        if let Some(f) = answer {
            self.met[!scan::is_computed(&list[f.triangle as usize], p) as usize][f.part as usize] += 1;
        }
    }

    /// How many parts were not met though they can be, or were though they cannot: the source query answers by computed points only, and a
    /// foot is on an edge or at the start of one, so never on the face or at corner c.
    fn print(&self, query: &str) -> u64 {
        if self.met.concat().iter().sum::<u64>() == 0 {
            return 0;
        }
        let mut wrong = 0;
        for (by_foot, met) in self.met.iter().enumerate() {
            let told: Vec<String> = Part::ALL.iter().zip(met).map(|(part, n)| format!("{part:?} {n}")).collect();
            println!("  {query} answers {}: {}", ["by a computed point", "by a foot"][by_foot], told.join(", "));
            let can_be = |part: &Part| by_foot == 0 || (query == "sure" && !matches!(part, Part::Face | Part::C));
            wrong += Part::ALL.iter().zip(met).filter(|(part, n)| can_be(part) == (**n == 0)).count() as u64;
        }
        println!("{wrong:>12} parts of {query} answers that were not met though they can be, or were though they cannot");
        wrong
    }
}

/// What the plain reading says of the feet that were answered.
#[derive(Default)]
struct Feet {
    /// By the edge that is kept.
    edges: [u64; 3],
    /// The start because edge·edge is zero, and of these those whose edge is not; then the share held at 0, at 1, and between.
    starts: u64,
    run_under: u64,
    shares: [u64; 3],
    /// Another edge is as near, and of these those where it has another point.
    level: u64,
    apart: u64,
    /// The largest share before it is held. None is infinite: a side of below 2^-75 has the square zero, and no point is farther off than 2^23.
    most: f32,
}

impl Feet {
    fn note(&mut self, t: &[[f32; 3]; 3], p: [f32; 3]) {
        let feet = scan::feet(t, p);
        let kept = scan::kept(&feet);
        self.edges[kept] += 1;
        match feet[kept].share {
            None => {
                self.starts += 1;
                self.run_under += (t[[0, 0, 1][kept]] != t[[1, 2, 2][kept]]) as u64;
            }
            Some(share) => self.shares[if share <= 0.0 { 0 } else if share >= 1.0 { 1 } else { 2 }] += 1,
        }
        let mut others = (0..3).filter(|&k| k != kept && feet[k].squared == feet[kept].squared).peekable();
        self.level += others.peek().is_some() as u64;
        self.apart += others.any(|k| feet[k].point != feet[kept].point) as u64;
        self.most = feet.iter().filter_map(|foot| foot.share).fold(self.most, |most, share| most.max(share.abs()));
    }

    fn print(&self) {
        let [ab, ac, bc] = self.edges;
        let [at_0, at_1, between] = self.shares;
        println!("  {} answers lie on a triangle without a computed point: {ab} on ab, {ac} on ac, {bc} on bc", ab + ac + bc);
        println!("  {} are a start because edge·edge is zero, of {} the edge is not; the share is held at 0 in {at_0}, at 1 in {at_1}, between in {between}, at most {:e}", self.starts, self.run_under, self.most);
        println!("  {} have another edge as near, {} of them at another point", self.level, self.apart);
    }
}

/// Where triangles have no computed point. Points are by the edges, of the oracle's kinds every second one; trees are built by each
/// strategy or, half of them, by no builder.
fn feet(count: u64) -> u64 {
    const EACH: usize = 50;
    let (start, mut r) = (Instant::now(), Rng::new(10));
    let mut sure = Tally::new("sure answers by the feet, against a plain scan");
    let (mut seen, mut parts, mut old, mut points, mut largest, mut i) = (Feet::default(), Parts::default(), 0u64, 0u64, 0usize, 0u64);
    while points < count {
        let (own, turn) = (i % 2 == 0, i as usize / 2);
        let kind = if own { degenerate::KINDS[turn % degenerate::KINDS.len()] } else { THEIR_KINDS[turn % THEIR_KINDS.len()] };
        let most = [8, 8, 64][r.below(3)];
        let size = if r.one_in(300) { [4096, 65 + r.below(4031)][r.below(2)] } else { 1 + r.below(most) };
        let wish = Wish { points: Some(EACH), ..Wish::default() };
        let mut a = Asked::new(if own { "soup" } else { kind }, 21_000_000 + i, size, &wish);
        if own {
            a.given = (0..size).flat_map(|_| degenerate::triangle(kind, &mut r)).flatten().collect();
        }
        let n = a.given.len() / 9;
        for k in 0..EACH {
            if own || k % 2 == 0 {
                let t = r.below(n);
                a.given_points[3 * k..3 * k + 3].copy_from_slice(&degenerate::by_edge(&a.given[9 * t..9 * t + 9], &mut r));
            }
        }
        let read = |x: &[f32]| [x[0] + 0.0, x[1] + 0.0, x[2] + 0.0];
        let list: Vec<[[f32; 3]; 3]> = a.given.chunks_exact(9).map(|t| [read(&t[..3]), read(&t[3..6]), read(&t[6..])]).collect();
        let built = r.one_in(2);
        let tree = if built { Tree::build(&a.given, 1 + r.below(2), 1 + r.below(4), 64) } else { grown(&list, &mut r) };
        largest = largest.max(n);
        let nearest = scan::scan(&list, read(&a.given_points), FAR, 1).and_then(|b| square_root_of(b.squared));
        let d = [FAR, FAR, a.distance, nearest.unwrap_or(FAR)][r.below(4)];
        let ours = RULES.map(|rule| tree.sure(&a.given, &a.given_points, d, rule));
        for (k, p) in a.given_points.chunks_exact(3).map(read).enumerate() {
            let answers = scan::scan_each(&list, p, RULES.map(|rule| (d, rule)));
            for (by, answer) in answers.into_iter().enumerate() {
                let (got, want) = (ours[by].as_ref().map(|o| o[k]), words(answer));
                let name = || format!("{kind} {i} of {n}, tree {}, distance={d:?} rule={}", if built { "built" } else { "grown" }, RULES[by]);
                sure.note(got == Some(want), || format!("{}: point {k} {p:?}: {got:x?}, not {want:x?}", name()));
                parts.note(&list, p, answer);
                if let Some(f) = answer.filter(|f| !scan::is_computed(&list[f.triangle as usize], p)) {
                    seen.note(&list[f.triangle as usize], p);
                }
                let place = |f: Found| (f.triangle, f.point, f.squared);
                old += (by_corner_a(&list, p, d, RULES[by]).map(place) != answer.map(place)) as u64;
            }
        }
        points += EACH as u64;
        i += 1;
    }
    println!("{points} points by the feet, {i} drawings of up to {largest} triangles over {} kinds of shape, half of the trees by no builder, {:.0} s", degenerate::KINDS.len() + THEIR_KINDS.len(), start.elapsed().as_secs_f64());
    seen.print();
    println!("  {old} answers were at another place when corner a stood in");
    sure.print() + parts.print("sure")
}

/// The part that was hit, one triangle by itself in half of the drawings and up to eight in the others, over all kinds of shape that the
/// oracle and degenerate.rs have: source answers, and sure ones by each rule. Points are by the edges, two of five as the oracle spreads
/// them.
fn parts(count: u64) -> u64 {
    const EACH: usize = 50;
    let (start, mut r) = (Instant::now(), Rng::new(11));
    let mut source = Tally::new("source answers, the part by a plain reading");
    let mut readings = readings_tally();
    let mut sure = RULES.map(sure_tally);
    let (mut by_source, mut by_sure, mut points, mut i) = (Parts::default(), Parts::default(), 0u64, 0u64);
    while points < count {
        let kind = i as usize % (degenerate::KINDS.len() + KINDS.len());
        let own = degenerate::KINDS.get(kind);
        let size = if r.one_in(2) { 1 } else { 2 + r.below(7) };
        let name = own.copied().unwrap_or_else(|| KINDS[kind - degenerate::KINDS.len()]);
        let mut a = Asked::new(if own.is_some() { "soup" } else { name }, 27_000_000 + i, size, &Wish { points: Some(EACH), ..Wish::default() });
        match own {
            Some(kind) => a.given = (0..size).flat_map(|_| degenerate::triangle(kind, &mut r)).flatten().collect(),
            // some kinds have no drawing of so few
            None => a.given.truncate(9 * size),
        }
        let n = a.given.len() / 9;
        for k in 0..EACH {
            if own.is_some() || k % 5 > 1 {
                let t = r.below(n);
                a.given_points[3 * k..3 * k + 3].copy_from_slice(&degenerate::by_edge(&a.given[9 * t..9 * t + 9], &mut r));
            }
        }
        let read = |x: &[f32]| P::new(x[0] + 0.0, x[1] + 0.0, x[2] + 0.0);
        a.tris = a.given.chunks_exact(9).map(|t| [read(&t[..3]), read(&t[3..6]), read(&t[6..])]).collect();
        a.points = a.given_points.chunks_exact(3).map(read).collect();
        a.distance = if r.one_in(2) { FAR } else { a.distance };
        let (list, d) = (a.list(), a.distance);
        let settings = Settings { version: 1, strategy: 1 + r.below(2) as u16, leaf_minimum: 1 + r.below(4) as u16, depth: 40 };
        let theirs = Any::build(Variant::NanNone, settings, &a.tris);
        let tree = Tree::build(&a.given, settings.strategy as usize, settings.leaf_minimum as usize, settings.depth as usize);
        let (sources, sures) = (tree.source(&a.given, &a.given_points, d), RULES.map(|rule| tree.sure(&a.given, &a.given_points, d, rule)));
        for (k, p) in a.points.iter().enumerate() {
            let name = |d: f32| format!("{name} {i} of {n} distance={d:?}: point {k} {p:?}");
            let answer = source_of(&theirs, &list, p, d);
            let (got, want) = (sources.as_ref().map(|o| o[k]), words(answer));
            source.note(got == Some(want), || format!("{}: {got:x?}, not {want:x?}", name(d)));
            by_source.note(&list, v(p), answer);
            if let Some(found) = answer {
                readings.note(is_read(&list, p, found), || name(d));
            }
            for (by, answer) in scan::scan_each(&list, v(p), RULES.map(|rule| (d, rule))).into_iter().enumerate() {
                let (got, want) = (sures[by].as_ref().map(|o| o[k]), words(answer));
                sure[by].note(got == Some(want), || format!("{}: {got:x?}, not {want:x?}", name(d)));
                by_sure.note(&list, v(p), answer);
            }
        }
        points += EACH as u64;
        i += 1;
    }
    println!("{points} points for the part that was hit, {i} drawings of up to 8 triangles over {} kinds of shape, {:.0} s", degenerate::KINDS.len() + KINDS.len(), start.elapsed().as_secs_f64());
    source.print() + readings.print() + by_source.print("source") + sure[0].print() + sure[1].print() + by_sure.print("sure")
}

/// One triangle too many is refused by every call, and nothing is written.
fn too_many() -> u64 {
    let mut refused = Tally::new("calls with 65,537 triangles, refused");
    for i in 0..2 {
        let a = Asked::new("soup", 7_000_000 + i, 65536, &Wish { points: Some(3), ..Wish::default() });
        let (list, given) = ([a.list(), a.list()[..1].to_vec()].concat(), [&a.given[..], &a.given[..9]].concat());
        let built = Tree::build(&given, 1 + i as usize, 1, 40);
        refused.note(built.nodes == 0 && built.depth == 0 && built.tidy && built.untouched_past(0), || "build".into());
        // But for the number of triangles this tree would pass.
        let tree = grown(&list, &mut Rng::new(i));
        refused.note(!tree.accepted(&given) && tree.depth_read(&given) == 0, || "check".into());
        RULES.into_iter().for_each(|rule| refused.note(tree.sure(&given, &a.given_points, a.distance, rule).is_none(), || format!("sure by rule {rule}")));
        refused.note(tree.source(&given, &a.given_points, a.distance).is_none(), || "source".into());
        RULES.into_iter().for_each(|rule| refused.note(tree.few(&given, &a.given_points, a.distance, rule, 2).is_none(), || format!("few by rule {rule}")));
        refused.note(engine::windings(&given, &a.given_points).is_none(), || "winding".into());
        refused.note(tree.sums(&given).is_none(), || "node sums".into());
        refused.note(tree.fast(&given, &vec![[0.0; 16]; tree.nodes], &a.given_points, 2.0).is_none(), || "winding by dipoles".into());
    }
    refused.print()
}

fn main() {
    let mut args = std::env::args().skip(1).map(|a| a.parse().expect("a number"));
    let mut next = |usual| args.next().unwrap_or(usual);
    let (trees, points, large, large_points) = (next(200_000), next(10_000_000), next(408), next(100_000));
    let (level, wide, by_feet, by_part, nearest_few) = (next(5_000_000), next(5_000_000), next(2_000_000), next(2_000_000), next(1_000_000));
    faults();
    let small = requests(trees, request) + scans(points, small_size);
    let differ = small + requests(large, large_request) + scans(large_points, large_size) + too_many() + levels(level) + wider(wide) + feet(by_feet) + parts(by_part) + few::few(nearest_few);
    println!("{differ} differ");
    std::process::exit((differ > 0) as i32);
}
