//! Makes crates/test_trees/stdin: trees and source answers of the Rust, and sure answers and all parts of
//! the plain scan in tests/closest/scan.rs, over all of the oracle's kinds of shape and its findings, then
//! over triangles that may have no computed point, then with the nearest few by both rules. Put this file,
//! scan.rs and degenerate.rs into the oracle's src/bin/ (the last two in a folder src/bin/scan/) and run it
//! there:
//!
//!     cargo run --release --offline --bin trees findings/*.bin > crates/test_trees/stdin
//!
//! A case is words, u32 little-endian: n, strategy, leaf minimum, depth, distance bits, points,
//! nodes, depth of the tree, how many answers a point has as its nearest few, how many words all of these
//! are; then 9n coordinates, 3 a point, n order entries, 3 links a node, 6 box numbers a node, 7 words of
//! the source answer a point, 7 words of the sure answer by rule 1 a point, 7 words of each of the nearest
//! few a point by rule 1, then by rule 2.

use shark::{
    cases::{make, Rng, Wish, FAR, KINDS},
    request::{Request, Settings, P},
    run::{caught, Any, Variant},
};
use std::io::Write;

#[path = "scan/degenerate.rs"]
mod degenerate;
#[allow(dead_code)]
#[path = "scan/scan.rs"]
mod scan;

fn v(p: &P) -> [f32; 3] {
    [p.x, p.y, p.z]
}

/// What the Rust answers, with the part by a reading of its triangle: the Rust tells none.
fn source_of(tree: &Any, list: &[[[f32; 3]; 3]], p: &P, d: f32) -> Option<scan::Found> {
    tree.source(p, d).0.map(|f| {
        let (point, part) = scan::closest(&list[f.triangle as usize], v(p));
        assert_eq!(point.map(f32::to_bits), v(&f.point).map(f32::to_bits), "the plain reading has another closest point");
        scan::Found { triangle: f.triangle, point, squared: f.squared, part }
    })
}

/// With so many answers a point as its nearest few; 0 is none of them.
fn case(r: Request, most: usize, out: &mut Vec<u32>) {
    let r = Request::read(&r.write()).unwrap();
    let (s, tris, points, d) = (r.settings.unwrap(), r.triangles.unwrap(), r.points.unwrap(), r.distance.unwrap());
    let built = Any::build(Variant::NanNone, s, &tris);
    let t = built.see();
    let list: Vec<[[f32; 3]; 3]> = tris.iter().map(|t| [v(&t[0]), v(&t[1]), v(&t[2])]).collect();
    out.extend([tris.len() as u32, s.strategy as u32, s.leaf_minimum as u32, s.depth as u32]);
    out.extend([d.to_bits(), points.len() as u32, t.nodes.len() as u32, t.depth as u32]);
    out.extend([most as u32, (scan::WORDS * most * points.len()) as u32]);
    out.extend(list.iter().flatten().flatten().map(|x| x.to_bits()));
    out.extend(points.iter().flat_map(|p| v(p)).map(|x| x.to_bits()));
    out.extend(&t.order);
    for n in &t.nodes {
        out.extend([if n.leaf { 1 } else { 2 }, n.left as u32, n.right as u32]);
    }
    out.extend(t.nodes.iter().flat_map(|n| n.bbox).map(|x| x.to_bits()));
    points.iter().for_each(|p| out.extend(scan::words(source_of(&built, &list, p, d))));
    points.iter().for_each(|p| out.extend(scan::words(scan::scan(&list, v(p), d, 1))));
    for rule in [1, 2] {
        points.iter().for_each(|p| out.extend(scan::few(&list, v(p), d, rule, most).concat()));
    }
}

/// One to three triangles that may have no computed point, and twenty points by their edges.
fn without_points(kind: &str, seed: u64) -> Request {
    let mut r = Rng::new(seed);
    let given: Vec<f32> = (0..1 + seed % 3).flat_map(|_| degenerate::triangle(kind, &mut r)).flatten().collect();
    let p = |x: &[f32]| P::new(x[0], x[1], x[2]);
    let points = (0..20).map(|_| {
        let t = 9 * r.below(given.len() / 9);
        p(&degenerate::by_edge(&given[t..t + 9], &mut r))
    });
    Request {
        points: Some(points.collect()),
        settings: Some(Settings { version: 1, strategy: 1 + seed as u16 % 2, leaf_minimum: 1, depth: 40 }),
        triangles: Some(given.chunks_exact(9).map(|t| [p(&t[..3]), p(&t[3..6]), p(&t[6..])]).collect()),
        distance: Some(FAR),
    }
}

/// Three points whose nearest few are asked for: on few whole numbers, with each triangle told two to six times, fewer triangles than are
/// asked for, and more. The distance is about that of one of the first point's first few, or as far as can be.
fn with_few(manner: usize, most: usize, seed: u64) -> Request {
    let mut r = Rng::new(seed);
    let (kind, wish) = (KINDS[seed as usize % KINDS.len()], Wish { points: Some(3), ..Wish::default() });
    let mut made = match manner {
        0 => make("lattice", seed, 12 + r.below(13), &wish),
        1 => make(kind, seed, 1 + r.below(4), &wish),
        2 => make(kind, seed, 1 + r.below(most.max(2) - 1), &wish),
        _ => make(kind, seed, 17 + r.below(8), &wish),
    };
    if manner == 1 {
        let once = made.triangles.unwrap();
        let mut all: Vec<[P; 3]> = once.iter().flat_map(|t| vec![*t; 2 + r.below(5)]).collect();
        (1..all.len()).for_each(|i| all.swap(i, r.below(i + 1)));
        made.triangles = Some(all);
    }
    let read = Request::read(&made.write()).unwrap();
    let list: Vec<[[f32; 3]; 3]> = read.triangles.unwrap().iter().map(|t| [v(&t[0]), v(&t[1]), v(&t[2])]).collect();
    let sorted = scan::sorted(&list, v(&read.points.unwrap()[0]));
    let at = sorted[r.below(sorted.len().min(most + 1))].squared;
    let near = at.sqrt();
    let exact = [near, near.next_up(), near.next_down()].into_iter().find(|d| d * d == at).unwrap_or(near);
    made.distance = Some([exact, exact, exact, exact.next_up(), FAR, FAR][r.below(6)].min(FAR));
    made
}

fn main() {
    let args: Vec<String> = std::env::args().skip(1).collect();
    let mut out = Vec::new();
    for path in &args {
        let r = Request::read(&std::fs::read(path).unwrap()).unwrap();
        let small = r.triangles.as_ref().is_some_and(|t| t.len() <= 24);
        if small && r.settings.is_some() && r.points.is_some() && r.distance.is_some() {
            case(r, 0, &mut out);
        }
    }
    for kind in KINDS {
        for seed in 1..=18u64 {
            let size = 1 + (seed as usize * 5) % 17;
            case(make(kind, seed, size, &Wish { points: Some(7), ..Wish::default() }), 0, &mut out);
        }
    }
    for (kind, seeds) in degenerate::KINDS.into_iter().zip([8, 28, 16, 8]) {
        (1..=seeds).for_each(|seed| case(without_points(kind, seed), 0, &mut out));
    }
    for most in 1..=16 {
        (0..4).for_each(|manner| case(with_few(manner, most, (4 * most + manner) as u64), most, &mut out));
    }
    let bytes: Vec<u8> = out.iter().flat_map(|w| w.to_le_bytes()).collect();
    std::io::stdout().write_all(&bytes).unwrap();
    let _ = caught(|| ());
}
