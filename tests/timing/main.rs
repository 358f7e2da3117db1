//! Times this engine beside the Rust on one number of triangles of each of the oracle's kinds of shape: builds by
//! both strategies, and the source query on their trees, with and without the check of the tree that each call
//! begins with. All in one process, turn about; the least processor time of so many turns. Prints the rows of
//! docs/PERFORMANCE.md's tables, as ratios. Put it into the oracle's src/bin/ as timing.rs, and tests/closest/scan.rs,
//! which tells how wide an answer is, into a folder src/bin/scan/ (for over 4,096 triangles raise the limit of `make`
//! in its src/cases.rs, as tests/compare does), make the library by `rt lib` in crates/test_exports, and run there (leaf
//! minimum 10, 4,096 triangles and 50 turns where not told):
//!
//!     RUSTFLAGS="-L native=ENGINE/crates/test_exports/out -l static=test_exports" cargo run --release --offline --bin timing [LEAF [TRIANGLES [TURNS [sorted]]]]
//!
//! With the word `sorted` the triangles stand in the order of the leaves from the first: the Rust moves them there,
//! this engine has an order list.
//!
//! With `-l static=was --cfg before` in RUSTFLAGS it also times the build of another library, libwas.a, whose
//! exports are renamed from timing_ to was_ (objcopy --redefine-syms), and compares its trees with this one's
//! entry by entry. A text whose build is lent no working lists passes over those arguments.
#![allow(unexpected_cfgs)]

use shark::{
    cases::{make, Wish, KINDS},
    request::{Request, Settings, P},
    run,
};

#[allow(dead_code)]
#[path = "scan/scan.rs"]
mod scan;
use scan::WORDS;

type Build = unsafe extern "C" fn(
    *const f32, usize, usize, usize, usize, *mut u32, usize, *mut u32, usize, *mut f32, usize, *mut f32, usize, *mut f32, usize, *mut u32, usize,
) -> usize;

extern "C" {
    fn timing_build(t: *const f32, tn: usize, strategy: usize, leaf: usize, depth: usize, o: *mut u32, on: usize, l: *mut u32, ln: usize, b: *mut f32, bn: usize, w: *mut f32, wn: usize, c: *mut f32, cn: usize, s: *mut u32, sn: usize) -> usize;
    fn timing_check(t: *const f32, tn: usize, o: *const u32, on: usize, l: *const u32, ln: usize, b: *const f32, bn: usize, nodes: usize) -> u32;
    fn timing_source(t: *const f32, tn: usize, o: *const u32, on: usize, l: *const u32, ln: usize, b: *const f32, bn: usize, nodes: usize, p: *const f32, pn: usize, d: f32, a: *mut u32, an: usize) -> u32;
    #[cfg(before)]
    fn was_build(t: *const f32, tn: usize, strategy: usize, leaf: usize, depth: usize, o: *mut u32, on: usize, l: *mut u32, ln: usize, b: *mut f32, bn: usize, w: *mut f32, wn: usize, c: *mut f32, cn: usize, s: *mut u32, sn: usize) -> usize;
    fn clock_gettime(clock: i32, to: *mut [i64; 2]) -> i32;
}

#[cfg(before)]
const BEFORE: Option<Build> = Some(was_build);
#[cfg(not(before))]
const BEFORE: Option<Build> = None;

/// This process's processor time, in microseconds.
fn processor() -> f64 {
    let mut t = [0i64; 2];
    assert_eq!(unsafe { clock_gettime(2, &mut t) }, 0);
    t[0] as f64 * 1e6 + t[1] as f64 / 1e3
}

fn timed<T>(least: &mut f64, f: impl FnOnce() -> T) -> T {
    let start = processor();
    let out = f();
    *least = least.min(processor() - start);
    out
}

/// A tree's lists, the build's working lists, and how many nodes the tree has.
struct Lists {
    order: Vec<u32>,
    links: Vec<u32>,
    boxes: Vec<f32>,
    bounds: Vec<f32>,
    centres: Vec<f32>,
    scratch: Vec<u32>,
    nodes: usize,
}

impl Lists {
    fn room(n: usize) -> Self {
        Lists {
            order: vec![0; n],
            links: vec![0; 3 * (2 * n - 1)],
            boxes: vec![0.0; 6 * (2 * n - 1)],
            bounds: vec![0.0; 6 * n],
            centres: vec![0.0; 3 * n],
            scratch: vec![0; n],
            nodes: 0,
        }
    }

    fn build(&mut self, with: Build, t: &[f32], s: Settings) {
        let Lists { order: o, links: l, boxes: b, bounds: w, centres: c, scratch: k, nodes } = self;
        *nodes = unsafe {
            with(
                t.as_ptr(), t.len(), s.strategy as usize, s.leaf_minimum as usize, s.depth as usize, o.as_mut_ptr(), o.len(), l.as_mut_ptr(), l.len(),
                b.as_mut_ptr(), b.len(), w.as_mut_ptr(), w.len(), c.as_mut_ptr(), c.len(), k.as_mut_ptr(), k.len(),
            )
        };
    }

    fn same(&self, other: &Self) -> bool {
        self.order == other.order && self.links == other.links && self.nodes == other.nodes && self.boxes.iter().zip(&other.boxes).all(|(x, y)| x.to_bits() == y.to_bits())
    }
}

fn main() {
    let told = |at: usize, usual: usize| std::env::args().nth(at).map_or(usual, |word| word.parse().unwrap());
    let (leaf_minimum, triangles, turns) = (told(1, 10) as u16, told(2, 4096), told(3, 50));
    let sorted = std::env::args().nth(4).as_deref() == Some("sorted");
    println!("| kind | build, median | area | source query, median | area | without the check, median | area | build, now / before, median | area |");
    println!("|---|---|---|---|---|---|---|---|---|");
    for kind in KINDS {
        let wish = Wish { points: Some(500), spread: Some("near".into()), share: Some(0.05), ..Wish::default() };
        let r = Request::read(&make(kind, 1, triangles, &wish).write()).unwrap();
        let (tris, points, d) = (r.triangles.unwrap(), r.points.unwrap(), r.distance.unwrap());
        let flat = |tris: &[[P; 3]]| -> Vec<f32> { tris.iter().flatten().flat_map(|p| [p.x, p.y, p.z]).collect() };
        let p: Vec<f32> = points.iter().flat_map(|p| [p.x, p.y, p.z]).collect();
        let (mut builds, mut sources, mut walks, mut changes) = (vec![], vec![], vec![], vec![]);
        for strategy in [1u16, 2] {
            let s = Settings { version: 1, strategy, leaf_minimum, depth: 40 };
            let (mut now, mut before) = (Lists::room(tris.len()), Lists::room(tris.len()));
            let mut tris = tris.clone();
            if sorted {
                now.build(timing_build, &flat(&tris), s);
                tris = now.order.iter().map(|&k| tris[k as usize]).collect();
            }
            let t = flat(&tris);
            let mut answers = vec![0u32; WORDS * points.len()];
            let [mut ours, mut theirs, mut was, mut source, mut check, mut rust] = [f64::INFINITY; 6];
            for _ in 0..turns {
                let tree = timed(&mut theirs, || run::nan_none::build_plain(s, &tris));
                timed(&mut ours, || now.build(timing_build, &t, s));
                assert!(now.nodes > 0, "{kind}, strategy {strategy}: no tree");
                if let Some(build) = BEFORE {
                    timed(&mut was, || before.build(build, &t, s));
                    assert!(now.same(&before), "{kind}, strategy {strategy}: the trees differ");
                }
                let Lists { order: o, links: l, boxes: b, nodes, .. } = &now;
                let ok = timed(&mut source, || unsafe {
                    timing_source(t.as_ptr(), t.len(), o.as_ptr(), o.len(), l.as_ptr(), l.len(), b.as_ptr(), b.len(), *nodes, p.as_ptr(), p.len(), d, answers.as_mut_ptr(), answers.len())
                });
                assert_eq!(ok, 1);
                let ok = timed(&mut check, || unsafe {
                    timing_check(t.as_ptr(), t.len(), o.as_ptr(), o.len(), l.as_ptr(), l.len(), b.as_ptr(), b.len(), *nodes)
                });
                assert_eq!(ok, 1);
                let found = timed(&mut rust, || points.iter().filter(|q| tree.closest_point(q, d).is_some()).count());
                assert_eq!(found, answers.chunks_exact(WORDS).filter(|a| a[0] == 1).count(), "{kind}, strategy {strategy}");
            }
            builds.push(format!("{:.2}", ours / theirs));
            sources.push(format!("{:.2}", source / rust));
            walks.push(format!("{:.2}", (source - check) / rust));
            changes.push(if BEFORE.is_some() { format!("{:.2}", ours / was) } else { String::new() });
        }
        println!("| {kind} | {} | {} | {} | {} |", builds.join(" | "), sources.join(" | "), walks.join(" | "), changes.join(" | "));
    }
}
