//! Surveys the hazard that stays: collinear and thin triangles whose computed closest point is finite and wrong. One triangle and
//! one point at a time, the Rust's closest point and the sure query's held point beside the closest point in double precision.
//! Where the Rust has no point it surveys what stands in for it: before, corner a; now, what the sure query answers. tests/compare
//! builds and runs it.
//!
//!     hazard [CASES]     cases a row (1,000,000)
//!
//! Everything is told in parts of the triangle's longest side, or of the true distance where the three corners are the same; what
//! stands in for a point also in spacings of f32 at the largest coordinate, since a few of those are rounding. "Thin" is the height
//! over the longest side, as the rounded corners have it. The measured distance is the root of the squared distance that is answered.

use shark::{
    cases::{make, Rng, Wish, FAR, KINDS, LIMIT},
    geometry::traits::ClosestPoint3,
    request::{Request, P},
    run::triangle,
};

#[allow(dead_code)]
#[path = "beside/engine.rs"]
mod engine;
#[allow(dead_code)]
#[path = "beside/scan.rs"]
mod scan;
use engine::Tree;

type D = [f64; 3];

fn sub(a: D, b: D) -> D {
    [a[0] - b[0], a[1] - b[1], a[2] - b[2]]
}

fn dot(a: D, b: D) -> f64 {
    a[0] * b[0] + a[1] * b[1] + a[2] * b[2]
}

fn cross(a: D, b: D) -> D {
    [a[1] * b[2] - a[2] * b[1], a[2] * b[0] - a[0] * b[2], a[0] * b[1] - a[1] * b[0]]
}

fn along(a: D, d: D, s: f64) -> D {
    [a[0] + s * d[0], a[1] + s * d[1], a[2] + s * d[2]]
}

fn norm(a: D) -> f64 {
    dot(a, a).sqrt()
}

fn double(p: &P) -> D {
    [p.x as f64, p.y as f64, p.z as f64]
}

/// The corners from the one opposite the longest side on, so that the two shorter sides meet in the first.
fn sorted(t: &[P; 3]) -> [D; 3] {
    let [a, b, c] = [double(&t[0]), double(&t[1]), double(&t[2])];
    let far = |p: D, q: D| dot(sub(p, q), sub(p, q));
    let (ab, bc, ca) = (far(a, b), far(b, c), far(c, a));
    if bc >= ab && bc >= ca {
        [a, b, c]
    } else if ca >= ab {
        [b, c, a]
    } else {
        [c, a, b]
    }
}

/// The nearest of the feet on the three sides and, where it is inside, the foot on the face.
fn nearest(t: &[P; 3], p: D) -> (D, f64) {
    let t = sorted(t);
    let side = |s: D, e: D| {
        let d = sub(e, s);
        let l = dot(d, d);
        let foot = along(s, d, if l > 0.0 { (dot(sub(p, s), d) / l).clamp(0.0, 1.0) } else { 0.0 });
        (foot, norm(sub(foot, p)))
    };
    let n = cross(sub(t[1], t[0]), sub(t[2], t[0]));
    let nn = dot(n, n);
    let mut best = [(0, 1), (1, 2), (2, 0)].map(|(i, j)| side(t[i], t[j])).into_iter().fold((p, f64::INFINITY), |a, b| if b.1 < a.1 { b } else { a });
    let within = |i: usize, j: usize| dot(cross(sub(t[j], t[i]), sub(p, t[i])), n) >= 0.0;
    if nn > 0.0 && within(0, 1) && within(1, 2) && within(2, 0) {
        let h = dot(sub(p, t[0]), n);
        if h.abs() / nn.sqrt() < best.1 {
            best = (along(p, n, -h / nn), h.abs() / nn.sqrt());
        }
    }
    best
}

/// The triangle, then its neighbours if it has any; the point.
#[derive(Clone)]
struct Case {
    tris: Vec<[P; 3]>,
    point: P,
}

/// How far off, in longest sides: the point, and the distance (above zero: reads too far).
#[derive(Clone, Copy)]
struct Off {
    point: f64,
    distance: f64,
}

struct Seen {
    size: f64,
    /// The longest side; the true distance where there is none.
    unit: f64,
    thin: f64,
    /// Which corners are the same: all, a and b, a and c, b and c.
    same: Option<usize>,
    /// The true distance, in longest sides.
    away: f64,
    /// The spacing of f32 at the largest coordinate of triangle and point, in longest sides.
    spacing: f64,
    source: Option<Off>,
    sure: Off,
    /// Corner a, which stood for the computed point where that is none.
    corner: Off,
    answers: String,
}

fn one_leaf(tris: &[[P; 3]]) -> Tree {
    let corners = || tris.iter().flatten();
    let lo = corners().fold([f32::MAX; 3], |m, c| [m[0].min(c.x), m[1].min(c.y), m[2].min(c.z)]);
    let hi = corners().fold([f32::MIN; 3], |m, c| [m[0].max(c.x), m[1].max(c.y), m[2].max(c.z)]);
    let n = tris.len() as u32;
    Tree { nodes: 1, depth: 1, order: (0..n).collect(), links: vec![1, 0, n], boxes: [lo, hi].concat(), tidy: true }
}

fn look(case: &Case, tell: bool) -> Seen {
    let p = double(&case.point);
    let t = sorted(&case.tris[0]);
    let size = norm(sub(t[2], t[1]));
    let thin = norm(cross(sub(t[1], t[0]), sub(t[2], t[0]))) / (size * size);
    let (truth, away) = case.tris.iter().map(|t| nearest(t, p)).fold((p, f64::INFINITY), |a, b| if b.1 < a.1 { b } else { a });
    let unit = if size > 0.0 { size } else { away };
    let off = |q: P, squared: f32| Off { point: norm(sub(double(&q), truth)) / unit, distance: ((squared as f64).sqrt() - away) / unit };
    let nearer = |a: (P, f32), b: (P, f32)| if b.1 < a.1 { b } else { a };
    let computed = case.tris.iter().map(|t| triangle(t).closest_point(&case.point)).map(|q| (q, (q - case.point).norm_squared()));
    let source = computed.filter(|c| c.1.is_finite()).reduce(nearer);
    let (corner, corner_squared) = case.tris.iter().map(|t| (t[0], (t[0] - case.point).norm_squared())).reduce(nearer).unwrap();
    let numbers: Vec<f32> = case.tris.iter().flatten().flat_map(|c| [c.x, c.y, c.z]).collect();
    let words = one_leaf(&case.tris).sure(&numbers, &[case.point.x, case.point.y, case.point.z], FAR, 1).expect("the sure query answers")[0];
    let [x, y, z, squared] = [2, 3, 4, 5].map(|i| f32::from_bits(words[i]));
    let [a, b, c] = case.tris[0];
    let largest = numbers.iter().chain([&case.point.x, &case.point.y, &case.point.z]).fold(0f32, |m, x| m.max(x.abs()));
    Seen {
        size,
        unit,
        thin,
        same: [a == b && b == c, a == b, a == c, b == c].iter().position(|&same| same),
        away: away / unit,
        spacing: (f32::from_bits(largest.to_bits() + 1) - largest) as f64 / unit,
        source: source.map(|(q, s)| off(q, s)),
        sure: off(P::new(x, y, z), squared),
        corner: off(corner, corner_squared),
        answers: if tell { format!("true distance {away:.9e}; sure ({x:?}, {y:?}, {z:?}), distance {:.9e}; the Rust {source:?}", (squared as f64).sqrt()) } else { String::new() },
    }
}

/// The largest seen, and where.
#[derive(Default, Clone)]
struct Most {
    value: f64,
    case: Option<Case>,
}

impl Most {
    fn see(&mut self, value: f64, case: &Case) {
        if value > self.value {
            *self = Most { value, case: Some(case.clone()) };
        }
    }
}

#[derive(Default, Clone)]
struct Side {
    point: f64,
    too_far: Most,
    too_near: Most,
    /// Over the true distance, where that is a hundredth of the longest side or more.
    of_distance: f64,
    times_thin_squared: f64,
    in_heights: f64,
    in_spacings: f64,
    absolute: f64,
    over: [u64; 2],
}

impl Side {
    fn see(&mut self, off: Off, seen: &Seen, case: &Case) {
        self.point = self.point.max(off.point);
        self.times_thin_squared = self.times_thin_squared.max(off.distance.abs() * seen.thin * seen.thin);
        self.in_heights = self.in_heights.max(off.distance.abs() / seen.thin);
        self.in_spacings = self.in_spacings.max(off.distance.abs() / seen.spacing);
        self.absolute = self.absolute.max(off.distance.abs() * seen.unit);
        self.too_far.see(off.distance, case);
        self.too_near.see(-off.distance, case);
        if seen.away >= 0.01 {
            self.of_distance = self.of_distance.max(off.distance.abs() / seen.away);
        }
        for (count, limit) in self.over.iter_mut().zip([1e-3, 1e-2]) {
            *count += (off.distance.abs() > limit) as u64;
        }
    }

    fn line(&self, cases: u64) -> String {
        let share = |n: u64| 100.0 * n as f64 / cases as f64;
        format!(
            "off by over 1e-3 {:.4}%, over 1e-2 {:.4}%; reads too far by {:.2e}, too near by {:.2e}; of the distance {:.2e}; times thin squared {:.1e}; in heights {:.1e}; point off {:.2e}",
            share(self.over[0]), share(self.over[1]), self.too_far.value, self.too_near.value, self.of_distance, self.times_thin_squared, self.in_heights, self.point
        )
    }
}

/// The cases in which the Rust has no point, and how far off what stands in for it was and is.
#[derive(Default, Clone)]
struct NoPoint {
    cases: u64,
    before: Side,
    now: Side,
    /// The largest spacing, in longest sides.
    spacing: f64,
}

impl NoPoint {
    fn see(&mut self, seen: &Seen, case: &Case) {
        self.cases += 1;
        self.before.see(seen.corner, seen, case);
        self.now.see(seen.sure, seen, case);
        self.spacing = self.spacing.max(seen.spacing);
    }

    fn print(&self, corners: &str) {
        if self.cases == 0 {
            return;
        }
        println!("      no point, {corners}: {}, at least {:.1e} spacings across", self.cases, 1.0 / self.spacing);
        for (when, side) in [("before, corner a", &self.before), ("now", &self.now)] {
            let [far, near] = [&side.too_far, &side.too_near].map(|m| m.value);
            let share = |n: u64| 100.0 * n as f64 / self.cases as f64;
            println!(
                "        {when}: off by over 1e-3 {:.4}%, over 1e-2 {:.4}%; reads too far by {far:.2e}, too near by {near:.2e}; in spacings {:.1e}, absolute {:.1e}; point off {:.2e}",
                share(side.over[0]), share(side.over[1]), side.in_spacings, side.absolute, side.point
            );
        }
        show("the worst now", if self.now.too_far.value > self.now.too_near.value { &self.now.too_far } else { &self.now.too_near });
    }
}

/// One row: how many cases, in how many the Rust has no point, and how far off the others are.
#[derive(Default, Clone)]
struct Row {
    cases: u64,
    /// With three different corners, and with two the same.
    no_point: [NoPoint; 2],
    source: Side,
    sure: Side,
}

impl Row {
    fn see(&mut self, seen: &Seen, case: &Case) {
        self.cases += 1;
        match seen.source {
            None => self.no_point[seen.same.is_some() as usize].see(seen, case),
            Some(source) => {
                self.source.see(source, seen, case);
                self.sure.see(seen.sure, seen, case);
            }
        }
    }

    fn print(&self, name: &str) {
        if self.cases == 0 {
            return;
        }
        let no_point: u64 = self.no_point.iter().map(|n| n.cases).sum();
        println!("  {name}: {} cases; no point in {no_point}", self.cases);
        self.no_point[0].print("three different corners");
        self.no_point[1].print("two corners the same");
        if self.cases == no_point {
            return;
        }
        let (rust, sure) = (self.source.line(self.cases - no_point), self.sure.line(self.cases - no_point));
        println!("      sure: {sure}\n      the Rust: {}", if rust == sure { "the same".into() } else { rust });
    }
}

const CLASSES: [&str; 14] = [
    "0.3 and above", "0.03 to 0.3", "3e-3 to 0.03", "3e-4 to 3e-3", "3e-5 to 3e-4", "3e-6 to 3e-5", "3e-7 to 3e-6", "3e-8 to 3e-7", "below 3e-8",
    "in one line exactly", "three corners the same", "a = b", "a = c", "b = c",
];

fn class(seen: &Seen) -> usize {
    if let Some(same) = seen.same {
        10 + same
    } else if seen.thin == 0.0 {
        9
    } else {
        (0..8).filter(|k| seen.thin < 0.3 * 10f64.powi(-k)).count()
    }
}

fn unit(r: &mut Rng) -> D {
    loop {
        let d = [r.both(), r.both(), r.both()];
        let l = norm(d);
        if l > 0.1 && l <= 1.0 {
            return d.map(|x| x / l);
        }
    }
}

fn rounded(p: D) -> P {
    let one = |x: f64| (x as f32).clamp(-LIMIT, LIMIT) + 0.0;
    P::new(one(p[0]), one(p[1]), one(p[2]))
}

fn turned(r: &mut Rng, [a, b, c]: [P; 3]) -> [P; 3] {
    [[a, b, c], [b, c, a], [c, a, b], [a, c, b], [c, b, a], [b, a, c]][r.below(6)]
}

/// A triangle of about this thinness, its longest side 1 to 2, at most `out` sides from the origin by each axis.
fn thin_triangle(r: &mut Rng, thin: f64, out: f64) -> [P; 3] {
    let (l, d) = (1.0 + r.unit(), unit(r));
    let a = [out * l * r.both(), out * l * r.both(), out * l * r.both()];
    let mut up = cross(d, unit(r));
    let h = norm(up);
    up = up.map(|x| x / h);
    let c = along(along(a, d, l * r.unit()), up, thin * l);
    let t = [rounded(a), rounded(along(a, d, l)), rounded(c)];
    turned(r, t)
}

/// Whole numbers, so that the corners are in one line exactly; some along an axis.
fn line_triangle(r: &mut Rng) -> [P; 3] {
    let mut one = |n: i64| r.below(2 * n as usize + 1) as i64 - n;
    let (a, mut d) = ([one(1000), one(1000), one(1000)], [1 + one(100).abs(), one(100), one(100)]);
    let (u, w) = (1 + one(100).abs(), one(100));
    if one(1) == 0 {
        (d[1], d[2]) = (0, 0);
    }
    let at = |k: i64| P::new((a[0] + k * d[0]) as f32, (a[1] + k * d[1]) as f32, (a[2] + k * d[2]) as f32);
    turned(r, [at(0), at(u), at(w)])
}

fn scaled(t: [P; 3], by: f64) -> [P; 3] {
    t.map(|q| rounded(double(&q).map(|x| by * x)))
}

/// Corners in one line exactly, the longest side 1 to 2 times this long: scaled by a power of 2 they stay in line.
fn line_of_size(r: &mut Rng, size: f64) -> [P; 3] {
    let t = line_triangle(r);
    let [_, b, c] = sorted(&t);
    scaled(t, (size / norm(sub(c, b))).log2().ceil().exp2())
}

/// Whole numbers from -1 to 1 times this.
fn lattice_triangle(r: &mut Rng, size: f32) -> [P; 3] {
    let mut one = || size * (r.below(3) as f32 - 1.0);
    [(); 3].map(|_| P::new(one(), one(), one()))
}

/// Two corners the same, the third 1 to 2 away, or all three the same; at most `out` sides from the origin by each axis.
fn pinched_triangle(r: &mut Rng, which: u64, out: f64) -> [P; 3] {
    let (l, d) = (1.0 + r.unit(), unit(r));
    let a = [out * l * r.both(), out * l * r.both(), out * l * r.both()];
    let (a, b) = (rounded(a), rounded(along(a, d, l)));
    [[a, a, b], [a, b, a], [b, a, a], [a, a, a]][which as usize % 4]
}

/// Over the triangle's longest side or a little past its ends, or over its face; 0 to 10 sides away.
fn point_by(r: &mut Rng, t: &[P; 3]) -> P {
    let [a, b, c] = sorted(t);
    let l = norm(sub(c, b));
    let foot = if r.one_in(2) {
        along(b, sub(c, b), 1.5 * r.unit() - 0.25)
    } else {
        let (u, w) = (r.unit(), r.unit());
        let (u, w) = if u + w > 1.0 { (1.0 - u, 1.0 - w) } else { (u, w) };
        along(along(a, sub(b, a), u), sub(c, a), w)
    };
    let away = if l > 0.0 { l } else { 1.0 } * [0.0, 1e-4, 1e-3, 1e-2, 0.1, 1.0, 10.0][r.below(7)];
    rounded(along(foot, unit(r), away * r.unit()))
}

/// A triangle of good shape on each side of this one.
fn neighbours(r: &mut Rng, t: [P; 3]) -> Vec<[P; 3]> {
    let mut all = vec![t];
    for (i, j) in [(1, 0), (2, 1), (0, 2)] {
        let (s, e) = (double(&t[i]), double(&t[j]));
        let l = norm(sub(e, s));
        let apex = along(along(s, sub(e, s), 0.3 + 0.4 * r.unit()), unit(r), l * (0.5 + r.unit()));
        all.push([t[i], t[j], rounded(apex)]);
    }
    all
}

/// Eight triangles side by side, as long as 1 to 2, each as wide as it is thin: two to a facet of a rolled sheet. The first one
/// told is in the middle.
fn strip(r: &mut Rng, thin: f64, out: f64) -> Vec<[P; 3]> {
    let (l, d) = (1.0 + r.unit(), unit(r));
    let a = [out * l * r.both(), out * l * r.both(), out * l * r.both()];
    let mut across = cross(d, unit(r));
    let mut up = cross(d, across);
    across = across.map(|x| x / norm(across));
    up = up.map(|x| x / norm(up));
    let bend = r.unit();
    // Rails of five corners each, on an arc.
    let rail = |far: bool, i: usize| {
        let angle = bend * (i as f64 - 2.0);
        let radius = thin * l / bend.max(1e-9);
        let foot = along(along(a, across, radius * angle.sin()), up, radius * (1.0 - angle.cos()));
        rounded(along(foot, d, if far { l } else { 0.0 }))
    };
    let facet = |i: usize| [[rail(false, i), rail(false, i + 1), rail(true, i)], [rail(true, i), rail(false, i + 1), rail(true, i + 1)]];
    [1, 0, 2, 3].into_iter().flat_map(facet).map(|t| turned(r, t)).collect()
}

/// Eight triangles that meet in one corner, over a line that is a little bent; nothing on their other sides. The first one told
/// is in the middle.
fn fan(r: &mut Rng, thin: f64, out: f64) -> Vec<[P; 3]> {
    let (l, d) = (1.0 + r.unit(), unit(r));
    let a = [out * l * r.both(), out * l * r.both(), out * l * r.both()];
    let mut up = cross(d, unit(r));
    up = up.map(|x| x / norm(up));
    let steps: Vec<f64> = (0..8).map(|_| 0.5 + r.unit()).collect();
    let bent = |k: usize| {
        let s = steps[..k].iter().sum::<f64>() / steps.iter().sum::<f64>();
        rounded(along(along(a, d, l * s), up, 16.0 * thin * l * s * (1.0 - s)))
    };
    let first = rounded(along(a, d, -0.1 * l));
    [4, 0, 1, 2, 3, 5, 6, 7].map(|k| turned(r, [first, bent(k), bent(k + 1)])).into()
}

/// Small changes, each kept where the value grows and the class stays: with the longest side still a quarter of the largest coordinate or
/// more, and the point at most two sides away.
fn push_further(r: &mut Rng, start: &Most, class_of: usize) -> Most {
    let mut best = start.clone();
    let Some(mut case) = best.case.clone() else { return best };
    for _ in 0..200_000 {
        let mut next = case.clone();
        let k = r.below(12);
        let x = if k < 9 { &mut next.tris[0][k / 3][k % 3] } else { &mut next.point[k - 9] };
        let by = [1e-7, 1e-6, 1e-5, 1e-4, 1e-3, 1e-2, 0.1][r.below(7)] * r.both();
        *x = (*x * (1.0 + by as f32)).clamp(-LIMIT, LIMIT) + 0.0;
        let seen = look(&next, false);
        let largest = next.tris[0].iter().flat_map(|c| [c.x, c.y, c.z]).fold(0f32, |m, x| m.max(x.abs()));
        let stays = class(&seen) == class_of && seen.size >= 0.25 * largest as f64 && seen.away <= 2.0;
        if stays && seen.source.is_some() && seen.sure.distance > best.value {
            best = Most { value: seen.sure.distance, case: Some(next.clone()) };
            case = next;
        }
    }
    best
}

fn show(what: &str, most: &Most) {
    let Some(case) = &most.case else { return };
    let decimal = |p: &P| format!("({:?}, {:?}, {:?})", p.x, p.y, p.z);
    let hex = |p: &P| format!("{:08x} {:08x} {:08x}", p.x.to_bits(), p.y.to_bits(), p.z.to_bits());
    let all = |f: &dyn Fn(&P) -> String| format!("{} {} {}, point {}", f(&case.tris[0][0]), f(&case.tris[0][1]), f(&case.tris[0][2]), f(&case.point));
    let seen = look(case, true);
    println!("    {what} {:.3e}, thin {:.2e}: {}\n      {}\n      {}", most.value, seen.thin, all(&decimal), all(&hex), seen.answers);
}

/// Rows by thinness; with `worst` the worst of each, and how far small changes drive it.
fn survey(title: &str, r: &mut Rng, cases: u64, worst: bool, mut make_one: impl FnMut(&mut Rng, u64) -> Vec<[P; 3]>) {
    survey_at(title, r, cases, worst, |r, i| {
        let tris = make_one(r, i);
        Case { point: point_by(r, &tris[0]), tris }
    });
}

fn survey_at(title: &str, r: &mut Rng, cases: u64, worst: bool, mut make_one: impl FnMut(&mut Rng, u64) -> Case) {
    let mut rows = vec![Row::default(); CLASSES.len()];
    for i in 0..cases {
        let case = make_one(r, i);
        let seen = look(&case, false);
        rows[class(&seen)].see(&seen, &case);
    }
    println!("{title}");
    for (k, row) in rows.iter().enumerate() {
        row.print(CLASSES[k]);
        if worst && k < 10 {
            show("after 200,000 small changes sure reads too far by", &push_further(r, &row.sure.too_far, k));
        }
    }
}

/// Rows by size, from ordinary ones to the least subnormals.
fn by_size(title: &str, r: &mut Rng, cases: u64, make_one: impl Fn(&mut Rng, f64) -> [P; 3]) {
    println!("{title}");
    for k in (4..=24).chain([30, 38, 40]) {
        let mut row = Row::default();
        for _ in 0..cases / 10 {
            let t = make_one(r, 10f64.powi(-k));
            let case = Case { point: point_by(r, &t), tris: vec![t] };
            row.see(&look(&case, false), &case);
        }
        row.print(&format!("1e-{k} to 2e-{k}"));
    }
}

fn main() {
    let cases: u64 = std::env::args().nth(1).map_or(1_000_000, |a| a.parse().expect("a number"));
    let r = &mut Rng::new(4);
    let thin = |i: u64| 10f64.powi(-((i % 9) as i32));
    for (title, out) in [("thin triangles, at most one side from the origin", 1.0), ("ten sides from the origin", 10.0), ("a thousand sides from the origin", 1000.0)] {
        survey(title, r, 9 * cases, out == 1.0, |r, i| {
            let by = thin(i) * (0.5 + r.unit());
            vec![thin_triangle(r, by, out)]
        });
    }
    survey("corners in one line exactly", r, cases, true, |r, _| vec![line_triangle(r)]);
    survey("thin triangles with a triangle of good shape on each side, ten sides from the origin", r, 9 * cases, false, |r, i| {
        let by = thin(i) * (0.5 + r.unit());
        let t = thin_triangle(r, by, 10.0);
        neighbours(r, t)
    });
    survey("thin triangles side by side, ten sides from the origin", r, 9 * cases, false, |r, i| {
        let by = thin(i) * (0.5 + r.unit());
        strip(r, by, 10.0)
    });
    survey("thin triangles that meet in one corner and have no others beside them, ten sides from the origin", r, 9 * cases, false, |r, i| {
        let by = thin(i) * (0.5 + r.unit());
        fan(r, by, 10.0)
    });
    println!("the oracle's kinds of shape");
    for kind in KINDS {
        let mut row = Row::default();
        for seed in 0..cases / 64 {
            let made = make(kind, 5_000_000 + seed, 64, &Wish { points: Some(0), ..Wish::default() });
            for t in Request::read(&made.write()).unwrap().triangles.unwrap() {
                let case = Case { point: point_by(r, &t), tris: vec![t] };
                let seen = look(&case, false);
                if seen.size > 0.0 {
                    row.see(&seen, &case);
                }
            }
        }
        row.print(kind);
    }
    by_size("triangles of good shape by size, at most one side from the origin", r, cases, |r, size| scaled(thin_triangle(r, 0.6, 1.0), size));
    by_size("triangles a thousandth as high as long by size", r, cases, |r, size| scaled(thin_triangle(r, 1e-3, 1.0), size));
    by_size("corners in one line exactly by size", r, cases, line_of_size);
    by_size("a = b by size", r, cases, |r, size| scaled(pinched_triangle(r, 0, 1.0), size));
    for (title, out) in [("at most one side from the origin", 1.0), ("ten sides from the origin", 10.0), ("a thousand sides from the origin", 1000.0)] {
        survey(&format!("two or three corners the same, {title}"), r, 4 * cases, false, |r, i| vec![pinched_triangle(r, i, out)]);
        survey(&format!("rounded corners of a line, {title}"), r, cases, false, |r, _| vec![thin_triangle(r, 0.0, out)]);
    }
    // So far that all three corners are in the same direction, at a right angle to a side.
    survey_at("triangles of 0.001 seen from as far as can be, along axes and diagonals", r, cases, false, |r, _| {
        let point = lattice_triangle(r, LIMIT)[0];
        Case { tris: vec![lattice_triangle(r, 0.001)], point }
    });
}
