//! Runs the proved functions against Rust's own: roots against `f32::sqrt`, bit for bit; arc tangents against `f64::atan2`; and
//! solid angles and winding numbers against the oracle's answers, where a list of them is named. Built and run by run.sh.

use std::collections::BTreeMap;

extern "C" {
    fn angles_root(x: f32) -> f32;
    fn angles_arc_tangent(n: f32, d: f32) -> f32;
    fn angles_solid(triangle: *const f32, length: usize, point: *const f32, length: usize) -> f32;
    fn angles_winding(triangles: *const f32, length: usize, points: *const f32, length: usize, out: *mut f32, length: usize) -> usize;
}

const UNIT: f64 = 1048576.0;

fn root(x: f32) -> f32 {
    unsafe { angles_root(x) }
}

fn arc_tangent(n: f32, d: f32) -> f32 {
    unsafe { angles_arc_tangent(n, d) }
}

fn solid(triangle: &[f32], point: &[f32]) -> f32 {
    unsafe { angles_solid(triangle.as_ptr(), triangle.len(), point.as_ptr(), point.len()) }
}

fn winding(triangles: &[f32], points: &[f32], out: &mut [f32]) -> usize {
    unsafe { angles_winding(triangles.as_ptr(), triangles.len(), points.as_ptr(), points.len(), out.as_mut_ptr(), out.len()) }
}

/// xorshift: the same numbers in each run.
struct Random(u64);

impl Random {
    fn next(&mut self) -> u32 {
        self.0 ^= self.0 << 13;
        self.0 ^= self.0 >> 7;
        self.0 ^= self.0 << 17;
        (self.0 >> 32) as u32
    }

    /// A finite number: any sign, any exponent.
    fn finite(&mut self) -> f32 {
        loop {
            let x = f32::from_bits(self.next());
            if x.is_finite() {
                return x;
            }
        }
    }

    /// A number of ordinary size: an exponent from 2^-8 to 2^7.
    fn ordinary(&mut self) -> f32 {
        let field = 119 + self.next() % 16;
        f32::from_bits((self.next() & 0x8000_0000) | field << 23 | self.next() & 0x7f_ffff)
    }
}

/// Of every finite number that is not below zero.
fn roots() {
    let (mut tried, mut wrong) = (0u64, 0u64);
    for bits in 0..f32::INFINITY.to_bits() {
        let x = f32::from_bits(bits);
        tried += 1;
        if root(x).to_bits() != x.sqrt().to_bits() {
            wrong += 1;
            if wrong < 10 {
                println!("root of {bits:08x}: {:08x}, not {:08x}", root(x).to_bits(), x.sqrt().to_bits());
            }
        }
    }
    println!("roots: {tried} tried, {wrong} differ from f32::sqrt");
    println!("root of 2: {:08x}; of the least subnormal: {:08x}; of -0: {:08x}", root(2.0).to_bits(), root(f32::from_bits(1)).to_bits(), root(-0.0).to_bits());
}

/// The largest difference from double precision, in units of 2^-20.
fn angles(name: &str, pairs: impl Iterator<Item = (f32, f32)>) {
    let (mut tried, mut largest) = (0u64, (0.0f64, 0.0f32, 0.0f32));
    for (n, d) in pairs.filter(|(n, _)| *n != 0.0) {
        tried += 1;
        // a denominator of -0 is not below zero
        let off = (arc_tangent(n, d) as f64 - (n as f64).atan2(d as f64 + 0.0)).abs() * UNIT;
        if !(off <= largest.0) {
            largest = (off, n, d);
        }
    }
    println!("angles, {name}: {tried} tried, at most {:.4} units of 2^-20 off, at ({:e}, {:e})", largest.0, largest.1, largest.2);
}

/// The eight pairs that have t or -t as the ratio of their magnitudes.
fn quadrants(t: f32) -> impl Iterator<Item = (f32, f32)> {
    (0..8).map(move |side| {
        let (a, b) = if side & 1 == 0 { (t, 1.0) } else { (1.0, t) };
        (if side & 2 == 0 { a } else { -a }, if side & 4 == 0 { b } else { -b })
    })
}

fn arc_tangents() {
    angles("ratios k / 2^16 in all quadrants", (0..=65536).flat_map(|k| quadrants(k as f32 / 65536.0)));
    let mut random = Random(0x1234_5678_9abc_def1);
    angles("numbers of ordinary size", std::iter::repeat_with(|| (random.ordinary(), random.ordinary())).take(40_000_000));
    let mut random = Random(0x5ca1_ab1e_0000_0001);
    angles("any two finite numbers", std::iter::repeat_with(|| (random.finite(), random.finite())).take(20_000_000));
    let ends = [0.0f32, 1.0, 0.5, 2.0, f32::MAX, f32::MIN_POSITIVE, f32::from_bits(1)].map(|x| [x, -x]).concat();
    angles("the ends of the range", ends.iter().flat_map(|n| ends.iter().map(|d| (*n, *d))));
}

/// The words of a list, in order.
struct Words(std::vec::IntoIter<u32>);

impl Words {
    fn next(&mut self) -> u32 {
        self.0.next().expect("the list ends too early")
    }

    fn numbers(&mut self, count: u32) -> Vec<f32> {
        (0..count).map(|_| f32::from_bits(self.next())).collect()
    }
}

/// How far apart: nothing where both are a NaN.
fn apart(ours: f32, theirs: f32) -> f64 {
    if ours.is_nan() && theirs.is_nan() { 0.0 } else { (ours as f64 - theirs as f64).abs() * UNIT }
}

/// What two lengths do where they are no ordinary numbers, by which case they are.
fn kind(triangle: &[f32], point: &[f32]) -> &'static str {
    let square = |k: usize| {
        let d = [0, 1, 2].map(|i| triangle[3 * k + i] - point[i]);
        (d, d[0] * d[0] + d[1] * d[1] + d[2] * d[2])
    };
    let all = [square(0), square(1), square(2)];
    if all.iter().any(|(d, s)| *s == 0.0 && *d != [0.0; 3]) {
        "a length underflows to zero"
    } else if all.iter().any(|(_, s)| *s == 0.0) {
        "a corner at the point"
    } else if all.iter().any(|(_, s)| *s < f32::MIN_POSITIVE) {
        "a subnormal squared length"
    } else if all.iter().any(|(_, s)| !s.is_finite()) {
        "a length overflows"
    } else {
        "ordinary lengths"
    }
}

fn listed(path: &str) {
    let bytes = std::fs::read(path).unwrap();
    let mut words = Words(bytes.chunks_exact(4).map(|w| u32::from_le_bytes(w.try_into().unwrap())).collect::<Vec<_>>().into_iter());
    let [roots, angles, solids, meshes] = [0; 4].map(|_| words.next());
    (0..2 * roots + 4 * angles).for_each(|_| {
        words.next();
    });
    let mut kinds: BTreeMap<&str, (u64, u64, f64)> = BTreeMap::new();
    for _ in 0..solids {
        let (triangle, point, theirs) = (words.numbers(9), words.numbers(3), words.numbers(1)[0]);
        let ours = solid(&triangle, &point);
        let row = kinds.entry(kind(&triangle, &point)).or_default();
        *row = (row.0 + 1, row.1 + (ours.is_nan() != theirs.is_nan()) as u64, row.2.max(apart(ours, theirs)));
    }
    for (kind, (tried, only, most)) in kinds {
        println!("solid angles, {kind}: {tried} tried, at most {most:.4} units of 2^-20 off, {only} where only one side is no number");
    }
    let (mut tried, mut most, mut refused, mut nan) = (0u64, 0.0f64, 0u64, 0u64);
    for _ in 0..meshes {
        let (n, m) = (words.next(), words.next());
        let (triangles, points, theirs) = (words.numbers(9 * n), words.numbers(3 * m), words.numbers(m));
        let mut out = vec![7.0; m as usize + 1];
        refused += (winding(&triangles, &points, &mut out) != 0 || out[m as usize] != 7.0) as u64;
        for (ours, theirs) in out.iter().zip(&theirs) {
            tried += 1;
            nan += ours.is_nan() as u64;
            most = most.max(apart(*ours, *theirs) / n as f64);
        }
    }
    println!("winding numbers: {meshes} meshes, {tried} points, at most {most:.4} units of 2^-20 a triangle off; {refused} refused, {nan} no number");
}

fn main() {
    if let Some(path) = std::env::args().nth(1) {
        listed(&path);
    } else {
        roots();
        arc_tangents();
    }
}
