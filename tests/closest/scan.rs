//! The sure query as a plain scan, written from the scope document and its requests about pinched
//! triangles, about the part that was hit and about the nearest few alone, std only: for each triangle the
//! computed closest point or, where a coordinate is not finite, the nearest of its feet on the edges, held
//! into the triangle's box, zeros plus zero; the smallest squared distance that counts by the rule, the
//! lowest number among equals. The part is told by the test that answered or by the edge that is kept, and
//! nothing is chosen by it. The nearest few are all triangles measured, those that count, sorted, and of
//! these the first.

pub type V = [f32; 3];

/// How many words an answer is.
pub const WORDS: usize = 7;

/// An answer as it stands in a list: 1, the triangle, the point, its squared distance and the part; zeros for nothing.
pub type Words = [u32; WORDS];

/// Which part of a triangle was hit: its face, a corner, or an edge. The number of each is the one that is answered.
#[derive(Clone, Copy, Debug, PartialEq)]
#[repr(u32)]
pub enum Part {
    Face = 0,
    A = 1,
    B = 2,
    C = 3,
    AB = 4,
    AC = 5,
    BC = 6,
}

impl Part {
    pub const ALL: [Part; 7] = [Part::Face, Part::A, Part::B, Part::C, Part::AB, Part::AC, Part::BC];
}

/// What is answered of a point.
#[derive(Clone, Copy, Debug)]
pub struct Found {
    pub triangle: u32,
    pub point: V,
    pub squared: f32,
    pub part: Part,
}

pub fn words(found: Option<Found>) -> Words {
    found.map_or([0; WORDS], |f| {
        let [x, y, z] = f.point.map(f32::to_bits);
        [1, f.triangle, x, y, z, f.squared.to_bits(), f.part as u32]
    })
}

fn sub(a: V, b: V) -> V {
    [a[0] - b[0], a[1] - b[1], a[2] - b[2]]
}

fn dot(a: V, b: V) -> f32 {
    a[0] * b[0] + a[1] * b[1] + a[2] * b[2]
}

/// start + edge × s
fn along(start: V, edge: V, s: f32) -> V {
    [start[0] + edge[0] * s, start[1] + edge[1] * s, start[2] + edge[2] * s]
}

/// The computed point, and the part by the test that answered.
pub fn closest(t: &[V; 3], p: V) -> (V, Part) {
    let [a, b, c] = *t;
    let (ab, ac, bc) = (sub(b, a), sub(c, a), sub(c, b));
    let (ap, bp, cp) = (sub(p, a), sub(p, b), sub(p, c));
    let (d1, d2) = (dot(ab, ap), dot(ac, ap));
    if d1 <= 0.0 && d2 <= 0.0 {
        return (a, Part::A);
    }
    let (d3, d4) = (dot(ab, bp), dot(ac, bp));
    if d3 >= 0.0 && d4 <= d3 {
        return (b, Part::B);
    }
    let vc = d1 * d4 - d3 * d2;
    if vc <= 0.0 && d1 >= 0.0 && d3 <= 0.0 {
        return (along(a, ab, d1 / (d1 - d3)), Part::AB);
    }
    let (d5, d6) = (dot(ab, cp), dot(ac, cp));
    if d6 >= 0.0 && d5 <= d6 {
        return (c, Part::C);
    }
    let vb = d5 * d2 - d1 * d6;
    if vb <= 0.0 && d2 >= 0.0 && d6 <= 0.0 {
        return (along(a, ac, d2 / (d2 - d6)), Part::AC);
    }
    let va = d3 * d6 - d5 * d4;
    if va <= 0.0 && d4 - d3 >= 0.0 && d5 - d6 >= 0.0 {
        return (along(b, bc, (d4 - d3) / ((d4 - d3) + (d5 - d6))), Part::BC);
    }
    let denominator = 1.0 / (va + vb + vc);
    (along(along(a, ab, vb * denominator), ac, vc * denominator), Part::Face)
}

pub fn squared(q: V, p: V) -> f32 {
    dot(sub(q, p), sub(q, p))
}

/// Into the triangle's box, zeros plus zero.
fn into_box(t: &[V; 3], mut q: V) -> V {
    for i in 0..3 {
        let lo = t[0][i].min(t[1][i]).min(t[2][i]);
        let hi = t[0][i].max(t[1][i]).max(t[2][i]);
        if q[i] < lo {
            q[i] = lo;
        }
        if q[i] > hi {
            q[i] = hi;
        }
        q[i] += 0.0;
    }
    q
}

/// Whether the triangle has a computed point: where it has none, a foot stands in.
pub fn is_computed(t: &[V; 3], p: V) -> bool {
    closest(t, p).0.iter().all(|x| x.is_finite())
}

/// The foot on an edge, held into the triangle's box.
#[derive(Clone, Copy)]
pub struct Foot {
    /// The share of the edge before it is held to 0 and 1; none where edge·edge is zero, and the foot is the start.
    pub share: Option<f32>,
    pub point: V,
    pub squared: f32,
    /// The edge, also where the share is held at an end; the corner at the start where there is no share.
    pub part: Part,
}

/// On the edges ab, ac and bc.
pub fn feet(t: &[V; 3], p: V) -> [Foot; 3] {
    let [a, b, c] = *t;
    [(a, b, Part::A, Part::AB), (a, c, Part::A, Part::AC), (b, c, Part::B, Part::BC)].map(|(start, end, corner, edge_part)| {
        let edge = sub(end, start);
        let square = dot(edge, edge);
        let share = if square == 0.0 { None } else { Some(dot(edge, sub(p, start)) / square) };
        let point = into_box(t, share.map_or(start, |s| along(start, edge, s.max(0.0).min(1.0))));
        Foot { share, point, squared: squared(point, p), part: if share.is_none() { corner } else { edge_part } }
    })
}

/// The index of the foot that is kept: the nearest, the earlier edge among equals.
pub fn kept(feet: &[Foot; 3]) -> usize {
    (1..3).fold(0, |best, k| if feet[k].squared < feet[best].squared { k } else { best })
}

/// The point that is measured, and the part: holding it into the box leaves the part as it was.
pub fn held(t: &[V; 3], p: V) -> (V, Part) {
    if is_computed(t, p) {
        let (point, part) = closest(t, p);
        return (into_box(t, point), part);
    }
    let feet = feet(t, p);
    let foot = feet[kept(&feet)];
    (foot.point, foot.part)
}

/// Whether a squared distance counts: by rule 1 strictly below the limit squared, by rule 2 below or equal.
pub fn counts(d: f32, limit: f32, rule: u32) -> bool {
    match rule {
        1 => d < limit,
        2 => d <= limit,
        _ => panic!("there is no rule {}", rule),
    }
}

/// The nearest that counts, for each search distance with its rule.
pub fn scan_each<const N: usize>(tris: &[[V; 3]], p: V, asked: [(f32, u32); N]) -> [Option<Found>; N] {
    let mut best: [Option<Found>; N] = [None; N];
    for (k, t) in tris.iter().enumerate() {
        let (point, part) = held(t, p);
        let found = Found { triangle: k as u32, point, squared: squared(point, p), part };
        for (best, (distance, rule)) in best.iter_mut().zip(asked) {
            if counts(found.squared, distance * distance, rule) && best.map_or(true, |b| found.squared < b.squared) {
                *best = Some(found);
            }
        }
    }
    best
}

pub fn scan(tris: &[[V; 3]], p: V, distance: f32, rule: u32) -> Option<Found> {
    scan_each(tris, p, [(distance, rule)])[0]
}

/// All triangles measured, by their squared distance, then by their number. All that is measured is finite.
pub fn sorted(tris: &[[V; 3]], p: V) -> Vec<Found> {
    let measured = tris.iter().enumerate().map(|(k, t)| {
        let (point, part) = held(t, p);
        Found { triangle: k as u32, point, squared: squared(point, p), part }
    });
    let mut all: Vec<Found> = measured.collect();
    all.sort_by(|a, b| a.squared.partial_cmp(&b.squared).unwrap().then(a.triangle.cmp(&b.triangle)));
    all
}

/// Of all triangles sorted, the first so many that count; nothing where fewer do.
pub fn first(sorted: &[Found], distance: f32, rule: u32, most: usize) -> Vec<Words> {
    let count: Vec<Found> = sorted.iter().filter(|f| counts(f.squared, distance * distance, rule)).copied().collect();
    (0..most).map(|place| words(count.get(place).copied())).collect()
}

/// The nearest few that count.
pub fn few(tris: &[[V; 3]], p: V, distance: f32, rule: u32, most: usize) -> Vec<Words> {
    first(&sorted(tris, p), distance, rule, most)
}
