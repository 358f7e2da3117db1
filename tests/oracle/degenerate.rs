//! Triangles that may have no computed closest point, and points by their edges, for compare.rs and trees.rs.

use shark::cases::Rng;

pub const KINDS: [&str; 4] = ["equal", "short", "under", "needle"];

/// `equal` has two or three equal corners, of any size and of numbers whose differences round. The sides of `short` are about 1e-10, so that
/// the inverse of a square's square is infinite, half with a wide angle; those of `under` are so short that squares run under to zero or
/// nearly. Of `needle` b is so near to a that seen from elsewhere they are one.
pub fn triangle(kind: &str, r: &mut Rng) -> [[f32; 3]; 3] {
    let any = |r: &mut Rng, low: i32, high: i32| 2f64.powi(low + r.below((high - low) as usize) as i32);
    let around = |c: [f32; 3], size: f64, r: &mut Rng| c.map(|x| (x as f64 + size * r.both()) as f32);
    let size = match kind {
        "equal" => any(r, -85, 19),
        "short" => any(r, -38, -31),
        "under" => any(r, -90, -68),
        _ => any(r, -10, 15),
    };
    let spread = if kind == "needle" { [0.0, size][r.below(2)] } else { size * any(r, 0, 8) };
    let a = around([0.0; 3], if kind == "equal" { size } else { spread }, r);
    match kind {
        "equal" => {
            let b = around([0.0; 3], size * any(r, -30, 1), r);
            [[a, a, b], [a, b, a], [b, a, a], [a, a, a]][[0, 0, 0, 1, 2, 3][r.below(6)]]
        }
        "needle" => {
            // a corner by the origin has differences that round
            let from = [a, [0.0; 3]][r.below(2)];
            [a, around(a, size * any(r, -27, -18), r), around(from, size * any(r, -26, 1), r)]
        }
        _ => {
            let b = around(a, size * any(r, -4, 1), r);
            let opposite = std::array::from_fn(|i| a[i] - (b[i] - a[i]) * r.unit() as f32);
            let c = if r.one_in(2) { around(opposite, size * any(r, -4, 0), r) } else { around(a, size * any(r, -8, 1), r) };
            [[a, b, c], [b, a, c], [b, c, a]][r.below(3)]
        }
    }
}

/// By an edge or its ends, or past them, and off it by nothing, by up to its length or by much more; or straight over the face. Or square to
/// ab, where its product with the point is zero, and mostly so far off that with the point from b it is zero too.
pub fn by_edge(t: &[f32], r: &mut Rng) -> [f32; 3] {
    let corner = |i: usize| [t[3 * i], t[3 * i + 1], t[3 * i + 2]].map(f64::from);
    let hold = |x: f64| (x as f32).clamp(-1048576.0, 1048576.0);
    let [start, end, third] = [[0, 1, 2], [0, 2, 1], [1, 2, 0]][r.below(3)].map(corner);
    let edge: [f64; 3] = std::array::from_fn(|i| end[i] - start[i]);
    let side: [f64; 3] = std::array::from_fn(|i| third[i] - start[i]);
    let length = edge.map(f64::abs).into_iter().fold(0.0, f64::max);
    match r.below(6) {
        0 | 1 => {
            let (a, b, i) = (corner(0), corner(1), r.below(3));
            let (j, far) = ((i + 1) % 3, 2f64.powi(r.below(32) as i32) * if r.one_in(2) { 1.0 } else { -1.0 });
            let mut p = a;
            (p[i], p[j]) = (a[i] + far * (b[j] - a[j]), a[j] - far * (b[i] - a[i]));
            p.map(hold)
        }
        2 => {
            let across: [f64; 3] = std::array::from_fn(|i| edge[(i + 1) % 3] * side[(i + 2) % 3] - edge[(i + 2) % 3] * side[(i + 1) % 3]);
            let norm = across.iter().map(|x| x * x).sum::<f64>().sqrt();
            let (up, u) = (if norm > 0.0 { length * 2.0 * r.both() / norm } else { 0.0 }, r.unit());
            let v = (1.0 - u) * r.unit();
            std::array::from_fn(|i| hold(start[i] + u * edge[i] + v * side[i] + up * across[i]))
        }
        _ => {
            let share = [0.0, 1.0, 2.0 * r.unit() - 0.5, 2.0 * r.unit() - 0.5, r.unit(), r.unit()][r.below(6)];
            let off = length * [0.0, 1.0, 1.0, 2f64.powi(r.below(24) as i32)][r.below(4)];
            std::array::from_fn(|i| hold(start[i] + share * edge[i] + off * r.both()))
        }
    }
}
