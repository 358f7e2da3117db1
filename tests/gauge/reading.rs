//! `gauge` as a plain reading of the scope document, std only: input bytes to printed text. It shares
//! no line with the engine; the tree is only counted, and the answers are those of the plain scan.

use crate::scan::{scan, V};

type Box3 = [V; 2];

fn u16_at(s: &[u8], at: usize) -> usize {
    s[at] as usize + 256 * s[at + 1] as usize
}

fn u32_at(s: &[u8], at: usize) -> u32 {
    u32::from_le_bytes([s[at], s[at + 1], s[at + 2], s[at + 3]])
}

fn f32s(body: &[u8]) -> Vec<f32> {
    body.chunks(4).map(|b| f32::from_bits(u32_at(b, 0))).collect()
}

/// The four bodies, and the rule's if it is told; or the offset of the first wrong record.
fn records(s: &[u8]) -> Result<Vec<&[u8]>, usize> {
    let mut at = 0;
    let mut bodies: Vec<&[u8]> = Vec::new();
    for kind in [1, 2, 5, 6, 7] {
        // the rule may be left out
        if kind == 7 && at == s.len() {
            break;
        }
        if s.len() - at < 6 {
            return Err(at);
        }
        let size = u32_at(s, at) as usize;
        if u16_at(s, at + 4) != kind || size > s.len() - at - 6 {
            return Err(at);
        }
        let body = &s[at + 6..at + 6 + size];
        let right = match kind {
            1 => size == 8 && (1..=2).contains(&u16_at(body, 0)),
            // version 1 keeps up to 4,096 triangles, version 2 more
            2 => size % 36 == 0 && (size / 36 <= 4096) == (u16_at(bodies[0], 0) == 1),
            5 => size % 12 == 0,
            6 => size == 4,
            _ => size == 2,
        };
        if !right {
            return Err(at);
        }
        bodies.push(body);
        at += 6 + size;
    }
    if at < s.len() {
        return Err(at);
    }
    Ok(bodies)
}

fn first_bad(xs: &[f32]) -> Option<usize> {
    xs.iter().position(|x| !(x.abs() <= 1048576.0))
}

fn sizes(b: &Box3) -> V {
    [b[1][0] - b[0][0], b[1][1] - b[0][1], b[1][2] - b[0][2]]
}

fn join(a: &Box3, b: &Box3) -> Box3 {
    let mut r = *a;
    for i in 0..3 {
        r[0][i] = r[0][i].min(b[0][i]);
        r[1][i] = r[1][i].max(b[1][i]);
    }
    r
}

fn all(part: &[Box3]) -> Box3 {
    part[1..].iter().fold(part[0], |a, b| join(&a, b))
}

fn volume(b: &Box3) -> f32 {
    let d = sizes(b);
    d[0] * d[1] * d[2]
}

fn area(b: &Box3) -> f32 {
    let d = sizes(b);
    2.0 * (d[0] * d[1] + d[0] * d[2] + d[1] * d[2])
}

fn centre(b: &Box3, axis: usize) -> f32 {
    (b[0][axis] + b[1][axis]) / 2.0
}

fn median_cut(part: &[Box3], axis: usize) -> Option<usize> {
    let cut = part.len() / 2;
    let plane = (centre(&part[cut - 1], axis) + centre(&part[cut], axis)) / 2.0;
    if part.iter().all(|b| (centre(b, axis) - plane).abs() <= b[1][axis] - centre(b, axis)) {
        return None;
    }
    let whole = volume(&all(part));
    let large = |side: &[Box3]| volume(&all(side)) / whole > 0.8f32;
    if large(&part[..cut]) && large(&part[cut..]) {
        return None;
    }
    Some(cut)
}

fn area_cut(part: &[Box3], axis: usize) -> Option<usize> {
    let lo = part.iter().map(|b| centre(b, axis)).fold(f32::INFINITY, f32::min);
    let hi = part.iter().map(|b| centre(b, axis)).fold(f32::NEG_INFINITY, f32::max);
    let bucket = |b: &Box3| {
        let from = centre(b, axis) - lo;
        let offset = if hi > lo { from / (hi - lo) } else { from };
        ((12.0 * offset) as usize).min(11)
    };
    let parent = area(&all(part));
    let mut best: Option<(usize, f32)> = None;
    for cut in 0..11 {
        let left: Vec<Box3> = part.iter().filter(|b| bucket(b) <= cut).cloned().collect();
        let right: Vec<Box3> = part.iter().filter(|b| bucket(b) > cut).cloned().collect();
        if left.is_empty() || right.is_empty() {
            continue;
        }
        let weigh = |side: &[Box3]| side.len() as f32 * area(&all(side));
        let cost = 0.125 + (weigh(&left) + weigh(&right)) / parent;
        if cost.is_nan() {
            return None;
        }
        if best.map_or(true, |b| cost < b.1) {
            best = Some((cut, cost));
        }
    }
    let (cut, cost) = best?;
    if cost < part.len() as f32 {
        return part.iter().position(|b| bucket(b) > cut);
    }
    None
}

/// How many nodes the tree over the part has, and how many levels.
fn grown(part: &mut [Box3], strategy: usize, leaf_minimum: usize, maximum_depth: usize, depth: usize) -> (usize, usize) {
    if depth >= maximum_depth || part.len() <= leaf_minimum {
        return (1, 1);
    }
    let size = sizes(&all(part));
    let mut axes = [0, 1, 2];
    axes.sort_by(|a, b| size[*b].partial_cmp(&size[*a]).unwrap());
    for axis in axes {
        part.sort_by(|a, b| centre(a, axis).partial_cmp(&centre(b, axis)).unwrap());
        let cut = if strategy == 1 { median_cut(part, axis) } else { area_cut(part, axis) };
        if let Some(cut) = cut {
            let (left, right) = part.split_at_mut(cut);
            let a = grown(left, strategy, leaf_minimum, maximum_depth, depth + 1);
            let b = grown(right, strategy, leaf_minimum, maximum_depth, depth + 1);
            return (a.0 + b.0 + 1, a.1.max(b.1) + 1);
        }
    }
    (1, 1)
}

fn refused(number: usize, place: usize) -> String {
    format!("refused {number} {place}\n")
}

pub fn printed(s: &[u8]) -> String {
    if s.len() > 32768 {
        return refused(10, 0);
    }
    let bodies = match records(s) {
        Ok(b) => b,
        Err(at) => return refused(10, at),
    };
    let numbers = f32s(bodies[1]);
    let coordinates = f32s(bodies[2]);
    let distance = f32s(bodies[3])[0];
    let rule = if bodies.len() == 5 { u16_at(bodies[4], 0) } else { 1 };
    let (strategy, leaf_minimum, maximum_depth) = (u16_at(bodies[0], 2), u16_at(bodies[0], 4), u16_at(bodies[0], 6));
    if numbers.is_empty() {
        return refused(2, 0);
    }
    if let Some(i) = first_bad(&numbers) {
        return refused(4, i);
    }
    if !(1..=2).contains(&strategy) || !(1..=4096).contains(&leaf_minimum) || maximum_depth > 64 {
        return refused(5, 0);
    }
    if rule != 1 && rule != 2 {
        return refused(5, 0);
    }
    if let Some(i) = first_bad(&coordinates) {
        return refused(8, i);
    }
    if !(distance >= 0.0 && distance <= 4194304.0) {
        return refused(9, 0);
    }
    let point = |c: &[f32]| [c[0] + 0.0, c[1] + 0.0, c[2] + 0.0];
    let triangles: Vec<[V; 3]> = numbers.chunks(9).map(|t| [point(&t[..3]), point(&t[3..6]), point(&t[6..])]).collect();
    let mut boxes: Vec<Box3> = triangles.iter().map(|t| join(&join(&[t[0], t[0]], &[t[1], t[1]]), &[t[2], t[2]])).collect();
    let (nodes, depth) = grown(&mut boxes, strategy, leaf_minimum, maximum_depth, 1);
    let mut out = format!("triangles {} nodes {} depth {}\n", triangles.len(), nodes, depth);
    for (k, c) in coordinates.chunks(3).enumerate() {
        match scan(&triangles, point(c), distance, rule as u32) {
            None => out += &format!("{k} nothing\n"),
            Some(f) => {
                let [x, y, z] = f.point.map(f32::to_bits);
                out += &format!("{k} found {} {x:08x} {y:08x} {z:08x} {:08x} {}\n", f.triangle, f.squared.to_bits(), f.part as u32)
            }
        }
    }
    out
}
