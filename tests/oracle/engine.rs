//! This engine's exported functions (crates/test_exports) over plain slices, for compare.rs, dipoles_compare.rs and hazard.rs. How wide an
//! answer is scan.rs tells.

use super::scan::{Words, WORDS};

extern "C" {
    fn timing_build(t: *const f32, tn: usize, strategy: usize, leaf: usize, depth: usize, o: *mut u32, on: usize, l: *mut u32, ln: usize, b: *mut f32, bn: usize, w: *mut f32, wn: usize, c: *mut f32, cn: usize, s: *mut u32, sn: usize) -> usize;
    fn timing_depth(t: *const f32, tn: usize, strategy: usize, leaf: usize, depth: usize, o: *mut u32, on: usize, l: *mut u32, ln: usize, b: *mut f32, bn: usize, w: *mut f32, wn: usize, c: *mut f32, cn: usize, s: *mut u32, sn: usize) -> usize;
    fn timing_check(t: *const f32, tn: usize, o: *const u32, on: usize, l: *const u32, ln: usize, b: *const f32, bn: usize, nodes: usize) -> u32;
    fn timing_depth_read(t: *const f32, tn: usize, o: *const u32, on: usize, l: *const u32, ln: usize, b: *const f32, bn: usize, nodes: usize) -> usize;
    fn timing_sure(t: *const f32, tn: usize, o: *const u32, on: usize, l: *const u32, ln: usize, b: *const f32, bn: usize, nodes: usize, p: *const f32, pn: usize, d: f32, rule: u32, a: *mut u32, an: usize) -> u32;
    fn timing_source(t: *const f32, tn: usize, o: *const u32, on: usize, l: *const u32, ln: usize, b: *const f32, bn: usize, nodes: usize, p: *const f32, pn: usize, d: f32, a: *mut u32, an: usize) -> u32;
    fn timing_few(t: *const f32, tn: usize, o: *const u32, on: usize, l: *const u32, ln: usize, b: *const f32, bn: usize, nodes: usize, p: *const f32, pn: usize, d: f32, rule: u32, most: u32, a: *mut u32, an: usize) -> u32;
    fn timing_measured(t: *const f32, tn: usize, o: *const u32, on: usize, l: *const u32, ln: usize, b: *const f32, bn: usize, nodes: usize, p: *const f32, pn: usize, d: f32, rule: u32, most: u32) -> usize;
    fn timing_winding(t: *const f32, tn: usize, p: *const f32, pn: usize, w: *mut f32, wn: usize) -> u32;
    fn timing_node_sums(t: *const f32, tn: usize, o: *const u32, on: usize, l: *const u32, ln: usize, b: *const f32, bn: usize, nodes: usize, s: *mut f32, sn: usize) -> u32;
    fn timing_fast(t: *const f32, tn: usize, o: *const u32, on: usize, l: *const u32, ln: usize, b: *const f32, bn: usize, nodes: usize, s: *const f32, sn: usize, p: *const f32, pn: usize, accuracy: f32, w: *mut f32, wn: usize) -> u32;
    fn timing_solid(t: *const f32, tn: usize, p: *const f32, pn: usize) -> f32;
}

/// Stands in every lent entry before a call.
pub const UNTOUCHED: u32 = 0x7e57_7e57;

#[derive(Clone)]
pub struct Tree {
    pub nodes: usize,
    pub depth: usize,
    pub order: Vec<u32>,
    pub links: Vec<u32>,
    pub boxes: Vec<f32>,
    /// Whether the build left its working lists as it promises: zeros where it worked, and behind them what they held.
    pub tidy: bool,
}

type Build = unsafe extern "C" fn(
    *const f32, usize, usize, usize, usize, *mut u32, usize, *mut u32, usize, *mut f32, usize, *mut f32, usize, *mut f32, usize, *mut u32, usize,
) -> usize;

impl Tree {
    /// Room for the largest tree of n triangles and one entry more in each list.
    fn room(n: usize) -> Self {
        let most = 2 * n - 1;
        let untouched = f32::from_bits(UNTOUCHED);
        Tree { nodes: 0, depth: 0, order: vec![UNTOUCHED; n + 1], links: vec![UNTOUCHED; 3 * most + 1], boxes: vec![untouched; 6 * most + 1], tidy: true }
    }

    pub fn build(t: &[f32], strategy: usize, leaf: usize, depth: usize) -> Self {
        let n = t.len() / 9;
        let (mut tree, mut again) = (Tree::room(n), Tree::room(n));
        let call = |f: Build, to: &mut Tree| {
            let untouched = f32::from_bits(UNTOUCHED);
            let (mut w, mut c, mut s) = (vec![untouched; 6 * n + 1], vec![untouched; 3 * n + 1], vec![UNTOUCHED; n + 1]);
            let (o, l, b) = (&mut to.order, &mut to.links, &mut to.boxes);
            let answered = unsafe {
                f(
                    t.as_ptr(), t.len(), strategy, leaf, depth, o.as_mut_ptr(), o.len(), l.as_mut_ptr(), l.len(), b.as_mut_ptr(), b.len(),
                    w.as_mut_ptr(), w.len(), c.as_mut_ptr(), c.len(), s.as_mut_ptr(), s.len(),
                )
            };
            let all = [w, c].concat().into_iter().map(f32::to_bits).chain(s);
            let worked = |i: usize| answered > 0 && ![6 * n, 9 * n + 1, 10 * n + 2].contains(&i);
            to.tidy = all.enumerate().all(|(i, x)| x == if worked(i) { 0 } else { UNTOUCHED });
            answered
        };
        tree.nodes = call(timing_build, &mut tree);
        tree.depth = call(timing_depth, &mut again);
        tree.tidy &= again.tidy;
        tree
    }

    /// The entries past those of n triangles and this tree's nodes.
    pub fn untouched_past(&self, n: usize) -> bool {
        self.order[n..].iter().chain(&self.links[3 * self.nodes..]).all(|&x| x == UNTOUCHED)
            && self.boxes[6 * self.nodes..].iter().all(|x| x.to_bits() == UNTOUCHED)
    }

    pub fn accepted(&self, t: &[f32]) -> bool {
        let (n, l, b) = (t.len() / 9, &self.links, &self.boxes);
        unsafe { timing_check(t.as_ptr(), t.len(), self.order.as_ptr(), n, l.as_ptr(), l.len(), b.as_ptr(), b.len(), self.nodes) == 1 }
    }

    /// The depth as the public call reads it off the lists.
    pub fn depth_read(&self, t: &[f32]) -> usize {
        let (n, l, b) = (t.len() / 9, &self.links, &self.boxes);
        unsafe { timing_depth_read(t.as_ptr(), t.len(), self.order.as_ptr(), n, l.as_ptr(), l.len(), b.as_ptr(), b.len(), self.nodes) }
    }

    /// An answer a point, or nothing where the call refuses or writes past its answers. The source query has no rule.
    fn ask(&self, rule: Option<u32>, t: &[f32], p: &[f32], d: f32) -> Option<Vec<Words>> {
        let (n, o, l, b, need) = (t.len() / 9, &self.order, &self.links, &self.boxes, WORDS * (p.len() / 3));
        let mut a = vec![UNTOUCHED; need + WORDS];
        let answered = unsafe {
            match rule {
                Some(rule) => timing_sure(t.as_ptr(), t.len(), o.as_ptr(), n, l.as_ptr(), l.len(), b.as_ptr(), b.len(), self.nodes, p.as_ptr(), p.len(), d, rule, a.as_mut_ptr(), a.len()),
                None => timing_source(t.as_ptr(), t.len(), o.as_ptr(), n, l.as_ptr(), l.len(), b.as_ptr(), b.len(), self.nodes, p.as_ptr(), p.len(), d, a.as_mut_ptr(), a.len()),
            }
        };
        assert!(answered == 1 || a.iter().all(|&x| x == UNTOUCHED), "a refused query wrote");
        let right = answered == 1 && a[need..].iter().all(|&x| x == UNTOUCHED);
        right.then(|| a[..need].chunks_exact(WORDS).map(|w| w.try_into().unwrap()).collect())
    }

    /// As many answers a point as asked for, the nearest first, or nothing where the call refuses or writes past them. It is lent room for one
    /// answer more.
    pub fn few(&self, t: &[f32], p: &[f32], d: f32, rule: u32, most: u32) -> Option<Vec<Words>> {
        let need = most as usize * (p.len() / 3);
        let words = self.few_in(t, p, d, rule, most, WORDS * (need + 1))?;
        let right = words[WORDS * need..].iter().all(|&x| x == UNTOUCHED);
        right.then(|| words[..WORDS * need].chunks_exact(WORDS).map(|w| w.try_into().unwrap()).collect())
    }

    /// What the call leaves in so many words, or nothing where it refuses.
    pub fn few_in(&self, t: &[f32], p: &[f32], d: f32, rule: u32, most: u32, room: usize) -> Option<Vec<u32>> {
        let (n, o, l, b) = (t.len() / 9, &self.order, &self.links, &self.boxes);
        let mut a = vec![UNTOUCHED; room];
        let answered = unsafe { timing_few(t.as_ptr(), t.len(), o.as_ptr(), n, l.as_ptr(), l.len(), b.as_ptr(), b.len(), self.nodes, p.as_ptr(), p.len(), d, rule, most, a.as_mut_ptr(), a.len()) };
        assert!(answered == 1 || a.iter().all(|&x| x == UNTOUCHED), "a refused query wrote");
        (answered == 1).then_some(a)
    }

    /// How many triangles the search for so many measures for the first point; 0 where it refuses.
    pub fn measured(&self, t: &[f32], p: &[f32], d: f32, rule: u32, most: u32) -> usize {
        let (n, o, l, b) = (t.len() / 9, &self.order, &self.links, &self.boxes);
        unsafe { timing_measured(t.as_ptr(), t.len(), o.as_ptr(), n, l.as_ptr(), l.len(), b.as_ptr(), b.len(), self.nodes, p.as_ptr(), p.len(), d, rule, most) }
    }

    /// Sixteen numbers a node, or nothing where the call refuses or writes past them.
    pub fn sums(&self, t: &[f32]) -> Option<Vec<[f32; 16]>> {
        let (n, l, b, need) = (t.len() / 9, &self.links, &self.boxes, 16 * self.nodes);
        let mut s = vec![f32::from_bits(UNTOUCHED); need + 1];
        let answered = unsafe { timing_node_sums(t.as_ptr(), t.len(), self.order.as_ptr(), n, l.as_ptr(), l.len(), b.as_ptr(), b.len(), self.nodes, s.as_mut_ptr(), s.len()) };
        assert!(answered == 1 || s.iter().all(|x| x.to_bits() == UNTOUCHED), "a refused call wrote");
        let right = answered == 1 && s[need].to_bits() == UNTOUCHED;
        right.then(|| s[..need].chunks_exact(16).map(|d| d.try_into().unwrap()).collect())
    }

    /// A winding number a point by the numbers of the nodes, or nothing where the call refuses or writes past them.
    pub fn fast(&self, t: &[f32], sums: &[[f32; 16]], p: &[f32], accuracy: f32) -> Option<Vec<f32>> {
        let (n, l, b, s, need) = (t.len() / 9, &self.links, &self.boxes, sums.concat(), p.len() / 3);
        let mut w = vec![f32::from_bits(UNTOUCHED); need + 1];
        let answered = unsafe {
            timing_fast(
                t.as_ptr(), t.len(), self.order.as_ptr(), n, l.as_ptr(), l.len(), b.as_ptr(), b.len(), self.nodes, s.as_ptr(), s.len(), p.as_ptr(), p.len(),
                accuracy, w.as_mut_ptr(), w.len(),
            )
        };
        assert!(answered == 1 || w.iter().all(|x| x.to_bits() == UNTOUCHED), "a refused call wrote");
        let right = answered == 1 && w.pop().unwrap().to_bits() == UNTOUCHED;
        right.then_some(w)
    }

    pub fn sure(&self, t: &[f32], p: &[f32], d: f32, rule: u32) -> Option<Vec<Words>> {
        self.ask(Some(rule), t, p, d)
    }

    pub fn source(&self, t: &[f32], p: &[f32], d: f32) -> Option<Vec<Words>> {
        self.ask(None, t, p, d)
    }
}

pub fn windings(t: &[f32], p: &[f32]) -> Option<Vec<f32>> {
    let need = p.len() / 3;
    let mut w = vec![f32::from_bits(UNTOUCHED); need + 1];
    let answered = unsafe { timing_winding(t.as_ptr(), t.len(), p.as_ptr(), p.len(), w.as_mut_ptr(), w.len()) };
    assert!(answered == 1 || w.iter().all(|x| x.to_bits() == UNTOUCHED), "a refused call wrote");
    let right = answered == 1 && w.pop().unwrap().to_bits() == UNTOUCHED;
    right.then_some(w)
}

pub fn solid(triangle: &[f32], point: &[f32]) -> f32 {
    unsafe { timing_solid(triangle.as_ptr(), triangle.len(), point.as_ptr(), point.len()) }
}
