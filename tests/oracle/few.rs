//! The nearest few, for compare.rs: each number of answers from 1 to 16 by both rules, against all triangles measured and sorted. Drawings
//! are made so that many triangles are as near as each other, and distances so that they cut between them, at one of them and beside it.

use super::{
    asked::{Asked, Tally},
    degenerate,
    engine::{Tree, UNTOUCHED},
    grown, level_size,
    scan::{self, Found, Words, WORDS},
    steps, RULES,
};
use shark::cases::{Rng, Wish, FAR, KINDS};
use std::time::Instant;

/// The most answers that a point may have.
const MOST: usize = 16;

/// How drawings are made, in turn.
const MANNERS: [&str; 5] = ["as it comes", "with each triangle told two to twenty times", "turned about a point", "moved along a lattice", "of fewer than sixteen"];

/// Drawings of more triangles than this have one distance for all of their points: each call checks the tree.
const SMALL: usize = 64;

struct Drawing {
    name: String,
    given: Vec<f32>,
    points: Vec<f32>,
    /// A distance of the oracle's.
    distance: f32,
}

fn read(x: &[f32]) -> [f32; 3] {
    [x[0] + 0.0, x[1] + 0.0, x[2] + 0.0]
}

fn shuffle<T>(list: &mut [T], r: &mut Rng) {
    (1..list.len()).for_each(|i| list.swap(i, r.below(i + 1)));
}

/// Of the oracle's kinds and those of degenerate.rs the next in turn; of the latter with points by the edges.
fn of_a_kind(turn: u64, size: usize, points: usize, r: &mut Rng) -> Drawing {
    let kind = turn as usize % (degenerate::KINDS.len() + KINDS.len());
    let own = degenerate::KINDS.get(kind).copied();
    let name = own.unwrap_or_else(|| KINDS[kind - degenerate::KINDS.len()]);
    let spread = [None, None, Some("near".into()), Some("box".into())][r.below(4)].clone();
    let mut a = Asked::new(if own.is_some() { "soup" } else { name }, 33_000_000 + turn, size, &Wish { points: Some(points), spread, ..Wish::default() });
    match own {
        Some(kind) => {
            a.given = (0..size).flat_map(|_| degenerate::triangle(kind, r)).flatten().collect();
            a.given_points = (0..points).flat_map(|_| degenerate::by_edge(&a.given[9 * r.below(size)..][..9], r)).collect();
        }
        // some kinds have no drawing of so few
        None => a.given.truncate(9 * size),
    }
    Drawing { name: name.into(), given: a.given, points: a.given_points, distance: a.distance }
}

/// Each triangle two to twenty times, in any order.
fn told_again(given: &[f32], r: &mut Rng) -> Vec<f32> {
    let mut all: Vec<&[f32]> = given.chunks_exact(9).flat_map(|t| vec![t; 2 + r.below(19)]).collect();
    shuffle(&mut all, r);
    all.concat()
}

fn whole(most: usize, r: &mut Rng) -> f32 {
    r.below(2 * most + 1) as f32 - most as f32
}

/// One or two triangles in all 48 changes of axes and signs about a point, some left out. Points are that one, others about it, and corners.
/// All are whole numbers or halves, so that little rounds.
fn turned(points: usize, r: &mut Rng) -> (Vec<f32>, Vec<f32>) {
    let centre: [f32; 3] = std::array::from_fn(|_| whole(8, r));
    let mut all: Vec<[[f32; 3]; 3]> = Vec::new();
    for _ in 0..1 + r.below(2) {
        let corners: [[f32; 3]; 3] = std::array::from_fn(|_| std::array::from_fn(|_| whole(4, r)));
        for axes in [[0, 1, 2], [0, 2, 1], [1, 0, 2], [1, 2, 0], [2, 0, 1], [2, 1, 0]] {
            for signs in 0..8 {
                all.push(corners.map(|c| std::array::from_fn(|i| if signs >> i & 1 == 1 { centre[i] - c[axes[i]] } else { centre[i] + c[axes[i]] })));
            }
        }
    }
    shuffle(&mut all, r);
    all.truncate(1 + r.below(all.len()));
    let asked = (0..points).flat_map(|_| match r.below(5) {
        0 | 1 => centre,
        2 => all[r.below(all.len())][r.below(3)],
        3 => centre.map(|x| x + whole(8, r) / 2.0),
        _ => {
            let axis = r.below(3);
            let off = whole(9, r);
            std::array::from_fn(|i| centre[i] + if i == axis { off } else { 0.0 })
        }
    });
    let asked = asked.collect();
    (all.into_iter().flatten().flatten().collect(), asked)
}

/// One to three triangles at each place of a lattice, in any order. Points are at its places and halfway between them.
fn moved(points: usize, r: &mut Rng) -> (Vec<f32>, Vec<f32>) {
    let (wide, step) = (1 + r.below(4), 1 + r.below(3));
    let corners: Vec<[[usize; 3]; 3]> = (0..1 + r.below(3)).map(|_| std::array::from_fn(|_| std::array::from_fn(|_| r.below(3)))).collect();
    let mut all: Vec<[[f32; 3]; 3]> = Vec::new();
    for place in 0..wide * wide * wide {
        let at = [place % wide, place / wide % wide, place / wide / wide];
        all.extend(corners.iter().map(|t| t.map(|c| -> [f32; 3] { std::array::from_fn(|i| (c[i] + step * at[i]) as f32) })));
    }
    shuffle(&mut all, r);
    let asked = (0..3 * points).map(|_| r.below(2 * step * wide + 2) as f32 / 2.0).collect();
    (all.into_iter().flatten().flatten().collect(), asked)
}

fn made(i: u64, r: &mut Rng) -> Drawing {
    const EACH: usize = 25;
    let (manner, turn) = (i as usize % MANNERS.len(), i / MANNERS.len() as u64);
    let mut d = match manner {
        0 => {
            let (size, points) = level_size(r);
            of_a_kind(turn, size, points.min(EACH), r)
        }
        1 => {
            let mut d = of_a_kind(turn, 1 + r.below(12), EACH, r);
            d.given = told_again(&d.given, r);
            d
        }
        2 | 3 => {
            let (given, points) = if manner == 2 { turned(EACH, r) } else { moved(EACH, r) };
            Drawing { name: "whole numbers".into(), given, points, distance: r.below(12) as f32 / 2.0 }
        }
        _ => of_a_kind(turn, 1 + r.below(MOST - 1), EACH, r),
    };
    d.name = format!("{} {i}, {}", d.name, MANNERS[manner]);
    d
}

/// A distance about one of a point's first seventeen: at it, a float less or more, halfway to the next; or any, the farthest, or 0.
fn cut(sorted: &[Found], any: f32, r: &mut Rng) -> f32 {
    let j = r.below(sorted.len().min(MOST + 1));
    let (at, next) = (sorted[j].squared, sorted[(j + 1).min(sorted.len() - 1)].squared);
    let [below, exact, above] = steps(at);
    let d = match r.below(12) {
        0..=3 => exact.or(above),
        4 => below,
        5 => above,
        6 | 7 => Some(((at + next) / 2.0).sqrt()),
        8 => Some(any),
        9 => Some([0.0, -0.0][r.below(2)]),
        _ => None,
    };
    d.unwrap_or(FAR).min(FAR)
}

/// What the lists were like, by the number of answers asked for and the rule.
#[derive(Default)]
struct Met {
    /// The last answer is as near as the next triangle that counts, which is left out.
    tied: [[u64; MOST]; 2],
    /// Fewer count than were asked for, some or none.
    fewer: [[u64; MOST]; 2],
    none: [[u64; MOST]; 2],
    /// Points with such a tie at some k, with fewer than 16 by some rule, with a triangle exactly at the distance, and whose lists by the two
    /// rules differ.
    points: [u64; 4],
}

impl Met {
    fn note(&mut self, sorted: &[Found], d: f32) {
        let count = RULES.map(|rule| sorted.iter().filter(|f| scan::counts(f.squared, d * d, rule)).count());
        let mut tied = false;
        for (by, &count) in count.iter().enumerate() {
            for most in 1..=MOST {
                if most < count && sorted[most - 1].squared == sorted[most].squared {
                    self.tied[by][most - 1] += 1;
                    tied = true;
                }
                self.fewer[by][most - 1] += (0 < count && count < most) as u64;
                self.none[by][most - 1] += (count == 0) as u64;
            }
        }
        let seen = [tied, count.iter().any(|&c| c < MOST), sorted.iter().any(|f| f.squared == d * d), count[0] != count[1] && count[0] < MOST];
        self.points.iter_mut().zip(seen).for_each(|(n, seen)| *n += seen as u64);
    }

    /// How many pairs of k and rule were not met with a tie across the cut, with fewer and with none; fewer than one is none.
    fn print(&self) -> u64 {
        let all = |n: &[[u64; MOST]; 2]| n.concat().iter().sum::<u64>();
        let [tied, fewer, at, apart] = self.points;
        println!("  of the points {tied} have a tie across the cut at some k, {fewer} have fewer than 16, {at} have a triangle exactly at the distance, of {apart} the rules have other lists");
        println!("  of the lists {} have a tie across the cut, {} have fewer than k, {} have none", all(&self.tied), all(&self.fewer), all(&self.none));
        let tied: Vec<String> = (0..MOST).map(|k| (self.tied[0][k] + self.tied[1][k]).to_string()).collect();
        println!("  ties across the cut by k from 1 to 16: {}", tied.join(", "));
        let missed = (0..2 * MOST).filter(|i| {
            let (by, k) = (i / MOST, i % MOST);
            self.tied[by][k] == 0 || self.none[by][k] == 0 || (k > 0 && self.fewer[by][k] == 0)
        });
        let missed = if self.points == [0; 4] { 0 } else { missed.count() as u64 };
        println!("{missed:>12} of the 32 pairs of k and rule that were not met with a tie across the cut, with fewer and with none");
        missed
    }
}

/// Calls that are refused and calls that are just not, one drawing's.
fn edges(drawing: &Drawing, list: &[[[f32; 3]; 3]], tree: &Tree, r: &mut Rng, refused: &mut Tally, taken: &mut Tally) {
    let (t, p, d, rule) = (&drawing.given, &drawing.points, drawing.distance, RULES[r.below(2)]);
    let (points, most) = (p.len() / 3, 1 + r.below(MOST));
    let (exact, ample) = (WORDS * most * points, WORDS * 18 * points);
    let name = |what: String| format!("{}, {what}", drawing.name);
    let ask = |p: &[f32], d: f32, rule: u32, most: u32, room: usize| tree.few_in(t, p, d, rule, most, room);
    for bad in [0, 17, u32::MAX, [18, 32, 257, 272, 65537, 65552, 0x8000_0001, 0x8000_0010][r.below(8)]] {
        refused.note(ask(p, d, rule, bad, ample).is_none(), || name(format!("{bad} answers a point")));
    }
    refused.note(ask(p, d, rule, most as u32, exact - 1).is_none(), || name(format!("a word too few for {most}")));
    if most > 1 {
        let room = WORDS * (points + r.below(most * points - points));
        refused.note(ask(p, d, rule, most as u32, room).is_none(), || name(format!("{room} words for {most}")));
    }
    let none = [0, 3, 16, 17, 257, 65538, 0x8000_0001, u32::MAX][r.below(8)];
    refused.note(ask(p, d, none, most as u32, ample).is_none(), || name(format!("rule {none}")));
    let wrong = [f32::NAN, f32::INFINITY, -1.0, FAR.next_up()][r.below(4)];
    refused.note(ask(p, wrong, rule, most as u32, ample).is_none(), || name(format!("distance {wrong:?}")));
    let mut damaged = tree.clone();
    damaged.boxes[r.below(6 * tree.nodes)] += 0.5 + FAR;
    refused.note(damaged.few_in(t, p, d, rule, most as u32, ample).is_none(), || name("a box changed".into()));
    // Just enough words, and up to six more than whole answers have, of which none is written.
    let wanted: Vec<u32> = p.chunks_exact(3).flat_map(|p| scan::few(list, read(p), d, rule, most)).flatten().collect();
    taken.note(ask(p, d, rule, most as u32, exact).is_some_and(|got| got == wanted), || name(format!("{exact} words for {most}")));
    let over = 1 + r.below(6);
    let wanted = [wanted, vec![UNTOUCHED; over]].concat();
    taken.note(ask(p, d, rule, most as u32, exact + over).is_some_and(|got| got == wanted), || name(format!("{over} words over")));
    let (none, sure) = (ask(&[], d, rule, most as u32, 0).is_some(), tree.sure(t, &[], d, rule).is_some());
    taken.note(none == sure, || name("no points".into()));
}

/// How many triangles the search for 1, 2, 4, 8 and 16 measures on average: never fewer for more, and far from all. Without a limit that would
/// cut, so that what is passed over is passed over against the last that is kept.
fn measured(given: &[f32], points: &[f32], strategy: usize, name: &str, tally: &mut Tally) {
    const ASKED: [usize; 5] = [1, 2, 4, 8, 16];
    let n = given.len() / 9;
    let tree = Tree::build(given, strategy, 4, 64);
    let mut sums = [0usize; 5];
    for p in points.chunks_exact(3) {
        for (sum, most) in sums.iter_mut().zip(ASKED) {
            *sum += tree.measured(given, p, FAR, 1, most as u32);
        }
    }
    let mean = sums.map(|s| 3.0 * s as f64 / points.len() as f64);
    println!("  {name:>24}, {n:>6} triangles, {}: {}", ["median", "area"][strategy - 1], mean.map(|m| format!("{m:>8.1}")).join(""));
    let few = mean[0] > 0.0 && sums.windows(2).all(|pair| pair[0] <= pair[1]) && mean[4] < n as f64 / 8.0;
    tally.note(few, || format!("{name}, {n} triangles, strategy {strategy}: {mean:?}"));
}

/// Each point with 1 to 16 answers by each rule, in small drawings at a distance of its own; half of the trees are built, half by no builder.
pub fn few(count: u64) -> u64 {
    let (start, mut r) = (Instant::now(), Rng::new(12));
    let mut lists = Tally::new("lists of the nearest few, against all triangles measured and sorted");
    let mut firsts = Tally::new("the first of each list, against the sure query");
    let mut refused = Tally::new("queries for no number from 1 to 16, in too few words, by no rule, at no distance, over no tree, refused");
    let mut taken = Tally::new("queries in just enough words, in some more and of no points");
    let mut counts = Tally::new("triangles measured, never fewer for one more, and at most all");
    let (mut met, mut points, mut answers, mut largest, mut built, mut i) = (Met::default(), 0u64, 0u64, 0usize, 0u64, 0u64);
    while points < count {
        let drawing = made(i, &mut r);
        let list: Vec<[[f32; 3]; 3]> = drawing.given.chunks_exact(9).map(|t| [read(&t[..3]), read(&t[3..6]), read(&t[6..])]).collect();
        let n = list.len();
        largest = largest.max(n);
        let by_builder = r.one_in(2);
        built += by_builder as u64;
        let tree = if by_builder {
            Tree::build(&drawing.given, 1 + r.below(2), [1, 1, 2, 3, 4, 10, 40, 4096][r.below(8)], [64, 40, r.below(65)][r.below(3)])
        } else {
            grown(&list, &mut r)
        };
        let sorted: Vec<Vec<Found>> = drawing.points.chunks_exact(3).map(|p| scan::sorted(&list, read(p))).collect();
        let (each, groups) = if n <= SMALL { (1, sorted.len()) } else { (sorted.len(), 1) };
        for group in 0..groups {
            let own = &sorted[group * each..][..each];
            let asked = &drawing.points[3 * group * each..][..3 * each];
            let d = cut(&own[r.below(each)], drawing.distance, &mut r);
            for rule in RULES {
                let name = |most: usize, k: usize| {
                    let tree = if by_builder { "built" } else { "grown" };
                    format!("{} of {n}, tree {tree}, distance={d:?} rule={rule} most={most}: point {:?}", drawing.name, &asked[3 * k..3 * k + 3])
                };
                let sure = tree.sure(&drawing.given, asked, d, rule).unwrap();
                for most in 1..=MOST {
                    let ours = tree.few(&drawing.given, asked, d, rule, most as u32);
                    for k in 0..each {
                        let (got, want) = (ours.as_ref().map(|o| &o[most * k..most * k + most]), scan::first(&own[k], d, rule, most));
                        lists.note(got == Some(&want[..]), || format!("{}: {got:x?}, not {want:x?}", name(most, k)));
                        let nearest: Option<Words> = got.map(|g| g[0]);
                        firsts.note(nearest == Some(sure[k]), || format!("{}: {nearest:x?}, not {:x?}", name(most, k), sure[k]));
                        answers += most as u64;
                    }
                }
            }
            own.iter().for_each(|sorted| met.note(sorted, d));
            if group == 0 {
                let rule = RULES[r.below(2)];
                let numbers: Vec<usize> = (1..=MOST as u32).map(|most| tree.measured(&drawing.given, asked, d, rule, most)).collect();
                let right = numbers.windows(2).all(|pair| pair[0] <= pair[1]) && numbers[MOST - 1] <= n;
                counts.note(right, || format!("{} of {n}, distance={d:?} rule={rule}: {numbers:?}", drawing.name));
            }
            points += each as u64;
        }
        edges(&drawing, &list, &tree, &mut r, &mut refused, &mut taken);
        i += 1;
    }
    println!(
        "{points} points for their nearest few, each by all k from 1 to 16 and both rules, {answers} answers, {i} drawings of up to {largest} triangles over {} kinds of shape, {} of the trees by no builder, {:.0} s",
        degenerate::KINDS.len() + KINDS.len(), i - built, start.elapsed().as_secs_f64()
    );
    println!("  a fifth of the drawings each {}", MANNERS.join(", "));
    let missed = met.print();
    let mut far = Tally::new("large drawings of which the search for 16 measures less than an eighth on average");
    if count > 0 {
        println!("  triangles measured a point for k = 1, 2, 4, 8, 16, leaves of four or fewer:");
        for size in [4096, 65536] {
            for (kind, spread) in [("soup", "box"), ("soup", "near"), ("sphere", "near"), ("grid", "near"), ("plate", "near")] {
                let a = Asked::new(kind, 34_000_000, size, &Wish { points: Some(if size > 4096 { 40 } else { 400 }), spread: Some(spread.into()), ..Wish::default() });
                (1..=2).for_each(|strategy| measured(&a.given, &a.given_points, strategy, &format!("{kind}, points {spread}"), &mut far));
            }
        }
    }
    lists.print() + firsts.print() + missed + refused.print() + taken.print() + counts.print() + far.print()
}
