//! Makes the inputs of `test_gauge` and what `gauge` must print for each, by a plain reading of the
//! scope document:  rustc -O tests/gauge/main.rs -o target/cases && target/cases CASES ANSWERS
//! CASES holds each input behind its length (u32, little-endian), ANSWERS the printed text.

#[allow(dead_code)]
#[path = "../closest/scan.rs"]
mod scan;
mod reading;

use std::io::Write;

struct Run {
    version: u16,
    settings: [u16; 3],
    triangles: Vec<f32>,
    points: Vec<f32>,
    distance: f32,
}

fn record(kind: u16, body: Vec<u8>) -> Vec<u8> {
    let mut r = (body.len() as u32).to_le_bytes().to_vec();
    r.extend(kind.to_le_bytes());
    r.extend(body);
    r
}

fn bytes(xs: &[f32]) -> Vec<u8> {
    xs.iter().flat_map(|x| x.to_bits().to_le_bytes()).collect()
}

impl Run {
    fn records(&self) -> Vec<Vec<u8>> {
        let mut settings = self.version.to_le_bytes().to_vec();
        for s in self.settings {
            settings.extend(s.to_le_bytes());
        }
        vec![record(1, settings), record(2, bytes(&self.triangles)), record(5, bytes(&self.points)), record(6, bytes(&[self.distance]))]
    }

    fn input(&self) -> Vec<u8> {
        self.records().concat()
    }
}

const T0: [f32; 9] = [0.0, 0.0, 0.0, 1.0, 0.0, 0.0, 0.0, 1.0, 0.0];
const T1: [f32; 9] = [10.0, 0.0, 0.0, 11.0, 0.0, 0.0, 10.0, 1.0, 0.0];

/// The document's printed run.
fn document() -> Run {
    Run {
        version: 1,
        settings: [1, 1, 40],
        triangles: [T0, T1].concat(),
        points: vec![5.5, 0.0, 0.0, 100.0, 0.0, 0.0],
        distance: 50.0,
    }
}

struct Random(u64);

impl Random {
    fn next(&mut self, below: u64) -> u64 {
        self.0 ^= self.0 << 13;
        self.0 ^= self.0 >> 7;
        self.0 ^= self.0 << 17;
        (self.0 >> 11) % below
    }

    /// Coarse grids have many ties; fine ones round.
    fn coordinate(&mut self, style: u64) -> f32 {
        match style {
            0 => self.next(5) as f32 - 2.0,
            1 => (self.next(65536) as f32 - 32768.0) / 1024.0,
            2 => (self.next(1 << 21) as f32 - 1048576.0) * 0.99999,
            _ => f32::from_bits(self.next(0x4000_0000) as u32),
        }
    }

    fn run(&mut self, triangles: u64, points: u64) -> Run {
        let style = self.next(4);
        Run {
            version: 1,
            settings: [1 + self.next(2) as u16, 1 + self.next(4) as u16, [0, 1, 2, 3, 40, 64][self.next(6) as usize]],
            triangles: (0..9 * triangles).map(|_| self.coordinate(style)).collect(),
            points: (0..3 * points).map(|_| self.coordinate(style)).collect(),
            distance: [0.0, 1.0, 4.5, 50.0, 4194304.0][self.next(5) as usize],
        }
    }
}

/// Runs that the document names, and what stands at the edges of what is accepted.
fn named(cases: &mut Vec<Vec<u8>>) {
    cases.push(document().input());
    cases.push(Run { triangles: T0.to_vec(), points: vec![100.0, 0.0, 0.0], distance: 1.0, ..document() }.input());
    cases.push(Run { points: vec![5.5, 0.0, 0.0], ..document() }.input());
    cases.push(Run { points: vec![5.5, 0.0, 0.0], distance: 4.5, ..document() }.input());
    cases.push(Run { points: vec![], ..document() }.input());
    cases.push(Run { triangles: vec![], ..document() }.input());
    for version in [0, 2, 256] {
        cases.push(Run { version, ..document() }.input());
    }
    for settings in [[0, 1, 40], [2, 1, 40], [3, 1, 40], [1, 0, 40], [1, 4096, 40], [1, 4097, 40], [1, 1, 0], [1, 1, 1], [1, 1, 64], [1, 1, 65]] {
        cases.push(Run { settings, ..document() }.input());
    }
    for distance in [0.0, -0.0, -f32::from_bits(1), 4194304.0, 4194304.5, f32::NAN, f32::INFINITY, f32::NEG_INFINITY] {
        cases.push(Run { distance, ..document() }.input());
    }
    // there is no room for as many triangles as version 2 keeps
    cases.push(Run { version: 2, triangles: T0.repeat(908), points: vec![], ..document() }.input());
    for version in [2, 3, 258] {
        for triangles in [vec![], T0.to_vec()] {
            cases.push(Run { version, triangles, ..document() }.input());
        }
        let mut records = Run { version, ..document() }.records();
        records[1] = record(2, vec![0; 35]);
        cases.push(records.concat());
        cases.push(records[0].clone());
    }
    for settings in [[1, 4095, 40], [1, 65535, 40], [2, 4097, 40], [2, 65535, 40], [2, 0, 40]] {
        cases.push(Run { settings, ..document() }.input());
    }
}

/// A bad number at each place of the lists, alone and before others.
fn bad_numbers(cases: &mut Vec<Vec<u8>>) {
    for bad in [f32::NAN, f32::from_bits(0xff80_0001), f32::INFINITY, f32::NEG_INFINITY, 1048576.125, -1048576.125, 1048576.0, -1048576.0, -0.0] {
        for i in 0..18 {
            let mut run = document();
            run.triangles[i] = bad;
            cases.push(run.input());
            run.settings = [3, 1, 40];
            run.points[i % 6] = bad;
            run.distance = bad;
            cases.push(run.input());
        }
        for i in 0..6 {
            let mut run = document();
            run.points[i] = bad;
            cases.push(run.input());
            run.distance = bad;
            cases.push(run.input());
        }
    }
}

/// Records missing, twice, out of order, of a wrong kind, a byte long or short.
fn bad_records(cases: &mut Vec<Vec<u8>>) {
    let good = document().records();
    for i in 0..4 {
        let mut missing = good.clone();
        missing.remove(i);
        cases.push(missing.concat());
        let mut twice = good.clone();
        twice.insert(i, good[i].clone());
        cases.push(twice.concat());
        for j in 0..i {
            let mut turned = good.clone();
            turned.swap(i, j);
            cases.push(turned.concat());
        }
        for kind in [0u16, 1, 2, 3, 4, 5, 6, 7, 256, 65535] {
            let mut other = good.clone();
            other[i][4..6].copy_from_slice(&kind.to_le_bytes());
            cases.push(other.concat());
        }
        // the body a byte long or short, with its length and without
        let body = good[i][6..].to_vec();
        let kind = u16::from_le_bytes([good[i][4], good[i][5]]);
        let mut longer = body.clone();
        longer.push(0);
        let shorter = body[..body.len() - 1].to_vec();
        for changed in [longer, shorter, vec![], body[..3].to_vec()] {
            let mut other = good.clone();
            other[i] = record(kind, changed.clone());
            cases.push(other.concat());
            other[i] = good[i][..6].to_vec();
            other[i].extend(changed);
            cases.push(other.concat());
        }
        for size in [0u32, 1, 131, 132, 32768, 0x7fff_ffff, 0xffff_ffff, 0xffff_fffa] {
            let mut other = good.clone();
            other[i][..4].copy_from_slice(&size.to_le_bytes());
            cases.push(other.concat());
        }
    }
    for more in 1..=13 {
        cases.push([document().input(), vec![0; more]].concat());
    }
    cases.push([document().input(), vec![10]].concat());
    cases.push([document().input(), document().input()].concat());
}

/// Cut at every byte, and with one byte changed.
fn damaged(cases: &mut Vec<Vec<u8>>) {
    let good = document().input();
    for n in 0..good.len() {
        cases.push(good[..n].to_vec());
    }
    for i in 0..good.len() {
        for change in [1u8, 128] {
            let mut other = good.clone();
            other[i] ^= change;
            cases.push(other);
        }
    }
}

/// As long as they may be, and longer.
fn long(cases: &mut Vec<Vec<u8>>, random: &mut Random) {
    cases.push(random.run(900, 27).input());
    cases.push(random.run(1, 2724).input());
    cases.push(random.run(909, 0).input());
    let whole = random.run(454, 1365).input();
    for n in [32767, 32768, 32769] {
        let mut padded = whole.clone();
        padded.resize(n, 0);
        cases.push(padded);
    }
    cases.push(document().input().into_iter().cycle().take(32769).collect());
}

fn rule(number: u16) -> Vec<u8> {
    record(7, number.to_le_bytes().to_vec())
}

/// The same run without a rule and with each.
fn each_rule(cases: &mut Vec<Vec<u8>>, run: &Run) {
    cases.push(run.input());
    for number in [1, 2] {
        cases.push([run.input(), rule(number)].concat());
    }
}

/// What tells a rule, and what stands where one may be told.
fn rules(cases: &mut Vec<Vec<u8>>) {
    let good = document().input();
    for number in [0, 1, 2, 3, 4, 255, 256, 257, 258, 512, 65535] {
        cases.push([good.clone(), rule(number)].concat());
    }
    // as far as the document's first point is from both triangles, and a step more and less
    for distance in [4.5f32, f32::from_bits(4.5f32.to_bits() + 1), f32::from_bits(4.5f32.to_bits() - 1)] {
        each_rule(cases, &Run { distance, ..document() });
    }
    // on the surface, at a corner, on an edge, beside it and at the least distance that a square holds
    let points = vec![0.25, 0.25, 0.0, 1.0, 0.0, 0.0, 0.5, 0.0, 0.0, 0.5, -1e-20, 0.0, 0.5, -1e-22, 0.0, 0.5, -1e-30, 0.0, -0.0, -0.0, 1.0];
    for distance in [0.0, -0.0, 1e-20, 1e-22, 1e-30, f32::from_bits(1), 1.0] {
        each_rule(cases, &Run { points: points.clone(), distance, ..document() });
    }
    // as far as it may be told
    let far = vec![1048576.0, 0.0, 0.0, -1048576.0, 1048576.0, -1048576.0];
    for distance in [1048565.0, 4194304.0] {
        each_rule(cases, &Run { points: far.clone(), distance, ..document() });
    }
    // a body of another length, with its length and without
    for size in [0, 1, 3, 4, 6, 12] {
        cases.push([good.clone(), record(7, vec![1; size])].concat());
        let mut told = rule(1);
        told[..4].copy_from_slice(&(size as u32).to_le_bytes());
        cases.push([good.clone(), told].concat());
    }
    for size in [0x100u32, 0x0200, 0x7fff_ffff, 0xffff_fffa, 0xffff_ffff] {
        let mut told = rule(1);
        told[..4].copy_from_slice(&size.to_le_bytes());
        cases.push([good.clone(), told].concat());
    }
    // of another kind
    for kind in [0u16, 1, 2, 3, 4, 5, 6, 8, 0x0107, 0x0700, 65535] {
        cases.push([good.clone(), record(kind, vec![1, 0])].concat());
    }
    // cut at every byte, and with bytes behind it
    for n in 1..8 {
        cases.push([good.clone(), rule(2)[..n].to_vec()].concat());
        cases.push([good.clone(), rule(2), rule(2)[..n].to_vec()].concat());
        cases.push([good.clone(), rule(2), vec![0; n]].concat());
    }
    cases.push([good.clone(), rule(2), vec![10]].concat());
    cases.push([good.clone(), rule(2), good.clone()].concat());
    // twice, and before another record
    cases.push([good.clone(), rule(1), rule(1)].concat());
    cases.push([good.clone(), rule(1), rule(2)].concat());
    for i in 0..4 {
        let mut turned = document().records();
        turned.insert(i, rule(2));
        cases.push(turned.concat());
        let mut instead = document().records();
        instead[i] = rule(2);
        cases.push(instead.concat());
    }
}

/// A rule that there is not, with each other refusal.
fn rules_with_others(cases: &mut Vec<Vec<u8>>) {
    let mut corner = document();
    corner.triangles[7] = f32::NAN;
    let mut touched = document();
    touched.points[4] = f32::INFINITY;
    for number in [0, 1, 2, 3] {
        for run in [
            Run { triangles: vec![], ..document() },
            Run { triangles: vec![], version: 2, ..document() },
            Run { triangles: corner.triangles.clone(), ..document() },
            Run { triangles: corner.triangles.clone(), settings: [3, 1, 40], points: touched.points.clone(), distance: -1.0, ..document() },
            Run { settings: [3, 1, 40], ..document() },
            Run { settings: [1, 4097, 40], ..document() },
            Run { settings: [1, 1, 65], points: touched.points.clone(), ..document() },
            Run { points: touched.points.clone(), ..document() },
            Run { points: touched.points.clone(), distance: f32::NAN, ..document() },
            Run { points: vec![], ..document() },
            Run { distance: -1.0, ..document() },
        ] {
            cases.push([run.input(), rule(number)].concat());
        }
    }
}

/// As long as they may be with a rule, and longer.
fn long_with_rules(cases: &mut Vec<Vec<u8>>, random: &mut Random) {
    for (triangles, points) in [(909, 0), (1, 2724)] {
        let whole = random.run(triangles, points).input();
        assert_eq!(whole.len() + 8, 32768);
        cases.push([whole.clone(), rule(2)].concat());
        cases.push([whole.clone(), rule(3)].concat());
        cases.push([whole.clone(), rule(2), vec![0]].concat());
    }
}

const PINCHED: [f32; 9] = [0.0, 0.0, 0.0, 0.0, 0.0, 0.0, 4.0, 0.0, 0.0];
const SHORT: f32 = 1.0 / 8589934592.0;
const SHORT_SIDES: [f32; 9] = [0.0, 0.0, 0.0, SHORT, 0.0, 0.0, 0.0, SHORT, 0.0];

/// One triangle's points and what is printed of each, by hand, behind its number and the triangle's.
fn by_hand<const N: usize>(cases: &mut Vec<Vec<u8>>, triangle: [f32; 9], lines: [([f32; 3], &str); N]) {
    let run = Run { triangles: triangle.to_vec(), points: lines.map(|(p, _)| p).concat(), ..document() };
    let printed: String = lines.iter().enumerate().map(|(k, (_, found))| format!("{k} found 0 {found}\n")).collect();
    assert_eq!(reading::printed(&run.input()), format!("triangles 1 nodes 1 depth 1\n{printed}"));
    each_rule(cases, &run);
}

/// Where a triangle has no computed point: two corners the same, as in the example E7, and sides of 2^-33, seen from 2^-35 and 2^-36 beside
/// the corner a. A share that is held at an end is still its edge.
fn feet(cases: &mut Vec<Vec<u8>>) {
    by_hand(cases, PINCHED, [([1.0, 1.0, 0.0], "3f800000 00000000 00000000 3f800000 5")]);
    by_hand(cases, PINCHED, [([9.0, 0.0, 3.0], "40800000 00000000 00000000 42080000 5"), ([4.0, 0.0, 0.0], "40800000 00000000 00000000 00000000 5")]);
    by_hand(cases, SHORT_SIDES, [([SHORT / 4.0, SHORT / 4.0, 0.0], "2e000000 00000000 00000000 1c800000 4")]);
    by_hand(cases, SHORT_SIDES, [([SHORT / 8.0, SHORT / 4.0, 0.0], "00000000 2e000000 00000000 1b800000 5")]);
}

/// Each part of a triangle. Of one with a computed point, from off it and on it; then of those without, the parts that `feet` has not.
fn parts(cases: &mut Vec<Vec<u8>>) {
    by_hand(cases, T0, [
        ([0.25, 0.25, 1.0], "3e800000 3e800000 00000000 3f800000 0"),
        ([-1.0, -1.0, 0.0], "00000000 00000000 00000000 40000000 1"),
        ([2.0, -1.0, 0.0], "3f800000 00000000 00000000 40000000 2"),
        ([-1.0, 2.0, 0.0], "00000000 3f800000 00000000 40000000 3"),
        ([0.5, -1.0, 0.0], "3f000000 00000000 00000000 3f800000 4"),
        ([-1.0, 0.5, 0.0], "00000000 3f000000 00000000 3f800000 5"),
        ([1.0, 1.0, 0.0], "3f000000 3f000000 00000000 3f000000 6"),
        ([0.25, 0.25, 0.0], "3e800000 3e800000 00000000 00000000 0"),
        ([0.0, 0.0, 0.0], "00000000 00000000 00000000 00000000 1"),
        ([1.0, 0.0, 0.0], "3f800000 00000000 00000000 00000000 2"),
        ([0.0, 1.0, 0.0], "00000000 3f800000 00000000 00000000 3"),
        ([0.5, 0.0, 0.0], "3f000000 00000000 00000000 00000000 4"),
        ([0.0, 0.5, 0.0], "00000000 3f000000 00000000 00000000 5"),
        ([0.5, 0.5, 0.0], "3f000000 3f000000 00000000 00000000 6"),
    ]);
    // edge·edge of ab is zero, and 2^-13 to the side of corner a the foot on ac is no nearer: the earlier edge's start
    by_hand(cases, PINCHED, [([1.0 / 8192.0, 1.0, 0.0], "00000000 00000000 00000000 3f800000 1")]);
    by_hand(cases, SHORT_SIDES, [([SHORT * 0.375, SHORT * 0.375, 0.0], "2e800000 2e800000 00000000 1c000000 6")]);
    // 2^-26 beside 1 is lost, so ab is square to the point from a and from b: its share is 0. ac has the square zero, and all feet are as far
    // off: the earlier edge, though its part is the higher number.
    let [beside, less] = [26, 76].map(|power| 1.0 / (1u128 << power) as f32);
    by_hand(cases, [0.0, 0.0, 0.0, beside, -beside, 0.0, less, less, 0.0], [([1.0, 1.0, 0.0], "00000000 00000000 00000000 40000000 4")]);
    // Units of 2^-80, of which a square is below half of the least f32 up to 31: each edge's square is zero, so the feet are a, a and b. The
    // squares of 256, 512 and 513 are 32, 128 and 129 of the least f32, so b is nearer than a, at 160.
    let unit = 1.0 / (1u128 << 80) as f32;
    by_hand(cases, [0.0, 0.0, 0.0, 0.0, unit, 0.0, 8.0 * unit, 0.0, 0.0], [([256.0 * unit, 513.0 * unit, 0.0], "00000000 17800000 00000000 000000a0 2")]);
}

/// Triangles that may have no computed point: corners that are the same, in one line, so near each other that the inverse of a square's
/// square is infinite, or that squares run under; points by their edges.
fn without_points(cases: &mut Vec<Vec<u8>>, random: &mut Random, kind: usize) {
    let (triangles, points) = (1 + random.next(6), 1 + random.next(8));
    let mut run = random.run(triangles, points);
    let unit = [1.0, 0.25, 1.0 / (1u64 << 37) as f32, 1.0 / (1u128 << (72 + random.next(8))) as f32][kind];
    for t in run.triangles.chunks_mut(9) {
        if kind > 0 {
            t.iter_mut().for_each(|x| *x = (random.next(33) as f32 - 16.0) * unit);
        }
        let (a, step, turns) = ([t[0], t[1], t[2]], [t[3], t[4], t[5]], [random.next(9) as f32 - 4.0, random.next(9) as f32 - 4.0]);
        match (kind, random.next(6)) {
            (0, 0) => t.copy_within(0..3, 6),
            (0, 1) => t.copy_within(3..6, 6),
            (0, 2) => (3..9).for_each(|i| t[i] = a[i % 3]),
            (0, _) => t.copy_within(0..3, 3),
            (1, _) => (3..9).for_each(|i| t[i] = a[i % 3] + turns[i / 6] * step[i % 3]),
            _ => {}
        }
    }
    for p in run.points.chunks_mut(3) {
        let t = &run.triangles[9 * random.next(triangles) as usize..][..9];
        let (start, end, third) = [(0, 3, 6), (0, 6, 3), (3, 6, 0)][random.next(3) as usize];
        let over_edge = (random.next(13) as f32 / 8.0 - 0.25, 0.0);
        let over_face = ((1 + random.next(4)) as f32 / 8.0, (1 + random.next(3)) as f32 / 8.0);
        let ((share, inward), off) = ([over_edge, over_face][random.next(2) as usize], [0.0, 0.0, 1.0, 64.0][random.next(4) as usize]);
        for i in 0..3 {
            let (edge, side) = (t[end + i] - t[start + i], t[third + i] - t[start + i]);
            let x = t[start + i] + share * edge + inward * side + off * (random.next(33) as f32 / 16.0 - 1.0) * edge;
            p[i] = x.clamp(-1048576.0, 1048576.0);
        }
    }
    run.distance = [1.0, 4194304.0][random.next(2) as usize];
    cases.push([run.input(), rule(1 + random.next(2) as u16)].concat());
}

fn main() {
    let paths: Vec<String> = std::env::args().skip(1).collect();
    let mut cases = Vec::new();
    let mut random = Random(0x9e37_79b9_7f4a_7c15);
    named(&mut cases);
    bad_numbers(&mut cases);
    bad_records(&mut cases);
    damaged(&mut cases);
    for _ in 0..400 {
        let (triangles, points) = (1 + random.next(24), random.next(7));
        cases.push(random.run(triangles, points).input());
    }
    long(&mut cases, &mut random);
    rules(&mut cases);
    rules_with_others(&mut cases);
    long_with_rules(&mut cases, &mut random);
    // on a grid of whole numbers many points are exactly at the distance
    for _ in 0..100 {
        let (triangles, points) = (1 + random.next(8), 1 + random.next(6));
        let mut run = random.run(triangles, points);
        run.triangles = (0..9 * triangles).map(|_| random.coordinate(0)).collect();
        run.points = (0..3 * points).map(|_| random.coordinate(0)).collect();
        run.distance = random.next(4) as f32;
        each_rule(&mut cases, &run);
    }
    feet(&mut cases);
    for i in 0..100 {
        without_points(&mut cases, &mut random, [0, 2, 1, 2, 3, 2][i % 6]);
    }
    parts(&mut cases);
    let mut inputs = std::fs::File::create(&paths[0]).unwrap();
    let printed: String = cases.iter().map(|case| reading::printed(case)).collect();
    for case in &cases {
        inputs.write_all(&(case.len() as u32).to_le_bytes()).unwrap();
        inputs.write_all(case).unwrap();
    }
    std::fs::write(&paths[1], &printed).unwrap();
    let found: Vec<&str> = printed.lines().filter(|line| line.contains("found")).collect();
    let by_part = scan::Part::ALL.map(|part| found.iter().filter(|line| line.ends_with(&format!(" {}", part as u32))).count());
    eprintln!("{} inputs, {} found, by part {by_part:?}", cases.len(), found.len());
}
