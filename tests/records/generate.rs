//! Makes the cases of crates/test_image and crates/test_host and what they must print, by a reading of the document of its own.
//!
//!     rustc --edition 2021 -O tests/records/generate.rs -o target/generate && target/generate crates/test_image crates/test_host

use std::fmt::Write as _;

type Record = (u16, Vec<u8>);

/// What a record must be, given the bodies before it.
type Test = fn(&[Vec<u8>]) -> bool;

fn settings(version: u16) -> Record {
    (1, [version, 1, 2, 40].iter().flat_map(|n| n.to_le_bytes()).collect())
}

fn floats(kind: u16, bits: &[u32]) -> Record {
    (kind, bits.iter().flat_map(|b| b.to_le_bytes()).collect())
}

fn image(triangles: &[u32], nodes: u16) -> Vec<Record> {
    let order = (0..triangles.len() as u16 / 9).rev().flat_map(|n| n.to_le_bytes()).collect();
    let mut body = Vec::new();
    for i in 0..nodes {
        for link in [1 + i % 2, 7 * i, 65535 - i] {
            body.extend(link.to_le_bytes());
        }
        for k in 0..6u32 {
            body.extend((0x3f80_0000 + 4096 * u32::from(i) + k).to_le_bytes());
        }
    }
    vec![settings(1), floats(2, triangles), (3, order), (4, body)]
}

fn input(triangles: &[u32], points: &[u32]) -> Vec<Record> {
    vec![settings(1), floats(2, triangles), floats(5, points), floats(6, &[0x4248_0000])]
}

fn bytes(records: &[Record]) -> Vec<u8> {
    let mut out = Vec::new();
    for (kind, body) in records {
        out.extend((body.len() as u32).to_le_bytes());
        out.extend(kind.to_le_bytes());
        out.extend(body);
    }
    out
}

/// The sizes of the bodies, or where the first wrong record starts. What comes behind the first four may be left out.
fn layout<const N: usize>(case: &[u8], wanted: [(u16, Test); N]) -> Result<Vec<usize>, usize> {
    let mut bodies: Vec<Vec<u8>> = Vec::new();
    let mut rest = case;
    for (kind, test) in wanted {
        if bodies.len() == 4 && rest.is_empty() {
            break;
        }
        let start = case.len() - rest.len();
        let Some((header, tail)) = rest.split_at_checked(6) else { return Err(start) };
        let size = u32::from_le_bytes(header[..4].try_into().unwrap()) as usize;
        let Some((body, tail)) = tail.split_at_checked(size) else { return Err(start) };
        bodies.push(body.to_vec());
        if u16::from_le_bytes(header[4..].try_into().unwrap()) != kind || !test(&bodies) {
            return Err(start);
        }
        rest = tail;
    }
    if rest.is_empty() { Ok(bodies.iter().map(Vec::len).collect()) } else { Err(case.len() - rest.len()) }
}

fn is_settings(b: &[Vec<u8>]) -> bool {
    b[0].len() == 8 && (b[0][..2] == [1, 0] || b[0][..2] == [2, 0])
}

/// Version 2 is for more than 4,096 triangles. No stored case has so many, so what comes behind the triangles is version 1's.
fn is_triangles(b: &[Vec<u8>]) -> bool {
    b[1].len() % 36 == 0 && (b[0][0] == 2) == (b[1].len() / 36 > 4096)
}

/// Triangles, nodes or points, and how many rules there are.
fn line(out: &mut String, layout: Result<[usize; 3], usize>) {
    match layout {
        Ok([triangles, others, rules]) => writeln!(out, "triangles {triangles} nodes {others} depth {rules}"),
        Err(at) => writeln!(out, "refused 10 {at}"),
    }
    .unwrap();
}

/// A NaN is written as 7FC00000: the only floats that do not come back as they were.
fn comes_back(case: &[u8], sizes: &[usize]) -> bool {
    let same = |b: &[u8]| {
        let bits = u32::from_le_bytes(b.try_into().unwrap());
        !f32::from_bits(bits).is_nan() || bits == 0x7fc0_0000
    };
    let nodes = case.len() - sizes[3];
    case[20..20 + sizes[1]].chunks(4).all(same) && case[nodes..].chunks(30).all(|n| n[6..].chunks(4).all(same))
}

fn read<const N: usize>(bytes: &[u8]) -> Vec<[u8; N]> {
    bytes.chunks(N).map(|b| b.try_into().unwrap()).collect()
}

fn numbers(bytes: &[u8]) -> Vec<u16> {
    read::<2>(bytes).into_iter().map(u16::from_le_bytes).collect()
}

/// Each coordinate as itself plus zero.
fn coordinates(bytes: &[u8]) -> Vec<f32> {
    read::<4>(bytes).into_iter().map(|b| f32::from_le_bytes(b) + 0.0).collect()
}

fn join(a: [f32; 6], b: [f32; 6]) -> [f32; 6] {
    std::array::from_fn(|i| if i < 3 { a[i].min(b[i]) } else { a[i].max(b[i]) })
}

/// The nodes' boxes, by reading the nodes from the first to the last, each branch joining the two open trees before it; where that is no
/// tree over the triangles, what it is refused for: 71, 72 or 73 with its place. (So few triangles make no tree that is too deep.)
fn boxes_of(corners: &[f32], order: &[u16], nodes: &[[u16; 3]]) -> Result<Vec<[f32; 6]>, String> {
    let count = corners.len() / 9;
    if let Some(at) = (0..order.len()).find(|&i| order[i] as usize >= count || order[..i].contains(&order[i])) {
        return Err(format!("refused 71 {at}"));
    }
    if nodes.is_empty() || nodes.len() > 2 * count - 1 {
        return Err("refused 72 0".into());
    }
    let bound = |&k: &u16| {
        let corner = |c: usize| std::array::from_fn(|i| corners[9 * k as usize + 3 * c + i % 3]);
        join(join(corner(0), corner(1)), corner(2))
    };
    let (mut covered, mut boxes, mut open): (_, Vec<[f32; 6]>, Vec<usize>) = (0, Vec::new(), Vec::new());
    for (node, &[kind, left, right]) in nodes.iter().enumerate() {
        let over = match kind {
            1 if left == covered && left < right && right as usize <= count => {
                covered = right;
                order[left as usize..right as usize].iter().map(bound).reduce(join).unwrap()
            }
            2 if open.ends_with(&[left as usize, right as usize]) => {
                open.truncate(open.len() - 2);
                join(boxes[left as usize], boxes[right as usize])
            }
            _ => return Err(format!("refused 73 {node}")),
        };
        open.push(node);
        boxes.push(over);
    }
    if open.len() > 1 || (covered as usize) < count {
        return Err(format!("refused 73 {}", nodes.len() - 1));
    }
    Ok(boxes)
}

/// What the writer, lent 300 bytes, says of what an image holds.
fn rewriting(case: &[u8], sizes: &[usize]) -> String {
    let (triangles, order) = (20 + sizes[1], 26 + sizes[1] + sizes[2]);
    let corners = coordinates(&case[20..triangles]);
    let given = numbers(&case[8..14]);
    if corners.is_empty() {
        return "refused 2 0".into();
    }
    if let Some(at) = corners.iter().position(|x| !(x.abs() <= 1048576.0)) {
        return format!("refused 4 {at}");
    }
    if !(1..=2).contains(&given[0]) || !(1..=4096).contains(&given[1]) || given[2] > 64 {
        return "refused 5 0".into();
    }
    if case.len() > 300 {
        return "refused 6 0".into();
    }
    let nodes: Vec<[u16; 3]> = case[order + 6..].chunks(30).map(|n| numbers(&n[..6]).try_into().unwrap()).collect();
    let boxes = match boxes_of(&corners, &numbers(&case[triangles + 6..order]), &nodes) {
        Err(refused) => return refused,
        Ok(boxes) => boxes,
    };
    let stored = |node: usize| &case[order + 6 + 30 * node + 6..][..24];
    match (0..nodes.len()).find(|&node| boxes[node].map(|x| x.to_le_bytes()).concat() != stored(node)) {
        Some(node) => format!("refused 75 {node}"),
        None => "the same bytes".into(),
    }
}

fn expected(out: &mut String, case: &[u8]) {
    let as_image = layout(case, [(1, is_settings), (2, is_triangles), (3, |b| 18 * b[2].len() == b[1].len()), (4, |b| b[3].len() % 30 == 0)]);
    let as_input = layout(case, [(1, is_settings), (2, is_triangles), (5, |b| b[2].len() % 12 == 0), (6, |b| b[3].len() == 4), (7, |b| b[4].len() == 2)]);
    line(out, as_image.as_ref().map(|s| [s[1] / 36, s[3] / 30, 0]).map_err(|at| *at));
    line(out, as_input.map(|s| [s[1] / 36, s[2] / 12, s.len() - 4]));
    match as_image {
        Err(at) => writeln!(out, "refused 10 {at}"),
        Ok(s) if s[1] > 4 * 36 || s[3] > 7 * 30 => writeln!(out, "refused 6 0"),
        Ok(s) if comes_back(case, &s) => writeln!(out, "the same bytes\n{}", rewriting(case, &s)),
        Ok(s) => writeln!(out, "other bytes\n{}", rewriting(case, &s)),
    }
    .unwrap();
}

fn tree(triangles: &[u32], order: &[u16], nodes: &[[u16; 3]]) -> Vec<u8> {
    let corners: Vec<f32> = triangles.iter().map(|&b| f32::from_bits(b) + 0.0).collect();
    let boxes = boxes_of(&corners, order, nodes).expect("a tree");
    let body = nodes.iter().zip(boxes).flat_map(|(n, b)| {
        let box_bytes: Vec<u8> = b.iter().flat_map(|x| x.to_le_bytes()).collect();
        [n.iter().flat_map(|l| l.to_le_bytes()).collect(), box_bytes].concat()
    });
    bytes(&[settings(1), floats(2, triangles), (3, order.iter().flat_map(|n| n.to_le_bytes()).collect()), (4, body.collect())])
}

/// Trees, and one of them with a byte changed in each record, so that each of the writer's tests has its turn.
fn trees(two: &[u32], all: &mut Vec<Vec<u8>>) {
    let four = two.repeat(2);
    let split = [[1, 0, 1], [1, 1, 2], [2, 0, 1]];
    all.push(tree(two, &[0, 1], &[[1, 0, 2]]));
    all.push(tree(&four[..27], &[2, 0, 1], &[[1, 0, 1], [1, 1, 2], [1, 2, 3], [2, 1, 2], [2, 0, 3]]));
    all.push(tree(&four, &[3, 1, 0, 2], &[[1, 0, 3], [1, 3, 4], [2, 0, 1]]));
    all.push(tree(&four, &[0, 1, 2, 3], &[[1, 0, 1], [1, 1, 2], [2, 0, 1], [1, 2, 4], [2, 2, 3]]));
    let right = tree(two, &[1, 0], &split);
    let (order, nodes) = (20 + 72 + 6, 20 + 72 + 6 + 4 + 6);
    // strategy, leaf minimum, depth; a coordinate; an order entry; a kind, a left and a right, a box of a leaf and of the root
    for k in [8, 11, 12, 20 + 4 * 7 + 3, order, order + 2, nodes, nodes + 2, nodes + 4, nodes + 6, nodes + 60, nodes + 62, nodes + 64, nodes + 89] {
        let mut changed = right.clone();
        changed[k] ^= 64;
        all.push(changed);
    }
    // leaf minima, which the reader hands on as they stand
    for leaf in [0u16, 1, 4096, 4097, 65535] {
        let mut changed = right.clone();
        changed[10..12].copy_from_slice(&leaf.to_le_bytes());
        all.push(changed);
    }
    all.push(right);
}

/// An input with a rule: cut, of another length, of another kind, twice, with a byte behind it, before the distance.
fn rules(all: &mut Vec<Vec<u8>>) {
    let good = input(&[], &[]);
    let with = |more: &[Record]| bytes(&[good.clone(), more.to_vec()].concat());
    let rule: Record = (7, vec![2, 0]);
    let right = with(&[rule.clone()]);
    all.extend((bytes(&good).len()..=right.len()).map(|n| right[..n].to_vec()));
    for size in [0, 1, 3, 4] {
        all.push(with(&[(7, vec![1; size])]));
    }
    for kind in [6, 8, 0x0107] {
        all.push(with(&[(kind, vec![2, 0])]));
    }
    all.push(with(&[rule.clone(), rule.clone()]));
    all.push([right, b"\n".to_vec()].concat());
    let mut before = good.clone();
    before.insert(3, rule);
    all.push(bytes(&before));
}

fn cases() -> Vec<Vec<u8>> {
    let corners: Vec<u32> = (0..18).map(|k| [0, 0x8000_0000, 0x3f80_0000, 0xc980_0000, 1][k % 5]).collect();
    let nan: Vec<u32> = [0x7f80_0000, 0x7f80_0001, 0xffc0_0000, 0x7fc0_0000, 0xff80_0000, 0, 0, 0, 0].to_vec();
    let mut all = vec![Vec::new(), vec![0; 6], b"\n".to_vec()];
    for good in [image(&corners, 3), input(&corners, &[0, 0x40b0_0000, 0, 1, 2, 3])] {
        let right = bytes(&good);
        all.extend((0..=right.len()).map(|n| right[..n].to_vec()));
        for i in 0..4 {
            let mut missing = good.clone();
            missing.remove(i);
            all.push(bytes(&missing));
            let mut twice = good.clone();
            twice.insert(i, good[i].clone());
            all.push(bytes(&twice));
            let mut swapped = good.clone();
            swapped.swap(i, (i + 1) % 4);
            all.push(bytes(&swapped));
            let mut other = good.clone();
            other[i].0 += 256;
            all.push(bytes(&other));
            let mut longer = good.clone();
            longer[i].1.push(0);
            all.push(bytes(&longer));
            let mut shorter = good.clone();
            shorter[i].1.pop();
            all.push(bytes(&shorter));
            let mut none = good.clone();
            none[i].1.clear();
            all.push(bytes(&none));
            // one more or less in each byte of the header, the body as it was
            let header: usize = good[..i].iter().map(|r| 6 + r.1.len()).sum();
            for k in header..header + 6 {
                for by in [1, 255] {
                    let mut changed = right.clone();
                    changed[k] = changed[k].wrapping_add(by);
                    all.push(changed);
                }
            }
        }
        for version in [0, 2, 3, 256, 257] {
            let mut other = good.clone();
            other[0] = settings(version);
            all.push(bytes(&other));
        }
        all.push([right, b"\n".to_vec()].concat());
    }
    all.push(bytes(&image(&[], 0)));
    all.push(bytes(&image(&corners, 0)));
    all.push(bytes(&image(&corners.repeat(2), 7)));
    all.push(bytes(&image(&corners, 8)));
    all.push(bytes(&image(&[corners.repeat(2), corners[..9].to_vec()].concat(), 1)));
    all.push(bytes(&image(&nan, 1)));
    all.push(bytes(&input(&[], &[])));
    let mut none = image(&[], 0);
    none[0] = settings(2);
    all.push(bytes(&none));
    trees(&corners, &mut all);
    rules(&mut all);
    all
}

/// The images that the program makes itself: triangles, leaf minimum, and how many bytes are lent.
const LARGE: [(usize, usize, usize); 15] = [
    (4096, 1, 155770),
    (4096, 4096, 155770),
    (4096, 4097, 155770),
    (4096, 65536, 155770),
    (4096, 1, 155769),
    (4097, 1, 164014),
    (4097, 4097, 164014),
    (4097, 65535, 164014),
    (4097, 65536, 164014),
    (4097, 65537, 164014),
    (4097, 0, 164014),
    (4097, 1, 164013),
    (65536, 65536, 2621574),
    (65536, 1, 2621573),
    (65537, 1, 2621574),
];

/// What the writer says of such a tree of three nodes, and the reader of its bytes: as they are, with room for one triangle fewer, and with
/// each version from 0 to 3 in them.
fn large(out: &mut String, (count, leaf, room): (usize, usize, usize)) {
    let (version, entry, node, max_leaf) = if count > 4096 { (2, 4, 34, 65536) } else { (1, 2, 30, 4096) };
    let size = 4 * 6 + 8 + (36 + entry) * count + 3 * node;
    let refused = match () {
        _ if count > 65536 => "refused 3 0",
        _ if !(1..=max_leaf).contains(&leaf) => "refused 5 0",
        _ if room < size => "refused 6 0",
        _ => "",
    };
    if !refused.is_empty() {
        writeln!(out, "{refused}").unwrap();
        return;
    }
    let read = format!("triangles {count} nodes 3 settings 2 {leaf} 40 the same lists");
    writeln!(out, "bytes {size} version {version} leaf {}\n{read}\nrefused 6 0\nrefused 10 0", leaf % 65536).unwrap();
    for other in [1, 2] {
        writeln!(out, "{}", if other == version { &read } else { "refused 10 14" }).unwrap();
    }
    writeln!(out, "refused 10 0").unwrap();
}

/// A drawing for a host: settings, how many bytes are lent, the triangles' bytes, what the build tells, and what the writer tells of what was built,
/// with the image, none on a refusal.
struct Build {
    given: [u16; 3],
    room: usize,
    triangles: Vec<u8>,
    told: u64,
    written: Option<(u64, Vec<u8>)>,
    nodes: usize,
}

/// What is refused: the tests in their order, over trees whose nodes are given. The lists have room for two triangles.
fn build(given: [u16; 3], room: usize, triangles: &[u8], nodes: &[[u16; 3]]) -> Build {
    let refused = |number: u64, place: usize| number << 56 | place as u64;
    let corners = coordinates(triangles);
    let bad = corners.iter().position(|x| !(x.abs() <= 1048576.0));
    let [strategy, leaf, depth] = given;
    let told = match bad {
        _ if corners.len() % 9 != 0 => refused(1, 0),
        _ if corners.is_empty() => refused(2, 0),
        Some(at) => refused(4, at),
        _ if !(1..=2).contains(&strategy) || leaf == 0 || depth > 64 => refused(5, 0),
        _ if corners.len() > 18 => refused(6, 0),
        None => nodes.len() as u64,
    };
    let written = (told == nodes.len() as u64).then(|| {
        let bits: Vec<u32> = read::<4>(triangles).into_iter().map(u32::from_le_bytes).collect();
        let mut image = tree(&bits, &(0..corners.len() as u16 / 9).collect::<Vec<_>>(), nodes);
        for (k, n) in given.iter().enumerate() {
            image[8 + 2 * k..10 + 2 * k].copy_from_slice(&n.to_le_bytes());
        }
        match () {
            _ if leaf > 4096 => (refused(5, 0), Vec::new()),
            _ if image.len() > room => (refused(6, 0), Vec::new()),
            _ => (image.len() as u64, image),
        }
    });
    Build { given, room, triangles: triangles.to_vec(), told, written, nodes: nodes.len() }
}

fn builds() -> Vec<Build> {
    let bits = |all: &[f32]| all.iter().flat_map(|x| x.to_le_bytes()).collect::<Vec<u8>>();
    let t0_t1 = bits(&[0., 0., 0., 1., 0., 0., 0., 1., 0., 10., 0., 0., 11., 0., 0., 10., 1., 0.]);
    let zeros = bits(&[-0.0, 0.0, 1.0, -1048576.0, -0.0, 3.5, 1048576.0, f32::from_bits(1), -0.0]);
    let changed = |at: usize, x: f32| {
        let mut other = t0_t1.clone();
        other[4 * at..4 * at + 4].copy_from_slice(&x.to_le_bytes());
        other
    };
    let (one, leaf, split) = ([[1, 0, 1]], [[1, 0, 2]], [[1, 0, 1], [1, 1, 2], [2, 0, 1]]);
    let mut all = Vec::new();
    // the printed run's tree, in bytes that just do, do and do not do
    for room in [198, 205, 197, 0] {
        all.push(build([1, 1, 40], room, &t0_t1, &split));
    }
    // one leaf: by the leaf minimum, by the depth
    for given in [[1, 2, 40], [2, 4096, 64], [1, 1, 1], [2, 1, 0]] {
        all.push(build(given, 138, &t0_t1, &leaf));
    }
    all.push(build([2, 1, 64], 101, &zeros, &one));
    for given in [[0, 1, 40], [3, 1, 40], [1, 0, 40], [1, 1, 65]] {
        all.push(build(given, 198, &t0_t1, &split));
    }
    // a leaf minimum that is built and that no image of two triangles keeps
    for given in [[1, 4097, 40], [2, 65535, 40]] {
        all.push(build(given, 138, &t0_t1, &leaf));
    }
    for (at, x) in [(0, 1048576.125), (7, -1048576.125), (17, f32::NAN), (9, f32::INFINITY)] {
        all.push(build([1, 1, 40], 198, &changed(at, x), &split));
    }
    for n in [0, 1, 4, 8, 10, 17] {
        all.push(build([1, 1, 40], 198, &t0_t1[..4 * n], &split));
    }
    // one triangle more than the lists have room for
    all.push(build([1, 1, 40], 198, &[t0_t1.clone(), zeros.clone()].concat(), &split));
    // several at once: the lowest number is told
    all.push(build([0, 1, 40], 0, &changed(3, f32::NAN)[..68], &split));
    all.push(build([0, 1, 40], 0, &changed(3, f32::NAN), &split));
    all.push(build([0, 1, 40], 0, &t0_t1, &split));
    all
}

fn put_image(stdout: &mut Vec<u8>, told: u64, room: usize, image: &[u8]) {
    stdout.extend(format!("{told:016x}\n").bytes());
    stdout.extend(image);
    stdout.extend(vec![b'.'; room - image.len()]);
    stdout.push(b'\n');
}

fn main() {
    let folder = std::env::args().nth(1).expect("the folder of test_image");
    let (mut stdin, mut stdout) = (Vec::new(), String::new());
    for case in cases() {
        stdin.extend((case.len() as u32).to_le_bytes());
        stdin.extend(&case);
        expected(&mut stdout, &case);
    }
    LARGE.into_iter().for_each(|case| large(&mut stdout, case));
    assert!(stdin.len() <= 65536, "{} bytes are more than the program reads", stdin.len());
    std::fs::write(format!("{folder}/stdin"), stdin).unwrap();
    std::fs::write(format!("{folder}/stdout"), stdout).unwrap();

    let folder = std::env::args().nth(2).expect("the folder of test_host");
    let (mut stdin, mut stdout) = (Vec::new(), Vec::new());
    for b in builds() {
        stdin.extend(b.given.iter().flat_map(|n| n.to_le_bytes()));
        stdin.extend((b.room as u16).to_le_bytes());
        stdin.extend((b.triangles.len() as u32).to_le_bytes());
        stdin.extend(&b.triangles);
        stdout.extend(format!("{:016x}\n", b.told).bytes());
        if let Some((told, image)) = b.written {
            put_image(&mut stdout, told, b.room, &image);
            if !image.is_empty() {
                stdout.extend(format!("{:016x}\n{:016x}\n", b.triangles.len() / 36, b.nodes).bytes());
                put_image(&mut stdout, told, 256, &image);
            }
        }
    }
    // the largest image of n triangles: 98 bytes each and two, in version 2 108 each less two
    for size in [0, 100, 98 * 4096 + 2, 108 * 4097 - 2, 108 * 65536 - 2, 0u64] {
        stdout.extend(format!("{size:016x}\n").bytes());
    }
    std::fs::write(format!("{folder}/stdin"), stdin).unwrap();
    std::fs::write(format!("{folder}/stdout"), stdout).unwrap();
}
