//! The Rust's trees of large made-up drawings, as counts and digests. Of up to 4,097 triangles it makes
//! crates/test_build/stdout but for its last eight lines, of up to 65,536 (word `host`) the file tests/host/large.txt.
//! Put it into the oracle's src/bin/ and run it there:
//!
//!     cargo run --release --offline --bin large | diff - <(head -n -8 crates/test_build/stdout)
//!     cargo run --release --offline --bin large host | diff - tests/host/large.txt

use shark::{
    request::{Settings, P},
    run::{Any, Variant},
};

fn digest(words: impl Iterator<Item = u32>) -> u64 {
    words.fold(7, |d, w| (d % 4294967291 * 31 + w as u64) % 4294967291)
}

/// Triangles, leaf minimum, depth, and how far apart coordinates are drawn.
const CASES: [(usize, u16, u16, u64); 12] = [
    (4096, 1, 64, 1000),
    (4096, 10, 40, 100000),
    (4097, 1, 64, 1000),
    (4097, 4097, 40, 1000),
    (4095, 1, 12, 15),
    (2048, 2, 64, 0),
    (1000, 3, 40, 31),
    (257, 1, 40, 7),
    (100, 99, 40, 500),
    (100, 100, 40, 500),
    (64, 1, 0, 500),
    (64, 1, 2, 500),
];

const LARGE: [(usize, u16, u16, u64); 8] = [
    (4096, 1, 64, 1000),
    (4097, 1, 64, 1000),
    (4097, 4097, 64, 1000),
    (65535, 10, 40, 100000),
    (65536, 1, 64, 1000),
    (65536, 4, 40, 100000),
    (65536, 1, 12, 15),
    (65536, 65535, 40, 500),
];

fn main() {
    let cases: &[(usize, u16, u16, u64)] = if std::env::args().nth(1).as_deref() == Some("host") { &LARGE } else { &CASES };
    for &(n, leaf, depth, range) in cases {
        let mut state: u64 = 1;
        let numbers: Vec<f32> = (0..9 * n)
            .map(|i| {
                state = (state * 1103515245 + 12345) % (1 << 31);
                let sixteenths = state / 256 % (range + 1) + ((i / 9) as u64 * 37) % 1024;
                sixteenths as f32 / 16.0
            })
            .collect();
        let p = |i: usize| P::new(numbers[i], numbers[i + 1], numbers[i + 2]);
        let tris: Vec<[P; 3]> = (0..n).map(|t| [p(9 * t), p(9 * t + 3), p(9 * t + 6)]).collect();
        for strategy in [1u16, 2] {
            let s = Settings { version: 1, strategy, leaf_minimum: leaf, depth };
            let t = Any::build(Variant::NanNone, s, &tris).see();
            let links = t.nodes.iter().flat_map(|n| [if n.leaf { 1 } else { 2 }, n.left as u32, n.right as u32]);
            let boxes = t.nodes.iter().flat_map(|n| n.bbox).map(|x| x.to_bits());
            println!(
                "{n} {strategy} {leaf} {depth} {range} {} {} {} {} {} ",
                t.nodes.len(),
                t.depth,
                digest(t.order.iter().copied()),
                digest(links),
                digest(boxes)
            );
        }
    }
}
