//! Makes crates/test_leaves/stdin and crates/test_leaves/stdout: trees of the Rust over all of the
//! oracle's kinds of shape, by both strategies, and the leaves that the Rust's own `traverse` visits.
//! Put this file into the oracle's src/bin/ and run it there:
//!
//!     cargo run --release --offline --bin leaves crates/test_leaves/stdin crates/test_leaves/stdout
//!
//! A case is words, u32 little-endian: n, nodes; then 9n coordinates, n order entries, 3 links a
//! node, 6 box numbers a node. Its lines are `leaves COUNT` and for each leaf its number, where its
//! part of the order list begins and ends, its box, its triangles and `nothing`. The last two cases
//! are the first tree with a link changed and a tree with no triangles: both are refused. A number as
//! third argument makes other trees.

use shark::{
    cases::{make, Wish, KINDS},
    request::{Request, P},
    run::{Any, Tree, Variant},
};
use std::fmt::Write;

fn words(tris: &[[P; 3]], t: &Tree) -> Vec<u32> {
    let mut out = vec![tris.len() as u32, t.nodes.len() as u32];
    out.extend(tris.iter().flatten().flat_map(|p| [p.x, p.y, p.z]).map(|x| x.to_bits()));
    out.extend(&t.order);
    for n in &t.nodes {
        out.extend([if n.leaf { 1 } else { 2 }, n.left as u32, n.right as u32]);
    }
    out.extend(t.nodes.iter().flat_map(|n| n.bbox).map(|x| x.to_bits()));
    out
}

/// The leaves as the Rust visits them.
fn visited(built: &Any, text: &mut String) {
    let Any::NanNone(tree) = built else { unreachable!() };
    let mut lines = String::new();
    let (mut k, mut first) = (0, 0);
    tree.traverse(&mut |(objects, b)| {
        let (lo, hi) = (b.get_min(), b.get_max());
        write!(lines, "leaf {k} {first} {}", first + objects.len()).unwrap();
        for x in [lo.x, lo.y, lo.z, hi.x, hi.y, hi.z] {
            write!(lines, " {:08x}", x.to_bits()).unwrap();
        }
        for (o, _) in objects {
            write!(lines, " {}", o.number).unwrap();
        }
        lines.push_str(" nothing\n");
        k += 1;
        first += objects.len();
    });
    writeln!(text, "leaves {k}").unwrap();
    text.push_str(&lines);
}

fn main() {
    let args: Vec<String> = std::env::args().skip(1).collect();
    let (mut out, mut text) = (Vec::new(), String::new());
    let mut seed = args.get(2).map_or(0, |s| s.parse().unwrap());
    for kind in KINDS {
        for strategy in [1, 2, 1, 2] {
            seed += 1;
            let size = 1 + (seed as usize * 5) % 17;
            let wish = Wish {
                points: Some(0),
                strategy: Some(strategy),
                leaf: Some([1, 1, 2, 3][seed as usize % 4]),
                depth: Some([40, 64, 3, 40, 5][seed as usize % 5]),
                ..Wish::default()
            };
            let r = Request::read(&make(kind, seed, size, &wish).write()).unwrap();
            let tris = r.triangles.unwrap();
            let built = Any::build(Variant::NanNone, r.settings.unwrap(), &tris);
            out.push(words(&tris, &built.see()));
            visited(&built, &mut text);
        }
    }
    let mut damaged = out[0].clone();
    let links = 2 + 10 * damaged[0] as usize;
    damaged[links + 2] += 1;
    // the first leaf ends one entry later: the next one does not begin there, or it ends beyond the list
    writeln!(text, "refused 73 {}", u32::from(damaged[1] > 1)).unwrap();
    out.push(damaged);
    out.push(vec![0, 0]);
    text.push_str("refused 2 0\n");
    let bytes: Vec<u8> = out.iter().flatten().flat_map(|w| w.to_le_bytes()).collect();
    std::fs::write(&args[0], bytes).unwrap();
    std::fs::write(&args[1], text).unwrap();
}
