//! Makes crates/test_floats/stdout: the same lines as that program, worked out by Rust's own f32.
//!
//!     rustc -O tests/floats/generate.rs -o target/generate && target/generate > crates/test_floats/stdout

const EACH: [u32; 24] = [
    0x0000_0000, 0x8000_0000, 0x0000_0001, 0x8000_0001, 0x007f_ffff, 0x0080_0000, 0x3f00_0000,
    0x3f7f_ffff, 0x3f80_0000, 0xbf7f_ffff, 0xbf80_0000, 0x4049_0fdb, 0x4b7f_ffff, 0x5f7f_ffff,
    0x5f80_0000, 0x5f80_0001, 0x7f7f_ffff, 0xff7f_ffff, 0x7f80_0000, 0xff80_0000, 0x7fc0_0000,
    0xffc0_0001, 0x7f80_0001, 0xffff_ffff,
];

const SOME: [u32; 10] = [
    0x0000_0000, 0x8000_0000, 0x0000_0001, 0x8000_0001, 0x3f80_0000, 0xbf80_0000, 0x7f7f_ffff,
    0x7f80_0000, 0xff80_0000, 0x7fc0_0000,
];

/// Any NaN is written as the one pattern.
fn bits(x: f32) -> u32 {
    if x.is_nan() { 0x7fc0_0000 } else { x.to_bits() }
}

/// Of two that compare equal, and where one is a NaN, the first.
fn min2(a: f32, b: f32) -> f32 {
    match b.partial_cmp(&a) {
        Some(std::cmp::Ordering::Less) => b,
        _ => a,
    }
}

fn max2(a: f32, b: f32) -> f32 {
    match b.partial_cmp(&a) {
        Some(std::cmp::Ordering::Greater) => b,
        _ => a,
    }
}

/// Raised to lo, then lowered to hi.
fn held(lo: f32, hi: f32, x: f32) -> f32 {
    let mut r = x;
    if r < lo {
        r = lo;
    }
    if r > hi {
        r = hi;
    }
    r
}

fn main() {
    let of = f32::from_bits;
    for p in EACH {
        let x = of(p);
        let finite = x.is_finite() as u32;
        println!("{p:08x} {:08x} {:08x} {:08x} {finite:08x} {:016x}", bits(x), bits(x + 0.0), bits(x.abs()), x as usize);
    }
    for a in SOME {
        for b in SOME {
            println!("{a:08x} {b:08x} {:08x} {:08x} ", bits(min2(of(a), of(b))), bits(max2(of(a), of(b))));
            for x in SOME {
                println!("{a:08x} {b:08x} {x:08x} {:08x} ", bits(held(of(a), of(b), of(x))));
            }
        }
    }
}
