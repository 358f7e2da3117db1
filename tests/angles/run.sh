#!/bin/sh
# Runs root, arc tangent, solid angle and winding number against Rust's own: tests/angles/run.sh [LIST]
# LIST is a list of the oracle's answers, as tests/oracle/angles.rs writes it. Not part of the gate.
# The exported functions stand in a copy of the repository, outside of it, since the engine exports none of them.
set -e
cd "$(dirname "$0")/../.."
copy=$(mktemp -d)
trap 'rm -rf "$copy"' EXIT
tar -cf - --exclude='crates/*/out' crates crates.txt | tar -xf - -C "$copy"
mkdir -p "$copy/crates/angles_run/src"
echo 'angles_run staticlib: angles lists shapes floats' >> "$copy/crates.txt"
cat > "$copy/crates/angles_run/src/lib.rt" <<'RT'
// Roots, angles and winding numbers for a Rust program to call.
#![tactic(auto)]

#[unsafe(no_mangle)]
pub extern "C" fn angles_root(x: f32) -> f32 {
    angles::root::root_or_nan(x)
}

#[unsafe(no_mangle)]
pub extern "C" fn angles_arc_tangent(n: f32, d: f32) -> f32 {
    angles::arc_tangent::angle_or_nan(n, d)
}

// Of the first triangle from the first point.
#[unsafe(no_mangle)]
pub extern "C" fn angles_solid(triangle: &[f32], point: &[f32]) -> f32 {
    if triangle.len() == 9 {
        if point.len() == 3 {
            return angles::solid_angle::solid_angle(lists::reading::triangle_at(triangle, 0), lists::reading::point_at(point, 0));
        }
    }
    0.0 / 0.0
}

// The refusal's number, 0 where there is none.
#[unsafe(no_mangle)]
pub extern "C" fn angles_winding(triangles: &[f32], points: &[f32], out: &mut [f32]) -> usize {
    match angles::winding::winding(triangles, points, out) {
        Ok(()) => 0,
        Err(refusal) => refusal.number(),
    }
}
RT
(cd "$copy/crates/angles_run" && rt lib)
rustc -O --edition 2021 -o "$copy/main" tests/angles/main.rs -L "$copy/crates/angles_run/out" -l static=angles_run
"$copy/main" "$@"
