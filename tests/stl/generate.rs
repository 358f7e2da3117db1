//! Makes the cases of crates/test_stl and what they must print, by a reading of the rules of its own.
//!
//!     rustc --edition 2021 -O tests/stl/generate.rs -o target/generate_stl && target/generate_stl crates/test_stl
//!
//! The rules: an STL is 80 bytes of header, a u32 count, and for each triangle 50 bytes: a normal of three f32, three corners of three f32, a
//! u16. Reading refuses 11 at the size where that is not 84 + 50 times the count; then 2 where there are none, 3 where there are more than
//! 65,536, 4 at the first corner's number that is a NaN or beyond 2^20 either way, 6 where the list is too short. Writing refuses 1 where the
//! list is no multiple of nine, then 2, 3, 4, and 6 where the bytes are too few.

use std::fmt::Write as _;

struct Random(u64);

impl Random {
    fn next(&mut self) -> u64 {
        self.0 ^= self.0 << 13;
        self.0 ^= self.0 >> 7;
        self.0 ^= self.0 << 17;
        self.0
    }

    fn below(&mut self, n: u64) -> u64 {
        self.next() % n
    }

    /// Bits of a coordinate in range: all kinds.
    fn coordinate(&mut self) -> u32 {
        match self.below(8) {
            0 => 0x8000_0000,
            1 => 0,
            2 => self.below(0x0080_0000) as u32,
            3 => 0x4980_0000,
            4 => 0xc980_0000,
            5 => (self.below(2000) as f32 - 1000.0).to_bits(),
            _ => loop {
                let bits = self.next() as u32;
                if f32::from_bits(bits).abs() <= 1048576.0 {
                    break bits;
                }
            },
        }
    }

    /// Bits of a float that is no coordinate.
    fn bad(&mut self) -> u32 {
        match self.below(6) {
            0 => 0x7f80_0000,
            1 => 0xff80_0000,
            2 => 0x7fc0_0000 + self.below(0x40_0000) as u32,
            3 => 0xff80_0001 + self.below(0x7f_fffe) as u32,
            4 => 0x4980_0001,
            _ => 0xc980_0001,
        }
    }
}

struct Case {
    room: usize,
    given: usize,
    fill: u32,
    stl: Vec<u8>,
}

/// An STL of these corners, with rubbish in all that is dropped.
fn stl(random: &mut Random, corners: &[u32]) -> Vec<u8> {
    let mut out: Vec<u8> = (0..80).map(|_| random.next() as u8).collect();
    if random.below(3) == 0 {
        out[..6].copy_from_slice(b"solid ");
    }
    out.extend((corners.len() as u32 / 9).to_le_bytes());
    for facet in corners.chunks(9) {
        out.extend((0..12).map(|_| random.next() as u8));
        out.extend(facet.iter().flat_map(|bits| bits.to_le_bytes()));
        out.extend((0..2).map(|_| random.next() as u8));
    }
    out
}

type Answer = Result<usize, (usize, usize)>;

fn first_bad(list: &[f32]) -> Option<usize> {
    list.iter().position(|x| !(x.abs() <= 1048576.0))
}

/// 2 to 4 of whole triangles.
fn test(list: &[f32]) -> Result<(), (usize, usize)> {
    if list.is_empty() {
        return Err((2, 0));
    }
    if list.len() > 9 * 65536 {
        return Err((3, 0));
    }
    match first_bad(list) {
        Some(at) => Err((4, at)),
        None => Ok(()),
    }
}

fn read(stl: &[u8], list: &mut [f32]) -> Answer {
    let size = stl.len();
    let wrong = Err((11, size));
    let Some((front, facets)) = stl.split_at_checked(84) else { return wrong };
    let count = u32::from_le_bytes(front[80..].try_into().unwrap()) as u64;
    if size as u64 != 84 + 50 * count {
        return wrong;
    }
    let numbers: Vec<f32> =
        facets.chunks(50).flat_map(|facet| facet[12..48].chunks(4).map(|four| f32::from_le_bytes(four.try_into().unwrap()))).collect();
    test(&numbers)?;
    if list.len() < numbers.len() {
        return Err((6, 0));
    }
    list[..numbers.len()].copy_from_slice(&numbers);
    Ok(numbers.len() / 9)
}

fn write(list: &[f32], out: &mut [u8]) -> Answer {
    if list.len() % 9 != 0 {
        return Err((1, 0));
    }
    test(list)?;
    let mut bytes = vec![0; 80];
    bytes.extend((list.len() as u32 / 9).to_le_bytes());
    for facet in list.chunks(9) {
        bytes.extend([0; 12]);
        bytes.extend(facet.iter().flat_map(|x| x.to_le_bytes()));
        bytes.extend([0; 2]);
    }
    if out.len() < bytes.len() {
        return Err((6, 0));
    }
    out[..bytes.len()].copy_from_slice(&bytes);
    Ok(bytes.len())
}

fn line(what: &str, answer: Answer) -> String {
    match answer {
        Ok(count) => format!("{what} {count}\n"),
        Err((number, place)) => format!("{what} refused {number} {place}\n"),
    }
}

fn printed(case: &Case, out: &mut String) {
    let mut list = vec![f32::from_bits(case.fill); case.room];
    out.push_str(&line("read", read(&case.stl, &mut list)));
    for x in &list {
        // every NaN is printed as the one
        write!(out, "{:08x} ", if x.is_nan() { 0x7fc0_0000 } else { x.to_bits() }).unwrap();
    }
    out.push('\n');
    let mut bytes = vec![238; case.given];
    out.push_str(&line("write", write(&list, &mut bytes)));
    for b in &bytes {
        write!(out, "{b:02x}").unwrap();
    }
    out.push('\n');
}

fn main() {
    let folder = std::env::args().nth(1).expect("the folder of test_stl");
    let mut random = Random(0x5713_2026_0b0a_77a1);
    let seven = 7f32.to_bits();
    let mut cases = Vec::new();
    let corners = |random: &mut Random, n: usize| -> Vec<u32> { (0..9 * n).map(|_| random.coordinate()).collect() };
    // right ones: room exact, more, one short; bytes exact, more, one short; the list behind the triangles whole or ragged or bad
    for turn in 0..120 {
        let n = turn % 6;
        let numbers = corners(&mut random, n);
        let room = [9 * n, 9 * n + 9, 9 * n + 4, (9 * n).saturating_sub(1), 54][random.below(5) as usize].min(54);
        let need = 84 + 50 * (room / 9);
        let given = [need, need + 7, need - 1, 0, 400][random.below(5) as usize];
        let fill = if random.below(4) == 0 { random.bad() } else { seven };
        cases.push(Case { room, given: given.min(400), fill, stl: stl(&mut random, &numbers) });
    }
    // a number that is no coordinate, at each place of three triangles
    for at in 0..27 {
        for room in [27, 26] {
            let mut numbers = corners(&mut random, 3);
            numbers[at] = random.bad();
            if random.below(2) == 0 {
                numbers[26] = random.bad();
            }
            cases.push(Case { room, given: 90, fill: seven, stl: stl(&mut random, &numbers) });
        }
    }
    // cut at every length, and longer
    let numbers = corners(&mut random, 2);
    let whole = stl(&mut random, &numbers);
    for size in 0..whole.len() {
        cases.push(Case { room: 3, given: 2, fill: seven, stl: whole[..size].to_vec() });
    }
    for more in [1, 2, 49, 50, 100] {
        let mut long = whole.clone();
        long.extend((0..more).map(|_| 0u8));
        cases.push(Case { room: 18, given: 184, fill: seven, stl: long });
    }
    // counts that lie
    for count in [0, 1, 3, 4, 65535, 65536, 65537, 85899345, 85899346, 0x7fff_ffff, 0x8000_0002, 0xffff_ffff, 0x0200_0000] {
        let mut lies = whole.clone();
        lies[80..84].copy_from_slice(&u32::to_le_bytes(count));
        cases.push(Case { room: 18, given: 184, fill: seven, stl: lies });
    }
    // none
    for room in [0, 9] {
        cases.push(Case { room, given: 84, fill: seven, stl: stl(&mut random, &[]) });
    }
    let (mut stdin, mut stdout) = (Vec::new(), String::new());
    for case in &cases {
        stdin.extend((12 + case.stl.len() as u32).to_le_bytes());
        for word in [case.room as u32, case.given as u32, case.fill] {
            stdin.extend(word.to_le_bytes());
        }
        stdin.extend(&case.stl);
        printed(case, &mut stdout);
    }
    std::fs::write(format!("{folder}/stdin"), stdin).unwrap();
    std::fs::write(format!("{folder}/stdout"), stdout).unwrap();
    println!("{} cases", cases.len());
}
