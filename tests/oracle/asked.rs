//! A request of the oracle's `gen` as each side is given it, and a count of what was compared, for compare.rs and dipoles.rs.

use shark::{
    cases::{make, Wish},
    request::{Request, Settings, P},
};

const SHOWN: usize = 10;

/// What was compared under one name, how often it differed, and the first that did.
pub struct Tally {
    name: &'static str,
    pub compared: u64,
    differ: u64,
    first: Vec<String>,
}

impl Tally {
    pub fn new(name: &'static str) -> Self {
        Tally { name, compared: 0, differ: 0, first: Vec::new() }
    }

    pub fn note(&mut self, same: bool, tell: impl FnOnce() -> String) {
        self.compared += 1;
        if !same {
            self.differ += 1;
            if self.first.len() < SHOWN {
                self.first.push(tell());
            }
        }
    }

    pub fn print(&self) -> u64 {
        println!("{:>12} {}: {} differ", self.compared, self.name, self.differ);
        self.first.iter().for_each(|line| println!("             {line}"));
        self.differ
    }
}

pub fn v(p: &P) -> [f32; 3] {
    [p.x, p.y, p.z]
}

pub fn numbers<'a>(points: impl Iterator<Item = &'a P>) -> Vec<f32> {
    points.flat_map(v).collect()
}

/// A request as this engine is given it, and as it is read. Its name is what the oracle's `gen` makes it from.
pub struct Asked {
    pub name: String,
    pub settings: Settings,
    pub given: Vec<f32>,
    pub given_points: Vec<f32>,
    pub tris: Vec<[P; 3]>,
    pub points: Vec<P>,
    pub distance: f32,
}

impl Asked {
    pub fn new(kind: &str, seed: u64, size: usize, wish: &Wish) -> Self {
        let made = make(kind, seed, size, wish);
        let read = Request::read(&made.write()).unwrap();
        let settings = read.settings.unwrap();
        let one = |key: &str, value: Option<String>| value.map_or(String::new(), |v| format!(" {key}={v}"));
        let number = |key: &str, value: Option<u16>| one(key, value.map(|v| v.to_string()));
        let name = format!("{kind} {seed} {size}")
            + &one("points", wish.points.map(|p| p.to_string()))
            + &one("spread", wish.spread.clone())
            + &number("strategy", wish.strategy)
            + &number("leaf", wish.leaf)
            + &number("depth", wish.depth);
        Asked {
            name,
            settings,
            given: numbers(made.triangles.unwrap().iter().flatten()),
            given_points: numbers(made.points.unwrap().iter()),
            tris: read.triangles.unwrap(),
            points: read.points.unwrap(),
            distance: read.distance.unwrap(),
        }
    }

    pub fn list(&self) -> Vec<[[f32; 3]; 3]> {
        self.tris.iter().map(|t| [v(&t[0]), v(&t[1]), v(&t[2])]).collect()
    }
}
