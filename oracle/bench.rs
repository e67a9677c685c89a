//! Nanoseconds of a call, on the same inputs, in turns: as a Rust program makes it, the crate's and
//! curve.rs's, the records ready on both sides (callers.rs); and as a C program makes it, on arrays
//! that are ready too.

use std::hint::black_box;
use std::ops::Range;
use std::time::Instant;

use crate::callers::{self, Side};
use crate::compare::drawer;
use crate::entry::{Call, Class, Entry, UNTOUCHED};

const INPUTS: usize = 4096;
/// Of an entry whose calls are dear.
const FEWER_INPUTS: usize = 512;
const ROUNDS: usize = 40;
/// Nanoseconds that a part of the inputs takes: shorter than the turns in which a loaded machine
/// runs its programs, so that most of a part's rounds are not broken.
const PART: f64 = 100_000.0;

/// Calls on flat numbers.
fn on_numbers(call: Call, inputs: &[f64], takes: usize, gives: usize) -> Side {
    let (inputs, mut out) = (inputs.to_vec(), vec![UNTOUCHED; gives]);
    Box::new(move |Range { start, end }| {
        let began = Instant::now();
        for input in inputs[start * takes..end * takes].chunks_exact(takes) {
            black_box(call(black_box(input), &mut out));
        }
        began.elapsed().as_nanos() as f64
    })
}

/// Nanoseconds of each side's call: part by part the best of several rounds, the sides taken in turns.
fn best<const N: usize>(mut sides: [Side; N], count: usize) -> [f64; N] {
    for side in &mut sides {
        side(0..count);
    }
    let each = sides[0](0..count) / count as f64;
    let part = ((PART / each) as usize).clamp(1, count);
    let mut sums = [0.0; N];
    for start in (0..count).step_by(part) {
        let mut least = [f64::INFINITY; N];
        for _ in 0..ROUNDS {
            for (least, side) in least.iter_mut().zip(&mut sides) {
                *least = least.min(side(start..count.min(start + part)));
            }
        }
        for (sum, least) in sums.iter_mut().zip(least) {
            *sum += least;
        }
    }
    sums.map(|sum| sum / count as f64)
}

/// So many accepted inputs of a class, one after the other. A class of which hardly any is accepted is no
/// measure of the accepted path, and gives none.
fn accepted(e: &Entry, (class, draw): &Class, seed: u64, count: usize) -> Option<Vec<f64>> {
    let mut d = drawer(e, class, seed);
    let (mut input, mut out) = (vec![0.0; e.takes], vec![UNTOUCHED; e.gives]);
    let mut inputs = Vec::new();
    for _ in 0..4 * count {
        draw(&mut d, &mut input);
        if inputs.len() < count * e.takes && (e.second)(&input, &mut out) == 0 {
            inputs.extend_from_slice(&input);
        }
    }
    (inputs.len() == count * e.takes).then_some(inputs)
}

/// The ratios of a table, for their geometric mean: all of them, and those of calls that take curve.rs 50 ns or more.
#[derive(Default)]
struct Means {
    all: Vec<f64>,
    long: Vec<f64>,
}

impl Means {
    fn row(&mut self, name: &str, class: &str, [port, rust]: [f64; 2], from_c: Option<f64>) {
        let from_c = from_c.map_or(String::new(), |ns| format!("{ns:.1}"));
        println!("{name:<24} {class:<42} {port:>8.1} {rust:>8.1} {:>6.2} {from_c:>8}", port / rust);
        self.all.push(port / rust);
        if rust >= 50.0 {
            self.long.push(port / rust);
        }
    }

    fn show(&self) {
        for (said, ratios) in [("all rows", &self.all), ("those of 50 ns or more", &self.long)] {
            if !ratios.is_empty() {
                let mean = (ratios.iter().map(|r| r.ln()).sum::<f64>() / ratios.len() as f64).exp();
                println!("{:<24} {:<42} {:>8} {:>8} {mean:>6.2}", "geometric mean", format!("{said}: {}", ratios.len()), "", "");
            }
        }
    }
}

fn header(port: &str, rust: &str, from_c: &str) {
    println!("{:<24} {:<42} {port:>8} {rust:>8} {:>6} {from_c:>8}", "NAME", "class", "ratio");
}

/// The entries that take and give plain numbers, and lie beneath what the crate has.
fn of_numbers(e: &Entry) -> bool {
    crate::rounding::ENTRIES.iter().chain(crate::elementary::ENTRIES).any(|known| known.name == e.name)
}

pub fn bench(entries: &[&Entry], seed: u64) -> bool {
    let [empty] = best([on_numbers(|_, _| 0, &[1.0; INPUTS], 1, 0)], INPUTS);
    println!("ns per call, part by part the best of {ROUNDS} rounds over {INPUTS} accepted inputs of a class ({FEWER_INPUTS} where a call is dear); an empty call takes {empty:.1}");
    let (numbers, records): (Vec<&Entry>, Vec<&Entry>) = entries.iter().partition(|e| of_numbers(e));
    if !records.is_empty() {
        println!("\nWhat a Rust program calls: `x.f(..)?` of the crate beside `x.f(..)` of curve.rs, the records ready on both sides;");
        println!("and the same in C, on arrays that are ready");
        header("crate", "curve.rs", "from C");
    }
    let mut means = Means::default();
    for e in records {
        let count = if e.full < 5_000_000 { FEWER_INPUTS } else { INPUTS };
        let names = [Some(e.name), callers::also(e.name)];
        for class in e.classes.iter().take(e.timed) {
            for name in names.into_iter().flatten() {
                let Some(ready) = callers::sides(name) else { continue };
                if let Some(inputs) = accepted(e, class, seed, count) {
                    let [port, rust] = ready.map(|ready| ready(&inputs, e.takes));
                    let [port, rust, from_c] = best([port, rust, on_numbers(e.port, &inputs, e.takes, e.gives)], count);
                    means.row(name, class.0, [port, rust], callers::is_one(name).then_some(from_c));
                }
            }
        }
    }
    means.show();
    if !numbers.is_empty() {
        println!("\nFunctions of plain numbers: those of the archive beside libm's and the machine's own");
        header("from C", "libm", "");
    }
    let mut means = Means::default();
    for e in &numbers {
        for class in e.classes.iter().take(e.timed) {
            if let Some(inputs) = accepted(e, class, seed, INPUTS) {
                means.row(e.name, class.0, best([e.port, e.rust].map(|call| on_numbers(call, &inputs, e.takes, e.gives)), INPUTS), None);
            }
        }
    }
    for (name, call) in crate::rounding::OTHER_RIVALS.iter().filter(|_| !numbers.is_empty()) {
        let inputs: Vec<f64> = (0..INPUTS).map(|k| k as f64 * 0.37 - 700.0).collect();
        let [rust] = best([on_numbers(*call, &inputs, 1, 1)], INPUTS);
        println!("{name:<24} {:<42} {:>8} {rust:>8.1}", "beside these", "");
    }
    true
}
