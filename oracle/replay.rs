//! A list of the Rust's answers, for a program that replays it with no Rust at hand.
//! scripts/make_replay says what a line holds.

use crate::compare::{all_alike, drawer};
use crate::entry::{ABSENT, Entry, UNKNOWN, UNTOUCHED};

/// Whole numbers and flags as themselves, the others as bit patterns.
fn taken_field(e: &Entry, k: usize, x: f64) -> u64 {
    match x {
        _ if e.flags.contains(&k) => (x > 0.0) as u64,
        _ if e.whole_inputs.contains(&k) => x as u64,
        _ => x.to_bits(),
    }
}

/// What a call leaves as it was is 0.
fn given_field(e: &Entry, k: usize, x: f64) -> u64 {
    match x {
        _ if x.to_bits() == UNTOUCHED.to_bits() => 0,
        _ if e.whole_outputs.contains(&k) => x as u64,
        _ if x.is_nan() => f64::NAN.to_bits(),
        _ => x.to_bits(),
    }
}

/// What a call gives back: of a row only what was written.
fn given(e: &Entry, out: &[f64]) -> usize {
    if e.row { 1 + out[0] as usize } else { e.gives }
}

/// A line and its newline fit into the buffer of the program that reads them.
const MOST_BYTES: usize = 4096;

/// Calls of each class: fewer where the lines are long and the classes many.
fn calls(e: &Entry, each: u64) -> u64 {
    let numbers = (e.takes * e.classes.len()) as u64;
    if numbers <= 180 { each } else { (each * 90 / numbers).max(2) }
}

/// How a line has an answer: the two that are no refusals have two digits there.
fn listed(answer: u32) -> u32 {
    match answer {
        UNKNOWN => 98,
        ABSENT => 99,
        refusal => refusal,
    }
}

/// `each` calls of each class of each entry.
pub fn replay(entries: &[&Entry], each: u64, seed: u64) -> bool {
    for (k, e) in entries.iter().enumerate().filter(|(_, e)| e.replayed) {
        for (class, draw) in e.classes {
            let mut d = drawer(e, class, seed);
            let mut input = vec![0.0; e.takes];
            for place in 0..calls(e, each) {
                draw(&mut d, &mut input);
                let (mut out, mut rust) = (vec![UNTOUCHED; e.gives], vec![UNTOUCHED; e.gives]);
                let refusal = (e.second)(&input, &mut out);
                if refusal == 0 {
                    (e.rust)(&input, &mut rust);
                    if !all_alike(&out, &rust, e.zeros_alike) {
                        eprintln!("the second reading of {} differs from the Rust", e.name);
                        return false;
                    }
                }
                let gives = if refusal == 0 { given(e, &out) } else { 0 };
                // Few long rows: they make the list long and say no more.
                if gives > 40 && place % 8 != 0 {
                    continue;
                }
                let mut fields = vec![format!("{:02} {:02}", k + 1, listed(refusal))];
                fields.extend(input.iter().enumerate().map(|(k, x)| format!("{:016x}", taken_field(e, k, *x))));
                fields.extend(out[..gives].iter().enumerate().map(|(k, x)| format!("{:016x}", given_field(e, k, *x))));
                let line = fields.join(" ");
                if line.len() < MOST_BYTES {
                    println!("{line}");
                }
            }
        }
    }
    true
}

/// The operations by their numbers, with the count of numbers that each takes and gives.
pub fn operations(entries: &[&Entry]) -> bool {
    for (k, e) in entries.iter().enumerate().filter(|(_, e)| e.replayed) {
        println!("{:02} {} takes {} gives {}", k + 1, e.name, e.takes, e.gives);
    }
    true
}
