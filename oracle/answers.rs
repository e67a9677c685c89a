//! Drawn calls and their answers as binary numbers, for a test that calls the port by another way
//! than its C functions and draws nothing itself.
//!
//! All are words of 64 bits, low byte first. First the count of numbers that the entry takes, then
//! of each call: the answer due (0, a refusal's number, or one that is none), how many numbers come
//! out, those that go in, those that come out. Where the answer is not 0, none come out.

use std::io::{BufWriter, Result, Write, stdout};

use crate::compare::{all_alike, drawer};
use crate::entry::{Entry, UNTOUCHED};

/// About `count` calls, the same number of each class. What comes out is what is due of the port:
/// the second reading's, where the Rust gives the same.
pub fn answers(e: &Entry, count: u64, seed: u64) -> bool {
    let each = count.div_ceil(e.classes.len() as u64);
    let mut to = BufWriter::with_capacity(1 << 16, stdout().lock());
    let mut write = || -> Result<bool> {
        to.write_all(&(e.takes as u64).to_le_bytes())?;
        for (class, draw) in e.classes {
            let mut d = drawer(e, class, seed);
            let mut input = vec![0.0; e.takes];
            for _ in 0..each {
                draw(&mut d, &mut input);
                let Some((answer, out)) = due(e, &input) else { return Ok(false) };
                for word in [answer as u64, out.len() as u64] {
                    to.write_all(&word.to_le_bytes())?;
                }
                for x in input.iter().chain(&out) {
                    to.write_all(&x.to_bits().to_le_bytes())?;
                }
            }
        }
        to.flush()?;
        Ok(true)
    };
    write().unwrap_or(false)
}

/// The answer and what comes out; nothing where the second reading differs from the Rust.
fn due(e: &Entry, input: &[f64]) -> Option<(u32, Vec<f64>)> {
    let (mut out, mut rust) = (vec![UNTOUCHED; e.gives], vec![UNTOUCHED; e.gives]);
    let answer = (e.second)(input, &mut out);
    if answer != 0 {
        return Some((answer, Vec::new()));
    }
    (e.rust)(input, &mut rust);
    if !all_alike(&out, &rust, e.zeros_alike) {
        eprintln!("driver: the second reading of {} differs from the Rust", e.name);
        return None;
    }
    if e.row {
        out.truncate(1 + out[0] as usize);
    }
    Some((answer, out))
}
