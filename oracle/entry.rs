//! What is compared: an entry of the port beside the Rust's function and the second reading of its
//! refusals.

use crate::draw::Draw;

/// A call on flat inputs that writes flat outputs and gives the refusal number, 0 for none.
pub type Call = fn(&[f64], &mut [f64]) -> u32;

/// A class of inputs: its name in the report, and how one of it is drawn.
pub type Class = (&'static str, fn(&mut Draw, &mut [f64]));

pub struct Entry {
    pub name: &'static str,
    /// The port's functions that it calls, with spaces between.
    pub port_name: &'static str,
    /// Numbers that go in and come out.
    pub takes: usize,
    pub gives: usize,
    /// Calls in a full run.
    pub full: u64,
    /// The outputs are least and greatest numbers: the Rust leaves a zero's sign open.
    pub zeros_alike: bool,
    /// Inputs that are flags, set where they are above 0, and inputs and outputs that are whole
    /// numbers.
    pub flags: &'static [usize],
    pub whole_inputs: &'static [usize],
    pub whole_outputs: &'static [usize],
    /// The outputs are a count, and then a row of which so many numbers were written.
    pub row: bool,
    /// Whether the replayed list has it.
    pub replayed: bool,
    pub classes: &'static [Class],
    /// So many classes, the first ones, are timed.
    pub timed: usize,
    pub port: Call,
    /// The unchanged Rust, which refuses nothing.
    pub rust: Call,
    /// The refusal due and, where there is none, the same formulas over numbers that carry what
    /// they met.
    pub second: Call,
}

/// An entry from three functions of one signature and the way to call it: `|f, i, o| ..` takes the
/// inputs from `i`, leaves the outputs in `o` and gives the refusal number.
macro_rules! entry {
    ($name:ident, $port:ident, $takes:expr, $gives:expr, $full:expr, $classes:expr, |$f:ident, $i:ident, $o:ident| $call:expr) => {
        crate::entry::Entry {
            name: stringify!($name),
            port_name: stringify!($port),
            takes: $takes,
            gives: $gives,
            full: $full,
            zeros_alike: false,
            flags: &[],
            whole_inputs: &[],
            whole_outputs: &[],
            row: false,
            replayed: true,
            classes: $classes,
            timed: usize::MAX,
            port: |$i, $o| {
                let $f = $port;
                $call
            },
            rust: |$i, $o| {
                let $f = rust::$name;
                $call
            },
            second: |$i, $o| {
                let $f = second::$name;
                $call
            },
        }
    };
}
pub(crate) use entry;

/// An unknown tag, and no such thing (`Trace::v` of a hole's meet): answers in a refusal's place
/// that are none.
pub const UNKNOWN: u32 = 254;
pub const ABSENT: u32 = 255;

/// Fills what a call has not written yet, so that a write is seen. No result of ours is likely to
/// be this number.
pub const UNTOUCHED: f64 = f64::from_bits(0x8123_4567_89ab_cdef);

/// The N inputs from the k-th on.
pub fn at<const N: usize>(i: &[f64], k: usize) -> &[f64; N] {
    i[k..k + N].try_into().unwrap()
}

/// The first N outputs.
pub fn out<const N: usize>(o: &mut [f64]) -> &mut [f64; N] {
    (&mut o[..N]).try_into().unwrap()
}
