//! A reader of edge files of its own, over the Rust's arcs: what `edgebox` must print.

use std::io::Read;

const EDGE: u8 = 1;
const EDGE_LENGTH: usize = 104;
const END: u8 = 127;

/// The bytes of an edge's record.
pub const RECORD: usize = 3 + EDGE_LENGTH;

const OUT_OF_RANGE: u32 = 1;
const COUNT_TOO_LARGE: u32 = 10;
const MALFORMED: u32 = 11;

/// Widens a box (low corner, then high) by the edge of 13 numbers, or gives the refusal due.
pub type Widen = fn(&[f64; 13], &mut [f64; 6]) -> u32;

fn parts(edge: &[f64; 13]) -> (&[f64; 7], &[f64; 3], &[f64; 3]) {
    (edge[..7].try_into().unwrap(), edge[7..10].try_into().unwrap(), edge[10..].try_into().unwrap())
}

/// By the second reading, with every refusal.
pub fn by_second_reading(edge: &[f64; 13], corners: &mut [f64; 6]) -> u32 {
    let (arc, from, to) = parts(edge);
    crate::arcs::second::extend_bounds(arc, from, to, corners)
}

/// By the unchanged Rust, after the test of what was handed in.
pub fn by_rust(edge: &[f64; 13], corners: &mut [f64; 6]) -> u32 {
    if edge.iter().any(|x| !(x.abs() <= 1_048_576.0)) {
        return OUT_OF_RANGE;
    }
    let (arc, from, to) = parts(edge);
    crate::arcs::rust::extend_bounds(arc, from, to, corners)
}

/// Whole thousandths nearest to the exact value, halves away from zero; none above 10⁹ in magnitude.
pub fn thousandths(x: f64) -> Option<i64> {
    let bits = x.to_bits();
    let (biased, tail) = ((bits >> 52 & 0x7ff) as i32, bits & ((1 << 52) - 1));
    // |x| is `whole` times 2 to the `exponent`.
    let (whole, exponent) = if biased == 0 { (tail, -1074) } else { (tail | 1 << 52, biased - 1075) };
    let exact = whole as u128 * 1000;
    let rounded = match exponent {
        60.. => return None,
        0..60 => exact << exponent,
        -100..0 => (exact + (1 << (-exponent - 1))) >> -exponent,
        // Below 2⁻³⁶ of a thousandth.
        _ => 0,
    };
    if rounded > 1_000_000_000 {
        return None;
    }
    Some(if x < 0.0 { -(rounded as i64) } else { rounded as i64 })
}

/// Fills the room, or says that the file ends before.
fn fill(file: &mut impl Read, room: &mut [u8]) -> bool {
    file.read_exact(room).is_ok()
}

/// The line that is due for a file, without its newline.
pub fn line(mut file: impl Read, widen: Widen) -> String {
    let refused = |number: u32, record: u64| format!("refused {number} record {record}");
    let (low, high) = (f64::INFINITY, f64::NEG_INFINITY);
    let mut corners = [low, low, low, high, high, high];
    let mut record = 1;
    loop {
        let mut head = [0; 3];
        if !fill(&mut file, &mut head) {
            return refused(MALFORMED, record);
        }
        match (head[0], u16::from_le_bytes([head[1], head[2]]) as usize) {
            (EDGE, EDGE_LENGTH) => {
                let mut body = [0; EDGE_LENGTH];
                if !fill(&mut file, &mut body) {
                    return refused(MALFORMED, record);
                }
                let mut edge = [0.0; 13];
                for (x, bytes) in edge.iter_mut().zip(body.chunks_exact(8)) {
                    *x = f64::from_le_bytes(bytes.try_into().unwrap());
                }
                let number = widen(&edge, &mut corners);
                if number != 0 {
                    return refused(number, record);
                }
            }
            (END, 0) => break,
            _ => return refused(MALFORMED, record),
        }
        record += 1;
    }
    if fill(&mut file, &mut [0]) {
        return refused(MALFORMED, record + 1);
    }
    if record == 1 {
        return "empty".into();
    }
    let mut line = String::from("box");
    for x in corners {
        match thousandths(x) {
            Some(n) => line += &format!(" {n}"),
            None => return refused(COUNT_TOO_LARGE, record),
        }
    }
    line
}

/// The bytes of an edge's record, and of the end.
pub fn edge_record(edge: &[f64; 13]) -> Vec<u8> {
    let mut bytes = vec![EDGE, EDGE_LENGTH as u8, 0];
    bytes.extend(edge.iter().flat_map(|x| x.to_le_bytes()));
    bytes
}

pub const END_RECORD: [u8; 3] = [END, 0, 0];
