//! The comparison, bit by bit, and its table.

use crate::draw::Draw;
use crate::entry::{ABSENT, Entry, UNTOUCHED};
use crate::missing::MISSING;

/// A NaN is as good as another; everything else bit by bit, and zeros by value where `zeros_alike`.
fn alike(a: f64, b: f64, zeros_alike: bool) -> bool {
    a.to_bits() == b.to_bits() || (a.is_nan() && b.is_nan()) || (zeros_alike && a == 0.0 && b == 0.0)
}

pub fn all_alike(a: &[f64], b: &[f64], zeros_alike: bool) -> bool {
    a.iter().zip(b).all(|(x, y)| alike(*x, *y, zeros_alike))
}

fn same_bits(a: &[f64], b: &[f64]) -> bool {
    a.iter().zip(b).all(|(x, y)| x.to_bits() == y.to_bits())
}

/// One call on all three sides.
struct Trial {
    input: Vec<f64>,
    port: (u32, Vec<f64>),
    rust: Vec<f64>,
    second: (u32, Vec<f64>),
}

enum Verdict {
    Equal,
    RefusedAlike,
    Different,
}

impl Trial {
    fn new(e: &Entry) -> Self {
        let out = || vec![UNTOUCHED; e.gives];
        Self { input: vec![0.0; e.takes], port: (0, out()), rust: out(), second: (0, out()) }
    }

    fn run(&mut self, e: &Entry) -> Verdict {
        for out in [&mut self.port.1, &mut self.rust, &mut self.second.1] {
            out.fill(UNTOUCHED);
        }
        self.second.0 = (e.second)(&self.input, &mut self.second.1);
        self.port.0 = (e.port)(&self.input, &mut self.port.1);
        let (port, second) = (&self.port, &self.second);
        if second.0 != 0 {
            // Refused: the number, and what was lent as it was, to the last bit. What is absent is
            // so in the Rust too.
            let rust_well = second.0 != ABSENT || (e.rust)(&self.input, &mut self.rust) == ABSENT;
            let port_well = port.0 == second.0 && same_bits(&port.1, &second.1);
            return if port_well && rust_well { Verdict::RefusedAlike } else { Verdict::Different };
        }
        (e.rust)(&self.input, &mut self.rust);
        let port_well = port.0 == 0 && all_alike(&port.1, &self.rust, e.zeros_alike) && all_alike(&port.1, &second.1, false);
        let second_well = all_alike(&second.1, &self.rust, e.zeros_alike);
        if port_well && second_well { Verdict::Equal } else { Verdict::Different }
    }

    fn show(&self, e: &Entry, class: &str) {
        println!("first difference: {} ({class})", e.name);
        for (k, x) in self.input.iter().enumerate() {
            println!("  input {k}: {:016x} {x:e}", x.to_bits());
        }
        println!("  refusal: port {}, due {}", self.port.0, self.second.0);
        for k in 0..e.gives {
            let (p, r, s) = (self.port.1[k], self.rust[k], self.second.1[k]);
            let refused = self.second.0 != 0;
            if refused && p.to_bits() != s.to_bits() {
                println!("  output {k}: port {:016x} {p:e}, was {:016x} {s:e}", p.to_bits(), s.to_bits());
            }
            if !refused && !(alike(p, r, e.zeros_alike) && alike(p, s, false)) {
                println!("  output {k}: port {:016x} {p:e}", p.to_bits());
                println!("            Rust {:016x} {r:e}", r.to_bits());
                println!("            second reading {:016x} {s:e}", s.to_bits());
            }
        }
    }
}

/// Inputs of one class of one entry, the same for the same seed whatever else is compared.
pub fn drawer(e: &Entry, class: &str, seed: u64) -> Draw {
    let mark = e.name.bytes().chain(class.bytes()).fold(seed, |h, b| (h ^ b as u64).wrapping_mul(0x0000_0100_0000_01b3));
    Draw::new(mark)
}

/// Calls of an entry where `count` is asked for: of a dear one, whose full run is shorter, fewer in
/// proportion.
fn calls(e: &Entry, count: Option<u64>) -> u64 {
    const FULL: u64 = 5_000_000;
    let scaled = |count: u64| (count as u128 * e.full.min(FULL) as u128).div_ceil(FULL as u128) as u64;
    count.map_or(e.full, scaled).div_ceil(e.classes.len() as u64)
}

pub fn compare(entries: &[&Entry], count: Option<u64>, seed: u64) -> bool {
    println!("{:<24} {:<42} {:>10} {:>10} {:>13} {:>9}  {}", "NAME", "class", "compared", "equal", "refused alike", "different", "by");
    let mut different = 0;
    for e in entries {
        let each = calls(e, count);
        let mut trial = Trial::new(e);
        let mut shown = false;
        for (class, draw) in e.classes {
            let (mut equal, mut refused, mut wrong) = (0u64, 0u64, 0u64);
            let mut numbers = std::collections::BTreeSet::new();
            let mut d = drawer(e, class, seed);
            for _ in 0..each {
                draw(&mut d, &mut trial.input);
                match trial.run(e) {
                    Verdict::Equal => equal += 1,
                    Verdict::RefusedAlike => {
                        refused += 1;
                        numbers.insert(trial.second.0);
                    }
                    Verdict::Different => {
                        wrong += 1;
                        if !shown {
                            shown = true;
                            trial.show(e, class);
                        }
                    }
                }
            }
            let by: Vec<String> = numbers.iter().map(u32::to_string).collect();
            println!("{:<24} {class:<42} {each:>10} {equal:>10} {refused:>13} {wrong:>9}  {}", e.name, by.join(" "));
            different += wrong;
        }
    }
    if !MISSING.is_empty() {
        println!("not compared, since the port's library does not have them: {}", MISSING.join(" "));
    }
    println!("seed {seed}: {}", if different == 0 { "no difference".into() } else { format!("{different} different") });
    different == 0
}

/// The second reading beside the Rust, with no port: the same bits where no refusal is due, and
/// what is refused by which number.
pub fn second(entries: &[&Entry], count: Option<u64>, seed: u64) -> bool {
    println!("{:<24} {:<42} {:>10} {:>10} {:>9}  {}", "NAME", "class", "tried", "accepted", "different", "refused by number");
    let mut different = 0;
    for e in entries {
        let mut trial = Trial::new(e);
        for (class, draw) in e.classes {
            let (each, mut accepted, mut wrong) = (calls(e, count), 0u64, 0u64);
            let mut numbers = std::collections::BTreeMap::new();
            let mut d = drawer(e, class, seed);
            for _ in 0..each {
                draw(&mut d, &mut trial.input);
                trial.rust.fill(UNTOUCHED);
                trial.second.1.fill(UNTOUCHED);
                trial.second.0 = (e.second)(&trial.input, &mut trial.second.1);
                let due = trial.second.0;
                let rust = if due == 0 || due == ABSENT { (e.rust)(&trial.input, &mut trial.rust) } else { due };
                *numbers.entry(due).or_insert(0u64) += 1;
                accepted += (due == 0) as u64;
                if rust != due || (due == 0 && !all_alike(&trial.second.1, &trial.rust, e.zeros_alike)) {
                    wrong += 1;
                    if different + wrong == 1 {
                        trial.port = (due, trial.second.1.clone());
                        trial.show(e, class);
                    }
                }
            }
            numbers.remove(&0);
            let by: Vec<String> = numbers.iter().map(|(number, times)| format!("{number}: {times}")).collect();
            println!("{:<24} {class:<42} {each:>10} {accepted:>10} {wrong:>9}  {}", e.name, by.join(", "));
            different += wrong;
        }
    }
    println!("seed {seed}: {}", if different == 0 { "no difference".into() } else { format!("{different} different") });
    different == 0
}

/// A sum over the bits of the Rust's answers, a NaN and a zero of an open sign counted alike.
pub fn hash(entries: &[&Entry], count: u64, seed: u64) -> bool {
    for e in entries {
        let (mut input, mut out) = (vec![0.0; e.takes], vec![UNTOUCHED; e.gives]);
        let mut sum = 0u64;
        for (class, draw) in e.classes {
            let mut d = drawer(e, class, seed);
            for _ in 0..calls(e, Some(count)) {
                draw(&mut d, &mut input);
                // Where a refusal is due the Rust may run for ever.
                let refused = (e.second)(&input, &mut out) != 0;
                out.fill(UNTOUCHED);
                if !refused {
                    (e.rust)(&input, &mut out);
                }
                for x in &out {
                    let x = if x.is_nan() { f64::NAN } else { *x };
                    let x = if e.zeros_alike && x == 0.0 { 0.0 } else { x };
                    sum = (sum.rotate_left(5) ^ x.to_bits()).wrapping_mul(0x9e37_79b9_7f4a_7c15);
                }
            }
        }
        println!("{} {sum:016x}", e.name);
    }
    true
}
