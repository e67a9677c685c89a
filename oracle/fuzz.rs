//! Edge files of every kind through the compiled program and through our own reader: the same line every time.

use std::collections::BTreeMap;
use std::io::{Read, Write};
use std::process::{Child, Command, Stdio};
use std::sync::Mutex;
use std::sync::atomic::{AtomicBool, AtomicU64, Ordering};
use std::time::{Duration, Instant};

use crate::arcs::{Kind, edge};
use crate::classes::spoil;
use crate::draw::Draw;
use crate::edges::{END_RECORD, by_rust, by_second_reading, edge_record, line};

/// A run that takes longer hangs.
const PATIENCE: Duration = Duration::from_secs(20);

// --- files ---

fn any_kind(d: &mut Draw) -> Kind {
    use Kind::*;
    [Nice, Pipe, Pipe, Whole, Wild, Tiny, Zeros, Degenerate, ByHand][d.below(9) as usize]
}

/// Coordinates at which the printing is decided: halves of a thousandth and their neighbours, about a million.
fn printed(d: &mut Draw) -> f64 {
    let x = match d.below(4) {
        0 => (2 * d.whole(0, 4000) + 1) as f64 / 16.0,
        1 => (2 * d.whole(0, 2_000_000) + 1) as f64 / 2000.0,
        2 => 1_000_000.0 + d.pick(&[0.0, 0.0004, 0.0005, 0.0006, 1.0, -0.0005]),
        _ => d.magnitude(-14, 19).abs(),
    };
    d.near(x, 1) * d.sign()
}

fn well_formed(d: &mut Draw) -> Vec<u8> {
    let mut file = Vec::new();
    for _ in 0..d.below(5) {
        let kind = any_kind(d);
        file.extend(edge_record(&edge(d, kind)));
    }
    file.extend(END_RECORD);
    file
}

fn at_limits(d: &mut Draw) -> Vec<u8> {
    let mut file = Vec::new();
    for _ in 0..=d.below(3) {
        let kind = any_kind(d);
        let mut e = edge(d, kind);
        match d.below(4) {
            0 => spoil(d, &mut e),
            // A point as an edge: its corners are its coordinates.
            1 => {
                e[6] = 0.0;
                e[..3].fill_with(|| printed(d));
                e.copy_within(..3, 7);
                e.copy_within(..3, 10);
            }
            _ => e[7..].fill_with(|| printed(d)),
        }
        file.extend(edge_record(&e));
    }
    file.extend(END_RECORD);
    file
}

fn truncated(d: &mut Draw) -> Vec<u8> {
    let mut file = if d.below(4) == 0 { at_limits(d) } else { well_formed(d) };
    file.truncate(d.below(file.len() as u64) as usize);
    file
}

/// A byte changed, put in, taken out or put at the end; records twice; an end in the middle.
fn mutated(d: &mut Draw) -> Vec<u8> {
    let mut file = if d.below(4) == 0 { at_limits(d) } else { well_formed(d) };
    for _ in 0..=d.below(2) {
        let byte = [d.bits() as u8, 0, 1, 104, 127][d.below(5) as usize];
        // Every other change hits the head of a record.
        let mut k = d.below(file.len() as u64) as usize;
        if d.below(2) == 0 {
            k = (k - k % 107 + d.below(3) as usize).min(file.len() - 1);
        }
        match d.below(6) {
            0 => file[k] = byte,
            1 => file[k] ^= 1 << d.below(8),
            2 => file.insert(k, byte),
            3 if file.len() > 1 => drop(file.remove(k)),
            4 => file.push(byte),
            _ => {
                let k = k - k % 107;
                file.splice(k..k, END_RECORD);
            }
        }
    }
    file
}

fn random(d: &mut Draw) -> Vec<u8> {
    let length = d.below(400);
    let likely = d.below(2) == 0;
    (0..length).map(|_| if likely && d.below(2) == 0 { [0, 1, 104, 127][d.below(4) as usize] } else { d.bits() as u8 }).collect()
}

type Files = (&'static str, fn(&mut Draw) -> Vec<u8>);
const FILES: &[Files] =
    &[("well formed", well_formed), ("numbers at the limits", at_limits), ("mutated", mutated), ("truncated", truncated), ("random bytes", random)];

// --- runs ---

/// A child that a worker waits for, where the watch can end it.
type Watched = Mutex<Option<(Child, Instant)>>;

/// What the program writes, and whether it ended well.
fn run(program: &str, file: &[u8], watched: &Watched) -> Result<Vec<u8>, String> {
    let mut child = Command::new(program).stdin(Stdio::piped()).stdout(Stdio::piped()).spawn().map_err(|e| format!("{program}: {e}"))?;
    let (mut stdin, mut stdout) = (child.stdin.take().unwrap(), child.stdout.take().unwrap());
    *watched.lock().unwrap() = Some((child, Instant::now()));
    // The program may end before it has read all.
    let _ = stdin.write_all(file);
    drop(stdin);
    let mut out = Vec::new();
    let read = stdout.read_to_end(&mut out);
    let (mut child, _) = watched.lock().unwrap().take().unwrap();
    let status = child.wait().map_err(|e| e.to_string())?;
    read.map_err(|e| e.to_string())?;
    if status.success() { Ok(out) } else { Err(format!("it ended with {status}")) }
}

/// What is wrong with a run, if anything, and what kind of line was due.
fn judge(program: &str, file: &[u8], watched: &Watched) -> (String, Option<String>) {
    let due = line(file, by_second_reading);
    let kind = due.split(" record").next().unwrap();
    let kind = if kind.starts_with("box") { "box" } else { kind };
    let rust = line(file, by_rust);
    let wrong = match run(program, file, watched) {
        _ if rust != due => Some(format!("the Rust's own line is {rust:?}, due {due:?}")),
        Err(why) => Some(format!("{why}, due {due:?}")),
        Ok(out) if out != format!("{due}\n").as_bytes() => Some(format!("printed {:?}, due {due:?}", String::from_utf8_lossy(&out))),
        Ok(_) => None,
    };
    (kind.into(), wrong)
}

pub fn fuzz(program: &str, count: u64, seed: u64, workers: usize) -> bool {
    let (next, over, failed) = (AtomicU64::new(0), AtomicBool::new(false), AtomicU64::new(0));
    let tally = Mutex::new(BTreeMap::<(usize, String), u64>::new());
    let watched: Vec<Watched> = (0..workers).map(|_| Mutex::new(None)).collect();
    let work = |mine: &Watched| {
        let mut counts = BTreeMap::new();
        loop {
            let k = next.fetch_add(1, Ordering::Relaxed);
            if k >= count {
                break;
            }
            let class = (k % FILES.len() as u64) as usize;
            // Each file by its own number, whichever worker takes it.
            let mut d = Draw::new(seed.wrapping_mul(0x1_0000_0000_01b3).wrapping_add(k));
            let file = FILES[class].1(&mut d);
            let (kind, wrong) = judge(program, &file, mine);
            *counts.entry((class, kind)).or_insert(0) += 1;
            if let Some(why) = wrong {
                if failed.fetch_add(1, Ordering::Relaxed) == 0 {
                    println!("first difference: file {k} ({}): {why}", FILES[class].0);
                    println!("  {}", file.iter().map(|b| format!("{b:02x}")).collect::<String>());
                }
            }
        }
        let mut all = tally.lock().unwrap();
        for (key, n) in counts {
            *all.entry(key).or_insert(0) += n;
        }
    };
    std::thread::scope(|s| {
        let workers: Vec<_> = watched.iter().map(|mine| s.spawn(|| work(mine))).collect();
        s.spawn(|| {
            while !over.load(Ordering::Relaxed) {
                for slot in &watched {
                    if let Some((child, since)) = slot.lock().unwrap().as_mut().filter(|(_, since)| since.elapsed() > PATIENCE) {
                        let _ = (child.kill(), since);
                    }
                }
                std::thread::sleep(Duration::from_millis(200));
            }
        });
        workers.into_iter().for_each(|w| w.join().unwrap());
        over.store(true, Ordering::Relaxed);
    });
    println!("{:<24} {:<12} {:>9}", "files", "line", "compared");
    for ((class, kind), n) in tally.into_inner().unwrap() {
        println!("{:<24} {kind:<12} {n:>9}", FILES[class].0);
    }
    let failed = failed.into_inner();
    println!("{count} files, seed {seed}: {}", if failed == 0 { "the same line for each".into() } else { format!("{failed} different") });
    failed == 0
}
