//! The driver: the Rust, the port and a second reading of the refusals, on the same inputs.
//!
//!     driver compare [--count N] [--seed S] [--only NAME]   table of comparisons, status 1 on a difference
//!     driver second [--count N] [--seed S] [--only NAME]    the second reading beside the Rust, with no port
//!     driver bench [--only NAME]                            nanoseconds of a Rust program's call on both sides
//!     driver hash [--count N] [--seed S]                    a sum over the Rust's answers, for another build
//!     driver edgebox                                        what `edgebox` prints, by the Rust
//!     driver fuzz --program FILE [--count N] [--seed S]     edge files through that program, status 1 on a difference
//!     driver replay [--count N] [--seed S]                  N answers of each class of each entry, a line each
//!     driver operations                                     the numbers under which these lines name the entries
//!     driver answers --only NAME [--count N] [--seed S]     drawn calls and their answers, as binary numbers
//!     driver arcs [--count N] [--seed S]                    an edge file of that many pipes' arcs
//!     driver straight-cuts [--count N] [--seed S]           how far outside their boxes straight pieces' points lie, status 1
//!                                                           beyond 2^-33 mm

#[allow(dead_code)]
#[path = "../target/oracle/cut/curve.rs"]
mod curve;
#[path = "../target/oracle/cut/missing.rs"]
mod missing;
#[path = "../target/oracle/cut/plane.rs"]
mod plane;
#[path = "../target/oracle/cut/profile_arc.rs"]
mod profile_arc;

// The names under which curve.rs asks for them.
use plane::Plane;
use profile_arc::ProfileArc;

mod answers;
mod arcs;
mod bench;
mod callers;
mod classes;
mod compare;
mod curves;
mod developments;
mod draw;
mod edges;
mod elementary;
mod entry;
mod faces;
mod fuzz;
mod motions;
mod pieces;
mod replay;
mod rounding;
mod shapes;
mod straight_cuts;
mod track;
mod traces;
mod vectors;

use std::io::Write;
use std::os::fd::AsFd;

use entry::Entry;

/// All entries, group by group. Their places number the operations of the replayed list: new groups go to the end.
fn entries() -> Vec<&'static Entry> {
    let groups = [
        rounding::ENTRIES,
        elementary::ENTRIES,
        vectors::ENTRIES,
        motions::ENTRIES,
        arcs::ENTRIES,
        developments::ENTRIES,
        traces::ENTRIES,
        pieces::ENTRIES,
        curves::ENTRIES,
        faces::ENTRIES,
        curves::LISTS,
        faces::WHOLE,
    ];
    groups.into_iter().flatten().collect()
}

struct Options {
    count: Option<u64>,
    seed: u64,
    only: Option<String>,
    program: String,
}

fn options(mut words: impl Iterator<Item = String>) -> Result<Options, String> {
    let mut chosen = Options { count: None, seed: 1, only: None, program: String::new() };
    while let Some(word) = words.next() {
        let value = words.next().ok_or(format!("{word} needs a value"))?;
        let number = || value.parse().map_err(|_| format!("{word}: {value} is no number"));
        match word.as_str() {
            "--count" => chosen.count = Some(number()?),
            "--seed" => chosen.seed = number()?,
            "--only" => chosen.only = Some(value),
            "--program" => chosen.program = value,
            _ => return Err(format!("unknown option {word}")),
        }
    }
    Ok(chosen)
}

/// An edge file of pipes' arcs on standard output.
fn arcs_file(count: u64, seed: u64) -> bool {
    let mut d = draw::Draw::new(seed);
    let mut out = std::io::BufWriter::new(std::io::stdout().lock());
    let mut write = || -> std::io::Result<()> {
        for _ in 0..count {
            out.write_all(&edges::edge_record(&arcs::edge(&mut d, arcs::Kind::Pipe)))?;
        }
        out.write_all(&edges::END_RECORD)?;
        out.flush()
    };
    write().is_ok()
}

fn main() {
    let mut words = std::env::args().skip(1);
    let mode = words.next().unwrap_or_default();
    let chosen = match options(words) {
        Ok(chosen) => chosen,
        Err(why) => {
            eprintln!("driver: {why}");
            std::process::exit(2);
        }
    };
    let all = entries();
    let mut entries = all.clone();
    if mode != "second" && mode != "answers" {
        entries.retain(|e| !e.port_name.split(' ').any(|name| missing::MISSING.contains(&name)));
    }
    if let Some(name) = &chosen.only {
        entries.retain(|e| e.name == name);
        if entries.is_empty() {
            eprintln!("driver: the port has no entry {name}");
            std::process::exit(2);
        }
    }
    let well = match mode.as_str() {
        "compare" => compare::compare(&entries, chosen.count, chosen.seed),
        "second" => compare::second(&entries, chosen.count, chosen.seed),
        "hash" => compare::hash(&entries, chosen.count.unwrap_or(50_000), chosen.seed),
        "bench" => bench::bench(&entries, chosen.seed),
        "edgebox" => {
            // One record in memory and one read for each, as the port has it; standard input's own buffer would hold eighty.
            let input = std::fs::File::from(std::io::stdin().as_fd().try_clone_to_owned().expect("standard input"));
            println!("{}", edges::line(std::io::BufReader::with_capacity(edges::RECORD, input), edges::by_rust));
            true
        }
        "fuzz" => fuzz::fuzz(&chosen.program, chosen.count.unwrap_or(1_000_000), chosen.seed, 2),
        "replay" => replay::replay(&all, chosen.count.unwrap_or(15), chosen.seed),
        "operations" => replay::operations(&all),
        "answers" if entries.len() == 1 => answers::answers(entries[0], chosen.count.unwrap_or(100_000), chosen.seed),
        "arcs" => arcs_file(chosen.count.unwrap_or(1_000_000), chosen.seed),
        "straight-cuts" => straight_cuts::straight_cuts(chosen.count.unwrap_or(1_000_000), chosen.seed),
        _ => {
            eprintln!("driver: unknown mode {mode:?}");
            std::process::exit(2);
        }
    };
    std::process::exit(if well { 0 } else { 1 });
}
