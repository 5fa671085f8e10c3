//! Compares the proved C library with the second program, on every upper half word and on random and hostile input by fixed seeds: whole
//! states and not samples of them. Prints what was compared, and at a difference its seed, what each side gave, and a listing.
//! Arguments name the parts to compare, none all but 'all-words' and 'all-conversions'. REPEAT=x takes x times as many random seeds.

mod hex;
mod images;
mod library;
mod lines;
mod night;
mod records;
mod runs;
mod sources;
mod traces;
mod words;

use compare::report::{compare, repeated, Reach, Tally, VECTORS};
use std::ops::RangeInclusive;

/// A part of the comparison: its name, what it compares, the seeds of its cases, and what it has to meet.
struct Part<'a> {
    name: &'a str,
    title: &'a str,
    seeds: RangeInclusive<u64>,
    reach: Reach,
    case: &'a (dyn Fn(u64, &mut Tally) + Sync),
}

fn main() {
    // A difference is a panic, which the report prints with its seed.
    std::panic::set_hook(Box::new(|_| {}));
    let verdicts = records::Verdicts::new();
    let refusals = |seed, tally: &mut Tally| runs::refusals(seed, &verdicts, tally);
    let night = |seed, tally: &mut Tally| night::calls(seed, &verdicts, tally);
    let traced_refusals = |seed, tally: &mut Tally| traces::refusals(seed, &verdicts, tally);
    let images = |seed, tally: &mut Tally| images::both_ways(seed, &verdicts, tally);
    let (names, edges) = (sources::names(), reference::sources::all());
    let assembling = |seed, tally: &mut Tally| sources::assembling(seed, &names, tally);
    let boundary = |seed: u64, tally: &mut Tally| sources::boundary(&edges[seed as usize], &names, tally);
    let parts = [
        Part {
            name: "words",
            title: "words read, named and written again",
            seeds: 0..=0xFFFF,
            reach: Reach::Anything,
            case: &words::reading,
        },
        Part {
            name: "all-words",
            title: "all words read, named and written again",
            seeds: 0..=0xFFFF,
            reach: Reach::Anything,
            case: &words::reading_all,
        },
        Part {
            name: "writing",
            title: "instructions written",
            seeds: 0..=words::FORMATS * words::OPCODES - 1,
            reach: Reach::Anything,
            case: &words::writing,
        },
        Part { name: "runs", title: "lists of runs", seeds: repeated(2_000_000), reach: Reach::Kinds(&VECTORS), case: &runs::lists },
        Part {
            name: "compares",
            title: "compares of operands at the edges",
            seeds: 0..=runs::COMPARES - 1,
            reach: Reach::Anything,
            case: &runs::compares,
        },
        Part {
            name: "floats",
            title: "float operations on floats of every kind",
            seeds: repeated(4_800),
            reach: Reach::Floats,
            case: &runs::floats,
        },
        Part {
            name: "all-conversions",
            title: "48 and 49 of all words",
            seeds: 0..=0xFFFF,
            reach: Reach::Anything,
            case: &runs::conversions,
        },
        Part {
            name: "refusals",
            title: "hostile records run, and starts",
            seeds: repeated(200_000),
            reach: Reach::Anything,
            case: &refusals,
        },
        Part {
            name: "traces",
            title: "lists of traced runs",
            seeds: repeated(100_000),
            reach: Reach::Kinds(&traces::KINDS),
            case: &traces::lists,
        },
        Part {
            name: "traced-refusals",
            title: "hostile records run traced",
            seeds: repeated(50_000),
            reach: Reach::Anything,
            case: &traced_refusals,
        },
        Part {
            name: "hex",
            title: "Intel HEX imported",
            seeds: repeated(100_000),
            reach: Reach::Kinds(&hex::KINDS),
            case: &hex::importing,
        },
        Part {
            name: "hex-export",
            title: "programs exported and imported",
            seeds: repeated(20_000),
            reach: Reach::Kinds(&hex::SIZES),
            case: &hex::exporting,
        },
        Part {
            name: "sources",
            title: "programs as text assembled",
            seeds: repeated(100_000),
            reach: Reach::Kinds(&sources::KINDS),
            case: &assembling,
        },
        Part {
            name: "source-edges",
            title: "texts at their boundaries",
            seeds: 0..=edges.len() as u64 - 1,
            reach: Reach::Anything,
            case: &boundary,
        },
        Part {
            name: "years",
            title: "years of minutes",
            seeds: repeated(6),
            reach: Reach::Anything,
            case: &night::years,
        },
        Part {
            name: "night",
            title: "minutes of the night box",
            seeds: repeated(30_000),
            reach: Reach::Kinds(&night::KINDS),
            case: &night,
        },
        Part {
            name: "lines",
            title: "lines of the night box",
            seeds: repeated(400),
            reach: Reach::Kinds(&lines::KINDS),
            case: &lines::printed,
        },
        Part {
            name: "images",
            title: "hostile records and images written and read",
            seeds: repeated(200_000),
            reach: Reach::Anything,
            case: &images,
        },
    ];
    let wanted: Vec<String> = std::env::args().skip(1).collect();
    if let Some(name) = wanted.iter().find(|name| parts.iter().all(|part| part.name != **name)) {
        eprintln!("compare: there is no part '{name}'");
        std::process::exit(2);
    }
    let is_wanted =
        |part: &Part| if wanted.is_empty() { !part.name.starts_with("all-") } else { wanted.iter().any(|name| name == part.name) };
    let same: Vec<bool> =
        parts.iter().filter(|part| is_wanted(part)).map(|part| compare(part.title, part.seeds.clone(), part.reach, part.case)).collect();
    let passed = same.iter().filter(|x| **x).count();
    println!("{passed} passed, {} failed", same.len() - passed);
    if passed < same.len() {
        std::process::exit(1);
    }
}
