//! What a comparison met: cases, issues and numbers, or the first difference with its seed and its program.

use crate::floats::Kinds;
use reference::machine::{Record, Status};
use reference::run::{Ending, Moved};
use std::any::Any;
use std::cell::RefCell;
use std::ops::RangeInclusive;
use std::panic::{catch_unwind, AssertUnwindSafe};
use std::sync::atomic::{AtomicU64, Ordering};
use std::thread::{available_parallelism, scope};

/// What is counted of vectors: those at no multiple of 64, and those stored over a part of the last one of another thread in that run.
pub const VECTORS: [&str; 2] = ["vectors over two blocks", "vectors stored over a part of another thread's"];

/// The most kinds of cases that a comparison counts.
const KINDS: usize = 32;

/// The numbers that calls give: those of documents 01 and 02 so far.
const NUMBERS: usize = 21;

/// The last vector that each thread stored in a run.
pub type Stored = [Option<Moved>; 8];

#[derive(Default)]
pub struct Tally {
    cases: u64,
    issues: u64,
    looks: u64,
    numbers: [u64; NUMBERS],
    endings: [u64; 3],
    traps: [u64; 7],
    /// By kind of case, as the comparison names them.
    kinds: [u64; KINDS],
    pub floats: Kinds,
    wrapped: u64,
    /// The program of the case, for the listing of a difference.
    program: RefCell<Vec<u32>>,
}

impl Tally {
    /// Keeps the words of the case.
    pub fn show(&self, words: &[u32]) {
        let mut program = self.program.borrow_mut();
        program.clear();
        program.extend_from_slice(words);
    }

    /// A run that was made: its issues and looks, how it ended, and the reasons of the threads that it trapped.
    pub fn ran(&mut self, issues: u32, looks: u64, ending: Ending, before: &Record, after: &Record) {
        self.issues += issues as u64;
        self.looks += looks;
        self.endings[ending as usize] += 1;
        self.wrapped += before.turns.iter().zip(&after.turns).filter(|(old, new)| old > new).count() as u64;
        for (old, new) in before.threads.iter().zip(&after.threads) {
            if let (true, Status::Trapped(reason)) = (old != new, new) {
                self.traps[*reason as usize] += 1;
            }
        }
    }

    /// An issue of thread t, and the vector that it moved.
    pub fn issued(&mut self, t: usize, moved: Option<Moved>, stored: &mut Stored) {
        let Some(vector) = moved else { return };
        self.kinds[0] += (vector.at % 64 != 0) as u64;
        if vector.is_store {
            stored[t] = None;
            self.kinds[1] += stored.iter().flatten().any(|other| overlap(*other, vector)) as u64;
            stored[t] = Some(vector);
        }
    }

    /// A case of a kind.
    pub fn of_kind(&mut self, kind: usize) {
        self.kinds[kind] += 1;
    }

    /// One call compared, and the number that both sides gave.
    pub fn met(&mut self, number: u32) {
        self.cases += 1;
        self.numbers[number as usize] += 1;
    }
}

/// Whether lanes of two vectors at different addresses that were on share bytes.
fn overlap(a: Moved, b: Moved) -> bool {
    let (low, high) = if a.at < b.at { (a, b) } else { (b, a) };
    let apart = (high.at - low.at) / 4;
    (1..16).contains(&apart) && low.lanes >> apart & high.lanes != 0
}

/// Panics with the first place where two lists differ.
pub fn same<T: PartialEq + std::fmt::Debug>(what: &str, expected: &[T], found: &[T]) {
    if expected == found {
        return;
    }
    assert_eq!(expected.len(), found.len(), "{what}: length");
    let i = (0..found.len()).find(|i| expected[*i] != found[*i]).expect("a place that differs");
    panic!("{what} {i}: the second program has {:?}, the other {:?}", expected[i], found[i]);
}

/// The program of a case, as a listing.
fn print_program(program: &[u32]) {
    let bytes: Vec<u8> = program.iter().take(200).flat_map(|w| w.to_le_bytes()).collect();
    if !bytes.is_empty() {
        println!("{}", reference::listing::listing(&bytes));
    }
}

/// What a panic said.
fn message(panic: Box<dyn Any + Send>) -> String {
    panic.downcast::<String>().map_or_else(|_| "a panic without a text".to_string(), |text| *text)
}

/// Every n-th seed, up to the first that differs in any thread: so that it is the same one whatever the number of threads.
fn part(seeds: impl Iterator<Item = u64>, first: &AtomicU64, case: &impl Fn(u64, &mut Tally)) -> (Tally, Option<(u64, String)>) {
    let mut tally = Tally::default();
    for seed in seeds {
        if seed > first.load(Ordering::Relaxed) {
            break;
        }
        if let Err(panic) = catch_unwind(AssertUnwindSafe(|| case(seed, &mut tally))) {
            first.fetch_min(seed, Ordering::Relaxed);
            return (tally, Some((seed, message(panic))));
        }
    }
    (tally, None)
}

/// The counts that are not 0, with their names.
fn list(what: &str, counts: &[(String, u64)]) -> String {
    let met: Vec<String> = counts.iter().filter(|(_, n)| *n > 0).map(|(name, n)| format!("{name}: {n}")).collect();
    if met.is_empty() {
        String::new()
    } else {
        format!("; {what}{}", met.join(", "))
    }
}

/// The float cases of several tallies.
fn floats(tallies: &[&Tally]) -> Kinds {
    let mut all = Kinds::default();
    tallies.iter().for_each(|tally| all.add(&tally.floats));
    all
}

/// What several tallies met in all.
fn summary(tallies: &[&Tally], reach: Reach) -> String {
    let sum = |of: &dyn Fn(&Tally) -> u64| tallies.iter().map(|tally| of(tally)).sum::<u64>();
    let named = |what: &str, names: &[String], of: &dyn Fn(&Tally, usize) -> u64| {
        let counts: Vec<(String, u64)> = names.iter().enumerate().map(|(i, name)| (name.clone(), sum(&|tally| of(tally, i)))).collect();
        list(what, &counts)
    };
    let digits: Vec<String> = (0..NUMBERS).map(|n| n.to_string()).collect();
    let endings = ["stopped", "stuck", "spent"].map(String::from);
    let issues = named("", &["issues", "looks"].map(String::from), &|tally, i| [tally.issues, tally.looks][i]);
    let numbers = named("numbers ", &digits, &|tally, i| tally.numbers[i]);
    let ended = named("", &endings, &|tally, i| tally.endings[i]);
    let traps = named("traps ", &digits[..7], &|tally, i| tally.traps[i]);
    let names: Vec<String> = reach.kinds().iter().map(|kind| kind.to_string()).collect();
    let kinds = named("", &names, &|tally, i| tally.kinds[i]);
    let wrapped = named("counts of turns ", &["that wrapped".to_string()], &|tally, _| tally.wrapped);
    let floats = list("float cases ", &floats(tallies).sums());
    format!("{} calls{numbers}{issues}{ended}{traps}{kinds}{wrapped}{floats}", sum(&|tally| tally.cases))
}

/// What a comparison has to meet, so that one which no longer reaches it is noticed.
#[derive(Clone, Copy)]
pub enum Reach {
    Anything,
    /// A case of each of these kinds.
    Kinds(&'static [&'static str]),
    /// Of every float operation cases of every kind, in scalars and in lanes.
    Floats,
}

impl Reach {
    /// The kinds of cases that a tally counts by their place.
    fn kinds(self) -> &'static [&'static str] {
        match self {
            Reach::Kinds(kinds) => kinds,
            Reach::Anything | Reach::Floats => &[],
        }
    }

    /// What was not met.
    fn missing(self, tallies: &[&Tally]) -> Option<String> {
        match self {
            Reach::Anything => None,
            Reach::Kinds(kinds) => {
                let none = (0..kinds.len()).find(|i| tallies.iter().all(|tally| tally.kinds[*i] == 0));
                none.map(|i| kinds[i].to_string())
            }
            Reach::Floats => floats(tallies).missing(),
        }
    }
}

/// The seeds of a random comparison: so many, or REPEAT times as many; at least one.
pub fn repeated(seeds: u64) -> RangeInclusive<u64> {
    let repeat: f64 = std::env::var("REPEAT").map_or(1.0, |x| x.parse().expect("REPEAT is a number"));
    1..=((seeds as f64 * repeat) as u64).max(1)
}

/// Runs a comparison over its seeds, on every processor; whether no difference was met, and all that it has to meet was.
pub fn compare(name: &str, seeds: RangeInclusive<u64>, reach: Reach, case: impl Fn(u64, &mut Tally) + Sync) -> bool {
    let threads = available_parallelism().map_or(1, |n| n.get());
    let (first, case) = (AtomicU64::new(u64::MAX), &case);
    let parts: Vec<(Tally, Option<(u64, String)>)> = scope(|s| {
        let running: Vec<_> = (0..threads)
            .map(|start| {
                let (seeds, first) = (seeds.clone().skip(start).step_by(threads), &first);
                s.spawn(move || part(seeds, first, case))
            })
            .collect();
        running.into_iter().map(|thread| thread.join().unwrap()).collect()
    });
    let differences = parts.iter().filter_map(|(tally, difference)| difference.as_ref().map(|(seed, text)| (seed, text, tally)));
    if let Some((seed, text, tally)) = differences.min_by_key(|(seed, ..)| **seed) {
        println!("{name}: difference at seed {seed}: {text}");
        print_program(&tally.program.borrow());
        return false;
    }
    let tallies: Vec<&Tally> = parts.iter().map(|(tally, _)| tally).collect();
    println!("{name}: {}", summary(&tallies, reach));
    let missing = reach.missing(&tallies);
    if let Some(kind) = &missing {
        println!("{name}: none was met of {kind}");
    }
    missing.is_none()
}
