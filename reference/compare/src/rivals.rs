//! Compares the bench's rivals with the second program on random programs, so that what is timed follows the same rules. Prints what was
//! compared, and at a difference its seed, the rival, what each gave, and a listing. REPEAT=x takes x times as many seeds.

use compare::machines::{budget, mask, Machine};
use compare::random::Random;
use compare::report::{compare, repeated, same, Reach, Stored, Tally, VECTORS};
use reference::machine::{Record, Status};
use reference::run::run_seen;
use std::ffi::{c_char, CStr};

/// A record, its numbers in the order of reference/bench/rival.h.
#[repr(C)]
#[derive(Debug, PartialEq)]
struct RivalRecord {
    enabled: u8,
    last: u8,
    threads: [[u8; 4]; 8],
    turns: [u32; 8],
}

/// A rival as reference/bench/rival.h has it.
#[repr(C)]
struct Rival {
    name: *const c_char,
    run: extern "C" fn(*const u32, usize, *mut u32, *mut u8, usize, *mut RivalRecord, u32, *mut u32, *mut u64) -> u32,
}

extern "C" {
    fn rivals(count: *mut usize) -> *const Rival;
}

fn all_rivals() -> &'static [Rival] {
    let mut count = 0;
    unsafe { std::slice::from_raw_parts(rivals(&mut count), count) }
}

fn rival_record(record: &Record) -> RivalRecord {
    let entry = |status| match status {
        Status::Idle => [0, 0, 0, 0],
        Status::Running => [1, 0, 0, 0],
        Status::Ended => [2, 0, 0, 0],
        Status::Trapped(reason) => [3, reason, 0, 0],
        Status::Waiting { id, count } => [4, 0, id, count],
    };
    RivalRecord { enabled: record.enabled, last: record.last, threads: record.threads.map(entry), turns: record.turns }
}

/// One run by the second program, and by each rival on a copy of the machine.
fn run_all(machine: &mut Machine, program: &[u32], budget: u32, tally: &mut Tally) {
    tally.show(program);
    let (before, mut stored) = (machine.clone(), Stored::default());
    let seen = |t, moved| tally.issued(t, moved, &mut stored);
    let (answer, made, looks) = run_seen(program, &mut machine.room, &mut machine.memory, &mut machine.record, budget, seen);
    let ending = answer.expect("a run that is not refused");
    for rival in all_rivals() {
        let name = unsafe { CStr::from_ptr(rival.name) }.to_string_lossy();
        let mut m = before.clone();
        let (mut record, mut issues, mut looked) = (rival_record(&m.record), 9, 9);
        let (room, memory) = (m.room.as_mut_ptr(), m.memory.as_mut_ptr());
        let number =
            (rival.run)(program.as_ptr(), program.len(), room, memory, m.memory.len(), &mut record, budget, &mut issues, &mut looked);
        // stopped, stuck and spent are 1, 2 and 3 there
        assert_eq!((ending as u32 + 1, made, looks), (number, issues, looked), "{name}, budget {budget}");
        assert_eq!(rival_record(&machine.record), record, "{name}");
        same(&format!("{name}: register word"), &machine.room, &m.room);
        same(&format!("{name}: memory byte"), &machine.memory, &m.memory);
        tally.met(0);
    }
    tally.ran(made, looks, ending, &before.record, &machine.record);
}

fn lists(seed: u64, tally: &mut Tally) {
    let mut random = Random::new(seed ^ 0x5269_7661);
    let mask = mask(&mut random);
    let mut machine = Machine::started(&mut random, mask);
    machine.fill_registers(&mut random);
    for _ in 0..1 + random.below(6) {
        let budget = budget(&mut random);
        let program = random.program();
        machine.prepare(&mut random, program.len());
        run_all(&mut machine, &program, budget, tally);
    }
}

fn main() {
    std::panic::set_hook(Box::new(|_| {}));
    if !compare("runs of the rivals", repeated(20_000), Reach::Kinds(&VECTORS), lists) {
        std::process::exit(1);
    }
}
