//! Traced runs: the rows, and in all else the plain run with the smaller of the budget and the list's length.

use crate::library::{self, ending_number, record_bytes};
use crate::records::{any_record, damaged, stand_in, Verdicts};
use crate::runs::Pair;
use compare::machines::{budget, Machine};
use compare::random::Random;
use compare::report::{same, Tally};
use reference::machine::{Record, Status, ROOM_WORDS};
use reference::trace::{run_traced, Row};

/// The lengths of lists that are compared, and what a list left over.
pub const KINDS: [&str; 12] = [
    "lists of no row",
    "lists of one row",
    "lists a row short of the budget",
    "lists as long as the budget",
    "longer lists",
    "lists with a part of a row left over",
    "runs that ended before their list did",
    "rows of a trap",
    "rows of a wait",
    "rows of an undefined word other than 0",
    "rows of no word",
    "runs of more than 64 rows",
];

/// The numbers that a row takes, as the header has it.
const ROW: usize = 7;

fn numbers(row: &Row) -> [u32; ROW] {
    let (status, reason, id, count) = match row.status {
        Status::Idle => (0, 0, 0, 0),
        Status::Running => (1, 0, 0, 0),
        Status::Ended => (2, 0, 0, 0),
        Status::Trapped(reason) => (3, reason, 0, 0),
        Status::Waiting { id, count } => (4, 0, id, count),
    };
    [row.thread as u32, row.address, row.word, status, reason as u32, id as u32, count as u32]
}

/// A row that stands in a list before a run: what the second program leaves of it is what the library has to leave.
fn any_row(random: &mut Random) -> Row {
    let (a, b) = (random.word() as u8, random.word() as u8);
    let status = if random.one_in(2) { Status::Trapped(a) } else { Status::Waiting { id: a, count: b } };
    Row { thread: random.word() as u8, address: random.word() as u32, word: random.word() as u32, status }
}

/// A list as numbers, with what is left over behind its rows.
fn list(rows: &[Row], rest: &[u32]) -> Vec<u32> {
    rows.iter().flat_map(numbers).chain(rest.iter().copied()).collect()
}

/// How long a list is for a budget, by kind.
fn length(kind: usize, budget: u32, random: &mut Random) -> usize {
    let budget = budget as usize;
    match kind {
        0 => 0,
        1 => 1,
        2 => budget.saturating_sub(1),
        3 => budget,
        _ => budget + 1 + random.below(80) as usize,
    }
}

/// One traced run on both sides, with a list that holds any numbers before: of the second program the record, of the library its bytes.
fn traced(pair: &mut Pair, program: &[u32], mut record: Record, budget: u32, number: Option<u32>, random: &mut Random, tally: &mut Tally) {
    tally.show(program);
    let kind = random.below(5) as usize;
    let length = length(kind, budget, random);
    let left_over = random.below(ROW as u64) as usize;
    let mut rows: Vec<Row> = (0..length).map(|_| any_row(random)).collect();
    let rest: Vec<u32> = (0..left_over).map(|_| random.word() as u32).collect();
    let mut rows2 = list(&rows, &rest);
    let (before, bytes) = (record, pair.record2);
    let m = &mut pair.machine;
    let (answer, made, looks) = run_traced(program, &mut m.room, &mut m.memory, &mut record, budget, &mut rows);
    for row in &rows[..made as usize] {
        match row.status {
            Status::Trapped(_) => tally.of_kind(7),
            Status::Waiting { .. } => tally.of_kind(8),
            _ => (),
        }
        if row.word != 0 && row.status == Status::Trapped(3) {
            tally.of_kind(9);
        }
        if row.word == 0 && row.status == Status::Trapped(4) {
            tally.of_kind(10);
        }
    }
    let mut result = [9; 4];
    let (room2, memory2) = (&mut pair.room2, &mut pair.memory2);
    let answered = library::run_traced(program, room2, memory2, &mut pair.record2, budget, &mut rows2, &mut result);
    match answer {
        Ok(ending) => {
            assert_eq!((answered, result), (0, [ending_number(ending), made, looks as u32, (looks >> 32) as u32]), "budget {budget}");
            same("record byte", &record_bytes(&record), &pair.record2);
            tally.ran(made, looks, ending, &before, &record);
            tally.of_kind(kind);
            if left_over > 0 {
                tally.of_kind(5);
            }
            if made > 64 {
                tally.of_kind(11);
            }
            if (made as usize) < length.min(budget as usize) {
                tally.of_kind(6);
            }
            m.record = record;
        }
        Err(n) => {
            let refusal = if n == 4 { number.unwrap_or(4) } else { n as u32 };
            assert_eq!((answered, result), (refusal, [0; 4]), "record {bytes:?}");
            same("refused record byte", &bytes, &pair.record2);
        }
    }
    same("number of a row", &list(&rows, &rest), &rows2);
    pair.same();
    tally.met(answered);
}

/// A list of traced runs with changing programs, budgets and lists, refused ones among them.
pub fn lists(seed: u64, tally: &mut Tally) {
    let mut random = Random::new(seed ^ 0x526F_7773);
    let mut pair = Pair::started(&mut random);
    for _ in 0..1 + random.below(4) {
        let budget = budget(&mut random);
        let program = if random.one_in(20) { vec![0x7000_0000; random.of(&[0, 16385])] } else { random.program() };
        pair.prepare(&mut random, program.len());
        let record = pair.machine.record;
        traced(&mut pair, &program, record, budget, None, &mut random, tally);
    }
}

/// A traced run whose program, room, memory or record may not be to be taken.
pub fn refusals(seed: u64, verdicts: &Verdicts, tally: &mut Tally) {
    let mut random = Random::new(seed ^ 0x526F_5265);
    let words = random.of(&[0, ROOM_WORDS - 1, ROOM_WORDS, ROOM_WORDS, ROOM_WORDS, ROOM_WORDS, ROOM_WORDS + 1]);
    let bytes = random.of(&[0, 63, 64, 64, 64, 64, 96, 65536, 65600]);
    let program = vec![0x7000_0000; random.of(&[0, 1, 1, 1, 1, 16384, 16385])];
    let record = any_record(&mut random);
    let opening = damaged(&mut random, record_bytes(&record));
    let machine = Machine { room: vec![seed as u32; words], memory: vec![seed as u8; bytes], record };
    let mut pair = Pair::new(machine, opening);
    let budget = random.below(20) as u32;
    match verdicts.of(&opening) {
        Ok(record) => traced(&mut pair, &program, record, budget, None, &mut random, tally),
        Err(number) => traced(&mut pair, &program, stand_in(&record, &opening), budget, Some(number), &mut random, tally),
    }
}
