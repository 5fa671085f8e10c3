//! The traced run (document 02, T-03).

use crate::machine::{Record, Status};
use crate::run::{run, Report};

/// "a lent list of trace rows, one for each issue in order: thread, address, word (0 where none was fetched), status after"
#[derive(Clone, Copy, PartialEq, Eq, Debug)]
pub struct Row {
    /// The thread issued.
    pub thread: u8,
    /// Its s63 before the issue, also where no word stands there.
    pub address: u32,
    /// The word there, whatever it reads as.
    pub word: u32,
    /// That thread's status after the issue, with what it carries.
    pub status: Status,
}

/// The word at an address, but none where it is "not a multiple of 4, or at or past the program's end".
fn fetched(program: &[u32], address: u32) -> Option<u32> {
    let index = address as usize / 4;
    program.get(index).copied().filter(|_| address % 4 == 0)
}

/// One issue of a machine in which a thread is running, and its row. It is a plain run of budget 1, so that a row is read off the states
/// before and after and knows nothing of how an issue is made.
fn issued(program: &[u32], room: &mut [u32], memory: &mut [u8], record: &mut Record) -> Row {
    let counters: [u32; 8] = std::array::from_fn(|t| room[64 * t + 63]);
    // "is issued, once, and becomes "last""
    run(program, room, memory, record, 1).0.expect("the run walked again was not refused");
    let thread = record.last;
    let address = counters[thread as usize];
    let word = fetched(program, address).unwrap_or(0);
    Row { thread, address, word, status: record.threads[thread as usize] }
}

/// "In all else it equals the plain run with the smaller of the budget and the list's length": that run is made, and its issues are walked
/// again, one by one, on a copy of the machine for their rows.
pub fn run_traced(program: &[u32], room: &mut [u32], memory: &mut [u8], record: &mut Record, budget: u32, rows: &mut [Row]) -> Report {
    let (mut room_copy, mut memory_copy, mut record_copy) = (room.to_vec(), memory.to_vec(), *record);
    let smaller = rows.len().min(budget as usize) as u32;
    let (answer, made, looks) = run(program, room, memory, record, smaller);
    // "Rows after the last issue keep their content."
    for row in rows.iter_mut().take(made as usize) {
        *row = issued(program, &mut room_copy, &mut memory_copy, &mut record_copy);
    }
    (answer, made, looks)
}

#[cfg(test)]
mod tests {
    use super::*;
    use crate::machine::{start, ROOM_WORDS};
    use crate::run::Ending;

    /// `jmp` to itself, 01's 0x70000000.
    const WAIT: u32 = 0x7000_0000;
    const END: u32 = 0x7A00_0000;
    /// 01's 0x62040004, 0x78001000, 0x7A000000: movei s1,1; barrier s0,s1, so id 0 and count 2; end.
    const MEETING: [u32; 3] = [0x6204_0004, 0x7800_1000, END];
    /// What a list holds before a run: no row that an issue gives.
    const OLD: Row = Row { thread: 200, address: 0x0BAD_0001, word: 0xFFFF_FFFF, status: Status::Idle };

    fn row(thread: u8, address: u32, word: u32, status: Status) -> Row {
        Row { thread, address, word, status }
    }

    #[derive(Clone, PartialEq, Debug)]
    struct Machine {
        room: Vec<u32>,
        memory: Vec<u8>,
        record: Record,
    }

    impl Machine {
        fn new(mask: u32) -> Machine {
            let mut room = vec![0; ROOM_WORDS];
            let record = start(mask, &mut room).unwrap();
            Machine { room, memory: vec![0; 64], record }
        }

        fn run(&mut self, program: &[u32], budget: u32) -> Report {
            run(program, &mut self.room, &mut self.memory, &mut self.record, budget)
        }

        /// A traced run with a list of so many old rows: what it reports and the whole list.
        fn traced(&mut self, program: &[u32], budget: u32, length: usize) -> (Report, Vec<Row>) {
            let mut rows = vec![OLD; length];
            let report = run_traced(program, &mut self.room, &mut self.memory, &mut self.record, budget, &mut rows);
            (report, rows)
        }
    }

    /// 01: "0x70000000 alone, mask 7, budget 7: issues 0,1,2,0,1,2,0, spent." A second run goes on from "last".
    #[test]
    fn turns() {
        let mut machine = Machine::new(7);
        let (report, rows) = machine.traced(&[WAIT], 7, 7);
        assert_eq!(report, (Ok(Ending::Spent), 7, (1 + 1 + 1) + (6 + 1 + 1) + 6 + 1));
        assert_eq!(rows, [0, 1, 2, 0, 1, 2, 0].map(|t| row(t, 0, WAIT, Status::Running)));
        let (report, rows) = machine.traced(&[WAIT], 3, 3);
        assert_eq!(report, (Ok(Ending::Spent), 3, 1 + 1 + 6 + 1));
        assert_eq!(rows, [1, 2, 0].map(|t| row(t, 0, WAIT, Status::Running)));
    }

    /// An address is the issued word's own: jmp 8, end, jmp -4.
    #[test]
    fn jumps() {
        let (ahead, back) = (0x7000_0008, 0x7003_FFFC);
        let (report, rows) = Machine::new(0x80).traced(&[ahead, END, back], 100, 3);
        assert_eq!(report, (Ok(Ending::Stopped), 3, 8 + 8 + 8 + 8));
        assert_eq!(rows, [row(7, 0, ahead, Status::Running), row(7, 8, back, Status::Running), row(7, 4, END, Status::Ended)]);
    }

    /// 01: "mask 3 stops after 6; mask 1 is stuck after 2." The thread that completes the meeting is running after its issue, and the row
    /// of the one that it sets going again says that it waited.
    #[test]
    fn barrier() {
        let met = Status::Waiting { id: 0, count: 2 };
        let expected = [
            row(0, 0, 0x6204_0004, Status::Running),
            row(1, 0, 0x6204_0004, Status::Running),
            row(0, 4, 0x7800_1000, met),
            row(1, 4, 0x7800_1000, Status::Running),
            row(0, 8, END, Status::Ended),
            row(1, 8, END, Status::Ended),
            OLD,
            OLD,
        ];
        let (report, rows) = Machine::new(3).traced(&MEETING, 100, 8);
        assert_eq!((report.0, report.1), (Ok(Ending::Stopped), 6));
        assert_eq!(rows, expected);
        let (report, rows) = Machine::new(1).traced(&MEETING, 100, 4);
        assert_eq!(report, (Ok(Ending::Stuck), 2, 1 + 8 + 8));
        assert_eq!(rows, [expected[0], row(0, 4, 0x7800_1000, met), OLD, OLD]);
    }

    /// Other ids and counts: barrier s0,s1 of four threads, with 31 and 2, 30 and 7, 31 and 2, 31 and 2 in these registers.
    #[test]
    fn barriers() {
        let mut machine = Machine::new(15);
        for (t, (id, less_one)) in [(31, 2), (30, 7), (31, 2), (31, 2)].into_iter().enumerate() {
            (machine.room[64 * t], machine.room[64 * t + 1]) = (id, less_one);
        }
        let (report, rows) = machine.traced(&[0x7800_1000, WAIT], 5, 5);
        assert_eq!(report, (Ok(Ending::Spent), 5, 1 + 1 + 1 + 1 + 5 + 2));
        let of_three = Status::Waiting { id: 31, count: 3 };
        let expected = [
            row(0, 0, 0x7800_1000, of_three),
            row(1, 0, 0x7800_1000, Status::Waiting { id: 30, count: 8 }),
            row(2, 0, 0x7800_1000, of_three),
            row(3, 0, 0x7800_1000, Status::Running),
            row(0, 4, WAIT, Status::Running),
        ];
        assert_eq!(rows, expected);
        // a count of 1 is met by the thread itself
        assert_eq!(Machine::new(1).traced(&[0x7800_0000], 1, 1).1, [row(0, 0, 0x7800_0000, Status::Running)]);
    }

    /// A word that was fetched stands in its row, whatever becomes of it; s1 and s2 are so many.
    #[test]
    fn traps() {
        let cases = [
            // undefined, 0 too; not fitted (T-08)
            (0x04FC_0000, 0, 3),
            (0x0000_0000, 0, 3),
            (0x2D00_0000, 0, 6),
            // load32 s2,(s1) in 64 bytes
            (0x8208_1000, 62, 1),
            (0x8208_1000, 64, 2),
            // jmp -4, jmp 2 and jmp 4 from the only word
            (0x7003_FFFC, 0, 4),
            (0x7000_0002, 0, 4),
            (0x7000_0004, 0, 4),
            // barrier s1,s0; readcr s1,s2
            (0x7804_0000, 32, 5),
            (0x7904_2000, 4, 6),
        ];
        for (word, n, reason) in cases {
            let mut machine = Machine::new(1);
            (machine.room[1], machine.room[2]) = (n, n);
            let (report, rows) = machine.traced(&[word], 9, 2);
            assert_eq!(report, (Ok(Ending::Stopped), 1, 1 + 8), "{word:08X}");
            assert_eq!(rows, [row(0, 0, word, Status::Trapped(reason)), OLD]);
        }
    }

    /// "0 where none was fetched": eight threads, each with its s63, in a program of two words.
    #[test]
    fn no_word() {
        let mut machine = Machine::new(255);
        let counters = [0, 1, 2, 4, 7, 8, 0x1_0000, 0xFFFF_FFFC];
        for (t, pc) in counters.into_iter().enumerate() {
            machine.room[64 * t + 63] = pc;
        }
        let (report, rows) = machine.traced(&[WAIT, END], 8, 8);
        assert_eq!(report, (Ok(Ending::Spent), 8, 8 + 1));
        let expected = [
            row(0, 0, WAIT, Status::Running),
            row(1, 1, 0, Status::Trapped(4)),
            row(2, 2, 0, Status::Trapped(4)),
            row(3, 4, END, Status::Ended),
            row(4, 7, 0, Status::Trapped(4)),
            row(5, 8, 0, Status::Trapped(4)),
            row(6, 0x1_0000, 0, Status::Trapped(4)),
            row(7, 0xFFFF_FFFC, 0, Status::Trapped(4)),
        ];
        assert_eq!(rows, expected);
    }

    /// The end of the longest program: its last word, then none. addi s0,s0,0 all along.
    #[test]
    fn end_of_program() {
        let mut machine = Machine::new(1);
        machine.room[63] = 0xFFFC;
        let (report, rows) = machine.traced(&[0x4400_0000; 16_384], 2, 2);
        assert_eq!(report, (Ok(Ending::Stopped), 2, 1 + 8 + 8));
        assert_eq!(rows, [row(0, 0xFFFC, 0x4400_0000, Status::Running), row(0, 0x1_0000, 0, Status::Trapped(4))]);
    }

    /// "the plain run with the smaller of the budget and the list's length": three threads that always run, budget 4, with the looks by
    /// T-13. "Rows after the last issue keep their content."
    #[test]
    fn lengths() {
        for (length, made, looks) in [(0, 0, 1), (1, 1, 2), (3, 3, 9), (4, 4, 10), (5, 4, 10), (9, 4, 10)] {
            let mut machine = Machine::new(7);
            let (report, rows) = machine.traced(&[WAIT], 4, length);
            assert_eq!(report, (Ok(Ending::Spent), made, looks), "{length} rows");
            let mut expected = vec![OLD; length];
            for (t, row) in [0, 1, 2, 0].into_iter().zip(&mut expected) {
                *row = Row { thread: t, address: 0, word: WAIT, status: Status::Running };
            }
            assert_eq!(rows, expected);
            assert_eq!(machine.record.turns.iter().sum::<u32>(), made);
        }
        let (report, rows) = Machine::new(7).traced(&[WAIT], u32::MAX, 2);
        assert_eq!((report, rows[1].thread), ((Ok(Ending::Spent), 2, 3), 1));
    }

    /// No issue, by the budget or the list: the answer is still that of the threads, and nothing changes.
    #[test]
    fn no_issue() {
        let running = Machine::new(255);
        let (mut stuck, mut stopped) = (Machine::new(1), Machine::new(1));
        assert_eq!((stuck.run(&MEETING, 2).1, stopped.run(&[END], 1).1), (2, 1));
        for (budget, length) in [(0, 0), (0, 3), (9, 0), (u32::MAX, 0)] {
            for (machine, ending, looks) in [(&running, Ending::Spent, 1), (&stuck, Ending::Stuck, 8), (&stopped, Ending::Stopped, 8)] {
                let mut after = machine.clone();
                let (report, rows) = after.traced(&MEETING, budget, length);
                assert_eq!((report, rows), ((Ok(ending), 0, looks), vec![OLD; length]));
                assert_eq!(after, *machine);
            }
        }
    }

    /// "In all else it equals the plain run": each thread counts in s1, adds that to byte 0, and ends where the sum is above 20.
    /// addi s1,s1,1; load8 s2,(s0); add s2,s2,s1; store8 s2,(s0); cmpgti s3,s2,20; beqz s3,-20; end. The four go in step: byte 0 is 1,
    /// 3, 6, 10, 15, 21, so that each is issued 6 times 6 and once more.
    #[test]
    fn all_else() {
        let program = [0x4404_1008, 0x8008_0000, 0x0408_2040, 0xA008_0000, 0x500C_20A0, 0x750F_FFEC, END];
        for (budget, length) in [(0, 9), (1, 9), (29, 30), (30, 29), (200, 200), (1000, 999), (999, 1000)] {
            let (mut plain, mut traced) = (Machine::new(0xA5), Machine::new(0xA5));
            let report = plain.run(&program, budget.min(length));
            assert_eq!(traced.traced(&program, budget, length as usize).0, report);
            assert_eq!(traced, plain);
        }
        assert_eq!(Machine::new(0xA5).traced(&program, 149, 200).0, (Ok(Ending::Stopped), 4 * 37, (1 + 2 + 3 + 2) * 37 + 8));
        // the machine walked for the rows goes the same way
        let (mut plain, mut walked) = (Machine::new(0xA5), Machine::new(0xA5));
        assert_eq!(plain.run(&program, 40).1, 40);
        for _ in 0..40 {
            issued(&program, &mut walked.room, &mut walked.memory, &mut walked.record);
        }
        assert_eq!(walked, plain);
    }

    /// "Refusals: none new": those of a run, in their order, with any list. All faults at once, then one mended after the other.
    #[test]
    fn refusals() {
        let refused = |machine: &Machine, program: &[u32], number| {
            for (budget, length) in [(9, 3), (0, 3), (9, 0)] {
                let mut after = machine.clone();
                let (report, rows) = after.traced(program, budget, length);
                assert_eq!((report, rows), ((Err(number), 0, 0), vec![OLD; length]));
                assert_eq!(after, *machine);
            }
        };
        let mut machine = Machine { room: vec![7; 8703], memory: vec![0xA5; 65], ..Machine::new(255) };
        machine.record.last = 8;
        refused(&machine, &[], 1);
        refused(&machine, &[WAIT; 16_385], 1);
        refused(&machine, &[WAIT], 2);
        machine.room.push(7);
        refused(&machine, &[WAIT], 3);
        machine.memory.truncate(64);
        refused(&machine, &[WAIT], 4);
        machine.record.last = 7;
        assert_eq!(machine.traced(&[WAIT], 1, 1), ((Ok(Ending::Spent), 1, 1 + 1), vec![row(0, 7, 0, Status::Trapped(4))]));
    }
}
