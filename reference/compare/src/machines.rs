//! Machines of the second program, with contents such as programs use.

use crate::random::{Random, ADDRESSES, NUMBERS};
use reference::machine::{start, Record, Status, ROOM_WORDS};

#[derive(Clone)]
pub struct Machine {
    pub room: Vec<u32>,
    pub memory: Vec<u8>,
    pub record: Record,
}

impl Machine {
    /// A start by a mask, on memory of any content.
    pub fn started(random: &mut Random, mask: u32) -> Machine {
        let mut room = vec![1; ROOM_WORDS];
        let record = start(mask, &mut room).expect("a mask of 1 to 255");
        let blocks = if random.one_in(40) { 1 + random.below(1024) } else { 1 + random.below(6) };
        let memory: Vec<u8> = (0..64 * blocks).map(|_| random.word() as u8).collect();
        Machine { room, memory, record }
    }

    /// Puts numbers into registers: those of each thread that programs use most, and some vectors.
    pub fn fill_registers(&mut self, random: &mut Random) {
        let (room, bytes) = (&mut self.room, self.memory.len());
        for t in 0..8 {
            for i in (0..6).chain([59, 62]) {
                if i < 6 || random.one_in(3) {
                    room[64 * t + i] = random.value(bytes);
                }
            }
            for i in 0..4 {
                room[64 * t + ADDRESSES as usize + i] = random.address(bytes);
                room[64 * t + NUMBERS as usize + i] = random.of(&[0, 1, 1, 2, 3, 6, 7, 9, 14, 16, 16, 31, 32]);
            }
            for i in 0..48 {
                room[512 + 1024 * t + i] = random.value(bytes);
            }
        }
        for _ in 0..random.below(100) {
            let i = 512 + random.below(8192) as usize;
            room[i] = random.value(bytes);
        }
    }

    /// Before a run of a program: some threads' program counters and counts of turns anywhere, some threads running again that did not.
    pub fn prepare(&mut self, random: &mut Random, words: usize) {
        let places = words > 0 && (random.one_in(3) || words > 60);
        for t in 0..8 {
            if places && random.one_in(3) {
                self.room[64 * t + 63] = random.counter(words);
            }
        }
        for turns in &mut self.record.turns {
            if random.one_in(6) {
                *turns = random.turns();
            }
        }
        let resumes = random.one_in(2);
        for status in self.record.threads.iter_mut().filter(|s| **s != Status::Idle) {
            if resumes && random.one_in(2) {
                *status = Status::Running;
            }
        }
    }
}

/// A mask of threads: often one of the usual ones.
pub fn mask(random: &mut Random) -> u32 {
    if random.one_in(2) {
        random.of(&[1, 3, 7, 255])
    } else {
        1 + random.below(255) as u32
    }
}

/// A budget: often a small one.
pub fn budget(random: &mut Random) -> u32 {
    let most = random.of(&[3, 50, 600, 600]);
    random.below(most) as u32
}
