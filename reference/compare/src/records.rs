//! Machine records, well formed or not, and their bytes, whole or damaged.

use crate::library::{any_status, record_bytes, Opening};
use compare::random::Random;
use reference::image::{self, Form};
use reference::machine::{start, Record, Status, ROOM_WORDS, ZERO};

/// A record with any numbers that its type can hold, or one that a run could reach.
pub fn any_record(random: &mut Random) -> Record {
    let mut threads = [Status::Idle; 8];
    let enabled = random.word() as u8;
    let count = random.below(10) as u8;
    for (t, status) in threads.iter_mut().enumerate() {
        if enabled >> t & 1 == 1 || random.one_in(40) {
            let kind = random.below(6);
            let reason_or_id = if kind == 2 { random.below(8) as u8 } else { random.of(&[0, 0, 1, 31, 32]) };
            let other = random.below(10) as u8;
            *status = any_status(kind, reason_or_id, if random.one_in(6) { other } else { count });
        }
    }
    let last = if random.one_in(20) { random.of(&[8, 9, 255]) } else { random.below(8) as u8 };
    let turns = std::array::from_fn(|_| random.turns());
    Record { enabled, last, threads, turns }
}

/// A record's bytes, half of the time with a few of them changed.
pub fn damaged(random: &mut Random, mut bytes: Opening) -> Opening {
    if random.one_in(2) {
        for _ in 0..1 + random.below(3) {
            let at = random.below(bytes.len() as u64) as usize;
            bytes[at] = if random.one_in(2) { random.of(&[0, 1, 2, 3, 4, 5, 6, 7, 8, 9, 31, 32]) } else { random.word() as u8 };
        }
    }
    bytes
}

/// The record that the second program is given for bytes it can't take: the one that they were made of, if they say that still.
pub fn stand_in(record: &Record, bytes: &Opening) -> Record {
    if record_bytes(record) == *bytes {
        *record
    } else {
        ZERO
    }
}

/// What the second program says of a record's bytes: it reads them as those of an image that is right behind them.
pub struct Verdicts(Vec<u8>);

impl Verdicts {
    pub fn new() -> Verdicts {
        let mut room = vec![0; ROOM_WORDS];
        let record = start(1, &mut room).expect("mask 1");
        let mut picture = vec![0; image::length(Form::Newest, 64)];
        image::write(&room, &[0; 64], &record, &mut picture).expect("an image");
        Verdicts(picture)
    }

    pub fn of(&self, bytes: &Opening) -> Result<Record, u32> {
        let mut picture = self.0.clone();
        picture[..bytes.len()].copy_from_slice(bytes);
        image::read(&picture, &mut vec![0; ROOM_WORDS], &mut [0; 64]).map_err(|n| n as u32)
    }
}
