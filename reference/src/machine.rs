//! The machine record and the machine's state (document 01, "What a machine holds").

pub const ROOM_WORDS: usize = 8704;

#[derive(Clone, Copy, PartialEq, Eq, Debug)]
pub enum Status {
    Idle,
    Running,
    Ended,
    Trapped(u8),
    Waiting { id: u8, count: u8 },
}

#[derive(Clone, Copy, PartialEq, Eq, Debug)]
pub struct Record {
    pub enabled: u8,
    pub last: u8,
    pub threads: [Status; 8],
    /// Document 02, T-05: "Each thread entry gains its issues since start, trapping ones too, wrapping at 2^32."
    pub turns: [u32; 8],
}

/// "a record with every number 0"
pub const ZERO: Record = Record { enabled: 0, last: 0, threads: [Status::Idle; 8], turns: [0; 8] };

impl Record {
    fn waiting_at(&self, id: u8) -> usize {
        self.threads.iter().filter(|s| matches!(s, Status::Waiting { id: i, .. } if *i == id)).count()
    }

    fn is_fine(&self, t: usize) -> bool {
        let is_enabled = self.enabled >> t & 1 == 1;
        let status = self.threads[t];
        if (status == Status::Idle) == is_enabled {
            return false;
        }
        match status {
            Status::Trapped(reason) => (1..=6).contains(&reason),
            Status::Waiting { id, count } => {
                let agreed = self.threads.iter().all(|s| match s {
                    Status::Waiting { id: i, count: c } => *i != id || *c == count,
                    _ => true,
                });
                id <= 31 && (1..=8).contains(&count) && agreed && self.waiting_at(id) < count as usize
            }
            _ => true,
        }
    }

    /// "A record is well formed when .." with its numbers in range.
    pub fn well_formed(&self) -> bool {
        self.enabled != 0 && self.last <= 7 && (0..8).all(|t| self.is_fine(t))
    }

    /// "Id above 31, second value above 7, or another thread waiting there with another count: trap 5. Else .. the thread waits; if now
    /// as many wait at the id as the count says, all of them are running." Whether it did not trap.
    pub fn meet(&mut self, t: usize, id: u32, second: u32) -> bool {
        let disputed = |r: &Record| {
            (0..8)
                .any(|u| u != t && matches!(r.threads[u], Status::Waiting { id: i, count } if i as u32 == id && count as u32 != second + 1))
        };
        if id > 31 || second > 7 || disputed(self) {
            self.threads[t] = Status::Trapped(5);
            return false;
        }
        let (id, count) = (id as u8, second as u8 + 1);
        self.threads[t] = Status::Waiting { id, count };
        if self.waiting_at(id) == count as usize {
            for status in &mut self.threads {
                if matches!(status, Status::Waiting { id: i, .. } if *i == id) {
                    *status = Status::Running;
                }
            }
        }
        true
    }
}

pub fn memory_allowed(bytes: usize) -> bool {
    bytes % 64 == 0 && (64..=65536).contains(&bytes)
}

/// "Start takes an enabled mask, zeroes the register room, sets every s59 to 0xFFFF, makes enabled threads running and last 7."
pub fn start(mask: u32, room: &mut [u32]) -> Result<Record, u8> {
    if room.len() != ROOM_WORDS {
        return Err(2);
    }
    if mask == 0 || mask > 255 {
        return Err(5);
    }
    room.fill(0);
    let mut record = Record { enabled: mask as u8, last: 7, ..ZERO };
    for t in 0..8 {
        room[64 * t + 59] = 0xFFFF;
        if mask >> t & 1 == 1 {
            record.threads[t] = Status::Running;
        }
    }
    Ok(record)
}
