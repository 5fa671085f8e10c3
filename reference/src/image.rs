//! The saved image, in two forms (document 01, "Saved image"; document 02, T-05).

use crate::machine::{memory_allowed, Record, Status, ROOM_WORDS, ZERO};

/// "TH becomes TI, four bytes longer at its end .. The old form can be written back"
#[derive(Clone, Copy, PartialEq, Eq, Debug)]
pub enum Form {
    Newest,
    Old,
}

/// "36,948 + 68 x (memory length / 64)"; "the fixed part is 36,980 bytes"
pub fn length(form: Form, memory: usize) -> usize {
    let fixed = match form {
        Form::Newest => 36_980,
        Form::Old => 36_948,
    };
    fixed + 68 * (memory / 64)
}

fn fields(status: Status) -> [u8; 4] {
    match status {
        Status::Idle => [0, 0, 0, 0],
        Status::Running => [1, 0, 0, 0],
        Status::Ended => [2, 0, 0, 0],
        Status::Trapped(reason) => [3, reason, 0, 0],
        Status::Waiting { id, count } => [4, 0, id, count],
    }
}

fn status(fields: [u8; 4]) -> Option<Status> {
    match fields {
        [0, 0, 0, 0] => Some(Status::Idle),
        [1, 0, 0, 0] => Some(Status::Running),
        [2, 0, 0, 0] => Some(Status::Ended),
        [3, reason, 0, 0] => Some(Status::Trapped(reason)),
        [4, 0, id, count] => Some(Status::Waiting { id, count }),
        _ => None,
    }
}

/// The record as its HD and TI records, in the old form TH.
pub fn record_bytes(form: Form, record: &Record) -> Vec<u8> {
    let mut out = vec![b'H', b'D', record.last, record.enabled];
    for (t, s) in record.threads.iter().enumerate() {
        let mark = if form == Form::Old { b'H' } else { b'I' };
        out.extend([b'T', mark, t as u8]);
        out.extend(fields(*s));
        if form == Form::Newest {
            out.extend(record.turns[t].to_le_bytes());
        }
    }
    out
}

/// Writes the image in the newest form into a buffer of exactly its length.
pub fn write(room: &[u32], memory: &[u8], record: &Record, buffer: &mut [u8]) -> Result<(), u8> {
    write_form(Form::Newest, false, room, memory, record, buffer)
}

/// "The old form can be written back, with counts 0 unless the caller allows dropping them."
pub fn write_old(room: &[u32], memory: &[u8], record: &Record, dropping: bool, buffer: &mut [u8]) -> Result<(), u8> {
    write_form(Form::Old, dropping, room, memory, record, buffer)
}

fn write_form(form: Form, dropping: bool, room: &[u32], memory: &[u8], record: &Record, buffer: &mut [u8]) -> Result<(), u8> {
    if room.len() != ROOM_WORDS {
        return Err(2);
    }
    if !memory_allowed(memory.len()) {
        return Err(3);
    }
    if buffer.len() != length(form, memory.len()) {
        return Err(9);
    }
    if !record.well_formed() {
        return Err(4);
    }
    // "11, old form asked for, a count not 0, dropping not allowed; it comes after 9 and 4."
    if form == Form::Old && !dropping && record.turns.iter().any(|n| *n != 0) {
        return Err(11);
    }
    let mut out = record_bytes(form, record);
    for t in 0..8 {
        out.extend([b'S', b'R', t as u8]);
        for word in &room[64 * t..64 * (t + 1)] {
            out.extend(word.to_le_bytes());
        }
    }
    for t in 0..8 {
        for i in 0..64 {
            out.extend([b'V', b'R', t as u8, i as u8]);
            let first = 512 + 1024 * t + 16 * i;
            for word in &room[first..first + 16] {
                out.extend(word.to_le_bytes());
            }
        }
    }
    for (block, bytes) in memory.chunks(64).enumerate() {
        out.extend([b'M', b'M', block as u8, (block >> 8) as u8]);
        out.extend(bytes);
    }
    buffer.copy_from_slice(&out);
    Ok(())
}

/// Cuts off the next part of an image.
fn cut<'a>(image: &mut &'a [u8], size: usize) -> &'a [u8] {
    let (part, rest) = image.split_at(size);
    *image = rest;
    part
}

/// The bodies of the image's records, if every mark and number is in place.
fn bodies(form: Form, mut image: &[u8], blocks: usize) -> Option<Vec<&[u8]>> {
    let mut bodies = vec![];
    let mut next = |head: &[u8], size: usize| {
        let found = cut(&mut image, head.len());
        bodies.push(cut(&mut image, size));
        found == head
    };
    let mut fine = next(b"HD", 2);
    for t in 0..8 {
        fine &= match form {
            Form::Newest => next(&[b'T', b'I', t], 8),
            Form::Old => next(&[b'T', b'H', t], 4),
        };
    }
    for t in 0..8 {
        fine &= next(&[b'S', b'R', t], 256);
    }
    for t in 0..8 {
        for i in 0..64 {
            fine &= next(&[b'V', b'R', t, i], 64);
        }
    }
    for block in 0..blocks {
        fine &= next(&[b'M', b'M', block as u8, (block >> 8) as u8], 64);
    }
    fine.then_some(bodies)
}

fn words(bytes: &[u8]) -> impl Iterator<Item = u32> + '_ {
    bytes.chunks(4).map(|b| u32::from_le_bytes([b[0], b[1], b[2], b[3]]))
}

/// "Refusal 9 knows both lengths": the form that has this length, for a memory so long.
fn form_of(image: usize, memory: usize) -> Option<Form> {
    [Form::Newest, Form::Old].into_iter().find(|form| image == length(*form, memory))
}

/// Reads an image of either form into the room and the memory, and gives the record.
pub fn read(image: &[u8], room: &mut [u32], memory: &mut [u8]) -> Result<Record, u8> {
    if room.len() != ROOM_WORDS {
        return Err(2);
    }
    if !memory_allowed(memory.len()) {
        return Err(3);
    }
    let form = form_of(image.len(), memory.len()).ok_or(9)?;
    let bodies = bodies(form, image, memory.len() / 64).ok_or(10)?;
    let mut record = Record { last: bodies[0][0], enabled: bodies[0][1], ..ZERO };
    for t in 0..8 {
        let b = bodies[1 + t];
        record.threads[t] = status([b[0], b[1], b[2], b[3]]).ok_or(4)?;
        // "Old images are read with all counts 0."
        record.turns[t] = words(&b[4..]).next().unwrap_or(0);
    }
    if !record.well_formed() {
        return Err(4);
    }
    for (place, word) in room.iter_mut().zip(bodies[9..9 + 8 + 512].iter().flat_map(|b| words(b))) {
        *place = word;
    }
    for (block, bytes) in memory.chunks_mut(64).zip(&bodies[9 + 8 + 512..]) {
        block.copy_from_slice(bytes);
    }
    Ok(record)
}

#[cfg(test)]
mod tests {
    use super::*;
    use crate::machine::start;

    fn sample() -> (Vec<u32>, Vec<u8>, Record, Vec<u8>) {
        let mut room = vec![0; ROOM_WORDS];
        let mut record = start(5, &mut room).unwrap();
        record.threads[2] = Status::Waiting { id: 3, count: 2 };
        // an idle thread has a count too
        record.turns = [0x1234_5678, 7, 0xFFFF_FFFF, 0, 0, 0, 0, 1];
        for (i, word) in room.iter_mut().enumerate() {
            *word = (i as u32).wrapping_mul(2_654_435_761);
        }
        let memory: Vec<u8> = (0..128).map(|i| i as u8).collect();
        let mut image = vec![0; length(Form::Newest, 128)];
        write(&room, &memory, &record, &mut image).unwrap();
        (room, memory, record, image)
    }

    fn read_again(image: &[u8]) -> Result<(Vec<u32>, Vec<u8>, Record), u8> {
        let (mut room, mut memory) = (vec![1; ROOM_WORDS], vec![1; 128]);
        match read(image, &mut room, &mut memory) {
            Ok(record) => Ok((room, memory, record)),
            Err(number) => {
                // "A refusal changes no lent buffer"
                assert!(room.iter().all(|w| *w == 1) && memory.iter().all(|b| *b == 1));
                Err(number)
            }
        }
    }

    /// "Writing then reading gives the same machine, and reading then writing an accepted image the same bytes."
    #[test]
    fn both_ways() {
        let (room, memory, record, image) = sample();
        assert_eq!(read_again(&image), Ok((room, memory, record)));
        let (room, memory, record) = read_again(&image).unwrap();
        let mut image2 = vec![1; image.len()];
        write(&room, &memory, &record, &mut image2).unwrap();
        assert_eq!(image, image2);
        assert_eq!(image.len(), 36_980 + 68 * 2);
        assert_eq!(image[..15], [b'H', b'D', 7, 5, b'T', b'I', 0, 1, 0, 0, 0, 0x78, 0x56, 0x34, 0x12]);
    }

    /// "Old images are read with all counts 0. .. dropped counts read back as 0; old to new to old gives the first bytes."
    #[test]
    fn old_form() {
        let (room, memory, record, image) = sample();
        let mut old = vec![1; length(Form::Old, 128)];
        assert_eq!(write_old(&room, &memory, &record, false, &mut old), Err(11));
        assert!(old.iter().all(|b| *b == 1));
        write_old(&room, &memory, &record, true, &mut old).unwrap();
        assert_eq!(old.len(), 36_948 + 68 * 2);
        assert_eq!(old[..12], [b'H', b'D', 7, 5, b'T', b'H', 0, 1, 0, 0, 0, b'T']);
        let none = Record { turns: [0; 8], ..record };
        assert_eq!(read_again(&old), Ok((room.clone(), memory.clone(), none)));
        let mut newest = vec![1; image.len()];
        write(&room, &memory, &none, &mut newest).unwrap();
        let (room, memory, record) = read_again(&newest).unwrap();
        let mut again = vec![1; old.len()];
        write_old(&room, &memory, &record, false, &mut again).unwrap();
        assert_eq!(old, again);
    }

    /// 2, 3, 9, 4, 11.
    #[test]
    fn old_refusals() {
        let (room, memory, record, _) = sample();
        let bad = Record { last: 8, ..record };
        let refused = |words: usize, bytes: usize, record: &Record, size: usize| {
            write_old(&room[..words], &memory[..bytes], record, false, &mut vec![0; size]).unwrap_err()
        };
        let size = length(Form::Old, 128);
        assert_eq!(refused(8703, 127, &bad, 0), 2);
        assert_eq!(refused(8704, 127, &bad, 0), 3);
        assert_eq!(refused(8704, 128, &bad, length(Form::Newest, 128)), 9);
        assert_eq!(refused(8704, 128, &bad, size), 4);
        assert_eq!(refused(8704, 128, &record, size), 11);
        assert_eq!(refused(8704, 128, &Record { turns: [0, 0, 0, 0, 0, 0, 0, 1], ..record }, size), 11);
    }

    /// "10 over the whole image before any 4", and a refusal leaves both buffers.
    #[test]
    fn refusals() {
        let (_, _, _, image) = sample();
        let refused = |image: &[u8]| read_again(image).unwrap_err();
        let with = |changes: &[(usize, u8)]| {
            let mut damaged = image.clone();
            for (at, byte) in changes {
                damaged[*at] = *byte;
            }
            damaged
        };
        assert_eq!(refused(&image[1..]), 9);
        assert_eq!(refused(&with(&[(3, 0)])), 4);
        assert_eq!(refused(&with(&[(2, 8)])), 4);
        assert_eq!(refused(&with(&[(8, 1)])), 4);
        assert_eq!(refused(&with(&[(3, 0), (image.len() - 68, b'm')])), 10);
        assert_eq!(refused(&with(&[(image.len() - 65, 1)])), 10);
        // TH in an image as long as the newest form, and TI in one as long as the old
        assert_eq!(refused(&with(&[(5, b'H')])), 10);
        assert_eq!(refused(&image[32..]), 10);
    }
}
